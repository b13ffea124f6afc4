//! Findings 5 to 10: what reads, writes and power do; and the rows on addresses.
use crate::{
    Part,
    tools::{after, bit, due, ends, given, hex, receiver, sender, shows},
};
use model::{Oracle, State, registers::RDR};

/// 5: an SSR write loads the holding place.
pub fn status_write() -> Vec<Part> {
    vec![shows(
        "06 03 02 9A FF 03 20 01 9C FF 03 02 9C FF 03 00",
        "SSR 00, holding FF",
        |s| format!("SSR {:02X}, holding {}", s.ssr, hex(s.holding)),
    )]
}

/// 6: an SSR write forgets seen bits, TEND's too.
pub fn seen_bits() -> Vec<Part> {
    vec![shows(
        "06 03 01 9C FF 03 02 9C FF 03 80 01",
        "SSR 84, seen 80",
        |s| format!("SSR {:02X}, seen {:02X}", s.ssr, s.seen),
    )]
}

/// 7: a TDR write clears seen bits and may load the byte at once.
pub fn data_write() -> Vec<Part> {
    let both = |s: &State| format!("SSR {:02X}, {}", s.ssr, sender(s));
    vec![
        shows(
            "06 03 02 9A FF 03 20 01 9C FF 03 02 9B FF 03 00",
            "seen 00",
            |s| format!("seen {:02X}", s.seen),
        ),
        shows(
            "06 03 02 98 FF 03 80 01 02 9A FF 03 20 02 9B FF 03 00",
            "SSR 80, data 0 due none",
            both,
        ),
        shows(
            "06 03 02 9A FF 03 20 03 E0 02 02 9B FF 03 00",
            "SSR 80, data 0 due 384",
            both,
        ),
        shows(
            "06 03 02 9A FF 03 20 03 E0 02 07 02 9B FF 03 00",
            "SSR 80, start due 384",
            both,
        ),
        shows(
            "06 03 02 9A FF 03 20 03 E0 02 02 9B FF 03 00 03 A0 02 02 9B FF 03 00",
            "SSR 80, tail with word due 672",
            both,
        ),
    ]
}

/// 8: every accepted write arms, RDR's too.
pub fn end_of_write() -> Vec<Part> {
    let script = "06 03 02 98 FF 03 80 01 02 9A FF 03 10 04 00 03 1E 02 98 FF 03 00 03 02";
    let both = |s: &State| format!("half {}, {}", s.half, receiver(s));
    vec![
        shows(script, "half 32, no receiver", both),
        shows(
            &format!("{script} 02 9D FF 03 00"),
            "half 32, position -2 due 33",
            both,
        ),
        shows(
            &format!("{script} 03 01"),
            "half 33, position -2 due 35",
            both,
        ),
    ]
}

/// 9: reads act with the module off; the interrupt asks for the module only.
pub fn reads() -> Vec<Part> {
    let seen = |s: &State| format!("seen {:02X}", s.seen);
    let mut off = Oracle::from_state(&given(|s| s.ssr = 0xc4));
    off.call(1, RDR, 0);
    let request = |change: fn(&mut State)| {
        let state = given(|s| {
            s.scr = 0x80;
            change(s);
        });
        format!("interrupt {}", bit(Oracle::from_state(&state).interrupt()))
    };
    vec![
        shows("01 9C FF 03", "seen 84", seen),
        shows("06 0B 01 9C FF 03", "seen 84", seen),
        Part::new(
            "fresh with SSR C4: 01 9D FF 03",
            "SSR 84",
            format!("SSR {:02X}", off.ssr()),
        ),
        Part::new(
            "06 01 02 9A FF 03 80 01",
            "interrupt 1",
            format!(
                "interrupt {}",
                bit(after("06 01 02 9A FF 03 80 01").interrupt())
            ),
        )
        .of("06 01 02 9A FF 03 80 01"),
        Part::new(
            "SCR 80, module and reset mode on",
            "interrupt 1",
            request(|s| (s.module, s.reset_mode) = (true, true)),
        ),
        Part::new(
            "SCR 80, module off, main clock on",
            "interrupt 0",
            request(|s| s.main = true),
        ),
    ]
}

/// 10: which reset comes, and what it sets.
pub fn resets() -> Vec<Part> {
    let spcr = |s: &State| format!("SPCR {:02X}", s.spcr);
    let reset_mode = "06 03 02 91 FF 03 10 06 09";
    let worn = given(|s| {
        s.module = true;
        s.main = true;
        s.half = 77;
        s.high = false;
        s.edge = true;
        s.bit_start = 70;
        s.sync_next = Some(78);
        s.sck = false;
        s.input = false;
        s.input_clock = false;
        s.transmitted = 5;
        s.received = 6;
    });
    let mut port = Oracle::from_state(&worn);
    port.call(6, 9, 0);
    let s = port.state();
    vec![
        shows("01 9C FF 03 06 08", "seen 00", |s| {
            format!("seen {:02X}", s.seen)
        }),
        shows("06 03 02 91 FF 03 10 06 08", "SPCR C0", spcr),
        Part::new(reset_mode, "SPCR D0, level 1", {
            let port = after(reset_mode);
            format!("{}, level {}", spcr(&port.state()), port.level())
        })
        .of(reset_mode),
        Part::new(
            "a worn state: 06 09",
            "half 0, phase 1, edge 0, bit_start 0, sync_next none, sck 1, pins 0 0, tallies 5 6",
            format!(
                "half {}, phase {}, edge {}, bit_start {}, sync_next {}, sck {}, pins {} {}, tallies {} {}",
                s.half,
                bit(s.high),
                bit(s.edge),
                s.bit_start,
                due(s.sync_next),
                bit(s.sck),
                bit(s.input_clock),
                bit(s.input),
                s.transmitted,
                s.received
            ),
        ),
    ]
}

/// The rows on addresses hold with the module off.
pub fn module_off() -> Vec<Part> {
    vec![
        ends("02 A7 FF 03 80 01", "refused 3 at 0"),
        ends("02 A5 FF 03 00", "refused 1 at 0"),
        ends("01 A5 FF 03", "refused 1 at 0"),
    ]
}
