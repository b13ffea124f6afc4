//! The proved port from Rust: a word put on the receive line by direct calls, a call that is refused, a script, and a bit rate.
//! docs/C.md says how to build it; what it prints is in port.out.
//!
//! `Port` owns the array and lends it for one call at a time, so nothing outside `mod sci3` can break the caller's duties.

mod sci3 {
    pub const STATE: usize = 56;
    pub const RECORD: usize = 6;
    const REFUSED: u64 = 256;

    // A lent slice is its address and its length; `told` is three numbers, and five of `sci3_rate`.
    unsafe extern "C" {
        fn sci3_fresh(state: *mut u64, length: usize) -> u64;
        fn sci3_call(
            state: *mut u64,
            length: usize,
            kind: u32,
            a: u32,
            b: u32,
            cause: *mut u64,
        ) -> u64;
        fn sci3_pins(state: *const u64, length: usize) -> u64;
        fn sci3_interrupt(state: *const u64, length: usize) -> u64;
        fn sci3_play(
            state: *mut u64,
            state_length: usize,
            script: *const u8,
            script_length: usize,
            log: *mut u8,
            log_length: usize,
            told: *mut u64,
        ) -> u64;
        fn sci3_rate(clock: u64, rate: u64, tolerance: u64, told: *mut u64) -> u64;
    }

    pub struct Setting {
        pub smr: u8,
        pub semr: u8,
        pub brr: u8,
        /// Numerator and denominator, not reduced.
        pub error: (i64, u64),
    }

    /// Of a clock in Hz, a rate in bits a second and a tolerance in parts per ten thousand; or the number of the refusal.
    pub fn nearest_rate(clock: u64, rate: u64, tolerance: u64) -> Result<Setting, u64> {
        let mut told = [0; 5];
        match unsafe { sci3_rate(clock, rate, tolerance, told.as_mut_ptr()) } {
            0 => Ok(Setting {
                smr: told[0] as u8,
                semr: told[1] as u8,
                brr: told[2] as u8,
                error: (told[3] as i64, told[4]),
            }),
            number => Err(number),
        }
    }

    pub struct Port([u64; STATE]);

    pub struct Played {
        pub number: u64,
        pub offset: u64,
        pub used: usize,
        pub length: u64,
    }

    // Safe throughout: each address and length are those of one array that is lent for the call only.
    impl Port {
        pub fn fresh() -> Port {
            let mut state = [0; STATE];
            unsafe { sci3_fresh(state.as_mut_ptr(), STATE) };
            Port(state)
        }
        /// The value read, else 0, and the cause of the last word that was completed, else 0; or the number of the refusal.
        pub fn call(&mut self, kind: u32, a: u32, b: u32) -> Result<(u8, u64), u64> {
            let mut cause = 0;
            let answer = unsafe { sci3_call(self.0.as_mut_ptr(), STATE, kind, a, b, &mut cause) };
            u8::try_from(answer).map(|value| (value, cause)).map_err(|_| answer - REFUSED)
        }
        pub fn pins(&self) -> u64 {
            unsafe { sci3_pins(self.0.as_ptr(), STATE) }
        }
        pub fn interrupt(&self) -> u64 {
            unsafe { sci3_interrupt(self.0.as_ptr(), STATE) }
        }
        pub fn half(&self) -> u64 {
            self.0[14]
        }
        pub fn ssr(&self) -> u64 {
            self.0[5]
        }
        pub fn play(&mut self, script: &[u8], log: &mut [u8]) -> Played {
            let mut told = [0; 3];
            let number = unsafe {
                sci3_play(
                    self.0.as_mut_ptr(),
                    STATE,
                    script.as_ptr(),
                    script.len(),
                    log.as_mut_ptr(),
                    log.len(),
                    told.as_mut_ptr(),
                )
            };
            Played { number, offset: told[0], used: told[1] as usize, length: told[2] }
        }
    }
}

const READ: u32 = 1;
const WRITE: u32 = 2;
const WAIT: u32 = 3;
const LINE: u32 = 4;
const POWER: u32 = 6;
const SCR: u32 = 0xff9a;
const RDR: u32 = 0xff9d;

fn call(port: &mut sci3::Port, kind: u32, a: u32, b: u32) -> u8 {
    match port.call(kind, a, b) {
        Ok((value, cause)) => {
            if cause != 0 {
                println!("a word was completed, cause {cause}");
            }
            value
        }
        Err(number) => {
            println!("kind {kind} refused by {number}");
            0
        }
    }
}

fn show(port: &sci3::Port) {
    let pins = port.pins();
    let receiver = if pins >> 4 != 0 { "on" } else { "off" };
    println!(
        "half {}, SSR {:02X}, interrupt {}, transmit level {}, receiver {receiver}",
        port.half(),
        port.ssr(),
        port.interrupt(),
        pins >> 2 & 3
    );
}

/// Start bit, eight data bits from the low end, stop bit, each 32 halves long.
fn put_word(port: &mut sci3::Port, value: u32) {
    let cells = value << 1 | 1 << 9;
    for i in 0..10 {
        call(port, LINE, cells >> i & 1, 0);
        call(port, WAIT, 32, 0);
    }
}

fn main() {
    let mut port = sci3::Port::fresh();
    call(&mut port, POWER, 3, 0);
    call(&mut port, WRITE, SCR, 0x50);
    put_word(&mut port, 0x4b);
    show(&port);
    println!("RDR {:02X}", call(&mut port, READ, RDR, 0));
    show(&port);

    call(&mut port, READ, 0x1234, 0);

    let mut log = [0; sci3::RECORD * 8];
    // SSR is read, 9 halves pass, the module goes off, and 0A is no kind.
    let played = port.play(&[0x01, 0x9c, 0xff, 0x03, 0x03, 0x09, 0x06, 0x00, 0x0a], &mut log);
    for record in log[..played.used].chunks(sci3::RECORD) {
        let bytes: Vec<String> = record.iter().map(|byte| format!("{byte:02X}")).collect();
        println!("{}", bytes.join(" "));
    }
    println!("script: number {} at {}, length {}, half {}", played.number, played.offset, played.length, port.half());

    match sci3::nearest_rate(10_000_000, 9_600, 100) {
        Ok(sci3::Setting { smr, semr, brr, error }) => {
            println!("rate: number 0, SMR {smr:02X}, SEMR {semr:02X}, BRR {brr:02X}, error {}/{}", error.0, error.1)
        }
        Err(number) => println!("rate: number {number}"),
    }
}
