//! libFuzzer's target: each input is played on the oracle and on the proved
//! port, and the first difference ends the process. `tools/fuzz` builds and
//! starts it. SCI3_WRONG=K puts wrong side K in place of the proved port, to
//! see how soon it is found.
#![no_main]
use differential::{
    fuzz::{
        input::Input,
        mutate::mutated,
        play::{Fuzz, proved, wrong},
    },
    scripts::{compare::Same, list::fnv},
};
use model::{RECORD, sample::Random};
use std::{
    cell::RefCell,
    ffi::c_int,
    process::abort,
    slice,
    sync::atomic::{AtomicU8, Ordering},
};

/// Counters that libFuzzer takes beside those of the code: what the runs show
/// of the port. Sixteen bits choose one.
const COUNTERS: usize = 1 << 16;
#[unsafe(link_section = "__libfuzzer_extra_counters")]
static SHOWN: [AtomicU8; COUNTERS] = [const { AtomicU8::new(0) }; COUNTERS];

fn count(parts: &[u8]) {
    let sum = fnv(parts.iter().copied());
    SHOWN[(sum ^ sum >> 16) as usize % COUNTERS].store(1, Ordering::Relaxed);
}

/// Each step from one record to the next by what the commands were and what
/// flags and lines did; and where sender and receiver stand at the end.
fn note(same: &Same) {
    let records = &same.log[..same.played.written as usize];
    let mut before = [0; RECORD];
    for record in records.chunks_exact(RECORD) {
        count(&[0, before[2], record[0], record[2], record[3], record[4]]);
        before.copy_from_slice(record);
    }
    let words = differential::layout::encode(same.state);
    let place = |place: usize| words[place] as u8;
    // Sender: kind, data bits, parity, cell. Receiver: there, data bits,
    // parity, position. Then the last flags and the answer.
    count(&[1, place(19), place(21), place(22), place(27), place(5)]);
    count(&[
        2,
        place(31),
        place(33),
        place(34),
        place(39),
        place(41),
        place(5),
    ]);
    // The clock choice, and whether one tick is left, or more than BRR gives.
    let left = same.state.remaining;
    let long = left > u16::from(same.state.brr) + 1;
    count(&[4, place(1) & 3, u8::from(left == 1), u8::from(long)]);
    count(&[3, same.played.number as u8, before[0], before[2]]);
}

thread_local! {
    static FUZZ: RefCell<Fuzz> = RefCell::new(match std::env::var("SCI3_WRONG") {
        Ok(number) => {
            let wrong = number.parse().ok().and_then(wrong);
            let (side, name) = wrong.expect("SCI3_WRONG is a wrong side's number");
            eprintln!("wrong side {number}: {name}");
            Fuzz::new(side)
        }
        Err(_) => Fuzz::new(proved()),
    });
}

#[unsafe(no_mangle)]
extern "C" fn LLVMFuzzerTestOneInput(data: *const u8, length: usize) -> c_int {
    // Safe: libFuzzer lends so many bytes for the call. There may be none, and
    // then the address may be none either.
    let bytes = match length {
        0 => &[],
        _ => unsafe { slice::from_raw_parts(data, length) },
    };
    let result = FUZZ.with_borrow_mut(|fuzz| fuzz.play(&Input::read(bytes), &mut note));
    if let Err(report) = result {
        eprintln!("{report}");
        abort();
    }
    0
}

unsafe extern "C" {
    fn LLVMFuzzerMutate(data: *mut u8, length: usize, room: usize) -> usize;
}

/// Every other change is libFuzzer's own.
#[unsafe(no_mangle)]
extern "C" fn LLVMFuzzerCustomMutator(
    data: *mut u8,
    length: usize,
    room: usize,
    seed: u32,
) -> usize {
    let mut random = Random::new(seed.into());
    if random.bit() {
        // Safe: the arguments are libFuzzer's own.
        return unsafe { LLVMFuzzerMutate(data, length, room) };
    }
    // Safe: libFuzzer lends `room` bytes, of which `length` are the input.
    let lent = unsafe { slice::from_raw_parts_mut(data, room) };
    let mut input = Input::read(&lent[..length]);
    for _ in 0..1 + random.below(4) {
        input = mutated(input, &mut random);
    }
    let mut bytes = input.write();
    bytes.truncate(room);
    lent[..bytes.len()].copy_from_slice(&bytes);
    bytes.len()
}
