//! What the cases are made of: the commands that bring a port to work, and
//! those of one round, which is a word, a wait, one call of each register, or
//! a list of the differential runs.
use differential::lists::{IN_HALVES, of_profile};
use model::{
    Command, Oracle, refusal,
    registers::{ADDRESSES, BRR, IRCR, RDR, SCR, SEMR, SMR, SPCR, TDR},
    sample::Random,
};

const fn call(kind: u32, a: u32, b: u32) -> Command {
    Command { kind, a, b }
}
fn read(address: u32) -> Command {
    call(1, address, 0)
}
fn write(address: u32, value: u8) -> Command {
    call(2, address, value.into())
}
pub fn wait(halves: u32) -> Command {
    call(3, halves, 0)
}
fn cycles(n: u32) -> Command {
    call(8, n, 0)
}
fn line(level: bool) -> Command {
    call(4, level.into(), 0)
}
fn pins(clock: bool, level: bool) -> Command {
    call(5, clock.into(), level.into())
}

// ---- where a case begins

/// Module and main clock on.
pub fn idle() -> Vec<Command> {
    vec![call(6, 3, 0)]
}
fn with(writes: &[(u32, u8)]) -> Vec<Command> {
    let mut all = idle();
    all.extend(
        writes
            .iter()
            .map(|(address, value)| write(*address, *value)),
    );
    all
}
/// The cell length that SEMR chooses.
fn semr(cell: u32) -> u8 {
    if cell == 16 { 8 } else { 0 }
}
/// The mark is over and the first start bit has just begun.
fn sender(cell: u32) -> Vec<Command> {
    let mut all = with(&[(SPCR, 0x10), (SEMR, semr(cell)), (SCR, 0x20), (TDR, 0x55)]);
    all.push(wait(11 * cell));
    all
}
pub fn sender_32() -> Vec<Command> {
    sender(32)
}
pub fn sender_16() -> Vec<Command> {
    sender(16)
}
pub fn receiver_32() -> Vec<Command> {
    with(&[(SEMR, semr(32)), (SCR, 0x10)])
}
pub fn receiver_16() -> Vec<Command> {
    with(&[(SEMR, semr(16)), (SCR, 0x10)])
}
/// 9,600 bits a second of 3,686,400 cycles: twelve cycles are a half, and 32
/// halves a bit.
const DIVISOR: u8 = 11;
const BIT: u32 = 12 * 32;
/// As `sender`, the mark passed in cycles.
pub fn sender_cycles() -> Vec<Command> {
    let mut all = with(&[(SPCR, 0x10), (BRR, DIVISOR), (SCR, 0x20), (TDR, 0x55)]);
    all.push(cycles(11 * BIT));
    all
}
pub fn receiver_cycles() -> Vec<Command> {
    with(&[(BRR, DIVISOR), (SCR, 0x10)])
}
/// A word is in the shifter, the next can be written.
pub fn clocked_sender() -> Vec<Command> {
    with(&[(SPCR, 0x10), (SMR, 0x80), (SCR, 0x20), (TDR, 0x55)])
}
pub fn clocked_receiver() -> Vec<Command> {
    with(&[(SMR, 0x80), (SCR, 0x10)])
}
pub fn clocked_outside() -> Vec<Command> {
    with(&[(SPCR, 0x10), (SMR, 0x80), (SCR, 0x32)])
}
/// Inside a half, with nothing to send or receive.
pub fn running() -> Vec<Command> {
    let mut all = with(&[(SPCR, 0x10)]);
    all.extend([wait(5), call(7, 0, 0)]);
    all
}

// ---- rounds

pub fn wait_long(_: &mut Random, out: &mut Vec<Command>) {
    out.push(wait(65_535));
}

pub fn cycles_long(_: &mut Random, out: &mut Vec<Command>) {
    out.push(cycles(65_535));
}

/// The next byte is written while the word before it is sent.
fn send(halves: u32, r: &mut Random, out: &mut Vec<Command>) {
    out.extend([write(TDR, r.byte()), wait(halves)]);
}
pub fn send_32(r: &mut Random, out: &mut Vec<Command>) {
    send(10 * 32, r, out);
}
pub fn send_16(r: &mut Random, out: &mut Vec<Command>) {
    send(10 * 16, r, out);
}
pub fn send_clocked(r: &mut Random, out: &mut Vec<Command>) {
    send(8 * 4, r, out);
}

pub fn send_cycles(r: &mut Random, out: &mut Vec<Command>) {
    out.extend([write(TDR, r.byte()), cycles(10 * BIT)]);
}

/// The line moves only where the level changes; the byte is read at the end.
/// Time passes by `pass`, so much for each level.
fn shape(levels: &[bool], pass: fn(u32) -> Command, each: u32, out: &mut Vec<Command>) {
    for run in levels.chunk_by(|a, b| a == b) {
        out.extend([line(run[0]), pass(run.len() as u32 * each)]);
    }
    out.push(read(RDR));
}
fn bits(byte: u8) -> [bool; 8] {
    std::array::from_fn(|place| byte >> place & 1 != 0)
}
/// Start bit, eight bits, stop bit.
fn character(byte: u8) -> [bool; 10] {
    let mut levels = [true; 10];
    levels[0] = false;
    levels[1..9].copy_from_slice(&bits(byte));
    levels
}
fn receive(byte: u8, cell: u32, out: &mut Vec<Command>) {
    shape(&character(byte), wait, cell, out);
}
pub fn receive_cycles(r: &mut Random, out: &mut Vec<Command>) {
    shape(&character(r.byte()), cycles, BIT, out);
}
pub fn receive_32(r: &mut Random, out: &mut Vec<Command>) {
    receive(r.byte(), 32, out);
}
pub fn receive_16(r: &mut Random, out: &mut Vec<Command>) {
    receive(r.byte(), 16, out);
}
/// The fewest commands that a received word can have.
pub fn receive_zero_32(_: &mut Random, out: &mut Vec<Command>) {
    receive(0, 32, out);
}
pub fn receive_clocked(r: &mut Random, out: &mut Vec<Command>) {
    shape(&bits(r.byte()), wait, 4, out);
}
/// Sixteen edges of the clock pin; a byte goes out while another comes in.
pub fn edges(r: &mut Random, out: &mut Vec<Command>) {
    out.push(write(TDR, r.byte()));
    for bit in bits(r.byte()) {
        out.extend([pins(false, bit), pins(true, bit)]);
    }
    out.push(read(RDR));
}

/// Each register once.
pub fn reads(_: &mut Random, out: &mut Vec<Command>) {
    out.extend(ADDRESSES.map(read));
}
/// Each register once, any value but what starts work or chooses a clock.
pub fn writes(r: &mut Random, out: &mut Vec<Command>) {
    for address in ADDRESSES {
        let value = r.byte()
            & match address {
                SMR => 0x7c,
                SCR => 0xc4,
                IRCR => 0x7f,
                _ => 0xff,
            };
        out.push(write(address, value));
    }
}

/// One list of the differential runs, of any profile in halves but the one
/// that is refused; the sender, the receiver, both clocks and the power all move.
pub fn mixed(r: &mut Random, out: &mut Vec<Command>) {
    let profile = r.below(IN_HALVES as u32) as usize;
    let list = of_profile(profile, r.below(u32::MAX).into());
    // The profiles hold a few calls that are refused wherever they stand.
    let fresh = Oracle::fresh().state();
    let refused = |c: &Command| refusal(&fresh, c.kind, c.a, c.b).is_some();
    out.extend(list.into_iter().filter(|c| !refused(c)));
}
