//! The nine registers. Addresses have the width of a call's operands.
pub const SPCR: u32 = 0xff91;
pub const SMR: u32 = 0xff98;
pub const BRR: u32 = 0xff99;
pub const SCR: u32 = 0xff9a;
pub const TDR: u32 = 0xff9b;
pub const SSR: u32 = 0xff9c;
pub const RDR: u32 = 0xff9d;
pub const SEMR: u32 = 0xffa6;
pub const IRCR: u32 = 0xffa7;

/// All, in document 01's order.
pub const ADDRESSES: [u32; 9] = [SPCR, SMR, BRR, SCR, TDR, SSR, RDR, SEMR, IRCR];
/// The addresses next to them that are none, and the first and the last.
pub const BESIDE: [u32; 8] = [0, 0xff90, 0xff92, 0xff97, 0xff9e, 0xffa5, 0xffa8, 0xffff];
