//! The least that feeding in pieces can take where each call is handed what is carried and tests all of it: what is carried is
//! handed over and back, or every word of it is looked at once, and nothing else is done.

use std::hint::black_box;

/// What the proved reader carries between two pieces has 2,376 bytes.
#[derive(Clone, Copy)]
struct Carried([u64; 297]);

#[inline(never)]
fn hand(mut carried: Carried, byte: u8) -> Carried {
    carried.0[usize::from(byte)] += 1;
    carried
}

#[inline(never)]
fn look(carried: &Carried) -> u64 {
    carried.0.iter().fold(0, |all, word| all | word)
}

/// Handed over and back once for each byte.
pub fn handed(bytes: &[u8]) -> u64 {
    let mut carried = Carried([0; 297]);
    for &byte in bytes {
        carried = hand(black_box(carried), byte);
    }
    carried.0[0]
}

/// Lent, and looked at once for each byte.
pub fn looked(bytes: &[u8]) -> u64 {
    let carried = Carried([1; 297]);
    bytes.iter().map(|_| look(black_box(&carried))).sum()
}
