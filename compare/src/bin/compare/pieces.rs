//! Sheets, good and damaged, and the ways to cut them into pieces.

use second::sheet;

use crate::random::Random;
use crate::sets;
use crate::sheets;

/// The bytes of a sheet of any version, two in five as they should be.
pub fn sheet(random: &mut Random, requests: u32) -> Vec<u8> {
    let set = match random.below(12) {
        0 => {
            let version = random.pick(&[sheet::VERSION_1, sheet::VERSION_2]);
            sets::full(random, version)
        }
        1..=6 => sets::small(random, requests),
        _ => sets::any(random, requests),
    };
    match random.below(5) {
        0..=1 => sheets::of_set(&set),
        _ => sheets::damaged(random, &set, requests),
    }
}

/// The bytes cut at random: everything in one piece, one byte at a time, in two, in a few or in
/// many, mostly with pieces of no bytes among them.
pub fn cut(random: &mut Random, bytes: &[u8]) -> Vec<Vec<u8>> {
    let pieces = match random.below(12) {
        0 => vec![bytes.to_vec()],
        1 => pieces_of(bytes, || 1),
        2..=3 => {
            let (before, behind) = bytes.split_at(random.index(bytes.len() + 1));
            vec![before.to_vec(), behind.to_vec()]
        }
        4..=6 => pieces_of(bytes, || random.index(5)),
        7..=9 => {
            let longest = bytes.len() / 3 + 1;
            pieces_of(bytes, || random.index(longest + 1))
        }
        _ => {
            let longest = random.pick(&[2, 8, 64, 255, 300]);
            pieces_of(bytes, || random.index(longest + 1))
        }
    };
    if random.one_in(3) {
        return pieces;
    }
    with_empty_pieces(random, pieces)
}

/// The bytes in pieces of the lengths that are given; none are given for the rest.
fn pieces_of(bytes: &[u8], mut length: impl FnMut() -> usize) -> Vec<Vec<u8>> {
    let mut pieces = Vec::new();
    let mut rest = bytes;
    while !rest.is_empty() {
        let (piece, behind) = rest.split_at(length().min(rest.len()));
        pieces.push(piece.to_vec());
        rest = behind;
    }
    pieces
}

/// The pieces, and empty ones anywhere among them.
fn with_empty_pieces(random: &mut Random, pieces: Vec<Vec<u8>>) -> Vec<Vec<u8>> {
    let one_in = random.pick(&[1, 2, 6]);
    let mut all = Vec::new();
    let add_empty = |random: &mut Random, all: &mut Vec<Vec<u8>>| {
        for _ in 0..random.pick(&[1, 1, 1, 2, 5]) {
            all.push(Vec::new());
        }
    };
    for piece in pieces {
        if random.one_in(one_in) {
            add_empty(random, &mut all);
        }
        all.push(piece);
    }
    if random.one_in(2) {
        add_empty(random, &mut all);
    }
    all
}

/// The frames of the pieces, as the cable program reads them: a byte of length and so many bytes. A
/// piece of more than 255 bytes goes in several.
pub fn frames(pieces: &[Vec<u8>]) -> Vec<u8> {
    let mut frames = Vec::new();
    for piece in pieces {
        if piece.is_empty() {
            frames.push(0);
        }
        for part in piece.chunks(255) {
            frames.push(part.len() as u8);
            frames.extend(part);
        }
    }
    frames
}

#[cfg(test)]
mod tests {
    use super::*;
    use second::cable::{pieces_of_frames, Carried};
    use second::requests::RENDERED;

    #[test]
    fn pieces_join_to_what_was_cut() {
        let mut random = Random::new(1);
        let (mut empty, mut single, mut long, mut one) = (0, 0, 0, 0);
        for _ in 0..3_000 {
            let bytes = sheet(&mut random, RENDERED);
            let pieces = cut(&mut random, &bytes);
            assert_eq!(pieces.concat(), bytes);
            let of_frames = frames(&pieces);
            let found = pieces_of_frames(&of_frames).expect("whole frames");
            assert_eq!(found.concat(), bytes);
            empty += pieces.iter().filter(|piece| piece.is_empty()).count();
            single += usize::from(bytes.len() > 1 && pieces.len() == bytes.len());
            long += usize::from(pieces.iter().any(|piece| piece.len() > 255));
            one += usize::from(pieces.len() == 1);
        }
        for count in [empty, single, long, one] {
            assert!(count > 50, "{empty} {single} {long} {one}");
        }
    }

    #[test]
    fn every_answer_to_closing_comes_up() {
        let mut random = Random::new(2);
        let mut counts = [0; 11];
        for _ in 0..2_000 {
            let bytes = sheet(&mut random, RENDERED);
            let mut carried = Carried::start();
            for piece in cut(&mut random, &bytes) {
                carried.feed(&piece);
            }
            let answer = carried.close(RENDERED);
            assert_eq!(answer, second::sheet::read(&bytes, RENDERED));
            counts[answer.map_or_else(|refusal| usize::from(refusal.number()), |_| 0)] += 1;
        }
        for number in [0, 5, 6, 7, 10] {
            assert!(counts[number] > 50, "{counts:?}");
        }
    }
}
