//! Random recordings, good and damaged.

use second::recording::recording_of;
use second::trace::Step;

use crate::random::Random;
use crate::sheets::{append_bytes, flip_bits};

/// A recording of the calls, in three of five cases damaged.
pub fn any(random: &mut Random, calls: &[Step]) -> Vec<u8> {
    match random.below(5) {
        0..=1 => recording_of(calls),
        _ => damaged(random, calls),
    }
}

/// A recording that has been damaged, or bytes that never were one. Now and then the damage is
/// such that it is a recording of other calls.
pub fn damaged(random: &mut Random, calls: &[Step]) -> Vec<u8> {
    let mut recording = recording_of(calls);
    match random.below(16) {
        0..=1 => recording.truncate(random.index(recording.len())),
        2..=4 => cut_at_bit(random, &mut recording, calls),
        5..=6 => flip_bits(random, &mut recording),
        7..=8 => set_padding_bit(random, &mut recording, calls),
        9 => recording.push(0),
        10 => append_few_bytes(random, &mut recording),
        11 => append_bytes(random, &mut recording),
        12 => end_before(random, &mut recording, calls),
        13 => recording = random_bytes(random),
        14 => recording.clear(),
        _ => {
            // Two faults.
            cut_at_bit(random, &mut recording, calls);
            match random.below(3) {
                0 => flip_bits(random, &mut recording),
                1 => append_few_bytes(random, &mut recording),
                _ => recording.truncate(random.index(recording.len() + 1)),
            }
        }
    }
    recording
}

/// How many bits the calls and their end have.
fn bits(calls: &[Step]) -> usize {
    let bits_of = |call: &Step| match call {
        Step::Post(_) => 6,
        Step::Unit | Step::Done => 2,
    };
    calls.iter().map(bits_of).sum::<usize>() + 2
}

/// Cuts the recording at any bit, or at one of the last: what is left of that byte is zeros, ones
/// or anything.
fn cut_at_bit(random: &mut Random, recording: &mut Vec<u8>, calls: &[Step]) {
    let bits = bits(calls);
    let cut = match random.below(2) {
        0 => random.index(bits),
        _ => bits - 1 - random.index(bits.min(12)),
    };
    recording.truncate(cut.div_ceil(8));
    if let (Some(last), 1..) = (recording.last_mut(), cut % 8) {
        let kept = !(0xff >> (cut % 8));
        let byte = random.byte();
        let fill = random.pick(&[0x00, 0x00, 0xff, byte]);
        *last = *last & kept | fill & !kept;
    }
}

/// Sets one of the zero bits after the end, if there are any.
fn set_padding_bit(random: &mut Random, recording: &mut [u8], calls: &[Step]) {
    let padding = recording.len() * 8 - bits(calls);
    if let (Some(last), 1..) = (recording.last_mut(), padding) {
        *last |= 1 << random.index(padding);
    }
}

fn append_few_bytes(random: &mut Random, recording: &mut Vec<u8>) {
    for _ in 0..random.between(1, 3) {
        let byte = random.byte();
        recording.push(random.pick(&[0, 0xc0, 0x01, byte]));
    }
}

/// An end somewhere between the calls: the recording of those before it, and behind it that of
/// the rest.
fn end_before(random: &mut Random, recording: &mut Vec<u8>, calls: &[Step]) {
    let (before, rest) = calls.split_at(random.index(calls.len() + 1));
    *recording = [recording_of(before), recording_of(rest)].concat();
}

fn random_bytes(random: &mut Random) -> Vec<u8> {
    let length = random.pick(&[1, 2, 3, 8, 50, 400]);
    let length = random.index(length + 1);
    (0..length).map(|_| random.byte()).collect()
}

#[cfg(test)]
mod tests {
    use super::*;
    use crate::sets;
    use crate::sheets;
    use crate::traces::{self, Lengths};
    use second::requests::RENDERED;

    #[test]
    fn every_end_of_a_replay_comes_up() {
        let mut random = Random::new(1);
        let lengths = Lengths {
            usual: 20,
            long: 100,
            long_one_in: 10,
            full_one_in: 20,
            millions_one_in: 0,
        };
        let (mut ends, mut stops, mut after) = (0, 0, 0);
        for _ in 0..1_000 {
            let set = sets::small(&mut random, RENDERED);
            let calls = traces::steps(&mut random, &set, &lengths, RENDERED);
            let recording = damaged(&mut random, &calls);
            let output = second::replay::run(&sheets::of_set(&set), &recording, RENDERED).output;
            match output.lines().last() {
                Some("end") => ends += 1,
                Some("refused 13") => stops += 1,
                Some("refused 14") => after += 1,
                last => panic!("{last:?}"),
            }
        }
        for count in [ends, stops, after] {
            assert!(count > 50, "{ends} {stops} {after}");
        }
    }

    #[test]
    fn bits_of_a_recording() {
        let calls = [Step::Post(3), Step::Unit, Step::Done];
        assert_eq!(bits(&calls), 12);
        assert_eq!(bits(&[]), 2);
        assert_eq!(recording_of(&calls).len(), bits(&calls).div_ceil(8));
    }
}
