//! Random sheets, good and damaged.

use second::requests::STAGES;
use second::set::{Set, GREATEST_COST, GREATEST_CYCLE, GREATEST_DEADLINE, GREATEST_OFFSET};
use second::sheet::{self, width, VERSION_1, VERSION_2};

use crate::random::Random;
use crate::sets;

/// The sheet of a set in rule.
pub fn of_set(set: &Set) -> Vec<u8> {
    sheet::pack(&sheet::fields(set))
}

/// A sheet that has been damaged, or bytes that never were one. Now and then the damage is such
/// that it still reads as a set.
pub fn damaged(random: &mut Random, set: &Set, requests: u32) -> Vec<u8> {
    let mut sheet = of_set(set);
    let kinds = if requests >= STAGES { 15 } else { 14 };
    match random.below(kinds) {
        0..=1 => flip_bits(random, &mut sheet),
        2 => sheet.truncate(random.index(sheet.len() + 1)),
        3 => sheet.truncate(sheet.len() - 1),
        4 => sheet.push(0),
        5 => append_bytes(random, &mut sheet),
        6 => set_padding_bit(random, &mut sheet, set),
        7 => sheet = random_bytes(random, requests),
        8 => change_version(random, &mut sheet),
        9..=10 => sheet = sheet::pack(&with_field_out_of_rule(random, set, requests).fields),
        11..=12 => sheet = cut_at_field_out_of_rule(random, set, requests),
        14 => sheet = about_as_long_as_the_longest(random),
        _ => {
            // Two faults.
            sheet = sheet::pack(&with_field_out_of_rule(random, set, requests).fields);
            match random.below(3) {
                0 => flip_bits(random, &mut sheet),
                1 => append_bytes(random, &mut sheet),
                _ => sheet.truncate(random.index(sheet.len() + 1)),
            }
        }
    }
    sheet
}

/// Flips up to three bits.
pub fn flip_bits(random: &mut Random, bytes: &mut [u8]) {
    for _ in 0..random.between(1, 3) {
        if !bytes.is_empty() {
            bytes[random.index(bytes.len())] ^= 1 << random.below(8);
        }
    }
}

/// Adds up to 400 bytes, most of them zero.
pub fn append_bytes(random: &mut Random, bytes: &mut Vec<u8>) {
    for _ in 0..random.between(1, 400) {
        let byte = random.byte();
        bytes.push(if random.one_in(4) { byte } else { 0 });
    }
}

/// Sets one of the zero bits after the last field, if there are any.
fn set_padding_bit(random: &mut Random, sheet: &mut [u8], set: &Set) {
    let bits: u32 = sheet::fields(set).iter().map(|&(_, width)| width).sum();
    let padding = sheet.len() as u64 * 8 - u64::from(bits);
    if padding > 0 {
        let last = sheet.len() - 1;
        sheet[last] |= 1 << random.below(padding);
    }
}

fn change_version(random: &mut Random, sheet: &mut [u8]) {
    if let Some(first) = sheet.first_mut() {
        *first = *first & 0x0f | random.byte() & 0xf0;
    }
}

/// Bytes of any length up to a little above that of a full sheet, half of them with version 1, or
/// with version 1 or 2 once request 4 is in force.
fn random_bytes(random: &mut Random, requests: u32) -> Vec<u8> {
    let longest = if requests >= STAGES { 530 } else { 400 };
    let length = random.pick(&[1, 2, 3, 8, 11, 50, 378, longest]);
    let length = random.index(length + 1);
    let mut bytes: Vec<u8> = (0..length).map(|_| random.byte()).collect();
    if let (Some(first), true) = (bytes.first_mut(), random.one_in(2)) {
        let version = match requests {
            STAGES.. => random.pick(&[0x10, 0x20]),
            _ => 0x10,
        };
        *first = version | *first & 0x0f;
    }
    bytes
}

/// A sheet of a full set, of version 2 mostly: as it is, a byte short, or with up to a few hundred
/// bytes behind it.
fn about_as_long_as_the_longest(random: &mut Random) -> Vec<u8> {
    let version = random.pick(&[VERSION_1, VERSION_2, VERSION_2]);
    let mut sheet = of_set(&sets::full(random, version));
    match random.below(6) {
        0 => {}
        1 => sheet.truncate(sheet.len() - 1),
        2 => sheet.push(0),
        3 => {
            for _ in 0..random.between(1, 4) {
                sheet.push(random.byte());
            }
        }
        4 => flip_bits(random, &mut sheet),
        _ => append_bytes(random, &mut sheet),
    }
    sheet
}

/// The fields of a sheet, of which one has been changed.
struct Changed {
    fields: Vec<(u32, u32)>,
    place: usize,
}

/// The fields of the set with one of them changed to a number at the edge of its rule or out of
/// it. Those after it are as they were, so they may stand for something else then.
fn with_field_out_of_rule(random: &mut Random, set: &Set, requests: u32) -> Changed {
    let mut fields = sheet::fields(set);
    let place = random.index(fields.len());
    let (value, field_width) = fields[place];
    let offset_before = place.checked_sub(2).map_or(0, |place| fields[place].0);
    fields[place].0 = match field_width {
        width::VERSION if place == 0 && requests >= STAGES => {
            random.pick(&[0, VERSION_1, VERSION_2, 3, 3, 4, 8, 15])
        }
        // A task, too, has 4 bits.
        width::VERSION => random.pick(&[0, 2, 3, 8, 15]),
        width::STREAM_COUNT => random.pick(&[0, 15, 16, 17, 18, 31]),
        width::COST => random.pick(&[0, 0, 1, GREATEST_COST]),
        width::DEADLINE => random.pick(&[
            0,
            0,
            1,
            GREATEST_DEADLINE,
            GREATEST_DEADLINE + 1,
            GREATEST_DEADLINE + 1,
            262_143,
        ]),
        width::CYCLE => random.pick(&[
            0,
            1,
            GREATEST_CYCLE,
            GREATEST_CYCLE + 1,
            GREATEST_CYCLE + 1,
            1_048_575,
        ]),
        width::OFFSET => random.pick(&[
            0,
            1,
            value + 1,
            value.saturating_sub(1),
            offset_before.saturating_sub(1),
            GREATEST_OFFSET,
            GREATEST_OFFSET + 1,
            131_071,
        ]),
        _ => random.number() & ((1 << field_width) - 1),
    };
    Changed { fields, place }
}

/// A sheet that ends with a changed field, or with the one before it, or in the middle of the
/// one after it, so that it matters which fault is found first.
fn cut_at_field_out_of_rule(random: &mut Random, set: &Set, requests: u32) -> Vec<u8> {
    let Changed { fields, place } = with_field_out_of_rule(random, set, requests);
    let kept = match random.below(4) {
        0 => place,
        _ => place + 1,
    };
    let mut sheet = sheet::pack(&fields[..kept]);
    if random.one_in(3) {
        sheet.push(random.byte());
    }
    sheet
}

#[cfg(test)]
mod tests {
    use super::*;
    use second::refusal::Refusal;
    use second::requests::{LESS_STACK, RENDERED};

    #[test]
    fn every_refusal_of_a_sheet_comes_up() {
        for (requests, version) in [
            (LESS_STACK, VERSION_1),
            (RENDERED, VERSION_1),
            (RENDERED, VERSION_2),
        ] {
            let mut random = Random::new(1);
            let mut counts = [0; 13];
            for _ in 0..2_000 {
                let set = sets::small_of(&mut random, version);
                let bytes = damaged(&mut random, &set, requests);
                let number = match sheet::read(&bytes, requests) {
                    Ok(_) => 0,
                    Err(refusal) => refusal.number(),
                };
                counts[usize::from(number)] += 1;
            }
            for refusal in [
                Refusal::BitsMissing,
                Refusal::BadVersion,
                Refusal::OutOfRule,
                Refusal::AfterLastField,
            ] {
                assert!(counts[usize::from(refusal.number())] > 100, "{counts:?}");
            }
        }
    }

    #[test]
    fn every_version_and_every_length_about_the_longest_come_up() {
        let mut random = Random::new(2);
        let mut versions = [0; 16];
        let mut lengths = [0; 1_000];
        for _ in 0..20_000 {
            let set = sets::small(&mut random, RENDERED);
            let bytes = damaged(&mut random, &set, RENDERED);
            if let Some(first) = bytes.first() {
                versions[usize::from(first >> 4)] += 1;
            }
            lengths[bytes.len()] += 1;
        }
        assert!(versions.iter().all(|&count| count > 50), "{versions:?}");
        let longest = &lengths[501..=506];
        assert!(longest.iter().all(|&count| count > 10), "{longest:?}");
        assert!(lengths[507..].iter().sum::<i32>() > 100);
    }

    #[test]
    fn what_stands_behind_503_bytes_changes_nothing() {
        let mut random = Random::new(4);
        let mut longer = 0;
        for _ in 0..20_000 {
            let set = sets::small(&mut random, RENDERED);
            let bytes = damaged(&mut random, &set, RENDERED);
            if bytes.len() > 503 {
                let all = sheet::read(&bytes, RENDERED);
                assert_eq!(sheet::read(&bytes[..503], RENDERED), all);
                assert_ne!(all, Err(Refusal::BitsMissing));
                longer += 1;
            }
        }
        assert!(longer > 100, "{longer}");
    }

    #[test]
    fn what_is_read_is_written_again() {
        let mut random = Random::new(3);
        let mut read = [0; 3];
        for _ in 0..3_000 {
            let set = sets::any(&mut random, RENDERED);
            assert_eq!(sheet::read(&of_set(&set), RENDERED), Ok(set));
            let bytes = damaged(&mut random, &set, RENDERED);
            if let Ok(set) = sheet::read(&bytes, RENDERED) {
                assert!(set.valid());
                assert_eq!(of_set(&set), bytes);
                read[set.version as usize] += 1;
            }
        }
        assert!(read[1] > 50 && read[2] > 50, "{read:?}");
    }
}
