//! The sheet.

mod common;

use common::{
    every, full_set, full_set_of_stages, once, set_b, set_of_stages, set_w12, staged, stream,
    SHEET_W12,
};
use second::refusal::Refusal;
use second::requests::{LESS_STACK, RENDERED, STAGES};
use second::set::Set;
use second::sheet::{self, fields, pack, width, write};

/// What a sheet of version 1 reads as, whichever requests are in force.
fn read(sheet: &[u8]) -> Result<Set, Refusal> {
    let found = sheet::read(sheet, 0);
    for requests in 0..=RENDERED {
        assert_eq!(sheet::read(sheet, requests), found, "{requests}");
    }
    found
}

/// What a sheet reads as with request 4 in force.
fn read_with_stages(sheet: &[u8]) -> Result<Set, Refusal> {
    sheet::read(sheet, STAGES)
}

#[test]
fn w11_the_empty_set() {
    let mut buffer = [170; 4];
    assert_eq!(write(&Set::EMPTY, &mut buffer), Ok(2));
    assert_eq!(buffer, [0x10, 0x00, 170, 170]);
    assert_eq!(read(&[0x10, 0x00]), Ok(Set::EMPTY));
}

#[test]
fn w12_one_stream() {
    let mut buffer = [170; 13];
    assert_eq!(write(&set_w12(), &mut buffer), Ok(11));
    assert_eq!(buffer[..11], SHEET_W12);
    assert_eq!(buffer[11..], [170, 170]);
    assert_eq!(read(&SHEET_W12), Ok(set_w12()));
}

#[test]
fn sheets_also_run() {
    assert_eq!(read(&[]), Err(Refusal::BitsMissing));
    assert_eq!(read(&[0x10]), Err(Refusal::BitsMissing));
    assert_eq!(read(&[0x30, 0x00]), Err(Refusal::BadVersion));
    for requests in 0..=LESS_STACK {
        let sheet = sheet::read(&[0x20, 0x00], requests);
        assert_eq!(sheet, Err(Refusal::BadVersion));
    }
    assert_eq!(read(&[0x10, 0x01]), Err(Refusal::AfterLastField));
    assert_eq!(read(&[0x10, 0x00, 0x00]), Err(Refusal::AfterLastField));
}

#[test]
fn a_full_sheet_is_378_bytes() {
    let mut buffer = [170; 400];
    assert_eq!(write(&full_set(), &mut buffer), Ok(378));
    assert_eq!(read(&buffer[..378]), Ok(full_set()));
    assert_eq!(buffer[378..], [170; 22]);
}

#[test]
fn writing_is_refused_with_7_before_11_and_changes_nothing() {
    let mut invalid = set_b();
    invalid.streams[0].deadline = 0;
    let mut none = [170; 0];
    let mut ten = [170; 10];
    let mut eleven = [170; 11];
    assert_eq!(write(&invalid, &mut none), Err(Refusal::OutOfRule));
    assert_eq!(write(&invalid, &mut ten), Err(Refusal::OutOfRule));
    assert_eq!(write(&Set::EMPTY, &mut none), Err(Refusal::BufferTooShort));
    assert_eq!(write(&set_w12(), &mut ten), Err(Refusal::BufferTooShort));
    assert_eq!(ten, [170; 10]);
    assert_eq!(write(&set_w12(), &mut eleven), Ok(11));
}

#[test]
fn reading_goes_field_by_field() {
    // Each field out of rule is found although all after it is missing, and missing bits are
    // found although the bits that are there could not become a number in rule.
    assert_eq!(read(&[0x30]), Err(Refusal::BadVersion));
    assert_eq!(read(&[0x1f]), Err(Refusal::BitsMissing));
    assert_eq!(read(&[0x18, 0x80]), Err(Refusal::OutOfRule)); // 17 streams
    assert_eq!(read(&[0x18, 0x00]), Err(Refusal::BitsMissing)); // 16 streams, no task
}

/// The set's sheet cut after some fields, the last of them changed.
fn cut_after(set: &Set, count: usize, value: u32) -> Vec<u8> {
    let mut fields = fields(set);
    fields.truncate(count);
    fields[count - 1].0 = value;
    pack(&fields)
}

#[test]
fn values_out_of_rule() {
    let set = Set::of(&[stream(3, 2, 5, &[every(10, 0), once(7), every(9, 7)])]);
    // Places of the fields: version, count, task, cost, deadline, tuples, then pairs.
    for (count, value) in [
        (2, 17),
        (2, 31),
        (4, 0),
        (5, 0),
        (5, 200_001),
        (5, 262_143),
        (7, 1_000_001),
        (7, 1_048_575),
        (8, 1),
        (8, 131_071),
        (10, 100_001),
        (12, 6),
        (12, 100_001),
    ] {
        assert_eq!(
            read(&cut_after(&set, count, value)),
            Err(Refusal::OutOfRule),
            "field {count}, value {value}"
        );
    }
    for (count, value) in [(5, 200_000), (7, 1_000_000), (10, 100_000), (7, 0)] {
        assert_eq!(
            read(&cut_after(&set, count, value)),
            Err(Refusal::BitsMissing),
            "field {count}, value {value}"
        );
    }
    assert_eq!(read(&cut_after(&set, 12, 7)), Ok(set));
    assert!(read(&cut_after(&set, 12, 100_000)).is_ok());
}

#[test]
fn every_shorter_sheet_misses_bits() {
    for length in 0..SHEET_W12.len() {
        assert_eq!(read(&SHEET_W12[..length]), Err(Refusal::BitsMissing));
    }
}

#[test]
fn every_padding_bit_has_to_be_zero() {
    let bits: u32 = fields(&set_w12()).iter().map(|&(_, width)| width).sum();
    assert_eq!(bits, 9 + 40 + width::CYCLE + width::OFFSET);
    for bit in bits as usize..8 * SHEET_W12.len() {
        let mut sheet = SHEET_W12;
        sheet[bit / 8] |= 0x80 >> (bit % 8);
        assert_eq!(read(&sheet), Err(Refusal::AfterLastField));
    }
}

#[test]
fn every_version_but_1_and_2_is_bad() {
    for version in 0..16 {
        let sheet = [version << 4, 0x00];
        let expected = match version {
            1 | 2 => Ok(Set::of_version(version.into(), &[])),
            _ => Err(Refusal::BadVersion),
        };
        assert_eq!(read_with_stages(&sheet), expected, "{version}");
        // Four bits are there, and the count's are not.
        let expected = match version {
            1 | 2 => Err(Refusal::BitsMissing),
            _ => Err(Refusal::BadVersion),
        };
        assert_eq!(read_with_stages(&sheet[..1]), expected, "{version}");
    }
}

#[test]
fn the_empty_sets_of_both_versions() {
    let empty = Set::of_version(2, &[]);
    assert_ne!(empty, Set::EMPTY);
    let mut buffer = [170; 3];
    assert_eq!(write(&empty, &mut buffer), Ok(2));
    assert_eq!(buffer, [0x20, 0x00, 170]);
    assert_eq!(read_with_stages(&[0x20, 0x00]), Ok(empty));
    let after = Err(Refusal::AfterLastField);
    assert_eq!(read_with_stages(&[0x20, 0x01]), after);
    assert_eq!(read_with_stages(&[0x20, 0x00, 0x00]), after);
}

/// The sheet of [`set_of_stages`], field by field.
const SHEET_OF_STAGES: [u8; 24] = [
    0x21, 0x00, 0x01, 0x88, 0x80, 0x01, 0x20, 0x00, 0x18, 0x00, 0x06, 0x40, 0x00, 0x00, 0x00, 0x78,
    0x40, 0x00, 0x20, 0x00, 0x0c, 0x80, 0x00, 0x00,
];

#[test]
fn a_sheet_of_version_2_field_by_field() {
    let digits: String = SHEET_OF_STAGES.map(|byte| format!("{byte:08b}")).concat();
    let expected = [
        ("0010", "version"),
        ("00010", "streams"),
        ("000000000000001100", "deadline"),
        ("01", "stages less one"),
        ("0001", "task"),
        ("0000000000000010", "cost"),
        ("0100", "task"),
        ("0000000000000011", "cost"),
        ("00", "tuples less one"),
        ("00000000000000110010", "cycle"),
        ("00000000000000000", "offset"),
        ("000000000000011110", "deadline"),
        ("00", "stages less one"),
        ("0100", "task"),
        ("0000000000000010", "cost"),
        ("00", "tuples less one"),
        ("00000000000000110010", "cycle"),
        ("00000000000000000", "offset"),
        ("00000", "padding"),
    ];
    assert_eq!(expected.map(|(bits, _)| bits).concat(), digits);
    assert_eq!(read_with_stages(&SHEET_OF_STAGES), Ok(set_of_stages()));
    let mut buffer = [170; 25];
    assert_eq!(write(&set_of_stages(), &mut buffer), Ok(24));
    assert_eq!(buffer[..24], SHEET_OF_STAGES);
    assert_eq!(buffer[24], 170);
    let mut short = [170; 23];
    assert_eq!(
        write(&set_of_stages(), &mut short),
        Err(Refusal::BufferTooShort)
    );
    assert_eq!(short, [170; 23]);
}

#[test]
fn a_full_sheet_of_version_2_is_502_bytes() {
    let full = full_set_of_stages();
    let mut buffer = [170; 510];
    assert_eq!(write(&full, &mut buffer), Ok(502));
    assert_eq!(buffer[502..], [170; 8]);
    assert_eq!(read_with_stages(&buffer[..502]), Ok(full));
    for length in 0..502 {
        let short = read_with_stages(&buffer[..length]);
        assert_eq!(short, Err(Refusal::BitsMissing), "{length}");
    }
    for length in 503..=510 {
        let long = read_with_stages(&buffer[..length]);
        assert_eq!(long, Err(Refusal::AfterLastField), "{length}");
    }
}

#[test]
fn the_same_streams_in_both_versions() {
    let one = set_b();
    let two = Set::of_version(2, one.used_streams());
    assert!(one.valid() && two.valid());
    assert_ne!(one, two);
    let sheets = [one, two].map(|set| pack(&fields(&set)));
    assert_ne!(sheets[0], sheets[1]);
    assert_eq!(read_with_stages(&sheets[0]), Ok(one));
    assert_eq!(read_with_stages(&sheets[1]), Ok(two));
    assert_eq!(
        sheet::read(&sheets[1], LESS_STACK),
        Err(Refusal::BadVersion)
    );
}

#[test]
fn values_out_of_rule_in_version_2() {
    let tuples = [every(10, 0), once(7)];
    let set = Set::of_version(2, &[staged(&[(3, 2), (3, 9), (0, 1)], 5, &tuples)]);
    // Places of the fields: version, count, deadline, stages, three pairs, tuples, then pairs.
    for (count, value) in [
        (2, 17),
        (2, 31),
        (3, 0),
        (3, 200_001),
        (3, 262_143),
        (6, 0),
        (8, 0),
        (10, 0),
        (12, 1_000_001),
        (13, 1),
        (15, 100_001),
    ] {
        assert_eq!(
            read_with_stages(&cut_after(&set, count, value)),
            Err(Refusal::OutOfRule),
            "field {count}, value {value}"
        );
    }
    for (count, value) in [
        (2, 16),
        (3, 200_000),
        (4, 3),
        (5, 15),
        (6, 65_535),
        (10, 65_535),
        (11, 3),
        (12, 1_000_000),
    ] {
        assert_eq!(
            read_with_stages(&cut_after(&set, count, value)),
            Err(Refusal::BitsMissing),
            "field {count}, value {value}"
        );
    }
    assert_eq!(read_with_stages(&cut_after(&set, 15, 7)), Ok(set));
}

#[test]
fn every_bit_of_a_sheet_of_version_2_that_is_changed_or_cut() {
    for bit in 0..8 * SHEET_OF_STAGES.len() {
        let mut sheet = SHEET_OF_STAGES;
        sheet[bit / 8] ^= 0x80 >> (bit % 8);
        // Whatever still reads as a set is that set's sheet.
        if let Ok(set) = read_with_stages(&sheet) {
            assert!(set.valid());
            assert_eq!(pack(&fields(&set)), sheet, "{bit}");
        }
    }
    for length in 0..SHEET_OF_STAGES.len() {
        let found = read_with_stages(&SHEET_OF_STAGES[..length]);
        assert_eq!(found, Err(Refusal::BitsMissing));
    }
}
