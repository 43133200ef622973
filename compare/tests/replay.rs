//! Recordings, the recorder and the replay of request 1.

mod common;

use std::io::Write;
use std::process::{Command, Output, Stdio};

use common::{every, said_from, set_b, set_of_stages, set_w12, stream, SHEET_W12};
use second::recording::{append, finish, record, recording_of, said_at, Place, Said};
use second::refusal::Refusal;
use second::replay::{self, step, Reader, Replayed};
use second::requests::{LESS_STACK, PIECES, RENDERED, REPLAY, STAGES};
use second::set::Set;
use second::sheet::{fields, pack};
use second::state::{Answer, State, LAST_CLOCK};
use second::trace::{self, call, Step};

/// All that a script prints once request 1 is in force.
fn said(script: &str) -> String {
    said_from(REPLAY, script)
}

fn place(byte: usize, bit: usize) -> Place {
    Place { byte, bit }
}

fn steps(trace: &str) -> Vec<Step> {
    trace::steps(trace.as_bytes()).expect("a good trace")
}

/// Before there are doors.
fn started(set: &Set) -> State {
    let (state, result) = State::start(set, PIECES);
    assert_eq!(result, Ok(()));
    state
}

/// All the calls that can be recorded.
fn all_calls() -> Vec<Step> {
    let mut calls: Vec<Step> = (0..16).map(Step::Post).collect();
    calls.extend([Step::Unit, Step::Done]);
    calls
}

/// The bits of the bytes in order, as digits.
fn digits(bytes: &[u8]) -> String {
    bytes.iter().map(|byte| format!("{byte:08b}")).collect()
}

/// The bytes of the digits, which are whole bytes.
fn bytes(digits: &str) -> Vec<u8> {
    assert!(digits.len().is_multiple_of(8));
    (0..digits.len() / 8)
        .map(|byte| u8::from_str_radix(&digits[byte * 8..byte * 8 + 8], 2).unwrap())
        .collect()
}

/// What digits say from a place on, read another way: the calls, then what ends them.
fn read_digits(digits: &str, from: usize) -> (Vec<Step>, Result<(), u8>) {
    let mut rest = &digits[from..];
    let mut calls = Vec::new();
    loop {
        let Some((kind, behind)) = rest.split_at_checked(2) else {
            return (calls, Err(13));
        };
        rest = behind;
        match kind {
            "00" => {
                let Some((stream, behind)) = rest.split_at_checked(4) else {
                    return (calls, Err(13));
                };
                calls.push(Step::Post(u32::from_str_radix(stream, 2).unwrap()));
                rest = behind;
            }
            "01" => calls.push(Step::Unit),
            "10" => calls.push(Step::Done),
            _ if rest.len() >= 8 || rest.contains('1') => return (calls, Err(14)),
            _ => return (calls, Ok(())),
        }
    }
}

/// What a recording says from a place on: the calls, then what ends them.
fn read_recording(recording: &[u8], from: Place) -> (Vec<Step>, Result<(), u8>) {
    let mut calls = Vec::new();
    let mut place = from;
    loop {
        match said_at(recording, place) {
            Ok(Said::Call { call, behind }) => {
                calls.push(call);
                place = behind;
            }
            Ok(Said::End) => return (calls, Ok(())),
            Err(refusal) => return (calls, Err(refusal.number())),
        }
    }
}

#[test]
fn recordings_bit_by_bit() {
    for (trace, recorded) in [
        ("", "11000000"),
        ("u", "01110000"),
        ("d", "10110000"),
        ("uuu", "01010111"),
        ("p0", "00000011"),
        ("p5", "00010111"),
        ("pf", "00111111"),
        ("uuuu", "0101010111000000"),
        ("p0ud", "0000000110110000"),
        ("p1d", "0000011011000000"),
        ("dpa", "1000101011000000"),
    ] {
        assert_eq!(digits(&recording_of(&steps(trace))), recorded, "{trace}");
    }
}

#[test]
fn calls_and_their_recording_determine_each_other() {
    let mut lists: Vec<Vec<Step>> = vec![Vec::new()];
    for length in 1..=3 {
        let shorter: Vec<Vec<Step>> = lists
            .iter()
            .filter(|list| list.len() == length - 1)
            .cloned()
            .collect();
        for list in shorter {
            lists.extend(
                all_calls()
                    .into_iter()
                    .map(|call| [&list[..], &[call]].concat()),
            );
        }
    }
    assert_eq!(lists.len(), 1 + 18 + 18 * 18 + 18 * 18 * 18);
    for list in lists {
        let recording = recording_of(&list);
        assert_eq!(
            read_recording(&recording, Place::START),
            (list.clone(), Ok(()))
        );
        assert_eq!(read_digits(&digits(&recording), 0), (list, Ok(())));
    }
    // Whatever bytes read to their end are the recording of what was read.
    for number in 0..=u16::MAX {
        let recording = number.to_be_bytes();
        if let (calls, Ok(())) = read_recording(&recording, Place::START) {
            assert_eq!(recording_of(&calls), recording);
        }
    }
}

#[test]
fn every_place_of_every_two_bytes() {
    for number in 0..=u16::MAX {
        let recording = number.to_be_bytes();
        let digits = digits(&recording);
        for from in 0..=16 {
            assert_eq!(
                read_recording(&recording, place(from / 8, from % 8)),
                read_digits(&digits, from),
                "{digits} from {from}"
            );
        }
    }
}

#[test]
fn a_recording_cut_at_every_bit() {
    let calls = steps("p0uup1dp2pfud");
    let recording = recording_of(&calls);
    let whole = digits(&recording);
    for cut in 0..whole.len() {
        // The byte of the cut is filled with zeros, or with ones.
        for fill in ["0", "1"] {
            let mut kept = whole[..cut].to_string();
            while !kept.len().is_multiple_of(8) {
                kept += fill;
            }
            let found = read_recording(&bytes(&kept), Place::START);
            assert_eq!(found, read_digits(&kept, 0), "{kept}");
        }
    }
    // Cut between bytes, the calls that are whole stand, and then it is 13.
    for length in 0..recording.len() {
        let (found, end) = read_recording(&recording[..length], Place::START);
        assert_eq!(end, Err(13), "{length}");
        assert_eq!(found, calls[..found.len()]);
        let with_next = recording_of(&calls[..found.len() + 1]);
        assert!(digits(&with_next).len() > length * 8, "{length}");
    }
}

#[test]
fn a_set_padding_bit_or_a_further_byte() {
    // 6, 4, 2 and no padding bits.
    for (trace, padding) in [("", 6), ("u", 4), ("uu", 2), ("uuu", 0), ("p3", 0)] {
        let calls = steps(trace);
        let good = recording_of(&calls);
        assert_eq!(
            read_recording(&good, Place::START),
            (calls.clone(), Ok(())),
            "{trace}"
        );
        let refused = (calls, Err(14));
        for bit in 0..padding {
            let mut set = good.clone();
            *set.last_mut().unwrap() |= 1 << bit;
            assert_eq!(read_recording(&set, Place::START), refused, "{trace}");
        }
        for further in [&[0][..], &[1], &[0x80], &[0xc0], &[0, 0], &[0; 300]] {
            let longer = [&good, further].concat();
            assert_eq!(read_recording(&longer, Place::START), refused, "{trace}");
        }
    }
}

#[test]
fn places_in_and_out_of_a_recording() {
    let recording = [0x01, 0x80];
    for (byte, bit) in [(0, 0), (0, 7), (1, 0), (1, 7), (2, 0)] {
        assert!(place(byte, bit).is_in(&recording), "{byte} {bit}");
    }
    for (byte, bit) in [
        (0, 8),
        (1, 8),
        (2, 1),
        (2, 7),
        (2, 8),
        (3, 0),
        (usize::MAX, 0),
        (0, usize::MAX),
        (usize::MAX, usize::MAX),
    ] {
        assert!(!place(byte, bit).is_in(&recording), "{byte} {bit}");
    }
    assert!(place(0, 0).is_in(&[]));
    assert!(!place(0, 1).is_in(&[]));
    assert!(!place(1, 0).is_in(&[]));
}

#[test]
fn a_kind_that_lies_in_two_bytes() {
    let at = |recording: &[u8]| said_at(recording, place(0, 7));
    assert_eq!(at(&[0x01, 0x80]), Ok(Said::End));
    // What stands before the place does not matter.
    assert_eq!(at(&[0xff, 0x80]), Ok(Said::End));
    for bit in 0..7 {
        assert_eq!(at(&[0x01, 0x80 | 1 << bit]), Err(Refusal::AfterEnd));
    }
    assert_eq!(at(&[0x01, 0x80, 0x00]), Err(Refusal::AfterEnd));
    assert_eq!(at(&[0x01]), Err(Refusal::StopsBeforeEnd));
    assert_eq!(
        at(&[0x00, 0x80]),
        Ok(Said::Call {
            call: Step::Unit,
            behind: place(1, 1)
        })
    );
    assert_eq!(
        at(&[0x01, 0x00]),
        Ok(Said::Call {
            call: Step::Done,
            behind: place(1, 1)
        })
    );
    assert_eq!(
        at(&[0x00, 0b0110_1111]),
        Ok(Said::Call {
            call: Step::Post(13),
            behind: place(1, 5)
        })
    );
    // The stream's four bits in two bytes, and one of them missing.
    assert_eq!(
        said_at(&[0x02, 0x40], place(0, 3)),
        Ok(Said::Call {
            call: Step::Post(4),
            behind: place(1, 1)
        })
    );
    assert_eq!(said_at(&[0x02], place(0, 3)), Err(Refusal::StopsBeforeEnd));
}

/// A step that must leave state and place as they are, asked twice.
fn stays(state: &State, recording: &[u8], at: Place) -> Replayed {
    let (mut state_after, mut place_after) = (state.clone(), at);
    let answer = step(&mut state_after, recording, &mut place_after);
    let again = step(&mut state_after, recording, &mut place_after);
    assert_eq!(answer, again);
    assert_eq!((&state_after, place_after), (state, at));
    answer
}

#[test]
fn end_12_13_and_14_leave_state_and_reader() {
    let mut state = started(&set_w12());
    state.post(0);
    state.unit(false);
    let refused = Replayed::Refused;
    assert_eq!(stays(&state, &[0xc0], Place::START), Replayed::End);
    assert_eq!(stays(&state, &[0x70], place(0, 2)), Replayed::End);
    for (recording, at) in [
        (&[][..], Place::START),
        (&[0x55][..], place(1, 0)),
        (&[0x55][..], place(0, 7)),
        (&[0x50][..], place(0, 4)),
        (&[0x00][..], place(0, 3)),
    ] {
        let answer = stays(&state, recording, at);
        assert_eq!(answer, refused(Refusal::StopsBeforeEnd));
    }
    for recording in [&[0xc1][..], &[0xe0], &[0xc0, 0x00]] {
        let answer = stays(&state, recording, Place::START);
        assert_eq!(answer, refused(Refusal::AfterEnd));
    }
    for at in [place(1, 1), place(0, 8), place(2, 0)] {
        let answer = stays(&state, &[0x40], at);
        assert_eq!(answer, refused(Refusal::NotWellFormed));
    }
}

#[test]
fn twelve_comes_before_what_the_bits_say() {
    let mut state = started(&set_w12());
    state.clock = LAST_CLOCK + 1;
    for recording in [&[][..], &[0x00], &[0x40], &[0x80], &[0xc0], &[0xc1]] {
        let answer = stays(&state, recording, Place::START);
        assert_eq!(answer, Replayed::Refused(Refusal::NotWellFormed));
    }
    // What is not a place is 12, though no bits are left behind it.
    let state = started(&set_w12());
    for at in [place(1, 1), place(0, 9), place(usize::MAX, usize::MAX)] {
        let answer = stays(&state, &[0xc1], at);
        assert_eq!(answer, Replayed::Refused(Refusal::NotWellFormed));
    }
}

#[test]
fn a_call_that_is_refused_is_a_step_like_any_other() {
    let refused = |refusal| Replayed::Called(Answer::Refused(refusal));
    let steps_past = |state: &State, trace: &str| {
        let recording = recording_of(&steps(trace));
        let (mut after, mut at) = (state.clone(), Place::START);
        let answer = step(&mut after, &recording, &mut at);
        assert_eq!(after, *state);
        let bits = if trace.starts_with('p') { 6 } else { 2 };
        assert_eq!(at, place(0, bits));
        assert_eq!(stays(&after, &recording, at), Replayed::End);
        answer
    };
    let mut state = started(&set_w12());
    assert_eq!(steps_past(&state, "p1"), refused(Refusal::NoSuchStream));
    assert_eq!(steps_past(&state, "pf"), refused(Refusal::NoSuchStream));
    assert_eq!(steps_past(&state, "d"), refused(Refusal::NothingPending));
    state.clock = LAST_CLOCK;
    assert_eq!(steps_past(&state, "u"), refused(Refusal::LastClock));
    for _ in 0..64 {
        state.post(0);
    }
    assert_eq!(steps_past(&state, "p0"), refused(Refusal::Full));
    assert_eq!(steps_past(&state, "p1"), refused(Refusal::NoSuchStream));
    assert_eq!(steps_past(&state, "d"), refused(Refusal::LastClock));
}

#[test]
fn a_replay_gives_the_answers_and_the_last_state_of_the_cab() {
    let calls = steps("dp1up2p0uududp3uuudp0p0p0uuuuuuuuupfd");
    let recording = recording_of(&calls);
    let mut cab = started(&set_b());
    let mut office = cab.clone();
    let mut reader = Reader::new(&recording);
    assert_eq!(reader.place(), Place::START);
    for &made in &calls {
        let answer = call(&mut cab, made);
        assert_eq!(reader.next(&mut office), Replayed::Called(answer));
        assert_eq!(office, cab);
    }
    let end = reader;
    assert_eq!(reader.next(&mut office), Replayed::End);
    assert_eq!((reader, office), (end, cab));
}

#[test]
fn what_the_replay_program_prints() {
    let sheet = pack(&fields(&set_b()));
    let trace = b"p1up2p0uududud";
    let recording = recording_of(&trace::steps(trace).unwrap());
    let traced = trace::run(&sheet, trace, RENDERED);
    let replayed = replay::run(&sheet, &recording, RENDERED);
    assert_eq!(replayed.output, format!("{}end\n", traced.output));
    assert_eq!(
        (replayed.calls, replayed.sheet_refused),
        (traced.calls, false)
    );
    assert_eq!(
        replay::run(&SHEET_W12, &[0x01], RENDERED).output,
        "accept\n0 posted 0 5\n0 ran 3 0\nrefused 13\n"
    );
    assert_eq!(
        replay::run(&SHEET_W12, &[0x70, 0x00], RENDERED).output,
        "accept\n0 idle\nrefused 14\n"
    );
    assert_eq!(
        replay::run(&SHEET_W12, &[], RENDERED).output,
        "accept\nrefused 13\n"
    );
    assert_eq!(
        replay::run(&[0x10, 0x00], &[0xc0], RENDERED).output,
        "accept\nend\n"
    );
}

#[test]
fn a_refused_sheet_replays_nothing() {
    for (sheet, output) in [
        (&[][..], "refused 5\n"),
        (&[0x30, 0x00], "refused 6\n"),
        (&[0x18, 0x80], "refused 7\n"),
        (&[0x10, 0x00, 0x00], "refused 10\n"),
    ] {
        for recording in [&[][..], &[0x40, 0xc0], &[0xc1], &[0xc0]] {
            for requests in 0..=RENDERED {
                let run = replay::run(sheet, recording, requests);
                assert_eq!(run.output, output);
                assert_eq!((run.calls, run.sheet_refused), (0, true));
            }
        }
    }
    // Every verdict on a sheet that was read is followed by the steps.
    let set = |cost, cycle| {
        let tuples = [every(cycle, 0)];
        let other = stream(0, 1, 9, &[every(1_000_000, 0)]);
        pack(&fields(&Set::of(&[stream(0, cost, 5, &tuples), other])))
    };
    for (sheet, verdict) in [
        (set(6, 1_000_000), "late 5 6"),
        (set(2, 1), "overload"),
        (set(1, 999_999), "refused 8"),
    ] {
        let output = replay::run(&sheet, &[0x03], RENDERED).output;
        assert_eq!(output, format!("{verdict}\n0 posted 0 5\nend\n"));
    }
}

#[test]
fn a_replay_of_a_set_with_stages() {
    // "Replay and recordings need no new bits."
    let calls = steps("p1up0uduuudp0uudp0dddp0dud");
    let recording = recording_of(&calls);
    let set = set_of_stages();
    let mut cab = started(&set);
    let mut office = cab.clone();
    let mut reader = Reader::new(&recording);
    let mut passed = 0;
    for &made in &calls {
        let answer = call(&mut cab, made);
        passed += u32::from(matches!(answer, Answer::Passed { .. }));
        assert_eq!(reader.next(&mut office), Replayed::Called(answer));
        assert_eq!(office, cab);
    }
    assert_eq!(passed, 3);
    assert_eq!(reader.next(&mut office), Replayed::End);
    let sheet = pack(&fields(&set));
    let traced = trace::run(&sheet, b"p1up0uduuud", STAGES).output;
    let recording = recording_of(&steps("p1up0uduuud"));
    let replayed = replay::run(&sheet, &recording, STAGES).output;
    assert_eq!(replayed, format!("{traced}end\n"));
    let before = replay::run(&sheet, &recording, LESS_STACK).output;
    assert_eq!(before, "refused 6\n");
}

#[test]
fn buffers_a_byte_short_exact_and_a_byte_long() {
    for trace in ["", "u", "uuu", "uuuu", "p0ud", "p7", "p7u", "uuup1p2p3d"] {
        let calls = steps(trace);
        let recording = recording_of(&calls);
        for fill in [0x00, 0xaa, 0xff] {
            for length in 0..recording.len() {
                let mut buffer = vec![fill; length];
                let result = record(&mut buffer, &calls);
                assert_eq!(result, Err(Refusal::BufferTooShort), "{trace} {length}");
                assert_eq!(buffer, vec![fill; length]);
            }
            for further in 0..2 {
                let mut buffer = vec![fill; recording.len() + further];
                assert_eq!(record(&mut buffer, &calls), Ok(recording.len()));
                assert_eq!(buffer[..recording.len()], recording);
                assert_eq!(buffer[recording.len()..], vec![fill; further]);
            }
        }
    }
}

#[test]
fn only_the_bits_that_are_written_change() {
    let written = |call| match call {
        Step::Post(stream) => format!("00{stream:04b}"),
        Step::Unit => "01".to_string(),
        Step::Done => "10".to_string(),
    };
    for length in 0..=3 {
        for fill in [0x00, 0x5a, 0xff] {
            let before = digits(&vec![fill; length]);
            for from in 0..=before.len() {
                let at = place(from / 8, from % 8);
                for call in all_calls() {
                    let mut buffer = vec![fill; length];
                    let result = append(&mut buffer, at, call);
                    let bits = written(call);
                    let behind = from + bits.len();
                    if behind > before.len() {
                        assert_eq!(result, Err(Refusal::BufferTooShort));
                        assert_eq!(digits(&buffer), before);
                    } else {
                        assert_eq!(result, Ok(place(behind / 8, behind % 8)));
                        let expected = [&before[..from], &bits, &before[behind..]].concat();
                        assert_eq!(digits(&buffer), expected);
                    }
                }
                let mut buffer = vec![fill; length];
                let result = finish(&mut buffer, at);
                if from + 2 > before.len() {
                    assert_eq!(result, Err(Refusal::BufferTooShort));
                    assert_eq!(digits(&buffer), before);
                } else {
                    let end = (from + 2).next_multiple_of(8);
                    let padding = "0".repeat(end - from - 2);
                    let expected = [&before[..from], "11", &padding, &before[end..]].concat();
                    assert_eq!(result, Ok(end / 8));
                    assert_eq!(digits(&buffer), expected);
                }
            }
        }
    }
}

#[test]
fn places_out_of_a_buffer_have_no_room() {
    for at in [
        place(2, 1),
        place(0, 8),
        place(3, 0),
        place(usize::MAX, usize::MAX),
    ] {
        let mut buffer = [0xaa; 2];
        let no_room = Refusal::BufferTooShort;
        assert_eq!(append(&mut buffer, at, Step::Unit), Err(no_room));
        assert_eq!(finish(&mut buffer, at), Err(no_room));
        assert_eq!(buffer, [0xaa; 2]);
    }
}

#[test]
fn a_call_to_a_stream_of_16_or_more_cannot_be_recorded() {
    for stream in [16, 17, 32, u32::MAX] {
        for length in [0, 1, 9] {
            let mut buffer = vec![0xaa; length];
            let result = append(&mut buffer, Place::START, Step::Post(stream));
            assert_eq!(result, Err(Refusal::NoSuchStream));
            let calls = [Step::Unit, Step::Post(stream)];
            assert!(record(&mut buffer, &calls).is_err());
            assert_eq!(buffer, vec![0xaa; length]);
        }
    }
}

#[test]
fn recordings_in_the_console() {
    assert_eq!(said("where\nnext"), "at 0 0\nrefused 13\n");
    assert_eq!(said("recording"), "recording 0\n");
    for line in [
        "recording ",
        "recording c",
        "recording C0",
        "recording c0 c0",
        "recordings c0",
    ] {
        assert_eq!(said(line), "?\n", "{line:?}");
    }
    let longest = format!("recording {}", "55".repeat(1_024));
    assert_eq!(said(&longest), "recording 1024\n");
    assert_eq!(said(&format!("{longest}c0")), "?\n");
    // A line that is no command leaves recording and reader, as do other commands.
    assert_eq!(
        said(&format!(
            "recording 55c0\nnext\n{longest}c0\nrecording C0\nread 1000\nstart\nwhere\nnext"
        )),
        "recording 2\n0 idle\n?\n?\nset 0\nstarted\nat 0 2\n0 idle\n"
    );
    // A recording goes to its start.
    assert_eq!(
        said("reader 0 2\nrecording c0\nwhere\nnext"),
        "put\nrecording 1\nat 0 0\nend\n"
    );
}

#[test]
fn places_in_the_console() {
    assert_eq!(
        said("reader 4294967295 4294967295\nwhere\nnext"),
        "put\nat 4294967295 4294967295\nrefused 12\n"
    );
    for line in [
        "reader",
        "reader 0",
        "reader 0 0 0",
        "reader 4294967296 0",
        "where 0",
        "next 0",
        "next ",
    ] {
        assert_eq!(said(line), "?\n", "{line:?}");
    }
}

#[test]
fn refusals_of_a_replay_have_no_clock() {
    // 12 before 13, 14, end and the call; a call's own refusal has its clock.
    let script = "\
clock 4000000001
next
recording c1
next
recording c0
next
recording 40
next
where
clock 4000000000
next
where
next";
    let expected = "\
put
refused 12
recording 1
refused 12
recording 1
refused 12
recording 1
refused 12
at 0 0
put
4000000000 refused 3
at 0 2
4000000000 refused 1
";
    assert_eq!(said(script), expected);
}

#[test]
fn recording_in_the_console() {
    for line in [
        "record",
        "record ",
        "record u",
        "record 1025",
        "record 1025 u",
        "record 4294967296 u",
        "record 5 ",
        "record 5 u u",
        "record 5 x",
        "record 5 U",
        "record 5 p",
        "record 5 pp",
        "record 5 pg",
        "record 5 pA",
        "record 5 u\t",
        "record 5 u\r",
        "record 5 up",
    ] {
        assert_eq!(said(line), "?\n", "{line:?}");
    }
    // The longest buffer, filled to its last bit, and one post more.
    let posts = |count| format!("record 1024 {}", "pf".repeat(count));
    let filled = format!("recorded 1024\n{}3f\n", "3cf3cf".repeat(341));
    assert_eq!(said(&posts(1_365)), filled);
    let refused = said(&posts(1_366));
    assert_eq!(refused, format!("refused 11\n{}\n", "aa".repeat(1_024)));
    // Recording touches neither recording nor reader.
    assert_eq!(
        said("recording 70\nnext\nrecord 1 u\nwhere\nnext"),
        "recording 1\n0 idle\nrecorded 1\n70\nat 0 2\nend\n"
    );
}

/// What a program of this package writes for an input.
fn written(program: &str, input: &[u8]) -> Output {
    let mut child = Command::new(program)
        .stdin(Stdio::piped())
        .stdout(Stdio::piped())
        .stderr(Stdio::piped())
        .spawn()
        .expect("the program starts");
    let mut stdin = child.stdin.take().expect("a piped standard input");
    stdin.write_all(input).expect("it reads its input");
    drop(stdin);
    child.wait_with_output().expect("it ends")
}

#[test]
fn what_the_record_program_writes() {
    let program = env!("CARGO_BIN_EXE_second-record");
    for (trace, recording) in [
        (&b""[..], &[0xc0][..]),
        (b" \n", &[0xc0]),
        (b"p0ud", &[0x01, 0xb0]),
        (b"p0 u\nd\n", &[0x01, 0xb0]),
        (b"pd", &[0x37]),
    ] {
        let output = written(program, trace);
        assert_eq!(
            (&output.stdout[..], &output.stderr[..]),
            (recording, &[][..])
        );
    }
    for trace in [&b"ux"[..], b"p", b"up", b"p 0", b"uuuuuuuupA", b"u\r\n"] {
        let output = written(program, trace);
        assert!(output.stdout.is_empty() && !output.stderr.is_empty());
    }
}
