//! What the trace program and the console print.

mod common;

use common::{said_between, said_from, said_with, set_b, set_of_stages, SHEET_W12};
use second::requests::{JITTER_BOTH_WAYS, LESS_STACK, PIECES, RENDERED, REPLAY, STAGES};
use second::sheet::{fields, pack};
use second::trace;

/// All that a script of commands of document 01 prints, whichever requests are in force.
fn said(script: &str) -> String {
    said_from(0, script)
}

fn sheet_b() -> Vec<u8> {
    pack(&fields(&set_b()))
}

/// What the trace program prints, whichever requests are in force.
fn traced(sheet: &[u8], steps: &[u8]) -> String {
    let output = trace::run(sheet, steps, 0).output;
    for requests in 0..=RENDERED {
        assert_eq!(trace::run(sheet, steps, requests).output, output);
    }
    output
}

#[test]
fn set_b_in_whole() {
    let expected = "\
accept
0 posted 1 20
0 ran 0 1
1 posted 2 9
1 posted 0 6
1 ran 0 1
2 ran 0 1
3 done 0 1 16
4 ran 0 0
5 done 0 0 0
6 ran 1 2
7 done 1 2 1
";
    assert_eq!(traced(&sheet_b(), b"p1up2p0uududud"), expected);
    assert_eq!(
        traced(&sheet_b(), b"\n p1 u\np2p0uu  dud\nud\n \n"),
        expected
    );
    let run = trace::run(&sheet_b(), b"p1up2p0uududud", RENDERED);
    assert_eq!((run.calls, run.sheet_refused), (11, false));
}

#[test]
fn a_refused_sheet_prints_only_that_line() {
    for (sheet, output) in [
        (&[][..], "refused 5\n"),
        (&[0x10], "refused 5\n"),
        (&[0x30, 0x00], "refused 6\n"),
        (&[0x18, 0x80], "refused 7\n"),
        (&[0x10, 0x01], "refused 10\n"),
        (&[0x10, 0x00, 0x00], "refused 10\n"),
    ] {
        assert_eq!(traced(sheet, b"ux"), output);
    }
}

#[test]
fn steps_follow_after_every_verdict() {
    assert_eq!(
        traced(&[0x10, 0x00], b"up0d"),
        "accept\n0 idle\n1 refused 1\n1 refused 4\n"
    );
    let mut set = set_b();
    set.streams[0].stages[0].cost = 3;
    assert_eq!(
        traced(&pack(&fields(&set)), b"p0"),
        "late 5 6\n0 posted 0 5\n"
    );
    set.streams[0].stages[0].cost = 30;
    assert_eq!(
        traced(&pack(&fields(&set)), b"p0"),
        "overload\n0 posted 0 5\n"
    );
    set.streams[0].tuples[0] = common::every(999_999, 0);
    set.streams[1].tuples[0] = common::every(1_000_000, 0);
    assert_eq!(
        traced(&pack(&fields(&set)), b"p0u"),
        "refused 8\n0 posted 0 5\n0 ran 0 0\n"
    );
}

#[test]
fn a_byte_that_is_no_step_stops_the_program() {
    for trace in [
        &b"ux"[..],
        b"up",
        b"up 0u",
        b"up\n0u",
        b"upAu",
        b"upgu",
        b"upp0",
        b"u\tu",
        b"u\r\nu",
        b"uUu",
        b"u0u",
        b"u\0u",
        b"u\xffu",
    ] {
        assert_eq!(
            traced(&SHEET_W12, trace),
            "accept\n0 idle\nrefused 9\n",
            "{}",
            trace.escape_ascii()
        );
    }
}

#[test]
fn posts_name_streams_in_lower_case_hex() {
    assert_eq!(
        traced(&SHEET_W12, b"p0p1p9papf"),
        "accept\n0 posted 0 5\n0 refused 1\n0 refused 1\n0 refused 1\n0 refused 1\n"
    );
}

#[test]
fn the_example_of_the_console() {
    let script = "\
read 10980010000a0000500000
verdict
start
post 0
unit
state
clock 4000000001
unit";
    let expected = "\
set 1
accept
started
0 posted 0 5
0 ran 3 0
clock 1
pending 1
message 0 0 5 1
put
4000000001 refused 12
";
    // With the door, `state` prints one line more.
    let said = |script: &str| said_between(0, PIECES, script);
    assert_eq!(said(script), expected);
    assert_eq!(said(&format!("{script}\n")), expected);
}

#[test]
fn reading_in_the_console() {
    assert_eq!(said("read"), "refused 5\n");
    assert_eq!(said("read "), "?\n");
    assert_eq!(said("read 1"), "?\n");
    assert_eq!(said("read 10 00"), "?\n");
    assert_eq!(said("read 1000"), "set 0\n");
    assert_eq!(said("read 1000\r"), "?\n");
    // A refused sheet leaves the empty set, a line that is no command the set as it was.
    let sheet = "read 10980010000a0000500000";
    assert_eq!(
        said(&format!("{sheet}\nread 10\nwrite 2")),
        "set 1\nrefused 5\nwrote 2\n1000\n"
    );
    assert_eq!(
        said(&format!("{sheet}\nread 100A\nwrite 2")),
        "set 1\n?\nrefused 11\naaaa\n"
    );
}

#[test]
fn writing_in_the_console() {
    assert_eq!(said("write 0"), "refused 11\n\n");
    assert_eq!(said("write 3"), "wrote 2\n1000aa\n");
    assert_eq!(said("write 1025"), "?\n");
    let all = said("write 1024");
    assert_eq!(all.len(), "wrote 2\n".len() + 2_048 + 1);
    assert_eq!(said("streams 1\nwrite 1"), "put\nrefused 7\naa\n");
}

#[test]
fn a_set_put_together() {
    let script = "\
streams 2
stream 0 0 2 5 1
every 0 0 10 0
stream 1 0 5 20 1
every 1 0 20 0
valid
demand 5
limit 1 20
limit 2 20
verdict
every 1 0 0 0
valid
demand 5
limit 0 0
verdict
start
state";
    let expected = "\
put
put
put
put
put
valid
6
2
refused 7 0
late 5 6
put
invalid
refused 7 0
refused 7 0
refused 7
refused 7
clock 0
pending 0
";
    assert_eq!(said(script), expected);
}

#[test]
fn jitter_in_the_console() {
    for requests in [0, REPLAY] {
        assert_eq!(said_with(requests, "jitter 10 3"), "once 0 every 10 7\n");
        assert_eq!(said_with(requests, "jitter 10 10"), "once 0 every 10 0\n");
    }
    let both_ways = |script| said_from(JITTER_BOTH_WAYS, script);
    assert_eq!(both_ways("jitter 10 3"), "once 0 every 10 4\n");
    assert_eq!(both_ways("jitter 10 5"), "once 0 every 10 0\n");
    assert_eq!(both_ways("jitter 10 6"), "refused 7\n");
    assert_eq!(said("jitter 10 11"), "refused 7\n");
    assert_eq!(said("jitter 10 4294967295"), "refused 7\n");
    assert_eq!(said("jitter 10 4294967296"), "?\n");
}

#[test]
fn states_in_the_console() {
    let script = "\
choose
formed
done
message 63 0 0 7
message 62 4294967295 0 0
formed
choose
state
post 0
unit
start
message 0 1 2 3
start
state";
    let expected = "\
none
well formed
0 refused 4
put
put
refused 12
refused 12
clock 0
pending 0
message 62 4294967295 0 0
message 63 0 0 7
0 refused 12
0 refused 12
started
put
started
clock 0
pending 0
";
    assert_eq!(said(script), expected);
}

#[test]
fn numbers_in_the_console() {
    for number in ["0", "7", "0000000007", "4294967295"] {
        assert_eq!(said(&format!("clock {number}")), "put\n", "{number}");
    }
    for number in [
        "",
        "00000000007",
        "4294967296",
        "9999999999",
        "-1",
        "+1",
        "1a",
        "0x1",
    ] {
        assert_eq!(said(&format!("clock {number}")), "?\n", "{number}");
    }
}

#[test]
fn indexes_in_the_console() {
    for line in [
        "stream 15 0 0 0 0",
        "once 15 3 0",
        "every 15 3 0 0",
        "message 63 0 0 0",
    ] {
        assert_eq!(said(line), "put\n", "{line}");
    }
    for line in [
        "stream 16 0 0 0 0",
        "once 16 0 0",
        "once 0 4 0",
        "every 16 0 0 0",
        "every 0 4 0 0",
        "message 64 0 0 0",
        "message 4294967295 0 0 0",
    ] {
        assert_eq!(said(line), "?\n", "{line}");
    }
}

#[test]
fn lines_in_the_console() {
    assert_eq!(said(""), "");
    assert_eq!(said("\n\n\nunit\n\n"), "0 idle\n");
    for line in [
        " unit", "unit ", "unit\r", "\r", "unit 0", "UNIT", "clock  1", "clock\t1", "clock", " ",
    ] {
        assert_eq!(said(line), "?\n", "{line:?}");
    }
    // The longest line that is a command, and one that would be if it were not too long.
    let longest = format!("read 10{}", "00".repeat(2_044));
    assert_eq!(longest.len(), 4_095);
    assert_eq!(said(&longest), "refused 10\n");
    assert_eq!(said(&format!("{longest}00")), "?\n");
    assert_eq!(
        said(&format!("{}\nunit", "x".repeat(100_000))),
        "?\n0 idle\n"
    );
}

#[test]
fn a_trace_of_a_sheet_of_version_2() {
    let sheet = pack(&fields(&set_of_stages()));
    let expected = "\
accept
0 posted 1 30
0 ran 4 1
1 posted 0 13
1 ran 1 0
2 passed 1 0
3 cut 4 1 26
4 ran 4 0
5 ran 4 0
6 done 4 0 6
7 posted 0 19
7 ran 1 0
8 cut 1 0 10
9 refused 4
";
    let steps = b"p1up0uduuudp0uud";
    assert_eq!(trace::run(&sheet, steps, STAGES).output, expected);
    let empty = trace::run(&[0x20, 0x00], b"u", STAGES).output;
    assert_eq!(empty, "accept\n0 idle\n");
    for requests in 0..=LESS_STACK {
        for sheet in [&sheet[..], &[0x20, 0x00]] {
            assert_eq!(trace::run(sheet, steps, requests).output, "refused 6\n");
        }
    }
}
