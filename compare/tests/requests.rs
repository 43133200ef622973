//! Which requests are in force, and that those that are not change nothing.

mod common;

use std::process::{Command, Output};

use common::{said_from, said_with};
use second::console::Console;
use second::requests::{
    of_arguments, DOOR, IN_FORCE, JITTER_BOTH_WAYS, LESS_STACK, PARTIES, PIECES, RENDERED, REPLAY,
    RESUMABLE, STAGES,
};

/// Lines that are commands by request 1.
const COMMANDS_OF_REPLAY: [&str; 9] = [
    "recording",
    "recording 01b0",
    "recording 10",
    "next",
    "reader 0 0",
    "reader 1 7",
    "where",
    "record 3",
    "record 3 p0ud",
];

/// Lines that are commands by request 4.
const COMMANDS_OF_STAGES: [&str; 7] = [
    "version 1",
    "version 2",
    "version 4294967295",
    "stages 0 1",
    "stages 15 0",
    "stage 0 0 1 1",
    "staged 63 0",
];

/// Lines that are commands by request 5.
const COMMANDS_OF_PIECES: [&str; 4] = ["cable", "feed", "feed 10", "close"];

/// Lines that are commands by request 6.
const COMMANDS_OF_DOOR: [&str; 3] = ["door 0 0", "door 15 1", "door 3 4294967295"];

/// Lines that are commands by request 7.
const COMMANDS_OF_CHECK: [&str; 4] = ["open", "go 0", "go 4294967295", "resume 1"];

/// Lines that are commands by request 8.
const COMMANDS_OF_PARTIES: [&str; 6] = [
    "owner 0 0",
    "owner 15 1",
    "places 64 0",
    "places 4294967295 1",
    "owns 15 1",
    "room 0 4294967295",
];

#[test]
fn what_is_in_force_is_rendered() {
    assert!((0..=RENDERED).contains(&IN_FORCE));
}

#[test]
fn commands_come_with_their_request() {
    for command in COMMANDS_OF_REPLAY {
        assert_eq!(said_with(0, command), "?\n", "{command}");
        assert_ne!(said_from(REPLAY, command), "?\n", "{command}");
    }
    for command in COMMANDS_OF_STAGES {
        for requests in 0..STAGES {
            assert_eq!(said_with(requests, command), "?\n", "{command}");
        }
        assert_eq!(said_from(STAGES, command), "put\n", "{command}");
    }
    for command in COMMANDS_OF_PIECES {
        for requests in 0..PIECES {
            assert_eq!(said_with(requests, command), "?\n", "{command}");
        }
        assert_ne!(said_from(PIECES, command), "?\n", "{command}");
    }
    for command in COMMANDS_OF_DOOR {
        for requests in 0..DOOR {
            assert_eq!(said_with(requests, command), "?\n", "{command}");
        }
        assert_eq!(said_from(DOOR, command), "put\n", "{command}");
    }
    for command in COMMANDS_OF_CHECK {
        for requests in 0..RESUMABLE {
            assert_eq!(said_with(requests, command), "?\n", "{command}");
        }
        assert_ne!(said_from(RESUMABLE, command), "?\n", "{command}");
    }
    for command in COMMANDS_OF_PARTIES {
        for requests in 0..PARTIES {
            assert_eq!(said_with(requests, command), "?\n", "{command}");
        }
        assert_eq!(said_from(PARTIES, command), "put\n", "{command}");
    }
}

#[test]
fn a_command_that_is_not_in_force_changes_nothing() {
    let mut console = Console::new(0);
    for line in ["read 10980010000a0000500000", "start", "post 0", "unit"] {
        console.line(line.as_bytes());
    }
    let before = console.clone();
    for command in COMMANDS_OF_REPLAY {
        assert_eq!(console.line(command.as_bytes()), "?\n", "{command}");
        assert_eq!(console, before, "{command}");
    }
    for (requests, commands) in [
        (LESS_STACK, &COMMANDS_OF_STAGES[..]),
        (STAGES, &COMMANDS_OF_PIECES),
        (PIECES, &COMMANDS_OF_DOOR),
        (DOOR, &COMMANDS_OF_CHECK),
        (RESUMABLE, &COMMANDS_OF_PARTIES),
    ] {
        let mut console = Console::new(requests);
        for line in ["read 10980010000a0000500000", "start", "post 0", "unit"] {
            console.line(line.as_bytes());
        }
        let before = console.clone();
        for command in commands {
            assert_eq!(console.line(command.as_bytes()), "?\n", "{command}");
            assert_eq!(console, before, "{command}");
        }
    }
}

#[test]
fn a_sheet_of_version_2_is_refused_before_request_4() {
    let script = "read 2000\nwrite 2";
    for requests in 0..STAGES {
        let said = said_with(requests, script);
        assert_eq!(said, "refused 6\nwrote 2\n1000\n", "{requests}");
    }
    assert_eq!(said_from(STAGES, script), "set 0\nwrote 2\n2000\n");
}

#[test]
fn jitter_is_that_of_document_01_before_request_2() {
    let script = "\
jitter 10 3
jitter 10 5
jitter 10 6
jitter 10 10
jitter 10 11
jitter 100001 0
jitter 100001 1
jitter 1000000 900000
jitter 1000000 899999
jitter 1000000 450000
jitter 10 2147483653";
    let expected = "\
once 0 every 10 7
once 0 every 10 5
once 0 every 10 4
once 0 every 10 0
refused 7
refused 7
once 0 every 100001 100000
once 0 every 1000000 100000
refused 7
refused 7
refused 7
";
    for requests in 0..JITTER_BOTH_WAYS {
        assert_eq!(said_with(requests, script), expected, "{requests}");
    }
}

#[test]
fn the_number_among_the_arguments_of_a_program() {
    assert_eq!(of_arguments(&[]), Some((IN_FORCE, &[][..])));
    assert_eq!(of_arguments(&["a", "b"]), Some((IN_FORCE, &["a", "b"][..])));
    for requests in 0..=RENDERED {
        let number = requests.to_string();
        let found = of_arguments(&["a", "--requests", &number]).map(|(n, o)| (n, o.to_vec()));
        assert_eq!(found, Some((requests, vec!["a"])));
    }
    let above = (RENDERED + 1).to_string();
    for number in [above.as_str(), "", "-1", "x", "4294967296"] {
        assert_eq!(of_arguments(&["a", "--requests", number]), None, "{number}");
    }
}

fn compared(arguments: &[&str]) -> Output {
    Command::new(env!("CARGO_BIN_EXE_compare"))
        .args(arguments)
        .output()
        .expect("the program starts")
}

#[test]
fn programs_of_a_request_that_is_not_in_force_are_not_compared() {
    for (mode, request, program) in [
        ("replay", REPLAY, env!("CARGO_BIN_EXE_second-replay")),
        ("record", REPLAY, env!("CARGO_BIN_EXE_second-record")),
        ("cable", PIECES, env!("CARGO_BIN_EXE_second-cable")),
        ("pieces", PIECES, env!("CARGO_BIN_EXE_second-console")),
        ("check", RESUMABLE, env!("CARGO_BIN_EXE_second-console")),
        ("checks", RESUMABLE, env!("CARGO_BIN_EXE_second-check")),
        ("parties", PARTIES, env!("CARGO_BIN_EXE_second-console")),
    ] {
        let with = |requests: u32| {
            let number = requests.to_string();
            compared(&[mode, program, "2", "1", "--requests", &number])
        };
        let output = with(request - 1);
        assert_eq!(output.status.code(), Some(2));
        assert!(output.stdout.is_empty());
        let said = String::from_utf8_lossy(&output.stderr).into_owned();
        assert!(said.contains(&format!("request {request}")) && said.contains("not in force"));
        // The programs here go by what is in force.
        if request <= IN_FORCE {
            assert_eq!(with(IN_FORCE).status.code(), Some(0));
        }
    }
}

#[test]
fn isolation_is_checked_once_there_are_two_parties() {
    let with = |requests: u32| {
        let number = requests.to_string();
        compared(&["isolation", "20", "1", "--requests", &number])
    };
    let output = with(PARTIES - 1);
    assert_eq!(output.status.code(), Some(2));
    assert!(String::from_utf8_lossy(&output.stderr).contains("request 8"));
    let output = with(PARTIES);
    assert_eq!(output.status.code(), Some(0));
    assert!(String::from_utf8_lossy(&output.stdout).ends_with(", 0 differ\n"));
}

#[test]
fn the_number_that_compare_prints() {
    assert_eq!(
        compared(&["in-force"]).stdout,
        format!("{IN_FORCE}\n").into_bytes()
    );
    assert_eq!(compared(&["in-force", "--requests", "2"]).stdout, b"2\n");
    assert_eq!(
        compared(&["in-force", "--requests", "x"]).status.code(),
        Some(2)
    );
}
