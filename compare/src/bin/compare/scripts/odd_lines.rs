//! Scenes of lines with any numbers, and of lines that are no commands.

use second::console::LONGEST_LINE;
use second::requests::PARTIES;
use second::set::{STAGE_PLACES, STREAM_PLACES, TUPLE_PLACES};
use second::state::MESSAGE_PLACES;

use super::{around, hex_line, near_limit, Script};
use crate::sets;
use crate::sheets;

/// Lines that look a little like commands.
const ODD_LINES: &[&[u8]] = &[
    b"",
    b" ",
    b"  ",
    b"?",
    b"\r",
    b"\t",
    b"\0",
    b"\xff\xfe",
    b"help",
    b"exit",
    b"quit",
    b"READ",
    b"Unit",
    b"units",
    b"unitdone",
    b"set",
    b"put",
    b"p0",
    b"u",
    b"d",
    b"read ",
    b"valid ",
    b" valid",
    b"read  10",
    b"read 10 00",
    b"unit 1",
    b"state 0",
    b"start 1",
    b"write",
    b"write ",
    b"limit",
    b"limit 0",
    b"limit 0 0 0",
    b"demand",
    b"jitter 1",
    b"once 0 0",
    b"every 0 0 1",
    b"stream 0 0 1 1",
    b"message 0 0 1",
    b"clock",
    b"pending",
    b"post",
    b"choose 0",
    b"formed 0",
    b"verdict 0",
    b"recording ",
    b"recording c",
    b"recording C0",
    b"recording c0 00",
    b"recordingc0",
    b"next 1",
    b"NEXT",
    b"where 0",
    b"reader",
    b"reader 0",
    b"reader 0 0 0",
    b"record",
    b"record ",
    b"record u",
    b"record 5 ",
    b"record 5 u ",
    b"record 5 u u",
    b"record 5 p",
    b"record 1025",
    b"record 1025 u",
    b"end",
    b"version",
    b"version ",
    b"version 1 1",
    b"versions 1",
    b"stages",
    b"stages 0",
    b"stages 0 1 1",
    b"stage",
    b"stage 0 0 1",
    b"stage 0 0 1 1 1",
    b"staged",
    b"staged 0",
    b"staged 0 0 0",
    b"passed",
    b"passed 0 0",
    b"cable 0",
    b"cable ",
    b"cables",
    b"feed ",
    b"feed 1",
    b"feed 10 00",
    b"feed  10",
    b"feed 1G",
    b"feed A0",
    b"fed",
    b"close 0",
    b"close ",
    b"closed",
    b"door",
    b"door 0",
    b"door 0 0 0",
    b"doors 0 1",
    b"open 0",
    b"open ",
    b"opened",
    b"go",
    b"go ",
    b"go 1 1",
    b"goes 1",
    b"resume",
    b"resume 1 1",
    b"tested 1",
    b"#",
    b"// unit",
];

/// The same with request 8 in force.
const ODD_LINES_OF_PARTIES: &[&[u8]] = &[
    b"owner",
    b"owner ",
    b"owner 0",
    b"owner 0 2",
    b"owner 16 0",
    b"owner 0 1 1",
    b"owners 0 1",
    b"owner 0 ours",
    b"owner 0 4294967295",
    b"places",
    b"places 64",
    b"places 64 0 0",
    b"places 65 -1",
    b"place 64 0",
    b"places  64 0",
    b"owns",
    b"owns 0",
    b"owns 0 2",
    b"owns 16 1",
    b"owns 0 1 1",
    b"owned 0 1",
    b"room",
    b"room 64",
    b"room 64 0 0",
    b"room 64 ",
    b"rooms 64 0",
];

/// Commands and how many numbers they have.
const COMMANDS: &[(&str, u32)] = &[
    ("read", 0),
    ("write", 1),
    ("streams", 1),
    ("stream", 5),
    ("once", 3),
    ("every", 4),
    ("valid", 0),
    ("limit", 2),
    ("demand", 1),
    ("jitter", 2),
    ("verdict", 0),
    ("start", 0),
    ("clock", 1),
    ("pending", 1),
    ("message", 4),
    ("post", 1),
    ("unit", 0),
    ("done", 0),
    ("choose", 0),
    ("state", 0),
    ("formed", 0),
    ("recording", 0),
    ("next", 0),
    ("reader", 2),
    ("where", 0),
    ("record", 1),
    ("version", 1),
    ("stages", 2),
    ("stage", 4),
    ("staged", 2),
    ("cable", 0),
    ("feed", 0),
    ("close", 0),
    ("door", 2),
    ("open", 0),
    ("go", 1),
    ("resume", 1),
];

/// The same of request 8.
const COMMANDS_OF_PARTIES: &[(&str, u32)] =
    &[("owner", 2), ("places", 2), ("owns", 2), ("room", 2)];

/// Commands with one number left open.
const WITH_A_NUMBER: &[&str] = &[
    "write N",
    "streams N",
    "demand N",
    "clock N",
    "pending N",
    "post N",
    "limit N 5",
    "limit 0 N",
    "jitter N 0",
    "jitter 5 N",
    "stream N 0 1 1 1",
    "stream 0 N 1 1 1",
    "stream 0 0 1 1 N",
    "once N 0 0",
    "once 0 N 0",
    "every 0 0 N 0",
    "message N 0 0 0",
    "message 0 0 0 N",
    "reader N 0",
    "reader 0 N",
    "record N",
    "record N u",
    "version N",
    "stages N 1",
    "stages 0 N",
    "stage N 0 0 0",
    "stage 0 N 0 0",
    "stage 0 0 N 1",
    "stage 0 3 0 N",
    "staged N 0",
    "staged 63 N",
    "door N 0",
    "door 15 N",
    "go N",
    "resume N",
];

/// The same of request 8.
const WITH_A_NUMBER_OF_PARTIES: &[&str] = &[
    "owner N 1",
    "owner 0 N",
    "places N 0",
    "places 0 N",
    "owns N 0",
    "owns 15 N",
    "room N 0",
    "room 64 N",
];

impl Script<'_> {
    /// One of the choices; with request 8 in force also of those that it brings, and not before.
    fn pick_with_parties<T: Copy>(&mut self, choices: &[T], of_parties: &[T]) -> T {
        if self.in_force(PARTIES) && self.random.one_in(6) {
            self.random.pick(of_parties)
        } else {
            self.random.pick(choices)
        }
    }

    /// A line of any command with numbers that may be anything. Where the request that brings the
    /// command is not in force, it is no command.
    fn any_command(&mut self) -> String {
        let (name, numbers) = self.pick_with_parties(COMMANDS, COMMANDS_OF_PARTIES);
        let mut line = name.to_string();
        for place in 0..numbers {
            // The first is often an index.
            let number = if place == 0 && self.random.one_in(2) {
                self.random.between(0, 16)
            } else {
                near_limit(self.random)
            };
            line += &format!(" {number}");
        }
        line += match name {
            "recording" => self.random.pick(&["", " 01b0", " 5555c0"]),
            "record" => self.random.pick(&["", " p0ud", " uuuu", " pfpf"]),
            "feed" => self.random.pick(&["", " 10", " 00", " 20", " 2000"]),
            _ => "",
        };
        line
    }

    pub(super) fn any_commands(&mut self) {
        for _ in 0..self.random.between(1, 20) {
            let line = self.any_command();
            self.say(line);
        }
        // What they put would make every set and state after them invalid.
        self.say("read 1000");
        self.say_start();
    }

    pub(super) fn lines_that_are_no_commands(&mut self) {
        for _ in 0..self.random.between(1, 8) {
            let line = match self.random.below(8) {
                0 => self.odd_line(),
                1 => self.long_line(),
                2 => self.line_with_odd_number(),
                3 => self.line_with_odd_hex(),
                4 => self.index_out_of_place().into_bytes(),
                _ => self.spoiled_command(),
            };
            self.say(line);
            if self.random.one_in(4) {
                self.say("state");
                self.say("valid");
                self.say("write 20");
            }
        }
    }

    fn odd_line(&mut self) -> Vec<u8> {
        self.pick_with_parties(ODD_LINES, ODD_LINES_OF_PARTIES)
            .to_vec()
    }

    /// A line about as long as the longest, or much longer.
    fn long_line(&mut self) -> Vec<u8> {
        let length = self.random.pick(&[
            LONGEST_LINE - 2,
            LONGEST_LINE - 1,
            LONGEST_LINE,
            LONGEST_LINE + 1,
            LONGEST_LINE + 2,
            2 * LONGEST_LINE,
            20_000,
        ]);
        let start = self.random.pick(&[
            "read 1000",
            "read 20",
            "read ",
            "unit ",
            "unit",
            "",
            "recording c0",
            "record 1024 u",
            "record 1022 ",
            "feed 10",
            "feed ",
        ]);
        let fill = if start.starts_with("record ") {
            self.random.pick(b"uuud0p")
        } else {
            self.random.pick(b"00000 \r1a")
        };
        let mut line = start.as_bytes().to_vec();
        line.resize(length, fill);
        line
    }

    /// A command with one number written in another way.
    fn line_with_odd_number(&mut self) -> Vec<u8> {
        let number = self.random.pick(&[
            "0",
            "00",
            "0000000000",
            "0000000001",
            "00000000000",
            "00000000001",
            "4294967295",
            "4294967296",
            "04294967295",
            "9999999999",
            "18446744073709551616",
            "4294967299",
            "42949672950",
            "+1",
            "-1",
            "1.0",
            "0x1",
            "1e0",
            "a",
            "1a",
            "",
            "1_000",
            "1,000",
            "\u{0661}",
        ]);
        let line = self.pick_with_parties(WITH_A_NUMBER, WITH_A_NUMBER_OF_PARTIES);
        line.replace('N', number).into_bytes()
    }

    fn line_with_odd_hex(&mut self) -> Vec<u8> {
        let set = sets::small(self.random, self.console.requests);
        let name = self.random.pick(&["read", "recording", "feed"]);
        let mut line = hex_line(name, &sheets::of_set(&set)).into_bytes();
        let hex = name.len() + 1;
        let place = hex + self.random.index(line.len() - hex);
        match self.random.below(5) {
            0 => line.make_ascii_uppercase(),
            1 => line[hex..].make_ascii_uppercase(),
            2 => line.truncate(place),
            3 => line[place] = self.random.pick(b"ABCDEFGgx /:@`\r\t-"),
            _ => line.insert(place, self.random.pick(b"0f ")),
        }
        line
    }

    /// An index at, just below or just above its range.
    fn index_out_of_place(&mut self) -> String {
        let kinds = if self.in_force(PARTIES) { 11 } else { 9 };
        match self.random.below(kinds) {
            9.. => self.party_out_of_place(),
            8 => {
                let place = around(self.random, &[STREAM_PLACES as u32 - 1]);
                format!("door {place} 0")
            }
            0..=1 => {
                let place = around(self.random, &[STREAM_PLACES as u32 - 1]);
                format!("stream {place} 0 0 0 0")
            }
            2 => {
                let place = around(self.random, &[STREAM_PLACES as u32 - 1]);
                let tuple_place = around(self.random, &[0, TUPLE_PLACES as u32 - 1]);
                format!("once {place} {tuple_place} 0")
            }
            3 => {
                let place = around(self.random, &[0, STREAM_PLACES as u32 - 1]);
                let tuple_place = around(self.random, &[TUPLE_PLACES as u32 - 1]);
                format!("every {place} {tuple_place} 0 0")
            }
            4 => {
                let place = around(self.random, &[0, STREAM_PLACES as u32 - 1]);
                let count = self.random.between(0, 2);
                format!("stages {place} {count}")
            }
            5 => {
                let place = around(self.random, &[STREAM_PLACES as u32 - 1]);
                let stage_place = around(self.random, &[0, STAGE_PLACES as u32 - 1]);
                format!("stage {place} {stage_place} 0 0")
            }
            6 => {
                let place = around(self.random, &[MESSAGE_PLACES as u32 - 1]);
                let stage = self.random.between(0, 1);
                format!("staged {place} {stage}")
            }
            _ => {
                let place = around(self.random, &[MESSAGE_PLACES as u32 - 1]);
                format!("message {place} 0 0 0")
            }
        }
    }

    /// A stream place or a party at, just below or just above its range.
    fn party_out_of_place(&mut self) -> String {
        let name = self.random.pick(&["owner", "owns"]);
        let place = around(self.random, &[STREAM_PLACES as u32 - 1]);
        let party = around(self.random, &[0, 1]);
        format!("{name} {place} {party}")
    }

    /// A command in which one byte or one word is put, taken or changed.
    fn spoiled_command(&mut self) -> Vec<u8> {
        let mut line = self.any_command().into_bytes();
        let place = self.random.index(line.len());
        match self.random.below(8) {
            0 => line.insert(place, b' '),
            1 => line.push(b' '),
            2 => line.push(b'\r'),
            3 => line.insert(0, b' '),
            4 => line.extend(b" 0"),
            5 => {
                if let Some(space) = line.iter().rposition(|&byte| byte == b' ') {
                    line.truncate(space);
                }
            }
            6 => {
                let byte = self.random.byte();
                line[place] = if byte == b'\n' { b'\t' } else { byte };
            }
            _ => {
                line.remove(place);
            }
        }
        line
    }
}
