//! Random console scripts.
//!
//! A script is made line by line while the library's console takes the same lines, so that a
//! scene knows the set and the state it has in hand. Scenes never look at what the first program
//! answers.

mod about_cables;
mod about_checks;
mod about_doors;
mod about_parties;
mod about_recordings;
mod about_sets;
mod about_states;
mod odd_lines;

use second::console::Console;
use second::requests::{DOOR, PARTIES, PIECES, REPLAY, RESUMABLE, STAGES};
use second::set::{Set, GREATEST_COST, GREATEST_CYCLE, GREATEST_DEADLINE, GREATEST_OFFSET};
use second::state::{State, LAST_CLOCK};

use crate::console_mode::Made;
use crate::random::Random;
use crate::sets;

use about_cables::Fed;
use about_checks::Checked;

/// A line of a script, without its newline, and all that it prints.
pub struct Line {
    pub text: Vec<u8>,
    pub answer: String,
}

/// A script of at least so many lines, with the requests up to a number in force.
pub fn make(random: &mut Random, requests: u32, at_least: usize) -> Vec<Line> {
    let mut script = Script::new(random, requests);
    while script.lines.len() < at_least {
        script.scene();
    }
    script.lines
}

/// A script of so many sheets that are cut into pieces, with the requests up to a number in force.
pub fn in_pieces(random: &mut Random, requests: u32, sheets: u64) -> Made {
    let mut script = Script::new(random, requests);
    let mut fed = Fed::default();
    for _ in 0..sheets {
        script.sheet_in_pieces(&mut fed);
    }
    let [missing, version, rule, behind] = fed.refused;
    Made {
        script: script.lines,
        count: sheets,
        others: vec![
            ("refused with 5", missing),
            ("with 6", version),
            ("with 7", rule),
            ("with 10", behind),
            ("pieces", fed.pieces),
            ("of no bytes", fed.empty_pieces),
        ],
    }
}

/// A script of so many sets whose check is divided among calls, with the requests up to a number in
/// force.
pub fn divided_checks(random: &mut Random, requests: u32, sets: u64) -> Made {
    let mut script = Script::new(random, requests);
    let mut checked = Checked::default();
    while checked.verdicts.iter().sum::<u64>() < sets {
        script.divided_check(&mut checked);
    }
    let [accept, late, overload, invalid, long] = checked.verdicts;
    Made {
        script: script.lines,
        count: sets,
        others: vec![
            ("accepted", accept),
            ("late", late),
            ("overload", overload),
            ("refused with 7", invalid),
            ("with 8", long),
            ("calls", checked.calls),
            ("lengths", checked.lengths),
        ],
    }
}

/// A script of at least so many starts with owners and places, with the requests up to a number in
/// force.
pub fn shared_starts(random: &mut Random, requests: u32, starts: u64) -> Made {
    let mut script = Script::new(random, requests);
    while count_of(&script.lines, b"start", "") < starts {
        script.scene_of_parties();
    }
    let count = |name: &[u8], answer: &str| count_of(&script.lines, name, answer);
    Made {
        count: count(b"start", ""),
        others: vec![
            ("refused with 7", count(b"start", "refused 7\n")),
            ("with 16", count(b"start", "refused 16\n")),
            ("posted", count(b"post", " posted ")),
            ("refused at a door", count(b"post", " refused 15\n")),
            ("as full", count(b"post", " refused 2\n")),
            ("with 12", count(b"post", " refused 12\n")),
        ],
        script: script.lines,
    }
}

/// How many lines begin with a word and print an answer, or something that has it in it.
fn count_of(lines: &[Line], name: &[u8], answer: &str) -> u64 {
    let is_it = |line: &&Line| first_word(line) == name && line.answer.contains(answer);
    lines.iter().filter(is_it).count() as u64
}

/// A line's first word.
fn first_word(line: &Line) -> &[u8] {
    line.text.split(|&byte| byte == b' ').next().unwrap_or(&[])
}

struct Script<'a> {
    random: &'a mut Random,
    console: Console,
    lines: Vec<Line>,
}

impl<'a> Script<'a> {
    fn new(random: &'a mut Random, requests: u32) -> Script<'a> {
        Script {
            random,
            console: Console::new(requests),
            lines: Vec::new(),
        }
    }
}

impl Script<'_> {
    /// Adds a line. A `verdict`, or a call of the resumable check, that would take long is mostly
    /// left out.
    fn say(&mut self, text: impl AsRef<[u8]>) {
        let text = text.as_ref().to_vec();
        if text == b"verdict" && !sets::worth_judging(self.random, &self.console.set) {
            return;
        }
        let number = text.strip_prefix(b"go ").map(str::from_utf8);
        if let Some(Ok(number)) = number {
            let number = number.parse().unwrap_or(0);
            if !sets::worth_testing(self.random, &self.console.position, number) {
                return;
            }
        }
        self.say_at_once(text);
    }

    /// Adds a line, however long it takes.
    fn say_at_once(&mut self, text: impl Into<Vec<u8>>) {
        let text = text.into();
        let answer = self.console.line(&text);
        self.lines.push(Line { text, answer });
    }

    fn set(&self) -> &Set {
        &self.console.set
    }

    fn state(&self) -> &State {
        &self.console.state
    }

    /// Whether a request is in force.
    fn in_force(&self, request: u32) -> bool {
        self.console.requests >= request
    }

    /// Several lines about one thing.
    fn scene(&mut self) {
        let scenes = match self.console.requests {
            PARTIES.. => 114,
            RESUMABLE.. => 94,
            DOOR.. => 83,
            PIECES.. => 71,
            STAGES.. => 63,
            REPLAY.. => 52,
            _ => 40,
        };
        match self.random.below(scenes) {
            0..=2 => self.set_put_together(),
            3..=9 => self.set_with_one_fault(),
            10..=13 => self.sheet_read(),
            14..=16 => self.jittered_cycles(),
            17..=18 => self.steps(),
            19 => self.full_table(),
            20 => self.last_clock(),
            21..=22 => self.state_put_together(),
            23..=26 => self.state_with_one_fault(),
            27 => self.long_run(),
            28..=36 => self.lines_that_are_no_commands(),
            37 => self.questions_about_set(),
            38..=39 => self.any_commands(),
            40..=42 => self.replay(),
            43..=44 => self.places(),
            45 => self.replay_on_a_state_with_one_fault(),
            46..=47 => self.recording_about_as_long_as_the_longest(),
            48..=51 => self.recorded(),
            52..=56 => self.stages_run(),
            57..=59 => self.two_started(),
            60..=62 => self.any_stages(),
            63..=68 => self.cables(),
            69 => self.cut_at_every_place(),
            70 => self.pieces_behind_a_refused_sheet(),
            71..=76 => self.doors_run(),
            77..=80 => self.waits_by_hand(),
            81..=82 => self.full_table_at_the_door(),
            83..=87 => self.check_in_calls(),
            88..=91 => self.resumed(),
            94.. => self.scene_of_parties(),
            _ => self.opened_and_stopped(),
        }
    }

    /// The same about two parties.
    fn scene_of_parties(&mut self) {
        match self.random.below(13) {
            0..=3 => self.parties_run(),
            4..=6 => self.places_at_start(),
            7..=10 => self.parties_by_hand(),
            _ => self.full_party_at_the_door(),
        }
    }
}

/// The numbers of document 01 and of the console, and those next to them.
fn near_limit(random: &mut Random) -> u32 {
    let limit: u32 = random.pick(&[
        0,
        1,
        4,
        15,
        16,
        63,
        64,
        378,
        502,
        1_024,
        GREATEST_COST,
        GREATEST_OFFSET,
        GREATEST_DEADLINE,
        GREATEST_CYCLE,
        LAST_CLOCK,
        LAST_CLOCK + GREATEST_DEADLINE,
        u32::MAX,
    ]);
    match random.below(8) {
        0 => limit.saturating_sub(1),
        1 => limit.saturating_add(1),
        2 => random.between(0, 20),
        3 => random.number(),
        _ => limit,
    }
}

/// One of the limits, or the number just below or just above it.
fn around(random: &mut Random, limits: &[u32]) -> u32 {
    let limit = random.pick(limits);
    match random.below(8) {
        0..=2 => limit.saturating_sub(1),
        3..=4 => limit,
        5..=6 => limit.saturating_add(1),
        _ => near_limit(random),
    }
}

fn read_line(bytes: &[u8]) -> String {
    hex_line("read", bytes)
}

/// A command and its HEX. "an empty HEX leaves its space out as well".
fn hex_line(name: &str, bytes: &[u8]) -> String {
    let mut line = name.to_string();
    for (place, byte) in bytes.iter().enumerate() {
        if place == 0 {
            line.push(' ');
        }
        line += &format!("{byte:02x}");
    }
    line
}

#[cfg(test)]
mod tests {
    use super::*;
    use second::parties::Parties;
    use second::requests::{LESS_STACK, RENDERED};

    /// The lines of many scripts.
    fn many_lines(seed: u64, requests: u32) -> Vec<Line> {
        let mut random = Random::new(seed);
        (0..250)
            .flat_map(|_| make(&mut random, requests, 500))
            .collect()
    }

    /// That each of the answers is among those to the lines, ten times at least.
    fn come_up(lines: &[Line], expected: &[&str]) {
        let mut answers = String::from("\n");
        for line in lines {
            answers += &line.answer;
        }
        for answer in expected {
            let count = answers.matches(answer).count();
            assert!(count >= 10, "{answer:?} came up {count} times");
        }
    }

    #[test]
    fn every_answer_comes_up() {
        let of_document_01 = [
            "\nset ",
            "\nwrote ",
            "\nput\n",
            "\nvalid\n",
            "\ninvalid\n",
            "\nrefused 7 0\n",
            "\nonce 0 every ",
            "\naccept\n",
            "\nlate ",
            "\noverload\n",
            "\nrefused 5\n",
            "\nrefused 6\n",
            "\nrefused 7\n",
            "\nrefused 8\n",
            "\nrefused 10\n",
            "\nrefused 11\n",
            "\nrefused 12\n",
            "\nstarted\n",
            " posted ",
            " ran ",
            " done ",
            " cut ",
            " idle\n",
            " refused 1\n",
            " refused 2\n",
            " refused 3\n",
            " refused 4\n",
            " refused 12\n",
            "\nnone\n",
            "\ntask ",
            "\nwell formed\n",
            "\nmessage 63 ",
            "\n?\n",
        ];
        let of_a_replay = [
            "\nrecording ",
            "\nend\n",
            "\nrefused 13\n",
            "\nrefused 14\n",
            "\nat ",
            "\nrecorded ",
        ];
        let of_stages = [" passed ", "\nstaged 0 ", "\nstaged 63 "];
        let of_pieces = ["\nfed\n"];
        let of_doors = [" refused 15\n", "\ndoor 0 ", "\ndoor 15 "];
        let of_check = [
            "\nopen\n",
            "\ntested 0 next ",
            "\ntested 1 accept\n",
            " late ",
        ];
        let of_parties = ["\nrefused 16\n", "\nowns 0 1\n", "\nowns 15 1\n", "\nroom "];
        for requests in 0..=RENDERED {
            let lines = many_lines(1, requests);
            come_up(&lines, &of_document_01);
            if requests >= REPLAY {
                come_up(&lines, &of_a_replay);
            }
            if requests >= STAGES {
                come_up(&lines, &of_stages);
            }
            if requests >= PIECES {
                come_up(&lines, &of_pieces);
            }
            if requests >= DOOR {
                come_up(&lines, &of_doors);
            }
            if requests >= RESUMABLE {
                come_up(&lines, &of_check);
            }
            if requests >= PARTIES {
                come_up(&lines, &of_parties);
            }
        }
    }

    #[test]
    fn commands_of_a_request_that_is_not_in_force_come_up_seldom_and_are_none() {
        let of_a_replay: &[&str] = &["recording", "next", "reader", "where", "record"];
        let of_stages: &[&str] = &["version", "stages", "stage", "staged"];
        let of_pieces: &[&str] = &["cable", "feed", "close"];
        let of_doors: &[&str] = &["door"];
        let of_check: &[&str] = &["open", "go", "resume"];
        for (requests, commands) in [
            (0, of_a_replay),
            (0, of_stages),
            (LESS_STACK, of_stages),
            (0, of_pieces),
            (STAGES, of_pieces),
            (0, of_doors),
            (PIECES, of_doors),
            (0, of_check),
            (DOOR, of_check),
        ] {
            let lines = many_lines(1, requests);
            for command in commands {
                let found: Vec<&Line> = lines
                    .iter()
                    .filter(|line| first_word(line) == command.as_bytes())
                    .collect();
                assert!(found.iter().all(|line| line.answer == "?\n"), "{command}");
                let seldom = 10..lines.len() / 50;
                assert!(seldom.contains(&found.len()), "{command}: {}", found.len());
            }
        }
    }

    #[test]
    fn commands_of_parties_come_up_with_their_request_and_not_before() {
        for requests in [RESUMABLE, PARTIES] {
            let lines = many_lines(1, requests);
            for command in [&b"owner"[..], b"places", b"owns", b"room"] {
                let count = count_of(&lines, command, "");
                if requests < PARTIES {
                    assert_eq!(count, 0);
                } else {
                    assert!(count > 300, "{}: {count}", command.escape_ascii());
                    assert!(count_of(&lines, command, "?") >= 10);
                }
            }
        }
    }

    #[test]
    fn states_of_two_parties_are_met_in_rule_and_out_of_it() {
        let mut random = Random::new(8);
        let (mut full, mut with_room, mut not_formed) = ([0; 2], [0; 2], 0);
        for _ in 0..150 {
            let script = make(&mut random, RENDERED, 500);
            let mut console = Console::new(RENDERED);
            for line in script {
                let state = console.state.clone();
                assert_eq!(console.line(&line.text), line.answer);
                let number = line.text.strip_prefix(b"post ").map(str::from_utf8);
                let Some(Ok(number)) = number else { continue };
                let Ok(stream) = number.parse::<usize>() else {
                    continue;
                };
                if stream >= 16 || state.parties == Parties::US_ALONE {
                    continue;
                }
                let party = state.parties.owners[stream].number() as usize;
                if line.answer.ends_with(" refused 2\n") {
                    full[party] += 1;
                    with_room[party] += u64::from(state.pending < 60);
                }
                not_formed += u64::from(line.answer.ends_with(" refused 12\n"));
            }
        }
        assert!(full.iter().all(|&count| count > 100), "{full:?}");
        assert!(with_room.iter().all(|&count| count > 100), "{with_room:?}");
        assert!(not_formed > 100, "{not_formed}");
    }

    #[test]
    fn starts_with_owners_and_places_have_every_answer() {
        let made = shared_starts(&mut Random::new(9), PARTIES, 2_000);
        assert!(made.count >= 2_000);
        for (name, count) in made.others {
            assert!(count > 100, "{name}: {count}");
        }
    }

    #[test]
    fn sets_and_states_with_stages_are_met_in_rule_and_out_of_it() {
        let mut random = Random::new(7);
        let (mut valid, mut invalid) = ([0; 5], [0; 5]);
        let (mut formed, mut not_formed) = ([0; 4], 0);
        let mut two_started = [0; 2];
        for _ in 0..150 {
            let script = make(&mut random, RENDERED, 500);
            let mut console = Console::new(RENDERED);
            for line in script {
                let set = console.set;
                let state = console.state.clone();
                match first_word(&line) {
                    b"valid" | b"verdict" | b"demand" | b"write" => {
                        let most = set.streams.iter().map(|s| s.stage_count.min(4)).max();
                        let counts = if set.valid() {
                            &mut valid
                        } else {
                            &mut invalid
                        };
                        counts[most.unwrap_or(0) as usize] += u32::from(set.version == 2);
                    }
                    b"formed" | b"choose" | b"unit" | b"done" if state.well_formed() => {
                        for message in state.pending_messages() {
                            formed[message.stage as usize] += 1;
                        }
                    }
                    b"formed" | b"choose" | b"unit" | b"done" => {
                        not_formed += u32::from(state.messages.iter().any(|m| m.stage != 0));
                    }
                    _ => {}
                }
                if first_word(&line) == b"formed" && state.set.valid() && state.pending == 2 {
                    let both = state.messages[..2].iter().all(|m| m.used == 1);
                    let of_two = state.messages[0].stream != state.messages[1].stream;
                    if both && of_two {
                        two_started[usize::from(state.well_formed())] += 1;
                    }
                }
                assert_eq!(console.line(&line.text), line.answer);
            }
        }
        assert!(valid[1..].iter().all(|&count| count > 30), "{valid:?}");
        assert!(invalid[1..].iter().all(|&count| count > 30), "{invalid:?}");
        assert!(formed.iter().all(|&count| count > 100), "{formed:?}");
        assert!(not_formed > 100, "{not_formed}");
        assert!(two_started.iter().all(|&c| c > 10), "{two_started:?}");
    }

    #[test]
    fn every_answer_to_the_commands_of_a_replay_comes_up() {
        let lines = many_lines(3, REPLAY);
        let expected: &[(&str, &[&str])] = &[
            ("next", &["end\n", "refused 12\n", "refused 13\n"]),
            ("next", &["refused 14\n", " posted ", " ran ", " done "]),
            ("next", &[" cut ", " idle\n", " refused 1\n"]),
            ("next", &[" refused 2\n", " refused 3\n", " refused 4\n"]),
            ("recording", &["recording ", "recording 1024\n", "?"]),
            ("record", &["recorded ", "refused 11\n", "?"]),
            ("reader", &["put", "?"]),
            ("where", &["at "]),
        ];
        for (command, answers) in expected {
            for answer in *answers {
                // An answer with a space before it comes after a clock.
                let is_it = |line: &&Line| {
                    first_word(line) == command.as_bytes()
                        && (line.answer.starts_with(answer)
                            || answer.starts_with(' ') && line.answer.contains(answer))
                };
                let count = lines.iter().filter(is_it).count();
                assert!(count >= 5, "{command}: {answer:?} came up {count} times");
            }
        }
    }

    #[test]
    fn no_line_has_a_newline_in_it() {
        for requests in 0..=RENDERED {
            for line in make(&mut Random::new(2), requests, 20_000) {
                assert!(!line.text.contains(&b'\n'));
            }
        }
    }
}
