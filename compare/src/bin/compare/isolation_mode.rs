//! `compare isolation CASES SEED`: what a party is answered depends on what it sees alone. Here
//! only the library runs.
//!
//! "Two runs from one start that agree on a party's posts, their clocks and where among them its
//! messages leave give its posts the same answers." Each run is kept whole. The answers to each
//! party's posts are reckoned again from its view; and second runs are made that look the same to a
//! party while the other one does something else.

use std::io;

use second::parties::Party;
use second::refusal::Refusal;
use second::requests::PARTIES;
use second::sheet::{fields, pack};
use second::state::Answer;
use second::trace::Step;
use second::view::{first_that_differs, Seen, WholeRun};

use crate::parties;
use crate::programs;
use crate::random::Random;
use crate::second_runs;
use crate::sets;

/// For each party of each run.
const SECOND_RUNS: u32 = 4;

#[derive(Default)]
struct Counts {
    runs: u64,
    posts: u64,
    full: u64,
    /// Answers 2 while the table has room.
    full_with_room: u64,
    at_door: u64,
    second_runs: u64,
    /// Second runs in which the party sees all that it sees in the first.
    whole: u64,
    posts_again: u64,
    full_again: u64,
    /// Of the posts of second runs, those at which the other party has another number pending.
    otherwise: u64,
}

/// A party's post that is answered in two ways.
struct Fault {
    party: Party,
    /// Counted from 0 among the party's posts.
    post: usize,
    runs: Vec<WholeRun>,
}

/// Tries; whether no answer depended on anything else. A case is a start, a run from it, and second
/// runs for each party.
pub fn check(requests: u32, cases: u64, seed: u64) -> io::Result<bool> {
    programs::in_force("isolation", PARTIES, requests)?;
    let mut counts = Counts::default();
    for number in 0..cases {
        let mut random = Random::for_case(seed, number);
        if let Some(fault) = case(&mut random, requests, &mut counts) {
            report(seed, number, &fault)?;
            print(number + 1, &counts, 1);
            return Ok(false);
        }
    }
    print(cases, &counts, 0);
    Ok(true)
}

/// One case; what is wrong with it, which nothing must be.
fn case(random: &mut Random, requests: u32, counts: &mut Counts) -> Option<Fault> {
    let set = sets::to_share(random, requests);
    let parties = parties::in_rule(random);
    let first = second_runs::any(random, &set, &parties, requests);
    counts.count_first(&first);
    if let Some(fault) = against_view(&first) {
        return Some(fault);
    }
    for party in Party::BOTH {
        for _ in 0..SECOND_RUNS {
            let second = second_runs::that_looks_the_same(random, &first, party, requests);
            counts.count_second(&first, &second, party);
            let fault = against_view(&second).or_else(|| two_answers(&first, second, party));
            if fault.is_some() {
                return fault;
            }
        }
    }
    None
}

/// A post that is answered otherwise than its party's view says.
fn against_view(run: &WholeRun) -> Option<Fault> {
    let of_party = |party: Party| {
        Some(Fault {
            party,
            post: run.post_against_view(party)?,
            runs: vec![run.clone()],
        })
    };
    Party::BOTH.into_iter().find_map(of_party)
}

/// A post that is answered otherwise in a second run.
///
/// What the party sees of the second is what it sees of the first up to some call: the first, ended
/// there, and the second are two runs with the same view.
fn two_answers(first: &WholeRun, second: WholeRun, party: Party) -> Option<Fault> {
    let view = second.view(party);
    assert!(
        first.view(party).starts_with(&view),
        "the second run does not look the same"
    );
    let answers = second.answers(party);
    let before = first.answers(party);
    let post = first_that_differs(&before[..answers.len()], &answers)?;
    Some(Fault {
        party,
        post,
        runs: vec![first.clone(), second],
    })
}

/// How many messages the other party has pending at each of a party's posts.
fn others_pending(run: &WholeRun, party: Party) -> Vec<u64> {
    let mut pending = 0;
    let mut at_posts = Vec::new();
    for made in &run.calls {
        match (made.step, made.answer) {
            (Step::Post(stream), _) if run.owner(stream) == Some(party) => at_posts.push(pending),
            (_, Answer::Posted { .. }) => pending += 1,
            (_, Answer::Finished { stream, .. } | Answer::Cut { stream, .. }) => {
                pending -= u64::from(run.owner(stream) == Some(party.other()));
            }
            _ => {}
        }
    }
    at_posts
}

fn is_full(answer: &&Answer) -> bool {
    **answer == Answer::Refused(Refusal::Full)
}

impl Counts {
    fn count_first(&mut self, run: &WholeRun) {
        self.runs += 1;
        for party in Party::BOTH {
            let answers = run.answers(party);
            let refused = |refusal| {
                let refused = Answer::Refused(refusal);
                answers.iter().filter(|answer| **answer == refused).count() as u64
            };
            self.posts += answers.len() as u64;
            self.full += refused(Refusal::Full);
            self.at_door += refused(Refusal::AtTheDoor);
            let own = u64::from(run.parties.places.of(party));
            let others = others_pending(run, party);
            let with_room = answers.iter().zip(others);
            self.full_with_room += with_room
                .filter(|(answer, others)| is_full(answer) && own + others < 64)
                .count() as u64;
        }
    }

    fn count_second(&mut self, first: &WholeRun, second: &WholeRun, party: Party) {
        let answers = second.answers(party);
        self.second_runs += 1;
        self.whole += u64::from(second.view(party).len() == first.view(party).len());
        self.posts_again += answers.len() as u64;
        self.full_again += answers.iter().filter(is_full).count() as u64;
        let pairs = others_pending(first, party).into_iter();
        let pairs = pairs.zip(others_pending(second, party));
        self.otherwise += pairs.filter(|(before, now)| before != now).count() as u64;
    }
}

/// The run as a script for the console.
fn script(run: &WholeRun) -> String {
    let mut script = "read ".to_string();
    let mut say = |text: String| script += &text;
    for byte in pack(&fields(&run.set)) {
        say(format!("{byte:02x}"));
    }
    for (stream, owner) in run.parties.owners.iter().enumerate() {
        say(format!("\nowner {stream} {}", owner.number()));
    }
    let places = run.parties.places;
    say(format!("\nplaces {} {}\nstart", places.ours, places.theirs));
    for made in &run.calls {
        say(match made.step {
            Step::Post(stream) => format!("\npost {stream}"),
            Step::Unit => "\nunit".to_string(),
            Step::Done => "\ndone".to_string(),
        });
    }
    script + "\n"
}

/// What a party sees of a run, with the answers to its posts.
fn shown(run: &WholeRun, party: Party) -> String {
    let mut answers = run.answers(party).into_iter();
    let mut shown = String::new();
    for seen in run.view(party) {
        shown += &match seen {
            Seen::Leaving => "leaving\n".to_string(),
            Seen::Post { stream, clock } => {
                let answer = answers.next().expect("an answer to each post");
                format!("{clock} post {stream}: {answer}\n")
            }
        };
    }
    shown
}

fn report(seed: u64, number: u64, fault: &Fault) -> io::Result<()> {
    let names = [("script", "seen.txt"), ("second-script", "second-seen.txt")];
    let mut files = Vec::new();
    for (run, (script_name, seen_name)) in fault.runs.iter().zip(names) {
        files.push((script_name, script(run)));
        files.push((seen_name, shown(run, fault.party)));
    }
    let files: Vec<(&str, &[u8])> = files
        .iter()
        .map(|(name, text)| (*name, text.as_bytes()))
        .collect();
    let folder = programs::write_out(&format!("isolation-seed-{seed}-case-{number}"), &files)?;
    println!(
        "post {} of party {} in case {number} of seed {seed} is answered otherwise {}, written to {}",
        fault.post,
        fault.party.number(),
        match fault.runs.len() {
            1 => "than its view says",
            _ => "in a second run that looks the same",
        },
        folder.display()
    );
    Ok(())
}

fn print(cases: u64, counts: &Counts, differ: u64) {
    println!(
        "{cases} cases, {} runs, {} posts, {} refused as full, {} of them with room in the table, {} refused at a door",
        counts.runs, counts.posts, counts.full, counts.full_with_room, counts.at_door
    );
    println!(
        "{} second runs, {} to the end, {} posts, {} refused as full, {} with another number of the other party's pending, {differ} differ",
        counts.second_runs, counts.whole, counts.posts_again, counts.full_again, counts.otherwise
    );
}

#[cfg(test)]
mod tests {
    use super::*;
    use second::parties::{Parties, Places};
    use second::recording::recording_of;
    use second::replay::{self, Reader, Replayed};
    use second::set::Set;

    /// A run of one stream of ours without a door, posted three times, with so many places.
    fn three_posts(ours: u32) -> WholeRun {
        let mut random = Random::new(1);
        let set = loop {
            let set = sets::to_share(&mut random, PARTIES);
            if set.count == 1 && set.streams[0].door().is_none() {
                break set;
            }
        };
        let parties = Parties {
            places: Places { ours, theirs: 9 },
            ..Parties::US_ALONE
        };
        let mut run = WholeRun::start(&set, &parties, PARTIES).expect("a start");
        for _ in 0..3 {
            run.call(Step::Post(0));
        }
        run
    }

    #[test]
    fn no_answer_depends_on_anything_else() {
        let mut counts = Counts::default();
        for number in 0..600 {
            let mut random = Random::for_case(1, number);
            assert!(case(&mut random, PARTIES, &mut counts).is_none());
        }
        assert!(counts.full_with_room > 1_000, "{}", counts.full_with_room);
        assert!(counts.at_door > 1_000, "{}", counts.at_door);
        assert!(counts.whole > 1_000, "{}", counts.whole);
        assert!(counts.full_again > 1_000, "{}", counts.full_again);
        assert!(counts.otherwise > counts.posts_again / 4);
    }

    #[test]
    fn an_answer_against_the_view_is_found() {
        assert!(against_view(&three_posts(2)).is_none());
        // Full a post too late, and a post too early.
        for places in [1, 3] {
            let mut run = three_posts(2);
            run.parties.places.ours = places;
            let fault = against_view(&run).expect("an answer against the view");
            assert_eq!(fault.party, Party::Ours);
            assert_eq!(fault.post, if places == 1 { 1 } else { 2 });
        }
    }

    #[test]
    fn two_answers_to_one_view_are_found() {
        let first = three_posts(3);
        assert!(two_answers(&first, three_posts(3), Party::Ours).is_none());
        let fault = two_answers(&first, three_posts(2), Party::Ours).expect("two answers");
        assert_eq!((fault.post, fault.runs.len()), (2, 2));
        assert!(two_answers(&first, three_posts(2), Party::Theirs).is_none());
    }

    #[test]
    fn a_written_run_is_the_run() {
        let mut random = Random::new(2);
        for _ in 0..50 {
            let set = sets::to_share(&mut random, PARTIES);
            let parties = parties::in_rule(&mut random);
            let run = second_runs::any(&mut random, &set, &parties, PARTIES);
            let mut console = second::console::Console::new(PARTIES);
            for line in second::console::lines(script(&run).as_bytes()) {
                assert_ne!(console.line(line), "?\n");
            }
            assert_eq!(console.state, run.state);
        }
    }

    /// The calls of a run that a recording can hold.
    fn recorded(run: &WholeRun) -> Vec<Step> {
        let steps = run.calls.iter().map(|made| made.step);
        steps.filter(|step| *step != Step::Post(16)).collect()
    }

    #[test]
    fn a_replay_with_the_same_owners_and_places_is_the_run() {
        let mut random = Random::new(3);
        let mut full = 0;
        for _ in 0..200 {
            let set: Set = sets::to_share(&mut random, PARTIES);
            let parties = parties::in_rule(&mut random);
            let run = second_runs::any(&mut random, &set, &parties, PARTIES);
            let recording = recording_of(&recorded(&run));
            let sheet = pack(&fields(&set));
            let (mut state, result) = replay::start(&sheet, &parties, PARTIES);
            assert_eq!(result, Ok(()));
            let mut reader = Reader::new(&recording);
            for made in run.calls.iter().filter(|made| made.step != Step::Post(16)) {
                assert_eq!(reader.next(&mut state), Replayed::Called(made.answer));
                full += u64::from(made.answer == Answer::Refused(Refusal::Full));
            }
            assert_eq!(reader.next(&mut state), Replayed::End);
            assert_eq!(state, run.state);
        }
        assert!(full > 200, "{full}");
    }
}
