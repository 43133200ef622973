//! `compare ontime CASES SEED`: no run of an accepted set that keeps every event limit misses a
//! deadline. Here only the library runs.
//!
//! With request 6 in force also that no run at all of an accepted set whose streams all have doors
//! misses one: the caller keeps no limit there. With request 8 in force about half of the runs are
//! those of two parties.

use std::io;

use second::load::{self, Verdict};
use second::parties::Parties;
use second::requests::{DOOR, PARTIES};
use second::set::Set;
use second::sheet::VERSION_2;

use crate::parties;
use crate::plays::{Plan, Play};
use crate::programs;
use crate::random::Random;
use crate::sets;
use crate::sheets;

const RUNS_OF_ACCEPTED_SET: u32 = 12;
const RUNS_OF_LATE_SET: u32 = 24;
/// A run is followed up to this clock.
const LAST_CLOCK: u32 = 400;

#[derive(Default)]
struct Counts {
    accepted_sets: u64,
    of_version_2: u64,
    with_stages: u64,
    runs: u64,
    posts: u64,
    units: u64,
    passed: u64,
    full: u64,
    late_sets: u64,
    late_sets_that_miss: u64,
    late_of_version_2: u64,
    late_of_version_2_that_miss: u64,
    refused_at_door: u64,
    with_doors: WithDoors,
    shared: Shared,
}

/// Of runs of two parties.
#[derive(Default)]
struct Shared {
    runs: u64,
    posts: u64,
    refused_as_full: u64,
}

impl Shared {
    fn count(&mut self, parties: &Parties, play: &Play) {
        if *parties != Parties::US_ALONE {
            self.runs += 1;
            self.posts += play.post_count;
            self.refused_as_full += play.no_place_count;
        }
    }
}

/// Of accepted sets whose streams all have doors.
#[derive(Default)]
struct WithDoors {
    sets: u64,
    runs: u64,
    posts: u64,
    refused: u64,
    units: u64,
}

/// Tries; whether no accepted set missed. A case is a random set whose costs were raised as far as
/// it is accepted, and, where there was one, the last of the late sets met on the way.
pub fn check(requests: u32, cases: u64, seed: u64) -> io::Result<bool> {
    let mut counts = Counts::default();
    for number in 0..cases {
        let mut random = Random::for_case(seed, number);
        let version = sets::version_to_run_on_time(&mut random, requests);
        let tight = loop {
            let set = sets::to_run_on_time(&mut random, version);
            if let Some(tight) = sets::tight(&mut random, set) {
                break tight;
            }
        };
        let accepted = &tight.accepted;
        if let Some(trace) = accepted_set_that_misses(&mut random, accepted, requests, &mut counts)
        {
            report(seed, number, accepted, &trace)?;
            print(number + 1, requests, &counts, 1);
            return Ok(false);
        }
        if requests >= DOOR {
            let set = accepted_set_with_doors(&mut random, version);
            if let Some(trace) = missed_with_doors(&mut random, &set, requests, &mut counts) {
                report(seed, number, &set, &trace)?;
                print(number + 1, requests, &counts, 1);
                return Ok(false);
            }
        }
        if let Some(late) = tight.late {
            let misses = u64::from(late_set_misses(&mut random, &late, requests));
            counts.late_sets += 1;
            counts.late_sets_that_miss += misses;
            if late.version == VERSION_2 {
                counts.late_of_version_2 += 1;
                counts.late_of_version_2_that_miss += misses;
            }
        }
    }
    print(cases, requests, &counts, 0);
    Ok(true)
}

/// Runs an accepted set in many ways. The trace of a run that misses, which there must not be.
fn accepted_set_that_misses(
    random: &mut Random,
    set: &Set,
    requests: u32,
    counts: &mut Counts,
) -> Option<String> {
    counts.accepted_sets += 1;
    counts.of_version_2 += u64::from(set.version == VERSION_2);
    let has_stages = set.used_streams().iter().any(|s| s.stage_count > 1);
    counts.with_stages += u64::from(has_stages);
    for run in 0..RUNS_OF_ACCEPTED_SET {
        let plan = match run {
            0 => Plan::early(),
            _ => Plan::any(random, set),
        };
        let parties = parties::to_run(random, requests);
        let mut play = Play::shared(set, &parties, requests);
        play.follow(random, &plan, LAST_CLOCK);
        counts.shared.count(&parties, &play);
        counts.runs += 1;
        counts.posts += play.post_count;
        counts.units += play.unit_count;
        counts.passed += play.passed_count;
        counts.full += play.full_count;
        counts.refused_at_door += play.door_count;
        if play.missed {
            return Some(play.trace);
        }
    }
    None
}

/// An accepted set whose streams all have doors.
fn accepted_set_with_doors(random: &mut Random, version: u32) -> Set {
    loop {
        let set = sets::to_run_on_time_with_doors(random, version);
        if let Some(tight) = sets::tight(random, set) {
            return tight.accepted;
        }
    }
}

/// Runs such a set in many ways, with posts as often as possible and at random, whatever the
/// limits. The trace of a run that misses, which there must not be.
fn missed_with_doors(
    random: &mut Random,
    set: &Set,
    requests: u32,
    counts: &mut Counts,
) -> Option<String> {
    counts.with_doors.sets += 1;
    for run in 0..RUNS_OF_ACCEPTED_SET {
        let plan = match run {
            0 => Plan::early(),
            _ => Plan::any(random, set),
        };
        let parties = parties::to_run(random, requests);
        let mut play = Play::shared(set, &parties, requests);
        play.follow(random, &plan, LAST_CLOCK);
        counts.shared.count(&parties, &play);
        let counts = &mut counts.with_doors;
        counts.runs += 1;
        counts.posts += play.post_count;
        counts.refused += play.door_count;
        counts.units += play.unit_count;
        if play.missed {
            return Some(play.trace);
        }
    }
    None
}

/// Looks for a run of a late set that misses. There need not be one: "Late is about what could
/// happen, so a set judged late may still run on time."
fn late_set_misses(random: &mut Random, set: &Set, requests: u32) -> bool {
    let Verdict::Late { length, .. } = load::verdict(set) else {
        return false;
    };
    (0..RUNS_OF_LATE_SET).any(|run| {
        let plan = match run {
            0 => Plan::critical(set, length),
            1 => Plan::early(),
            _ => Plan::any(random, set),
        };
        let mut play = Play::new(set, requests);
        play.follow(random, &plan, LAST_CLOCK);
        play.missed
    })
}

fn report(seed: u64, number: u64, set: &Set, trace: &str) -> io::Result<()> {
    let folder = programs::write_out(
        &format!("ontime-seed-{seed}-case-{number}"),
        &[
            ("set.bin", &sheets::of_set(set)),
            ("trace", trace.as_bytes()),
        ],
    )?;
    println!(
        "the accepted set of case {number} of seed {seed} misses a deadline, written to {}",
        folder.display()
    );
    Ok(())
}

fn print(cases: u64, requests: u32, counts: &Counts, missed: u64) {
    println!(
        "{cases} cases, {} accepted sets, {} runs, {} posts, {} units, {missed} missed",
        counts.accepted_sets, counts.runs, counts.posts, counts.units
    );
    println!(
        "{} accepted sets of version 2, {} with several stages, {} messages passed on, {} left with all costs of several stages used",
        counts.of_version_2, counts.with_stages, counts.passed, counts.full
    );
    println!(
        "{} late sets, {} with a run that misses; of version 2 {} and {}",
        counts.late_sets,
        counts.late_sets_that_miss,
        counts.late_of_version_2,
        counts.late_of_version_2_that_miss
    );
    if requests >= DOOR {
        let doors = &counts.with_doors;
        println!(
            "{} posts refused at a door; of {} accepted sets whose streams all have doors {} runs, {} posts accepted, {} refused with 15, {} units, {missed} missed",
            counts.refused_at_door, doors.sets, doors.runs, doors.posts, doors.refused, doors.units
        );
    }
    if requests >= PARTIES {
        let shared = &counts.shared;
        println!(
            "{} of the runs of two parties, {} posts accepted, {} refused as full, {missed} missed",
            shared.runs, shared.posts, shared.refused_as_full
        );
    }
}
