//! Sets of documents 01 and 02 for the tests, and what a console script prints.

#![allow(dead_code)]

use second::console::{lines, Console};
use second::requests::RENDERED;
use second::set::{Set, Stage, Stream, Tuple};
use second::sheet::VERSION_2;

/// All that a script prints with the requests up to a number in force.
pub fn said_with(requests: u32, script: &str) -> String {
    let mut console = Console::new(requests);
    lines(script.as_bytes())
        .map(|line| console.line(line))
        .collect()
}

/// All that a script prints once a request is in force, 0 for from the beginning: the requests
/// behind it do not change it.
pub fn said_from(request: u32, script: &str) -> String {
    said_between(request, RENDERED, script)
}

/// All that a script prints once a request is in force, and until one comes that changes it.
pub fn said_between(request: u32, last: u32, script: &str) -> String {
    let said = said_with(request, script);
    for requests in request..=last {
        assert_eq!(said_with(requests, script), said, "{requests}: {script}");
    }
    said
}

pub fn once(offset: u32) -> Tuple {
    Tuple::Once { offset }
}

pub fn every(cycle: u32, offset: u32) -> Tuple {
    Tuple::Every { cycle, offset }
}

pub fn stream(task: u32, cost: u32, deadline: u32, tuples: &[Tuple]) -> Stream {
    staged(&[(task, cost)], deadline, tuples)
}

/// A stream of stages, each a task and a cost.
pub fn staged(stages: &[(u32, u32)], deadline: u32, tuples: &[Tuple]) -> Stream {
    let mut stream = Stream::UNUSED;
    stream.stage_count = stages.len() as u32;
    for (place, &(task, cost)) in stages.iter().enumerate() {
        stream.stages[place] = Stage { task, cost };
    }
    stream.deadline = deadline;
    stream.tuple_count = tuples.len() as u32;
    stream.tuples[..tuples.len()].copy_from_slice(tuples);
    stream
}

/// "Set B: stream 0 task 0, c 2, d 5; stream 1 task 0, c 4, d 20; stream 2 task 1, c 2, d 8; each
/// every 20 from 0."
pub fn set_b() -> Set {
    Set::of(&[
        stream(0, 2, 5, &[every(20, 0)]),
        stream(0, 4, 20, &[every(20, 0)]),
        stream(1, 2, 8, &[every(20, 0)]),
    ])
}

/// The set of W3 with the given task and cost of its second stream.
pub fn set_w3(task: u32, cost: u32) -> Set {
    Set::of(&[
        stream(0, 2, 5, &[every(10, 0)]),
        stream(task, cost, 20, &[every(20, 0)]),
    ])
}

/// "W12 One stream, task 3, c 2, d 5, every 10 from 0".
pub fn set_w12() -> Set {
    Set::of(&[stream(3, 2, 5, &[every(10, 0)])])
}

pub const SHEET_W12: [u8; 11] = [
    0x10, 0x98, 0x00, 0x10, 0x00, 0x0A, 0x00, 0x00, 0x50, 0x00, 0x00,
];

/// 16 streams of 4 tuples, all numbers at their greatest.
pub fn full_set() -> Set {
    let tuples = [
        every(1_000_000, 0),
        every(1_000_000, 100_000),
        once(100_000),
        every(1_000_000, 100_000),
    ];
    Set::of(&[stream(15, 65_535, 200_000, &tuples); 16])
}

/// (1, 2 then 4, 3; 12; every 50) and (4, 2; 30; every 50), of version 2.
pub fn set_of_stages() -> Set {
    Set::of_version(
        VERSION_2,
        &[
            staged(&[(1, 2), (4, 3)], 12, &[every(50, 0)]),
            staged(&[(4, 2)], 30, &[every(50, 0)]),
        ],
    )
}

/// The full set's streams with four stages each, all numbers at their greatest.
pub fn full_set_of_stages() -> Set {
    let mut set = full_set();
    set.version = VERSION_2;
    for stream in &mut set.streams {
        stream.stage_count = 4;
        stream.stages = [stream.stages[0]; 4];
    }
    set
}
