//! The examples of the requests: each file in `examples/` is a request's section of the document
//! of examples as it stands there, with console scripts and what they must print. "Each section is
//! at the level of its request: that request and those before it are in force."

mod common;

use common::said_with;
use second::requests::{
    DOOR, JITTER_BOTH_WAYS, LESS_STACK, PIECES, RENDERED, REPLAY, RESUMABLE, STAGES,
};

/// The scripts of a section, each with what it must print: a block, a line `prints`, a block.
fn scripts(section: &str) -> Vec<(&str, &str)> {
    let parts: Vec<&str> = section.split("```\n").collect();
    let blocks: Vec<&str> = parts.iter().skip(1).step_by(2).copied().collect();
    let between: Vec<&str> = parts.iter().skip(2).step_by(2).copied().collect();
    assert_eq!(parts.len(), 2 * blocks.len() + 1, "a block has no end");
    assert!(blocks.len().is_multiple_of(2), "a script prints nothing");
    assert!(between.iter().step_by(2).all(|text| *text == "prints\n"));
    blocks.chunks(2).map(|pair| (pair[0], pair[1])).collect()
}

fn check(request: u32, section: &str, count: usize) {
    let scripts = scripts(section);
    assert_eq!(scripts.len(), count);
    for (script, prints) in scripts {
        assert_eq!(said_with(request, script), prints, "{script}");
    }
}

#[test]
fn request_1_replay() {
    check(REPLAY, include_str!("examples/cr-01.md"), 5);
}

#[test]
fn request_2_jitter_both_ways() {
    check(JITTER_BOTH_WAYS, include_str!("examples/cr-02.md"), 3);
}

#[test]
fn request_3_less_stack_in_choosing() {
    check(LESS_STACK, include_str!("examples/cr-03.md"), 3);
    // "No answer changes."
    for requests in 0..LESS_STACK {
        check(requests, include_str!("examples/cr-03.md"), 3);
    }
}

#[test]
fn request_4_stages() {
    check(STAGES, include_str!("examples/cr-04.md"), 6);
}

#[test]
fn request_5_pieces() {
    check(PIECES, include_str!("examples/cr-05.md"), 3);
}

#[test]
fn request_6_the_door() {
    check(DOOR, include_str!("examples/cr-06.md"), 4);
}

#[test]
fn request_7_resumable_check() {
    check(RESUMABLE, include_str!("examples/cr-07.md"), 4);
}

#[test]
fn earlier_examples_stay_as_they_were() {
    for requests in REPLAY..=RENDERED {
        check(requests, include_str!("examples/cr-01.md"), 5);
    }
    for requests in JITTER_BOTH_WAYS..=RENDERED {
        check(requests, include_str!("examples/cr-02.md"), 3);
    }
    for requests in LESS_STACK..=RENDERED {
        check(requests, include_str!("examples/cr-03.md"), 3);
    }
    // With the door, `state` prints more.
    for requests in STAGES..=PIECES {
        check(requests, include_str!("examples/cr-04.md"), 6);
    }
    for requests in PIECES..=RENDERED {
        check(requests, include_str!("examples/cr-05.md"), 3);
    }
    for requests in DOOR..=RENDERED {
        check(requests, include_str!("examples/cr-06.md"), 4);
    }
    for requests in RESUMABLE..=RENDERED {
        check(requests, include_str!("examples/cr-07.md"), 4);
    }
}
