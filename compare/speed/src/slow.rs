//! The second program's answers in the same numbers: a third opinion on every result.

use second::load::Verdict;
use second::requests::IN_FORCE;
use second::set::Set;
use second::state::State;

pub fn read(sheet: &[u8], k: usize) -> u64 {
    match second::sheet::read(sheet, IN_FORCE) {
        Ok(set) => set
            .streams
            .get(k)
            .map_or(0, |stream| stream.deadline.into()),
        Err(refusal) => u64::from(refusal.number()) << 32,
    }
}

pub fn verdict(sheet: &[u8]) -> u64 {
    let verdict = match second::sheet::read(sheet, IN_FORCE) {
        Ok(set) => second::load::verdict(&set),
        Err(refusal) => Verdict::Refused(refusal),
    };
    match verdict {
        Verdict::Accept => 0,
        Verdict::Late { length, .. } => 256 << 32 | length,
        Verdict::Overload => 257 << 32,
        Verdict::Refused(refusal) => u64::from(refusal.number()) << 32,
    }
}

pub fn run(sheet: &[u8], calls: &[u8]) -> u64 {
    let set = second::sheet::read(sheet, IN_FORCE).unwrap_or(Set::EMPTY);
    let (mut state, _) = State::start(&set, IN_FORCE);
    for &call in calls {
        match call {
            0..=15 => state.post(call.into()),
            _ => state.unit(call != 16),
        };
    }
    u64::from(state.pending) << 32 | u64::from(state.clock)
}
