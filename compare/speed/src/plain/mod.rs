//! Plain Rust programs that do the same work as the proved ones, written as a Rust programmer
//! would: references, early returns, slices, and nothing computed twice.

pub mod load;
pub mod set;
pub mod sheet;
pub mod steps;

/// Two numbers in one, each by its lowest 32 bits.
fn halves(upper: u64, lower: u64) -> u64 {
    upper << 32 | lower & 0xffff_ffff
}

/// As [`crate::proved::read`].
pub fn read(sheet: &[u8], k: usize) -> u64 {
    match sheet::read(sheet) {
        Ok(set) => halves(0, set.streams.get(k).map_or(0, |s| s.deadline.into())),
        Err(number) => halves(number.into(), 0),
    }
}

/// As [`crate::proved::verdict`].
pub fn verdict(sheet: &[u8]) -> u64 {
    match sheet::read(sheet) {
        Ok(set) => match load::verdict(&set) {
            load::Verdict::Accept => halves(0, 0),
            load::Verdict::Late(length) => halves(256, length),
            load::Verdict::Overload => halves(257, 0),
            load::Verdict::Refused(number) => halves(number.into(), 0),
        },
        Err(number) => halves(number.into(), 0),
    }
}

/// As [`crate::proved::run`], by calls that take a state and give one back.
pub fn run(sheet: &[u8], calls: &[u8]) -> u64 {
    let set = sheet::read(sheet).unwrap_or(set::Set::EMPTY);
    let mut state = steps::State::start(&set);
    for &call in calls {
        let out = match call {
            0..=15 => steps::post(state, call.into()),
            _ => steps::unit(state, call != 16),
        };
        state = out.state;
    }
    halves(state.count as u64, state.clock.into())
}

/// As [`crate::proved::run`], by calls that change one state in place.
pub fn run_in_place(sheet: &[u8], calls: &[u8]) -> u64 {
    let set = sheet::read(sheet).unwrap_or(set::Set::EMPTY);
    let mut state = steps::State::start(&set);
    for &call in calls {
        match call {
            0..=15 => state.post(call.into()),
            _ => state.unit(call != 16),
        };
    }
    halves(state.count as u64, state.clock.into())
}
