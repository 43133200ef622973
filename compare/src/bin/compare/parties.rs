//! Random owners and places of the two parties.

use second::parties::{Owners, Parties, Party, Places};
use second::requests::PARTIES;
use second::set::STREAM_PLACES;
use second::state::MESSAGE_PLACES;

use crate::random::Random;

/// All the places of the table.
const ALL: u32 = MESSAGE_PLACES as u32;

/// Any owners, of streams that a set may not have too.
pub fn owners(random: &mut Random) -> Owners {
    let ours = random.between(1, 4);
    [(); STREAM_PLACES].map(|()| {
        if random.between(1, 5) <= ours {
            Party::Ours
        } else {
            Party::Theirs
        }
    })
}

/// Places that are together at most 64: mostly few, so that a party soon has its number pending.
pub fn places_in_rule(random: &mut Random) -> Places {
    let (ours, theirs) = match random.below(10) {
        0 => random.pick(&[(ALL, 0), (0, ALL), (ALL / 2, ALL / 2)]),
        1 => {
            let ours = random.between(0, ALL);
            (ours, ALL - ours)
        }
        2 => {
            let ours = random.between(0, ALL);
            (ours, random.between(0, ALL - ours))
        }
        3 => (random.between(0, 2), random.between(0, 2)),
        _ => (random.between(1, 8), random.between(1, 8)),
    };
    Places { ours, theirs }
}

/// Places that are together 64, one less or one more, or far too many: also such that a sum of 32
/// bits is small again.
pub fn places_near_limit(random: &mut Random) -> Places {
    let (ours, theirs) = match random.below(8) {
        0..=2 => {
            let together = random.between(ALL - 1, ALL + 1);
            let ours = random.between(0, together);
            (ours, together - ours)
        }
        3 => random.pick(&[(ALL, 0), (0, ALL), (ALL + 1, 0), (0, ALL + 1), (ALL, ALL)]),
        4..=5 => {
            let ours = random.pick(&[1, ALL, 1 << 31, u32::MAX]);
            let small = random.between(0, ALL + 1);
            (ours, ours.wrapping_neg().wrapping_add(small))
        }
        6 => random.pick(&[(u32::MAX, 0), (0, u32::MAX), (u32::MAX, u32::MAX)]),
        _ => (random.number(), random.number()),
    };
    let (ours, theirs) = if random.one_in(2) {
        (theirs, ours)
    } else {
        (ours, theirs)
    };
    Places { ours, theirs }
}

/// Owners and places for a start.
pub fn in_rule(random: &mut Random) -> Parties {
    Parties {
        owners: owners(random),
        places: places_in_rule(random),
    }
}

/// The same for a run with the requests up to a number in force: one party in every other, and
/// before request 8 always.
pub fn to_run(random: &mut Random, requests: u32) -> Parties {
    if requests < PARTIES || random.one_in(2) {
        return Parties::US_ALONE;
    }
    in_rule(random)
}

#[cfg(test)]
mod tests {
    use super::*;

    #[test]
    fn places_are_met_on_both_sides_of_their_limit() {
        let mut random = Random::new(1);
        let (mut at, mut above, mut wrapped) = (0, 0, 0);
        for _ in 0..2_000 {
            assert!(places_in_rule(&mut random).in_rule());
            let places = places_near_limit(&mut random);
            let sum = u64::from(places.ours) + u64::from(places.theirs);
            assert_eq!(places.in_rule(), sum <= 64);
            at += u32::from(sum == 64);
            above += u32::from(sum == 65);
            wrapped += u32::from(sum > 64 && places.ours.wrapping_add(places.theirs) <= 64);
        }
        assert!(
            at > 100 && above > 100 && wrapped > 100,
            "{at} {above} {wrapped}"
        );
    }

    #[test]
    fn most_owners_are_of_both_parties() {
        let mut random = Random::new(2);
        let both = (0..1_000)
            .filter(|_| {
                let owners = owners(&mut random);
                Party::BOTH.iter().all(|party| owners[..3].contains(party))
            })
            .count();
        assert!(both > 500, "{both}");
    }

    #[test]
    fn before_the_request_there_is_one_party_and_nothing_is_drawn() {
        let (mut random, mut other) = (Random::new(3), Random::new(3));
        for requests in 0..PARTIES {
            assert_eq!(to_run(&mut random, requests), Parties::US_ALONE);
        }
        assert_eq!(random.number(), other.number());
        let shared = (0..100).filter(|_| to_run(&mut random, PARTIES) != Parties::US_ALONE);
        assert!(shared.count() > 20);
    }
}
