//! Scenes about two parties: owners and places at a start, parties that have their number pending,
//! and owners and places put by hand.

use second::parties::{Parties, Party, Places};
use second::requests::PARTIES;
use second::set::STREAM_PLACES;
use second::state::MESSAGE_PLACES;

use super::{around, read_line, Script};
use crate::parties;
use crate::sets;
use crate::sheets;

impl Script<'_> {
    /// A start. With request 8 in force owners and places are often put before it, and those that
    /// are out of rule mostly put right.
    pub(super) fn say_start(&mut self) {
        if self.in_force(PARTIES) {
            let in_rule = self.console.parties.places.in_rule();
            match self.random.below(8) {
                0..=2 => self.share(),
                3..=4 => self.put_parties(&Parties::US_ALONE),
                _ if in_rule || self.random.one_in(10) => {}
                _ => self.share(),
            }
        }
        self.say("start");
    }

    /// Puts owners and places that are in rule, the owners mostly of streams that the set has.
    fn share(&mut self) {
        let mut parties = parties::in_rule(self.random);
        if !self.random.one_in(8) {
            let count = (self.set().count as usize).min(STREAM_PLACES);
            parties.owners[count..].copy_from_slice(&self.console.parties.owners[count..]);
        }
        self.put_parties(&parties);
    }

    /// Puts owners and places where the console has others.
    fn put_parties(&mut self, parties: &Parties) {
        let now = self.console.parties;
        let mut puts = Vec::new();
        for (place, owner) in parties.owners.iter().enumerate() {
            if now.owners[place] != *owner {
                puts.push(format!("owner {place} {}", owner.number()));
            }
        }
        if now.places != parties.places {
            puts.push(places_line("places", parties.places));
        }
        self.random.shuffle(&mut puts);
        for put in puts {
            self.say(put);
        }
    }

    /// A started state of two parties.
    fn start_shared(&mut self) {
        let requests = self.console.requests;
        let set = match self.random.below(6) {
            0 => sets::any(self.random, requests),
            1 => sets::small_with_doors(self.random, requests),
            _ => sets::to_share(self.random, requests),
        };
        match self.random.below(8) {
            0 => self.put_set(&set),
            _ => self.say(read_line(&sheets::of_set(&set))),
        }
        self.share();
        self.say("start");
    }

    /// The streams of the state's set that a party owns.
    fn streams_of(&self, party: Party) -> Vec<u32> {
        let state = self.state();
        let streams = 0..state.set.count.min(STREAM_PLACES as u32);
        streams
            .filter(|&stream| state.parties.owners[stream as usize] == party)
            .collect()
    }

    /// How many messages each party has pending, as far as they name a stream place.
    fn pending_by_party(&self) -> [u32; 2] {
        let state = self.state();
        let pending = (state.pending as usize).min(MESSAGE_PLACES);
        let owners = state.messages[..pending]
            .iter()
            .filter_map(|message| state.parties.owners.get(message.stream as usize));
        let mut counts = [0; 2];
        for owner in owners {
            counts[owner.number() as usize] += 1;
        }
        counts
    }

    /// Both parties post until they have their numbers pending, and again when messages leave.
    pub(super) fn parties_run(&mut self) {
        self.start_shared();
        for _ in 0..self.random.between(2, 8) {
            match self.random.below(5) {
                0..=1 => {
                    let party = self.random.pick(&Party::BOTH);
                    self.posts_until_full(party);
                }
                2 => {
                    for _ in 0..self.random.between(1, 12) {
                        let unit = self.random.pick(&["unit", "unit", "done"]);
                        self.say(unit);
                    }
                }
                3 => self.leaves_and_posts(),
                _ => {
                    for _ in 0..self.random.between(3, 15) {
                        self.step();
                    }
                }
            }
        }
        self.say("state");
    }

    /// Posts of a party, up to its number and one or two more.
    fn posts_until_full(&mut self, party: Party) {
        let streams = self.streams_of(party);
        if streams.is_empty() {
            return;
        }
        let places = self.state().parties.places.of(party);
        let pending = self.pending_by_party()[party.number() as usize];
        let posts = places.saturating_sub(pending).min(MESSAGE_PLACES as u32);
        for _ in 0..posts + self.random.between(0, 2) {
            let stream = self.random.pick(&streams);
            self.say(format!("post {stream}"));
        }
    }

    /// Messages leave, and after each both parties post.
    fn leaves_and_posts(&mut self) {
        for _ in 0..self.random.between(1, 6) {
            self.say("done");
            for party in Party::BOTH {
                let streams = self.streams_of(party);
                if !streams.is_empty() {
                    let stream = self.random.pick(&streams);
                    self.say(format!("post {stream}"));
                }
            }
        }
    }

    /// Starts with places at, just below and just above 64, and far above it; with sets out of rule
    /// too, as 7 comes before 16; and with owners of streams that the set does not have.
    pub(super) fn places_at_start(&mut self) {
        let set = match self.random.below(2) {
            0 => sets::small(self.random, self.console.requests),
            _ => sets::to_share(self.random, self.console.requests),
        };
        self.say(read_line(&sheets::of_set(&set)));
        for _ in 0..self.random.between(2, 8) {
            let places = parties::places_near_limit(self.random);
            self.say(places_line("places", places));
            if self.random.one_in(3) {
                let place = around(self.random, &[self.set().count, STREAM_PLACES as u32 - 1]);
                let party = self.random.pick(&[0, 1, 1]);
                self.say(format!("owner {place} {party}"));
            }
            let count = self.set().count;
            let spoiled = self.random.one_in(6);
            if spoiled {
                let count = self.random.pick(&[17, count + 1]);
                self.say(format!("streams {count}"));
            }
            self.say("start");
            self.say("state");
            self.step();
            if spoiled {
                self.say(format!("streams {count}"));
            }
        }
        self.share();
        self.say("start");
    }

    /// Lines that put an owner or the places of the state: places at, just below or just above what
    /// is pending or what there is, owners of streams that are pending, and of unused streams.
    pub(super) fn party_fault(&mut self) -> Vec<String> {
        let count = self.state().set.count.min(STREAM_PLACES as u32);
        let [ours, theirs] = self.pending_by_party();
        let mut places = self.state().parties.places;
        match self.random.below(8) {
            0..=1 => {
                let stream = self.random.between(0, count.saturating_sub(1));
                let owner = self.state().parties.owners[stream as usize];
                vec![format!("owns {stream} {}", owner.other().number())]
            }
            2 => {
                let place = self.random.pick(&[count, STREAM_PLACES as u32 - 1]);
                let place = place.min(STREAM_PLACES as u32 - 1);
                vec![format!("owns {place} {}", self.random.pick(&[0, 1, 1]))]
            }
            3..=4 => {
                places.ours = around(self.random, &[ours]);
                vec![places_line("room", places)]
            }
            5..=6 => {
                places.theirs = around(self.random, &[theirs]);
                vec![places_line("room", places)]
            }
            _ => {
                let places = parties::places_near_limit(self.random);
                vec![places_line("room", places)]
            }
        }
    }

    /// Owners and places put by hand, each with calls behind it, and then put back where they broke
    /// the rules.
    pub(super) fn parties_by_hand(&mut self) {
        self.start_shared();
        for party in Party::BOTH {
            self.posts_until_full(party);
        }
        for _ in 0..self.random.between(2, 10) {
            let before = self.state().clone();
            for put in self.party_fault() {
                self.say(put);
            }
            self.say("formed");
            for _ in 0..self.random.between(1, 4) {
                self.step();
            }
            match self.random.below(3) {
                0 => self.leaves_and_posts(),
                1 => self.say("next"),
                _ => self.say("state"),
            }
            if !self.state().well_formed() {
                self.put_state_back(&before);
                self.say("formed");
            }
        }
        self.say("state");
    }

    /// 15 before 2, and a post that is refused by 2 leaves the wait as it was: doors that open
    /// while a party has its number pending.
    pub(super) fn full_party_at_the_door(&mut self) {
        self.start_shared();
        let doors = self.doors();
        if doors.is_empty() {
            return self.parties_run();
        }
        for _ in 0..self.random.between(3, 10) {
            let (place, door) = self.random.pick(&doors);
            let owner = self.state().parties.owners[place];
            if self.random.one_in(2) {
                self.posts_until_full(owner);
            }
            self.units_until(place, door);
            self.say(format!("post {place}"));
            self.say(format!("post {place}"));
            if self.random.one_in(4) {
                self.say("state");
            }
        }
        self.say("state");
    }

    /// Puts places that are enough for the messages that were put by hand, where there are not.
    pub(super) fn fit_room(&mut self) {
        let places = self.state().parties.places;
        let [ours, theirs] = self.pending_by_party();
        if !self.in_force(PARTIES) || ours <= places.ours && theirs <= places.theirs {
            return;
        }
        let spare = self
            .random
            .between(0, MESSAGE_PLACES as u32 - ours - theirs);
        let more = self.random.between(0, spare);
        self.say(places_line(
            "room",
            Places {
                ours: ours + more,
                theirs: theirs + spare - more,
            },
        ));
    }

    /// Puts the owners and places back that differ from an earlier state.
    pub(super) fn put_parties_back(&mut self, before: &Parties) {
        let now = self.state().parties;
        for (place, owner) in before.owners.iter().enumerate() {
            if now.owners[place] != *owner {
                self.say(format!("owns {place} {}", owner.number()));
            }
        }
        if now.places != before.places {
            self.say(places_line("room", before.places));
        }
    }
}

fn places_line(name: &str, places: Places) -> String {
    format!("{name} {} {}", places.ours, places.theirs)
}
