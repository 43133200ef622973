//! Runs that keep every event limit, made to miss a deadline if that can be done.
//!
//! With request 6 in force the caller keeps the limits of streams without a door alone: "demand 3
//! keeps its event-limit condition only for those". The others are posted as often as the plan
//! likes, and the door refuses what comes too early.
//!
//! With request 8 in force the streams may be those of two parties: "Demand 3 holds for both
//! parties over the joint set."

use second::door::keeps_limit;
use second::parties::Parties;
use second::refusal::Refusal;
use second::requests::DOOR;
use second::set::{Set, Stream, GREATEST_TASK, STAGE_PLACES, STREAM_PLACES};
use second::sheet::VERSION_2;
use second::state::{Answer, Message, State};

use crate::random::Random;

/// When a unit is called with done.
#[derive(Clone, Copy)]
pub enum Done {
    Never,
    /// Once in so many times.
    OneIn(u64),
    /// On the last unit a message may use in each stage: it passes and finishes so, with all its
    /// costs used.
    OnLast,
    /// On the last unit of each stage before the last: it passes so, and is cut at its last stage,
    /// with all its costs used. With one stage that is never.
    OnLastBeforeLastStage,
    /// On the last unit of a stage, but once in so many times it is cut there.
    OnLastButOneIn(u64),
    /// At each stage of each stream on the first unit if the plan says so, else on the last.
    ByStage([[bool; STAGE_PLACES]; STREAM_PLACES]),
}

/// A message that is posted and brought into a stage, of which it then uses a unit.
#[derive(Clone, Copy)]
pub struct Opener {
    pub stream: usize,
    pub stage: usize,
}

/// How a run is made.
pub struct Plan {
    /// Messages that are started first, one after the other.
    pub openers: Vec<Opener>,
    /// The clock from which a stream is posted, counted from after the openers.
    pub from: [u32; STREAM_PLACES],
    /// A post that the limit allows is made once in so many times.
    pub post_one_in: u64,
    /// A stream waits until one of its tasks has just started a message of a longer deadline, if
    /// its tasks have such messages.
    pub wait_for_start: bool,
    /// Streams are posted in their order, or in any.
    pub in_order: bool,
    pub done: Done,
}

impl Plan {
    /// All streams at once, each as early as its limit allows, and each message with all its
    /// costs: done only to pass to its next stage.
    pub fn early() -> Plan {
        Plan {
            openers: Vec::new(),
            from: [0; STREAM_PLACES],
            post_one_in: 1,
            wait_for_start: false,
            in_order: true,
            done: Done::OnLastBeforeLastStage,
        }
    }

    /// The messages that block most at a length are started one after the other, the later due
    /// first, and then all streams with deadlines up to that length come at once.
    pub fn critical(set: &Set, length: u64) -> Plan {
        let is_urgent = |stream: &Stream| u64::from(stream.deadline) <= length;
        let streams = set.used_streams();
        let is_on = |stream: &Stream, task| stream.used_stages().iter().any(|s| s.task == task);
        let stages_that_block = |task| {
            (0..streams.len())
                .filter(|&place| !is_urgent(&streams[place]))
                .flat_map(|stream| {
                    (0..streams[stream].used_stages().len())
                        .map(move |stage| Opener { stream, stage })
                })
                .filter(move |&opener| streams[opener.stream].stages[opener.stage].task == task)
        };
        let cost_of = |opener: &Opener| streams[opener.stream].stages[opener.stage].cost;
        let mut openers: Vec<Opener> = (0..=GREATEST_TASK)
            .filter(|&task| streams.iter().any(|s| is_on(s, task) && is_urgent(s)))
            .filter_map(|task| {
                stages_that_block(task)
                    .filter(|opener| cost_of(opener) > 1)
                    .max_by_key(cost_of)
            })
            .collect();
        openers.sort_by_key(|opener| std::cmp::Reverse(streams[opener.stream].deadline));
        let mut plan = Plan {
            openers,
            ..Plan::early()
        };
        for (from, stream) in plan.from.iter_mut().zip(streams) {
            if !is_urgent(stream) {
                *from = u32::MAX;
            }
        }
        plan
    }

    /// Any plan for a set.
    pub fn any(random: &mut Random, set: &Set) -> Plan {
        let streams = set.used_streams();
        let mut plan = if random.one_in(2) {
            let urgent = &streams[random.index(streams.len())];
            let mut plan = Plan::critical(set, u64::from(urgent.deadline));
            if random.one_in(2) {
                plan.from = [0; STREAM_PLACES];
            }
            plan
        } else {
            Plan::early()
        };
        if random.one_in(3) {
            let latest = random.pick(&[2, 8, 40]);
            for from in &mut plan.from {
                *from = from.saturating_add(random.between(0, latest));
            }
        }
        plan.post_one_in = random.pick(&[1, 1, 1, 2, 6]);
        plan.wait_for_start = random.one_in(3);
        plan.in_order = random.one_in(2);
        plan.done = match set.version {
            VERSION_2 => Done::any_with_stages(random),
            _ => random.pick(&[
                Done::Never,
                Done::Never,
                Done::OnLast,
                Done::OneIn(3),
                Done::OneIn(12),
            ]),
        };
        plan
    }
}

impl Done {
    /// Any way for a set of streams with stages; in most of them every message uses all its costs.
    fn any_with_stages(random: &mut Random) -> Done {
        match random.below(12) {
            0 => Done::Never,
            1 => Done::OneIn(3),
            2 => Done::OneIn(12),
            3 => Done::OnLastButOneIn(random.pick(&[2, 4, 8])),
            4..=6 => Done::OnLast,
            7..=9 => Done::OnLastBeforeLastStage,
            _ => {
                let one_in = random.pick(&[2, 4]);
                let mut quick = [[false; STAGE_PLACES]; STREAM_PLACES];
                for stage in quick.iter_mut().flatten() {
                    *stage = random.one_in(one_in);
                }
                Done::ByStage(quick)
            }
        }
    }
}

/// The most units that are spent on bringing one message into its stage.
const UNITS_TO_OPEN: u32 = 60;

/// A run while it is made.
pub struct Play<'a> {
    set: &'a Set,
    requests: u32,
    state: State,
    /// The clocks of each stream's accepted posts.
    posts: Vec<Vec<u32>>,
    /// The clock after the openers.
    opened: u32,
    /// The same run for the trace program.
    pub trace: String,
    /// How many posts were accepted.
    pub post_count: u64,
    /// How many were refused at a door.
    pub door_count: u64,
    /// How many were refused as their party had its number pending.
    pub no_place_count: u64,
    pub unit_count: u64,
    /// How many messages passed to their next stage.
    pub passed_count: u64,
    /// How many left with all the costs of all their stages used, of streams with several.
    pub full_count: u64,
    /// The units that the pending messages have used in the stages behind them, in posting order.
    used_before: Vec<u64>,
    /// Whether a message was still pending when the clock was at its deadline, or left with a
    /// negative laxity, or a unit was refused.
    pub missed: bool,
}

impl<'a> Play<'a> {
    pub fn new(set: &'a Set, requests: u32) -> Play<'a> {
        Play::shared(set, &Parties::US_ALONE, requests)
    }

    /// A run of two parties.
    pub fn shared(set: &'a Set, parties: &Parties, requests: u32) -> Play<'a> {
        let (state, _) = State::start_shared(set, parties, requests);
        Play {
            set,
            requests,
            state,
            posts: vec![Vec::new(); set.count as usize],
            opened: 0,
            trace: String::new(),
            post_count: 0,
            door_count: 0,
            no_place_count: 0,
            unit_count: 0,
            passed_count: 0,
            full_count: 0,
            used_before: Vec::new(),
            missed: false,
        }
    }

    /// Makes the run up to a clock, or up to its first miss.
    pub fn follow(&mut self, random: &mut Random, plan: &Plan, last_clock: u32) {
        for &opener in &plan.openers {
            self.open(opener);
        }
        self.opened = self.state.clock;
        let mut order: Vec<usize> = (0..self.posts.len()).collect();
        while self.state.clock < last_clock && !self.missed {
            if !plan.in_order {
                random.shuffle(&mut order);
            }
            for &stream in &order {
                self.post_by_plan(random, plan, stream);
            }
            let done = self.done_by_plan(random, plan);
            self.unit(done);
        }
    }

    /// Posts a message and brings it into its stage by the fewest units, then runs one unit there.
    /// Messages that are served before it run on.
    fn open(&mut self, opener: Opener) {
        if !self.post_if_allowed(opener.stream) || opener.stage == 0 {
            return self.unit(false);
        }
        let mut opened = *self.state.pending_messages().last().expect("just posted");
        for _ in 0..UNITS_TO_OPEN {
            let is_it = self.state.chosen_message() == Some(&opened);
            let passes = is_it && (opened.stage as usize) < opener.stage;
            self.unit(passes);
            if passes {
                opened.stage += 1;
            } else if is_it || self.missed {
                return;
            }
        }
    }

    fn post_by_plan(&mut self, random: &mut Random, plan: &Plan, stream: usize) {
        let begin = plan.from[stream].saturating_add(self.opened);
        if self.state.clock < begin || plan.wait_for_start && !self.time_to_disturb(stream) {
            return;
        }
        while random.one_in(plan.post_one_in) && self.post_if_allowed(stream) {}
    }

    /// Whether a task of a stream has just started a message of a longer deadline, or there are no
    /// such streams.
    fn time_to_disturb(&self, stream: usize) -> bool {
        let urgent = &self.set.streams[stream];
        let is_on = |task: u32| urgent.used_stages().iter().any(|stage| stage.task == task);
        let longer = |other: &Stream| other.deadline > urgent.deadline;
        let shares = |other: &Stream| other.used_stages().iter().any(|stage| is_on(stage.task));
        !self
            .set
            .used_streams()
            .iter()
            .any(|other| shares(other) && longer(other))
            || self.state.pending_messages().iter().any(|message| {
                message.used == 1
                    && is_on(self.state.stage_of(message).task)
                    && longer(self.state.stream_of(message))
            })
    }

    fn done_by_plan(&self, random: &mut Random, plan: &Plan) -> bool {
        let Some(message) = self.state.chosen_message() else {
            return false;
        };
        // The next unit is the last one of its stage exactly if it would cut the message.
        let last_unit = message.used + 1 == self.state.stage_of(message).cost;
        let last_stage = message.stage + 1 == self.state.stream_of(message).stage_count;
        match plan.done {
            Done::Never => false,
            Done::OneIn(times) => random.one_in(times),
            Done::OnLast => last_unit,
            Done::OnLastBeforeLastStage => last_unit && !last_stage,
            Done::OnLastButOneIn(times) => last_unit && !random.one_in(times),
            Done::ByStage(quick) => {
                last_unit || quick[message.stream as usize][message.stage as usize]
            }
        }
    }

    /// Posts if the event limit is kept, or whatever the limit where a door keeps it; whether it
    /// was accepted.
    fn post_if_allowed(&mut self, stream: usize) -> bool {
        let clock = self.state.clock;
        let has_door = self.requests >= DOOR && self.set.streams[stream].door().is_some();
        if !has_door && !keeps_limit(&self.set.streams[stream], &self.posts[stream], clock) {
            return false;
        }
        match self.state.post(stream as u32) {
            Answer::Posted { .. } => {
                self.posts[stream].push(clock);
                self.used_before.push(0);
                self.trace += &format!("p{stream:x}");
                self.post_count += 1;
                true
            }
            Answer::Refused(Refusal::AtTheDoor) => {
                self.door_count += 1;
                false
            }
            Answer::Refused(Refusal::Full) => {
                self.no_place_count += 1;
                false
            }
            _ => false,
        }
    }

    fn unit(&mut self, done: bool) {
        let chosen = self.state.chosen_place();
        let before = chosen.map(|place| (place, self.state.messages[place]));
        let answer = self.state.unit(done);
        self.trace.push(if done { 'd' } else { 'u' });
        self.unit_count += 1;
        // No unit of these runs may be refused either, and the run could not go on.
        let failed = match answer {
            Answer::Finished { laxity, .. } | Answer::Cut { laxity, .. } => laxity < 0,
            Answer::Refused(_) => true,
            _ => false,
        };
        let due = self
            .state
            .pending_messages()
            .iter()
            .any(|message| message.deadline <= self.state.clock);
        self.missed |= failed || due;
        if let Some((place, message)) = before {
            self.count(place, &message, &answer);
        }
    }

    /// Counts what became of the message that ran.
    fn count(&mut self, place: usize, message: &Message, answer: &Answer) {
        let used = u64::from(message.used) + 1;
        match answer {
            Answer::Passed { .. } => {
                self.passed_count += 1;
                self.used_before[place] += used;
            }
            Answer::Finished { .. } | Answer::Cut { .. } => {
                let stream = &self.set.streams[message.stream as usize];
                let all = self.used_before.remove(place) + used;
                if stream.stage_count > 1 && all == stream.cost_of_all_stages() {
                    self.full_count += 1;
                }
            }
            _ => {}
        }
    }
}

#[cfg(test)]
mod tests {
    use super::*;
    use crate::sets;
    use second::load;
    use second::load::Verdict;
    use second::requests::RENDERED;

    /// The sentence of document 01, with every window of the posts tried.
    fn keeps_every_window(stream: &Stream, posts: &[u32]) -> bool {
        let last = posts.iter().copied().max().unwrap_or(0);
        (0..=last).all(|begin| {
            (0..=last - begin).all(|length| {
                let window = begin..=begin + length;
                let count = posts.iter().filter(|post| window.contains(post)).count();
                count as u64 <= stream.event_limit(u64::from(length))
            })
        })
    }

    #[test]
    fn a_post_is_allowed_exactly_if_every_window_keeps_the_limit() {
        let mut random = Random::new(1);
        let (mut allowed, mut refused) = (0, 0);
        for _ in 0..300 {
            let set = sets::small(&mut random, RENDERED);
            for stream in set.used_streams() {
                let mut posts = Vec::new();
                for clock in 0..30 {
                    while !random.one_in(3) {
                        let mut with_new = posts.clone();
                        with_new.push(clock);
                        let keeps = keeps_limit(stream, &posts, clock);
                        assert_eq!(keeps, keeps_every_window(stream, &with_new));
                        if !keeps {
                            refused += 1;
                            break;
                        }
                        allowed += 1;
                        posts = with_new;
                    }
                }
            }
        }
        assert!(allowed > 1_000 && refused > 1_000, "{allowed} {refused}");
    }

    #[test]
    fn the_trace_of_a_run_is_the_run() {
        let mut random = Random::new(2);
        for _ in 0..50 {
            let set = sets::small(&mut random, RENDERED);
            if set.count == 0 {
                continue;
            }
            let plan = Plan::any(&mut random, &set);
            let mut play = Play::new(&set, RENDERED);
            play.follow(&mut random, &plan, 200);
            let sheet = crate::sheets::of_set(&set);
            let run = second::trace::run(&sheet, play.trace.as_bytes(), RENDERED);
            assert_eq!(run.calls, play.post_count + play.unit_count);
            assert!(!run.output.contains("refused"));
        }
    }

    #[test]
    fn a_message_is_brought_into_the_stage_in_which_it_blocks_most() {
        // The first is urgent; of the second the stage on task 1 of cost 4 blocks most.
        let stage = |task, cost| second::set::Stage { task, cost };
        let mut urgent = Stream::UNUSED;
        urgent.stage_count = 1;
        urgent.stages[0] = stage(1, 1);
        urgent.deadline = 3;
        urgent.tuple_count = 1;
        let mut slow = urgent;
        slow.stage_count = 4;
        slow.stages = [stage(0, 9), stage(1, 2), stage(1, 4), stage(1, 3)];
        slow.deadline = 40;
        let set = Set::of_version(VERSION_2, &[urgent, slow]);
        let late = Verdict::Late {
            length: 3,
            demand: 4,
        };
        assert_eq!(load::verdict(&set), late);
        let plan = Plan::critical(&set, 3);
        let mut play = Play::new(&set, RENDERED);
        play.follow(&mut Random::new(1), &plan, 100);
        assert!(play.missed);
        assert_eq!(play.trace, "p1ddup0uud");
    }

    #[test]
    fn most_messages_use_all_the_costs_of_their_stages() {
        let mut random = Random::new(4);
        let (mut posts, mut passed, mut full) = (0, 0, 0);
        for _ in 0..200 {
            let set = sets::small_of(&mut random, VERSION_2);
            let Some(tight) = sets::tight(&mut random, set) else {
                continue;
            };
            let mut play = Play::new(&tight.accepted, RENDERED);
            play.follow(&mut random, &Plan::early(), 200);
            assert!(!play.missed);
            posts += play.post_count;
            passed += play.passed_count;
            full += play.full_count;
        }
        assert!(
            passed > 1_000 && full > posts / 2,
            "{posts} {passed} {full}"
        );
    }
}
