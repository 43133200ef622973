//! The door of request 6: "Post is to refuse, for a stream with one tuple or with once at 0 followed
//! by one cycle, exactly when accepting would break that stream's limit given its accepted posts so
//! far."
//!
//! That sentence is rendered by [`History`], from the event limit and the windows. What the state
//! keeps, the wait, is rendered by [`Door`].

use crate::set::{Stream, Tuple};

/// What a stream's door goes by.
#[derive(Clone, Copy, Debug, PartialEq, Eq)]
pub enum Door {
    /// "Once at 0".
    Once,
    /// "Once at 0 and every z from a". "Every z: as once at 0, every z from z."
    Cycle {
        /// The cycle z.
        cycle: u32,
        /// The offset a.
        offset: u32,
    },
}

impl Stream {
    /// "A stream has a door if its tuples are exactly: once at 0; every z (from 0); or once at 0
    /// and then every z from a." The stream must be in rule.
    pub fn door(&self) -> Option<Door> {
        match *self.used_tuples() {
            [Tuple::Once { offset: 0 }] => Some(Door::Once),
            [Tuple::Every { cycle, offset: 0 }] => Some(Door::Cycle {
                cycle,
                offset: cycle,
            }),
            [Tuple::Once { offset: 0 }, Tuple::Every { cycle, offset }] => {
                Some(Door::Cycle { cycle, offset })
            }
            _ => None,
        }
    }
}

impl Door {
    /// 15 is given exactly if the wait is above this: "15 exactly if it is 1", "15 exactly if the
    /// wait is above z - a (0 where a is above z)".
    pub fn open_up_to(self) -> u32 {
        match self {
            Door::Once => 0,
            Door::Cycle { cycle, offset } => cycle.saturating_sub(offset),
        }
    }

    /// "the wait is 0 until a post is accepted, then 1 for ever"; "an accepted post adds the larger
    /// of a and z".
    pub fn added(self) -> u32 {
        match self {
            Door::Once => 1,
            Door::Cycle { cycle, offset } => cycle.max(offset),
        }
    }

    /// "a wait is at most 1 for the first kind, at most (z - a, or 0) + (the larger of a and z) for
    /// the other".
    pub fn greatest_wait(self) -> u32 {
        match self {
            Door::Once => 1,
            Door::Cycle { .. } => self.open_up_to() + self.added(),
        }
    }

    /// "each unit that moves the clock takes 1 from a wait that is not 0"; of once at 0 the wait is
    /// "1 for ever".
    pub fn after_unit(self, wait: u32) -> u32 {
        match self {
            Door::Once => wait,
            Door::Cycle { .. } => wait.saturating_sub(1),
        }
    }
}

/// Whether a post at a clock keeps the event limit of a stream, given the clocks of its accepted
/// posts so far, none of them later.
///
/// "A run keeps the limit if, for every x and I of 0 or more, the accepted posts at clocks x to
/// x + I, both ends counted, are at most E(I)." The new post adds to the windows that it is in. As
/// E never falls, it is enough to look at those that end with it, and among these at those that
/// begin with a post: a window that begins with none holds the same posts as a shorter one.
pub fn keeps_limit(stream: &Stream, posts: &[u32], clock: u32) -> bool {
    let with_new_post = posts.len() as u64 + 1;
    stream.event_limit(0) >= 1
        && posts.iter().zip(0..).all(|(&begin, earlier)| {
            with_new_post - earlier <= stream.event_limit(u64::from(clock - begin))
        })
}

/// An accepted post.
#[derive(Clone, Copy, Debug, PartialEq, Eq)]
struct Accepted {
    /// How many posts of its stream were accepted before it.
    before: u64,
    /// The true time: the units that had moved the clock since the start.
    time: u64,
}

/// Up to so many posts the history is the whole one.
const WHOLE: usize = 64;

/// The accepted posts of a stream with a door since the start.
#[derive(Clone, Debug, PartialEq, Eq)]
pub struct History {
    count: u64,
    posts: Vec<Accepted>,
}

impl History {
    /// That of a start.
    pub const NEW: History = History {
        count: 0,
        posts: Vec::new(),
    };

    /// "accepting would break that stream's limit given its accepted posts so far": whether some
    /// window would then have more posts than the event limit of its length.
    ///
    /// "A run keeps the limit if, for every x and I of 0 or more, the accepted posts at clocks x to
    /// x + I, both ends counted, are at most E(I)." The posts so far keep it, so it is enough to
    /// look at windows with the new post, which is the last; as E never falls, at those that end
    /// with it; and among these at those that begin with a post, the new one too: one that begins
    /// with none has the same posts as a shorter one.
    pub fn would_break(&self, stream: &Stream, now: u64) -> bool {
        let new = Accepted {
            before: self.count,
            time: now,
        };
        self.posts.iter().copied().chain([new]).any(|first| {
            let posts_in_window = self.count + 1 - first.before;
            posts_in_window > stream.event_limit(now - first.time)
        })
    }

    /// A post is accepted.
    pub fn accept(&mut self, stream: &Stream, now: u64) {
        self.posts.push(Accepted {
            before: self.count,
            time: now,
        });
        self.count += 1;
        if self.posts.len() > WHOLE {
            self.prune(stream);
        }
    }

    /// Forgets posts that no later answer depends on.
    ///
    /// Let j be the last post, and i one that is n posts earlier and at least n cycles. At any
    /// later post the window from i has n posts more than the one from j. If the one from j keeps
    /// the limit it is at least as long as the offset a (z for every z), as it has two posts; from
    /// there on a length that is n cycles more has a limit of n more (at least that), so the one
    /// from i keeps the limit too. If the one from j breaks it, the answer is 15 anyway. So the
    /// windows from i never decide.
    fn prune(&mut self, stream: &Stream) {
        let (Some(Door::Cycle { cycle, .. }), Some(&last)) = (stream.door(), self.posts.last())
        else {
            return;
        };
        self.posts.retain(|post| {
            let posts_between = last.before - post.before;
            posts_between == 0 || last.time - post.time < posts_between * u64::from(cycle)
        });
    }
}

#[cfg(test)]
mod tests {
    use super::*;
    use crate::set::Stage;

    fn stream(tuples: &[Tuple]) -> Stream {
        let mut stream = Stream::UNUSED;
        stream.stage_count = 1;
        stream.stages[0] = Stage { task: 0, cost: 1 };
        stream.deadline = 1;
        stream.tuple_count = tuples.len() as u32;
        stream.tuples[..tuples.len()].copy_from_slice(tuples);
        stream
    }

    /// Every window of all the posts that begins with one and ends with the last.
    fn keeps_every_window(stream: &Stream, posts: &[u64]) -> bool {
        let last = *posts.last().expect("a post");
        let mut from_last = posts.iter().rev().zip(1..);
        from_last.all(|(&begin, count)| count <= stream.event_limit(last - begin))
    }

    /// A number from a seed.
    fn next(seed: &mut u64) -> u64 {
        *seed = seed
            .wrapping_mul(6_364_136_223_846_793_005)
            .wrapping_add(1_442_695_040_888_963_407);
        *seed >> 33
    }

    #[test]
    fn the_history_the_wait_and_every_window_agree() {
        let mut seed = 1;
        let (mut shut, mut open, mut pruned) = (0, 0, 0);
        for _ in 0..200 {
            let cycle = (next(&mut seed) % 8 + 1) as u32;
            let offset = (next(&mut seed) % 12) as u32;
            let stream = match next(&mut seed) % 6 {
                0 => stream(&[Tuple::Once { offset: 0 }]),
                1 => stream(&[Tuple::Every { cycle, offset: 0 }]),
                _ => stream(&[Tuple::Once { offset: 0 }, Tuple::Every { cycle, offset }]),
            };
            let door = stream.door().expect("a door");
            let (mut history, mut posts, mut wait) = (History::NEW, Vec::new(), 0);
            let idle_one_in = next(&mut seed) % 20 + 2;
            for now in 0..800 {
                while next(&mut seed) % idle_one_in > 0 {
                    posts.push(now);
                    let breaks = !keeps_every_window(&stream, &posts);
                    assert_eq!(history.would_break(&stream, now), breaks);
                    assert_eq!(wait > door.open_up_to(), breaks);
                    if breaks {
                        posts.pop();
                        shut += 1;
                        break;
                    }
                    history.accept(&stream, now);
                    wait += door.added();
                    assert!(wait <= door.greatest_wait());
                    open += 1;
                }
                wait = door.after_unit(wait);
            }
            pruned += usize::from(history.posts.len() < posts.len());
        }
        assert!(
            shut > 10_000 && open > 10_000 && pruned > 100,
            "{shut} {open} {pruned}"
        );
    }
}
