//! Streams and sets.

#[derive(Clone, Copy)]
pub enum Tuple {
    Once(u32),
    Every(u32, u32),
}

#[derive(Clone, Copy)]
pub struct Stage {
    pub task: usize,
    pub cost: u32,
}

#[derive(Clone, Copy)]
pub struct Stream {
    pub stage_count: usize,
    pub stages: [Stage; 4],
    pub deadline: u32,
    pub count: usize,
    pub tuples: [Tuple; 4],
}

#[derive(Clone, Copy)]
pub struct Set {
    pub count: usize,
    pub streams: [Stream; 16],
    pub version: u32,
}

/// The door of a stream: none, one post for ever, or posts spaced by a cycle and an offset.
pub enum Door {
    None,
    Single,
    Spaced(u32, u32),
}

impl Door {
    pub fn shut(&self, wait: u32) -> bool {
        match *self {
            Door::None => false,
            Door::Single => wait > 0,
            Door::Spaced(z, a) => wait > z.saturating_sub(a),
        }
    }

    pub fn after(&self, wait: u32) -> u32 {
        match *self {
            Door::None => wait,
            Door::Single => 1,
            Door::Spaced(z, a) => wait + a.max(z),
        }
    }

    pub fn most(&self) -> u32 {
        match *self {
            Door::None => 0,
            Door::Single => 1,
            Door::Spaced(z, a) => z.saturating_sub(a) + a.max(z),
        }
    }
}

impl Tuple {
    pub fn offset(self) -> u32 {
        match self {
            Tuple::Once(offset) | Tuple::Every(_, offset) => offset,
        }
    }

    fn unused(&self) -> bool {
        matches!(self, Tuple::Once(0))
    }
}

impl Stage {
    pub const UNUSED: Stage = Stage { task: 0, cost: 0 };

    fn unused(&self) -> bool {
        self.task == 0 && self.cost == 0
    }

    fn in_rule(&self) -> bool {
        self.task <= 15 && (1..=65_535).contains(&self.cost)
    }
}

impl Stream {
    pub fn door(&self) -> Door {
        match (self.count, self.tuples[0], self.tuples[1]) {
            (1, Tuple::Once(_), _) => Door::Single,
            (1, Tuple::Every(z, _), _) => Door::Spaced(z, z),
            (2, Tuple::Once(_), Tuple::Every(z, a)) => Door::Spaced(z, a),
            _ => Door::None,
        }
    }

    pub const UNUSED: Stream = Stream {
        stage_count: 0,
        stages: [Stage::UNUSED; 4],
        deadline: 0,
        count: 0,
        tuples: [Tuple::Once(0); 4],
    };

    fn unused(&self) -> bool {
        self.stage_count == 0
            && self.stages.iter().all(Stage::unused)
            && self.deadline == 0
            && self.count == 0
            && self.tuples.iter().all(Tuple::unused)
    }

    pub fn used_stages(&self) -> &[Stage] {
        &self.stages[..self.stage_count]
    }

    /// The sum of the costs of its stages.
    pub fn cost(&self) -> u32 {
        self.used_stages().iter().map(|stage| stage.cost).sum()
    }

    pub fn used_tuples(&self) -> &[Tuple] {
        &self.tuples[..self.count]
    }

    fn in_rule(&self) -> bool {
        if !(1..=4).contains(&self.stage_count)
            || !self.used_stages().iter().all(Stage::in_rule)
            || !self.stages[self.stage_count..].iter().all(Stage::unused)
            || !(1..=200_000).contains(&self.deadline)
            || !(1..=4).contains(&self.count)
            || self.tuples[0].offset() != 0
        {
            return false;
        }
        let mut before = 0;
        for tuple in self.used_tuples() {
            let offset = tuple.offset();
            if offset < before || offset > 100_000 {
                return false;
            }
            if let Tuple::Every(cycle, _) = *tuple {
                if !(1..=1_000_000).contains(&cycle) {
                    return false;
                }
            }
            before = offset;
        }
        self.tuples[self.count..].iter().all(Tuple::unused)
    }
}

impl Set {
    pub const EMPTY: Set = Set {
        count: 0,
        streams: [Stream::UNUSED; 16],
        version: 1,
    };

    pub fn used_streams(&self) -> &[Stream] {
        &self.streams[..self.count]
    }

    pub fn valid(&self) -> bool {
        self.count <= 16
            && self.used_streams().iter().all(Stream::in_rule)
            && self.streams[self.count..].iter().all(Stream::unused)
            && (self.version == 2
                || self.version == 1 && self.used_streams().iter().all(|s| s.stage_count == 1))
    }
}
