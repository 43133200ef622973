//! The sheets and calls that are measured, and random ones that are compared.

use second::set::{Set, Stage, Stream, Tuple};
use second::sheet::{fields, pack};

/// A full set with H = 1,000,000 that is accepted: 16 streams of so many tuples, on 5 tasks.
pub fn long_check(tuples: u32) -> Vec<u8> {
    const CYCLES: [u32; 16] = [
        1_000_000, 500_000, 250_000, 200_000, 125_000, 100_000, 62_500, 50_000, 40_000, 31_250,
        25_000, 20_000, 15_625, 12_500, 10_000, 8_000,
    ];
    let streams: Vec<Stream> = (0..16)
        .map(|k| {
            let place = |j: u32| Tuple::Every {
                cycle: CYCLES[((k + j * 5) % 16) as usize],
                offset: j * (3_000 + k),
            };
            stream(k % 5, 3 + k, 199_999 - k * 10_000, tuples, place)
        })
        .collect();
    sheet(&streams)
}

/// A full set with H = 1,000 and 2,000 lengths that is accepted: 16 streams of so many tuples, on 5 tasks.
pub fn short_check(tuples: u32) -> Vec<u8> {
    let place = |j: u32| Tuple::Every {
        cycle: 1_000,
        offset: j * 10 / (tuples - 1).max(1) * 3,
    };
    let streams: Vec<Stream> = (0..16)
        .map(|k| stream(k % 5, 1, 970 - k * 10, tuples, place))
        .collect();
    sheet(&streams)
}

/// A set for the steps: so many streams of so many tuples, costs that no run here uses up.
pub fn steps_set(streams: u32, tuples: u32) -> Vec<u8> {
    let place = |j: u32| Tuple::Every {
        cycle: 1_000,
        offset: j * 10,
    };
    let streams: Vec<Stream> = (0..streams)
        .map(|k| stream(k, 60_000, 100_000 + k, tuples, place))
        .collect();
    sheet(&streams)
}

/// The calls on a set of so many streams that leave one less pending, and then posts and units with
/// done by turns: each post makes it so many pending.
pub fn posts_and_units(streams: usize, pending: usize, calls: usize) -> Vec<u8> {
    let mut all: Vec<u8> = (1..pending).map(|i| (i % streams) as u8).collect();
    for i in 0..calls / 2 {
        all.push((i % streams) as u8);
        all.push(17);
    }
    all
}

/// So many posts, and then units that run.
pub fn units(streams: usize, pending: usize, calls: usize) -> Vec<u8> {
    let mut all: Vec<u8> = (0..pending).map(|i| (i % streams) as u8).collect();
    all.extend(std::iter::repeat_n(16, calls));
    all
}

fn stream(task: u32, cost: u32, deadline: u32, count: u32, place: impl Fn(u32) -> Tuple) -> Stream {
    let mut stream = Stream {
        stage_count: 1,
        deadline,
        tuple_count: count,
        ..Stream::UNUSED
    };
    stream.stages[0] = Stage { task, cost };
    for j in 0..count {
        stream.tuples[j as usize] = place(j);
    }
    stream
}

fn sheet(streams: &[Stream]) -> Vec<u8> {
    pack(&fields(&Set::of(streams)))
}

/// Random numbers, the same for the same seed.
pub struct Random(pub u64);

impl Random {
    pub fn below(&mut self, n: u32) -> u32 {
        self.0 ^= self.0 << 13;
        self.0 ^= self.0 >> 7;
        self.0 ^= self.0 << 17;
        ((self.0 >> 16) % u64::from(n)) as u32
    }

    /// A sheet of small numbers, so that its verdict is quick; every third one is damaged. Every
    /// second one has version 2.
    pub fn sheet(&mut self) -> Vec<u8> {
        let version = 1 + self.below(2);
        let streams: Vec<Stream> = (0..self.below(17)).map(|_| self.stream(version)).collect();
        let mut bytes = pack(&fields(&Set::of_version(version, &streams)));
        match self.below(9) {
            0 => bytes.truncate(self.below(bytes.len() as u32 + 1) as usize),
            1 => bytes.push(self.below(2) as u8),
            2 => bytes[self.below(2) as usize] ^= 1 << self.below(8),
            _ => {}
        }
        bytes
    }

    fn stream(&mut self, version: u32) -> Stream {
        const CYCLES: [u32; 12] = [1, 2, 3, 4, 5, 6, 10, 12, 15, 20, 60, 120];
        let mut offset = 0;
        let tuples: Vec<Tuple> = (0..1 + self.below(4))
            .map(|_| {
                let at = offset;
                offset += self.below(20);
                match self.below(3) {
                    0 => Tuple::Once { offset: at },
                    _ => Tuple::Every {
                        cycle: CYCLES[self.below(12) as usize],
                        offset: at,
                    },
                }
            })
            .collect();
        let cost = 1 + if self.below(3) == 0 {
            self.below(40)
        } else {
            self.below(3)
        };
        let deadline = 1 + self.below(200);
        let place = |j: u32| tuples[j as usize];
        let mut stream = stream(self.below(16), cost, deadline, tuples.len() as u32, place);
        if version == 2 {
            stream.stage_count += self.below(4);
            for stage in &mut stream.stages[1..stream.stage_count as usize] {
                stage.task = self.below(16);
                stage.cost = 1 + self.below(6);
            }
        }
        stream
    }

    /// Posts, units and units with done.
    pub fn calls(&mut self) -> Vec<u8> {
        let posts = 1 + self.below(12);
        (0..self.below(400))
            .map(|_| if self.below(16) < posts { self.below(16) } else { 16 + self.below(4) / 3 } as u8)
            .collect()
    }
}

/// W12: one stream, task 3, c 2, d 5, every 10 from 0.
pub fn small_sheet() -> Vec<u8> {
    vec![
        0x10, 0x98, 0x00, 0x10, 0x00, 0x0a, 0x00, 0x00, 0x50, 0x00, 0x00,
    ]
}
