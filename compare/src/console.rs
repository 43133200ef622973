//! The console: every public function from the keyboard, as its document describes it.

use std::fmt::Write;

use crate::cable::Carried;
use crate::check::{self, Position};
use crate::load;
use crate::parties::{Parties, Party, Places};
use crate::recording::{self, Place};
use crate::refusal::Refusal;
use crate::replay;
use crate::requests::{DOOR, PARTIES, PIECES, REPLAY, RESUMABLE, STAGES};
use crate::set::{self, Set, Stage, Stream, Tuple, STAGE_PLACES, STREAM_PLACES, TUPLE_PLACES};
use crate::sheet;
use crate::state::{Message, State, MESSAGE_PLACES};
use crate::trace::{self, take, Step};

/// "Lines are at most 4,096 bytes; a longer one prints `?`."
pub const LONGEST_LINE: usize = 4_096;
/// "a buffer of LEN bytes (at most 1024, else `?`)"
pub const LONGEST_BUFFER: u32 = 1_024;
/// "each 170 before"
const BUFFER_BYTE: u8 = 170;
/// "the recording that is replayed, at most 1,024 bytes, else `?`"
pub const LONGEST_RECORDING: usize = 1_024;

/// "The console holds a set (at first the empty set) and a state (at first the start of the empty
/// set)." Of request 1 it holds "the recording that is replayed" ("At first it is empty.") and the
/// reader's place; of request 5 the carried state; of request 7 the position; of request 8 owners
/// and places.
#[derive(Clone, Debug, PartialEq, Eq)]
pub struct Console {
    /// The requests that are in force: all up to this number.
    pub requests: u32,
    /// The set.
    pub set: Set,
    /// The state.
    pub state: State,
    /// The recording that is replayed.
    pub recording: Vec<u8>,
    /// The reader's place.
    pub place: Place,
    /// The carried state.
    pub carried: Carried,
    /// The position of the resumable check.
    pub position: Position,
    /// The owners and places that `start` uses.
    pub parties: Parties,
}

/// "Each request's commands come with its landing." The request that brings a command, 0 for every
/// other word.
fn request_of(name: &[u8]) -> u32 {
    match name {
        b"recording" | b"next" | b"reader" | b"where" | b"record" => REPLAY,
        b"version" | b"stages" | b"stage" | b"staged" => STAGES,
        b"cable" | b"feed" | b"close" => PIECES,
        b"door" => DOOR,
        b"open" | b"go" | b"resume" => RESUMABLE,
        b"owner" | b"places" | b"owns" | b"room" => PARTIES,
        _ => 0,
    }
}

/// The lines of the input, without their newlines. "The last line may lack its newline."
pub fn lines(input: &[u8]) -> impl Iterator<Item = &[u8]> {
    input
        .split_inclusive(|&byte| byte == b'\n')
        .map(|line| line.strip_suffix(b"\n").unwrap_or(line))
}

impl Console {
    /// A console as it is at first, with the requests up to the number in force.
    pub fn new(requests: u32) -> Console {
        Console {
            requests,
            set: Set::EMPTY,
            state: State::empty(requests),
            recording: Vec::new(),
            place: Place::START,
            carried: Carried::start(),
            // "At first it is the empty set and length 1."
            position: Position {
                set: Set::EMPTY,
                next: 1,
            },
            // "at first all ours, 64 and 0"
            parties: Parties::US_ALONE,
        }
    }

    /// Does what a line says and gives all it prints. The line comes without its newline.
    ///
    /// "A line that is not one of those below, or has a number or index that is out of the
    /// place's range where one is named, prints `?` and changes nothing. An empty line prints
    /// nothing. Lines are at most 4,096 bytes; a longer one prints `?`."
    pub fn line(&mut self, line: &[u8]) -> String {
        if line.is_empty() {
            return String::new();
        }
        if line.len() > LONGEST_LINE {
            return "?\n".to_string();
        }
        match self.command(line) {
            Some(answer) => answer + "\n",
            None => "?\n".to_string(),
        }
    }

    /// "A line is words with one space between them." What a command prints, without the last
    /// newline, or none if the line is not a command.
    fn command(&mut self, line: &[u8]) -> Option<String> {
        let words: Vec<&[u8]> = line.split(|&byte| byte == b' ').collect();
        let (name, rest) = words.split_first()?;
        if request_of(name) > self.requests {
            return None;
        }
        match *name {
            b"read" => return self.read(rest),
            b"recording" => return self.take_recording(rest),
            b"record" => return record(rest),
            b"feed" => return self.feed(rest),
            _ => {}
        }
        let numbers: Vec<u32> = rest
            .iter()
            .map(|word| number(word))
            .collect::<Option<_>>()?;
        match (*name, numbers.as_slice()) {
            (b"write", &[length]) if length <= LONGEST_BUFFER => Some(self.write(length)),
            (b"streams", &[count]) => {
                self.set.count = count;
                put()
            }
            (b"stream", &[place, task, cost, deadline, tuple_count]) => {
                let stream = self.stream_place(place)?;
                // "puts the task and cost into stage place 0, and 1 as the number of stages, or 0
                // where all four numbers are 0; stage places 1 to 3 stay as they were"
                stream.stages[0] = Stage { task, cost };
                stream.stage_count = match (task, cost, deadline, tuple_count) {
                    (0, 0, 0, 0) => 0,
                    _ => 1,
                };
                stream.deadline = deadline;
                stream.tuple_count = tuple_count;
                put()
            }
            (b"version", &[version]) => {
                self.set.version = version;
                put()
            }
            (b"stages", &[place, count]) => {
                self.stream_place(place)?.stage_count = count;
                put()
            }
            (b"stage", &[place, stage_place, task, cost]) => {
                let stage_place = index(stage_place, STAGE_PLACES)?;
                self.stream_place(place)?.stages[stage_place] = Stage { task, cost };
                put()
            }
            (b"once", &[place, tuple, offset]) => {
                self.put_tuple(place, tuple, Tuple::Once { offset })
            }
            (b"every", &[place, tuple, cycle, offset]) => {
                self.put_tuple(place, tuple, Tuple::Every { cycle, offset })
            }
            (b"valid", []) => Some(if self.set.valid() { "valid" } else { "invalid" }.to_string()),
            (b"limit", &[stream, length]) => {
                Some(match set::event_limit(&self.set, stream, length) {
                    Ok(limit) => limit.to_string(),
                    Err(refusal) => format!("{refusal} 0"),
                })
            }
            (b"demand", &[length]) => Some(match load::demand(&self.set, length) {
                Ok(demand) => demand.to_string(),
                Err(refusal) => format!("{refusal} 0"),
            }),
            (b"jitter", &[cycle, jitter]) => Some(self.jitter(cycle, jitter)),
            (b"verdict", []) => Some(load::verdict(&self.set).to_string()),
            (b"start", []) => Some(self.start()),
            (b"clock", &[clock]) => {
                self.state.clock = clock;
                put()
            }
            (b"pending", &[pending]) => {
                self.state.pending = pending;
                put()
            }
            (b"message", &[place, stream, deadline, used]) => {
                // "`message` puts 0 there", where the stage is.
                self.state.messages[index(place, MESSAGE_PLACES)?] = Message {
                    stream,
                    deadline,
                    used,
                    stage: 0,
                };
                put()
            }
            (b"staged", &[place, stage]) => {
                self.state.messages[index(place, MESSAGE_PLACES)?].stage = stage;
                put()
            }
            (b"post", &[stream]) => Some(take(&mut self.state, Step::Post(stream))),
            (b"unit", []) => Some(take(&mut self.state, Step::Unit)),
            (b"done", []) => Some(take(&mut self.state, Step::Done)),
            (b"choose", []) => Some(self.choose()),
            (b"state", []) => Some(self.show_state()),
            (b"formed", []) => Some(self.formed()),
            (b"next", []) => Some(self.next_step()),
            (b"reader", &[byte, bit]) => {
                self.place = Place {
                    byte: byte as usize,
                    bit: bit as usize,
                };
                put()
            }
            (b"door", &[place, wait]) => {
                self.state.put_wait(index(place, STREAM_PLACES)?, wait);
                put()
            }
            (b"open", []) => Some(self.open()),
            (b"go", &[count]) => Some(self.go(count)),
            (b"resume", &[next]) => {
                let set = self.set;
                self.position = Position { set, next };
                put()
            }
            (b"cable", []) => {
                self.carried = Carried::start();
                put()
            }
            (b"close", []) => Some(self.close()),
            (b"where", []) => Some(format!("at {} {}", self.place.byte, self.place.bit)),
            _ => self.command_of_parties(name, &numbers),
        }
    }

    /// The commands of request 8.
    fn command_of_parties(&mut self, name: &[u8], numbers: &[u32]) -> Option<String> {
        match (name, numbers) {
            (b"owner", &[place, party]) => {
                let owner = &mut self.parties.owners[index(place, STREAM_PLACES)?];
                *owner = Party::of_number(party)?;
            }
            (b"places", &[ours, theirs]) => self.parties.places = Places { ours, theirs },
            (b"owns", &[place, party]) => {
                let owner = &mut self.state.parties.owners[index(place, STREAM_PLACES)?];
                *owner = Party::of_number(party)?;
            }
            (b"room", &[ours, theirs]) => self.state.parties.places = Places { ours, theirs },
            _ => return None,
        }
        put()
    }

    /// "`start`: the state becomes the start of the set. Prints `started`, or `refused 7` (and the
    /// start of the empty set)." With request 8 it goes by the owners and places that were put, and
    /// "prints `refused 16` too".
    fn start(&mut self) -> String {
        let (state, result) = State::start_shared(&self.set, &self.parties, self.requests);
        self.state = state;
        match result {
            Ok(()) => "started".to_string(),
            Err(refusal) => refusal.to_string(),
        }
    }

    /// "`read HEX`: reads the bytes as a sheet. Prints `set N` with the number of streams, and the
    /// set becomes the one read; or `refused N`, and the set becomes the empty set."
    fn read(&mut self, words: &[&[u8]]) -> Option<String> {
        let read = sheet::read(&hex_argument(words)?, self.requests);
        Some(self.take_set(read))
    }

    /// What `read` prints and does with the set.
    fn take_set(&mut self, read: Result<Set, Refusal>) -> String {
        match read {
            Ok(set) => {
                self.set = set;
                format!("set {}", set.count)
            }
            Err(refusal) => {
                self.set = Set::EMPTY;
                refusal.to_string()
            }
        }
    }

    /// "`open`: prints `refused N`, `overload`, or `open`[...]; with `open`, the console's position
    /// is the one given."
    fn open(&mut self) -> String {
        match check::open(&self.set) {
            Ok(position) => {
                self.position = position;
                "open".to_string()
            }
            Err(verdict) => verdict.to_string(),
        }
    }

    /// "`go N`: prints `tested COUNT next L`, `tested COUNT accept`, `tested COUNT late I W`, or
    /// `refused 12`. With a next length the position moves there; else it stays where it was."
    fn go(&mut self, count: u32) -> String {
        match self.position.go(count) {
            Ok(went) => {
                if let check::Went::On { next, .. } = went {
                    self.position.next = next;
                }
                went.to_string()
            }
            Err(refusal) => refusal.to_string(),
        }
    }

    /// "`feed HEX`: feeds a piece; prints `fed` or `refused 12`."
    fn feed(&mut self, words: &[&[u8]]) -> Option<String> {
        self.carried.feed(&hex_argument(words)?);
        Some("fed".to_string())
    }

    /// "`close`: prints what `read` prints for the joined bytes and does what it does with the
    /// set, and the carried state is new again".
    fn close(&mut self) -> String {
        let read = self.carried.close(self.requests);
        self.carried = Carried::start();
        self.take_set(read)
    }

    /// "`write LEN`: writes the set's sheet into a buffer of LEN bytes [...], each 170 before.
    /// Prints `wrote N` with the bytes written, or `refused N`; then a line with the whole buffer
    /// in hex (an empty line for LEN 0)."
    fn write(&self, length: u32) -> String {
        let mut buffer = vec![BUFFER_BYTE; length as usize];
        let answer = match sheet::write(&self.set, &mut buffer) {
            Ok(written) => format!("wrote {written}"),
            Err(refusal) => refusal.to_string(),
        };
        format!("{answer}\n{}", hex_of_bytes(&buffer))
    }

    /// "`recording HEX`: the recording that is replayed, at most 1,024 bytes, else `?`; the reader
    /// goes to its start. Prints `recording N` with its bytes."
    fn take_recording(&mut self, words: &[&[u8]]) -> Option<String> {
        let bytes = hex_argument(words)?;
        if bytes.len() > LONGEST_RECORDING {
            return None;
        }
        let answer = format!("recording {}", bytes.len());
        self.recording = bytes;
        self.place = Place::START;
        Some(answer)
    }

    /// "`next`: one step of the replay on the console's state."
    fn next_step(&mut self) -> String {
        let clock_before = self.state.clock;
        replay::step(&mut self.state, &self.recording, &mut self.place).line(clock_before)
    }

    /// A stream place of the set, if there is one of that number.
    fn stream_place(&mut self, place: u32) -> Option<&mut Stream> {
        Some(&mut self.set.streams[index(place, STREAM_PLACES)?])
    }

    fn put_tuple(&mut self, place: u32, tuple_place: u32, tuple: Tuple) -> Option<String> {
        let tuple_place = index(tuple_place, TUPLE_PLACES)?;
        self.stream_place(place)?.tuples[tuple_place] = tuple;
        put()
    }

    /// "`jitter Z J`: prints the tuples as `once 0 every Z A`, or `refused 7`."
    fn jitter(&self, cycle: u32, jitter: u32) -> String {
        let words = |tuple: &Tuple| match tuple {
            Tuple::Once { offset } => format!("once {offset}"),
            Tuple::Every { cycle, offset } => format!("every {cycle} {offset}"),
        };
        match set::jittered_cycle(cycle, jitter, self.requests) {
            Ok(tuples) => tuples.iter().map(words).collect::<Vec<_>>().join(" "),
            Err(refusal) => refusal.to_string(),
        }
    }

    /// "`choose`: prints `none`, `task T stream S`, or `refused 12`."
    fn choose(&self) -> String {
        match self.state.choose() {
            Ok(None) => "none".to_string(),
            Ok(Some(choice)) => format!("task {} stream {}", choice.task, choice.stream),
            Err(refusal) => refusal.to_string(),
        }
    }

    /// "`formed`: prints `well formed` or `refused 12`."
    fn formed(&self) -> String {
        if self.state.well_formed() {
            "well formed".to_string()
        } else {
            Refusal::NotWellFormed.to_string()
        }
    }

    /// "`state`: prints `clock N`, then `pending N`, then a line `message I STREAM DEADLINE USED`
    /// for each of the 64 places that is not all zero, in order."
    ///
    /// "What `state` prints grows at its end: the lines of a request stand behind those of the
    /// requests before it, and only for what is not zero": "`state` prints `staged I N` (a place of
    /// which only the stage is not 0 has no `message` line)"; "`state` prints `door I N`"; of owners
    /// and places [`show_parties`].
    fn show_state(&self) -> String {
        let mut answer = format!("clock {}\npending {}", self.state.clock, self.state.pending);
        for (place, message) in self.state.messages.iter().enumerate() {
            let Message {
                stream,
                deadline,
                used,
                stage: _,
            } = *message;
            if (stream, deadline, used) != (0, 0, 0) {
                write!(answer, "\nmessage {place} {stream} {deadline} {used}")
                    .expect("a string takes all that is written to it");
            }
        }
        for (place, message) in self.state.messages.iter().enumerate() {
            if message.stage != 0 {
                write!(answer, "\nstaged {place} {}", message.stage)
                    .expect("a string takes all that is written to it");
            }
        }
        for (place, &wait) in self.state.waits.iter().enumerate() {
            if wait != 0 {
                write!(answer, "\ndoor {place} {wait}")
                    .expect("a string takes all that is written to it");
            }
        }
        answer + &show_parties(&self.state.parties)
    }
}

/// "`state` prints `owns I 1`, `room A B`": "only for what is not zero (owners: not ours; places:
/// not 64 and 0)".
fn show_parties(parties: &Parties) -> String {
    let mut lines = String::new();
    for (place, &owner) in parties.owners.iter().enumerate() {
        if owner != Party::Ours {
            write!(lines, "\nowns {place} {}", owner.number())
                .expect("a string takes all that is written to it");
        }
    }
    if parties.places != Parties::US_ALONE.places {
        let Places { ours, theirs } = parties.places;
        write!(lines, "\nroom {ours} {theirs}").expect("a string takes all that is written to it");
    }
    lines
}

/// "Print `put`."
fn put() -> Option<String> {
    Some("put".to_string())
}

/// "`record LEN TRACE`: TRACE is steps of a trace with no spaces (`p1uud`), or is left out with
/// its space. Its recording into a buffer of LEN bytes (at most 1,024, else `?`), each 170 before.
/// Prints `recorded N` with its bytes, or `refused 11`; then the buffer in hex as `write` does. A
/// TRACE that has any other byte, or ends in `p`, is `?`."
fn record(words: &[&[u8]]) -> Option<String> {
    let (length, trace): (&[u8], &[u8]) = match words {
        [length] => (length, &[]),
        [length, trace] if !trace.is_empty() => (length, trace),
        _ => return None,
    };
    let length = number(length).filter(|&length| length <= LONGEST_BUFFER)?;
    let calls = trace::steps(trace).ok()?;
    let mut buffer = vec![BUFFER_BYTE; length as usize];
    let answer = match recording::record(&mut buffer, &calls) {
        Ok(bytes) => format!("recorded {bytes}"),
        Err(refusal) => refusal.to_string(),
    };
    Some(format!("{answer}\n{}", hex_of_bytes(&buffer)))
}

/// The index, if it is one of the given number of places.
fn index(number: u32, places: usize) -> Option<usize> {
    let index = number as usize;
    (index < places).then_some(index)
}

/// "A number is 1 to 10 decimal digits, at most 4294967295."
fn number(word: &[u8]) -> Option<u32> {
    if word.is_empty() || word.len() > 10 {
        return None;
    }
    let mut value: u64 = 0;
    for byte in word {
        if !byte.is_ascii_digit() {
            return None;
        }
        value = value * 10 + u64::from(byte - b'0');
    }
    u32::try_from(value).ok()
}

/// The bytes of the HEX of a line, which may be left out: "an empty HEX leaves its space out as
/// well (`read`)".
fn hex_argument(words: &[&[u8]]) -> Option<Vec<u8>> {
    match words {
        [] => Some(Vec::new()),
        [hex] => bytes_of_hex(hex),
        _ => None,
    }
}

/// "HEX is an even number of lower-case hex digits". A word has at least one byte, as "an empty
/// HEX leaves its space out as well".
fn bytes_of_hex(word: &[u8]) -> Option<Vec<u8>> {
    if word.is_empty() || !word.len().is_multiple_of(2) {
        return None;
    }
    word.chunks(2)
        .map(|pair| Some(hex_digit(pair[0])? << 4 | hex_digit(pair[1])?))
        .collect()
}

fn hex_digit(byte: u8) -> Option<u8> {
    match byte {
        b'0'..=b'9' => Some(byte - b'0'),
        b'a'..=b'f' => Some(byte - b'a' + 10),
        _ => None,
    }
}

/// "the whole buffer in hex"
fn hex_of_bytes(bytes: &[u8]) -> String {
    let mut hex = String::new();
    for byte in bytes {
        write!(hex, "{byte:02x}").expect("a string takes all that is written to it");
    }
    hex
}
