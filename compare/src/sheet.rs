//! "The sheet": a stream set as packed bit fields.

use std::{fs, io};

use crate::refusal::Refusal;
use crate::requests::STAGES;
use crate::set::{
    Set, Stage, Stream, Tuple, GREATEST_COST, GREATEST_CYCLE, GREATEST_DEADLINE, GREATEST_OFFSET,
    STREAM_PLACES,
};

/// "version (4 bits, 1)"
pub const VERSION_1: u32 = 1;
/// "Sheets of version 2 carry, after the deadline, 2 bits of stages less one and that many task
/// and cost pairs in place of the single pair."
pub const VERSION_2: u32 = 2;

/// The widths of the fields: "version (4 bits, 1), stream count (5); for each stream task (4),
/// cost (16), deadline (18), tuples less one (2); for each tuple cycle (20, 0 for once),
/// offset (17)." Of version 2 also "stages less one 2".
pub mod width {
    #![allow(missing_docs)]
    pub const VERSION: u32 = 4;
    pub const STREAM_COUNT: u32 = 5;
    pub const TASK: u32 = 4;
    pub const COST: u32 = 16;
    pub const DEADLINE: u32 = 18;
    pub const STAGES_LESS_ONE: u32 = 2;
    pub const TUPLES_LESS_ONE: u32 = 2;
    pub const CYCLE: u32 = 20;
    pub const OFFSET: u32 = 17;
}

/// The bytes of the file set.bin. "A missing set.bin is read as no bytes."
///
/// "The file set.bin is then read to 503 bytes": a sheet has at most 502, and what stands behind a
/// further byte changes no answer, so all of them are read here.
pub fn bytes_of_file() -> io::Result<Vec<u8>> {
    match fs::read("set.bin") {
        Err(error) if error.kind() == io::ErrorKind::NotFound => Ok(Vec::new()),
        bytes => bytes,
    }
}

/// Bytes read as "Bit fields, most significant first, no gaps".
struct BitReader<'a> {
    bytes: &'a [u8],
    /// How many bits have been read.
    position: usize,
}

impl BitReader<'_> {
    fn bits_left(&self) -> usize {
        self.bytes.len() * 8 - self.position
    }

    /// The next bit; one must be left.
    fn bit(&mut self) -> u32 {
        let byte = self.bytes[self.position / 8];
        let bit = byte >> (7 - self.position % 8) & 1;
        self.position += 1;
        u32::from(bit)
    }

    /// The next field: "bits missing gives 5".
    fn field(&mut self, width: u32) -> Result<u32, Refusal> {
        if self.bits_left() < width as usize {
            return Err(Refusal::BitsMissing);
        }
        let mut value = 0;
        for _ in 0..width {
            value = value << 1 | self.bit();
        }
        Ok(value)
    }

    /// The next field, which has to be from `least` to `greatest`: "bits missing gives 5, [...]
    /// else a value outside the rules 7".
    fn field_in(&mut self, width: u32, least: u32, greatest: u32) -> Result<u32, Refusal> {
        let value = self.field(width)?;
        if value < least || value > greatest {
            return Err(Refusal::OutOfRule);
        }
        Ok(value)
    }

    /// "Then zero bits to the end of the byte and nothing more." "After the last field, a set
    /// padding bit or a further byte gives 10."
    fn end(&mut self) -> Result<(), Refusal> {
        if self.bits_left() >= 8 {
            return Err(Refusal::AfterLastField);
        }
        while self.bits_left() > 0 {
            if self.bit() == 1 {
                return Err(Refusal::AfterLastField);
            }
        }
        Ok(())
    }
}

/// "Reading goes field by field: bits missing gives 5, else a bad version 6, else a value outside
/// the rules 7, an offset that breaks the offset rule included. After the last field, a set
/// padding bit or a further byte gives 10."
///
/// With request 4 in force "6 is no longer given for version 2": "6 for any version but 1 and 2".
pub fn read(sheet: &[u8], requests: u32) -> Result<Set, Refusal> {
    let mut reader = BitReader {
        bytes: sheet,
        position: 0,
    };
    let mut set = Set::EMPTY;
    set.version = reader.field(width::VERSION)?;
    let good = match set.version {
        VERSION_1 => true,
        VERSION_2 => requests >= STAGES,
        _ => false,
    };
    if !good {
        return Err(Refusal::BadVersion);
    }
    set.count = reader.field_in(width::STREAM_COUNT, 0, STREAM_PLACES as u32)?;
    for place in 0..set.count as usize {
        set.streams[place] = read_stream(&mut reader, set.version)?;
    }
    reader.end()?;
    Ok(set)
}

/// "for each stream task (4), cost (16), deadline (18), tuples less one (2)"; of version 2 "for
/// each stream deadline 18, stages less one 2, that many times task 4 and cost 16, tuples less one
/// 2, tuples as before".
fn read_stream(reader: &mut BitReader, version: u32) -> Result<Stream, Refusal> {
    let mut stream = Stream::UNUSED;
    if version == VERSION_2 {
        stream.deadline = reader.field_in(width::DEADLINE, 1, GREATEST_DEADLINE)?;
        stream.stage_count = reader.field(width::STAGES_LESS_ONE)? + 1;
        for place in 0..stream.stage_count as usize {
            stream.stages[place] = read_stage(reader)?;
        }
    } else {
        stream.stage_count = 1;
        stream.stages[0] = read_stage(reader)?;
        stream.deadline = reader.field_in(width::DEADLINE, 1, GREATEST_DEADLINE)?;
    }
    stream.tuple_count = reader.field(width::TUPLES_LESS_ONE)? + 1;
    let mut least_offset = 0;
    let mut greatest_offset = 0; // "the first is 0"
    for place in 0..stream.tuple_count as usize {
        stream.tuples[place] = read_tuple(reader, least_offset, greatest_offset)?;
        least_offset = stream.tuples[place].offset(); // "they never fall"
        greatest_offset = GREATEST_OFFSET; // "0 to 100,000"
    }
    Ok(stream)
}

/// "task (4), cost (16)"; "A stage's cost 0 is 7."
fn read_stage(reader: &mut BitReader) -> Result<Stage, Refusal> {
    let task = reader.field(width::TASK)?;
    let cost = reader.field_in(width::COST, 1, GREATEST_COST)?;
    Ok(Stage { task, cost })
}

/// "for each tuple cycle (20, 0 for once), offset (17)"
fn read_tuple(
    reader: &mut BitReader,
    least_offset: u32,
    greatest_offset: u32,
) -> Result<Tuple, Refusal> {
    let cycle = reader.field_in(width::CYCLE, 0, GREATEST_CYCLE)?;
    let offset = reader.field_in(width::OFFSET, least_offset, greatest_offset)?;
    if cycle == 0 {
        Ok(Tuple::Once { offset })
    } else {
        Ok(Tuple::Every { cycle, offset })
    }
}

/// Fields packed "most significant first, no gaps".
#[derive(Default)]
pub struct BitWriter {
    bytes: Vec<u8>,
    /// How many bits have been written.
    position: usize,
}

impl BitWriter {
    /// Puts the lowest `width` bits of the value after what is there.
    pub fn field(&mut self, value: u32, width: u32) {
        for place in (0..width).rev() {
            self.bit(value >> place & 1 == 1);
        }
    }

    fn bit(&mut self, set: bool) {
        if self.position.is_multiple_of(8) {
            self.bytes.push(0);
        }
        if set {
            self.bytes[self.position / 8] |= 0x80 >> (self.position % 8);
        }
        self.position += 1;
    }

    /// "Then zero bits to the end of the byte and nothing more."
    pub fn end(self) -> Vec<u8> {
        self.bytes
    }
}

/// The fields of a valid set's sheet in order, each a value and its width.
pub fn fields(set: &Set) -> Vec<(u32, u32)> {
    let mut fields = vec![
        (set.version, width::VERSION),
        (set.count, width::STREAM_COUNT),
    ];
    for stream in set.used_streams() {
        let deadline = (stream.deadline, width::DEADLINE);
        let pairs = stream
            .used_stages()
            .iter()
            .flat_map(|stage| [(stage.task, width::TASK), (stage.cost, width::COST)]);
        if set.version == VERSION_2 {
            fields.push(deadline);
            fields.push((stream.stage_count - 1, width::STAGES_LESS_ONE));
            fields.extend(pairs);
        } else {
            fields.extend(pairs);
            fields.push(deadline);
        }
        fields.push((stream.tuple_count - 1, width::TUPLES_LESS_ONE));
        for tuple in stream.used_tuples() {
            fields.push((tuple.cycle().unwrap_or(0), width::CYCLE));
            fields.push((tuple.offset(), width::OFFSET));
        }
    }
    fields
}

/// The bytes of the fields.
pub fn pack(fields: &[(u32, u32)]) -> Vec<u8> {
    let mut writer = BitWriter::default();
    for &(value, width) in fields {
        writer.field(value, width);
    }
    writer.end()
}

/// Writes the sheet of the set into the buffer and gives its number of bytes. "Writing 7, 11."
/// "A sheet that is written changes only its own bytes in the buffer."
pub fn write(set: &Set, buffer: &mut [u8]) -> Result<usize, Refusal> {
    if !set.valid() {
        return Err(Refusal::OutOfRule);
    }
    let sheet = pack(&fields(set));
    if sheet.len() > buffer.len() {
        return Err(Refusal::BufferTooShort);
    }
    buffer[..sheet.len()].copy_from_slice(&sheet);
    Ok(sheet.len())
}
