//! Reading a sheet. A field is taken from the bytes it touches, not bit by bit.

use super::set::{Set, Stage, Stream, Tuple};

struct Reader<'a> {
    bytes: &'a [u8],
    at: usize,
}

impl Reader<'_> {
    /// The next field, 5 if its bits are not there.
    fn field(&mut self, width: usize) -> Result<u32, u8> {
        let end = self.at + width;
        if self.bytes.len() * 8 < end {
            return Err(5);
        }
        let mut value = 0u64;
        for &byte in &self.bytes[self.at / 8..end.div_ceil(8)] {
            value = value << 8 | u64::from(byte);
        }
        self.at = end;
        Ok((value >> ((8 - end % 8) % 8) & ((1 << width) - 1)) as u32)
    }

    /// The next field, 7 if it is out of its rule.
    fn field_in(&mut self, width: usize, least: u32, greatest: u32) -> Result<u32, u8> {
        let value = self.field(width)?;
        if value < least || value > greatest {
            return Err(7);
        }
        Ok(value)
    }

    fn stage(&mut self) -> Result<Stage, u8> {
        let task = self.field(4)? as usize;
        let cost = self.field_in(16, 1, 65_535)?;
        Ok(Stage { task, cost })
    }

    fn stream(&mut self, version: u32) -> Result<Stream, u8> {
        let mut stream = Stream::UNUSED;
        if version == 1 {
            stream.stage_count = 1;
            stream.stages[0] = self.stage()?;
            stream.deadline = self.field_in(18, 1, 200_000)?;
        } else {
            stream.deadline = self.field_in(18, 1, 200_000)?;
            stream.stage_count = self.field(2)? as usize + 1;
            for place in 0..stream.stage_count {
                stream.stages[place] = self.stage()?;
            }
        }
        stream.count = self.field(2)? as usize + 1;
        let (mut least, mut greatest) = (0, 0);
        for place in 0..stream.count {
            let cycle = self.field_in(20, 0, 1_000_000)?;
            let offset = self.field_in(17, least, greatest)?;
            (least, greatest) = (offset, 100_000);
            stream.tuples[place] = match cycle {
                0 => Tuple::Once(offset),
                _ => Tuple::Every(cycle, offset),
            };
        }
        Ok(stream)
    }

    /// Fewer than 8 bits are left, and they are zero; else 10.
    fn end(&mut self) -> Result<(), u8> {
        let left = self.bytes.len() * 8 - self.at;
        if left >= 8 || self.field(left)? != 0 {
            return Err(10);
        }
        Ok(())
    }
}

pub fn read(bytes: &[u8]) -> Result<Set, u8> {
    let mut reader = Reader { bytes, at: 0 };
    let mut set = Set::EMPTY;
    set.version = reader.field(4)?;
    if set.version != 1 && set.version != 2 {
        return Err(6);
    }
    set.count = reader.field_in(5, 0, 16)? as usize;
    for place in 0..set.count {
        set.streams[place] = reader.stream(set.version)?;
    }
    reader.end()?;
    Ok(set)
}
