//! Recordings of calls (request 1): what a recording is, what the bits at a place say, and the
//! cab's recorder.

use crate::refusal::Refusal;
use crate::sheet;
use crate::trace::Step;

/// "2 bits of kind"
const KIND_WIDTH: u32 = 2;
/// "after a post 4 bits of stream"
const STREAM_WIDTH: u32 = 4;
/// "for calls to streams below 16"
pub const RECORDED_STREAMS: u32 = 16;

/// "2 bits of kind (0 post, 1 unit, 2 unit with done, 3 end)"
mod kind {
    pub const POST: u32 = 0;
    pub const UNIT: u32 = 1;
    pub const DONE: u32 = 2;
    pub const END: u32 = 3;
}

/// "for calls to streams below 16; a call to another stream cannot be recorded"
pub fn can_be_recorded(call: Step) -> bool {
    match call {
        Step::Post(stream) => stream < RECORDED_STREAMS,
        Step::Unit | Step::Done => true,
    }
}

/// The fields of a call, each a value and its width: "2 bits of kind (0 post, 1 unit, 2 unit with
/// done, 3 end), and after a post 4 bits of stream".
///
/// It must be a call that can be recorded.
fn fields_of(call: Step) -> Vec<(u32, u32)> {
    assert!(can_be_recorded(call), "{call:?} cannot be recorded");
    match call {
        Step::Post(stream) => vec![(kind::POST, KIND_WIDTH), (stream, STREAM_WIDTH)],
        Step::Unit => vec![(kind::UNIT, KIND_WIDTH)],
        Step::Done => vec![(kind::DONE, KIND_WIDTH)],
    }
}

/// "A recording: for each call 2 bits of kind, after a post 4 bits of stream; then kind 3; then
/// zero bits to the byte's end, and no further byte." "as packed fields, most significant first"
///
/// All must be calls that can be recorded.
pub fn recording_of(calls: &[Step]) -> Vec<u8> {
    let mut fields: Vec<(u32, u32)> = calls.iter().flat_map(|&call| fields_of(call)).collect();
    fields.push((kind::END, KIND_WIDTH));
    sheet::pack(&fields)
}

/// "A place in a recording is a byte and a bit behind it". A place here can hold any numbers, so
/// that places out of a recording can be asked about.
#[derive(Clone, Copy, Debug, Default, PartialEq, Eq)]
pub struct Place {
    /// The byte, counted from 0.
    pub byte: usize,
    /// The bit of that byte, counted from its most significant.
    pub bit: usize,
}

impl Place {
    /// Where a recording starts.
    pub const START: Place = Place { byte: 0, bit: 0 };

    /// "byte at most the length, bit below 8, bit 0 at the end"
    pub fn is_in(self, bytes: &[u8]) -> bool {
        self.byte <= bytes.len() && self.bit < 8 && (self.byte < bytes.len() || self.bit == 0)
    }

    /// The place so many bits behind this one.
    fn behind(self, bits: u32) -> Place {
        let bits = self.bit + bits as usize;
        Place {
            byte: self.byte + bits / 8,
            bit: bits % 8,
        }
    }

    /// How many bits are left at a place in the bytes.
    fn bits_left(self, bytes: &[u8]) -> usize {
        (bytes.len() - self.byte) * 8 - self.bit
    }

    /// The one bit of the byte that this place names.
    fn mask(self) -> u8 {
        0x80 >> self.bit
    }
}

/// What the bits at a place say.
#[derive(Clone, Copy, Debug, PartialEq, Eq)]
pub enum Said {
    /// A call.
    Call {
        /// The call.
        call: Step,
        /// The place behind it.
        behind: Place,
    },
    /// Kind 3, and nothing behind it but zero bits to the byte's end.
    End,
}

/// What the bits at a place say: "fewer than 2 bits left, or a post with fewer than 4 behind it:
/// 13. Kind 3: a set bit behind it in its byte, or a further byte: 14; else end."
///
/// The place must be in the recording.
pub fn said_at(recording: &[u8], place: Place) -> Result<Said, Refusal> {
    let kind = field_at(recording, place, KIND_WIDTH).ok_or(Refusal::StopsBeforeEnd)?;
    let behind = place.behind(KIND_WIDTH);
    let call = match kind {
        kind::UNIT => Step::Unit,
        kind::DONE => Step::Done,
        kind::END if nothing_behind_end(recording, behind) => return Ok(Said::End),
        kind::END => return Err(Refusal::AfterEnd),
        _ => {
            let stream = field_at(recording, behind, STREAM_WIDTH);
            Step::Post(stream.ok_or(Refusal::StopsBeforeEnd)?)
        }
    };
    let behind = match call {
        Step::Post(_) => behind.behind(STREAM_WIDTH),
        Step::Unit | Step::Done => behind,
    };
    Ok(Said::Call { call, behind })
}

/// The field of so many bits at a place, "most significant first"; none if fewer are left.
fn field_at(bytes: &[u8], place: Place, width: u32) -> Option<u32> {
    if place.bits_left(bytes) < width as usize {
        return None;
    }
    let bit_at = |place: Place| u32::from(bytes[place.byte] & place.mask() != 0);
    Some((0..width).fold(0, |value, bit| value << 1 | bit_at(place.behind(bit))))
}

/// "After end come zero bits to the byte's end." "no further byte"
///
/// The byte is the one in which the end's second bit lies: where that is a byte's last bit, no
/// zero bits come.
fn nothing_behind_end(recording: &[u8], behind: Place) -> bool {
    let left = behind.bits_left(recording);
    left < 8 && field_at(recording, behind, left as u32) == Some(0)
}

/// Puts the lowest bits of a value, as many as the width says, at a place: "only the bits that
/// are written change". There must be room.
fn put_field(buffer: &mut [u8], place: Place, value: u32, width: u32) {
    for bit in 0..width {
        let place = place.behind(bit);
        if value >> (width - 1 - bit) & 1 == 1 {
            buffer[place.byte] |= place.mask();
        } else {
            buffer[place.byte] &= !place.mask();
        }
    }
}

/// Whether so many bits have room at a place. At a place that is not in the buffer nothing has.
fn has_room(buffer: &[u8], place: Place, bits: u32) -> bool {
    place.is_in(buffer) && place.bits_left(buffer) >= bits as usize
}

/// "A recorder for the cab: append a call to a lent buffer at a place": gives the place behind
/// it. "11 where there is no room, the buffer unchanged; only the bits that are written change."
///
/// "a call to another stream cannot be recorded, and the cab's answer to it was 1 with nothing
/// changed": that answer is given for it here as well, and the buffer is unchanged.
pub fn append(buffer: &mut [u8], place: Place, call: Step) -> Result<Place, Refusal> {
    if !can_be_recorded(call) {
        return Err(Refusal::NoSuchStream);
    }
    let fields = fields_of(call);
    let bits = fields.iter().map(|&(_, width)| width).sum();
    if !has_room(buffer, place, bits) {
        return Err(Refusal::BufferTooShort);
    }
    let mut behind = place;
    for (value, width) in fields {
        put_field(buffer, behind, value, width);
        behind = behind.behind(width);
    }
    Ok(behind)
}

/// "finish it": kind 3, "then zero bits to the byte's end". Gives the bytes of the recording that
/// ends there. "11 where there is no room, the buffer unchanged; only the bits that are written
/// change."
pub fn finish(buffer: &mut [u8], place: Place) -> Result<usize, Refusal> {
    if !has_room(buffer, place, KIND_WIDTH) {
        return Err(Refusal::BufferTooShort);
    }
    put_field(buffer, place, kind::END, KIND_WIDTH);
    let mut behind = place.behind(KIND_WIDTH);
    while behind.bit != 0 {
        put_field(buffer, behind, 0, 1);
        behind = behind.behind(1);
    }
    Ok(behind.byte)
}

/// Records all the calls into a lent buffer and gives the bytes of their recording: each is
/// appended, then it is finished. "11 where there is no room, the buffer unchanged", of the whole
/// recording: none of its calls is written then.
pub fn record(buffer: &mut [u8], calls: &[Step]) -> Result<usize, Refusal> {
    let mut written = buffer.to_vec();
    let mut place = Place::START;
    for &call in calls {
        place = append(&mut written, place, call)?;
    }
    let bytes = finish(&mut written, place)?;
    buffer.copy_from_slice(&written);
    Ok(bytes)
}
