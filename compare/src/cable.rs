//! Sheets over the service cable (request 5): "The cable brings a sheet as pieces, any cut and some
//! with no bytes."
//!
//! What is carried here from piece to piece is the bytes that came: the plainest thing from which
//! closing can give what the joined bytes give. (The request wants no copy of them in the cab's
//! carried state; this is not the cab's.)

use crate::refusal::Refusal;
use crate::set::Set;
use crate::sheet;

/// The joined bytes of the pieces that were fed. Any bytes can be left by pieces, so 12, "for a
/// carried state that no pieces could have left", is never given here.
#[derive(Clone, Debug, Default, PartialEq, Eq)]
pub struct Carried {
    joined: Vec<u8>,
}

impl Carried {
    /// A new carried state: no piece has come.
    pub fn start() -> Carried {
        Carried::default()
    }

    /// "Feeding answers fed, [...]: nothing else is handed out before closing, not even that the
    /// sheet is already refused."
    pub fn feed(&mut self, piece: &[u8]) {
        self.joined.extend(piece);
    }

    /// "Feeding the pieces and then closing gives the set, or the refusal, that the joined bytes
    /// give"; "the carried state is the caller's and stays as it was".
    pub fn close(&self, requests: u32) -> Result<Set, Refusal> {
        sheet::read(&self.joined, requests)
    }
}

/// That standard input ends within a frame.
#[derive(Clone, Copy, Debug, PartialEq, Eq)]
pub struct BrokenFrame;

/// The pieces of the cable program's standard input: "a byte of length L (0 to 255), then L bytes,
/// and so on to the end of input". "A frame that stops early (fewer bytes than its length says) is
/// a fault of the input".
pub fn pieces_of_frames(input: &[u8]) -> Result<Vec<&[u8]>, BrokenFrame> {
    let mut pieces = Vec::new();
    let mut rest = input;
    while let Some((&length, behind)) = rest.split_first() {
        let (piece, behind) = behind
            .split_at_checked(usize::from(length))
            .ok_or(BrokenFrame)?;
        pieces.push(piece);
        rest = behind;
    }
    Ok(pieces)
}

/// What the cable program does with its standard input.
#[derive(Clone, Debug, PartialEq, Eq)]
pub struct Brought {
    /// The whole of what is printed: "what the console's `close` prints".
    pub output: String,
    /// The bytes that the file set.bin is to have: "where a set was read, [...] the set's sheet";
    /// none where the file stays as it was.
    pub sheet: Option<Vec<u8>>,
}

/// Feeds the pieces of the frames, closes "at the end of input", and says what is printed and
/// written.
pub fn run(input: &[u8], requests: u32) -> Result<Brought, BrokenFrame> {
    let mut carried = Carried::start();
    for piece in pieces_of_frames(input)? {
        carried.feed(piece);
    }
    Ok(match carried.close(requests) {
        Ok(set) => Brought {
            output: format!("set {}\n", set.count),
            sheet: Some(sheet::pack(&sheet::fields(&set))),
        },
        Err(refusal) => Brought {
            output: format!("{refusal}\n"),
            sheet: None,
        },
    })
}
