//! Scenes about sheets that come in pieces over the service cable.

use second::refusal::Refusal;
use second::sheet;

use super::{hex_line, near_limit, read_line, Script};
use crate::pieces;
use crate::sets;
use crate::sheets;

/// What is counted of sheets that are fed in pieces and closed.
#[derive(Default)]
pub struct Fed {
    /// The sheets that are refused, by number: 5, 6, 7, 10.
    pub refused: [u64; 4],
    pub pieces: u64,
    pub empty_pieces: u64,
}

impl Script<'_> {
    fn feed(&mut self, piece: &[u8]) {
        self.say(hex_line("feed", piece));
    }

    /// A buffer that has room for every sheet.
    fn write_all(&mut self) {
        self.say("write 503");
    }

    /// Sheets in pieces, with other commands between them.
    pub(super) fn cables(&mut self) {
        for _ in 0..self.random.between(1, 4) {
            if self.random.one_in(4) {
                self.say("cable");
            }
            let pieces = self.few_pieces();
            for piece in pieces {
                self.feed(&piece);
                if self.random.one_in(15) {
                    self.between_pieces();
                }
            }
            if self.random.one_in(6) {
                // More pieces, whatever the sheet was.
                for _ in 0..self.random.between(1, 4) {
                    let piece: Vec<u8> = (0..self.random.between(0, 3))
                        .map(|_| self.random.pick(&[0, 0, 255, 16, 32]))
                        .collect();
                    self.feed(&piece);
                }
            }
            if self.random.one_in(12) {
                // Forgotten, or left for a later scene.
                continue;
            }
            self.say("close");
            match self.random.below(6) {
                0 => self.say("close"),
                1 => self.questions_about_set(),
                2 => {
                    self.say_start();
                    self.say("post 0");
                    self.say("unit");
                }
                3 => self.say("valid"),
                _ => self.write_all(),
            }
        }
    }

    /// A sheet, cut, that does not take up too much of the script.
    fn few_pieces(&mut self) -> Vec<Vec<u8>> {
        loop {
            let bytes = pieces::sheet(self.random, self.console.requests);
            let pieces = pieces::cut(self.random, &bytes);
            if pieces.len() <= 60 || self.random.one_in(20) {
                return pieces;
            }
        }
    }

    /// What comes between two pieces and does not touch them, and seldom what forgets them.
    fn between_pieces(&mut self) {
        match self.random.below(9) {
            0..=1 => {
                let set = sets::small(self.random, self.console.requests);
                self.say(read_line(&sheets::of_set(&set)));
            }
            2 => {
                let set = sets::small(self.random, self.console.requests);
                let requests = self.console.requests;
                let sheet = sheets::damaged(self.random, &set, requests);
                self.say(read_line(&sheet));
            }
            3 => self.write_all(),
            4 => {
                let length = near_limit(self.random);
                self.say(format!("write {length}"));
            }
            5 => self.say("feed 1"),
            6 => self.say("start"),
            7 => self.say("unit"),
            _ => self.say("cable"),
        }
    }

    /// One sheet cut in two at every place, or at every place near its end if it is long.
    pub(super) fn cut_at_every_place(&mut self) {
        let set = sets::small(self.random, self.console.requests);
        let requests = self.console.requests;
        let bytes = match self.random.below(3) {
            0 => sheets::of_set(&set),
            _ => sheets::damaged(self.random, &set, requests),
        };
        for place in bytes.len().saturating_sub(60)..=bytes.len() {
            self.feed(&bytes[..place]);
            if self.random.one_in(8) {
                self.feed(&[]);
            }
            self.feed(&bytes[place..]);
            self.say("close");
            if self.random.one_in(8) {
                self.write_all();
            }
        }
        self.write_all();
    }

    /// A refused sheet with more pieces behind it, closed after each number of them: the first
    /// bytes decide, but for 5.
    pub(super) fn pieces_behind_a_refused_sheet(&mut self) {
        let requests = self.console.requests;
        let bytes = loop {
            let set = sets::small(self.random, requests);
            let bytes = sheets::damaged(self.random, &set, requests);
            if bytes.len() <= 200 && sheet::read(&bytes, requests).is_err() {
                break bytes;
            }
        };
        for more in 0..self.random.between(2, 6) {
            for piece in pieces::cut(self.random, &bytes) {
                self.feed(&piece);
            }
            for _ in 0..more {
                let piece: Vec<u8> = (0..self.random.between(0, 40))
                    .map(|_| self.random.byte())
                    .collect();
                self.feed(&piece);
            }
            self.say("close");
            if self.random.one_in(3) {
                self.say("close");
                self.write_all();
            }
        }
    }

    /// A sheet cut at random, closed, and written.
    pub(super) fn sheet_in_pieces(&mut self, fed: &mut Fed) {
        let requests = self.console.requests;
        let bytes = pieces::sheet(self.random, requests);
        let pieces = pieces::cut(self.random, &bytes);
        fed.pieces += pieces.len() as u64;
        fed.empty_pieces += pieces.iter().filter(|piece| piece.is_empty()).count() as u64;
        for piece in &pieces {
            self.feed(piece);
        }
        if let Err(refusal) = sheet::read(&bytes, requests) {
            fed.refused[match refusal {
                Refusal::BitsMissing => 0,
                Refusal::BadVersion => 1,
                Refusal::OutOfRule => 2,
                _ => 3,
            }] += 1;
        }
        self.say("close");
        self.write_all();
    }
}
