//! Sheets over the service cable, of request 5.

mod common;

use std::fs;
use std::io::Write;
use std::path::PathBuf;
use std::process::{Command, Stdio};

use common::{full_set_of_stages, said_from, set_b, set_of_stages, SHEET_W12};
use second::cable::{pieces_of_frames, run, BrokenFrame, Carried};
use second::refusal::Refusal;
use second::requests::{PIECES, RENDERED};
use second::set::Set;
use second::sheet::{self, fields, pack};

fn sheet_of(set: &Set) -> Vec<u8> {
    pack(&fields(set))
}

/// Sheets of both versions, and bytes of each refusal.
fn all_kinds() -> Vec<Vec<u8>> {
    let mut further = sheet_of(&set_b());
    further.push(0);
    let mut short = sheet_of(&set_of_stages());
    short.pop();
    vec![
        sheet_of(&set_b()),
        sheet_of(&set_of_stages()),
        SHEET_W12.to_vec(),
        vec![0x10, 0x00],
        vec![0x20, 0x00],
        Vec::new(),
        vec![0x10],
        vec![0x30],
        vec![0x30, 0xff, 0xff],
        vec![0x18, 0x80],
        vec![0x10, 0x01],
        further,
        short,
    ]
}

fn closed<'a>(pieces: impl IntoIterator<Item = &'a [u8]>) -> Result<Set, Refusal> {
    let mut carried = Carried::start();
    for piece in pieces {
        carried.feed(piece);
    }
    carried.close(RENDERED)
}

#[test]
fn pieces_give_what_the_joined_bytes_give() {
    for bytes in all_kinds() {
        let expected = sheet::read(&bytes, RENDERED);
        assert_eq!(closed([&bytes[..]]), expected);
        assert_eq!(closed(bytes.chunks(1)), expected);
        for first in 0..=bytes.len() {
            for second in first..=bytes.len() {
                let pieces = [&bytes[..first], &bytes[first..second], &bytes[second..]];
                assert_eq!(closed(pieces), expected);
            }
        }
        let with_empty = bytes.chunks(1).flat_map(|piece| [&[][..], piece, &[]]);
        assert_eq!(closed(with_empty), expected);
    }
}

#[test]
fn closing_leaves_the_carried_state_as_it_was() {
    let mut carried = Carried::start();
    carried.feed(&SHEET_W12);
    let before = carried.clone();
    let first = carried.close(RENDERED);
    assert_eq!(carried, before);
    assert_eq!(carried.close(RENDERED), first);
}

#[test]
fn lines_about_the_cable() {
    let said = |script: &str| said_from(PIECES, script);
    assert_eq!(said("close"), "refused 5\n");
    assert_eq!(said("feed\nclose"), "fed\nrefused 5\n");
    for line in ["feed ", "feed 1", "feed 1G", "feed A0", "feed 10 00"] {
        assert_eq!(
            said(&format!("feed 10\n{line}\nfeed 00\nclose")),
            "fed\n?\nfed\nset 0\n"
        );
    }
    for line in ["cable 0", "cable ", "close 0", "close "] {
        assert_eq!(
            said(&format!("feed 1000\n{line}\nclose")),
            "fed\n?\nset 0\n"
        );
    }
    // What does not touch the carried state.
    let script = "feed 20\nread 10\nstart\nunit\nwrite 2\nfeed 00\nclose\nwrite 2";
    let expected = "fed\nrefused 5\nstarted\n0 idle\nwrote 2\n1000\nfed\nset 0\nwrote 2\n2000\n";
    assert_eq!(said(script), expected);
    // A refused sheet leaves the empty set of version 1, and the carried state is new again.
    let script = "read 2000\nfeed 30\nclose\nwrite 2\nfeed 2000\nclose\nwrite 2";
    let expected = "set 0\nfed\nrefused 6\nwrote 2\n1000\nfed\nset 0\nwrote 2\n2000\n";
    assert_eq!(said(script), expected);
}

#[test]
fn more_bytes_than_any_sheet_has() {
    let mut script = String::new();
    for _ in 0..40 {
        script += &format!("feed {}\n", "10".repeat(2_040));
    }
    script += "close\nfeed 1000\nclose";
    let said = said_from(PIECES, &script);
    assert!(said.ends_with("fed\nrefused 10\nfed\nset 0\n"), "{said}");
    let longest = sheet_of(&full_set_of_stages());
    let mut carried = Carried::start();
    carried.feed(&longest);
    assert_eq!(carried.close(RENDERED), Ok(full_set_of_stages()));
    for _ in 0..300 {
        carried.feed(&[0; 255]);
    }
    assert_eq!(carried.close(RENDERED), Err(Refusal::AfterLastField));
}

#[test]
fn frames() {
    let none: Vec<&[u8]> = Vec::new();
    assert_eq!(pieces_of_frames(&[]), Ok(none));
    assert_eq!(pieces_of_frames(&[0]), Ok(vec![&[][..]]));
    let two: Vec<&[u8]> = vec![&[9], &[], &[7, 8]];
    assert_eq!(pieces_of_frames(&[1, 9, 0, 2, 7, 8]), Ok(two));
    for broken in [&[1][..], &[2, 0], &[0, 1], &[1, 9, 255], &[3, 1, 2]] {
        assert_eq!(pieces_of_frames(broken), Err(BrokenFrame));
    }
    let mut longest = vec![255];
    longest.extend([1; 255]);
    assert_eq!(pieces_of_frames(&longest), Ok(vec![&[1; 255][..]]));
    assert_eq!(pieces_of_frames(&longest[..255]), Err(BrokenFrame));
}

#[test]
fn what_the_program_makes_of_frames() {
    let brought = run(&[1, 0x10, 0, 1, 0x00], RENDERED).expect("whole frames");
    assert_eq!(brought.output, "set 0\n");
    assert_eq!(brought.sheet, Some(vec![0x10, 0x00]));
    let brought = run(&[], RENDERED).expect("whole frames");
    assert_eq!(
        (brought.output.as_str(), brought.sheet),
        ("refused 5\n", None)
    );
    assert_eq!(run(&[2, 0x10], RENDERED), Err(BrokenFrame));
    for bytes in all_kinds() {
        let mut frames = Vec::new();
        for piece in bytes.chunks(7) {
            frames.push(piece.len() as u8);
            frames.extend(piece);
        }
        let sheet = run(&frames, RENDERED).expect("whole frames").sheet;
        let is_one = sheet::read(&bytes, RENDERED).is_ok();
        assert_eq!(sheet, is_one.then_some(bytes));
    }
}

/// A folder for one test.
struct Folder(PathBuf);

impl Folder {
    fn new(name: &str) -> Folder {
        let path = std::env::temp_dir().join(format!("second-{name}-{}", std::process::id()));
        fs::create_dir_all(&path).expect("a folder");
        Folder(path)
    }

    fn file(&self) -> Option<Vec<u8>> {
        fs::read(self.0.join("set.bin")).ok()
    }

    /// Standard output, standard error and the exit status of the program on this input.
    fn cable(&self, input: &[u8]) -> (String, String, Option<i32>) {
        let mut child = Command::new(env!("CARGO_BIN_EXE_second-cable"))
            .current_dir(&self.0)
            .stdin(Stdio::piped())
            .stdout(Stdio::piped())
            .stderr(Stdio::piped())
            .spawn()
            .expect("the program starts");
        let mut stdin = child.stdin.take().expect("a piped standard input");
        stdin.write_all(input).expect("all of it is read");
        drop(stdin);
        let output = child.wait_with_output().expect("the program ends");
        let text = |bytes: Vec<u8>| String::from_utf8(bytes).expect("text");
        (
            text(output.stdout),
            text(output.stderr),
            output.status.code(),
        )
    }
}

impl Drop for Folder {
    fn drop(&mut self) {
        let _ = fs::remove_dir_all(&self.0);
    }
}

#[test]
fn the_program_writes_the_sheet_or_leaves_the_file() {
    let folder = Folder::new("cable");
    let said = |input: &[u8]| folder.cable(input);
    let (none, refused) = (String::new(), "refused 5\n".to_string());
    assert_eq!(said(&[]), (refused.clone(), none.clone(), Some(0)));
    assert_eq!(folder.file(), None);
    let broken = (none.clone(), "broken frame\n".to_string(), Some(1));
    assert_eq!(said(&[3, 0x10, 0x00]), broken);
    assert_eq!(folder.file(), None);
    let mut frames = vec![0, 4];
    frames.extend(&SHEET_W12[..4]);
    frames.extend([0, 7]);
    frames.extend(&SHEET_W12[4..]);
    assert_eq!(
        said(&frames),
        ("set 1\n".to_string(), none.clone(), Some(0))
    );
    assert_eq!(folder.file(), Some(SHEET_W12.to_vec()));
    assert_eq!(said(&[1, 0x10]), (refused, none.clone(), Some(0)));
    assert_eq!(said(&[2, 0x10, 0x00, 1]), broken);
    assert_eq!(folder.file(), Some(SHEET_W12.to_vec()));
    let read = said(&[2, 0x20, 0x00]);
    assert_eq!(read, ("set 0\n".to_string(), none, Some(0)));
    assert_eq!(folder.file(), Some(vec![0x20, 0x00]));
    assert_eq!(fs::read_dir(&folder.0).expect("a folder").count(), 1);
}
