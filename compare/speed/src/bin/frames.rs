//! frames FILE [NAME..]: how much stack the functions of a program, an object file or an archive need, read from its compiled code.
//!
//! A function's frame is its return address, what it pushes and what it takes from the stack pointer. For each function whose name
//! ends in one of the names (for all, where none is named) the calls with the greatest sum of frames are printed, and the sum.
//! What the sum does not have is named below it: functions that are not in the file (the C library's), calls and jumps through a pointer
//! (a jump may as well lead to another place of its own function), and a function's calls of itself, by whatever way.

use std::collections::{BTreeMap, BTreeSet};
use std::process::{Command, ExitCode};

#[derive(Default)]
struct Function {
    frame: u64,
    calls: BTreeSet<String>,
    outside: BTreeSet<String>,
}

type Functions = BTreeMap<String, Function>;

/// The number of `$0x1f8,%rsp`, if the words are such.
fn taken(words: &str, register: &str) -> Option<u64> {
    let number = words.strip_prefix("$0x")?.strip_suffix(register)?;
    u64::from_str_radix(number.strip_suffix(',')?, 16).ok()
}

/// The depth of the stack in a function, as its lines are read from the first to the last.
#[derive(Default)]
struct Depth {
    now: u64,
    most: u64,
    /// what it was before the pops that lead to a return
    kept: Option<u64>,
    /// what a loop that touches each page takes in all
    paged: u64,
}

impl Depth {
    fn grow(&mut self, bytes: u64) {
        self.now += bytes;
        self.most = self.most.max(self.now);
    }

    fn shrink(&mut self, bytes: u64) {
        self.kept.get_or_insert(self.now);
        self.now = self.now.saturating_sub(bytes);
    }

    /// One instruction; false if it moves the stack pointer in a way that is not known here.
    fn step(&mut self, operation: &str, rest: &str) -> bool {
        match operation {
            "push" => self.grow(8),
            "pop" => self.shrink(8),
            "sub" if rest.ends_with(",%rsp") => match taken(rest, "%rsp") {
                Some(bytes) => self.grow(bytes),
                None => return false,
            },
            "add" if rest.ends_with(",%rsp") => match taken(rest, "%rsp") {
                Some(bytes) => self.shrink(bytes),
                None => return false,
            },
            "sub" if rest.ends_with(",%r11") => self.paged = taken(rest, "%r11").unwrap_or(0),
            // the loop's one step was counted
            "cmp" if rest == "%r11,%rsp" => self.grow(self.paged.saturating_sub(4096)),
            "ret" | "jmp" => {
                if let Some(depth) = self.kept.take() {
                    self.now = depth;
                }
            }
            "and" | "lea" | "mov" | "xchg" | "leave" if rest.ends_with(",%rsp") => return false,
            _ => self.kept = None,
        }
        true
    }
}

/// `name` of `1f0 <name>`, and whether it is the start of a function.
fn target(rest: &str) -> Option<(&str, bool)> {
    let name = rest.split_once('<')?.1.strip_suffix('>')?;
    match name.rsplit_once("+0x") {
        Some((name, _)) => Some((name, false)),
        None => Some((name, true)),
    }
}

/// Where a line of relocation leads: `R_X86_64_PLT32 .text.name-0x4`.
fn relocated(line: &str) -> Option<&str> {
    let words = line.split_once("R_X86_64_")?.1;
    let name = words.split_once('\t').map_or(words, |(_, name)| name);
    let name = name.split("-0x").next()?.split("+0x").next()?;
    Some(name.strip_prefix(".text.").unwrap_or(name))
}

fn read(listing: &str) -> Functions {
    let mut all = Functions::new();
    let mut name = String::new();
    let mut depth = Depth::default();
    let mut called = false;
    for line in listing.lines() {
        if let Some(head) = line.strip_suffix(">:") {
            name = head
                .split_once('<')
                .map_or("", |(_, name)| name)
                .to_string();
            depth = Depth::default();
            called = false;
            all.insert(name.clone(), Function::default());
            continue;
        }
        let Some(function) = all.get_mut(&name) else {
            continue;
        };
        if line.contains("R_X86_64_") {
            if let Some(callee) = relocated(line).filter(|_| called) {
                function.calls.insert(callee.to_string());
            }
            called = false;
            continue;
        }
        let Some((_, code)) = line.split_once(":\t") else {
            continue;
        };
        let (operation, rest) = code.split_once(' ').unwrap_or((code, ""));
        let rest = rest.split('#').next().unwrap_or("").trim();
        if !depth.step(operation, rest) {
            function
                .outside
                .insert(format!("the stack pointer moves by `{operation} {rest}`"));
        }
        called = operation == "call" || operation == "jmp";
        if called && rest.starts_with('*') {
            function
                .outside
                .insert(format!("a {operation} through a pointer"));
        } else if called {
            match target(rest) {
                // in an object file the line behind says where a call leads, and a jump within the function has none
                Some((callee, true)) if operation == "call" || callee != name => {
                    function.calls.insert(callee.to_string());
                }
                _ => {}
            }
        }
        function.frame = 8 + depth.most;
    }
    all
}

struct Path {
    sum: u64,
    frames: Vec<(String, u64)>,
    outside: BTreeSet<String>,
}

/// The deepest calls from a function that was reached by those above it.
fn deepest(all: &Functions, name: &str, above: &mut Vec<String>) -> Path {
    let own = &all[name];
    let mut outside = own.outside.clone();
    let mut best: Option<Path> = None;
    above.push(name.to_string());
    for callee in &own.calls {
        if !all.contains_key(callee) || callee.ends_with("@plt") {
            outside.insert(callee.clone());
            continue;
        }
        if above.contains(callee) {
            outside.insert(format!("{callee} once more, called by {name}"));
            continue;
        }
        let path = deepest(all, callee, above);
        outside.extend(path.outside.iter().cloned());
        if best.as_ref().is_none_or(|found| found.sum < path.sum) {
            best = Some(path);
        }
    }
    above.pop();
    let mut frames = vec![(name.to_string(), own.frame)];
    let mut sum = own.frame;
    if let Some(path) = best {
        sum += path.sum;
        frames.extend(path.frames);
    }
    Path {
        sum,
        frames,
        outside,
    }
}

fn main() -> ExitCode {
    let mut words = std::env::args().skip(1);
    let Some(file) = words.next() else {
        eprintln!("usage: frames FILE [NAME..]");
        return ExitCode::from(2);
    };
    let names: Vec<String> = words.collect();
    let output = match Command::new("objdump")
        .args(["-dr", "--no-show-raw-insn", &file])
        .output()
    {
        Ok(output) if output.status.success() => output,
        _ => {
            eprintln!("frames: objdump cannot read {file}");
            return ExitCode::from(2);
        }
    };
    let all = read(&String::from_utf8_lossy(&output.stdout));
    let wanted =
        |name: &String| names.is_empty() || names.iter().any(|end| name.ends_with(end.as_str()));
    let mut any = false;
    for name in all.keys().filter(|name| wanted(name)) {
        any = true;
        let path = deepest(&all, name, &mut Vec::new());
        for (one, frame) in &path.frames {
            println!("{frame:>8}  {one}");
        }
        println!("{:>8}  in all", path.sum);
        for one in &path.outside {
            println!("          not counted: {one}");
        }
    }
    if !any {
        eprintln!("frames: {file} has no function of that name");
        return ExitCode::from(2);
    }
    ExitCode::SUCCESS
}
