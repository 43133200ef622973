//! speed [SECONDS]: the proved program's speed, as ratios to plain Rust programs that do the same.
//!
//! First all results are compared, also with the second program's. Then each row of the table is
//! measured: the two programs by turns, on the same bytes, for SECONDS (5 if left out). Nothing is
//! cleared between two measurements, and both write their result to a register only.

mod dense;
mod floor;
mod inputs;
mod measure;
mod plain;
mod proved;
mod slow;

use std::process::ExitCode;

/// Stops at the first result that differs. Every sheet is read, judged and run.
fn compare(cases: u32) {
    let mut random = inputs::Random(88_172_645_463_325_252);
    for case in 0..cases {
        let (sheet, calls, k) = (random.sheet(), random.calls(), random.below(17) as usize);
        same(
            case,
            proved::read(&sheet, k),
            plain::read(&sheet, k),
            slow::read(&sheet, k),
        );
        let size = random.below(9) as usize;
        same(
            case,
            proved::fed(&sheet, size, k),
            dense::fed::<{ dense::JUDGES }>(&sheet, size, k),
            slow::read(&sheet, k),
        );
        same(
            case,
            proved::verdict(&sheet),
            plain::verdict(&sheet),
            slow::verdict(&sheet),
        );
        same(
            case,
            proved::run(&sheet, &calls),
            plain::run(&sheet, &calls),
            slow::run(&sheet, &calls),
        );
    }
}

fn same(case: u32, proved: u64, plain: u64, slow: u64) {
    if proved != plain || proved != slow {
        eprintln!("case {case} differs: proved {proved:x}, plain {plain:x}, second {slow:x}");
        std::process::exit(1);
    }
}

fn size(streams: usize, tuples: u32) -> String {
    let plural = |many: bool| if many { "s" } else { "" };
    let (s, t) = (plural(streams > 1), plural(tuples > 1));
    format!("{streams} stream{s} of {tuples} tuple{t}")
}

struct Table {
    seconds: u64,
    within: bool,
}

impl Table {
    /// A row; one without a limit is there to be known.
    fn row(
        &mut self,
        what: &str,
        limit: Option<f64>,
        proved: &dyn Fn() -> u64,
        plain: &dyn Fn() -> u64,
    ) {
        let (a, b) = (proved(), plain());
        assert_eq!(a, b, "{what}: the two programs differ");
        let (ratio, rounds) = measure::ratio(proved, plain, self.seconds);
        let shown = limit.map_or("none".to_string(), |limit| format!("{limit:.1}"));
        println!("| {what} | {ratio:.2} | {shown} | {rounds} |");
        self.within &= limit.map_or(true, |limit| ratio <= limit);
    }

    /// A row of two programs that do different work, to be known.
    fn beside(&self, what: &str, first: &dyn Fn() -> u64, second: &dyn Fn() -> u64) {
        let (ratio, rounds) = measure::ratio(first, second, self.seconds);
        println!("| {what} | {ratio:.2} | none | {rounds} |");
    }

    /// The plain reader whose state is dense and lent, one byte at a time beside its own one piece.
    fn dense<const TEST: u8>(&mut self, name: &str, test: &str, sheet: &[u8]) {
        let what = format!("{name} by a plain reader with a dense state, lent, that {test}: in pieces of 1, beside one piece");
        self.row(&what, None, &|| dense::fed::<TEST>(sheet, 1, 0), &|| {
            dense::fed::<TEST>(sheet, 0, 0)
        });
    }

    /// A run of calls beside the plain scheduler by value, and beside the one in place.
    fn run(&mut self, what: &str, sheet: &[u8], calls: &[u8]) {
        let proved = || proved::run(sheet, calls);
        self.row(what, Some(1.5), &proved, &|| plain::run(sheet, calls));
        let what = format!("{what}, beside a state in place");
        self.row(&what, None, &proved, &|| plain::run_in_place(sheet, calls));
    }

    fn steps(&mut self, streams: usize, tuples: u32) {
        let sheet = inputs::steps_set(streams as u32, tuples);
        for pending in [1, 16, 64] {
            let on = format!("{pending} pending, {}", size(streams, tuples));
            let calls = inputs::posts_and_units(streams, pending, 20_000);
            self.run(
                &format!("a post and a unit with done, {on}"),
                &sheet,
                &calls,
            );
            let calls = inputs::units(streams, pending, 20_000);
            self.run(&format!("a unit that runs, {on}"), &sheet, &calls);
        }
    }
}

fn main() -> ExitCode {
    let seconds = std::env::args()
        .nth(1)
        .map_or(Some(5), |word| word.parse().ok());
    let Some(seconds) = seconds else {
        eprintln!("usage: speed [SECONDS]");
        return ExitCode::from(2);
    };
    let cases = 20_000;
    compare(cases);
    println!("{cases} random sheets read, judged and run: 0 differ\n");
    println!("| what | proved / plain | limit | rounds |\n|---|---|---|---|");
    let mut table = Table {
        seconds,
        within: true,
    };
    for tuples in [1, 4] {
        let sheet = inputs::long_check(tuples);
        let what = format!("load check, accepted, H = 1,000,000, {}", size(16, tuples));
        assert_eq!(proved::verdict(&sheet), 0, "{what}: not accepted");
        table.row(&what, Some(1.2), &|| proved::verdict(&sheet), &|| {
            plain::verdict(&sheet)
        });
    }
    for (tuples, n) in [(1, 12_000), (4, 12_091)] {
        let sheet = inputs::long_check(tuples);
        let what = format!(
            "load check, the same, in 100 calls, beside the proved one in one, {}",
            size(16, tuples)
        );
        table.row(&what, Some(1.1), &|| proved::in_calls(&sheet, n), &|| {
            proved::verdict(&sheet)
        });
    }
    for tuples in [1, 4] {
        let sheet = inputs::short_check(tuples);
        let what = format!(
            "load check, accepted, 2,000 lengths, a call for each, beside the proved one in one, {}",
            size(16, tuples)
        );
        assert_eq!(proved::verdict(&sheet), 0, "{what}: not accepted");
        table.row(&what, None, &|| proved::in_calls(&sheet, 1), &|| {
            proved::verdict(&sheet)
        });
    }
    let sheet = inputs::long_check(4);
    assert_eq!(sheet.len(), 378);
    let what = "reading a full sheet of 378 bytes, plain reader by bytes";
    table.row(what, Some(1.5), &|| proved::read(&sheet, 15), &|| {
        plain::read(&sheet, 15)
    });
    let what = "reading a full sheet of 378 bytes, plain reader by bits";
    table.row(what, Some(1.5), &|| proved::read(&sheet, 15), &|| {
        slow::read(&sheet, 15)
    });
    let what = "feeding that sheet in one piece, beside reading it";
    table.row(what, None, &|| proved::fed(&sheet, 0, 15), &|| {
        proved::read(&sheet, 15)
    });
    let small = inputs::small_sheet();
    for (name, sheet) in [
        ("a full sheet of 378 bytes", &sheet),
        ("a sheet of one stream, 11 bytes", &small),
    ] {
        for size in [64, 8, 1] {
            let what = format!("{name} in pieces of {size}, beside one piece");
            let limit = if size == 1 { Some(3.0) } else { None };
            table.row(&what, limit, &|| proved::fed(sheet, size, 0), &|| {
                proved::fed(sheet, 0, 0)
            });
        }
        let one_piece = || proved::fed(sheet, 0, 0);
        let what = format!("{name}: what is carried handed over and back for each byte, and nothing else, beside one piece");
        table.beside(&what, &|| floor::handed(sheet), &one_piece);
        let what = format!("{name}: what is carried lent and looked at once for each byte, and nothing else, beside one piece");
        table.beside(&what, &|| floor::looked(sheet), &one_piece);
        table.dense::<{ dense::NOTHING }>(name, "tests nothing", sheet);
        table.dense::<{ dense::LOOKS_AT_USED }>(name, "looks at each word in use", sheet);
        table.dense::<{ dense::LOOKS }>(name, "looks at each word", sheet);
        table.dense::<{ dense::JUDGES_USED }>(
            name,
            "holds the fields in use against their greatest values",
            sheet,
        );
        table.dense::<{ dense::JUDGES }>(
            name,
            "holds the fields against their greatest values",
            sheet,
        );
    }
    table.steps(16, 4);
    table.steps(1, 2);
    if table.within {
        ExitCode::SUCCESS
    } else {
        ExitCode::FAILURE
    }
}
