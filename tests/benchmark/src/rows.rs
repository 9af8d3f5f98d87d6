//! The rows of the tables: inputs that grow with a count.

use crate::linked::{proved_buffers, proved_calls, proved_fields, proved_lines, proved_rewritten};
use crate::sides::*;
use crate::workload::*;
use std::sync::Mutex;

#[derive(Clone, Copy, PartialEq)]
pub enum Side {
    Proved,
    Independent,
    Fast,
}

pub const SIDES: [Side; 3] = [Side::Proved, Side::Independent, Side::Fast];

impl Side {
    pub fn name(self) -> &'static str {
        match self {
            Side::Proved => "proved",
            Side::Independent => "independent",
            Side::Fast => "fast",
        }
    }

    pub fn named(name: &str) -> Side {
        SIDES.into_iter().find(|side| side.name() == name).expect("a side: proved, independent or fast")
    }
}

/// The count that callgrind sees, and ten times as much.
pub const SMALL: usize = 10;

pub enum Input {
    Calls(Vec<u8>, Script),
    Buffers(Vec<u8>, Buffers),
    Lines(Vec<u8>),
    Rewritten(Vec<u8>),
    Fields(Vec<u8>),
}

pub struct Row {
    pub name: String,
    /// How many bytes, samples or lines a count of 1 adds.
    pub units: usize,
    /// What goes with each count and is taken off: the name of the row that measures it.
    pub less: Option<&'static str>,
    /// Input and answers fit on the board of tests/cortex-m0.
    pub fits_board: bool,
    pub input: Box<dyn Fn(usize) -> Input>,
}

/// What whole buffers are lent: outside of the stack and the heap, which are measured.
static OUT: Mutex<[u8; LENT]> = Mutex::new([0; LENT]);

fn run_buffers(side: Side, profiles: &[u8], all: &Buffers) -> u64 {
    let mut lent = OUT.lock().expect("nothing else lends it");
    let (script, received, out) = (&all.script.0, all.received(), &mut lent[..]);
    match side {
        Side::Proved => proved_buffers(profiles, script, received, out),
        Side::Independent => independent_buffers(profiles, script, received, out),
        Side::Fast => fast_buffers(profiles, script, received, out),
    }
}

/// The checksums that one side makes of an input. Callgrind writes what it counted when this returns.
#[inline(never)]
pub fn run(side: Side, input: &Input) -> (u64, i64) {
    let mut out = [0; ROOM as usize];
    let mut values = 0;
    let sum = match (side, input) {
        (_, Input::Buffers(profiles, all)) => run_buffers(side, profiles, all),
        (Side::Proved, Input::Calls(profiles, script)) => proved_calls(profiles, &script.0, &mut out),
        (Side::Independent, Input::Calls(profiles, script)) => independent_calls(profiles, &script.0, &mut out),
        (Side::Fast, Input::Calls(profiles, script)) => fast_calls(profiles, &script.0, &mut out),
        (Side::Proved, Input::Lines(lines)) => proved_lines(lines, &mut values),
        (Side::Independent, Input::Lines(lines)) => independent_lines(lines, &mut values),
        (Side::Fast, Input::Lines(lines)) => fast_lines(lines, &mut values),
        (Side::Proved, Input::Rewritten(lines)) => proved_rewritten(lines, &mut out),
        (Side::Independent, Input::Rewritten(lines)) => independent_rewritten(lines, &mut out),
        (Side::Fast, Input::Rewritten(lines)) => fast_rewritten(lines, &mut out),
        (Side::Proved, Input::Fields(numbers)) => proved_fields(numbers),
        (Side::Independent, Input::Fields(numbers)) => independent_fields(numbers),
        (Side::Fast, Input::Fields(numbers)) => fast_fields(numbers),
    };
    (sum, values)
}

fn row(name: &str, units: usize, input: impl Fn(usize) -> Input + 'static) -> Row {
    Row { name: name.to_string(), units, less: None, fits_board: true, input: Box::new(input) }
}

fn script(fill: impl Fn(&mut Script)) -> Script {
    let mut script = Script::default();
    fill(&mut script);
    script
}

/// Calls with profile A: a power-on and a stable sample, then the body again and again.
fn calls(name: &str, units: usize, body: Script) -> Row {
    row(name, units, move |count| Input::Calls(profile_a(), repeated(count, &body)))
}

fn line(line: &'static str) -> Row {
    let body = script(|script| script.line(line.as_bytes()));
    calls(&format!("line `{line}`, {} bytes", line.len() + 2), 1, body)
}

/// The same in the coarse range.
fn coarse_line(line: &'static str) -> Row {
    let body = script(|script| script.line(line.as_bytes()));
    let input = move |count| Input::Calls(profile_with_fine(FINE), repeated_at(COARSE_LOAD, count, &body));
    row(&format!("line `{line}`, {} bytes, coarse", line.len() + 2), 1, input)
}

fn reads(name: &str, all: Vec<Vec<u8>>) -> Row {
    row(name, all.len(), move |count| Input::Lines(lines(&all).repeat(count)))
}

fn rewrites(name: &str, all: Vec<Vec<u8>>) -> Row {
    row(name, all.len(), move |count| Input::Rewritten(lines(&all).repeat(count)))
}

/// One number again and again.
fn field(name: &str, decimals: u8, places: i64) -> Row {
    row(name, 100, move |count| Input::Fields(number(decimals, places).repeat(100 * count)))
}

/// Without what the loop takes, which a number with 7 decimals shows: it is tested, and has ten spaces.
fn digits(name: &str, decimals: u8, places: i64) -> Row {
    Row { less: Some(NO_FIELD), ..field(name, decimals, places) }
}

fn samples(name: &str, before: &'static [u8], fill: fn(&mut Script, usize)) -> Row {
    samples_with(profile_a(), name, before, fill)
}

fn samples_with(profile: Vec<u8>, name: &str, before: &'static [u8], fill: fn(&mut Script, usize)) -> Row {
    row(name, 100, move |count| {
        let mut script = repeated(0, &Script::default());
        script.line(before);
        fill(&mut script, 100 * count);
        Input::Calls(profile.clone(), script)
    })
}

/// Bytes that end no line, after what another row measures.
fn inner_bytes(name: &str, profile: Vec<u8>, less: &'static str, before: fn(&mut Script)) -> Row {
    let body = script(|script| {
        before(script);
        for _ in 0..60 {
            script.byte(b'x');
        }
    });
    let input = move |count| Input::Calls(profile.clone(), repeated(count, &body));
    Row { less: Some(less), ..row(name, 60, input) }
}

/// The bytes of all commands, as often at each count as fills a buffer.
fn buffers(size: usize) -> Row {
    let body = mixed_bytes();
    let times = size.div_ceil(body.len());
    let units = times * body.len();
    let input = move |count| Input::Buffers(profile_a(), in_buffers(size, times * count, &body));
    Row { fits_board: size < 4_096, ..row(&format!("bytes, all commands, in buffers of {}", told(size)), units, input) }
}

/// Bytes that end no line; the power-ons between them are taken off.
fn ending_none(size: usize) -> Row {
    let input = move |count| Input::Buffers(profile_a(), inner_buffers(size, count));
    let name = format!("byte that ends no line, in a buffer of {}", told(size));
    Row { less: Some(POWER_ON), fits_board: size < 4_096, ..row(&name, size, input) }
}

fn told(size: usize) -> String {
    if size < 1_000 {
        return size.to_string();
    }
    format!("{},{:03}", size / 1_000, size % 1_000)
}

/// The first three are the rows whose ratio is judged; their speed and growth are measured too, and those of the next two.
pub fn rows() -> Vec<Row> {
    let bytes = mixed_bytes();
    let [short, middle, long] = SIZES;
    vec![
        calls("bytes, all commands", bytes.len(), bytes),
        row("samples, idle and repetition", 200, |count| Input::Calls(profile_a(), mixed_samples(100 * count))),
        reads("lines read, all forms", mixed_lines()),
        rewrites("lines read and written again", mixed_lines()),
        buffers(long),
        buffers(middle),
        buffers(short),
        ending_none(long),
        ending_none(middle),
        ending_none(short),
        calls(POWER_ON, 1, script(Script::power_on)),
        inner_bytes("byte that ends no line", profile_a(), POWER_ON, Script::power_on),
        inner_bytes("the same, texts of 40 and 20 characters", profile_with_texts(), POWER_ON, Script::power_on),
        calls(SR_STARTED, 1, script(Script::sr_started)),
        inner_bytes("byte that ends no line, SR runs", profile_a(), SR_STARTED, Script::sr_started),
        line("S"),
        line("SI"),
        coarse_line("SI"),
        line("T"),
        line("ZI"),
        line("TA"),
        line("TA 100.00 g"),
        line("TAC"),
        line("D \"pouch 12\""),
        line("SR"),
        line("SR 10.00 g"),
        line("M21"),
        line("M21 0 5"),
        line("I4"),
        line("I0"),
        line("Q"),
        samples("sample, idle", b"", Script::close_samples),
        samples("sample, repetition", b"SIR", Script::close_samples),
        samples_with(profile_with_fine(FINE), "sample, repetition, coarse", b"SIR", Script::coarse_samples),
        samples("sample, SR runs and does not send it", b"SR", Script::close_samples),
        samples("sample, SR runs and sends it", b"SR", Script::changing_samples),
        reads("read: weight", weight_lines()),
        reads("read: coarse weight", coarse_lines()),
        reads("read: status", status_lines()),
        reads("read: text", text_lines()),
        reads("read: line of I0", listed_lines()),
        reads("read: unit", unit_lines()),
        reads("read: error", error_lines()),
        reads("read: refused line", refused_lines()),
        field(NO_FIELD, 7, 142_560),
        digits("field `   14.2560`", 4, 142_560),
        digits("field `  -14.2560`", 4, -142_560),
        digits("field `         0`", 0, 0),
        digits("field `99999.9999`", 4, 999_999_999),
        digits("field `9999999999`", 0, 9_999_999_999),
    ]
}

pub const POWER_ON: &str = "power-on";
pub const NO_FIELD: &str = "no field: a number with 7 decimals";
pub const SR_STARTED: &str = "power-on, sample and line `SR`";

/// How many rows have their speed and growth measured.
pub const TIMED: usize = 5;

/// The rows that are measured on the board.
pub fn rows_on_board() -> Vec<Row> {
    rows().into_iter().filter(|row| row.fits_board).collect()
}
