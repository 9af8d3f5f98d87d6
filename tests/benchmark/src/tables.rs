//! The tables, in Markdown.

use benchmark::image::FEW;
use benchmark::rows::{rows, rows_on_board, run, Input, Row, Side, SIDES, SMALL, TIMED};
use std::process::Command;
use std::time::Instant;

const ROUNDS: usize = 200;
/// The bytes, samples or lines of the small input, and seconds that one round takes at least.
const UNITS: usize = 500;
const LEAST: f64 = 0.002;

/// One number for each side, or for each of N columns.
type Each<const N: usize = 3> = [f64; N];

/// Seconds that a side takes for an input so many times.
fn timed(side: Side, input: &Input, times: usize) -> f64 {
    let start = Instant::now();
    for _ in 0..times {
        std::hint::black_box(run(side, std::hint::black_box(input)));
    }
    start.elapsed().as_secs_f64()
}

/// How often an input is run in a round.
fn times_for(side: Side, input: &Input) -> usize {
    let mut times = 1;
    while timed(side, input, times) < LEAST {
        times *= 2;
    }
    times
}

/// Seconds for one run of each input on each side, in the fastest round: what else the machine does only adds to the others. Inputs and
/// sides take turns, so that a change of the machine's speed meets them all.
fn seconds(inputs: [&Input; 2]) -> [Each; 2] {
    let times = inputs.map(|input| SIDES.map(|side| times_for(side, input)));
    let mut fastest = [[f64::INFINITY; 3]; 2];
    for _ in 0..ROUNDS {
        for (place, input) in inputs.into_iter().enumerate() {
            for (i, side) in SIDES.into_iter().enumerate() {
                let times = times[place][i];
                fastest[place][i] = fastest[place][i].min(timed(side, input, times) / times as f64);
            }
        }
    }
    fastest
}

/// Thousands apart; a few instructions with a decimal.
fn grouped(number: f64) -> String {
    if number.fract() != 0.0 && number < 20.0 {
        return format!("{number:.1}");
    }
    let digits = format!("{number:.0}");
    let mut text = String::new();
    for (i, digit) in digits.chars().enumerate() {
        if i > 0 && (digits.len() - i) % 3 == 0 {
            text.push(',');
        }
        text.push(digit);
    }
    text
}

fn table(head: &[&str]) {
    println!();
    println!("| {} |", head.join(" | "));
    println!("|---|{}", "--:|".repeat(head.len() - 1));
}

/// A row with a number of each side, and the costs of the proved one over those of the others.
fn compared(name: &str, shown: Each, costs: Each) {
    let [proved, independent, fast] = shown.map(grouped);
    let ratio = |other: f64| if other > 0.0 { format!("{:.2}", costs[0] / other) } else { String::new() };
    println!("| {name} | {proved} | {independent} | {fast} | {} | {} |", ratio(costs[1]), ratio(costs[2]));
}

fn head(first: &str) {
    table(&[first, "proved", "independent", "fast", "proved / independent", "proved / fast"]);
}

/// The first table; what ten times the input takes is for the third.
fn speed() -> Vec<Each> {
    head("a second, on one core (ratios: of time)");
    let mut growth = vec![];
    for row in rows().into_iter().take(TIMED) {
        let count = UNITS.div_ceil(row.units);
        let [small, large] = seconds([&(row.input)(count), &(row.input)(10 * count)]);
        compared(&row.name, large.map(|time| (10 * count * row.units) as f64 / time), large);
        growth.push([0, 1, 2].map(|side| large[side] / small[side]));
    }
    growth
}

/// What was counted of a row: each side at the small count and at ten times that.
type Counted<const N: usize = 3> = [Each<N>; 2];

fn numbers_in(path: &str) -> Vec<f64> {
    let text = std::fs::read_to_string(path).unwrap_or_default();
    text.split_whitespace().filter_map(|word| word.parse().ok()).collect()
}

/// The file holds all numbers of one side, then those of the next.
fn counted<const N: usize>(rows: &[Row], path: &str) -> Vec<Counted<N>> {
    let numbers = numbers_in(path);
    let each = 2 * rows.len();
    if numbers.len() != N * each {
        return vec![];
    }
    let at = |place: usize| std::array::from_fn(|side| numbers[side * each + place]);
    (0..rows.len()).map(|row| [at(2 * row), at(2 * row + 1)]).collect()
}

/// The instructions of a count of 1: what the larger input adds.
fn cost<const N: usize>([small, large]: &Counted<N>, few: usize) -> Each<N> {
    std::array::from_fn(|side| (large[side] - small[side]) / (9 * few) as f64)
}

/// The name and the instructions of each row, where `few` is the small count.
fn costs<const N: usize>(rows: &[Row], counted: &[Counted<N>], few: usize) -> Vec<(String, Each<N>)> {
    let all = || rows.iter().zip(counted);
    let named = |name| all().find(|(row, _)| row.name == name).map_or([0.0; N], |(_, counts)| cost(counts, few));
    let unit =
        |units: usize, whole: Each<N>, less: Each<N>| std::array::from_fn(|side| (whole[side] - less[side]) / units as f64);
    all().map(|(row, counts)| (row.name.clone(), unit(row.units, cost(counts, few), row.less.map_or([0.0; N], named)))).collect()
}

fn instructions(counted: &[Counted]) {
    if counted.is_empty() {
        println!("\nInstructions were not counted: valgrind is not there.");
        return;
    }
    head("instructions for each");
    for (name, costs) in costs(&rows(), counted, SMALL) {
        compared(&name, costs, costs);
    }
}

fn growth(times: &[Each], counted: &[Counted]) {
    let mut names = vec!["ten times the input", "time: proved", "independent", "fast"];
    if !counted.is_empty() {
        names.extend(["instructions: proved", "independent", "fast"]);
    }
    table(&names);
    for (i, row) in rows().iter().take(TIMED).enumerate() {
        let counts = counted.get(i).into_iter().flat_map(|[small, large]| [0, 1, 2].map(|side| large[side] / small[side]));
        let cells: Vec<String> = times[i].into_iter().chain(counts).map(|times| format!("x {times:.2}")).collect();
        println!("| {} | {} |", row.name, cells.join(" | "));
    }
}

/// What `memory SIDE` prints.
fn memory(side: Side) -> [f64; 3] {
    let program = std::env::current_exe().expect("the path of this program").with_file_name("memory");
    let output = Command::new(program).arg(side.name()).output().expect("the program memory");
    let text = String::from_utf8_lossy(&output.stdout).into_owned();
    let numbers: Vec<f64> = text.split_whitespace().filter_map(|word| word.parse().ok()).collect();
    numbers.try_into().unwrap_or([f64::NAN; 3])
}

fn sizes(path: &str) {
    let memory = SIDES.map(memory);
    let of = |what: usize| memory.map(|numbers| numbers[what]);
    head("memory and code");
    let line = |name: &str, numbers: Each| compared(name, numbers, numbers);
    line("peak memory of the process, KiB", of(0));
    line("stack, bytes", of(1));
    line("heap, bytes", of(2));
    line("code, bytes", numbers_in(path).try_into().unwrap_or([f64::NAN; 3]));
}

pub fn print(compared: usize, counts: &str, size: &str) {
    println!("The three sides gave the same checksums on {compared} inputs.");
    let counted = counted(&rows(), counts);
    let times = speed();
    instructions(&counted);
    growth(&times, &counted);
    sizes(size);
}

/// The tables of the Cortex-M0; the files hold the instructions counted at -O3, then at -Os, and code and stack at each.
pub fn print_board(counts: &str, sizes: &str) {
    let line = |name: &str, [fast, small]: Each<2>| println!("| {name} | {} | {} |", grouped(fast), grouped(small));
    table(&["memory and code", "-O3", "-Os"]);
    let [code, small_code, whole, small_whole, stack, small_stack] = numbers_in(sizes).try_into().expect("six sizes");
    line("code of the module, bytes", [code, small_code]);
    line("code of the module with whole buffers and without the reader, bytes", [whole, small_whole]);
    line("stack, bytes", [stack, small_stack]);
    let rows = rows_on_board();
    let counted = counted(&rows, counts);
    assert!(!counted.is_empty(), "{counts}: two numbers for each row and option");
    table(&["instructions for each", "-O3", "-Os"]);
    for (name, costs) in costs(&rows, &counted, FEW) {
        line(&name, costs);
    }
}
