//! Measures the three sides, and prints the tables of docs/BENCHMARK.md. `run` calls it.
//!
//!     benchmark one SIDE ROW COUNT       one row on one side
//!     benchmark all SIDE                 every row at its small count and at ten times that, for callgrind to count
//!     benchmark report COUNTS SIZES      the tables; the files hold what callgrind counted and the sizes of the code
//!
//! And for `tests/cortex-m0/run`:
//!
//!     benchmark histories FOLDER COUNT   the paper's example and so many random histories, each in a folder of its own
//!     benchmark divisions FOLDER         how often each kind of call divides, in the same way
//!     benchmark rows FOLDER              every row at its small count and at ten times that, in the same way
//!     benchmark board COUNTS SIZES       the tables; the files hold what the timer counted, and the sizes of code and stack

mod tables;

use benchmark::image::{write_divisions, write_histories, write_rows};
use benchmark::rows::{rows, run, Input, Side, SIDES, SMALL};
use benchmark::workload::{any_buffers, any_history, any_lines, any_numbers, any_profiles, lines, Rng};

/// All sides give the same checksums, on random histories and lines and on the inputs that are measured.
fn compare() -> usize {
    let mut rng = Rng::new(1);
    let profiles = any_profiles(&mut rng, 64);
    let history = Input::Calls(profiles.clone(), any_history(&mut rng, 64, 1_000_000));
    let all = lines(&any_lines(&mut rng, 100_000));
    let buffers = Input::Buffers(profiles, any_buffers(&mut rng, 64, 500_000, usize::MAX));
    let numbers = Input::Fields(any_numbers(&mut rng, 200_000));
    let random = [history, Input::Lines(all.clone()), Input::Rewritten(all), buffers, numbers];
    let measured = rows().into_iter().map(|row| (row.input)(3));
    let mut compared = 0;
    for input in random.into_iter().chain(measured) {
        compared += 1;
        let proved = run(Side::Proved, &input);
        for side in SIDES {
            assert_eq!(run(side, &input), proved, "input {compared}: the answers of {} differ", side.name());
        }
    }
    compared
}

fn one(side: Side, row: usize, count: usize) {
    let row = &rows()[row];
    println!("{}: {:?}", row.name, run(side, &(row.input)(count)));
}

fn all(side: Side) {
    for row in rows() {
        for count in [SMALL, 10 * SMALL] {
            std::hint::black_box(run(side, &(row.input)(count)));
        }
    }
}

fn main() {
    let words: Vec<String> = std::env::args().skip(1).collect();
    let words: Vec<&str> = words.iter().map(|word| &word[..]).collect();
    match words[..] {
        ["one", name, row, count] => one(Side::named(name), row.parse().expect("a number"), count.parse().expect("a number")),
        ["all", name] => all(Side::named(name)),
        ["report", counts, sizes] => tables::print(compare(), counts, sizes),
        ["histories", folder, count] => write_histories(folder.as_ref(), count.parse().expect("a number")).expect("a folder"),
        ["divisions", folder] => write_divisions(folder.as_ref()).expect("a folder"),
        ["rows", folder] => write_rows(folder.as_ref()).expect("a folder"),
        ["board", counts, sizes] => tables::print_board(counts, sizes),
        _ => panic!("usage: benchmark one, all, report, histories, divisions, rows or board, with the words that src/main.rs lists"),
    }
}
