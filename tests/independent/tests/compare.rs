//! The comparison with the two real programs, whose paths are in REPLAY_BIN and DECODE_BIN. SEED and CALLS may be set: the seed is
//! printed, and a longer run has more calls. A difference prints the shortest input that shows it.

use independent::byte_sweeps::{parts, singly, together, SITUATIONS};
use independent::cases;
use independent::compare::{capture_bytes, difference, script_bytes, shortest, shown, Joined, Judge, Program, Script};
use independent::decode::decode;
use independent::module::Module;
use independent::random::{capture, script, Rng};
use independent::replay::{replay, replay_with, script_lines};
use independent::sweeps;
use std::io::Write;
use std::path::Path;
use std::process::{Command, Stdio};
use std::time::{SystemTime, UNIX_EPOCH};

const CALLS: usize = 400_000;
const SCRIPTS_A_PROCESS: usize = 200;
const CAPTURES_A_PROCESS: usize = 10;

/// Said also when the test passes.
fn note(text: &str) {
    writeln!(std::io::stderr(), "compare: {text}").expect("standard error");
}

fn variable(name: &str) -> Option<String> {
    std::env::var(name).ok().filter(|value| !value.is_empty())
}

fn number(name: &str) -> Option<u64> {
    variable(name).map(|value| value.parse().unwrap_or_else(|_| panic!("{name} is no number: {value}")))
}

fn seed() -> u64 {
    let clock = || SystemTime::now().duration_since(UNIX_EPOCH).expect("a clock").as_nanos() as u64;
    number("SEED").unwrap_or_else(clock)
}

fn calls() -> usize {
    number("CALLS").map_or(CALLS, |calls| calls as usize)
}

/// What a program prints for an input; an end other than success is added to it.
fn run(path: &Path, input: &[u8]) -> Vec<u8> {
    let started = Command::new(path).stdin(Stdio::piped()).stdout(Stdio::piped()).spawn();
    let mut child = started.unwrap_or_else(|error| panic!("{}: {error}", path.display()));
    let mut stdin = child.stdin.take().expect("standard input");
    let output = std::thread::scope(|scope| {
        scope.spawn(move || drop(stdin.write_all(input)));
        child.wait_with_output().expect("the program's output")
    });
    let mut printed = output.stdout;
    if !output.status.success() {
        printed.extend(format!("<{}>", output.status).bytes());
    }
    printed
}

/// Fails with the shortest input that the programs print something else for.
fn assert_same(scripts: &[Script], joined: Joined, real: Program, own: Program) {
    let Some(found) = difference(scripts, joined, real, own) else { return };
    let input = joined(&found);
    panic!("the programs differ on\n{}\nreal:\n{}\nindependent:\n{}", shown(&input), shown(&real(&input)), shown(&own(&input)));
}

// Replay.

fn case_scripts() -> Vec<Script> {
    let lines = |text: &str| script_lines(text.as_bytes()).map(<[u8]>::to_vec).collect();
    cases::all().iter().map(|case| lines(&case.script)).collect()
}

fn compare_replay(path: &Path, seed: u64, calls: usize) {
    let real = |input: &[u8]| run(path, input);
    let mut judge = Judge::default();
    let mut compare = |scripts: &[Script]| {
        assert_same(scripts, script_bytes, &real, &replay);
        replay_with(Module::default(), &script_bytes(&scripts.concat()), &mut |event| judge.see(event));
        assert_judged(&judge, scripts);
        judge.calls
    };
    compare(&case_scripts());
    let swept = compare(&sweeps::scripts());
    let mut rng = Rng::new(seed);
    while compare(&(0..SCRIPTS_A_PROCESS).map(|_| script(&mut rng)).collect::<Vec<_>>()) < calls + swept {}
    let [granted, one, two, three, _, five] = judge.refusals;
    note(&format!(
        "replay: {} calls the same, {granted} granted, refused {one} with 1, {two} with 2, {three} with 3, {five} with 5; \
         {} weights judged, {} of them coarse",
        judge.calls, judge.weights, judge.coarse
    ));
}

/// Fails with the shortest script in which the tally finds a wrong weight, the follower of SR a wrong answer to a sample, or a whole
/// buffer is taken otherwise than singly.
fn assert_judged(judge: &Judge, scripts: &[Script]) {
    let Some(fault) = judge.faults.iter().chain(&judge.strays).chain(&judge.apart).next() else { return };
    let found = shortest(&scripts.concat(), &mut |lines| {
        let mut judge = Judge::default();
        replay_with(Module::default(), &script_bytes(lines), &mut |event| judge.see(event));
        !judge.faults.is_empty() || !judge.strays.is_empty() || !judge.apart.is_empty()
    });
    panic!("the tally or the follower finds a fault: {fault}\n{}", shown(&script_bytes(&found)));
}

#[test]
fn replay_is_the_same() {
    let Some(path) = variable("REPLAY_BIN") else {
        note("REPLAY_BIN is not set: replay is not compared");
        return;
    };
    let (seed, calls) = (seed(), calls());
    note(&format!("replay: SEED={seed} CALLS={calls}"));
    compare_replay(Path::new(&path), seed, calls);
}

/// Every line of up to two bytes and every command line with a byte wrong, in each situation.
#[test]
fn every_line_is_judged_the_same() {
    let Some(path) = variable("REPLAY_BIN") else {
        note("REPLAY_BIN is not set: lines are not compared");
        return;
    };
    let real = |input: &[u8]| run(Path::new(&path), input);
    for scripts in SITUATIONS.iter().flat_map(|situation| [singly(situation), together(situation)]) {
        assert_same(&scripts, script_bytes, &real, &replay);
    }
    let lines = SITUATIONS.len() * parts().concat().len();
    note(&format!("lines: {lines} alone and {lines} in whole buffers judged the same"));
}

// Decode.

fn case_captures() -> Vec<Script> {
    cases::captures().iter().map(|(line, _)| vec![line.as_bytes().to_vec()]).collect()
}

/// One process a capture of the cases, since some are unfinished.
fn compare_decode(path: &Path, seed: u64, pieces: usize) {
    let real = |input: &[u8]| run(path, input);
    case_captures().iter().for_each(|one| assert_same(std::slice::from_ref(one), capture_bytes, &real, &decode));
    assert_same(&sweeps::captures(), capture_bytes, &real, &decode);
    let mut rng = Rng::new(seed);
    let mut compared = 0;
    while compared < pieces {
        let captures: Vec<Script> = (0..CAPTURES_A_PROCESS).map(|_| capture(&mut rng)).collect();
        compared += captures.iter().map(Vec::len).sum::<usize>();
        assert_same(&captures, capture_bytes, &real, &decode);
    }
    note(&format!("decode: {compared} pieces the same"));
}

#[test]
fn decode_is_the_same() {
    let Some(path) = variable("DECODE_BIN") else {
        note("DECODE_BIN is not set: decode is not compared");
        return;
    };
    let (seed, pieces) = (seed(), calls() / 4);
    note(&format!("decode: SEED={seed}, {pieces} pieces"));
    compare_decode(Path::new(&path), seed, pieces);
}

// The comparison itself, on this project's own two programs.

#[test]
fn own_programs_are_the_same() {
    compare_replay(Path::new(env!("CARGO_BIN_EXE_replay")), 1, 20_000);
    compare_decode(Path::new(env!("CARGO_BIN_EXE_decode")), 1, 2_000);
}

#[test]
#[should_panic(expected = "the programs differ")]
fn another_program_is_not() {
    compare_decode(Path::new(env!("CARGO_BIN_EXE_replay")), 1, 2_000);
}
