//! Every line of up to two bytes, and every command line with one byte wrong (document 02, No. 6): each by itself from power-on,
//! and many one after another in whole buffers.

use crate::cases::profile_a;
use crate::compare::Script;
use crate::module::COMMANDS;
use crate::sweeps::whole;

/// What comes between power-on and the lines, so that every row of the table at a line's end is reached but for a faulty byte's:
/// nothing, a stable sample, an unstable one, a command that waits.
pub const SITUATIONS: [&str; 4] = ["# no sample", "s 1000", "u 1000", "> T"];

/// Command lines with parameters, beside the bare names of I0; two of them have a point.
const WITH_PARAMETERS: [&str; 6] = ["D \"x\"", "TA 1 g", "TA 1.5 g", "SR 1 g", "SR 1.5 g", "M21 0 0"];

/// The empty line, the 256 lines of one byte and the 65,536 of two.
pub fn short_lines() -> Vec<Vec<u8>> {
    let one = || (0..=255).map(|byte: u8| vec![byte]);
    let two = one().flat_map(|first| one().map(move |second| [&first[..], &second].concat()));
    [vec![]].into_iter().chain(one()).chain(two).collect()
}

/// The names of I0 and command lines with parameters.
pub fn command_lines() -> Vec<&'static str> {
    COMMANDS.into_iter().map(|(name, _)| name).chain(WITH_PARAMETERS).collect()
}

/// A line with a byte of each value put in at each place, each of its bytes changed to each value, and each left out. It is itself
/// among those with a byte changed.
pub fn with_a_byte_wrong(line: &[u8]) -> Vec<Vec<u8>> {
    let mut wrong = vec![];
    for at in 0..=line.len() {
        let (before, after) = line.split_at(at);
        let with_each = |after: &[u8]| -> Vec<Vec<u8>> { (0..=255).map(|byte| [before, &[byte], after].concat()).collect() };
        wrong.extend(with_each(after));
        if let Some((_, after)) = after.split_first() {
            wrong.extend(with_each(after));
            wrong.push([before, after].concat());
        }
    }
    wrong
}

/// All of these lines, in parts of at most 256: one whole buffer has room for the answers of a part.
pub fn parts() -> Vec<Vec<Vec<u8>>> {
    let wrong = command_lines().into_iter().map(|line| with_a_byte_wrong(line.as_bytes()));
    let in_parts = |lines: Vec<Vec<u8>>| lines.chunks(256).map(<[_]>::to_vec).collect::<Vec<_>>();
    wrong.chain([short_lines()]).flat_map(in_parts).collect()
}

/// The lines of a script on profile A, with this room.
fn script(room: usize, lines: impl IntoIterator<Item = String>) -> Script {
    let start = profile_a().into_iter().chain([format!("room {room}")]);
    start.chain(lines).map(String::into_bytes).collect()
}

/// Power-on, the situation, these bytes, and the state that they leave.
fn from_power_on(situation: &str, sent: String) -> [String; 4] {
    ["on".to_string(), situation.to_string(), sent, "state".to_string()]
}

fn ended(line: &[u8]) -> Vec<u8> {
    [line, b"\r\n"].concat()
}

/// Each line by itself from power-on. The `state` after it parts its answer from that of the next, so that each answer is compared
/// as its own.
pub fn singly(situation: &str) -> Vec<Script> {
    let alone = |line: &Vec<u8>| from_power_on(situation, whole(&ended(line), None).replacen('w', "b", 1));
    parts().iter().map(|lines| script(384, lines.iter().flat_map(alone))).collect()
}

/// The lines of a part in one whole-buffer call, each in the state that those before it left.
pub fn together(situation: &str) -> Vec<Script> {
    let all = |lines: &Vec<Vec<u8>>| {
        let bytes: Vec<u8> = lines.iter().flat_map(|line| ended(line)).collect();
        script(4_096, from_power_on(situation, whole(&bytes, None)))
    };
    parts().iter().map(all).collect()
}
