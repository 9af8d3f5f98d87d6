//! Two programs on the same input: the first difference, and the shortest input that shows it.

use crate::faults::Fault;
use crate::profile::Profile;
use crate::replay::{Called, Event};
use crate::sent_on_change::Follower;
use crate::tally::{has_space, Tally};

/// The lines of a script without their LF, or the pieces of a capture.
pub type Script = Vec<Vec<u8>>;
/// From input bytes to output bytes.
pub type Program<'a> = &'a dyn Fn(&[u8]) -> Vec<u8>;
/// From lines or pieces to input bytes.
pub type Joined = fn(&[Vec<u8>]) -> Vec<u8>;

pub fn script_bytes(lines: &[Vec<u8>]) -> Vec<u8> {
    lines.iter().flat_map(|line| line.iter().chain(b"\n")).copied().collect()
}

pub fn capture_bytes(pieces: &[Vec<u8>]) -> Vec<u8> {
    pieces.concat()
}

/// The first of the scripts that the programs print something else for; all of them if only all together show it.
pub fn first_differing(scripts: &[Script], joined: Joined, one: Program, other: Program) -> Option<Script> {
    let differs = |lines: &[Vec<u8>]| differ(&joined(lines), one, other);
    let all = scripts.concat();
    if !differs(&all) {
        return None;
    }
    Some(scripts.iter().find(|script| differs(script)).unwrap_or(&all).clone())
}

fn differ(input: &[u8], one: Program, other: Program) -> bool {
    one(input) != other(input)
}

/// None if both programs print the same for all scripts together; else the shortest script that tells them apart.
pub fn difference(scripts: &[Script], joined: Joined, one: Program, other: Program) -> Option<Script> {
    let script = first_differing(scripts, joined, one, other)?;
    Some(shortest(&script, &mut |lines| differ(&joined(lines), one, other)))
}

/// Leaves out lines, then bytes of each line, again and again as long as the programs still differ.
pub fn shortest(script: &[Vec<u8>], differs: &mut dyn FnMut(&[Vec<u8>]) -> bool) -> Script {
    let mut lines = script.to_vec();
    loop {
        let before = lines.concat().len() + lines.len();
        lines = thinned(&lines, differs);
        for at in 0..lines.len() {
            let mut with = lines.clone();
            lines[at] = thinned(&lines[at], &mut |bytes| {
                with[at] = bytes.to_vec();
                differs(&with)
            });
        }
        if lines.concat().len() + lines.len() == before {
            return lines;
        }
    }
}

/// Leaves out runs of items, long ones first, until none can be left out.
fn thinned<T: Clone>(items: &[T], differs: &mut dyn FnMut(&[T]) -> bool) -> Vec<T> {
    let mut items = items.to_vec();
    loop {
        let before = items.len();
        let mut run = items.len();
        while run > 0 {
            items = without_runs(items, run, differs);
            run = if run > SHORT_RUN { (run / 2).next_multiple_of(3).max(SHORT_RUN) } else { run - 1 };
        }
        if items.len() == before {
            return items;
        }
    }
}

/// Runs up to this long are tried at every place. A byte of a `b` or `w` line is three characters, so that longer runs are multiples
/// of three.
const SHORT_RUN: usize = 6;

fn without_runs<T: Clone>(mut items: Vec<T>, run: usize, differs: &mut dyn FnMut(&[T]) -> bool) -> Vec<T> {
    let stride = if run > SHORT_RUN { run } else { 1 };
    let mut at = 0;
    while at < items.len() {
        let end = (at + run).min(items.len());
        let fewer = [&items[..at], &items[end..]].concat();
        if differs(&fewer) {
            items = fewer;
        } else {
            at += stride;
        }
    }
    items
}

/// Has the tally and the follower of SR judge each history: from a granted power-on as long as the profile stays.
#[derive(Default)]
pub struct Judge {
    judges: Option<(Profile, Tally, Follower)>,
    /// Of the tally, switched on only by the mutation check.
    fault: Option<Fault>,
    pub calls: usize,
    pub refusals: [usize; 6],
    pub weights: usize,
    /// Those of them in the coarse range.
    pub coarse: usize,
    /// What the tally finds wrong.
    pub faults: Vec<String>,
    /// What the follower of SR finds wrong.
    pub strays: Vec<String>,
    /// What a whole-buffer call tells otherwise than its bytes taken singly.
    pub apart: Vec<String>,
}

impl Judge {
    /// With a fault of the tally.
    pub fn faulty(fault: Fault) -> Judge {
        Judge { fault: Some(fault), ..Judge::default() }
    }

    pub fn see(&mut self, event: &Event) {
        self.calls += 1;
        self.refusals[usize::from(event.refusal)] += 1;
        if let Called::On = event.called {
            if event.refusal == 0 {
                let tally = Tally::faulty(event.profile, self.fault);
                self.judges = Some((event.profile.clone(), tally, Follower::new(event.profile)));
            }
            return;
        }
        if let Called::Buffer(singly) = event.called {
            self.apart.extend(singly.judge(event.refusal, event.room, event.answer).err());
        }
        if self.judges.as_ref().is_some_and(|(profile, ..)| profile != event.profile) && event.refusal == 0 {
            self.judges = None;
        }
        let Some((_, tally, follower)) = self.judges.as_mut() else { return };
        match event.called {
            Called::Single(call) => {
                self.weights += usize::from(is_weight(event.answer));
                self.coarse += usize::from(is_weight(event.answer) && has_space(event.answer));
                self.faults.extend(tally.take(call, event.refusal, event.answer).err());
                self.strays.extend(follower.take(call, event.refusal, event.answer).err());
            }
            Called::Buffer(singly) => {
                let weights = || singly.taken().iter().filter(|(_, answer)| is_weight(answer));
                self.weights += weights().count();
                self.coarse += weights().filter(|(_, answer)| has_space(answer)).count();
                self.faults.extend(tally.take_all(singly.taken()).err());
                self.strays.extend(follower.take_all(singly.taken()).err());
            }
            Called::On => {}
        }
    }
}

fn is_weight(answer: &[u8]) -> bool {
    answer.len() > 17 && answer[0] != b'I'
}

/// Bytes as a reader can see them.
pub fn shown(bytes: &[u8]) -> String {
    bytes.escape_ascii().to_string().replace("\\n", "\\n\n")
}
