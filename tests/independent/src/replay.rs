//! The program replay of issue 6: a script in, the module's answers out.

use crate::buffer::Taken;
use crate::faults::Fault;
use crate::module::{Line, Module, Outcome, Repetition, Sample, State, Wait};
use crate::on_change::OnChange;
use crate::profile::{Profile, TEXT_ROOMS};
use crate::singly::Singly;
use crate::tally::Call;
use crate::weight::{Scale, Unit};
use std::cell::OnceCell;

const MOST: u64 = 4_294_967_295;
/// The largest room.
const MOST_ROOM: usize = 4_096;
/// What a lent buffer holds before a call.
const LENT: [u8; MOST_ROOM] = [0xA5; MOST_ROOM];

/// One call as the tally and the counters see it.
pub struct Event<'a> {
    pub called: Called<'a>,
    pub profile: &'a Profile,
    pub room: usize,
    pub refusal: u8,
    pub answer: &'a [u8],
}

#[derive(Clone, Copy)]
pub enum Called<'a> {
    On,
    Single(Call),
    Buffer(&'a Singly<'a>),
}

/// What a script line asks for.
enum Order {
    Nothing,
    Profile { capacity: u32, margin: u32, zeroing: u32, patience: u32 },
    Fine(u32),
    Unit(Scale),
    Text { at: usize, text: Vec<u8> },
    Room(usize),
    On,
    State,
    Calls(Vec<Call>),
    Buffer { bytes: Vec<u8>, marks: Vec<u8> },
}

pub struct Replay {
    pub module: Module,
    pub profile: Profile,
    pub room: usize,
    /// None before a power-on was granted.
    pub state: Option<State>,
}

impl Replay {
    pub fn new(module: Module) -> Replay {
        Replay { module, profile: Profile::a(), room: 384, state: None }
    }

    /// Does one line of the script; its output is added to out, and each call is shown to the watcher.
    pub fn line(&mut self, line: &[u8], out: &mut Vec<u8>, watch: &mut dyn FnMut(&Event)) {
        match order(line) {
            None => out.extend(b"?\r\n"),
            Some(Order::Nothing) => {}
            Some(Order::Profile { capacity, margin, zeroing, patience }) => {
                let Profile { places, texts, .. } = self.profile.clone();
                let fine = if self.module.has(Fault::ProfileKeepsLimit) { self.profile.fine } else { capacity };
                self.profile = Profile { capacity, margin, zeroing, patience, fine, places, texts };
            }
            Some(Order::Fine(fine)) => self.profile.fine = fine,
            Some(Order::Unit(scale)) => {
                self.profile = self.profile.clone().with_scale(scale);
                self.reset_limit(Fault::UnitResetsLimit);
            }
            Some(Order::Text { at, text }) => {
                self.profile.texts[at] = text;
                self.reset_limit(Fault::TextResetsLimit);
            }
            Some(Order::Room(room)) => self.room = room,
            Some(Order::On) => self.on(out, watch),
            Some(Order::State) => out.extend(self.state.as_ref().map_or(b"?\r\n".to_vec(), state_line)),
            Some(Order::Calls(_) | Order::Buffer { .. }) if self.state.is_none() => out.extend(b"?\r\n"),
            Some(Order::Buffer { bytes, marks }) => self.buffer(&bytes, &marks, out, watch),
            Some(Order::Calls(calls)) => calls.into_iter().for_each(|call| self.call(call, out, watch)),
        }
    }

    /// No line but `profile` sets F to C, save for faults.
    fn reset_limit(&mut self, fault: Fault) {
        if self.module.has(fault) {
            self.profile.fine = self.profile.capacity;
        }
    }

    fn on(&mut self, out: &mut Vec<u8>, watch: &mut dyn FnMut(&Event)) {
        let mut buffer = LENT[..self.room].to_vec();
        let mut state = self.state.clone().unwrap_or_default();
        let outcome = self.module.power_on(&self.profile, &mut state, &mut buffer);
        let given_back = self.state.is_some() && self.module.fault != Some(Fault::RefusedOnForgetsState);
        self.state = (outcome.refusal == 0 || given_back).then_some(state);
        self.tell(Called::On, outcome, "", &buffer, out, watch);
    }

    fn call(&mut self, call: Call, out: &mut Vec<u8>, watch: &mut dyn FnMut(&Event)) {
        let mut buffer = LENT[..self.room].to_vec();
        let Some(state) = self.state.as_mut() else { return };
        let outcome = match call {
            Call::Byte { byte, good } => self.module.byte(&self.profile, state, byte, u8::from(!good), &mut buffer),
            Call::Sample { load, stable } => self.module.sample(&self.profile, state, Sample { load, stable }, &mut buffer),
        };
        self.tell(Called::Single(call), outcome, "", &buffer, out, watch);
    }

    /// Says how many bytes were taken where those are not all.
    fn buffer(&mut self, bytes: &[u8], marks: &[u8], out: &mut Vec<u8>, watch: &mut dyn FnMut(&Event)) {
        let mut buffer = LENT[..self.room].to_vec();
        let Some(state) = self.state.as_mut() else { return };
        let (module, profile, given) = (self.module, &self.profile, state.clone());
        let Taken { refusal, n, taken } = module.buffer(profile, state, bytes, marks, &mut buffer);
        let singly = Singly { module, profile, given, bytes, marks, count: taken, answers: OnceCell::new() };
        let took = if refusal == 0 && taken < bytes.len() { format!("took {taken}\r\n") } else { String::new() };
        self.tell(Called::Buffer(&singly), Outcome { refusal, n }, &took, &buffer, out, watch);
    }

    fn tell(
        &self,
        called: Called,
        outcome: Outcome,
        took: &str,
        buffer: &[u8],
        out: &mut Vec<u8>,
        watch: &mut dyn FnMut(&Event),
    ) {
        let answer = &buffer[..outcome.n];
        if outcome.refusal == 0 {
            out.extend(answer);
        } else {
            out.extend(format!("refused {}\r\n", outcome.refusal).bytes());
        }
        out.extend(took.bytes());
        if buffer[outcome.n..] != LENT[outcome.n..buffer.len()] {
            out.extend(b"spilt\r\n");
        }
        watch(&Event { called, profile: &self.profile, room: self.room, refusal: outcome.refusal, answer });
    }
}

/// What no answer shows: the state in words, each field once and in this order. A text stands there byte for byte.
fn state_line(state: &State) -> Vec<u8> {
    let sample = state.latest.map_or("none".to_string(), |sample| {
        let mark = if sample.stable { "s" } else { "u" };
        format!("{mark} {}", sample.load)
    });
    let waits = state.waiting.map_or("none".to_string(), wait_words);
    let repeats = match state.repetition {
        Repetition::Off => "no".to_string(),
        Repetition::Sir => "SIR".to_string(),
        Repetition::Sr(memory) => change_words(memory),
    };
    let shows = state.shown.as_ref().map_or(b"weight".to_vec(), |text| [b"\"", &text[..], b"\""].concat());
    let before = format!("state zero {} tare {} sample {sample} waits {waits} repeats {repeats} shows ", state.zero, state.tare);
    let after = format!(" line {} unit {}\r\n", line_words(&state.line), state.unit.name());
    [before.as_bytes(), &shows, after.as_bytes()].concat()
}

/// The waiting command and its count; for SR the threshold that it sets.
fn wait_words(wait: Wait) -> String {
    let set = if wait.name == "SR" { format!(" {}", threshold_word(wait.threshold)) } else { String::new() };
    format!("{} {}{set}", wait.name, wait.unstable)
}

/// A running SR: the last stable net sent, the set threshold, and what else is so.
fn change_words(memory: OnChange) -> String {
    let owed = if memory.owed { " owed" } else { "" };
    let out = if memory.out { " out" } else { "" };
    format!("SR {} {}{owed}{out}", memory.last, threshold_word(memory.threshold))
}

fn threshold_word(threshold: Option<i64>) -> String {
    threshold.map_or("-".to_string(), |set| set.to_string())
}

/// The bytes held, and what else is so; a CR that stands apart is not counted.
fn line_words(line: &Line) -> String {
    let over = if line.over { " over" } else { "" };
    let faulty = if line.faulty { " faulty" } else { "" };
    let cr = if line.cr { " cr" } else { "" };
    format!("{}{over}{faulty}{cr}", line.bytes.len())
}

/// A whole script, from its bytes to the output's.
pub fn replay(script: &[u8]) -> Vec<u8> {
    replay_with(Module::default(), script, &mut |_| {})
}

pub fn replay_with(module: Module, script: &[u8], watch: &mut dyn FnMut(&Event)) -> Vec<u8> {
    let mut replay = Replay::new(module);
    let mut out = vec![];
    for line in script_lines(script) {
        replay.line(line, &mut out, watch);
    }
    out
}

/// A line ends at LF alone; a last one without it counts.
pub fn script_lines(script: &[u8]) -> impl Iterator<Item = &[u8]> {
    script.split_inclusive(|&byte| byte == b'\n').map(|line| line.strip_suffix(b"\n").unwrap_or(line))
}

fn order(line: &[u8]) -> Option<Order> {
    if line.is_empty() || line[0] == b'#' {
        return Some(Order::Nothing);
    }
    if line == b"on" {
        return Some(Order::On);
    }
    if line == b"state" {
        return Some(Order::State);
    }
    if line == b"w" || line == b"w+" {
        return buffer_order(line, None);
    }
    let at = line.iter().position(|&byte| byte == b' ')?;
    let rest = &line[at + 1..];
    match &line[..at] {
        b"profile" => profile_order(rest),
        b"fine" => Some(Order::Fine(number(rest, MOST)? as u32)),
        b"unit" => unit_order(rest),
        b"text" => text_order(rest),
        b"room" => Some(Order::Room(number(rest, MOST_ROOM as u64)? as usize)),
        b"b" => bytes_order(rest, true),
        b"f" => bytes_order(rest, false),
        word @ (b"w" | b"w-" | b"w+") => buffer_order(word, Some(rest)),
        b">" => Some(Order::Calls(rest.iter().chain(b"\r\n").map(|&byte| Call::Byte { byte, good: true }).collect())),
        b"s" => Some(Order::Calls(vec![Call::Sample { load: load(rest)?, stable: true }])),
        b"u" => Some(Order::Calls(vec![Call::Sample { load: load(rest)?, stable: false }])),
        _ => None,
    }
}

fn profile_order(rest: &[u8]) -> Option<Order> {
    let words: Vec<&[u8]> = rest.split(|&byte| byte == b' ').collect();
    let [capacity, margin, zeroing, patience] = words[..] else { return None };
    let weight = |word| number(word, MOST).map(|n| n as u32);
    Some(Order::Profile {
        capacity: weight(capacity)?,
        margin: weight(margin)?,
        zeroing: weight(zeroing)?,
        patience: weight(patience)?,
    })
}

/// Decimals and step of one unit.
fn unit_order(rest: &[u8]) -> Option<Order> {
    let words: Vec<&[u8]> = rest.split(|&byte| byte == b' ').collect();
    let [unit, decimals, step] = words[..] else { return None };
    let small = |word| number(word, 255).map(|n| n as u8);
    Some(Order::Unit(Scale { unit: Unit::named(unit)?, decimals: small(decimals)?, step: small(step)? }))
}

fn text_order(rest: &[u8]) -> Option<Order> {
    let [which @ b'2'..=b'5', b' ', text @ ..] = rest else { return None };
    let at = usize::from(which - b'2');
    (text.len() <= TEXT_ROOMS[at]).then(|| Order::Text { at, text: text.to_vec() })
}

fn bytes_order(rest: &[u8], good: bool) -> Option<Order> {
    let words = rest.split(|&byte| byte == b' ');
    let bytes: Option<Vec<u8>> = words.map(hex).collect();
    Some(Order::Calls(bytes?.into_iter().map(|byte| Call::Byte { byte, good }).collect()))
}

/// One whole buffer: its bytes as in `b`, with `!` right after a faulty one. The mark of a faulty byte is 1 + its place mod 255, so
/// that marks beyond 1 are tried. `w-` lends one mark fewer, and `w+` one more, which is 0. `w` and `w+` alone have no bytes; `w-`
/// alone would have no mark to leave out.
fn buffer_order(word: &[u8], rest: Option<&[u8]>) -> Option<Order> {
    let words = rest.into_iter().flat_map(|rest| rest.split(|&byte| byte == b' '));
    let marked: Option<Vec<(u8, u8)>> = words.enumerate().map(|(place, word)| marked_byte(place, word)).collect();
    let (bytes, mut marks): (Vec<u8>, Vec<u8>) = marked?.into_iter().unzip();
    match word {
        b"w-" => drop(marks.pop()?),
        b"w+" => marks.push(0),
        _ => {}
    }
    Some(Order::Buffer { bytes, marks })
}

fn marked_byte(place: usize, word: &[u8]) -> Option<(u8, u8)> {
    match word.strip_suffix(b"!") {
        Some(word) => Some((hex(word)?, 1 + (place % 255) as u8)),
        None => Some((hex(word)?, 0)),
    }
}

fn hex(word: &[u8]) -> Option<u8> {
    let [high, low] = word else { return None };
    let digit = |byte: u8| char::from(byte).to_digit(16);
    Some((digit(*high)? * 16 + digit(*low)?) as u8)
}

/// 1 to 10 digits, at most so much.
fn number(word: &[u8], most: u64) -> Option<u64> {
    if word.is_empty() || word.len() > 10 || !word.iter().all(u8::is_ascii_digit) {
        return None;
    }
    let value = word.iter().fold(0, |sum, digit| sum * 10 + u64::from(digit - b'0'));
    (value <= most).then_some(value)
}

/// An optional minus and 1 to 10 digits, within 32 bits.
fn load(word: &[u8]) -> Option<i32> {
    let (sign, digits) = match word.strip_prefix(b"-") {
        Some(digits) => (-1, digits),
        None => (1, word),
    };
    let size = number(digits, 9_999_999_999)? as i64;
    i32::try_from(sign * size).ok()
}
