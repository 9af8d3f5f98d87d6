//! The module: power-on, the byte call, the sample call and the whole-buffer call, with their refusals 1, 2, 3 and 5.

use super::command::{Command, Error, Status, LIST, VERSIONS};
use super::profile::{is_printable, Profile, Text};
use super::weight::{put_field, typed_tare, typed_threshold, Scale, Unit};
use crate::feed::{Outcome, Taken};

const CR: u8 = 13;
const LF: u8 = 10;
const LINE: usize = 64;
const MOST_BYTES: usize = 4_096;

/// The line being received.
#[derive(Clone, Debug)]
pub struct Line {
    pub bytes: [u8; LINE],
    pub len: u8,
    pub over: bool,
    pub faulty: bool,
    /// The last byte was a good CR, which is part of the line only if no LF follows.
    pub returned: bool,
}

impl Line {
    fn is_ended_by(&self, byte: u8, faulty: bool) -> bool {
        byte == LF && self.returned && !faulty
    }

    /// A byte that does not end the line.
    fn join(&mut self, byte: u8, faulty: bool) {
        if self.returned {
            self.hold(CR);
        }
        self.returned = byte == CR && !faulty;
        if !self.returned {
            self.hold(byte);
            self.faulty |= faulty;
        }
    }

    fn hold(&mut self, byte: u8) {
        match self.bytes.get_mut(usize::from(self.len)) {
            Some(cell) => {
                *cell = byte;
                self.len += 1;
            }
            None => self.over = true,
        }
    }

    /// Bytes without a CR, and with none before them that may end the line: as many as there is place for, in one copy. No mark ends
    /// the test of the marks early, so that several are tested at once.
    fn join_run(&mut self, bytes: &[u8], marks: &[u8]) {
        let free = &mut self.bytes[usize::from(self.len)..];
        let count = bytes.len().min(free.len());
        free[..count].copy_from_slice(&bytes[..count]);
        self.len += count as u8;
        self.over |= count < bytes.len();
        self.faulty |= marks.iter().fold(0, |any, mark| any | mark) != 0;
    }

    fn clear(&mut self) {
        self.len = 0;
        self.over = false;
        self.faulty = false;
        self.returned = false;
    }
}

/// What samples that find no command waiting are sent for.
#[derive(Clone, Copy, Debug, PartialEq, Eq)]
pub enum Repeating {
    Nothing,
    Sir,
    Sr,
}

/// What commands and samples change, save the shown text: small enough to be changed beside the state and put back.
#[derive(Clone, Copy, Debug)]
pub struct Weighing {
    pub zero: i64,
    pub tare: i64,
    pub load: i32,
    /// The unstable samples that came while a command waits.
    pub unstable: u32,
    /// The last stable net that a running SR sent. What an SR that is off left here does not count.
    pub last: i64,
    /// The threshold that a running or waiting SR set; 0 for none.
    pub threshold: u32,
    /// A running SR owes an S S.
    pub owed: bool,
    /// A running SR sent + or -, and is not back in range.
    pub out: bool,
    /// S, Z, T or SR.
    pub waiting: Option<Command>,
    pub stable: bool,
    pub sampled: bool,
    pub repeating: Repeating,
    /// The text is shown in place of the weight.
    pub text_shown: bool,
    /// The unit in force.
    pub unit: Unit,
}

#[derive(Clone, Debug)]
pub struct State {
    pub line: Line,
    pub weighing: Weighing,
    pub text: Text<20>,
}

#[derive(Clone, Copy)]
enum Answer {
    Nothing,
    Plain(Command, Status),
    /// The net or the tare, and whether it is coarse.
    Weight(Command, Status, i64, bool),
    Error(Error),
    Text(Command),
    List,
    Versions,
    /// What M21 is asked for.
    Unit(Unit),
}

impl State {
    pub fn start() -> State {
        State {
            line: Line { bytes: [0; LINE], len: 0, over: false, faulty: false, returned: false },
            weighing: Weighing {
                zero: 0,
                tare: 0,
                load: 0,
                unstable: 0,
                last: 0,
                threshold: 0,
                owed: false,
                out: false,
                waiting: None,
                stable: false,
                sampled: false,
                repeating: Repeating::Nothing,
                text_shown: false,
                unit: Unit::Gram,
            },
            text: Text { bytes: [0; 20], len: 0 },
        }
    }

    fn is_allowed(&self, profile: &Profile) -> bool {
        let now = &self.weighing;
        let range = i64::from(profile.zeroing);
        (-range..=range).contains(&now.zero)
            && (0..=i64::from(profile.capacity)).contains(&now.tare)
            && usize::from(self.line.len) <= LINE
            && (now.waiting.is_none() || now.unstable < profile.timeout)
            && (now.repeating == Repeating::Nothing || now.sampled)
            && (!now.text_shown || self.text.is_allowed())
            && (now.repeating != Repeating::Sr || now.is_change_allowed(profile))
            && (now.waiting != Some(Command::Sr) || now.threshold <= profile.capacity)
    }
}

impl Weighing {
    fn is_change_allowed(&self, profile: &Profile) -> bool {
        (profile.lowest_net()..=i64::from(profile.capacity)).contains(&self.last) && self.threshold <= profile.capacity
    }
}

pub fn power_on(profile: &Profile, state: &mut State, out: &mut [u8]) -> Outcome {
    if !profile.is_allowed() {
        return refused(1);
    }
    match put(Answer::Text(Command::I4), profile, Unit::Gram, out) {
        None => refused(3),
        Some(count) => {
            *state = State::start();
            done(count)
        }
    }
}

pub fn byte(profile: &Profile, state: &mut State, byte: u8, faulty: bool, out: &mut [u8]) -> Outcome {
    if !profile.is_allowed() {
        return refused(1);
    }
    if !state.is_allowed(profile) {
        return refused(2);
    }
    if !state.line.is_ended_by(byte, faulty) {
        state.line.join(byte, faulty);
        return done(0);
    }
    end_line(profile, state, out).map_or(refused(3), done)
}

/// The answer to the line that a byte ends; none, and the state as it was, where the buffer is shorter.
fn end_line(profile: &Profile, state: &mut State, out: &mut [u8]) -> Option<usize> {
    let line = &state.line;
    let text = &line.bytes[..usize::from(line.len)];
    let mut next = state.weighing;
    let mut shown = None;
    let answer = judge(profile, line, text, &mut next, &mut shown);
    let count = put(answer, profile, next.unit, out)?;
    if let Some(shown) = shown {
        state.text.bytes[..shown.len()].copy_from_slice(shown);
        state.text.len = shown.len() as u8;
    }
    state.weighing = next;
    state.line.clear();
    Some(count)
}

/// Profile and state are tested once; no byte makes a state that is not allowed.
pub fn take_bytes(profile: &Profile, state: &mut State, bytes: &[u8], marks: &[u8], out: &mut [u8]) -> Taken {
    let refused = |refusal| Taken { refusal, count: 0, taken: 0 };
    if !profile.is_allowed() {
        return refused(1);
    }
    if !state.is_allowed(profile) {
        return refused(2);
    }
    if bytes.len() != marks.len() || bytes.len() > MOST_BYTES {
        return refused(5);
    }
    let (mut count, mut taken) = (0, 0);
    while let (Some(&byte), Some(&mark)) = (bytes.get(taken), marks.get(taken)) {
        if state.line.is_ended_by(byte, mark != 0) {
            let Some(more) = end_line(profile, state, &mut out[count..]) else { break };
            count += more;
            taken += 1;
        } else if state.line.returned || byte == CR {
            state.line.join(byte, mark != 0);
            taken += 1;
        } else {
            let rest = &bytes[taken..];
            let run = rest.iter().position(|&byte| byte == CR).unwrap_or(rest.len());
            state.line.join_run(&rest[..run], &marks[taken..taken + run]);
            taken += run;
        }
    }
    Taken { refusal: 0, count, taken }
}

pub fn sample(profile: &Profile, state: &mut State, load: i32, stable: bool, out: &mut [u8]) -> Outcome {
    if !profile.is_allowed() {
        return refused(1);
    }
    if !state.is_allowed(profile) {
        return refused(2);
    }
    let mut next = Weighing { load, stable, sampled: true, ..state.weighing };
    let answer = weigh(profile, &mut next);
    let Some(count) = put(answer, profile, next.unit, out) else { return refused(3) };
    state.weighing = next;
    done(count)
}

fn refused(refusal: u8) -> Outcome {
    Outcome { refusal, count: 0 }
}

fn done(count: usize) -> Outcome {
    Outcome { refusal: 0, count }
}

/// The cases at the end of a line, in their order.
fn judge<'a>(profile: &Profile, line: &Line, text: &'a [u8], now: &mut Weighing, shown: &mut Option<&'a [u8]>) -> Answer {
    if line.faulty {
        return Answer::Error(Error::Transmission);
    }
    let (name, rest) = match text.iter().position(|&byte| byte == b' ') {
        Some(at) => (&text[..at], Some(&text[at + 1..])),
        None => (text, None),
    };
    let command = match Command::named(name) {
        Some(command) if !line.over && text.iter().all(|&byte| byte >= 32) => command,
        _ => return Answer::Error(Error::Syntax),
    };
    if rest.is_some() && !command.takes_parameters() {
        return Answer::Error(Error::Logical);
    }
    if command == Command::Reset {
        now.waiting = None;
        now.unstable = 0;
        now.repeating = Repeating::Nothing;
        now.tare = 0;
        now.text_shown = false;
        return Answer::Text(Command::I4);
    }
    if now.waiting.is_some() || (command.needs_sample() && !now.sampled) {
        return Answer::Plain(command.identification(), Status::I);
    }
    run(profile, command, rest, now, shown)
}

/// The command's own rule, and the parameters of D, TA, SR and M21.
fn run<'a>(
    profile: &Profile,
    command: Command,
    rest: Option<&'a [u8]>,
    now: &mut Weighing,
    shown: &mut Option<&'a [u8]>,
) -> Answer {
    match command {
        Command::I0 => Answer::List,
        Command::I1 => Answer::Versions,
        Command::I2 | Command::I3 | Command::I4 | Command::I5 => Answer::Text(command),
        Command::S => {
            now.repeating = Repeating::Nothing;
            settle_or_wait(profile, Command::S, now)
        }
        Command::Sr => {
            let Some(threshold) = threshold(profile, now.unit, rest) else { return Answer::Plain(Command::S, Status::L) };
            now.repeating = Repeating::Nothing;
            now.threshold = threshold;
            settle_or_wait(profile, Command::Sr, now)
        }
        Command::Z | Command::T => settle_or_wait(profile, command, now),
        Command::Si | Command::Sir => {
            now.repeating = if command == Command::Sir { Repeating::Sir } else { Repeating::Nothing };
            reading(profile, now)
        }
        Command::Zi => zero(profile, Command::Zi, Status::of_stability(now.stable), now),
        Command::Ti => tare(profile, Command::Ti, now),
        Command::Tac => {
            now.tare = 0;
            Answer::Plain(Command::Tac, Status::A)
        }
        Command::Ta => {
            if let Some(rest) = rest {
                let fine = profile.coarse_above();
                match preset(profile, now.unit, rest, |text, scale| typed_tare(text, scale, fine)) {
                    Some(amount) => now.tare = amount,
                    None => return Answer::Plain(Command::Ta, Status::L),
                }
            }
            Answer::Weight(Command::Ta, Status::A, now.tare, profile.is_coarse(now.tare))
        }
        Command::D => match rest.and_then(quoted) {
            Some(text) => {
                *shown = Some(text);
                now.text_shown = true;
                Answer::Plain(Command::D, Status::A)
            }
            None => Answer::Plain(Command::D, Status::L),
        },
        Command::Dw => {
            now.text_shown = false;
            Answer::Plain(Command::Dw, Status::A)
        }
        Command::M21 => match rest {
            None => Answer::Unit(now.unit),
            Some(rest) => match rest.strip_prefix(b"0 ").and_then(Unit::coded) {
                Some(unit) => {
                    now.unit = unit;
                    Answer::Plain(Command::M21, Status::A)
                }
                None => Answer::Plain(Command::M21, Status::L),
            },
        },
        Command::Reset => Answer::Nothing,
    }
}

/// Number, space, the unit in force; at most C as it is read.
fn preset(profile: &Profile, unit: Unit, rest: &[u8], read: impl Fn(&[u8], Scale) -> Option<u64>) -> Option<i64> {
    let at = rest.iter().position(|&byte| byte == b' ')?;
    if &rest[at + 1..] != unit.name() {
        return None;
    }
    let amount = read(&rest[..at], profile.scale(unit))?;
    (amount <= u64::from(profile.capacity)).then_some(amount as i64)
}

/// What the parameter of SR sets; 0 where there is none.
fn threshold(profile: &Profile, unit: Unit, rest: Option<&[u8]>) -> Option<u32> {
    let Some(rest) = rest else { return Some(0) };
    match preset(profile, unit, rest, typed_threshold)? {
        0 => None,
        amount => Some(amount as u32),
    }
}

fn quoted(rest: &[u8]) -> Option<&[u8]> {
    let text = rest.strip_prefix(b"\"")?.strip_suffix(b"\"")?;
    (text.len() <= 20 && is_printable(text)).then_some(text)
}

/// S, Z, T or SR on a stable latest sample; otherwise it waits.
fn settle_or_wait(profile: &Profile, command: Command, now: &mut Weighing) -> Answer {
    if now.sampled && now.stable {
        return settle(profile, command, now);
    }
    now.waiting = Some(command);
    now.unstable = 0;
    Answer::Nothing
}

fn settle(profile: &Profile, command: Command, now: &mut Weighing) -> Answer {
    match command {
        Command::Z => zero(profile, Command::Z, Status::A, now),
        Command::T => tare(profile, Command::T, now),
        Command::Sr => start_on_change(profile, now),
        _ => reading(profile, now),
    }
}

/// The answer of S; a weight starts SR.
fn start_on_change(profile: &Profile, now: &mut Weighing) -> Answer {
    let answer = reading(profile, now);
    if let Answer::Weight(_, _, net, _) = answer {
        now.repeating = Repeating::Sr;
        now.last = net;
        now.owed = false;
        now.out = false;
    }
    answer
}

fn gross(now: &Weighing) -> i64 {
    i64::from(now.load) - now.zero
}

fn reading(profile: &Profile, now: &Weighing) -> Answer {
    let gross = gross(now);
    if gross > i64::from(profile.capacity) {
        Answer::Plain(Command::S, Status::Over)
    } else if gross < -i64::from(profile.underload) {
        Answer::Plain(Command::S, Status::Under)
    } else {
        Answer::Weight(Command::S, Status::of_stability(now.stable), gross - now.tare, profile.is_coarse(gross))
    }
}

fn zero(profile: &Profile, command: Command, granted: Status, now: &mut Weighing) -> Answer {
    let load = i64::from(now.load);
    let range = i64::from(profile.zeroing);
    if load > range {
        Answer::Plain(command, Status::Over)
    } else if load < -range {
        Answer::Plain(command, Status::Under)
    } else {
        now.zero = load;
        now.tare = 0;
        Answer::Plain(command, granted)
    }
}

fn tare(profile: &Profile, command: Command, now: &mut Weighing) -> Answer {
    let gross = gross(now);
    if gross > i64::from(profile.capacity) {
        Answer::Plain(command, Status::Over)
    } else if gross < 0 {
        Answer::Plain(command, Status::Under)
    } else {
        now.tare = gross;
        Answer::Weight(command, Status::of_stability(now.stable), gross, profile.is_coarse(gross))
    }
}

/// The sample is in `now`.
fn weigh(profile: &Profile, now: &mut Weighing) -> Answer {
    let Some(command) = now.waiting else {
        return match now.repeating {
            Repeating::Nothing => Answer::Nothing,
            Repeating::Sir => reading(profile, now),
            Repeating::Sr => on_change(profile, now),
        };
    };
    if now.stable {
        now.waiting = None;
        now.unstable = 0;
        return settle(profile, command, now);
    }
    now.unstable += 1;
    if now.unstable < profile.timeout {
        return Answer::Nothing;
    }
    now.waiting = None;
    now.unstable = 0;
    Answer::Plain(command.identification(), Status::I)
}

/// What a running SR sends for the sample: + or - once an excursion, S D once until an S S, and S S.
fn on_change(profile: &Profile, now: &mut Weighing) -> Answer {
    let answer = reading(profile, now);
    let Answer::Weight(_, _, net, _) = answer else {
        return if std::mem::replace(&mut now.out, true) { Answer::Nothing } else { answer };
    };
    now.out = false;
    if !now.owed && !has_moved(profile, now, net) {
        return Answer::Nothing;
    }
    if now.stable {
        now.last = net;
        now.owed = false;
        return answer;
    }
    if std::mem::replace(&mut now.owed, true) {
        Answer::Nothing
    } else {
        answer
    }
}

/// By the set threshold, or by an eighth of the last net and 30 fine steps; nothing is divided.
fn has_moved(profile: &Profile, now: &Weighing, net: i64) -> bool {
    let change = net.abs_diff(now.last);
    match now.threshold {
        0 => 8 * change >= now.last.unsigned_abs() && profile.scale(now.unit).is_thirty_steps(change),
        set => change >= u64::from(set),
    }
}

/// Writes an answer; none where the buffer is shorter.
fn put(answer: Answer, profile: &Profile, unit: Unit, out: &mut [u8]) -> Option<usize> {
    match answer {
        Answer::Nothing => Some(0),
        Answer::Plain(command, status) => put_pieces([command.name(), &[b' ', status.byte(), CR, LF]], out),
        Answer::Weight(command, status, net, coarse) => {
            let mut field = [0; 10];
            let scale = profile.scale(unit).in_range(coarse);
            put_field(scale.places(net), scale.decimals, coarse, &mut field);
            put_pieces([command.name(), &[b' ', status.byte(), b' '], &field, b" ", unit.name(), b"\r\n"], out)
        }
        Answer::Error(error) => put_pieces([&error.line()], out),
        Answer::Text(command) => {
            let text = match command {
                Command::I2 => profile.model.get(),
                Command::I3 => profile.software.get(),
                Command::I4 => profile.serial.get(),
                _ => profile.identity.get(),
            };
            put_pieces([command.name(), b" A \"", text.unwrap_or_default(), b"\"\r\n"], out)
        }
        Answer::List => put_pieces([LIST], out),
        Answer::Versions => put_pieces([VERSIONS], out),
        Answer::Unit(unit) => put_pieces([b"M21 A 0 ", unit.code(), b"\r\n"], out),
    }
}

/// Writes pieces one after another; none where the buffer is shorter.
pub fn put_pieces<const N: usize>(pieces: [&[u8]; N], out: &mut [u8]) -> Option<usize> {
    let count = pieces.iter().map(|piece| piece.len()).sum();
    let mut rest = out.get_mut(..count)?;
    for piece in pieces {
        let (here, next) = rest.split_at_mut(piece.len());
        here.copy_from_slice(piece);
        rest = next;
    }
    Some(count)
}
