//! The module: power-on, the byte call and the sample call, with their refusals 1, 2 and 3. The whole-buffer call is `buffer.rs`.

use crate::faults::Fault;
use crate::on_change::{kept_net, least_change, OnChange};
use crate::profile::{is_text, Profile};
use crate::weight::{
    as_printed, before_roundings, number_text, typed_is_above, typed_micrograms, typed_places, typed_tare, weight_text, Range,
    Scale, Unit, UNITS,
};

const CR: u8 = 13;
const LF: u8 = 10;

/// The commands in the order in which I0 lists them, each with its level.
pub const COMMANDS: [(&str, u8); 20] = [
    ("I0", 0),
    ("I1", 0),
    ("I2", 0),
    ("I3", 0),
    ("I4", 0),
    ("I5", 0),
    ("S", 0),
    ("SI", 0),
    ("SIR", 0),
    ("Z", 0),
    ("ZI", 0),
    ("@", 0),
    ("D", 1),
    ("DW", 1),
    ("SR", 1),
    ("T", 1),
    ("TA", 1),
    ("TAC", 1),
    ("TI", 1),
    ("M21", 2),
];

/// The line being received.
#[derive(Clone, Debug, Default, PartialEq, Eq)]
pub struct Line {
    pub bytes: Vec<u8>,
    pub over: bool,
    pub faulty: bool,
    /// A good CR was the last byte; it is no part of the line if a good LF follows.
    pub cr: bool,
}

#[derive(Clone, Copy, Debug, PartialEq, Eq)]
pub struct Sample {
    pub load: i32,
    pub stable: bool,
}

/// S, T, Z or SR waiting, and the unstable samples that came meanwhile.
#[derive(Clone, Copy, Debug, PartialEq, Eq)]
pub struct Wait {
    pub name: &'static str,
    pub unstable: u32,
    /// What the line of a waiting SR sets, in micrograms; none for the others.
    pub threshold: Option<i64>,
}

/// What the samples that find no command waiting are sent for. One of three, so that SR cannot run beside SIR.
#[derive(Clone, Copy, Debug, Default, PartialEq, Eq)]
pub enum Repetition {
    #[default]
    Off,
    Sir,
    Sr(OnChange),
}

#[derive(Clone, Debug, Default, PartialEq, Eq)]
pub struct State {
    pub line: Line,
    pub zero: i64,
    pub tare: i64,
    pub latest: Option<Sample>,
    pub waiting: Option<Wait>,
    pub repetition: Repetition,
    /// The text that D shows; none when the weight is shown.
    pub shown: Option<Vec<u8>>,
    /// The unit in force, which M21 sets.
    pub unit: Unit,
    /// What only planted faults keep and read.
    pub planted: u32,
}

impl State {
    /// The memory of a running SR.
    pub fn on_change(&self) -> Option<OnChange> {
        match self.repetition {
            Repetition::Sr(memory) => Some(memory),
            _ => None,
        }
    }
}

/// The latest sample as S, SI, SIR and SR see it.
#[derive(Clone, Copy, Debug, PartialEq, Eq)]
pub struct Reading {
    pub net: i128,
    pub stable: bool,
    /// + or - where gross is out of range.
    pub out: Option<char>,
    /// What gross decides.
    pub range: Range,
}

/// The refusal number, 0 for none, and the length of the answer.
#[derive(Clone, Copy, Debug, PartialEq, Eq)]
pub struct Outcome {
    pub refusal: u8,
    pub n: usize,
}

/// What the parameters of a line ask for.
enum Parameters {
    None,
    Show(Vec<u8>),
    /// A typed tare, and the range that its number was rounded in.
    Preset(i64, Range),
    Threshold(i64),
    Unit(Unit),
    Wrong,
}

/// The module; a fault is switched on only by the mutation check.
#[derive(Clone, Copy, Debug, Default)]
pub struct Module {
    pub fault: Option<Fault>,
}

impl Module {
    pub(crate) fn has(&self, fault: Fault) -> bool {
        self.fault == Some(fault)
    }

    // The three calls. A refused call leaves the state and the buffer.

    pub fn power_on(&self, profile: &Profile, state: &mut State, buffer: &mut [u8]) -> Outcome {
        if profile.is_refused(self.fault) {
            if self.has(Fault::RefusedOnShowsWeight) {
                state.shown = None;
            }
            return self.refuse(1, state, buffer);
        }
        let answer = self.text_line(profile, "I4");
        self.finish(state, self.started(state), &answer, buffer)
    }

    /// The state that power-on gives; only faults look at the one that it is handed.
    fn started(&self, given: &State) -> State {
        let mut state = State::default();
        match self.fault {
            Some(Fault::PowerOnKeepsText) => state.shown = given.shown.clone(),
            Some(Fault::PowerOnKeepsLine) => state.line = given.line.clone(),
            Some(Fault::PowerOnKeepsWait) => state.waiting = given.waiting,
            Some(Fault::PowerOnKeepsRepetition) => state.repetition = given.repetition,
            Some(Fault::PowerOnKeepsSample) => state.latest = given.latest,
            Some(Fault::PowerOnKeepsUnit) => state.unit = given.unit,
            _ => {}
        }
        state
    }

    /// A mark of 0 is good, any other faulty.
    pub fn byte(&self, profile: &Profile, state: &mut State, byte: u8, mark: u8, buffer: &mut [u8]) -> Outcome {
        if let Some(number) = self.refusal(profile, state) {
            return self.refuse(number, state, buffer);
        }
        let mut next = state.clone();
        let mut answer = vec![];
        if self.join(&mut next.line, byte, mark == 0) {
            answer = self.end_line(profile, &mut next);
        }
        self.finish(state, next, &answer, buffer)
    }

    pub fn sample(&self, profile: &Profile, state: &mut State, sample: Sample, buffer: &mut [u8]) -> Outcome {
        if let Some(number) = self.refusal(profile, state) {
            return self.refuse(number, state, buffer);
        }
        let mut next = state.clone();
        let answer = self.weigh(profile, &mut next, sample);
        self.finish(state, next, &answer, buffer)
    }

    /// Hands out the answer if there is room for it.
    fn finish(&self, state: &mut State, next: State, answer: &[u8], buffer: &mut [u8]) -> Outcome {
        let spare = usize::from(self.has(Fault::RoomOffByOne));
        if !answer.is_empty() && buffer.len() < answer.len() + spare {
            if self.has(Fault::ShortRoomTakes) {
                *state = next;
            } else if self.has(Fault::LineKeptAfterRefusal) {
                state.line.cr = false;
            } else if self.has(Fault::SentThoughRefused) {
                state.repetition = next.repetition;
            } else if self.has(Fault::UnitSetInShortRoom) {
                state.unit = next.unit;
            }
            return self.refuse(3, state, buffer);
        }
        if self.has(Fault::BytePastAnswerWritten) && !answer.is_empty() && buffer.len() > answer.len() {
            buffer[answer.len()] = 0;
        }
        buffer[..answer.len()].copy_from_slice(answer);
        *state = next;
        Outcome { refusal: 0, n: answer.len() }
    }

    /// A refusal leaves the state and the buffer.
    pub(crate) fn refuse(&self, refusal: u8, state: &mut State, buffer: &mut [u8]) -> Outcome {
        let shows_weight = match refusal {
            1 => Fault::RefusalOneShowsWeight,
            2 => Fault::RefusalTwoShowsWeight,
            3 => Fault::RefusalThreeShowsWeight,
            _ => Fault::RefusalFiveShowsWeight,
        };
        if self.has(shows_weight) {
            state.shown = None;
        }
        if self.has(Fault::RefusalWritesBuffer) && !buffer.is_empty() {
            buffer[0] = 0;
        }
        Outcome { refusal, n: 0 }
    }

    // Refusals 1 and 2, of every call but power-on.

    pub(crate) fn refusal(&self, profile: &Profile, state: &State) -> Option<u8> {
        let within = || Profile { fine: profile.fine.min(profile.capacity), ..profile.clone() };
        let profile_refused = match self.fault {
            Some(Fault::LimitUntestedInCalls) => within().is_refused_in(state.unit, None),
            _ => profile.is_refused_in(state.unit, self.fault),
        };
        let state_refused = self.state_refused(profile, state);
        match (profile_refused, state_refused) {
            (true, true) if self.has(Fault::RefusalTwoFirst) => Some(2),
            (true, _) => Some(1),
            (false, true) => Some(if self.has(Fault::RefusalThreeFirst) { 3 } else { 2 }),
            (false, false) => None,
        }
    }

    fn state_refused(&self, profile: &Profile, state: &State) -> bool {
        let range = i64::from(profile.zeroing);
        let zero_out = !(-range..=range).contains(&state.zero) && !self.has(Fault::ZeroUnjudged);
        let tare_out = !(0..=i64::from(profile.capacity)).contains(&state.tare) && !self.has(Fault::TareUnjudged);
        let line_long = state.line.bytes.len() > self.line_room();
        let shown_wrong = state.shown.as_ref().is_some_and(|text| !self.can_show(text));
        let counted = state.waiting.is_some_and(|wait| wait.unstable >= profile.patience);
        let out_of_patience = counted && !self.has(Fault::CountUnjudged) && !self.has(Fault::TimeoutLate);
        let nothing_to_repeat = state.repetition != Repetition::Off && state.latest.is_none();
        let change_wrong = self.change_refused(profile, state);
        zero_out || tare_out || line_long || shown_wrong || out_of_patience || nothing_to_repeat || change_wrong
    }

    /// A last net outside -(U+C)..C, or a set threshold outside 1..C, of an SR that runs or waits.
    fn change_refused(&self, profile: &Profile, state: &State) -> bool {
        let capacity = i64::from(profile.capacity);
        let below = if self.has(Fault::LastNetJudgedByMargin) { 0 } else { capacity };
        let nets = -(i64::from(profile.margin) + below)..=capacity;
        let is_wrong = |set: Option<i64>| set.is_some_and(|set| !(1..=capacity).contains(&set));
        let last_out = |memory: OnChange| !nets.contains(&memory.last) && !self.has(Fault::LastNetUnjudged);
        let set_out = |memory: OnChange| is_wrong(memory.threshold) && !self.has(Fault::ThresholdUnjudged);
        let waiting_out =
            |wait: Wait| wait.name == "SR" && is_wrong(wait.threshold) && !self.has(Fault::WaitingThresholdUnjudged);
        state.on_change().is_some_and(|memory| last_out(memory) || set_out(memory)) || state.waiting.is_some_and(waiting_out)
    }

    fn can_show(&self, text: &[u8]) -> bool {
        let room = if self.has(Fault::TextOf21Shown) { 21 } else { 20 };
        let taken_too = match self.fault {
            Some(Fault::QuoteTakenForText) => Some(Fault::QuoteInText),
            Some(Fault::LastControlTakenForText) => Some(Fault::ControlInText),
            _ => None,
        };
        is_text(text, room, taken_too) || self.has(Fault::QuoteShown)
    }

    // Receiving.

    fn line_room(&self) -> usize {
        match self.fault {
            Some(Fault::Line63) => 63,
            Some(Fault::Line65) => 65,
            _ => 64,
        }
    }

    /// Takes a byte into the line; true if it ended the line.
    fn join(&self, line: &mut Line, byte: u8, good: bool) -> bool {
        let ends = byte == LF && (good || self.has(Fault::FaultyLfTaken));
        if ends && (line.cr || self.has(Fault::LfAloneEndsLine)) {
            line.cr = false;
            if self.has(Fault::CrHeldAtOnce) {
                line.bytes.pop();
            }
            return true;
        }
        if line.cr {
            line.cr = false;
            if !self.has(Fault::CrLost) && !self.has(Fault::CrHeldAtOnce) {
                self.hold(line, CR, true);
            }
        }
        if byte == CR && (good || self.has(Fault::FaultyCrTaken)) {
            if self.has(Fault::CrHeldAtOnce) {
                self.hold(line, CR, true);
            }
            line.cr = !self.has(Fault::CrAloneEndsLine);
            return self.has(Fault::CrAloneEndsLine);
        }
        self.hold(line, byte, good);
        false
    }

    fn hold(&self, line: &mut Line, byte: u8, good: bool) {
        let fits = line.bytes.len() < self.line_room();
        let left_out = match self.fault {
            Some(Fault::FaultyByteLeftOut) => !good,
            Some(Fault::NothingHeldAfterFault) => line.faulty,
            Some(Fault::FaultHidesOver) => line.faulty && !fits,
            _ => false,
        };
        if !left_out && fits {
            line.bytes.push(byte);
        } else if !left_out {
            line.over = true;
        }
        if !fits && self.has(Fault::OverEmptiesLine) {
            line.bytes.clear();
        }
        line.over |= (!good && self.has(Fault::FaultSetsOver)) || (byte < 32 && self.has(Fault::ControlSetsOver));
        let forgotten = self.has(Fault::FaultForgotten) || (!fits && self.has(Fault::FaultPastLimitForgotten));
        if !good && !forgotten {
            line.faulty = true;
        }
    }

    /// The cases at the end of a line, in their order.
    fn end_line(&self, profile: &Profile, state: &mut State) -> Vec<u8> {
        let mut line = std::mem::take(&mut state.line);
        match self.fault {
            Some(Fault::LastZeroIgnored) if line.bytes.ends_with(b"\0") => drop(line.bytes.pop()),
            Some(Fault::BytesKept) => state.line.bytes = line.bytes.clone(),
            Some(Fault::OverKept) => state.line.over = line.over,
            Some(Fault::FaultKept) => state.line.faulty = line.faulty,
            Some(Fault::CrKept) => state.line.cr = true,
            _ => {}
        }
        let (name, rest) = match line.bytes.iter().position(|&byte| self.is_space(byte)) {
            Some(at) => (&line.bytes[..at], Some(&line.bytes[at + 1..])),
            None => (&line.bytes[..], None),
        };
        let known = if self.is_malformed(&line) { None } else { self.command_named(name) };
        if line.faulty && !(self.has(Fault::SyntaxBeforeTransmission) && known.is_none()) {
            return self.error(state, "ET");
        }
        if self.has(Fault::WaitingBeforeSyntax) && known.is_none() && state.waiting.is_some() {
            return answer("S I");
        }
        match known {
            Some(name) => self.command(profile, state, name, rest),
            None => self.error(state, "ES"),
        }
    }

    /// ET, ES and EL change nothing.
    fn error(&self, state: &mut State, letters: &str) -> Vec<u8> {
        if self.has(Fault::ErrorShowsWeight) {
            state.shown = None;
        }
        if self.has(Fault::ErrorEndsRepetition) {
            state.repetition = Repetition::Off;
        }
        answer(letters)
    }

    fn is_malformed(&self, line: &Line) -> bool {
        line.over || line.bytes.iter().any(|&byte| self.is_control(byte))
    }

    /// A byte below 32, save for faults.
    fn is_control(&self, byte: u8) -> bool {
        match self.fault {
            Some(Fault::ControlTaken) => false,
            Some(Fault::DeleteTakenForControl) => byte < 32 || byte == 127,
            Some(Fault::HighBytesTakenForControl) => !(32..128).contains(&byte),
            Some(Fault::ClassesBySevenBits) => byte % 128 < 32,
            Some(Fault::LastControlTakenForText) => byte < 31,
            Some(Fault::TabTakenForSpace) => byte < 32 && byte != b'\t',
            _ => byte < 32,
        }
    }

    /// What ends a name, save for faults.
    fn is_space(&self, byte: u8) -> bool {
        match self.fault {
            Some(Fault::ClassesBySevenBits) => byte % 128 == b' ',
            Some(Fault::SpaceTakenForText) => false,
            Some(Fault::TabTakenForSpace) => byte == b' ' || byte == b'\t',
            _ => byte == b' ',
        }
    }

    fn command_named(&self, name: &[u8]) -> Option<&'static str> {
        let upper = name.to_ascii_uppercase();
        let name = match self.fault {
            Some(Fault::LowerCaseTaken) => &upper[..],
            Some(Fault::GraveTakenForAtSign) if name == b"`" => b"@",
            Some(Fault::FourthByteIgnored) => &name[..name.len().min(3)],
            _ => name,
        };
        let same = |known: &&str| known.as_bytes() == name;
        let nearly = |known: &&str| match self.fault {
            Some(Fault::PrefixTaken) => name.starts_with(known.as_bytes()),
            Some(Fault::PartOfNameTaken) => !name.is_empty() && known.as_bytes().starts_with(name),
            _ => false,
        };
        let names = || COMMANDS.into_iter().map(|(name, _)| name);
        match (self.fault, names().find(same).or_else(|| names().rev().find(nearly))) {
            (Some(Fault::NamesExchanged), Some("T")) => Some("TA"),
            (Some(Fault::NamesExchanged), Some("TA")) => Some("T"),
            (Some(Fault::FirstNameMissed), Some("@")) | (Some(Fault::LastNameMissed), Some("ZI")) => None,
            (_, known) => known,
        }
    }

    /// Orders 3 to 7.
    fn command(&self, profile: &Profile, state: &mut State, name: &'static str, rest: Option<&[u8]>) -> Vec<u8> {
        let busy = state.waiting.is_some();
        if self.has(Fault::WaitingBeforeLogical) && busy && name != "@" {
            return self.status(name, "I");
        }
        let takes_parameters = matches!(name, "D" | "TA" | "SR") || (name == "M21" && !self.has(Fault::UnitTakesNoParameters));
        if rest.is_some() && !takes_parameters && !self.has(Fault::AnythingAfterName) {
            self.logical(state, name);
            return self.error(state, "EL");
        }
        if name == "@" && !(busy && self.has(Fault::WaitingBeforeReset)) {
            return self.reset(profile, state);
        }
        let parameters = self.parameters(profile, state, name, rest);
        let wrong = matches!(parameters, Parameters::Wrong);
        let first = (wrong && self.has(Fault::ParametersBeforeWaiting)) || self.unit_before_waiting(name, &parameters);
        if busy && !first {
            self.busy(state, name, parameters);
            return self.status(name, "I");
        }
        if wrong {
            self.wrong(state, name);
            return self.status(name, "L");
        }
        let needs_sample = match name {
            "SI" | "SIR" | "TI" | "ZI" => true,
            "SR" => self.has(Fault::SrNeedsSample),
            "M21" => self.has(Fault::UnitNeedsSample),
            _ => false,
        };
        if state.latest.is_none() && needs_sample {
            if name == "SIR" && self.has(Fault::StartedWithoutSample) {
                state.repetition = Repetition::Sir;
            }
            return self.status(name, "I");
        }
        self.obey(profile, state, name, parameters)
    }

    /// What faults answer of M21 while a command waits.
    fn unit_before_waiting(&self, name: &str, parameters: &Parameters) -> bool {
        let first = match parameters {
            Parameters::Unit(_) => Fault::UnitSetWhileWaiting,
            Parameters::None => Fault::UnitQueriedWhileWaiting,
            _ => Fault::WrongUnitBeforeWaiting,
        };
        name == "M21" && self.has(first)
    }

    /// EL changes nothing; what faults make of the name.
    fn logical(&self, state: &mut State, name: &str) {
        match (self.fault, name) {
            (Some(Fault::LogicalDwShowsWeight), "DW") => state.shown = None,
            (Some(Fault::LogicalSirStarts), "SIR") if state.latest.is_some() => state.repetition = Repetition::Sir,
            (Some(Fault::LogicalSiEndsSr), "S" | "SI" | "SIR") if state.on_change().is_some() => {
                state.repetition = Repetition::Off
            }
            _ => {}
        }
    }

    /// L changes nothing; what faults make of the name.
    fn wrong(&self, state: &mut State, name: &str) {
        match (self.fault, name) {
            (Some(Fault::WrongTextShowsWeight), "D") => state.shown = None,
            (Some(Fault::WrongSrEndsOld), "SR") => state.repetition = Repetition::Off,
            (Some(Fault::WrongUnitSetsGrams), "M21") => state.unit = Unit::Gram,
            _ => {}
        }
    }

    /// A name other than @ while a command waits changes nothing; what faults make of it.
    fn busy(&self, state: &mut State, name: &'static str, parameters: Parameters) {
        let waits_too = matches!(name, "S" | "T" | "Z" | "SR");
        match (self.fault, state.waiting.as_mut()) {
            (Some(Fault::RepetitionEndedWhileWaiting), _) if matches!(name, "S" | "SI") => state.repetition = Repetition::Off,
            (Some(Fault::BusySrEndsOld), _) if name == "SR" => state.repetition = Repetition::Off,
            (Some(Fault::BusySirStarts), _) if name == "SIR" && state.latest.is_some() => state.repetition = Repetition::Sir,
            (Some(Fault::BusyDwShowsWeight), _) if name == "DW" => state.shown = None,
            (Some(Fault::BusyTextShown), _) => {
                if let Parameters::Show(text) = parameters {
                    state.shown = Some(text);
                }
            }
            (Some(Fault::BusyUnitSet), _) => {
                if let Parameters::Unit(unit) = parameters {
                    state.unit = unit;
                }
            }
            (Some(Fault::BusyLineCounted), Some(wait)) => wait.unstable += 1,
            (Some(Fault::BusyStartsOver), Some(wait)) if waits_too => wait.unstable = 0,
            (Some(Fault::BusyTakesOver), Some(wait)) if waits_too => wait.name = name,
            _ => {}
        }
    }

    /// The identification is the name; for SI, SIR and SR it is S.
    fn identification(&self, name: &'static str) -> &'static str {
        match name {
            "SI" | "SIR" if !self.has(Fault::OwnIdentification) => "S",
            "SR" if !self.has(Fault::SrOwnIdentification) => "S",
            _ => name,
        }
    }

    fn status(&self, name: &'static str, status: &str) -> Vec<u8> {
        answer(&format!("{} {status}", self.identification(name)))
    }

    fn parameters(&self, profile: &Profile, state: &State, name: &str, rest: Option<&[u8]>) -> Parameters {
        match (name, rest) {
            ("D", rest) => match self.quoted(rest.unwrap_or(b"")) {
                Some(text) => Parameters::Show(text),
                None => Parameters::Wrong,
            },
            ("TA", Some(rest)) => match self.typed_tare(profile, state, rest) {
                Some((0, _)) if self.has(Fault::TypedZeroRefused) => Parameters::Wrong,
                Some((tare, range)) => Parameters::Preset(tare, range),
                None => Parameters::Wrong,
            },
            ("SR", Some(b"")) if self.has(Fault::LoneSpaceTaken) => Parameters::None,
            ("SR", Some(rest)) => match self.typed_threshold(profile, state, rest) {
                Some(0) if !self.has(Fault::ThresholdOfZeroTaken) => Parameters::Wrong,
                Some(threshold) => Parameters::Threshold(threshold),
                None => Parameters::Wrong,
            },
            ("M21", Some(rest)) => self.unit(state, rest),
            _ => Parameters::None,
        }
    }

    /// What stands after `M21 `: 0 for the host unit, one space and the code of one of the nine units.
    fn unit(&self, state: &State, rest: &[u8]) -> Parameters {
        let host = rest.strip_prefix(b"0 ");
        let code = match self.fault {
            Some(Fault::LoneSpaceQueriesUnit) if rest == b"" => return Parameters::None,
            Some(Fault::LoneHostQueriesUnit) if rest == b"0" => return Parameters::None,
            Some(Fault::DisplayUnitSet) => host.or(rest.strip_prefix(b"1 ")),
            Some(Fault::HostPadded) => host.or(rest.strip_prefix(b"00 ")),
            Some(Fault::HostLeftOut) => host.or(Some(rest)),
            _ => host,
        };
        match code.and_then(|code| self.unit_coded(code)) {
            Some(unit) if self.has(Fault::UnitAgainRefused) && unit == state.unit => Parameters::Wrong,
            Some(unit) => Parameters::Unit(unit),
            None => Parameters::Wrong,
        }
    }

    fn unit_coded(&self, code: &[u8]) -> Option<Unit> {
        let number = || std::str::from_utf8(code).ok().filter(|text| !text.starts_with(['0', '+']))?.parse::<u64>().ok();
        let numbered = |number: u64| Unit::coded(number.to_string().as_bytes());
        match self.fault {
            Some(Fault::UnitByIndex) if code != b"0" => UNITS.get(number()? as usize).copied(),
            Some(Fault::MicrogramsTakenForCarats) if code == b"4" => Some(Unit::Carat),
            Some(Fault::TwentyTakenForPounds) if code == b"20" => Some(Unit::Pound),
            Some(Fault::OunceCodesSwapped) if code == b"8" => Some(Unit::TroyOunce),
            Some(Fault::OunceCodesSwapped) if code == b"9" => Some(Unit::Ounce),
            Some(Fault::NewUnitsRefused) => Unit::coded(code).filter(|unit| !matches!(unit, Unit::Kilogram | Unit::Pound)),
            Some(Fault::OtherCodeSetsGrams) => Unit::coded(code).or_else(|| number().map(|_| Unit::Gram)),
            Some(Fault::CodeInOneByte) if code != b"0" => numbered(number()? % 256),
            Some(Fault::CodeIn32Bits) if code != b"0" => numbered(number()? % (1 << 32)),
            Some(Fault::CodePadded) => Unit::coded(code.strip_prefix(b"0").filter(|rest| !rest.is_empty()).unwrap_or(code)),
            Some(Fault::CodeSigned) => Unit::coded(code.strip_prefix(b"+").unwrap_or(code)),
            Some(Fault::CodeAfterTwoSpaces) => Unit::coded(code.strip_prefix(b" ").unwrap_or(code)),
            Some(Fault::CodeBeforeSpace) => Unit::coded(code.strip_suffix(b" ").unwrap_or(code)),
            _ => Unit::coded(code),
        }
    }

    /// What weights are printed and typed in, which is what the profile has for the unit in force.
    fn scale(&self, profile: &Profile, state: &State) -> Scale {
        let scale = profile.scale(state.unit);
        match self.fault {
            Some(Fault::PlacesOfGrams) => Scale { unit: scale.unit, ..profile.scale(Unit::Gram) },
            _ => scale,
        }
    }

    fn quoted(&self, rest: &[u8]) -> Option<Vec<u8>> {
        let text = rest.strip_prefix(b"\"")?.strip_suffix(b"\"")?;
        self.can_show(text).then(|| text.to_vec())
    }

    /// What a TA line sets, and the range that its number is rounded in: the microgram result at most C, save for faults.
    fn typed_tare(&self, profile: &Profile, state: &State, rest: &[u8]) -> Option<(i64, Range)> {
        let grams = profile.scale(Unit::Gram);
        let scale = match self.fault {
            Some(Fault::TypedInGrams) => grams,
            Some(Fault::TypedToGramStep) => Scale { unit: state.unit, ..grams },
            _ => self.scale(profile, state),
        };
        let number = self.typed(scale, rest)?;
        let range = self.typed_range(profile, state, number, scale)?;
        let tare = self.rounded_tare(number, scale, range)?;
        let capacity = i128::from(profile.capacity);
        let before = || before_roundings(number, scale.in_range(range));
        let granted = match self.fault {
            Some(Fault::TypedLimitBeforeBoth) if before()?.0 > capacity => None,
            Some(Fault::TypedLimitBeforeSecond) if before()?.1 > capacity => None,
            Some(Fault::TypedHeldToCapacity) if before()?.0 <= capacity => Some(tare.min(capacity) as i64),
            Some(Fault::TypedCutTo32Bits) => Some(i64::from(tare as u32)).filter(|tare| i128::from(*tare) <= capacity),
            _ => (tare <= capacity + i128::from(self.has(Fault::TypedAboveCapacityTaken))).then_some(tare as i64),
        };
        granted.map(|tare| (tare, range))
    }

    /// The range that a typed number is rounded in: the number itself decides, before any rounding, and only beside a coarse range.
    fn typed_range(&self, profile: &Profile, state: &State, number: &[u8], scale: Scale) -> Option<Range> {
        let rounded_above = |micrograms: Option<i128>| Some(profile.range(micrograms?) == Range::Coarse);
        let above = match self.fault {
            Some(Fault::TypedNeverCoarse) => false,
            Some(Fault::TypedAlwaysCoarse) => true,
            Some(Fault::TypedComparedInSteps) => rounded_above(typed_tare(number, scale, None))?,
            Some(Fault::TypedComparedInCoarseSteps) => rounded_above(typed_tare(number, scale.in_range(Range::Coarse), None))?,
            Some(Fault::TypedComparedInMicrograms) => rounded_above(typed_micrograms(number, scale, None))?,
            Some(Fault::TypedStepByGross) => rounded_above(Some(gross(state)))?,
            Some(Fault::TypedStepByFormerTare) => rounded_above(Some(state.tare.into()))?,
            _ => typed_is_above(number, scale, profile.fine, self.fault)?,
        };
        let beside = profile.has_coarse_range() || self.has(Fault::TypedCoarseWithoutRange);
        Some(if above && beside { Range::Coarse } else { Range::Fine })
    }

    /// Both roundings of a typed tare in its range; what faults do in the coarse one alone.
    fn rounded_tare(&self, number: &[u8], scale: Scale, range: Range) -> Option<i128> {
        let ranged = scale.in_range(range);
        match (range, self.fault) {
            (Range::Coarse, Some(Fault::TypedFineFirst)) => {
                let fine = number_text(typed_places(number, scale, None)?, scale.decimals, false);
                typed_tare(fine.as_bytes(), ranged, None)
            }
            (Range::Coarse, Some(Fault::TypedCoarseTieDownwards)) => {
                typed_tare(number, ranged, Some(Fault::TypedFirstTieDownwards))
            }
            (Range::Coarse, Some(Fault::TypedCoarseCut)) => typed_tare(number, ranged, Some(Fault::TypedFirstCut)),
            (Range::Coarse, Some(Fault::TypedCoarseStepOfOne)) => typed_tare(number, ranged, Some(Fault::TypedStepIgnored)),
            _ => typed_tare(number, ranged, self.fault),
        }
    }

    /// What an SR line sets, at most C, save for faults.
    fn typed_threshold(&self, profile: &Profile, state: &State, rest: &[u8]) -> Option<i64> {
        let unit = if self.has(Fault::ThresholdInGrams) { Unit::Gram } else { state.unit };
        let scale = profile.scale(unit);
        let number = self.typed(scale, rest)?;
        let above = || typed_is_above(number, scale, profile.fine, None) == Some(true);
        let threshold = match self.fault {
            Some(Fault::ThresholdRoundedToStep) => typed_tare(number, scale, None)?,
            Some(Fault::ThresholdRoundedCoarse) if above() => typed_tare(number, scale.in_range(Range::Coarse), None)?,
            _ => typed_micrograms(number, scale, self.fault)?,
        };
        let most = i128::from(profile.capacity) + i128::from(self.has(Fault::ThresholdAboveCapacityTaken));
        (threshold <= most).then_some(threshold as i64)
    }

    /// The number of a typed one, one space and the unit in force.
    fn typed<'a>(&self, scale: Scale, rest: &'a [u8]) -> Option<&'a [u8]> {
        let at = rest.iter().position(|&byte| self.is_space(byte))?;
        let (number, mut unit) = (&rest[..at], &rest[at + 1..]);
        if self.has(Fault::TypedTwoSpaces) {
            unit = unit.strip_prefix(b" ").unwrap_or(unit);
        }
        let good = Unit::named(unit) == Some(scale.unit) || self.has(Fault::TypedUnitIgnored);
        good.then_some(number)
    }

    // Order 8: what each command does.

    fn obey(&self, profile: &Profile, state: &mut State, name: &'static str, parameters: Parameters) -> Vec<u8> {
        if self.wrongly_shows_weight(name) {
            state.shown = None;
        }
        match name {
            "I0" => self.list(),
            "I1" if self.has(Fault::LevelOneComplete) => answer("I1 A \"01\" \"2.30\" \"2.20\""),
            "I1" => answer("I1 A \"0\" \"2.30\" \"2.20\""),
            "I2" | "I3" | "I4" | "I5" => self.text_line(profile, name),
            "S" | "T" | "Z" | "SR" => self.judge_or_wait(profile, state, name, parameters),
            "SI" | "SIR" => self.repeat_or_not(profile, state, name),
            "TI" => self.tare(profile, state, name),
            "ZI" => self.zero(profile, state, name),
            "TA" => self.preset_or_query(profile, state, parameters),
            "M21" => self.set_or_query_unit(profile, state, parameters),
            "TAC" => {
                state.tare = 0;
                self.rebase(profile, state, Fault::SrRebasedByTypedTare);
                self.status(name, "A")
            }
            "D" | "DW" => {
                self.show(state, parameters);
                self.status(name, "A")
            }
            _ => self.reset(profile, state),
        }
    }

    /// No command but DW and @ brings the weight back.
    fn wrongly_shows_weight(&self, name: &str) -> bool {
        match self.fault {
            Some(Fault::ReadingShowsWeight) => matches!(name, "S" | "SI" | "SIR" | "SR"),
            Some(Fault::ZeroingShowsWeight) => matches!(name, "Z" | "ZI"),
            Some(Fault::TaringShowsWeight) => matches!(name, "T" | "TI"),
            Some(Fault::TypedTareShowsWeight) => matches!(name, "TA" | "TAC"),
            Some(Fault::ListShowsWeight) => name.starts_with('I'),
            Some(Fault::UnitShowsWeight) => name == "M21",
            _ => false,
        }
    }

    /// D shows its text, DW the weight.
    fn show(&self, state: &mut State, parameters: Parameters) {
        match (parameters, self.fault) {
            (Parameters::Show(_), Some(Fault::TextNotShown)) | (Parameters::None, Some(Fault::DwKeepsText)) => {}
            (Parameters::Show(text), Some(Fault::EmptyTextShowsWeight)) => {
                state.shown = Some(text).filter(|text| !text.is_empty())
            }
            (Parameters::Show(text), Some(Fault::TextCutShort)) => state.shown = Some(text.into_iter().take(19).collect()),
            (Parameters::Show(text), Some(Fault::HighBytesReplaced)) => {
                state.shown = Some(text.into_iter().map(|byte| if byte > 127 { b'?' } else { byte }).collect())
            }
            (Parameters::Show(text), _) => state.shown = Some(text),
            _ => state.shown = None,
        }
    }

    fn judge_or_wait(&self, profile: &Profile, state: &mut State, name: &'static str, parameters: Parameters) -> Vec<u8> {
        let threshold = self.threshold(state, name, parameters);
        self.end_repetition(state, name);
        let unstable = match self.fault {
            Some(Fault::LatestCounted) => u32::from(state.latest.is_some() && profile.patience > 1),
            Some(Fault::CountNotReset) => state.planted.min(profile.patience - 1),
            _ => 0,
        };
        let wait = Wait { name, unstable, threshold };
        let at_once = self.has(Fault::UnstableJudged) || (name == "SR" && self.has(Fault::SrAnswersUnstable));
        if state.latest.is_some_and(|sample| sample.stable || at_once) {
            return self.judge(profile, state, wait);
        }
        state.waiting = Some(wait);
        if name == "T" && self.has(Fault::TareStoredAtCommand) && state.latest.is_some() {
            self.tare(profile, state, name);
        }
        vec![]
    }

    /// The threshold that this line sets; a new SR keeps nothing of an older one.
    fn threshold(&self, state: &State, name: &str, parameters: Parameters) -> Option<i64> {
        match parameters {
            Parameters::Threshold(threshold) => Some(threshold),
            _ if name == "SR" && self.has(Fault::ThresholdKeptFromOlder) => state.on_change()?.threshold,
            _ => None,
        }
    }

    /// S, SI, SIR and SR end what repeats when they reach order 8.
    fn end_repetition(&self, state: &mut State, name: &str) {
        let ends = match (state.repetition, name) {
            (Repetition::Sir, "S") => !self.has(Fault::RepeatedThroughS),
            (Repetition::Sir, "SI") => !self.has(Fault::RepeatedThroughSi),
            (Repetition::Sir, "SR") => !self.has(Fault::SirOutlivesSr) && !self.has(Fault::SirKeptBySr),
            (Repetition::Sr(_), "S") => !self.has(Fault::SrOutlivesS),
            (Repetition::Sr(_), "SI") => !self.has(Fault::SrOutlivesSi),
            (Repetition::Sr(_), "SIR") => !self.has(Fault::SrOutlivesSir),
            (Repetition::Sr(_), "SR") => !self.has(Fault::SrOutlivesSr),
            (_, "T") => self.has(Fault::RepetitionEndedByT),
            _ => name == "SIR",
        };
        if self.has(Fault::NewSrKeepsOwed) {
            state.planted = state.on_change().map_or(0, |memory| memory.owed.into());
        }
        if ends {
            state.repetition = Repetition::Off;
        }
    }

    /// S, T, Z or SR on the latest sample.
    fn judge(&self, profile: &Profile, state: &mut State, wait: Wait) -> Vec<u8> {
        match wait.name {
            "S" => self.reading_line(profile, state),
            "T" => self.tare(profile, state, wait.name),
            "SR" => self.start_on_change(profile, state, wait.threshold),
            _ => self.zero(profile, state, wait.name),
        }
    }

    fn repeat_or_not(&self, profile: &Profile, state: &mut State, name: &str) -> Vec<u8> {
        self.end_repetition(state, name);
        let outside = self.reading(profile, state).is_some_and(|reading| reading.out.is_some());
        let starts = name == "SIR" && state.on_change().is_none() && !(outside && self.has(Fault::OverloadStartsNone));
        if starts {
            state.repetition = Repetition::Sir;
        }
        self.reading_line(profile, state)
    }

    /// What the S family makes of the latest sample.
    fn reading(&self, profile: &Profile, state: &State) -> Option<Reading> {
        let sample = state.latest?;
        let gross = gross(state);
        let net = gross - i128::from(state.tare);
        let judged = if self.has(Fault::CapacityByNet) { net } else { gross };
        let most = i128::from(profile.capacity) - i128::from(self.has(Fault::CapacityOffByOne));
        let least = -i128::from(profile.margin) + i128::from(self.has(Fault::MarginOffByOne));
        let out = if judged > most {
            Some('+')
        } else if gross < least {
            Some('-')
        } else {
            None
        };
        let range = self.range(profile, state, if sample.stable { "S S" } else { "S D" }, net, gross);
        Some(Reading { net, stable: sample.stable, out, range })
    }

    /// The answer of S and SI to the latest sample.
    fn reading_line(&self, profile: &Profile, state: &State) -> Vec<u8> {
        match self.reading(profile, state) {
            None => vec![],
            Some(Reading { out: Some(sign), .. }) => answer(&format!("S {sign}")),
            Some(Reading { net, stable, range, .. }) => {
                self.weight_line(profile, state, &format!("S {}", mark(stable)), net, range)
            }
        }
    }

    /// SR's first answer is that of S. A weight starts it; I, + and - leave it off.
    fn start_on_change(&self, profile: &Profile, state: &mut State, threshold: Option<i64>) -> Vec<u8> {
        let Some(reading) = self.reading(profile, state) else { return vec![] };
        let kept_off = self.has(Fault::SirKeptBySr) && state.repetition == Repetition::Sir;
        if self.has(Fault::ThirtyStepsOfStart) {
            state.planted = state.unit.index() as u32;
        }
        if reading.out.is_none() && !kept_off {
            state.repetition = Repetition::Sr(self.started_on_change(profile, state, reading, threshold));
        } else if self.has(Fault::SrStartedByOverload) {
            state.repetition = Repetition::Sr(OnChange { threshold, ..OnChange::default() });
        }
        self.reading_line(profile, state)
    }

    /// SR's memory after its first answer.
    fn started_on_change(&self, profile: &Profile, state: &State, reading: Reading, threshold: Option<i64>) -> OnChange {
        let (net, scale) = (reading.net, self.scale(profile, state));
        let fixed = || Some(least_change(net, None, scale).min(profile.capacity.into()) as i64);
        let memory = OnChange { last: kept_net(reading, scale, self.fault), threshold, owed: false, out: false };
        match self.fault {
            Some(Fault::NewSrKeepsOwed) => OnChange { owed: state.planted == 1, ..memory },
            Some(Fault::FirstNetForgotten) => OnChange { last: 0, ..memory },
            Some(Fault::ThresholdFixedAtStart) => OnChange { threshold: threshold.or_else(fixed), ..memory },
            _ => memory,
        }
    }

    fn zero(&self, profile: &Profile, state: &mut State, name: &'static str) -> Vec<u8> {
        let Some(sample) = state.latest else { return vec![] };
        let load = i64::from(sample.load);
        let gross = load - state.zero;
        let judged = if self.has(Fault::ZeroRangeByGross) { gross } else { load };
        let range = i64::from(profile.zeroing);
        if judged > range - i64::from(self.has(Fault::ZeroRangeOffByOne)) {
            return self.status(name, "+");
        }
        if judged < -range + i64::from(self.has(Fault::LowerZeroRangeOffByOne)) {
            return self.status(name, "-");
        }
        state.zero = if self.has(Fault::ZeroingByGross) { gross.clamp(-range, range) } else { load };
        if !self.has(Fault::ZeroingKeepsTare) {
            state.tare = 0;
        }
        self.rebase(profile, state, Fault::SrRebasedByZeroing);
        match (name, sample.stable) {
            ("Z", _) => self.status(name, "A"),
            (_, true) => self.status(name, "S"),
            (_, false) => self.status(name, "D"),
        }
    }

    fn tare(&self, profile: &Profile, state: &mut State, name: &'static str) -> Vec<u8> {
        let Some(sample) = state.latest else { return vec![] };
        let gross = gross(state);
        let capacity = i128::from(profile.capacity);
        if gross > capacity + i128::from(self.has(Fault::TareAboveCapacityTaken)) {
            return self.status(name, "+");
        }
        if gross < -i128::from(self.has(Fault::TareBelowZeroTaken)) {
            return self.status(name, "-");
        }
        let before = i128::from(state.tare);
        let kept = match self.fault {
            Some(Fault::PrintedTareSubtracted) => {
                as_printed(gross, self.scale(profile, state).in_range(profile.range(gross))).min(capacity)
            }
            Some(Fault::TareByNet) => (gross - before).max(0),
            _ => gross,
        };
        state.tare = kept.clamp(0, capacity) as i64;
        self.rebase(profile, state, Fault::SrRebasedByTaring);
        let told = if self.has(Fault::TareAnswersNet) { gross - before } else { gross };
        self.tare_line(profile, state, &format!("{name} {}", mark(sample.stable)), told)
    }

    /// Zeroing and taring leave SR's last net; faults put the present one in its place.
    fn rebase(&self, profile: &Profile, state: &mut State, fault: Fault) {
        let reading = self.reading(profile, state).filter(|reading| reading.out.is_none() && self.has(fault));
        if let (Some(reading), Repetition::Sr(memory)) = (reading, &mut state.repetition) {
            memory.last = reading.net as i64;
        }
    }

    fn preset_or_query(&self, profile: &Profile, state: &mut State, parameters: Parameters) -> Vec<u8> {
        if let Parameters::Preset(tare, _) = parameters {
            state.tare = tare;
            self.rebase(profile, state, Fault::SrRebasedByTypedTare);
        }
        let text = match (&parameters, self.fault) {
            (Parameters::Preset(tare, range), Some(Fault::AnswerByTypedNumber)) => {
                self.weight_line(profile, state, "TA A", (*tare).into(), *range)
            }
            _ => self.tare_line(profile, state, "TA A", state.tare.into()),
        };
        if matches!(parameters, Parameters::None) && self.has(Fault::QueryClearsTare) {
            state.tare = 0;
        }
        text
    }

    /// M21 sends its answer alone, and moves nothing but the unit.
    fn set_or_query_unit(&self, profile: &Profile, state: &mut State, parameters: Parameters) -> Vec<u8> {
        let Parameters::Unit(unit) = parameters else { return self.unit_line(state) };
        self.moved_with_unit(profile, state, unit);
        let former = std::mem::replace(&mut state.unit, unit);
        self.rebase(profile, state, Fault::SrRebasedByUnit);
        let mut told = self.status("M21", "A");
        if self.has(Fault::UnitSendsReading) && state.repetition == Repetition::Sir {
            told.extend(self.reading_line(profile, state));
        }
        if self.has(Fault::UnitNotSet) {
            state.unit = former;
        }
        told
    }

    fn unit_line(&self, state: &mut State) -> Vec<u8> {
        let told = match self.fault {
            Some(Fault::UnitToldByIndex) => format!("M21 A 0 {}", state.unit.index()),
            Some(Fault::UnitToldAsDisplays) => format!("M21 A 1 {}", state.unit.code()),
            Some(Fault::GramsTold) => "M21 A 0 0".to_string(),
            Some(Fault::CodeToldPadded) => format!("M21 A 0 {:0>2}", state.unit.code()),
            Some(Fault::UnitToldB) => format!("M21 B 0 {}", state.unit.code()),
            _ => format!("M21 A 0 {}", state.unit.code()),
        };
        if self.has(Fault::UnitQuerySetsGrams) {
            state.unit = Unit::Gram;
        }
        answer(&told)
    }

    /// Tare, zero and a set threshold are micrograms, whatever the unit; what faults make of them and of what repeats.
    fn moved_with_unit(&self, profile: &Profile, state: &mut State, unit: Unit) {
        let (from, to) = (state.unit.nanograms(), unit.nanograms());
        let (capacity, margin) = (i128::from(profile.capacity), i128::from(profile.margin));
        let converted = |weight: i64, low: i128, high: i128| (i128::from(weight) * to / from).clamp(low, high) as i64;
        match (self.fault, &mut state.repetition) {
            (Some(Fault::UnitClearsTare), _) => state.tare = 0,
            (Some(Fault::UnitClearsZero), _) => state.zero = 0,
            (Some(Fault::UnitConvertsTare), _) => state.tare = converted(state.tare, 0, capacity),
            (Some(Fault::UnitRoundsTare), _) => {
                state.tare = as_printed(state.tare.into(), profile.scale(unit)).min(capacity) as i64
            }
            (Some(Fault::UnitConvertsThreshold), Repetition::Sr(memory)) => {
                memory.threshold = memory.threshold.map(|set| converted(set, 1, capacity))
            }
            (Some(Fault::UnitConvertsLastNet), Repetition::Sr(memory)) => {
                memory.last = converted(memory.last, -(margin + capacity), capacity)
            }
            (Some(Fault::UnitDropsOwed), Repetition::Sr(memory)) => memory.owed = false,
            (Some(Fault::UnitEndsSir), Repetition::Sir) | (Some(Fault::UnitEndsSr), Repetition::Sr(_)) => {
                state.repetition = Repetition::Off
            }
            _ => {}
        }
    }

    /// Waiting dropped, repetition ended, tare 0, weight shown; zero and latest sample are kept.
    fn reset(&self, profile: &Profile, state: &mut State) -> Vec<u8> {
        if !self.has(Fault::ResetKeepsWaiting) {
            self.end_wait(state);
        }
        let repeats_on = match state.repetition {
            Repetition::Sr(_) => Fault::SrOutlivesReset,
            _ => Fault::ResetKeepsRepetition,
        };
        if !self.has(repeats_on) {
            state.repetition = Repetition::Off;
        }
        if !self.has(Fault::ResetKeepsTare) {
            state.tare = 0;
        }
        if !self.has(Fault::ResetKeepsText) {
            state.shown = None;
        }
        if self.has(Fault::ResetForgetsSample) {
            state.latest = None;
        }
        if self.has(Fault::ResetMarksUnstable) {
            state.latest = state.latest.map(|sample| Sample { stable: false, ..sample });
        }
        if self.has(Fault::ResetClearsZero) {
            state.zero = 0;
        }
        if self.has(Fault::ResetSetsGrams) {
            state.unit = Unit::Gram;
        }
        if self.has(Fault::ResetUnanswered) {
            return vec![];
        }
        self.text_line(profile, "I4")
    }

    // Samples.

    fn weigh(&self, profile: &Profile, state: &mut State, sample: Sample) -> Vec<u8> {
        state.latest = self.latest_after(profile, state, sample);
        if self.has(Fault::CoarseHeld) {
            state.planted = u32::from(gross(state) > profile.fine.into() || (state.planted == 1 && gross(state) > 0));
        }
        if self.has(Fault::SampleShowsWeight) {
            state.shown = None;
        }
        let Some(wait) = state.waiting else { return self.unasked(profile, state) };
        if self.has(Fault::WaitingSampleMovesSr) {
            self.changed(profile, state);
        }
        if sample.stable {
            self.end_wait(state);
            return self.judge(profile, state, wait);
        }
        self.count_unstable(profile, state, wait)
    }

    /// What a sample sends that finds no command waiting.
    fn unasked(&self, profile: &Profile, state: &mut State) -> Vec<u8> {
        let sent = match state.repetition {
            Repetition::Off => false,
            Repetition::Sir => true,
            Repetition::Sr(_) => self.changed(profile, state),
        };
        if !sent {
            return vec![];
        }
        let ends = match state.repetition {
            Repetition::Sr(_) => Fault::ExcursionEndsSr,
            _ => Fault::OverloadEndsRepetition,
        };
        if self.has(ends) && self.reading(profile, state).is_some_and(|reading| reading.out.is_some()) {
            state.repetition = Repetition::Off;
        }
        self.reading_line(profile, state)
    }

    /// A running SR takes the latest sample; true if it sends it.
    fn changed(&self, profile: &Profile, state: &mut State) -> bool {
        let Some(reading) = self.reading(profile, state) else { return false };
        let scale = match self.fault {
            Some(Fault::ThirtyStepsOfGrams) => profile.scale(Unit::Gram),
            Some(Fault::ThirtyStepsOfStart) => profile.scale(UNITS[state.planted as usize]),
            Some(Fault::SrCountsCoarseSteps) => self.scale(profile, state).in_range(reading.range),
            _ => self.scale(profile, state),
        };
        let Repetition::Sr(memory) = &mut state.repetition else { return false };
        if self.has(Fault::OtherSideSentToo) {
            let side = reading.out.map_or(0, u32::from);
            memory.out &= side == std::mem::replace(&mut state.planted, side);
        }
        memory.sends(reading, scale, self.fault)
    }

    /// The sample that came, save for faults.
    fn latest_after(&self, profile: &Profile, state: &State, sample: Sample) -> Option<Sample> {
        let most = state.zero + i64::from(profile.capacity) + 1;
        match self.fault {
            Some(Fault::FirstSampleKept) => state.latest.or(Some(sample)),
            Some(Fault::WaitingKeepsSample) if state.waiting.is_some() && !sample.stable => state.latest,
            Some(Fault::OverloadCutDown) => Some(Sample { load: i64::from(sample.load).min(most) as i32, ..sample }),
            _ => Some(sample),
        }
    }

    fn end_wait(&self, state: &mut State) {
        if self.has(Fault::CountNotReset) {
            state.planted = state.waiting.map_or(state.planted, |wait| wait.unstable);
        }
        state.waiting = None;
    }

    /// The W-th unstable sample ends the wait with I.
    fn count_unstable(&self, profile: &Profile, state: &mut State, wait: Wait) -> Vec<u8> {
        let unstable = wait.unstable + 1;
        let early = u32::from(self.has(Fault::TimeoutEarly) && profile.patience > 1);
        let late = u32::from(self.has(Fault::TimeoutLate));
        if unstable < profile.patience - early + late {
            state.waiting = Some(Wait { unstable, ..wait });
            return self.sent_while_waiting(profile, state);
        }
        self.end_wait(state);
        if self.has(Fault::TimeoutShowsWeight) {
            state.shown = None;
        }
        if self.has(Fault::TimeoutForgetsSample) && state.repetition == Repetition::Off {
            state.latest = None;
        }
        if self.has(Fault::TimeoutEndsRepetition) {
            state.repetition = Repetition::Off;
        }
        if self.has(Fault::TareKeptAfterTimeout) && wait.name == "T" {
            self.tare(profile, state, wait.name);
        }
        if self.has(Fault::ZeroKeptAfterTimeout) && wait.name == "Z" {
            self.zero(profile, state, wait.name);
        }
        if self.has(Fault::SrStartedByTimeout) && wait.name == "SR" {
            self.start_on_change(profile, state, wait.threshold);
        }
        self.status(wait.name, "I")
    }

    /// Nothing, save for faults: a sample that finds a command waiting gives only that command's answer.
    fn sent_while_waiting(&self, profile: &Profile, state: &mut State) -> Vec<u8> {
        match (self.fault, state.repetition) {
            (Some(Fault::RepeatedWhileWaiting), Repetition::Sir) => self.reading_line(profile, state),
            (Some(Fault::SrSentWhileWaiting), Repetition::Sr(_)) => self.unasked(profile, state),
            _ => vec![],
        }
    }

    // Answers.

    /// The range that a weight decides, save for faults. The head is what stands before the weight.
    fn range(&self, profile: &Profile, state: &State, head: &str, net: i128, deciding: i128) -> Range {
        let reading = head.starts_with("S ");
        let judged = match self.fault {
            Some(Fault::CoarseAtLimit) => deciding + 1,
            Some(Fault::CoarseByNet) if reading => net,
            Some(Fault::CoarseByLoad) if reading => deciding + i128::from(state.zero),
            Some(Fault::CoarseByTare) if reading => state.tare.into(),
            Some(Fault::CoarseByGross) if head == "TA A" => gross(state),
            Some(Fault::CoarseBySize) => deciding.abs(),
            Some(Fault::CoarseByPrinted) => as_printed(deciding, self.scale(profile, state)),
            Some(Fault::CoarseByPrintedCoarse) => as_printed(deciding, self.scale(profile, state).in_range(Range::Coarse)),
            _ => deciding,
        };
        match (self.fault, head) {
            (Some(Fault::NeverCoarse), _) => Range::Fine,
            (Some(Fault::UnstableFine), "S D" | "TI D") | (Some(Fault::QueryFine), "TA A") => Range::Fine,
            (Some(Fault::TaringFine), "T S" | "TI S" | "TI D") => Range::Fine,
            (Some(Fault::CoarseInGramsOnly), _) if state.unit != Unit::Gram => Range::Fine,
            (Some(Fault::CoarseHeld), "S S" | "S D") if state.planted == 1 => Range::Coarse,
            (Some(Fault::CoarseThroughout), _) if profile.has_coarse_range() => Range::Coarse,
            _ => profile.range(judged),
        }
    }

    fn weight_line(&self, profile: &Profile, state: &State, head: &str, net: i128, range: Range) -> Vec<u8> {
        let text = weight_text(net, self.scale(profile, state), range, self.fault);
        answer(&format!("{head} {text}"))
    }

    /// A tare answer, in which the tare is printed and decides.
    fn tare_line(&self, profile: &Profile, state: &State, head: &str, tare: i128) -> Vec<u8> {
        self.weight_line(profile, state, head, tare, self.range(profile, state, head, tare, tare))
    }

    /// I2 to I5: name, A, quoted text.
    fn text_line(&self, profile: &Profile, name: &str) -> Vec<u8> {
        let [two, three, four, five] = &profile.texts;
        let text = match name {
            "I2" if self.has(Fault::TextsSwapped) => three,
            "I2" => two,
            "I3" => three,
            "I4" => four,
            _ => five,
        };
        [name.as_bytes(), b" A \"", text, b"\"\r\n"].concat()
    }

    fn list(&self) -> Vec<u8> {
        let last = if self.has(Fault::LastListedB) { "B" } else { "A" };
        let left_out = |name: &str| match name {
            "SR" => self.has(Fault::SrUnlisted),
            "M21" => self.has(Fault::UnitUnlisted),
            _ => false,
        };
        let mut listed: Vec<(&str, u8)> = COMMANDS.into_iter().filter(|(name, _)| !left_out(name)).collect();
        if self.has(Fault::ListedInByteOrder) {
            listed.sort();
        }
        let line = |at: usize, (name, level): (&str, u8)| {
            let is_last = at + 1 == listed.len() || (name == "TI" && self.has(Fault::TiListedLast));
            let level = if name == "M21" && self.has(Fault::UnitListedAtLevelOne) { 1 } else { level };
            answer(&format!("I0 {} {level} \"{name}\"", if is_last { last } else { "B" }))
        };
        listed.iter().enumerate().flat_map(|(at, one)| line(at, *one)).collect()
    }
}

fn answer(text: &str) -> Vec<u8> {
    format!("{text}\r\n").into_bytes()
}

/// The latest load less zero; a load of 0 before any.
fn gross(state: &State) -> i128 {
    i128::from(state.latest.map_or(0, |sample| sample.load)) - i128::from(state.zero)
}

/// S or D by the sample's mark.
fn mark(stable: bool) -> &'static str {
    if stable {
        "S"
    } else {
        "D"
    }
}
