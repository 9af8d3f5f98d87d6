//! The tally of demand 3. It reads calls and answers alone, never the state, and judges every weight in them.

use crate::faults::Fault;
use crate::profile::Profile;
use crate::weight::{ten_to, typed_number, Range, Scale, Unit};

/// Femtograms in a microgram.
pub const MICROGRAM: i128 = 1_000_000_000;

#[derive(Clone, Copy, Debug, PartialEq, Eq)]
pub enum Call {
    Byte { byte: u8, good: bool },
    Sample { load: i32, stable: bool },
}

/// All weights are in femtograms, in which they are whole.
pub struct Tally {
    profile: Profile,
    line: Vec<(u8, bool)>,
    load: Option<i128>,
    zero: i128,
    tare: i128,
    typed: bool,
    /// The unit in force: g, and then what the last `M21 0 code` answered `M21 A` set.
    unit: Unit,
    /// Switched on only by the mutation check.
    fault: Option<Fault>,
}

impl Tally {
    pub fn new(profile: &Profile) -> Tally {
        Tally::faulty(profile, None)
    }

    pub fn faulty(profile: &Profile, fault: Option<Fault>) -> Tally {
        Tally { profile: profile.clone(), line: vec![], load: None, zero: 0, tare: 0, typed: false, unit: Unit::Gram, fault }
    }

    /// What weights are read with: the unit in force, and its decimals and step.
    pub fn scale(&self) -> Scale {
        let grams = self.profile.scale(Unit::Gram);
        match self.fault {
            Some(Fault::TallyReadsFirstUnit) => grams,
            Some(Fault::TallyStepOfGrams) => Scale { unit: self.unit, ..grams },
            _ => self.profile.scale(self.unit),
        }
    }

    fn has(&self, fault: Fault) -> bool {
        self.fault == Some(fault)
    }

    /// Takes one call with its refusal number and answer; says what is wrong with the answer.
    pub fn take(&mut self, call: Call, refusal: u8, answer: &[u8]) -> Result<(), String> {
        if refusal != 0 {
            return Ok(());
        }
        self.follow(call, answer)?;
        self.compare(answer)
    }

    /// Takes a whole-buffer call by the bytes that it took, each with its own answer.
    pub fn take_all(&mut self, taken: &[(Call, Vec<u8>)]) -> Result<(), String> {
        taken.iter().try_for_each(|(call, answer)| self.take(*call, 0, answer))
    }

    /// Takes lines and stable loads, with the answer to the last byte or the sample of each. A `!` before a line is no part of it, and
    /// marks its first byte faulty.
    pub fn take_lines(&mut self, history: &[(&str, &str)]) -> Result<(), String> {
        for (line, answer) in history {
            let answer = format!("{answer}\r\n");
            if let Ok(load) = line.parse() {
                self.take(Call::Sample { load, stable: true }, 0, answer.as_bytes())?;
                continue;
            }
            let (line, faulty) = line.strip_prefix('!').map_or((*line, false), |line| (line, true));
            for (at, byte) in format!("{line}\r").bytes().enumerate() {
                self.take(Call::Byte { byte, good: at > 0 || !faulty }, 0, b"")?;
            }
            self.take(Call::Byte { byte: b'\n', good: true }, 0, answer.as_bytes())?;
        }
        Ok(())
    }

    /// Line, load, zero, tare and unit after a call that is not refused; gives the line that it ended, without its CR LF.
    pub fn follow(&mut self, call: Call, answer: &[u8]) -> Result<Option<Vec<(u8, bool)>>, String> {
        let ended = self.join(call);
        if ended.as_deref() == Some(&[(b'@', true)]) {
            self.set_tare(0, false);
            if self.has(Fault::TallyForgetsAtReset) {
                self.unit = Unit::Gram;
            }
        }
        if let Some(unit) = ended.as_deref().and_then(|line| self.unit_set(line, answer)) {
            self.unit = unit;
        }
        self.grant(answer, ended.as_deref())?;
        Ok(ended)
    }

    /// Gross and net of the latest load, to the microgram as the module keeps them: a typed tare is rounded to it, a tie upwards.
    pub fn gross_and_net(&self) -> Option<(i128, i128)> {
        let gross = self.load? - self.zero;
        Some((gross, gross - to_microgram(self.tare)))
    }

    fn join(&mut self, call: Call) -> Option<Vec<(u8, bool)>> {
        match call {
            Call::Sample { load, .. } => {
                self.load = Some(i128::from(load) * MICROGRAM);
                None
            }
            Call::Byte { byte, good } => {
                self.line.push((byte, good));
                if !self.line.ends_with(&[(13, true), (10, true)]) {
                    return None;
                }
                let mut ended = std::mem::take(&mut self.line);
                ended.truncate(ended.len() - 2);
                Some(ended)
            }
        }
    }

    fn set_tare(&mut self, tare: i128, typed: bool) {
        self.tare = tare;
        self.typed = (typed && !self.has(Fault::TallyForgetsTyped)) || (self.typed && self.has(Fault::TallyKeepsTyped));
    }

    /// The unit that a line sets by its answer.
    fn unit_set(&self, line: &[(u8, bool)], answer: &[u8]) -> Option<Unit> {
        let good = line.iter().all(|(_, good)| *good) || self.has(Fault::TallySetsByFaultyLine);
        let text: Vec<u8> = line.iter().map(|(byte, _)| *byte).collect();
        let granted = match self.fault {
            Some(Fault::TallySetsAtWrong) if answer == b"M21 L\r\n" => true,
            Some(Fault::TallySetsAtBusy) if answer == b"M21 I\r\n" => true,
            Some(Fault::TallySetsAtQuery) if answer.starts_with(b"M21 A 0 ") => true,
            Some(Fault::TallySetsOnce) if self.unit != Unit::Gram => false,
            _ => answer == b"M21 A\r\n",
        };
        let code = text.strip_prefix(b"M21 0 ").filter(|_| good && granted)?;
        let padded = || Unit::coded(code.strip_prefix(b"0")?);
        Unit::coded(code).or_else(|| padded().filter(|_| self.has(Fault::TallyReadsAnyCode)))
    }

    fn latest(&self) -> Result<i128, String> {
        self.load.ok_or_else(|| "an answer needs a load before one came".to_string())
    }

    /// What a granted command sets.
    fn grant(&mut self, answer: &[u8], ended: Option<&[(u8, bool)]>) -> Result<(), String> {
        if begins(answer, &["Z A", "ZI S", "ZI D"]) {
            self.zero = self.latest()?;
            self.set_tare(0, false);
        } else if begins(answer, &["T S", "TI S", "TI D"]) {
            self.set_tare(self.latest()? - self.zero, false);
        } else if begins(answer, &["TAC A"]) {
            self.set_tare(0, false);
        } else if begins(answer, &["TA A"]) {
            let line: Vec<u8> = ended.ok_or("TA A without a line")?.iter().map(|(byte, _)| *byte).collect();
            if line != b"TA" {
                let read = if self.has(Fault::TallyReadsAnswer) { self.told(answer) } else { self.typed_tare(&line, answer) };
                self.set_tare(read.ok_or("TA A to a line without a number")?, true);
            }
        }
        Ok(())
    }

    /// The number in the line at the nearest display step of its range, a tie upwards, and not rounded to micrograms.
    fn typed_tare(&self, line: &[u8], answer: &[u8]) -> Option<i128> {
        let number = line.strip_prefix(b"TA ")?.split(|&byte| byte == b' ').next()?;
        let (digits, decimals) = typed_number(number, None)?;
        let scale = match self.fault {
            Some(Fault::TallyTypedToGramStep) => Scale { unit: self.unit, ..self.profile.scale(Unit::Gram) },
            _ => self.scale(),
        };
        let typed = digits * ten_to(6 - decimals) * scale.unit.nanograms();
        let last_place = Scale { step: 1, ..scale };
        let stepped = if self.has(Fault::TallyStepIgnored) { last_place } else { scale };
        let rounded = self.to_step(typed, stepped.in_range(self.typed_range(typed, stepped, answer)));
        match self.fault {
            Some(Fault::TallyReadsUnrounded) => Some(typed),
            Some(Fault::TallyRoundsToMicrogram) => Some(to_microgram(rounded)),
            _ => Some(rounded),
        }
    }

    /// The nearest display step of a weight, a tie upwards.
    fn to_step(&self, weight: i128, scale: Scale) -> i128 {
        let step = display_step(scale);
        let (below, rest) = (weight - weight % step, weight % step);
        let up = 2 * rest > step || (2 * rest == step && !self.has(Fault::TallyTieDownwards));
        if up {
            below + step
        } else {
            below
        }
    }

    /// F in femtograms.
    fn limit(&self) -> i128 {
        i128::from(self.profile.fine) * MICROGRAM
    }

    /// The range of a typed number: the number itself is compared with F, and only where F is below C.
    fn typed_range(&self, typed: i128, scale: Scale, answer: &[u8]) -> Range {
        let above = match self.fault {
            Some(Fault::TallyTypedFine) => false,
            Some(Fault::TallyTypedCoarse) => true,
            Some(Fault::TallyTypedAtLimitCoarse) => typed >= self.limit(),
            Some(Fault::TallyTypedAfterRounding) => self.to_step(typed, scale) > self.limit(),
            Some(Fault::TallyTypedInMicrograms) => to_microgram(typed) > self.limit(),
            Some(Fault::TallyTypedBySpace) => has_space(answer),
            _ => typed > self.limit(),
        };
        let beside = self.profile.has_coarse_range() || self.has(Fault::TallyTypedWithoutRange);
        if above && beside {
            Range::Coarse
        } else {
            Range::Fine
        }
    }

    /// The range in force at a weight answer, which its space does not decide. After `S S` and `S D` the latest load less zero is
    /// compared with F, after the others the tare as the module keeps it, to the microgram.
    fn range(&self, reading: bool, answer: &[u8]) -> Result<Range, String> {
        let gross = || self.latest().map(|load| load - self.zero);
        let kept = match self.fault {
            Some(Fault::TallyRangeByUnroundedTare) => self.tare,
            Some(Fault::TallyRangeTieDownwards) => to_microgram(self.tare - 1),
            _ => to_microgram(self.tare),
        };
        let deciding = match (self.fault, reading) {
            (Some(Fault::TallyRangeByNet), true) => gross()? - kept,
            (Some(Fault::TallyRangeByLoad), true) => self.latest()?,
            (Some(Fault::TallyRangeByGross), false) if self.load.is_some() => gross()?,
            (_, true) => gross()?,
            (_, false) => kept,
        };
        let above = match self.fault {
            Some(Fault::TallyTrustsSpace) => has_space(answer),
            Some(Fault::TallyAtLimitCoarse) => deciding >= self.limit(),
            _ => deciding > self.limit(),
        };
        Ok(if above { Range::Coarse } else { Range::Fine })
    }

    /// A space is the tenth character in the coarse range, and in no other.
    fn space_stands_right(&self, range: Range, answer: &[u8]) -> bool {
        match (self.fault, range) {
            (Some(Fault::TallyIgnoresSpace), _) => true,
            (Some(Fault::TallyAllowsSpace), Range::Fine) => true,
            (Some(Fault::TallyAllowsNoSpace), Range::Coarse) => true,
            _ => has_space(answer) == (range == Range::Coarse),
        }
    }

    /// Number and exact weight differ by at most half a step, and half a microgram if the tare is typed.
    fn compare(&self, answer: &[u8]) -> Result<(), String> {
        let reading = begins(answer, &["S S ", "S D "]);
        let exact = if reading {
            self.latest()? - self.zero - self.tare
        } else if begins(answer, &["T S ", "TI S ", "TI D ", "TA A "]) {
            self.tare
        } else {
            return Ok(());
        };
        if !answer.ends_with(format!(" {}\r\n", self.scale().unit.name()).as_bytes()) {
            return Err(format!("{:?} is in force, {} was told", self.scale().unit, answer.escape_ascii()));
        }
        let range = self.range(reading, answer)?;
        if !self.space_stands_right(range, answer) {
            return Err(format!("{range:?} is in force, {} was told", answer.escape_ascii()));
        }
        let number = self.told(answer).ok_or("a weight answer without a number")?;
        let half = if self.has(Fault::TallyAllowsMicrogram) { MICROGRAM } else { MICROGRAM / 2 };
        let halved = match self.fault {
            Some(Fault::TallyHalvesFineStep) => Range::Fine,
            Some(Fault::TallyHalvesCoarseStep) if self.profile.has_coarse_range() => Range::Coarse,
            _ => range,
        };
        let allowed = display_step(self.scale().in_range(halved)) + if self.typed { 2 * half } else { 0 };
        if 2 * (number - exact).abs() > allowed {
            return Err(format!("{number} fg told, {exact} fg exact, twice the difference may be {allowed}"));
        }
        Ok(())
    }

    /// The ten characters, spaces left out, as a decimal x unit.
    fn told(&self, answer: &[u8]) -> Option<i128> {
        let field = field(answer)?;
        let text: Vec<u8> = field.iter().copied().filter(|&byte| byte != b' ').collect();
        let (sign, size) = match text.strip_prefix(b"-") {
            Some(size) => (-1, size),
            None => (1, &text[..]),
        };
        let (digits, decimals) = typed_number(size, None)?;
        Some(sign * digits * ten_to(6 - decimals) * self.scale().unit.nanograms())
    }
}

/// k x unit / (1,000 x 10^d), in femtograms.
pub fn display_step(scale: Scale) -> i128 {
    i128::from(scale.step) * scale.unit.nanograms() * ten_to(6 - u32::from(scale.decimals))
}

/// The nearest microgram of a weight, a tie upwards.
fn to_microgram(weight: i128) -> i128 {
    (2 * weight + MICROGRAM).div_euclid(2 * MICROGRAM) * MICROGRAM
}

/// The ten characters of a weight answer.
fn field(answer: &[u8]) -> Option<&[u8]> {
    let start = answer.iter().position(|&byte| byte == b' ')? + 3;
    answer.get(start..start + 10)
}

/// Whether the tenth of them is a space.
pub fn has_space(answer: &[u8]) -> bool {
    field(answer).is_some_and(|field| field[9] == b' ')
}

fn begins(answer: &[u8], beginnings: &[&str]) -> bool {
    beginnings.iter().any(|beginning| answer.starts_with(beginning.as_bytes()))
}
