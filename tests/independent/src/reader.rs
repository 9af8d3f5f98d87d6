//! The host's reader and writer of answer lines; what is no answer of document 01 is refused with 4.

use crate::faults::Fault;
use crate::module::{Outcome, COMMANDS};
use crate::profile::{is_text, TEXT_ROOMS};
use crate::weight::{number_text, Range, Unit, UNITS};

pub const VERSIONS: &[u8] = b"I1 A \"0\" \"2.30\" \"2.20\"";

#[derive(Clone, Debug, PartialEq, Eq)]
pub enum Answer {
    /// The value counts last places, in the coarse range those that are printed there.
    Weight { identification: String, status: char, value: i64, decimals: u8, unit: Unit, range: Range },
    /// An identification and a status: A, S, D, +, -, L or I.
    Status { identification: String, status: char },
    /// ES, ET or EL.
    Error { letters: String },
    /// A line of I0, with A or B.
    Listed { status: char, level: u8, name: String },
    /// The one line of I1.
    Versions,
    /// What M21 answers where it is asked for the unit.
    Unit { unit: Unit },
    /// I2 to I5.
    Text { identification: String, text: Vec<u8> },
}

#[derive(Clone, Copy, Debug, Default)]
pub struct Reader {
    pub fault: Option<Fault>,
}

impl Reader {
    fn has(&self, fault: Fault) -> bool {
        self.fault == Some(fault)
    }

    /// None is refusal 4.
    pub fn read(&self, line: &[u8]) -> Option<Answer> {
        let body = match line.strip_suffix(b"\r\n") {
            Some(body) => body,
            None if self.has(Fault::ReadUnfinished) => line,
            None if self.has(Fault::ReadLfAlone) => line.strip_suffix(b"\n")?,
            None => return None,
        };
        let body = if self.has(Fault::ReadTrailing) { body.strip_suffix(b" ").unwrap_or(body) } else { body };
        let upper = body.to_ascii_uppercase();
        if self.has(Fault::ReadLowerCase) && upper == b"ES" {
            return self.read_body(&upper);
        }
        self.read_body(body)
    }

    fn read_body(&self, body: &[u8]) -> Option<Answer> {
        if matches!(body, b"ES" | b"ET" | b"EL") {
            return Some(Answer::Error { letters: text_of(body) });
        }
        if body == VERSIONS || (self.has(Fault::ReadAnyVersion) && body.starts_with(b"I1 A \"0")) {
            return Some(Answer::Versions);
        }
        let at = body.iter().position(|&byte| byte == b' ')?;
        let identification = std::str::from_utf8(&body[..at]).ok()?;
        let (&status, more) = body[at + 1..].split_first()?;
        let status = char::from(status);
        match more.split_first() {
            None => self.read_status(identification, status),
            Some((b' ', more)) => self.read_more(identification, status, more),
            Some(_) => None,
        }
    }

    fn read_status(&self, identification: &str, status: char) -> Option<Answer> {
        let refused = match (identification, status) {
            ("S", 'L') => self.has(Fault::ReadNoWrongS),
            ("M21", 'A') => self.has(Fault::ReadNoUnitSet),
            ("M21", 'I') => self.has(Fault::ReadNoUnitBusy),
            ("M21", 'L') => self.has(Fault::ReadNoUnitWrong),
            _ => false,
        };
        if refused {
            return None;
        }
        let known = has_status(identification, status)
            || (self.has(Fault::ReadSrBusy) && (identification, status) == ("SR", 'I'))
            || (self.has(Fault::ReadSrWrong) && (identification, status) == ("SR", 'L'))
            || (self.has(Fault::ReadSiBusy) && matches!((identification, status), ("SI" | "SIR", 'I')))
            || (self.has(Fault::ReadResetBusy) && (identification, status) == ("@", 'I'))
            || (self.has(Fault::ReadBareZeroing) && (identification, status) == ("ZI", 'A'))
            || (self.has(Fault::ReadWrongSign) && matches!((identification, status), ("TA", '+' | '-')));
        known.then(|| Answer::Status { identification: identification.to_string(), status })
    }

    fn read_more(&self, identification: &str, status: char, more: &[u8]) -> Option<Answer> {
        match (identification, status) {
            ("I0", 'A' | 'B') => self.read_listed(status, more),
            ("M21", 'A') => self.read_unit(more),
            ("M21", 'B') if self.has(Fault::ReadUnitB) => self.read_unit(more),
            ("I2" | "I3" | "I4" | "I5", 'A') => self.read_text(identification, more),
            _ if weighs(identification, status) => self.read_weight(identification, status, more),
            _ => None,
        }
    }

    fn read_listed(&self, status: char, more: &[u8]) -> Option<Answer> {
        let (level, quoted) = more.split_first()?;
        let name = quoted.strip_prefix(b" \"")?.strip_suffix(b"\"")?;
        let same = |(known, at): &&(&str, u8)| {
            let other = match *level {
                b'0' | b'1' if *known == "M21" => *level == b'1' && self.has(Fault::ReadUnitAtLevelOne),
                level => self.has(Fault::ReadOtherLevel) && level < b'2',
            };
            known.as_bytes() == name && (b'0' + at == *level || other)
        };
        let (name, level) = COMMANDS.iter().find(same)?;
        Some(Answer::Listed { status, level: *level, name: name.to_string() })
    }

    /// 0 for the host unit, and the code of one of the nine units.
    fn read_unit(&self, more: &[u8]) -> Option<Answer> {
        let host = more.strip_prefix(b"0 ");
        let code = match self.fault {
            Some(Fault::ReadDisplayUnit) => host.or(more.strip_prefix(b"1 "))?,
            Some(Fault::ReadLoneHost) if more == b"0" => b"0",
            _ => host?,
        };
        let unit = match (self.fault, code) {
            (Some(Fault::ReadTonneCode), b"2") => Unit::Kilogram,
            (Some(Fault::ReadTwentyAsPounds), b"20") => Unit::Pound,
            (Some(Fault::ReadPaddedCode), [b'0', _, ..]) => Unit::coded(&code[1..])?,
            (Some(Fault::ReadUnitByIndex), [digit @ b'0'..=b'8']) => UNITS[usize::from(digit - b'0')],
            _ => Unit::coded(code)?,
        };
        Some(Answer::Unit { unit })
    }

    fn read_text(&self, identification: &str, more: &[u8]) -> Option<Answer> {
        let text = more.strip_prefix(b"\"")?.strip_suffix(b"\"")?;
        let room = text_room(identification)? + usize::from(self.has(Fault::ReadLongText));
        let fault = match self.fault {
            Some(Fault::ReadQuote) => Some(Fault::QuoteInText),
            Some(Fault::ReadControl) => Some(Fault::ControlInText),
            _ => None,
        };
        is_text(text, room, fault).then(|| Answer::Text { identification: identification.to_string(), text: text.to_vec() })
    }

    fn read_weight(&self, identification: &str, status: char, more: &[u8]) -> Option<Answer> {
        let at = more.iter().rposition(|&byte| byte == b' ')?;
        let (field, name) = (&more[..at], &more[at + 1..]);
        let unit = match Unit::named(name) {
            None if self.has(Fault::ReadOtherUnit) && name == b"t" => Unit::Gram,
            Some(Unit::Kilogram) if self.has(Fault::ReadNoKilograms) => return None,
            Some(Unit::Pound) if self.has(Fault::ReadNoPounds) => return None,
            unit => unit?,
        };
        let short = self.has(Fault::ReadShortField) && field.len() == 9;
        let long = self.has(Fault::ReadCoarseInTen) && field.len() == 11 && field.ends_with(b" ");
        if field.len() != 10 && !short && !long {
            return None;
        }
        let (value, decimals, range) = match field.split_last() {
            Some((b' ', number)) => self.read_coarse(identification, number)?,
            _ => self.read_field(field).map(|(value, decimals)| (value, decimals, Range::Fine))?,
        };
        let negative = self.has(Fault::ReadNegativeTare) || (range == Range::Coarse && self.has(Fault::ReadCoarseNegativeTare));
        if value < 0 && identification != "S" && !negative {
            return None;
        }
        Some(Answer::Weight { identification: identification.to_string(), status, value, decimals, unit, range })
    }

    /// A number in the nine characters before a space, with a decimal fewer than the fine range can have and at least one.
    fn read_coarse(&self, identification: &str, number: &[u8]) -> Option<(i64, u8, Range)> {
        let number = match (self.fault, number) {
            (Some(Fault::ReadCoarseTwoSpaces), [number @ .., b' ']) => number,
            _ => number,
        };
        let (value, decimals) = self.read_field(number)?;
        let refused = match self.fault {
            Some(Fault::ReadNoCoarse) => true,
            Some(Fault::ReadCoarseReadingsOnly) => identification != "S",
            Some(Fault::ReadCoarseFiveRefused) => decimals == 5,
            Some(Fault::ReadCoarseOneRefused) => decimals == 1,
            _ => false,
        };
        let known = match self.fault {
            Some(Fault::ReadCoarseWhole) => decimals <= 5,
            Some(Fault::ReadCoarseSixDecimals) => (1..=6).contains(&decimals),
            _ => (1..=5).contains(&decimals),
        };
        if refused || !known {
            return None;
        }
        Some(match self.fault {
            Some(Fault::ReadCoarseDecimalsKept) => (value, decimals + 1, Range::Coarse),
            Some(Fault::ReadCoarseInFinePlaces) => (10 * value, decimals + 1, Range::Coarse),
            Some(Fault::ReadCoarseAsFine) => (value, decimals, Range::Fine),
            _ => (value, decimals, Range::Coarse),
        })
    }

    /// Spaces, a minus, digits, a point, up to six digits.
    fn read_field(&self, field: &[u8]) -> Option<(i64, u8)> {
        let spaces = field.iter().take_while(|&&byte| byte == b' ').count();
        let mut number = &field[spaces..];
        while self.has(Fault::ReadLeftAligned) && number.ends_with(b" ") {
            number = &number[..number.len() - 1];
        }
        let (minus, size) = match number.strip_prefix(b"-") {
            Some(size) => (true, size),
            None => (false, number),
        };
        let (whole, part) = match size.iter().position(|&byte| byte == b'.') {
            Some(at) => (&size[..at], Some(&size[at + 1..])),
            None => (size, None),
        };
        let most = if self.has(Fault::ReadSevenDecimals) { 7 } else { 6 };
        let decimals = part.unwrap_or(b"");
        let bare = part == Some(b"") && !self.has(Fault::ReadBarePoint);
        let zeros = self.has(Fault::ReadLeadingZero) || (field.len() == 9 && self.has(Fault::ReadCoarseLeadingZero));
        let padded = whole.len() > 1 && whole[0] == b'0' && !zeros;
        if whole.is_empty() || bare || padded || decimals.len() > most {
            return None;
        }
        let digits = [whole, decimals].concat();
        if !digits.iter().all(u8::is_ascii_digit) {
            return None;
        }
        let value: i64 = text_of(&digits).parse().ok()?;
        let minus_zero = self.has(Fault::ReadMinusZero) || (field.len() == 9 && self.has(Fault::ReadCoarseMinusZero));
        if minus && value == 0 && !minus_zero {
            return None;
        }
        Some((if minus { -value } else { value }, decimals.len() as u8))
    }
}

fn text_of(bytes: &[u8]) -> String {
    String::from_utf8_lossy(bytes).into_owned()
}

fn text_room(identification: &str) -> Option<usize> {
    let at = ["I2", "I3", "I4", "I5"].iter().position(|name| *name == identification)?;
    Some(TEXT_ROOMS[at])
}

/// The identifications and statuses that stand alone.
pub fn has_status(identification: &str, status: char) -> bool {
    match status {
        'A' => ["Z", "TAC", "D", "DW", "M21"].contains(&identification),
        'S' | 'D' => identification == "ZI",
        '+' | '-' => ["S", "Z", "ZI", "T", "TI"].contains(&identification),
        'L' => ["S", "D", "TA", "M21"].contains(&identification),
        'I' => !["SI", "SIR", "SR", "@"].contains(&identification) && COMMANDS.iter().any(|(name, _)| *name == identification),
        _ => false,
    }
}

/// The identifications and statuses that a weight follows.
pub fn weighs(identification: &str, status: char) -> bool {
    matches!((identification, status), ("S" | "TI", 'S' | 'D') | ("T", 'S') | ("TA", 'A'))
}

/// The line of an answer; none if it has no line.
pub fn line_of(answer: &Answer) -> Option<Vec<u8>> {
    let body = match answer {
        Answer::Weight { identification, status, value, decimals, unit, range } => {
            let field = weight_field(identification, *status, *value, *decimals, *range)?;
            format!("{identification} {status} {field} {}", unit.name()).into_bytes()
        }
        Answer::Status { identification, status } => {
            has_status(identification, *status).then(|| format!("{identification} {status}").into_bytes())?
        }
        Answer::Error { letters } => ["ES", "ET", "EL"].contains(&&letters[..]).then(|| letters.clone().into_bytes())?,
        Answer::Listed { status, level, name } => {
            let known = matches!(status, 'A' | 'B') && COMMANDS.contains(&(&name[..], *level));
            known.then(|| format!("I0 {status} {level} \"{name}\"").into_bytes())?
        }
        Answer::Versions => VERSIONS.to_vec(),
        Answer::Unit { unit } => format!("M21 A 0 {}", unit.code()).into_bytes(),
        Answer::Text { identification, text } => {
            let room = text_room(identification)?;
            is_text(text, room, None).then(|| [identification.as_bytes(), b" A \"", text, b"\""].concat())?
        }
    };
    Some([&body[..], b"\r\n"].concat())
}

/// The ten characters, of which a space is the last in the coarse range.
fn weight_field(identification: &str, status: char, value: i64, decimals: u8, range: Range) -> Option<String> {
    let signed = identification == "S" || value >= 0;
    let (room, known, space) = match range {
        Range::Fine => (10, decimals <= 6, ""),
        Range::Coarse => (9, (1..=5).contains(&decimals), " "),
    };
    if !weighs(identification, status) || !signed || !known {
        return None;
    }
    let number = number_text(value.into(), decimals, value < 0);
    (number.len() <= room).then(|| format!("{number:>room$}{space}"))
}

/// The writer: 4 for an answer that has no line, 3 for a buffer too short.
pub fn write(answer: &Answer, buffer: &mut [u8]) -> Outcome {
    match line_of(answer) {
        None => Outcome { refusal: 4, n: 0 },
        Some(line) if buffer.len() < line.len() => Outcome { refusal: 3, n: 0 },
        Some(line) => {
            buffer[..line.len()].copy_from_slice(&line);
            Outcome { refusal: 0, n: line.len() }
        }
    }
}
