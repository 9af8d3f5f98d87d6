//! The host's reader and writer of answer lines; what is no answer of document 01 is refused with 4.

use super::command::{Command, Error, Status, VERSIONS};
use super::module::put_pieces;
use super::profile::is_printable;
use super::weight::{are_coarse, fits, put_field, read_field, Unit};

#[derive(Clone, Copy, Debug, PartialEq, Eq)]
pub enum Answer<'a> {
    Plain(Command, Status),
    Weight(Command, Status, Number),
    Error(Error),
    Text(Command, &'a [u8]),
    /// A line of I0, with A if it is the last.
    Listed(bool, Command),
    Versions,
    /// What M21 is asked for.
    Unit(Unit),
}

#[derive(Clone, Copy, Debug, PartialEq, Eq)]
pub struct Number {
    pub places: i64,
    pub decimals: u8,
    pub unit: Unit,
    /// Of the coarse range, whose field ends in a space: places and decimals are those before it.
    pub coarse: bool,
}

/// None is refusal 4.
pub fn read(line: &[u8]) -> Option<Answer<'_>> {
    let body = line.strip_suffix(b"\r\n")?;
    let Some(at) = body.iter().position(|&byte| byte == b' ') else { return read_error(body) };
    let command = Command::named(&body[..at])?;
    match &body[at + 1..] {
        &[status] => {
            let status = Status::of(status)?;
            is_plain(command, status).then_some(Answer::Plain(command, status))
        }
        [status, b' ', rest @ ..] => read_more(line, command, *status, rest),
        _ => None,
    }
}

fn read_error(body: &[u8]) -> Option<Answer<'static>> {
    Some(Answer::Error(match body {
        b"ES" => Error::Syntax,
        b"ET" => Error::Transmission,
        b"EL" => Error::Logical,
        _ => return None,
    }))
}

fn read_more<'a>(line: &'a [u8], command: Command, status: u8, rest: &'a [u8]) -> Option<Answer<'a>> {
    match command {
        Command::I0 => read_listed(status, rest),
        Command::I1 => (line == VERSIONS).then_some(Answer::Versions),
        Command::I2 | Command::I3 | Command::I4 | Command::I5 if status == b'A' => {
            let text = rest.strip_prefix(b"\"")?.strip_suffix(b"\"")?;
            is_text(command, text).then_some(Answer::Text(command, text))
        }
        Command::M21 if status == b'A' => Unit::coded(rest.strip_prefix(b"0 ")?).map(Answer::Unit),
        _ => read_weight(command, Status::of(status)?, rest),
    }
}

fn read_listed(status: u8, rest: &[u8]) -> Option<Answer<'static>> {
    let last = match status {
        b'A' => true,
        b'B' => false,
        _ => return None,
    };
    let [level, b' ', b'"', name @ .., b'"'] = rest else { return None };
    let command = Command::named(name)?;
    (*level == b'0' + command.level()).then_some(Answer::Listed(last, command))
}

fn read_weight(command: Command, status: Status, rest: &[u8]) -> Option<Answer<'static>> {
    if !is_weighed(command, status) {
        return None;
    }
    let (field, rest) = rest.split_first_chunk::<10>()?;
    let unit = Unit::named(rest.strip_prefix(b" ")?)?;
    let (places, decimals, coarse) = read_field(field)?;
    (places >= 0 || command == Command::S).then_some(Answer::Weight(command, status, Number { places, decimals, unit, coarse }))
}

fn is_text(command: Command, text: &[u8]) -> bool {
    let room = if matches!(command, Command::I2 | Command::I3) { 40 } else { 20 };
    text.len() <= room && is_printable(text)
}

/// The identifications and statuses that stand alone.
fn is_plain(command: Command, status: Status) -> bool {
    use Command::*;
    match status {
        Status::A => matches!(command, Z | Tac | D | Dw | M21),
        Status::B => false,
        Status::S | Status::D => command == Zi,
        Status::I => !matches!(command, Si | Sir | Sr | Reset),
        Status::L => matches!(command, S | D | Ta | M21),
        Status::Over | Status::Under => matches!(command, S | Z | Zi | T | Ti),
    }
}

/// The identifications and statuses that a weight follows.
fn is_weighed(command: Command, status: Status) -> bool {
    match status {
        Status::A => command == Command::Ta,
        Status::S => matches!(command, Command::S | Command::T | Command::Ti),
        Status::D => matches!(command, Command::S | Command::Ti),
        _ => false,
    }
}

/// The writer: 4 for an answer that has no line, 3 for a buffer that is too short.
pub fn write(answer: &Answer, out: &mut [u8]) -> Result<usize, u8> {
    let written = match *answer {
        Answer::Plain(command, status) if is_plain(command, status) => {
            put_pieces([command.name(), &[b' ', status.byte(), b'\r', b'\n']], out)
        }
        Answer::Weight(command, status, number) if is_weighed(command, status) && is_number(command, number) => {
            let mut field = [0; 10];
            put_field(number.places, number.decimals, number.coarse, &mut field);
            put_pieces([command.name(), &[b' ', status.byte(), b' '], &field, b" ", number.unit.name(), b"\r\n"], out)
        }
        Answer::Error(error) => put_pieces([&error.line()], out),
        Answer::Text(command, text) if command >= Command::I2 && command <= Command::I5 && is_text(command, text) => {
            put_pieces([command.name(), b" A \"", text, b"\"\r\n"], out)
        }
        Answer::Listed(last, command) => {
            let status = if last { b'A' } else { b'B' };
            let front = [b'I', b'0', b' ', status, b' ', b'0' + command.level(), b' ', b'"'];
            put_pieces([&front, command.name(), b"\"\r\n"], out)
        }
        Answer::Versions => put_pieces([VERSIONS], out),
        Answer::Unit(unit) => put_pieces([b"M21 A 0 ", unit.code(), b"\r\n"], out),
        _ => return Err(4),
    };
    written.ok_or(3)
}

fn is_number(command: Command, Number { places, decimals, coarse, .. }: Number) -> bool {
    let are_decimals = if coarse { are_coarse(decimals) } else { decimals <= 6 };
    are_decimals && fits(places, decimals, coarse) && (places >= 0 || command == Command::S)
}
