//! The program decode of issue 6: a capture of answers in, a line for each piece out.

use crate::faults::Fault;
use crate::reader::{line_of, Answer, Reader};
use crate::weight::Range;

/// Splits after every CR LF; a last unfinished piece counts.
pub fn pieces(capture: &[u8]) -> Vec<&[u8]> {
    let mut pieces = vec![];
    let mut start = 0;
    for end in 2..=capture.len() {
        if end >= start + 2 && &capture[end - 2..end] == b"\r\n" {
            pieces.push(&capture[start..end]);
            start = end;
        }
    }
    if start < capture.len() {
        pieces.push(&capture[start..]);
    }
    pieces
}

pub fn decode(capture: &[u8]) -> Vec<u8> {
    decode_with(Reader::default(), capture)
}

pub fn decode_with(reader: Reader, capture: &[u8]) -> Vec<u8> {
    let split: Vec<&[u8]> = match reader.fault {
        Some(Fault::ReadLfAlone) => capture.split_inclusive(|&byte| byte == b'\n').collect(),
        _ => pieces(capture),
    };
    split.into_iter().flat_map(|piece| describe(reader, piece)).collect()
}

/// What is printed for a piece.
fn describe(reader: Reader, piece: &[u8]) -> Vec<u8> {
    let Some(answer) = reader.read(piece) else { return b"refused 4\r\n".to_vec() };
    let mut told = match &answer {
        Answer::Weight { identification, status, value, decimals, unit, range } => {
            let coarse = if *range == Range::Coarse { " coarse" } else { "" };
            format!("weight {identification} {status} {value} {decimals} {}{coarse}\r\n", unit.name()).into_bytes()
        }
        Answer::Text { identification, text } => [b"text ", identification.as_bytes(), b" ", text, b"\r\n"].concat(),
        Answer::Unit { unit } => format!("unit {}\r\n", unit.name()).into_bytes(),
        Answer::Listed { status, level, name } => format!("command {status} {level} {name}\r\n").into_bytes(),
        _ => [b"answer ", piece].concat(),
    };
    if line_of(&answer).as_deref() != Some(piece) {
        told.extend(b"differs\r\n");
    }
    told
}
