//! Commands and statuses.

#[derive(Clone, Copy, Debug, PartialEq, Eq, PartialOrd)]
#[repr(u8)]
pub enum Command {
    I0,
    I1,
    I2,
    I3,
    I4,
    I5,
    S,
    Si,
    Sir,
    Z,
    Zi,
    Reset,
    D,
    Dw,
    Sr,
    T,
    Ta,
    Tac,
    Ti,
    M21,
}

use Command::*;

/// In the order in which I0 lists them.
pub const COMMANDS: [Command; 20] = [I0, I1, I2, I3, I4, I5, S, Si, Sir, Z, Zi, Reset, D, Dw, Sr, T, Ta, Tac, Ti, M21];

/// All that I0 sends.
pub const LIST: &[u8; 258] = b"I0 B 0 \"I0\"\r\nI0 B 0 \"I1\"\r\nI0 B 0 \"I2\"\r\nI0 B 0 \"I3\"\r\nI0 B 0 \"I4\"\r\nI0 B 0 \"I5\"\r\n\
I0 B 0 \"S\"\r\nI0 B 0 \"SI\"\r\nI0 B 0 \"SIR\"\r\nI0 B 0 \"Z\"\r\nI0 B 0 \"ZI\"\r\nI0 B 0 \"@\"\r\nI0 B 1 \"D\"\r\nI0 B 1 \"DW\"\r\n\
I0 B 1 \"SR\"\r\nI0 B 1 \"T\"\r\nI0 B 1 \"TA\"\r\nI0 B 1 \"TAC\"\r\nI0 B 1 \"TI\"\r\n\
I0 A 2 \"M21\"\r\n";

pub const VERSIONS: &[u8; 24] = b"I1 A \"0\" \"2.30\" \"2.20\"\r\n";

impl Command {
    pub fn named(word: &[u8]) -> Option<Command> {
        Some(match word {
            b"I0" => I0,
            b"I1" => I1,
            b"I2" => I2,
            b"I3" => I3,
            b"I4" => I4,
            b"I5" => I5,
            b"S" => S,
            b"SI" => Si,
            b"SIR" => Sir,
            b"Z" => Z,
            b"ZI" => Zi,
            b"@" => Reset,
            b"D" => D,
            b"DW" => Dw,
            b"SR" => Sr,
            b"T" => T,
            b"TA" => Ta,
            b"TAC" => Tac,
            b"TI" => Ti,
            b"M21" => M21,
            _ => return None,
        })
    }

    pub fn name(self) -> &'static [u8] {
        const NAMES: [&[u8]; 20] = [
            b"I0", b"I1", b"I2", b"I3", b"I4", b"I5", b"S", b"SI", b"SIR", b"Z", b"ZI", b"@", b"D", b"DW", b"SR", b"T", b"TA",
            b"TAC", b"TI", b"M21",
        ];
        NAMES[self as usize]
    }

    pub fn level(self) -> u8 {
        u8::from(self >= D) + u8::from(self == M21)
    }

    /// The name, but S for SI, SIR and SR.
    pub fn identification(self) -> Command {
        if matches!(self, Si | Sir | Sr) {
            S
        } else {
            self
        }
    }

    pub fn takes_parameters(self) -> bool {
        matches!(self, D | Ta | Sr | M21)
    }

    pub fn needs_sample(self) -> bool {
        matches!(self, Si | Sir | Ti | Zi)
    }
}

#[derive(Clone, Copy, Debug, PartialEq, Eq)]
#[repr(u8)]
pub enum Status {
    A,
    B,
    S,
    D,
    I,
    L,
    Over,
    Under,
}

impl Status {
    pub fn byte(self) -> u8 {
        b"ABSDIL+-"[self as usize]
    }

    pub fn of(byte: u8) -> Option<Status> {
        Some(match byte {
            b'A' => Status::A,
            b'S' => Status::S,
            b'D' => Status::D,
            b'I' => Status::I,
            b'L' => Status::L,
            b'+' => Status::Over,
            b'-' => Status::Under,
            _ => return None,
        })
    }

    pub fn of_stability(stable: bool) -> Status {
        if stable {
            Status::S
        } else {
            Status::D
        }
    }
}

/// The answers to a line that is none: ES, ET, EL.
#[derive(Clone, Copy, Debug, PartialEq, Eq)]
#[repr(u8)]
pub enum Error {
    Syntax,
    Transmission,
    Logical,
}

impl Error {
    pub fn line(self) -> [u8; 4] {
        [b'E', b"STL"[self as usize], b'\r', b'\n']
    }
}
