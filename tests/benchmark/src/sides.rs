//! The Rust sides: `tests/independent` through its own functions, and the Rust of this package that is written for speed. Each has
//! its functions by name, so that callgrind can count them.

use crate::fast::command::{Command, Status};
use crate::fast::{module, profile, reader, weight};
use crate::feed::{
    buffers, calls, fields, lines, rewritten, Digest, Implementation, Outcome, Received, Taken, COARSE_WEIGHT, WEIGHT,
};
use independent::module::{Module, Sample};
use independent::reader::Reader;
use independent::weight::{number_text, Places, Range};

fn weight_kind(coarse: bool) -> u8 {
    if coarse {
        COARSE_WEIGHT
    } else {
        WEIGHT
    }
}

pub struct Fast;

impl Implementation for Fast {
    type Profile = profile::Profile;
    type State = module::State;
    type Answer<'a> = reader::Answer<'a>;

    fn profile(profiles: &[u8], n: u32) -> Self::Profile {
        profile::Profile::at(profiles, n)
    }

    fn start() -> Self::State {
        module::State::start()
    }

    fn power_on(profile: &Self::Profile, state: &mut Self::State, out: &mut [u8]) -> Outcome {
        module::power_on(profile, state, out)
    }

    fn byte(profile: &Self::Profile, state: &mut Self::State, byte: u8, faulty: bool, out: &mut [u8]) -> Outcome {
        module::byte(profile, state, byte, faulty, out)
    }

    fn sample(profile: &Self::Profile, state: &mut Self::State, load: i32, stable: bool, out: &mut [u8]) -> Outcome {
        module::sample(profile, state, load, stable, out)
    }

    fn take_bytes(profile: &Self::Profile, state: &mut Self::State, bytes: &[u8], marks: &[u8], out: &mut [u8]) -> Taken {
        module::take_bytes(profile, state, bytes, marks, out)
    }

    fn read(line: &[u8]) -> Option<Self::Answer<'_>> {
        reader::read(line)
    }

    fn digest(answer: &Self::Answer<'_>) -> Digest {
        use reader::Answer;
        let head = |kind, first, second| Digest { head: [kind, first, second, 0], ..Digest::default() };
        match *answer {
            Answer::Plain(command, status) => head(1, command as u8, status as u8),
            Answer::Weight(command, status, number) => Digest {
                head: [weight_kind(number.coarse), command as u8, status as u8, number.decimals],
                unit: number.unit.nanograms(),
                len: 0,
                value: number.places,
            },
            Answer::Error(error) => head(3, error as u8, 0),
            Answer::Text(command, text) => Digest { len: text.len(), ..head(4, command as u8, 0) },
            Answer::Listed(last, command) => head(5, command as u8, last.into()),
            Answer::Versions => head(6, 0, 0),
            Answer::Unit(unit) => Digest { unit: unit.nanograms(), ..head(7, 0, 0) },
        }
    }

    fn write(answer: &Self::Answer<'_>, out: &mut [u8]) -> Outcome {
        match reader::write(answer, out) {
            Ok(count) => Outcome { refusal: 0, count },
            Err(refusal) => Outcome { refusal, count: 0 },
        }
    }

    fn field(decimals: u8, places: i64) -> Option<[u8; 10]> {
        let mut field = [0; 10];
        (decimals <= 6 && weight::fits(places, decimals, false)).then(|| {
            weight::put_field(places, decimals, false, &mut field);
            field
        })
    }
}

pub struct Independent;

const MODULE: Module = Module { fault: None };
const READER: Reader = Reader { fault: None };

fn outcome(outcome: independent::module::Outcome) -> Outcome {
    Outcome { refusal: outcome.refusal, count: outcome.n }
}

/// The place of a name in the order of I0.
fn place(name: &str) -> u8 {
    Command::named(name.as_bytes()).map_or(u8::MAX, |command| command as u8)
}

fn status_place(status: char) -> u8 {
    Status::of(status as u8).map_or(u8::MAX, |status| status as u8)
}

impl Implementation for Independent {
    type Profile = independent::profile::Profile;
    type State = independent::module::State;
    type Answer<'a> = independent::reader::Answer;

    /// A text that is too long has bytes that the record does not hold.
    fn profile(profiles: &[u8], n: u32) -> Self::Profile {
        let from = profile::Profile::at(profiles, n);
        let text = |bytes: &[u8], len: u8| bytes.iter().copied().chain([b'?'; 40]).take(len.into()).collect();
        independent::profile::Profile {
            capacity: from.capacity,
            margin: from.underload,
            zeroing: from.zeroing,
            patience: from.timeout,
            fine: from.fine,
            places: from.resolutions.map(|of| Places { decimals: of.decimals, step: of.step }),
            texts: [
                text(&from.model.bytes, from.model.len),
                text(&from.software.bytes, from.software.len),
                text(&from.serial.bytes, from.serial.len),
                text(&from.identity.bytes, from.identity.len),
            ],
        }
    }

    fn start() -> Self::State {
        Self::State::default()
    }

    fn power_on(profile: &Self::Profile, state: &mut Self::State, out: &mut [u8]) -> Outcome {
        outcome(MODULE.power_on(profile, state, out))
    }

    fn byte(profile: &Self::Profile, state: &mut Self::State, byte: u8, faulty: bool, out: &mut [u8]) -> Outcome {
        outcome(MODULE.byte(profile, state, byte, faulty.into(), out))
    }

    fn sample(profile: &Self::Profile, state: &mut Self::State, load: i32, stable: bool, out: &mut [u8]) -> Outcome {
        outcome(MODULE.sample(profile, state, Sample { load, stable }, out))
    }

    fn take_bytes(profile: &Self::Profile, state: &mut Self::State, bytes: &[u8], marks: &[u8], out: &mut [u8]) -> Taken {
        let told = MODULE.buffer(profile, state, bytes, marks, out);
        Taken { refusal: told.refusal, count: told.n, taken: told.taken }
    }

    fn read(line: &[u8]) -> Option<Self::Answer<'_>> {
        READER.read(line)
    }

    fn digest(answer: &Self::Answer<'_>) -> Digest {
        use independent::reader::Answer;
        let head = |kind, first, second| Digest { head: [kind, first, second, 0], ..Digest::default() };
        match answer {
            Answer::Status { identification, status } => head(1, place(identification), status_place(*status)),
            Answer::Weight { identification, status, value, decimals, unit, range } => Digest {
                head: [weight_kind(*range == Range::Coarse), place(identification), status_place(*status), *decimals],
                unit: unit.nanograms() as u64,
                len: 0,
                value: *value,
            },
            Answer::Error { letters } => {
                head(3, b"STL".iter().position(|e| letters.as_bytes()[1..] == [*e]).unwrap_or(3) as u8, 0)
            }
            Answer::Text { identification, text } => Digest { len: text.len(), ..head(4, place(identification), 0) },
            Answer::Listed { status, name, .. } => head(5, place(name), (*status == 'A').into()),
            Answer::Versions => head(6, 0, 0),
            Answer::Unit { unit } => Digest { unit: unit.nanograms() as u64, ..head(7, 0, 0) },
        }
    }

    fn write(answer: &Self::Answer<'_>, out: &mut [u8]) -> Outcome {
        outcome(independent::reader::write(answer, out))
    }

    fn field(decimals: u8, places: i64) -> Option<[u8; 10]> {
        let text = (decimals <= 6).then(|| number_text(places.into(), decimals, places < 0))?;
        format!("{text:>10}").as_bytes().try_into().ok()
    }
}

/// The functions of one side, which callgrind counts by their names.
macro_rules! named {
    ($side:ty, $calls:ident, $buffers:ident, $lines:ident, $rewritten:ident, $fields:ident) => {
        #[inline(never)]
        #[no_mangle]
        pub fn $calls(profiles: &[u8], script: &[u8], out: &mut [u8]) -> u64 {
            calls::<$side>(profiles, script, out)
        }

        #[inline(never)]
        #[no_mangle]
        pub fn $buffers(profiles: &[u8], script: &[u8], received: Received, out: &mut [u8]) -> u64 {
            buffers::<$side>(profiles, script, received, out)
        }

        #[inline(never)]
        #[no_mangle]
        pub fn $lines(all: &[u8], values: &mut i64) -> u64 {
            lines::<$side>(all, values)
        }

        #[inline(never)]
        #[no_mangle]
        pub fn $rewritten(all: &[u8], out: &mut [u8]) -> u64 {
            rewritten::<$side>(all, out)
        }

        #[inline(never)]
        #[no_mangle]
        pub fn $fields(numbers: &[u8]) -> u64 {
            fields::<$side>(numbers)
        }
    };
}

named!(Fast, fast_calls, fast_buffers, fast_lines, fast_rewritten, fast_fields);
named!(Independent, independent_calls, independent_buffers, independent_lines, independent_rewritten, independent_fields);
