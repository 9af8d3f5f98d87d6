//! Inputs for the Cortex-M0 of tests/cortex-m0, as it finds them in its flash, and what the proved code on this machine makes of them.

use crate::fast::profile::SIZE;
use crate::linked::{proved_buffers, proved_calls, proved_fields, proved_lines, proved_rewritten};
use crate::rows::{rows_on_board, Input};
use crate::workload::*;
use std::fs;
use std::io;
use std::path::Path;

/// The flash of the board has 176 KB for it.
const FLASH: usize = 176 * 1024;

/// What is asked for; a random history asks for the first three and for fields, or for whole buffers.
const CALLS: u32 = 1;
const LINES: u32 = 2;
const REWRITTEN: u32 = 4;
const ANSWERS: u32 = 8;
const BUFFERS: u32 = 16;
const FIELDS: u32 = 32;
const DIVISIONS: u32 = 64;

/// The small count of a row; ten times that fits.
pub const FEW: usize = 4;

/// What the crate `bench` prints: the answers of document 01's example.
const EXAMPLE: &str = include_str!("../../../crates/bench/stdout");

#[derive(Default)]
struct Image {
    what: u32,
    profiles: Vec<u8>,
    calls: Script,
    lines: Vec<u8>,
    buffers: Buffers,
    numbers: Vec<u8>,
    /// How often each of the calls divides.
    divisions: Vec<u64>,
}

impl Image {
    /// The calls of the example.
    fn example() -> Image {
        let mut calls = Script::default();
        calls.power_on();
        calls.line(b"S");
        calls.sample(14_256_050, true);
        calls.line(b"T");
        calls.sample(14_256_100, true);
        calls.line(b"SI");
        calls.line(b"Q");
        Image { what: ANSWERS, profiles: profile_a(), calls, ..Image::default() }
    }

    fn random(seed: u64) -> Image {
        let mut rng = Rng::new(seed);
        let profiles = any_profiles(&mut rng, 40);
        let calls = any_history(&mut rng, 40, 15_000);
        let (lines, numbers) = (lines(&any_lines(&mut rng, 700)), any_numbers(&mut rng, 700));
        Image { what: CALLS | LINES | REWRITTEN | FIELDS, profiles, calls, lines, numbers, ..Image::default() }
    }

    fn random_buffers(seed: u64) -> Image {
        let mut rng = Rng::new(seed);
        let profiles = any_profiles(&mut rng, 40);
        let buffers = any_buffers(&mut rng, 40, 10_000, 45_000);
        Image { what: BUFFERS, profiles, buffers, ..Image::default() }
    }

    /// Document 02, No. 4: how often each kind of call divides. A line divides at its last byte.
    fn of_divisions() -> Image {
        let profiles = [profile_a(), vec![0; SIZE], profile_with_fine(FINE)].concat();
        let mut image = Image { what: DIVISIONS, profiles, ..Image::default() };
        image.calls.power_on();
        image.divides(0);
        image.line("SI", 0); // no sample has come: S I
        image.sample(14_256_050, true, 0);
        for line in ["S", "SI", "T", "TI", "TA"] {
            image.line(line, 1);
        }
        image.line("TA 100.00 g", 3);
        image.line("TA 300 g", 2); // above the capacity, which the rounded number tells
        for line in ["TA 1.5 kg", "TA x", "TAC", "Z", "ZI", "@", "D \"pouch 12\"", "DW", "Q", "SI "] {
            image.line(line, 0);
        }
        for line in ["I0", "I1", "I2", "I3", "I4", "I5"] {
            image.line(line, 0);
        }
        for (line, times) in
            [("M21", 0), ("M21 0 2", 0), ("M21 0 5", 0), ("SI", 1), ("TA 100.00 ct", 3), ("TAC", 0), ("M21 0 0", 0)]
        {
            image.line(line, times);
        }
        image.sample(14_256_050, true, 0);
        image.line("SIR", 1);
        image.sample(14_256_050, true, 1);
        image.sample(-14_256_050, false, 0); // underload: S -
        image.line("SR", 0); // waits
        image.sample(14_256_050, true, 1);
        image.sample(15_256_050, true, 0); // by less than an eighth: not sent
        image.sample(19_256_050, true, 1);
        image.line("SR 10.00 g", 2); // its number, and the weight that it sends
        image.line("@", 0);
        image.sample(14_256_050, false, 0);
        for line in ["S", "T"] {
            image.line(line, 0); // waits
            image.sample(14_256_050, true, 1);
            image.sample(14_256_050, false, 0);
        }
        image.line("T", 0);
        for _ in 0..3 {
            image.sample(14_256_050, false, 0); // T I at the last one
        }
        image.sample(-500_000, true, 0);
        image.line("SI", 1); // below zero
        for (line, times) in [("SI", 1), ("I4", 0)] {
            image.line_in(0, line, times); // refused by 3: the answer is made before its room is tested
            image.calls.byte(10);
            image.divides(times);
        }
        image.calls.profile(1); // refused by 1
        image.divides(0);
        image.line("SI", 0);
        image.sample(14_256_050, true, 0);
        image.calls.profile(2); // two ranges: as often in both
        image.divides(0);
        image.calls.power_on();
        image.divides(0);
        image.sample(COARSE_LOAD, true, 0);
        for (line, times) in [("SI", 1), ("T", 1), ("TA", 1), ("TA 100.00 g", 3), ("TA 150.0005 g", 3), ("TAC", 0), ("SIR", 1)] {
            image.line(line, times);
        }
        image.sample(COARSE_LOAD, true, 1);
        image
    }

    fn divides(&mut self, times: u64) {
        self.divisions.push(times);
    }

    fn line(&mut self, line: &str, times: u64) {
        self.line_in(ROOM, line, times);
    }

    fn line_in(&mut self, room: u16, line: &str, times: u64) {
        for &byte in line.as_bytes() {
            self.calls.byte(byte);
        }
        self.calls.byte(13);
        self.calls.byte_in(room, 10);
        self.divisions.extend(vec![0; line.len() + 1]);
        self.divides(times);
    }

    fn sample(&mut self, load: i32, stable: bool, times: u64) {
        self.calls.sample(load, stable);
        self.divides(times);
    }

    fn of(input: Input) -> Image {
        match input {
            Input::Buffers(profiles, buffers) => Image { what: BUFFERS, profiles, buffers, ..Image::default() },
            Input::Calls(profiles, calls) => Image { what: CALLS, profiles, calls, ..Image::default() },
            Input::Lines(lines) => Image { what: LINES, lines, ..Image::default() },
            Input::Rewritten(lines) => Image { what: REWRITTEN, lines, ..Image::default() },
            Input::Fields(numbers) => Image { what: FIELDS, numbers, ..Image::default() },
        }
    }

    /// What is asked for and the seven sizes, then the seven parts.
    fn bytes(&self) -> Vec<u8> {
        let Buffers { script, bytes, marks } = &self.buffers;
        let parts = [&self.profiles, &self.calls.0, &self.lines, &script.0, bytes, marks, &self.numbers];
        let sizes = parts.map(|part| (part.len() as u32).to_le_bytes());
        [&self.what.to_le_bytes()[..], &sizes.concat(), &parts.map(Vec::as_slice).concat()].concat()
    }

    /// The lines in which the Cortex-M0 tells answers or checksums.
    fn expected(&self) -> String {
        if self.what == ANSWERS {
            return EXAMPLE.to_string();
        }
        let mut out = [0; BOARD_LENT];
        let mut values = 0;
        let mut text = String::new();
        let mut tell = |name: &str, number: u64| text.push_str(&format!("{name} {number:016x}\n"));
        if self.what & CALLS != 0 {
            tell("calls", proved_calls(&self.profiles, &self.calls.0, &mut out));
        }
        if self.what & LINES != 0 {
            tell("lines", proved_lines(&self.lines, &mut values));
            tell("values", values as u64);
        }
        if self.what & REWRITTEN != 0 {
            tell("rewritten", proved_rewritten(&self.lines, &mut out));
        }
        if self.what & BUFFERS != 0 {
            let Buffers { script, .. } = &self.buffers;
            tell("buffers", proved_buffers(&self.profiles, &script.0, self.buffers.received(), &mut out));
        }
        if self.what & FIELDS != 0 {
            tell("fields", proved_fields(&self.numbers));
        }
        for &times in &self.divisions {
            tell("divisions", times);
        }
        text
    }

    /// In a folder of its own: the files `image` and `expected`.
    fn write(&self, folder: &Path) -> io::Result<()> {
        let bytes = self.bytes();
        assert!(bytes.len() <= FLASH, "{}: {} bytes do not fit", folder.display(), bytes.len());
        fs::create_dir_all(folder)?;
        fs::write(folder.join("image"), bytes)?;
        fs::write(folder.join("expected"), self.expected())
    }
}

/// The example, and so many random histories of 15,000 calls, 700 lines and 700 fields, and of 10,000 calls with whole buffers among them.
pub fn write_histories(folder: &Path, count: u64) -> io::Result<()> {
    Image::example().write(&folder.join("example"))?;
    (1..=count).try_for_each(|seed| {
        Image::random(seed).write(&folder.join(format!("random-{seed:03}")))?;
        Image::random_buffers(seed).write(&folder.join(format!("buffers-{seed:03}")))
    })
}

/// How often each kind of call divides, for the program that counts it.
pub fn write_divisions(folder: &Path) -> io::Result<()> {
    Image::of_divisions().write(folder)
}

/// Each row at its small count and at ten times that.
pub fn write_rows(folder: &Path) -> io::Result<()> {
    for (place, row) in rows_on_board().iter().enumerate() {
        for count in [FEW, 10 * FEW] {
            Image::of((row.input)(count)).write(&folder.join(format!("row-{place:02}-{count:02}")))?;
        }
    }
    Ok(())
}
