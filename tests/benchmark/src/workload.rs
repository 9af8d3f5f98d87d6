//! The inputs: calls of the module and lines for the reader.

use crate::fast::command::COMMANDS;
use crate::fast::profile::SIZE;
use crate::fast::weight::{self, Scale};
use crate::feed::{self, Received};
use independent::random;

/// The generator of the independent implementation's histories.
pub struct Rng(random::Rng);

impl Rng {
    pub fn new(seed: u64) -> Rng {
        Rng(random::Rng::new(seed))
    }

    fn next(&mut self) -> u64 {
        self.0.next()
    }

    pub fn below(&mut self, n: u64) -> u64 {
        self.next() % n
    }

    pub fn chance(&mut self, percent: u64) -> bool {
        self.below(100) < percent
    }

    fn between(&mut self, low: i64, high: i64) -> i64 {
        low + self.below((high - low + 1) as u64) as i64
    }

    /// Below ten to one power up to `digits`.
    fn digits(&mut self, digits: u64) -> u64 {
        let below = 10u64.pow(self.below(digits) as u32 + 1);
        self.below(below)
    }

    fn pick<'a, T: ?Sized>(&mut self, from: &[&'a T]) -> &'a T {
        from[self.below(from.len() as u64) as usize]
    }
}

/// The bytes of a profile: C, U, R, W, F; decimals and step of each unit, in the units' order; the texts of I2 to I5, each with its
/// length before it; zeros up to the size.
pub fn profile(limits: [u32; 5], resolutions: [[u8; 2]; 9], texts: [&[u8]; 4]) -> Vec<u8> {
    let mut bytes: Vec<u8> = limits.iter().flat_map(|limit| limit.to_le_bytes()).collect();
    bytes.extend(resolutions.concat());
    for (text, room) in texts.iter().zip([40, 40, 20, 20]) {
        bytes.push(text.len() as u8);
        bytes.extend(*text);
        bytes.resize(bytes.len() + room - text.len(), b'?');
    }
    bytes.resize(SIZE, 0);
    bytes
}

/// Profile A's limits, with F = C; its decimals and steps, g with four and the others with two; its texts.
const LIMITS_A: [u32; 5] = [220_000_000, 1_000_000, 4_400_000, 3, 220_000_000];
const RESOLUTIONS_A: [[u8; 2]; 9] = [[4, 1], [2, 1], [2, 1], [2, 1], [2, 1], [2, 1], [2, 1], [2, 1], [2, 1]];

const TEXTS_A: [&[u8]; 4] = [b"", b"", b"VA-0001", b""];

/// Document 01's profile A.
pub fn profile_a() -> Vec<u8> {
    profile(LIMITS_A, RESOLUTIONS_A, TEXTS_A)
}

/// The same with this fine limit.
pub fn profile_with_fine(fine: u32) -> Vec<u8> {
    let mut limits = LIMITS_A;
    limits[4] = fine;
    profile(limits, RESOLUTIONS_A, TEXTS_A)
}

/// That of the rows of the coarse range, and a load in it.
pub const FINE: u32 = 100_000_000;
pub const COARSE_LOAD: i32 = 150_000_000;

/// Profile A with the longest texts.
pub fn profile_with_texts() -> Vec<u8> {
    profile(LIMITS_A, RESOLUTIONS_A, [&[b'm'; 40], &[b's'; 40], &[b'n'; 20], &[b'i'; 20]])
}

/// The load of the rows of profile A.
const LOAD: i32 = 14_256_050;

/// What is lent to a call: enough for every answer.
pub const ROOM: u16 = 384;

/// Records of calls.
#[derive(Clone, Default)]
pub struct Script(pub Vec<u8>);

impl Script {
    fn record(&mut self, kind: u8, mark: bool, room: u16, data: [u8; 4]) {
        let [low, high] = room.to_le_bytes();
        self.0.extend([kind, mark.into(), low, high]);
        self.0.extend(data);
    }

    pub fn byte(&mut self, byte: u8) {
        self.byte_in(ROOM, byte);
    }

    /// With a buffer of this length.
    pub fn byte_in(&mut self, room: u16, byte: u8) {
        self.record(feed::BYTE, false, room, [byte, 0, 0, 0]);
    }

    pub fn line(&mut self, line: &[u8]) {
        for &byte in line {
            self.byte(byte);
        }
        self.byte(13);
        self.byte(10);
    }

    pub fn sample(&mut self, load: i32, stable: bool) {
        self.record(feed::SAMPLE, stable, ROOM, load.to_le_bytes());
    }

    pub fn power_on(&mut self) {
        self.record(feed::POWER_ON, false, ROOM, [0; 4]);
    }

    /// A power-on and a sample, and SR runs.
    pub fn sr_started(&mut self) {
        self.power_on();
        self.sample(LOAD, true);
        self.line(b"SR");
    }

    /// Samples that lie close together, one in four unstable.
    pub fn close_samples(&mut self, count: usize) {
        self.samples_from(LOAD, count);
    }

    /// The same in the coarse range.
    pub fn coarse_samples(&mut self, count: usize) {
        self.samples_from(COARSE_LOAD, count);
    }

    fn samples_from(&mut self, load: i32, count: usize) {
        for i in 0..count as i32 {
            self.sample(load + i % 1000 * 37, i % 4 != 0);
        }
    }

    /// Stable samples, each of which differs from the one before by more than an eighth of it.
    pub fn changing_samples(&mut self, count: usize) {
        for i in 0..count as i32 {
            self.sample(19_256_050 - i % 2 * 5_000_000 + i % 1000 * 37, true);
        }
    }

    pub fn profile(&mut self, place: u32) {
        self.record(feed::PROFILE, false, 0, place.to_le_bytes());
    }

    /// How many records there are.
    pub fn len(&self) -> usize {
        self.0.len() / feed::CALL
    }

    pub fn is_empty(&self) -> bool {
        self.0.is_empty()
    }

    fn times(&mut self, count: usize, body: &Script) {
        for _ in 0..count {
            self.0.extend(&body.0);
        }
    }
}

/// A power-on and a stable sample, then the body so many times.
pub fn repeated(count: usize, body: &Script) -> Script {
    repeated_at(LOAD, count, body)
}

/// The same with another load.
pub fn repeated_at(load: i32, count: usize, body: &Script) -> Script {
    let mut script = Script::default();
    script.power_on();
    script.sample(load, true);
    script.times(count, body);
    script
}

/// Bytes of every command and of the lines that are refused. SIR and SR, which go on, have rows of their own.
pub fn mixed_bytes() -> Script {
    let mut script = Script::default();
    for command in COMMANDS {
        if !matches!(command.name(), b"SIR" | b"SR") {
            script.line(command.name());
        }
    }
    for line in [&b"TA 12.5 g"[..], b"TA 100.00 g", b"TA 1. g", b"D \"pouch 12\"", b"D x", b"S 1", b"Q", b"", b"SIX", b"TAC"] {
        script.line(line);
    }
    for line in [b"M21 0 5", b"M21 0 2", b"M21 0 0"] {
        script.line(line);
    }
    script.line(&[b'x'; 65]);
    script.record(feed::BYTE, true, ROOM, [b'S', 0, 0, 0]);
    script.line(b"");
    script
}

/// Samples while nothing is asked for, and as many while a repetition runs.
pub fn mixed_samples(count: usize) -> Script {
    let mut script = repeated(0, &Script::default());
    script.close_samples(count);
    script.line(b"SIR");
    script.close_samples(count);
    script
}

fn any_text(rng: &mut Rng, room: usize) -> Vec<u8> {
    let length = rng.below(room as u64 + 1) as usize;
    let byte = |rng: &mut Rng| match rng.between(32, 255) as u8 {
        b'"' => b'!',
        byte => byte,
    };
    (0..length).map(|_| byte(rng)).collect()
}

/// Decimals and step of a unit, as a rule such that this lowest net, of this size, fits, in one range or two.
fn any_resolution(rng: &mut Rng, unit: weight::Unit, lowest: u32, has_coarse: bool) -> [u8; 2] {
    let may_be_refused = rng.chance(2);
    loop {
        let (decimals, step) = (rng.below(7) as u8, [1, 2, 5][rng.below(3) as usize]);
        if may_be_refused && rng.chance(50) {
            return [rng.between(6, 9) as u8, rng.below(7) as u8];
        }
        if may_be_refused || (Scale { unit, decimals, step }).is_allowed(lowest, has_coarse) {
            return [decimals, step];
        }
    }
}

/// A fine limit, in most profiles below the capacity. With a lowest net above this size mg has no two ranges.
fn any_fine(rng: &mut Rng, capacity: u32, lowest: u32) -> u32 {
    if rng.chance(2) {
        return capacity + 1;
    }
    if lowest > 990_000_000 {
        return capacity;
    }
    let limit = match rng.below(8) {
        0 => 0,
        1 => 1,
        2 => capacity.saturating_sub(1),
        3 => rng.below(2000) as u32,
        4 => FINE,
        5 => rng.between(0, capacity.into()) as u32,
        _ => capacity,
    };
    limit.min(capacity)
}

/// Profiles with decimals and a step for every unit, with one range and with two; some of them are refused.
pub fn any_profiles(rng: &mut Rng, count: usize) -> Vec<u8> {
    let mut profiles = profile_a();
    for _ in 1..count {
        let capacity = if rng.chance(50) { 220_000_000 >> rng.below(12) } else { rng.between(1, 1_000_000_001) as u32 };
        let part = |rng: &mut Rng| {
            let most = i64::from(capacity) + i64::from(rng.chance(2));
            rng.between(0, most) as u32
        };
        let least = i64::from(!rng.chance(3));
        let (underload, zeroing, timeout) = (part(rng), part(rng), rng.between(least, 5) as u32);
        let lowest = capacity + underload;
        let fine = any_fine(rng, capacity, lowest);
        let limits = [capacity, underload, zeroing, timeout, fine];
        let resolutions = weight::UNITS.map(|unit| any_resolution(rng, unit, lowest, fine < capacity));
        let texts = [40, 40, 20, 20].map(|room| any_text(rng, room));
        let [two, three, four, five] = &texts;
        profiles.extend(profile(limits, resolutions, [two, three, four, five]));
        if rng.chance(5) {
            // A text with a quote, or one that is too long.
            let at = profiles.len() - SIZE + 79;
            profiles[at] = if rng.chance(50) { 41 } else { 1 };
            profiles[at + 1] = b'"';
        }
    }
    profiles
}

/// The nine, and one that is none of them.
const UNITS: [&[u8]; 10] = [b"g", b"mg", b"ct", b"oz", b"ozt", b"GN", b"dwt", b"kg", b"lb", b"t"];

/// The codes of the nine, and others.
const CODES: [&[u8]; 16] =
    [b"0", b"1", b"3", b"5", b"7", b"8", b"9", b"10", b"11", b"2", b"20", b"05", b"256", b"", b" 5", b"5 "];

/// Sets a unit, or nearly.
fn any_unit_command(rng: &mut Rng) -> Vec<u8> {
    let code = if rng.chance(80) { CODES[rng.below(9) as usize] } else { rng.pick(&CODES) };
    match rng.below(20) {
        0 => [b"M21 1 ", code].concat(),
        1 => [b"M21 ", code].concat(),
        2 => b"M21 0".to_vec(),
        _ => [b"M21 0 ", code].concat(),
    }
}

fn any_number(rng: &mut Rng) -> Vec<u8> {
    let whole = rng.digits(6);
    let decimals = rng.below(8) as usize;
    match rng.below(9) {
        0 => whole.to_string().into_bytes(),
        1 => format!("{whole}.").into_bytes(),
        2 => format!(".{whole}").into_bytes(),
        // In grams at either side of one fine limit.
        3 => format!("100.0{:04}", rng.below(20)).into_bytes(),
        _ => format!("{whole}.{:0decimals$}", rng.below(10u64.pow(decimals as u32))).into_bytes(),
    }
}

fn any_name(rng: &mut Rng) -> &'static [u8] {
    COMMANDS[rng.below(COMMANDS.len() as u64) as usize].name()
}

fn any_command(rng: &mut Rng) -> Vec<u8> {
    let name = any_name(rng);
    match rng.below(20) {
        0 => [name, b" "].concat(),
        1 => [name, b"X"].concat(),
        2 => (0..rng.below(70)).map(|_| rng.between(0, 255) as u8).collect(),
        3 => vec![b'x'; rng.between(62, 67) as usize],
        4..=6 => [&b"TA "[..], &any_number(rng), b" ", rng.pick(&UNITS)].concat(),
        7 => [&b"SR "[..], &any_number(rng), b" ", rng.pick(&UNITS)].concat(),
        8..=9 => [b"D \"", &any_text(rng, 22)[..], b"\""].concat(),
        10 => any_unit_command(rng),
        _ => name.to_vec(),
    }
}

pub fn any_load(rng: &mut Rng) -> i32 {
    match rng.below(11) {
        0 => rng.next() as i32,
        1..=3 => rng.between(-2000, 2000) as i32,
        4 => rng.between(-5_000_000, 5_000_000) as i32,
        5 => FINE as i32 + rng.between(-2, 2) as i32,
        _ => rng.below(230_000_000) as i32 >> rng.below(12),
    }
}

/// A change of the profile or of the room, or a call; a line is a call for each byte.
fn any_step(rng: &mut Rng, profiles: usize, room: &mut u16, script: &mut Script) {
    match rng.below(100) {
        0 => script.profile(rng.below(profiles as u64) as u32),
        1..=2 => script.record(feed::POWER_ON, false, *room, [0; 4]),
        3..=9 => *room = if rng.chance(60) { ROOM } else { rng.below(60) as u16 },
        10..=49 => script.record(feed::SAMPLE, rng.chance(60), *room, any_load(rng).to_le_bytes()),
        _ => {
            let faulty = rng.chance(5);
            for byte in [&any_command(rng)[..], b"\r\n"].concat() {
                let marked = faulty && rng.chance(10);
                script.record(feed::BYTE, marked, *room, [byte, 0, 0, 0]);
                if rng.chance(1) {
                    script.byte(rng.below(256) as u8);
                }
            }
        }
    }
}

/// A random history: every command, faults, short buffers, waits, repetition, send on change, units that change, weights of both ranges.
/// `profiles` is how many there are.
pub fn any_history(rng: &mut Rng, profiles: usize, calls: usize) -> Script {
    let mut script = Script::default();
    script.power_on();
    let mut room = ROOM;
    while script.len() < calls {
        any_step(rng, profiles, &mut room, &mut script);
    }
    script
}

/// Records of calls with whole buffers among them, and the bytes of all of these.
#[derive(Clone, Default)]
pub struct Buffers {
    pub script: Script,
    pub bytes: Vec<u8>,
    pub marks: Vec<u8>,
}

impl Buffers {
    pub fn received(&self) -> Received<'_> {
        Received { bytes: &self.bytes, marks: &self.marks }
    }

    fn buffer(&mut self, room: usize, bytes: &[u8], marks: &[u8]) {
        let size = bytes.len() as u32;
        self.script.record(feed::BUFFER, false, room as u16, size.to_le_bytes());
        self.bytes.extend(bytes);
        self.marks.extend(marks);
    }
}

/// A random history in which whole buffers come between the calls, and a line may have bytes of both; the last mark is missing. It
/// ends when there are so many calls, or so many bytes in whole buffers.
pub fn any_buffers(rng: &mut Rng, profiles: usize, calls: usize, bytes: usize) -> Buffers {
    let mut all = Buffers::default();
    all.script.power_on();
    let mut room = ROOM;
    while all.script.len() < calls && all.bytes.len() < bytes {
        if rng.chance(80) {
            any_step(rng, profiles, &mut room, &mut all.script);
            continue;
        }
        let (bytes, mut marks) = any_buffer(rng);
        marks.resize(bytes.len(), 0);
        all.buffer(any_room(rng), &bytes, &marks);
    }
    all.marks.pop();
    all
}

/// The largest room that a row of whole buffers lends, and the buffer of the Cortex-M0: the answers fit, to bytes of all commands in
/// buffers of 4,096 and of 256.
pub const LENT: usize = 16_384;
pub const BOARD_LENT: usize = 2_048;

/// The sizes of the buffers in the rows.
pub const SIZES: [usize; 3] = [16, 256, 4_096];

/// A power-on and a stable sample, then the bytes of the body so many times, in buffers of one size.
pub fn in_buffers(size: usize, times: usize, body: &Script) -> Buffers {
    let mut all = Buffers { script: repeated(0, &Script::default()), ..Buffers::default() };
    let marked: Vec<(u8, u8)> = body.0.chunks_exact(feed::CALL).map(|record| (record[4], record[1])).collect();
    for next in marked.repeat(times).chunks(size) {
        let (bytes, marks): (Vec<u8>, Vec<u8>) = next.iter().copied().unzip();
        all.buffer(LENT, &bytes, &marks);
    }
    all
}

/// Bytes that end no line: so many times a power-on and a buffer of that size.
pub fn inner_buffers(size: usize, times: usize) -> Buffers {
    let mut all = Buffers { script: repeated(0, &Script::default()), ..Buffers::default() };
    for _ in 0..times {
        all.script.power_on();
        all.buffer(LENT, &vec![b'x'; size], &vec![0; size]);
    }
    all
}

/// A whole buffer and its marks: some lines cut anywhere, now and then with faults, as long as can be, too long, or with a mark too
/// few or too many.
pub fn any_buffer(rng: &mut Rng) -> (Vec<u8>, Vec<u8>) {
    let lines = if rng.chance(80) { rng.below(5) } else { rng.below(60) };
    let mut bytes: Vec<u8> = (0..lines).flat_map(|_| [&any_command(rng)[..], b"\r\n"].concat()).collect();
    if rng.chance(50) {
        bytes.drain(..rng.below(bytes.len() as u64 + 1) as usize);
    }
    if rng.chance(50) {
        bytes.truncate(rng.below(bytes.len() as u64 + 1) as usize);
    }
    match rng.below(20) {
        0 => bytes.resize(rng.between(4_094, 4_098) as usize, *rng.pick(&[&b' ', &b'S', &b'\r', &b'\n'])),
        1 => {
            let at = rng.below(bytes.len() as u64 + 1) as usize;
            bytes.insert(at, rng.below(256) as u8);
        }
        _ => {}
    }
    let faulty = rng.chance(30);
    let mut marks: Vec<u8> = bytes.iter().map(|_| if faulty && rng.chance(5) { rng.between(1, 255) as u8 } else { 0 }).collect();
    match rng.below(40) {
        0 => marks.push(0),
        1 => drop(marks.pop()),
        _ => {}
    }
    (bytes, marks)
}

/// A room for the answers to them.
pub fn any_room(rng: &mut Rng) -> usize {
    match rng.below(4) {
        0 => rng.below(40) as usize,
        1 => rng.below(600) as usize,
        2 => ROOM.into(),
        _ => 4_096,
    }
}

/// Records of lines.
pub fn lines(lines: &[Vec<u8>]) -> Vec<u8> {
    let mut records = Vec::new();
    for line in lines {
        let length = line.len().min(feed::LINE - 1);
        records.push(length as u8);
        records.extend(&line[..length]);
        records.resize(records.len() + feed::LINE - 1 - length, 0);
    }
    records
}

/// The record of a number of up to ten digits.
pub fn number(decimals: u8, places: i64) -> Vec<u8> {
    let size = places.unsigned_abs().to_le_bytes();
    [&[decimals, (places < 0).into()], &size[..feed::NUMBER - 2]].concat()
}

/// Of any length, half of them at either side of a power of ten.
pub fn any_numbers(rng: &mut Rng, count: usize) -> Vec<u8> {
    let mut any = || {
        let size = match rng.below(4) {
            0 => 10u64.pow(rng.below(10) as u32),
            1 => 10u64.pow(rng.below(11) as u32) - 1,
            _ => rng.digits(10),
        };
        let places = if rng.chance(50) { -(size as i64) } else { size as i64 };
        number(rng.below(8) as u8, places)
    };
    (0..count).flat_map(|_| any()).collect()
}

pub fn weight_lines() -> Vec<Vec<u8>> {
    let weights = [
        "S S    14.2561 g",
        "S D   220.0000 g",
        "S S    -1.0000 g",
        "S S     0.0001 g",
        "T S    14.2561 g",
        "TI D  1234.567 ct",
        "TA A   100.0000 g",
        "S S 123456789 mg",
        "S S    1.00000 oz",
        "TI S 99999.999 dwt",
        "S D -12345.67 GN",
        "S S   0.999999 ozt",
        "S S   0.014256 kg",
        "TA A       0.49 lb",
    ];
    ended(&weights)
}

pub fn coarse_lines() -> Vec<Vec<u8>> {
    ended(&[
        "S S   150.000  g",
        "S D  -140.000  g",
        "S S     0.001  g",
        "T S   150.000  g",
        "TA A   100.001  g",
        "S S    4875.2  g",
        "TI D 99999.999  dwt",
        "S S   0.99999  kg",
    ])
}

/// Refused, each for one thing: no decimal, six, a zero below zero, or spaces too many or too few.
fn no_coarse_lines() -> Vec<Vec<u8>> {
    ended(&[
        "S S       150  g",
        "S S  0.000001  g",
        "S S    -0.000  g",
        "S S   150.000   g",
        "S S  150.000  g",
        "S S   150.000 g",
    ])
}

pub fn status_lines() -> Vec<Vec<u8>> {
    ended(&[
        "S +", "S -", "Z A", "ZI S", "ZI D", "Z +", "T -", "TI +", "TAC A", "D A", "DW A", "D L", "TA L", "S L", "S I", "I4 I",
        "M21 A", "M21 L",
    ])
}

pub fn text_lines() -> Vec<Vec<u8>> {
    let texts = ["I2 A \"a balance of forty characters, in full!\"", "I3 A \"2.30\"", "I4 A \"VA-0001\"", "I5 A \"\""];
    ended(&[&texts[..], &["I1 A \"0\" \"2.30\" \"2.20\""]].concat())
}

pub fn listed_lines() -> Vec<Vec<u8>> {
    ended(&["I0 B 0 \"I0\"", "I0 B 0 \"SIR\"", "I0 B 0 \"@\"", "I0 B 1 \"SR\"", "I0 B 1 \"TI\"", "I0 A 2 \"M21\""])
}

pub fn unit_lines() -> Vec<Vec<u8>> {
    ended(&["M21 A 0 0", "M21 A 0 5", "M21 A 0 11"])
}

pub fn error_lines() -> Vec<Vec<u8>> {
    ended(&["ES", "ET", "EL"])
}

pub fn refused_lines() -> Vec<Vec<u8>> {
    ended(&[
        "S S    14.2561 t",
        "S S   14.2561 g",
        "s S    14.2561 g",
        "S S   -0.0000 g",
        "SI I",
        "SR L",
        "@ I",
        "Q A",
        "",
        "ES ",
        "I0 B 1 \"S\"",
        "M21 A 0 2",
        "M21 A 1 3",
    ])
}

fn ended(lines: &[&str]) -> Vec<Vec<u8>> {
    lines.iter().map(|line| [line.as_bytes(), b"\r\n"].concat()).collect()
}

/// Every kind of line that the reader takes, and some that it refuses.
pub fn mixed_lines() -> Vec<Vec<u8>> {
    [weight_lines(), status_lines(), text_lines(), listed_lines(), unit_lines(), error_lines(), refused_lines()].concat()
}

/// Lines with and without damage.
pub fn any_lines(rng: &mut Rng, count: usize) -> Vec<Vec<u8>> {
    let good = [mixed_lines(), coarse_lines(), no_coarse_lines()].concat();
    let mut all = Vec::new();
    while all.len() < count {
        let mut line = match rng.below(13) {
            0..=3 => any_weight_line(rng),
            4..=7 => any_status_line(rng),
            8 => [&b"M21 A 0 "[..], rng.pick(&CODES), b"\r\n"].concat(),
            _ => good[rng.below(good.len() as u64) as usize].clone(),
        };
        if rng.chance(30) && !line.is_empty() {
            let at = rng.below(line.len() as u64) as usize;
            match rng.below(4) {
                0 => drop(line.remove(at)),
                1 => line.insert(at, rng.between(0, 255) as u8),
                2 => line.insert(at, *rng.pick(&[b" ", b"0", b"-", b"."]).first().unwrap_or(&0)),
                _ => line[at] = rng.between(0, 255) as u8,
            }
        }
        all.push(line);
    }
    all
}

fn any_weight_line(rng: &mut Rng) -> Vec<u8> {
    let name = rng.pick(&["S", "T", "TI", "TA", "SI"]);
    let status = rng.pick(&["S", "D", "A", "I"]);
    let decimals = rng.below(7) as usize;
    let whole = rng.digits(6);
    let minus = if rng.chance(20) { "-" } else { "" };
    let number = match decimals {
        0 => format!("{minus}{whole}"),
        _ => format!("{minus}{whole}.{:0decimals$}", rng.below(10u64.pow(decimals as u32))),
    };
    let unit = String::from_utf8_lossy(rng.pick(&UNITS)).into_owned();
    let field = if rng.chance(40) { format!("{number:>9} ") } else { format!("{number:>10}") };
    format!("{name} {status} {field} {unit}\r\n").into_bytes()
}

fn any_status_line(rng: &mut Rng) -> Vec<u8> {
    let name = any_name(rng);
    [name, b" ", rng.pick(&[&b"A"[..], b"B", b"S", b"D", b"I", b"L", b"+", b"-"]), b"\r\n"].concat()
}
