//! The loops of the crate `measured` again, for the Rust implementations: the same records, the same checks, the same checksum.

/// The bytes of a record of a call: what is called, the mark, the room lent (low byte first), and four bytes with the received
/// byte, the load, the place of a profile or the size of a whole buffer.
pub const CALL: usize = 8;

/// The bytes of a record of a line: its length, and the line.
pub const LINE: usize = 64;

/// The bytes of a record of a number: its decimals, whether it is below zero, and its size, the low byte first.
pub const NUMBER: usize = 8;

pub const BYTE: u8 = 0;
pub const SAMPLE: u8 = 1;
pub const POWER_ON: u8 = 2;
pub const PROFILE: u8 = 3;
/// Among whole buffers alone.
pub const BUFFER: u8 = 4;

/// The refusal number, 0 for none, and the length of the answer.
#[derive(Clone, Copy, Debug, PartialEq, Eq)]
pub struct Outcome {
    pub refusal: u8,
    pub count: usize,
}

/// The same of a whole-buffer call, and the bytes taken.
#[derive(Clone, Copy, Debug, PartialEq, Eq)]
pub struct Taken {
    pub refusal: u8,
    pub count: usize,
    pub taken: usize,
}

/// The bytes of all whole buffers of a script, one after another, and their marks.
#[derive(Clone, Copy)]
pub struct Received<'a> {
    pub bytes: &'a [u8],
    pub marks: &'a [u8],
}

/// The kinds of a weight that is read, fine and coarse.
pub const WEIGHT: u8 = 2;
pub const COARSE_WEIGHT: u8 = 10;

/// What the checksum takes of a line: kind, command, status and decimals; the unit's nanograms; the text's length; the value.
#[derive(Clone, Copy, Debug, Default, PartialEq, Eq)]
pub struct Digest {
    pub head: [u8; 4],
    pub unit: u64,
    pub len: usize,
    pub value: i64,
}

/// Document 01 in Rust.
pub trait Implementation {
    type Profile;
    type State;
    type Answer<'a>;

    /// The n-th of several.
    fn profile(profiles: &[u8], n: u32) -> Self::Profile;
    fn start() -> Self::State;
    fn power_on(profile: &Self::Profile, state: &mut Self::State, out: &mut [u8]) -> Outcome;
    fn byte(profile: &Self::Profile, state: &mut Self::State, byte: u8, faulty: bool, out: &mut [u8]) -> Outcome;
    fn sample(profile: &Self::Profile, state: &mut Self::State, load: i32, stable: bool, out: &mut [u8]) -> Outcome;
    fn take_bytes(profile: &Self::Profile, state: &mut Self::State, bytes: &[u8], marks: &[u8], out: &mut [u8]) -> Taken;

    /// None is refusal 4.
    fn read(line: &[u8]) -> Option<Self::Answer<'_>>;
    fn digest(answer: &Self::Answer<'_>) -> Digest;
    fn write(answer: &Self::Answer<'_>, out: &mut [u8]) -> Outcome;

    /// The ten characters of a number, or none.
    fn field(decimals: u8, places: i64) -> Option<[u8; 10]>;
}

/// A checksum in which every byte and its place count: a sum, and the sum of the sums.
#[derive(Clone, Copy, Default)]
struct Sums {
    low: u64,
    high: u64,
}

impl Sums {
    fn add(&mut self, number: u64) {
        self.low = self.low.wrapping_add(number);
        self.high = self.high.wrapping_add(self.low);
    }

    fn add_bytes(&mut self, bytes: &[u8]) {
        for &byte in bytes {
            self.add(u64::from(byte));
        }
    }

    fn add_call(&mut self, outcome: Outcome, out: &[u8]) {
        self.add(outcome.refusal.into());
        self.add(outcome.count as u64);
        self.add_bytes(part(out, 0, outcome.count));
    }

    fn add_taken(&mut self, taken: Taken, out: &[u8]) {
        self.add(taken.refusal.into());
        self.add(taken.count as u64);
        self.add(taken.taken as u64);
        self.add_bytes(part(out, 0, taken.count));
    }
}

/// At most `count` bytes from `start` on.
fn part(bytes: &[u8], start: usize, count: usize) -> &[u8] {
    let rest = bytes.get(start..).unwrap_or_default();
    &rest[..count.min(rest.len())]
}

/// The profile of the calls that follow, if the record gives one.
#[inline(always)]
pub fn profile_in<I: Implementation>(profiles: &[u8], record: &[u8; CALL]) -> Option<I::Profile> {
    let [kind, _, _, _, data @ ..] = *record;
    (kind == PROFILE).then(|| I::profile(profiles, u32::from_le_bytes(data)))
}

fn lent_for<'a>(record: &[u8; CALL], out: &'a mut [u8]) -> &'a mut [u8] {
    let room = usize::from(u16::from_le_bytes([record[2], record[3]])).min(out.len());
    &mut out[..room]
}

#[inline(always)]
pub fn call<I: Implementation>(profile: &I::Profile, state: &mut I::State, record: &[u8; CALL], out: &mut [u8]) -> Outcome {
    let [kind, mark, _, _, data @ ..] = *record;
    let lent = lent_for(record, out);
    match kind {
        BYTE => I::byte(profile, state, data[0], mark != 0, lent),
        SAMPLE => I::sample(profile, state, i32::from_le_bytes(data), mark != 0, lent),
        _ => I::power_on(profile, state, lent),
    }
}

/// The checksum of every refusal number, count and answer.
#[inline(always)]
pub fn calls<I: Implementation>(profiles: &[u8], script: &[u8], out: &mut [u8]) -> u64 {
    let mut profile = I::profile(profiles, 0);
    let mut state = I::start();
    let mut sums = Sums::default();
    for record in script.chunks_exact(CALL) {
        let Ok(record) = record.try_into() else { continue };
        if let Some(next) = profile_in::<I>(profiles, record) {
            profile = next;
            continue;
        }
        let outcome = call::<I>(&profile, &mut state, record, out);
        sums.add_call(outcome, out);
    }
    sums.high
}

/// A whole buffer: the next bytes and their marks, as far as these reach. The place moves on by the size that the record says.
#[inline(always)]
pub fn take<I: Implementation>(
    profile: &I::Profile,
    state: &mut I::State,
    record: &[u8; CALL],
    received: Received,
    at: &mut u64,
    out: &mut [u8],
) -> Taken {
    let [_, _, _, _, data @ ..] = *record;
    let (place, size) = (*at as usize, u32::from_le_bytes(data));
    *at = at.wrapping_add(size.into());
    let next = |all| part(all, place, size as usize);
    I::take_bytes(profile, state, next(received.bytes), next(received.marks), lent_for(record, out))
}

/// The checksum of every refusal number, count and answer, and of the bytes that a whole-buffer call took.
#[inline(always)]
pub fn buffers<I: Implementation>(profiles: &[u8], script: &[u8], received: Received, out: &mut [u8]) -> u64 {
    let mut profile = I::profile(profiles, 0);
    let mut state = I::start();
    let mut sums = Sums::default();
    let mut at = 0;
    for record in script.chunks_exact(CALL) {
        let Ok(record) = record.try_into() else { continue };
        if let Some(next) = profile_in::<I>(profiles, record) {
            profile = next;
            continue;
        }
        if record[0] == BUFFER {
            let taken = take::<I>(&profile, &mut state, record, received, &mut at, out);
            sums.add_taken(taken, out);
            continue;
        }
        let outcome = call::<I>(&profile, &mut state, record, out);
        sums.add_call(outcome, out);
    }
    sums.high
}

fn line_in(record: &[u8]) -> &[u8] {
    part(record, 1, usize::from(record[0]))
}

/// The checksum of what the reader makes of each line; the values of the weights go to `values`.
#[inline(always)]
pub fn lines<I: Implementation>(lines: &[u8], values: &mut i64) -> u64 {
    let mut sums = Sums::default();
    let mut all = 0;
    for record in lines.chunks_exact(LINE) {
        let digest = I::read(line_in(record)).map(|answer| I::digest(&answer)).unwrap_or_default();
        sums.add(u32::from_le_bytes(digest.head).into());
        sums.add(digest.unit);
        sums.add(digest.len as u64);
        all ^= digest.value;
    }
    *values = all;
    sums.high
}

/// The checksum of each line that was read, as the writer writes it. A refused line counts as an empty one.
#[inline(always)]
pub fn rewritten<I: Implementation>(lines: &[u8], out: &mut [u8]) -> u64 {
    let mut sums = Sums::default();
    for record in lines.chunks_exact(LINE) {
        let count = I::read(line_in(record)).map_or(0, |answer| I::write(&answer, out).count);
        sums.add(count as u64);
        sums.add_bytes(part(out, 0, count));
    }
    sums.high
}

/// The checksum of the field of each number and of whether it holds it: ten spaces where it does not.
#[inline(always)]
pub fn fields<I: Implementation>(numbers: &[u8]) -> u64 {
    let mut sums = Sums::default();
    for record in numbers.chunks_exact(NUMBER) {
        let &[decimals, negative, a, b, c, d, e, f] = record else { continue };
        let size = i64::from_le_bytes([a, b, c, d, e, f, 0, 0]);
        let field = I::field(decimals, if negative != 0 { -size } else { size });
        sums.add(field.is_some().into());
        sums.add_bytes(&field.unwrap_or([b' '; 10]));
    }
    sums.high
}
