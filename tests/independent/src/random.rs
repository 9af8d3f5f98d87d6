//! Random scripts for replay and random captures for decode, all from a seed. While a script is made it is also run on the good
//! module, so that loads and numbers can be aimed at the edges of the zero, tare and count in force.

use crate::cases::run;
use crate::compare::Script;
use crate::module::{Module, State, COMMANDS};
use crate::on_change::least_change;
use crate::profile::{Profile, TEXT_ROOMS};
use crate::replay::{Called, Replay};
use crate::weight::{number_text, ten_to, Places, Range, Scale, Unit, UNITS};

/// A small generator of numbers (splitmix64).
pub struct Rng(u64);

impl Rng {
    pub fn new(seed: u64) -> Rng {
        Rng(seed)
    }

    pub fn next(&mut self) -> u64 {
        self.0 = self.0.wrapping_add(0x9e37_79b9_7f4a_7c15);
        let mut z = self.0;
        z = (z ^ (z >> 30)).wrapping_mul(0xbf58_476d_1ce4_e5b9);
        z = (z ^ (z >> 27)).wrapping_mul(0x94d0_49bb_1331_11eb);
        z ^ (z >> 31)
    }

    pub fn below(&mut self, n: usize) -> usize {
        (self.next() % n as u64) as usize
    }

    fn chance(&mut self, percent: usize) -> bool {
        self.below(100) < percent
    }

    fn between(&mut self, low: i128, high: i128) -> i128 {
        low + i128::from(self.next()).rem_euclid((high - low + 1).max(1))
    }

    fn pick<T: Copy>(&mut self, from: &[T]) -> T {
        from[self.below(from.len())]
    }
}

/// One x with x * a / b halfway between two whole numbers, the least that is not negative, and the distance to the next such x.
pub fn tie(a: i128, b: i128) -> Option<(i128, i128)> {
    let (g, inverse) = gcd_and_inverse(2 * a, 2 * b);
    let every = 2 * b / g;
    (b % g == 0).then(|| ((b / g * inverse).rem_euclid(every), every))
}

/// g = gcd(a, b) and the inverse of a / g modulo b / g.
fn gcd_and_inverse(a: i128, b: i128) -> (i128, i128) {
    let (mut r, mut s) = ((a, b), (1, 0));
    while r.1 != 0 {
        let q = r.0 / r.1;
        r = (r.1, r.0 - q * r.1);
        s = (s.1, s.0 - q * s.1);
    }
    (r.0, s.0.rem_euclid(b / r.0))
}

/// A number from low to high halfway between two roundings, if there is one.
fn some_tie(rng: &mut Rng, a: i128, b: i128, low: i128, high: i128) -> Option<i128> {
    let (first, every) = tie(a, b)?;
    let lowest = low + (first - low).rem_euclid(every);
    (lowest <= high).then(|| lowest + every * rng.between(0, (high - lowest) / every))
}

// Profiles.

/// With so many decimals or more.
fn any_places(rng: &mut Rng, fewest: u8) -> Places {
    Places { decimals: rng.between(fewest.into(), 6) as u8, step: rng.pick(&[1, 1, 2, 5]) }
}

/// What no capacity and no margin refuses.
const ROOMY: Places = Places { decimals: 0, step: 1 };
/// What is refused least beside a coarse range.
const ROOMY_COARSE: Places = Places { decimals: 2, step: 1 };

fn roomy(profile: &Profile) -> Places {
    if profile.has_coarse_range() {
        ROOMY_COARSE
    } else {
        ROOMY
    }
}

/// Each unit's decimals and step, of which those that these limits refuse are drawn again.
fn good_places(rng: &mut Rng, mut profile: Profile) -> Profile {
    let roomy = roomy(&profile);
    profile.places = [roomy; 9];
    for unit in UNITS {
        loop {
            profile.places[unit.index()] = any_places(rng, roomy.decimals);
            if !profile.is_refused(None) {
                break;
            }
        }
    }
    profile
}

fn any_capacity(rng: &mut Rng) -> u32 {
    let round = [1, 2, 9, 999, 10_000, 1_000_000, 99_999_999, 100_000_000, 220_000_000, 999_999_999, 1_000_000_000];
    if rng.chance(50) {
        rng.pick(&round)
    } else {
        rng.between(1, 1_000_000_000) as u32
    }
}

fn part_of(rng: &mut Rng, capacity: u32) -> u32 {
    match rng.below(6) {
        0 => 0,
        1 => 1.min(capacity),
        2 => capacity,
        3 => capacity.saturating_sub(1),
        _ => rng.between(0, capacity.into()) as u32,
    }
}

fn any_patience(rng: &mut Rng) -> u32 {
    if rng.chance(90) {
        rng.between(1, 5) as u32
    } else {
        rng.pick(&[6, 17, 999, 1_000])
    }
}

fn text_of(rng: &mut Rng, room: usize) -> Vec<u8> {
    let length = if rng.chance(50) { rng.pick(&[0, 1, room - 1, room]) } else { rng.below(room + 1) };
    (0..length).map(|_| text_byte(rng)).collect()
}

fn text_byte(rng: &mut Rng) -> u8 {
    let byte = if rng.chance(70) { rng.between(32, 126) } else { rng.between(32, 255) } as u8;
    if byte == b'"' {
        b'!'
    } else {
        byte
    }
}

fn texts(rng: &mut Rng) -> [Vec<u8>; 4] {
    TEXT_ROOMS.map(|room| text_of(rng, room))
}

/// A good profile, with the unit that its limits were drawn for. More than half of them have a coarse range.
fn good_profile(rng: &mut Rng) -> (Profile, Unit) {
    let unit = rng.pick(&UNITS);
    let coarse = rng.chance(55);
    loop {
        let capacity = any_capacity(rng);
        let (margin, zeroing) = (part_of(rng, capacity), part_of(rng, capacity));
        let fine = if coarse { 0 } else { capacity };
        let (patience, texts) = (any_patience(rng), texts(rng));
        let mut profile = Profile { capacity, margin, zeroing, patience, fine, places: [ROOMY; 9], texts };
        profile.places = [roomy(&profile); 9];
        profile.places[unit.index()] = any_places(rng, profile.places[0].decimals);
        let profile = match rng.below(100) {
            0..=19 => widest(rng, profile),
            20..=44 => at_a_step(rng, profile, unit),
            _ => profile,
        };
        if !profile.is_refused(None) {
            let places = profile.places[unit.index()];
            let mut good = good_places(rng, profile);
            good.places[unit.index()] = places;
            if coarse {
                good.fine = fine_limit(rng, &good, unit);
            }
            return (good, unit);
        }
    }
}

/// A fine limit below C: at an end, or at some display steps of a range, half of one more, or a microgram beside them.
fn fine_limit(rng: &mut Rng, profile: &Profile, unit: Unit) -> u32 {
    let most = i128::from(profile.capacity) - 1;
    let any = rng.between(0, most);
    let limit = match rng.below(10) {
        0 | 1 => 0,
        2 => 1,
        3 => most,
        4 | 5 => any,
        _ => {
            let step = rng.pick(&[Range::Fine, Range::Coarse, Range::Coarse]);
            near_step(rng, any, profile.scale(unit).in_range(step)) + rng.pick(&[-1, 0, 0, 0, 1])
        }
    };
    limit.clamp(0, most) as u32
}

/// The micrograms of the display steps up to a weight, or of half a step more.
fn near_step(rng: &mut Rng, micrograms: i128, scale: Scale) -> i128 {
    let (above, below) = (i128::from(scale.step) * scale.unit.nanograms(), 1000 * ten_to(scale.decimals.into()));
    let halves = 2 * (micrograms * below / above) + rng.pick(&[0, 0, 1]);
    (halves * above + below) / (2 * below)
}

/// The largest capacity or margin that still fits ten characters.
fn widest(rng: &mut Rng, mut profile: Profile) -> Profile {
    if rng.chance(50) {
        profile.margin = 0;
        profile.zeroing = 0;
        profile = widest_of(profile);
        profile.zeroing = part_of(rng, profile.capacity.max(1));
    } else {
        profile.margin = largest(profile.capacity, |margin| !Profile { margin, ..profile.clone() }.is_refused(None));
    }
    profile
}

fn widest_of(profile: Profile) -> Profile {
    let capacity = largest(1_000_000_000, |capacity| !profile.clone().with_capacity(capacity).is_refused(None));
    profile.with_capacity(capacity)
}

/// A capacity at the micrograms of some display steps or beside them, so that a typed tare meets it.
fn at_a_step(rng: &mut Rng, profile: Profile, unit: Unit) -> Profile {
    let Scale { decimals, step, .. } = profile.scale(unit);
    let (above, below) = (i128::from(step) * unit.nanograms(), 1000 * ten_to(decimals.into()));
    let most = i128::from(profile.capacity) * below / above;
    let any = rng.between(0, most);
    let steps = if rng.chance(30) { some_tie(rng, above, below, 0, most).unwrap_or(any) } else { any };
    let micrograms = (2 * steps * above + below) / (2 * below) + rng.pick(&[-1, 0, 0, 0, 1]);
    with_capacity(profile, micrograms.max(0) as u32)
}

/// The largest number up to a limit that passes, if passing ends somewhere.
pub fn largest(limit: u32, passes: impl Fn(u32) -> bool) -> u32 {
    let (mut low, mut high) = (0, limit);
    while low < high {
        let middle = low + (high - low).div_ceil(2);
        if passes(middle) {
            low = middle;
        } else {
            high = middle - 1;
        }
    }
    low
}

/// A profile with one line broken, as a rule by the least that breaks it; one of the nine units' lines are broken in it alone.
fn bad_profile(rng: &mut Rng, good: &Profile) -> Profile {
    let mut bad = good.clone();
    if rng.chance(60) {
        bad.places = [roomy(good); 9];
    }
    let unit = rng.pick(&UNITS);
    let at = unit.index();
    match rng.below(22) {
        16 => bad.fine = rng.pick(&[bad.capacity + 1, bad.capacity + 1, u32::MAX]),
        17 | 18 => {
            bad.places = if good.has_coarse_range() { bad.places } else { [ROOMY_COARSE; 9] };
            bad.places[at] = Places { decimals: rng.pick(&[0, 1, 1]), step: 1 };
            bad.fine = part_of(rng, bad.capacity - 1);
        }
        19..=21 => bad = unfit_coarse(rng, good),
        0 => (bad.capacity, bad.margin, bad.zeroing, bad.fine) = (0, 0, 0, 0),
        1 => {
            let capacity = rng.pick(&[1_000_000_001, 1_000_000_001, u32::MAX]);
            bad = Profile { capacity, fine: capacity, places: [ROOMY; 9], ..bad };
        }
        2 => bad.margin = rng.pick(&[bad.capacity + 1, u32::MAX]),
        3 => bad.zeroing = rng.pick(&[bad.capacity + 1, u32::MAX]),
        4 => bad.patience = 0,
        5 => bad.patience = rng.pick(&[1_001, 1_001, u32::MAX]),
        6 | 7 => bad.places[at].step = rng.pick(&[3, 3, 0, 4, 6, 10, 255]),
        8 => bad.places[at].decimals = rng.pick(&[7, 7, 8, 255]),
        9 => {
            (bad.capacity, bad.margin, bad.zeroing) = (1_000, 9, 9);
            bad.places[at] = Places { decimals: 7, step: rng.pick(&[1, 5]) };
        }
        10 => {
            (bad.capacity, bad.margin, bad.zeroing) = (1_000, 9, 9);
            let below =
                [(Unit::Grain, 5, 1), (Unit::Grain, 6, 5), (Unit::Milligram, 4, 5), (Unit::Carat, 6, 2), (Unit::Carat, 6, 1)];
            let (unit, decimals, step) = rng.pick(&below);
            bad.places[unit.index()] = Places { decimals, step };
        }
        11..=13 => bad = unfit(rng, good),
        at => {
            let text = &mut bad.texts[rng.below(4)];
            text.pop();
            let byte = if at == 14 { b'"' } else { rng.pick(&[31, 31, 0, 9, 13]) };
            text.insert(rng.below(text.len() + 1), byte);
        }
    }
    bad
}

/// One unit that no longer fits its ten characters, or any of them: by a margin or a capacity that is one more than fits. Ounces,
/// kilograms and pounds always fit.
fn unfit(rng: &mut Rng, good: &Profile) -> Profile {
    let mut bad = good.clone();
    if rng.chance(70) {
        let unit = rng.pick(&[Unit::Gram, Unit::Milligram, Unit::Carat, Unit::Grain, Unit::Pennyweight]);
        bad.places = [ROOMY; 9];
        let fine = rng.pick(&[(2, 1), (3, 1), (4, 1), (5, 5), (6, 5)]);
        let (decimals, step) = if unit == Unit::Milligram { rng.pick(&[(2, 1), (3, 1), (3, 2)]) } else { fine };
        bad.places[unit.index()] = Places { decimals, step };
    }
    if rng.chance(50) {
        bad.margin = largest(bad.capacity, |margin| !Profile { margin, ..bad.clone() }.is_refused(None)) + 1;
    } else {
        (bad.margin, bad.zeroing) = (0, 0);
        let widest = widest_of(bad);
        bad = widest.clone().with_capacity(widest.capacity + 1);
    }
    bad
}

/// One unit whose lowest net fits in the fine range and, one more than the largest that does, not in the coarse one.
fn unfit_coarse(rng: &mut Rng, good: &Profile) -> Profile {
    let (unit, decimals) = rng.pick(&[
        (Unit::Gram, 6),
        (Unit::Milligram, 2),
        (Unit::Milligram, 3),
        (Unit::Milligram, 3),
        (Unit::Carat, 5),
        (Unit::Grain, 4),
        (Unit::Pennyweight, 5),
    ]);
    let mut bad = Profile { margin: 0, zeroing: 0, fine: 0, places: [ROOMY_COARSE; 9], ..good.clone() };
    bad.places[unit.index()] = Places { decimals, step: 1 };
    let widest = widest_of(bad);
    let mut bad = widest.clone().with_capacity(widest.capacity + rng.pick(&[0, 1, 1, 1]));
    if rng.chance(30) {
        // The same net by a margin.
        (bad.capacity, bad.margin) = (bad.capacity - bad.capacity / 3, bad.capacity / 3);
    }
    bad.fine = part_of(rng, bad.capacity - 1);
    bad
}

/// A profile's lines but for its texts. The first sets F to C, so that F has a line of its own only if it is not that.
pub fn profile_lines(profile: &Profile) -> Vec<String> {
    let fine = (profile.fine != profile.capacity).then(|| fine_line(profile));
    [numbers_line(profile)].into_iter().chain(fine).chain(UNITS.map(|unit| unit_line(profile.scale(unit)))).collect()
}

fn numbers_line(Profile { capacity, margin, zeroing, patience, .. }: &Profile) -> String {
    format!("profile {capacity} {margin} {zeroing} {patience}")
}

fn fine_line(profile: &Profile) -> String {
    format!("fine {}", profile.fine)
}

fn unit_line(Scale { unit, decimals, step }: Scale) -> String {
    format!("unit {} {decimals} {step}", unit.name())
}

fn whole_part(number: &str) -> &str {
    number.split('.').next().unwrap_or(number)
}

/// At least 1; margin, zeroing range and fine limit stay within it.
fn with_capacity(profile: Profile, capacity: u32) -> Profile {
    let capacity = capacity.max(1);
    let Profile { margin, zeroing, fine, .. } = profile.clone().with_capacity(capacity);
    Profile { capacity, margin: margin.min(capacity), zeroing: zeroing.min(capacity), fine: fine.min(capacity), ..profile }
}

/// C drawn in to a limit, or U + C to one below zero, or to just below it; C keeps room for the tare.
fn narrowed_to(former: &Profile, limit: i64, tare: u32, below: u32) -> Profile {
    let size = limit.unsigned_abs() as u32;
    if limit >= 0 {
        return with_capacity(former.clone(), size.saturating_sub(below));
    }
    let other = with_capacity(former.clone(), former.capacity.min(tare.max(size - size / 3)));
    let margin = size.saturating_sub(other.capacity).saturating_sub(below).min(other.capacity);
    Profile { margin, ..other }
}

/// A line with its CR LF, all good.
fn ended(line: Vec<u8>) -> Vec<(u8, bool)> {
    line.into_iter().chain(*b"\r\n").map(|byte| (byte, true)).collect()
}

fn text_line(at: usize, text: &[u8]) -> Vec<u8> {
    [format!("text {} ", at + 2).as_bytes(), text].concat()
}

// Scripts.

/// No history makes more calls than this without a `state` line between them, and each ends with one. Command lines and runs of
/// bytes that are longer are sent in pieces.
pub const MOST_UNSEEN: usize = 20;

/// A script that starts anew: profile, texts, room, power-on.
pub fn script(rng: &mut Rng) -> Script {
    let mut maker = Maker { replay: Replay::new(Module::default()), lines: vec![], unseen: 0, taken: 0, rng };
    maker.start();
    for _ in 0..maker.rng.between(8, 45) {
        maker.step();
    }
    maker.look();
    maker.lines
}

struct Maker<'r> {
    rng: &'r mut Rng,
    replay: Replay,
    lines: Script,
    /// The calls since the last `state`.
    unseen: usize,
    /// The bytes that the last line took, if it was a whole-buffer call.
    taken: usize,
}

impl Maker<'_> {
    /// Adds a line, with `state` before it where that is due, and often after it.
    fn add(&mut self, line: Vec<u8>) {
        let (mut calls, mut taken) = (0, 0);
        self.replay.line(&line, &mut vec![], &mut |event| {
            calls += 1;
            if let Called::Buffer(singly) = event.called {
                taken = singly.count;
            }
        });
        self.taken = taken;
        assert!(calls <= MOST_UNSEEN, "a script line makes too many calls");
        if self.unseen + calls > MOST_UNSEEN {
            self.look();
        }
        self.lines.push(line);
        self.unseen += calls;
        if calls > 0 && self.rng.chance(30) {
            self.look();
        }
    }

    /// `state` changes nothing, so the replay need not run it.
    fn look(&mut self) {
        self.lines.push(b"state".to_vec());
        self.unseen = 0;
    }

    fn say(&mut self, text: &str) {
        self.add(text.as_bytes().to_vec());
    }

    fn start(&mut self) {
        let (good, unit) = good_profile(self.rng);
        self.say("room 384");
        for line in profile_lines(&good) {
            self.say(&line);
        }
        if self.rng.chance(20) {
            let bad = bad_profile(self.rng, &good);
            self.set_profile(&bad, true);
            self.say("on");
            if self.rng.chance(50) {
                self.command();
                self.sample();
            }
        }
        self.set_profile(&good, true);
        self.say("on");
        self.first_unit(unit);
        if self.rng.chance(80) {
            self.sample();
        }
    }

    /// As a rule the unit that the profile was drawn for; g stays in some histories.
    fn first_unit(&mut self, unit: Unit) {
        if self.rng.chance(80) {
            self.send(format!("M21 0 {}", unit.code()).into_bytes());
        }
    }

    /// The lines of the profile that the script does not stand at already; those of its texts where they are asked for.
    fn set_profile(&mut self, profile: &Profile, with_texts: bool) {
        if numbers_line(profile) != numbers_line(&self.replay.profile) {
            self.say(&numbers_line(profile));
        }
        if profile.fine != self.replay.profile.fine {
            self.say(&fine_line(profile));
        }
        for unit in UNITS {
            if profile.scale(unit) != self.replay.profile.scale(unit) {
                self.say(&unit_line(profile.scale(unit)));
            }
        }
        if with_texts {
            for (at, text) in profile.texts.iter().enumerate() {
                self.add(text_line(at, text));
            }
        }
    }

    fn step(&mut self) {
        match self.rng.below(112) {
            106..=107 => self.move_limit(),
            108..=111 => self.cross_limit(),
            100..=104 => self.change_units(),
            105 => self.unit_alone(),
            0..=23 => self.sample(),
            24..=27 => self.buffers(),
            28 => self.odd_buffer(),
            29..=30 => self.show(),
            31..=59 => self.command(),
            60..=69 => self.odd_line(),
            70..=71 => self.type_tares(),
            72..=78 => self.raw_line(),
            79..=81 => self.short_room(),
            82..=84 => self.other_profile(),
            85 => self.new_text(),
            86 => self.odd_script_line(),
            87 => self.say("on"),
            88..=91 => self.wait(),
            92..=93 => self.repeat(),
            94..=97 => self.send_on_change(),
            _ => self.tare_and_weigh(),
        }
    }

    fn state(&self) -> State {
        self.replay.state.clone().unwrap_or_default()
    }

    /// What weights are printed in now.
    fn scale(&self) -> Scale {
        self.replay.profile.scale(self.state().unit)
    }

    // Samples.

    fn sample(&mut self) {
        let load = self.load();
        self.put_mostly(load, 55);
    }

    fn sample_of(&mut self, stable: bool) {
        let load = self.load();
        self.put(load, stable);
    }

    /// Stable so often, in per cent.
    fn put_mostly(&mut self, load: i128, percent: usize) {
        let stable = self.rng.chance(percent);
        self.put(load, stable);
    }

    fn put(&mut self, load: i128, stable: bool) {
        let load = load.clamp(i32::MIN.into(), i32::MAX.into());
        let mark = if stable { "s" } else { "u" };
        let zeros = if (0..1_000_000).contains(&load) && self.rng.chance(2) { "000" } else { "" };
        self.say(&format!("{mark} {zeros}{load}"));
    }

    /// A load at or near an edge: of capacity, margin, zeroing range, fine limit, 32 bits, a tie of the rounding, or what a running SR
    /// sends.
    fn load(&mut self) -> i128 {
        let profile = self.replay.profile.clone();
        let state = self.state();
        if let Some(load) = self.changed_load(&profile, &state).filter(|_| self.rng.chance(40)) {
            return load;
        }
        let (zero, tare) = (i128::from(state.zero), i128::from(state.tare));
        let (capacity, margin) = (i128::from(profile.capacity), i128::from(profile.margin));
        let range = i128::from(profile.zeroing);
        let near = self.rng.pick(&[-1, 0, 0, 0, 1]);
        match self.rng.below(23) {
            20 => zero + i128::from(profile.fine) + near,
            21 => zero + tare + i128::from(profile.fine) + near,
            22 => i128::from(profile.fine) + near,
            0 => zero + capacity + near,
            1 => zero - margin + near,
            2 => zero + near,
            3 => zero + tare + near,
            4 => range + near,
            5 => -range + near,
            6 => self.rng.pick(&[i32::MIN.into(), i32::MAX.into(), 0]) + near,
            7 => self.rng.between(-range, range),
            8 => zero + tare - self.rng.between(0, 60),
            9..=13 => zero + tare + self.net_tie(&profile) + near,
            14 => self.rng.between(i32::MIN.into(), i32::MAX.into()),
            15 => state.latest.map_or(0, |sample| sample.load.into()) + near,
            _ => zero + self.rng.between(-margin, capacity),
        }
    }

    /// A load by which net differs from the last one that SR sent by about its threshold, or not at all; none if it does not run.
    fn changed_load(&mut self, profile: &Profile, state: &State) -> Option<i128> {
        let memory = state.on_change().filter(|_| !profile.is_refused(None))?;
        let unit = if self.rng.chance(15) { self.rng.pick(&UNITS) } else { state.unit };
        let least = least_change(memory.last.into(), memory.threshold, profile.scale(unit));
        let by = self.rng.pick(&[0, least - 1, least - 1, least, least, least, least + 1]);
        Some(i128::from(state.zero + state.tare + memory.last) + self.rng.pick(&[-1, 1]) * by)
    }

    /// A net that is printed with a tie in one of the ranges, or nearly; in the coarse one as a rule with a gross above F.
    fn net_tie(&mut self, profile: &Profile) -> i128 {
        let coarse = profile.has_coarse_range() && self.rng.chance(50);
        let range = if coarse { Range::Coarse } else { Range::Fine };
        let Scale { unit, decimals, step } = profile.scale(self.state().unit).in_range(range);
        if decimals > 7 {
            return 0;
        }
        let (above, below) = (1000 * ten_to(decimals.into()), i128::from(step.max(1)) * unit.nanograms());
        let (capacity, tare) = (i128::from(profile.capacity), i128::from(self.state().tare));
        let lowest = if coarse { i128::from(profile.fine) - tare } else { -capacity };
        let (low, high) = if self.rng.chance(40) {
            let near = if coarse { lowest.max(0) } else { 0 };
            (near - 2 * below / above - 2, near + 2 * below / above + 2)
        } else {
            (lowest, capacity - if coarse { tare } else { 0 })
        };
        match some_tie(self.rng, above, below, low, high) {
            Some(net) => net,
            None => (2 * self.rng.between(-9, 9) + 1) * below / (2 * above),
        }
    }

    // Commands.

    fn command(&mut self) {
        let line = self.command_line();
        self.send(line);
    }

    /// Sends a line as `> ..`, with CR LF at most as many bytes as may go unseen; what stands before them is sent as bytes, and now
    /// and then more. Other lines are sent in whole buffers.
    fn send(&mut self, line: Vec<u8>) {
        if self.rng.chance(15) {
            self.send_in_buffers(&ended(line));
            return;
        }
        let least = line.len().saturating_sub(MOST_UNSEEN - 2);
        let most = if self.rng.chance(10) { line.len() } else { least };
        let (front, rest) = line.split_at(self.rng.between(least as i128, most as i128) as usize);
        self.send_marked(&front.iter().map(|&byte| (byte, true)).collect::<Vec<_>>());
        self.add([b"> ", rest].concat());
    }

    fn command_line(&mut self) -> Vec<u8> {
        const NAMES: [&str; 32] = [
            "S", "S", "S", "SI", "SI", "SI", "SI", "SIR", "SIR", "SR", "SR", "T", "T", "T", "TI", "TI", "Z", "Z", "ZI", "ZI",
            "TA", "TA", "TAC", "@", "D", "DW", "I0", "I1", "I2", "I3", "I4", "I5",
        ];
        match self.rng.below(100) {
            0..=14 => self.typed_line("TA"),
            15..=19 => self.shown_text(),
            20..=24 => self.typed_line("SR"),
            25..=31 => self.unit_command(),
            _ => self.rng.pick(&NAMES).as_bytes().to_vec(),
        }
    }

    /// TA or SR with a number and a unit, or nearly.
    fn typed_line(&mut self, name: &str) -> Vec<u8> {
        let number = if name == "TA" && self.rng.chance(60) { self.typed_tare() } else { self.typed_number() };
        let number = self.odd_number(number);
        let unit = self.state().unit.name().to_string();
        let other = self.rng.pick(&UNITS).name();
        let text = match self.rng.below(36) {
            0 => format!("{name} {number}"),
            1 => format!("{name} {number} {other}"),
            2 => format!("{name} {number} {}", unit.to_uppercase()),
            3 => format!("{name} {number} {}", unit.to_lowercase()),
            4 => format!("{name}  {number} {unit}"),
            5 => format!("{name} {number}  {unit}"),
            6 => format!("{name} {number} {unit} "),
            7 => format!("{name} {number}{unit}"),
            8 => format!("{name} {unit} {number}"),
            9 => format!("{name} {number} {unit}x"),
            10 => format!("{name} {}", self.rng.pick(&["", " ", "- g", ". g", " g", "1.2.3 g", "1 kg", "x"])),
            11 => format!("{name} {number} {}", self.rng.pick(&["g", "g", "kg", "lb"])),
            _ => format!("{name} {number} {unit}"),
        };
        text.into_bytes()
    }

    /// A number that TA rounds to some display steps, at a tie or beside one: to those near C, to those at a tie of the second
    /// rounding, or to any; now and then with as many more as 32 bits lose.
    fn typed_tare(&mut self) -> String {
        let (capacity, coarse) = (self.replay.profile.capacity, self.replay.profile.has_coarse_range());
        if coarse && self.rng.chance(50) {
            return self.typed_near_limit();
        }
        let range = if coarse && self.rng.chance(60) { Range::Coarse } else { Range::Fine };
        let Scale { unit, decimals, step } = self.scale().in_range(range);
        let (k, decimals) = (i128::from(step.max(1)), decimals.min(6));
        let (above, below) = (k * unit.nanograms(), 1000 * ten_to(decimals.into()));
        let most = (2 * i128::from(capacity) * below + above) / (2 * above);
        let steps = match self.rng.below(10) {
            0..=3 => most + self.rng.pick(&[-1, 0, 0, 0, 1]),
            4..=6 => some_tie(self.rng, above, below, 0, most).unwrap_or(most),
            7 => self.rng.between(0, 3),
            _ => self.rng.between(0, most),
        };
        let lost = if self.rng.chance(5) { (below << 32) / above } else { 0 };
        let halves = (2 * (steps + lost) + self.rng.pick(&[-1, -1, 0, 1, 1])).max(0);
        let (above, below) = (halves * k, 2 * ten_to(decimals.into()));
        let longest = 9usize.saturating_sub((above / below).to_string().len()).min(6);
        let typed = if self.rng.chance(70) { longest } else { self.rng.below(longest + 1) } as u8;
        let number = above * ten_to(typed.into()) / below + self.rng.pick(&[-1, 0, 0, 0, 1]);
        number_text(number.max(0), typed, false)
    }

    /// A number at F, at some steps or half ones beside it, or in the last place beside these.
    fn typed_near_limit(&mut self) -> String {
        let (limit, unit) = (i128::from(self.replay.profile.fine), self.state().unit);
        let range = self.rng.pick(&[Range::Fine, Range::Coarse]);
        let scale = self.scale().in_range(range);
        let step = i128::from(scale.step.max(1)) * unit.nanograms() / (1000 * ten_to(scale.decimals.min(6).into()));
        let micrograms = match self.rng.below(8) {
            0..=3 => limit,
            4 => near_step(self.rng, limit, Scale { step: scale.step.max(1), decimals: scale.decimals.min(6), ..scale }),
            _ => limit + self.rng.pick(&[-2, -1, 1, 2]) * step / 2,
        };
        let whole = micrograms * 1000 / unit.nanograms();
        let decimals = 9usize.saturating_sub(whole.max(0).to_string().len()).min(6) as u8;
        let number = micrograms * 1000 * ten_to(decimals.into()) / unit.nanograms() + self.rng.pick(&[-1, 0, 0, 0, 1, 1]);
        number_text(number.max(0), decimals, false)
    }

    /// A number near C, at a tie of its rounding to micrograms, or any.
    fn typed_number(&mut self) -> String {
        let nanograms = self.state().unit.nanograms();
        let capacity = i128::from(self.replay.profile.capacity);
        let decimals = self.rng.below(7) as u8;
        let below = 1000 * ten_to(decimals.into());
        let most = capacity * below / nanograms + 1;
        let ten = most.min(9_999_999_999);
        let number = match self.rng.below(10) {
            0..=1 => most + self.rng.between(-2, 2),
            2..=5 => some_tie(self.rng, nanograms, below, 0, ten).unwrap_or(ten),
            6 => self.rng.between(0, 3),
            _ => self.rng.between(0, ten),
        };
        number_text(number.max(0), decimals, false)
    }

    /// Now and then of an odd form.
    fn odd_number(&mut self, text: String) -> String {
        match self.rng.below(40) {
            0 => format!("-{text}"),
            1 => format!("+{text}"),
            2 => format!("{}.", whole_part(&text)),
            3 => text.trim_start_matches('0').to_string(),
            4 => format!("0{text}"),
            5 => format!("{:0>1$}", text, self.rng.pick(&[9, 10, 11])),
            6 => format!("{:0<1$}", text, self.rng.pick(&[9, 10, 11])),
            7 => text.replace('.', ","),
            8 => format!("0.{:07}", self.rng.below(10_000_000)),
            9 => format!("{text}e0"),
            _ => text,
        }
    }

    fn shown_text(&mut self) -> Vec<u8> {
        let length = self.rng.pick(&[0, 1, 5, 19, 20, 20, 21, 22, 57, 58]);
        let mut text: Vec<u8> = (0..length).map(|_| text_byte(self.rng)).collect();
        if self.rng.chance(10) && length > 0 {
            text[self.rng.below(length)] = b'"';
        }
        let (open, close): (&[u8], &[u8]) = match self.rng.below(14) {
            0 => (b"D \"", b""),
            1 => (b"D ", b"\""),
            2 => (b"D ", b""),
            3 => (b"D  \"", b"\""),
            4 => (b"D \"", b"\" "),
            5 => (b"D\"", b"\""),
            6 => (b"DW \"", b"\""),
            _ => (b"D \"", b"\""),
        };
        [open, &text, close].concat()
    }

    // Odd lines.

    fn odd_line(&mut self) {
        let line = self.odd_bytes();
        self.send(line.into_iter().filter(|&byte| byte != b'\n').collect());
    }

    fn odd_bytes(&mut self) -> Vec<u8> {
        let name = self.rng.pick(&COMMANDS).0.to_string();
        let letter = char::from(self.rng.pick(b"ABCDIJKRSTWXZ0123456789@ "));
        let text = match self.rng.below(16) {
            0 => name.to_lowercase(),
            1 => format!("{name}{letter}"),
            2 => format!("{letter}{name}"),
            3 => name[..name.len() - 1].to_string(),
            4 => name[1..].to_string(),
            5 => format!("{name} "),
            6 => format!("{name} 1"),
            7 => format!("{name} {letter}"),
            8 => format!(" {name}"),
            9 => String::new(),
            10 => format!("{name}{name}"),
            11 => self
                .rng
                .pick(&[
                    "SIX", "SIRR", "TAX", "TACT", "ZIR", "I6", "I", "I00", "DWA", "K", "SRX", "SRR", "SRU", "RS", "C", "s", "si",
                    "sr", "M2", "M211", "M22", "M20", "m21", "M21X",
                ])
                .to_string(),
            12 => return self.long_line(),
            13 => return self.long_line(),
            _ => return self.line_with_a_strange_byte(),
        };
        text.into_bytes()
    }

    /// A line of 62 to 67 bytes, or of many more.
    fn long_line(&mut self) -> Vec<u8> {
        let length = if self.rng.chance(80) { self.rng.between(62, 67) } else { self.rng.between(60, 200) } as usize;
        let mut line = self
            .rng
            .pick(&["S ", "D \"", "D ", "TA ", "@ ", "X", "T 1 ", "TA 1 g ", "SR ", "SR 1 g ", "M21 ", "M21 0 5 "])
            .as_bytes()
            .to_vec();
        let filler = self.rng.pick(b" x0\"");
        line.resize(length, filler);
        line
    }

    fn line_with_a_strange_byte(&mut self) -> Vec<u8> {
        let mut line = self.command_line();
        let strange = self.rng.pick(&[0, 9, 13, 13, 13, 27, 31, 32, 127, 128, 160, 255]);
        line.insert(self.rng.below(line.len() + 1), strange);
        line
    }

    // Bytes with their marks.

    /// A line with its CR LF, damaged in one place or several, as `b` and `f`.
    fn raw_line(&mut self) {
        let line = match self.rng.below(4) {
            0 => self.odd_bytes(),
            1 => self.long_line(),
            _ => self.command_line(),
        };
        let mut bytes = ended(line);
        for _ in 0..self.rng.pick(&[1, 1, 1, 2, 3]) {
            self.damage(&mut bytes);
        }
        if self.rng.chance(70) {
            bytes.extend([(13, true), (10, true)]);
        }
        if self.rng.chance(30) {
            self.send_in_buffers(&bytes);
        } else {
            self.send_marked(&bytes);
        }
    }

    fn damage(&mut self, bytes: &mut Vec<(u8, bool)>) {
        let length = bytes.len();
        let at = if self.rng.chance(50) { self.rng.below(length) } else { length - 1 - self.rng.below(3.min(length)) };
        match self.rng.below(8) {
            0..=2 => bytes[at].1 = false,
            3 => bytes.insert(at, (self.rng.pick(b"\r\n"), true)),
            4 => bytes.insert(at, (self.rng.pick(b"\r\n"), false)),
            5 if length > 1 => drop(bytes.remove(at)),
            6 => bytes.insert(at, bytes[at]),
            _ => bytes.extend([(13, true), (13, true), (10, true)]),
        }
    }

    fn send_marked(&mut self, bytes: &[(u8, bool)]) {
        for run in bytes.chunk_by(|a, b| a.1 == b.1).flat_map(|run| run.chunks(MOST_UNSEEN)) {
            let mut line = String::from(if run[0].1 { "b" } else { "f" });
            let lower = self.rng.chance(20);
            for (byte, _) in run {
                line += &if lower { format!(" {byte:02x}") } else { format!(" {byte:02X}") };
            }
            self.say(&line);
        }
    }

    // Whole buffers.

    /// Some lines, of which now and then one is damaged and the last one cut short.
    fn buffers(&mut self) {
        let most = if self.rng.chance(70) { 4 } else { 60 };
        let mut bytes = vec![];
        for _ in 0..self.rng.between(1, most) {
            let line = if self.rng.chance(80) { self.command_line() } else { self.odd_bytes() };
            let mut line = ended(line);
            if self.rng.chance(15) {
                self.damage(&mut line);
            }
            bytes.extend(line);
        }
        if self.rng.chance(30) {
            bytes.truncate(self.rng.below(bytes.len() + 1));
        }
        let roomy = self.rng.chance(40);
        if roomy {
            self.say("room 4096");
        }
        self.send_in_buffers(&bytes);
        if roomy {
            self.say("room 384");
        }
    }

    /// Cut at random, and now and then a piece as single bytes. Where the room runs out the rest comes again with another room, or is
    /// lost.
    fn send_in_buffers(&mut self, bytes: &[(u8, bool)]) {
        let room = self.replay.room;
        let mut rest = bytes;
        while !rest.is_empty() {
            let most = self.rng.pick(&[1, 5, 12, 40, 500, 500, 500]).min(rest.len());
            let size = if self.rng.chance(40) { most } else { self.rng.below(most + 1) };
            let (piece, after) = rest.split_at(size);
            if self.rng.chance(10) {
                self.send_marked(piece);
                rest = after;
                continue;
            }
            if self.rng.chance(50) {
                let room = self.room_for(piece);
                self.say(&format!("room {room}"));
            }
            let taken = self.send_buffer(piece);
            if taken < size && self.rng.chance(50) {
                self.look();
            }
            rest = if self.rng.chance(60) { &rest[taken..] } else { after };
        }
        if self.replay.room != room {
            self.say(&format!("room {room}"));
        }
    }

    /// A room at or beside one of the sums of the answers that are due, or any.
    fn room_for(&mut self, bytes: &[(u8, bool)]) -> i128 {
        if self.rng.chance(20) {
            return self.rng.pick(&[0, 3, 17, 30, 256, 384, 1024, 4095, 4096, 4096, 4096]);
        }
        let mut state = self.state();
        let mut sums = vec![0];
        for &(byte, good) in bytes {
            let due = Module::default().byte(&self.replay.profile, &mut state, byte, u8::from(!good), &mut [0; 384]).n;
            if due > 0 {
                sums.push(sums[sums.len() - 1] + due as i128);
            }
        }
        (self.rng.pick(&sums) + self.rng.pick(&[-1, 0, 0, 1])).clamp(0, 4096)
    }

    /// One whole-buffer call, now and then with a mark too few or too many; gives how many bytes it took.
    fn send_buffer(&mut self, bytes: &[(u8, bool)]) -> usize {
        let mut line = String::from(match self.rng.below(50) {
            0 if !bytes.is_empty() => "w-",
            1 => "w+",
            _ => "w",
        });
        let lower = self.rng.chance(20);
        for (byte, good) in bytes {
            line += &if lower { format!(" {byte:02x}") } else { format!(" {byte:02X}") };
            line += if *good { "" } else { "!" };
        }
        self.say(&line);
        self.taken
    }

    /// A buffer at the limits of its lengths.
    fn odd_buffer(&mut self) {
        const BYTES: [&str; 7] = ["20", "53", "0D", "0A", "00", "ff", "0d"];
        const COUNTS: [usize; 14] = [0, 1, 2, 64, 65, 255, 256, 257, 4095, 4096, 4097, 4097, 4098, 9999];
        let byte = self.rng.pick(&BYTES);
        let line = match self.rng.below(10) {
            0 => "w".to_string(),
            1 => "w+".to_string(),
            2 => format!("w+ {byte}"),
            3 => format!("w- {byte}"),
            4 => format!("w- {byte} {byte}!"),
            _ => run(self.rng.pick(&COUNTS), byte),
        };
        self.say(&line);
    }

    // Rooms, profiles, texts.

    fn short_room(&mut self) {
        let room = match self.rng.below(10) {
            0..=1 => self.rng.between(0, 3),
            2..=7 => self.rng.between(4, 30),
            8 => self.rng.between(256, 260),
            _ => self.rng.pick(&[31, 48, 49, 50, 255, 256, 257, 384, 1024, 4095, 4096]),
        };
        self.say(&format!("room {room}"));
        for _ in 0..self.rng.between(1, 4) {
            match self.rng.below(10) {
                0..=1 => self.say("> I0"),
                2 if self.rng.chance(50) => {
                    let line = self.unit_command();
                    self.send(line);
                }
                2 => self.say("on"),
                3..=5 => self.sample(),
                _ => self.command(),
            }
        }
        self.say("room 384");
        if self.rng.chance(60) {
            self.say("b 0A");
        }
    }

    /// A few calls on another profile, good or bad, then back to the former one or on again.
    fn other_profile(&mut self) {
        let former = self.replay.profile.clone();
        let other = match self.rng.below(10) {
            0..=2 => bad_profile(self.rng, &former),
            3 => good_profile(self.rng).0,
            _ => self.narrowed(&former),
        };
        let with_texts = other.texts != former.texts;
        self.set_profile(&other, with_texts);
        for _ in 0..self.rng.between(1, 4) {
            match self.rng.below(20) {
                0..=7 => self.sample(),
                8..=9 => self.odd_buffer(),
                _ => self.command(),
            }
        }
        if self.rng.chance(20) {
            self.say("on");
        }
        if self.rng.chance(70) {
            self.set_profile(&former, with_texts);
        } else if self.replay.profile.is_refused(None) {
            let (next, unit) = good_profile(self.rng);
            self.set_profile(&next, true);
            self.say("on");
            self.first_unit(unit);
        }
    }

    /// A limit drawn in to the zero, tare or count in force, or just below it.
    fn narrowed(&mut self, former: &Profile) -> Profile {
        let state = self.state();
        let mut other = former.clone();
        let below = self.rng.below(2) as u32;
        if let Some(limit) = self.limit_of_sr(&state).filter(|_| self.rng.chance(60)) {
            return narrowed_to(former, limit, state.tare as u32, below);
        }
        let chosen = if state.waiting.is_some() && self.rng.chance(60) { 3 } else { self.rng.below(5) };
        match chosen {
            0 => other = with_capacity(other, (state.tare as u32).saturating_sub(below)),
            1 | 2 => other.zeroing = (state.zero.unsigned_abs() as u32).saturating_sub(below),
            3 => other.patience = (state.waiting.map_or(1, |wait| wait.unstable + 1)).saturating_sub(below).max(1),
            _ => {
                let unit = if self.rng.chance(50) { state.unit } else { self.rng.pick(&UNITS) };
                other.places[unit.index()] = any_places(self.rng, roomy(former).decimals);
            }
        }
        other
    }

    /// The last net or the set threshold of an SR that runs or waits; as a rule the larger, so that it alone is out of its range.
    fn limit_of_sr(&mut self, state: &State) -> Option<i64> {
        let memory = state.on_change();
        let set = state.waiting.and_then(|wait| wait.threshold).or(memory.and_then(|memory| memory.threshold));
        let last = memory.map(|memory| memory.last);
        let larger = set.max(last);
        if self.rng.chance(70) {
            larger
        } else {
            last.or(larger)
        }
    }

    fn new_text(&mut self) {
        let at = self.rng.below(4);
        let text = text_of(self.rng, TEXT_ROOMS[at] + 1);
        self.add(text_line(at, &text));
        self.say(&format!("> I{}", at + 2));
    }

    fn odd_script_line(&mut self) {
        const LINES: [&str; 91] = [
            "x",
            "on ",
            " on",
            "On",
            "on\r",
            "off",
            "state ",
            " state",
            "State",
            "state x",
            "states",
            "state\r",
            "s",
            "s ",
            "s 1 ",
            "s  1",
            "s +1",
            "s 2147483648",
            "s -2147483649",
            "s -0",
            "s 00000000001",
            "u --1",
            "u 1.0",
            "u -",
            "S 1",
            "b",
            "b ",
            "b 4",
            "b 4G",
            "b 41  42",
            "b 414",
            "b 41 ",
            "f",
            "f 0x",
            "w ",
            "w 4",
            "w 41!!",
            "w 41 !",
            "w !41",
            "w 41! ",
            "w  41",
            "W 41",
            "w-",
            "w- ",
            "w+ ",
            "w*",
            "w* 41",
            "w* 1 41",
            "profile",
            "profile 1 1 1",
            "profile 1 1 1 1 1",
            "profile 1 1 1 1 g 4 1",
            "profile 4294967296 1 1 1",
            "profile 1 1 1 -1",
            "profile 1 1 1 1 ",
            "unit",
            "unit g",
            "unit g 1",
            "unit g 1 1 1",
            "unit t 1 1",
            "unit G 1 1",
            "unit KG 1 1",
            "unit 5 1 1",
            "unit g 256 1",
            "unit g 1 256",
            "unit g -1 1",
            "unit lb  1 1",
            "units g 1 1",
            "fine",
            "fine ",
            "fine x",
            "fine -1",
            "fine 1 ",
            "fine  1",
            "fine 1 1",
            "fine 4294967296",
            "fine 00000000001",
            "fine 1.0",
            "fine 1\r",
            "Fine 1",
            "fines 1",
            "fine1",
            "room",
            "room 4097",
            "room -1",
            "room 10 ",
            "text 1 x",
            "text 6 x",
            ">",
            "# note",
            "",
        ];
        let line = self.rng.pick(&LINES);
        self.say(line);
    }

    // Short scenes, so that deep states are met often.

    /// M21 as it is asked or set, or nearly.
    fn unit_command(&mut self) -> Vec<u8> {
        let code = self.rng.pick(&UNITS).code();
        match self.rng.below(10) {
            0 | 1 => b"M21".to_vec(),
            2 | 3 => self.odd_unit_command(code).into_bytes(),
            4 => format!("M21 0 {}", self.state().unit.code()).into_bytes(),
            _ => format!("M21 0 {code}").into_bytes(),
        }
    }

    fn odd_unit_command(&mut self, code: &str) -> String {
        const OTHERS: [&str; 34] = [
            "2",
            "4",
            "4",
            "6",
            "12",
            "13",
            "14",
            "17",
            "18",
            "19",
            "20",
            "20",
            "21",
            "22",
            "23",
            "24",
            "25",
            "99",
            "100",
            "255",
            "256",
            "256",
            "257",
            "261",
            "263",
            "265",
            "4294967296",
            "4294967296",
            "4294967301",
            "18446744073709551621",
            "x",
            "g",
            "ct",
            "lb",
        ];
        let other = self.rng.pick(&OTHERS);
        match self.rng.below(21) {
            0 => "M21 ".to_string(),
            1 => "M21 0".to_string(),
            2 => "M21 0 ".to_string(),
            3 | 4 => format!("M21 0 0{code}"),
            5 => format!("M21 00 {code}"),
            6 => format!("M21 1 {code}"),
            7 => format!("M21 2 {code}"),
            8 => format!("M21 0  {code}"),
            9 => format!("M21 0 {code} "),
            10 => format!("M21 {code}"),
            11 => format!("M21 0 +{code}"),
            12 => format!("M21  0 {code}"),
            13 => format!("M21 0 {code} {code}"),
            _ => format!("M21 0 {other}"),
        }
    }

    /// Other units come into force, with what has to stay or to follow: a tare, a typed one, a repetition, SR and a set threshold, what
    /// is owed, a text that is shown, a wait.
    fn change_units(&mut self) {
        match self.rng.below(8) {
            0 => self.say("> SIR"),
            1 | 2 => {
                let load = self.first_load();
                self.put(load, true);
                let line = self.sr_line();
                self.send(line);
            }
            3 => {
                let line = self.typed_line("TA");
                self.send(line);
            }
            4 => self.tare_or_zero(),
            5 => {
                self.sample_of(false);
                let line = self.rng.pick(&["> T", "> S", "> Z", "> SR", "> D \"UNIT\""]);
                self.say(line);
            }
            _ => {}
        }
        for _ in 0..self.rng.between(1, 4) {
            let line = self.unit_command();
            self.send(line);
            match self.rng.below(16) {
                0..=3 => self.say("> TA"),
                4..=6 => self.sample_near_change(),
                7 => self.say("> @"),
                8 => self.say("> M21"),
                9 => {
                    let line = self.typed_line("TA");
                    self.send(line);
                }
                10 => {
                    let line = self.typed_line("SR");
                    self.send(line);
                }
                _ => {
                    self.sample();
                    self.say("> SI");
                }
            }
        }
        if self.rng.chance(60) {
            self.say("> M21");
        }
    }

    /// F moved to the tare or gross in force or a microgram below, to C or above it, and a few answers; then as it was, by its line or
    /// by that of the profile.
    fn move_limit(&mut self) {
        let (former, state) = (self.replay.profile.clone(), self.state());
        let gross = state.latest.map_or(0, |sample| i64::from(sample.load)) - state.zero;
        let limit = match self.rng.below(8) {
            0 => self.rng.pick(&[u32::MAX, former.capacity.saturating_add(1)]),
            1 => former.capacity,
            2 => part_of(self.rng, former.capacity),
            3 | 4 => state.tare as u32,
            _ => gross.clamp(0, former.capacity.into()) as u32,
        };
        let below = self.rng.below(2) as u32;
        self.say(&format!("fine {}", limit.saturating_sub(below)));
        for _ in 0..self.rng.between(2, 4) {
            match self.rng.below(9) {
                0 => self.say("on"),
                1 => self.sample(),
                2 => self.new_text(),
                3 => {
                    let line = self.typed_line("TA");
                    self.send(line);
                }
                4 | 5 => self.say("> TA"),
                6 => self.say("> TI"),
                _ => self.say("> SI"),
            }
        }
        if self.rng.chance(30) {
            self.say(&numbers_line(&former));
            self.say("> TA");
        }
        self.set_profile(&former, false);
    }

    /// Loads at both sides of F, with a tare and without, read, tared and sent by what runs.
    fn cross_limit(&mut self) {
        let start = self.rng.pick(&["> SIR", "> SR", "> SR", "> TAC", "> T", "> TI"]);
        self.say(start);
        for _ in 0..self.rng.between(2, 5) {
            let (profile, state) = (self.replay.profile.clone(), self.state());
            let beside = i128::from(state.zero) + i128::from(profile.fine);
            let load = match self.rng.below(6) {
                0 => beside + i128::from(state.tare),
                1 => beside + self.rng.between(-3000, 3000),
                2 => self.changed_load(&profile, &state).unwrap_or(beside),
                3 => i128::from(state.zero + state.tare) + self.net_tie(&profile),
                _ => beside + self.rng.pick(&[-1, 0, 0, 1]),
            };
            self.put_mostly(load, 60);
            match self.rng.below(8) {
                0 => self.say("> T"),
                1 => self.say("> TI"),
                2 => self.say("> TA"),
                3 => {
                    let line = self.typed_line("TA");
                    self.send(line);
                }
                4 => {
                    let line = self.rng.pick(&["> Z", "> ZI", "> TAC", "> SIR", "> SR"]);
                    self.say(line);
                }
                _ => self.say("> SI"),
            }
        }
        self.say("> TA");
    }

    /// One unit's line alone, good or bad, and a few calls; then as it was.
    fn unit_alone(&mut self) {
        let former = self.replay.profile.clone();
        let unit = if self.rng.chance(40) { self.state().unit } else { self.rng.pick(&UNITS) };
        let (decimals, step) =
            (self.rng.pick(&[0, 1, 3, 4, 5, 6, 6, 7, 7, 8, 255]), self.rng.pick(&[0, 1, 1, 2, 3, 4, 5, 5, 10, 255]));
        self.say(&unit_line(Scale { unit, decimals, step }));
        for _ in 0..self.rng.between(1, 3) {
            match self.rng.below(5) {
                0 => self.sample(),
                1 => self.say("on"),
                2 => {
                    let line = self.unit_command();
                    self.send(line);
                }
                _ => self.command(),
            }
        }
        self.set_profile(&former, false);
    }

    /// A command waits for a stable sample; now and then another line comes in between.
    fn wait(&mut self) {
        if self.rng.chance(70) {
            self.sample_of(false);
        }
        let line = if self.rng.chance(25) { self.sr_line() } else { self.rng.pick(&[b"S", b"T", b"T", b"Z", b"Z"]).to_vec() };
        self.send(line);
        if self.state().waiting.is_some_and(|wait| wait.threshold.is_some()) && self.rng.chance(90) {
            self.other_profile();
        }
        self.wait_on();
        self.say("> TA");
        self.say("> SI");
    }

    fn wait_on(&mut self) {
        let patience = self.replay.profile.patience.min(8);
        for _ in 0..self.rng.between(0, i128::from(patience) + 1) {
            self.sample_of(false);
            match self.rng.below(12) {
                0 => self.command(),
                1 => self.odd_line(),
                2 | 3 => self.other_profile(),
                _ => {}
            }
        }
        self.sample();
    }

    fn repeat(&mut self) {
        self.say("> SIR");
        for _ in 0..self.rng.between(1, 5) {
            match self.rng.below(3) {
                0 => self.command(),
                _ => self.sample(),
            }
        }
    }

    /// SR runs, and samples come close to its threshold; now and then something comes in between, after which it may run on or not.
    fn send_on_change(&mut self) {
        let load = self.first_load();
        self.put_mostly(load, 80);
        let line = self.sr_line();
        self.send(line);
        if self.rng.chance(10) {
            self.other_profile();
        }
        for _ in 0..self.rng.between(4, 14) {
            match self.rng.below(36) {
                32..=34 => {
                    let line = self.unit_command();
                    self.send(line);
                    self.sample_near_change();
                }
                0 => self.command(),
                1 => self.odd_line(),
                2 => self.raw_line(),
                3 => self.short_room(),
                4..=6 => self.other_profile(),
                7 | 8 => self.tare_or_zero(),
                9 => {
                    self.sample_of(false);
                    let line = self.rng.pick(&["> T", "> T", "> Z"]);
                    self.say(line);
                    self.wait_on();
                }
                10..=12 => self.excursion(),
                13 => {
                    let line = self.sr_line();
                    self.send(line);
                }
                14 => {
                    let line = self.rng.pick(&["> S", "> SI", "> SIR", "> @", "> SI 1", "> SR x", "> SR 0 g", "> SR "]);
                    self.say(line);
                }
                15 => self.short_of_a_reading(),
                _ => self.sample_near_change(),
            }
        }
    }

    /// SR alone, with a threshold of some display steps, or with any parameter.
    fn sr_line(&mut self) -> Vec<u8> {
        let Scale { unit, decimals, .. } = self.scale();
        match self.rng.below(10) {
            0..=5 => b"SR".to_vec(),
            6..=7 => {
                let number = number_text(self.rng.between(0, 60), decimals.min(6), false);
                format!("SR {number} {}", unit.name()).into_bytes()
            }
            _ => self.typed_line("SR"),
        }
    }

    /// A load in range of which the net is zero, where the eighth and the 30 steps meet, a multiple of eight, or any.
    fn first_load(&mut self) -> i128 {
        let (profile, state) = (self.replay.profile.clone(), self.state());
        let (zero, tare) = (i128::from(state.zero), i128::from(state.tare));
        let (lowest, highest) = (-i128::from(profile.margin), i128::from(profile.capacity));
        let any = self.rng.between(lowest, highest) - tare;
        let net = match self.rng.below(5) {
            0 => self.rng.between(-2, 2),
            1 if !profile.is_refused(None) => {
                self.rng.pick(&[-8, 8]) * least_change(0, None, self.scale()) + self.rng.between(-2, 2)
            }
            2 => any / 8 * 8,
            _ => any,
        };
        zero + (net + tare).clamp(lowest, highest)
    }

    fn sample_near_change(&mut self) {
        let (profile, state) = (self.replay.profile.clone(), self.state());
        match self.changed_load(&profile, &state) {
            Some(load) => self.put_mostly(load, 50),
            None => self.sample(),
        }
    }

    /// Some samples out of range at either side, then as a rule one that is back.
    fn excursion(&mut self) {
        let (profile, zero) = (self.replay.profile.clone(), i128::from(self.state().zero));
        for _ in 0..self.rng.between(1, 3) {
            let by = self.rng.between(1, 3);
            let load = if self.rng.chance(50) { i128::from(profile.capacity) + by } else { -i128::from(profile.margin) - by };
            self.put_mostly(zero + load, 50);
        }
        if self.rng.chance(80) {
            self.sample_near_change();
        }
    }

    /// Zero or tare moves under SR.
    fn tare_or_zero(&mut self) {
        match self.rng.below(8) {
            0 | 1 => {
                let line = self.typed_line("TA");
                self.send(line);
            }
            2 | 3 => {
                let range = i128::from(self.replay.profile.zeroing);
                let load = self.rng.between(-range, range);
                self.put(load, true);
                let line = self.rng.pick(&["> Z", "> ZI"]);
                self.say(line);
            }
            _ => {
                let line = self.rng.pick(&["> T", "> T", "> TI", "> TAC"]);
                self.say(line);
            }
        }
    }

    /// A room that is one too short for the weight or for + and -, while samples come close to the threshold.
    fn short_of_a_reading(&mut self) {
        let unit = self.state().unit.name().len();
        let room = self.rng.pick(&[0, 4, 5, 16 + unit, 16 + unit, 17 + unit]);
        self.say(&format!("room {room}"));
        for _ in 0..self.rng.between(1, 4) {
            self.sample_near_change();
        }
        self.say("room 384");
    }

    /// A text is shown, then comes what has to leave it, or what takes it away.
    fn show(&mut self) {
        let text = text_of(self.rng, 20);
        self.send([b"D \"", &text[..], b"\""].concat());
        for _ in 0..self.rng.between(1, 3) {
            match self.rng.below(9) {
                0 | 1 => self.command(),
                2 => self.raw_line(),
                3 => {
                    let line = self.rng.pick(&["> DW ", "> DW 1", "> D", "> D \"", "> DWW", "> dw", "> @ ", "> D \"\""]);
                    self.say(line);
                }
                4 => self.other_profile(),
                5 => self.short_room(),
                6 => self.refused_on(),
                7 => self.wait(),
                _ => self.sample(),
            }
        }
        self.look();
        let line = self.rng.pick(&["> DW", "> @", "on"]);
        self.say(line);
        self.look();
    }

    fn refused_on(&mut self) {
        let former = self.replay.profile.clone();
        let bad = bad_profile(self.rng, &former);
        let with_texts = bad.texts != former.texts;
        self.set_profile(&bad, with_texts);
        self.say("on");
        self.look();
        self.set_profile(&former, with_texts);
    }

    /// Typed tares, with weights around a tie; now and then one again where C is what it set, or a microgram beside it.
    fn type_tares(&mut self) {
        for _ in 0..self.rng.between(2, 6) {
            let line = self.typed_line("TA");
            self.send(line.clone());
            if self.rng.chance(20) {
                self.type_at_capacity(line);
            } else if self.rng.chance(70) {
                self.sample();
                self.say("> SI");
            }
        }
    }

    fn type_at_capacity(&mut self, line: Vec<u8>) {
        let former = self.replay.profile.clone();
        let most = self.state().tare as u32 + 1;
        let other = with_capacity(former.clone(), most.saturating_sub(self.rng.below(3) as u32));
        self.say("> TAC");
        self.set_profile(&other, false);
        self.send(line);
        self.say("> TAC");
        self.set_profile(&former, false);
    }

    /// A tare that does not stand at a display step, then weights around a tie.
    fn tare_and_weigh(&mut self) {
        let stable = self.rng.chance(60);
        self.sample_of(stable);
        let name = self.rng.pick(&["> T", "> TI", "> ZI", "> Z"]);
        self.say(name);
        for _ in 0..3 {
            self.sample();
            self.say("> SI");
        }
        self.say("> TA");
    }
}

// Captures.

/// Some pieces; the last one is as a rule unfinished.
pub fn capture(rng: &mut Rng) -> Script {
    let mut pieces: Script = (0..rng.between(20, 150)).map(|_| piece(rng)).collect();
    let mut last = answer_line(rng);
    last.truncate(last.len() - rng.below(3));
    pieces.push(last);
    pieces
}

/// A piece of a capture: a good answer line, a damaged one, or rubbish.
fn piece(rng: &mut Rng) -> Vec<u8> {
    let mut line = answer_line(rng);
    match rng.below(10) {
        0..=4 => {}
        5 | 6 => change(rng, &mut line),
        7 => drop(line.remove(rng.below(line.len()))),
        8 => {
            let at = rng.below(line.len());
            line.insert(at, line[at]);
        }
        _ => {
            let rubbish = (0..rng.below(30)).map(|_| rng.between(0, 255) as u8).collect::<Vec<u8>>();
            line = if rng.chance(60) { [&rubbish[..], b"\r\n"].concat() } else { rubbish };
        }
    }
    line
}

fn change(rng: &mut Rng, line: &mut [u8]) {
    let at = rng.below(line.len());
    line[at] = match rng.below(3) {
        0 => line[at] ^ (1 << rng.below(8)),
        1 => rng.pick(b" 0123456789.-+\"ABDILMSTZ@\r\ngmctozklb"),
        _ => rng.between(0, 255) as u8,
    };
}

fn answer_line(rng: &mut Rng) -> Vec<u8> {
    let body = match rng.below(11) {
        10 => unit_body(rng).into_bytes(),
        0..=4 => weight_body(rng).into_bytes(),
        5 | 6 => {
            let letters = ["A", "A", "S", "D", "+", "-", "L", "I", "I", "B"];
            let names = COMMANDS.map(|(name, _)| name);
            let name = if rng.chance(20) { rng.pick(&["S", "SR", "SR", "SI"]) } else { rng.pick(&names) };
            format!("{name} {}", rng.pick(&letters)).into_bytes()
        }
        7 => rng
            .pick(&["ES", "ET", "EL", "EI", "es", "E", "I1 A \"0\" \"2.30\" \"2.20\"", "I1 A \"01\" \"2.30\" \"2.20\""])
            .as_bytes()
            .to_vec(),
        8 => listed_body(rng).into_bytes(),
        _ => text_body(rng),
    };
    [&body[..], b"\r\n"].concat()
}

/// What M21 answers, or nearly.
fn unit_body(rng: &mut Rng) -> String {
    let code = rng.pick(&UNITS).code();
    match rng.below(20) {
        0 => format!("M21 A 0 {}", rng.pick(&["2", "4", "6", "12", "20", "20", "23", "256"])),
        1 => format!("M21 A 0 0{code}"),
        2 => format!("M21 A 1 {code}"),
        3 => format!("M21 B 0 {code}"),
        4 => format!("M21 A {}", rng.pick(&["0", "0 ", "5", "00 5", "0 +5", "0  5", "0 5 "])),
        5..=9 => format!("M21 {}", rng.pick(&["A", "A", "I", "L", "B", "S", "+"])),
        _ => format!("M21 A 0 {code}"),
    }
}

fn listed_body(rng: &mut Rng) -> String {
    let (name, level) = rng.pick(&COMMANDS);
    let told = if rng.chance(80) { level } else { rng.below(4) as u8 };
    format!("I0 {} {told} \"{name}\"", rng.pick(&["A", "B", "B", "I"]))
}

fn text_body(rng: &mut Rng) -> Vec<u8> {
    let at = rng.below(4);
    let mut text = text_of(rng, TEXT_ROOMS[at] + 1);
    if rng.chance(10) {
        text.push(rng.pick(&[b'"', 31, 0, 127]));
    }
    [format!("I{} A \"", at + 2).as_bytes(), &text, b"\""].concat()
}

fn weight_body(rng: &mut Rng) -> String {
    let head = rng.pick(&["S S", "S S", "S D", "T S", "TI S", "TI D", "TA A", "T D", "Z S", "ZI S", "SI S", "S A"]);
    let unit = if rng.chance(95) { rng.pick(&UNITS).name() } else { rng.pick(&["t", "t", "LB", "Kg", "", "G", "gn", "g "]) };
    let number = field_number(rng);
    if rng.chance(45) {
        return coarse_body(rng, head, &number, unit);
    }
    match rng.below(20) {
        0 => format!("{head} {number} {unit}"),
        1 => format!("{head} {number:<10} {unit}"),
        2 => format!("{head} {number:>9} {unit}"),
        3 => format!("{head} {number:>11} {unit}"),
        4 => format!("{head} {number:>10} {unit} "),
        _ => format!("{head} {number:>10} {unit}"),
    }
}

/// The number in nine characters and a space after it, or nearly.
fn coarse_body(rng: &mut Rng, head: &str, number: &str, unit: &str) -> String {
    match rng.below(20) {
        0 => format!("{head} {number}  {unit}"),
        1 => format!("{head} {number:>8}  {unit}"),
        2 => format!("{head} {number:>8}   {unit}"),
        3 => format!("{head} {number:>10}  {unit}"),
        4 => format!("{head} {number:>9} {unit}"),
        5 => format!("{head} {number:<9}  {unit}"),
        6 => format!("{head} {number:>9}  {unit} "),
        7 => format!("{head} {number:>9}0 {unit}"),
        _ => format!("{head} {number:>9}  {unit}"),
    }
}

/// A number of the field, at its limits, or nearly one.
fn field_number(rng: &mut Rng) -> String {
    let decimals = if rng.chance(95) { rng.below(7) as u8 } else { rng.pick(&[7, 8]) };
    let value = match rng.below(5) {
        0 => 0,
        1 => rng.between(-3, 3),
        2 => ten_to(rng.below(11) as u32) - rng.between(0, 1),
        3 => 1 - ten_to(rng.below(11) as u32) - rng.between(0, 1),
        _ => rng.between(-9_999_999, 99_999_999),
    };
    let number = number_text(value, decimals, value < 0);
    match rng.below(30) {
        0 => format!("0{number}"),
        1 => format!("-{number}"),
        2 => format!("{}.", whole_part(&number)),
        3 => number.replacen('0', "", 1),
        4 => number_text(0, decimals, true),
        5 => format!("+{number}"),
        _ => number,
    }
}
