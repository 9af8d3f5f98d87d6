//! Scripts and captures that go through every limit once, without chance.

use crate::cases::{profile_a, run, set_unit};
use crate::compare::Script;
use crate::module::COMMANDS;
use crate::on_change::least_change;
use crate::profile::Profile;
use crate::random::{largest, profile_lines, tie};
use crate::weight::{number_text, ten_to, typed_tare, Places, Range, Scale, Unit, UNITS};

pub fn scripts() -> Vec<Script> {
    let mut scripts: Vec<Script> = scales().map(widths).collect();
    scripts.extend(UNITS.map(typed_limits));
    scripts.extend(typed_tares());
    scripts.extend(UNITS.map(threshold_limits));
    scripts.extend(scales().filter_map(changes));
    scripts.extend([names(), bytes(), lengths(), faults(), patience(), rooms(), repetition(), display()]);
    scripts.extend([unit_parameters(), unit_moves()]);
    scripts.extend(UNITS.map(unit_limits));
    scripts.extend(coarse_scripts());
    scripts.extend([buffer_cuts(), buffer_rooms(), buffer_faults(), buffer_lengths(), buffer_refusals()]);
    scripts
}

/// A script on profile A, from its lines, each followed by `state`.
fn script(lines: impl IntoIterator<Item = String>) -> Script {
    let start = profile_a().into_iter().chain(["room 384", "on"].map(String::from));
    let is_set = |line: &str| ["profile ", "unit ", "fine "].iter().any(|word| line.starts_with(word));
    let seen = lines.into_iter().flat_map(|line| {
        let state = (!is_set(&line)).then(|| "state".to_string());
        [line].into_iter().chain(state)
    });
    start.chain(seen).map(String::into_bytes).collect()
}

/// Sets a profile and powers on, with this unit in force.
fn started(profile: &Profile, unit: Unit) -> Vec<String> {
    profile_lines(profile).into_iter().chain(["on".to_string(), set_unit(unit)]).collect()
}

/// Profile A with a scale of which no other unit draws in the limits.
fn alone(scale: Scale) -> Profile {
    Profile { places: [Places { decimals: 0, step: 1 }; 9], margin: 0, zeroing: 0, ..Profile::a() }.with_scale(scale)
}

// Profiles and typed numbers.

/// Every unit with 0 to 7 decimals and steps 0 to 6.
pub fn scales() -> impl Iterator<Item = Scale> {
    let of_unit = |unit: Unit| (0..8).flat_map(move |decimals| (0..7).map(move |step| Scale { unit, decimals, step }));
    UNITS.into_iter().flat_map(of_unit)
}

pub fn allowed_scales() -> impl Iterator<Item = Scale> {
    scales().filter(|scale| !with_widest_capacity(*scale).is_refused(None))
}

/// The widest capacity and margin of a scale and one more of each, with weights at both ends.
fn widths(scale: Scale) -> Script {
    let highest = with_widest_capacity(scale);
    let lowest = widest_margin(scale);
    let profiles = [
        highest.clone(),
        highest.clone().with_capacity(highest.capacity + 1),
        lowest.clone(),
        Profile { margin: lowest.margin + 1, ..lowest },
    ];
    script(profiles.iter().flat_map(|profile| ends(profile, scale.unit)))
}

/// The largest capacity that a scale can have, without a margin.
fn widest_capacity(scale: Scale) -> u32 {
    with_widest_capacity(scale).capacity
}

pub fn with_widest_capacity(scale: Scale) -> Profile {
    widest(alone(scale))
}

fn widest(base: Profile) -> Profile {
    let capacity = largest(1_000_000_000, |capacity| !base.clone().with_capacity(capacity).is_refused(None));
    base.with_capacity(capacity.max(1))
}

/// Half of the widest capacity, and the largest margin beside it.
fn widest_margin(scale: Scale) -> Profile {
    halved(with_widest_capacity(scale))
}

fn halved(profile: Profile) -> Profile {
    let capacity = profile.capacity.div_ceil(2);
    let halved = profile.with_capacity(capacity);
    let margin = largest(capacity, |margin| !Profile { margin, ..halved.clone() }.is_refused(None));
    Profile { margin, ..halved }
}

fn ends(profile: &Profile, unit: Unit) -> Vec<String> {
    let Profile { capacity, margin, .. } = profile;
    let loads = [format!("s {capacity}"), "> SI".to_string(), "> T".to_string(), format!("u -{margin}"), "> SI".to_string()];
    started(profile, unit).into_iter().chain(loads).collect()
}

/// Numbers around the capacity with every count of decimals, in one unit.
fn typed_limits(unit: Unit) -> Script {
    let scale = Scale { unit, decimals: 2, step: 1 };
    let capacities = [1, 999, 50_000_000, 99_999_999];
    script(capacities.into_iter().flat_map(|capacity| typed_around(alone(scale).with_capacity(capacity), unit)))
}

fn typed_around(profile: Profile, unit: Unit) -> Vec<String> {
    let mut lines = started(&profile, unit);
    for decimals in 0..8u8 {
        let most = i128::from(profile.capacity) * 1000 * ten_to(decimals.into()) / unit.nanograms();
        for number in (most - 3).max(0)..=most + 3 {
            lines.push(format!("> TA {} {}", number_text(number, decimals, false), unit.name()));
        }
    }
    lines
}

// Typed tares.

/// In every unit with every number of decimals and every step that can be.
pub fn typed_tares() -> Vec<Script> {
    allowed_scales().flat_map(|scale| [typed_ties(scale), typed_beside_capacity(scale)]).collect()
}

/// The display steps that a weight holds.
fn steps_in(micrograms: i128, scale: Scale) -> i128 {
    micrograms * 1000 * ten_to(scale.decimals.into()) / (i128::from(scale.step) * scale.unit.nanograms())
}

/// A number of so many half display steps with as many decimals as can be typed, cut off where they are more; one less and one
/// more in its last place; and itself with as few decimals as can be.
pub fn typed_halves(halves: i128, scale: Scale) -> Vec<String> {
    let (above, below) = (halves * i128::from(scale.step), 2 * ten_to(scale.decimals.into()));
    let whole = (above / below).to_string().len();
    let decimals = 9usize.saturating_sub(whole).min(6) as u8;
    let number = above * ten_to(decimals.into()) / below;
    let text = |number: i128| number_text(number, decimals, false);
    let near = ((number - 1).max(0)..=number + 1).map(text);
    let short = if decimals == 0 { text(number) } else { text(number).trim_end_matches('0').trim_end_matches('.').to_string() };
    near.chain([short]).collect()
}

/// The first and the last number of display steps within a weight that are halfway between two micrograms. Those of grams,
/// milligrams and carats are whole micrograms.
pub fn second_ties(micrograms: i128, scale: Scale) -> Option<[i128; 2]> {
    let most = steps_in(micrograms, scale);
    let (first, every) = tie(i128::from(scale.step) * scale.unit.nanograms(), 1000 * ten_to(scale.decimals.into()))?;
    (first <= most).then(|| [first, first + (most - first) / every * every])
}

/// Both sides of the ties of both roundings, small and at the capacity, and the largest numbers that can be typed; and what SR makes
/// of the first of these.
fn typed_ties(scale: Scale) -> Script {
    let profile = with_widest_capacity(scale);
    let capacity = i128::from(profile.capacity);
    let most = steps_in(capacity, scale);
    let first = [0, 1, most / 3, most].map(|steps| 2 * steps + 1);
    let second = second_ties(capacity, scale).into_iter().flatten().flat_map(|steps| 2 * steps - 1..=2 * steps + 1);
    let numbers = first.into_iter().chain(second).flat_map(|halves| typed_halves(halves, scale));
    let nines = (0..7).map(|decimals| number_text(ten_to(if decimals == 0 { 10 } else { 9 }) - 1, decimals, false));
    let numbers: Vec<String> = numbers.chain(nines).collect();
    let tares = numbers.iter().map(|number| typed_line("TA", number, scale));
    let thresholds = numbers[..4].iter().flat_map(|number| [typed_line("SR", number, scale), "> @".to_string()]);
    script(started(&profile, scale.unit).into_iter().chain(tares).chain(thresholds))
}

fn typed_line(name: &str, number: &str, scale: Scale) -> String {
    format!("> {name} {number} {}", scale.unit.name())
}

/// Tares of some display steps and both ends of what is rounded to them, where C is a microgram less, the same and one more.
fn typed_beside_capacity(scale: Scale) -> Script {
    let most = i128::from(widest_capacity(scale)) / 2;
    let ties = second_ties(most, scale).into_iter().flatten();
    let some = [1, steps_in(most, scale)].into_iter().chain(ties).filter(|&steps| steps > 0);
    script(some.flat_map(|steps| {
        let decimal = number_text(steps * i128::from(scale.step), scale.decimals, false);
        let tare = typed_tare(decimal.as_bytes(), scale, None).unwrap_or(0) as u32;
        let numbers: Vec<String> = (2 * steps - 1..=2 * steps + 1).flat_map(|halves| typed_halves(halves, scale)).collect();
        (tare.max(2) - 1..=tare + 1).flat_map(move |capacity| {
            let profile = alone(scale).with_capacity(capacity);
            let typed = numbers.clone().into_iter().map(|number| typed_line("TA", &number, scale));
            started(&profile, scale.unit).into_iter().chain(typed).collect::<Vec<_>>()
        })
    }))
}

// Send on change.

/// Numbers around half a microgram and around the capacity with every count of decimals, in one unit.
fn threshold_limits(unit: Unit) -> Script {
    let scale = Scale { unit, decimals: 2, step: 1 };
    let capacities = [1, 2, 999, 99_999_999];
    script(capacities.into_iter().flat_map(|capacity| thresholds_around(alone(scale).with_capacity(capacity), unit)))
}

fn thresholds_around(profile: Profile, unit: Unit) -> Vec<String> {
    let mut lines = started(&profile, unit);
    for decimals in 0..8u8 {
        let places = |micrograms: i128| micrograms * 500 * ten_to(decimals.into()) / unit.nanograms();
        let (half, most) = (places(1), places(2 * i128::from(profile.capacity) + 1));
        for number in ((half - 1).max(0)..=half + 2).chain((most - 1).max(0)..=most + 2) {
            lines.push(format!("> SR {} {}", number_text(number, decimals, false), unit.name()));
            lines.push("> @".to_string());
        }
    }
    lines
}

/// SR from last nets of every size and both signs, where the eighth and the 30 steps meet among them, and samples at both sides of its
/// threshold: one step of a microgram short of it, then at it.
fn changes(scale: Scale) -> Option<Script> {
    let profile = widest_margin(scale);
    if profile.is_refused(None) {
        return None;
    }
    let meet = 8 * least_change(0, None, scale);
    let nets = [0, 1, meet - 8, meet - 7, meet - 1, meet, meet + 1, meet + 8, i128::from(profile.capacity) / 9 * 8];
    let both = nets.into_iter().flat_map(|net| [net, -net]);
    Some(script(started(&profile, scale.unit).into_iter().chain(both.flat_map(|net| changes_from(net, scale)))))
}

fn changes_from(last: i128, scale: Scale) -> Vec<String> {
    let least = least_change(last, None, scale);
    let load = |mark: &str, net: i128| format!("{mark} {}", net.clamp(i32::MIN.into(), i32::MAX.into()));
    let mut lines = vec![load("s", last), "> SR".to_string()];
    for short in [1 - least, least - 1] {
        lines.extend([load("u", last + short), load("s", last + short)]);
    }
    for moved in [-least, least] {
        lines.extend([load("u", last + moved), load("s", last)]);
    }
    lines.push(load("s", last + least));
    lines
}

// Units.

/// Every code up to 300 and around the powers of two, and other ways to write the nine; when nothing waits, and when T does.
fn unit_parameters() -> Script {
    let powers = [8, 16, 31, 32, 63, 64].into_iter().flat_map(|bits| {
        let power = 1i128 << bits;
        (power - 1..=power + 12).chain([10 * power])
    });
    let numbers = (0..=300).chain(powers).map(|code| format!("0 {code}"));
    let others = UNITS.into_iter().flat_map(|unit| {
        let code = unit.code();
        [
            code.to_string(),
            format!("0{code}"),
            format!(" 0 {code}"),
            format!("0  {code}"),
            format!("0 {code} "),
            format!("0 0{code}"),
            format!("0 00{code}"),
            format!("0 +{code}"),
            format!("0 -{code}"),
            format!("0 {code}."),
            format!("0 {code}.0"),
            format!("0 {code} 0"),
            format!("0,{code}"),
            format!("00 {code}"),
            format!("1 {code}"),
            format!("2 {code}"),
            format!("-0 {code}"),
            format!("0 \"{code}\""),
            format!("0 {}", unit.name()),
            unit.name().to_string(),
        ]
    });
    let more = ["", "0", "0 ", " ", "1", "x", "0 x"].map(String::from);
    let bytes = (32..=126).chain([128, 255]).flat_map(|byte: u8| [vec![byte], vec![b'0', b' ', byte], vec![b'0', byte, b'5']]);
    let raw = bytes.map(|rest| {
        let line = [b"M21 ", &rest[..], b"\r\n"].concat();
        format!("b{}", line.iter().map(|byte| format!(" {byte:02X}")).collect::<String>())
    });
    let lines: Vec<String> = numbers.chain(others).chain(more).map(|rest| format!("> M21 {rest}")).chain(raw).collect();
    let asked = lines.iter().flat_map(|line| [line.clone(), "> M21".to_string()]);
    let waiting = ["> @".to_string(), set_unit(Unit::Carat), "> T".to_string()].into_iter().chain(lines.clone());
    script(asked.chain(waiting))
}

/// From each unit to each, with a tare, while SIR, SR and a set SR run; and weights before and after.
fn unit_moves() -> Script {
    let pairs = UNITS.into_iter().flat_map(|from| UNITS.into_iter().map(move |to| (from, to)));
    script(pairs.flat_map(|(from, to)| {
        let typed = format!("> TA 0.25 {}", from.name());
        let refused = format!("> TA 0.26 {}", to.name());
        let threshold = format!("> SR 0.03 {}", from.name());
        ["> SIR".to_string(), "> SR".to_string(), threshold].into_iter().flat_map(move |start| {
            let steps = 30 * 10_000 * from.nanograms() / 1_000_000_000;
            let near = [steps - 1, steps, steps + 1].map(|load| format!("s {}", load.min(219_999_999)));
            let before = ["on".to_string(), "s 5000".to_string(), set_unit(from), typed.clone(), start];
            let after = [set_unit(to), "> M21".to_string(), refused.clone(), "> TA".to_string(), "> @".to_string()];
            let ends = ["> SI".to_string(), "> M21".to_string()];
            let moved = before.into_iter().chain(near.clone()).chain(after[..4].to_vec());
            moved.chain(near).chain(["u 1".to_string()]).chain(after[4..].to_vec()).chain(ends).collect::<Vec<_>>()
        })
    }))
}

/// One unit's decimals and step broken alone while another is in force, and while itself is.
fn unit_limits(unit: Unit) -> Script {
    let other = if unit == Unit::Gram { Unit::Carat } else { Unit::Gram };
    let all = (0..9).chain([10, 255]).flat_map(|decimals| [0, 1, 2, 3, 5, 10, 255].map(|step| (decimals, step)));
    let base = alone(Scale { unit, decimals: 0, step: 1 });
    let numbers = ["1000000000 0 0 3", "99999999 0 0 3", "1000 0 0 3"].map(|numbers| format!("profile {numbers}"));
    let each = all.flat_map(move |(decimals, step)| {
        let set = format!("unit {} {decimals} {step}", unit.name());
        let good = format!("unit {} 0 1", unit.name());
        numbers.clone().into_iter().flat_map(move |numbers| {
            [
                numbers,
                set.clone(),
                "s 5".to_string(),
                good.clone(),
                "> M21".to_string(),
                set.clone(),
                "on".to_string(),
                good.clone(),
            ]
        })
    });
    let each: Vec<String> = each.collect();
    let of = |unit| started(&base, unit).into_iter().chain(each.clone());
    script(of(other).chain(of(unit)))
}

// The coarse range.

/// Fine limits, what is printed and typed beside them, and the profiles that they refuse.
pub fn coarse_scripts() -> Vec<Script> {
    let mut scripts: Vec<Script> = coarse_scales().map(coarse_widths).collect();
    scripts.extend(coarse_scales().flat_map(|scale| [around_limits(scale), typed_around_limits(scale), coarse_changes(scale)]));
    scripts.extend(UNITS.map(coarse_decimals));
    scripts.push(limit_lines());
    scripts
}

/// Those that a profile with a coarse range can have.
pub fn coarse_scales() -> impl Iterator<Item = Scale> {
    allowed_scales().filter(|scale| scale.decimals >= 2)
}

/// Profile A with two decimals in every unit but this one and F 0, with the widest capacity.
pub fn widest_coarse(scale: Scale) -> Profile {
    let places = [Places { decimals: 2, step: 1 }; 9];
    widest(Profile { places, margin: 0, zeroing: 0, fine: 0, ..Profile::a() }.with_scale(scale))
}

/// The widest capacity and margin of a scale with a coarse range and one more of each: with the highest F that leaves one, and with
/// none.
fn coarse_widths(scale: Scale) -> Script {
    let (highest, lowest) = (widest_coarse(scale), halved(widest_coarse(scale)));
    let more = [
        highest.clone(),
        highest.clone().with_capacity(highest.capacity + 1),
        Profile { margin: lowest.margin + 1, ..lowest.clone() },
        lowest,
    ];
    script(more.into_iter().flat_map(|profile| {
        let limits = [0, profile.capacity - 1, profile.capacity, profile.capacity + 1];
        limits.into_iter().flat_map(move |fine| ends(&Profile { fine, ..profile.clone() }, scale.unit)).collect::<Vec<_>>()
    }))
}

/// Fine limits at both ends, and at and beside a coarse step and half a one.
pub fn limits_of(profile: &Profile, scale: Scale) -> Vec<u32> {
    let coarse = scale.in_range(Range::Coarse);
    let (above, below) = (i128::from(coarse.step) * coarse.unit.nanograms(), 1000 * ten_to(coarse.decimals.into()));
    let halves = 2 * steps_in(i128::from(profile.capacity) / 3, coarse);
    let micrograms = |halves: i128| ((halves * above + below) / (2 * below)) as u32;
    let (step, half) = (micrograms(halves), micrograms(halves + 1));
    let most = profile.capacity - 1;
    let mut limits = [0, 1, step.max(1) - 1, step, half, most].map(|limit| limit.min(most)).to_vec();
    limits.sort();
    limits.dedup();
    limits
}

/// Loads beside each limit: read, tared by T and TI, with a tare under them and a little above them, and with another zero.
fn around_limits(scale: Scale) -> Script {
    let profile = widest_coarse(scale);
    let profile = Profile { zeroing: profile.capacity, ..profile };
    let coarse = scale.in_range(Range::Coarse);
    let step = i128::from(coarse.step) * coarse.unit.nanograms() / (1000 * ten_to(coarse.decimals.into()));
    script(limits_of(&profile, scale).into_iter().flat_map(move |fine| {
        let limit = i128::from(fine);
        let beside = [limit - 1, limit, limit + 1, limit + step / 2, limit + step, i128::from(profile.capacity)];
        let read = beside.into_iter().flat_map(|load| {
            let load = load.min(profile.capacity.into());
            [format!("s {load}"), "> SI".into(), "> T".into(), format!("u {load}"), "> TI".into(), "> TA".into(), "> SI".into()]
        });
        let then_read = |load: i128| [format!("s {}", load.min(profile.capacity.into())), "> SI".to_string(), "> TA".to_string()];
        let above = [0, 1, step / 2 - 1, step / 2, step].into_iter().flat_map(|more| then_read(limit + 1 + more));
        let below = [step, step / 2 + 1, step / 2, 1].into_iter().flat_map(|less| then_read(limit + step - less));
        let tare = |load: i128| ["> TAC".to_string(), format!("s {load}"), "> T".to_string()];
        let zero =
            ["s 7".to_string(), "> Z".to_string()].into_iter().chain([7, 8].into_iter().flat_map(|load| then_read(limit + load)));
        let start = started(&Profile { fine, ..profile.clone() }, scale.unit).into_iter().chain(read);
        start.chain(tare(limit)).chain(above).chain(tare(limit + step)).chain(below).chain(zero).collect::<Vec<_>>()
    }))
}

/// Typed numbers at each limit, C too, at steps and half steps of both ranges beside it, and in the last place that can be typed; and
/// what SR makes of the last of these.
fn typed_around_limits(scale: Scale) -> Script {
    let profile = widest_coarse(scale);
    script(limits_of(&profile, scale).into_iter().chain([profile.capacity]).flat_map(move |fine| {
        let in_halves = |range: Range| {
            let ranged = scale.in_range(range);
            let halves = 2 * steps_in(fine.into(), ranged);
            ((halves - 1).max(0)..=halves + 2).flat_map(move |halves| typed_halves(halves, ranged))
        };
        let exact = (4..7u8).flat_map(|decimals| {
            let number = i128::from(fine) * 1000 * ten_to(decimals.into()) / scale.unit.nanograms();
            [number, number + 1].map(|number| number_text(number, decimals, false))
        });
        let mut numbers: Vec<String> = in_halves(Range::Fine).chain(in_halves(Range::Coarse)).chain(exact).collect();
        numbers.sort();
        numbers.dedup();
        let thresholds =
            numbers[numbers.len() - 3..].iter().flat_map(|number| [typed_line("SR", number, scale), "> @".to_string()]);
        let typed = numbers.iter().map(|number| typed_line("TA", number, scale)).chain(thresholds);
        started(&Profile { fine, ..profile.clone() }, scale.unit).into_iter().chain(typed).collect::<Vec<_>>()
    }))
}

/// SR counts fine steps whatever the range.
fn coarse_changes(scale: Scale) -> Script {
    let profile = halved(widest_coarse(scale));
    let meet = 8 * least_change(0, None, scale);
    let nets = [0, 1, meet, i128::from(profile.capacity) / 9 * 8];
    let capacity = profile.capacity;
    script([0, capacity / 2].into_iter().flat_map(move |fine| {
        let start = started(&Profile { fine, ..profile.clone() }, scale.unit);
        start.into_iter().chain(nets.into_iter().flat_map(|net| changes_from(net, scale))).collect::<Vec<_>>()
    }))
}

/// One unit with 0 to 3 decimals, with a coarse range and without, while it is in force and while another is.
fn coarse_decimals(unit: Unit) -> Script {
    let other = if unit == Unit::Gram { Unit::Carat } else { Unit::Gram };
    let base = widest_coarse(Scale { unit: other, decimals: 2, step: 1 }).with_capacity(50_000_000);
    let set = |decimals: u8, fine: u32| {
        let sent = [format!("unit {} {decimals} 1", unit.name()), format!("fine {fine}"), "s 50000000".into(), "on".into()];
        sent.into_iter().chain(["> SI", "w 53 49 0D 0A", "fine 0"].map(String::from)).chain([format!("unit {} 2 1", unit.name())])
    };
    let each =
        (0..4).flat_map(|decimals| [0, 49_999_999, 50_000_000, 50_000_001].into_iter().flat_map(move |fine| set(decimals, fine)));
    let each: Vec<String> = each.collect();
    let of = |unit| started(&base, unit).into_iter().chain(each.clone());
    script(of(other).chain(of(unit)))
}

/// What `fine` takes, and which lines leave F.
fn limit_lines() -> Script {
    let words = ["0", "1", "219999999", "220000000", "220000001", "4294967295", "4294967296", "9999999999", "0000000001"];
    let odd = ["", " ", "-1", "+1", "1 ", " 1", "1 1", "1.0", "x", "00000000001", "1\r"];
    let taken = words.into_iter().chain(odd).flat_map(|word| {
        let set = format!("fine {word}");
        ["fine 220000000".to_string(), set, "s 219999999".to_string(), "> SI".to_string(), "on".to_string()]
    });
    let left = ["unit ct 3 1", "text 2 x", "room 384", "on", "# fine 5", "profile 220000000 1000000 4400000 3"];
    let left = left.into_iter().flat_map(|line| {
        ["fine 100000000", "on", "s 150000000", line, "> SI", "fine 100000000", "> SI", "unit ct 2 1"].map(String::from)
    });
    script(taken.chain(left))
}

// Lines.

/// Every name of up to three letters that names are made of, when none has to wait.
fn names() -> Script {
    let letters: Vec<char> = "ACDIMRSTWZ@012345s".chars().collect();
    let longer = |names: &[String]| -> Vec<String> {
        names.iter().flat_map(|name| letters.iter().map(move |letter| format!("{name}{letter}"))).collect()
    };
    let one = longer(&[String::new()]);
    let two = longer(&one);
    let three = longer(&two);
    let sent = [one, two, three].into_iter().flatten().map(|name| format!("> {name}"));
    script(["s 1000".to_string()].into_iter().chain(sent))
}

/// Every byte value, good and faulty: alone, after a name, in a shown text and in place of CR and LF.
fn bytes() -> Script {
    let around = |byte: u8| {
        [
            format!("b {byte:02X} 0D 0A"),
            format!("f {byte:02X}"),
            "b 0D 0A".to_string(),
            format!("b 44 57 {byte:02X} 0D 0A"),
            format!("b 44 20 22 41 {byte:02X} 42 22 0D 0A"),
            format!("b 44 57 {byte:02X} 0A 0D 0A"),
            format!("b 44 57 0D {byte:02X}"),
            "b 0D 0A".to_string(),
            "> @".to_string(),
        ]
    };
    script(["s 1".to_string()].into_iter().chain((0..=255).flat_map(around)))
}

/// Lines and shown texts of every length up to 70.
fn lengths() -> Script {
    let of_length = |n: usize| {
        let filled = |byte: &str| byte.repeat(n);
        [
            format!("> {}", filled("S")),
            format!("b{}", filled(" 53")),
            "b 0D".to_string(),
            "b 0D".to_string(),
            "b 0A".to_string(),
            format!("> DW {}", filled(" ")),
            format!("> D \"{}\"", filled("x")),
            format!("> D {}", filled("\"")),
            format!("> TA {} g", filled("0")),
            format!("> TA 0.{} g", filled("1")),
            format!("> DW{}\r", filled(" ")),
            format!("text 2 {}", filled("2")),
            "> I2".to_string(),
            format!("text 4 {}", filled("4")),
            "> I4".to_string(),
        ]
    };
    script((0..=70).flat_map(of_length))
}

/// A faulty byte at every place of lines of 63 to 67 bytes and of a short one, CR and LF included.
fn faults() -> Script {
    let lines = [2, 63, 64, 65, 66, 67].map(|length| [vec!["53"; length], vec!["0D", "0A"]].concat());
    let marked = |line: &Vec<&str>| -> Vec<String> {
        (0..line.len())
            .flat_map(|at| {
                let part = |bytes: &[&str]| if bytes.is_empty() { String::new() } else { format!("b {}", bytes.join(" ")) };
                [part(&line[..at]), format!("f {}", line[at]), part(&line[at + 1..]), "b 0D 0A".to_string()]
            })
            .collect()
    };
    script(lines.iter().flat_map(marked))
}

// Waiting, rooms, repetition.

/// S, T, Z and SR with 0 to W + 1 unstable samples before a stable one, and W drawn in meanwhile.
fn patience() -> Script {
    let names = ["S", "T", "Z", "SR", "SR 1 g"];
    let waits = (1..5).flat_map(|w| names.into_iter().flat_map(move |name| (0..w + 2).map(move |n| wait(w, name, n))));
    script(waits.flatten())
}

fn wait(w: u32, name: &str, samples: u32) -> Vec<String> {
    let with = |w: u32| format!("profile 220000000 1000000 4400000 {w}");
    let mut lines = vec![with(w), "on".to_string(), "u 7000".to_string(), format!("> {name}")];
    lines.extend((1..=samples).map(|n| format!("u {n}00")));
    lines.extend([1, samples, samples + 1, w].into_iter().flat_map(|w| [with(w), "> Q".to_string()]));
    lines.extend(["s 900", "> TA", "> SI"].map(String::from));
    lines
}

/// Every command in every room that is one off its answer, or near it.
fn rooms() -> Script {
    let sized = COMMANDS.iter().flat_map(|(name, _)| {
        let rooms = if *name == "I0" { 256..261 } else { 0..24 };
        rooms.flat_map(move |room| [format!("room {room}"), format!("> {name}"), "room 384".to_string(), "b 0A".to_string()])
    });
    script(["s 1000".to_string()].into_iter().chain(sized))
}

/// What each command and some refused lines do to a running SIR and SR, with nothing waiting and with T waiting.
fn repetition() -> Script {
    let names = COMMANDS.iter().map(|(name, _)| *name);
    let lines = names.chain(["SR 0.02 g", "SR 0 g", "SR ", "SI 1", "SIR 1", "M21 0 0", "M21 0 5", "M21 ", "Q"]);
    script(lines.flat_map(|line| {
        ["s 100", "u 300000000", "u -300000000"].into_iter().flat_map(move |first| {
            ["SIR", "SR", "SR 0.01 g"].into_iter().flat_map(move |start| repeated_then(first, start, line))
        })
    }))
}

fn repeated_then(first: &str, start: &str, line: &str) -> Vec<String> {
    let (start, line) = (format!("> {start}"), format!("> {line}"));
    let lines: [&str; 14] = [
        "on",
        first,
        &start,
        &line,
        "u 20000",
        "s 30000",
        "u 40000",
        "> T",
        &line,
        "u 50000",
        "s 60000",
        "s 70000",
        "u 300000000",
        "s 90000",
    ];
    lines.map(String::from).to_vec()
}

/// What each line leaves of what is shown: obeyed, refused for want of room, with more after its name, faulty, with T waiting, and
/// without a sample.
fn display() -> Script {
    let names = COMMANDS.iter().map(|(name, _)| *name);
    let others =
        ["D \"\"", "D \"ABC\"", "D \"123456789012345678901\"", "D \"", "TA 1 g", "TA 1 kg", "SR 1 g", "SR x", "M21 0 5", "Q", ""];
    let displays = ["DW", "D \"\"", "D \"TEXT 1\""];
    script(names.chain(others).flat_map(|line| displays.into_iter().flat_map(move |display| shown_then(display, line))))
}

fn shown_then(display: &str, line: &str) -> Vec<String> {
    let (display, sent) = (format!("> {display}"), format!("> {line}"));
    let longer = format!("> {line} 1");
    let ways: [&[&str]; 8] = [
        &["s 100", &display, &sent],
        &["s 100", &display, "room 0", &sent, "room 384", "b 0A"],
        &["s 100", &display, &longer],
        &["s 100", &display, "f 53", &sent],
        &["u 100", &display, "> T", &sent, "u 200", "u 300", "u 400", "s 500"],
        &["u 100", &display, "> SIR", &sent, "u 200", "s 300000000"],
        &["s 300000000", &display, &sent, "s -300000000", &sent],
        &[&display, &sent, "u 100", "u 200", "u 300"],
    ];
    ways.into_iter().flat_map(|way| ["on"].iter().chain(way)).map(|line| line.to_string()).collect()
}

// Whole buffers.

/// A whole buffer of these bytes, with a faulty one at a place or none.
pub fn whole(bytes: &[u8], faulty: Option<usize>) -> String {
    let mark = |place| if Some(place) == faulty { "!" } else { "" };
    let words = bytes.iter().enumerate().map(|(place, byte)| format!(" {byte:02X}{}", mark(place)));
    format!("w{}", words.collect::<String>())
}

const LINES: &[u8] = b"DW\r\nTA 1 g\r\nS\rI\r\nTI\r\n\r\nSIR\r\nM21 0 5\r\nD \"A\"\r\nM21 0 0\r\nSR 1 g\r\n@\r\nQ\r\n";

/// Some lines in two calls, cut at every place, the second call with whole buffers or single bytes.
fn buffer_cuts() -> Script {
    let single = |bytes: &[u8]| whole(bytes, None).replacen('w', "b", 1);
    let cut = |at: usize| {
        let (first, second) = LINES.split_at(at);
        ["on".to_string(), "s 1000".to_string(), whole(first, None), whole(second, None), whole(first, None), single(second)]
    };
    script((0..LINES.len()).flat_map(cut))
}

/// Each command before a shorter and a longer answer in every room that is one off the answers, or near it; answered at once, or
/// when it has waited.
fn buffer_rooms() -> Script {
    let sized = COMMANDS.iter().flat_map(|(name, _)| {
        let rooms = if *name == "I0" { 256..288 } else { 0..48 };
        rooms.flat_map(move |room| in_room(room, "s 1000", &format!("{name}\r\nQ\r\nI1\r\n")))
    });
    let waiting = ["S", "T", "Z", "SR"]
        .into_iter()
        .flat_map(|name| (0..32).flat_map(move |room| in_room(room, "u 1000", &format!("{name}\r\nSI\r\nI1\r\n"))));
    script(sized.chain(waiting))
}

/// After a power-on and a sample these lines in one call, then the LF that it may have stopped before.
fn in_room(room: usize, sample: &str, lines: &str) -> [String; 6] {
    let sent = whole(lines.as_bytes(), None);
    ["room 384".to_string(), "on".to_string(), sample.to_string(), format!("room {room}"), sent, "w 0A".to_string()]
}

/// A faulty byte at every place of some lines, and around the places where marks are 128, 255 and 1 again.
fn buffer_faults() -> Script {
    let short = (0..LINES.len()).map(|at| whole(LINES, Some(at)));
    let long = [b"S".repeat(300), b"\r\nDW\r\n".to_vec()].concat();
    let places = (125..130).chain(252..258);
    script(short.chain(places.map(|at| whole(&long, Some(at)))))
}

/// Lengths up to 70 and around 4,096, with and without a line on its way, and with a mark too few and too many.
fn buffer_lengths() -> Script {
    let of_length = |n: usize| {
        let all = |byte: &str| run(n, byte);
        [all("53"), all("0D"), all("0A"), "b 53 0D".to_string(), all("0A"), all("0D"), all("20")]
    };
    let unequal = |n: usize| ["w-", "w+"].map(|word| format!("{word}{}", " 53".repeat(n)));
    let lengths = (0..=70).chain(255..258).chain(4_093..4_100);
    let others = (0..=3).chain(63..67).chain(4_094..4_099);
    script(lengths.flat_map(of_length).chain(others.flat_map(unequal)))
}

/// Good and bad lengths on a profile and a state that are refused or not, in rooms that do and do not suffice.
fn buffer_refusals() -> Script {
    let profiles = ["220000000 1000000 4400000", "220000000 1000000 999", "0 0 4400000", "220000000 1000000 1000"];
    let (full, long) = (&run(4_096, "20")[..], &run(4_097, "20")[..]);
    let buffers = ["w", "w 51 0D 0A", "w- 51", "w+ 51", "w+", full, long];
    let orders = profiles.into_iter().flat_map(move |profile| {
        [0, 3, 4, 4_096].into_iter().flat_map(move |room| {
            let set = [format!("profile {profile} 3"), format!("room {room}")];
            set.into_iter().chain(buffers.map(String::from))
        })
    });
    script(["s 1000", "> Z"].map(String::from).into_iter().chain(orders))
}

// Captures.

const GOOD: [&[u8]; 22] = [
    b"S S    14.2561 g\r\n",
    b"S D -0.000001 ozt\r\n",
    b"TA A          0 GN\r\n",
    b"TI D    100.50 dwt\r\n",
    b"Z A\r\n",
    b"TAC I\r\n",
    b"S L\r\n",
    b"I0 B 1 \"SR\"\r\n",
    b"ET\r\n",
    b"I0 B 1 \"TAC\"\r\n",
    b"I1 A \"0\" \"2.30\" \"2.20\"\r\n",
    b"I4 A \"VA-0001\"\r\n",
    b"S S       0.01 kg\r\n",
    b"TA A       0.49 lb\r\n",
    b"M21 A\r\n",
    b"M21 A 0 5\r\n",
    b"M21 A 0 11\r\n",
    b"I0 A 2 \"M21\"\r\n",
    b"S S   150.000  g\r\n",
    b"S D -999999.9  mg\r\n",
    b"TA A 999.99999  lb\r\n",
    b"TI D    0.0100  dwt\r\n",
];

/// Each byte of good lines set to each value, left out and doubled; and every name with every status.
pub fn captures() -> Vec<Script> {
    let mut captures: Vec<Script> = GOOD.iter().map(|line| damaged(line)).collect();
    captures.extend([statuses(), units(), fields()]);
    captures
}

/// Numbers of every length, sign and count of decimals before none, one and two spaces in a field of eight to twelve characters.
fn fields() -> Script {
    let numbers = (0..8u8).flat_map(|decimals| {
        let nines = (1..11).map(ten_to).flat_map(|power| [power - 1, power]);
        let values = nines.chain([0, 1]).flat_map(|value| [value, -value]);
        values.flat_map(move |value| [value < 0, true].map(|minus| number_text(value, decimals, minus)))
    });
    let lines = numbers.filter(|number| number.len() <= 12).flat_map(|number| {
        let heads = ["S S", "S D", "T S", "TI S", "TI D", "TA A"];
        let spaced = heads.into_iter().flat_map({
            let number = number.clone();
            move |head| ["", " "].map(|space| format!("{head} {number:>0$}{space} g", 10 - space.len()))
        });
        let odd = [
            format!("S S {number:>8}   g"),
            format!("S S {number:>9} g"),
            format!("S S {number:>10}  g"),
            format!("S S {number:<10} g"),
        ];
        spaced.chain(odd).collect::<Vec<_>>()
    });
    lines.map(|line| format!("{line}\r\n").into_bytes()).collect()
}

/// What M21 may answer with numbers of up to three digits, and weights in names of up to three letters.
fn units() -> Script {
    let numbers = (0..=300).map(|code| code.to_string()).chain((0..=30).map(|code| format!("{code:02}")));
    let codes = numbers
        .flat_map(|code| ["A 0", "A 1", "A 2", "A 00", "B 0", "I 0", "L 0", "A"].map(|before| format!("M21 {before} {code}")));
    let letters = "gmkctlbozdwGNLB";
    let one: Vec<String> = letters.chars().map(String::from).collect();
    let longer = |names: &[String]| -> Vec<String> {
        names.iter().flat_map(|name| letters.chars().map(move |letter| format!("{name}{letter}"))).collect()
    };
    let (two, three) = (longer(&one), longer(&longer(&one)));
    let weights = [one, two, three].into_iter().flatten().map(|name| format!("S S     1.0000 {name}"));
    codes.chain(weights).map(|line| format!("{line}\r\n").into_bytes()).collect()
}

fn damaged(line: &[u8]) -> Script {
    let mut pieces = vec![];
    for at in 0..line.len() {
        let (before, after) = (&line[..at], &line[at + 1..]);
        pieces.extend((0..=255).map(|byte| [before, &[byte], after].concat()));
        pieces.push([before, after].concat());
        pieces.push([before, &line[at..=at], &line[at..]].concat());
        pieces.push(line.to_vec());
    }
    pieces
}

fn statuses() -> Script {
    let letters = "ABCDEFGHIJKLMNOPQRSTUVWXYZ+-?@ 01".chars();
    let of_letter = |letter: char| {
        let bare = COMMANDS.iter().map(move |(name, _)| format!("{name} {letter}"));
        let weights = COMMANDS.iter().map(move |(name, _)| format!("{name} {letter}     1.0000 g"));
        let texts = COMMANDS.iter().map(move |(name, _)| format!("{name} {letter} \"text\""));
        let listed =
            COMMANDS.iter().flat_map(move |(name, _)| (0..4).map(move |level| format!("I0 {letter} {level} \"{name}\"")));
        bare.chain(weights).chain(texts).chain(listed)
    };
    letters.flat_map(of_letter).map(|line| format!("{line}\r\n").into_bytes()).collect()
}
