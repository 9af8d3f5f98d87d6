//! Units, rounding, the ten characters in both ranges, typed numbers.

#[derive(Clone, Copy, Debug, PartialEq, Eq)]
#[repr(u8)]
pub enum Unit {
    Gram,
    Milligram,
    Carat,
    Ounce,
    TroyOunce,
    Grain,
    Pennyweight,
    Kilogram,
    Pound,
}

use Unit::*;

/// Document 01's seven in its order, then kg and lb.
pub const UNITS: [Unit; 9] = [Gram, Milligram, Carat, Ounce, TroyOunce, Grain, Pennyweight, Kilogram, Pound];

const NANOGRAMS: [u64; 9] = [
    1_000_000_000,
    1_000_000,
    200_000_000,
    28_349_523_125,
    31_103_476_800,
    64_798_910,
    1_555_173_840,
    1_000_000_000_000,
    453_592_370_000,
];

const POWERS: [u64; 11] = [1, 10, 100, 1_000, 10_000, 100_000, 1_000_000, 10_000_000, 100_000_000, 1_000_000_000, 10_000_000_000];

impl Unit {
    pub fn nanograms(self) -> u64 {
        NANOGRAMS[self as usize]
    }

    pub fn name(self) -> &'static [u8] {
        const NAMES: [&[u8]; 9] = [b"g", b"mg", b"ct", b"oz", b"ozt", b"GN", b"dwt", b"kg", b"lb"];
        NAMES[self as usize]
    }

    pub fn named(text: &[u8]) -> Option<Unit> {
        Some(match text {
            b"g" => Unit::Gram,
            b"mg" => Unit::Milligram,
            b"ct" => Unit::Carat,
            b"oz" => Unit::Ounce,
            b"ozt" => Unit::TroyOunce,
            b"GN" => Unit::Grain,
            b"dwt" => Unit::Pennyweight,
            b"kg" => Unit::Kilogram,
            b"lb" => Unit::Pound,
            _ => return None,
        })
    }

    /// The code of M21.
    pub fn code(self) -> &'static [u8] {
        const CODES: [&[u8]; 9] = [b"0", b"3", b"5", b"8", b"9", b"10", b"11", b"1", b"7"];
        CODES[self as usize]
    }

    pub fn coded(text: &[u8]) -> Option<Unit> {
        Some(match text {
            b"0" => Unit::Gram,
            b"1" => Unit::Kilogram,
            b"3" => Unit::Milligram,
            b"5" => Unit::Carat,
            b"7" => Unit::Pound,
            b"8" => Unit::Ounce,
            b"9" => Unit::TroyOunce,
            b"10" => Unit::Grain,
            b"11" => Unit::Pennyweight,
            _ => return None,
        })
    }
}

#[derive(Clone, Copy, Debug)]
pub struct Scale {
    pub unit: Unit,
    pub decimals: u8,
    pub step: u8,
}

/// For profiles with one range and with two.
static WIDEST: [[[u32; 64]; 9]; 2] = [widest(false), widest(true)];

/// For each unit, at eight times the decimals and the step: the largest size of a lowest net that fits; 0 where no profile may have
/// them. The rounded number has at most nine digits beside a minus, eight beside a point too, just if the size and half a step are
/// below what the first number of more digits stands for. Coarse it has a decimal fewer, of at least two, and a character less, so
/// seven digits; what fits so also fits fine.
const fn widest(coarse: bool) -> [[u32; 64]; 9] {
    let mut all = [[0; 64]; 9];
    let mut at = 0;
    while at < 9 * 64 {
        let (unit, decimals, step) = (at / 64, at / 8 % 8, at % 8);
        let divisor = step as u128 * NANOGRAMS[unit] as u128;
        let may_stand = decimals <= 6 && matches!(step, 1 | 2 | 5) && divisor >= 1000 * POWERS[decimals] as u128;
        if may_stand && (decimals >= 2 || !coarse) {
            let (decimals, digits) = match decimals {
                0 => (0, 9),
                _ if coarse => (decimals - 1, 7),
                _ => (decimals, 8),
            };
            let largest = NANOGRAMS[unit] as u128 * POWERS[digits] as u128 - divisor / 2 - 1;
            let size = largest / (1000 * POWERS[decimals] as u128);
            all[unit][at % 64] = if size < u32::MAX as u128 { size as u32 } else { u32::MAX };
        }
        at += 1;
    }
    all
}

impl Scale {
    /// Whether it may stand in a profile with a lowest net of this size, which is not 0, and with one range or two. Nothing is divided,
    /// and nothing ends it early.
    #[inline(always)]
    pub fn is_allowed(&self, lowest: u32, has_coarse: bool) -> bool {
        let Scale { unit, decimals, step } = *self;
        let at = usize::from(decimals & 7) * 8 + usize::from(step & 7);
        ((decimals | step) < 8) & (lowest <= WIDEST[usize::from(has_coarse)][unit as usize][at])
    }

    /// Of the coarse range, if asked for: one decimal fewer makes the step ten times as large. The scale has a decimal then.
    pub fn in_range(self, coarse: bool) -> Scale {
        Scale { decimals: self.decimals - u8::from(coarse), ..self }
    }

    fn divisor(&self) -> u64 {
        u64::from(self.step) * self.unit.nanograms()
    }

    fn multiplier(&self) -> u64 {
        1000 * POWERS[usize::from(self.decimals)]
    }

    /// Rounded to the nearest multiple of the step, a tie away from zero; the scale is allowed.
    pub fn places(&self, net: i64) -> i64 {
        let divisor = self.divisor();
        let steps = (net.unsigned_abs() * self.multiplier() + divisor / 2) / divisor;
        let size = (steps * u64::from(self.step)) as i64;
        if net < 0 {
            -size
        } else {
            size
        }
    }

    /// Whether a difference of nets is 30 steps or more; the scale is allowed, so nothing overflows.
    pub fn is_thirty_steps(&self, change: u64) -> bool {
        change * self.multiplier() >= 30 * self.divisor()
    }
}

/// Whether a number with at most 6 decimals takes at most ten characters; a coarse one has nine.
pub fn fits(places: i64, decimals: u8, coarse: bool) -> bool {
    let room = 10 - usize::from(coarse) - usize::from(decimals > 0) - usize::from(places < 0);
    places.unsigned_abs() < POWERS[room]
}

/// The ten characters of a number that fits them; the last is a space where it is coarse.
pub fn put_field(places: i64, decimals: u8, coarse: bool, out: &mut [u8; 10]) {
    put_number(places, decimals, out);
    if coarse {
        // It fits nine, so the first is the space.
        out.rotate_left(1);
    }
}

fn put_number(places: i64, decimals: u8, out: &mut [u8; 10]) {
    let mut rest = places.unsigned_abs();
    let mut at = 10;
    *out = [b' '; 10];
    let mut put = |byte: u8| {
        at -= 1;
        out[at] = byte;
    };
    if decimals > 0 {
        for _ in 0..decimals {
            put(b'0' + (rest % 10) as u8);
            rest /= 10;
        }
        put(b'.');
    }
    loop {
        put(b'0' + (rest % 10) as u8);
        rest /= 10;
        if rest == 0 {
            break;
        }
    }
    if places < 0 {
        put(b'-');
    }
}

/// One fewer than a profile with two ranges may have.
pub fn are_coarse(decimals: u8) -> bool {
    (1..=5).contains(&decimals)
}

/// Digits with at most one point, which has digits on both sides and at most six after it: the number without the point, and its
/// decimals. The text has at most ten characters, so nothing overflows.
fn decimal(text: &[u8]) -> Option<(u64, u8)> {
    let mut value = 0;
    let mut point = None;
    for (at, &byte) in text.iter().enumerate() {
        match byte {
            b'0'..=b'9' => value = value * 10 + u64::from(byte - b'0'),
            b'.' if point.is_none() => point = Some(at),
            _ => return None,
        }
    }
    match point {
        None if text.is_empty() => None,
        None => Some((value, 0)),
        Some(at) => {
            let decimals = text.len() - at - 1;
            (at > 0 && (1..=6).contains(&decimals)).then_some((value, decimals as u8))
        }
    }
}

/// A number of at most ten characters.
fn typed(text: &[u8]) -> Option<(u64, u8)> {
    if text.len() > 10 {
        return None;
    }
    decimal(text)
}

/// The nearest microgram to a number with so many decimals, a tie upwards; none where it overflows, above every capacity by far.
fn micrograms(value: u64, decimals: u8, unit: Unit) -> Option<u64> {
    let divisor = 1000 * POWERS[usize::from(decimals)];
    Some(value.checked_mul(unit.nanograms())?.checked_add(divisor / 2)? / divisor)
}

/// Whether it is above a limit, before any rounding. None where it overflows: that is over 18 kg, and no coarse step, of at most half
/// a kilogram, takes it down to a capacity.
fn is_above(value: u64, decimals: u8, unit: Unit, limit: u32) -> Option<bool> {
    Some(value.checked_mul(unit.nanograms())? > u64::from(limit) * 1000 * POWERS[usize::from(decimals)])
}

/// SR's number in micrograms, rounded once; none where it is no number or above every capacity.
pub fn typed_threshold(text: &[u8], scale: Scale) -> Option<u64> {
    let (value, decimals) = typed(text)?;
    micrograms(value, decimals, scale.unit)
}

/// TA's number in micrograms, rounded to the nearest display step first, a tie upwards; none where it is no number or above every
/// capacity. The step is the coarse one for a number above this fine limit, if there is one. The scale is allowed, and ten digits with
/// six places more don't overflow.
pub fn typed_tare(text: &[u8], scale: Scale, fine: Option<u32>) -> Option<u64> {
    let (value, decimals) = typed(text)?;
    let scale = match fine {
        None => scale,
        Some(fine) => scale.in_range(is_above(value, decimals, scale.unit, fine)?),
    };
    let step = u64::from(scale.step);
    let divisor = step * POWERS[usize::from(decimals)];
    let steps = (value * POWERS[usize::from(scale.decimals)] + divisor / 2) / divisor;
    micrograms(steps * step, scale.decimals, scale.unit)
}

/// The number and the decimals of ten characters, and whether they are coarse, if they are written as `put_field` writes them.
pub fn read_field(field: &[u8; 10]) -> Option<(i64, u8, bool)> {
    let mut number = *field;
    let coarse = field[9] == b' ';
    if coarse {
        number.rotate_right(1);
    }
    let (places, decimals) = read_number(&number)?;
    (!coarse || are_coarse(decimals)).then_some((places, decimals, coarse))
}

fn read_number(field: &[u8; 10]) -> Option<(i64, u8)> {
    let spaces = field.iter().position(|&byte| byte != b' ')?;
    let (minus, digits) = match &field[spaces..] {
        [b'-', digits @ ..] => (true, digits),
        digits => (false, digits),
    };
    if matches!(digits, [b'0', b'0'..=b'9', ..]) {
        return None;
    }
    let (size, decimals) = decimal(digits)?;
    if minus && size == 0 {
        return None;
    }
    let size = size as i64;
    Some((if minus { -size } else { size }, decimals))
}
