//! Weights: units, the rounding to the display, the ten characters, typed numbers.

use crate::faults::Fault;

/// Document 01's seven in its order, then the two of document 02, No. 5.
#[derive(Clone, Copy, Debug, Default, PartialEq, Eq)]
pub enum Unit {
    #[default]
    Gram,
    Milligram,
    Carat,
    Ounce,
    TroyOunce,
    Grain,
    Pennyweight,
    Kilogram,
    Pound,
}

pub const UNITS: [Unit; 9] = [
    Unit::Gram,
    Unit::Milligram,
    Unit::Carat,
    Unit::Ounce,
    Unit::TroyOunce,
    Unit::Grain,
    Unit::Pennyweight,
    Unit::Kilogram,
    Unit::Pound,
];

impl Unit {
    pub fn name(self) -> &'static str {
        match self {
            Unit::Gram => "g",
            Unit::Milligram => "mg",
            Unit::Carat => "ct",
            Unit::Ounce => "oz",
            Unit::TroyOunce => "ozt",
            Unit::Grain => "GN",
            Unit::Pennyweight => "dwt",
            Unit::Kilogram => "kg",
            Unit::Pound => "lb",
        }
    }

    /// The code of M21, as source document 003 numbers its units.
    pub fn code(self) -> &'static str {
        match self {
            Unit::Gram => "0",
            Unit::Kilogram => "1",
            Unit::Milligram => "3",
            Unit::Carat => "5",
            Unit::Pound => "7",
            Unit::Ounce => "8",
            Unit::TroyOunce => "9",
            Unit::Grain => "10",
            Unit::Pennyweight => "11",
        }
    }

    /// The code as it is written, and no other way.
    pub fn coded(code: &[u8]) -> Option<Unit> {
        UNITS.into_iter().find(|unit| unit.code().as_bytes() == code)
    }

    /// The place among the nine, from 0.
    pub fn index(self) -> usize {
        self as usize
    }

    pub fn nanograms(self) -> i128 {
        match self {
            Unit::Gram => 1_000_000_000,
            Unit::Milligram => 1_000_000,
            Unit::Carat => 200_000_000,
            Unit::Ounce => 28_349_523_125,
            Unit::TroyOunce => 31_103_476_800,
            Unit::Grain => 64_798_910,
            Unit::Pennyweight => 1_555_173_840,
            Unit::Kilogram => 1_000_000_000_000,
            Unit::Pound => 453_592_370_000,
        }
    }

    pub fn named(name: &[u8]) -> Option<Unit> {
        UNITS.into_iter().find(|unit| unit.name().as_bytes() == name)
    }

    fn weighed(self, fault: Option<Fault>) -> i128 {
        match (self, fault) {
            (Unit::Ounce, Some(Fault::OunceCutShort)) => 28_349_523_000,
            (Unit::Grain, Some(Fault::GrainCutShort)) => 64_798_900,
            (Unit::TroyOunce, Some(Fault::TroyOunceCutShort)) => 31_103_476_000,
            (Unit::Pennyweight, Some(Fault::PennyweightCutShort)) => 1_555_173_000,
            (Unit::Kilogram, Some(Fault::KilogramTenfold)) => 10_000_000_000_000,
            (Unit::Pound, Some(Fault::PoundCutShort)) => 453_592_000_000,
            _ => self.nanograms(),
        }
    }
}

pub fn ten_to(power: u32) -> i128 {
    10i128.pow(power)
}

/// How finely a unit is printed.
#[derive(Clone, Copy, Debug, PartialEq, Eq)]
pub struct Places {
    pub decimals: u8,
    pub step: u8,
}

/// What a weight is printed in.
#[derive(Clone, Copy, Debug, PartialEq, Eq)]
pub struct Scale {
    pub unit: Unit,
    pub decimals: u8,
    pub step: u8,
}

/// The two ranges of a DeltaRange cell (document 02, No. 7).
#[derive(Clone, Copy, Debug, Default, PartialEq, Eq)]
pub enum Range {
    #[default]
    Fine,
    Coarse,
}

impl Scale {
    /// What is printed in a range. In the coarse one the last place is left out, which makes the step ten times larger.
    pub fn in_range(self, range: Range) -> Scale {
        match range {
            Range::Fine => self,
            Range::Coarse => Scale { decimals: self.decimals.saturating_sub(1), ..self },
        }
    }
}

/// net x 1,000 x 10^d / unit, to the nearest multiple of k, a tie away from zero; counted in last places.
pub fn last_places(net: i128, scale: Scale, fault: Option<Fault>) -> i128 {
    let net = if fault == Some(Fault::RoundedTwice) { (net + 50).div_euclid(100) * 100 } else { net };
    let k = if fault == Some(Fault::StepIgnored) { 1 } else { i128::from(scale.step) };
    let exact = net.abs() * 1000 * ten_to(scale.decimals.into());
    let step = k * scale.unit.weighed(fault);
    let steps = nearest(exact, step, fault);
    net.signum() * steps * k
}

/// The whole number nearest to a / b, both not negative, the larger one at a tie.
fn nearest(a: i128, b: i128, fault: Option<Fault>) -> i128 {
    let number = (2 * a + b) / (2 * b);
    let tie = || 2 * a % (2 * b) == b;
    match fault {
        Some(Fault::TieTowardsZero) if tie() => number - 1,
        Some(Fault::TieToEven) if tie() => number - number % 2,
        Some(Fault::RoundedTowardsZero) => a / b,
        _ => number,
    }
}

/// The digits with d decimals, a minus before them if asked for.
pub fn number_text(places: i128, decimals: u8, minus: bool) -> String {
    let d = usize::from(decimals);
    let digits = format!("{:0>1$}", places.abs().to_string(), d + 1);
    let (whole, part) = digits.split_at(digits.len() - d);
    let sign = if minus { "-" } else { "" };
    let point = if d == 0 { "" } else { "." };
    format!("{sign}{whole}{point}{part}")
}

/// A net as it is printed, without the spaces before it.
pub fn printed(net: i128, scale: Scale, fault: Option<Fault>) -> String {
    let places = last_places(net, scale, fault);
    let minus = places < 0 || (fault == Some(Fault::MinusZeroPrinted) && net < 0);
    number_text(places, scale.decimals, minus)
}

/// Whether that is ten characters or fewer.
pub fn fits(net: i128, scale: Scale, fault: Option<Fault>) -> bool {
    fits_in(10, net, scale, fault)
}

/// Whether it leaves a place for the space in the coarse range of this scale.
pub fn fits_coarse(net: i128, scale: Scale, fault: Option<Fault>) -> bool {
    let room = if fault == Some(Fault::CoarseFitsTen) { 10 } else { 9 };
    fits_in(room, net, scale.in_range(Range::Coarse), fault)
}

/// Up to seven decimals, the zero before the point and a minus never are more.
fn fits_in(room: u32, net: i128, scale: Scale, fault: Option<Fault>) -> bool {
    let places = last_places(net, scale, fault);
    let digits = room - u32::from(scale.decimals > 0) - u32::from(places < 0);
    places.abs() < ten_to(digits)
}

/// The ten characters and the unit, in a range of this scale.
pub fn weight_text(net: i128, scale: Scale, range: Range, fault: Option<Fault>) -> String {
    let unit = if fault == Some(Fault::UnitTextOfGrams) { "g" } else { scale.unit.name() };
    if range == Range::Coarse {
        return format!("{} {unit}", coarse_field(net, scale, fault));
    }
    let number = printed(net, scale, fault);
    if fault == Some(Fault::LeftAligned) {
        return format!("{number:<10} {unit}");
    }
    format!("{number:>10} {unit}")
}

/// The ten characters in the coarse range: the number in nine, and a space in the last decimal place.
fn coarse_field(net: i128, scale: Scale, fault: Option<Fault>) -> String {
    let places = coarse_places(net, scale, fault);
    let minus_zero = matches!(fault, Some(Fault::MinusZeroPrinted | Fault::CoarseMinusZeroPrinted));
    let minus = places < 0 || (minus_zero && net < 0);
    let decimals = match fault {
        Some(Fault::CoarsePointMisplaced) => scale.decimals,
        _ => scale.in_range(Range::Coarse).decimals,
    };
    let number = number_text(places, decimals, minus);
    match fault {
        Some(Fault::CoarseSpaceBefore) => format!("{number:>10}"),
        Some(Fault::CoarseZeroPrinted) => format!("{number:>9}0"),
        Some(Fault::CoarseFieldOneShort) => format!("{number:>9}"),
        Some(Fault::LeftAligned | Fault::CoarseLeftAligned) => format!("{number:<10}"),
        _ => format!("{number:>9} "),
    }
}

/// One rounding from the exact net, as in the fine range, save for faults.
fn coarse_places(net: i128, scale: Scale, fault: Option<Fault>) -> i128 {
    let coarse = scale.in_range(Range::Coarse);
    let k = i128::from(scale.step);
    let fine = || last_places(net, scale, fault);
    match fault {
        Some(Fault::CoarseFineFirst) => fine().signum() * nearest(fine().abs(), 10 * k, fault) * k,
        Some(Fault::CoarseLastDigitDropped) => fine() / 10,
        Some(Fault::CoarseStepOfOne) => last_places(net, Scale { step: 1, ..coarse }, fault),
        Some(Fault::CoarseTieTowardsZero) => last_places(net, coarse, Some(Fault::TieTowardsZero)),
        Some(Fault::CoarseRoundedDown) => last_places(net, coarse, Some(Fault::RoundedTowardsZero)),
        _ => last_places(net, coarse, fault),
    }
}

/// A typed number: its digits as a whole number, and how many of them are decimals.
pub fn typed_number(text: &[u8], fault: Option<Fault>) -> Option<(i128, u32)> {
    let most = if fault == Some(Fault::TypedElevenCharacters) { 11 } else { 10 };
    if text.is_empty() || text.len() > most {
        return None;
    }
    let is_point = |byte: &u8| *byte == b'.' && fault != Some(Fault::PointTakenForText);
    let (whole, part) = match text.iter().position(is_point) {
        Some(at) => (&text[..at], Some(&text[at + 1..])),
        None => (text, None),
    };
    let decimals = part.unwrap_or(b"");
    let bare = part == Some(b"") && fault != Some(Fault::TypedBarePoint);
    let most = if fault == Some(Fault::TypedSevenDecimals) { 7 } else { 6 };
    if whole.is_empty() || bare || decimals.len() > most {
        return None;
    }
    let digits = [whole, decimals].concat();
    let is_digit = |byte: &u8| match (byte, fault) {
        (b'/', Some(Fault::SlashTakenForDigit)) | (b':', Some(Fault::ColonTakenForDigit)) => true,
        (b'9', Some(Fault::NineTakenForText)) => false,
        _ => byte.is_ascii_digit(),
    };
    if !digits.iter().all(is_digit) {
        return None;
    }
    let number = digits.iter().fold(0, |sum, digit| sum * 10 + i128::from(digit.saturating_sub(b'0')));
    Some((number, decimals.len() as u32))
}

/// The whole number nearest to a / b, both not negative, a tie upwards; the faults take it downwards or cut the rest off.
fn nearest_upwards(a: i128, b: i128, fault: Option<Fault>, tie_downwards: Fault, cut: Fault) -> i128 {
    let tie = 2 * a % (2 * b) == b;
    match fault {
        Some(fault) if fault == cut || (tie && fault == tie_downwards) => a / b,
        _ => (2 * a + b) / (2 * b),
    }
}

/// SR's number in micrograms, rounded once, a tie upwards.
pub fn typed_micrograms(text: &[u8], scale: Scale, fault: Option<Fault>) -> Option<i128> {
    let (number, decimals) = typed_number(text, fault)?;
    let (nanograms, below) = (number * scale.unit.weighed(fault), 1000 * ten_to(decimals));
    Some(nearest_upwards(nanograms, below, fault, Fault::ThresholdTieDownwards, Fault::ThresholdCut))
}

/// TA's number to the nearest display step, a tie upwards; counted in last places.
pub fn typed_places(text: &[u8], scale: Scale, fault: Option<Fault>) -> Option<i128> {
    if fault == Some(Fault::TypedMicrogramFirst) {
        return Some(last_places(typed_micrograms(text, scale, None)?, scale, None));
    }
    let (number, decimals) = typed_number(text, fault)?;
    let k = match fault {
        Some(Fault::TypedStepIgnored) => 1,
        Some(Fault::TypedShortUnrounded) if decimals <= scale.decimals.into() => 1,
        _ => i128::from(scale.step),
    };
    let (mut places, mut below) = (number * ten_to(scale.decimals.into()), k * ten_to(decimals));
    if fault == Some(Fault::TypedLastPlaceFirst) {
        (places, below) = ((2 * places + ten_to(decimals)) / (2 * ten_to(decimals)), k);
    }
    Some(nearest_upwards(places, below, fault, Fault::TypedFirstTieDownwards, Fault::TypedFirstCut) * k)
}

/// A typed tare in micrograms (document 02, No. 3): the number to the nearest display step of its range's scale, and that decimal to
/// the nearest microgram, a tie upwards in both.
pub fn typed_tare(text: &[u8], scale: Scale, fault: Option<Fault>) -> Option<i128> {
    if fault == Some(Fault::TypedRoundedOnce) {
        return typed_micrograms(text, scale, fault);
    }
    let nanograms = typed_places(text, scale, fault)? * scale.unit.weighed(fault);
    let below = 1000 * ten_to(scale.decimals.into());
    Some(nearest_upwards(nanograms, below, fault, Fault::TypedSecondTieDownwards, Fault::TypedSecondCut))
}

/// Whether a typed number, exact and not rounded at all, is above a weight in micrograms; or at it, for the fault that asks so.
pub fn typed_is_above(text: &[u8], scale: Scale, micrograms: u32, fault: Option<Fault>) -> Option<bool> {
    let (number, decimals) = typed_number(text, fault)?;
    let (typed, limit) = (number * scale.unit.nanograms(), i128::from(micrograms) * 1000 * ten_to(decimals));
    Some(typed > limit || (fault == Some(Fault::TypedAtLimitCoarse) && typed == limit))
}

/// TA's number and what its first rounding makes of it, in micrograms, a part of one counted as one: for the faults that compare
/// these with C.
pub fn before_roundings(text: &[u8], scale: Scale) -> Option<(i128, i128)> {
    let up = |a: i128, b: i128| (a + b - 1) / b;
    let (number, decimals) = typed_number(text, None)?;
    let (places, unit) = (typed_places(text, scale, None)?, scale.unit.nanograms());
    Some((up(number * unit, 1000 * ten_to(decimals)), up(places * unit, 1000 * ten_to(scale.decimals.into()))))
}

/// The micrograms that the printed number stands for, for the fault that keeps these.
pub fn as_printed(net: i128, scale: Scale) -> i128 {
    let places = last_places(net, scale, None);
    places * scale.unit.nanograms() / (1000 * ten_to(scale.decimals.into()))
}
