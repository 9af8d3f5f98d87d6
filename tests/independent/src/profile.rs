//! The profile, and when it is refused.

use crate::faults::Fault;
use crate::weight::{fits, fits_coarse, ten_to, Places, Range, Scale, Unit, UNITS};

#[derive(Clone, Debug, PartialEq, Eq)]
pub struct Profile {
    pub capacity: u32,
    pub margin: u32,
    pub zeroing: u32,
    pub patience: u32,
    /// The fine limit F: what is above it is printed in the coarse range. F = C leaves no coarse range.
    pub fine: u32,
    /// Of every unit, in their order.
    pub places: [Places; 9],
    /// The texts of I2, I3, I4 and I5.
    pub texts: [Vec<u8>; 4],
}

impl Profile {
    /// Profile A of the bench cases.
    pub fn a() -> Profile {
        Profile {
            capacity: 220_000_000,
            margin: 1_000_000,
            zeroing: 4_400_000,
            patience: 3,
            fine: 220_000_000,
            places: UNITS.map(|unit| Places { decimals: if unit == Unit::Gram { 4 } else { 2 }, step: 1 }),
            texts: [vec![], vec![], b"VA-0001".to_vec(), vec![]],
        }
    }

    /// What weights are printed in while this unit is in force.
    pub fn scale(&self, unit: Unit) -> Scale {
        let Places { decimals, step } = self.places[unit.index()];
        Scale { unit, decimals, step }
    }

    /// The same profile with another number of decimals and another step in one unit.
    pub fn with_scale(self, Scale { unit, decimals, step }: Scale) -> Profile {
        let mut other = self;
        other.places[unit.index()] = Places { decimals, step };
        other
    }

    /// The same profile with another capacity; one without a coarse range stays so.
    pub fn with_capacity(self, capacity: u32) -> Profile {
        let fine = if self.has_coarse_range() { self.fine } else { capacity };
        Profile { capacity, fine, ..self }
    }

    pub fn has_coarse_range(&self) -> bool {
        self.fine < self.capacity
    }

    /// The range of the weight that decides, in micrograms: gross, and in a tare answer the tare.
    pub fn range(&self, deciding: i128) -> Range {
        if deciding > i128::from(self.fine) {
            Range::Coarse
        } else {
            Range::Fine
        }
    }

    pub fn is_refused(&self, fault: Option<Fault>) -> bool {
        self.is_refused_in(Unit::Gram, fault)
    }

    /// All nine units are tested, whichever is in force; only faults look at that.
    pub fn is_refused_in(&self, in_force: Unit, fault: Option<Fault>) -> bool {
        let judged = |unit: Unit, unjudged: Fault| unit == in_force || fault != Some(unjudged);
        let scale_holds = |unit: Unit| !judged(unit, Fault::OnlyInForceScaled) || scale_holds(self.scale(unit), fault);
        let fits = |unit: Unit| {
            let tested = judged(unit, Fault::OnlyInForceFits) && judged(unit, Fault::OnlyInForceScaled);
            let coarse = || !judged(unit, Fault::OnlyInForceCoarse) || self.coarse_range_holds(self.scale(unit), fault);
            !tested || (self.every_net_fits(self.scale(unit), fault) && coarse())
        };
        let units = || UNITS.into_iter();
        !(self.ranges_hold(fault) && units().all(scale_holds) && units().all(fits) && self.texts_hold(fault))
    }

    fn ranges_hold(&self, fault: Option<Fault>) -> bool {
        let has = |one| fault == Some(one);
        let least = if has(Fault::CapacityOfZero) { 0 } else { 1 };
        let most = if has(Fault::CapacityOverLimit) { 1_000_000_001 } else { 1_000_000_000 };
        let shortest = if has(Fault::PatienceOfZero) { 0 } else { 1 };
        let longest = if has(Fault::PatienceOfThousandOne) { 1_001 } else { 1_000 };
        (least..=most).contains(&self.capacity)
            && (self.margin <= self.capacity || has(Fault::MarginUnchecked))
            && (self.zeroing <= self.capacity || has(Fault::ZeroingRangeUnchecked))
            && (shortest..=longest).contains(&self.patience)
            && (self.fine <= self.capacity || has(Fault::LimitAboveCapacityTaken))
            && (self.fine > 0 || !has(Fault::LimitOfZeroRefused))
            && (self.fine != self.capacity || !has(Fault::LimitAtCapacityRefused))
    }

    /// Where there is a coarse range, a place can be left out of each unit's decimals, and every net fits without it.
    fn coarse_range_holds(&self, scale: Scale, fault: Option<Fault>) -> bool {
        let has = |one| fault == Some(one);
        let exempt = |anyway| !self.has_coarse_range() && !has(anyway);
        let least = if has(Fault::OneDecimalCoarse) { 1 } else { 2 };
        let decimals = exempt(Fault::DecimalsWithoutRange) || scale.decimals >= least || has(Fault::CoarseDecimalsUntested);
        let (lowest, capacity) = self.ends();
        let both =
            fits_coarse(capacity, scale, fault) && (fits_coarse(lowest, scale, fault) || has(Fault::OnlyCapacityFitsCoarse));
        decimals && (exempt(Fault::CoarseFitWithoutRange) || both || has(Fault::CoarseFitUntested))
    }

    /// The lowest and the highest net.
    fn ends(&self) -> (i128, i128) {
        let capacity = i128::from(self.capacity);
        (-(i128::from(self.margin) + capacity), capacity)
    }

    /// The longest texts stand at the ends of the range.
    fn every_net_fits(&self, scale: Scale, fault: Option<Fault>) -> bool {
        let (lowest, capacity) = self.ends();
        let fits = |net| fits(net, scale, fault);
        match fault {
            Some(Fault::NoNetNeedsToFit) => true,
            Some(Fault::OnlyCapacityFits) => fits(capacity),
            _ => fits(capacity) && fits(lowest),
        }
    }

    fn texts_hold(&self, fault: Option<Fault>) -> bool {
        self.texts.iter().zip(TEXT_ROOMS).all(|(text, room)| is_text(text, room, fault))
    }
}

/// The most characters of the texts for I2, I3, I4 and I5.
pub const TEXT_ROOMS: [usize; 4] = [40, 40, 20, 20];

fn scale_holds(Scale { unit, decimals, step }: Scale, fault: Option<Fault>) -> bool {
    let has = |one| fault == Some(one);
    let is_new = matches!(unit, Unit::Kilogram | Unit::Pound);
    let most = if has(Fault::SevenDecimals) || (is_new && has(Fault::NewUnitsSevenDecimals)) { 7 } else { 6 };
    let three = step == 3 && (has(Fault::StepOfThree) || (is_new && has(Fault::NewUnitsStepOfThree)));
    decimals <= most
        && (matches!(step, 1 | 2 | 5) || three)
        && (step_is_a_microgram(unit, decimals, step) || has(Fault::StepBelowMicrogram))
}

fn step_is_a_microgram(unit: Unit, decimals: u8, step: u8) -> bool {
    i128::from(step) * unit.nanograms() >= 1000 * ten_to(decimals.into())
}

/// At most so many bytes from 32 to 255 without the quote.
pub fn is_text(text: &[u8], room: usize, fault: Option<Fault>) -> bool {
    let least = if fault == Some(Fault::ControlInText) { 31 } else { 32 };
    let quote = fault == Some(Fault::QuoteInText);
    text.len() <= room && text.iter().all(|&byte| byte >= least && (byte != b'"' || quote))
}
