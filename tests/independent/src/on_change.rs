//! Send on change (document 02, No. 1): what a running SR keeps, and which samples it sends.

use crate::faults::Fault;
use crate::module::Reading;
use crate::weight::{as_printed, ten_to, Range, Scale};

/// A running SR; weights are in micrograms.
#[derive(Clone, Copy, Debug, Default, PartialEq, Eq)]
pub struct OnChange {
    /// The exact net behind the last `S S` that SR sent, its first answer included.
    pub last: i64,
    /// The threshold that its line set; without one the last net and the display decide.
    pub threshold: Option<i64>,
    /// `S D` was sent, and the `S S` after it is owed.
    pub owed: bool,
    /// `S +` or `S -` was sent, and no sample was back in range since.
    pub out: bool,
}

impl OnChange {
    /// Takes a sample that finds no command waiting; true if it is sent. The request's order: out of range, owed, moved.
    pub fn sends(&mut self, reading: Reading, scale: Scale, fault: Option<Fault>) -> bool {
        let has = |one| fault == Some(one);
        if reading.out.is_some() {
            return self.goes_out(reading, fault);
        }
        let was_out = std::mem::replace(&mut self.out, false);
        let moved = self.has_moved(reading.net, scale, fault);
        self.owed &= moved || !has(Fault::OwedDroppedWhenBack);
        let owed = self.owed && !has(Fault::OwedWaitsForChange);
        let due = owed || moved || (was_out && has(Fault::BackInRangeSent));
        let sent = due && if reading.stable { self.owed || !has(Fault::StableHeldBack) } else { self.may_send_dynamic(fault) };
        if sent {
            self.owed = !reading.stable;
            self.keep(reading, scale, fault);
        }
        self.out = was_out && !sent && has(Fault::SilentSampleStaysOut);
        sent
    }

    /// One `S +` or `S -` for the whole excursion, whatever its samples are.
    fn goes_out(&mut self, reading: Reading, fault: Option<Fault>) -> bool {
        if fault == Some(Fault::UnstableOutUnsent) && !reading.stable {
            return false;
        }
        self.owed &= fault != Some(Fault::OwedLostInExcursion);
        let first = !std::mem::replace(&mut self.out, true);
        match fault {
            Some(Fault::OutOfRangeRepeated) => true,
            Some(Fault::OutOfRangeUnsent) => false,
            _ => first,
        }
    }

    /// One `S D`, until an `S S`.
    fn may_send_dynamic(&self, fault: Option<Fault>) -> bool {
        !self.owed || fault == Some(Fault::SecondDynamicSent)
    }

    fn keep(&mut self, reading: Reading, scale: Scale, fault: Option<Fault>) {
        if reading.stable || fault == Some(Fault::DynamicNetKept) {
            self.last = kept_net(reading, scale, fault);
        }
    }

    /// Whether net differs from the last stable net sent by the threshold or more; no division, so nothing is rounded.
    fn has_moved(&self, net: i128, scale: Scale, fault: Option<Fault>) -> bool {
        let last = i128::from(self.last);
        let change = match fault {
            Some(Fault::ChangeBySize) => net.abs() - last.abs(),
            Some(Fault::PrintedChangeCompared) => as_printed(net, scale) - as_printed(last, scale),
            _ => net - last,
        };
        let change = change.abs();
        let size = if fault == Some(Fault::EighthOfPresentNet) { net.abs() } else { last.abs() };
        match self.threshold {
            Some(_) if fault == Some(Fault::SetThresholdHasLeast) && !is_thirty_steps(change, scale, None) => false,
            Some(set) => change >= i128::from(set) + i128::from(fault == Some(Fault::SetThresholdExclusive)),
            None => is_an_eighth(change, size, fault) && is_thirty_steps(change, scale, fault),
        }
    }
}

/// What is kept of a net that is sent: all of it.
pub fn kept_net(Reading { net, range, .. }: Reading, scale: Scale, fault: Option<Fault>) -> i64 {
    let kept = match (fault, range) {
        (Some(Fault::PrintedNetKept), _) => as_printed(net, scale.in_range(range)),
        (Some(Fault::CoarseNetKept), Range::Coarse) => as_printed(net, scale.in_range(range)),
        _ => net,
    };
    kept as i64
}

fn is_an_eighth(change: i128, size: i128, fault: Option<Fault>) -> bool {
    match fault {
        Some(Fault::EighthForgotten) => true,
        Some(Fault::EighthExclusive) => 8 * change > size,
        Some(Fault::EighthRoundedDown) => change >= size / 8,
        _ => 8 * change >= size,
    }
}

/// A display step is k x unit / (1,000 x 10^d) micrograms.
fn is_thirty_steps(change: i128, scale: Scale, fault: Option<Fault>) -> bool {
    let above = 1000 * ten_to(scale.decimals.into());
    let k = if fault == Some(Fault::ThirtyLastPlaces) { 1 } else { i128::from(scale.step) };
    let below = 30 * k * scale.unit.nanograms();
    match fault {
        Some(Fault::StepsForgotten) => true,
        Some(Fault::StepsExclusive) => change * above > below,
        Some(Fault::StepsRoundedDown) => change >= below / above,
        _ => change * above >= below,
    }
}

/// The smallest whole change that is sent after a net.
pub fn least_change(last: i128, threshold: Option<i64>, scale: Scale) -> i128 {
    let above = 1000 * ten_to(scale.decimals.into());
    let steps = 30 * i128::from(scale.step) * scale.unit.nanograms();
    let rounded_up = |a: i128, b: i128| (a + b - 1) / b;
    threshold.map_or(rounded_up(last.abs(), 8).max(rounded_up(steps, above)), i128::from)
}
