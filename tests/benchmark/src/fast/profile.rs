//! The profile, and when it is refused.

use super::weight::{Scale, Unit, UNITS};

/// A text: its first `len` bytes.
#[derive(Clone, Copy, Debug)]
pub struct Text<const N: usize> {
    pub bytes: [u8; N],
    pub len: u8,
}

impl<const N: usize> Text<N> {
    pub fn get(&self) -> Option<&[u8]> {
        self.bytes.get(..usize::from(self.len))
    }

    pub fn is_allowed(&self) -> bool {
        self.get().is_some_and(is_printable)
    }

    fn from(bytes: &[u8]) -> Text<N> {
        let mut text = Text { bytes: [0; N], len: bytes[0] };
        text.bytes.copy_from_slice(&bytes[1..=N]);
        text
    }
}

/// Bytes 32 to 255 without 34. No early end, so that several bytes are tested at once.
pub fn is_printable(text: &[u8]) -> bool {
    text.iter().fold(true, |good, &byte| good & (byte >= 32) & (byte != b'"'))
}

/// How finely a unit is printed.
#[derive(Clone, Copy, Debug)]
pub struct Resolution {
    pub decimals: u8,
    pub step: u8,
}

#[derive(Clone, Copy, Debug)]
pub struct Profile {
    pub capacity: u32,
    /// The limit above which weights are coarse; at the capacity none is.
    pub fine: u32,
    pub underload: u32,
    pub zeroing: u32,
    pub timeout: u32,
    /// Of each unit.
    pub resolutions: [Resolution; 9],
    /// The texts of I2 to I5.
    pub model: Text<40>,
    pub software: Text<40>,
    pub serial: Text<20>,
    pub identity: Text<20>,
}

/// The bytes of a profile in the benchmark's input.
pub const SIZE: usize = 164;

impl Profile {
    pub fn is_allowed(&self) -> bool {
        self.are_limits_allowed()
            && self.are_scales_allowed()
            && self.model.is_allowed()
            && self.software.is_allowed()
            && self.serial.is_allowed()
            && self.identity.is_allowed()
    }

    /// What weights of the fine range are printed and typed in while this unit is in force.
    #[inline(always)]
    pub fn scale(&self, unit: Unit) -> Scale {
        let Resolution { decimals, step } = self.resolutions[unit as usize];
        Scale { unit, decimals, step }
    }

    /// All nine; no early end. The limits are allowed, so the sum fits.
    fn are_scales_allowed(&self) -> bool {
        let (lowest, has_coarse) = (self.capacity + self.underload, self.coarse_above().is_some());
        UNITS.iter().fold(true, |good, &unit| good & self.scale(unit).is_allowed(lowest, has_coarse))
    }

    /// Whether this decides for the coarse range: gross, or in a tare answer the tare.
    pub fn is_coarse(&self, deciding: i64) -> bool {
        deciding > i64::from(self.fine)
    }

    /// The fine limit of a profile with two ranges.
    pub fn coarse_above(&self) -> Option<u32> {
        (self.fine < self.capacity).then_some(self.fine)
    }

    /// No net has a longer text: it has the most digits, and a minus unless it is rounded to zero.
    pub fn lowest_net(&self) -> i64 {
        -(i64::from(self.capacity) + i64::from(self.underload))
    }

    fn are_limits_allowed(&self) -> bool {
        (1..=1_000_000_000).contains(&self.capacity)
            && self.fine <= self.capacity
            && self.underload <= self.capacity
            && self.zeroing <= self.capacity
            && (1..=1000).contains(&self.timeout)
    }

    /// The n-th of several in the benchmark's input.
    pub fn at(profiles: &[u8], n: u32) -> Profile {
        let bytes = &profiles[n as usize * SIZE..][..SIZE];
        let number = |at: usize| u32::from_le_bytes([bytes[at], bytes[at + 1], bytes[at + 2], bytes[at + 3]]);
        Profile {
            capacity: number(0),
            underload: number(4),
            zeroing: number(8),
            timeout: number(12),
            fine: number(16),
            resolutions: UNITS.map(|unit| {
                let at = 20 + 2 * unit as usize;
                Resolution { decimals: bytes[at], step: bytes[at + 1] }
            }),
            model: Text::from(&bytes[38..]),
            software: Text::from(&bytes[79..]),
            serial: Text::from(&bytes[120..]),
            identity: Text::from(&bytes[141..]),
        }
    }
}
