//! What an engine is made of.

use crate::format::Format;
use crate::raw::FilterNumbers;

/// A device. Its default is the one of a run without a configuration.
#[repr(C)]
#[derive(Clone, Copy, Debug, PartialEq, Eq)]
pub struct Device {
    /// Of the frames that are handed over.
    pub format: Format,
    /// 1, 2, 4, 6 or 8.
    pub channels: u32,
    /// Frames per second, 4000 to 192000.
    pub rate: u32,
    /// Channels of the mix; 0: as the device.
    pub mix_channels: u32,
    /// Frames per second of the mix; 0: as the device.
    pub mix_rate: u32,
    /// Frames of the device's ring, 1 to 262144: what is mixed is handed over that many frames later.
    pub ring_frames: u32,
    /// How many clients can play at once. With those that are mapped at most 16.
    pub play_slots: u32,
    /// How many can record at once, at most 16.
    pub record_slots: u32,
    /// How many can have a mapped area at once.
    pub map_slots: u32,
    /// Of changes of rate: 0 holds frames, 1 draws lines, 2 to 4 take a filter where there is one.
    pub quality: u32,
}

impl Default for Device {
    fn default() -> Device {
        Device {
            format: Format::S16Le,
            channels: 2,
            rate: 48000,
            mix_channels: 0,
            mix_rate: 0,
            ring_frames: 1024,
            play_slots: 4,
            record_slots: 4,
            map_slots: 0,
            quality: 1,
        }
    }
}

/// A filter for a change of rate, or for any where both rates are 0.
#[derive(Clone, Copy, Debug, PartialEq, Eq)]
pub struct Filter<'a> {
    /// Frames per second on its side of the input.
    pub src: u32,
    /// And of the output.
    pub dst: u32,
    /// Rows of coefficients, 1 to 512.
    pub phases: u32,
    /// Coefficients of a row: an even number, 2 to 64.
    pub taps: u32,
    /// A coefficient counts as divided by 2 to the power of this.
    pub shift: u32,
    /// `phases * taps` coefficients, row by row.
    pub coefs: &'a [i32],
}

impl Filter<'_> {
    /// Whether there are as many coefficients as its rows have.
    pub(crate) fn is_whole(&self) -> bool {
        self.coefs.len() as u64 == u64::from(self.phases) * u64::from(self.taps)
    }
}

/// A section of the equaliser: two poles and two zeros. Its coefficients count as divided by 2 to the power of `shift`.
#[repr(C)]
#[derive(Clone, Copy, Debug, PartialEq, Eq)]
#[allow(missing_docs)]
pub struct Section {
    pub shift: u32,
    pub b0: i32,
    pub b1: i32,
    pub b2: i32,
    pub a1: i32,
    pub a2: i32,
}

/// The numbers of a filter whose coefficients stand at this place.
fn numbers(filter: &Filter, first: usize) -> FilterNumbers {
    FilterNumbers {
        src: filter.src,
        dst: filter.dst,
        phases: filter.phases,
        taps: filter.taps,
        shift: filter.shift,
        first: u32::try_from(first).unwrap_or(u32::MAX),
    }
}

/// Filters as the library takes them: their numbers, and the coefficients of all.
pub(crate) fn numbers_of(filters: &[Filter]) -> (Vec<FilterNumbers>, Vec<i32>) {
    let (mut found, mut coefs) = (Vec::new(), Vec::new());
    for filter in filters {
        found.push(numbers(filter, coefs.len()));
        coefs.extend_from_slice(filter.coefs);
    }
    (found, coefs)
}
