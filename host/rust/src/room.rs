//! Memory for a dock.

use crate::dock::{aligned_part, Settings, SLOTS};

/// Memory for a runner: data for eight jobs and scratch, each from a multiple of the settings' memory alignment on.
pub struct Room {
    data: Vec<u8>,
    scratch: Vec<u8>,
    align: usize,
    data_length: usize,
    scratch_length: usize,
}

impl Room {
    /// Room for reads and writes of up to `longest` bytes, rounded up to the memory alignment, and bounce buffers as
    /// the settings say. For settings that no dock opens with it may be too small.
    pub fn new(settings: &Settings, longest: usize) -> Room {
        let align = usize::try_from(settings.mem).unwrap_or(1).clamp(1, LARGEST_ALIGNMENT);
        let data_length = SLOTS * longest.next_multiple_of(align);
        let scratch_length = SLOTS * usize::try_from(settings.bounce).unwrap_or(0).min(LONGEST_BOUNCE);
        let (data, scratch) = (vec![0; data_length + align - 1], vec![0; scratch_length + align - 1]);
        Room { data, scratch, align, data_length, scratch_length }
    }

    /// Data and scratch.
    pub fn parts(&mut self) -> (&mut [u8], &mut [u8]) {
        let data = &mut aligned_part(&mut self.data, self.align)[..self.data_length];
        let scratch = &mut aligned_part(&mut self.scratch, self.align)[..self.scratch_length];
        (data, scratch)
    }
}

/// Document 01's limits: what is past them, opening refuses.
const LARGEST_ALIGNMENT: usize = 65_536;
const LONGEST_BOUNCE: usize = 1_048_576;

#[cfg(test)]
mod tests {
    use super::*;
    use crate::runner::Runner;

    #[test]
    fn a_runner_opens_in_it_for_each_drive_row() {
        for row in 0..6 {
            let settings = Settings::of_row(row, 65_536).unwrap();
            for longest in [1, 511, 4096, 100_000] {
                let mut room = Room::new(&settings, longest);
                let (data, scratch) = room.parts();
                assert_eq!(data.as_ptr() as u64 % settings.mem, 0);
                let runner = Runner::open(&settings, data, scratch).unwrap();
                assert!(runner.longest() >= longest as u64);
            }
        }
    }

    #[test]
    fn unfit_settings_are_refused_by_opening_and_not_by_it() {
        for (mem, bounce) in [(0, 4096), (3, 4096), (u64::MAX, 4096), (1, 0), (1, u64::MAX)] {
            let settings = Settings { mem, req: 512, zero: 512, discard: 512, bounce };
            let mut room = Room::new(&settings, 10);
            let (data, scratch) = room.parts();
            assert!(Runner::open(&settings, data, scratch).is_err(), "{settings:?}");
        }
    }
}
