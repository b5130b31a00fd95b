//! Storage sizes of random calls.

use super::random::Random;

/// The most bytes of storage in a file of calls, without and with `--large`.
pub const LARGEST: usize = 4_194_304;
pub const LARGEST_LARGE: usize = 16_779_264;

/// The most keys in a file of calls.
pub const MOST_KEYS: usize = 8_448;

pub const MIB: usize = 0x10_0000;

const SMALL_SIZES: [u32; 12] = [1, 1, 1, 2, 2, 2, 3, 4, 4, 8, 16, 32];

/// Mostly small sizes, some of 1 MiB and 4 MiB, a few of 16 MiB.
pub fn any_size(random: &mut Random) -> usize {
    let size = match random.below(100) {
        0..=69 => random.pick(&SMALL_SIZES) * 2048,
        70..=89 => (1 + random.below(32)) * 2048,
        90..=95 => 0x10_0000,
        96 => 0x40_0000,
        _ => 0x100_0000,
    };
    size as usize
}

/// The same without the sizes of 1 MiB and more.
fn small_size(random: &mut Random) -> usize {
    let blocks = match random.below(90) {
        0..=69 => random.pick(&SMALL_SIZES),
        _ => 1 + random.below(32),
    };
    blocks as usize * 2048
}

/// Fewest blocks of 2,048 bytes in which a pair of lists finds room.
const FEWEST_BLOCKS_OF_PAIR: usize = 4;

/// Sizes for a file of calls: how many calls may still have 4 MiB and 1 MiB. Every call sums its storage,
/// so these must be few.
pub struct SizeBudget {
    calls_of_4_mib: usize,
    calls_of_1_mib: usize,
    large: bool,
    drawn: usize,
}

impl SizeBudget {
    /// At most 1 % of the calls at 4 MiB, at most 3 % at 1 MiB.
    pub fn new(calls: usize, large: bool) -> SizeBudget {
        SizeBudget { calls_of_4_mib: calls / 100, calls_of_1_mib: 3 * calls / 100, large, drawn: 0 }
    }

    /// A size for this number of calls.
    pub fn draw(&mut self, random: &mut Random, calls: usize) -> usize {
        if self.large {
            return self.draw_large(random);
        }
        match random.below(200) {
            0..=1 if calls <= self.calls_of_4_mib => {
                self.calls_of_4_mib -= calls;
                4 * MIB
            }
            2..=6 if calls <= self.calls_of_1_mib => {
                self.calls_of_1_mib -= calls;
                MIB
            }
            _ => small_size(random),
        }
    }

    /// The same for a pair of lists, which needs room and a proper size.
    pub fn draw_for_pair(&mut self, random: &mut Random, calls: usize) -> usize {
        self.draw(random, calls).clamp(FEWEST_BLOCKS_OF_PAIR * 2048, 16 * MIB)
    }

    /// Mostly 16 MiB; some one block more, which is too large; some between 4 MiB and 16 MiB. Of the single
    /// calls these are ones that are taken as drawn (see `Singles`).
    fn draw_large(&mut self, random: &mut Random) -> usize {
        self.drawn += 1;
        match self.drawn % 10 {
            5 => LARGEST_LARGE,
            9 => 4 * MIB + 2048 * (1 + random.below(6_143)) as usize,
            _ => 16 * MIB,
        }
    }
}
