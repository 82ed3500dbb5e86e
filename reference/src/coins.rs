//! The coins: two tables that never change.

/// A table of draws. Draws 0 to 255 are groups, 256 to 511 common coins.
pub trait Coins {
    fn draw(&self, d: u32) -> bool;

    /// The group of a controller in a selector.
    fn group(&self, controller: u8, selector: u8) -> bool {
        self.draw((selector as u32 - 1) * 16 + (controller as u32 - 1))
    }

    /// The common coin of a round of a selector.
    fn coin(&self, selector: u8, round: u8) -> bool {
        self.draw(256 + (selector as u32 - 1) * 16 + (round as u32 - 1))
    }
}

/// Draw d is bit d mod 8, lowest first, of byte d div 8.
#[derive(Clone, Copy, Debug, PartialEq, Eq)]
pub struct BitList(pub [u8; 64]);

impl Coins for BitList {
    fn draw(&self, d: u32) -> bool {
        self.0[d as usize / 8] & (1 << (d % 8)) != 0
    }
}

/// Draw d is 1 exactly if seed + (d + 1) × 9E3779B97F4A7C15, taken mod 2^64,
/// has an odd number of ones.
#[derive(Clone, Copy, Debug, PartialEq, Eq)]
pub struct Seeded(pub u64);

impl Coins for Seeded {
    fn draw(&self, d: u32) -> bool {
        let whole = self.0 as u128 + (d as u128 + 1) * 0x9E37_79B9_7F4A_7C15;
        (whole % (1 << 64)).count_ones() % 2 == 1
    }
}
