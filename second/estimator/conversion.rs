//! Levels and energies: the conversion, worked out by the page's own rule and never copied from a table.
//! A tenth power of an energy takes 300 bits, so the rule is tested in long whole numbers.

use std::sync::OnceLock;

pub const MOST_LEVEL: u64 = 60;

/// Whole decibels over the floor.
#[derive(Clone, Copy, Debug, PartialEq, Eq)]
pub struct Level(pub u64);

/// What may be added, where levels may not.
#[derive(Clone, Copy, Debug, PartialEq, Eq)]
pub struct Energy(pub u64);

const LEVELS: usize = MOST_LEVEL as usize + 1;

/// An energy of a level is below 2^30, so its tenth power is below 2^300.
const ENERGY_BITS: u32 = 30;
const LIMBS: usize = 10;

/// A whole number below 2^320, its lowest 32 bits first.
struct Long([u32; LIMBS]);

impl Long {
    fn power(base: u32, exponent: u64) -> Long {
        let mut long = Long([0; LIMBS]);
        long.0[0] = 1;
        for _ in 0..exponent {
            long.multiply(base);
        }
        long
    }

    fn multiply(&mut self, factor: u32) {
        let mut carry = 0;
        for limb in &mut self.0 {
            let product = u64::from(*limb) * u64::from(factor) + carry;
            *limb = product as u32;
            carry = product >> u32::BITS;
        }
        assert_eq!(carry, 0, "a long number has no room for this product");
    }

    fn is_at_most(&self, other: &Long) -> bool {
        self.0.iter().rev().le(other.0.iter().rev())
    }
}

/// The page: "the largest whole t with t^10 <= 10^(L+30)", found bit by bit from the highest.
fn by_the_rule(level: Level) -> Energy {
    let bound = Long::power(10, level.0 + 30);
    let mut largest = 0;
    for bit in (0..ENERGY_BITS).rev() {
        let tried = largest | 1 << bit;
        if Long::power(tried, 10).is_at_most(&bound) {
            largest = tried;
        }
    }
    Energy(largest.into())
}

/// The energy of a level, or nothing where the level is above the highest.
pub fn energy_of(level: Level) -> Option<Energy> {
    static ENERGIES: OnceLock<[Energy; LEVELS]> = OnceLock::new();
    let energies = ENERGIES.get_or_init(|| std::array::from_fn(|level| by_the_rule(Level(level as u64))));
    (level.0 <= MOST_LEVEL).then(|| energies[level.0 as usize])
}
