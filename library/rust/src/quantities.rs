//! Levels and energies, each a type of its own: a level must never stand in for an energy.
//! Energies may be added. Levels are logarithms, so there is no way here to add them.

use crate::words;
use crate::Refusal;
use std::fmt;
use std::iter::Sum;
use std::ops::Add;

/// A level in whole decibels over the floor, 0 to 60. A higher one can be written down, and is refused where it is used.
///
/// ```compile_fail,E0369
/// # use kitesonnet::Level;
/// let both = Level(40) + Level(40); // two schools of 40 decibels are not one of 80
/// ```
#[derive(Clone, Copy, Debug, PartialEq, Eq, PartialOrd, Ord, Hash)]
pub struct Level(pub u64);

/// An energy: 1000 stands for the energy of level 0.
#[derive(Clone, Copy, Debug, Default, PartialEq, Eq, PartialOrd, Ord, Hash)]
pub struct Energy(pub u64);

/// The energy of a level: 1000 times ten to the power of a tenth of the level, rounded down.
///
/// ```
/// # use kitesonnet::{energy, Energy, Level, Refusal};
/// # fn main() -> Result<(), Refusal> {
/// assert_eq!(energy(Level(3))?, Energy(1995));
/// assert_eq!(energy(Level(40))? + energy(Level(40))?, Energy(20_000_000));
/// assert_eq!(energy(Level(61)), Err(Refusal::Argument));
/// # Ok(())
/// # }
/// ```
pub fn energy(level: Level) -> Result<Energy, Refusal> {
    let mut answer = [0; words::ANSWER_WORDS];
    Refusal::of_call(words::energy(level.0, &mut answer))?;
    match answer {
        [words::ENERGY, energy, _] => Ok(Energy(energy)),
        [kind, ..] => Err(Refusal::ForeignAnswer(kind)),
    }
}

impl Add for Energy {
    type Output = Energy;

    fn add(self, other: Energy) -> Energy {
        Energy(self.0 + other.0)
    }
}

impl Sum for Energy {
    fn sum<I: Iterator<Item = Energy>>(energies: I) -> Energy {
        energies.fold(Energy(0), Add::add)
    }
}

impl fmt::Display for Level {
    fn fmt(&self, out: &mut fmt::Formatter) -> fmt::Result {
        self.0.fmt(out)
    }
}

impl fmt::Display for Energy {
    fn fmt(&self, out: &mut fmt::Formatter) -> fmt::Result {
        self.0.fmt(out)
    }
}
