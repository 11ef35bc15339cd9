//! The book: cells with levels, kept one operation at a time, without a tree.
//! It is what every answer of a history is held to.

use super::conversion::{energy_of, Energy, Level};
use super::record::{Answer, Query, Update};
use super::tables::{Cell, Sums};

pub struct Book {
    levels: Vec<Option<Level>>,
    total: Sums,
}

impl Book {
    /// The page: "The book holds cells with levels, at first none."
    pub fn new(cells: u64) -> Book {
        Book { levels: vec![None; cells as usize], total: Sums::NOTHING }
    }

    pub fn total(&self) -> Sums {
        self.total
    }

    /// The page: "Insert says yes and adds exactly if the cell is absent, Delete yes and removes exactly if present".
    pub fn update(&mut self, update: Update) -> bool {
        let entry = &mut self.levels[update.cell().0 as usize];
        match (update, *entry) {
            (Update::Insert(_, level), None) => {
                *entry = Some(level);
                self.total = Sums { count: self.total.count + 1, energy: Energy(self.total.energy.0 + energy(level)) };
                true
            }
            (Update::Delete(_), Some(level)) => {
                *entry = None;
                self.total = Sums { count: self.total.count - 1, energy: Energy(self.total.energy.0 - energy(level)) };
                true
            }
            (Update::Insert(..), Some(_)) | (Update::Delete(_), None) => false,
        }
    }

    pub fn answer(&self, query: Query) -> Answer {
        match query {
            Query::Find(cell) => self.levels[cell.0 as usize].map_or(Answer::None, Answer::Level),
            Query::Select(wanted) => self.select(wanted).map_or(Answer::None, Answer::Cell),
            Query::Rank(cell) => Answer::Sums(self.rank(cell)),
            Query::Total => Answer::Sums(self.total),
        }
    }

    fn select(&self, wanted: u64) -> Option<Cell> {
        let mut marked = (0..).zip(&self.levels).filter(|(_, level)| level.is_some()).map(|(cell, _)| Cell(cell));
        marked.nth(wanted as usize - 1)
    }

    fn rank(&self, cell: Cell) -> Sums {
        let marked = self.levels[..=cell.0 as usize].iter().flatten();
        marked.fold(Sums::NOTHING, |sums, &level| Sums { count: sums.count + 1, energy: Energy(sums.energy.0 + energy(level)) })
    }
}

fn energy(level: Level) -> u64 {
    energy_of(level).expect("an accepted update has an allowed level").0
}
