//! A really played history at some moment, from which single cases and large comparisons are taken.
//! It is played on the estimator written here, by chance.

use super::chance::Chance;
use super::conversion::{Level, MOST_LEVEL};
use super::record::{Operation, Query, Record, Update};
use super::rows::{Ask, Call, Rows};
use super::tables::{Cell, Size, VERSION_WORDS};

pub struct Played {
    pub size: Size,
    pub workers: u64,
    pub rows: Rows,
}

const MOST_CALLS_BEFORE: u64 = 250;
const MOST_CALLS_BETWEEN: u64 = 9;

impl Played {
    /// A history of a size, opened and played for a while. Few spare versions make refusal 8 and full tables common.
    pub fn begin(chance: &mut Chance, size: Size, workers: u64, spare_versions: u64) -> Played {
        let versions = size.least_used() + spare_versions;
        let mut rows = Rows::for_tree(size.cells, workers, VERSION_WORDS * versions as usize);
        let ask = plain_ask(size, workers, Call::Open);
        ask.judged(&mut rows, &mut []).expect("these rows fit this size");
        let mut played = Played { size, workers, rows };
        let calls = chance.below(MOST_CALLS_BEFORE);
        played.go_on(chance, calls);
        played
    }

    /// A few calls further, so that no two cases have the same state.
    pub fn go_on_a_little(&mut self, chance: &mut Chance) {
        let calls = chance.below(MOST_CALLS_BETWEEN);
        self.go_on(chance, calls);
    }

    fn go_on(&mut self, chance: &mut Chance, calls: u64) {
        for _ in 0..calls {
            let ask = sensible_ask(chance, self.size, self.workers, &self.rows);
            // A start may find the versions promised away; that is no part of the history and changes nothing.
            let _ = ask.judged(&mut self.rows, &mut [0; 3]);
        }
    }
}

pub fn plain_ask(size: Size, workers: u64, call: Call) -> Ask {
    Ask { call, cells: size.cells, workers, worker: 0, operation: [0; 3], level: 0 }
}

/// A start for an idle worker, a step for a busy one.
pub fn sensible_ask(chance: &mut Chance, size: Size, workers: u64, rows: &Rows) -> Ask {
    let worker = chance.below(workers);
    let idle = rows.record(worker) == Some(Record::Idle);
    let call = if idle { Call::Start } else { Call::Step };
    let operation = any_operation(chance, size, size.cells).words();
    Ask { worker, operation, ..plain_ask(size, workers, call) }
}

/// An allowed operation, its cell among the first few cells.
pub fn any_operation(chance: &mut Chance, size: Size, few: u64) -> Operation {
    let cell = Cell(chance.below(few.min(size.cells)));
    let level = Level(chance.below(MOST_LEVEL + 1));
    match chance.below(14) {
        0..=4 => Operation::Update(Update::Insert(cell, level)),
        5..=6 => Operation::Update(Update::Delete(cell)),
        7 => Operation::Query(Query::Find(cell)),
        8..=9 => Operation::Query(Query::Select(1 + chance.below(size.cells.min(8) + 1))),
        10..=12 => Operation::Query(Query::Rank(cell)),
        _ => Operation::Query(Query::Total),
    }
}
