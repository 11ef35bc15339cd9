//! Random histories from a fresh open, played through one implementation alone and held to the page's order and book.
//! Moods decide who steps next: orderly turns, any worker at any time, few cells fought over, workers stopped for long.

use std::collections::BTreeMap;
use std::fmt;

use super::calls::MOST_WORKERS;
use super::chance::Chance;
use super::played::any_operation;
use super::report::{none_unmet, unmet};
use super::tables::{Size, MOST_CELLS, MOST_HEIGHT, MOST_VERSIONS};
use super::watch::Watch;
use super::Calls;

#[derive(Clone, Copy, Debug, PartialEq, Eq)]
enum Mood {
    /// A worker mostly goes on until another is picked.
    Calm,
    /// Any worker steps next.
    Wild,
    /// Any worker steps next, and all of them want the same few cells.
    Fought,
    /// As wild, but now and then a worker stops in the midst of its operation.
    Stopped,
}

/// How the histories of a report went, and whether they met what is hard to meet.
#[derive(Debug, Default)]
pub struct HistoryReport {
    pub histories: u64,
    pub operations: u64,
    /// Answers by the operation's kind and their own.
    pub answers: BTreeMap<(u64, u64), u64>,
    /// Refused starts and steps, which are no part of a history, by number.
    pub refused: BTreeMap<u64, u64>,
    /// By height: most own steps of an update, most own steps of a query.
    pub most_steps: BTreeMap<u64, (u64, u64)>,
    pub placed_by_another: u64,
    pub failed_twice: u64,
}

/// Every kind of answer that an operation can give: Insert (1) and Delete (2) yes or no, Find (3) none or a level, Select (4)
/// none or a cell, Rank (5) and Total (6) sums.
const ANSWERS: [(u64, u64); 10] = [(1, 1), (1, 2), (2, 1), (2, 2), (3, 3), (3, 4), (4, 3), (4, 5), (5, 6), (6, 6)];

/// The refusals that a start or a step with sensible numbers can meet: busy, idle, no versions left.
const REFUSALS: [u64; 3] = [5, 6, 8];

impl HistoryReport {
    /// Tells what was never met, if anything. Queries reach their bound at every height. An update does so where its first refresh
    /// fails at every node, which chance brings about at some heights only.
    pub fn all_met(&self) -> Result<(), String> {
        let updates = self.most_steps.iter().filter(|(height, most)| most.0 == most_update_steps(**height)).count();
        let queries = self.most_steps.iter().filter(|(height, most)| most.1 == most_query_steps(**height)).count();
        let happened = [
            (self.placed_by_another > 0, "an update placed by another's swap"),
            (self.failed_twice > 0, "both refreshes failed"),
            (updates > 0, "an update's bound of own steps"),
            (queries as u64 == MOST_HEIGHT, "a query's bound of own steps at every height"),
        ];
        let never = happened.iter().filter(|(met, _)| !met).map(|(_, what)| what.to_string());
        none_unmet(&[unmet("answer", &ANSWERS, &self.answers), unmet("refusal", &REFUSALS, &self.refused), never.collect()])
    }

    pub fn note_update_steps(&mut self, size: Size, steps: u64) {
        let most = self.most_steps.entry(size.height).or_default();
        most.0 = most.0.max(steps);
    }

    pub fn note_query_steps(&mut self, size: Size, steps: u64) {
        let most = self.most_steps.entry(size.height).or_default();
        most.1 = most.1.max(steps);
    }
}

impl fmt::Display for HistoryReport {
    fn fmt(&self, form: &mut fmt::Formatter) -> fmt::Result {
        writeln!(form, "histories {}, operations {}", self.histories, self.operations)?;
        writeln!(form, "answers by kinds of operation and answer {:?}", self.answers)?;
        writeln!(form, "refused by number {:?}", self.refused)?;
        writeln!(form, "placed by another's swap {}, refreshes failed twice {}", self.placed_by_another, self.failed_twice)?;
        self.most_steps.iter().try_for_each(|(height, (update, query))| {
            let (update_bound, query_bound) = (most_update_steps(*height), most_query_steps(*height));
            writeln!(form, "  height {height:>2}: most own steps {update} of {update_bound}, {query} of {query_bound}")
        })
    }
}

/// Two steps at the leaf, and at each inner node above two refreshes of four.
pub fn most_update_steps(height: u64) -> u64 {
    2 + 8 * height
}

pub fn most_query_steps(height: u64) -> u64 {
    1 + height
}

/// An update of two versions takes seven calls with its start, and one of more takes more for each.
const CALLS_A_VERSION: u64 = 3;

/// One history in so many runs out of versions.
const SHORT_OF_VERSIONS: u64 = 3;

/// So many histories of so many calls each; every fourth has 4,096 cells and 16 workers, the others have each height in turn.
pub fn compare_histories(other: &dyn Calls, seed: u64, histories: u64, calls: u64) -> HistoryReport {
    let mut chance = Chance::new(seed);
    let mut report = HistoryReport::default();
    for number in 0..histories {
        let others_before = number - number / 4;
        let height = 1 + others_before % MOST_HEIGHT;
        let plan = if number % 4 == 3 { Plan::largest(&mut chance, calls) } else { Plan::any(&mut chance, height, calls) };
        report = plan.play(other, &mut chance, report);
    }
    report
}

struct Plan {
    size: Size,
    workers: u64,
    versions: u64,
    calls: u64,
    mood: Mood,
    few_cells: u64,
}

impl Plan {
    fn any(chance: &mut Chance, height: u64, calls: u64) -> Plan {
        let size = Size::of(1 << height).expect("a power of two within the bounds");
        let mood = chance.pick(&[Mood::Calm, Mood::Wild, Mood::Fought, Mood::Stopped]);
        let few_cells = if mood == Mood::Fought { 1 + chance.below(4) } else { size.cells };
        let spare = if chance.one_in(SHORT_OF_VERSIONS) { chance.below(calls / 8 + 1) } else { calls / CALLS_A_VERSION };
        let versions = MOST_VERSIONS.min(size.least_used() + spare);
        Plan { size, workers: 1 + chance.below(MOST_WORKERS), versions, calls, mood, few_cells }
    }

    fn largest(chance: &mut Chance, calls: u64) -> Plan {
        let few_cells = chance.pick(&[2, 16, MOST_CELLS]);
        let plan = Plan::any(chance, MOST_HEIGHT, calls);
        let versions = MOST_VERSIONS.min(plan.size.least_used() + calls / CALLS_A_VERSION);
        Plan { workers: MOST_WORKERS, versions, few_cells, ..plan }
    }

    /// Plays one history and counts it into the report.
    fn play(&self, other: &dyn Calls, chance: &mut Chance, report: HistoryReport) -> HistoryReport {
        let mut watch = Watch::open(other, self.size, self.workers, self.versions);
        watch.report = HistoryReport { histories: report.histories + 1, ..report };
        let mut turns = Turns { worker: 0, stopped_until: vec![0; self.workers as usize] };
        for moment in 0..self.calls {
            let worker = turns.next(chance, self, moment);
            self.call(&mut watch, worker, chance);
        }
        watch.report
    }

    /// A start where the worker is idle and a step where it is busy; rarely the other way round, which must be refused.
    fn call(&self, watch: &mut Watch, worker: u64, chance: &mut Chance) {
        const RARELY: u64 = 500;
        if watch.is_idle(worker) != chance.one_in(RARELY) {
            watch.start(worker, any_operation(chance, self.size, self.few_cells));
        } else {
            watch.step(worker);
        }
    }
}

/// Whose turn it is, and who stands still until which moment.
struct Turns {
    worker: u64,
    stopped_until: Vec<u64>,
}

impl Turns {
    fn next(&mut self, chance: &mut Chance, plan: &Plan, moment: u64) -> u64 {
        const CALM_TURN: u64 = 30;
        const MOST_STOPPED: u64 = 3_000;
        let stays = plan.mood == Mood::Calm && !chance.one_in(CALM_TURN);
        if !stays {
            self.worker = self.any_going(chance, plan.workers, moment);
        }
        if plan.mood == Mood::Stopped && chance.one_in(CALM_TURN) {
            self.stopped_until[self.worker as usize] = moment + chance.below(MOST_STOPPED);
        }
        self.worker
    }

    /// A worker that does not stand still, or any one where a few picks find none.
    fn any_going(&self, chance: &mut Chance, workers: u64, moment: u64) -> u64 {
        const PICKS: usize = 8;
        let picked: [u64; PICKS] = std::array::from_fn(|_| chance.below(workers));
        let goes = |worker: &&u64| self.stopped_until[**worker as usize] <= moment;
        picked.iter().find(goes).copied().unwrap_or(picked[0])
    }
}
