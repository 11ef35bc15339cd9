//! Single calls on all kinds of states, near the truth and far from it, put to both implementations and compared.
//! Every word of every row is compared, and the first difference ends the comparison with an account of the case.

use super::calls::MOST_WORKERS;
use super::chance::Chance;
use super::conversion::MOST_LEVEL;
use super::damage::Aim;
use super::played::{sensible_ask, Played};
use super::record::{read, RECORD_WORDS};
use super::refusal::Refusal;
use super::report::Report;
use super::rows::{Ask, Call, Row, Rows};
use super::tables::{Size, MOST_HEIGHT, VERSION_WORDS};
use super::Calls;

/// How many cases are taken from one played history, on average.
const CASES_A_HISTORY: u64 = 40;

/// Tables longer than this are not printed whole.
const MOST_WORDS_TOLD: usize = 2_000;

pub fn compare_cases(other: &dyn Calls, seed: u64, count: u64) -> Report {
    let mut chance = Chance::new(seed);
    let mut report = Report::default();
    let mut played = new_history(&mut chance);
    for number in 0..count {
        if chance.one_in(CASES_A_HISTORY) {
            played = new_history(&mut chance);
        }
        played.go_on_a_little(&mut chance);
        Case::make(&mut chance, &played).compare(other, number, &mut report);
    }
    report
}

fn new_history(chance: &mut Chance) -> Played {
    const MOST_COMMON_HEIGHT: u64 = 5;
    let height = 1 + if chance.one_in(50) { chance.below(MOST_HEIGHT) } else { chance.below(MOST_COMMON_HEIGHT) };
    let size = Size::of(1 << height).expect("a power of two within the bounds");
    let workers = if chance.one_in(8) { MOST_WORKERS } else { 1 + chance.below(4) };
    let updates = chance.below(60);
    let spare_versions = chance.below(size.most_made()) + size.most_made() * updates;
    Played::begin(chance, size, workers, spare_versions)
}

struct Case {
    ask: Ask,
    rows: Rows,
    answer: Box<[u64]>,
}

/// One implementation's side of a case, after its call.
struct Outcome {
    returned: u64,
    rows: Rows,
    answer: Box<[u64]>,
}

impl Case {
    fn make(chance: &mut Chance, played: &Played) -> Case {
        let ask = any_ask(chance, played);
        let answer = (0..3 + chance.below(3)).map(|_| chance.word()).collect();
        let mut case = Case { ask, rows: played.rows.clone(), answer };
        case.lengthen(chance);
        let changes = [0, 1, 1, 1, 1, 1, 1, 2, 2, 3][chance.below(10) as usize];
        for _ in 0..changes {
            case.change(chance, played);
        }
        case
    }

    /// Rows may be longer than needed: of a version table more versions are then in use, and all else beyond must stay as it is.
    fn lengthen(&mut self, chance: &mut Chance) {
        const MOST_MORE: u64 = 3 * RECORD_WORDS as u64;
        for row in Row::ALL {
            let more = if chance.one_in(3) { chance.below(MOST_MORE) } else { 0 };
            let length = self.rows.row(row).len() + more as usize;
            self.resize(chance, row, length);
        }
    }

    /// Cuts a row, or lengthens it by words whatever.
    fn resize(&mut self, chance: &mut Chance, row: Row, length: usize) {
        let words = self.rows.row(row);
        if words.len() != length {
            let beyond = std::iter::repeat_with(|| chance.word());
            *self.rows.row_mut(row) = words.iter().copied().chain(beyond).take(length).collect();
        }
    }

    fn change(&mut self, chance: &mut Chance, played: &Played) {
        match chance.below(20) {
            0..=14 => self.damage_words(chance, played),
            15 => self.change_sizes(chance, played),
            16 => self.ask.worker = any_number(chance, played.workers),
            17..=18 => self.change_length(chance, played),
            _ => self.change_arguments(chance, played),
        }
    }

    fn damage_words(&mut self, chance: &mut Chance, played: &Played) {
        let worker = self.ask.worker.min(played.workers - 1);
        let aim = Aim { size: played.size, workers: played.workers, worker, rows: &self.rows };
        let damage = if self.ask.call == Call::Start { aim.damage_for_start(chance) } else { aim.damage_for_step(chance) };
        damage.into_iter().for_each(|(spot, value)| self.rows.set(spot, value));
    }

    fn change_sizes(&mut self, chance: &mut Chance, played: &Played) {
        if chance.one_in(2) {
            self.ask.workers = any_number(chance, played.workers);
        } else {
            let cells = played.size.cells;
            let near = [0, 1, 3, cells / 2, cells * 2, cells + 1, cells + 2, 4_096, 8_192, 1 << 63, u64::MAX];
            self.ask.cells = chance.pick(&near);
        }
    }

    fn change_length(&mut self, chance: &mut Chance, played: &Played) {
        let row = chance.pick(&Row::ALL);
        let needed = match row {
            Row::Nodes => 2 * played.size.cells as usize,
            Row::Versions if chance.one_in(2) => VERSION_WORDS * self.rows.used().min(self.rows.versions.len() as u64) as usize,
            Row::Versions => VERSION_WORDS * played.size.least_used() as usize,
            Row::Board => RECORD_WORDS * played.workers as usize,
        };
        let whole = if row == Row::Board { RECORD_WORDS } else { VERSION_WORDS };
        let length = match chance.below(8) {
            0 => 0,
            1 => needed.saturating_sub(whole),
            2..=4 => needed.saturating_sub(chance.below(3) as usize),
            5..=6 => needed + chance.below(whole as u64 + 1) as usize,
            _ => chance.below(needed as u64 + 1) as usize,
        };
        self.resize(chance, row, length);
    }

    /// The operation's numbers, or the length of the answer's row.
    fn change_arguments(&mut self, chance: &mut Chance, played: &Played) {
        match self.ask.call {
            Call::Step | Call::Energy => self.answer = (0..chance.below(6)).map(|_| chance.word()).collect(),
            Call::Open | Call::Start => {
                let cells = played.size.cells;
                let near = [0, 1, 6, 7, MOST_LEVEL, MOST_LEVEL + 1, cells - 1, cells, u64::MAX, chance.word()];
                self.ask.operation[chance.below(3) as usize] = chance.pick(&near);
            }
        }
    }

    fn compare(&self, other: &dyn Calls, number: u64, report: &mut Report) {
        let (mut rows, mut answer) = (self.rows.clone(), self.answer.clone());
        let judged = self.ask.judged(&mut rows, &mut answer);
        let written = Outcome { returned: judged.map_or_else(Refusal::number, |()| 0), rows, answer };
        let (mut rows, mut answer) = (self.rows.clone(), self.answer.clone());
        let returned = self.ask.put_to(other, &mut rows, &mut answer);
        let others = Outcome { returned, rows, answer };
        let differences = written.differences(&others);
        assert!(differences.is_empty(), "case {number}, {judged:?}:\n{differences}{}", self.account());
        let changed = written.rows != self.rows || written.answer != self.answer;
        assert!(judged.is_ok() || !changed, "case {number}, {judged:?} changed a word:\n{}", self.account());
        report.count(self.ask.call, judged, &written.answer);
    }

    /// The whole case in readable words.
    fn account(&self) -> String {
        let Rows { nodes, versions, board } = &self.rows;
        let tell_record = |(words, worker)| format!("  worker {worker}: {words:?}\n    {:?}\n", read(words));
        let tell_version = |(words, number)| format!("  version {number}: {words:?}\n");
        let records: String = board.chunks(RECORD_WORDS).zip(0..).map(tell_record).collect();
        let told = &versions[..versions.len().min(MOST_WORDS_TOLD)];
        let told: String = told.chunks(VERSION_WORDS).zip(1..).map(tell_version).collect();
        let lengths = [nodes.len(), versions.len(), board.len()];
        let (ask, answer) = (&self.ask, &self.answer);
        format!("{ask:?}\n  words of nodes, versions, board: {lengths:?}\n  answer: {answer:?}\n  nodes: {nodes:?}\n{records}{told}")
    }
}

impl Outcome {
    /// A line for each difference, none where both sides are the same.
    fn differences(&self, other: &Outcome) -> String {
        let returned = (self.returned != other.returned)
            .then(|| format!("  returned: written {}, other {}\n", self.returned, other.returned));
        let rows = Row::ALL.iter().flat_map(|&row| row_differences(&format!("{row:?}"), self.rows.row(row), other.rows.row(row)));
        let answer = row_differences("answer", &self.answer, &other.answer);
        returned.into_iter().chain(rows).chain(answer).collect()
    }
}

/// A line for each word that differs between two rows of one length.
pub fn row_differences(name: &str, written: &[u64], other: &[u64]) -> Vec<String> {
    if written == other {
        return Vec::new();
    }
    let words = written.iter().zip(other).zip(0..).filter(|((one, two), _)| one != two);
    words.map(|((one, two), index)| format!("  {name} word {index}: written {one}, other {two}\n")).collect()
}

/// Mostly what the worker would be asked next, for there is most to go wrong in a step of a busy worker.
fn any_ask(chance: &mut Chance, played: &Played) -> Ask {
    let call = chance.pick(&[Call::Open, Call::Start, Call::Energy]);
    let level = if chance.one_in(20) { chance.word() } else { chance.below(MOST_LEVEL + 2) };
    let sensible = sensible_ask(chance, played.size, played.workers, &played.rows);
    match chance.below(10) {
        0..=1 => Ask { call, level, ..sensible },
        2 => Ask { call: Call::Step, ..sensible },
        _ => sensible,
    }
}

/// A number of workers or of one worker: near the true number, near its bounds, or extreme.
fn any_number(chance: &mut Chance, near: u64) -> u64 {
    chance.pick(&[0, 1, near - 1, near, near + 1, MOST_WORKERS - 1, MOST_WORKERS, MOST_WORKERS + 1, 1 << 60, u64::MAX])
}
