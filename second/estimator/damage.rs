//! Damage: words moved to a bound or past it, mostly words that the next call will look at.
//! One word moved in a state that was really played leaves a single clause to tell the call from a sound one.

use super::chance::Chance;
use super::conversion::{Energy, Level, MOST_LEVEL};
use super::record::{self, Climb, Query, Reads, Record, Stand, Task, Update, RECORD_WORDS};
use super::rows::{Row, Rows, Spot};
use super::tables::{versions_in, Cell, Node, Place, Size, Sums, VersionNumber, MOST_CELL_ENERGY, VERSION_WORDS};

/// The words to set, each with its new value.
pub type Damage = Vec<(Spot, u64)>;

/// The call at which damage aims: a worker's next one, in a tree of this size.
pub struct Aim<'a> {
    pub size: Size,
    pub workers: u64,
    pub worker: u64,
    pub rows: &'a Rows,
}

/// Words of a version.
const COUNT_WORD: usize = 2;
const ENERGY_WORD: usize = 3;
const LEVEL_WORD: usize = 4;

/// Words of a record, by its phase.
const CLIMB_MADE_WORD: u64 = 7;
const RANK_COUNT_WORD: u64 = 4;
const RANK_ENERGY_WORD: u64 = 5;
const SELECT_WANTED_WORD: u64 = 1;
const SELECT_PASSED_WORD: u64 = 5;

fn version_spot(number: VersionNumber, word: usize) -> Spot {
    let first = (number.0 as usize).wrapping_sub(1).wrapping_mul(VERSION_WORDS);
    Spot { row: Row::Versions, index: first.wrapping_add(word) }
}

fn node_spot(node: Node) -> Spot {
    Spot { row: Row::Nodes, index: node.0 as usize }
}

impl Aim<'_> {
    /// A start looks at the used count and at every record; its own worker's is best left idle.
    pub fn damage_for_start(&self, chance: &mut Chance) -> Damage {
        match chance.below(16) {
            0..=5 => self.move_used(chance),
            6..=12 => self.move_any_record(chance),
            13 => self.move_record(chance, self.worker),
            14 => self.invent_record(chance),
            _ => self.scatter(chance),
        }
    }

    /// A step looks at the used count, its own record, and what that leads to.
    pub fn damage_for_step(&self, chance: &mut Chance) -> Damage {
        match chance.below(24) {
            0..=2 => self.move_used(chance),
            3..=4 => self.move_node(chance),
            5..=8 => self.move_version(chance),
            9..=13 => self.move_record(chance, self.worker),
            14 => self.move_any_record(chance),
            15..=18 => self.invent_record(chance),
            19..=22 => self.move_sum(chance),
            _ => self.scatter(chance),
        }
    }

    fn task(&self) -> Option<Task> {
        match self.rows.record(self.worker) {
            Some(Record::Busy(task)) => Some(task),
            Some(Record::Idle) | None => None,
        }
    }

    fn most_used(&self) -> u64 {
        versions_in(self.rows.versions.len())
    }

    /// Some version's number, however the used count and the table's length stand.
    fn any_version(&self, chance: &mut Chance) -> VersionNumber {
        let last = self.rows.used().clamp(1, self.most_used().max(1));
        VersionNumber(1 + chance.below(last))
    }

    /// A value at or next to one of the page's bounds, or an extreme one.
    fn edge(&self, chance: &mut Chance) -> u64 {
        let (cells, height, used) = (self.size.cells, self.size.height, self.rows.used());
        let bounds = [
            0, 1, 2, height, 1 + height, MOST_LEVEL, cells, self.size.least_used(), used, self.most_used(),
            MOST_CELL_ENERGY, self.size.most_energy(), 1 << 63,
        ];
        match chance.below(8) {
            0..=2 => chance.pick(&bounds),
            3..=4 => chance.pick(&bounds).wrapping_add(1),
            5 => chance.pick(&bounds).wrapping_sub(1),
            6 => chance.below(2 * cells),
            _ => {
                let whatever = chance.word();
                chance.pick(&[u64::MAX, u64::MAX - used, whatever, 1 << 32])
            }
        }
    }

    /// An edge, or one more or less than the word is now.
    fn moved(&self, chance: &mut Chance, spot: Spot) -> (Spot, u64) {
        let word = self.rows.word(spot);
        let value = match chance.below(6) {
            0 => word.wrapping_add(1),
            1 => word.wrapping_sub(1),
            _ => self.edge(chance),
        };
        (spot, value)
    }

    fn move_used(&self, chance: &mut Chance) -> Damage {
        let full = self.most_used();
        let last_start = full.wrapping_sub(self.promised() + self.size.most_made());
        let value = match chance.below(8) {
            0..=2 => full,
            3 => full.wrapping_add(chance.below(3)).wrapping_sub(1),
            4..=5 => last_start.wrapping_add(chance.below(3)).wrapping_sub(1),
            6 => self.size.least_used() - chance.below(2),
            _ => self.edge(chance),
        };
        vec![(Spot::USED, value)]
    }

    /// What the busy updates may still make, so that a start can be put at the edge of refusal 8.
    fn promised(&self) -> u64 {
        let busy = (0..self.workers).filter_map(|worker| self.rows.record(worker)).filter_map(|record| match record {
            Record::Busy(task) => task.made_by_update(),
            Record::Idle => None,
        });
        busy.map(|made| self.size.most_made().saturating_sub(made)).sum()
    }

    fn move_node(&self, chance: &mut Chance) -> Damage {
        let any = Node(chance.below(2 * self.size.cells));
        let nodes = self.task().map_or(vec![any], |task| nodes_looked_at(self.size, task));
        let spot = node_spot(chance.pick(&nodes));
        match chance.below(3) {
            0 => vec![(spot, self.any_version(chance).0)],
            _ => vec![self.moved(chance, spot)],
        }
    }

    fn move_version(&self, chance: &mut Chance) -> Damage {
        let any = self.any_version(chance);
        let versions = self.task().map_or(vec![any], |task| self.versions_looked_at(task));
        let (number, word) = (chance.pick(&versions), chance.below(VERSION_WORDS as u64) as usize);
        let spot = version_spot(number, word);
        let moved = if chance.one_in(2) { (spot, self.version_edge(chance, word)) } else { self.moved(chance, spot) };
        let marked = chance.one_in(4).then_some((version_spot(number, COUNT_WORD), 1));
        marked.into_iter().chain([moved]).collect()
    }

    /// A value at one of the bounds of this word of a version, or one past it.
    fn version_edge(&self, chance: &mut Chance, word: usize) -> u64 {
        let bound = match word {
            COUNT_WORD => chance.pick(&[0, 1, self.size.cells]),
            ENERGY_WORD => chance.pick(&[0, MOST_CELL_ENERGY, self.size.most_energy()]),
            LEVEL_WORD => chance.pick(&[0, MOST_LEVEL]),
            _ => chance.pick(&[0, self.rows.used()]),
        };
        bound.wrapping_add(chance.below(2))
    }

    /// Mostly a word that has a meaning in the record's phase.
    fn move_record(&self, chance: &mut Chance, worker: u64) -> Damage {
        const MEANT: [u64; 8] = [1, 4, 5, 12, 3, 4, 6, 6];
        let phase = self.rows.word(Spot::of_record(worker, 0)) as usize;
        let meant = MEANT.get(phase).copied().unwrap_or(1);
        let word = if chance.one_in(8) { chance.below(RECORD_WORDS as u64) } else { chance.below(meant) };
        vec![self.moved(chance, Spot::of_record(worker, word))]
    }

    fn move_any_record(&self, chance: &mut Chance) -> Damage {
        let worker = chance.below(self.workers);
        let climbs = matches!(self.rows.record(worker), Some(Record::Busy(Task::Climb(_))));
        if climbs && !chance.one_in(3) {
            vec![(Spot::of_record(worker, CLIMB_MADE_WORD), self.size.most_made() + chance.below(2))]
        } else {
            self.move_record(chance, worker)
        }
    }

    fn versions_looked_at(&self, task: Task) -> Vec<VersionNumber> {
        let current = |node: Node| VersionNumber(self.rows.word(node_spot(node)));
        let mut versions: Vec<VersionNumber> = nodes_looked_at(self.size, task).into_iter().map(current).collect();
        match task {
            Task::SwapLeaf(_, read) => versions.push(read),
            Task::Climb(climb) => versions.extend(versions_held(climb.reads)),
            Task::FindDown { stand, .. } | Task::RankDown { stand, .. } | Task::SelectDown { stand, .. } => {
                versions = vec![stand.version];
                versions.extend(self.children(stand.version));
            }
            Task::ReadLeaf(_) | Task::ReadRoot(_) => {}
        }
        versions
    }

    fn children(&self, version: VersionNumber) -> [VersionNumber; 2] {
        [0, 1].map(|word| VersionNumber(self.rows.word(version_spot(version, word))))
    }

    /// Two words that the next step adds, moved so that their sum is at its bound or one past it.
    fn move_sum(&self, chance: &mut Chance) -> Damage {
        let Some(task) = self.task() else { return self.invent_record(chance) };
        if matches!(task, Task::SelectDown { .. }) && chance.one_in(3) {
            return self.move_passed(chance);
        }
        let (mut damage, pairs) = self.addends(chance, task);
        if pairs.is_empty() {
            return self.move_version(chance);
        }
        let (one, other, bound) = chance.pick(&pairs);
        if chance.one_in(2) {
            damage.push((one, chance.below(bound) + 1));
        }
        let first = damage.iter().find(|(spot, _)| *spot == one).map_or(self.rows.word(one), |&(_, value)| value);
        damage.push((other, bound.saturating_sub(first) + chance.below(2)));
        damage
    }

    /// A Select that has passed as many cells as there are, or one more, and still lacks a few; left or right may be taken.
    fn move_passed(&self, chance: &mut Chance) -> Damage {
        let passed = self.size.cells + chance.below(2);
        let wanted = passed + 1 + chance.below(2);
        vec![(Spot::of_record(self.worker, SELECT_WANTED_WORD), wanted), (Spot::of_record(self.worker, SELECT_PASSED_WORD), passed)]
    }

    /// What must be set for the sum to be formed, and the pairs of words that are added, each with the bound of the sum.
    fn addends(&self, chance: &mut Chance, task: Task) -> (Damage, Vec<(Spot, Spot, u64)>) {
        let (cells, energy) = (self.size.cells, self.size.most_energy());
        match task {
            Task::Climb(Climb { node, reads: Reads::Right(_, left, right), .. }) => {
                let pair = |word| (version_spot(left, word), version_spot(right, word));
                let ((count, other_count), (left_energy, right_energy)) = (pair(COUNT_WORD), pair(ENERGY_WORD));
                let fails = chance.one_in(2).then_some((node_spot(node), self.rows.used()));
                (fails.into_iter().collect(), vec![(count, other_count, cells), (left_energy, right_energy, energy)])
            }
            Task::RankDown { stand, .. } => {
                let child = chance.pick(&self.children(stand.version));
                let pair = |word, running| (version_spot(child, word), Spot::of_record(self.worker, running));
                let (count, running_count) = pair(COUNT_WORD, RANK_COUNT_WORD);
                let (child_energy, running_energy) = pair(ENERGY_WORD, RANK_ENERGY_WORD);
                (Vec::new(), vec![(count, running_count, cells), (child_energy, running_energy, energy)])
            }
            Task::SelectDown { stand, .. } => {
                // Past the bound of the sum Select goes right; at it and next to it, left or right.
                let wanted = chance.pick(&[cells, cells + 1, cells + 2, cells + 3, u64::MAX]);
                let left = version_spot(self.children(stand.version)[0], COUNT_WORD);
                let [wanted_spot, passed_spot] = [SELECT_WANTED_WORD, SELECT_PASSED_WORD].map(|word| Spot::of_record(self.worker, word));
                (vec![(wanted_spot, wanted)], vec![(left, passed_spot, cells)])
            }
            _ => (Vec::new(), Vec::new()),
        }
    }

    /// A record that no history led to, but that is mostly within its bounds.
    fn invent_record(&self, chance: &mut Chance) -> Damage {
        let mut words = [0; RECORD_WORDS];
        record::write(&Record::Busy(self.invented_task(chance)), &mut words);
        words.iter().zip(0..).map(|(&value, word)| (Spot::of_record(self.worker, word), value)).collect()
    }

    fn invented_task(&self, chance: &mut Chance) -> Task {
        let cell = if chance.one_in(16) { Cell(self.edge(chance)) } else { Cell(chance.below(self.size.cells)) };
        let level = Level(if chance.one_in(16) { self.edge(chance) } else { chance.below(MOST_LEVEL + 1) });
        let update = if chance.one_in(3) { Update::Delete(cell) } else { Update::Insert(cell, level) };
        let wanted = if chance.one_in(4) { self.edge(chance) } else { 1 + chance.below(self.size.cells + 2) };
        let depth = match chance.below(16) {
            0 => self.edge(chance),
            1..=5 => self.size.height - 1,
            _ => chance.below(self.size.height),
        };
        let stand = Stand { depth, version: self.likely_version(chance, Place::Inner) };
        match chance.below(12) {
            0 => Task::ReadLeaf(update),
            1 => Task::SwapLeaf(update, self.likely_version(chance, Place::Leaf)),
            2..=3 => Task::Climb(self.invented_climb(chance, update)),
            4 => Task::ReadRoot(chance.pick(&[Query::Find(cell), Query::Rank(cell), Query::Select(wanted), Query::Total])),
            5 => Task::FindDown { cell, stand },
            6..=8 => Task::RankDown { cell, stand, passed: self.invented_sums(chance) },
            _ => {
                let node = Node((1 << depth.min(63)) + chance.below(1 << depth.min(12)));
                Task::SelectDown { wanted, stand, node, passed: chance.below(wanted.clamp(1, self.size.cells + 1)) }
            }
        }
    }

    fn invented_sums(&self, chance: &mut Chance) -> Sums {
        Sums { count: chance.below(self.size.cells + 2), energy: Energy(chance.below(self.size.most_energy() + 2)) }
    }

    fn invented_climb(&self, chance: &mut Chance, update: Update) -> Climb {
        let leaf = self.size.leaf(Cell(update.cell().0 % self.size.cells));
        let node = Node(leaf.0 >> (1 + chance.below(self.size.height)));
        let current = VersionNumber(self.rows.word(node_spot(node)));
        let own = if chance.one_in(2) { current } else { self.likely_version(chance, Place::Inner) };
        let left = self.likely_version(chance, self.size.place(node.left()));
        let right = self.likely_version(chance, self.size.place(node.right()));
        let all_read = Reads::Right(own, left, right);
        Climb {
            update,
            result: chance.one_in(2),
            node,
            second: chance.one_in(2),
            made: self.size.most_made().saturating_sub(chance.below(3)),
            reads: chance.pick(&[Reads::Nothing, Reads::Node(own), Reads::Left(own, left), all_read, all_read]),
        }
    }

    /// A version that was made for such a place, if a few tries find one.
    fn likely_version(&self, chance: &mut Chance, place: Place) -> VersionNumber {
        const TRIES: usize = 8;
        let tried: [VersionNumber; TRIES] = std::array::from_fn(|_| self.any_version(chance));
        let fits = |number: &&VersionNumber| (self.children(**number)[0].0 != 0) == (place == Place::Inner);
        tried.iter().find(fits).copied().unwrap_or(tried[0])
    }

    /// Words whatever: in the own record, in a whole version or over the start of a row.
    fn scatter(&self, chance: &mut Chance) -> Damage {
        let (row, first, length) = match chance.below(4) {
            0 => (Row::Board, RECORD_WORDS * self.worker as usize, RECORD_WORDS),
            1 => (Row::Board, 0, RECORD_WORDS * self.workers as usize),
            2 => (Row::Versions, version_spot(self.any_version(chance), 0).index, VERSION_WORDS),
            _ => (Row::Nodes, 0, 2 * self.size.cells.min(16) as usize),
        };
        let small = chance.one_in(2);
        let mut value = || if small { chance.below(8) } else { chance.word() };
        (first..first + length).map(|index| (Spot { row, index }, value())).collect()
    }
}

/// The nodes whose words a task's next step reads or compares; a cell past the tree has none, so its leaf is taken within.
fn nodes_looked_at(size: Size, task: Task) -> Vec<Node> {
    match task {
        Task::ReadLeaf(update) | Task::SwapLeaf(update, _) => vec![size.leaf(Cell(update.cell().0 % size.cells))],
        Task::Climb(Climb { node, .. }) if size.is_inner(node) => vec![node, node.left(), node.right()],
        _ => vec![Node::ROOT],
    }
}

fn versions_held(reads: Reads) -> Vec<VersionNumber> {
    match reads {
        Reads::Nothing => Vec::new(),
        Reads::Node(own) => vec![own],
        Reads::Left(own, left) => vec![own, left],
        Reads::Right(own, left, right) => vec![own, left, right],
    }
}
