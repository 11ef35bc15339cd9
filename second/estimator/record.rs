//! Operations, answers and a worker's record as types of their own, and the words in which each of them stands.
//! Words are a record exactly where they are the words of one.

use super::conversion::{Energy, Level, MOST_LEVEL};
use super::tables::{Cell, Node, Size, Sums, VersionNumber};

pub const RECORD_WORDS: usize = 12;
pub const ANSWER_WORDS: usize = 3;

const INSERT: u64 = 1;
const DELETE: u64 = 2;
const FIND: u64 = 3;
const SELECT: u64 = 4;
const RANK: u64 = 5;
const TOTAL: u64 = 6;

#[derive(Clone, Copy, Debug, PartialEq, Eq)]
pub enum Update {
    Insert(Cell, Level),
    Delete(Cell),
}

impl Update {
    pub fn cell(self) -> Cell {
        let (Update::Insert(cell, _) | Update::Delete(cell)) = self;
        cell
    }

    /// Whether the update wants its cell marked.
    pub fn wants_marked(self) -> bool {
        matches!(self, Update::Insert(..))
    }

    fn of(kind: u64, cell: u64, level: u64) -> Option<Update> {
        match kind {
            INSERT => Some(Update::Insert(Cell(cell), Level(level))),
            DELETE => Some(Update::Delete(Cell(cell))),
            _ => None,
        }
    }

    fn words(self) -> [u64; 3] {
        match self {
            Update::Insert(cell, level) => [INSERT, cell.0, level.0],
            Update::Delete(cell) => [DELETE, cell.0, 0],
        }
    }
}

#[derive(Clone, Copy, Debug, PartialEq, Eq)]
pub enum Query {
    Find(Cell),
    /// The j-th smallest marked cell.
    Select(u64),
    Rank(Cell),
    Total,
}

impl Query {
    fn of(kind: u64, number: u64) -> Option<Query> {
        match kind {
            FIND => Some(Query::Find(Cell(number))),
            SELECT => Some(Query::Select(number)),
            RANK => Some(Query::Rank(Cell(number))),
            TOTAL => Some(Query::Total),
            _ => None,
        }
    }

    fn words(self) -> [u64; 3] {
        match self {
            Query::Find(cell) => [FIND, cell.0, 0],
            Query::Select(wanted) => [SELECT, wanted, 0],
            Query::Rank(cell) => [RANK, cell.0, 0],
            Query::Total => [TOTAL, 0, 0],
        }
    }
}

#[derive(Clone, Copy, Debug, PartialEq, Eq)]
pub enum Operation {
    Update(Update),
    Query(Query),
}

impl Operation {
    /// Nothing where the kind is unknown, or "an argument that is not 0 where the table has 0".
    pub fn of(words: [u64; 3]) -> Option<Operation> {
        let update = Update::of(words[0], words[1], words[2]).map(Operation::Update);
        let query = Query::of(words[0], words[1]).map(Operation::Query);
        update.or(query).filter(|operation| operation.words() == words)
    }

    pub fn words(self) -> [u64; 3] {
        match self {
            Operation::Update(update) => update.words(),
            Operation::Query(query) => query.words(),
        }
    }

    /// The other side of refusal 7: "cell not below N, level above 60, or Select of 0".
    pub fn is_allowed(self, size: Size) -> bool {
        match self {
            Operation::Update(Update::Insert(cell, level)) => cell.0 < size.cells && level.0 <= MOST_LEVEL,
            Operation::Update(Update::Delete(cell)) => cell.0 < size.cells,
            Operation::Query(Query::Find(cell) | Query::Rank(cell)) => cell.0 < size.cells,
            Operation::Query(Query::Select(wanted)) => wanted != 0,
            Operation::Query(Query::Total) => true,
        }
    }
}

#[derive(Clone, Copy, Debug, PartialEq, Eq)]
pub enum Answer {
    On,
    Yes,
    No,
    None,
    Level(Level),
    Cell(Cell),
    Sums(Sums),
    Energy(Energy),
}

impl Answer {
    pub fn of_result(result: bool) -> Answer {
        if result { Answer::Yes } else { Answer::No }
    }

    pub fn words(self) -> [u64; ANSWER_WORDS] {
        match self {
            Answer::On => [0, 0, 0],
            Answer::Yes => [1, 0, 0],
            Answer::No => [2, 0, 0],
            Answer::None => [3, 0, 0],
            Answer::Level(level) => [4, level.0, 0],
            Answer::Cell(cell) => [5, cell.0, 0],
            Answer::Sums(sums) => [6, sums.count, sums.energy.0],
            Answer::Energy(energy) => [7, energy.0, 0],
        }
    }
}

/// What the present refresh has read: the node's version, then the left child's, then the right child's.
#[derive(Clone, Copy, Debug, PartialEq, Eq)]
pub enum Reads {
    Nothing,
    Node(VersionNumber),
    Left(VersionNumber, VersionNumber),
    Right(VersionNumber, VersionNumber, VersionNumber),
}

impl Reads {
    fn of(read: u64, node: u64, left: u64, right: u64) -> Option<Reads> {
        let [node, left, right] = [node, left, right].map(VersionNumber);
        match read {
            0 => Some(Reads::Nothing),
            1 => Some(Reads::Node(node)),
            2 => Some(Reads::Left(node, left)),
            3 => Some(Reads::Right(node, left, right)),
            _ => None,
        }
    }

    fn words(self) -> [u64; 4] {
        match self {
            Reads::Nothing => [0, 0, 0, 0],
            Reads::Node(node) => [1, node.0, 0, 0],
            Reads::Left(node, left) => [2, node.0, left.0, 0],
            Reads::Right(node, left, right) => [3, node.0, left.0, right.0],
        }
    }
}

#[derive(Clone, Copy, Debug, PartialEq, Eq)]
pub struct Climb {
    pub update: Update,
    pub result: bool,
    pub node: Node,
    pub second: bool,
    pub made: u64,
    pub reads: Reads,
}

/// Where a query stands: how deep below the root, and at which version.
#[derive(Clone, Copy, Debug, PartialEq, Eq)]
pub struct Stand {
    pub depth: u64,
    pub version: VersionNumber,
}

/// What a busy worker does next, and what it knows.
#[derive(Clone, Copy, Debug, PartialEq, Eq)]
pub enum Task {
    ReadLeaf(Update),
    SwapLeaf(Update, VersionNumber),
    Climb(Climb),
    ReadRoot(Query),
    FindDown { cell: Cell, stand: Stand },
    RankDown { cell: Cell, stand: Stand, passed: Sums },
    SelectDown { wanted: u64, stand: Stand, node: Node, passed: u64 },
}

impl Task {
    /// The versions that a busy update has made; a query makes none and has promised none.
    pub fn made_by_update(self) -> Option<u64> {
        match self {
            Task::ReadLeaf(_) | Task::SwapLeaf(..) => Some(0),
            Task::Climb(climb) => Some(climb.made),
            Task::ReadRoot(_) | Task::FindDown { .. } | Task::RankDown { .. } | Task::SelectDown { .. } => None,
        }
    }

    fn of(words: [u64; RECORD_WORDS]) -> Option<Task> {
        let [phase, one, two, three, four, five, ..] = words;
        let update = || Update::of(one, two, three);
        let stand = Stand { depth: two, version: VersionNumber(three) };
        Some(match phase {
            1 => Task::ReadLeaf(update()?),
            2 => Task::SwapLeaf(update()?, VersionNumber(four)),
            3 => Task::Climb(climb_of(words)?),
            4 => Task::ReadRoot(Query::of(one, two)?),
            5 => Task::FindDown { cell: Cell(one), stand },
            6 => Task::RankDown { cell: Cell(one), stand, passed: Sums { count: four, energy: Energy(five) } },
            7 => Task::SelectDown { wanted: one, stand, node: Node(four), passed: five },
            _ => return None,
        })
    }

    fn words(self) -> [u64; RECORD_WORDS] {
        match self {
            Task::ReadLeaf(update) => row(&[&[1], &update.words()]),
            Task::SwapLeaf(update, read) => row(&[&[2], &update.words(), &[read.0]]),
            Task::Climb(climb) => {
                let known = [climb.result.into(), climb.node.0, climb.second.into(), climb.made];
                row(&[&[3], &climb.update.words(), &known, &climb.reads.words()])
            }
            Task::ReadRoot(query) => row(&[&[4], &query.words()]),
            Task::FindDown { cell, stand } => row(&[&[5, cell.0], &stand.words()]),
            Task::RankDown { cell, stand, passed } => row(&[&[6, cell.0], &stand.words(), &[passed.count, passed.energy.0]]),
            Task::SelectDown { wanted, stand, node, passed } => row(&[&[7, wanted], &stand.words(), &[node.0, passed]]),
        }
    }
}

impl Stand {
    fn words(self) -> [u64; 2] {
        [self.depth, self.version.0]
    }
}

fn climb_of(words: [u64; RECORD_WORDS]) -> Option<Climb> {
    let [_, kind, cell, level, result, node, second, made, read, own, left, right] = words;
    Some(Climb {
        update: Update::of(kind, cell, level)?,
        result: truth_of(result)?,
        node: Node(node),
        second: truth_of(second)?,
        made,
        reads: Reads::of(read, own, left, right)?,
    })
}

fn truth_of(word: u64) -> Option<bool> {
    match word {
        0 => Some(false),
        1 => Some(true),
        _ => None,
    }
}

/// The parts one after another, and 0 for each word that has no meaning.
fn row(parts: &[&[u64]]) -> [u64; RECORD_WORDS] {
    let mut words = [0; RECORD_WORDS];
    let meant = parts.iter().copied().flatten();
    words.iter_mut().zip(meant).for_each(|(word, &part)| *word = part);
    words
}

#[derive(Clone, Copy, Debug, PartialEq, Eq)]
pub enum Record {
    Idle,
    Busy(Task),
}

impl Record {
    fn words(&self) -> [u64; RECORD_WORDS] {
        match self {
            Record::Idle => [0; RECORD_WORDS],
            Record::Busy(task) => task.words(),
        }
    }
}

/// The record that stands in these twelve words, or nothing where they are no record.
pub fn read(words: &[u64]) -> Option<Record> {
    let words: [u64; RECORD_WORDS] = words.try_into().ok()?;
    let record = if words[0] == 0 { Record::Idle } else { Record::Busy(Task::of(words)?) };
    (record.words() == words).then_some(record)
}

pub fn write(record: &Record, words: &mut [u64]) {
    words.copy_from_slice(&record.words());
}
