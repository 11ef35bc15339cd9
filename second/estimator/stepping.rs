//! Starting and stepping one worker, on its record as a type and on the tables.
//! A step first judges and decides all it will do, and only then writes; so a refused step changes nothing.

use super::conversion::{energy_of, Energy, MOST_LEVEL};
use super::record::{Answer, Climb, Operation, Query, Reads, Record, Stand, Task, Update};
use super::refusal::{Adding, Clause, Quantity, Refusal, Source, Swapping};
use super::tables::{Cell, LentTables, Node, Place, Size, Sums, Tables, Version, VersionNumber};

/// The record with which a worker begins an operation. Nothing stands on the board where words are no record.
pub fn start<Row: AsRef<[u64]>>(
    tables: &Tables<Row>,
    board: &[Option<Record>],
    worker: usize,
    operation: Operation,
) -> Result<Record, Refusal> {
    if matches!(board[worker], Some(Record::Busy(_))) {
        return Err(Refusal::Busy);
    }
    if !operation.is_allowed(tables.size) {
        return Err(Refusal::Argument);
    }
    tables.judge_used().map_err(Clause::StartUsed)?;
    let promised = promised(tables.size, board)?;
    let task = match operation {
        Operation::Query(query) => Task::ReadRoot(query),
        Operation::Update(_) if tables.used() + promised + tables.size.most_made() > tables.most_used() => return Err(Refusal::Full),
        Operation::Update(update) => Task::ReadLeaf(update),
    };
    Ok(Record::Busy(task))
}

/// The page: "the sum, over busy updates of workers 0 to W-1, of 1 + h less the versions that update has made".
fn promised(size: Size, board: &[Option<Record>]) -> Result<u64, Clause> {
    let mut promised = 0;
    for record in board {
        let made = match record.ok_or(Clause::StartNoRecord)? {
            Record::Idle => None,
            Record::Busy(task) => task.made_by_update(),
        };
        let left = made.map_or(Some(0), |made| size.most_made().checked_sub(made));
        promised += left.ok_or(Clause::StartMade)?;
    }
    Ok(promised)
}

/// Takes a worker one step further and gives the step's answer.
pub fn step(tables: &mut LentTables, record: &mut Record) -> Result<Answer, Refusal> {
    let Record::Busy(task) = *record else { return Err(Refusal::Idle) };
    let outcome = decide(tables, task)?;
    if let Some((node, version)) = outcome.swap {
        tables.swap(node, version);
    }
    *record = outcome.record;
    Ok(outcome.answer)
}

/// All that a step will do.
struct Outcome {
    record: Record,
    answer: Answer,
    swap: Option<(Node, Version)>,
}

impl Outcome {
    fn on(task: Task) -> Outcome {
        Outcome { record: Record::Busy(task), answer: Answer::On, swap: None }
    }

    /// The page: "An answer leaves the record as open does."
    fn done(answer: Answer) -> Outcome {
        Outcome { record: Record::Idle, answer, swap: None }
    }

    fn with_swap(self, swap: Option<(Node, Version)>) -> Outcome {
        Outcome { swap, ..self }
    }
}

fn decide(tables: &LentTables, task: Task) -> Result<Outcome, Clause> {
    tables.judge_used().map_err(Clause::Used)?;
    match task {
        Task::ReadLeaf(update) => read_leaf(tables, update),
        Task::SwapLeaf(update, read) => swap_leaf(tables, update, read),
        Task::Climb(climb) => refresh(tables, climb),
        Task::ReadRoot(query) => read_root(tables, query),
        Task::FindDown { cell, stand } => find_down(tables, cell, stand),
        Task::RankDown { cell, stand, passed } => rank_down(tables, cell, stand, passed),
        Task::SelectDown { wanted, stand, node, passed } => select_down(tables, wanted, stand, node, passed),
    }
}

fn read(tables: &LentTables, number: VersionNumber, place: Place) -> Result<Version, Clause> {
    tables.sound_version(number, place).map_err(|flaw| Clause::Unsound(Source::Read, flaw))
}

fn held(tables: &LentTables, number: VersionNumber, place: Place) -> Result<Version, Clause> {
    tables.sound_version(number, place).map_err(|flaw| Clause::Unsound(Source::Held, flaw))
}

/// Reads the current version of a node, which must be sound there, and gives its number too.
fn read_node(tables: &LentTables, node: Node) -> Result<(VersionNumber, Version), Clause> {
    let number = tables.current(node);
    Ok((number, read(tables, number, tables.size.place(node))?))
}

fn judge_cell(size: Size, cell: Cell) -> Result<(), Clause> {
    Clause::Cell.refuse_if(cell.0 >= size.cells)
}

fn judge_update(size: Size, update: Update) -> Result<(), Clause> {
    judge_cell(size, update.cell())?;
    match update {
        Update::Insert(_, level) => Clause::Level.refuse_if(level.0 > MOST_LEVEL),
        Update::Delete(_) => Ok(()),
    }
}

fn read_leaf(tables: &LentTables, update: Update) -> Result<Outcome, Clause> {
    judge_update(tables.size, update)?;
    let (number, version) = read_node(tables, tables.size.leaf(update.cell()))?;
    Ok(Outcome::on(if version.is_marked() == update.wants_marked() {
        climb_from_leaf(tables.size, update, false)
    } else {
        Task::SwapLeaf(update, number)
    }))
}

/// The page: the climb begins "after this, whether yes or no", at the leaf's parent.
fn climb_from_leaf(size: Size, update: Update, result: bool) -> Task {
    let node = size.leaf(update.cell()).parent();
    Task::Climb(Climb { update, result, node, second: false, made: result.into(), reads: Reads::Nothing })
}

/// The page: "A swap only compares the node's number."
fn swap_leaf(tables: &LentTables, update: Update, number: VersionNumber) -> Result<Outcome, Clause> {
    judge_update(tables.size, update)?;
    held(tables, number, Place::Leaf)?;
    let leaf = tables.size.leaf(update.cell());
    let succeeds = tables.current(leaf) == number;
    judge_room(tables, succeeds, Swapping::Leaf)?;
    let outcome = Outcome::on(climb_from_leaf(tables.size, update, succeeds));
    Ok(outcome.with_swap(succeeds.then(|| (leaf, wanted_leaf(update)))))
}

fn wanted_leaf(update: Update) -> Version {
    match update {
        Update::Insert(_, level) => Version::marked(level, energy_of(level).expect("the level has been judged")),
        Update::Delete(_) => Version::unmarked(),
    }
}

fn judge_room(tables: &LentTables, succeeds: bool, swapping: Swapping) -> Result<(), Clause> {
    Clause::SwapWithoutRoom(swapping).refuse_if(succeeds && tables.used() == tables.most_used())
}

fn judge_climb(size: Size, climb: Climb) -> Result<(), Clause> {
    judge_update(size, climb.update)?;
    Clause::ClimbNodeNotInner.refuse_if(!size.is_inner(climb.node))?;
    Clause::ClimbNodeOffPath.refuse_if(!size.is_on_path(climb.node, climb.update.cell()))?;
    Clause::Made.refuse_if(climb.made > size.most_made())
}

fn refresh(tables: &LentTables, climb: Climb) -> Result<Outcome, Clause> {
    judge_climb(tables.size, climb)?;
    let (node, children) = (climb.node, tables.size.place(climb.node.left()));
    let reads = match climb.reads {
        Reads::Nothing => Reads::Node(read_node(tables, node)?.0),
        Reads::Node(own) => {
            held(tables, own, Place::Inner)?;
            Reads::Left(own, read_node(tables, node.left())?.0)
        }
        Reads::Left(own, left) => {
            held(tables, own, Place::Inner)?;
            held(tables, left, children)?;
            Reads::Right(own, left, read_node(tables, node.right())?.0)
        }
        Reads::Right(own, left, right) => return swap_inner(tables, climb, [own, left, right]),
    };
    Ok(Outcome::on(Task::Climb(Climb { reads, ..climb })))
}

fn swap_inner(tables: &LentTables, climb: Climb, [own, left, right]: [VersionNumber; 3]) -> Result<Outcome, Clause> {
    let children = tables.size.place(climb.node.left());
    held(tables, own, Place::Inner)?;
    let left_sums = held(tables, left, children)?.sums;
    let right_sums = held(tables, right, children)?.sums;
    let succeeds = tables.current(climb.node) == own;
    let adding = if succeeds { Adding::SucceedingSwap } else { Adding::FailingSwap };
    let sums = add(tables.size, left_sums, right_sums, adding)?;
    judge_room(tables, succeeds, Swapping::Inner)?;
    Clause::SwapBeyondMade.refuse_if(succeeds && climb.made == tables.size.most_made())?;
    let swap = succeeds.then(|| (climb.node, Version::inner(left, right, sums)));
    Ok(after_swap(climb, succeeds).with_swap(swap))
}

/// The page: "If that swap fails, one second refresh at x, and no third. The last step at the root answers."
fn after_swap(climb: Climb, succeeded: bool) -> Outcome {
    let made = climb.made + u64::from(succeeded);
    let again = !succeeded && !climb.second;
    if again {
        Outcome::on(Task::Climb(Climb { second: true, reads: Reads::Nothing, ..climb }))
    } else if climb.node == Node::ROOT {
        Outcome::done(Answer::of_result(climb.result))
    } else {
        Outcome::on(Task::Climb(Climb { node: climb.node.parent(), second: false, made, reads: Reads::Nothing, ..climb }))
    }
}

/// A sum within the bounds of an inner version's count and energy.
fn add(size: Size, one: Sums, other: Sums, adding: Adding) -> Result<Sums, Clause> {
    let sums = Sums { count: one.count + other.count, energy: Energy(one.energy.0 + other.energy.0) };
    Clause::Sum(adding, Quantity::Count).refuse_if(sums.count > size.cells)?;
    Clause::Sum(adding, Quantity::Energy).refuse_if(sums.energy.0 > size.most_energy())?;
    Ok(sums)
}

fn judge_query(size: Size, query: Query) -> Result<(), Clause> {
    match query {
        Query::Find(cell) | Query::Rank(cell) => judge_cell(size, cell),
        Query::Select(wanted) => Clause::SelectOfZero.refuse_if(wanted == 0),
        Query::Total => Ok(()),
    }
}

fn read_root(tables: &LentTables, query: Query) -> Result<Outcome, Clause> {
    judge_query(tables.size, query)?;
    let (number, version) = read_node(tables, Node::ROOT)?;
    let stand = Stand { depth: 0, version: number };
    Ok(match query {
        Query::Total => Outcome::done(Answer::Sums(version.sums)),
        Query::Select(wanted) if version.sums.count < wanted => Outcome::done(Answer::None),
        Query::Select(wanted) => Outcome::on(Task::SelectDown { wanted, stand, node: Node::ROOT, passed: 0 }),
        Query::Find(cell) => Outcome::on(Task::FindDown { cell, stand }),
        Query::Rank(cell) => Outcome::on(Task::RankDown { cell, stand, passed: Sums::NOTHING }),
    })
}

/// The two ways on from the version at which a query stands, read from that version alone.
struct Fork {
    left: (VersionNumber, Version),
    right: (VersionNumber, Version),
    depth_below: u64,
    ends: bool,
}

impl Fork {
    fn way(&self, right: bool) -> (Stand, Version) {
        let (number, version) = if right { self.right } else { self.left };
        (Stand { depth: self.depth_below, version: number }, version)
    }
}

/// The page: a query's step "reads the version it stands at and both children".
fn read_fork(tables: &LentTables, stand: Stand) -> Result<Fork, Clause> {
    let here = held(tables, stand.version, tables.size.place_at_depth(stand.depth))?;
    let depth_below = stand.depth + 1;
    let below = tables.size.place_at_depth(depth_below);
    Ok(Fork {
        left: (here.left, read(tables, here.left, below)?),
        right: (here.right, read(tables, here.right, below)?),
        depth_below,
        ends: below == Place::Leaf,
    })
}

/// A query at depth d has done 1 + d steps, and its bound is 1 + h.
fn judge_depth(size: Size, stand: Stand) -> Result<(), Clause> {
    Clause::StepsDone.refuse_if(stand.depth >= size.height)
}

/// Whether the way to a cell leads right at a depth above the leaves.
fn leads_right(size: Size, cell: Cell, depth: u64) -> bool {
    cell.0 >> (size.height - 1 - depth) & 1 == 1
}

fn find_down(tables: &LentTables, cell: Cell, stand: Stand) -> Result<Outcome, Clause> {
    judge_cell(tables.size, cell)?;
    judge_depth(tables.size, stand)?;
    let fork = read_fork(tables, stand)?;
    let (below, version) = fork.way(leads_right(tables.size, cell, stand.depth));
    Ok(if !fork.ends {
        Outcome::on(Task::FindDown { cell, stand: below })
    } else if version.is_marked() {
        Outcome::done(Answer::Level(version.level))
    } else {
        Outcome::done(Answer::None)
    })
}

fn rank_down(tables: &LentTables, cell: Cell, stand: Stand, passed: Sums) -> Result<Outcome, Clause> {
    let size = tables.size;
    judge_cell(size, cell)?;
    judge_depth(size, stand)?;
    Clause::RunningCount.refuse_if(passed.count > size.cells)?;
    Clause::RunningEnergy.refuse_if(passed.energy.0 > size.most_energy())?;
    let fork = read_fork(tables, stand)?;
    let right = leads_right(size, cell, stand.depth);
    let adding = if fork.ends { Adding::RankAnswers } else { Adding::RankGoesOn };
    let newly_passed = if right { fork.left.1.sums } else { Sums::NOTHING };
    let passed = add(size, passed, newly_passed, adding)?;
    let (below, version) = fork.way(right);
    Ok(if fork.ends {
        Outcome::done(Answer::Sums(add(size, passed, version.sums, adding)?))
    } else {
        Outcome::on(Task::RankDown { cell, stand: below, passed })
    })
}

fn judge_select(size: Size, wanted: u64, stand: Stand, node: Node, passed: u64) -> Result<(), Clause> {
    Clause::SelectOfZero.refuse_if(wanted == 0)?;
    judge_depth(size, stand)?;
    Clause::SelectNodeNotAtDepth.refuse_if(node.0 >> stand.depth != 1)?;
    Clause::SelectPassedAll.refuse_if(passed >= wanted)?;
    Clause::RunningCount.refuse_if(passed > size.cells)
}

/// The page: "left is taken when its count is at least j", here what j still lacks after the cells passed.
fn select_down(tables: &LentTables, wanted: u64, stand: Stand, node: Node, passed: u64) -> Result<Outcome, Clause> {
    let size = tables.size;
    judge_select(size, wanted, stand, node, passed)?;
    let fork = read_fork(tables, stand)?;
    let left_count = fork.left.1.sums.count;
    let right = left_count < wanted - passed;
    let passed = if right { passed + left_count } else { passed };
    let adding = if fork.ends { Adding::SelectAnswers } else { Adding::SelectGoesOn };
    Clause::Sum(adding, Quantity::Count).refuse_if(passed > size.cells)?;
    let node = if right { node.right() } else { node.left() };
    Ok(if fork.ends {
        Outcome::done(Answer::Cell(Cell(node.0 - size.cells)))
    } else {
        Outcome::on(Task::SelectDown { wanted, stand: fork.way(right).0, node, passed })
    })
}
