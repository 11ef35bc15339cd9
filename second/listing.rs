// The second listing program, written from document 01 alone, so that the proved one has something to be held against.
// Versions are structs behind numbers, and a worker is a task that halts after each step and remembers where it stood.

use std::io::{self, ErrorKind, Read, Write};
use std::process::ExitCode;

// ---------------------------------------------------------------- decibels and energy

const HIGHEST_LEVEL: u64 = 60;

#[derive(Clone, Copy, Default)]
struct Level(u64);

#[derive(Clone, Copy, Default)]
struct Energy(u64);

/// A whole number below 2^320. The highest limb comes first, so that the derived order is the order of the numbers.
#[derive(Clone, Copy, PartialEq, Eq, PartialOrd, Ord)]
struct Wide([u32; 10]);

impl Wide {
    fn power(base: u32, exponent: u64) -> Wide {
        let mut product = Wide([0, 0, 0, 0, 0, 0, 0, 0, 0, 1]);
        for _ in 0..exponent {
            product.multiply(base);
        }
        product
    }

    fn multiply(&mut self, factor: u32) {
        let mut carry = 0;
        for limb in self.0.iter_mut().rev() {
            let part = u64::from(*limb) * u64::from(factor) + carry;
            *limb = part as u32;
            carry = part >> 32;
        }
        assert!(carry == 0, "a power outgrew its limbs");
    }
}

impl Level {
    /// The largest whole t with t^10 <= 10^(L+30), found bit by bit from the top.
    fn energy_by_rule(self) -> Energy {
        let bound = Wide::power(10, self.0 + 30);
        // Level 60 has t = 10^9, below 2^30: thirty bits hold every t, and t^10 stays below 2^300.
        let mut t = 0;
        for bit in (0..30).rev() {
            let tried = t | 1 << bit;
            if Wide::power(tried, 10) <= bound {
                t = tried;
            }
        }
        Energy(t.into())
    }
}

// ---------------------------------------------------------------- nodes and versions

#[derive(Clone, Copy, PartialEq, Eq)]
struct Node(u64);

impl Node {
    const ROOT: Node = Node(1);

    fn parent(self) -> Node {
        Node(self.0 / 2)
    }

    fn left(self) -> Node {
        Node(2 * self.0)
    }

    fn right(self) -> Node {
        Node(2 * self.0 + 1)
    }
}

#[derive(Clone, Copy, Default, PartialEq, Eq)]
struct VersionNo(u64);

/// How many cells are marked below a place, and what they sound together.
#[derive(Clone, Copy, Default)]
struct Tally {
    count: u64,
    energy: Energy,
}

impl Tally {
    fn plus(self, other: Tally) -> Tally {
        Tally { count: self.count + other.count, energy: Energy(self.energy.0 + other.energy.0) }
    }
}

/// The default is an unmarked leaf.
#[derive(Clone, Copy, Default)]
struct Version {
    left: VersionNo,
    right: VersionNo,
    tally: Tally,
    level: Level,
}

impl Version {
    fn is_marked(&self) -> bool {
        self.tally.count == 1
    }
}

/// The numbers that an accepted open fixes for a history.
#[derive(Clone, Copy, Default)]
struct Extent {
    cells: u64,
    height: u64,
    workers: u64,
    versions: u64,
}

impl Extent {
    fn judged(cells: u64, workers: u64, versions: u64) -> Result<Extent, Refusal> {
        if cells.count_ones() != 1 || !(2..=4096).contains(&cells) {
            return Err(Refusal::Cells);
        }
        if !(1..=16).contains(&workers) {
            return Err(Refusal::Workers);
        }
        if versions < 2 * cells - 1 {
            return Err(Refusal::Tables);
        }
        Ok(Extent { cells, height: cells.trailing_zeros().into(), workers, versions })
    }
}

/// The shared tables. Both are indexed by the number itself; slot 0 stands for no node and no version.
struct Tree {
    extent: Extent,
    used: u64,
    current: Vec<VersionNo>,
    versions: Vec<Version>,
    energies: Vec<Energy>,
}

impl Tree {
    fn with_tables(cells: u64, versions: u64) -> Tree {
        Tree {
            extent: Extent::default(),
            used: 0,
            current: vec![VersionNo::default(); 2 * cells as usize],
            versions: vec![Version::default(); 1 + versions as usize],
            energies: (0..=HIGHEST_LEVEL).map(|level| Level(level).energy_by_rule()).collect(),
        }
    }

    fn open(&mut self, extent: Extent) {
        self.extent = extent;
        self.used = 2 * extent.cells - 1;
        for x in 1..=self.used {
            let mut version = Version::default();
            if x < extent.cells {
                version.left = VersionNo(2 * x);
                version.right = VersionNo(2 * x + 1);
            }
            self.versions[x as usize] = version;
            self.current[x as usize] = VersionNo(x);
        }
    }

    fn leaf(&self, cell: u64) -> Node {
        Node(self.extent.cells + cell)
    }

    fn current(&self, node: Node) -> VersionNo {
        self.current[node.0 as usize]
    }

    fn version(&self, number: VersionNo) -> &Version {
        &self.versions[number.0 as usize]
    }

    fn marked(&self, level: Level) -> Version {
        let tally = Tally { count: 1, energy: self.energies[level.0 as usize] };
        Version { tally, level, ..Version::default() }
    }

    fn joined(&self, left: VersionNo, right: VersionNo) -> Version {
        let tally = self.version(left).tally.plus(self.version(right).tally);
        Version { left, right, tally, level: Level(0) }
    }

    /// There is always room: a start is refused unless all that is promised fits.
    fn swap(&mut self, node: Node, seen: VersionNo, fresh: Version) -> bool {
        if self.current(node) != seen {
            return false;
        }
        self.used += 1;
        self.versions[self.used as usize] = fresh;
        self.current[node.0 as usize] = VersionNo(self.used);
        true
    }
}

// ---------------------------------------------------------------- tasks of the workers

enum Answer {
    Yes,
    No,
    None,
    Number(u64),
    Tally(Tally),
}

#[derive(Clone, Copy)]
enum Task {
    Idle,
    Update(Update),
    Query(Query),
}

#[derive(Clone, Copy)]
enum Wish {
    Mark(Level),
    Unmark,
}

#[derive(Clone, Copy)]
struct Update {
    wish: Wish,
    cell: u64,
    made: u64,
    stage: Stage,
}

#[derive(Clone, Copy)]
enum Stage {
    Fresh,
    LeafSeen(VersionNo),
    Climbing(Climb),
}

#[derive(Clone, Copy)]
struct Climb {
    won: bool,
    node: Node,
    second: bool,
    sight: Sight,
}

/// What the present refresh has read so far: the node's own version, then its children's.
#[derive(Clone, Copy)]
enum Sight {
    Nothing,
    Own(VersionNo),
    Left(VersionNo, VersionNo),
    Both(VersionNo, VersionNo, VersionNo),
}

impl Update {
    fn new(wish: Wish, cell: u64) -> Update {
        Update { wish, cell, made: 0, stage: Stage::Fresh }
    }

    fn advance(&mut self, tree: &mut Tree) -> Option<Answer> {
        match &mut self.stage {
            Stage::Fresh => self.read_leaf(tree),
            &mut Stage::LeafSeen(seen) => self.swap_leaf(tree, seen),
            Stage::Climbing(climb) => return climb.advance(tree, &mut self.made),
        }
        None
    }

    fn read_leaf(&mut self, tree: &Tree) {
        let leaf = tree.leaf(self.cell);
        let seen = tree.current(leaf);
        let as_wanted = tree.version(seen).is_marked() == matches!(self.wish, Wish::Mark(_));
        self.stage = if as_wanted { Climb::from(leaf, false) } else { Stage::LeafSeen(seen) };
    }

    fn swap_leaf(&mut self, tree: &mut Tree, seen: VersionNo) {
        let leaf = tree.leaf(self.cell);
        let fresh = match self.wish {
            Wish::Mark(level) => tree.marked(level),
            Wish::Unmark => Version::default(),
        };
        let won = tree.swap(leaf, seen, fresh);
        self.made += u64::from(won);
        self.stage = Climb::from(leaf, won);
    }
}

impl Climb {
    fn from(leaf: Node, won: bool) -> Stage {
        Stage::Climbing(Climb { won, node: leaf.parent(), second: false, sight: Sight::Nothing })
    }

    fn advance(&mut self, tree: &mut Tree, made: &mut u64) -> Option<Answer> {
        self.sight = match self.sight {
            Sight::Nothing => Sight::Own(tree.current(self.node)),
            Sight::Own(own) => Sight::Left(own, tree.current(self.node.left())),
            Sight::Left(own, left) => Sight::Both(own, left, tree.current(self.node.right())),
            Sight::Both(own, left, right) => {
                let swapped = tree.swap(self.node, own, tree.joined(left, right));
                *made += u64::from(swapped);
                return self.leave_refresh(swapped);
            }
        };
        None
    }

    /// After two failures the climb goes on all the same: the winner of the second read its children late enough.
    fn leave_refresh(&mut self, swapped: bool) -> Option<Answer> {
        self.sight = Sight::Nothing;
        if !swapped && !self.second {
            self.second = true;
            return None;
        }
        if self.node == Node::ROOT {
            return Some(if self.won { Answer::Yes } else { Answer::No });
        }
        self.node = self.node.parent();
        self.second = false;
        None
    }
}

#[derive(Clone, Copy)]
enum Query {
    Total,
    Asked(Quest),
    Walking(Walk),
}

/// A question that must go down to a leaf, with what it gathers on the way.
#[derive(Clone, Copy)]
enum Quest {
    Find { cell: u64 },
    Rank { cell: u64, passed: Tally },
    Select { wanted: u64, node: Node, passed: u64 },
}

#[derive(Clone, Copy)]
struct Walk {
    quest: Quest,
    at: VersionNo,
    done: u64,
}

impl Query {
    fn advance(&mut self, tree: &Tree) -> Option<Answer> {
        let quest = match self {
            Query::Walking(walk) => return walk.advance(tree),
            Query::Total => None,
            Query::Asked(quest) => Some(*quest),
        };
        let at = tree.current(Node::ROOT);
        let total = tree.version(at).tally;
        match quest {
            None => Some(Answer::Tally(total)),
            Some(Quest::Select { wanted, .. }) if total.count < wanted => Some(Answer::None),
            Some(quest) => {
                *self = Query::Walking(Walk { quest, at, done: 1 });
                None
            }
        }
    }
}

impl Walk {
    /// One level down by versions only, so that the whole walk sees the moment of its first step.
    fn advance(&mut self, tree: &Tree) -> Option<Answer> {
        let here = tree.version(self.at);
        let left = tree.version(here.left).tally;
        let below = tree.extent.height - self.done;
        let goes_right = match &mut self.quest {
            Quest::Find { cell } => *cell >> below & 1 == 1,
            Quest::Rank { cell, passed } => {
                let goes_right = *cell >> below & 1 == 1;
                if goes_right {
                    *passed = passed.plus(left);
                }
                goes_right
            }
            Quest::Select { wanted, node, passed } => {
                let goes_right = left.count < *wanted - *passed;
                if goes_right {
                    *passed += left.count;
                }
                *node = if goes_right { node.right() } else { node.left() };
                goes_right
            }
        };
        self.at = if goes_right { here.right } else { here.left };
        self.done += 1;
        (below == 0).then(|| self.answer(tree))
    }

    fn answer(&self, tree: &Tree) -> Answer {
        let leaf = tree.version(self.at);
        match self.quest {
            Quest::Find { .. } if leaf.is_marked() => Answer::Number(leaf.level.0),
            Quest::Find { .. } => Answer::None,
            Quest::Rank { passed, .. } => Answer::Tally(passed.plus(leaf.tally)),
            Quest::Select { node, .. } => Answer::Number(node.0 - tree.extent.cells),
        }
    }
}

// ---------------------------------------------------------------- the water column: tree and board

#[derive(Clone, Copy)]
enum Refusal {
    Cells = 1,
    Workers = 2,
    Tables = 3,
    NoSuchWorker = 4,
    Busy = 5,
    Idle = 6,
    Operand = 7,
    NoRoom = 8,
    NoCommand = 10,
}

enum Operation {
    Insert(u64, u64),
    Delete(u64),
    Find(u64),
    Select(u64),
    Rank(u64),
    Total,
}

impl Operation {
    fn into_task(self, cells: u64) -> Result<Task, Refusal> {
        use Operation::*;
        let fits = match self {
            Insert(cell, level) => cell < cells && level <= HIGHEST_LEVEL,
            Delete(cell) | Find(cell) | Rank(cell) => cell < cells,
            Select(wanted) => wanted > 0,
            Total => true,
        };
        if !fits {
            return Err(Refusal::Operand);
        }
        Ok(match self {
            Insert(cell, level) => Task::Update(Update::new(Wish::Mark(Level(level)), cell)),
            Delete(cell) => Task::Update(Update::new(Wish::Unmark, cell)),
            Find(cell) => Task::Query(Query::Asked(Quest::Find { cell })),
            Rank(cell) => Task::Query(Query::Asked(Quest::Rank { cell, passed: Tally::default() })),
            Select(wanted) => Task::Query(Query::Asked(Quest::Select { wanted, node: Node::ROOT, passed: 0 })),
            Total => Task::Query(Query::Total),
        })
    }
}

struct Column {
    tree: Tree,
    board: Vec<Task>,
}

impl Column {
    fn open(&mut self, extent: Extent) {
        self.tree.open(extent);
        self.board[..extent.workers as usize].fill(Task::Idle);
    }

    fn start(&mut self, worker: u64, operation: Operation) -> Result<(), Refusal> {
        let extent = self.tree.extent;
        if worker >= extent.workers {
            return Err(Refusal::NoSuchWorker);
        }
        if !matches!(self.board[worker as usize], Task::Idle) {
            return Err(Refusal::Busy);
        }
        let task = operation.into_task(extent.cells)?;
        if matches!(task, Task::Update(_)) && self.tree.used + self.promised() + 1 + extent.height > extent.versions {
            return Err(Refusal::NoRoom);
        }
        self.board[worker as usize] = task;
        Ok(())
    }

    fn promised(&self) -> u64 {
        let extent = self.tree.extent;
        let tasks = &self.board[..extent.workers as usize];
        let owed = |task: &Task| match task {
            Task::Update(update) => 1 + extent.height - update.made,
            _ => 0,
        };
        tasks.iter().map(owed).sum()
    }

    fn step(&mut self, worker: u64) -> Result<Option<Answer>, Refusal> {
        if worker >= self.tree.extent.workers {
            return Err(Refusal::NoSuchWorker);
        }
        let task = &mut self.board[worker as usize];
        let answer = match task {
            Task::Idle => return Err(Refusal::Idle),
            Task::Update(update) => update.advance(&mut self.tree),
            Task::Query(query) => query.advance(&self.tree),
        };
        if answer.is_some() {
            *task = Task::Idle;
        }
        Ok(answer)
    }
}

// ---------------------------------------------------------------- lines

const LONGEST_LINE: usize = 40;
const LONGEST_NUMBER: usize = 18;

enum Command {
    Open(u64, u64, u64),
    Start(u64, Operation),
    Step(u64),
}

/// Two spaces, or one at either end, yield an empty word, which is neither a name nor a number.
fn parse(line: &[u8]) -> Option<Command> {
    if line.len() > LONGEST_LINE {
        return None;
    }
    let mut words = line.split(|&byte| byte == b' ');
    let first = words.next()?;
    let mut next_number = || number(words.next()?);
    let command = match first {
        b"step" => Command::Step(next_number()?),
        b"start" => Command::Start(next_number()?, operation(&mut words)?),
        b"open" => Command::Open(next_number()?, next_number()?, next_number()?),
        _ => return None,
    };
    words.next().is_none().then_some(command)
}

fn operation<'a>(words: &mut impl Iterator<Item = &'a [u8]>) -> Option<Operation> {
    let name = words.next()?;
    let mut next_number = || number(words.next()?);
    Some(match name {
        b"insert" => Operation::Insert(next_number()?, next_number()?),
        b"delete" => Operation::Delete(next_number()?),
        b"find" => Operation::Find(next_number()?),
        b"select" => Operation::Select(next_number()?),
        b"rank" => Operation::Rank(next_number()?),
        b"total" => Operation::Total,
        _ => return None,
    })
}

fn number(word: &[u8]) -> Option<u64> {
    if word.is_empty() || word.len() > LONGEST_NUMBER {
        return None;
    }
    let mut value = 0;
    for &byte in word {
        if !byte.is_ascii_digit() {
            return None;
        }
        value = 10 * value + u64::from(byte - b'0');
    }
    Some(value)
}

enum Reply {
    Ok,
    On,
    Done(Answer),
}

fn write_reply(reply: Result<Reply, Refusal>, out: &mut Vec<u8>) {
    match reply {
        Ok(Reply::Ok) => out.extend_from_slice(b"ok"),
        Ok(Reply::On) => out.extend_from_slice(b"on"),
        Ok(Reply::Done(answer)) => write_answer(answer, out),
        Err(refusal) => {
            out.extend_from_slice(b"refused ");
            write_number(refusal as u64, out);
        }
    }
    out.push(b'\n');
}

fn write_answer(answer: Answer, out: &mut Vec<u8>) {
    out.extend_from_slice(b"done ");
    match answer {
        Answer::Yes => out.extend_from_slice(b"yes"),
        Answer::No => out.extend_from_slice(b"no"),
        Answer::None => out.extend_from_slice(b"none"),
        Answer::Number(value) => write_number(value, out),
        Answer::Tally(tally) => {
            write_number(tally.count, out);
            out.push(b' ');
            write_number(tally.energy.0, out);
        }
    }
}

fn write_number(mut value: u64, out: &mut Vec<u8>) {
    let mut digits = [0; 20];
    let mut first = digits.len();
    loop {
        first -= 1;
        digits[first] = b'0' + (value % 10) as u8;
        value /= 10;
        if value == 0 {
            break;
        }
    }
    out.extend_from_slice(&digits[first..]);
}

// ---------------------------------------------------------------- the listing

const MOST_CELLS: u64 = 16;
const MOST_WORKERS: usize = 16;
const MOST_VERSIONS: u64 = 1000;

struct Listing {
    column: Column,
    opened: bool,
    /// The beginning of a line that the last chunk cut off. Empty exactly when no line is under way.
    held: Vec<u8>,
    out: Vec<u8>,
}

impl Listing {
    fn new() -> Listing {
        let tree = Tree::with_tables(MOST_CELLS, MOST_VERSIONS);
        let column = Column { tree, board: vec![Task::Idle; MOST_WORKERS] };
        Listing { column, opened: false, held: Vec::with_capacity(LONGEST_LINE + 1), out: Vec::new() }
    }

    fn serve_chunk(&mut self, chunk: &[u8]) {
        for piece in chunk.split_inclusive(|&byte| byte == b'\n') {
            match piece.strip_suffix(b"\n") {
                None => self.hold(piece),
                Some(line) if self.held.is_empty() => self.serve_line(line),
                Some(rest) => {
                    self.hold(rest);
                    self.serve_held();
                }
            }
        }
    }

    /// One byte over the limit is all that has to be kept to know that a line is too long.
    fn hold(&mut self, piece: &[u8]) {
        let room = LONGEST_LINE + 1 - self.held.len();
        self.held.extend_from_slice(&piece[..piece.len().min(room)]);
    }

    fn serve_held(&mut self) {
        let mut line = std::mem::take(&mut self.held);
        self.serve_line(&line);
        line.clear();
        self.held = line;
    }

    fn serve_end(&mut self) {
        if !self.held.is_empty() {
            self.serve_held();
        }
    }

    fn serve_line(&mut self, line: &[u8]) {
        let reply = match parse(line) {
            None => Err(Refusal::NoCommand),
            Some(command) => self.obey(command),
        };
        write_reply(reply, &mut self.out);
    }

    fn obey(&mut self, command: Command) -> Result<Reply, Refusal> {
        match command {
            Command::Open(cells, workers, versions) => self.open(cells, workers, versions).map(|()| Reply::Ok),
            _ if !self.opened => Err(Refusal::NoCommand),
            Command::Start(worker, operation) => self.column.start(worker, operation).map(|()| Reply::Ok),
            Command::Step(worker) => Ok(self.column.step(worker)?.map_or(Reply::On, Reply::Done)),
        }
    }

    /// The listing's own limits stand where the page's have them, so that the order stays 1, 2, 3.
    fn open(&mut self, cells: u64, workers: u64, versions: u64) -> Result<(), Refusal> {
        if cells > MOST_CELLS {
            return Err(Refusal::Cells);
        }
        let extent = Extent::judged(cells, workers, versions)?;
        if versions > MOST_VERSIONS {
            return Err(Refusal::Tables);
        }
        self.column.open(extent);
        self.opened = true;
        Ok(())
    }
}

fn run(input: &mut impl Read, output: &mut impl Write) -> io::Result<()> {
    let mut listing = Listing::new();
    let mut chunk = vec![0; 1 << 16];
    loop {
        let length = match input.read(&mut chunk) {
            Ok(length) => length,
            Err(error) if error.kind() == ErrorKind::Interrupted => continue,
            Err(error) => return Err(error),
        };
        match length {
            0 => listing.serve_end(),
            _ => listing.serve_chunk(&chunk[..length]),
        }
        // Whoever types commands by hand has the answers before the next read waits.
        output.write_all(&listing.out)?;
        listing.out.clear();
        if length == 0 {
            return output.flush();
        }
    }
}

fn main() -> ExitCode {
    match run(&mut io::stdin().lock(), &mut io::stdout().lock()) {
        Ok(()) => ExitCode::SUCCESS,
        Err(error) => {
            eprintln!("listing: {error}");
            ExitCode::FAILURE
        }
    }
}
