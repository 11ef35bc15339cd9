// Writes listings from a seed: the same seed gives the same bytes, so a difference that was found can be found again.
// Each history is shadowed just far enough to know who is busy, so that most lines are accepted and histories get deep.

use std::fmt;
use std::io::{self, BufWriter, Read, Write};
use std::iter;
use std::process::ExitCode;
use std::thread;
use std::time::Duration;

const USAGE: &str = "generate SEED LINES [calm|busy]   or   generate dribble <IN >OUT";
const LARGEST: u64 = 999_999_999_999_999_999;
const MOST_DIGITS: usize = 18;
const LONGEST_LINE: usize = 40;
const VERY_LONG: usize = 100_000;

// ---------------------------------------------------------------- chance

/// The splitmix generator: one word of state, and every seed gives another course.
struct Chance(u64);

impl Chance {
    fn next(&mut self) -> u64 {
        self.0 = self.0.wrapping_add(0x9e37_79b9_7f4a_7c15);
        let mut word = self.0;
        word = (word ^ word >> 30).wrapping_mul(0xbf58_476d_1ce4_e5b9);
        word = (word ^ word >> 27).wrapping_mul(0x94d0_49bb_1331_11eb);
        word ^ word >> 31
    }

    fn below(&mut self, bound: u64) -> u64 {
        self.next() % bound
    }

    fn between(&mut self, low: u64, high: u64) -> u64 {
        low + self.below(high - low + 1)
    }

    fn one_in(&mut self, often: u64) -> bool {
        self.below(often) == 0
    }

    fn other_than_newline(&mut self) -> u8 {
        match self.below(256) as u8 {
            b'\n' => 0,
            byte => byte,
        }
    }

    fn pick<T: Copy>(&mut self, choices: &[T]) -> T {
        choices[self.below(choices.len() as u64) as usize]
    }
}

// ---------------------------------------------------------------- commands

#[derive(Clone, Copy)]
enum Operation {
    Insert(u64, u64),
    Delete(u64),
    Find(u64),
    Select(u64),
    Rank(u64),
    Total,
}

#[derive(Clone, Copy)]
enum Command {
    Open(u64, u64, u64),
    Start(u64, Operation),
    Step(u64),
}

impl fmt::Display for Command {
    fn fmt(&self, text: &mut fmt::Formatter) -> fmt::Result {
        use Operation::*;
        match *self {
            Command::Open(cells, workers, versions) => write!(text, "open {cells} {workers} {versions}"),
            Command::Start(worker, Insert(cell, level)) => write!(text, "start {worker} insert {cell} {level}"),
            Command::Start(worker, Delete(cell)) => write!(text, "start {worker} delete {cell}"),
            Command::Start(worker, Find(cell)) => write!(text, "start {worker} find {cell}"),
            Command::Start(worker, Select(wanted)) => write!(text, "start {worker} select {wanted}"),
            Command::Start(worker, Rank(cell)) => write!(text, "start {worker} rank {cell}"),
            Command::Start(worker, Total) => write!(text, "start {worker} total"),
            Command::Step(worker) => write!(text, "step {worker}"),
        }
    }
}

// ---------------------------------------------------------------- the shadow of a history

/// What a node shows: which swap put it there, and how many marked cells it counts. Versions are not kept.
#[derive(Clone, Copy, Default)]
struct Shown {
    stamp: u64,
    count: u64,
}

#[derive(Clone, Copy)]
enum Job {
    Idle,
    Query { steps_left: u64 },
    Select { wanted: u64 },
    Update(Update),
}

#[derive(Clone, Copy)]
enum Phase {
    ReadLeaf,
    SwapLeaf,
    ReadOwn,
    ReadLeft,
    ReadRight,
    Swap,
}

#[derive(Clone, Copy)]
struct Update {
    marks: bool,
    made: u64,
    node: usize,
    phase: Phase,
    second: bool,
    seen: u64,
    count: u64,
}

struct Shadow {
    cells: u64,
    height: u64,
    workers: u64,
    versions: u64,
    used: u64,
    nodes: [Shown; 32],
    jobs: [Job; 16],
}

impl Shadow {
    fn open(cells: u64, workers: u64, versions: u64) -> Option<Shadow> {
        if ![2, 4, 8, 16].contains(&cells) || !(1..=16).contains(&workers) {
            return None;
        }
        (2 * cells - 1..=1000).contains(&versions).then(|| Shadow {
            cells,
            height: cells.trailing_zeros().into(),
            workers,
            versions,
            used: 2 * cells - 1,
            nodes: [Shown::default(); 32],
            jobs: [Job::Idle; 16],
        })
    }

    fn is_idle(&self, worker: u64) -> bool {
        matches!(self.jobs[worker as usize], Job::Idle)
    }

    fn is_full(&self) -> bool {
        let owed = |job: &Job| match job {
            Job::Update(update) => 1 + self.height - update.made,
            _ => 0,
        };
        let promised: u64 = self.jobs.iter().map(owed).sum();
        self.used + promised + 1 + self.height > self.versions
    }

    fn start(&mut self, worker: u64, operation: Operation) {
        use Operation::*;
        let fits = match operation {
            Insert(cell, level) => cell < self.cells && level <= 60,
            Delete(cell) | Find(cell) | Rank(cell) => cell < self.cells,
            Select(wanted) => wanted > 0,
            Total => true,
        };
        if worker >= self.workers || !self.is_idle(worker) || !fits {
            return;
        }
        let job = match operation {
            Insert(cell, _) | Delete(cell) => {
                if self.is_full() {
                    return;
                }
                let marks = matches!(operation, Insert(..));
                let node = (self.cells + cell) as usize;
                Job::Update(Update { marks, made: 0, node, phase: Phase::ReadLeaf, second: false, seen: 0, count: 0 })
            }
            Find(_) | Rank(_) => Job::Query { steps_left: 1 + self.height },
            Select(wanted) => Job::Select { wanted },
            Total => Job::Query { steps_left: 1 },
        };
        self.jobs[worker as usize] = job;
    }

    fn step(&mut self, worker: u64) {
        if worker >= self.workers {
            return;
        }
        let next = match self.jobs[worker as usize] {
            Job::Idle | Job::Query { steps_left: 1 } => Job::Idle,
            Job::Query { steps_left } => Job::Query { steps_left: steps_left - 1 },
            Job::Select { wanted } if self.nodes[1].count < wanted => Job::Idle,
            Job::Select { .. } => Job::Query { steps_left: self.height },
            Job::Update(update) => self.step_update(update),
        };
        self.jobs[worker as usize] = next;
    }

    fn step_update(&mut self, mut update: Update) -> Job {
        let shown = self.nodes[update.node];
        match update.phase {
            Phase::ReadLeaf => {
                update.seen = shown.stamp;
                update.count = update.marks.into();
                if shown.count == update.count {
                    return update.climbed();
                }
                update.phase = Phase::SwapLeaf;
            }
            Phase::SwapLeaf => {
                self.swap(&mut update);
                return update.climbed();
            }
            Phase::ReadOwn => {
                update.seen = shown.stamp;
                update.phase = Phase::ReadLeft;
            }
            Phase::ReadLeft => {
                update.count = self.nodes[2 * update.node].count;
                update.phase = Phase::ReadRight;
            }
            Phase::ReadRight => {
                update.count += self.nodes[2 * update.node + 1].count;
                update.phase = Phase::Swap;
            }
            Phase::Swap => {
                if self.swap(&mut update) || update.second {
                    return update.climbed();
                }
                update.second = true;
                update.phase = Phase::ReadOwn;
            }
        }
        Job::Update(update)
    }

    fn swap(&mut self, update: &mut Update) -> bool {
        if self.nodes[update.node].stamp != update.seen {
            return false;
        }
        self.used += 1;
        self.nodes[update.node] = Shown { stamp: self.used, count: update.count };
        update.made += 1;
        true
    }
}

impl Update {
    fn climbed(mut self) -> Job {
        self.node /= 2;
        self.phase = Phase::ReadOwn;
        self.second = false;
        match self.node {
            0 => Job::Idle,
            _ => Job::Update(self),
        }
    }
}

// ---------------------------------------------------------------- damage

/// No command has any of these bytes, so a line with one of them is damaged for certain.
const ALIEN: [u8; 20] = *b"\x00\xff\t\r\x0b\x0c+-_.,xX\x7f\x80\xa0/:\"#";

fn spaces(line: &[u8]) -> Vec<usize> {
    (0..line.len()).filter(|&at| line[at] == b' ').collect()
}

/// Where the numbers of a line are: it is as a command prints itself, so a digit begins one exactly after a space.
fn numbers(line: &[u8]) -> Vec<usize> {
    (1..line.len()).filter(|&at| line[at - 1] == b' ' && line[at].is_ascii_digit()).collect()
}

fn digits_at(line: &[u8], at: usize) -> usize {
    line[at..].iter().take_while(|byte| byte.is_ascii_digit()).count()
}

/// Leading zeros as far as each number may have them, up to a wanted length of the line.
fn with_zeros(mut line: Vec<u8>, wanted: usize) -> Vec<u8> {
    for at in numbers(&line).into_iter().rev() {
        let zeros = (MOST_DIGITS - digits_at(&line, at)).min(wanted.saturating_sub(line.len()));
        line.splice(at..at, iter::repeat_n(b'0', zeros));
    }
    line
}

fn make_too_many_digits(line: &mut Vec<u8>, at: usize, filler: u8) {
    let missing = MOST_DIGITS + 1 - digits_at(line, at);
    line.splice(at..at, iter::repeat_n(filler, missing));
}

fn without_a_word(chance: &mut Chance, line: &[u8]) -> Vec<u8> {
    let mut words: Vec<&[u8]> = line.split(|&byte| byte == b' ').collect();
    words.remove(chance.below(words.len() as u64) as usize);
    words.join(&b' ')
}

/// Every kind of line that is no command, made from one that is.
fn damaged(chance: &mut Chance, command: Command) -> Vec<u8> {
    let mut line = command.to_string().into_bytes();
    let anywhere = chance.below(line.len() as u64) as usize;
    let a_space = chance.pick(&spaces(&line));
    let a_number = chance.pick(&numbers(&line));
    let alien = chance.pick(&ALIEN);
    match chance.below(16) {
        0 => line.clear(),
        1 => line.insert(a_space, b' '),
        2 => line.insert(0, b' '),
        3 => line.push(b' '),
        4 => line[a_space] = b'\t',
        5 => line.push(b'\r'),
        6 => make_too_many_digits(&mut line, a_number, chance.pick(b"01")),
        7 => line.insert(a_number, chance.pick(b"+-")),
        8 => line[0] = line[0].to_ascii_uppercase(),
        9 => line.make_ascii_uppercase(),
        10 => line[anywhere] = alien,
        11 => line.insert(anywhere, alien),
        12 => line = without_a_word(chance, &line),
        13 => line.extend_from_slice(chance.pick(&[b" 0" as &[u8], b" total", b" step 0", b" \x00", b" \xff"])),
        14 => drop(line.drain(a_number..a_number + digits_at(&line, a_number))),
        _ => line[anywhere] = if line[anywhere] == b' ' { chance.pick(b"0a") } else { b' ' },
    }
    line
}

/// A line of an exact length that is no command, though it may begin with one, end with one or be full of them.
fn stuffed(chance: &mut Chance, command: Command, length: usize) -> Vec<u8> {
    let text = command.to_string().into_bytes();
    let missing = length.saturating_sub(text.len());
    match chance.below(4) {
        0 if missing > 0 => [text, vec![b' '; missing]].concat(),
        1 if missing > 0 => [vec![b' '; missing], text].concat(),
        2 if missing > 0 => text.iter().chain(b" ").copied().cycle().take(length).collect(),
        _ => (0..length).map(|_| chance.other_than_newline()).collect(),
    }
}

// ---------------------------------------------------------------- the plan of a listing

#[derive(Clone, Copy, PartialEq)]
enum Mode {
    Wild,
    Calm,
    Busy,
}

struct Plan {
    chance: Chance,
    mode: Mode,
    shadow: Option<Shadow>,
    hot_cells: Vec<u64>,
    worker: u64,
    /// One line in so many turns to another worker: small for close meetings, large for long runs.
    restless: u64,
}

impl Plan {
    fn new(seed: u64, mode: Mode) -> Plan {
        Plan { chance: Chance(seed), mode, shadow: None, hot_cells: vec![0], worker: 0, restless: 1 }
    }

    fn line(&mut self) -> Vec<u8> {
        if self.mode != Mode::Wild {
            return self.plain_line();
        }
        let command = self.next_command();
        match self.chance.below(2500) {
            0 => stuffed(&mut self.chance, command, VERY_LONG),
            1..=9 => {
                let length = self.chance.pick(&[LONGEST_LINE - 1, LONGEST_LINE, LONGEST_LINE + 1]);
                stuffed(&mut self.chance, command, length)
            }
            10..=99 => damaged(&mut self.chance, command),
            100..=159 => self.zeroed_line(command),
            160..=299 if !matches!(command, Command::Step(_)) => self.zeroed_line(command),
            _ => self.given(command),
        }
    }

    fn plain_line(&mut self) -> Vec<u8> {
        let command = match &self.shadow {
            None => self.fitting_open(),
            Some(_) => self.lively_command(),
        };
        self.given(command)
    }

    fn zeroed_line(&mut self, command: Command) -> Vec<u8> {
        let length = self.chance.pick(&[10, 20, 39, 40, 41, 61]);
        let line = with_zeros(command.to_string().into_bytes(), length);
        if line.len() <= LONGEST_LINE {
            self.serve(command);
        }
        line
    }

    fn given(&mut self, command: Command) -> Vec<u8> {
        self.serve(command);
        command.to_string().into_bytes()
    }

    fn serve(&mut self, command: Command) {
        match (command, &mut self.shadow) {
            (Command::Open(cells, workers, versions), _) => {
                if let Some(fresh) = Shadow::open(cells, workers, versions) {
                    self.shadow = Some(fresh);
                    self.settle(cells);
                }
            }
            (Command::Start(worker, operation), Some(shadow)) => shadow.start(worker, operation),
            (Command::Step(worker), Some(shadow)) => shadow.step(worker),
            (_, None) => {}
        }
    }

    fn settle(&mut self, cells: u64) {
        let few = self.chance.between(1, 3);
        self.hot_cells = (0..few).map(|_| self.chance.below(cells)).collect();
        self.restless = self.chance.pick(&[1, 1, 2, 8]);
        self.worker = 0;
    }

    fn next_command(&mut self) -> Command {
        if self.shadow.is_none() {
            return match self.chance.below(4) {
                0 => self.refused_open(),
                1 => self.careless_command(),
                _ => self.fitting_open(),
            };
        }
        match self.chance.below(4000) {
            0 => self.fitting_open(),
            1..=25 => self.refused_open(),
            26..=100 => self.careless_command(),
            _ => self.lively_command(),
        }
    }

    fn fitting_open(&mut self) -> Command {
        let cells = self.chance.pick(&[2, 4, 8, 16]);
        let least = 2 * cells - 1;
        let workers = match self.mode {
            Mode::Calm => 1,
            Mode::Busy => 16,
            Mode::Wild => self.chance.between(1, 16),
        };
        let versions = match self.chance.below(10) {
            _ if self.mode != Mode::Wild => 1000,
            0 => least,
            1..=2 => self.chance.between(least, least + 30),
            3..=5 => self.chance.between(least, 300),
            6..=7 => self.chance.between(300, 1000),
            _ => 1000,
        };
        Command::Open(cells, workers, versions)
    }

    /// At least one of the three numbers is bad; often more, for the order of the refusals.
    fn refused_open(&mut self) -> Command {
        let Command::Open(mut cells, mut workers, mut versions) = self.fitting_open() else { unreachable!() };
        let bad = self.chance.between(1, 7);
        if bad & 4 != 0 {
            versions = self.chance.pick(&[0, 2 * cells - 2, 1001, 1002, 5000, 1_000_001, LARGEST]);
        }
        if bad & 2 != 0 {
            workers = self.chance.pick(&[0, 17, 18, 32, 256, LARGEST]);
        }
        if bad & 1 != 0 {
            cells = self.chance.pick(&[0, 1, 3, 5, 6, 7, 12, 15, 17, 18, 32, 64, 4096, 8192, LARGEST]);
        }
        Command::Open(cells, workers, versions)
    }

    /// Any worker, fit or unfit, without a look at who is busy.
    fn careless_command(&mut self) -> Command {
        let workers = self.shadow.as_ref().map_or(2, |shadow| shadow.workers);
        let beyond = self.chance.pick(&[workers, workers + 1, 16, 17, LARGEST]);
        let worker = if self.chance.one_in(3) { beyond } else { self.chance.below(workers) };
        if self.chance.one_in(2) {
            return Command::Step(worker);
        }
        Command::Start(worker, if self.chance.one_in(2) { self.unfit_operation() } else { self.operation() })
    }

    /// What carries the history on: a busy worker steps, an idle one starts.
    fn lively_command(&mut self) -> Command {
        let Some(shadow) = &self.shadow else { return Command::Step(0) };
        if self.chance.one_in(self.restless) {
            self.worker = self.chance.below(shadow.workers);
        }
        let worker = self.worker;
        if !shadow.is_idle(worker) {
            return Command::Step(worker);
        }
        if shadow.is_full() {
            return self.command_when_full(worker);
        }
        match self.chance.below(60) {
            0 if self.mode == Mode::Wild => Command::Step(worker),
            1..=2 if self.mode == Mode::Wild => Command::Start(worker, self.unfit_operation()),
            _ => Command::Start(worker, self.operation()),
        }
    }

    /// A full table still answers queries and refuses updates; after a while of that a new history begins.
    fn command_when_full(&mut self, worker: u64) -> Command {
        if self.mode != Mode::Wild || self.chance.one_in(20) {
            return self.fitting_open();
        }
        match self.chance.below(8) {
            0 => Command::Start(worker, self.unfit_operation()),
            1..=3 => Command::Start(worker, self.operation()),
            _ => Command::Start(worker, self.query()),
        }
    }

    fn operation(&mut self) -> Operation {
        match self.chance.below(16) {
            0..=6 => Operation::Insert(self.cell(), self.chance.below(61)),
            7..=11 => Operation::Delete(self.cell()),
            _ => self.query(),
        }
    }

    fn query(&mut self) -> Operation {
        let count = self.shadow.as_ref().map_or(0, |shadow| shadow.nodes[1].count);
        match self.chance.below(4) {
            0 => Operation::Find(self.cell()),
            1 => Operation::Rank(self.cell()),
            2 if self.chance.one_in(16) => Operation::Select(self.chance.pick(&[16, 17, 1000, LARGEST])),
            2 => Operation::Select(self.chance.between(1, count + 1)),
            _ => Operation::Total,
        }
    }

    /// In busy water nearly all turn to the hot cells; a single worker has no one to meet there.
    fn cell(&mut self) -> u64 {
        let cells = self.shadow.as_ref().map_or(2, |shadow| shadow.cells);
        if self.mode == Mode::Calm || self.chance.one_in(8) {
            return self.chance.below(cells);
        }
        self.chance.pick(&self.hot_cells)
    }

    fn unfit_operation(&mut self) -> Operation {
        let cells = self.shadow.as_ref().map_or(2, |shadow| shadow.cells);
        let beyond = self.chance.pick(&[cells, cells + 1, 2 * cells, 16, LARGEST]);
        let too_loud = self.chance.pick(&[61, 62, 64, 100, 255, 256, LARGEST]);
        match self.chance.below(7) {
            0 => Operation::Insert(beyond, self.chance.below(61)),
            1 => Operation::Insert(self.cell(), too_loud),
            2 => Operation::Insert(beyond, too_loud),
            3 => Operation::Delete(beyond),
            4 => Operation::Find(beyond),
            5 => Operation::Rank(beyond),
            _ => Operation::Select(0),
        }
    }
}

// ---------------------------------------------------------------- writing

/// Every third listing lacks its final newline.
fn write_listing(seed: u64, lines: u64, mode: Mode) -> io::Result<()> {
    let mut out = BufWriter::with_capacity(1 << 16, io::stdout().lock());
    let mut plan = Plan::new(seed, mode);
    for number in 1..=lines {
        out.write_all(&plan.line())?;
        if number < lines || mode != Mode::Wild || seed % 3 != 0 {
            out.write_all(b"\n")?;
        }
    }
    out.flush()
}

/// Hands the input on in writes of 1 to 7 bytes, so that lines reach a program in pieces.
fn dribble() -> io::Result<()> {
    let (mut input, mut output) = (io::stdin().lock(), io::stdout().lock());
    let mut chance = Chance(7);
    let mut chunk = [0; 1 << 12];
    let mut since_newline = 0;
    loop {
        let length = input.read(&mut chunk)?;
        if length == 0 {
            return Ok(());
        }
        dribble_chunk(&chunk[..length], &mut since_newline, &mut chance, &mut output)?;
    }
}

fn dribble_chunk(mut rest: &[u8], since_newline: &mut usize, chance: &mut Chance, output: &mut impl Write) -> io::Result<()> {
    while !rest.is_empty() {
        let (piece, later) = rest.split_at(rest.len().min(chance.between(1, 7) as usize));
        output.write_all(piece)?;
        output.flush()?;
        rest = later;
        *since_newline = if piece.contains(&b'\n') { 0 } else { *since_newline + piece.len() };
        // Without a pause the pipe would join the pieces again; the rest of a very long line is not worth one.
        if *since_newline < 2 * LONGEST_LINE {
            thread::sleep(Duration::from_micros(10));
        }
    }
    Ok(())
}

fn main() -> ExitCode {
    let words: Vec<String> = std::env::args().skip(1).collect();
    let words: Vec<&str> = words.iter().map(String::as_str).collect();
    let (numbers, mode) = match words[..] {
        ["dribble"] => return finish(dribble()),
        [seed, lines] => ([seed, lines], Mode::Wild),
        [seed, lines, "calm"] => ([seed, lines], Mode::Calm),
        [seed, lines, "busy"] => ([seed, lines], Mode::Busy),
        _ => (["", ""], Mode::Wild),
    };
    let [Ok(seed), Ok(lines)] = numbers.map(str::parse) else {
        eprintln!("{USAGE}");
        return ExitCode::from(2);
    };
    finish(write_listing(seed, lines, mode))
}

fn finish(result: io::Result<()>) -> ExitCode {
    match result {
        Ok(()) => ExitCode::SUCCESS,
        Err(error) => {
            eprintln!("generate: {error}");
            ExitCode::FAILURE
        }
    }
}
