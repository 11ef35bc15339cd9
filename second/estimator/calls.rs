//! The four calls on words, with all their refusals: 1 to 9 in the page's order, and 10 and 20 before them, as docs/WORDS.md has it.
//! Each call has a judged form that tells the refusal with its clause, and the form of the trait that tells its number.

use super::conversion::{energy_of, Level};
use super::record::{self, Answer, Operation, Record, ANSWER_WORDS, RECORD_WORDS};
use super::refusal::{Clause, Refusal};
use super::stepping;
use super::tables::{Size, Tables};
use super::Calls;

pub const MOST_WORKERS: u64 = 16;

/// The estimator written here.
pub struct Written;

/// Refusals 1 and 2.
fn judge_size(cells: u64, workers: u64, board: &[u64]) -> Result<Size, Refusal> {
    let size = Size::of(cells).ok_or(Refusal::Cells)?;
    let workers_allowed = (1..=MOST_WORKERS).contains(&workers);
    if workers_allowed && board.len() >= RECORD_WORDS * workers as usize {
        Ok(size)
    } else {
        Err(Refusal::Workers)
    }
}

/// Refusal 4.
fn judge_worker(workers: u64, worker: u64) -> Result<usize, Refusal> {
    if worker < workers { Ok(worker as usize) } else { Err(Refusal::Worker) }
}

/// Refusal 20, and otherwise the words of the row that an answer is written to.
fn answer_words(answer: &mut [u64]) -> Result<&mut [u64], Refusal> {
    answer.get_mut(..ANSWER_WORDS).ok_or(Refusal::AnswerRow)
}

pub fn judged_open(cells: u64, workers: u64, nodes: &mut [u64], versions: &mut [u64], board: &mut [u64]) -> Result<(), Refusal> {
    let size = judge_size(cells, workers, board)?;
    let mut tables = Tables::of(size, nodes, versions).ok_or(Refusal::Tables)?;
    tables.fill();
    let records = board.chunks_exact_mut(RECORD_WORDS).take(workers as usize);
    records.for_each(|words| record::write(&Record::Idle, words));
    Ok(())
}

pub fn judged_start(
    [cells, workers, worker]: [u64; 3],
    operation: [u64; 3],
    nodes: &[u64],
    versions: &[u64],
    board: &mut [u64],
) -> Result<(), Refusal> {
    let operation = Operation::of(operation).ok_or(Refusal::Operation)?;
    let size = judge_size(cells, workers, board)?;
    let tables = Tables::of(size, nodes, versions).ok_or(Refusal::Tables)?;
    let worker = judge_worker(workers, worker)?;
    let mut records = [None; MOST_WORKERS as usize];
    let places = records.iter_mut().zip(board.chunks_exact(RECORD_WORDS)).take(workers as usize);
    places.for_each(|(record, words)| *record = record::read(words));
    let started = stepping::start(&tables, &records[..workers as usize], worker, operation)?;
    record::write(&started, own_words(board, worker));
    Ok(())
}

pub fn judged_step(
    [cells, workers, worker]: [u64; 3],
    nodes: &mut [u64],
    versions: &mut [u64],
    board: &mut [u64],
    answer: &mut [u64],
) -> Result<(), Refusal> {
    let answer = answer_words(answer)?;
    let size = judge_size(cells, workers, board)?;
    let mut tables = Tables::of(size, nodes, versions).ok_or(Refusal::Tables)?;
    let words = own_words(board, judge_worker(workers, worker)?);
    let mut record = record::read(words).ok_or(Clause::NoRecord)?;
    let answered = stepping::step(&mut tables, &mut record)?;
    record::write(&record, words);
    answer.copy_from_slice(&answered.words());
    Ok(())
}

pub fn judged_energy(level: u64, answer: &mut [u64]) -> Result<(), Refusal> {
    let answer = answer_words(answer)?;
    let energy = energy_of(Level(level)).ok_or(Refusal::Argument)?;
    answer.copy_from_slice(&Answer::Energy(energy).words());
    Ok(())
}

fn own_words(board: &mut [u64], worker: usize) -> &mut [u64] {
    &mut board[RECORD_WORDS * worker..RECORD_WORDS * (worker + 1)]
}

fn number_of(judged: Result<(), Refusal>) -> u64 {
    judged.map_or_else(Refusal::number, |()| 0)
}

impl Calls for Written {
    fn open(&self, cells: u64, workers: u64, nodes: &mut [u64], versions: &mut [u64], board: &mut [u64]) -> u64 {
        number_of(judged_open(cells, workers, nodes, versions, board))
    }

    fn start(&self, cells: u64, workers: u64, worker: u64, operation: [u64; 3], nodes: &[u64], versions: &[u64], board: &mut [u64]) -> u64 {
        number_of(judged_start([cells, workers, worker], operation, nodes, versions, board))
    }

    fn step(&self, cells: u64, workers: u64, worker: u64, nodes: &mut [u64], versions: &mut [u64], board: &mut [u64], answer: &mut [u64]) -> u64 {
        number_of(judged_step([cells, workers, worker], nodes, versions, board, answer))
    }

    fn energy(&self, level: u64, answer: &mut [u64]) -> u64 {
        number_of(judged_energy(level, answer))
    }
}
