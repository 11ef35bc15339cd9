//! An estimator of its own, and the comparisons that hold another implementation to it, both reached through one trait.
//! It was written from the rules, document 01 ("the page"), and from docs/WORDS.md and the header, which tell the form of the words
//! and refusals 10 and 20.

pub mod book;
pub mod calls;
pub mod cases;
pub mod chance;
pub mod conversion;
pub mod damage;
pub mod histories;
pub mod large;
pub mod order;
pub mod played;
pub mod record;
pub mod refusal;
pub mod report;
pub mod rows;
pub mod soundings;
pub mod stepping;
pub mod tables;
pub mod watch;

/// The four calls on words. The estimator written here is one implementation, the library that is compared with it another.
pub trait Calls {
    fn open(&self, cells: u64, workers: u64, nodes: &mut [u64], versions: &mut [u64], board: &mut [u64]) -> u64;
    #[allow(clippy::too_many_arguments)]
    fn start(&self, cells: u64, workers: u64, worker: u64, operation: [u64; 3], nodes: &[u64], versions: &[u64], board: &mut [u64]) -> u64;
    #[allow(clippy::too_many_arguments)]
    fn step(&self, cells: u64, workers: u64, worker: u64, nodes: &mut [u64], versions: &mut [u64], board: &mut [u64], answer: &mut [u64]) -> u64;
    fn energy(&self, level: u64, answer: &mut [u64]) -> u64;
}
