//! One history played through an implementation alone, watched from outside by its calls and by the words it leaves.
//! Each answer is held to the book at the operation's place, each operation to its bound of own steps.
//!
//! Of the versions it only takes from the implementation's own table whether a leaf is marked when it is read, and holds only
//! count and energy at the root to the book. Beside the single calls this is enough: there every word that a step leaves is
//! compared. A history adds what no single call can show, the order and the answers. A leaf wrongly marked would come to light in it
//! all the same, in the sums at the root, and a wrong cell or level below the same sums in the answers of Find, Select and Rank.

use super::book::Book;
use super::histories::{most_query_steps, most_update_steps, HistoryReport};
use super::order::{Order, Seen, UpdateNumber};
use super::played::plain_ask;
use super::record::{Answer, Operation, Query, Update, ANSWER_WORDS};
use super::rows::{Ask, Call, Rows};
use super::tables::{versions_in, Node, Size, VERSION_WORDS};
use super::Calls;

/// The whole node table is compared after every step where it is small, and after every so many steps where it is not.
const SMALL_TREE: u64 = 64;
const STEPS_BETWEEN_WHOLE: u64 = 256;

/// A refresh, with how many of its reads are done and what had reached the children when they were read.
#[derive(Clone, Copy)]
struct Refresh {
    node: Node,
    second: bool,
    reads: u64,
    left: Seen,
    right: Seen,
}

/// Where an update is, as far as its steps tell.
#[derive(Clone, Copy)]
enum Stage {
    ReadsLeaf,
    SwapsAtLeaf,
    Refreshes(Refresh),
}

impl Stage {
    fn refresh(node: Node, second: bool) -> Stage {
        Stage::Refreshes(Refresh { node, second, reads: 0, left: Seen::NONE, right: Seen::NONE })
    }
}

#[derive(Clone, Copy)]
enum Work {
    Nothing,
    Update { number: UpdateNumber, stage: Stage, made: u64 },
    Query { query: Query, expected: Option<Answer> },
}

#[derive(Clone, Copy)]
struct Watched {
    work: Work,
    own_steps: u64,
}

/// What the book said of an update, and at which call.
#[derive(Clone, Copy)]
struct Placed {
    result: bool,
    moment: u64,
}

struct Filed {
    update: Update,
    worker: u64,
    started: u64,
    placed: Option<Placed>,
}

pub struct Watch<'a> {
    calls: &'a dyn Calls,
    size: Size,
    workers: Vec<Watched>,
    pub rows: Rows,
    /// The node table as it must be.
    nodes: Vec<u64>,
    order: Order,
    book: Book,
    updates: Vec<Filed>,
    /// Accepted calls so far.
    moment: u64,
    pub report: HistoryReport,
}

impl<'a> Watch<'a> {
    pub fn open(calls: &'a dyn Calls, size: Size, workers: u64, versions: u64) -> Watch<'a> {
        let mut rows = Rows::for_tree(size.cells, workers, VERSION_WORDS * versions as usize);
        let opened = plain_ask(size, workers, Call::Open).put_to(calls, &mut rows, &mut []);
        assert_eq!(opened, 0, "open of {size:?}, {workers} workers, {versions} versions");
        let idle = Watched { work: Work::Nothing, own_steps: 0 };
        Watch {
            calls,
            size,
            workers: vec![idle; workers as usize],
            nodes: [size.least_used()].into_iter().chain(1..=size.least_used()).collect(),
            rows,
            order: Order::new(size),
            book: Book::new(size.cells),
            updates: Vec::new(),
            moment: 0,
            report: HistoryReport::default(),
        }
    }

    pub fn is_idle(&self, worker: u64) -> bool {
        matches!(self.workers[worker as usize].work, Work::Nothing)
    }

    /// The workers of the updates placed so far, in the order of the root.
    pub fn placed_workers(&self) -> Vec<u64> {
        self.order.at_root().iter().map(|number| self.updates[number.0].worker).collect()
    }

    fn ask(&self, call: Call, worker: u64) -> Ask {
        Ask { worker, ..plain_ask(self.size, self.workers.len() as u64, call) }
    }

    /// Starts an operation, which must be refused exactly where the page says so, and gives the number returned.
    pub fn start(&mut self, worker: u64, operation: Operation) -> u64 {
        let ask = Ask { operation: operation.words(), ..self.ask(Call::Start, worker) };
        let returned = ask.put_to(self.calls, &mut self.rows, &mut []);
        let expected = self.expected_refusal(worker, operation);
        assert_eq!(returned, expected, "start of {operation:?} by worker {worker} after {} calls", self.moment);
        if returned == 0 {
            self.moment += 1;
            self.begin(worker, operation);
        } else {
            *self.report.refused.entry(returned).or_default() += 1;
        }
        returned
    }

    fn expected_refusal(&self, worker: u64, operation: Operation) -> u64 {
        let is_update = matches!(operation, Operation::Update(_));
        let needed = self.nodes[0] + self.promised() + self.size.most_made();
        match (self.is_idle(worker), is_update && needed > versions_in(self.rows.versions.len())) {
            (false, _) => 5,
            (true, true) => 8,
            (true, false) => 0,
        }
    }

    fn promised(&self) -> u64 {
        let updates = self.workers.iter().filter_map(|watched| match watched.work {
            Work::Update { made, .. } => Some(self.size.most_made() - made),
            Work::Nothing | Work::Query { .. } => None,
        });
        updates.sum()
    }

    fn begin(&mut self, worker: u64, operation: Operation) {
        let work = match operation {
            Operation::Update(update) => {
                self.updates.push(Filed { update, worker, started: self.moment, placed: None });
                Work::Update { number: UpdateNumber(self.updates.len() - 1), stage: Stage::ReadsLeaf, made: 0 }
            }
            Operation::Query(query) => Work::Query { query, expected: None },
        };
        self.workers[worker as usize] = Watched { work, own_steps: 0 };
        self.report.operations += 1;
    }

    /// Steps a worker and gives the answer's words. An idle worker's step must be refused with 6.
    pub fn step(&mut self, worker: u64) -> Option<[u64; ANSWER_WORDS]> {
        let mut answer = [u64::MAX; ANSWER_WORDS];
        let returned = self.ask(Call::Step, worker).put_to(self.calls, &mut self.rows, &mut answer);
        let expected = if self.is_idle(worker) { 6 } else { 0 };
        assert_eq!(returned, expected, "step of worker {worker} after {} calls", self.moment);
        if returned != 0 {
            *self.report.refused.entry(returned).or_default() += 1;
            return None;
        }
        self.moment += 1;
        self.workers[worker as usize].own_steps += 1;
        let expected = self.follow(worker);
        assert_eq!(answer, expected.words(), "answer to worker {worker} at call {}, the book has {expected:?}", self.moment);
        if expected != Answer::On {
            self.end(worker, expected);
        }
        self.check_root();
        self.check_nodes();
        Some(answer)
    }

    /// Follows the step that a worker has just taken, and gives the answer that it must have had.
    fn follow(&mut self, worker: u64) -> Answer {
        match self.workers[worker as usize].work {
            Work::Nothing => panic!("an idle worker's step is refused"),
            Work::Query { query, expected } => self.follow_query(worker, query, expected),
            Work::Update { number, stage, made } => match stage {
                Stage::ReadsLeaf => self.follow_leaf_read(worker, number),
                Stage::SwapsAtLeaf => self.follow_leaf_swap(worker, number),
                Stage::Refreshes(refresh) if refresh.reads < 3 => self.follow_refresh_read(worker, number, refresh, made),
                Stage::Refreshes(refresh) => self.follow_inner_swap(worker, number, refresh, made),
            },
        }
    }

    /// A query's place is just behind all updates placed before its first step's call; there the book gives its answer.
    fn follow_query(&mut self, worker: u64, query: Query, expected: Option<Answer>) -> Answer {
        let expected = expected.unwrap_or_else(|| self.book.answer(query));
        let watched = &mut self.workers[worker as usize];
        watched.work = Work::Query { query, expected: Some(expected) };
        let at_once = query == Query::Total || (matches!(query, Query::Select(_)) && expected == Answer::None);
        let last_step = if at_once { 1 } else { 1 + self.size.height };
        if watched.own_steps == last_step { expected } else { Answer::On }
    }

    fn leaf_of(&self, number: UpdateNumber) -> Node {
        self.size.leaf(self.updates[number.0].update.cell())
    }

    fn set_stage(&mut self, worker: u64, number: UpdateNumber, stage: Stage, made: u64) {
        self.workers[worker as usize].work = Work::Update { number, stage, made };
    }

    fn follow_leaf_read(&mut self, worker: u64, number: UpdateNumber) -> Answer {
        let leaf = self.leaf_of(number);
        let first_word = VERSION_WORDS * (self.nodes[leaf.0 as usize] as usize - 1);
        let marked = self.rows.versions[first_word + 2] == 1;
        let stage = if marked == self.updates[number.0].update.wants_marked() {
            self.order.finds_as_wanted(leaf, number);
            Stage::refresh(leaf.parent(), false)
        } else {
            self.order.waits_to_swap(leaf, number);
            Stage::SwapsAtLeaf
        };
        self.set_stage(worker, number, stage, 0);
        Answer::On
    }

    /// Whether the step has set the node's word, which then is the next version's number.
    fn has_swapped(&mut self, node: Node) -> bool {
        let swapped = self.rows.nodes[node.0 as usize] != self.nodes[node.0 as usize];
        if swapped {
            self.nodes[0] += 1;
            self.nodes[node.0 as usize] = self.nodes[0];
        }
        swapped
    }

    fn follow_leaf_swap(&mut self, worker: u64, number: UpdateNumber) -> Answer {
        let leaf = self.leaf_of(number);
        let swapped = self.has_swapped(leaf);
        if swapped {
            self.order.swaps_at_leaf(leaf, number);
        }
        assert!(!self.order.is_waiting(leaf, number), "a swap at a leaf fails only behind another's");
        self.set_stage(worker, number, Stage::refresh(leaf.parent(), false), swapped.into());
        Answer::On
    }

    fn follow_refresh_read(&mut self, worker: u64, number: UpdateNumber, mut refresh: Refresh, made: u64) -> Answer {
        match refresh.reads {
            0 => {}
            1 => refresh.left = self.order.seen_at(refresh.node.left()),
            _ => refresh.right = self.order.seen_at(refresh.node.right()),
        }
        refresh.reads += 1;
        self.set_stage(worker, number, Stage::Refreshes(refresh), made);
        Answer::On
    }

    fn follow_inner_swap(&mut self, worker: u64, number: UpdateNumber, refresh: Refresh, made: u64) -> Answer {
        let Refresh { node, second, left, right, .. } = refresh;
        let swapped = self.has_swapped(node);
        if swapped {
            let arriving = self.order.swaps_at_inner(node, left, right);
            self.place_if_at_root(node, number, &arriving);
        }
        self.report.failed_twice += u64::from(second && !swapped);
        let goes_up = swapped || second;
        if goes_up && node == Node::ROOT {
            let placed = self.updates[number.0].placed.expect("an update is placed no later than its answer");
            return Answer::of_result(placed.result);
        }
        let stage = if goes_up { Stage::refresh(node.parent(), false) } else { Stage::refresh(node, true) };
        self.set_stage(worker, number, stage, made + u64::from(swapped));
        Answer::On
    }

    /// Updates that reach the root are placed, and the book takes them one at a time in that order.
    fn place_if_at_root(&mut self, node: Node, swapping: UpdateNumber, arriving: &[UpdateNumber]) {
        let placed = if node == Node::ROOT { arriving } else { &[] };
        for &number in placed {
            let filed = &mut self.updates[number.0];
            assert!(filed.placed.is_none() && filed.started < self.moment, "an update is placed once, after its start");
            filed.placed = Some(Placed { result: self.book.update(filed.update), moment: self.moment });
            self.report.placed_by_another += u64::from(number != swapping);
        }
    }

    fn end(&mut self, worker: u64, answer: Answer) {
        let Watched { work, own_steps } = self.workers[worker as usize];
        let operation = match work {
            Work::Nothing => panic!("an idle worker answers nothing"),
            Work::Update { number, .. } => Operation::Update(self.end_update(number, own_steps)),
            Work::Query { query, .. } => {
                assert!(own_steps <= most_query_steps(self.size.height), "{own_steps} own steps of {query:?}");
                self.report.note_query_steps(self.size, own_steps);
                Operation::Query(query)
            }
        };
        *self.report.answers.entry((operation.words()[0], answer.words()[0])).or_default() += 1;
        self.workers[worker as usize] = Watched { work: Work::Nothing, own_steps: 0 };
    }

    fn end_update(&mut self, number: UpdateNumber, own_steps: u64) -> Update {
        let Filed { update, placed, .. } = self.updates[number.0];
        let placed = placed.map_or(u64::MAX, |placed| placed.moment);
        assert!(placed <= self.moment, "an update is placed no later than its answer");
        assert!(own_steps <= most_update_steps(self.size.height), "{own_steps} own steps of {update:?}");
        self.report.note_update_steps(self.size, own_steps);
        update
    }

    /// The page: "At every moment the root's version shows the book of all updates placed so far."
    fn check_root(&self) {
        let first_word = VERSION_WORDS * (self.rows.nodes[Node::ROOT.0 as usize] as usize - 1);
        let (shown, total) = (&self.rows.versions[first_word + 2..first_word + 4], self.book.total());
        assert_eq!(shown, [total.count, total.energy.0], "count and energy of the root's version after call {}", self.moment);
    }

    /// No step sets a node's word but the one that it swaps at, nor the used count otherwise.
    fn check_nodes(&self) {
        assert_eq!(self.rows.nodes[0], self.nodes[0], "versions used after call {}", self.moment);
        if self.size.cells <= SMALL_TREE || self.moment.is_multiple_of(STEPS_BETWEEN_WHOLE) {
            assert_eq!(*self.rows.nodes, *self.nodes, "the node table after call {}", self.moment);
        }
    }
}
