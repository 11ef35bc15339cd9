//! Refusals with their numbers, and for refusal 9 the name of the clause that was met.
//! The comparisons count clauses by these names, so that none stays untried.

/// An enum of plain members together with the list of all of them.
macro_rules! listed {
    ($(#[$about:meta])* $name:ident: $($member:ident),+ $(,)?) => {
        $(#[$about])*
        #[derive(Clone, Copy, Debug, PartialEq, Eq, PartialOrd, Ord)]
        pub enum $name { $($member),+ }

        impl $name {
            pub const ALL: &'static [$name] = &[$($name::$member),+];
        }
    };
}

listed! {
    /// On which side of "2N-1 to V" the used count lies.
    Side: Below, Above
}

listed! {
    /// Which of its versions a step finds not sound: one "that the step reads, or that the record holds".
    Source: Read, Held
}

listed! {
    /// Why a version is not sound at its place, one member for each word that can be at fault.
    Flaw: LeafNumber, LeafLeft, LeafRight, LeafCount, LeafEnergy, LeafLevel, LeafUnmarkedEnergy, LeafUnmarkedLevel,
    InnerNumber, InnerLeft, InnerRight, InnerCount, InnerEnergy, InnerLevel
}

listed! {
    /// Where a step forms a sum.
    Adding: SucceedingSwap, FailingSwap, RankGoesOn, RankAnswers, SelectGoesOn, SelectAnswers
}

listed! {
    /// What is added.
    Quantity: Count, Energy
}

listed! {
    /// Where a swap is made.
    Swapping: Leaf, Inner
}

/// The clauses of refusal 9's paragraph that words can express.
#[derive(Clone, Copy, Debug, PartialEq, Eq, PartialOrd, Ord)]
pub enum Clause {
    StartNoRecord,
    StartUsed(Side),
    StartMade,
    NoRecord,
    Used(Side),
    Cell,
    Level,
    SelectOfZero,
    ClimbNodeNotInner,
    ClimbNodeOffPath,
    SelectNodeNotAtDepth,
    SelectPassedAll,
    StepsDone,
    RunningCount,
    RunningEnergy,
    Made,
    Unsound(Source, Flaw),
    Sum(Adding, Quantity),
    SwapWithoutRoom(Swapping),
    SwapBeyondMade,
}

impl Clause {
    pub fn all() -> Vec<Clause> {
        use Clause::*;
        let plain = [
            StartNoRecord, StartMade, NoRecord, Cell, Level, SelectOfZero, ClimbNodeNotInner, ClimbNodeOffPath,
            SelectNodeNotAtDepth, SelectPassedAll, StepsDone, RunningCount, RunningEnergy, Made, SwapBeyondMade,
        ];
        let used = Side::ALL.iter().flat_map(|&side| [StartUsed(side), Used(side)]);
        let unsound = Source::ALL.iter().flat_map(|&source| Flaw::ALL.iter().map(move |&flaw| Unsound(source, flaw)));
        let rooms = Swapping::ALL.iter().map(|&swapping| SwapWithoutRoom(swapping));
        plain.into_iter().chain(used).chain(unsound).chain(Clause::sums()).chain(rooms).collect()
    }

    /// Select passes cells but no energy, so two of the pairs do not exist.
    fn sums() -> impl Iterator<Item = Clause> {
        let pairs = Adding::ALL.iter().flat_map(|&adding| Quantity::ALL.iter().map(move |&quantity| (adding, quantity)));
        let exists = |&(adding, quantity): &(Adding, Quantity)| {
            quantity == Quantity::Count || !matches!(adding, Adding::SelectGoesOn | Adding::SelectAnswers)
        };
        pairs.filter(exists).map(|(adding, quantity)| Clause::Sum(adding, quantity))
    }

    /// Every judgement of a step is made so: an error that names the clause, where it is met.
    pub fn refuse_if(self, met: bool) -> Result<(), Clause> {
        if met { Err(self) } else { Ok(()) }
    }
}

#[derive(Clone, Copy, Debug, PartialEq, Eq)]
pub enum Refusal {
    Cells,
    Workers,
    Tables,
    Worker,
    Busy,
    Idle,
    Argument,
    Full,
    Damaged(Clause),
    Operation,
    AnswerRow,
}

impl Refusal {
    /// All numbers that a refusal can have.
    pub const NUMBERS: [u64; 11] = [1, 2, 3, 4, 5, 6, 7, 8, 9, 10, 20];

    pub fn number(self) -> u64 {
        match self {
            Refusal::Cells => 1,
            Refusal::Workers => 2,
            Refusal::Tables => 3,
            Refusal::Worker => 4,
            Refusal::Busy => 5,
            Refusal::Idle => 6,
            Refusal::Argument => 7,
            Refusal::Full => 8,
            Refusal::Damaged(_) => 9,
            Refusal::Operation => 10,
            Refusal::AnswerRow => 20,
        }
    }
}

impl From<Clause> for Refusal {
    fn from(clause: Clause) -> Refusal {
        Refusal::Damaged(clause)
    }
}
