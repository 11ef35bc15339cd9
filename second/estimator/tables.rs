//! The tree's size, its node table and version table, and which version is sound at which place.
//! Every bound of the page on nodes, versions and sums has its one home here.

use super::conversion::{Energy, Level, MOST_LEVEL};
use super::refusal::{Flaw, Side};

pub const LEAST_CELLS: u64 = 2;
pub const MOST_CELLS: u64 = 4_096;
pub const MOST_HEIGHT: u64 = 12;
pub const MOST_VERSIONS: u64 = 1_000_000;
pub const VERSION_WORDS: usize = 5;

/// The page: "energy at most 10^9", of one cell.
pub const MOST_CELL_ENERGY: u64 = 1_000_000_000;

#[derive(Clone, Copy, Debug, PartialEq, Eq)]
pub struct Cell(pub u64);

#[derive(Clone, Copy, Debug, PartialEq, Eq)]
pub struct Node(pub u64);

#[derive(Clone, Copy, Debug, PartialEq, Eq)]
pub struct VersionNumber(pub u64);

impl Node {
    pub const ROOT: Node = Node(1);

    pub fn left(self) -> Node {
        Node(2 * self.0)
    }

    pub fn right(self) -> Node {
        Node(2 * self.0 + 1)
    }

    pub fn parent(self) -> Node {
        Node(self.0 / 2)
    }
}

#[derive(Clone, Copy, Debug, PartialEq, Eq)]
pub enum Place {
    Leaf,
    Inner,
}

/// The number of cells and the height that follows from it.
#[derive(Clone, Copy, Debug, PartialEq, Eq)]
pub struct Size {
    pub cells: u64,
    pub height: u64,
}

impl Size {
    /// The page: "N has exactly one bit set"; the height is "the number of zero bits below that bit".
    pub fn of(cells: u64) -> Option<Size> {
        let allowed = (LEAST_CELLS..=MOST_CELLS).contains(&cells) && cells.count_ones() == 1;
        allowed.then(|| Size { cells, height: cells.trailing_zeros().into() })
    }

    pub fn leaf(self, cell: Cell) -> Node {
        Node(self.cells + cell.0)
    }

    pub fn is_inner(self, node: Node) -> bool {
        (Node::ROOT.0..self.cells).contains(&node.0)
    }

    pub fn place(self, node: Node) -> Place {
        if self.is_inner(node) { Place::Inner } else { Place::Leaf }
    }

    pub fn place_at_depth(self, depth: u64) -> Place {
        if depth < self.height { Place::Inner } else { Place::Leaf }
    }

    /// Whether a cell's leaf lies below an inner node.
    pub fn is_on_path(self, node: Node, cell: Cell) -> bool {
        (1..=self.height).any(|nodes_up| self.leaf(cell).0 >> nodes_up == node.0)
    }

    /// Open uses one version for each node.
    pub fn least_used(self) -> u64 {
        2 * self.cells - 1
    }

    /// An update makes at most one version at its leaf and one at each inner node above.
    pub fn most_made(self) -> u64 {
        1 + self.height
    }

    pub fn most_energy(self) -> u64 {
        self.cells * MOST_CELL_ENERGY
    }
}

/// Count and energy together, of a version or of what a query has passed.
#[derive(Clone, Copy, Debug, PartialEq, Eq)]
pub struct Sums {
    pub count: u64,
    pub energy: Energy,
}

impl Sums {
    pub const NOTHING: Sums = Sums { count: 0, energy: Energy(0) };
}

#[derive(Clone, Copy, Debug, PartialEq, Eq)]
pub struct Version {
    pub left: VersionNumber,
    pub right: VersionNumber,
    pub sums: Sums,
    pub level: Level,
}

impl Version {
    const NO_CHILD: VersionNumber = VersionNumber(0);

    pub fn unmarked() -> Version {
        Version { left: Version::NO_CHILD, right: Version::NO_CHILD, sums: Sums::NOTHING, level: Level(0) }
    }

    pub fn marked(level: Level, energy: Energy) -> Version {
        Version { sums: Sums { count: 1, energy }, level, ..Version::unmarked() }
    }

    pub fn inner(left: VersionNumber, right: VersionNumber, sums: Sums) -> Version {
        Version { left, right, sums, level: Level(0) }
    }

    pub fn is_marked(&self) -> bool {
        self.sums.count == 1
    }

    fn words(&self) -> [u64; VERSION_WORDS] {
        [self.left.0, self.right.0, self.sums.count, self.sums.energy.0, self.level.0]
    }
}

/// V: "version table length / 5, rounded down, or 1,000,000 if that is less".
pub fn versions_in(version_words: usize) -> u64 {
    MOST_VERSIONS.min((version_words / VERSION_WORDS) as u64)
}

/// The two tables as they are lent to a call, long enough for the size.
pub struct Tables<Row> {
    pub size: Size,
    nodes: Row,
    versions: Row,
}

/// Tables that may be written.
pub type LentTables<'a> = Tables<&'a mut [u64]>;

impl<Row: AsRef<[u64]>> Tables<Row> {
    /// Nothing where a table is too short for the size.
    pub fn of(size: Size, nodes: Row, versions: Row) -> Option<Tables<Row>> {
        let nodes_fit = nodes.as_ref().len() as u64 >= 2 * size.cells;
        let versions_fit = versions_in(versions.as_ref().len()) >= size.least_used();
        (nodes_fit && versions_fit).then_some(Tables { size, nodes, versions })
    }

    pub fn used(&self) -> u64 {
        self.nodes.as_ref()[0]
    }

    /// The page's V for these tables.
    pub fn most_used(&self) -> u64 {
        versions_in(self.versions.as_ref().len())
    }

    pub fn judge_used(&self) -> Result<(), Side> {
        if self.used() < self.size.least_used() {
            Err(Side::Below)
        } else if self.used() > self.most_used() {
            Err(Side::Above)
        } else {
            Ok(())
        }
    }

    pub fn current(&self, node: Node) -> VersionNumber {
        VersionNumber(self.nodes.as_ref()[node.0 as usize])
    }

    /// The version of a number, if it is sound at the place. The used count must have been judged before.
    pub fn sound_version(&self, number: VersionNumber, place: Place) -> Result<Version, Flaw> {
        match place {
            Place::Leaf => self.sound_leaf(number),
            Place::Inner => self.sound_inner(number),
        }
    }

    fn sound_leaf(&self, number: VersionNumber) -> Result<Version, Flaw> {
        let version = self.version(number).ok_or(Flaw::LeafNumber)?;
        let (sums, level) = (version.sums, version.level.0);
        let unmarked = sums.count == 0;
        version.without(&[
            (version.left != Version::NO_CHILD, Flaw::LeafLeft),
            (version.right != Version::NO_CHILD, Flaw::LeafRight),
            (sums.count > 1, Flaw::LeafCount),
            (unmarked && sums.energy.0 != 0, Flaw::LeafUnmarkedEnergy),
            (unmarked && level != 0, Flaw::LeafUnmarkedLevel),
            (sums.energy.0 > MOST_CELL_ENERGY, Flaw::LeafEnergy),
            (level > MOST_LEVEL, Flaw::LeafLevel),
        ])
    }

    fn sound_inner(&self, number: VersionNumber) -> Result<Version, Flaw> {
        let version = self.version(number).ok_or(Flaw::InnerNumber)?;
        version.without(&[
            (!self.is_used(version.left), Flaw::InnerLeft),
            (!self.is_used(version.right), Flaw::InnerRight),
            (version.sums.count > self.size.cells, Flaw::InnerCount),
            (version.sums.energy.0 > self.size.most_energy(), Flaw::InnerEnergy),
            (version.level != Level(0), Flaw::InnerLevel),
        ])
    }

    fn is_used(&self, number: VersionNumber) -> bool {
        (1..=self.used()).contains(&number.0)
    }

    fn version(&self, number: VersionNumber) -> Option<Version> {
        if !self.is_used(number) {
            return None;
        }
        let first = first_word(number);
        let words = &self.versions.as_ref()[first..first + VERSION_WORDS];
        Some(Version {
            left: VersionNumber(words[0]),
            right: VersionNumber(words[1]),
            sums: Sums { count: words[2], energy: Energy(words[3]) },
            level: Level(words[4]),
        })
    }
}

impl Version {
    /// This version, or the first of the flaws that it has.
    fn without(self, flaws: &[(bool, Flaw)]) -> Result<Version, Flaw> {
        match flaws.iter().find(|(found, _)| *found) {
            Some(&(_, flaw)) => Err(flaw),
            None => Ok(self),
        }
    }
}

impl LentTables<'_> {
    /// The page: "the new version is then number used + 1".
    pub fn swap(&mut self, node: Node, version: Version) {
        let number = VersionNumber(self.used() + 1);
        self.write_version(number, version);
        self.nodes[0] = number.0;
        self.nodes[node.0 as usize] = number.0;
    }

    /// The page: "Open fills versions 1 to 2N-1, version x for node x".
    pub fn fill(&mut self) {
        let last = self.size.least_used();
        self.nodes[0] = last;
        for number in 1..=last {
            let node = Node(number);
            let version = match self.size.place(node) {
                Place::Leaf => Version::unmarked(),
                Place::Inner => Version::inner(VersionNumber(node.left().0), VersionNumber(node.right().0), Sums::NOTHING),
            };
            self.write_version(VersionNumber(number), version);
            self.nodes[number as usize] = number;
        }
    }

    fn write_version(&mut self, number: VersionNumber, version: Version) {
        let first = first_word(number);
        self.versions[first..first + VERSION_WORDS].copy_from_slice(&version.words());
    }
}

/// Versions are "numbered from 1".
fn first_word(number: VersionNumber) -> usize {
    VERSION_WORDS * (number.0 as usize - 1)
}
