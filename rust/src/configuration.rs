//! What was resolved: members and read edges as bits of positions.

/// The words of a configuration.
pub const WORDS: usize = 4_616;

/// Positions in a set.
const POSITIONS: usize = 512;

/// The words of a row, a bit for each position.
pub(crate) const ROW: usize = 8;

fn bit(row: &[u64], position: usize) -> bool {
    position < POSITIONS && row[position / 64] >> (position % 64) & 1 == 1
}

fn count(row: &[u64]) -> usize {
    row.iter().map(|w| w.count_ones() as usize).sum()
}

/// The members, whom each of them reads, and who reads the unnamed module. A module is told by its position in the set; a
/// position past 511 is in no configuration. What was resolved has no bit at the position of a hidden module, and calls that take
/// a configuration ignore such bits.
///
/// It holds its words outside the stack. Calls that take one also take words that a host lends: anything that is a slice of them
/// (`AsRef<[u64]>`), of which they look at the first 4,616.
#[derive(Clone, Debug, PartialEq, Eq)]
pub struct Configuration {
    words: Box<[u64; WORDS]>,
}

impl Configuration {
    /// The configuration of these words: 8 of members, then for each of 512 positions 8 of read edges and one whose lowest bit
    /// tells whether it reads ALL-UNNAMED. Any words are a configuration.
    pub fn from_words(words: Box<[u64; WORDS]>) -> Self {
        Configuration { words }
    }

    /// The words.
    pub fn words(&self) -> &[u64; WORDS] {
        &self.words
    }

    /// The nine words of a position, if there is one.
    fn own(&self, position: usize) -> Option<&[u64]> {
        (position < POSITIONS).then(|| &self.words[ROW + (ROW + 1) * position..][..ROW + 1])
    }

    /// Whether the module at this position is a member.
    pub fn contains(&self, position: usize) -> bool {
        bit(&self.words[..ROW], position)
    }

    /// Whether there is a read edge from one position to another.
    pub fn reads(&self, from: usize, to: usize) -> bool {
        self.own(from).is_some_and(|own| bit(&own[..ROW], to))
    }

    /// Whether the module at this position reads ALL-UNNAMED.
    pub fn reads_unnamed(&self, from: usize) -> bool {
        self.own(from).is_some_and(|own| own[ROW] & 1 == 1)
    }

    /// The positions of the members, in order.
    pub fn members(&self) -> impl Iterator<Item = usize> + '_ {
        (0..POSITIONS).filter(|&i| self.contains(i))
    }

    /// The number of members.
    pub fn len(&self) -> usize {
        count(&self.words[..ROW])
    }

    /// Whether there is no member.
    pub fn is_empty(&self) -> bool {
        self.len() == 0
    }
}

impl AsRef<[u64]> for Configuration {
    fn as_ref(&self) -> &[u64] {
        &self.words[..]
    }
}

/// A set of positions, and whether ALL-UNNAMED is with them.
#[derive(Clone, Copy, Debug, Default, PartialEq, Eq)]
pub struct Row {
    pub(crate) words: [u64; ROW],
    pub(crate) unnamed: bool,
}

impl Row {
    /// Whether the position is among them.
    pub fn contains(&self, position: usize) -> bool {
        bit(&self.words, position)
    }

    /// Whether ALL-UNNAMED is among them.
    pub fn contains_unnamed(&self) -> bool {
        self.unnamed
    }

    /// The positions, in order.
    pub fn positions(&self) -> impl Iterator<Item = usize> + '_ {
        (0..POSITIONS).filter(|&i| self.contains(i))
    }

    /// The number of positions, without ALL-UNNAMED.
    pub fn len(&self) -> usize {
        count(&self.words)
    }

    /// Whether there is no position; ALL-UNNAMED does not count.
    pub fn is_empty(&self) -> bool {
        self.len() == 0
    }
}
