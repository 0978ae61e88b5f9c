//! Sets of nodes.

use crate::table::NODE_LIMIT;
use std::fmt;
use std::iter::from_fn;

const WORD_BITS: usize = 64;

/// A set of node ids: a bit for each id that a table can have.
#[derive(Clone, Copy, Default, PartialEq, Eq, PartialOrd, Ord, Hash)]
pub struct NodeSet {
    words: [u64; NODE_LIMIT / WORD_BITS],
}

impl NodeSet {
    /// The set of one node.
    pub fn only(node: usize) -> NodeSet {
        NodeSet::from_iter([node])
    }

    /// Puts a node in, and says whether it is new.
    pub fn insert(&mut self, node: usize) -> bool {
        let is_new = !self.contains(node);
        self.words[node / WORD_BITS] |= 1 << (node % WORD_BITS);
        is_new
    }

    pub fn contains(self, node: usize) -> bool {
        self.words[node / WORD_BITS] >> (node % WORD_BITS) & 1 == 1
    }

    pub fn len(self) -> usize {
        self.words.iter().map(|word| word.count_ones() as usize).sum()
    }

    pub fn is_empty(self) -> bool {
        self.words.iter().all(|&word| word == 0)
    }

    /// The nodes of either set.
    pub fn union(mut self, other: NodeSet) -> NodeSet {
        for (word, more) in self.words.iter_mut().zip(other.words) {
            *word |= more;
        }
        self
    }

    /// The nodes of this set that are not in the other.
    pub fn without(mut self, other: NodeSet) -> NodeSet {
        for (word, less) in self.words.iter_mut().zip(other.words) {
            *word &= !less;
        }
        self
    }

    pub fn is_within(self, other: NodeSet) -> bool {
        self.without(other).is_empty()
    }

    /// Whether the two sets have a node in common.
    pub fn meets(self, other: NodeSet) -> bool {
        self.words.iter().zip(other.words).any(|(word, other_word)| word & other_word != 0)
    }

    /// The nodes, ids rising.
    pub fn rising(self) -> impl Iterator<Item = usize> {
        let mut left = self;
        from_fn(move || left.take_lowest())
    }

    /// The nodes as a list, ids rising.
    pub fn list(self) -> Vec<usize> {
        self.rising().collect()
    }

    fn take_lowest(&mut self) -> Option<usize> {
        let at = self.words.iter().position(|&word| word != 0)?;
        let bit = self.words[at].trailing_zeros() as usize;
        self.words[at] &= self.words[at] - 1;
        Some(at * WORD_BITS + bit)
    }
}

impl FromIterator<usize> for NodeSet {
    fn from_iter<Nodes: IntoIterator<Item = usize>>(nodes: Nodes) -> NodeSet {
        let mut set = NodeSet::default();
        for node in nodes {
            set.insert(node);
        }
        set
    }
}

/// The set of a list's nodes.
impl From<&[usize]> for NodeSet {
    fn from(nodes: &[usize]) -> NodeSet {
        nodes.iter().copied().collect()
    }
}

impl fmt::Debug for NodeSet {
    fn fmt(&self, formatter: &mut fmt::Formatter) -> fmt::Result {
        formatter.debug_set().entries(self.rising()).finish()
    }
}

#[cfg(test)]
mod tests {
    use super::*;

    fn set(nodes: &[usize]) -> NodeSet {
        NodeSet::from(nodes)
    }

    #[test]
    fn lists_rise_across_words() {
        let nodes = set(&[191, 63, 0, 64, 128, 63]);
        assert_eq!(nodes.list(), [0, 63, 64, 128, 191]);
        assert_eq!(nodes.len(), 5);
        assert_eq!(format!("{nodes:?}"), "{0, 63, 64, 128, 191}");
    }

    #[test]
    fn two_sets() {
        let (left, right) = (set(&[1, 70]), set(&[70, 150]));
        assert_eq!(left.union(right), set(&[1, 70, 150]));
        assert_eq!(left.without(right), NodeSet::only(1));
        assert!(left.meets(right) && !left.meets(set(&[2])));
        assert!(left.is_within(set(&[0, 1, 70])) && !left.is_within(right));
        assert!(NodeSet::default().is_within(left) && NodeSet::default().is_empty());
    }

    #[test]
    fn a_node_is_new_once() {
        let mut nodes = NodeSet::default();
        assert!(nodes.insert(100));
        assert!(!nodes.insert(100));
    }
}
