//! The memory that threads share: present depth, nodes, cells. Its accesses are those of Listing 1:
//! READ, CAS, DCAS and DCSS, each one access here.

use mound::Refusal;

use crate::counter::Counter;
use crate::fields::{cell, heading, node};
use crate::parts::{CellWords, Heading};
use crate::value::Value;
use crate::words::{Block, Word};

/// A node of the tree: its list's first cell (0 for none), its dirty bit, its counter.
#[derive(Clone, Copy, PartialEq, Eq)]
pub(crate) struct Node<C> {
    pub first_cell: u32,
    pub dirty: bool,
    pub counter: C,
}

impl<C: Counter> Node<C> {
    pub fn from_words(words: &[Word]) -> Node<C> {
        Node {
            first_cell: u32::from_le_bytes(words[node::FIRST_CELL]),
            dirty: u32::from_le_bytes(words[node::DIRTY]) != 0,
            counter: C::from_words(&words[node::COUNTER..]),
        }
    }

    pub fn write_to(self, words: &mut [Word]) {
        words[node::FIRST_CELL] = self.first_cell.to_le_bytes();
        words[node::DIRTY] = u32::from(self.dirty).to_le_bytes();
        self.counter.write_to(&mut words[node::COUNTER..]);
    }
}

/// A cell of a list: an item, and the next cell (0 at the end).
#[derive(Clone, Copy, Default)]
pub(crate) struct Cell {
    pub key: u32,
    pub tag: u32,
    pub next: u32,
}

impl Cell {
    pub fn from_words(words: CellWords) -> Cell {
        let [key, tag, next] = words.map(u32::from_le_bytes);
        Cell { key, tag, next }
    }

    pub fn to_words(self) -> CellWords {
        [self.key, self.tag, self.next].map(u32::to_le_bytes)
    }

    /// The value of a list that starts with this cell.
    pub fn val(self) -> Value {
        Value::Item { key: self.key, tag: self.tag }
    }
}

/// What READ copies of a node: the node and its head cell, which is all 0 for an empty list.
#[derive(Clone, Copy)]
pub(crate) struct NodeCopy<C> {
    pub node: Node<C>,
    pub head: Cell,
}

impl<C: Counter> NodeCopy<C> {
    pub fn from_words(words: &C::CopyWords) -> NodeCopy<C> {
        let (node, head) = words.as_ref().split_at(C::NodeWords::WORDS);
        let head = head.first_chunk().expect("a cell stands behind the node");
        NodeCopy { node: Node::from_words(node), head: Cell::from_words(*head) }
    }

    pub fn write_to(self, words: &mut C::CopyWords) {
        let (node, head) = words.as_mut().split_at_mut(C::NodeWords::WORDS);
        self.node.write_to(node);
        head.copy_from_slice(&self.head.to_words());
    }

    /// val, line 1: the head's item, and above every item for an empty list.
    pub fn val(self) -> Value {
        if self.node.first_cell == 0 {
            Value::Empty
        } else {
            self.head.val()
        }
    }
}

/// An update of one node: what it must equal, and what it gets.
pub(crate) struct Update<C> {
    pub at: u32,
    pub old: Node<C>,
    pub first_cell: u32,
    pub dirty: bool,
}

impl<C: Counter> Update<C> {
    /// The node afterwards, its counter one more. Refused if the counter cannot grow.
    fn updated(&self) -> Result<Node<C>, Refusal> {
        let counter = self.old.counter.next().ok_or(Refusal::CounterSpent)?;
        Ok(Node { first_cell: self.first_cell, dirty: self.dirty, counter })
    }
}

/// The shared part of a readable region. An access that names a node that does not exist is
/// refused, whether its comparisons hold or not.
pub(crate) struct Memory<'a, C: Counter> {
    pub heading: &'a mut Heading,
    pub nodes: &'a mut [C::NodeWords],
    pub cells: &'a mut [CellWords],
}

impl<C: Counter> Memory<'_, C> {
    /// READ of the present depth.
    pub fn read_depth(&self) -> u32 {
        u32::from_le_bytes(self.heading[heading::PRESENT_DEPTH])
    }

    /// READ of a node, with its head cell.
    pub fn read(&self, at: u32) -> Result<NodeCopy<C>, Refusal> {
        let node = self.node(at)?;
        let head = match node.first_cell {
            0 => Cell::default(),
            first_cell => self.cell(first_cell),
        };
        Ok(NodeCopy { node, head })
    }

    /// CAS of the present depth, which has no counter.
    pub fn cas_depth(&mut self, old: u32, new: u32) {
        if self.read_depth() == old {
            self.heading[heading::PRESENT_DEPTH] = new.to_le_bytes();
        }
    }

    /// CAS of a node; answers whether the comparison held.
    pub fn cas(&mut self, update: &Update<C>) -> Result<bool, Refusal> {
        let holds = self.equals(update.at, update.old)?;
        if holds {
            self.set_node(update.at, update.updated()?);
        }
        Ok(holds)
    }

    /// DCSS: the update of a node if another node, too, equals its copy.
    pub fn dcss(
        &mut self,
        update: &Update<C>,
        other: u32,
        copied: Node<C>,
    ) -> Result<bool, Refusal> {
        let holds = self.equals(update.at, update.old)? & self.equals(other, copied)?;
        if holds {
            self.set_node(update.at, update.updated()?);
        }
        Ok(holds)
    }

    /// DCAS: both updates or neither.
    pub fn dcas(&mut self, one: &Update<C>, other: &Update<C>) -> Result<bool, Refusal> {
        let holds = self.equals(one.at, one.old)? & self.equals(other.at, other.old)?;
        if holds {
            let both_updated = (one.updated()?, other.updated()?);
            self.set_node(one.at, both_updated.0);
            self.set_node(other.at, both_updated.1);
        }
        Ok(holds)
    }

    /// Stores an item in the first free cell and gives the cell, if one is free.
    pub fn take_free_cell(&mut self, key: u32, tag: u32) -> Option<u32> {
        let first = u32::from_le_bytes(self.heading[heading::FIRST_FREE_CELL]);
        if first == 0 {
            return None;
        }
        self.heading[heading::FIRST_FREE_CELL] = self.cells[first as usize - 1][cell::NEXT];
        self.cells[first as usize - 1] = Cell { key, tag, next: 0 }.to_words();
        Some(first)
    }

    /// Frees a cell: it is wiped and goes to the front of the free chain.
    pub fn free_cell(&mut self, freed: u32) {
        let first = &mut self.heading[heading::FIRST_FREE_CELL];
        let next = u32::from_le_bytes(*first);
        self.cells[freed as usize - 1] = Cell { key: 0, tag: 0, next }.to_words();
        *first = freed.to_le_bytes();
    }

    /// Links a cell to its next one; the item stays.
    pub fn link(&mut self, cell: u32, next: u32) {
        self.cells[cell as usize - 1][cell::NEXT] = next.to_le_bytes();
    }

    fn node(&self, at: u32) -> Result<Node<C>, Refusal> {
        let words = self.nodes.get((at as usize).wrapping_sub(1)).ok_or(Refusal::Unreadable)?;
        Ok(Node::from_words(words.as_ref()))
    }

    /// Whether a node equals its copy: cell, dirty and counter together.
    pub fn equals(&self, at: u32, copied: Node<C>) -> Result<bool, Refusal> {
        Ok(self.node(at)? == copied)
    }

    fn set_node(&mut self, at: u32, node: Node<C>) {
        node.write_to(self.nodes[at as usize - 1].as_mut());
    }

    pub fn cell(&self, cell: u32) -> Cell {
        Cell::from_words(self.cells[cell as usize - 1])
    }
}
