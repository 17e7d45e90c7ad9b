//! A queue under test: the calls of the plain implementation, and each word of the region.

use std::iter::successors;

use mound::{Answer, Refusal, Shape};
use plain::Machine;

use crate::fields::{
    place, CELL_RECORD, COPIES, COPY_RECORD, COUNTER_HIGH, COUNTER_LOW, DIRTY, FIRST_FREE_CELL,
    HEADING, KEY, NODE, NODE_RECORD, OWN_CELL, PERMISSION, PLACE, PRESENT_DEPTH, TAG, THREAD,
};
use crate::values::Value;

/// A key with a tag.
pub type Item = (u32, u32);

/// The beginning of an operation.
#[derive(Clone, Copy, Debug, PartialEq, Eq, Hash)]
pub enum Call {
    Put(Item),
    Take,
    List,
}

/// The shape of document 01's cases.
pub const SMALL: Shape = Shape { depth: 2, cells: 2, threads: 2, threshold: 1 };

/// A region that the plain implementation works on.
#[derive(Clone, PartialEq, Eq, Hash)]
pub struct Queue {
    pub bytes: Vec<u8>,
}

impl Queue {
    /// An empty queue.
    pub fn laid_out(shape: Shape, permissions: &[u8]) -> Queue {
        let mut bytes = vec![0; shape.byte_len().expect("a shape in range")];
        plain::layout(&mut bytes, shape, permissions).expect("the shape's length");
        Queue { bytes }
    }

    /// An empty queue whose threads may all put and take.
    pub fn open_to_all(shape: Shape) -> Queue {
        Queue::laid_out(shape, &vec![3; shape.threads as usize])
    }

    /// The same queue after thread 1 has put these items one by one, the choice one more each time.
    pub fn holding(mut self, items: &[Item]) -> Queue {
        for (choice, &(key, tag)) in (0..).zip(items) {
            assert_eq!(self.put(1, key, tag), Ok(()));
            let mut answers = (0..100).map(|_| self.turn(1, choice));
            assert!(answers.any(|answer| answer == Answer::Inserted), "never inserted");
        }
        self
    }

    /// A queue of depth 3 with lists of one cell, or none, of these values at nodes 1, 2 and 3,
    /// each list updated nine times; thread 1 stands at a place with cell 4 as its own and these
    /// fields.
    pub fn with_thread_at(place: u32, fields: &[(usize, u32)], values: [Value; 3]) -> Queue {
        let mut queue = Queue::open_to_all(Shape { depth: 3, cells: 4, threads: 2, threshold: 1 });
        queue.set_word(PRESENT_DEPTH, 3);
        queue.set_word(FIRST_FREE_CELL, 0);
        for (number, value) in (1..).zip(values) {
            if let Some((key, tag)) = value {
                queue.set_words(queue.node_at(number), [number, 0, 9, 0]);
                queue.set_words(queue.cell_at(number), [key, tag, 0]);
            }
        }
        for &(field, value) in [(PLACE, place), (OWN_CELL, 4)].iter().chain(fields) {
            queue.set_field(1, field, value);
        }
        queue
    }

    /// Such a queue, the thread in a put of this item.
    pub fn with_put_at(
        place: u32,
        (key, tag): Item,
        fields: &[(usize, u32)],
        values: [Value; 3],
    ) -> Queue {
        let fields = [&[(KEY, key), (TAG, tag)], fields].concat();
        Queue::with_thread_at(place, &fields, values)
    }

    /// Such a queue, the thread mending the root: at M4, with copies of all three nodes.
    pub fn with_mending_at_m4(values: [Value; 3]) -> Queue {
        let mut queue = Queue::with_thread_at(place::M5, &[(NODE, 1)], values);
        queue.match_copies(1);
        queue.set_field(1, PLACE, place::M4);
        queue
    }

    /// The queue to make calls on, checked once.
    pub fn machine(&mut self) -> Machine<'_> {
        Machine::open(&mut self.bytes).expect("a readable region")
    }

    pub fn put(&mut self, thread: u32, key: u32, tag: u32) -> Result<(), Refusal> {
        plain::put(&mut self.bytes, thread, key, tag)
    }

    pub fn take(&mut self, thread: u32) -> Result<(), Refusal> {
        plain::take(&mut self.bytes, thread)
    }

    pub fn list(&mut self, thread: u32) -> Result<(), Refusal> {
        plain::list(&mut self.bytes, thread)
    }

    pub fn permit(&mut self, thread: u32, permission: u32) -> Result<(), Refusal> {
        plain::permit(&mut self.bytes, thread, permission)
    }

    pub fn begin(&mut self, thread: u32, call: Call) -> Result<(), Refusal> {
        match call {
            Call::Put((key, tag)) => self.put(thread, key, tag),
            Call::Take => self.take(thread),
            Call::List => self.list(thread),
        }
    }

    pub fn turn(&mut self, thread: u32, choice: u32) -> Answer {
        plain::turn(&mut self.bytes, thread, choice)
    }

    /// Serves a turn of thread 1, which moves on, and gives these fields of it.
    pub fn moved<const N: usize>(mut self, fields: [usize; N]) -> [u32; N] {
        assert_eq!(self.turn(1, 0), Answer::Moved);
        fields.map(|field| self.field(1, field))
    }

    /// Serves a turn of each of these threads, one after the other, with choice 0.
    pub fn turns(&mut self, threads: &[u32]) -> Vec<Answer> {
        threads.iter().map(|&thread| self.turn(thread, 0)).collect()
    }

    pub fn shape(&self) -> Shape {
        let [depth, cells, threads, threshold] = [0, 1, 2, 3].map(|at| self.word(at));
        Shape { depth, cells, threads, threshold }
    }

    pub fn word(&self, at: usize) -> u32 {
        let word = self.bytes[4 * at..].first_chunk().expect("the word is in the region");
        u32::from_le_bytes(*word)
    }

    pub fn set_word(&mut self, at: usize, value: u32) {
        self.bytes[4 * at..4 * at + 4].copy_from_slice(&value.to_le_bytes());
    }

    pub fn set_words<const N: usize>(&mut self, at: usize, values: [u32; N]) {
        for (at, value) in (at..).zip(values) {
            self.set_word(at, value);
        }
    }

    /// Where the record of a node starts.
    pub fn node_at(&self, node: u32) -> usize {
        HEADING + NODE_RECORD * (node as usize - 1)
    }

    /// Where the record of a cell starts.
    pub fn cell_at(&self, cell: u32) -> usize {
        self.node_at(1 << self.word(0)) + CELL_RECORD * (cell as usize - 1)
    }

    /// Where the record of a thread starts.
    pub fn thread_at(&self, thread: u32) -> usize {
        self.cell_at(self.word(1) + 1) + THREAD * (thread as usize - 1)
    }

    pub fn node(&self, node: u32) -> [u32; NODE_RECORD] {
        self.words(self.node_at(node))
    }

    /// The counter of a node.
    pub fn counter(&self, node: u32) -> u64 {
        let node = self.node(node);
        u64::from(node[COUNTER_HIGH]) << 32 | u64::from(node[COUNTER_LOW])
    }

    /// Sets the counter of the node, or of the node copy, that starts at this word.
    #[allow(clippy::cast_possible_truncation, reason = "a counter is cut into its words")]
    pub fn set_counter(&mut self, at: usize, counter: u64) {
        self.set_words(at + COUNTER_LOW, [counter as u32, (counter >> 32) as u32]);
    }

    pub fn cell(&self, cell: u32) -> [u32; CELL_RECORD] {
        self.words(self.cell_at(cell))
    }

    /// The bytes of a thread's record.
    pub fn record(&self, thread: u32) -> &[u8] {
        &self.bytes[4 * self.thread_at(thread)..][..4 * THREAD]
    }

    pub fn field(&self, thread: u32, field: usize) -> u32 {
        self.word(self.thread_at(thread) + field)
    }

    pub fn set_field(&mut self, thread: u32, field: usize, value: u32) {
        self.set_word(self.thread_at(thread) + field, value);
    }

    /// The copies that the update at the thread's place compares, each as the word at which it
    /// starts, with its node. Of M5's children both are given, though it changes one.
    pub fn compared(&self, thread: u32) -> Vec<(usize, u32)> {
        let node = self.field(thread, NODE);
        let nodes = match self.place(thread) {
            place::I6 | place::E2 | place::P18 => vec![1],
            place::I8 => vec![node, node / 2],
            place::M5 => vec![node, 2 * node, 2 * node + 1],
            place::M6 => vec![node],
            _ => vec![],
        };
        let copies = COPIES.iter().map(|copy| self.thread_at(thread) + copy);
        let in_the_tree = |&(_, node): &(usize, u32)| (1..1 << self.word(0)).contains(&node);
        copies.zip(nodes).filter(in_the_tree).collect()
    }

    /// Makes those copies equal to their nodes, and the copied heads to the nodes' heads.
    pub fn match_copies(&mut self, thread: u32) {
        for (copy, node) in self.compared(thread) {
            for (at, word) in (copy..).zip(self.read(node)) {
                self.set_word(at, word);
            }
        }
    }

    /// What a READ copies of a node: its words, then those of its head cell, all 0 for an empty
    /// list.
    pub fn read(&self, node: u32) -> [u32; COPY_RECORD] {
        let [first_cell, dirty, low, high] = self.node(node);
        let [key, tag, next] = if first_cell == 0 { [0; 3] } else { self.cell(first_cell) };
        [first_cell, dirty, low, high, key, tag, next]
    }

    /// One of a thread's node copies, the first as 0.
    pub fn copy(&self, thread: u32, copy: usize) -> [u32; COPY_RECORD] {
        self.words(self.thread_at(thread) + COPIES[copy])
    }

    pub fn place(&self, thread: u32) -> u32 {
        self.field(thread, PLACE)
    }

    /// The item of a node's head cell.
    pub fn value_of(&self, node: u32) -> Value {
        let [first_cell, ..] = self.node(node);
        (first_cell != 0).then(|| self.item(first_cell))
    }

    /// Whether the tree has its greatest depth.
    pub fn is_of_greatest_depth(&self) -> bool {
        self.word(PRESENT_DEPTH) == self.shape().depth
    }

    /// The cells from one by next cells to 0, at most as many as there are cells.
    fn chain_from(&self, first_cell: u32) -> impl Iterator<Item = u32> + '_ {
        let existing = |cell: u32| (cell != 0).then_some(cell);
        let cells = successors(existing(first_cell), move |&cell| existing(self.cell(cell)[2]));
        cells.take(self.shape().cells as usize)
    }

    /// The cells of a node's list.
    pub fn list_of(&self, node: u32) -> impl Iterator<Item = u32> + '_ {
        let [first_cell, ..] = self.node(node);
        self.chain_from(first_cell)
    }

    /// The cells from a thread's own cell on: that of a put, or those in a list's hand.
    pub fn held_by(&self, thread: u32) -> impl Iterator<Item = u32> + '_ {
        self.chain_from(self.field(thread, OWN_CELL))
    }

    /// The cells in the lists of all nodes.
    pub fn tree(&self) -> impl Iterator<Item = u32> + '_ {
        (1..1 << self.shape().depth).flat_map(|node| self.list_of(node))
    }

    /// The free cells.
    pub fn free(&self) -> impl Iterator<Item = u32> + '_ {
        self.chain_from(self.word(FIRST_FREE_CELL))
    }

    /// The items in the lists of all nodes, in order.
    pub fn items(&self) -> Vec<Item> {
        let mut items: Vec<Item> = self.tree().map(|cell| self.item(cell)).collect();
        items.sort_unstable();
        items
    }

    pub fn dirty_nodes(&self) -> impl Iterator<Item = u32> + '_ {
        (1..1 << self.shape().depth).filter(|&node| self.node(node)[DIRTY] == 1)
    }

    pub fn all_clean(&self) -> bool {
        self.dirty_nodes().next().is_none()
    }

    /// Whether the thread stands at one of the places that need this permission, request 5: I1 to
    /// I8 put; E1, E2, 17 and 18 take.
    pub fn needs(&self, thread: u32, permission: u32) -> bool {
        match self.place(thread) {
            place::I1..=place::I8 => permission == 1,
            place::E1 | place::E2 | place::P17 | place::P18 => permission == 2,
            _ => false,
        }
    }

    /// Whether it lacks the permission that it needs there.
    pub fn lacks_permission(&self, thread: u32) -> bool {
        let permission = self.field(thread, PERMISSION);
        [1, 2].into_iter().any(|needed| self.needs(thread, needed) && permission & needed == 0)
    }

    /// The queue after a withdrawn turn of the thread, word by word: a put's own cell is wiped and
    /// comes first of the free ones, and of the record the permission alone is left. None where a
    /// put has no own cell.
    pub fn withdrawn(&self, thread: u32) -> Option<Queue> {
        let mut queue = self.clone();
        if self.needs(thread, 1) {
            let own_cell = self.field(thread, OWN_CELL);
            if own_cell == 0 {
                return None;
            }
            queue.set_words(self.cell_at(own_cell), [0, 0, self.word(FIRST_FREE_CELL)]);
            queue.set_word(FIRST_FREE_CELL, own_cell);
        }
        queue.go_idle(thread);
        Some(queue)
    }

    /// Zeroes the thread's record but for the permission.
    pub fn go_idle(&mut self, thread: u32) {
        (PERMISSION + 1..THREAD).for_each(|field| self.set_field(thread, field, 0));
    }

    /// The threads that may begin a take: idle, and with the permission.
    pub fn may_take(&self) -> impl Iterator<Item = u32> + '_ {
        self.idle().filter(|&thread| self.field(thread, PERMISSION) & 2 != 0)
    }

    /// The threads that may begin a put: idle, and with the permission, while a cell is free.
    pub fn may_put(&self) -> impl Iterator<Item = u32> + '_ {
        let a_cell_is_free = self.word(FIRST_FREE_CELL) != 0;
        self.idle().filter(move |&thread| a_cell_is_free && self.field(thread, PERMISSION) & 1 != 0)
    }

    /// The idle threads with an empty permission list.
    pub fn idle_without_list(&self) -> impl Iterator<Item = u32> + '_ {
        self.idle().filter(|&thread| self.field(thread, PERMISSION) == 0)
    }

    fn idle(&self) -> impl Iterator<Item = u32> + '_ {
        (1..=self.shape().threads).filter(|&thread| self.place(thread) == place::IDLE)
    }

    /// The figure of a take begun now.
    pub fn take_cost(&self) -> u32 {
        plain::take_cost(&mut self.bytes.clone()).expect("a readable region")
    }

    /// The accesses of a take by that thread while no other moves.
    pub fn accesses_of_a_take_alone(&self, thread: u32) -> u32 {
        let mut queue = self.clone();
        let mut machine = queue.machine();
        assert_eq!(machine.take(thread), Ok(()));
        for accesses in 1..=100 {
            match machine.turn(thread, 0) {
                Answer::Moved => {}
                Answer::Took { .. } | Answer::Empty => return accesses,
                other => panic!("a take was answered {other:?}"),
            }
        }
        panic!("a take has no end");
    }

    pub fn item(&self, cell: u32) -> Item {
        let [key, tag, _] = self.cell(cell);
        (key, tag)
    }

    fn words<const N: usize>(&self, at: usize) -> [u32; N] {
        std::array::from_fn(|word| self.word(at + word))
    }
}
