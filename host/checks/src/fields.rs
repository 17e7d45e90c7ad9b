//! What each word of a region holds, as a table, and regions made from it word by word.

use mound::Shape;

use crate::random::Random;

/// Words before the first node, and the last two of them.
pub const HEADING: usize = 6;
pub const PRESENT_DEPTH: usize = 4;
pub const FIRST_FREE_CELL: usize = 5;
/// Words of a node, of a cell, of a node copy and of a thread's record.
pub const NODE_RECORD: usize = Form::PRESENT.node();
pub const CELL_RECORD: usize = 3;
pub const COPY_RECORD: usize = Form::PRESENT.copy();
pub const THREAD: usize = Form::PRESENT.thread();

/// The words of a node, or of a node copy, behind its first cell.
pub const DIRTY: usize = 1;
pub const COUNTER_LOW: usize = 2;
pub const COUNTER_HIGH: usize = 3;

/// The words of a thread's record up to its three node copies.
pub const PERMISSION: usize = 0;
pub const PLACE: usize = 1;
pub const KEY: usize = 2;
pub const TAG: usize = 3;
pub const OWN_CELL: usize = 4;
pub const D: usize = 5;
pub const LEAF: usize = 6;
pub const TRIES: usize = 7;
pub const LO: usize = 8;
pub const HI: usize = 9;
pub const NODE: usize = 10;
pub const WAITING: usize = 11;
pub const AFTER: usize = 12;
pub const RESULT_KEY: usize = 13;
pub const RESULT_TAG: usize = 14;

/// Where the three node copies start in a thread's record; each has the words of a node, then those
/// of its head cell.
pub const COPIES: [usize; 3] = [15, 22, 29];

/// A form of regions, by the words of a counter; these decide the other sizes.
#[derive(Clone, Copy, Debug, PartialEq)]
pub struct Form {
    counter: usize,
}

impl Form {
    /// Counters of 64 bits, low word first, request 7.
    pub const PRESENT: Form = Form { counter: 2 };
    /// Counters of 32 bits.
    pub const OLD: Form = Form { counter: 1 };

    const fn node(self) -> usize {
        2 + self.counter
    }

    const fn copy(self) -> usize {
        self.node() + CELL_RECORD
    }

    const fn thread(self) -> usize {
        THREAD_FIELDS.len() + 3 * self.copy()
    }

    /// The words of a region of this shape, which is in range.
    pub fn word_count(self, shape: Shape) -> usize {
        HEADING
            + self.node() * ((1 << shape.depth) - 1)
            + CELL_RECORD * shape.cells as usize
            + self.thread() * shape.threads as usize
    }
}

/// The places' numbers.
pub mod place {
    pub const IDLE: u32 = 0;
    pub const I1: u32 = 1;
    pub const I2: u32 = 2;
    pub const I3: u32 = 3;
    pub const I4: u32 = 4;
    pub const I5: u32 = 5;
    pub const I6: u32 = 6;
    pub const I7: u32 = 7;
    pub const I8: u32 = 8;
    pub const E1: u32 = 9;
    pub const E2: u32 = 10;
    pub const M1: u32 = 11;
    pub const M2: u32 = 12;
    pub const M3: u32 = 13;
    pub const M4: u32 = 14;
    pub const M5: u32 = 15;
    pub const M6: u32 = 16;
    pub const P17: u32 = 17;
    pub const P18: u32 = 18;
    pub const P19: u32 = 19;
    pub const GREATEST: u32 = P19;
}

/// What a word holds, and by that its range.
#[derive(Clone, Copy, Debug, PartialEq)]
pub enum Field {
    Depth,
    Cell,
    Dirty,
    CounterLow,
    CounterHigh,
    Key,
    Tag,
    Permission,
    Place,
    Level,
    Node,
    Tries,
    Waiting,
    After,
}

/// In the old form the last one is missing.
const NODE_FIELDS: [Field; NODE_RECORD] =
    [Field::Cell, Field::Dirty, Field::CounterLow, Field::CounterHigh];
const CELL_FIELDS: [Field; CELL_RECORD] = [Field::Key, Field::Tag, Field::Cell];
const THREAD_FIELDS: [Field; 15] = [
    Field::Permission,
    Field::Place,
    Field::Key,
    Field::Tag,
    Field::Cell,
    Field::Level,
    Field::Node,
    Field::Tries,
    Field::Level,
    Field::Level,
    Field::Node,
    Field::Waiting,
    Field::After,
    Field::Key,
    Field::Tag,
];

/// A region as words: six of the heading, then nodes, cells and threads.
#[derive(Clone)]
pub struct Words {
    pub words: Vec<u32>,
    form: Form,
}

impl Words {
    /// The words of an empty queue whose threads may do nothing.
    pub fn laid_out(shape: Shape) -> Words {
        Words::laid_out_in(Form::PRESENT, shape)
    }

    /// The same in a region of this form.
    pub fn laid_out_in(form: Form, shape: Shape) -> Words {
        let mut words = vec![0; form.word_count(shape)];
        let first_words = [shape.depth, shape.cells, shape.threads, shape.threshold, 1, 1];
        words[..HEADING].copy_from_slice(&first_words);
        let mut region = Words { words, form };
        for cell in 1..shape.cells {
            let next = region.cell(cell) + 2;
            region.words[next] = cell + 1;
        }
        region
    }

    /// A readable region, each field anywhere in its range, the ends of the range frequent; so that
    /// those of both words of a counter are, half of the high words equal the low ones. Half of the
    /// regions have but two keys, so that items of one key meet; one of the two is 4,294,967,295,
    /// which no item of a laid-out region has.
    pub fn any_readable(random: &mut Random, shape: Shape) -> Words {
        Words::any_readable_in(Form::PRESENT, random, shape)
    }

    /// The same in a region of this form.
    pub fn any_readable_in(form: Form, random: &mut Random, shape: Shape) -> Words {
        let mut region = Words::laid_out_in(form, shape);
        let has_few_keys = random.among(0..=1) == 0;
        let few_keys = [u32::MAX, random.among_or_extreme(0..=u32::MAX)];
        // Place and node stand before the fields whose ranges depend on them.
        for at in 4..region.words.len() {
            region.words[at] = match region.field(at) {
                Field::Key if has_few_keys => random.one_of(&few_keys),
                Field::CounterHigh if random.among(0..=1) == 0 => region.words[at - 1],
                _ => random.among_or_extreme(region.least(at)..=region.greatest(at)),
            };
        }
        region
    }

    /// The words of a region's bytes.
    pub fn of(bytes: &[u8]) -> Words {
        Words::of_form(Form::PRESENT, bytes)
    }

    /// The same of a region of this form.
    pub fn of_form(form: Form, bytes: &[u8]) -> Words {
        let (words, _) = bytes.as_chunks();
        Words { words: words.iter().map(|&word| u32::from_le_bytes(word)).collect(), form }
    }

    pub fn bytes(&self) -> Vec<u8> {
        self.words.iter().flat_map(|word| word.to_le_bytes()).collect()
    }

    /// The same region with one word set.
    pub fn with(&self, at: usize, value: u32) -> Words {
        let mut changed = self.clone();
        changed.words[at] = value;
        changed
    }

    /// The shape that the first words name.
    pub fn shape(&self) -> Shape {
        let [depth, cells, threads, threshold] = *self.words.first_chunk().unwrap();
        Shape { depth, cells, threads, threshold }
    }

    /// Whether the length is the shape's and every field is in its range.
    pub fn is_readable(&self) -> bool {
        let shape = self.shape();
        shape.is_in_range()
            && self.form.word_count(shape) == self.words.len()
            && (4..self.words.len())
                .all(|at| (self.least(at)..=self.greatest(at)).contains(&self.words[at]))
    }

    /// Whether a word after the shape has a range: counters and keys are free.
    pub fn has_range(&self, at: usize) -> bool {
        !matches!(self.field(at), Field::CounterLow | Field::CounterHigh | Field::Key)
    }

    /// What the word holds, for any word after the shape.
    pub fn field(&self, at: usize) -> Field {
        if at < HEADING {
            [Field::Depth, Field::Cell][at - 4]
        } else if at < self.cell(1) {
            NODE_FIELDS[(at - HEADING) % self.form.node()]
        } else if at < self.thread(1) {
            CELL_FIELDS[(at - self.cell(1)) % CELL_RECORD]
        } else {
            let word = (at - self.thread(1)) % self.form.thread();
            match word.checked_sub(THREAD_FIELDS.len()) {
                None => THREAD_FIELDS[word],
                Some(of_copies) => self.copy_field(of_copies % self.form.copy()),
            }
        }
    }

    /// What a word of a node copy holds: the node's words come first, then those of its head cell.
    fn copy_field(&self, word: usize) -> Field {
        match word.checked_sub(self.form.node()) {
            None => NODE_FIELDS[word],
            Some(of_head) => CELL_FIELDS[of_head],
        }
    }

    /// The least value of a word.
    pub fn least(&self, at: usize) -> u32 {
        u32::from(self.field(at) == Field::Depth)
    }

    /// The greatest value of a word beside the others as they are.
    pub fn greatest(&self, at: usize) -> u32 {
        let shape = self.shape();
        match self.field(at) {
            Field::CounterLow | Field::CounterHigh | Field::Key => u32::MAX,
            Field::Tag => 65_535,
            Field::Dirty => 1,
            Field::Permission | Field::After => 3,
            Field::Place => 19,
            Field::Cell => shape.cells,
            Field::Depth | Field::Level => shape.depth,
            Field::Node => (1 << shape.depth) - 1,
            Field::Tries if self.beside(at, PLACE) == 2 => shape.threshold - 1,
            Field::Tries => shape.threshold,
            Field::Waiting if !(11..=16).contains(&self.beside(at, PLACE)) => 0,
            // The marks of the levels that end before the node.
            Field::Waiting => (1..=shape.depth)
                .filter(|&level| (1 << level) <= self.beside(at, NODE))
                .map(|level| 1 << (level - 1))
                .sum(),
        }
    }

    /// The words up to the one at which a check sees that this value of a word is out of range: the
    /// word itself, but the last of its record for what depends on other words, tries at I2 and
    /// waiting levels.
    pub fn words_to_read(&self, at: usize, value: u32) -> usize {
        match self.field(at) {
            Field::Tries if value > self.shape().threshold => at + 1,
            Field::Tries | Field::Waiting => {
                let first_thread = self.thread(1);
                first_thread + (at - first_thread).next_multiple_of(self.form.thread())
            }
            _ => at + 1,
        }
    }

    /// Where a node starts, counted from 1.
    pub fn node(&self, node: u32) -> usize {
        HEADING + self.form.node() * (node as usize - 1)
    }

    /// Where the record of a cell starts, counted from 1.
    pub fn cell(&self, cell: u32) -> usize {
        self.node(1 << self.shape().depth) + CELL_RECORD * (cell as usize - 1)
    }

    /// Where the record of a thread starts, counted from 1.
    pub fn thread(&self, thread: u32) -> usize {
        self.cell(self.shape().cells + 1) + self.form.thread() * (thread as usize - 1)
    }

    /// Another word of the thread's record in which a word stands.
    fn beside(&self, at: usize, word: usize) -> u32 {
        let threads = self.thread(1);
        self.words[at - (at - threads) % self.form.thread() + word]
    }
}
