//! The cost of a take, change request 3: a figure read from the region, no turn served.

use crate::counter::Counter;
use crate::fields::ROOT;
use crate::machine::Machine;
use crate::memory::NodeCopy;
use crate::value::Value;

impl<C: Counter> Machine<'_, C> {
    /// The accesses that a take begun now makes up to its answer.
    ///
    /// They are 1 where the root is empty. Otherwise the rest of the root's list, once its head is
    /// taken, is left at some level j: 5 × j + 2 accesses where j is less than the present depth d,
    /// 5 × d where it is d.
    ///
    /// The figure is exact in a region that was laid out, as long as all nodes are clean, no other
    /// thread moves and no turn is refused 11.
    #[must_use]
    pub fn take_cost(&self) -> u32 {
        let root = self.read(ROOT);
        if root.node.first_cell == 0 {
            return 1;
        }
        let value_of_rest = match root.head.next {
            0 => Value::Empty,
            second_cell => self.memory.cell(second_cell).val(),
        };
        let depth = self.memory.read_depth();
        let level = self.resting_level(value_of_rest, depth);
        if level < depth {
            5 * level + 2
        } else {
            5 * depth
        }
    }

    /// The level at which mending leaves a list of that value that starts at the root: it goes down
    /// to the child of lesser value, the left of equals, as long as that is less than its own.
    fn resting_level(&self, value: Value, depth: u32) -> u32 {
        let mut node = ROOT;
        for level in 1..depth {
            let [left, right] = [2 * node, 2 * node + 1].map(|child| self.read(child).val());
            if left.min(right) >= value {
                return level;
            }
            node = if left <= right { 2 * node } else { 2 * node + 1 };
        }
        depth
    }

    /// The root, or a child of a node above the present depth.
    fn read(&self, node: u32) -> NodeCopy<C> {
        self.memory.read(node).expect("the present depth is at most that of the tree")
    }
}
