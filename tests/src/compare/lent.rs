//! Lengths of lent slices, in the order conditions, second masks, jobs, parents, depths, tree.

use bay_tests::engine::*;
use bay_tests::random::Random;

const SECOND_MASKS: usize = 1;
const TREE: usize = 5;

pub fn full() -> Lengths {
    lists(MOST_ENTRIES, MOST_TREE_BYTES)
}

/// The bytes of a table's tree of so many entries.
pub fn tree_bytes(table: &Table, entries: usize) -> usize {
    if table.is_paired() {
        22 * entries - 1
    } else {
        14 * entries - 1
    }
}

pub fn lists(capacity: usize, tree: usize) -> Lengths {
    [capacity, capacity, capacity, capacity, capacity, tree]
}

/// Just enough for a table's list of so many entries and its tree.
pub fn exactly(table: &Table, entries: usize) -> Lengths {
    lists(entries, tree_bytes(table, entries))
}

/// Just enough for the whole list of a table.
pub fn whole(table: &Table) -> Lengths {
    exactly(table, expand(table, None, table.most_entries()).0.len())
}

/// Each table of any length up to `most` entries, and a tree that is too short more often than not.
pub fn any(random: &mut Random, table: &Table, most: usize) -> Lengths {
    let mut lengths = [0; 6];
    for length in &mut lengths {
        *length = random.below(most + 1);
    }
    lengths[TREE] = random.below(tree_bytes(table, most));
    lengths
}

/// Calls with room for three entries less than `entries` up to two more, each list table that counts the shortest in turn; the tree has room enough.
pub fn around(random: &mut Random, table: &Table, entries: usize, mut call: impl FnMut(&mut Random, usize, Lengths)) {
    for capacity in entries.saturating_sub(3)..=entries + 2 {
        for shortest in 0..TREE {
            if shortest == SECOND_MASKS && !table.is_paired() {
                continue;
            }
            let mut lengths = lists(0, tree_bytes(table, entries) + random.below(3));
            for length in &mut lengths[..TREE] {
                *length = capacity + random.below(4);
            }
            lengths[shortest] = capacity;
            call(random, capacity, lengths);
        }
    }
}

/// Trees that are too short for so many entries of a table's, just long enough, and longer.
pub fn trees_around(table: &Table, entries: usize) -> [usize; 8] {
    let need = tree_bytes(table, entries);
    [0, 1, 14 * entries - 1, need.saturating_sub(14), need - 1, need, need + 1, need + 40]
}

/// The lengths of what a plan for two fitters is lent: those of a plan, whose tree is the first fitter's, and that of the second fitter's tree.
#[derive(Clone, Copy, Debug)]
pub struct TeamLengths {
    pub plan: Lengths,
    pub second: usize,
}

impl TeamLengths {
    pub fn of(capacity: usize, trees: [usize; 2]) -> TeamLengths {
        TeamLengths { plan: lists(capacity, trees[0]), second: trees[1] }
    }

    pub fn full() -> TeamLengths {
        TeamLengths::of(MOST_ENTRIES, [MOST_TREE_BYTES; 2])
    }

    /// Just enough for a list and the trees of both fitters.
    pub fn exactly(table: &Table, list: &[Entry], licences: &[u8]) -> TeamLengths {
        TeamLengths::of(list.len(), team_tree_bytes(table, list, licences))
    }

    /// Each table of any length up to `most` entries, and trees that are too short more often than not.
    pub fn any(random: &mut Random, table: &Table, most: usize) -> TeamLengths {
        TeamLengths { plan: any(random, table, most), second: random.below(tree_bytes(table, most)) }
    }
}

/// The bytes of both fitters' trees: those of the list's tree, less one for each waiting leaf.
pub fn team_tree_bytes(table: &Table, list: &[Entry], licences: &[u8]) -> [usize; 2] {
    let of_second = list[1..].iter().filter(|entry| licences[usize::from(entry.job)] == 2).count();
    let of_first = list.len() - 1 - of_second;
    let all = tree_bytes(table, list.len());
    [all - of_second, all - of_first]
}

/// List tables alone, in the order conditions, jobs, parents, depths: this one of another length, and the others of so many entries or more.
pub fn list_shortest(entries: usize, shortest: usize, length: usize) -> ListLengths {
    let mut lengths = [entries, entries + 2, entries, entries + 1];
    lengths[shortest] = length;
    lengths
}

/// Under a table without 0x21, sound or not, the second masks are of no account. So there they are lent in any length, none included.
pub fn with_second_masks(table: &[u8], lengths: Lengths, pattern: u64) -> Lengths {
    let mut lengths = lengths;
    if !read_table(table).is_ok_and(|table| table.is_paired()) {
        let others = lengths[0];
        lengths[SECOND_MASKS] = *Random::new(pattern).pick(&[0, 0, 1, others / 2, others, others + 3]);
    }
    lengths
}
