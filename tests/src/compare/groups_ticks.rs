//! The tree reader and the tick.

use bay_tests::brute::{check_unsettled, settled_in_every_filling};
use bay_tests::engine::*;
use bay_tests::make::Jobs::{self, Paired, Plain};
use bay_tests::random::Random;
use bay_tests::{make, trailer};

use super::checks;
use super::lent::lists;
use super::{both, one, Group};
use crate::ffi;

pub fn groups() -> Vec<Vec<Group>> {
    vec![
        both("ticks_of_built_trees", 500, built),
        both("ticks_of_any_shape", 50_000, any_shape),
        one("ticks_of_one_pair", 1, one_pair),
        one("ticks_of_waiting_leaves", 1, waiting_leaves),
        one("ticks_of_waiting_leaves_in_depth", 17, waiting_in_depth),
        both("ticks_every_byte_changed", 153, every_byte_changed),
        both("ticks_every_cut", 400, every_cut),
        both("ticks_damaged", 80_000, damaged),
        both("ticks_of_any_bytes", 40_000, any_bytes),
        both("ticks_deep", 5_000, deep),
        one("ticks_wide", 32, wide),
        one("ticks_longest", 15, longest),
        both("ticks_refused", 40_000, refused),
        both("filling_in_any_tree", 10_000, filling_in_any_tree),
        both("filling_in_built_trees", 12_000, filling_in_built_trees),
        both("filling_in_every_reading", 300, filling_in_every_reading),
        one("ticks_on_a_small_stack", 1, small_stack),
    ]
}

/// The tree that a table's plan writes from some start, or its whole list's tree where there is no way.
fn built_tree(table: &Table, start: u64) -> Vec<u8> {
    tree_bytes(table, &expand(table, Some(start), 200).0)
}

/// Every sound reading of a built tree.
fn built(random: &mut Random, index: u64, kind: Jobs) {
    let facts = random.between(3, 5) as u32;
    let table = match index {
        0 => make::small_table(random, 0, kind),
        _ => make::busy_table(random, facts, kind),
    };
    let bytes = table.bytes();
    let tree = built_tree(&table, random.state(table.facts));
    every_reading(table.facts, |held, unread| {
        let _ = checks::tick(&bytes, &tree, held, unread);
    });
}

fn every_reading(facts: u32, call: impl Fn(u64, u64)) {
    for unread in 0..1u64 << facts {
        for held in 0..1u64 << facts {
            if held & unread == 0 {
                call(held, unread);
            }
        }
    }
}

/// Every pair over three facts, also those that want a fact both ways, on every reading of them, alone, in a fallback and in a sequence.
fn one_pair(_: &mut Random, _: u64) {
    let bytes = table_bytes(3, &[Job::plain(0, 1, 0, 1)], 0);
    for present in 0..8 {
        for absent in 0..8 {
            let pair = make::pair_condition(present, absent);
            let under = |command| [make::inner(command, 2), pair.clone(), vec![JOB_LEAF, 0, END_OF_TREE]].concat();
            let trees = [[&pair[..], &[END_OF_TREE]].concat(), under(FALLBACK), under(SEQUENCE)];
            every_reading(3, |held, unread| {
                let read = !unread & 7;
                let status = if present & !held & read != 0 || absent & held != 0 {
                    Status::Failure
                } else if (present | absent) & unread != 0 {
                    Status::Unsettled((present | absent) & unread)
                } else {
                    Status::Success
                };
                for tree in &trees {
                    let ticked = checks::tick(&bytes, tree, held, unread).expect("a sound tree");
                    let passed = goes_on_after(tree[0], status);
                    assert_eq!(ticked.status, if passed { Status::Running(0) } else { status });
                }
            });
        }
    }
}

/// Whether a node of this command goes on after a child's answer.
fn goes_on_after(command: u8, status: Status) -> bool {
    command == FALLBACK && status == Status::Failure || command == SEQUENCE && status == Status::Success
}

/// A waiting leaf alone, before and after a condition, a job and another one, under both nodes, on every reading of three facts: neither node goes on after
/// it. It takes no operand, whatever follows it, and needs no job in the table.
fn waiting_leaves(_: &mut Random, _: u64) {
    for bytes in [table_bytes(3, &[Job::plain(0, 1, 0, 1)], 0), table_bytes(3, &[Job::paired(0, 2, 1, 0, 1)], 0)] {
        let told = |tree: &[u8], held, unread| {
            checks::tick(&bytes, &[tree, &[END_OF_TREE]].concat(), held, unread).expect("a sound tree").status
        };
        let under = |command, children: &[&[u8]]| [make::inner(command, children.len()), children.concat()].concat();
        let (waiting, job) = (&[WAITING_LEAF][..], &[JOB_LEAF, 0][..]);
        every_reading(3, |held, unread| {
            assert_eq!(told(waiting, held, unread), Status::Waiting);
            for command in [FALLBACK, SEQUENCE] {
                for (present, absent) in [(1, 0), (3, 0), (0, 4), (0, 0), (2, 1)] {
                    let leaf = make::pair_condition(present, absent);
                    let status = Condition { present, absent }.status(held, unread);
                    let after = if goes_on_after(command, status) { Status::Waiting } else { status };
                    assert_eq!(told(&under(command, &[&leaf, waiting]), held, unread), after);
                    assert_eq!(told(&under(command, &[&leaf, waiting, job]), held, unread), after);
                    assert_eq!(told(&under(command, &[waiting, &leaf]), held, unread), Status::Waiting);
                }
                assert_eq!(told(&under(command, &[waiting, job]), held, unread), Status::Waiting);
                assert_eq!(told(&under(command, &[job, waiting]), held, unread), Status::Running(0));
                assert_eq!(told(&under(command, &[waiting, waiting]), held, unread), Status::Waiting);
            }
        });
    }
    // Without jobs in the table a job leaf is 15, and a waiting one is not.
    let jobless = table_bytes(3, &[], 0);
    let stop = |tree: &[u8]| checks::tick(&jobless, tree, 0, 0).map_err(|refusal| (refusal.number, refusal.place));
    assert_eq!(stop(&[WAITING_LEAF, END_OF_TREE]).map(|ticked| ticked.status), Ok(Status::Waiting));
    assert_eq!(stop(&[SEQUENCE, 2, 0, WAITING_LEAF, JOB_LEAF, 0, END_OF_TREE]).err(), Some((15, 4)));
    // Cut after it, and each byte that is not END after it.
    assert_eq!(stop(&[WAITING_LEAF]).err(), Some((13, 1)));
    for byte in 0..=255 {
        let end = byte == END_OF_TREE;
        assert_eq!(stop(&[WAITING_LEAF, byte]).err(), if end { None } else { Some((13, 1)) });
        assert_eq!(stop(&[WAITING_LEAF, byte, END_OF_TREE]).err(), Some((13, if end { 2 } else { 1 })));
        assert_eq!(stop(&[SEQUENCE, 1, 0, WAITING_LEAF, byte]).err(), if end { None } else { Some((13, 4)) });
    }
    assert_eq!(stop(&[SEQUENCE, 2, 0, WAITING_LEAF, END_OF_TREE]).err(), Some((13, 4)));
    assert_eq!(stop(&[FALLBACK, 2, 0, WAITING_LEAF]).err(), Some((13, 4)));
}

/// A waiting leaf under so many nodes: it may be as deep as any other leaf, and deeper it is 14, which comes before an END that is missing.
fn waiting_in_depth(random: &mut Random, index: u64) {
    let (table, above) = (trailer::table(), index as usize);
    for _ in 0..20 {
        let nodes: Vec<u8> = (0..above).flat_map(|_| make::inner(*random.pick(&[FALLBACK, SEQUENCE]), 1)).collect();
        let (held, unread) = make::reading(random, 5);
        let told = |rest: &[u8]| checks::tick(&table, &[&nodes[..], rest].concat(), held, unread);
        let ticked = told(&[WAITING_LEAF, END_OF_TREE]);
        if above < MOST_DEPTH {
            assert_eq!(ticked, Ok(Ticked { status: Status::Waiting, leaf: nodes.len() }));
        } else {
            assert_eq!(ticked, Err(Refusal { number: 14, place: nodes.len() }));
        }
        let cut = told(&[WAITING_LEAF]).expect_err("no END");
        assert_eq!(cut.number, if above < MOST_DEPTH { 13 } else { 14 });
    }
}

fn any_shape(random: &mut Random, _: u64, kind: Jobs) {
    let table = make::table(random, 64, 4, kind);
    let bytes = table.bytes();
    let tree = make::tree(random, &table);
    for _ in 0..3 {
        let (held, unread) = make::reading(random, table.facts);
        assert!(checks::tick(&bytes, &tree, held, unread).is_ok(), "a sound tree");
    }
}

/// Every value of one byte of the trailer's tree, of which the one with pairs has more.
fn every_byte_changed(random: &mut Random, index: u64, kind: Jobs) {
    let (table, start, bytes) = match kind {
        Plain => (trailer::table(), 0x02, 111),
        Paired => (trailer::one_fact_less::table(), 0x01, 153),
    };
    let parsed = read_table(&table).expect("sound");
    let mut tree = built_tree(&parsed, start);
    assert_eq!(tree.len(), bytes);
    let at = index as usize;
    if at >= bytes {
        return;
    }
    for value in 0..=255 {
        tree[at] = value;
        for _ in 0..2 {
            let (held, unread) = make::reading(random, parsed.facts);
            let _ = checks::tick(&table, &tree, held, unread);
        }
    }
}

/// Every beginning of a tree, and every byte after its END.
fn every_cut(random: &mut Random, _: u64, kind: Jobs) {
    let table = make::table(random, 20, 4, kind);
    let bytes = table.bytes();
    let tree = if random.one_in(3) { built_tree(&table, 0) } else { make::tree(random, &table) };
    let (held, unread) = make::reading(random, table.facts);
    for length in 0..tree.len().min(400) {
        let cut = checks::tick(&bytes, &tree[..length], held, unread);
        assert_eq!(cut.expect_err("a cut tree").number, 13);
    }
    for extra in [END_OF_TREE, FALLBACK, CONDITION, PAIR, WAITING_LEAF, 0, random.byte()] {
        let longer = [&tree[..], &[extra]].concat();
        let refusal = checks::tick(&bytes, &longer, held, unread).expect_err("a tree that goes on");
        assert_eq!((refusal.number, refusal.place), (13, tree.len()));
    }
}

fn damaged(random: &mut Random, _: u64, kind: Jobs) {
    let table = make::table(random, 64, 4, kind);
    let bytes = table.bytes();
    let mut tree =
        if random.one_in(3) { built_tree(&table, random.state(table.facts)) } else { make::tree(random, &table) };
    for _ in 0..random.between(1, 3) {
        make::damage(random, &mut tree, &make::TREE_COMMANDS);
    }
    let (held, unread) = make::reading(random, table.facts);
    let _ = checks::tick(&bytes, &tree, held, unread);
}

/// Bytes drawn from those that a tree is made of.
fn any_bytes(random: &mut Random, _: u64, kind: Jobs) {
    let table = make::table(random, 64, 4, kind);
    let bytes = table.bytes();
    let mut tree = Vec::new();
    for _ in 0..random.below(12) {
        match random.below(8) {
            0 => tree.extend(make::inner(FALLBACK, random.below(4))),
            1 | 2 => tree.extend(make::inner(SEQUENCE, random.below(3))),
            3 => tree.push(random.byte()),
            4 => tree.push(END_OF_TREE),
            5 => tree.extend([JOB_LEAF, random.below(5) as u8]),
            _ => tree.extend(make::leaf(random, &table)),
        }
    }
    tree.push(END_OF_TREE);
    let (held, unread) = make::reading(random, table.facts);
    let _ = checks::tick(&bytes, &tree, held, unread);
}

/// Chains around the depth of 16, with every kind of node at the bottom.
fn deep(random: &mut Random, index: u64, kind: Jobs) {
    let table = Table { facts: 63, jobs: make::jobs(random, 63, 3, kind), goal: 0 };
    let bytes = table.bytes();
    let above = if index < 2_000 { 13 + index as usize % 5 } else { random.below(18) };
    let bottom: Vec<u8> = match random.below(14) {
        0 => make::condition(1 << 63),
        1 => vec![JOB_LEAF, 3],
        2 => make::inner(SEQUENCE, 0),
        3 => make::inner(FALLBACK, 4_097),
        4 => vec![random.byte()],
        5 => vec![END_OF_TREE],
        6 => [make::inner(SEQUENCE, 1), make::condition(0)].concat(),
        7 => [make::inner(FALLBACK, 2), make::condition(1), vec![JOB_LEAF, 1]].concat(),
        8 => make::pair_condition(1 << 63, 0),
        9 => make::pair_condition(0, 1 << 63),
        10 => vec![WAITING_LEAF],
        _ => make::leaf(random, &table),
    };
    let mut tree = make::chain(random, &table, above, &bottom);
    if random.one_in(4) {
        tree.truncate(random.between(tree.len() / 2, tree.len()));
    }
    let (held, unread) = make::reading(random, 63);
    let _ = checks::tick(&bytes, &tree, held, unread);
    let _ = checks::tick(&bytes, &tree, all_facts(63), 0);
}

/// Nodes of 4,095 to 4,097 children, all of which are ticked, or not all there.
fn wide(random: &mut Random, index: u64) {
    let table = read_table(&trailer::table()).expect("sound");
    let bytes = trailer::table();
    let count = 4_095 + (index % 3) as usize;
    let command = if index % 2 == 0 { FALLBACK } else { SEQUENCE };
    // Held 1: fact 0 passes a sequence, fact 1 passes a fallback, and to be absent the other way round.
    let (mask, other) = if command == FALLBACK { (2, 1) } else { (1, 2) };
    let above = [0, 0, 13, 14, 15][index as usize % 5];
    let mut node = make::inner(command, count);
    for i in 0..count {
        if i + 1 == count && index % 4 == 3 {
            node.extend([JOB_LEAF, 4]);
        } else if index >= 16 && i % 3 == 0 {
            node.extend(make::pair_condition(0, other));
        } else {
            node.extend(make::condition(mask));
        }
    }
    let tree = make::chain(random, &table, above, &node);
    for (held, unread) in [(1, 0), (1, 2), (0, 1), (3, 0), (0x10, 0x0f)] {
        let _ = checks::tick(&bytes, &tree, held, unread);
    }
    for cut in [1, 2, 9, 10, 11] {
        let _ = checks::tick(&bytes, &tree[..tree.len() - cut], 1, 0);
    }
    // A child that is missing, and a count that is one too low.
    let mut fewer = tree.clone();
    fewer.drain(tree.len() - 10..tree.len() - 1);
    let _ = checks::tick(&bytes, &fewer, 1, 0);
    let mut lower = tree.clone();
    lower[1] = lower[1].wrapping_sub(1);
    let _ = checks::tick(&bytes, &lower, 1, 0);
}

/// Trees of 65,535 bytes and around.
fn longest(_: &mut Random, index: u64) {
    let table = trailer::table();
    let conditions = |mask: u64, count: usize| make::condition(mask).repeat(count);
    // 3 + 2 x 3 for the three inner nodes, 7,279 conditions of 9 bytes, 7 jobs of 2, END: 65,535.
    let tree = |jobs: usize| {
        let mut bytes = make::inner(FALLBACK, 2);
        bytes.extend(make::inner(SEQUENCE, 4_096));
        bytes.extend(conditions(1, 4_095));
        bytes.extend(conditions(2, 1));
        bytes.extend(make::inner(SEQUENCE, 3_183 + jobs));
        bytes.extend(conditions(1, 3_183));
        bytes.extend([JOB_LEAF, 2].repeat(jobs));
        bytes.push(END_OF_TREE);
        bytes
    };
    let sound = tree(7);
    assert_eq!(sound.len(), MOST_TREE_BYTES);
    let bytes = match index {
        0 => sound,
        1 => tree(6),
        2 => tree(8),
        3 => [sound, vec![END_OF_TREE]].concat(),
        4 => vec![0; MOST_TREE_BYTES],
        5 => vec![0; MOST_TREE_BYTES + 1],
        6 => [&[SEQUENCE, 1, 0][..]].concat().repeat(21_845),
        7 => [sound, vec![0; 65_536]].concat(),
        // One leaf less than fits, as many as fit, and one more.
        8..11 => most_leaves(65_482 + index as usize - 8),
        // 3 + 3,854 x 17 + 7 x 2 + END are 65,536; with a job less 65,534.
        _ => {
            let jobs = index as usize - 6;
            let pairs = make::pair_condition(1, 2).repeat(3_854);
            [make::inner(SEQUENCE, 3_854 + jobs), pairs, [JOB_LEAF, 2].repeat(jobs), vec![END_OF_TREE]].concat()
        }
    };
    for (held, unread) in [(1, 0), (3, 0), (1, 2), (0, 0), (0, 1), (1, 1)] {
        let _ = checks::tick(&table, &bytes, held, unread);
    }
}

/// A tree of so many waiting leaves, which are the shortest nodes: 3 + 16 x 3 for the seventeen inner ones, END.
pub fn most_leaves(leaves: usize) -> Vec<u8> {
    let mut bytes = make::inner(FALLBACK, 16);
    for i in 0..16 {
        let children = leaves / 16 + usize::from(i < leaves % 16);
        bytes.extend(make::inner(SEQUENCE, children));
        bytes.extend(vec![WAITING_LEAF; children]);
    }
    bytes.push(END_OF_TREE);
    bytes
}

/// Faults of the table, the reading and the tree at once.
fn refused(random: &mut Random, _: u64, kind: Jobs) {
    let table = make::table(random, 20, 4, kind);
    let bytes = if random.one_in(3) { make::damaged_bytes(random, &table) } else { table.bytes() };
    let mut tree = make::tree(random, &table);
    if random.one_in(2) {
        make::damage(random, &mut tree, &make::TREE_COMMANDS);
    }
    let (held, unread) = make::any_reading(random, table.facts);
    let _ = checks::tick(&bytes, &tree, held, unread);
}

fn small_reading(random: &mut Random, facts: u32) -> (u64, u64) {
    let held = random.state(facts);
    let mut unread = 0;
    for _ in 0..random.between(1, 4) {
        unread |= 1 << random.below(facts as usize);
    }
    (held & !unread, unread)
}

/// A tick of a sound tree on a sound reading.
fn tick_of<'a>(bytes: &'a [u8], tree: &'a [u8]) -> impl Fn(u64, u64) -> Ticked + 'a {
    move |held, unread| checks::tick(bytes, tree, held, unread).expect("a sound tree and reading")
}

fn filling_in_any_tree(random: &mut Random, _: u64, kind: Jobs) {
    let table = make::table(random, 10, 4, kind);
    let tree = make::tree(random, &table);
    let (held, unread) = small_reading(random, table.facts);
    settled_in_every_filling(held, unread, tick_of(&table.bytes(), &tree));
}

/// On a built tree Unsettled comes only where two ways of filling in differ.
fn filling_in_built_trees(random: &mut Random, _: u64, kind: Jobs) {
    let facts = random.between(2, 8) as u32;
    let table = make::busy_table(random, facts, kind);
    let bytes = table.bytes();
    let start = random.state(table.facts);
    let (result, lent) = checks::plan(&bytes, start, 0, lists(300, 22 * 300), start);
    let Ok(planned) = result else { return };
    let (held, unread) = small_reading(random, table.facts);
    check_unsettled(held, unread, tick_of(&bytes, &lent.tree[..planned.tree_bytes]));
}

/// The same on every reading, of the trees of both plans.
fn filling_in_every_reading(random: &mut Random, index: u64, kind: Jobs) {
    let table = make::small_table(random, index, kind);
    let bytes = table.bytes();
    let start = random.state(table.facts);
    let (shift, shift_lent) = checks::plan_shift(&bytes, lists(800, 22 * 800), start);
    let mut trees = vec![&shift_lent.tree[..shift.expect("a small table's list is not full").tree_bytes]];
    let (plan, lent) = checks::plan(&bytes, start, 0, lists(800, 22 * 800), start);
    if let Ok(planned) = plan {
        trees.push(&lent.tree[..planned.tree_bytes]);
    }
    for tree in trees {
        every_reading(table.facts, |held, unread| check_unsettled(held, unread, tick_of(&bytes, tree)));
    }
}

/// The widest and the deepest legal trees, and the longest plan, on a stack of 256 KiB.
fn small_stack(_: &mut Random, _: u64) {
    let trailer_bytes = trailer::table();
    let longest = |kind: Jobs, entries: usize, tree_bytes: usize| {
        let table = make::long_table(12, 116, kind);
        let start = make::long_state(&table, &expand(&table, None, MOST_ENTRIES).0[entries - 1]);
        Longest { table, start, entries, tree_bytes }
    };
    let wide = |command: u8, mask: u64| {
        [make::inner(command, 4_096), make::condition(mask).repeat(4_096), vec![END_OF_TREE]].concat()
    };
    let deep = |command: u8, children: usize| {
        // Each level has leaves before the next one, so that every row is walked.
        let mut bytes = Vec::new();
        for _ in 1..MOST_DEPTH {
            bytes.extend(make::inner(command, children));
            let passed = make::condition(if command == FALLBACK { 2 } else { 1 });
            bytes.extend(passed.repeat(children - 1));
        }
        bytes.extend([JOB_LEAF, 3, END_OF_TREE]);
        bytes
    };
    let trees = vec![
        wide(FALLBACK, 2),
        wide(SEQUENCE, 1),
        wide(FALLBACK, 3),
        deep(FALLBACK, 1),
        deep(SEQUENCE, 1),
        deep(FALLBACK, 400),
        deep(SEQUENCE, 400),
        most_leaves(65_483),
    ];
    assert_eq!(trees[trees.len() - 1].len(), MOST_TREE_BYTES);
    let longest = [longest(Plain, 4_096, 57_343), longest(Paired, 2_978, 65_515)];
    let expected: Vec<[u64; 3]> =
        trees.iter().map(|tree| checks::tick_words(&tick(&trailer_bytes, tree, 1, 0))).collect();
    for words in &expected {
        assert_eq!(words[0], 0, "the trees are legal");
    }
    let on_small_stack = move || {
        let answers: Vec<[u64; 3]> = trees.iter().map(|tree| ffi::tick(&trailer_bytes, tree, 1, 0)).collect();
        longest.iter().for_each(Longest::plan_and_tick);
        answers
    };
    let thread = std::thread::Builder::new().stack_size(256 * 1024).spawn(on_small_stack).expect("a thread");
    assert_eq!(thread.join().expect("the thread ends"), expected);
}

/// A table of 128 jobs and a start for which a plan is as long as it can be.
struct Longest {
    table: Table,
    start: u64,
    entries: usize,
    tree_bytes: usize,
}

impl Longest {
    /// By the library alone: the engine's stack is no matter.
    fn plan_and_tick(&self) {
        let bytes = self.table.bytes();
        assert_eq!(self.table.jobs.len(), 128);
        let mut lent = Lent::full();
        let planned = ffi::plan(&bytes, self.start, 0, &mut lent);
        assert_eq!(planned[..3], [0, self.entries as u64, self.tree_bytes as u64]);
        let job = lent.jobs[self.entries - 1];
        let ticked = ffi::tick(&bytes, &lent.tree[..self.tree_bytes], self.start, 0);
        assert_eq!(ticked, [0, ffi::RUNNING, u64::from(job)]);
    }
}
