//! Tables, readings and trees, sound and damaged.

use crate::engine::*;
use crate::random::Random;
use crate::trailer;

pub const TABLE_COMMANDS: [u8; 5] = [FACTS, JOB, PAIRED_JOB, GOAL, END_OF_TABLE];
pub const TREE_COMMANDS: [u8; 7] = [FALLBACK, SEQUENCE, CONDITION, JOB_LEAF, PAIR, WAITING_LEAF, END_OF_TREE];

/// Which jobs a table is made of.
#[derive(Clone, Copy, Debug, PartialEq, Eq)]
pub enum Jobs {
    /// Those of document 01 alone.
    Plain,
    /// Those of document 02's W10, one at least, with or without those of document 01 between them.
    Paired,
}

fn job(random: &mut Random, facts: u32) -> Job {
    let mut adds = random.facts(facts, 2);
    if !random.one_in(12) {
        adds |= 1 << random.below(facts as usize);
    }
    let needs = random.facts(facts, 2) & !adds;
    let deletes = random.facts(facts, 2) & !adds;
    let usual = random.below(2_000) as u16;
    let seconds = *random.pick(&[0, 1, 29, 30, 31, 60, 90, 5_399, 5_400, usual]);
    Job::plain(needs, adds, deletes, seconds)
}

/// Makes a job one that needs facts absent, now and then none. It may add and delete them as well.
fn pair(random: &mut Random, facts: u32, job: &mut Job) {
    job.command = PAIRED_JOB;
    job.absent = random.facts(facts, 2) & !job.needs;
}

pub fn jobs(random: &mut Random, facts: u32, count: usize, kind: Jobs) -> Vec<Job> {
    let mut jobs: Vec<Job> = (0..count).map(|_| job(random, facts)).collect();
    if kind == Jobs::Paired && count > 0 {
        // All of them, about half of them, or a few.
        let one_in = *random.pick(&[1, 2, 8]);
        let surely = random.below(count);
        for (i, job) in jobs.iter_mut().enumerate() {
            if i == surely || random.one_in(one_in) {
                pair(random, facts, job);
            }
        }
    }
    jobs
}

/// A sound table.
pub fn table(random: &mut Random, most_facts: u32, most_jobs: usize, kind: Jobs) -> Table {
    let usual = random.between(1, most_facts as usize) as u32;
    let facts = if random.one_in(8) { most_facts } else { usual };
    let count = random.below(most_jobs + 1);
    let jobs = jobs(random, facts, count, kind);
    let goal = if random.one_in(20) { 0 } else { random.facts(facts, 3) | 1 << random.below(facts as usize) };
    Table { facts, jobs, goal }
}

/// A sound table of so many facts with jobs enough for ways of some length: each needs something, held or absent.
pub fn busy_table(random: &mut Random, facts: u32, kind: Jobs) -> Table {
    let count = random.between(facts as usize, 2 * facts as usize);
    let mut jobs = jobs(random, facts, count, kind);
    for job in &mut jobs {
        let fact = 1 << random.below(facts as usize);
        if job.command == PAIRED_JOB && random.one_in(2) {
            job.absent |= fact & !job.needs;
        } else {
            job.needs |= fact & !(job.adds | job.absent);
        }
    }
    Table { facts, jobs, goal: random.facts(facts, 2) | 1 << random.below(facts as usize) }
}

/// Seconds that no job may be listed with.
pub fn too_long(random: &mut Random) -> u16 {
    let any = random.between(5_401, 65_535) as u16;
    *random.pick(&[5_401, 65_535, any])
}

/// Lets a job need a fact held and absent. Now and then it adds that fact too, or is too long, which comes first.
pub fn contradict(random: &mut Random, facts: u32, job: &mut Job) {
    let fact = 1 << random.below(facts as usize);
    job.needs |= fact;
    job.absent |= fact;
    if !random.one_in(8) {
        job.adds &= !fact;
    }
    if random.one_in(8) {
        job.seconds = too_long(random);
    }
}

/// The bytes of a table with a fault, now and then that of 129 jobs.
pub fn damaged_bytes(random: &mut Random, table: &Table) -> Vec<u8> {
    if random.one_in(100) {
        let mut many = vec![job(random, table.facts); MOST_JOBS + 1];
        if table.is_paired() {
            let (at, facts) = (random.below(many.len()), table.facts);
            pair(random, facts, &mut many[at]);
        }
        return table_bytes(table.facts as u8, &many, table.goal);
    }
    let mut table = table.clone();
    if random.one_in(10) && !table.jobs.is_empty() {
        // What is damaged below may come before it or after it.
        let facts = table.facts;
        let job = random.pick_mut(&mut table.jobs);
        if job.command == PAIRED_JOB && random.one_in(2) {
            contradict(random, facts, job);
        } else {
            job.seconds = too_long(random);
        }
        if random.one_in(3) {
            return table.bytes();
        }
    }
    let mut bytes = table.bytes();
    if random.one_in(20) {
        bytes[1] = *random.pick(&[0, 65, 255]);
    } else {
        damage(random, &mut bytes, &TABLE_COMMANDS);
    }
    bytes
}

/// A sound reading.
pub fn reading(random: &mut Random, facts: u32) -> (u64, u64) {
    let held = random.state(facts);
    let unread = match random.below(3) {
        0 => 0,
        1 => random.facts(facts, 2) & !held,
        _ => random.state(facts) & !held,
    };
    (held, unread)
}

/// A reading that is often unsound.
pub fn any_reading(random: &mut Random, facts: u32) -> (u64, u64) {
    let (mut held, mut unread) = reading(random, facts);
    let high = 1u64 << random.between(facts as usize - 1, 63);
    match random.below(6) {
        0 => held |= high,
        1 => unread |= high,
        2 => unread |= held & held.wrapping_neg(),
        3 => held = random.next(),
        _ => {}
    }
    (held, unread)
}

/// A licence for each of so many jobs; now and then all are alike.
pub fn licences(random: &mut Random, jobs: usize) -> Vec<u8> {
    let alike = *random.pick(&LICENCES);
    let differ = !random.one_in(8);
    (0..jobs).map(|_| if differ { *random.pick(&LICENCES) } else { alike }).collect()
}

/// Every row of licences for so many jobs.
pub fn every_row_of_licences(jobs: usize) -> Vec<Vec<u8>> {
    let mut rows = vec![Vec::new()];
    for _ in 0..jobs {
        rows = rows.iter().flat_map(|row| LICENCES.map(|licence| [&row[..], &[licence]].concat())).collect();
    }
    rows
}

/// Changes a row of licences: one or two that are none, a row that is too short or too long, or both.
pub fn damage_licences(random: &mut Random, licences: &mut Vec<u8>) {
    let which = random.below(3);
    if which != 0 {
        let longer = licences.len() + random.between(1, 3);
        let shorter = random.below(licences.len() + 1);
        licences.resize(*random.pick(&[shorter, longer, 0]), 2);
    }
    if which != 1 {
        for _ in 0..random.between(1, 2).min(licences.len()) {
            let any = random.byte();
            *random.pick_mut(licences) = *random.pick(&[0, 4, 255, any]);
        }
    }
}

fn shuffle(random: &mut Random, numbers: &mut [u8]) {
    for i in 1..numbers.len() {
        numbers.swap(i, random.below(i + 1));
    }
}

/// The numbers below `facts` in any order.
pub fn any_order(random: &mut Random, facts: u32) -> Vec<u8> {
    let mut order: Vec<u8> = (0..facts as u8).collect();
    shuffle(random, &mut order);
    order
}

/// A sound map from so many facts to so many: in the same order, in any order, or backward; of all facts, of some, of few, or of none.
pub fn fact_map(random: &mut Random, old: u32, new: u32) -> Vec<u8> {
    let mut numbers = match random.below(4) {
        0 => (0..new as u8).collect(),
        1 => (0..new as u8).rev().collect(),
        _ => any_order(random, new),
    };
    numbers.resize(numbers.len().max(old as usize), DROPPED);
    numbers.truncate(old as usize);
    let kept_in_8 = *random.pick(&[0, 1, 4, 7, 8, 8]);
    for number in &mut numbers {
        if random.below(8) >= kept_in_8 {
            *number = DROPPED;
        }
    }
    // So that those without a number are not always the last.
    if random.one_in(2) {
        shuffle(random, &mut numbers);
    }
    numbers
}

/// What can be wrong with a map: "the wrong length, a number outside the new table, or two facts sent to one" (document 02, W14).
#[derive(Clone, Copy, Debug, PartialEq, Eq)]
pub enum MapFault {
    TooShort,
    TooLong,
    /// Two facts are sent to one. Of a single fact there are none.
    Shared,
    /// A number just outside the new table.
    AtF,
    /// One further above.
    AboveF,
}

pub const MAP_FAULTS: [MapFault; 5] =
    [MapFault::TooShort, MapFault::TooLong, MapFault::Shared, MapFault::AtF, MapFault::AboveF];

/// Gives a map to a table of so many facts a fault of this kind.
pub fn damage_map(random: &mut Random, new: u32, fault: MapFault, map: &mut Vec<u8>) {
    let length = map.len();
    let known = random.below(new as usize) as u8;
    match fault {
        MapFault::TooShort => {
            let any = random.below(length.max(1));
            map.truncate(*random.pick(&[length.saturating_sub(1), length.saturating_sub(1), any, 0]));
        }
        MapFault::TooLong => {
            // Some are as long as they should be if their length is cut to a byte or to 16 bits.
            let more = *random.pick(&[1, 1, 1, 2, 2, 64, 256, 65_536]);
            let number = *random.pick(&[DROPPED, known]);
            map.resize(length + more, number);
        }
        MapFault::Shared if length > 1 => {
            let first = random.below(length);
            let second = (first + random.between(1, length - 1)) % length;
            // A number that stands there already, if there is one.
            let number = if map[first] == DROPPED { known } else { map[first] };
            (map[first], map[second]) = (number, number);
        }
        MapFault::Shared => {}
        MapFault::AtF if length > 0 => *random.pick_mut(map) = new as u8,
        MapFault::AboveF if length > 0 => {
            let above = random.between(new as usize, 254) as u8;
            *random.pick_mut(map) = *random.pick(&[new as u8 + 1, 64, 65, 128, 254, above]).max(&(new as u8));
        }
        MapFault::AtF | MapFault::AboveF => {}
    }
}

/// The rows that a batch is made of.
#[derive(Clone, Debug, Default)]
pub struct BatchRows {
    pub conditions: Vec<u64>,
    pub absences: Vec<u64>,
    pub jobs: Vec<u8>,
    pub held: Vec<u64>,
    pub unread: Vec<u64>,
}

impl BatchRows {
    pub fn of(list: &[Entry], readings: &[(u64, u64)]) -> BatchRows {
        BatchRows {
            conditions: list.iter().map(|entry| entry.condition.present).collect(),
            absences: list.iter().map(|entry| entry.condition.absent).collect(),
            jobs: list.iter().map(|entry| entry.job).collect(),
            held: readings.iter().map(|reading| reading.0).collect(),
            unread: readings.iter().map(|reading| reading.1).collect(),
        }
    }

    pub fn batch(&self) -> Batch<'_> {
        Batch {
            conditions: &self.conditions,
            absences: &self.absences,
            jobs: &self.jobs,
            held: &self.held,
            unread: &self.unread,
        }
    }
}

/// A condition of a foreign list: often empty, or one that stands there already, or a pair that wants a fact both ways.
fn foreign_condition(random: &mut Random, table: &Table, list: &[Entry]) -> Condition {
    if !list.is_empty() && random.one_in(6) {
        return random.pick(list).condition;
    }
    let absent = if table.is_paired() { random.facts(table.facts, 2) } else { 0 };
    let present = random.facts(table.facts, 3);
    Condition { present, absent: if random.one_in(4) { absent } else { absent & !present } }
}

/// A list that a table knows and no plan made. Entry 0 has any job; where the table has no jobs there is no other entry.
pub fn foreign_list(random: &mut Random, table: &Table, entries: usize) -> Vec<Entry> {
    let mut list = Vec::new();
    let entries = if table.jobs.is_empty() { entries.min(1) } else { entries };
    while list.len() < entries {
        let condition = foreign_condition(random, table, &list);
        let job = if list.is_empty() { random.byte() } else { random.below(table.jobs.len()) as u8 };
        list.push(Entry { condition, job, parent: 0, depth: 0 });
    }
    list
}

/// Gives one entry of a list, if it has any, a bit at or above F, or a job that the table has not. The job of entry 0 is no fault, and without a 0x21
/// a second mask is none.
pub fn damage_list(random: &mut Random, table: &Table, list: &mut [Entry]) {
    if list.is_empty() {
        return;
    }
    let beyond = 1u64 << random.between(table.facts as usize - 1, 63);
    let no_job = random.between(table.jobs.len(), 255) as u8;
    let job = *random.pick(&[table.jobs.len() as u8, 255, no_job]);
    let entry = random.pick_mut(list);
    match random.below(4) {
        0 => entry.condition.present |= beyond,
        1 => entry.condition.absent |= beyond,
        2 => entry.job = job,
        _ => {
            entry.condition.present |= beyond;
            entry.job = job;
        }
    }
}

/// Changes bytes in one of many ways.
pub fn damage(random: &mut Random, bytes: &mut Vec<u8>, commands: &[u8]) {
    let length = bytes.len();
    if length == 0 {
        bytes.push(random.byte());
        return;
    }
    let at = random.below(length);
    match random.below(10) {
        0 => bytes[at] = random.byte(),
        1 => bytes[at] = *random.pick(commands),
        2 => bytes[at] ^= 1 << random.below(8),
        3 => bytes[at] = bytes[at].wrapping_add(*random.pick(&[1, 255])),
        4 => bytes.truncate(at),
        5 => {
            bytes.remove(at);
        }
        6 => bytes.insert(at, *random.pick(commands)),
        7 => bytes.push(*random.pick(commands)),
        8 => {
            let end = random.between(at, length.min(at + 30));
            let part = bytes[at..end].to_vec();
            bytes.splice(at..at, part);
        }
        _ => {
            // Any command byte that stands there, made another one.
            let places: Vec<usize> = (0..length).filter(|i| commands.contains(&bytes[*i])).collect();
            if !places.is_empty() {
                bytes[*random.pick(&places)] = *random.pick(commands);
            }
        }
    }
}

/// Commands of a table in any order with any operands.
pub fn table_like(random: &mut Random) -> Vec<u8> {
    let facts = *random.pick(&[0, 1, 2, 5, 63, 64, 65, 255]);
    let mut bytes = vec![FACTS, facts];
    let mask = |random: &mut Random| match random.below(4) {
        0 => 0,
        1 => 1 << random.below(64),
        _ => random.facts(u32::from(facts).clamp(1, 64), 2),
    };
    for _ in 0..random.below(4) {
        let (command, masks) = *random.pick(&[(JOB, 3), (PAIRED_JOB, 4)]);
        bytes.push(command);
        for _ in 0..masks {
            bytes.extend(mask(random).to_le_bytes());
        }
        let seconds = if random.one_in(4) { too_long(random) } else { random.below(5_401) as u16 };
        bytes.extend(seconds.to_le_bytes());
        if random.one_in(6) {
            bytes.push(*random.pick(&TABLE_COMMANDS));
        }
    }
    bytes.push(*random.pick(&[GOAL, GOAL, GOAL, GOAL, JOB, PAIRED_JOB, END_OF_TABLE]));
    bytes.extend(mask(random).to_le_bytes());
    bytes.push(*random.pick(&[END_OF_TABLE, END_OF_TABLE, END_OF_TABLE, GOAL, END_OF_TREE]));
    if random.one_in(4) {
        bytes.truncate(random.below(bytes.len() + 1));
    }
    if random.one_in(6) {
        bytes.push(random.byte());
    }
    bytes
}

pub fn inner(command: u8, children: usize) -> Vec<u8> {
    let mut bytes = vec![command];
    bytes.extend((children as u16).to_le_bytes());
    bytes
}

/// A condition with one mask, 0x43.
pub fn condition(mask: u64) -> Vec<u8> {
    [&[CONDITION][..], &mask.to_le_bytes()].concat()
}

/// A condition with both masks, 0x45.
pub fn pair_condition(present: u64, absent: u64) -> Vec<u8> {
    [&[PAIR][..], &present.to_le_bytes(), &absent.to_le_bytes()].concat()
}

/// A leaf that the table knows. Either condition may stand in any tree, also a pair that wants a fact both ways, and so may a waiting leaf.
pub fn leaf(random: &mut Random, table: &Table) -> Vec<u8> {
    if random.one_in(8) {
        return vec![WAITING_LEAF];
    }
    if !table.jobs.is_empty() && random.one_in(3) {
        return vec![JOB_LEAF, random.below(table.jobs.len()) as u8];
    }
    // Few facts, so that every answer is common.
    let present = random.facts(table.facts, 2);
    if random.one_in(2) {
        return condition(present);
    }
    let absent = random.facts(table.facts, 2);
    pair_condition(present, if random.one_in(4) { absent } else { absent & !present })
}

fn node(random: &mut Random, table: &Table, depth: usize, deepest: usize, leaves: &mut usize, bytes: &mut Vec<u8>) {
    if depth == deepest || *leaves == 0 || random.one_in(3) {
        *leaves = leaves.saturating_sub(1);
        bytes.extend(leaf(random, table));
        return;
    }
    let most = *random.pick(&[1, 2, 3, 5, 9]);
    let children = random.between(1, most);
    bytes.extend(inner(*random.pick(&[FALLBACK, SEQUENCE]), children));
    for _ in 0..children {
        node(random, table, depth + 1, deepest, leaves, bytes);
    }
}

/// A sound tree of any shape.
pub fn tree(random: &mut Random, table: &Table) -> Vec<u8> {
    let deepest = random.between(1, MOST_DEPTH);
    let mut leaves = *random.pick(&[1, 4, 10, 30, 60]);
    let mut bytes = Vec::new();
    node(random, table, 1, deepest, &mut leaves, &mut bytes);
    bytes.push(END_OF_TREE);
    bytes
}

/// A chain of `above` inner nodes over `bottom`, with leaves beside it.
pub fn chain(random: &mut Random, table: &Table, above: usize, bottom: &[u8]) -> Vec<u8> {
    let mut bytes = Vec::new();
    let mut after = Vec::new();
    for _ in 0..above {
        let (before, behind) = (random.below(3), random.below(3));
        bytes.extend(inner(*random.pick(&[FALLBACK, SEQUENCE]), before + 1 + behind));
        for _ in 0..before {
            bytes.extend(leaf(random, table));
        }
        let leaves: Vec<u8> = (0..behind).flat_map(|_| leaf(random, table)).collect();
        after.push(leaves);
    }
    bytes.extend(bottom);
    for leaves in after.into_iter().rev() {
        bytes.extend(leaves);
    }
    bytes.push(END_OF_TREE);
    bytes
}

/// A table of `goals` facts to reach, each with one job from a fact of its own, and `more` jobs that lead nowhere new: its list has 2^goals
/// entries. Where the jobs are paired, every other one needs its fact absent.
pub fn long_table(goals: usize, more: usize, kind: Jobs) -> Table {
    let spare = 1u64 << (2 * goals);
    let job = |i: usize, needs: u64, seconds: u16| {
        let (goal, own) = (1 << i, 1u64 << (goals + i));
        if kind == Jobs::Paired && i % 2 == 1 {
            Job::paired(needs, own, goal, 0, seconds)
        } else {
            Job::plain(needs | own, goal, 0, seconds)
        }
    };
    let mut jobs: Vec<Job> = (0..goals).map(|i| job(i, 0, 60 + i as u16)).collect();
    jobs.extend((0..more).map(|i| job(i % goals, spare, 30)));
    Table { facts: 2 * goals as u32 + 1, jobs, goal: all_facts(goals as u32) }
}

/// A state of a long table that meets this entry of its list and no other.
pub fn long_state(table: &Table, entry: &Entry) -> u64 {
    let needed_absent = table.jobs.iter().fold(0, |mask, job| mask | job.absent);
    entry.condition.present | (needed_absent & !entry.condition.absent)
}

/// The start of a long table from which its list is whole: it meets the last entry.
pub fn long_start(table: &Table) -> u64 {
    table.jobs.iter().fold(0, |mask, job| mask | job.needs) & !(1 << (table.facts - 1))
}

/// A counter of `bits` bits, each with a fact for set and one for clear: the one way from all clear to all set has 2^bits - 1
/// jobs. Gives the table and the start.
pub fn counter_table(bits: usize, seconds: u16) -> (Table, u64) {
    let set = |i: usize| 1u64 << (2 * i);
    let clear = |i: usize| 2u64 << (2 * i);
    let jobs = (0..bits)
        .map(|i| {
            let lower_set: u64 = (0..i).map(set).sum();
            let lower_clear: u64 = (0..i).map(clear).sum();
            Job::plain(clear(i) | lower_set, set(i) | lower_clear, clear(i) | lower_set, seconds)
        })
        .collect();
    let table = Table { facts: 2 * bits as u32, jobs, goal: (0..bits).map(set).sum() };
    (table, (0..bits).map(clear).sum())
}

/// A counter of `bits` bits, each with one fact, and a last job that needs it to stand at `last` and brings about the goal: the one way from 0 has
/// `last` + 1 jobs, and the list has one entry more.
pub fn pair_counter_table(bits: usize, last: u64, seconds: u16) -> Table {
    let all = all_facts(bits as u32);
    let done = all + 1;
    let increment = |i: usize| {
        let bit = 1u64 << i;
        let lower = bit - 1;
        Job::paired(lower, bit, bit, lower, seconds)
    };
    let mut jobs: Vec<Job> = (0..bits).map(increment).collect();
    jobs.push(Job::paired(last, all & !last, done, 0, seconds));
    Table { facts: bits as u32 + 1, jobs, goal: done }
}

/// A counter with one fact for each bit, the least bit's first in `order`. A bit is set where its fact is held, and for a flipped fact where it is absent.
/// Job i sets bit i where it is the lowest clear one and clears those below it; the last job clears all bits where all are set. So one way leads through
/// all states, round and round, and the goal is the state that holds all facts.
pub fn ring_table(order: &[u32], flipped: u64) -> Table {
    // What is set and is to be cleared, and what is clear and is to be set.
    let job = |set: u64, clear: u64| {
        let held = (set & !flipped) | (clear & flipped);
        let absent = (set & flipped) | (clear & !flipped);
        Job::paired(held, absent, absent, held, 60)
    };
    let mut jobs = Vec::new();
    let mut lower = 0;
    for fact in order {
        jobs.push(job(lower, 1 << fact));
        lower |= 1 << fact;
    }
    jobs.push(job(lower, 0));
    Table { facts: order.len() as u32, jobs, goal: lower }
}

/// Every state that has the held facts and, of the unread ones, any.
pub fn fillings(held: u64, unread: u64) -> Vec<u64> {
    let mut all = Vec::new();
    let mut part = unread;
    loop {
        all.push(held | part);
        if part == 0 {
            return all;
        }
        part = (part - 1) & unread;
    }
}

/// A table whose states can all be tried: the trailer's, small counters, and random ones.
pub fn small_table(random: &mut Random, index: u64, kind: Jobs) -> Table {
    let facts = random.between(3, 5) as u32;
    match (index, kind) {
        (0, Jobs::Plain) => read_table(&trailer::table()).expect("sound"),
        (0, Jobs::Paired) => read_table(&trailer::one_fact_less::table()).expect("sound"),
        (1 | 2, Jobs::Plain) => counter_table(index as usize + 1, MOST_SECONDS).0,
        (1 | 2, Jobs::Paired) => pair_counter_table(index as usize + 2, 3 * index + 3, MOST_SECONDS),
        _ if index % 8 == 4 => busy_table(random, 6, kind),
        _ if index % 2 == 0 => busy_table(random, facts, kind),
        _ => table(random, 5, 8, kind),
    }
}
