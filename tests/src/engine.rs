//! Document 01 in plain Rust: table reader and writer, plan, tree reader and tick, job card, and the text of `bayplan`; and of document 02
//! what has landed.
//!
//! It is written from the paper alone, to be compared with the proved library, and favours plainness over speed. Quotations in
//! the comments are from document 01, or from document 02 where they name it.

use std::cmp::Ordering;
use std::collections::VecDeque;

// ---- commands

pub const FACTS: u8 = 0x10;
pub const JOB: u8 = 0x20;
/// Document 02, W10: "A second JOB command".
pub const PAIRED_JOB: u8 = 0x21;
pub const GOAL: u8 = 0x30;
pub const END_OF_TABLE: u8 = 0x3f;
pub const FALLBACK: u8 = 0x41;
pub const SEQUENCE: u8 = 0x42;
pub const CONDITION: u8 = 0x43;
pub const JOB_LEAF: u8 = 0x44;
/// A condition "with both masks" (document 02, W10).
pub const PAIR: u8 = 0x45;
/// "a waiting leaf 0x46, without operand" (document 02, W12).
pub const WAITING_LEAF: u8 = 0x46;
pub const END_OF_TREE: u8 = 0x4f;

/// "One table gives the operand width of every command."
pub const WIDTHS: [(u8, usize); 12] = [
    (FACTS, 1),
    (JOB, 26),
    (PAIRED_JOB, 34),
    (GOAL, 8),
    (END_OF_TABLE, 0),
    (FALLBACK, 2),
    (SEQUENCE, 2),
    (CONDITION, 8),
    (JOB_LEAF, 1),
    (PAIR, 16),
    (WAITING_LEAF, 0),
    (END_OF_TREE, 0),
];

pub const MOST_JOBS: usize = 128;
/// Document 02, W3.
pub const MOST_SECONDS: u16 = 5_400;
pub const MOST_ENTRIES: usize = 4096;
/// Of a table that has a 0x21 (document 02, W10).
pub const MOST_PAIR_ENTRIES: usize = 2_978;
pub const MOST_CHILDREN: usize = 4096;
pub const MOST_DEPTH: usize = 16;
pub const MOST_TREE_BYTES: usize = 65_535;
/// "with no job (stored as 255)"
pub const NO_JOB: u8 = 255;
/// "for tables of at most 15 facts" (document 02, W13)
pub const MOST_MEASURED_FACTS: u32 = 15;
/// "or 65,535 for none" (document 02, W13)
pub const NO_DISTANCE: u16 = 65_535;
/// "or 255 for dropped" (document 02, W14)
pub const DROPPED: u8 = 255;

fn width_of(command: u8) -> usize {
    let row = WIDTHS.iter().find(|(byte, _)| *byte == command);
    row.expect("only asked of known commands").1
}

fn u16_at(bytes: &[u8], at: usize) -> u16 {
    u16::from_le_bytes([bytes[at], bytes[at + 1]])
}

fn u64_at(bytes: &[u8], at: usize) -> u64 {
    let mut eight = [0; 8];
    eight.copy_from_slice(&bytes[at..at + 8]);
    u64::from_le_bytes(eight)
}

// ---- refusals and masks

/// The number of a stop and its place.
#[derive(Clone, Copy, Debug, PartialEq, Eq)]
pub struct Refusal {
    pub number: u64,
    pub place: usize,
}

fn refuse<T>(number: u64, place: usize) -> Result<T, Refusal> {
    Err(Refusal { number, place })
}

/// The mask of all facts below `facts`.
pub fn all_facts(facts: u32) -> u64 {
    if facts >= 64 {
        u64::MAX
    } else {
        (1 << facts) - 1
    }
}

/// Whether every fact of `part` is in `whole`.
pub fn is_part(part: u64, whole: u64) -> bool {
    part & !whole == 0
}

// ---- the table

/// A job, by the command that it stands in the table by: a 0x21 that needs nothing absent is no 0x20.
#[derive(Clone, Copy, Debug, PartialEq, Eq)]
pub struct Job {
    pub command: u8,
    pub needs: u64,
    pub absent: u64,
    pub adds: u64,
    pub deletes: u64,
    pub seconds: u16,
}

impl Job {
    /// Document 01's job.
    pub fn plain(needs: u64, adds: u64, deletes: u64, seconds: u16) -> Job {
        Job { command: JOB, needs, absent: 0, adds, deletes, seconds }
    }

    /// One of "Jobs that need a fact absent" (document 02, W10).
    pub fn paired(needs: u64, absent: u64, adds: u64, deletes: u64, seconds: u16) -> Job {
        Job { command: PAIRED_JOB, needs, absent, adds, deletes, seconds }
    }

    fn from_operands(command: u8, operands: &[u8]) -> Job {
        let (absent, effects) = if command == PAIRED_JOB { (u64_at(operands, 8), 16) } else { (0, 8) };
        Job {
            command,
            needs: u64_at(operands, 0),
            absent,
            adds: u64_at(operands, effects),
            deletes: u64_at(operands, effects + 8),
            seconds: u16_at(operands, effects + 16),
        }
    }

    fn bytes(&self) -> Vec<u8> {
        let mut bytes = vec![self.command];
        bytes.extend(self.needs.to_le_bytes());
        if self.command == PAIRED_JOB {
            bytes.extend(self.absent.to_le_bytes());
        }
        bytes.extend(self.adds.to_le_bytes());
        bytes.extend(self.deletes.to_le_bytes());
        bytes.extend(self.seconds.to_le_bytes());
        bytes
    }

    /// Has its command a place for all that it needs?
    fn is_writable(&self) -> bool {
        self.command == PAIRED_JOB || self.command == JOB && self.absent == 0
    }

    /// "It is applicable when all its needs are held", and "One whose absent fact is held or unread is not applicable" (document 02, W10).
    pub fn is_applicable(&self, held: u64, unread: u64) -> bool {
        is_part(self.needs, held) && self.absent & (held | unread) == 0
    }

    /// "held becomes (held with adds) without deletes"
    pub fn finish(&self, held: u64) -> u64 {
        (held | self.adds) & !self.deletes
    }
}

#[derive(Clone, Debug, PartialEq, Eq)]
pub struct Table {
    pub facts: u32,
    pub jobs: Vec<Job>,
    pub goal: u64,
}

impl Table {
    pub fn has_only_known_facts(&self, mask: u64) -> bool {
        is_part(mask, all_facts(self.facts))
    }

    /// "once the table has a 0x21"
    pub fn is_paired(&self) -> bool {
        self.jobs.iter().any(|job| job.command == PAIRED_JOB)
    }

    /// What a list holds at most, however much is lent.
    pub fn most_entries(&self) -> usize {
        if self.is_paired() {
            MOST_PAIR_ENTRIES
        } else {
            MOST_ENTRIES
        }
    }

    pub fn bytes(&self) -> Vec<u8> {
        table_bytes(self.facts as u8, &self.jobs, self.goal)
    }
}

/// The command due at `at`: first its byte (1, 2), then its operands' presence (1).
fn table_command<'a>(bytes: &'a [u8], at: usize, allowed: &[u8]) -> Result<(u8, &'a [u8]), Refusal> {
    let Some(&command) = bytes.get(at) else {
        return refuse(1, bytes.len());
    };
    if !allowed.contains(&command) {
        return refuse(2, at);
    }
    match bytes.get(at + 1..at + 1 + width_of(command)) {
        Some(operands) => Ok((command, operands)),
        None => refuse(1, at),
    }
}

/// Reads a table, stops 1 to 7, 19 and 22.
pub fn read_table(bytes: &[u8]) -> Result<Table, Refusal> {
    let mut at = 0;
    let (_, operands) = table_command(bytes, at, &[FACTS])?;
    let facts = u32::from(operands[0]);
    if !(1..=64).contains(&facts) {
        return refuse(3, at);
    }
    at += 1 + width_of(FACTS);
    let beyond = |mask: u64| !is_part(mask, all_facts(facts));

    let mut jobs = Vec::new();
    let goal = loop {
        let (command, operands) = table_command(bytes, at, &[JOB, PAIRED_JOB, GOAL])?;
        if command == GOAL {
            let goal = u64_at(operands, 0);
            if beyond(goal) {
                return refuse(5, at);
            }
            break goal;
        }
        if jobs.len() == MOST_JOBS {
            return refuse(4, at);
        }
        let job = Job::from_operands(command, operands);
        if [job.needs, job.absent, job.adds, job.deletes].into_iter().any(beyond) {
            return refuse(5, at);
        }
        if job.adds & job.deletes != 0 || job.adds & job.needs != 0 {
            return refuse(6, at);
        }
        if job.seconds > MOST_SECONDS {
            return refuse(19, at);
        }
        if job.needs & job.absent != 0 {
            return refuse(22, at);
        }
        jobs.push(job);
        at += 1 + width_of(command);
    };
    at += 1 + width_of(GOAL);

    table_command(bytes, at, &[END_OF_TABLE])?;
    at += 1;
    if at < bytes.len() {
        return refuse(7, at);
    }
    Ok(Table { facts, jobs, goal })
}

/// One job by its number; 16 where the table has none.
pub fn read_job(bytes: &[u8], number: usize) -> Result<Job, Refusal> {
    let table = read_table(bytes)?;
    match table.jobs.get(number) {
        Some(job) => Ok(*job),
        None => refuse(16, 0),
    }
}

/// The bytes of a table, sound or not.
pub fn table_bytes(facts: u8, jobs: &[Job], goal: u64) -> Vec<u8> {
    let mut bytes = vec![FACTS, facts];
    for job in jobs {
        bytes.extend(job.bytes());
    }
    bytes.push(GOAL);
    bytes.extend(goal.to_le_bytes());
    bytes.push(END_OF_TABLE);
    bytes
}

/// The columns that a table is written from; job i stands at i of each.
#[derive(Clone, Debug, Default)]
pub struct Columns {
    pub commands: Vec<u8>,
    pub needs: Vec<u64>,
    pub absent: Vec<u64>,
    pub adds: Vec<u64>,
    pub deletes: Vec<u64>,
    pub seconds: Vec<u16>,
}

impl Columns {
    pub fn of(jobs: &[Job]) -> Columns {
        Columns {
            commands: jobs.iter().map(|job| job.command).collect(),
            needs: jobs.iter().map(|job| job.needs).collect(),
            absent: jobs.iter().map(|job| job.absent).collect(),
            adds: jobs.iter().map(|job| job.adds).collect(),
            deletes: jobs.iter().map(|job| job.deletes).collect(),
            seconds: jobs.iter().map(|job| job.seconds).collect(),
        }
    }

    /// The jobs of columns of one length.
    fn jobs(&self) -> Option<Vec<Job>> {
        let lengths = [self.needs.len(), self.absent.len(), self.adds.len(), self.deletes.len(), self.seconds.len()];
        if lengths.into_iter().any(|length| length != self.commands.len()) {
            return None;
        }
        let job = |i: usize| Job {
            command: self.commands[i],
            needs: self.needs[i],
            absent: self.absent[i],
            adds: self.adds[i],
            deletes: self.deletes[i],
            seconds: self.seconds[i],
        };
        Some((0..self.commands.len()).map(job).collect())
    }
}

/// Why a table was not written.
#[derive(Clone, Copy, Debug, PartialEq, Eq)]
pub enum Unwritten {
    Uneven,
    /// This job's command is neither 0x20 nor 0x21, or is 0x20 and it needs a fact absent.
    Unwritable(usize),
    Refused(Refusal),
    TooShort(usize),
}

/// Writes a table that can be read back, and gives the number of its bytes. Anything else leaves `out` as it was. A number of facts that no
/// byte holds is out of range (3) like any other.
pub fn write_table(facts: usize, columns: &Columns, goal: u64, out: &mut [u8]) -> Result<usize, Unwritten> {
    let Some(jobs) = columns.jobs() else {
        return Err(Unwritten::Uneven);
    };
    if let Some(row) = jobs.iter().position(|job| !job.is_writable()) {
        return Err(Unwritten::Unwritable(row));
    }
    let Ok(facts) = u8::try_from(facts) else {
        return Err(Unwritten::Refused(Refusal { number: 3, place: 0 }));
    };
    let bytes = table_bytes(facts, &jobs, goal);
    read_table(&bytes).map_err(Unwritten::Refused)?;
    if out.len() < bytes.len() {
        return Err(Unwritten::TooShort(bytes.len()));
    }
    out[..bytes.len()].copy_from_slice(&bytes);
    Ok(bytes.len())
}

/// Stop 8: a reading, or a card's masks.
fn judge_reading(table: &Table, held: u64, unread: u64) -> Result<(), Refusal> {
    if held & unread != 0 || !table.has_only_known_facts(held) || !table.has_only_known_facts(unread) {
        return refuse(8, 0);
    }
    Ok(())
}

// ---- conditions

/// "Conditions become pairs: facts to hold and facts to be absent" (document 02, W10). One of document 01 wants none absent.
#[derive(Clone, Copy, Debug, PartialEq, Eq)]
pub struct Condition {
    pub present: u64,
    pub absent: u64,
}

impl Condition {
    pub fn plain(mask: u64) -> Condition {
        Condition { present: mask, absent: 0 }
    }

    /// "one pair is part of another when both masks are"
    pub fn is_part_of(&self, other: Condition) -> bool {
        is_part(self.present, other.present) && is_part(self.absent, other.absent)
    }

    /// "when it holds all of the first and none of the second"
    pub fn is_met_by(&self, state: u64) -> bool {
        is_part(self.present, state) && self.absent & state == 0
    }

    /// "A pair that wants a fact both ways"
    pub fn contradicts_itself(&self) -> bool {
        self.present & self.absent != 0
    }

    /// "A condition fails if one of its facts is read and absent", or of the second ones held; "An unread fact of either mask leaves a condition
    /// open unless a read one fails it" (document 02, W10).
    pub fn status(&self, held: u64, unread: u64) -> Status {
        let read_absent = !held & !unread;
        let open = (self.present | self.absent) & unread;
        if self.present & read_absent != 0 || self.absent & held != 0 {
            Status::Failure
        } else if open != 0 {
            Status::Unsettled(open)
        } else {
            Status::Success
        }
    }
}

// ---- the plan

#[derive(Clone, Copy, Debug, PartialEq, Eq)]
pub struct Entry {
    pub condition: Condition,
    pub job: u8,
    pub parent: u16,
    pub depth: u16,
}

/// What ends an expansion.
#[derive(Clone, Copy, Debug, PartialEq, Eq)]
pub enum Ending {
    /// The start meets the last entry.
    Covered,
    /// A condition to be stored would exceed the capacity.
    Full,
    /// Every entry is expanded and the start, if there is one, meets none.
    Exhausted,
}

/// "A job serves a pair when it adds one of the first or deletes one of the second and undoes neither" (document 02, W10).
pub fn serves(job: &Job, condition: Condition) -> bool {
    let brings = job.adds & condition.present != 0 || job.deletes & condition.absent != 0;
    let undoes = job.deletes & condition.present != 0 || job.adds & condition.absent != 0;
    brings && !undoes
}

/// "its needs to the first without its adds, and its absent facts to the second without its deletes" (document 02, W10)
pub fn condition_before(job: &Job, condition: Condition) -> Condition {
    Condition {
        present: job.needs | (condition.present & !job.adds),
        absent: job.absent | (condition.absent & !job.deletes),
    }
}

/// Document 02, W6: "from the newest entry down to entry 0", "the newest that is a part". The list is as long as its first masks; second masks
/// that are not there are 0.
pub fn newest_part(listed: &[u64], absences: &[u64], condition: Condition) -> Option<usize> {
    let entry = |i: usize| Condition { present: listed[i], absent: absences.get(i).copied().unwrap_or(0) };
    (0..listed.len()).rev().find(|i| entry(*i).is_part_of(condition))
}

/// The list of document 01's Expansion; without a start that of document 02, W2, which "stops only when all entries are expanded or number 10
/// arises".
pub fn expand(table: &Table, start: Option<u64>, capacity: usize) -> (Vec<Entry>, Ending) {
    let covers_start = |condition: Condition| start.is_some_and(|start| condition.is_met_by(start));
    let mut list: Vec<Entry> = Vec::new();
    if capacity == 0 {
        return (list, Ending::Full);
    }
    let goal = Condition::plain(table.goal);
    list.push(Entry { condition: goal, job: NO_JOB, parent: 0, depth: 0 });
    if covers_start(goal) {
        return (list, Ending::Covered);
    }
    let mut expanded = 0;
    while expanded < list.len() {
        let parent = list[expanded];
        for (number, job) in table.jobs.iter().enumerate() {
            if !serves(job, parent.condition) {
                continue;
            }
            let condition = condition_before(job, parent.condition);
            if condition.contradicts_itself() || list.iter().any(|listed| listed.condition.is_part_of(condition)) {
                continue;
            }
            if list.len() == capacity {
                return (list, Ending::Full);
            }
            list.push(Entry { condition, job: number as u8, parent: expanded as u16, depth: parent.depth + 1 });
            if covers_start(condition) {
                return (list, Ending::Covered);
            }
        }
        expanded += 1;
    }
    (list, Ending::Exhausted)
}

/// The tree of a table's list: FALLBACK n; CONDITION of entry 0; for each later entry SEQUENCE 2, CONDITION, JOB; END. A condition is a 0x45
/// "once the table has a 0x21" (document 02, W10). Of a job that the tree does not name, "a waiting leaf" stands in its place (W12).
fn tree_naming(table: &Table, list: &[Entry], names: impl Fn(u8) -> bool) -> Vec<u8> {
    let paired = table.is_paired();
    let mut bytes = vec![FALLBACK];
    bytes.extend((list.len() as u16).to_le_bytes());
    for (i, entry) in list.iter().enumerate() {
        if i > 0 {
            bytes.push(SEQUENCE);
            bytes.extend(2u16.to_le_bytes());
        }
        bytes.push(if paired { PAIR } else { CONDITION });
        bytes.extend(entry.condition.present.to_le_bytes());
        if paired {
            bytes.extend(entry.condition.absent.to_le_bytes());
        }
        if i > 0 && names(entry.job) {
            bytes.extend([JOB_LEAF, entry.job]);
        } else if i > 0 {
            bytes.push(WAITING_LEAF);
        }
    }
    bytes.push(END_OF_TREE);
    bytes
}

/// The tree that names every job: document 01's.
pub fn tree_bytes(table: &Table, list: &[Entry]) -> Vec<u8> {
    tree_naming(table, list, |_| true)
}

/// The jobs "from the covering entry along parents to entry 0", in the order in which they are worked.
pub fn way_from(list: &[Entry], entry: usize) -> Vec<u8> {
    let mut jobs = Vec::new();
    let mut at = entry;
    while at != 0 {
        jobs.push(list[at].job);
        at = usize::from(list[at].parent);
    }
    jobs
}

/// Listed seconds of a row of jobs.
pub fn seconds_of(table: &Table, jobs: &[u8]) -> i64 {
    jobs.iter().map(|job| i64::from(table.jobs[usize::from(*job)].seconds)).sum()
}

/// "to the nearest minute with an exact half going to the even one" (document 02, W1): of the two minutes around the seconds the nearer one,
/// and of two that are as near the even one.
pub fn minutes(seconds: i64) -> i64 {
    let before = seconds.div_euclid(60);
    let after = before + 1;
    let (since, until) = (seconds - before * 60, after * 60 - seconds);
    match since.cmp(&until) {
        Ordering::Less => before,
        Ordering::Greater => after,
        Ordering::Equal if before % 2 == 0 => before,
        Ordering::Equal => after,
    }
}

/// The slices that a plan is lent: the second masks ("a further lent table") are of account under a table with a 0x21 only.
#[derive(Clone, Debug, Default, PartialEq, Eq)]
pub struct Lent {
    pub conditions: Vec<u64>,
    pub absences: Vec<u64>,
    pub jobs: Vec<u8>,
    pub parents: Vec<u16>,
    pub depths: Vec<u16>,
    pub tree: Vec<u8>,
}

/// How many elements of each slice are lent, in the order of `Lent`.
pub type Lengths = [usize; 6];

/// "the four list tables", as a call is lent them.
#[derive(Debug)]
pub struct Lists<'a> {
    pub conditions: &'a mut [u64],
    pub jobs: &'a mut [u8],
    pub parents: &'a mut [u16],
    pub depths: &'a mut [u16],
}

/// How many elements of each list table are lent, in the order of `Lists`.
pub type ListLengths = [usize; 4];

impl<'a> Lists<'a> {
    /// The first so many elements of each.
    pub fn first(self, [conditions, jobs, parents, depths]: ListLengths) -> Lists<'a> {
        Lists {
            conditions: &mut self.conditions[..conditions],
            jobs: &mut self.jobs[..jobs],
            parents: &mut self.parents[..parents],
            depths: &mut self.depths[..depths],
        }
    }

    fn shortest(&self) -> usize {
        self.conditions.len().min(self.jobs.len()).min(self.parents.len()).min(self.depths.len())
    }

    fn store(&mut self, list: &[Entry]) {
        for (i, entry) in list.iter().enumerate() {
            self.conditions[i] = entry.condition.present;
            self.jobs[i] = entry.job;
            self.parents[i] = entry.parent;
            self.depths[i] = entry.depth;
        }
    }
}

impl Lent {
    /// Slices of these lengths, each filled with a pattern.
    pub fn filled(lengths: Lengths, pattern: u64) -> Lent {
        let fill = |i: usize| (i as u64 ^ pattern).wrapping_mul(0x9e37_79b9_7f4a_7c15);
        Lent {
            conditions: (0..lengths[0]).map(fill).collect(),
            absences: (0..lengths[1]).map(|i| fill(i).rotate_left(20)).collect(),
            jobs: (0..lengths[2]).map(|i| (fill(i) >> 56) as u8).collect(),
            parents: (0..lengths[3]).map(|i| (fill(i) >> 40) as u16).collect(),
            depths: (0..lengths[4]).map(|i| (fill(i) >> 32) as u16).collect(),
            tree: (0..lengths[5]).map(|i| (fill(i) >> 48) as u8).collect(),
        }
    }

    /// All that a plan can use.
    pub fn full() -> Lent {
        Lent::filled([MOST_ENTRIES, MOST_ENTRIES, MOST_ENTRIES, MOST_ENTRIES, MOST_ENTRIES, MOST_TREE_BYTES], 0)
    }

    pub fn lists(&mut self) -> Lists<'_> {
        Lists {
            conditions: &mut self.conditions,
            jobs: &mut self.jobs,
            parents: &mut self.parents,
            depths: &mut self.depths,
        }
    }

    fn store(&mut self, table: &Table, list: &[Entry]) {
        self.lists().store(list);
        if table.is_paired() {
            for (i, entry) in list.iter().enumerate() {
                self.absences[i] = entry.condition.absent;
            }
        }
    }

    /// The tree's bytes, or stop 12.
    fn store_tree(&mut self, table: &Table, list: &[Entry]) -> Result<usize, Refusal> {
        let [bytes] = store_trees(list, [tree_bytes(table, list)], [&mut self.tree])?;
        Ok(bytes)
    }

    /// The list that a start ends, stored; or stops 8 to 11.
    fn store_list_for(&mut self, table: &Table, held: u64, unread: u64) -> Result<Vec<Entry>, Refusal> {
        judge_reading(table, held, unread)?;
        if unread != 0 {
            return refuse(9, 0);
        }
        let (list, ending) = expand(table, Some(held), self.capacity(table));
        self.store(table, &list);
        match ending {
            Ending::Full => refuse(10, list.len()),
            Ending::Exhausted => refuse(11, list.len()),
            Ending::Covered => Ok(list),
        }
    }

    /// "the shortest of the four lent list tables", and with a 0x21 of the fifth, "which the capacity covers".
    fn capacity(&mut self, table: &Table) -> usize {
        let four = self.lists().shortest().min(table.most_entries());
        if table.is_paired() {
            four.min(self.absences.len())
        } else {
            four
        }
    }

    /// The first entries of a table's list.
    pub fn list(&self, paired: bool, entries: usize) -> Vec<Entry> {
        let entry = |i: usize| Entry {
            condition: Condition { present: self.conditions[i], absent: if paired { self.absences[i] } else { 0 } },
            job: self.jobs[i],
            parent: self.parents[i],
            depth: self.depths[i],
        };
        (0..entries).map(entry).collect()
    }
}

/// Writes a list's trees, each into the slice lent for it, and gives their bytes; stop 12 where one slice is too short, "judged by each tree's own
/// bytes, for both before either is written" (document 02, W12).
fn store_trees<const N: usize>(
    list: &[Entry],
    trees: [Vec<u8>; N],
    lent: [&mut Vec<u8>; N],
) -> Result<[usize; N], Refusal> {
    if lent.iter().zip(&trees).any(|(lent, tree)| lent.len() < tree.len()) {
        return refuse(12, list.len());
    }
    for (lent, tree) in lent.into_iter().zip(&trees) {
        lent[..tree.len()].copy_from_slice(tree);
    }
    Ok(trees.map(|tree| tree.len()))
}

#[derive(Clone, Copy, Debug, PartialEq, Eq)]
pub struct Planned {
    pub entries: usize,
    pub tree_bytes: usize,
    pub way_jobs: usize,
    pub way_minutes: i64,
    /// Are there second masks?
    pub paired: bool,
}

/// What a plan for the whole shift tells.
#[derive(Clone, Copy, Debug, PartialEq, Eq)]
pub struct ShiftPlanned {
    pub entries: usize,
    pub tree_bytes: usize,
    pub paired: bool,
}

/// Plans from a start: the table's stops, then 8 to 12.
pub fn plan(table: &[u8], held: u64, unread: u64, lent: &mut Lent) -> Result<Planned, Refusal> {
    let table = read_table(table)?;
    let list = lent.store_list_for(&table, held, unread)?;
    let tree_bytes = lent.store_tree(&table, &list)?;
    let way = named(&table, &read_tree(&lent.tree[..tree_bytes], &table)?, held);
    Ok(Planned {
        entries: list.len(),
        tree_bytes,
        way_jobs: way.len(),
        way_minutes: minutes(seconds_of(&table, &way)),
        paired: table.is_paired(),
    })
}

/// Plans for the whole shift (document 02, W2), the table's stops, then 10 and 12.
pub fn plan_shift(table: &[u8], lent: &mut Lent) -> Result<ShiftPlanned, Refusal> {
    let table = read_table(table)?;
    let (list, ending) = expand(&table, None, lent.capacity(&table));
    lent.store(&table, &list);
    if ending == Ending::Full {
        return refuse(10, list.len());
    }
    let tree_bytes = lent.store_tree(&table, &list)?;
    Ok(ShiftPlanned { entries: list.len(), tree_bytes, paired: table.is_paired() })
}

// ---- the plan for two fitters (document 02, W12)

#[derive(Clone, Copy, Debug, PartialEq, Eq)]
pub enum Fitter {
    First,
    Second,
}

pub const FITTERS: [Fitter; 2] = [Fitter::First, Fitter::Second];

/// "1 first fitter, 2 second, 3 both"
pub const LICENCES: [u8; 3] = [1, 2, 3];

/// Whose a job with this licence is: "Jobs with 3 belong to the first fitter."
pub fn owner(licence: u8) -> Fitter {
    match licence {
        1 | 3 => Fitter::First,
        2 => Fitter::Second,
        _ => panic!("{licence} is no licence"),
    }
}

/// Stop 24: "A row of another length than the jobs is refused as 24 with place 0, then a licence of 0 or above 3 as 24 with its index".
fn judge_licences(table: &Table, licences: &[u8]) -> Result<(), Refusal> {
    if licences.len() != table.jobs.len() {
        return refuse(24, 0);
    }
    match licences.iter().position(|licence| !LICENCES.contains(licence)) {
        Some(index) => refuse(24, index),
        None => Ok(()),
    }
}

/// "a tree of his own in which the other's jobs are a waiting leaf"
pub fn fitter_tree_bytes(table: &Table, list: &[Entry], licences: &[u8], fitter: Fitter) -> Vec<u8> {
    tree_naming(table, list, |job| owner(licences[usize::from(job)]) == fitter)
}

/// The slices that a plan for two fitters is lent: the list tables, and a tree for each.
#[derive(Clone, Debug, Default, PartialEq, Eq)]
pub struct TeamLent {
    /// Without a tree of its own.
    pub lists: Lent,
    /// In the order of `FITTERS`.
    pub trees: [Vec<u8>; 2],
}

impl TeamLent {
    /// Slices of these lengths, each filled with a pattern; the second fitter's tree comes last.
    pub fn filled(lengths: Lengths, second: usize, pattern: u64) -> TeamLent {
        let mut lists = Lent::filled(lengths, pattern);
        let first = std::mem::take(&mut lists.tree);
        TeamLent { lists, trees: [first, Lent::filled([0, 0, 0, 0, 0, second], !pattern).tree] }
    }
}

/// What a plan for two fitters tells.
#[derive(Clone, Copy, Debug, PartialEq, Eq)]
pub struct TeamPlanned {
    pub entries: usize,
    /// In the order of `FITTERS`.
    pub tree_bytes: [usize; 2],
    pub paired: bool,
}

/// "One list is planned for the team, and each fitter has a tree of his own": the table's stops, then 24, then 8 to 12.
pub fn plan_team(
    table: &[u8],
    licences: &[u8],
    held: u64,
    unread: u64,
    lent: &mut TeamLent,
) -> Result<TeamPlanned, Refusal> {
    let table = read_table(table)?;
    judge_licences(&table, licences)?;
    let list = lent.lists.store_list_for(&table, held, unread)?;
    let trees = FITTERS.map(|fitter| fitter_tree_bytes(&table, &list, licences, fitter));
    let tree_bytes = store_trees(&list, trees, lent.trees.each_mut())?;
    Ok(TeamPlanned { entries: list.len(), tree_bytes, paired: table.is_paired() })
}

// ---- the tree

#[derive(Clone, Copy, Debug, PartialEq, Eq)]
pub enum Kind {
    Fallback,
    Sequence,
}

/// A node; leaves know their offset.
#[derive(Clone, Debug, PartialEq, Eq)]
pub enum Node {
    Inner { kind: Kind, children: Vec<Node> },
    Condition { condition: Condition, offset: usize },
    Job { number: u8, offset: usize },
    Waiting { offset: usize },
}

/// Reads the node at `*at` and moves `*at` past it.
fn read_node(bytes: &[u8], table: &Table, at: &mut usize, depth: usize) -> Result<Node, Refusal> {
    let offset = *at;
    // 13: the command byte, then its operands' presence, then the child count.
    let Some(&command) = bytes.get(offset) else {
        return refuse(13, bytes.len());
    };
    if ![FALLBACK, SEQUENCE, CONDITION, JOB_LEAF, PAIR, WAITING_LEAF].contains(&command) {
        return refuse(13, offset);
    }
    let end = offset + 1 + width_of(command);
    let Some(operands) = bytes.get(offset + 1..end) else {
        return refuse(13, offset);
    };
    let mut count = 0;
    if command == FALLBACK || command == SEQUENCE {
        count = usize::from(u16_at(operands, 0));
        if !(1..=MOST_CHILDREN).contains(&count) {
            return refuse(13, offset);
        }
    }
    if depth > MOST_DEPTH {
        return refuse(14, offset);
    }
    *at = end;
    match command {
        CONDITION | PAIR => {
            let absent = if command == PAIR { u64_at(operands, 8) } else { 0 };
            let condition = Condition { present: u64_at(operands, 0), absent };
            if !table.has_only_known_facts(condition.present | condition.absent) {
                return refuse(15, offset);
            }
            Ok(Node::Condition { condition, offset })
        }
        JOB_LEAF => {
            let number = operands[0];
            if usize::from(number) >= table.jobs.len() {
                return refuse(15, offset);
            }
            Ok(Node::Job { number, offset })
        }
        WAITING_LEAF => Ok(Node::Waiting { offset }),
        _ => {
            let kind = if command == FALLBACK { Kind::Fallback } else { Kind::Sequence };
            let mut children = Vec::new();
            for _ in 0..count {
                children.push(read_node(bytes, table, at, depth + 1)?);
            }
            Ok(Node::Inner { kind, children })
        }
    }
}

/// Reads a whole tree, stops 13 to 15: "its length first, then nodes in byte order, then END".
pub fn read_tree(bytes: &[u8], table: &Table) -> Result<Node, Refusal> {
    if bytes.len() > MOST_TREE_BYTES {
        return refuse(13, 0);
    }
    let mut at = 0;
    let root = read_node(bytes, table, &mut at, 1)?;
    if bytes.get(at) != Some(&END_OF_TREE) {
        return refuse(13, at);
    }
    at += 1;
    if at < bytes.len() {
        return refuse(13, at);
    }
    Ok(root)
}

#[derive(Clone, Copy, Debug, PartialEq, Eq)]
pub enum Status {
    Success,
    Failure,
    Running(u8),
    Unsettled(u64),
    /// Running without a job: the leaf that "answers Running and names no job" (document 02, W12).
    Waiting,
}

/// An answer and the offset of the leaf that decided it.
#[derive(Clone, Copy, Debug, PartialEq, Eq)]
pub struct Ticked {
    pub status: Status,
    pub leaf: usize,
}

/// Ticks a node on a sound reading.
pub fn tick_node(node: &Node, held: u64, unread: u64) -> Ticked {
    match node {
        Node::Condition { condition, offset } => Ticked { status: condition.status(held, unread), leaf: *offset },
        Node::Job { number, offset } => Ticked { status: Status::Running(*number), leaf: *offset },
        Node::Waiting { offset } => Ticked { status: Status::Waiting, leaf: *offset },
        Node::Inner { kind, children } => {
            let goes_on = match kind {
                Kind::Sequence => Status::Success,
                Kind::Fallback => Status::Failure,
            };
            let mut last = None;
            for child in children {
                let answer = tick_node(child, held, unread);
                last = Some(answer);
                if answer.status != goes_on {
                    break;
                }
            }
            last.expect("a node has at least one child")
        }
    }
}

/// Ticks a tree on a reading: the table's stops, then 8, then 13 to 15.
pub fn tick(table: &[u8], tree: &[u8], held: u64, unread: u64) -> Result<Ticked, Refusal> {
    let table = read_table(table)?;
    judge_reading(&table, held, unread)?;
    let root = read_tree(tree, &table)?;
    Ok(tick_node(&root, held, unread))
}

/// "the jobs that ticks name from the start, each with its listed effect" (document 02, W5). Any answer but a job ends them; on a tree that a plan
/// did not build, or from a state that it does not cover, they need not end.
pub fn named(table: &Table, root: &Node, start: u64) -> Vec<u8> {
    let mut jobs = Vec::new();
    let mut state = start;
    while let Status::Running(number) = tick_node(root, state, 0).status {
        jobs.push(number);
        state = table.jobs[usize::from(number)].finish(state);
    }
    jobs
}

// ---- from the tree back to the list (document 02, W7)

/// The list of a sound tree, if there is one: "accepted exactly when document 01's plan would write those bytes for some start". Every start's list is a
/// beginning of the whole list. Every beginning is some start's, since its last condition is a state that meets no condition before it. Of a table with a
/// 0x21 there is none: "under others W7 gives 20 for every sound tree" (W10).
fn list_of_tree(table: &Table, tree: &[u8], root: &Node) -> Option<Vec<Entry>> {
    match root {
        Node::Inner { children, .. } if !table.is_paired() => {
            let (beginning, _) = expand(table, None, children.len());
            (tree_bytes(table, &beginning) == tree).then_some(beginning)
        }
        _ => None,
    }
}

/// "Given a table and a tree, rebuild the four list tables": the table's stops, then 13 to 15, then 20, then 10, and "list tables are untouched in each
/// case". Gives the number of entries.
pub fn recover(table: &[u8], tree: &[u8], mut lists: Lists) -> Result<usize, Refusal> {
    let table = read_table(table)?;
    let root = read_tree(tree, &table)?;
    let Some(list) = list_of_tree(&table, tree, &root) else {
        return refuse(20, 0);
    };
    if lists.shortest() < list.len() {
        return refuse(10, 0);
    }
    lists.store(&list);
    Ok(list.len())
}

// ---- the distances of all states (document 02, W13)

/// "for each state the fewest jobs to the goal, or 65,535 for none". The library works them out forward. Here the search goes the other way, so that the
/// two have little in common: breadth-first from the states that hold the goal, along the jobs in reverse.
fn fewest_jobs(table: &Table) -> Vec<u16> {
    let states = 1 << table.facts;
    // For each state, those from which one job leads to it.
    let mut before = vec![Vec::new(); states];
    for state in 0..states {
        for job in &table.jobs {
            if job.is_applicable(state as u64, 0) {
                before[job.finish(state as u64) as usize].push(state);
            }
        }
    }
    let mut fewest = vec![NO_DISTANCE; states];
    let mut queue = VecDeque::new();
    for state in 0..states {
        if is_part(table.goal, state as u64) {
            fewest[state] = 0;
            queue.push_back(state);
        }
    }
    while let Some(state) = queue.pop_front() {
        for &earlier in &before[state] {
            if fewest[earlier] == NO_DISTANCE {
                fewest[earlier] = fewest[state] + 1;
                queue.push_back(earlier);
            }
        }
    }
    fewest
}

/// "A lent row of 16-bit numbers, indexed by the held mask": the table's stops, then 25, then 26. Gives the number of states.
pub fn distances(table: &[u8], row: &mut [u16]) -> Result<usize, Refusal> {
    let table = read_table(table)?;
    if table.facts > MOST_MEASURED_FACTS {
        return refuse(25, 0);
    }
    if row.len() != 1 << table.facts {
        return refuse(26, 0);
    }
    row.copy_from_slice(&fewest_jobs(&table));
    Ok(row.len())
}

// ---- the tick of a whole yard (document 02, W4)

/// What a batch of vehicles is asked by: the rows of a list, of which the second masks are of account under a table with a 0x21 only, and the rows of
/// readings.
#[derive(Clone, Copy, Debug)]
pub struct Batch<'a> {
    pub conditions: &'a [u64],
    pub absences: &'a [u64],
    pub jobs: &'a [u8],
    pub held: &'a [u64],
    pub unread: &'a [u64],
}

impl Batch<'_> {
    /// "as many entries as the shorter has" (document 02, W4), and with a 0x21 as the shortest of three. A tree has no parents and no depths.
    pub fn list(&self, paired: bool) -> Vec<Entry> {
        let two = self.conditions.len().min(self.jobs.len());
        let entries = if paired { two.min(self.absences.len()) } else { two };
        let entry = |i: usize| Entry {
            condition: Condition { present: self.conditions[i], absent: if paired { self.absences[i] } else { 0 } },
            job: self.jobs[i],
            parent: 0,
            depth: 0,
        };
        (0..entries).map(entry).collect()
    }

    /// The readings due, where there is room for so many answers: "as many as the shortest row has" (document 02, W4).
    fn readings(&self, room: usize) -> Vec<(u64, u64)> {
        self.held.iter().copied().zip(self.unread.iter().copied()).take(room).collect()
    }
}

/// What each vehicle is told, and the entries read.
#[derive(Clone, Debug, PartialEq, Eq)]
pub struct BatchTicked {
    pub answers: Vec<Status>,
    pub entries_read: usize,
}

/// "The answer also counts the entries read, each at most once: 0 for no vehicles, all if some vehicle fails every entry, else one more than the
/// furthest entry at which a vehicle stopped" (document 02, W4).
pub fn entries_read(list: &[Entry], readings: &[(u64, u64)]) -> usize {
    let stop = |(held, unread): &(u64, u64)| {
        list.iter().position(|entry| entry.condition.status(*held, *unread) != Status::Failure)
    };
    // None where one of them stops nowhere.
    let stops: Option<Vec<usize>> = readings.iter().map(stop).collect();
    match stops {
        Some(stops) => stops.into_iter().max().map_or(0, |furthest| furthest + 1),
        None => list.len(),
    }
}

/// "Each answer is what a single tick gives on the tree of that list" (document 02, W4): so that tree is written, read, and ticked for each vehicle.
/// The table's stops, then 8 with the vehicle, then 13, then 15 with the entry.
pub fn tick_all(table: &[u8], batch: Batch, room: usize) -> Result<BatchTicked, Refusal> {
    let table = read_table(table)?;
    let readings = batch.readings(room);
    for (vehicle, (held, unread)) in readings.iter().enumerate() {
        judge_reading(&table, *held, *unread).map_err(|refusal| Refusal { place: vehicle, ..refusal })?;
    }
    let list = batch.list(table.is_paired());
    if list.is_empty() || list.len() > table.most_entries() {
        return refuse(13, 0);
    }
    for (i, entry) in list.iter().enumerate() {
        let known_facts = table.has_only_known_facts(entry.condition.present | entry.condition.absent);
        let known_job = i == 0 || usize::from(entry.job) < table.jobs.len();
        if !known_facts || !known_job {
            return refuse(15, i);
        }
    }
    let root = read_tree(&tree_bytes(&table, &list), &table).expect("such a list has a sound tree");
    let answer = |(held, unread): &(u64, u64)| tick_node(&root, *held, *unread).status;
    let answers = readings.iter().map(answer).collect();
    Ok(BatchTicked { answers, entries_read: entries_read(&list, &readings) })
}

// ---- the job card

#[derive(Clone, Copy, Debug, Default, PartialEq, Eq)]
pub struct Card {
    pub held: u64,
    pub unread: u64,
    pub reports: u16,
    pub taken: u32,
    pub planned: u32,
}

/// Opens a card with a reading; "A new one has zero counts."
pub fn open(table: &[u8], held: u64, unread: u64, card: &mut Card) -> Result<(), Refusal> {
    let table = read_table(table)?;
    judge_reading(&table, held, unread)?;
    *card = Card { held, unread, reports: 0, taken: 0, planned: 0 };
    Ok(())
}

/// "a later outside reading replaces both masks, and the old masks are not judged then"
pub fn read_outside(table: &[u8], held: u64, unread: u64, card: &mut Card) -> Result<(), Refusal> {
    let table = read_table(table)?;
    judge_reading(&table, held, unread)?;
    card.held = held;
    card.unread = unread;
    Ok(())
}

/// Reports a finished job, stops 8 and 16 to 18 of the card.
pub fn report(table: &[u8], number: usize, seconds: u16, card: &mut Card) -> Result<(), Refusal> {
    let table = read_table(table)?;
    judge_reading(&table, card.held, card.unread)?;
    let Some(job) = table.jobs.get(number) else {
        return refuse(16, 0);
    };
    if !job.is_applicable(card.held, card.unread) {
        return refuse(17, 0);
    }
    let most = |seconds: u16| u64::from(seconds) * u64::from(card.reports);
    if card.reports == 65_535 || u64::from(card.taken) > most(65_535) || u64::from(card.planned) > most(MOST_SECONDS) {
        return refuse(18, 0);
    }
    card.held = job.finish(card.held);
    card.unread &= !(job.adds | job.deletes);
    card.reports += 1;
    card.taken += u32::from(seconds);
    card.planned += u32::from(job.seconds);
    Ok(())
}

/// What a card knows of a fact: "held, absent or unread" (document 02, W14).
#[derive(Clone, Copy, Debug, PartialEq, Eq)]
pub enum Knowledge {
    Held,
    Absent,
    Unread,
}

/// Of each fact, in the order of their numbers, what sound masks say.
pub fn knowledge_of(facts: u32, held: u64, unread: u64) -> Vec<Knowledge> {
    let has = |mask: u64, fact: u32| mask / 2u64.pow(fact) % 2 == 1;
    let of_fact = |fact: u32| match (has(held, fact), has(unread, fact)) {
        (true, _) => Knowledge::Held,
        (_, true) => Knowledge::Unread,
        _ => Knowledge::Absent,
    };
    (0..facts).map(of_fact).collect()
}

/// The facts of which this is known.
pub fn mask_where(row: &[Knowledge], known: Knowledge) -> u64 {
    let values = (0..row.len()).filter(|fact| row[*fact] == known).map(|fact| 2u64.pow(fact as u32));
    values.sum()
}

/// Stop 27: "A map of the wrong length, a number outside the new table, or two facts sent to one". Many may be dropped.
fn judge_map(old: &Table, new: &Table, map: &[u8]) -> Result<(), Refusal> {
    if map.len() != old.facts as usize {
        return refuse(27, 0);
    }
    let mut taken = Vec::new();
    for number in map.iter().filter(|number| **number != DROPPED) {
        if u32::from(*number) >= new.facts || taken.contains(number) {
            return refuse(27, 0);
        }
        taken.push(*number);
    }
    Ok(())
}

/// A new table for a card in use (document 02, W14): the old table's stops, then the new one's, then 8 under the old one, then 27. "count and sums remain,
/// not judged by 18 here".
pub fn migrate(old_table: &[u8], new_table: &[u8], map: &[u8], card: &mut Card) -> Result<(), Refusal> {
    let old = read_table(old_table)?;
    let new = read_table(new_table)?;
    judge_reading(&old, card.held, card.unread)?;
    judge_map(&old, &new, map)?;
    let before = knowledge_of(old.facts, card.held, card.unread);
    // "Mapped facts carry held, absent or unread over, facts of the new table without a source become unread".
    let of_fact = |fact: u32| match map.iter().position(|number| u32::from(*number) == fact) {
        Some(source) => before[source],
        None => Knowledge::Unread,
    };
    let after: Vec<Knowledge> = (0..new.facts).map(of_fact).collect();
    card.held = mask_where(&after, Knowledge::Held);
    card.unread = mask_where(&after, Knowledge::Unread);
    Ok(())
}

/// "taken minus planned, with its sign, in whole minutes"
pub fn lateness(taken: u32, planned: u32) -> i64 {
    minutes(i64::from(taken) - i64::from(planned))
}

// ---- bayplan

/// What `bayplan` prints for the bytes of `bay.tab` and `start.bay`.
pub fn bayplan(table: &[u8], start: &[u8]) -> String {
    match bayplan_lines(table, start) {
        Ok(lines) => lines,
        Err(refusal) => format!("refused {} {}\n", refusal.number, refusal.place),
    }
}

fn bayplan_lines(table: &[u8], start: &[u8]) -> Result<String, Refusal> {
    // A start of another length is number 8, so the table's numbers come before it.
    read_table(table)?;
    if start.len() != 16 {
        return refuse(8, 0);
    }
    let mut lent = Lent::full();
    let planned = plan(table, u64_at(start, 0), u64_at(start, 8), &mut lent)?;
    Ok(plan_text(&planned, &lent))
}

/// A plan as it is printed; of a table with a 0x21 with the second masks, "each after the first" (document 02, W10).
pub fn plan_text(planned: &Planned, lent: &Lent) -> String {
    let mut text = format!("plan {} {}\n", planned.entries, planned.tree_bytes);
    for (i, entry) in lent.list(planned.paired, planned.entries).iter().enumerate() {
        let second = if planned.paired { format!("{:016x} ", entry.condition.absent) } else { String::new() };
        let job = if entry.job == NO_JOB { "-".to_string() } else { entry.job.to_string() };
        text += &format!("{i} {:016x} {second}{job} {} {}\n", entry.condition.present, entry.parent, entry.depth);
    }
    text + &format!("way {} {}\n", planned.way_jobs, planned.way_minutes)
}
