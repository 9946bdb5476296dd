//! Counterparts in Rust that are written for speed: no allocation, masks read once, the same loops as the paper's steps. `distances_backward` alone
//! works another way.

use bay_tests::engine::{minutes, Batch, Lent, Planned, Refusal, Status};

pub struct Header {
    pub facts: u32,
    pub count: usize,
    pub goal: u64,
    pub paired: bool,
}

fn refuse<T>(number: u64, place: usize) -> Result<T, Refusal> {
    Err(Refusal { number, place })
}

fn u64_at(bytes: &[u8], at: usize) -> u64 {
    u64::from_le_bytes(bytes[at..at + 8].try_into().expect("eight bytes"))
}

fn facts_beyond(facts: u32) -> u64 {
    if facts == 64 {
        0
    } else {
        u64::MAX << facts
    }
}

/// A job that needs facts absent has one mask more.
const JOB_WIDTH: usize = 26;
const PAIRED_JOB_WIDTH: usize = 34;

struct JobOperands {
    needs: u64,
    absent: u64,
    adds: u64,
    deletes: u64,
    seconds: u16,
}

/// The operands, of so many bytes, of the job at its command; None where they are cut.
#[inline(always)]
fn job_operands<const WIDTH: usize>(bytes: &[u8], at: usize) -> Option<JobOperands> {
    let operands = bytes[at + 1..].first_chunk::<WIDTH>()?;
    let effects = WIDTH - 18;
    Some(JobOperands {
        needs: u64_at(operands, 0),
        absent: if WIDTH == PAIRED_JOB_WIDTH { u64_at(operands, 8) } else { 0 },
        adds: u64_at(operands, effects),
        deletes: u64_at(operands, effects + 8),
        seconds: u16::from_le_bytes([operands[effects + 16], operands[effects + 17]]),
    })
}

/// Judges a job that comes after `count` others, and gives where it ends.
#[inline(always)]
fn judge_job<const WIDTH: usize>(bytes: &[u8], at: usize, count: usize, beyond: u64) -> Result<usize, Refusal> {
    let Some(job) = job_operands::<WIDTH>(bytes, at) else { return refuse(1, at) };
    if count == 128 {
        return refuse(4, at);
    }
    if (job.needs | job.absent | job.adds | job.deletes) & beyond != 0 {
        return refuse(5, at);
    }
    if job.adds & (job.needs | job.deletes) != 0 {
        return refuse(6, at);
    }
    if job.seconds > 5_400 {
        return refuse(19, at);
    }
    if job.needs & job.absent != 0 {
        return refuse(22, at);
    }
    Ok(at + 1 + WIDTH)
}

/// Reads a table, stops 1 to 7, 19 and 22.
pub fn read_table(bytes: &[u8]) -> Result<Header, Refusal> {
    let length = bytes.len();
    if length < 2 {
        return if length == 1 && bytes[0] != 0x10 { refuse(2, 0) } else { refuse(1, 0) };
    }
    if bytes[0] != 0x10 {
        return refuse(2, 0);
    }
    let facts = u32::from(bytes[1]);
    if facts == 0 || facts > 64 {
        return refuse(3, 0);
    }
    let beyond = facts_beyond(facts);
    let mut count = 0;
    let mut paired = false;
    let mut at = 2;
    while at < length {
        at = match bytes[at] {
            0x20 => judge_job::<JOB_WIDTH>(bytes, at, count, beyond)?,
            0x21 => {
                paired = true;
                judge_job::<PAIRED_JOB_WIDTH>(bytes, at, count, beyond)?
            }
            _ => break,
        };
        count += 1;
    }
    if at >= length {
        return refuse(1, length);
    }
    if bytes[at] != 0x30 {
        return refuse(2, at);
    }
    let Some(operand) = bytes[at + 1..].first_chunk::<8>() else { return refuse(1, at) };
    let goal = u64::from_le_bytes(*operand);
    if goal & beyond != 0 {
        return refuse(5, at);
    }
    at += 9;
    match bytes.get(at) {
        None => return refuse(1, length),
        Some(0x3f) => {}
        Some(_) => return refuse(2, at),
    }
    if at + 1 < length {
        return refuse(7, at + 1);
    }
    Ok(Header { facts, count, goal, paired })
}

fn judge_reading(facts: u32, held: u64, unread: u64) -> Result<(), Refusal> {
    if held & unread != 0 || (held | unread) & facts_beyond(facts) != 0 {
        return refuse(8, 0);
    }
    Ok(())
}

/// The jobs of a table, read once.
struct Jobs {
    needs: [u64; 128],
    absent: [u64; 128],
    adds: [u64; 128],
    deletes: [u64; 128],
    seconds: [u16; 128],
}

#[inline(always)]
fn read_jobs(table: &[u8], count: usize) -> Jobs {
    let mut jobs = Jobs { needs: [0; 128], absent: [0; 128], adds: [0; 128], deletes: [0; 128], seconds: [0; 128] };
    let mut at = 2;
    for i in 0..count {
        let (job, width) = if table[at] == 0x21 {
            (job_operands::<PAIRED_JOB_WIDTH>(table, at), PAIRED_JOB_WIDTH)
        } else {
            (job_operands::<JOB_WIDTH>(table, at), JOB_WIDTH)
        };
        let job = job.expect("a sound table");
        jobs.needs[i] = job.needs;
        jobs.absent[i] = job.absent;
        jobs.adds[i] = job.adds;
        jobs.deletes[i] = job.deletes;
        jobs.seconds[i] = job.seconds;
        at += 1 + width;
    }
    jobs
}

/// Plans into the lent slices.
pub fn plan(table: &[u8], held: u64, unread: u64, lent: &mut Lent) -> Result<Planned, Refusal> {
    let header = read_table(table)?;
    judge_reading(header.facts, held, unread)?;
    if unread != 0 {
        return refuse(9, 0);
    }
    let jobs = read_jobs(table, header.count);
    // One text of the loops; a table without 0x21 has none of the work on second masks.
    if header.paired {
        plan_jobs::<true>(&header, &jobs, held, lent)
    } else {
        plan_jobs::<false>(&header, &jobs, held, lent)
    }
}

fn plan_jobs<const PAIRED: bool>(header: &Header, jobs: &Jobs, held: u64, lent: &mut Lent) -> Result<Planned, Refusal> {
    let lengths = [lent.conditions.len(), lent.jobs.len(), lent.parents.len(), lent.depths.len()];
    let mut capacity = lengths.into_iter().fold(if PAIRED { 2_978 } else { 4_096 }, usize::min);
    if PAIRED {
        capacity = capacity.min(lent.absences.len());
    }
    if capacity == 0 {
        return refuse(10, 0);
    }
    lent.conditions[0] = header.goal;
    if PAIRED {
        lent.absences[0] = 0;
    }
    lent.jobs[0] = 255;
    lent.parents[0] = 0;
    lent.depths[0] = 0;
    let mut n = 1;
    if header.goal & !held != 0 {
        let mut expanded = 0;
        'expansion: loop {
            if expanded == n {
                return refuse(11, n);
            }
            let condition = lent.conditions[expanded];
            let absence = if PAIRED { lent.absences[expanded] } else { 0 };
            for job in 0..header.count {
                let (adds, deletes) = (jobs.adds[job], jobs.deletes[job]);
                let brings = adds & condition != 0 || PAIRED && deletes & absence != 0;
                let undoes = deletes & condition != 0 || PAIRED && adds & absence != 0;
                if !brings || undoes {
                    continue;
                }
                let new = jobs.needs[job] | (condition & !adds);
                let new_absence = if PAIRED { jobs.absent[job] | (absence & !deletes) } else { 0 };
                if PAIRED && new & new_absence != 0 {
                    continue;
                }
                let mut found = false;
                for (i, listed) in lent.conditions[..n].iter().enumerate().rev() {
                    if listed & !new == 0 && (!PAIRED || lent.absences[i] & !new_absence == 0) {
                        found = true;
                        break;
                    }
                }
                if found {
                    continue;
                }
                if n == capacity {
                    return refuse(10, n);
                }
                lent.conditions[n] = new;
                if PAIRED {
                    lent.absences[n] = new_absence;
                }
                lent.jobs[n] = job as u8;
                lent.parents[n] = expanded as u16;
                lent.depths[n] = lent.depths[expanded] + 1;
                n += 1;
                if new & !held == 0 && new_absence & held == 0 {
                    break 'expansion;
                }
            }
            expanded += 1;
        }
    }
    let condition_size = if PAIRED { 17 } else { 9 };
    let entry_size = condition_size + 5;
    let tree_bytes = entry_size * n - 1;
    if lent.tree.len() < tree_bytes {
        return refuse(12, n);
    }
    let tree = &mut lent.tree[..tree_bytes];
    tree[0] = 0x41;
    tree[1..3].copy_from_slice(&(n as u16).to_le_bytes());
    let put_condition = |bytes: &mut [u8], i: usize| {
        bytes[0] = if PAIRED { 0x45 } else { 0x43 };
        bytes[1..9].copy_from_slice(&lent.conditions[i].to_le_bytes());
        if PAIRED {
            bytes[9..17].copy_from_slice(&lent.absences[i].to_le_bytes());
        }
    };
    put_condition(&mut tree[3..], 0);
    for i in 1..n {
        let at = entry_size * i - 2;
        let entry = &mut tree[at..at + entry_size];
        entry[..3].copy_from_slice(&[0x42, 2, 0]);
        put_condition(&mut entry[3..], i);
        entry[entry_size - 2..].copy_from_slice(&[0x44, lent.jobs[i]]);
    }
    tree[tree_bytes - 1] = 0x4f;
    let mut seconds = 0;
    let mut at = n - 1;
    while at != 0 {
        seconds += i64::from(jobs.seconds[usize::from(lent.jobs[at])]);
        at = usize::from(lent.parents[at]);
    }
    let way_jobs = usize::from(lent.depths[n - 1]);
    Ok(Planned { entries: n, tree_bytes, way_jobs, way_minutes: minutes(seconds), paired: PAIRED })
}

const SUCCESS: u8 = 0;
const FAILURE: u8 = 1;
const RUNNING: u8 = 2;
const UNSETTLED: u8 = 3;
const WAITING: u8 = 4;
const REFUSED: u8 = 5;

/// A walk over tree bytes. Numbers are kept here, so that a node's answer is one byte.
struct Walk<'a> {
    bytes: &'a [u8],
    at: usize,
    beyond: u64,
    jobs: u64,
    held: u64,
    unread: u64,
    /// The job or mask of the deciding leaf.
    value: u64,
    refusal: Refusal,
}

/// A command with its operand; the second one is a pair's.
type Command = (u8, u64, u64);

impl Walk<'_> {
    #[cold]
    fn refuse(&mut self, number: u64, place: usize) -> Option<Command> {
        self.refusal = Refusal { number, place };
        None
    }

    /// The command and operands at hand after the checks 13 to 15, and moves past them.
    #[inline(always)]
    fn checked(&mut self, depth: usize) -> Option<Command> {
        let at = self.at;
        let Some(&command) = self.bytes.get(at) else {
            return self.refuse(13, self.bytes.len());
        };
        let rest = &self.bytes[at + 1..];
        let (operand, second, width, is_beyond) = match command {
            0x43 => match rest.first_chunk() {
                Some(eight) => {
                    let mask = u64::from_le_bytes(*eight);
                    (mask, 0, 8, mask & self.beyond != 0)
                }
                None => return self.refuse(13, at),
            },
            0x45 => match rest.first_chunk::<16>() {
                Some(both) => {
                    let (present, absent) = (u64_at(both, 0), u64_at(both, 8));
                    (present, absent, 16, (present | absent) & self.beyond != 0)
                }
                None => return self.refuse(13, at),
            },
            0x44 => match rest.first() {
                Some(one) => (u64::from(*one), 0, 1, u64::from(*one) >= self.jobs),
                None => return self.refuse(13, at),
            },
            0x46 => (0, 0, 0, false),
            0x41 | 0x42 => match rest.first_chunk() {
                Some(two) => {
                    let children = u16::from_le_bytes(*two);
                    if children == 0 || children > 4_096 {
                        return self.refuse(13, at);
                    }
                    (u64::from(children), 0, 2, false)
                }
                None => return self.refuse(13, at),
            },
            _ => return self.refuse(13, at),
        };
        if depth > 16 {
            return self.refuse(14, at);
        }
        if is_beyond {
            return self.refuse(15, at);
        }
        self.at = at + 1 + width;
        Some((command, operand, second))
    }

    #[inline(always)]
    fn leaf(&mut self, (command, operand, second): Command) -> u8 {
        if command == 0x44 {
            self.value = operand;
            RUNNING
        } else if command == 0x46 {
            WAITING
        } else if operand & !(self.held | self.unread) != 0 || second & self.held != 0 {
            FAILURE
        } else if (operand | second) & self.unread != 0 {
            self.value = (operand | second) & self.unread;
            UNSETTLED
        } else {
            SUCCESS
        }
    }

    /// Ticks, or only checks, one node.
    fn node(&mut self, depth: usize, ticked: bool) -> u8 {
        match self.checked(depth) {
            None => REFUSED,
            Some((command, children, _)) if command <= 0x42 => self.row(command, children, depth + 1, ticked),
            Some(leaf) if ticked => self.leaf(leaf),
            Some(_) => SUCCESS,
        }
    }

    /// The children of a node from the left.
    fn row(&mut self, command: u8, children: u64, depth: usize, ticked: bool) -> u8 {
        let mut ticked = ticked;
        let mut answer = SUCCESS;
        for _ in 0..children {
            let child = self.node(depth, ticked);
            if child == REFUSED {
                return REFUSED;
            }
            if ticked {
                answer = child;
                ticked = goes_on(command, child);
            }
        }
        answer
    }

    /// One pass over the bytes with a row of open nodes, without calls.
    fn flat(&mut self) -> u8 {
        const NOTHING: usize = usize::MAX;
        let mut commands = [0u8; 17];
        let mut left = [0u64; 17];
        let mut open = 0;
        // The open node that is decided: the rest of it is only checked.
        let mut decided = NOTHING;
        let mut answer = SUCCESS;
        loop {
            let Some(node) = self.checked(open + 1) else { return REFUSED };
            if node.0 <= 0x42 {
                commands[open] = node.0;
                left[open] = node.1;
                open += 1;
                continue;
            }
            if decided == NOTHING {
                answer = self.leaf(node);
            }
            loop {
                if open == 0 {
                    return answer;
                }
                let top = open - 1;
                left[top] -= 1;
                if decided == NOTHING && !goes_on(commands[top], answer) {
                    decided = top;
                }
                if left[top] > 0 {
                    break;
                }
                if decided == top {
                    decided = NOTHING;
                }
                open = top;
            }
        }
    }
}

#[inline(always)]
fn goes_on(command: u8, answer: u8) -> bool {
    match answer {
        SUCCESS => command == 0x42,
        FAILURE => command == 0x41,
        _ => false,
    }
}

#[inline(always)]
fn tick_by(
    table: &[u8],
    bytes: &[u8],
    held: u64,
    unread: u64,
    root: impl Fn(&mut Walk) -> u8,
) -> Result<Status, Refusal> {
    let header = read_table(table)?;
    judge_reading(header.facts, held, unread)?;
    if bytes.len() > 65_535 {
        return refuse(13, 0);
    }
    let mut walk = Walk {
        bytes,
        at: 0,
        beyond: facts_beyond(header.facts),
        jobs: header.count as u64,
        held,
        unread,
        value: 0,
        refusal: Refusal { number: 0, place: 0 },
    };
    let answer = root(&mut walk);
    if answer == REFUSED {
        return Err(walk.refusal);
    }
    if bytes.get(walk.at) != Some(&0x4f) {
        return refuse(13, walk.at);
    }
    if walk.at + 1 < bytes.len() {
        return refuse(13, walk.at + 1);
    }
    Ok(match answer {
        SUCCESS => Status::Success,
        FAILURE => Status::Failure,
        RUNNING => Status::Running(walk.value as u8),
        WAITING => Status::Waiting,
        _ => Status::Unsettled(walk.value),
    })
}

/// Node and row call each other.
pub fn tick_by_calls(table: &[u8], tree: &[u8], held: u64, unread: u64) -> Result<Status, Refusal> {
    tick_by(table, tree, held, unread, |walk| walk.node(1, true))
}

/// One flat pass.
pub fn tick_flat(table: &[u8], tree: &[u8], held: u64, unread: u64) -> Result<Status, Refusal> {
    tick_by(table, tree, held, unread, |walk| walk.flat())
}

/// Ticks a list for every vehicle, entries outside and vehicles inside, and gives the entries read.
pub fn tick_all(table: &[u8], batch: Batch, statuses: &mut [u8], values: &mut [u64]) -> Result<usize, Refusal> {
    let header = read_table(table)?;
    // One text of the walk; a table without 0x21 has none of the work on second masks.
    if header.paired {
        tick_list::<true>(&header, batch, statuses, values)
    } else {
        tick_list::<false>(&header, batch, statuses, values)
    }
}

fn tick_list<const PAIRED: bool>(
    header: &Header,
    batch: Batch,
    statuses: &mut [u8],
    values: &mut [u64],
) -> Result<usize, Refusal> {
    let vehicles = [batch.held.len(), batch.unread.len(), values.len()].into_iter().fold(statuses.len(), usize::min);
    let (held, unread) = (&batch.held[..vehicles], &batch.unread[..vehicles]);
    let (statuses, values) = (&mut statuses[..vehicles], &mut values[..vehicles]);
    let beyond = facts_beyond(header.facts);
    for (vehicle, (held, unread)) in held.iter().zip(unread).enumerate() {
        if held & unread != 0 || (held | unread) & beyond != 0 {
            return refuse(8, vehicle);
        }
    }
    let mut entries = batch.conditions.len().min(batch.jobs.len());
    if PAIRED {
        entries = entries.min(batch.absences.len());
    }
    if entries == 0 || entries > if PAIRED { 2_978 } else { 4_096 } {
        return refuse(13, 0);
    }
    let (conditions, jobs) = (&batch.conditions[..entries], &batch.jobs[..entries]);
    let absences = if PAIRED { &batch.absences[..entries] } else { &[] };
    for entry in 0..entries {
        let facts = conditions[entry] | if PAIRED { absences[entry] } else { 0 };
        if facts & beyond != 0 || entry > 0 && usize::from(jobs[entry]) >= header.count {
            return refuse(15, entry);
        }
    }
    // The answer so far, which also marks who is still going.
    statuses.fill(FAILURE);
    values.fill(0);
    let mut going = vehicles > 0;
    let mut entry = 0;
    while going && entry < entries {
        let condition = conditions[entry];
        let absence = if PAIRED { absences[entry] } else { 0 };
        going = false;
        let readings = held.iter().zip(unread);
        for ((status, value), (held, unread)) in statuses.iter_mut().zip(values.iter_mut()).zip(readings) {
            if *status != FAILURE {
                continue;
            }
            let mut missed = condition & !(held | unread);
            if PAIRED {
                missed |= absence & held;
            }
            if missed != 0 {
                going = true;
                continue;
            }
            let open = (condition | absence) & unread;
            (*status, *value) = if open != 0 {
                (UNSETTLED, open)
            } else if entry > 0 {
                (RUNNING, u64::from(jobs[entry]))
            } else {
                (SUCCESS, 0)
            };
        }
        entry += 1;
    }
    Ok(entry)
}

/// The distance of a state from which no jobs lead to the goal.
const NO_DISTANCE: u16 = 65_535;

/// Stops 25 and 26 after those of the table.
fn judge_row(header: &Header, row: &[u16]) -> Result<(), Refusal> {
    if header.facts > 15 {
        return refuse(25, 0);
    }
    if row.len() != 1 << header.facts {
        return refuse(26, 0);
    }
    Ok(())
}

/// Puts the fewest jobs to the goal for each state, by sweeps over all states from the last one down, and gives how many states there are. After sweep
/// n, from 0, every state that is at most n + 1 jobs from the goal is final.
pub fn distances(table: &[u8], row: &mut [u16]) -> Result<usize, Refusal> {
    let header = read_table(table)?;
    judge_row(&header, row)?;
    let jobs = read_jobs(table, header.count);
    let (needs, absent) = (&jobs.needs[..header.count], &jobs.absent[..header.count]);
    let (adds, deletes) = (&jobs.adds[..header.count], &jobs.deletes[..header.count]);
    for (state, distance) in row.iter_mut().enumerate() {
        *distance = if header.goal & !(state as u64) == 0 { 0 } else { NO_DISTANCE };
    }
    let mut sweep = 0;
    let mut changed = true;
    while changed {
        changed = false;
        for state in (0..row.len()).rev() {
            let distance = row[state];
            // It is final already.
            if distance <= sweep + 1 {
                continue;
            }
            let held = state as u64;
            let mut nearest = NO_DISTANCE;
            for job in 0..header.count {
                if needs[job] & !held != 0 || absent[job] & held != 0 {
                    continue;
                }
                let after = row[((held | adds[job]) & !deletes[job]) as usize];
                if after < nearest {
                    nearest = after;
                    // No job leads nearer.
                    if nearest <= sweep {
                        break;
                    }
                }
            }
            if nearest < distance && nearest + 1 < distance {
                row[state] = nearest + 1;
                changed = true;
            }
        }
        sweep += 1;
    }
    Ok(row.len())
}

/// The same breadth-first from the goal backward, with lists of predecessors and a queue in memory of its own.
pub fn distances_backward(table: &[u8], row: &mut [u16]) -> Result<usize, Refusal> {
    const NONE: u32 = u32::MAX;
    let header = read_table(table)?;
    judge_row(&header, row)?;
    let jobs = read_jobs(table, header.count);
    // A step is one job from one state. Each state has the newest step that leads to it, and each step the next older one that leads to the same state.
    let mut newest = vec![NONE; row.len()];
    let mut steps: Vec<(u16, u32)> = Vec::new();
    for job in 0..header.count {
        let (needs, adds, deletes) = (jobs.needs[job], jobs.adds[job], jobs.deletes[job]);
        // The job is applicable with every part of the facts that it does not look at.
        let open = !(needs | jobs.absent[job] | facts_beyond(header.facts));
        let mut part = open;
        loop {
            let held = needs | part;
            let after = &mut newest[((held | adds) & !deletes) as usize];
            steps.push((held as u16, *after));
            *after = steps.len() as u32 - 1;
            if part == 0 {
                break;
            }
            part = (part - 1) & open;
        }
    }
    let mut queue = Vec::with_capacity(row.len());
    for (state, distance) in row.iter_mut().enumerate() {
        *distance = NO_DISTANCE;
        if header.goal & !(state as u64) == 0 {
            *distance = 0;
            queue.push(state as u16);
        }
    }
    let mut taken = 0;
    while taken < queue.len() {
        let state = usize::from(queue[taken]);
        taken += 1;
        let distance = row[state] + 1;
        let mut step = newest[state];
        while step != NONE {
            let (before, older) = steps[step as usize];
            if row[usize::from(before)] == NO_DISTANCE {
                row[usize::from(before)] = distance;
                queue.push(before);
            }
            step = older;
        }
    }
    Ok(row.len())
}
