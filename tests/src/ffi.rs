//! The C interface `include/bay.h`, with safe wrappers.
//!
//! Every wrapper lends an answer that is filled with a pattern and has spare words after it, and sees to it that the
//! returned number is the answer's first word and that the spare words stay as they were.

use std::sync::atomic::{AtomicU64, Ordering};

use bay_tests::engine::{Batch, Card, Columns, Condition, Lent, Lists, TeamLent};

extern "C" {
    fn bay_read_table(table: *const u8, table_len: usize, answer: *mut u64) -> u64;
    fn bay_read_job(table: *const u8, table_len: usize, job: usize, answer: *mut u64) -> u64;
    fn bay_write_table(
        facts: usize,
        commands: *const u8,
        commands_len: usize,
        needs: *const u64,
        needs_len: usize,
        absent: *const u64,
        absent_len: usize,
        adds: *const u64,
        adds_len: usize,
        deletes: *const u64,
        deletes_len: usize,
        seconds: *const u16,
        seconds_len: usize,
        goal: u64,
        out: *mut u8,
        out_len: usize,
        answer: *mut u64,
    ) -> u64;
    fn bay_plan(
        table: *const u8,
        table_len: usize,
        held: u64,
        unread: u64,
        conditions: *mut u64,
        conditions_len: usize,
        absences: *mut u64,
        absences_len: usize,
        jobs: *mut u8,
        jobs_len: usize,
        parents: *mut u16,
        parents_len: usize,
        depths: *mut u16,
        depths_len: usize,
        tree: *mut u8,
        tree_len: usize,
        answer: *mut u64,
    ) -> u64;
    fn bay_plan_shift(
        table: *const u8,
        table_len: usize,
        conditions: *mut u64,
        conditions_len: usize,
        absences: *mut u64,
        absences_len: usize,
        jobs: *mut u8,
        jobs_len: usize,
        parents: *mut u16,
        parents_len: usize,
        depths: *mut u16,
        depths_len: usize,
        tree: *mut u8,
        tree_len: usize,
        answer: *mut u64,
    ) -> u64;
    fn bay_plan_team(
        table: *const u8,
        table_len: usize,
        licences: *const u8,
        licences_len: usize,
        held: u64,
        unread: u64,
        conditions: *mut u64,
        conditions_len: usize,
        absences: *mut u64,
        absences_len: usize,
        jobs: *mut u8,
        jobs_len: usize,
        parents: *mut u16,
        parents_len: usize,
        depths: *mut u16,
        depths_len: usize,
        first: *mut u8,
        first_len: usize,
        second: *mut u8,
        second_len: usize,
        answer: *mut u64,
    ) -> u64;
    fn bay_newest_weaker(
        listed: *const u64,
        listed_len: usize,
        absences: *const u64,
        absences_len: usize,
        present: u64,
        absent: u64,
        answer: *mut u64,
    ) -> u64;
    fn bay_recover_list(
        table: *const u8,
        table_len: usize,
        tree: *const u8,
        tree_len: usize,
        conditions: *mut u64,
        conditions_len: usize,
        jobs: *mut u8,
        jobs_len: usize,
        parents: *mut u16,
        parents_len: usize,
        depths: *mut u16,
        depths_len: usize,
        answer: *mut u64,
    ) -> u64;
    fn bay_measure_distances(
        table: *const u8,
        table_len: usize,
        row: *mut u16,
        row_len: usize,
        answer: *mut u64,
    ) -> u64;
    fn bay_tick(
        table: *const u8,
        table_len: usize,
        tree: *const u8,
        tree_len: usize,
        held: u64,
        unread: u64,
        answer: *mut u64,
    ) -> u64;
    fn bay_tick_all(
        table: *const u8,
        table_len: usize,
        conditions: *const u64,
        conditions_len: usize,
        absences: *const u64,
        absences_len: usize,
        jobs: *const u8,
        jobs_len: usize,
        held: *const u64,
        held_len: usize,
        unread: *const u64,
        unread_len: usize,
        statuses: *mut u8,
        statuses_len: usize,
        values: *mut u64,
        values_len: usize,
        answer: *mut u64,
    ) -> u64;
    fn bay_open(
        table: *const u8,
        table_len: usize,
        held: u64,
        unread: u64,
        card_held: *mut u64,
        card_unread: *mut u64,
        card_reports: *mut u16,
        card_taken: *mut u32,
        card_planned: *mut u32,
        answer: *mut u64,
    ) -> u64;
    fn bay_read_outside(
        table: *const u8,
        table_len: usize,
        held: u64,
        unread: u64,
        card_held: *mut u64,
        card_unread: *mut u64,
        answer: *mut u64,
    ) -> u64;
    fn bay_report(
        table: *const u8,
        table_len: usize,
        job: usize,
        seconds: usize,
        card_held: *mut u64,
        card_unread: *mut u64,
        card_reports: *mut u16,
        card_taken: *mut u32,
        card_planned: *mut u32,
        answer: *mut u64,
    ) -> u64;
    fn bay_migrate(
        old_table: *const u8,
        old_table_len: usize,
        new_table: *const u8,
        new_table_len: usize,
        map: *const u8,
        map_len: usize,
        card_held: *mut u64,
        card_unread: *mut u64,
        answer: *mut u64,
    ) -> u64;
    fn bay_lateness(card_taken: *const u32, card_planned: *const u32) -> i64;
}

pub const TOO_SHORT: u64 = 100;
pub const UNEVEN: u64 = 101;
pub const SECONDS_OUT_OF_RANGE: u64 = 102;
pub const UNWRITABLE: u64 = 103;
pub const SUCCESS: u64 = 0;
pub const FAILURE: u64 = 1;
pub const RUNNING: u64 = 2;
pub const UNSETTLED: u64 = 3;
pub const WAITING: u64 = 4;

static CALLS: AtomicU64 = AtomicU64::new(0);

/// How often the library was called.
pub fn calls() -> u64 {
    CALLS.load(Ordering::Relaxed)
}

const PATTERN: u64 = 0xa5c3_96f0_5a3c_690f;
const SPARE: usize = 2;
const LONGEST: usize = 7;

/// Calls with an answer of `N` words.
fn answer_of<const N: usize>(call: impl FnOnce(*mut u64) -> u64) -> [u64; N] {
    let mut words = [PATTERN; LONGEST + SPARE];
    CALLS.fetch_add(1, Ordering::Relaxed);
    let returned = call(words.as_mut_ptr());
    let mut answer = [0; N];
    answer.copy_from_slice(&words[..N]);
    assert_eq!(returned, answer[0], "the returned number is not the answer's first word");
    assert!(words[N..].iter().all(|word| *word == PATTERN), "words past the answer were written");
    answer
}

pub fn read_table(table: &[u8]) -> [u64; 5] {
    answer_of(|answer| unsafe { bay_read_table(table.as_ptr(), table.len(), answer) })
}

pub fn read_job(table: &[u8], job: usize) -> [u64; 7] {
    answer_of(|answer| unsafe { bay_read_job(table.as_ptr(), table.len(), job, answer) })
}

pub fn write_table(facts: usize, columns: &Columns, goal: u64, out: &mut [u8]) -> [u64; 2] {
    answer_of(|answer| unsafe {
        bay_write_table(
            facts,
            columns.commands.as_ptr(),
            columns.commands.len(),
            columns.needs.as_ptr(),
            columns.needs.len(),
            columns.absent.as_ptr(),
            columns.absent.len(),
            columns.adds.as_ptr(),
            columns.adds.len(),
            columns.deletes.as_ptr(),
            columns.deletes.len(),
            columns.seconds.as_ptr(),
            columns.seconds.len(),
            goal,
            out.as_mut_ptr(),
            out.len(),
            answer,
        )
    })
}

pub fn plan(table: &[u8], held: u64, unread: u64, lent: &mut Lent) -> [u64; 6] {
    answer_of(|answer| unsafe {
        bay_plan(
            table.as_ptr(),
            table.len(),
            held,
            unread,
            lent.conditions.as_mut_ptr(),
            lent.conditions.len(),
            lent.absences.as_mut_ptr(),
            lent.absences.len(),
            lent.jobs.as_mut_ptr(),
            lent.jobs.len(),
            lent.parents.as_mut_ptr(),
            lent.parents.len(),
            lent.depths.as_mut_ptr(),
            lent.depths.len(),
            lent.tree.as_mut_ptr(),
            lent.tree.len(),
            answer,
        )
    })
}

pub fn plan_shift(table: &[u8], lent: &mut Lent) -> [u64; 4] {
    answer_of(|answer| unsafe {
        bay_plan_shift(
            table.as_ptr(),
            table.len(),
            lent.conditions.as_mut_ptr(),
            lent.conditions.len(),
            lent.absences.as_mut_ptr(),
            lent.absences.len(),
            lent.jobs.as_mut_ptr(),
            lent.jobs.len(),
            lent.parents.as_mut_ptr(),
            lent.parents.len(),
            lent.depths.as_mut_ptr(),
            lent.depths.len(),
            lent.tree.as_mut_ptr(),
            lent.tree.len(),
            answer,
        )
    })
}

pub fn plan_team(table: &[u8], licences: &[u8], held: u64, unread: u64, lent: &mut TeamLent) -> [u64; 5] {
    let TeamLent { lists, trees: [first, second] } = lent;
    answer_of(|answer| unsafe {
        bay_plan_team(
            table.as_ptr(),
            table.len(),
            licences.as_ptr(),
            licences.len(),
            held,
            unread,
            lists.conditions.as_mut_ptr(),
            lists.conditions.len(),
            lists.absences.as_mut_ptr(),
            lists.absences.len(),
            lists.jobs.as_mut_ptr(),
            lists.jobs.len(),
            lists.parents.as_mut_ptr(),
            lists.parents.len(),
            lists.depths.as_mut_ptr(),
            lists.depths.len(),
            first.as_mut_ptr(),
            first.len(),
            second.as_mut_ptr(),
            second.len(),
            answer,
        )
    })
}

pub fn newest_weaker(listed: &[u64], absences: &[u64], condition: Condition) -> [u64; 3] {
    answer_of(|answer| unsafe {
        bay_newest_weaker(
            listed.as_ptr(),
            listed.len(),
            absences.as_ptr(),
            absences.len(),
            condition.present,
            condition.absent,
            answer,
        )
    })
}

pub fn recover_list(table: &[u8], tree: &[u8], lists: Lists) -> [u64; 2] {
    answer_of(|answer| unsafe {
        bay_recover_list(
            table.as_ptr(),
            table.len(),
            tree.as_ptr(),
            tree.len(),
            lists.conditions.as_mut_ptr(),
            lists.conditions.len(),
            lists.jobs.as_mut_ptr(),
            lists.jobs.len(),
            lists.parents.as_mut_ptr(),
            lists.parents.len(),
            lists.depths.as_mut_ptr(),
            lists.depths.len(),
            answer,
        )
    })
}

pub fn measure_distances(table: &[u8], row: &mut [u16]) -> [u64; 2] {
    answer_of(|answer| unsafe {
        bay_measure_distances(table.as_ptr(), table.len(), row.as_mut_ptr(), row.len(), answer)
    })
}

pub fn tick(table: &[u8], tree: &[u8], held: u64, unread: u64) -> [u64; 3] {
    answer_of(|answer| unsafe {
        bay_tick(table.as_ptr(), table.len(), tree.as_ptr(), tree.len(), held, unread, answer)
    })
}

pub fn tick_all(table: &[u8], batch: Batch, statuses: &mut [u8], values: &mut [u64]) -> [u64; 2] {
    answer_of(|answer| unsafe {
        bay_tick_all(
            table.as_ptr(),
            table.len(),
            batch.conditions.as_ptr(),
            batch.conditions.len(),
            batch.absences.as_ptr(),
            batch.absences.len(),
            batch.jobs.as_ptr(),
            batch.jobs.len(),
            batch.held.as_ptr(),
            batch.held.len(),
            batch.unread.as_ptr(),
            batch.unread.len(),
            statuses.as_mut_ptr(),
            statuses.len(),
            values.as_mut_ptr(),
            values.len(),
            answer,
        )
    })
}

pub fn open(table: &[u8], held: u64, unread: u64, card: &mut Card) -> [u64; 2] {
    answer_of(|answer| unsafe {
        bay_open(
            table.as_ptr(),
            table.len(),
            held,
            unread,
            &mut card.held,
            &mut card.unread,
            &mut card.reports,
            &mut card.taken,
            &mut card.planned,
            answer,
        )
    })
}

pub fn read_outside(table: &[u8], held: u64, unread: u64, card: &mut Card) -> [u64; 2] {
    answer_of(|answer| unsafe {
        bay_read_outside(table.as_ptr(), table.len(), held, unread, &mut card.held, &mut card.unread, answer)
    })
}

pub fn report(table: &[u8], job: usize, seconds: usize, card: &mut Card) -> [u64; 2] {
    answer_of(|answer| unsafe {
        bay_report(
            table.as_ptr(),
            table.len(),
            job,
            seconds,
            &mut card.held,
            &mut card.unread,
            &mut card.reports,
            &mut card.taken,
            &mut card.planned,
            answer,
        )
    })
}

/// Lends the card's masks among words of a pattern, which must stay as they are.
pub fn migrate(old_table: &[u8], new_table: &[u8], map: &[u8], card: &mut Card) -> [u64; 2] {
    let mut words = [PATTERN, card.held, PATTERN, card.unread, PATTERN];
    let first = words.as_mut_ptr();
    let answer = answer_of(|answer| unsafe {
        bay_migrate(
            old_table.as_ptr(),
            old_table.len(),
            new_table.as_ptr(),
            new_table.len(),
            map.as_ptr(),
            map.len(),
            first.add(1),
            first.add(3),
            answer,
        )
    });
    let [before, held, between, unread, after] = words;
    assert_eq!([before, between, after], [PATTERN; 3], "words beside the card's masks were written");
    (card.held, card.unread) = (held, unread);
    answer
}

pub fn lateness(taken: u32, planned: u32) -> i64 {
    CALLS.fetch_add(1, Ordering::Relaxed);
    unsafe { bay_lateness(&taken, &planned) }
}
