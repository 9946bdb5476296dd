//! One call of the library beside the engine: the answers must agree, and so must everything lent, whole.
//!
//! The library gets copies of the inputs, which must come back unchanged. A difference panics with the case.

use bay_tests::engine::{
    self, Batch, BatchTicked, Card, Columns, Condition, Job, Lengths, Lent, ListLengths, Planned, Refusal,
    ShiftPlanned, Status, Table, TeamLent, TeamPlanned, Ticked, Unwritten,
};
use bay_tests::make::BatchRows;

use super::lent::{self, TeamLengths};
use crate::ffi;

use std::cell::RefCell;
use std::collections::BTreeMap;

thread_local! {
    /// How often each function gave each number.
    static REACHED: RefCell<BTreeMap<(&'static str, u64), u64>> = const { RefCell::new(BTreeMap::new()) };
}

pub fn reached(function: &'static str, number: u64) {
    REACHED.with(|counts| *counts.borrow_mut().entry((function, number)).or_insert(0) += 1);
}

/// The numbers that each function can give. Those of `migrate` are asked for with a sound old table too, so that the new one gives each of its own; and after
/// it number 18 arises on the card that went over, and never on the new one beside it.
const NUMBERS: [(&str, &[u64]); 18] = [
    ("read_table", &[0, 1, 2, 3, 4, 5, 6, 7, 19, 22]),
    ("read_job", &[0, 1, 2, 3, 4, 5, 6, 7, 16, 19, 22]),
    ("write_table", &[0, 3, 4, 5, 6, 19, 22, ffi::TOO_SHORT, ffi::UNEVEN, ffi::UNWRITABLE]),
    ("newest_weaker", &[0]),
    ("plan", &[0, 1, 2, 3, 4, 5, 6, 7, 8, 9, 10, 11, 12, 19, 22]),
    ("plan_shift", &[0, 1, 2, 3, 4, 5, 6, 7, 10, 12, 19, 22]),
    ("plan_team", &[0, 1, 2, 3, 4, 5, 6, 7, 8, 9, 10, 11, 12, 19, 22, 24]),
    ("recover_list", &[0, 1, 2, 3, 4, 5, 6, 7, 10, 13, 14, 15, 19, 20, 22]),
    ("measure_distances", &[0, 1, 2, 3, 4, 5, 6, 7, 19, 22, 25, 26]),
    ("tick", &[0, 1, 2, 3, 4, 5, 6, 7, 8, 13, 14, 15, 19, 22]),
    ("tick_all", &[0, 1, 2, 3, 4, 5, 6, 7, 8, 13, 15, 19, 22]),
    ("open", &[0, 1, 2, 3, 4, 5, 6, 7, 8, 19, 22]),
    ("read_outside", &[0, 1, 2, 3, 4, 5, 6, 7, 8, 19, 22]),
    ("report", &[0, 1, 2, 3, 4, 5, 6, 7, 8, 16, 17, 18, 19, 22, ffi::SECONDS_OUT_OF_RANGE]),
    ("migrate", &[0, 1, 2, 3, 4, 5, 6, 7, 8, 19, 22, 27]),
    (FROM_A_SOUND_TABLE, &[0, 1, 2, 3, 4, 5, 6, 7, 8, 19, 22, 27]),
    (ON_A_MIGRATED_CARD, &[0, 8, 16, 17, 18, ffi::SECONDS_OUT_OF_RANGE]),
    (ON_A_CARD_BESIDE_IT, &[0, 8, 16, 17, ffi::SECONDS_OUT_OF_RANGE]),
];

const FROM_A_SOUND_TABLE: &str = "migrate from a sound table";
pub const ON_A_MIGRATED_CARD: &str = "report on a migrated card";
pub const ON_A_CARD_BESIDE_IT: &str = "report on a new card beside it";

/// The last group: every function gave every number that it can, and no other.
pub fn every_number_reached() -> Result<(), String> {
    let counts = REACHED.with(|counts| counts.borrow().clone());
    for (function, numbers) in NUMBERS {
        let given: Vec<u64> = counts.keys().filter(|key| key.0 == function).map(|key| key.1).collect();
        if given != numbers {
            return Err(format!("{function} gave {given:?}, and not {numbers:?}"));
        }
        let shown: Vec<String> =
            numbers.iter().map(|number| format!("{number}: {}", counts[&(function, *number)])).collect();
        println!("  {function} gave {}", shown.join(", "));
    }
    Ok(())
}

fn hex(bytes: &[u8]) -> String {
    const SHOWN: usize = 600;
    let digits: String = bytes.iter().take(SHOWN).map(|byte| format!("{byte:02x}")).collect();
    if bytes.len() > SHOWN {
        format!("{digits}.. ({} bytes)", bytes.len())
    } else {
        digits
    }
}

/// The first numbers of a row, for a message that can be read.
fn shown_row<T: std::fmt::LowerHex + std::fmt::Debug>(row: &[T]) -> String {
    format!("{} of {:x?}", row.len(), &row[..row.len().min(60)])
}

fn shown_batch(batch: Batch) -> String {
    format!(
        "conditions {}, absences {}, jobs {}, held {}, unread {}",
        shown_row(batch.conditions),
        shown_row(batch.absences),
        shown_row(batch.jobs),
        shown_row(batch.held),
        shown_row(batch.unread)
    )
}

fn refused<const N: usize>(refusal: &Refusal) -> [u64; N] {
    let mut words = [0; N];
    words[0] = refusal.number;
    words[1] = refusal.place as u64;
    words
}

#[track_caller]
fn same<T: PartialEq + std::fmt::Debug>(library: T, engine: T, case: impl Fn() -> String) {
    if library != engine {
        panic!("{}\n  library {library:x?}\n  engine  {engine:x?}", case());
    }
}

/// The first place where two rows differ, for a message that can be read.
fn first_difference<T: PartialEq + std::fmt::Debug>(name: &str, library: &[T], engine: &[T]) -> Option<String> {
    let at = (0..library.len()).find(|i| library[*i] != engine[*i])?;
    Some(format!("{name}[{at}] of {}: library {:x?}, engine {:x?}", library.len(), library[at], engine[at]))
}

fn no_difference<const N: usize>(differences: [Option<String>; N], case: impl Fn() -> String) {
    if let Some(difference) = differences.into_iter().flatten().next() {
        panic!("{}\n  {difference}", case());
    }
}

/// The slices that a plan, a recovery of its list, or a count of distances is lent.
trait Slices: Clone {
    fn lengths(&self) -> Vec<usize>;

    /// The first place where two differ.
    fn difference(library: &Self, engine: &Self) -> Option<String>;
}

impl Slices for Lent {
    fn lengths(&self) -> Vec<usize> {
        let lists = [self.conditions.len(), self.absences.len(), self.jobs.len()];
        [&lists[..], &[self.parents.len(), self.depths.len(), self.tree.len()]].concat()
    }

    fn difference(library: &Lent, engine: &Lent) -> Option<String> {
        let differences = [
            first_difference("conditions", &library.conditions, &engine.conditions),
            first_difference("absences", &library.absences, &engine.absences),
            first_difference("jobs", &library.jobs, &engine.jobs),
            first_difference("parents", &library.parents, &engine.parents),
            first_difference("depths", &library.depths, &engine.depths),
            first_difference("tree", &library.tree, &engine.tree),
        ];
        differences.into_iter().flatten().next()
    }
}

impl Slices for TeamLent {
    fn lengths(&self) -> Vec<usize> {
        self.lists.lengths().into_iter().chain(self.trees.iter().map(Vec::len)).collect()
    }

    fn difference(library: &TeamLent, engine: &TeamLent) -> Option<String> {
        Lent::difference(&library.lists, &engine.lists)
            .or_else(|| first_difference("first", &library.trees[0], &engine.trees[0]))
            .or_else(|| first_difference("second", &library.trees[1], &engine.trees[1]))
    }
}

/// A row of distances.
impl Slices for Vec<u16> {
    fn lengths(&self) -> Vec<usize> {
        vec![self.len()]
    }

    fn difference(library: &Vec<u16>, engine: &Vec<u16>) -> Option<String> {
        first_difference("row", library, engine)
    }
}

pub fn read_table(bytes: &[u8]) -> Result<Table, Refusal> {
    let result = engine::read_table(bytes);
    let expected = match &result {
        Ok(table) => [0, u64::from(table.facts), table.jobs.len() as u64, table.goal, u64::from(table.is_paired())],
        Err(refusal) => refused(refusal),
    };
    let copy = bytes.to_vec();
    let case = || format!("read_table {}", hex(bytes));
    reached("read_table", expected[0]);
    same(ffi::read_table(&copy), expected, case);
    same(copy.as_slice(), bytes, case);
    result
}

pub fn read_job(bytes: &[u8], number: usize) -> Result<Job, Refusal> {
    let result = engine::read_job(bytes, number);
    let expected = match &result {
        Ok(job) => [0, job.needs, job.adds, job.deletes, u64::from(job.seconds), job.absent, u64::from(job.command)],
        Err(refusal) => refused(refusal),
    };
    let copy = bytes.to_vec();
    let case = || format!("read_job {} job {number}", hex(bytes));
    reached("read_job", expected[0]);
    same(ffi::read_job(&copy, number), expected, case);
    same(copy.as_slice(), bytes, case);
    result
}

pub fn write_table(
    facts: usize,
    columns: &Columns,
    goal: u64,
    out_len: usize,
    pattern: u64,
) -> (Result<usize, Unwritten>, Vec<u8>) {
    let mut out = Lent::filled([0, 0, 0, 0, 0, out_len], pattern).tree;
    let mut library_out = out.clone();
    let result = engine::write_table(facts, columns, goal, &mut out);
    let expected = match &result {
        Ok(written) => [0, *written as u64],
        Err(Unwritten::Refused(refusal)) => refused(refusal),
        Err(Unwritten::TooShort(wanted)) => [ffi::TOO_SHORT, *wanted as u64],
        Err(Unwritten::Uneven) => [ffi::UNEVEN, 0],
        Err(Unwritten::Unwritable(row)) => [ffi::UNWRITABLE, *row as u64],
    };
    let case = || format!("write_table facts {facts} {columns:x?} goal {goal:x} out {out_len}");
    reached("write_table", expected[0]);
    same(ffi::write_table(facts, columns, goal, &mut library_out), expected, case);
    no_difference([first_difference("out", &library_out, &out)], case);
    (result, out)
}

/// One plan, one recovery of its list, or one count of distances, into the slices that it is lent.
fn into_lent<L: Slices, T, const N: usize>(
    function: &'static str,
    table: &[u8],
    unwritten: L,
    operands: impl Fn() -> String,
    by_engine: impl Fn(&[u8], &mut L) -> Result<T, Refusal>,
    words: impl Fn(&T) -> [u64; N],
    by_library: impl Fn(&[u8], &mut L) -> [u64; N],
) -> (Result<T, Refusal>, L) {
    let (mut lent, mut library_lent) = (unwritten.clone(), unwritten);
    let result = by_engine(table, &mut lent);
    let expected = match &result {
        Ok(done) => words(done),
        Err(refusal) => refused(refusal),
    };
    let copy = table.to_vec();
    let case = || format!("{function} {} {} lent {:?}", hex(table), operands(), lent.lengths());
    reached(function, expected[0]);
    same(by_library(&copy, &mut library_lent), expected, case);
    same(copy.as_slice(), table, case);
    no_difference([L::difference(&library_lent, &lent)], case);
    (result, lent)
}

/// Slices of these lengths for a plan; under a table without 0x21 the second masks are of another.
fn unwritten(table: &[u8], lengths: Lengths, pattern: u64) -> Lent {
    Lent::filled(lent::with_second_masks(table, lengths, pattern), pattern)
}

pub fn plan(table: &[u8], held: u64, unread: u64, lengths: Lengths, pattern: u64) -> (Result<Planned, Refusal>, Lent) {
    into_lent(
        "plan",
        table,
        unwritten(table, lengths, pattern),
        || format!("held {held:x} unread {unread:x}"),
        |table, lent| engine::plan(table, held, unread, lent),
        |p| {
            let sizes = [p.entries, p.tree_bytes, p.way_jobs].map(|size| size as u64);
            [0, sizes[0], sizes[1], sizes[2], p.way_minutes as u64, u64::from(p.paired)]
        },
        |table, lent| ffi::plan(table, held, unread, lent),
    )
}

pub fn plan_shift(table: &[u8], lengths: Lengths, pattern: u64) -> (Result<ShiftPlanned, Refusal>, Lent) {
    into_lent(
        "plan_shift",
        table,
        unwritten(table, lengths, pattern),
        String::new,
        engine::plan_shift,
        |planned| [0, planned.entries as u64, planned.tree_bytes as u64, u64::from(planned.paired)],
        ffi::plan_shift,
    )
}

/// A plan for two fitters, into list tables and trees of these lengths.
pub fn plan_team(
    table: &[u8],
    licences: &[u8],
    held: u64,
    unread: u64,
    lengths: TeamLengths,
    pattern: u64,
) -> (Result<TeamPlanned, Refusal>, TeamLent) {
    let unwritten = TeamLent::filled(lent::with_second_masks(table, lengths.plan, pattern), lengths.second, pattern);
    let row = with_spare(licences, 0);
    let copy = row.clone();
    let operands = || format!("licences {licences:?} held {held:x} unread {unread:x}");
    let done = into_lent(
        "plan_team",
        table,
        unwritten,
        operands,
        |table, lent| engine::plan_team(table, licences, held, unread, lent),
        |planned| {
            let [first, second] = planned.tree_bytes;
            [0, planned.entries as u64, first as u64, second as u64, u64::from(planned.paired)]
        },
        |table, lent| ffi::plan_team(table, &copy[..licences.len()], held, unread, lent),
    );
    same(&copy, &row, operands);
    done
}

/// A recovery of a tree's list, into list tables of these lengths, with more elements past each; gives them all.
pub fn recover_list(table: &[u8], tree: &[u8], lengths: ListLengths, pattern: u64) -> (Result<usize, Refusal>, Lent) {
    let [conditions, jobs, parents, depths] = lengths.map(|length| length + SPARE);
    let unwritten = Lent::filled([conditions, 0, jobs, parents, depths, 0], pattern);
    // A cut tree would go on with END.
    let bytes = with_spare(tree, engine::END_OF_TREE);
    let copy = bytes.clone();
    let operands = || format!("tree {} into {lengths:?}", hex(tree));
    let done = into_lent(
        "recover_list",
        table,
        unwritten,
        operands,
        |table, lent| engine::recover(table, tree, lent.lists().first(lengths)),
        |entries| [0, *entries as u64],
        |table, lent| ffi::recover_list(table, &copy[..tree.len()], lent.lists().first(lengths)),
    );
    same(&copy, &bytes, operands);
    done
}

/// The distances of all states, into a row that holds these numbers before, with more elements past it; gives the row alone.
pub fn measure_distances(table: &[u8], row: &[u16], pattern: u64) -> (Result<usize, Refusal>, Vec<u16>) {
    let states = row.len();
    let spare = Lent::filled([0, 0, 0, 0, SPARE, 0], pattern).depths;
    let (result, mut lent) = into_lent(
        "measure_distances",
        table,
        [row, &spare].concat(),
        || format!("over {}", shown_row(row)),
        |table, lent| engine::distances(table, &mut lent[..states]),
        |states| [0, *states as u64],
        |table, lent| ffi::measure_distances(table, &mut lent[..states]),
    );
    lent.truncate(states);
    (result, lent)
}

pub fn status_words(status: Status) -> (u64, u64) {
    match status {
        Status::Success => (ffi::SUCCESS, 0),
        Status::Failure => (ffi::FAILURE, 0),
        Status::Running(job) => (ffi::RUNNING, u64::from(job)),
        Status::Unsettled(mask) => (ffi::UNSETTLED, mask),
        Status::Waiting => (ffi::WAITING, 0),
    }
}

pub fn tick_words(result: &Result<Ticked, Refusal>) -> [u64; 3] {
    match result {
        Ok(ticked) => {
            let (status, value) = status_words(ticked.status);
            [0, status, value]
        }
        Err(refusal) => refused(refusal),
    }
}

pub fn tick(table: &[u8], tree: &[u8], held: u64, unread: u64) -> Result<Ticked, Refusal> {
    let result = engine::tick(table, tree, held, unread);
    let expected = tick_words(&result);
    let (table_copy, tree_copy) = (table.to_vec(), tree.to_vec());
    let case = || format!("tick table {} tree {} held {held:x} unread {unread:x}", hex(table), hex(tree));
    reached("tick", expected[0]);
    same(ffi::tick(&table_copy, &tree_copy, held, unread), expected, case);
    same((table_copy.as_slice(), tree_copy.as_slice()), (table, tree), case);
    result
}

/// Elements past each row of numbers that is lent. Read, they would be refused, as facts, jobs, readings and licences, or be part of a tree, a table or a
/// map; written, they would be seen.
const SPARE: usize = 3;

fn with_spare<T: Copy>(row: &[T], spare: T) -> Vec<T> {
    [row, &[spare; SPARE]].concat()
}

/// One tick of a batch, into rows of so many statuses and so many values.
pub fn tick_all(table: &[u8], batch: Batch, answers: [usize; 2], pattern: u64) -> Result<BatchTicked, Refusal> {
    let result = engine::tick_all(table, batch, answers[0].min(answers[1]));
    let expected = match &result {
        Ok(ticked) => [0, ticked.entries_read as u64],
        Err(refusal) => refused(refusal),
    };
    let unwritten = Lent::filled([answers[1] + SPARE, 0, answers[0] + SPARE, 0, 0, 0], pattern);
    let (mut statuses, mut values) = (unwritten.jobs, unwritten.conditions);
    let (mut library_statuses, mut library_values) = (statuses.clone(), values.clone());
    for (vehicle, status) in result.iter().flat_map(|ticked| &ticked.answers).enumerate() {
        let (word, value) = status_words(*status);
        (statuses[vehicle], values[vehicle]) = (word as u8, value);
    }
    let rows = BatchRows {
        conditions: with_spare(batch.conditions, u64::MAX),
        absences: with_spare(batch.absences, u64::MAX),
        jobs: with_spare(batch.jobs, u8::MAX),
        held: with_spare(batch.held, u64::MAX),
        unread: with_spare(batch.unread, u64::MAX),
    };
    let copy = rows.clone();
    let lent = Batch {
        conditions: &copy.conditions[..batch.conditions.len()],
        absences: &copy.absences[..batch.absences.len()],
        jobs: &copy.jobs[..batch.jobs.len()],
        held: &copy.held[..batch.held.len()],
        unread: &copy.unread[..batch.unread.len()],
    };
    let table_copy = table.to_vec();
    let case = || format!("tick_all table {} lent {} answers {answers:?}", hex(table), shown_batch(batch));
    reached("tick_all", expected[0]);
    let (lent_statuses, lent_values) = (&mut library_statuses[..answers[0]], &mut library_values[..answers[1]]);
    same(ffi::tick_all(&table_copy, lent, lent_statuses, lent_values), expected, case);
    same(table_copy.as_slice(), table, case);
    let differences = [
        first_difference("conditions", &copy.conditions, &rows.conditions),
        first_difference("absences", &copy.absences, &rows.absences),
        first_difference("jobs", &copy.jobs, &rows.jobs),
        first_difference("held", &copy.held, &rows.held),
        first_difference("unread", &copy.unread, &rows.unread),
        first_difference("statuses", &library_statuses, &statuses),
        first_difference("values", &library_values, &values),
    ];
    no_difference(differences, case);
    result
}

pub fn newest_weaker(listed: &[u64], absences: &[u64], condition: Condition) -> Option<usize> {
    let found = engine::newest_part(listed, absences, condition);
    let expected = match found {
        Some(entry) => [0, 1, entry as u64],
        None => [0, 0, 0],
    };
    let (listed_copy, absences_copy) = (listed.to_vec(), absences.to_vec());
    let case = || format!("newest_weaker of {condition:x?} in {} with {}", shown_row(listed), shown_row(absences));
    reached("newest_weaker", expected[0]);
    same(ffi::newest_weaker(&listed_copy, &absences_copy, condition), expected, case);
    same((listed_copy.as_slice(), absences_copy.as_slice()), (listed, absences), case);
    found
}

/// One call over a card: the library's card starts as `card` does, and must end as it does.
fn over_card(
    function: &'static str,
    table: &[u8],
    card: &mut Card,
    operands: impl Fn() -> String,
    by_engine: impl Fn(&[u8], &mut Card) -> Result<(), Refusal>,
    by_library: impl Fn(&[u8], &mut Card) -> [u64; 2],
) -> Result<(), Refusal> {
    let before = *card;
    let mut library_card = before;
    let result = by_engine(table, card);
    let expected = match &result {
        Ok(()) => [0, 0],
        Err(refusal) => refused(refusal),
    };
    let copy = table.to_vec();
    let case = || format!("{function} {} table {} card {before:x?}", operands(), hex(table));
    reached(function, expected[0]);
    same(by_library(&copy, &mut library_card), expected, case);
    same(library_card, *card, case);
    same(copy.as_slice(), table, case);
    result
}

pub fn open(table: &[u8], held: u64, unread: u64, card: &mut Card) -> Result<(), Refusal> {
    over_card(
        "open",
        table,
        card,
        || format!("held {held:x} unread {unread:x}"),
        |table, card| engine::open(table, held, unread, card),
        |table, card| ffi::open(table, held, unread, card),
    )
}

pub fn read_outside(table: &[u8], held: u64, unread: u64, card: &mut Card) -> Result<(), Refusal> {
    over_card(
        "read_outside",
        table,
        card,
        || format!("held {held:x} unread {unread:x}"),
        |table, card| engine::read_outside(table, held, unread, card),
        |table, card| ffi::read_outside(table, held, unread, card),
    )
}

/// "A report has a job and its taken seconds (16 bits)": one of more is none, and only the C interface can be given it.
fn report_of(table: &[u8], job: usize, seconds: usize, card: &mut Card) -> Result<(), Refusal> {
    match u16::try_from(seconds) {
        Ok(seconds) => engine::report(table, job, seconds, card),
        Err(_) => Err(Refusal { number: ffi::SECONDS_OUT_OF_RANGE, place: 0 }),
    }
}

pub fn report(table: &[u8], job: usize, seconds: usize, card: &mut Card) -> Result<(), Refusal> {
    over_card(
        "report",
        table,
        card,
        || format!("job {job} seconds {seconds}"),
        |table, card| report_of(table, job, seconds, card),
        |table, card| ffi::report(table, job, seconds, card),
    )
}

/// A new table for a card. A map that is too short would go on with dropped facts, and a cut table with END.
pub fn migrate(old_table: &[u8], new_table: &[u8], map: &[u8], card: &mut Card) -> Result<(), Refusal> {
    let (new, numbers) = (with_spare(new_table, engine::END_OF_TABLE), with_spare(map, engine::DROPPED));
    let (new_copy, copy) = (new.clone(), numbers.clone());
    let operands = || format!("by {} to table {} from", hex(map), hex(new_table));
    let result = over_card(
        "migrate",
        old_table,
        card,
        operands,
        |table, card| engine::migrate(table, new_table, map, card),
        |table, card| ffi::migrate(table, &new_copy[..new_table.len()], &copy[..map.len()], card),
    );
    same((&new_copy, &copy), (&new, &numbers), operands);
    if engine::read_table(old_table).is_ok() {
        reached(FROM_A_SOUND_TABLE, result.map_or_else(|refusal| refusal.number, |()| 0));
    }
    result
}

pub fn lateness(taken: u32, planned: u32) -> i64 {
    let expected = engine::lateness(taken, planned);
    same(ffi::lateness(taken, planned), expected, || format!("lateness taken {taken} planned {planned}"));
    expected
}
