//! The tick of a whole yard (document 02, W4), also against the library's single ticks.

use bay_tests::engine::*;
use bay_tests::make::Jobs::{self, Paired, Plain};
use bay_tests::make::{self, BatchRows};
use bay_tests::random::Random;
use bay_tests::trailer::{self, one_fact_less};

use super::checks;
use super::{both, Group};
use crate::ffi;

pub fn groups() -> Vec<Vec<Group>> {
    vec![
        both("batches_of_the_trailer", 1, of_the_trailer),
        both("batches_of_built_lists", 8_000, built),
        both("batches_of_foreign_lists", 10_000, foreign),
        both("batches_of_damaged_lists", 10_000, damaged_list),
        both("batches_with_a_bad_reading", 10_000, bad_reading),
        both("batches_of_uneven_rows", 2_000, uneven),
        both("batches_refused", 30_000, refused),
        both("batches_at_the_limits", 9, at_the_limits),
        both("batches_as_single_ticks", 1_500, as_single_ticks),
        both("batches_of_every_reading", 100, every_reading),
        both("batches_of_many_vehicles", 2, many_vehicles),
        both("batches_on_a_small_stack", 1, small_stack),
    ]
}

/// Calls with room for all vehicles and often for more.
fn ask(random: &mut Random, table: &[u8], rows: &BatchRows) -> Result<BatchTicked, Refusal> {
    let vehicles = rows.held.len().max(rows.unread.len());
    let answers = [vehicles + random.below(4), vehicles + random.below(4)];
    ask_into(random, table, rows, answers)
}

/// Calls with room for so many statuses and so many values. Under a table without 0x21 the second masks are of no account: they are lent in any length,
/// with any facts.
fn ask_into(random: &mut Random, table: &[u8], rows: &BatchRows, answers: [usize; 2]) -> Result<BatchTicked, Refusal> {
    let mut batch = rows.batch();
    let mut any = Vec::new();
    if read_table(table).is_ok_and(|table| !table.is_paired()) {
        let entries = rows.conditions.len();
        let length = *random.pick(&[0, 0, 1, entries / 2, entries, entries + 3]);
        any.extend((0..length).map(|_| random.next()));
        batch.absences = &any;
    }
    checks::tick_all(table, batch, answers, random.next())
}

fn any_table(random: &mut Random, index: u64, kind: Jobs) -> Table {
    let facts = random.between(3, 8) as u32;
    if index % 2 == 0 {
        make::busy_table(random, facts, kind)
    } else {
        make::table(random, 64, 9, kind)
    }
}

/// The list of either plan.
fn built_list(random: &mut Random, table: &Table) -> Vec<Entry> {
    let start = random.one_in(2).then(|| random.state(table.facts));
    expand(table, start, 200).0
}

fn any_list(random: &mut Random, table: &Table) -> Vec<Entry> {
    let entries = *random.pick(&[1, 2, 5, 20, 60]);
    if random.one_in(2) {
        built_list(random, table)
    } else {
        make::foreign_list(random, table, entries)
    }
}

fn readings(random: &mut Random, table: &Table, vehicles: usize) -> Vec<(u64, u64)> {
    (0..vehicles).map(|_| make::reading(random, table.facts)).collect()
}

fn any_vehicles(random: &mut Random, table: &Table) -> Vec<(u64, u64)> {
    let vehicles = *random.pick(&[0, 1, 2, 7, 30, 60]);
    readings(random, table, vehicles)
}

/// The words of a yard on the trailer's list, by hand.
fn of_the_trailer(random: &mut Random, _: u64, kind: Jobs) {
    let (table, start, vehicles, words, count) = match kind {
        Plain => (
            trailer::table(),
            0x02,
            [(0x10, 0), (0x02, 0x08), (0x03, 0), (0x02, 0), (0x00, 0x10)],
            [(ffi::SUCCESS, 0), (ffi::UNSETTLED, 0x08), (ffi::RUNNING, 3), (ffi::RUNNING, 3), (ffi::UNSETTLED, 0x10)],
            8,
        ),
        Paired => (
            one_fact_less::table(),
            0x01,
            [(0x08, 0x07), (0x04, 0x01), (0x04, 0), (0x05, 0), (0x06, 0x01)],
            [(ffi::SUCCESS, 0), (ffi::UNSETTLED, 0x01), (ffi::RUNNING, 2), (ffi::RUNNING, 1), (ffi::RUNNING, 4)],
            5,
        ),
    };
    let list = expand(&read_table(&table).expect("sound"), Some(start), MOST_ENTRIES).0;
    let mut asked = |vehicles: &[(u64, u64)]| {
        let ticked = ask(random, &table, &BatchRows::of(&list, vehicles)).expect("a sound list and yard");
        (ticked.answers.into_iter().map(checks::status_words).collect::<Vec<_>>(), ticked.entries_read)
    };
    assert_eq!(asked(&vehicles), (words.to_vec(), count));
    assert_eq!(asked(&[]), (vec![], 0));
    assert_eq!(asked(&vehicles[..1]), (vec![(ffi::SUCCESS, 0)], 1));
    // Nothing held: on neither list is any condition met.
    let (statuses, count) = asked(&[vehicles[0], (0, 0), vehicles[2]]);
    assert_eq!((statuses[1], count), ((ffi::FAILURE, 0), list.len()));
}

fn built(random: &mut Random, index: u64, kind: Jobs) {
    let table = any_table(random, index, kind);
    let list = built_list(random, &table);
    let vehicles = any_vehicles(random, &table);
    let ticked = ask(random, &table.bytes(), &BatchRows::of(&list, &vehicles)).expect("a built list");
    assert_eq!(ticked.answers.len(), vehicles.len());
}

fn foreign(random: &mut Random, index: u64, kind: Jobs) {
    let table = any_table(random, index, kind);
    let entries = *random.pick(&[1, 2, 3, 8, 40]);
    let list = make::foreign_list(random, &table, entries);
    let vehicles = any_vehicles(random, &table);
    ask(random, &table.bytes(), &BatchRows::of(&list, &vehicles)).expect("a list that the table knows");
}

/// Entries with faults, and some whose change is none.
fn damaged_list(random: &mut Random, index: u64, kind: Jobs) {
    let table = any_table(random, index, kind);
    let mut list = any_list(random, &table);
    for _ in 0..random.between(1, 3) {
        make::damage_list(random, &table, &mut list);
    }
    let vehicles = any_vehicles(random, &table);
    let _ = ask(random, &table.bytes(), &BatchRows::of(&list, &vehicles));
}

/// One bad reading at any index: it is told where it is due, and else not looked at.
fn bad_reading(random: &mut Random, index: u64, kind: Jobs) {
    let table = any_table(random, index, kind);
    let list = built_list(random, &table);
    let vehicles = random.between(1, 20);
    let mut rows = BatchRows::of(&list, &readings(random, &table, vehicles));
    let bad = random.below(vehicles);
    let fact = 1u64 << random.below(64);
    let both = random.one_in(3) || table.has_only_known_facts(fact);
    if both || random.one_in(2) {
        rows.held[bad] |= fact;
    } else {
        rows.unread[bad] |= fact;
    }
    if both {
        rows.unread[bad] |= fact;
    }
    let mut answers = [vehicles; 2];
    *random.pick_mut(&mut answers) = random.below(vehicles + 1);
    let due = answers[0].min(answers[1]);
    match ask_into(random, &table.bytes(), &rows, answers) {
        Ok(ticked) => assert!(bad >= due && ticked.answers.len() == due, "a bad reading is passed over"),
        Err(refusal) => assert_eq!((refusal.number, refusal.place, bad < due), (8, bad, true)),
    }
}

/// Each of the seven rows in turn the shortest of its kind. The others go on with what would be refused, were it looked at.
fn uneven(random: &mut Random, index: u64, kind: Jobs) {
    let table = any_table(random, index, kind);
    let bytes = table.bytes();
    let list = any_list(random, &table);
    let vehicles = any_vehicles(random, &table);
    let rows = BatchRows::of(&list, &vehicles);
    let even = tick_all(&bytes, rows.batch(), vehicles.len());
    assert!(even.is_ok(), "a sound list and yard");
    const LIST_ROWS: usize = 3;
    const ROWS: usize = 7;
    for shortest in 0..ROWS {
        if shortest == 1 && !table.is_paired() {
            continue;
        }
        // The row that is not made longer, of the list and of the vehicles.
        let of_list = if shortest < LIST_ROWS { shortest } else { 2 * random.below(2) };
        let of_vehicles = if shortest < LIST_ROWS { random.between(LIST_ROWS, ROWS - 1) } else { shortest };
        let more: Vec<usize> =
            (0..ROWS).map(|row| if row == of_list || row == of_vehicles { 0 } else { random.between(1, 4) }).collect();
        let mut longer = rows.clone();
        longer.conditions.resize(list.len() + more[0], u64::MAX);
        longer.absences.resize(list.len() + more[1], u64::MAX);
        longer.jobs.resize(list.len() + more[2], u8::MAX);
        longer.held.resize(vehicles.len() + more[3], u64::MAX);
        longer.unread.resize(vehicles.len() + more[4], u64::MAX);
        let answers = [vehicles.len() + more[5], vehicles.len() + more[6]];
        assert_eq!(ask_into(random, &bytes, &longer, answers), even, "row {shortest} is the shortest");
    }
    // Any lengths at all.
    let mut any = rows;
    any.conditions.truncate(random.below(list.len() + 1));
    any.absences.truncate(random.below(list.len() + 1));
    any.jobs.truncate(random.below(list.len() + 1));
    any.held.truncate(random.below(vehicles.len() + 1));
    any.unread.truncate(random.below(vehicles.len() + 1));
    let answers = [random.below(vehicles.len() + 3), random.below(vehicles.len() + 3)];
    let _ = ask_into(random, &bytes, &any, answers);
}

/// Faults of the table, of readings and of the list at once.
fn refused(random: &mut Random, _: u64, kind: Jobs) {
    let table = make::table(random, 20, 4, kind);
    let bytes = if random.one_in(3) { make::damaged_bytes(random, &table) } else { table.bytes() };
    let entries = random.below(6);
    let mut list = make::foreign_list(random, &table, entries);
    if random.one_in(2) {
        make::damage_list(random, &table, &mut list);
    }
    let vehicles: Vec<(u64, u64)> = (0..random.below(4)).map(|_| make::any_reading(random, table.facts)).collect();
    let _ = ask(random, &bytes, &BatchRows::of(&list, &vehicles));
}

/// Lists of none, of one entry, of as many as there may be, and of more, also of more than 16 bits count; each without vehicles, with one, and with three
/// that stop at the first entry, at the last and nowhere. A fault in such a list is told after its size.
fn at_the_limits(random: &mut Random, index: u64, kind: Jobs) {
    let table = make::small_table(random, 0, kind);
    let bytes = table.bytes();
    let most = table.most_entries();
    let entries = [0, 1, 2, most - 1, most, most + 1, 4_097, 65_536 + 1, 65_536 + most][index as usize];
    let entry = |mask: u64| Entry { condition: Condition::plain(mask), job: 4, parent: 0, depth: 0 };
    let mut list = vec![entry(0x02); entries];
    if let Some(last) = list.last_mut() {
        *last = entry(0x01);
    }
    let yard = [(0x02, 0), (0x01, 0), (0, 0)];
    let too_many = Err(Refusal { number: 13, place: 0 });
    for vehicles in [&[][..], &yard[1..2], &yard[..2], &yard[..]] {
        let ticked = ask(random, &bytes, &BatchRows::of(&list, vehicles));
        if entries == 0 || entries > most {
            assert_eq!(ticked, too_many);
        } else {
            assert_eq!(ticked.expect("a sound list").entries_read, if vehicles.is_empty() { 0 } else { entries });
        }
        for place in [0, entries / 2, entries.saturating_sub(1)] {
            let mut rows = BatchRows::of(&list, vehicles);
            let Some(mask) = rows.conditions.get_mut(place) else { continue };
            *mask |= 1 << 63;
            let beyond = Err(Refusal { number: 15, place });
            assert_eq!(ask(random, &bytes, &rows), if entries > most { too_many.clone() } else { beyond });
        }
    }
    // One row of the list is as long as it may be, and the others are longer.
    if entries > most {
        for shortest in 0..3 {
            let mut rows = BatchRows::of(&list, &yard[..1]);
            match shortest {
                0 => rows.conditions.truncate(most),
                1 => rows.jobs.truncate(most),
                _ => rows.absences.truncate(most),
            }
            let ticked = ask(random, &bytes, &rows);
            assert_eq!(ticked.is_ok(), shortest < 2 || kind == Paired);
        }
    }
}

/// A list and vehicles for which every answer is the library's own of a single tick.
fn same_as_single_ticks(random: &mut Random, table: &Table, list: &[Entry], vehicles: &[(u64, u64)]) -> BatchTicked {
    let bytes = table.bytes();
    let tree = tree_bytes(table, list);
    let ticked = ask(random, &bytes, &BatchRows::of(list, vehicles)).expect("a sound list and yard");
    assert_eq!(ticked.answers.len(), vehicles.len());
    for ((held, unread), status) in vehicles.iter().zip(&ticked.answers) {
        let (word, value) = checks::status_words(*status);
        assert_eq!(ffi::tick(&bytes, &tree, *held, *unread), [0, word, value], "held {held:x} unread {unread:x}");
    }
    ticked
}

/// Built lists, foreign ones, and the longest.
fn as_single_ticks(random: &mut Random, index: u64, kind: Jobs) {
    if index > 1 {
        let table = any_table(random, index, kind);
        let list = any_list(random, &table);
        let vehicles = any_vehicles(random, &table);
        same_as_single_ticks(random, &table, &list, &vehicles);
        return;
    }
    let table = make::long_table(12, 0, kind);
    let list = expand(&table, None, table.most_entries()).0;
    let at_the_end = list[list.len() - 8..].iter().map(|entry| (make::long_state(&table, entry), 0));
    let mut vehicles: Vec<(u64, u64)> = at_the_end.collect();
    if index == 1 {
        vehicles.extend(readings(random, &table, 8));
    }
    let ticked = same_as_single_ticks(random, &table, &list, &vehicles);
    if index == 0 {
        assert_eq!(ticked.entries_read, list.len());
    }
}

/// Every reading of a small table in one call, on the lists of both plans; then each alone: the answer is the same, and the call for all has read as many
/// entries as the one that read most.
fn every_reading(random: &mut Random, index: u64, kind: Jobs) {
    let table = make::small_table(random, index, kind);
    let bytes = table.bytes();
    let all = 0..1u64 << table.facts;
    let pairs = all.clone().flat_map(|unread| all.clone().map(move |held| (held, unread)));
    let vehicles: Vec<(u64, u64)> = pairs.filter(|(held, unread)| held & unread == 0).collect();
    assert_eq!(vehicles.len(), 3usize.pow(table.facts));
    let whole = expand(&table, None, table.most_entries()).0;
    let planned = expand(&table, Some(random.state(table.facts)), table.most_entries()).0;
    for list in [whole, planned] {
        let ticked = same_as_single_ticks(random, &table, &list, &vehicles);
        let mut most = 0;
        for (vehicle, status) in vehicles.iter().zip(&ticked.answers) {
            let alone = ask(random, &bytes, &BatchRows::of(&list, &[*vehicle])).expect("a sound list and reading");
            assert_eq!(alone.answers, [*status]);
            most = most.max(alone.entries_read);
        }
        assert_eq!(ticked.entries_read, most);
    }
}

/// More vehicles than 16 bits count, the last of them bad or not.
fn many_vehicles(random: &mut Random, index: u64, kind: Jobs) {
    const VEHICLES: usize = 70_000;
    let table = make::small_table(random, 0, kind);
    let list = expand(&table, None, table.most_entries()).0;
    let mut rows = BatchRows::of(&list, &readings(random, &table, VEHICLES));
    if index == 1 {
        rows.held[VEHICLES - 1] = 1 << table.facts;
    }
    match ask(random, &table.bytes(), &rows) {
        Ok(ticked) => assert_eq!((ticked.answers.len(), index), (VEHICLES, 0)),
        Err(refusal) => assert_eq!((refusal.number, refusal.place, index), (8, VEHICLES - 1, 1)),
    }
}

/// The longest list and a thousand vehicles on a stack of 256 KiB, by the library alone: the engine's stack is no matter.
fn small_stack(random: &mut Random, _: u64, kind: Jobs) {
    let table = make::long_table(12, 0, kind);
    let list = expand(&table, None, table.most_entries()).0;
    // The further jobs lead nowhere new.
    let bytes = make::long_table(12, 116, kind).bytes();
    let vehicles: Vec<(u64, u64)> =
        (0..1_000).map(|vehicle| (make::long_state(&table, &list[list.len() - 1 - vehicle]), 0)).collect();
    let rows = BatchRows::of(&list, &vehicles);
    let expected = ask(random, &bytes, &rows).expect("a sound list and yard");
    let on_small_stack = move || {
        let (mut statuses, mut values) = (vec![0; vehicles.len()], vec![0; vehicles.len()]);
        let answer = ffi::tick_all(&bytes, rows.batch(), &mut statuses, &mut values);
        (answer, statuses, values)
    };
    let thread = std::thread::Builder::new().stack_size(256 * 1024).spawn(on_small_stack).expect("a thread");
    let (answer, statuses, values) = thread.join().expect("the thread ends");
    assert_eq!(answer, [0, expected.entries_read as u64]);
    let words = statuses.iter().map(|status| u64::from(*status)).zip(values);
    assert!(words.eq(expected.answers.into_iter().map(checks::status_words)), "answers on a small stack");
}
