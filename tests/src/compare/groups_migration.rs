//! A new table for a card in use (document 02, W14). And the promise about it, run: later calls answer for that card as for a new one, opened on its
//! reading under the new table.

use std::collections::HashSet;

use bay_tests::engine::*;
use bay_tests::make::Jobs::{self, Paired, Plain};
use bay_tests::make::{self, MapFault, MAP_FAULTS};
use bay_tests::random::Random;
use bay_tests::trailer::{self, one_fact_less};

use super::checks::{self, ON_A_CARD_BESIDE_IT, ON_A_MIGRATED_CARD};
use super::groups_cards::{any_number, card};
use super::lent::lists;
use super::{both, one, Group};
use crate::ffi;

pub fn groups() -> Vec<Vec<Group>> {
    vec![
        one("migrations_of_the_trailer", 1, of_the_trailer),
        both("migrations", 40_000, any_sound),
        one("migrations_of_each_fact", 49, each_fact),
        one("migrations_in_another_order", 640, another_order),
        one("migrations_by_every_small_map", 9, every_small_map),
        both("migrations_in_turn", 10_000, in_turn),
        both("migrations_by_damaged_maps", 20_000, damaged_maps),
        one("migrations_of_two_facts_to_one", 64, two_to_one),
        one("migrations_to_numbers_outside", 64, numbers_outside),
        both("migrations_of_bad_masks", 20_000, bad_masks),
        both("migrations_every_cut", 200, every_cut),
        both("migrations_of_bytes_changed", 400, bytes_changed),
        both("migrations_refused", 40_000, refused),
        both("migrations_then_calls", 15_000, then_calls),
        both("migrations_then_every_call", 6, then_every_call),
        both("migrations_until_18", 1_000, until_18),
        one("migrations_on_a_small_stack", 1, small_stack),
    ]
}

const BAD_READING: Refusal = Refusal { number: 8, place: 0 };
const BAD_MAP: Refusal = Refusal { number: 27, place: 0 };
const CARD_EXHAUSTED: Refusal = Refusal { number: 18, place: 0 };

/// Is the map as long as the old facts, and is no more than one fact sent to each number of the new table, and none to any other?
fn is_sound_map(old: &Table, new: &Table, map: &[u8]) -> bool {
    let mut sent = [0; 256];
    for number in map {
        sent[usize::from(*number)] += 1;
    }
    let (known, others) = sent[..usize::from(DROPPED)].split_at(new.facts as usize);
    map.len() == old.facts as usize && known.iter().all(|facts| *facts <= 1) && others.iter().all(|facts| *facts == 0)
}

/// The stops in their order: the old table's, the new one's, 8 under the old one, 27.
fn first_stop(old: &[u8], new: &[u8], map: &[u8], card: &Card) -> Result<(), Refusal> {
    let (old, new) = (read_table(old)?, read_table(new)?);
    let twice = card.held & card.unread;
    let beyond = (card.held | card.unread) & !all_facts(old.facts);
    if twice != 0 || beyond != 0 {
        Err(BAD_READING)
    } else if !is_sound_map(&old, &new, map) {
        Err(BAD_MAP)
    } else {
        Ok(())
    }
}

/// "Mapped facts carry held, absent or unread over, facts of the new table without a source become unread, and count and sums remain".
fn check_carried(new: &[u8], map: &[u8], before: &Card, after: &Card) {
    assert_eq!((after.reports, after.taken, after.planned), (before.reports, before.taken, before.planned));
    let known = |card: &Card, fact: u8| (card.held >> fact & 1, card.unread >> fact & 1);
    for (fact, number) in map.iter().enumerate().filter(|(_, number)| **number != DROPPED) {
        assert_eq!(known(after, *number), known(before, fact as u8), "fact {fact}, which is now {number}");
    }
    let facts = read_table(new).expect("the call was done").facts as u8;
    for fact in (0..facts).filter(|fact| !map.contains(fact)) {
        assert_eq!(known(after, fact), (0, 1), "fact {fact}, which has no source");
    }
    assert!(is_part(after.held | after.unread, all_facts(u32::from(facts))), "a fact that the new table has not");
}

/// One call, judged here as well: the card after it.
fn migrated(old: &[u8], new: &[u8], map: &[u8], before: Card) -> Result<Card, Refusal> {
    let mut card = before;
    let result = checks::migrate(old, new, map, &mut card);
    assert_eq!(result, first_stop(old, new, map, &before), "map {map:?} of {before:x?}");
    match result {
        Ok(()) => check_carried(new, map, &before, &card),
        Err(_) => assert_eq!(card, before, "the card of a refused call"),
    }
    result.map(|()| card)
}

/// A table without jobs.
fn bare_table(facts: u32) -> Vec<u8> {
    table_bytes(facts as u8, &[], 0)
}

/// A card of these masks with any count and sums.
fn card_of(random: &mut Random, (held, unread): (u64, u64)) -> Card {
    Card { held, unread, ..card(random, 1) }
}

/// Masks that are sound under so many facts, with any count and sums.
fn sound_card(random: &mut Random, facts: u32) -> Card {
    let masks = make::reading(random, facts);
    card_of(random, masks)
}

/// Every sound reading of so many facts.
fn readings(facts: u32) -> Vec<(u64, u64)> {
    (0..=all_facts(facts))
        .flat_map(|held| make::fillings(0, all_facts(facts) & !held).into_iter().map(move |unread| (held, unread)))
        .collect()
}

/// The old table and the new one: of any number of facts up to `most`, often of few, and of one number now and then. Where they are paired, one of them
/// is at least.
fn two_tables(random: &mut Random, most: u32, kind: Jobs) -> (Table, Table) {
    let kinds = match kind {
        Plain => (Plain, Plain),
        Paired => *random.pick(&[(Paired, Paired), (Paired, Plain), (Plain, Paired)]),
    };
    let mut table = |kind: Jobs| {
        let most = if random.one_in(3) { most.min(6) } else { most };
        let mut table = make::table(random, most, 4, kind);
        if kind == Paired && table.jobs.is_empty() {
            table.jobs = make::jobs(random, table.facts, 1, kind);
        }
        table
    };
    let (old, new) = (table(kinds.0), table(kinds.1));
    let facts = old.facts.max(new.facts);
    if random.one_in(6) {
        (Table { facts, ..old }, Table { facts, ..new })
    } else {
        (old, new)
    }
}

/// Every reading of both trailers, sound or not, to the other one: facts go one down, or one up, and then "trailer off" is unread.
fn of_the_trailer(random: &mut Random, _: u64) {
    let (trailer, less) = (trailer::table(), one_fact_less::table());
    for held in 0..64 {
        for unread in 0..64 {
            let before = card_of(random, (held, unread));
            let down = migrated(&trailer, &less, &trailer::TO_ONE_FACT_LESS, before);
            let sound = held & unread == 0 && held | unread < 32;
            let expected = Card { held: held >> 1, unread: unread >> 1, ..before };
            assert_eq!(down, if sound { Ok(expected) } else { Err(BAD_READING) });
            let up = migrated(&less, &trailer, &one_fact_less::TO_TRAILER, before);
            let sound = held & unread == 0 && held | unread < 16;
            let expected = Card { held: held << 1, unread: unread << 1 | 1, ..before };
            assert_eq!(up, if sound { Ok(expected) } else { Err(BAD_READING) });
        }
    }
    // The loaded value is known and the trailer is on: so it goes on with uncoupling, and with one fact more "trailer off" is to be read first.
    let tree_of = |table: &[u8]| {
        let table = read_table(table).expect("sound");
        tree_bytes(&table, &expand(&table, None, table.most_entries()).0)
    };
    let next = |table: &[u8], card: Card| {
        checks::tick(table, &tree_of(table), card.held, card.unread).expect("a sound tree and card").status
    };
    let opened = Card { held: 0x0a, unread: 0x00, reports: 1, taken: 700, planned: 600 };
    assert_eq!(next(&trailer, opened), Status::Running(1));
    let card = migrated(&trailer, &less, &trailer::TO_ONE_FACT_LESS, opened).expect("sound");
    assert_eq!((card, next(&less, card)), (Card { held: 0x05, ..opened }, Status::Running(1)));
    let card = migrated(&less, &trailer, &one_fact_less::TO_TRAILER, card).expect("sound");
    assert_eq!((card, next(&trailer, card)), (Card { unread: 0x01, ..opened }, Status::Unsettled(0x01)));
}

/// Random tables of up to 64 facts, maps of all kinds, and cards with any count and sums.
fn any_sound(random: &mut Random, _: u64, kind: Jobs) {
    let (old, new) = two_tables(random, 64, kind);
    let map = make::fact_map(random, old.facts, new.facts);
    let before = sound_card(random, old.facts);
    migrated(&old.bytes(), &new.bytes(), &map, before).expect("all is sound");
}

/// Numbers of facts where something may be cut.
const SIZES: [u32; 7] = [1, 2, 31, 32, 33, 63, 64];

/// Every fact sent to every number, alone, held, absent and unread, with the others held, absent or unread and dropped.
fn each_fact(random: &mut Random, index: u64) {
    let (old, new) = (SIZES[index as usize % 7], SIZES[index as usize / 7]);
    let (old_table, new_table) = (bare_table(old), bare_table(new));
    let count = card(random, 1);
    for fact in 0..old {
        let own = 1u64 << fact;
        let others = all_facts(old) & !own;
        for number in 0..new {
            let target = 1u64 << number;
            let mut map = vec![DROPPED; old as usize];
            map[fact as usize] = number as u8;
            for (held, unread) in [(own, 0), (0, 0), (0, own)] {
                let [held_others, unread_others] = *random.pick(&[[others, 0], [0, 0], [0, others]]);
                let before = Card { held: held | held_others, unread: unread | unread_others, ..count };
                let after = migrated(&old_table, &new_table, &map, before).expect("all is sound");
                let carried = |mask: u64| if mask == 0 { 0 } else { target };
                assert_eq!(after.held, carried(held));
                assert_eq!(after.unread, (all_facts(new) & !target) | carried(unread));
            }
        }
    }
}

/// All facts of a table of the same number of facts, each with another number, and back: moved round, turned about, and in any order.
fn another_order(random: &mut Random, index: u64) {
    let facts = 1 + (index % 64) as u32;
    let table = bare_table(facts);
    let before = sound_card(random, facts);
    let by = random.below(facts as usize) as u32;
    let (map, expected): (Vec<u8>, Option<[u64; 2]>) = match index / 64 {
        0 => ((0..facts as u8).collect(), Some([before.held, before.unread])),
        1..=3 => {
            let round = |mask: u64| (mask << by | mask >> (facts - by)) & all_facts(facts);
            let moved = [before.held, before.unread].map(|mask| if by == 0 { mask } else { round(mask) });
            ((0..facts).map(|fact| ((fact + by) % facts) as u8).collect(), Some(moved))
        }
        4..=5 => {
            let turned = [before.held, before.unread].map(|mask| mask.reverse_bits() >> (64 - facts));
            ((0..facts as u8).rev().collect(), Some(turned))
        }
        _ => (make::any_order(random, facts), None),
    };
    let after = migrated(&table, &table, &map, before).expect("all is sound");
    if let Some(masks) = expected {
        assert_eq!([after.held, after.unread], masks);
    }
    let mut back = vec![DROPPED; facts as usize];
    for (fact, number) in map.iter().enumerate() {
        back[usize::from(*number)] = fact as u8;
    }
    assert_eq!(migrated(&table, &table, &back, after), Ok(before));
}

/// Every row of so many of these numbers.
fn every_row(numbers: &[u8], length: usize) -> Vec<Vec<u8>> {
    let mut rows = vec![Vec::new()];
    for _ in 0..length {
        rows = rows.iter().flat_map(|row| numbers.iter().map(move |number| [&row[..], &[*number]].concat())).collect();
    }
    rows
}

/// Tables of 1 to 3 facts: every map of the right length, and of one more and one less, with the numbers of the new table, the one after them, 254 and 255;
/// and all masks of up to one fact more than the table has.
fn every_small_map(random: &mut Random, index: u64) {
    let (old, new) = (1 + index as u32 % 3, 1 + index as u32 / 3);
    let (old_table, new_table) = (bare_table(old), bare_table(new));
    let numbers: Vec<u8> = (0..=new as u8).chain([254, DROPPED]).collect();
    let count = card(random, 1);
    let mut done = 0;
    for length in old as usize - 1..=old as usize + 1 {
        for map in every_row(&numbers, length) {
            for masks in 0..4 << (2 * old) {
                let before = Card { held: masks % (2 << old), unread: masks / (2 << old), ..count };
                done += u32::from(migrated(&old_table, &new_table, &map, before).is_ok());
            }
        }
    }
    // The sound maps: some facts are chosen, and each is sent to another number.
    let sent = |facts: u32| -> u32 {
        let choices = (0..facts).fold(1, |ways, i| ways * (old - i) / (i + 1));
        (0..facts).fold(choices, |ways, i| ways * (new - i))
    };
    let sound: u32 = (0..=old.min(new)).map(sent).sum();
    assert_eq!(done, sound * 3u32.pow(old), "sound maps and readings");
}

/// To a second table and then to a third: the same as at once by both maps.
fn in_turn(random: &mut Random, _: u64, kind: Jobs) {
    let (first, second) = two_tables(random, 64, kind);
    let third = make::table(random, 64, 4, kind);
    let to_second = make::fact_map(random, first.facts, second.facts);
    let to_third = make::fact_map(random, second.facts, third.facts);
    let before = sound_card(random, first.facts);
    let between = migrated(&first.bytes(), &second.bytes(), &to_second, before).expect("all is sound");
    let after = migrated(&second.bytes(), &third.bytes(), &to_third, between).expect("all is sound");
    let at_once: Vec<u8> =
        to_second.iter().map(|number| to_third.get(usize::from(*number)).copied().unwrap_or(DROPPED)).collect();
    assert_eq!(migrated(&first.bytes(), &third.bytes(), &at_once, before), Ok(after));
}

/// Maps with each fault, and with two of them.
fn damaged_maps(random: &mut Random, index: u64, kind: Jobs) {
    let (old, new) = two_tables(random, 64, kind);
    let mut map = make::fact_map(random, old.facts, new.facts);
    let fault = MAP_FAULTS[index as usize % 5];
    make::damage_map(random, new.facts, fault, &mut map);
    let before = sound_card(random, old.facts);
    let result = migrated(&old.bytes(), &new.bytes(), &map, before);
    // Of one fact there are no two to be sent to one.
    if fault != MapFault::Shared || old.facts > 1 {
        assert_eq!(result, Err(BAD_MAP), "{fault:?}");
    }
    // A second fault may undo the first.
    let other = *random.pick(&MAP_FAULTS);
    make::damage_map(random, new.facts, other, &mut map);
    let _ = migrated(&old.bytes(), &new.bytes(), &map, before);
}

/// Two of 64 facts sent to one, to each number of a table: neighbours, the first and the last, and others. Of the rest all are dropped, or they take what
/// other numbers there are. With one of the two dropped the map is sound.
fn two_to_one(random: &mut Random, index: u64) {
    let new = index as u32 + 1;
    let (old_table, new_table) = (bare_table(64), bare_table(new));
    for number in 0..new as u8 {
        let mut others = make::any_order(random, new);
        others.retain(|other| *other != number);
        let [near, any] = [random.below(63), random.below(64)];
        for (first, second) in [(0, 63), (near, near + 1), (0, 1), (62, 63), (any, (any + random.between(1, 63)) % 64)]
        {
            let mut map = vec![DROPPED; 64];
            if random.one_in(2) {
                let free = (0..64).filter(|fact| *fact != first && *fact != second);
                free.zip(&others).for_each(|(fact, other)| map[fact] = *other);
            }
            let before = sound_card(random, 64);
            map[first] = number;
            migrated(&old_table, &new_table, &map, before).expect("all is sound");
            map[second] = number;
            assert_eq!(migrated(&old_table, &new_table, &map, before), Err(BAD_MAP));
            map[first] = DROPPED;
            migrated(&old_table, &new_table, &map, before).expect("all is sound");
        }
    }
}

/// Each number outside a table, for the first fact, the last and another, of a table of few facts and of one of 64.
fn numbers_outside(random: &mut Random, index: u64) {
    let new = index as u32 + 1;
    for old in [64, random.between(1, 6) as u32] {
        let (old_table, new_table) = (bare_table(old), bare_table(new));
        let map = make::fact_map(random, old, new);
        for number in new as u8..DROPPED {
            for fact in [0, old as usize - 1, random.below(old as usize)] {
                let mut map = map.clone();
                map[fact] = number;
                let before = sound_card(random, old);
                assert_eq!(migrated(&old_table, &new_table, &map, before), Err(BAD_MAP));
            }
        }
    }
}

/// Masks that are sound under one of the tables alone, or under neither: it is the old one that counts. Then comes the map.
fn bad_masks(random: &mut Random, index: u64, kind: Jobs) {
    let (old, new) = two_tables(random, 64, kind);
    let mut map = make::fact_map(random, old.facts, new.facts);
    if random.one_in(3) {
        let fault = *random.pick(&MAP_FAULTS);
        make::damage_map(random, new.facts, fault, &mut map);
    }
    let (held, unread) = match index % 4 {
        0 => make::any_reading(random, old.facts),
        1 => make::any_reading(random, new.facts),
        2 => make::reading(random, old.facts.max(new.facts)),
        _ => {
            // Just outside the old table, in one of the masks or in both.
            let (held, unread) = make::reading(random, old.facts);
            let high = if old.facts == 64 { held & held.wrapping_neg() } else { 1 << old.facts };
            *random.pick(&[(held | high, unread), (held, unread | high), (held | high, unread | high)])
        }
    };
    let before = card_of(random, (held, unread));
    let _ = migrated(&old.bytes(), &new.bytes(), &map, before);
}

/// A map for two tables, with a fault as often as not, and a card whose masks are bad as often as not.
fn any_map_and_card(random: &mut Random, old: &Table, new: &Table) -> (Vec<u8>, Card) {
    let mut map = make::fact_map(random, old.facts, new.facts);
    if random.one_in(2) {
        let fault = *random.pick(&MAP_FAULTS);
        make::damage_map(random, new.facts, fault, &mut map);
    }
    let masks = if random.one_in(2) { make::any_reading(random, old.facts) } else { make::reading(random, old.facts) };
    (map, card_of(random, masks))
}

/// Every cut of either table, and bytes after its END: of the old one before all else, of the new one before 8 and 27.
fn every_cut(random: &mut Random, _: u64, kind: Jobs) {
    let (old, new) = two_tables(random, 12, kind);
    let (old_bytes, new_bytes) = (old.bytes(), new.bytes());
    let other = make::damaged_bytes(random, &new);
    let stop = |result: Result<Card, Refusal>| result.expect_err("a table is refused").number;
    for cut in 0..old_bytes.len() {
        let (map, card) = any_map_and_card(random, &old, &new);
        for new_table in [&new_bytes, &other, &new_bytes[..random.below(new_bytes.len())].to_vec()] {
            assert_eq!(stop(migrated(&old_bytes[..cut], new_table, &map, card)), 1);
        }
    }
    for cut in 0..new_bytes.len() {
        let (map, card) = any_map_and_card(random, &old, &new);
        assert_eq!(stop(migrated(&old_bytes, &new_bytes[..cut], &map, card)), 1);
    }
    for _ in 0..10 {
        let (map, card) = any_map_and_card(random, &old, &new);
        let [longer_old, longer_new] = [&old_bytes, &new_bytes].map(|bytes| [&bytes[..], &[random.byte()]].concat());
        let after = |bytes: &[u8]| Err(Refusal { number: 7, place: bytes.len() });
        assert_eq!(migrated(&longer_old, &new_bytes, &map, card), after(&old_bytes));
        assert_eq!(migrated(&longer_old, &longer_new, &map, card), after(&old_bytes));
        assert_eq!(migrated(&old_bytes, &longer_new, &map, card), after(&new_bytes));
    }
}

/// Every byte of either table changed in one of several ways. Many such tables are sound, some with another number of facts.
fn bytes_changed(random: &mut Random, _: u64, kind: Jobs) {
    let (old, new) = two_tables(random, 12, kind);
    let (old_bytes, new_bytes) = (old.bytes(), new.bytes());
    let change = |random: &mut Random, bytes: &[u8], at: usize| {
        let mut changed = bytes.to_vec();
        changed[at] = match random.below(4) {
            0 => changed[at] ^ 1 << random.below(8),
            1 => changed[at].wrapping_add(1),
            2 => changed[at].wrapping_sub(1),
            _ => random.byte(),
        };
        changed
    };
    for at in 0..old_bytes.len() {
        let (map, card) = any_map_and_card(random, &old, &new);
        let _ = migrated(&change(random, &old_bytes, at), &new_bytes, &map, card);
    }
    for at in 0..new_bytes.len() {
        let (map, card) = any_map_and_card(random, &old, &new);
        let _ = migrated(&old_bytes, &change(random, &new_bytes, at), &map, card);
    }
}

/// Several faults at once: of either table, of the card's masks, of the map. The first of them is told.
fn refused(random: &mut Random, _: u64, kind: Jobs) {
    let (old, new) = two_tables(random, 64, kind);
    let table_of = |random: &mut Random, table: &Table| match random.below(8) {
        0 => make::table_like(random),
        1..=3 => make::damaged_bytes(random, table),
        _ => table.bytes(),
    };
    let (old_bytes, new_bytes) = (table_of(random, &old), table_of(random, &new));
    let (map, card) = any_map_and_card(random, &old, &new);
    let _ = migrated(&old_bytes, &new_bytes, &map, card);
}

/// A card that went over to a new table, and one that was opened then, on its reading: "From then on, until number 18 arises, ticks and reports answer as
/// for a card opened on that reading under the new table and given the same calls, counts and sums apart."
#[derive(Clone, Copy, Debug)]
struct Twins {
    migrated: Card,
    fresh: Card,
    /// The reports and sums that the first brought with it.
    brought: Card,
}

impl Twins {
    fn of(new_table: &[u8], migrated: Card) -> Twins {
        let mut fresh = Card { held: !migrated.held, unread: 7, reports: 7, taken: 7, planned: 7 };
        let answer = ffi::open(new_table, migrated.held, migrated.unread, &mut fresh);
        assert_eq!(answer, [0, 0], "a card can be opened on the reading under the new table");
        Twins { migrated, fresh, brought: migrated }
    }

    /// The masks are the same, and the first has the reports and sums that it brought and those of the second.
    fn agree(&self) {
        let Twins { migrated, fresh, brought } = self;
        assert_eq!((migrated.held, migrated.unread), (fresh.held, fresh.unread), "the masks of both cards");
        assert_eq!(migrated.reports, brought.reports + fresh.reports);
        assert_eq!(migrated.taken, brought.taken + fresh.taken);
        assert_eq!(migrated.planned, brought.planned + fresh.planned);
    }

    /// One call on each, and the same answer.
    fn call(&mut self, call: impl Fn(&mut Card) -> [u64; 2]) {
        let answers = [call(&mut self.migrated), call(&mut self.fresh)];
        assert_eq!(answers[0], answers[1], "the answers for both cards");
        self.agree();
    }

    /// A tick of each: the same answer.
    fn tick(&self, table: &[u8], tree: &[u8]) -> [u64; 3] {
        let answers = [self.migrated, self.fresh].map(|card| ffi::tick(table, tree, card.held, card.unread));
        assert_eq!(answers[0], answers[1], "the ticks for both cards");
        answers[0]
    }

    /// A report on each: the same answer until number 18 arises on the first, and then false. The second takes that report, since 18 is judged last.
    fn report(&mut self, table: &[u8], job: usize, seconds: usize) -> bool {
        let mut fresh = self.fresh;
        let mut migrated = self.migrated;
        let answer = ffi::report(table, job, seconds, &mut migrated);
        let beside = ffi::report(table, job, seconds, &mut fresh);
        checks::reached(ON_A_MIGRATED_CARD, answer[0]);
        checks::reached(ON_A_CARD_BESIDE_IT, beside[0]);
        if answer[0] == 18 {
            assert_eq!((answer, beside), ([18, 0], [0, 0]), "the answers where number 18 arises");
            assert_eq!(migrated, self.migrated);
            return false;
        }
        assert_eq!(answer, beside, "the reports on both cards");
        (self.migrated, self.fresh) = (migrated, fresh);
        self.agree();
        true
    }

    /// Both opened anew: no difference is left.
    fn open(&mut self, table: &[u8], (held, unread): (u64, u64)) {
        let answers = [&mut self.migrated, &mut self.fresh].map(|card| ffi::open(table, held, unread, card));
        assert_eq!(answers[0], answers[1], "the answers to opening again");
        if answers[0] == [0, 0] {
            assert_eq!(self.migrated, self.fresh);
            self.brought = Card::default();
        }
        self.agree();
    }

    /// A further table for both.
    fn migrate(&mut self, old: &[u8], new: &[u8], map: &[u8]) -> [u64; 2] {
        let answers = [&mut self.migrated, &mut self.fresh].map(|card| ffi::migrate(old, new, map, card));
        assert_eq!(answers[0], answers[1], "the answers to a further table");
        self.agree();
        answers[0]
    }
}

/// A table and trees for it: two of any shape, and those of its plans for the whole shift and for some start, where they are built.
struct Bay {
    table: Table,
    bytes: Vec<u8>,
    trees: Vec<Vec<u8>>,
}

impl Bay {
    fn of(random: &mut Random, table: Table) -> Bay {
        let bytes = table.bytes();
        let mut trees = vec![make::tree(random, &table), make::tree(random, &table)];
        let (planned, lent) = checks::plan_shift(&bytes, lists(60, 22 * 60), random.next());
        trees.extend(planned.map(|planned| lent.tree[..planned.tree_bytes].to_vec()));
        let (planned, lent) = checks::plan(&bytes, random.state(table.facts), 0, lists(60, 22 * 60), random.next());
        trees.extend(planned.map(|planned| lent.tree[..planned.tree_bytes].to_vec()));
        Bay { table, bytes, trees }
    }

    /// With jobs enough for some of them to be applicable, or any.
    fn any(random: &mut Random, kind: Jobs) -> Bay {
        let facts = random.between(1, 6) as u32;
        let table =
            if random.one_in(3) { make::table(random, 64, 4, kind) } else { make::busy_table(random, facts, kind) };
        Bay::of(random, table)
    }

    /// A job that can be reported on the card, if there is one, more often than not; else any number.
    fn job(&self, random: &mut Random, card: &Card) -> usize {
        let applicable: Vec<usize> = (0..self.table.jobs.len())
            .filter(|job| self.table.jobs[*job].is_applicable(card.held, card.unread))
            .collect();
        match random.below(8) {
            0 => any_number(random),
            1 | 2 => random.below(self.table.jobs.len() + 1),
            _ if applicable.is_empty() => random.below(self.table.jobs.len() + 1),
            _ => *random.pick(&applicable),
        }
    }
}

/// A card that is to go over: with any count and sums, or with some that leave room for a few reports.
fn card_in_use(random: &mut Random, facts: u32) -> Card {
    let card = sound_card(random, facts);
    if random.one_in(3) {
        return card;
    }
    let reports = *random.pick(&[0, 1, 5, 65_530, 65_532, 65_533, 65_534]);
    let most = u32::from(reports);
    let taken = *random.pick(&[0, 65_535 * most, 65_535 * most / 2]);
    let planned = *random.pick(&[0, 5_400 * most, 5_400 * most / 3]);
    Card { reports, taken, planned, ..card }
}

/// The promise on random tables: a dozen calls of all kinds, on the card that went over and on a new one, until number 18 arises.
fn then_calls(random: &mut Random, _: u64, kind: Jobs) {
    let old = Bay::any(random, kind);
    let bays = [Bay::any(random, kind), Bay::any(random, kind)];
    let mut at = 0;
    let map = make::fact_map(random, old.table.facts, bays[at].table.facts);
    let before = card_in_use(random, old.table.facts);
    let after = migrated(&old.bytes, &bays[at].bytes, &map, before).expect("all is sound");
    let mut twins = Twins::of(&bays[at].bytes, after);
    for _ in 0..12 {
        let bay = &bays[at];
        // The card knows no table: now and then a call brings another.
        let other = if random.one_in(10) { &old } else { bay };
        match random.below(16) {
            0..=3 => {
                let tree = random.pick(&other.trees).clone();
                twins.tick(&other.bytes, &tree);
            }
            4 => {
                let mut tree = random.pick(&bay.trees).clone();
                make::damage(random, &mut tree, &make::TREE_COMMANDS);
                twins.tick(&bay.bytes, &tree);
            }
            5..=10 => {
                let job = other.job(random, &twins.fresh);
                let seconds = if random.one_in(12) { any_number(random) } else { *random.pick(&[0, 1, 600, 65_535]) };
                if !twins.report(&other.bytes, job, seconds) {
                    return;
                }
            }
            11 | 12 => {
                let (held, unread) = make::any_reading(random, bay.table.facts);
                twins.call(|card| ffi::read_outside(&bay.bytes, held, unread, card));
            }
            13 => {
                let damaged = make::damaged_bytes(random, &bay.table);
                let (held, unread) = make::reading(random, bay.table.facts);
                twins.call(|card| ffi::read_outside(&damaged, held, unread, card));
                // Many damaged tables are sound; then 18 may arise.
                if ffi::read_table(&damaged)[0] != 0 {
                    twins.call(|card| ffi::report(&damaged, 0, 1, card));
                }
                twins.tick(&damaged, &bay.trees[0]);
            }
            14 => {
                let next = &bays[1 - at];
                let mut map = make::fact_map(random, bay.table.facts, next.table.facts);
                if random.one_in(4) {
                    let fault = *random.pick(&MAP_FAULTS);
                    make::damage_map(random, next.table.facts, fault, &mut map);
                }
                if twins.migrate(&bay.bytes, &next.bytes, &map) == [0, 0] {
                    at = 1 - at;
                }
            }
            _ => {
                if random.one_in(4) {
                    let reading = make::any_reading(random, bay.table.facts);
                    twins.open(&bay.bytes, reading);
                }
            }
        }
    }
}

/// One call of a few, all of which are tried in every order.
enum Call {
    Report(usize, usize),
    Outside(u64, u64),
    Open(u64, u64),
    Migrate(Vec<u8>),
}

/// The tables that all orders of calls are tried under: one, and one that the card may go on to.
struct Orders {
    bays: [Bay; 2],
    calls: [Vec<Call>; 2],
}

impl Orders {
    fn of(random: &mut Random, bays: [Bay; 2]) -> Orders {
        let calls = [0, 1].map(|at: usize| {
            let (bay, next) = (&bays[at], &bays[1 - at]);
            let mut calls = Vec::new();
            for job in 0..=bay.table.jobs.len() {
                calls.extend([Call::Report(job, 0), Call::Report(job, 65_535)]);
            }
            calls.extend(readings(bay.table.facts).into_iter().map(|(held, unread)| Call::Outside(held, unread)));
            calls.push(Call::Outside(1 << bay.table.facts, 0));
            let (held, unread) = make::reading(random, bay.table.facts);
            calls.push(Call::Open(held, unread));
            calls.push(Call::Migrate(make::fact_map(random, bay.table.facts, next.table.facts)));
            calls
        });
        Orders { bays, calls }
    }

    /// Every sequence of so many calls. A tick changes nothing, so that each is made wherever one could stand.
    fn try_all(&self, at: usize, twins: &Twins, more: usize) {
        let bay = &self.bays[at];
        for tree in &bay.trees {
            twins.tick(&bay.bytes, tree);
        }
        if more == 0 {
            return;
        }
        for call in &self.calls[at] {
            let mut twins = *twins;
            let mut then = at;
            match call {
                Call::Report(job, seconds) => {
                    if !twins.report(&bay.bytes, *job, *seconds) {
                        continue;
                    }
                }
                Call::Outside(held, unread) => {
                    twins.call(|card| ffi::read_outside(&bay.bytes, *held, *unread, card));
                }
                Call::Open(held, unread) => twins.open(&bay.bytes, (*held, *unread)),
                Call::Migrate(map) => {
                    assert_eq!(twins.migrate(&bay.bytes, &self.bays[1 - at].bytes, map), [0, 0]);
                    then = 1 - at;
                }
            }
            self.try_all(then, &twins, more - 1);
        }
    }
}

/// The promise on tables of one and two facts: every map, every reading, and then every sequence of three calls.
fn then_every_call(random: &mut Random, index: u64, kind: Jobs) {
    let table = |random: &mut Random, facts: u32| {
        let count = random.between(1, 2);
        let mut jobs = make::jobs(random, facts, count, kind);
        // One that can be done again and again, so that number 18 is reached.
        jobs[0].needs = 0;
        Table { facts, jobs, goal: random.state(facts) }
    };
    let old = bare_table(2);
    let (new, next) = (table(random, 1 + index as u32 % 2), table(random, 1 + index as u32 / 2 % 2));
    let facts = new.facts;
    let bays = [Bay::of(random, new), Bay::of(random, next)];
    let orders = Orders::of(random, bays);
    let numbers: Vec<u8> = (0..facts as u8).chain([DROPPED]).collect();
    let counts =
        [(0, 0, 0), (2, 2 * 65_535, 2 * 5_400), (3, 0, 3 * 5_400 + 1), (65_533, 0, 65_533 * 5_400), (65_535, 0, 0)];
    let mut tried = HashSet::new();
    for map in every_row(&numbers, 2) {
        if map[0] == map[1] && map[0] != DROPPED {
            continue;
        }
        for (held, unread) in readings(2) {
            for (reports, taken, planned) in counts {
                let before = Card { held, unread, reports, taken, planned };
                let after = migrated(&old, &orders.bays[0].bytes, &map, before).expect("all is sound");
                // Many maps and readings come to the same.
                if tried.insert((after.held, after.unread, reports)) {
                    orders.try_all(0, &Twins::of(&orders.bays[0].bytes, after), 3);
                }
            }
        }
    }
    assert_eq!(tried.len(), 3usize.pow(facts) * counts.len(), "every reading of the new table came about");
}

/// A card that brings so many reports takes as many more as are left to 65,535, and then number 18; a sum above its bound is 18 at once, and one at its
/// bound is none. The new card beside it goes on in each case.
fn until_18(random: &mut Random, index: u64, kind: Jobs) {
    let facts = 1 + (index % 64) as u32;
    let own = 1u64 << random.below(facts as usize);
    let job = match kind {
        Plain => Job::plain(0, own, 0, 5_400),
        Paired => Job::paired(0, 0, own, 0, 5_400),
    };
    let old = make::table(random, 64, 4, kind);
    let new = Table { facts, jobs: vec![job], goal: own };
    let map = make::fact_map(random, old.facts, facts);
    let left = random.below(6) as u16;
    let reports = *random.pick(&[0, 1, 7, 65_535 - left]);
    let most = [65_535, 5_400].map(|seconds: u32| seconds * u32::from(reports));
    // Which sum is above its bound, if any.
    let above = index % 3;
    let excess = *random.pick(&[1, 1, 2, 60]);
    let sum = |which: u64| most[which as usize - 1].saturating_add(if above == which { excess } else { 0 });
    let before = Card { reports, taken: sum(1), planned: sum(2), ..sound_card(random, old.facts) };
    let after = migrated(&old.bytes(), &new.bytes(), &map, before).expect("all is sound");
    let mut twins = Twins::of(&new.bytes(), after);
    let room = if above == 0 { u32::from(65_535 - reports) } else { 0 };
    for _ in 0..room.min(20) {
        // As much as a report can bring, so that the sums stay at their bounds.
        assert!(twins.report(&new.bytes(), 0, 65_535), "a report within the bounds");
    }
    if room < 20 {
        assert!(!twins.report(&new.bytes(), 0, 0), "number 18");
        let refusal = checks::report(&new.bytes(), 0, 1, &mut twins.migrated).expect_err("a full card");
        assert_eq!(refusal, CARD_EXHAUSTED);
        // 16 and 17 stand before it, and ticks and readings do not judge it.
        assert!(twins.report(&new.bytes(), 1, 0), "16 comes first");
        twins.tick(&new.bytes(), &[JOB_LEAF, 0, END_OF_TREE]);
        twins.call(|card| ffi::read_outside(&new.bytes(), own, 0, card));
        let back = make::fact_map(random, facts, old.facts);
        assert_eq!(twins.migrate(&new.bytes(), &old.bytes(), &back), [0, 0]);
    }
}

/// The largest tables there are, on a stack of 256 KiB, by the library alone: the engine's stack is no matter.
fn small_stack(random: &mut Random, _: u64) {
    let mut largest = || Table { facts: 64, jobs: make::jobs(random, 64, MOST_JOBS, Paired), goal: random.next() };
    let (old, new) = (largest(), largest());
    let map = make::any_order(random, 64);
    let before = sound_card(random, 64);
    let expected = migrated(&old.bytes(), &new.bytes(), &map, before).expect("all is sound");
    let on_small_stack = move || {
        let mut card = before;
        (ffi::migrate(&old.bytes(), &new.bytes(), &map, &mut card), card)
    };
    let thread = std::thread::Builder::new().stack_size(256 * 1024).spawn(on_small_stack).expect("a thread");
    let (answer, card) = thread.join().expect("the thread ends");
    assert_eq!((answer, card), ([0, 0], expected));
}
