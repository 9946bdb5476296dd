//! The job card.

use bay_tests::engine::*;
use bay_tests::make::{self, Jobs};
use bay_tests::random::Random;

use super::checks;
use super::lent::lists;
use super::{both, one, Group};

pub fn groups() -> Vec<Vec<Group>> {
    vec![
        both("cards_sound_and_unsound", 60_000, any_card),
        both("cards_refused", 30_000, refused),
        one("cards_of_absent_facts", 81, absent_facts),
        both("cards_through_a_plan", 6_000, through_a_plan),
        one("cards_of_older_tables", 4_000, of_an_older_table),
        one("card_of_65535_reports", 1, most_reports),
        one("reports_of_no_job", 64, no_job),
        one("lateness", 2_000, lateness),
    ]
}

/// A sum of so many reports, of at most so many seconds each, or above that.
fn sum(random: &mut Random, reports: u16, most: u16) -> u32 {
    let bound = u32::from(most) * u32::from(reports);
    match random.below(8) {
        0 => 0,
        1 => bound,
        2 => bound.saturating_add(1),
        3 => random.next() as u32,
        4 => u32::MAX,
        _ => (random.next() % (u64::from(bound) + 1)) as u32,
    }
}

/// Any masks, sound more often than not, with any count and sums.
pub fn card(random: &mut Random, facts: u32) -> Card {
    let (held, unread) = if random.one_in(4) { make::any_reading(random, facts) } else { make::reading(random, facts) };
    let any = random.next() as u16;
    let reports = *random.pick(&[0, 1, 2, 65_533, 65_534, 65_535, any]);
    let (taken, planned) = (sum(random, reports, 65_535), sum(random, reports, MOST_SECONDS));
    Card { held, unread, reports, taken, planned }
}

/// A number that mostly names no job and is no report's seconds. Some would be if they were cut to a byte, to 16 or to 32 bits.
pub fn any_number(random: &mut Random) -> usize {
    let low = random.below(4);
    let byte = usize::from(random.byte());
    *random.pick(&[byte, byte, 255, 256 + low, 300, 65_536 + low, (1 << 32) + low, 1 << 63, usize::MAX])
}

fn any_card(random: &mut Random, _: u64, kind: Jobs) {
    let table = make::table(random, 64, 6, kind);
    let bytes = table.bytes();
    let mut card = card(random, table.facts);
    for _ in 0..4 {
        let number = random.below(table.jobs.len() + 1);
        let number = if random.one_in(12) { any_number(random) } else { number };
        let seconds = if random.one_in(12) { any_number(random) } else { *random.pick(&[0, 1, 600, 65_535]) };
        if random.one_in(3) {
            // Make it applicable, so that reports are often taken; or all but what is to be absent.
            if let Some(job) = table.jobs.get(number) {
                let absent = if random.one_in(4) { 0 } else { job.absent };
                card.held = (card.held | job.needs) & !absent;
                card.unread &= !(job.needs | absent);
            }
        }
        let _ = checks::report(&bytes, number, seconds, &mut card);
        checks::lateness(card.taken, card.planned);
        if random.one_in(3) {
            let (held, unread) = make::any_reading(random, table.facts);
            // The old masks and the counts are not judged then.
            let taken = checks::read_outside(&bytes, held, unread, &mut card).is_ok();
            assert_eq!(taken, held & unread == 0 && is_part(held | unread, all_facts(table.facts)));
        }
        if random.one_in(9) {
            let (held, unread) = make::any_reading(random, table.facts);
            let _ = checks::open(&bytes, held, unread, &mut card);
        }
    }
}

fn refused(random: &mut Random, _: u64, kind: Jobs) {
    let table = make::table(random, 64, 4, kind);
    let bytes = make::damaged_bytes(random, &table);
    let mut card = card(random, table.facts);
    let (held, unread) = make::any_reading(random, table.facts);
    match random.below(3) {
        0 => drop(checks::open(&bytes, held, unread, &mut card)),
        1 => drop(checks::read_outside(&bytes, held, unread, &mut card)),
        _ => drop(checks::report(&bytes, any_number(random), any_number(random), &mut card)),
    }
}

/// A job that needs two facts held and two absent, with each of the four held, absent and unread in turn: 17 but where all are as they should be,
/// and after 17 alone 18.
fn absent_facts(_: &mut Random, index: u64) {
    let job = Job::paired(0x03, 0x0c, 0x14, 0x20, 60);
    let bytes = table_bytes(6, &[job], 0);
    let (mut held, mut unread) = (0x20, 0);
    for fact in 0..4 {
        match index / 3u64.pow(fact) % 3 {
            0 => {}
            1 => held |= 1 << fact,
            _ => unread |= 1 << fact,
        }
    }
    let applicable = held & 0x0f == 0x03 && unread == 0;
    let mut card = Card { held, unread, ..Card::default() };
    let full = Card { reports: 65_535, ..card };
    match checks::report(&bytes, 0, 60, &mut card) {
        Ok(()) => assert_eq!((applicable, card.held, card.unread), (true, 0x17, 0)),
        Err(refusal) => assert_eq!((applicable, refusal.number, card.held), (false, 17, held)),
    }
    let refusal = checks::report(&bytes, 0, 60, &mut { full }).expect_err("a full card");
    assert_eq!(refusal.number, if applicable { 18 } else { 17 });
}

/// A vehicle from its opening to the goal: tick by card, report, and read what a tick asks for.
fn through_a_plan(random: &mut Random, _: u64, kind: Jobs) {
    let facts = random.between(3, 7) as u32;
    let table = make::busy_table(random, facts, kind);
    let bytes = table.bytes();
    let mut state = random.state(table.facts);
    let (result, lent) = checks::plan(&bytes, state, 0, lists(200, 22 * 200), state);
    let Ok(planned) = result else { return };
    let tree = &lent.tree[..planned.tree_bytes];
    let unread = random.state(table.facts);
    let mut card = Card { held: 9, unread: 9, reports: 9, taken: 9, planned: 9 };
    checks::open(&bytes, state & !unread, unread, &mut card).expect("a sound reading");
    let mut listed = 0;
    loop {
        match checks::tick(&bytes, tree, card.held, card.unread).expect("a sound tree and card").status {
            Status::Success => break,
            Status::Failure => panic!("a covered state does not fail"),
            Status::Waiting => panic!("a plan's tree names every job"),
            Status::Running(number) => {
                let seconds = random.next() as u16;
                let job = table.jobs[usize::from(number)];
                checks::report(&bytes, usize::from(number), usize::from(seconds), &mut card)
                    .expect("a named job is applicable");
                state = job.finish(state);
                listed += u32::from(job.seconds);
            }
            Status::Unsettled(mask) => {
                let (held, unread) = (card.held | (state & mask), card.unread & !mask);
                checks::read_outside(&bytes, held, unread, &mut card).expect("a sound reading");
            }
        }
        assert_eq!(card.held, state & !card.unread);
    }
    assert_eq!(usize::from(card.reports), planned.way_jobs);
    assert_eq!(minutes(i64::from(listed)), planned.way_minutes);
    assert_eq!(card.planned, listed);
    checks::lateness(card.taken, card.planned);
}

/// A card takes 65,535 reports, each of the most seconds, and then 18.
fn most_reports(_: &mut Random, _: u64) {
    let bytes = table_bytes(2, &[Job::plain(1, 2, 0, MOST_SECONDS)], 2);
    let mut card = Card::default();
    checks::open(&bytes, 1, 2, &mut card).expect("a sound reading");
    for _ in 0..65_535 {
        checks::report(&bytes, 0, 65_535, &mut card).expect("a report within the bounds");
    }
    assert_eq!((card.reports, card.taken, card.planned), (65_535, 4_294_836_225, 353_889_000));
    let refusal = checks::report(&bytes, 0, 0, &mut card).expect_err("the card is full");
    assert_eq!((refusal.number, refusal.place), (18, 0));
}

/// A number with any one bit above those of a byte names no job, whatever its lower bits name: 16, and the card stays.
fn no_job(_: &mut Random, index: u64) {
    let bytes = table_bytes(2, &[Job::plain(1, 2, 0, 60); 3], 2);
    let opened = Card { held: 1, unread: 0, reports: 0, taken: 0, planned: 0 };
    for low in 0..3 {
        let mut card = opened;
        let number = 1 << index | low;
        let refusal = checks::report(&bytes, number, 60, &mut card).err();
        if number < 3 {
            assert_eq!((refusal, card.reports), (None, 1));
        } else {
            assert_eq!((refusal, card), (Some(Refusal { number: 16, place: 0 }), opened));
        }
    }
}

/// A card that was filled before document 02's W3, when a job could be listed with any 16 bits of seconds. Where its planned sum is above
/// the new limit, each report is 18 and the card stays; an outside reading, the lateness and ticks take it as before, and a new opening
/// ends it. Reported seconds have no such limit.
fn of_an_older_table(random: &mut Random, _: u64) {
    let reports = random.between(1, 9) as u16;
    let limit = 5_400 * u32::from(reports);
    let listed: u32 = (0..reports).map(|_| random.below(12_000) as u32).sum();
    let planned = *random.pick(&[limit, limit + 1, 65_535 * u32::from(reports), listed]);
    let taken = 65_535 * u32::from(reports);
    let bytes = table_bytes(3, &[Job::plain(1, 2, 0, MOST_SECONDS)], 2);
    let old = Card { held: 1, unread: 4, reports, taken, planned };
    let mut card = old;
    let is_over = planned > limit;
    for _ in 0..2 {
        match checks::report(&bytes, 0, 65_535, &mut card) {
            Ok(()) => assert!(!is_over),
            Err(refusal) => assert_eq!((is_over, refusal.number, refusal.place, card), (true, 18, 0, old)),
        }
    }
    checks::lateness(card.taken, card.planned);
    checks::tick(&bytes, &[JOB_LEAF, 0, END_OF_TREE], card.held, card.unread).expect("the counts are not judged");
    checks::read_outside(&bytes, 5, 0, &mut card).expect("the counts are not judged");
    assert_eq!(checks::report(&bytes, 0, 1, &mut card).is_err(), is_over);
    checks::open(&bytes, 1, 0, &mut card).expect("a sound reading");
    checks::report(&bytes, 0, 65_535, &mut card).expect("a new card has no old sums");
    assert_eq!((card.reports, card.taken, card.planned), (1, 65_535, 5_400));
}

fn lateness(random: &mut Random, index: u64) {
    let ends = [0, 1, 29, 30, 31, 89, 90, 91, u32::MAX - 90, u32::MAX - 31, u32::MAX - 30, u32::MAX - 1, u32::MAX];
    if index == 0 {
        for taken in ends {
            for planned in ends {
                checks::lateness(taken, planned);
            }
        }
        assert_eq!(checks::lateness(u32::MAX, 0), 71_582_788);
        assert_eq!(checks::lateness(0, u32::MAX), -71_582_788);
        for (seconds, whole) in [(29, 0), (30, 0), (31, 1), (90, 2), (150, 2), (210, 4)] {
            assert_eq!((checks::lateness(seconds, 0), checks::lateness(0, seconds)), (whole, -whole));
        }
        for difference in 0..=3_600 {
            checks::lateness(4_000 + difference, 4_000);
            checks::lateness(4_000 - difference, 4_000);
        }
    }
    for _ in 0..40 {
        let planned = random.next() as u32;
        let difference = random.below(400) as u32;
        checks::lateness(planned.saturating_add(difference), planned);
        checks::lateness(planned.saturating_sub(difference), planned);
        checks::lateness(random.next() as u32, planned);
    }
}
