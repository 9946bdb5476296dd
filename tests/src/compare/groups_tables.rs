//! The table reader and writer.

use bay_tests::engine::*;
use bay_tests::make::Jobs::{self, Paired, Plain};
use bay_tests::random::Random;
use bay_tests::{make, trailer};

use super::checks;
use super::{both, one, Group};

pub fn groups() -> Vec<Vec<Group>> {
    vec![
        both("tables_sound", 6_000, sound),
        both("tables_every_byte_changed", 163, every_byte_changed),
        one("tables_of_both_widths_every_byte_changed", 12, every_byte_of_both_widths),
        both("tables_every_cut", 50, every_cut),
        both("tables_of_128_and_129_jobs", 60, most_jobs),
        both("tables_damaged", 60_000, damaged),
        one("tables_of_any_commands", 60_000, any_commands),
        one("tables_stops_of_one_job", 60_000, one_job),
        both("tables_written", 40_000, written),
    ]
}

/// Reads a table and its jobs, and jobs that it has not.
fn read_all(bytes: &[u8]) {
    let jobs = match checks::read_table(bytes) {
        Ok(table) => table.jobs.len(),
        Err(_) => 1,
    };
    for number in 0..jobs {
        let _ = checks::read_job(bytes, number);
    }
    for number in [jobs, jobs + 1, 255, 256, usize::MAX] {
        let _ = checks::read_job(bytes, number);
    }
}

fn sound(random: &mut Random, _: u64, kind: Jobs) {
    let table = make::table(random, 64, 12, kind);
    let bytes = table.bytes();
    read_all(&bytes);
    let columns = Columns::of(&table.jobs);
    let spare = random.below(20);
    for length in [0, 1, bytes.len() - 1, bytes.len(), bytes.len() + spare] {
        let (result, out) = checks::write_table(table.facts as usize, &columns, table.goal, length, random.next());
        assert_eq!(result.is_ok(), length >= bytes.len());
        if result.is_ok() {
            assert_eq!(out[..bytes.len()], bytes, "writing what was read gives other bytes");
        }
    }
}

fn trailer_table(kind: Jobs) -> Vec<u8> {
    match kind {
        Plain => trailer::table(),
        Paired => trailer::one_fact_less::table(),
    }
}

/// Every value of one byte.
fn change_byte(random: &mut Random, bytes: &[u8], at: usize) {
    let mut bytes = bytes.to_vec();
    for value in 0..=255 {
        bytes[at] = value;
        let _ = checks::read_table(&bytes);
        let _ = checks::read_job(&bytes, random.below(7));
    }
}

/// Every byte of the trailer's table, of which the one with a 0x21 has more.
fn every_byte_changed(random: &mut Random, index: u64, kind: Jobs) {
    let bytes = trailer_table(kind);
    if (index as usize) < bytes.len() {
        change_byte(random, &bytes, index as usize);
    }
}

/// Every byte of tables whose jobs have both widths, in any order.
fn every_byte_of_both_widths(random: &mut Random, _: u64) {
    let facts = random.between(2, 64) as u32;
    let mut jobs = make::jobs(random, facts, 4, Plain);
    let paired = random.below(4);
    jobs[paired] = make::jobs(random, facts, 1, Paired)[0];
    let bytes = Table { facts, jobs, goal: random.facts(facts, 2) }.bytes();
    for at in 0..bytes.len() {
        change_byte(random, &bytes, at);
    }
}

fn every_cut(random: &mut Random, index: u64, kind: Jobs) {
    let bytes = if index == 0 { trailer_table(kind) } else { make::table(random, 64, 6, kind).bytes() };
    for length in 0..=bytes.len() {
        let _ = checks::read_table(&bytes[..length]);
        let _ = checks::read_job(&bytes[..length], 0);
    }
    for extra in 0..=255 {
        let _ = checks::read_table(&[&bytes[..], &[extra]].concat());
    }
}

fn most_jobs(random: &mut Random, index: u64, kind: Jobs) {
    let facts = random.between(1, 64) as u32;
    let count = 127 + index as usize % 4;
    let mut jobs = make::jobs(random, facts, count, kind);
    if index % 3 == 1 {
        // A 129th job is 4 before its masks are judged, and an earlier fault comes first.
        let at = random.between(120, count - 1);
        jobs[at].adds |= 1 << 63;
        jobs[at].deletes |= jobs[at].adds;
    }
    let bytes = table_bytes(facts as u8, &jobs, 0);
    let _ = checks::read_table(&bytes);
    for number in [0, 126, 127, 128, 129, 130] {
        let _ = checks::read_job(&bytes, number);
    }
    // The last jobs, byte by byte: what comes after the first 126.
    let from = table_bytes(facts as u8, &jobs[..126], 0).len() - 10;
    for length in from..=bytes.len() {
        let _ = checks::read_table(&bytes[..length]);
    }
    let _ = checks::write_table(facts as usize, &Columns::of(&jobs), 0, bytes.len(), random.next());
}

fn damaged(random: &mut Random, _: u64, kind: Jobs) {
    let mut bytes = make::table(random, 64, 5, kind).bytes();
    for _ in 0..random.between(1, 3) {
        make::damage(random, &mut bytes, &make::TABLE_COMMANDS);
    }
    let _ = checks::read_table(&bytes);
    if random.one_in(4) {
        read_all(&bytes);
    }
}

fn any_commands(random: &mut Random, _: u64) {
    let bytes = make::table_like(random);
    let _ = checks::read_table(&bytes);
}

/// One job that needs facts absent, sound or with several faults at once, first or last of three: each of its stops comes in its turn.
fn one_job(random: &mut Random, _: u64) {
    let facts = random.between(2, 63) as u32;
    let mut jobs = make::jobs(random, facts, 3, Paired);
    let at = random.below(3);
    let job = &mut jobs[at];
    job.command = PAIRED_JOB;
    let high = 1 << random.between(facts as usize, 63);
    for _ in 0..random.below(4) {
        match random.below(8) {
            0 => **random.pick_mut(&mut [&mut job.needs, &mut job.absent, &mut job.adds, &mut job.deletes]) |= high,
            1 => job.needs |= job.adds & job.adds.wrapping_neg(),
            2 => job.deletes |= job.adds & job.adds.wrapping_neg(),
            3 => job.seconds = make::too_long(random),
            4 => make::contradict(random, facts, job),
            // Adds and deletes may meet the absent facts.
            5 => job.absent |= job.adds & !job.needs,
            6 => job.absent |= job.deletes & !job.needs,
            _ => job.absent |= job.needs,
        }
    }
    let bytes = table_bytes(facts as u8, &jobs, 0);
    let _ = checks::read_table(&bytes);
    let _ = checks::read_job(&bytes, at);
    let columns = Columns::of(&jobs);
    let _ = checks::write_table(facts as usize, &columns, 0, bytes.len(), random.next());
}

/// Columns with faults: of the reader, of length, and rows that no bytes stand for.
fn written(random: &mut Random, _: u64, kind: Jobs) {
    let table = make::table(random, 64, 6, kind);
    let mut facts = table.facts as usize;
    let mut goal = table.goal;
    let mut columns = Columns::of(&table.jobs);
    for _ in 0..random.below(3) {
        let high = 1 << random.between(table.facts as usize - 1, 63);
        match random.below(14) {
            0 => {
                // Of those that no byte holds some would be in range if they were cut.
                let cut = 256 * random.between(1, 1 << 40) + table.facts as usize;
                facts = *random.pick(&[0, 1, 64, 65, 255, 256, 300, cut, 1 << 63, usize::MAX])
            }
            1 => goal |= high,
            2 if !columns.needs.is_empty() => *random.pick_mut(&mut columns.needs) |= high,
            3 if !columns.adds.is_empty() => *random.pick_mut(&mut columns.adds) |= high,
            4 if !columns.deletes.is_empty() => *random.pick_mut(&mut columns.deletes) |= high,
            5 => {
                columns.seconds.pop();
            }
            6 => columns.deletes.push(0),
            7 => {
                columns.needs.push(1);
                columns.adds.push(2);
            }
            8 if !columns.seconds.is_empty() => *random.pick_mut(&mut columns.seconds) = make::too_long(random),
            9 => {
                columns.commands.pop();
            }
            10 => columns.absent.push(0),
            11 if !columns.commands.is_empty() => {
                let any = random.byte();
                *random.pick_mut(&mut columns.commands) = *random.pick(&[JOB, PAIRED_JOB, GOAL, 0, 0x22, 0x1f, any]);
            }
            12 if !columns.absent.is_empty() => *random.pick_mut(&mut columns.absent) |= high,
            13 => {
                // All its needs and one fact more.
                let rows = columns.absent.len().min(columns.needs.len());
                if rows > 0 {
                    let row = random.below(rows);
                    columns.absent[row] |= columns.needs[row] | 1;
                }
            }
            _ => {}
        }
    }
    let size = |command: &u8| if *command == PAIRED_JOB { 35 } else { 27 };
    let wanted = 12 + columns.commands.iter().map(size).sum::<usize>();
    let length = random.between(wanted.saturating_sub(3), wanted + 3);
    let (result, out) = checks::write_table(facts, &columns, goal, length, random.next());
    if let Ok(count) = result {
        let read = checks::read_table(&out[..count]).expect("a written table can be read");
        assert_eq!((read.facts as usize, read.goal, count), (facts, goal, wanted));
        let kept = Columns::of(&read.jobs);
        assert_eq!((&kept.commands, &kept.absent), (&columns.commands, &columns.absent));
    }
    let _ = checks::write_table(facts, &columns, goal, random.below(4), random.next());
}
