//! The engine on the cases that document 01 prints, on the trailer with one fact less, and against brute force.

use crate::brute;
use crate::engine::*;
use crate::make::{self, BatchRows, Jobs};
use crate::random::Random;
use crate::trailer::{self, one_fact_less};

fn lent(capacity: usize) -> Lent {
    Lent::filled([capacity, capacity, capacity, capacity, capacity, MOST_TREE_BYTES], 7)
}

/// Entries, tree bytes and jobs of the way from a start, or number and place.
fn trailer_plan(held: u64, capacity: usize) -> Result<(usize, usize, usize), (u64, usize)> {
    match plan(&trailer::table(), held, 0, &mut lent(capacity)) {
        Ok(planned) => Ok((planned.entries, planned.tree_bytes, planned.way_jobs)),
        Err(refusal) => Err((refusal.number, refusal.place)),
    }
}

/// A tick of P1's tree.
fn trailer_tick(held: u64, unread: u64) -> Status {
    let table = trailer::table();
    let mut lists = lent(MOST_ENTRIES);
    let planned = plan(&table, 0x02, 0, &mut lists).unwrap();
    tick(&table, &lists.tree[..planned.tree_bytes], held, unread).unwrap().status
}

#[test]
fn trailer_table_has_147_bytes() {
    let bytes = trailer::table();
    assert_eq!(bytes.len(), 147);
    let table = read_table(&bytes).unwrap();
    assert_eq!((table.facts, table.goal, table.jobs), (5, 0x10, trailer::jobs()));
}

#[test]
fn printed_plan() {
    assert_eq!(bayplan(&trailer::table(), &trailer::start(0x02, 0)), trailer::PRINTED);
}

#[test]
fn p1() {
    assert_eq!(trailer_plan(0x02, 4096), Ok((8, 111, 4)));
}

#[test]
fn p2() {
    let (entries, _, jobs) = trailer_plan(0x01, 4096).unwrap();
    assert_eq!((entries, jobs), (9, 4));
}

#[test]
fn p3() {
    assert_eq!(trailer_plan(0x08, 9), Err((11, 9)));
}

#[test]
fn p4() {
    assert_eq!(trailer_plan(0x08, 8), Err((10, 8)));
}

#[test]
fn p5() {
    assert_eq!(trailer_plan(0x10, 4096), Ok((1, 13, 0)));
}

#[test]
fn p6() {
    assert_eq!(trailer_plan(0x02, 0), Err((10, 0)));
    assert_eq!(trailer_plan(0x10, 0), Err((10, 0)));
}

#[test]
fn p7() {
    assert_eq!(trailer_tick(0x02, 0x01), Status::Unsettled(0x01));
}

#[test]
fn p8() {
    assert_eq!(trailer_tick(0x02, 0x08), Status::Unsettled(0x08));
}

#[test]
fn p9() {
    assert_eq!(trailer_tick(0x03, 0), Status::Running(3));
}

#[test]
fn p10() {
    assert_eq!(trailer_tick(0x08, 0), Status::Failure);
}

#[test]
fn run_from_p1_is_3_1_2_4() {
    let jobs = trailer::jobs();
    let mut held = 0x02;
    let mut run = Vec::new();
    while let Status::Running(job) = trailer_tick(held, 0) {
        run.push(job);
        assert!(jobs[usize::from(job)].is_applicable(held, 0));
        held = jobs[usize::from(job)].finish(held);
    }
    assert_eq!(run, [3, 1, 2, 4]);
    assert_eq!(trailer_tick(held, 0), Status::Success);
}

#[test]
fn minutes_are_nearest_with_the_half_to_the_even_one() {
    let around_zero = [(0, 0), (29, 0), (30, 0), (31, 1), (89, 1), (90, 2), (91, 2), (149, 2), (150, 2), (151, 3)];
    for (seconds, whole) in around_zero.into_iter().chain([(1590, 26), (1650, 28)]) {
        assert_eq!(minutes(seconds), whole);
        assert_eq!(minutes(-seconds), -whole);
    }
    assert_eq!(lateness(u32::MAX, 0), 71_582_788);
    assert_eq!(lateness(0, u32::MAX), -71_582_788);
}

fn table_stop(bytes: &[u8]) -> (u64, usize) {
    let refusal = read_table(bytes).unwrap_err();
    (refusal.number, refusal.place)
}

#[test]
fn stops_of_the_table() {
    let sound = trailer::table();
    assert_eq!(table_stop(&[]), (1, 0));
    assert_eq!(table_stop(&sound[..1]), (1, 0));
    assert_eq!(table_stop(&sound[..2]), (1, 2));
    assert_eq!(table_stop(&sound[..28]), (1, 2));
    assert_eq!(table_stop(&sound[..29]), (1, 29));
    assert_eq!(table_stop(&sound[..146]), (1, 146));
    assert_eq!(table_stop(&[0x20]), (2, 0));
    assert_eq!(table_stop(&[0x10, 5, 0x3f]), (2, 2));
    assert_eq!(table_stop(&[0x10, 0]), (3, 0));
    assert_eq!(table_stop(&[0x10, 65]), (3, 0));
    let job = trailer::jobs()[2];
    let many = table_bytes(5, &[job; 129], 0x10);
    let last = 2 + 128 * 27;
    assert_eq!(table_stop(&many), (4, last));
    assert_eq!(table_stop(&many[..last + 26]), (1, last));
    assert!(read_table(&table_bytes(5, &[job; 128], 0x10)).is_ok());
    assert_eq!(table_stop(&table_bytes(5, &[job], 0x20)), (5, 29));
    // Out of range comes before an overlap.
    assert_eq!(table_stop(&table_bytes(5, &[Job { adds: 0x21, ..job }], 0x10)), (5, 2));
    assert_eq!(table_stop(&table_bytes(5, &[Job { deletes: 0x04, ..job }], 0x10)), (6, 2));
    assert_eq!(table_stop(&table_bytes(5, &[Job { needs: 0x04, ..job }], 0x10)), (6, 2));
    let longer = [&sound[..], &[END_OF_TABLE]].concat();
    assert_eq!(table_stop(&longer), (7, 147));
    // Too long a job comes after an overlap in its own command, and before whatever is wrong in a later one.
    let long = Job { seconds: 5_401, ..job };
    assert!(read_table(&table_bytes(5, &[Job { seconds: 5_400, ..job }], 0x10)).is_ok());
    assert_eq!(table_stop(&table_bytes(5, &[job, long], 0x10)), (19, 29));
    assert_eq!(table_stop(&table_bytes(5, &[Job { needs: 0x04, ..long }], 0x10)), (6, 2));
    assert_eq!(table_stop(&table_bytes(5, &[Job { needs: 0x20, ..long }], 0x10)), (5, 2));
    assert_eq!(table_stop(&table_bytes(5, &[long, Job { needs: 0x04, ..job }], 0x20)), (19, 2));
    assert_eq!(table_stop(&table_bytes(5, &[long; 129], 0x10)), (19, 2));
    let many = [&[job; 128][..], &[long]].concat();
    assert_eq!(table_stop(&table_bytes(5, &many, 0x10)), (4, 2 + 27 * 128));
    assert_eq!(table_stop(&[&table_bytes(5, &[long], 0x10)[..], &[END_OF_TABLE]].concat()), (19, 2));
}

#[test]
fn stops_of_a_job_that_needs_a_fact_absent() {
    let job = Job::paired(0x01, 0x02, 0x06, 0x08, 60);
    let stop =
        |job: Job| read_table(&table_bytes(5, &[trailer::jobs()[2], job], 0)).err().map(|refusal| refusal.number);
    // Adds and deletes may meet the absent facts.
    assert_eq!(stop(job), None);
    assert_eq!(stop(Job { deletes: 0x0a, adds: 0x04, ..job }), None);
    assert_eq!(table_stop(&table_bytes(5, &[trailer::jobs()[2], Job { absent: 0x03, ..job }], 0)), (22, 29));
    // 5 of all four masks, 6, 19, 22.
    for bad in [
        Job { needs: 0x21, ..job },
        Job { absent: 0x22, ..job },
        Job { adds: 0x26, ..job },
        Job { deletes: 0x28, ..job },
        Job { absent: 0x23, needs: 0x07, seconds: 5_401, ..job },
    ] {
        assert_eq!(stop(bad), Some(5));
    }
    assert_eq!(stop(Job { needs: 0x06, seconds: 5_401, ..job }), Some(6));
    assert_eq!(stop(Job { deletes: 0x02, seconds: 5_401, ..job }), Some(6));
    assert_eq!(stop(Job { needs: 0x02, adds: 0x04, seconds: 5_401, ..job }), Some(19));
    assert_eq!(stop(Job { needs: 0x02, adds: 0x04, ..job }), Some(22));
    // 22 comes before whatever is wrong in a later command, and 4 before it.
    let contradictory = Job { absent: 0x01, ..job };
    assert_eq!(table_stop(&table_bytes(5, &[contradictory, Job { needs: 0x04, ..job }], 0x20)), (22, 2));
    assert_eq!(table_stop(&table_bytes(5, &[contradictory; 129], 0)), (22, 2));
    let many = [&[job; 128][..], &[contradictory]].concat();
    assert_eq!(table_stop(&table_bytes(5, &many, 0)), (4, 2 + 35 * 128));
    // Cut operands, and a job of either command after the other.
    let bytes = table_bytes(5, &[job, trailer::jobs()[2]], 0);
    assert_eq!(table_stop(&bytes[..36]), (1, 2));
    assert_eq!(table_stop(&bytes[..37]), (1, 37));
    assert_eq!(table_stop(&bytes[..38]), (1, 37));
    assert_eq!(bytes.len(), 2 + 35 + 27 + 10);
    assert_eq!(read_table(&bytes).unwrap().jobs, [job, trailer::jobs()[2]]);
}

#[test]
fn a_table_is_written_by_its_commands() {
    let jobs = one_fact_less::jobs();
    let write = |columns: &Columns, facts: usize, room: usize| write_table(facts, columns, 0x08, &mut vec![0; room]);
    let columns = Columns::of(&jobs);
    assert_eq!(write(&columns, 4, 163), Ok(163));
    assert_eq!(write(&columns, 4, 162), Err(Unwritten::TooShort(163)));
    let mut uneven = columns.clone();
    uneven.commands[0] = 0x30;
    uneven.absent.pop();
    assert_eq!(write(&uneven, 300, 0), Err(Unwritten::Uneven));
    // Before any number of a reader: no bytes stand for such a row.
    for (row, command, absent) in [(1, 0x22, 0), (1, 0, 0), (3, JOB, 0x02), (4, JOB, 1 << 63), (0, JOB, 0x01)] {
        let mut unwritable = columns.clone();
        unwritable.commands[row] = command;
        unwritable.absent[row] = absent;
        unwritable.needs[0] = 0xff;
        assert_eq!(write(&unwritable, 300, 0), Err(Unwritten::Unwritable(row)));
    }
    let mut without = columns.clone();
    without.absent[0] = 0;
    assert_eq!(write(&without, 4, 163), Ok(163));
    without.commands[0] = JOB;
    assert_eq!(write(&without, 4, 163), Ok(155));
    assert_eq!(write(&columns, 300, 0), Err(Unwritten::Refused(Refusal { number: 3, place: 0 })));
}

#[test]
fn trailer_with_one_fact_less() {
    let bytes = one_fact_less::table();
    assert_eq!(bytes.len(), 163);
    let table = read_table(&bytes).unwrap();
    assert_eq!((table.facts, table.goal, &table.jobs), (4, 0x08, &one_fact_less::jobs()));
    assert_eq!(bayplan(&bytes, &trailer::start(0x01, 0)), one_fact_less::PRINTED);

    let mut lists = lent(MOST_ENTRIES);
    let planned = plan(&bytes, 0x01, 0, &mut lists).unwrap();
    let root = read_tree(&lists.tree[..planned.tree_bytes], &table).unwrap();
    assert_eq!(named(&table, &root, 0x01), [3, 1, 2, 4]);
    assert_eq!(planned, Planned { entries: 7, tree_bytes: 153, way_jobs: 4, way_minutes: 26, paired: true });
    // The trailer itself decides: unread, it is asked for where it matters, held or absent.
    let status = |held, unread| tick_node(&root, held, unread).status;
    assert_eq!(status(0x00, 0), Status::Failure);
    assert_eq!(status(0x00, 0x01), Status::Unsettled(0x01));
    assert_eq!(status(0x04, 0x01), Status::Unsettled(0x01));
    assert_eq!(status(0x04, 0), Status::Running(2));
    assert_eq!(status(0x05, 0), Status::Running(1));
    assert_eq!(status(0x06, 0x01), Status::Running(4));
    assert_eq!(status(0x08, 0x07), Status::Success);
    // The whole list has one entry more, for a vehicle that comes without its trailer.
    let (whole, ending) = expand(&table, None, MOST_PAIR_ENTRIES);
    assert_eq!((whole.len(), ending), (8, Ending::Exhausted));
    assert_eq!(whole[7].condition, Condition { present: 0, absent: 0x01 });
    assert_eq!(way_from(&whole, 7), [2, 0, 3, 4]);
}

/// Document 02, W10: an entry that is never the first one met, as pairs can have it.
#[test]
fn a_dead_line_with_pairs() {
    let jobs = vec![Job::paired(0, 1, 3, 0, 1), Job::plain(0, 1, 0, 1)];
    let (list, _) = expand(&Table { facts: 2, jobs, goal: 3 }, None, MOST_PAIR_ENTRIES);
    let conditions: Vec<(u64, u64)> =
        list.iter().map(|entry| (entry.condition.present, entry.condition.absent)).collect();
    assert_eq!(conditions, [(3, 0), (0, 1), (2, 0)]);
    assert_eq!(
        (0..4).map(|state| brute::first_met(&list, state)).collect::<Vec<_>>(),
        [Some(1), None, Some(1), Some(0)]
    );
}

#[test]
fn capacity_of_pairs() {
    let table = make::long_table(12, 0, Jobs::Paired);
    let bytes = table.bytes();
    let whole = expand(&table, None, MOST_ENTRIES).0;
    assert_eq!(whole.len(), 4_096);
    let plan_to = |entries: usize, lengths: [usize; 6]| {
        let start = make::long_state(&table, &whole[entries - 1]);
        let planned = plan(&bytes, start, 0, &mut Lent::filled(lengths, 3));
        planned.map(|planned| (planned.entries, planned.tree_bytes)).map_err(|refusal| (refusal.number, refusal.place))
    };
    let ample = [4_096, 4_096, 4_096, 4_096, 4_096, 65_535];
    assert_eq!(plan_to(2_978, ample), Ok((2_978, 65_515)));
    assert_eq!(plan_to(2_979, ample), Err((10, 2_978)));
    let mut shorter = ample;
    shorter[1] = 2_977;
    assert_eq!(plan_to(2_978, shorter), Err((10, 2_977)));
    assert_eq!(plan_to(2_977, shorter), Ok((2_977, 65_493)));
    assert_eq!(plan_to(2_978, [2_978, 2_978, 2_978, 2_978, 2_978, 65_514]), Err((12, 2_978)));
    // A counter whose whole list has just so many entries.
    let shift = |last: u64| {
        let planned = plan_shift(&make::pair_counter_table(12, last, 1).bytes(), &mut Lent::filled(ample, 3));
        planned.map(|planned| planned.entries).map_err(|refusal| (refusal.number, refusal.place))
    };
    assert_eq!(shift(2_976), Ok(2_978));
    assert_eq!(shift(2_977), Err((10, 2_978)));
}

/// The second masks of a table without 0x21 are of no account, of whatever length they are lent.
#[test]
fn plain_tables_leave_second_masks_alone() {
    for length in [0, 1, 7, 8, 4_096, 5_000] {
        let mut lists = Lent::filled([8, length, 8, 8, 8, 111], 5);
        let before = lists.absences.clone();
        let planned = plan(&trailer::table(), 0x02, 0, &mut lists).unwrap();
        assert_eq!((planned.entries, planned.paired, lists.absences), (8, false, before));
    }
}

/// Small tables by brute force, over all states and all readings: demand 3, of two fitters too, no way, the whole shift's cover, and Unsettled.
fn by_brute_force(kind: Jobs, cases: u64) {
    for index in 0..cases {
        let random = &mut Random::for_case(1, "engine", index);
        let table = make::small_table(random, index, kind);
        let distance = brute::distances(&table);
        let licences = make::licences(random, table.jobs.len());
        let check = |list: &[Entry]| {
            let root = read_tree(&tree_bytes(&table, list), &table).unwrap();
            brute::check_runs(&table, list, &distance, |state| Ok(tick_node(&root, state, 0)));
            let fitters = FITTERS.map(|fitter| fitter_tree_bytes(&table, list, &licences, fitter));
            let roots = fitters.map(|tree| read_tree(&tree, &table).unwrap());
            brute::check_joint_runs(&table, list, &licences, &distance, |fitter, state| {
                Ok(tick_node(&roots[fitter as usize], state, 0))
            });
            for unread in 0..1 << table.facts {
                let held = random_part(index ^ unread, all_facts(table.facts) & !unread);
                brute::check_unsettled(held, unread, |held, unread| tick_node(&root, held, unread));
                let of_the_team = tick_node(&root, held, unread).status;
                for fitter in FITTERS {
                    let tick = |held, unread| tick_node(&roots[fitter as usize], held, unread);
                    assert_eq!(tick(held, unread).status, brute::told_to(fitter, &licences, of_the_team));
                    brute::check_unsettled(held, unread, tick);
                }
            }
        };
        let (whole, ending) = expand(&table, None, table.most_entries());
        assert_eq!(ending, Ending::Exhausted);
        brute::check_cover(&table, &whole, &distance);
        check(&whole);
        for start in 0..1 << table.facts {
            let (list, ending) = expand(&table, Some(start), table.most_entries());
            assert_eq!(list, whole[..list.len()]);
            assert_eq!(ending == Ending::Covered, distance[start as usize].is_some(), "from {start:x}");
            if ending == Ending::Covered {
                assert_eq!(brute::first_met(&list, start), Some(list.len() - 1));
                check(&list);
            }
        }
        if kind == Jobs::Plain {
            brute::check_no_dead_lines(&table, &whole);
        }
    }
}

/// Any facts of a mask.
fn random_part(seed: u64, mask: u64) -> u64 {
    Random::new(seed).next() & mask
}

#[test]
fn plain_tables_by_brute_force() {
    by_brute_force(Jobs::Plain, 120);
}

#[test]
fn pair_tables_by_brute_force() {
    by_brute_force(Jobs::Paired, 400);
}

/// Lent list tables of so many entries, and trees of so many bytes.
fn team_lent(capacity: usize, trees: [usize; 2]) -> TeamLent {
    TeamLent::filled([capacity, capacity, capacity, capacity, capacity, trees[0]], trees[1], 7)
}

/// The trailer's plan for two fitters from a start, into as much as it can use.
fn trailer_team(licences: &[u8], held: u64) -> (TeamPlanned, TeamLent) {
    let mut lent = team_lent(MOST_ENTRIES, [MOST_TREE_BYTES; 2]);
    (plan_team(&trailer::table(), licences, held, 0, &mut lent).unwrap(), lent)
}

/// Document 02, W12: "each fitter has a tree of his own in which the other's jobs are a waiting leaf 0x46, without operand".
#[test]
fn trees_of_two_fitters() {
    let (planned, lent) = trailer_team(&trailer::LICENCES, 0x02);
    // The list's jobs are 4, 2, 3, 1, 3, 0, 3: two of them wait in the first tree, and five in the second.
    assert_eq!(planned, TeamPlanned { entries: 8, tree_bytes: [109, 106], paired: false });
    assert_eq!(lent.lists.list(false, 8), trailer_list());
    let entry = |mask: u64, leaf: &[u8]| [make::inner(SEQUENCE, 2), make::condition(mask), leaf.to_vec()].concat();
    let tree = |leaves: [&[u8]; 7]| {
        let masks = [0x0c, 0x09, 0x06, 0x0a, 0x03, 0x05, 0x02];
        let entries: Vec<u8> = masks.into_iter().zip(leaves).flat_map(|(mask, leaf)| entry(mask, leaf)).collect();
        [make::inner(FALLBACK, 8), make::condition(0x10), entries, vec![END_OF_TREE]].concat()
    };
    let waiting = &[0x46][..];
    let of_first = tree([&[0x44, 4], &[0x44, 2], &[0x44, 3], waiting, &[0x44, 3], waiting, &[0x44, 3]]);
    let of_second = tree([waiting, waiting, waiting, &[0x44, 1], waiting, &[0x44, 0], waiting]);
    assert_eq!(lent.trees[0][..109], of_first);
    assert_eq!(lent.trees[1][..106], of_second);
    // Nothing past them is written.
    let unwritten = team_lent(MOST_ENTRIES, [MOST_TREE_BYTES; 2]);
    assert_eq!(lent.trees[0][109..], unwritten.trees[0][109..]);
    assert_eq!(lent.trees[1][106..], unwritten.trees[1][106..]);
    // Where one has every job, his tree is the plan's; "Jobs with 3 belong to the first fitter."
    let whole = tree_bytes(&read_table(&trailer::table()).unwrap(), &trailer_list());
    for (licence, owner) in [(1, 0), (2, 1), (3, 0)] {
        let (planned, lent) = trailer_team(&[licence; 5], 0x02);
        assert_eq!((planned.tree_bytes[owner], planned.tree_bytes[1 - owner]), (111, 104));
        assert_eq!(lent.trees[owner][..111], whole);
    }
    // A start that holds the goal has one entry and no leaf of a job.
    assert_eq!(trailer_team(&trailer::LICENCES, 0x10).0.tree_bytes, [13, 13]);
    // With pairs the jobs are 4, 2, 3, 1, 0, 3.
    let mut lent = team_lent(7, [151, 149]);
    let planned = plan_team(&one_fact_less::table(), &trailer::LICENCES, 0x01, 0, &mut lent).unwrap();
    assert_eq!(planned, TeamPlanned { entries: 7, tree_bytes: [151, 149], paired: true });
}

/// "exactly one of them is given a job and the other waits"
#[test]
fn a_run_of_two_fitters() {
    use Fitter::{First, Second};
    let table = read_table(&trailer::table()).unwrap();
    let run = |licences: &[u8]| {
        let (planned, lent) = trailer_team(licences, 0x02);
        let tick = |fitter: Fitter, held: u64, unread: u64| {
            let tree = &lent.trees[fitter as usize][..planned.tree_bytes[fitter as usize]];
            tick(&trailer::table(), tree, held, unread)
        };
        let told = |held, unread| FITTERS.map(|fitter| tick(fitter, held, unread).unwrap().status);
        // At the goal, in a state that is not covered, and where a fact is to be read first, both are told the same.
        assert_eq!(told(0x10, 0), [Status::Success; 2]);
        assert_eq!(told(0x08, 0), [Status::Failure; 2]);
        assert_eq!(told(0x02, 0x08), [Status::Unsettled(0x08); 2]);
        brute::joint_run(&table, 0x02, |fitter, state| tick(fitter, state, 0))
    };
    assert_eq!(run(&trailer::LICENCES), (vec![(First, 3), (Second, 1), (First, 2), (First, 4)], true));
    assert_eq!(run(&[2, 2, 1, 1, 2]), (vec![(First, 3), (Second, 1), (First, 2), (Second, 4)], true));
    assert_eq!(run(&[2; 5]), (vec![(Second, 3), (Second, 1), (Second, 2), (Second, 4)], true));
    assert_eq!(run(&[3; 5]), (vec![(First, 3), (First, 1), (First, 2), (First, 4)], true));
    // One tree alone comes to no end of its own: its run ends where it waits.
    let (planned, lent) = trailer_team(&trailer::LICENCES, 0x02);
    let alone =
        brute::run(&table, 0x02, |state| tick(&trailer::table(), &lent.trees[0][..planned.tree_bytes[0]], state, 0));
    assert_eq!(alone, (vec![3], false));
}

/// Number and place of a plan for two fitters of the trailer, or of one with this table.
fn team_stop(table: &[u8], licences: &[u8], held: u64, unread: u64, lent: &mut TeamLent) -> Option<(u64, usize)> {
    plan_team(table, licences, held, unread, lent).err().map(|refusal| (refusal.number, refusal.place))
}

#[test]
fn stops_of_a_team_come_in_order() {
    let table = trailer::table();
    let stop = |licences: &[u8], held: u64, unread: u64, capacity: usize, trees: [usize; 2]| {
        team_stop(&table, licences, held, unread, &mut team_lent(capacity, trees))
    };
    // 24: the length first, with place 0, then the first licence that is none.
    assert_eq!(stop(&trailer::LICENCES, 0x02, 0, 8, [109, 106]), None);
    for row in [&[][..], &[1, 2, 3, 1], &[1, 2, 3, 1, 2, 3], &[9, 9, 9, 9], &[0; 200]] {
        assert_eq!(stop(row, 0x02, 0, 8, [109, 106]), Some((24, 0)));
    }
    for (row, place) in [([0, 1, 2, 3, 1], 0), ([1, 2, 3, 4, 0], 3), ([1, 1, 1, 1, 255], 4), ([3, 16, 1, 0, 1], 1)] {
        assert_eq!(stop(&row, 0x02, 0, 8, [109, 106]), Some((24, place)));
    }
    // After the table, 19 and 22 too; before 8, 9, 10, 11 and 12.
    let long = Job { seconds: 5_401, ..trailer::jobs()[2] };
    let both_ways = Job::paired(0x01, 0x01, 0x02, 0x00, 60);
    let lent = &mut team_lent(0, [0, 0]);
    assert_eq!(team_stop(&table[..146], &[], 0x20, 0, lent), Some((1, 146)));
    assert_eq!(team_stop(&[&table[..], &[0]].concat(), &[0; 5], 0x20, 0, lent), Some((7, 147)));
    assert_eq!(team_stop(&table_bytes(5, &[long], 0x10), &[0], 0x20, 0, lent), Some((19, 2)));
    assert_eq!(team_stop(&table_bytes(5, &[both_ways], 0x10), &[], 0x20, 0, lent), Some((22, 2)));
    assert_eq!(stop(&[1, 1, 1, 1, 4], 0x20, 0, 0, [0, 0]), Some((24, 4)));
    assert_eq!(stop(&[1, 1, 1, 1], 0x02, 0x08, 0, [0, 0]), Some((24, 0)));
    // Then those of a plan.
    assert_eq!(stop(&trailer::LICENCES, 0x20, 0x01, 0, [0, 0]), Some((8, 0)));
    assert_eq!(stop(&trailer::LICENCES, 0x02, 0x08, 0, [0, 0]), Some((9, 0)));
    assert_eq!(stop(&trailer::LICENCES, 0x02, 0, 0, [0, 0]), Some((10, 0)));
    assert_eq!(stop(&trailer::LICENCES, 0x08, 0, 8, [0, 0]), Some((10, 8)));
    assert_eq!(stop(&trailer::LICENCES, 0x08, 0, 9, [0, 0]), Some((11, 9)));
    // A table without jobs takes an empty row.
    let jobless = table_bytes(5, &[], 0x10);
    assert_eq!(team_stop(&jobless, &[], 0x10, 0, &mut team_lent(1, [13, 13])), None);
    assert_eq!(team_stop(&jobless, &[1], 0x10, 0, lent), Some((24, 0)));
    assert_eq!(team_stop(&jobless, &[], 0x02, 0, &mut team_lent(1, [13, 13])), Some((11, 1)));
}

/// "Number 12 is judged by each tree's own bytes, for both before either is written."
#[test]
fn trees_of_two_fitters_that_are_too_short() {
    for trees in [[108, 106], [109, 105], [108, 105], [0, 111], [111, 0], [0, 0]] {
        let mut lent = team_lent(8, trees);
        assert_eq!(team_stop(&trailer::table(), &trailer::LICENCES, 0x02, 0, &mut lent), Some((12, 8)));
        assert_eq!(lent.trees, team_lent(8, trees).trees);
        assert_eq!(lent.lists.list(false, 8), trailer_list());
    }
    // All else that is refused writes nothing but, for 10 and 11, the list.
    for (licences, held, stored) in [(&[4; 5], 0x02, 0), (&trailer::LICENCES, 0x20, 0), (&trailer::LICENCES, 0x01, 8)] {
        let mut lent = team_lent(8, [111, 111]);
        assert!(team_stop(&trailer::table(), licences, held, 0, &mut lent).is_some());
        let unwritten = team_lent(8, [111, 111]);
        assert_eq!(lent.trees, unwritten.trees);
        if stored == 0 {
            assert_eq!(lent, unwritten);
        } else {
            assert_eq!(lent.lists.list(false, stored), trailer_list());
        }
    }
}

#[test]
fn stops_of_the_tree() {
    let table = read_table(&trailer::table()).unwrap();
    let stop = |bytes: &[u8]| read_tree(bytes, &table).map_err(|refusal| (refusal.number, refusal.place)).err();
    let leaf = [JOB_LEAF, 0];
    assert_eq!(stop(&[]), Some((13, 0)));
    assert_eq!(stop(&[JOB_LEAF]), Some((13, 0)));
    assert_eq!(stop(&leaf), Some((13, 2)));
    assert_eq!(stop(&[JOB_LEAF, 0, END_OF_TREE]), None);
    assert_eq!(stop(&[JOB_LEAF, 0, JOB_LEAF, 0]), Some((13, 2)));
    assert_eq!(stop(&[JOB_LEAF, 0, END_OF_TREE, END_OF_TREE]), Some((13, 3)));
    assert_eq!(stop(&[JOB_LEAF, 5, END_OF_TREE]), Some((15, 0)));
    assert_eq!(stop(&[END_OF_TREE]), Some((13, 0)));
    assert_eq!(stop(&[SEQUENCE, 0, 0, END_OF_TREE]), Some((13, 0)));
    assert_eq!(stop(&[SEQUENCE, 1, 16]), Some((13, 0)));
    assert_eq!(stop(&[SEQUENCE, 0, 16]), Some((13, 3)));
    assert_eq!(stop(&[GOAL]), Some((13, 0)));
    assert_eq!(stop(&vec![JOB_LEAF; MOST_TREE_BYTES + 1]), Some((13, 0)));
    let chain = |above: usize, rest: &[u8]| [[SEQUENCE, 1, 0].repeat(above), rest.to_vec()].concat();
    assert_eq!(stop(&chain(15, &[JOB_LEAF, 0, END_OF_TREE])), None);
    assert_eq!(stop(&chain(16, &[JOB_LEAF, 0, END_OF_TREE])), Some((14, 48)));
    assert_eq!(stop(&chain(16, &[JOB_LEAF, 9, END_OF_TREE])), Some((14, 48)));
    assert_eq!(stop(&chain(16, &[SEQUENCE, 0, 0])), Some((13, 48)));
    assert_eq!(stop(&chain(16, &[])), Some((13, 48)));
    // A pair stands in any tree, and both of its masks are judged.
    let pair = |present, absent| [make::pair_condition(present, absent), vec![END_OF_TREE]].concat();
    assert_eq!(stop(&pair(0x10, 0x11)), None);
    assert_eq!(stop(&pair(0x20, 0)), Some((15, 0)));
    assert_eq!(stop(&pair(0, 0x20)), Some((15, 0)));
    assert_eq!(stop(&pair(0, 0)[..16]), Some((13, 0)));
    assert_eq!(stop(&pair(0, 0)[..17]), Some((13, 17)));
    assert_eq!(stop(&chain(16, &pair(0, 0x20))), Some((14, 48)));
    // So does a waiting leaf, under a table without jobs too; it has no operand, and may be as deep as any leaf.
    assert_eq!(stop(&[WAITING_LEAF, END_OF_TREE]), None);
    let jobless = Table { jobs: vec![], ..table.clone() };
    assert!(read_tree(&[WAITING_LEAF, END_OF_TREE], &jobless).is_ok());
    assert_eq!(stop(&[WAITING_LEAF]), Some((13, 1)));
    assert_eq!(stop(&[WAITING_LEAF, 0, END_OF_TREE]), Some((13, 1)));
    assert_eq!(stop(&[SEQUENCE, 2, 0, WAITING_LEAF, END_OF_TREE]), Some((13, 4)));
    assert_eq!(stop(&chain(15, &[WAITING_LEAF, END_OF_TREE])), None);
    assert_eq!(stop(&chain(16, &[WAITING_LEAF, END_OF_TREE])), Some((14, 48)));
    // Their neighbours are no commands of a tree, and in a table it is none.
    for unknown in [0x40, 0x47, 0x4e, 0x50] {
        assert_eq!(stop(&[unknown, END_OF_TREE]), Some((13, 0)));
    }
    assert_eq!(table_stop(&[WAITING_LEAF]), (2, 0));
    assert_eq!(table_stop(&[FACTS, 5, WAITING_LEAF]), (2, 2));
}

/// A waiting leaf "answers Running and names no job": neither node goes on after it.
#[test]
fn ticks_of_a_waiting_leaf() {
    let table = read_table(&trailer::table()).unwrap();
    let told = |tree: &[u8], held: u64, unread: u64| {
        tick_node(&read_tree(&[tree, &[END_OF_TREE]].concat(), &table).unwrap(), held, unread)
    };
    let waiting = Ticked { status: Status::Waiting, leaf: 0 };
    for (held, unread) in [(0, 0), (0x1f, 0), (0, 0x1f)] {
        assert_eq!(told(&[WAITING_LEAF], held, unread), waiting);
        for command in [FALLBACK, SEQUENCE] {
            let before = [command, 2, 0, WAITING_LEAF, JOB_LEAF, 3];
            assert_eq!(told(&before, held, unread), Ticked { leaf: 3, ..waiting });
            let after = [command, 2, 0, JOB_LEAF, 3, WAITING_LEAF];
            assert_eq!(told(&after, held, unread), Ticked { status: Status::Running(3), leaf: 3 });
        }
    }
    let behind = |command: u8| [make::inner(command, 2), make::condition(0x01), vec![WAITING_LEAF]].concat();
    let statuses =
        |command: u8| [(0x01, 0), (0, 0), (0, 0x01)].map(|(held, unread)| told(&behind(command), held, unread));
    assert_eq!(
        statuses(SEQUENCE).map(|ticked| ticked.status),
        [Status::Waiting, Status::Failure, Status::Unsettled(1)]
    );
    assert_eq!(
        statuses(FALLBACK).map(|ticked| ticked.status),
        [Status::Success, Status::Waiting, Status::Unsettled(1)]
    );
}

/// The list of a tree, recovered into list tables of these lengths, or number and place. Nothing past the list is written, and where the call is refused
/// nothing at all.
fn recovered(table: &[u8], tree: &[u8], lengths: ListLengths) -> Result<Vec<Entry>, (u64, usize)> {
    let [conditions, jobs, parents, depths] = lengths;
    let unwritten = Lent::filled([conditions, 0, jobs, parents, depths, 0], 7);
    let mut lent = unwritten.clone();
    let result = recover(table, tree, lent.lists());
    let entries = *result.as_ref().unwrap_or(&0);
    assert_eq!(lent.conditions[entries..], unwritten.conditions[entries..]);
    assert_eq!(lent.jobs[entries..], unwritten.jobs[entries..]);
    assert_eq!(lent.parents[entries..], unwritten.parents[entries..]);
    assert_eq!(lent.depths[entries..], unwritten.depths[entries..]);
    result.map(|entries| lent.list(false, entries)).map_err(|refusal| (refusal.number, refusal.place))
}

/// The tree that the trailer's plan for a start writes.
fn trailer_tree(held: u64) -> Vec<u8> {
    let mut lists = lent(MOST_ENTRIES);
    let planned = plan(&trailer::table(), held, 0, &mut lists).unwrap();
    lists.tree[..planned.tree_bytes].to_vec()
}

/// Document 02, W7, on P1, P2 and P5 and on the whole shift.
#[test]
fn lists_of_the_trailers_trees() {
    let bytes = trailer::table();
    let whole = trailer::whole_list();
    for (start, entries, tree_bytes) in [(0x02, 8, 111), (0x01, 9, 125), (0x10, 1, 13)] {
        let tree = trailer_tree(start);
        assert_eq!(tree.len(), tree_bytes);
        assert_eq!(recovered(&bytes, &tree, [entries; 4]), Ok(whole[..entries].to_vec()));
        assert_eq!(recovered(&bytes, &tree, [12; 4]), Ok(whole[..entries].to_vec()));
    }
    assert_eq!(whole[..8], trailer_list());
    // The whole shift's tree is P2's.
    let mut lists = lent(9);
    let shift = plan_shift(&bytes, &mut lists).unwrap();
    assert_eq!(lists.tree[..shift.tree_bytes], trailer_tree(0x01));
    // So is every start's whose list ends with the same entry: 13 holds the goal as 10 does.
    assert_eq!(trailer_tree(0x13), trailer_tree(0x10));
    assert_eq!(recovered(&bytes, &trailer_tree(0x03), [6; 4]), Ok(whole[..6].to_vec()));
}

/// The table's stops, then 13 to 15, then 20, then 10, with place 0.
#[test]
fn stops_of_a_recovery_come_in_order() {
    let table = trailer::table();
    let tree = trailer_tree(0x02);
    let changed = |at: usize, byte: u8| [&tree[..at], &[byte], &tree[at + 1..]].concat();
    let stop = |tree: &[u8], lengths| recovered(&table, tree, lengths).err();
    assert_eq!(stop(&tree, [8; 4]), None);
    // 10 where one of the four is too short.
    for lengths in [[7, 8, 8, 8], [8, 7, 8, 8], [8, 8, 7, 8], [8, 8, 8, 7], [0; 4], [9, 9, 9, 0]] {
        assert_eq!(stop(&tree, lengths), Some((10, 0)));
    }
    for lengths in [[8; 4], [0; 4]] {
        // 20: another goal, mask, job, or root; two entries the other way round; a waiting leaf; a leaf as root.
        for other in [changed(4, 0x08), changed(99 + 1, 0x01), changed(109, 2), changed(0, SEQUENCE)] {
            assert_eq!(stop(&other, lengths), Some((20, 0)));
        }
        let swapped = [&tree[..26], &tree[40..54], &tree[26..40], &tree[54..]].concat();
        assert_eq!(stop(&swapped, lengths), Some((20, 0)));
        let waiting = [&tree[..108], &[WAITING_LEAF, END_OF_TREE]].concat();
        assert_eq!(stop(&waiting, lengths), Some((20, 0)));
        assert_eq!(stop(&[make::condition(0x10), vec![END_OF_TREE]].concat(), lengths), Some((20, 0)));
        // 13, 14 and 15 before it, in trees that no plan writes.
        assert_eq!(stop(&tree[..110], lengths), Some((13, 110)));
        assert_eq!(stop(&[&tree[..], &tree].concat(), lengths), Some((13, 111)));
        assert_eq!(stop(&changed(1, 9), lengths), Some((13, 110)));
        assert_eq!(stop(&changed(109, 5), lengths), Some((15, 108)));
        assert_eq!(stop(&changed(99 + 8, 0x80), lengths), Some((15, 99)));
        let deep = [[FALLBACK, 1, 0].repeat(16), vec![WAITING_LEAF, END_OF_TREE]].concat();
        assert_eq!(stop(&deep, lengths), Some((14, 48)));
        assert_eq!(stop(&vec![WAITING_LEAF; MOST_TREE_BYTES + 1], lengths), Some((13, 0)));
        // The table before all.
        assert_eq!(recovered(&table[..146], &tree[..110], lengths), Err((1, 146)));
        let long = Job { seconds: 5_401, ..trailer::jobs()[2] };
        assert_eq!(recovered(&table_bytes(5, &[long], 0x10), &[], lengths), Err((19, 2)));
        let both_ways = Job::paired(0x01, 0x01, 0x02, 0x00, 60);
        assert_eq!(recovered(&table_bytes(5, &[both_ways], 0x10), &[], lengths), Err((22, 2)));
    }
    // Seconds are no part of a tree. One job more changes the list.
    let mut jobs = trailer::jobs();
    jobs[3].seconds = 1;
    assert_eq!(recovered(&table_bytes(5, &jobs, 0x10), &tree, [8; 4]), Ok(trailer_list()));
    jobs.push(Job::plain(0x01, 0x10, 0x00, 60));
    assert_eq!(recovered(&table_bytes(5, &jobs, 0x10), &tree, [8; 4]), Err((20, 0)));
}

/// "under others W7 gives 20 for every sound tree", that of the table's own plan too; and pairs and waiting leaves are sound under any table.
#[test]
fn no_list_under_a_table_with_a_0x21() {
    let table = one_fact_less::table();
    let own = tree_bytes(&read_table(&table).unwrap(), &one_fact_less_list());
    assert_eq!(own.len(), 153);
    let goal = [make::inner(FALLBACK, 1), make::condition(0x08), vec![END_OF_TREE]].concat();
    for lengths in [[0; 4], [7; 4], [4_096; 4]] {
        for tree in [&own, &goal, &vec![WAITING_LEAF, END_OF_TREE]] {
            assert_eq!(recovered(&table, tree, lengths), Err((20, 0)));
        }
        assert_eq!(recovered(&table, &own[..152], lengths), Err((13, 152)));
        assert_eq!(recovered(&trailer::table(), &own, lengths), Err((20, 0)));
    }
    // A 0x21 that needs nothing absent is enough.
    let mut jobs = trailer::jobs();
    jobs[0].command = PAIRED_JOB;
    assert_eq!(recovered(&table_bytes(5, &jobs, 0x10), &trailer_tree(0x02), [8; 4]), Err((20, 0)));
}

/// A fitter's tree is the plan's only where nothing waits in it.
#[test]
fn lists_of_two_fitters_trees() {
    let table = read_table(&trailer::table()).unwrap();
    for licences in make::every_row_of_licences(5) {
        for fitter in FITTERS {
            let tree = fitter_tree_bytes(&table, &trailer_list(), &licences, fitter);
            let waits = trailer_list()[1..].iter().any(|entry| owner(licences[usize::from(entry.job)]) != fitter);
            let expected = if waits { Err((20, 0)) } else { Ok(trailer_list()) };
            assert_eq!(recovered(&trailer::table(), &tree, [8; 4]), expected);
        }
    }
}

/// The parent is the entry that was expanded, and not the newest that fits: fact 3 leads to the facts 1 and 2, and each of them to the goal.
#[test]
fn parents_of_a_recovered_list() {
    let jobs = vec![Job::plain(0x02, 0x01, 0, 1), Job::plain(0x04, 0x01, 0, 1), Job::plain(0x08, 0x06, 0, 1)];
    let table = Table { facts: 4, jobs, goal: 0x01 };
    let list = expand(&table, None, MOST_ENTRIES).0;
    assert_eq!([1, 2].map(|i: usize| condition_before(&table.jobs[2], list[i].condition)), [list[3].condition; 2]);
    let recovered = recovered(&table.bytes(), &tree_bytes(&table, &list), [4; 4]).unwrap();
    assert_eq!((recovered[3].parent, recovered[3].depth), (1, 2));
}

/// "accepted exactly when document 01's plan would write those bytes for some start, and planning for that start gives that list": all starts of small
/// tables, their trees, every byte of them changed, and trees of the same entries in another order.
#[test]
fn lists_of_trees_by_brute_force() {
    for index in 0..60 {
        let random = &mut Random::for_case(1, "recovery", index);
        let table = make::small_table(random, index, Jobs::Plain);
        let bytes = table.bytes();
        let mut plans = Vec::new();
        for start in 0..1 << table.facts {
            let (list, ending) = expand(&table, Some(start), MOST_ENTRIES);
            if ending == Ending::Covered {
                plans.push((tree_bytes(&table, &list), list));
            }
        }
        plans.sort_by_key(|(tree, _)| tree.len());
        plans.dedup();
        let check = |tree: &[u8]| {
            let of_a_plan = plans.iter().find(|plan| plan.0 == tree).map(|plan| plan.1.clone());
            match recovered(&bytes, tree, [40; 4]) {
                Ok(list) => assert_eq!(Some(list), of_a_plan),
                Err(refusal) => {
                    let of_the_tree = read_tree(tree, &table).map_err(|refusal| (refusal.number, refusal.place));
                    assert_eq!((of_a_plan, refusal), (None, of_the_tree.err().unwrap_or((20, 0))));
                }
            }
        };
        for (tree, list) in &plans {
            check(tree);
            for at in 0..tree.len() {
                let mut changed = tree.clone();
                changed[at] ^= 1 << random.below(8);
                check(&changed);
            }
            for first in 0..list.len() {
                let mut other = list.clone();
                other.swap(first, list.len() - 1);
                check(&tree_bytes(&table, &other));
                check(&tree_bytes(&table, &list[..=first]));
            }
        }
    }
}

/// The first 4,096 entries of a whole list that is longer are some start's list.
#[test]
fn longest_list_of_a_tree() {
    let table = make::long_table(13, 0, Jobs::Plain);
    let (list, ending) = expand(&table, None, MOST_ENTRIES);
    assert_eq!(ending, Ending::Full);
    assert_eq!(expand(&table, Some(list[4_095].condition.present), MOST_ENTRIES), (list.clone(), Ending::Covered));
    let tree = tree_bytes(&table, &list);
    assert_eq!((tree.len(), recovered(&table.bytes(), &tree, [4_096; 4])), (57_343, Ok(list)));
    assert_eq!(recovered(&table.bytes(), &tree, [4_096, 4_096, 4_095, 4_096]), Err((10, 0)));
}

/// The distances of all states, put into a row of so many numbers, or number and place. A refused call leaves the row as it was.
fn measured(table: &[u8], length: usize) -> Result<Vec<u16>, (u64, usize)> {
    let before = Lent::filled([0, 0, 0, 0, length, 0], 7).depths;
    let mut row = before.clone();
    match distances(table, &mut row) {
        Ok(states) => {
            assert_eq!(states, length);
            Ok(row)
        }
        Err(refusal) => {
            assert_eq!(row, before);
            Err((refusal.number, refusal.place))
        }
    }
}

/// Document 02, W13, by hand; and both agree with the whole shift's list.
#[test]
fn distances_of_both_trailers() {
    assert_eq!(measured(&trailer::table(), 32), Ok(trailer::DISTANCES.to_vec()));
    assert_eq!(measured(&one_fact_less::table(), 16), Ok(one_fact_less::DISTANCES.to_vec()));
    let table = read_table(&trailer::table()).unwrap();
    brute::check_depths(&table, &trailer::whole_list(), &trailer::DISTANCES);
    let table = read_table(&one_fact_less::table()).unwrap();
    let whole = expand(&table, None, MOST_PAIR_ENTRIES).0;
    brute::check_depths(&table, &whole, &one_fact_less::DISTANCES);
}

/// Small tables against brute force over all states, and against the whole shift's list.
#[test]
fn distances_by_brute_force() {
    for kind in [Jobs::Plain, Jobs::Paired] {
        for index in 0..400 {
            let random = &mut Random::for_case(1, "distances", index);
            let table = match index % 4 {
                0 => make::small_table(random, index / 4, kind),
                1 => make::table(random, 9, 12, kind),
                _ => make::busy_table(random, 1 + (index % 9) as u32, kind),
            };
            let row = measured(&table.bytes(), 1 << table.facts).unwrap();
            brute::check_distances(&brute::distances(&table), &row);
            let (whole, ending) = expand(&table, None, table.most_entries());
            if ending == Ending::Exhausted {
                brute::check_depths(&table, &whole, &row);
            }
        }
    }
}

/// The longest way that there is leads through all states of 15 facts, up or down: 32,767 jobs.
#[test]
fn distances_of_the_longest_way() {
    let order: Vec<u32> = (0..15).collect();
    let up: Vec<u16> = (0..32_768).map(|state| 32_767 - state as u16).collect();
    assert_eq!(measured(&make::ring_table(&order, 0).bytes(), 32_768), Ok(up));
    let down: Vec<u16> = (0..32_768).map(|state| (state as u16 + 1) % 32_768).collect();
    assert_eq!(measured(&make::ring_table(&order, 0x7fff).bytes(), 32_768), Ok(down));
}

/// "More than 15 facts is refused as 25, a row of another length than the states as 26, in that order after 7", and after 19 and 22 as well.
#[test]
fn stops_of_distances_come_in_order() {
    let table = trailer::table();
    for length in [0, 1, 5, 16, 31, 33, 64, 147, 32_768, 65_536 + 32] {
        assert_eq!(measured(&table, length), Err((26, 0)));
    }
    // 15 facts are taken, and ten that no job looks at change nothing. 16 are not taken, also with a row that has a number for each state.
    let few = table_bytes(15, &trailer::jobs(), 0x10);
    let row = measured(&few, 32_768).unwrap();
    assert!(row.chunks(32).all(|part| part == trailer::DISTANCES));
    for length in [0, 32_767, 32_769, 65_536] {
        assert_eq!(measured(&few, length), Err((26, 0)));
    }
    for facts in [16, 17, 31, 32, 33, 48, 63, 64] {
        let many = table_bytes(facts, &trailer::jobs(), 0x10);
        for length in [0, 1, 32, 32_768, 65_536] {
            assert_eq!(measured(&many, length), Err((25, 0)));
        }
    }
    // The table before both.
    let long = Job { seconds: 5_401, ..trailer::jobs()[2] };
    let both_ways = Job::paired(0x01, 0x01, 0x02, 0x00, 60);
    let overlap = Job::plain(0x01, 0x01, 0x00, 60);
    for facts in [5, 15, 16, 64] {
        let sound = table_bytes(facts, &trailer::jobs(), 0x10);
        for length in [0, 32, 32_768] {
            assert_eq!(measured(&sound[..146], length), Err((1, 146)));
            assert_eq!(measured(&[&sound[..146], &[GOAL]].concat(), length), Err((2, 146)));
            assert_eq!(measured(&[&sound[..], &[END_OF_TABLE]].concat(), length), Err((7, 147)));
            assert_eq!(measured(&table_bytes(facts, &[trailer::jobs()[2]; 129], 0x10), length), Err((4, 3_458)));
            for (job, number) in [(overlap, 6), (long, 19), (both_ways, 22)] {
                assert_eq!(measured(&table_bytes(facts, &[job], 0x10), length), Err((number, 2)));
            }
        }
    }
    for length in [0, 32, 32_768] {
        assert_eq!(measured(&table_bytes(0, &[], 0), length), Err((3, 0)));
        assert_eq!(measured(&table_bytes(65, &[], 0), length), Err((3, 0)));
        assert_eq!(measured(&table_bytes(16, &[], 0x1_0000), length), Err((5, 2)));
        assert_eq!(measured(&table_bytes(4, &[], 0x10), length), Err((5, 2)));
    }
}

/// A state at the goal has 0, also where a job would lead on; a job that changes nothing is no way; and a detour counts where there is no other.
#[test]
fn distances_that_are_easy_to_mix_up() {
    let row = |jobs: &[Job], facts: u8, goal: u64| measured(&table_bytes(facts, jobs, goal), 1 << facts).unwrap();
    assert_eq!(row(&[], 1, 0), [0, 0]);
    assert_eq!(row(&[], 1, 1), [NO_DISTANCE, 0]);
    // It deletes the goal.
    assert_eq!(row(&[Job::plain(1, 0, 1, 1)], 1, 1), [NO_DISTANCE, 0]);
    // It changes nothing, from any state.
    assert_eq!(row(&[Job::plain(0, 0, 0, 1)], 1, 1), [NO_DISTANCE, 0]);
    // Fact 1 is brought about only without fact 0, which is part of the goal.
    let jobs = [Job::plain(0, 1, 0, 1), Job::paired(0, 1, 2, 0, 1), Job::plain(1, 0, 1, 1)];
    assert_eq!(row(&jobs, 2, 3), [2, 3, 1, 0]);
    // Without the job that takes it away, state 1 has no way.
    assert_eq!(row(&jobs[..2], 2, 3), [2, NO_DISTANCE, 1, 0]);
}

/// The answers and the count of a batch with room for so many, or number and place.
fn yard_into(table: &[u8], rows: &BatchRows, room: usize) -> Result<(Vec<Status>, usize), (u64, usize)> {
    match tick_all(table, rows.batch(), room) {
        Ok(ticked) => Ok((ticked.answers, ticked.entries_read)),
        Err(refusal) => Err((refusal.number, refusal.place)),
    }
}

/// With room for all of it.
fn yard(table: &[u8], rows: &BatchRows) -> Result<(Vec<Status>, usize), (u64, usize)> {
    yard_into(table, rows, usize::MAX)
}

/// The list of P1.
fn trailer_list() -> Vec<Entry> {
    let table = read_table(&trailer::table()).unwrap();
    expand(&table, Some(0x02), MOST_ENTRIES).0
}

/// The list that `trailer_with_one_fact_less` prints.
fn one_fact_less_list() -> Vec<Entry> {
    let table = read_table(&one_fact_less::table()).unwrap();
    expand(&table, Some(0x01), MOST_ENTRIES).0
}

/// A reading, its answer on the list, and the entry at which it stops.
type Marked = ((u64, u64), Status, Option<usize>);

/// P7 to P10 among them.
const TRAILER_YARD: [Marked; 8] = [
    ((0x10, 0x00), Status::Success, Some(0)),
    ((0x00, 0x10), Status::Unsettled(0x10), Some(0)),
    ((0x0c, 0x00), Status::Running(4), Some(1)),
    ((0x02, 0x08), Status::Unsettled(0x08), Some(4)),
    ((0x03, 0x00), Status::Running(3), Some(5)),
    ((0x02, 0x01), Status::Unsettled(0x01), Some(5)),
    ((0x02, 0x00), Status::Running(3), Some(7)),
    ((0x08, 0x00), Status::Failure, None),
];

const ONE_FACT_LESS_YARD: [Marked; 7] = [
    ((0x08, 0x07), Status::Success, Some(0)),
    ((0x06, 0x01), Status::Running(4), Some(1)),
    ((0x04, 0x00), Status::Running(2), Some(2)),
    ((0x04, 0x01), Status::Unsettled(0x01), Some(2)),
    ((0x05, 0x00), Status::Running(1), Some(4)),
    ((0x00, 0x01), Status::Unsettled(0x01), Some(6)),
    ((0x00, 0x00), Status::Failure, None),
];

/// Each vehicle alone, each two, and the whole yard from either end: every answer is the vehicle's own, and the count is the furthest stop's.
fn marked_yard(table: &[u8], list: &[Entry], yard_of: &[Marked]) {
    let check = |vehicles: &[Marked]| {
        let readings: Vec<(u64, u64)> = vehicles.iter().map(|marked| marked.0).collect();
        let answers = vehicles.iter().map(|marked| marked.1).collect();
        let stop = |marked: &Marked| marked.2.map_or(list.len(), |entry| entry + 1);
        let count = vehicles.iter().map(stop).max().unwrap_or(0);
        assert_eq!(yard(table, &BatchRows::of(list, &readings)), Ok((answers, count)));
    };
    check(&[]);
    check(yard_of);
    check(&yard_of.iter().rev().copied().collect::<Vec<_>>());
    for one in yard_of {
        check(&[*one]);
        for other in yard_of {
            check(&[*one, *other]);
        }
    }
}

#[test]
fn yards_of_both_trailers() {
    marked_yard(&trailer::table(), &trailer_list(), &TRAILER_YARD);
    marked_yard(&one_fact_less::table(), &one_fact_less_list(), &ONE_FACT_LESS_YARD);
}

/// "0 for no vehicles, all if some vehicle fails every entry, else one more than the furthest entry at which a vehicle stopped"
#[test]
fn entries_read_of_a_yard() {
    let count = |readings: &[(u64, u64)]| entries_read(&trailer_list(), readings);
    assert_eq!(count(&[]), 0);
    assert_eq!(count(&[(0x10, 0)]), 1);
    assert_eq!(count(&[(0x10, 0), (0x00, 0x10), (0x10, 0)]), 1);
    assert_eq!(count(&[(0x0c, 0), (0x10, 0)]), 2);
    assert_eq!(count(&[(0x10, 0), (0x02, 0x01), (0x0c, 0)]), 6);
    assert_eq!(count(&[(0x10, 0), (0x08, 0)]), 8);
    assert_eq!(count(&[(0x08, 0), (0x02, 0)]), 8);
    // With one entry more a vehicle at the last but one is told from one that fails every entry.
    let whole = expand(&read_table(&trailer::table()).unwrap(), None, MOST_ENTRIES).0;
    assert_eq!((whole.len(), entries_read(&whole, &[(0x02, 0)]), entries_read(&whole, &[(0x08, 0)])), (9, 8, 9));
}

#[test]
fn stops_of_a_yard_come_in_order() {
    let table = trailer::table();
    let sound = BatchRows::of(&trailer_list(), &[(0x10, 0), (0x02, 0), (0x08, 0x01)]);
    let stop = |change: &dyn Fn(&mut BatchRows)| {
        let mut rows = sound.clone();
        change(&mut rows);
        yard(&table, &rows).err()
    };
    assert_eq!(stop(&|_| {}), None);
    // 8, by the vehicle, and the first of two.
    assert_eq!(stop(&|rows| rows.held[2] = 0x20), Some((8, 2)));
    assert_eq!(stop(&|rows| rows.unread[1] = 0x02), Some((8, 1)));
    assert_eq!(stop(&|rows| (rows.unread[0], rows.held[2]) = (0x20, 0x20)), Some((8, 0)));
    // 13 for none and for too many, 15 by the entry.
    assert_eq!(stop(&|rows| rows.conditions.clear()), Some((13, 0)));
    assert_eq!(stop(&|rows| rows.jobs.clear()), Some((13, 0)));
    assert_eq!(stop(&|rows| rows.conditions[0] = 0x30), Some((15, 0)));
    assert_eq!(stop(&|rows| rows.conditions[7] = 1 << 63), Some((15, 7)));
    assert_eq!(stop(&|rows| rows.jobs[7] = 5), Some((15, 7)));
    assert_eq!(stop(&|rows| (rows.jobs[3], rows.conditions[3], rows.jobs[2]) = (255, 0x20, 200)), Some((15, 2)));
    // The job of entry 0 is neither judged nor used.
    for job in [0, 4, 5, 255] {
        assert_eq!(stop(&|rows| rows.jobs[0] = job), None);
    }
    // 8, then 13, then 15; and the table before all.
    assert_eq!(stop(&|rows| (rows.held[1], rows.conditions) = (0x20, vec![])), Some((8, 1)));
    assert_eq!(stop(&|rows| (rows.held[1], rows.jobs[1]) = (0x20, 9)), Some((8, 1)));
    let many = |rows: &mut BatchRows| (rows.conditions, rows.jobs) = (vec![0x20; 4_097], vec![9; 4_097]);
    assert_eq!(stop(&many), Some((13, 0)));
    let mut bad = sound.clone();
    many(&mut bad);
    bad.held[0] = 0x20;
    assert_eq!(yard(&table[..146], &bad), Err((1, 146)));
    assert_eq!(yard(&table, &bad), Err((8, 0)));
    // No vehicles: the list is judged all the same.
    bad.held.clear();
    assert_eq!(yard(&table, &bad), Err((13, 0)));
    assert_eq!(stop(&|rows| (rows.unread, rows.jobs[6]) = (vec![], 5)), Some((15, 6)));
    // A table without jobs takes a list of one entry.
    let jobless = table_bytes(5, &[], 0x10);
    let first = |entries: usize| BatchRows::of(&trailer_list()[..entries], &[(0x10, 0)]);
    assert_eq!(yard(&jobless, &first(1)), Ok((vec![Status::Success], 1)));
    assert_eq!(yard(&jobless, &first(2)), Err((15, 1)));
}

/// "as many entries as the shorter has", "as many as the shortest row has": what stands past them is not judged.
#[test]
fn uneven_rows_of_a_yard() {
    let table = trailer::table();
    let mut rows = BatchRows::of(&trailer_list(), &[(0x10, 0), (0x02, 0), (0x20, 0)]);
    rows.conditions.push(0x20);
    rows.jobs.extend([9, 9]);
    rows.unread.push(0x20);
    assert_eq!(yard(&table, &rows), Err((8, 2)));
    assert_eq!(yard_into(&table, &rows, 3), Err((8, 2)));
    assert_eq!(yard_into(&table, &rows, 2), Err((15, 8)));
    rows.conditions.pop();
    assert_eq!(yard_into(&table, &rows, 2), Ok((vec![Status::Success, Status::Running(3)], 8)));
    assert_eq!(yard_into(&table, &rows, 1), Ok((vec![Status::Success], 1)));
    assert_eq!(yard_into(&table, &rows, 0), Ok((vec![], 0)));
    for (held, unread) in [(2, 4), (5, 2), (0, 9), (9, 0)] {
        let sound = BatchRows { held: vec![0x10; held], unread: vec![0; unread], ..rows.clone() };
        assert_eq!(yard(&table, &sound).unwrap().0.len(), held.min(unread));
    }
    // Five entries: a vehicle that would meet the last of eight fails.
    let shorter = BatchRows { jobs: rows.jobs[..5].to_vec(), held: vec![0x02], ..rows.clone() };
    assert_eq!(yard(&table, &shorter), Ok((vec![Status::Failure], 5)));
    // Second masks are of no account here, whatever they are; of a table with a 0x21 they count and are judged.
    for absences in [vec![], vec![u64::MAX; 8], vec![0x10; 3], vec![0; 5_000]] {
        let any = BatchRows { absences, held: vec![0x10, 0x02], ..rows.clone() };
        assert_eq!(yard(&table, &any), Ok((vec![Status::Success, Status::Running(3)], 8)));
    }
    let table = one_fact_less::table();
    let rows = BatchRows::of(&one_fact_less_list(), &[(0x05, 0), (0x01, 0)]);
    assert_eq!(yard(&table, &rows), Ok((vec![Status::Running(1), Status::Running(3)], 7)));
    let mut beyond = rows.clone();
    beyond.absences[6] = 0x10;
    assert_eq!(yard(&table, &beyond), Err((15, 6)));
    beyond.absences.truncate(6);
    assert_eq!(yard(&table, &beyond), Ok((vec![Status::Running(1), Status::Failure], 6)));
    beyond.absences.clear();
    assert_eq!(yard(&table, &beyond), Err((13, 0)));
}

#[test]
fn longest_list_of_a_yard() {
    let list = |condition: u64, entries: usize| {
        let entry = Entry { condition: Condition::plain(condition), job: 0, parent: 0, depth: 0 };
        BatchRows::of(&vec![entry; entries], &[(0x01, 0)])
    };
    for (table, most) in [(trailer::table(), 4_096), (one_fact_less::table(), 2_978)] {
        assert_eq!(yard(&table, &list(0x02, most - 1)), Ok((vec![Status::Failure], most - 1)));
        assert_eq!(yard(&table, &list(0x02, most)), Ok((vec![Status::Failure], most)));
        assert_eq!(yard(&table, &list(0x02, most + 1)), Err((13, 0)));
        assert_eq!(yard(&table, &list(0x01, most)), Ok((vec![Status::Success], 1)));
        // What is past the shortest row does not count.
        let mut rows = list(0x02, most + 1);
        rows.jobs.pop();
        assert_eq!(yard(&table, &rows), Ok((vec![Status::Failure], most)));
    }
}

/// Lists that no plan made are answered as their tree would be: repeats, an empty condition first, a fact that is wanted both ways.
#[test]
fn foreign_lists_of_a_yard() {
    let entry = |present: u64, absent: u64, job: u8| Entry {
        condition: Condition { present, absent },
        job,
        parent: 0,
        depth: 0,
    };
    let readings = [(0x01, 0), (0x00, 0x01), (0x00, 0)];
    let empty_first = BatchRows::of(&[entry(0, 0, 3), entry(1, 0, 1)], &readings);
    let repeated = BatchRows::of(&[entry(1, 0, 255), entry(1, 0, 1), entry(0, 0, 2), entry(0, 0, 4)], &readings);
    for table in [trailer::table(), one_fact_less::table()] {
        assert_eq!(yard(&table, &empty_first), Ok((vec![Status::Success; 3], 1)));
        let answers = vec![Status::Success, Status::Unsettled(0x01), Status::Running(2)];
        assert_eq!(yard(&table, &repeated), Ok((answers, 3)));
    }
    let both_ways = BatchRows::of(&[entry(8, 0, 0), entry(1, 1, 3), entry(0, 1, 2)], &readings);
    let answers = vec![Status::Failure, Status::Unsettled(0x01), Status::Running(2)];
    assert_eq!(yard(&one_fact_less::table(), &both_ways), Ok((answers, 3)));
}

/// The list is refused exactly where a tick refuses its tree, by the same number.
#[test]
fn a_yard_is_refused_as_its_tree_is() {
    for index in 0..2_000 {
        let random = &mut Random::for_case(1, "yard", index);
        let kind = *random.pick(&[Jobs::Plain, Jobs::Paired]);
        let table = make::table(random, 12, 6, kind);
        let most = table.most_entries();
        let entries = if random.one_in(50) { most - 1 + random.below(3) } else { random.below(5) };
        let mut list = make::foreign_list(random, &table, entries);
        if random.one_in(2) {
            make::damage_list(random, &table, &mut list);
        }
        // A tree has no second masks without a 0x21, and no job of entry 0.
        let tree = tree_bytes(&table, &list);
        let by_tree = tick(&table.bytes(), &tree, 0, 0).map(|ticked| ticked.status).map_err(|refusal| refusal.number);
        let by_list = yard(&table.bytes(), &BatchRows::of(&list, &[(0, 0)]));
        assert_eq!(by_list.map(|(answers, _)| answers[0]).map_err(|refusal| refusal.0), by_tree);
    }
}

/// "An unread fact of either mask leaves a condition open unless a read one fails it."
#[test]
fn a_pair_on_a_reading() {
    let pair = Condition { present: 0x03, absent: 0x0c };
    assert_eq!(pair.status(0x03, 0), Status::Success);
    assert_eq!(pair.status(0x13, 0x20), Status::Success);
    assert_eq!(pair.status(0x01, 0), Status::Failure);
    assert_eq!(pair.status(0x07, 0), Status::Failure);
    assert_eq!(pair.status(0x02, 0x29), Status::Unsettled(0x09));
    assert_eq!(pair.status(0x06, 0x01), Status::Failure);
    assert_eq!(pair.status(0x02, 0x0c), Status::Failure);
    // A fact wanted both ways: read, it fails; unread, it is open, though no way of filling it in meets it.
    let both = Condition { present: 1, absent: 1 };
    assert_eq!((both.status(0, 0), both.status(1, 0)), (Status::Failure, Status::Failure));
    assert_eq!(both.status(0, 1), Status::Unsettled(1));
}

#[test]
fn stops_of_a_report_come_in_order() {
    let table = trailer::table();
    let number = |card: Card, job: usize| report(&table, job, 1, &mut { card }).map_err(|refusal| refusal.number).err();
    let card = Card { held: 0x01, unread: 0x02, reports: 0, taken: 0, planned: 0 };
    assert_eq!(number(card, 0), None);
    assert_eq!(number(Card { unread: 0x03, reports: 65_535, ..card }, 9), Some(8));
    for job in [5, 255, 256, 300, 1 << 63, usize::MAX] {
        assert_eq!(number(Card { reports: 65_535, ..card }, job), Some(16));
    }
    assert_eq!(number(Card { reports: 65_535, ..card }, 1), Some(17));
    assert_eq!(number(Card { reports: 65_535, ..card }, 0), Some(18));
    assert_eq!(number(Card { taken: 1, ..card }, 0), Some(18));
    // A planned sum above 5,400 for each report, as an older table may have left it.
    assert_eq!(number(Card { reports: 1, planned: 5_401, ..card }, 0), Some(18));
    assert_eq!(number(Card { reports: 1, planned: 5_400, ..card }, 0), None);
    assert_eq!(number(Card { reports: 1, taken: 65_535, ..card }, 0), None);
    assert_eq!(number(Card { reports: 1, taken: 65_536, ..card }, 0), Some(18));
    assert_eq!(number(Card { reports: 65_534, taken: 65_534 * 65_535, planned: 65_534 * 5_400, ..card }, 0), None);
    // Of the trailer with one fact less, coupling needs the trailer absent, and read so.
    let table = one_fact_less::table();
    let number = |held, unread| {
        let card = Card { held, unread, reports: 65_535, ..Card::default() };
        report(&table, 0, 1, &mut { card }).map_err(|refusal| refusal.number).err()
    };
    assert_eq!((number(0x01, 0), number(0x00, 0x01), number(0x00, 0x0e)), (Some(17), Some(17), Some(18)));
}

/// The masks after a new table, or number and place. Neither looks at the count and the sums, which remain, and a refused call leaves the masks too.
fn migrated(old: &[u8], new: &[u8], map: &[u8], held: u64, unread: u64) -> Result<(u64, u64), (u64, usize)> {
    // All but the first would be 18 in a report.
    let counts = [(3, 1_000, 1_500), (65_535, 0, 0), (0, 1, 0), (0, 0, 1), (1, 65_536, 5_401), (9, u32::MAX, u32::MAX)];
    let results = counts.map(|(reports, taken, planned)| {
        let before = Card { held, unread, reports, taken, planned };
        let mut card = before;
        match migrate(old, new, map, &mut card) {
            Ok(()) => {
                assert_eq!(card, Card { held: card.held, unread: card.unread, ..before });
                Ok((card.held, card.unread))
            }
            Err(refusal) => {
                assert_eq!(card, before);
                Err((refusal.number, refusal.place))
            }
        }
    });
    assert!(results.iter().all(|result| *result == results[0]));
    results[0]
}

/// Document 02, W14, by hand: all facts but "trailer off" go one down, and back one up, where nothing is known of it.
#[test]
fn cards_of_both_trailers_change_tables() {
    let (trailer, less) = (trailer::table(), one_fact_less::table());
    let down = |held, unread| migrated(&trailer, &less, &trailer::TO_ONE_FACT_LESS, held, unread);
    let up = |held, unread| migrated(&less, &trailer, &one_fact_less::TO_TRAILER, held, unread);
    assert_eq!(down(0x0a, 0x00), Ok((0x05, 0x00)));
    assert_eq!(down(0x02, 0x1d), Ok((0x01, 0x0e)));
    assert_eq!(down(0x01, 0x00), Ok((0x00, 0x00)));
    assert_eq!(down(0x00, 0x01), Ok((0x00, 0x00)));
    assert_eq!(down(0x1f, 0x00), Ok((0x0f, 0x00)));
    assert_eq!(up(0x05, 0x02), Ok((0x0a, 0x05)));
    assert_eq!(up(0x00, 0x00), Ok((0x00, 0x01)));
    assert_eq!(up(0x0f, 0x00), Ok((0x1e, 0x01)));
    assert_eq!(up(0x00, 0x0f), Ok((0x00, 0x1f)));
    for held in 0..32 {
        for unread in make::fillings(0, 0x1f & !held) {
            let (between, open) = down(held, unread).unwrap();
            assert_eq!((between, open), (held >> 1, unread >> 1));
            assert_eq!(up(between, open), Ok((held & 0x1e, unread | 0x01)));
        }
    }
}

/// "refused as 27 after the old table, the new one and 8": of two faults the first is told, whichever numbers they have.
#[test]
fn stops_of_a_new_table_come_in_order() {
    let (old, new) = (trailer::table(), one_fact_less::table());
    let map = &trailer::TO_ONE_FACT_LESS[..];
    // The masks are sound, share a fact, or have one that is outside; the map is sound, or is not in one of three ways.
    let masks = [(0x02, 0x01), (0x03, 0x01), (0x22, 0x00), (0x02, 0x20), (1 << 63, 1 << 63)];
    let maps = [map, &map[..4], &[255, 0, 0, 2, 3], &[255, 0, 1, 2, 4]];
    // Damaged tables with their numbers and places.
    let overlap = Job::plain(0x01, 0x01, 0x00, 60);
    let long = Job { seconds: 5_401, ..trailer::jobs()[2] };
    let both_ways = Job::paired(0x01, 0x01, 0x02, 0x00, 60);
    let damaged = [
        (vec![], (1, 0)),
        (old[..146].to_vec(), (1, 146)),
        ([&old[..146], &[GOAL]].concat(), (2, 146)),
        (table_bytes(65, &[], 0), (3, 0)),
        (table_bytes(5, &[trailer::jobs()[2]; 129], 0x10), (4, 3_458)),
        (table_bytes(4, &trailer::jobs(), 0x08), (5, 110)),
        (table_bytes(5, &[overlap], 0x10), (6, 2)),
        ([&old[..], &[END_OF_TABLE]].concat(), (7, 147)),
        (table_bytes(5, &[long], 0x10), (19, 2)),
        (table_bytes(5, &[both_ways], 0x10), (22, 2)),
    ];
    for (held, unread) in masks {
        for map in maps {
            for (bytes, stop) in &damaged {
                // The old one before all else, also where the new one is damaged in another way.
                assert_eq!(migrated(bytes, &new, map, held, unread), Err(*stop));
                for (other, _) in &damaged {
                    assert_eq!(migrated(bytes, other, map, held, unread), Err(*stop));
                }
                // Then the new one.
                assert_eq!(migrated(&old, bytes, map, held, unread), Err(*stop));
            }
            // Then 8, then 27.
            let expected = match ((held, unread) == masks[0], map == maps[0]) {
                (false, _) => Err((8, 0)),
                (true, false) => Err((27, 0)),
                (true, true) => Ok((0x01, 0x00)),
            };
            assert_eq!(migrated(&old, &new, map, held, unread), expected);
        }
    }
}

/// The card's masks are judged under the old table and not under the new one, in both directions.
#[test]
fn masks_are_judged_under_the_old_table() {
    let (few, many) = (table_bytes(3, &[], 0), table_bytes(64, &[], 0));
    let (to_many, to_few) = ([0, 1, 2], [DROPPED; 64]);
    // Facts that the new table alone has.
    for fact in 3..64 {
        assert_eq!(migrated(&few, &many, &to_many, 1 << fact, 0), Err((8, 0)));
        assert_eq!(migrated(&few, &many, &to_many, 0, 1 << fact), Err((8, 0)));
    }
    // Facts that the old table alone has, dropped and mapped.
    for fact in 0..64 {
        assert_eq!(migrated(&many, &few, &to_few, 1 << fact, 0), Ok((0, 0x07)));
        assert_eq!(migrated(&many, &few, &to_few, 0, 1 << fact), Ok((0, 0x07)));
        let mut map = to_few;
        map[fact] = 1;
        assert_eq!(migrated(&many, &few, &map, 1 << fact, 0), Ok((0x02, 0x05)));
        assert_eq!(migrated(&many, &few, &map, !(1 << fact), 0), Ok((0x00, 0x05)));
        assert_eq!(migrated(&many, &few, &map, 0, 1 << fact), Ok((0x00, 0x07)));
        assert_eq!(migrated(&many, &few, &map, 1 << fact, 1 << fact), Err((8, 0)));
    }
}

/// "A map of the wrong length, a number outside the new table, or two facts sent to one"; 255 may stand there more than once.
#[test]
fn maps_that_are_easy_to_mix_up() {
    let (trailer, less) = (trailer::table(), one_fact_less::table());
    let by = |map: &[u8]| migrated(&trailer, &less, map, 0x0a, 0x04);
    // Fewer and more than the old facts are; as many as the new ones are not enough.
    for map in [
        &[][..],
        &[0],
        &[0, 1, 2],
        &[0, 1, 2, 3],
        &[255; 4],
        &[255; 6],
        &[0, 1, 2, 3, 255, 255],
        &[255; 64],
        &[255; 300],
    ] {
        assert_eq!(by(map), Err((27, 0)));
    }
    // All dropped, or all but one.
    assert_eq!(by(&[255; 5]), Ok((0x00, 0x0f)));
    assert_eq!(by(&[255, 3, 255, 255, 255]), Ok((0x08, 0x07)));
    assert_eq!(by(&[2, 255, 255, 255, 255]), Ok((0x00, 0x0b)));
    assert_eq!(by(&[255, 255, 2, 255, 255]), Ok((0x00, 0x0f)));
    // The first number outside, one that the old table has, and those up to 254.
    for number in 4..=254 {
        for at in 0..5 {
            let mut map = [255; 5];
            map[at] = number;
            assert_eq!(by(&map), Err((27, 0)));
        }
    }
    // Two facts sent to one, beside each other and apart, and with all five mapped there is no other way.
    for first in 0..5 {
        for second in first + 1..5 {
            for number in 0..4 {
                let mut map = [255; 5];
                (map[first], map[second]) = (number, number);
                assert_eq!(by(&map), Err((27, 0)));
            }
        }
    }
    assert_eq!(by(&[0, 1, 2, 3, 0]), Err((27, 0)));
    assert_eq!(by(&[3, 2, 1, 0, 255]), Ok((0x05, 0x02)));
}

/// One fact and 64 of them.
#[test]
fn fewest_and_most_facts() {
    let (one, most) = (table_bytes(1, &[], 0), table_bytes(64, &[], 0));
    assert_eq!(migrated(&one, &one, &[0], 1, 0), Ok((1, 0)));
    assert_eq!(migrated(&one, &one, &[0], 0, 0), Ok((0, 0)));
    assert_eq!(migrated(&one, &one, &[0], 0, 1), Ok((0, 1)));
    for (held, unread) in [(1, 0), (0, 0), (0, 1)] {
        assert_eq!(migrated(&one, &one, &[255], held, unread), Ok((0, 1)));
        for map in [&[1][..], &[254], &[], &[0, 255], &[255, 255], &[0, 0]] {
            assert_eq!(migrated(&one, &one, map, held, unread), Err((27, 0)));
        }
    }
    assert_eq!(migrated(&one, &most, &[63], 1, 0), Ok((1 << 63, u64::MAX >> 1)));
    assert_eq!(migrated(&one, &most, &[64], 1, 0), Err((27, 0)));

    // All 64 in another order: as they are, moved round, turned about.
    let (held, unread) = (0xf0e1_d2c3_b4a5_9687, 0x0102_0104_0810_2040);
    let by = |number: &dyn Fn(u8) -> u8| {
        let map: Vec<u8> = (0..64).map(number).collect();
        migrated(&most, &most, &map, held, unread)
    };
    assert_eq!(by(&|fact| fact), Ok((held, unread)));
    for places in 0..64 {
        let moved = by(&|fact| (fact + places) % 64);
        assert_eq!(moved, Ok((held.rotate_left(u32::from(places)), unread.rotate_left(u32::from(places)))));
    }
    assert_eq!(by(&|fact| 63 - fact), Ok((held.reverse_bits(), unread.reverse_bits())));
    assert_eq!(by(&|fact| fact / 2), Err((27, 0)));
    assert_eq!(by(&|fact| fact + 1), Err((27, 0)));
}

/// "From then on, until number 18 arises, ticks and reports answer as for a card opened on that reading under the new table and given the same calls,
/// counts and sums apart."
#[test]
fn a_card_goes_on_under_the_new_table() {
    let (old, new) = (trailer::table(), one_fact_less::table());
    let table = read_table(&new).unwrap();
    let tree = tree_bytes(&table, &expand(&table, None, MOST_PAIR_ENTRIES).0);
    // With so many reports brought along, room is left for the three that are to come, or for fewer.
    for (reports, taken) in [(0, 0), (1, 65_535), (65_532, 0), (65_533, 5), (65_534, 0), (65_535, 0)] {
        let mut card = Card { held: 0x0a, unread: 0x01, reports, taken, planned: 5_400 * u32::from(reports) };
        migrate(&old, &new, &trailer::TO_ONE_FACT_LESS, &mut card).unwrap();
        let mut fresh = Card::default();
        open(&new, card.held, card.unread, &mut fresh).unwrap();
        let brought = card;
        let mut done = 0;
        let ending = loop {
            assert_eq!((card.held, card.unread), (fresh.held, fresh.unread));
            assert_eq!(u32::from(card.reports), u32::from(brought.reports) + u32::from(fresh.reports));
            assert_eq!((card.taken - brought.taken, card.planned - brought.planned), (fresh.taken, fresh.planned));
            let status = tick(&new, &tree, card.held, card.unread).unwrap().status;
            assert_eq!(tick(&new, &tree, fresh.held, fresh.unread).unwrap().status, status);
            let Status::Running(job) = status else { break status };
            let answer = report(&new, usize::from(job), 65_535, &mut card);
            let beside = report(&new, usize::from(job), 65_535, &mut fresh);
            if answer == Err(Refusal { number: 18, place: 0 }) {
                assert_eq!(beside, Ok(()));
                break status;
            }
            assert_eq!((answer, beside), (Ok(()), Ok(())));
            done += 1;
        };
        // Uncouple, measure unloaded, seal.
        assert_eq!(done, 3.min(65_535 - u32::from(reports)));
        assert_eq!(ending == Status::Success, done == 3);
    }
}
