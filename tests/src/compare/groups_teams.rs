//! The plan for two fitters (document 02, W12), and runs of both trees against brute force.

use bay_tests::brute::{check_joint_runs, check_unsettled, distances, joint_run, told_to};
use bay_tests::engine::*;
use bay_tests::make;
use bay_tests::make::Jobs::{self, Paired, Plain};
use bay_tests::random::Random;
use bay_tests::trailer::{self, one_fact_less};

use super::checks;
use super::lent::{self, lists, team_tree_bytes, tree_bytes, TeamLengths};
use super::{both, one, Group};
use crate::ffi;

pub fn groups() -> Vec<Vec<Group>> {
    vec![
        both("teams_of_the_trailer", 1, of_the_trailer),
        both("teams_small", 40_000, small),
        both("teams_of_every_row", 200, every_row),
        both("teams_of_every_licence_byte", 5, every_licence_byte),
        both("teams_of_bad_licences", 20_000, bad_licences),
        both("teams_refused", 40_000, refused),
        both("teams_at_each_capacity", 4_000, each_capacity),
        both("teams_with_trees_too_short", 3_000, trees_too_short),
        both("teams_of_many_jobs", 300, many_jobs),
        both("teams_as_plans", 8_000, as_plans),
        one("teams_long", 12, long),
        one("teams_long_pairs", 15, long_pairs),
        both("teams_run_jointly", 700, run_jointly),
        both("teams_run_long", 10, run_long),
        both("teams_on_every_reading", 300, every_reading),
        both("teams_every_byte_changed", 302, every_byte_changed),
        both("teams_every_cut", 200, every_cut),
        both("teams_on_a_small_stack", 1, small_stack),
    ]
}

/// A plan for two fitters that was done.
pub struct Team {
    pub list: Vec<Entry>,
    /// In the order of `FITTERS`.
    trees: [Vec<u8>; 2],
}

impl Team {
    fn of(planned: &TeamPlanned, lent: TeamLent) -> Team {
        let list = lent.lists.list(planned.paired, planned.entries);
        let mut trees = lent.trees;
        for (tree, bytes) in trees.iter_mut().zip(planned.tree_bytes) {
            tree.truncate(bytes);
        }
        Team { list, trees }
    }

    pub fn tree(&self, fitter: Fitter) -> &[u8] {
        &self.trees[fitter as usize]
    }

    fn tick(&self, table: &[u8], fitter: Fitter, held: u64, unread: u64) -> Result<Ticked, Refusal> {
        checks::tick(table, self.tree(fitter), held, unread)
    }

    /// What both are told, in words.
    fn told(&self, table: &[u8], held: u64, unread: u64) -> [(u64, u64); 2] {
        FITTERS.map(|fitter| {
            checks::status_words(self.tick(table, fitter, held, unread).expect("a sound tree and reading").status)
        })
    }
}

fn number(result: Result<TeamPlanned, Refusal>) -> Result<TeamPlanned, (u64, usize)> {
    result.map_err(|refusal| (refusal.number, refusal.place))
}

/// A plan for two fitters from a start, into just as much as it needs, or None where there is no way.
pub fn team(random: &mut Random, table: &Table, licences: &[u8], start: u64) -> Option<Team> {
    let (list, ending) = expand(table, Some(start), table.most_entries());
    let lengths = TeamLengths::exactly(table, &list, licences);
    let (result, lent) = checks::plan_team(&table.bytes(), licences, start, 0, lengths, random.next());
    match result {
        Ok(planned) => Some(Team::of(&planned, lent)),
        Err(refusal) => {
            assert_eq!((refusal.number, refusal.place, ending), (11, list.len(), Ending::Exhausted));
            None
        }
    }
}

fn trailer_of(kind: Jobs) -> (Table, u64) {
    let (bytes, start) = match kind {
        Plain => (trailer::table(), 0x02),
        Paired => (one_fact_less::table(), 0x01),
    };
    (read_table(&bytes).expect("sound"), start)
}

/// The words of the trailer's plan and of both trees' ticks, by hand.
fn of_the_trailer(random: &mut Random, _: u64, kind: Jobs) {
    let (table, start) = trailer_of(kind);
    let bytes = table.bytes();
    let (entries, tree_bytes) = if kind == Plain { (8, [109, 106]) } else { (7, [151, 149]) };
    let lengths = TeamLengths::of(entries, tree_bytes);
    let (result, lent) = checks::plan_team(&bytes, &trailer::LICENCES, start, 0, lengths, random.next());
    assert_eq!(result, Ok(TeamPlanned { entries, tree_bytes, paired: kind == Paired }));
    let team = Team::of(&result.expect("a plan"), lent);

    let first = |job| [(ffi::RUNNING, job), (ffi::WAITING, 0)];
    let second = |job| [(ffi::WAITING, 0), (ffi::RUNNING, job)];
    let readings = match kind {
        Plain => [
            (0x02, 0x00, first(3)),
            (0x0a, 0x00, second(1)),
            (0x09, 0x00, first(2)),
            (0x0d, 0x00, first(4)),
            (0x0c, 0x13, [(ffi::UNSETTLED, 0x10); 2]),
            (0x02, 0x08, [(ffi::UNSETTLED, 0x08); 2]),
            (0x05, 0x00, second(0)),
            (0x1d, 0x00, [(ffi::SUCCESS, 0); 2]),
            (0x08, 0x00, [(ffi::FAILURE, 0); 2]),
        ],
        Paired => [
            (0x01, 0x00, first(3)),
            (0x05, 0x00, second(1)),
            (0x04, 0x00, first(2)),
            (0x06, 0x00, first(4)),
            (0x06, 0x01, first(4)),
            (0x04, 0x01, [(ffi::UNSETTLED, 0x01); 2]),
            (0x02, 0x00, second(0)),
            (0x0e, 0x00, [(ffi::SUCCESS, 0); 2]),
            (0x00, 0x00, [(ffi::FAILURE, 0); 2]),
        ],
    };
    for (held, unread, told) in readings {
        assert_eq!(team.told(&bytes, held, unread), told, "held {held:x} unread {unread:x}");
    }
    let run = joint_run(&table, start, |fitter, state| team.tick(&bytes, fitter, state, 0));
    assert_eq!(run, (vec![(Fitter::First, 3), (Fitter::Second, 1), (Fitter::First, 2), (Fitter::First, 4)], true));
}

fn any_table(random: &mut Random, index: u64, kind: Jobs) -> Table {
    let facts = random.between(3, 8) as u32;
    if index % 2 == 0 {
        make::busy_table(random, facts, kind)
    } else {
        make::table(random, 9, 9, kind)
    }
}

/// Random small tables and licences, into slices of any length.
fn small(random: &mut Random, index: u64, kind: Jobs) {
    let table = any_table(random, index, kind);
    let bytes = table.bytes();
    let licences = make::licences(random, table.jobs.len());
    let start = random.state(table.facts);
    let most = *random.pick(&[3, 10, 40]);
    let lengths = TeamLengths::any(random, &table, most);
    let _ = checks::plan_team(&bytes, &licences, start, 0, lengths, random.next());
    let lengths = TeamLengths::of(120 + random.below(9), [2_000 + random.below(9), 2_000 + random.below(9)]);
    let _ = checks::plan_team(&bytes, &licences, start, 0, lengths, random.next());
}

/// A table with so few jobs that every row of licences can be tried; now and then it has none.
pub fn table_of_few_jobs(random: &mut Random, index: u64, kind: Jobs) -> Table {
    let facts = random.between(3, 5) as u32;
    let mut table = match index {
        0 => return trailer_of(kind).0,
        1 => Table { facts, jobs: vec![], goal: 0x04 },
        _ if index % 2 == 0 => make::table(random, 5, 4, kind),
        _ => make::busy_table(random, facts, kind),
    };
    // Those that need a fact absent stay, if there are any.
    table.jobs.sort_by_key(|job| job.command != PAIRED_JOB);
    table.jobs.truncate(4);
    table
}

/// Every row of licences there is: the run of both trees from every state.
fn every_row(random: &mut Random, index: u64, kind: Jobs) {
    let table = table_of_few_jobs(random, index, kind);
    let bytes = table.bytes();
    let distance = distances(&table);
    let covered: Vec<u64> = (0..1 << table.facts).filter(|state| distance[*state as usize].is_some()).collect();
    for licences in make::every_row_of_licences(table.jobs.len()) {
        // From where there is a way, if there is such a state.
        let start = if covered.is_empty() { random.state(table.facts) } else { *random.pick(&covered) };
        let Some(team) = team(random, &table, &licences, start) else { continue };
        check_joint_runs(&table, &team.list, &licences, &distance, |fitter, state| team.tick(&bytes, fitter, state, 0));
    }
}

/// Every value of one licence of the trailer's.
fn every_licence_byte(random: &mut Random, index: u64, kind: Jobs) {
    let (table, start) = trailer_of(kind);
    for licence in 0..=255 {
        let mut licences = trailer::LICENCES;
        licences[index as usize] = licence;
        let (result, _) = checks::plan_team(&table.bytes(), &licences, start, 0, TeamLengths::full(), random.next());
        assert_eq!(number(result).err(), if (1..=3).contains(&licence) { None } else { Some((24, index as usize)) });
    }
}

/// The place of 24, if a row of licences has it: the length comes first, then the first that is none.
fn fault_of(table: &Table, licences: &[u8]) -> Option<usize> {
    if licences.len() != table.jobs.len() {
        return Some(0);
    }
    licences.iter().position(|licence| *licence == 0 || *licence > 3)
}

/// Rows of licences with faults before starts with faults and lists without room: 24 comes before them all.
fn bad_licences(random: &mut Random, index: u64, kind: Jobs) {
    let table = any_table(random, index, kind);
    let mut licences = make::licences(random, table.jobs.len());
    make::damage_licences(random, &mut licences);
    let (held, unread) = make::any_reading(random, table.facts);
    let lengths = TeamLengths::of(random.below(20), [random.below(300), random.below(300)]);
    let (result, _) = checks::plan_team(&table.bytes(), &licences, held, unread, lengths, random.next());
    let of_licences = result.err().filter(|refusal| refusal.number == 24);
    assert_eq!(of_licences.map(|refusal| refusal.place), fault_of(&table, &licences));
}

/// Faults of the table, of the licences and of the start at once.
fn refused(random: &mut Random, _: u64, kind: Jobs) {
    let table = make::table(random, 8, 6, kind);
    let bytes = if random.one_in(2) { make::damaged_bytes(random, &table) } else { table.bytes() };
    let mut licences = make::licences(random, table.jobs.len());
    if random.one_in(3) {
        make::damage_licences(random, &mut licences);
    }
    let (held, unread) = make::any_reading(random, table.facts);
    let lengths = TeamLengths::of(random.below(20), [random.below(300), random.below(300)]);
    let (result, _) = checks::plan_team(&bytes, &licences, held, unread, lengths, random.next());
    if let Err(of_table) = read_table(&bytes) {
        assert_eq!(result, Err(of_table), "the table's own stops come first");
    }
}

/// Every capacity around the need, each list table the shortest in turn; and every one that is too small, for a list that is not long.
fn each_capacity(random: &mut Random, index: u64, kind: Jobs) {
    let table = any_table(random, index, kind);
    let bytes = table.bytes();
    let licences = make::licences(random, table.jobs.len());
    let start = random.state(table.facts);
    let (list, ending) = expand(&table, Some(start), table.most_entries());
    let n = list.len();
    lent::around(random, &table, n, |random, capacity, plan| {
        let lengths = TeamLengths { plan, second: tree_bytes(&table, n) };
        let (result, _) = checks::plan_team(&bytes, &licences, start, 0, lengths, random.next());
        let stop = match ending {
            _ if capacity < n => Some((10, capacity)),
            Ending::Exhausted => Some((11, n)),
            _ => None,
        };
        assert_eq!(number(result).err(), stop);
    });
    for capacity in 0..n.min(20) {
        // Where the list is full the trees are not judged.
        let trees = [random.below(60), random.below(60)];
        let lengths = TeamLengths::of(capacity, trees);
        let (result, _) = checks::plan_team(&bytes, &licences, start, 0, lengths, random.next());
        assert_eq!(number(result), Err((10, capacity)));
    }
}

/// Lengths around a need, and around the bytes of the team's tree.
fn around(need: usize, of_the_team: usize) -> [usize; 8] {
    [0, need / 2, need - 1, need, need + 1, of_the_team - 1, of_the_team, of_the_team + 40]
}

/// Trees that are too short, by one and by more, on either side and on both: each is judged by its own bytes.
fn trees_too_short(random: &mut Random, index: u64, kind: Jobs) {
    let table = any_table(random, index, kind);
    let bytes = table.bytes();
    let licences = make::licences(random, table.jobs.len());
    let start = random.state(table.facts);
    let (list, ending) = expand(&table, Some(start), table.most_entries());
    if ending != Ending::Covered {
        return;
    }
    let need = team_tree_bytes(&table, &list, &licences);
    let of_the_team = tree_bytes(&table, list.len());
    for first in around(need[0], of_the_team) {
        for second in around(need[1], of_the_team) {
            let lengths = TeamLengths::of(list.len() + random.below(3), [first, second]);
            let (result, _) = checks::plan_team(&bytes, &licences, start, 0, lengths, random.next());
            let planned = Ok(TeamPlanned { entries: list.len(), tree_bytes: need, paired: table.is_paired() });
            let fits = first >= need[0] && second >= need[1];
            assert_eq!(number(result), if fits { planned } else { Err((12, list.len())) });
        }
    }
}

/// Tables of up to 128 jobs over many facts.
fn many_jobs(random: &mut Random, _: u64, kind: Jobs) {
    let facts = random.between(6, 64) as u32;
    let count = random.between(20, 128);
    let table = Table { facts, jobs: make::jobs(random, facts, count, kind), goal: random.facts(facts, 3) };
    let bytes = table.bytes();
    for capacity in [300, 150] {
        let licences = make::licences(random, count);
        let start = random.state(facts) & random.state(facts);
        let lengths = TeamLengths::of(capacity, [tree_bytes(&table, capacity); 2]);
        let _ = checks::plan_team(&bytes, &licences, start, 0, lengths, random.next());
    }
}

/// The team's list is the plan's for the same start and capacity, and so are its stops; where one fitter has every job his tree is the plan's.
fn as_plans(random: &mut Random, index: u64, kind: Jobs) {
    let table = any_table(random, index, kind);
    let bytes = table.bytes();
    let start = random.state(table.facts);
    let capacity = *random.pick(&[0, 2, 5, 20, 200]);
    let room = tree_bytes(&table, 200);
    let (plan, lent) = checks::plan(&bytes, start, 0, lists(capacity, room), random.next());
    for licences in [vec![1; table.jobs.len()], vec![2; table.jobs.len()], make::licences(random, table.jobs.len())] {
        let lengths = TeamLengths::of(capacity, [room; 2]);
        let (result, team_lent) = checks::plan_team(&bytes, &licences, start, 0, lengths, random.next());
        let entries = match (&result, &plan) {
            (Ok(team), Ok(plan)) => {
                assert_eq!((team.entries, team.paired), (plan.entries, plan.paired));
                let tree = &lent.tree[..plan.tree_bytes];
                for (fitter, licence) in [(0, 1), (1, 2)] {
                    if licences.iter().all(|each| *each == licence) {
                        assert_eq!(&team_lent.trees[fitter][..team.tree_bytes[fitter]], tree, "he has every job");
                    }
                }
                plan.entries
            }
            (Err(team), Err(plan)) => {
                assert_eq!(team, plan);
                plan.place
            }
            _ => panic!("the team's plan is {result:?}, and the plan {plan:?}"),
        };
        assert_eq!(team_lent.lists.list(table.is_paired(), entries), lent.list(table.is_paired(), entries));
    }
}

/// Who is told what from a start where one job is next.
fn check_next(team: &Team, table: &[u8], licences: &[u8], start: u64) {
    let job = team.list[team.list.len() - 1].job;
    let told = FITTERS.map(|fitter| checks::status_words(told_to(fitter, licences, Status::Running(job))));
    assert_eq!(team.told(table, start, 0), told);
}

/// Lists of 4,096 entries, and those that would be longer.
fn long(random: &mut Random, index: u64) {
    let table = make::long_table(12, 4 * (index as usize % 3), Plain);
    let (bytes, start) = (table.bytes(), make::long_start(&table));
    let longer = make::long_table(13, 0, Plain);
    let licences = make::licences(random, table.jobs.len());
    let (list, _) = expand(&table, Some(start), MOST_ENTRIES);
    let need = team_tree_bytes(&table, &list, &licences);
    let [first, second] = need;
    let mut plan = |start: u64, capacity: usize, trees: [usize; 2]| {
        let lengths = TeamLengths::of(capacity, trees);
        let (result, lent) = checks::plan_team(&bytes, &licences, start, 0, lengths, random.next());
        (number(result), lent)
    };
    match index {
        0 | 1 => {
            let (result, lent) = plan(start, 4_096 + 900 * index as usize, [MOST_TREE_BYTES + index as usize; 2]);
            assert_eq!(result, Ok(TeamPlanned { entries: 4_096, tree_bytes: need, paired: false }));
            check_next(&Team::of(&result.expect("a plan"), lent), &bytes, &licences, start);
        }
        2 => assert_eq!(plan(0, 4_100, need).0, Err((11, 4_096))),
        3 => assert_eq!(plan(start, 4_095, need).0, Err((10, 4_095))),
        4 => assert_eq!(plan(start, 4_096, [first - 1, second]).0, Err((12, 4_096))),
        5 => assert_eq!(plan(start, 4_096, [first, second - 1]).0, Err((12, 4_096))),
        6 => assert_eq!(plan(start, 4_096, [first - 1, second - 1]).0, Err((12, 4_096))),
        7 => assert!(plan(start, 4_096, need).0.is_ok()),
        8 => {
            // The bound of 4,096 counts even where more is lent.
            let licences = make::licences(random, longer.jobs.len());
            let lengths = TeamLengths::of(5_000, [70_000; 2]);
            let start = make::long_start(&longer);
            let (result, _) = checks::plan_team(&longer.bytes(), &licences, start, 0, lengths, random.next());
            assert_eq!(number(result), Err((10, 4_096)));
        }
        _ => {
            let mut lengths = TeamLengths::of(4_096, [first + 3, second + 3]);
            lengths.plan[[0, 2, 3, 4][index as usize % 4]] = random.between(4_000, 4_200);
            let _ = checks::plan_team(&bytes, &licences, start, 0, lengths, random.next());
        }
    }
}

/// Lists of 2,978 pairs, and those that would be longer, though the trees of so many entries would fit: the capacity is the list's.
fn long_pairs(random: &mut Random, index: u64) {
    let table = make::long_table(12, 4 * (index as usize % 3), Paired);
    let bytes = table.bytes();
    let licences = if index == 0 { vec![1; table.jobs.len()] } else { make::licences(random, table.jobs.len()) };
    let whole = expand(&table, None, MOST_ENTRIES).0;
    let capacity = [2_977, 2_978, 2_979, 4_096, 5_000][index as usize % 5];
    let most = capacity.min(MOST_PAIR_ENTRIES);
    let [first, second] = team_tree_bytes(&table, &whole[..most], &licences);
    let mut plan = |entries: usize, trees: [usize; 2]| {
        let start = make::long_state(&table, &whole[entries - 1]);
        let lengths = TeamLengths::of(capacity, trees);
        let (result, lent) = checks::plan_team(&bytes, &licences, start, 0, lengths, random.next());
        if let Ok(planned) = &result {
            check_next(&Team::of(planned, lent), &bytes, &licences, start);
        }
        result.map(|planned| (planned.entries, planned.tree_bytes)).map_err(|refusal| (refusal.number, refusal.place))
    };
    assert_eq!(plan(most, [first, second]), Ok((most, [first, second])));
    assert_eq!(plan(most, [first - 1, second]), Err((12, most)));
    assert_eq!(plan(most, [first, second - 1]), Err((12, most)));
    assert_eq!(plan(most + 1, [MOST_TREE_BYTES; 2]), Err((10, most)));
}

/// Demand 3 for two fitters: the run of both trees from every state, of the plan from every start.
fn run_jointly(random: &mut Random, index: u64, kind: Jobs) {
    let table = make::small_table(random, index, kind);
    let bytes = table.bytes();
    let distance = distances(&table);
    for start in 0..1u64 << table.facts {
        let licences = make::licences(random, table.jobs.len());
        let Some(team) = team(random, &table, &licences, start) else {
            assert_eq!(distance[start as usize], None, "no way is said, but there is one from {start:x}");
            continue;
        };
        check_joint_runs(&table, &team.list, &licences, &distance, |fitter, state| team.tick(&bytes, fitter, state, 0));
    }
}

/// The one way of a counter, of up to 1,023 jobs, worked to the end by two.
fn run_long(random: &mut Random, index: u64, kind: Jobs) {
    let bits = index as usize + 1;
    let way = (1 << bits) - 1;
    let (table, start) = match kind {
        Plain => make::counter_table(bits, 60),
        Paired => (make::pair_counter_table(bits, way as u64 - 1, 60), 0),
    };
    let bytes = table.bytes();
    let licences = make::licences(random, table.jobs.len());
    let team = team(random, &table, &licences, start).expect("a counter can be counted up");
    let (jobs, success) = joint_run(&table, start, |fitter, state| team.tick(&bytes, fitter, state, 0));
    assert_eq!((jobs.len(), success), (way, true));
    assert!(jobs.iter().all(|(fitter, job)| owner(licences[usize::from(*job)]) == *fitter), "each does his own");
}

/// On every reading, unread facts or none, a fitter is told what the plan's own tree tells, but to wait where the job is not his; and it is as settled.
fn every_reading(random: &mut Random, index: u64, kind: Jobs) {
    let table = make::small_table(random, index, kind);
    let bytes = table.bytes();
    let licences = make::licences(random, table.jobs.len());
    let start = random.state(table.facts);
    let (plan, lent) = checks::plan(&bytes, start, 0, lent::whole(&table), random.next());
    let Ok(planned) = plan else { return };
    let tree = &lent.tree[..planned.tree_bytes];
    let team = team(random, &table, &licences, start).expect("the plan is done");
    let all = 0..1u64 << table.facts;
    let readings = all.clone().flat_map(|unread| all.clone().map(move |held| (held, unread)));
    for (held, unread) in readings.filter(|(held, unread)| held & unread == 0) {
        let of_the_team = checks::tick(&bytes, tree, held, unread).expect("the plan's tree").status;
        for fitter in FITTERS {
            let tick = |held, unread| team.tick(&bytes, fitter, held, unread).expect("his tree");
            assert_eq!(tick(held, unread).status, told_to(fitter, &licences, of_the_team));
            check_unsettled(held, unread, tick);
        }
    }
}

/// The trees of both fitters at the trailer.
fn trailer_trees(random: &mut Random, kind: Jobs) -> (Table, [Vec<u8>; 2]) {
    let (table, start) = trailer_of(kind);
    let team = team(random, &table, &trailer::LICENCES, start).expect("a plan");
    (table, team.trees)
}

/// Every value of one byte of a fitter's tree.
fn every_byte_changed(random: &mut Random, index: u64, kind: Jobs) {
    let (table, trees) = trailer_trees(random, kind);
    let bytes = table.bytes();
    let mut tree = trees[index as usize % 2].clone();
    let at = index as usize / 2;
    if at >= tree.len() {
        return;
    }
    for value in 0..=255 {
        tree[at] = value;
        for _ in 0..2 {
            let (held, unread) = make::reading(random, table.facts);
            let _ = checks::tick(&bytes, &tree, held, unread);
        }
    }
}

/// Every beginning of a fitter's tree, every command after its END, and waiting leaves put in or left out anywhere.
fn every_cut(random: &mut Random, index: u64, kind: Jobs) {
    let table = make::small_table(random, index, kind);
    let bytes = table.bytes();
    let licences = make::licences(random, table.jobs.len());
    let start = random.state(table.facts);
    let Some(team) = team(random, &table, &licences, start) else { return };
    let (held, unread) = make::reading(random, table.facts);
    for tree in &team.trees {
        for length in 0..tree.len().min(300) {
            let cut = checks::tick(&bytes, &tree[..length], held, unread);
            assert_eq!(cut.expect_err("a cut tree").number, 13);
        }
        for extra in make::TREE_COMMANDS {
            let refusal = checks::tick(&bytes, &[&tree[..], &[extra]].concat(), held, unread);
            assert_eq!(refusal.expect_err("a tree that goes on"), Refusal { number: 13, place: tree.len() });
        }
        for _ in 0..40 {
            let at = random.below(tree.len());
            let mut other = tree.clone();
            if random.one_in(2) {
                other.insert(at, WAITING_LEAF);
            } else {
                other.remove(at);
            }
            let _ = checks::tick(&bytes, &other, held, unread);
        }
    }
}

/// The longest list with 128 jobs on a stack of 256 KiB, by the library alone: the engine's stack is no matter.
fn small_stack(random: &mut Random, _: u64, kind: Jobs) {
    let table = make::long_table(12, 116, kind);
    let bytes = table.bytes();
    let list = expand(&table, None, table.most_entries()).0;
    let start = make::long_state(&table, &list[list.len() - 1]);
    let licences = make::licences(random, table.jobs.len());
    let job = list[list.len() - 1].job;
    let expected = FITTERS.map(|fitter| checks::status_words(told_to(fitter, &licences, Status::Running(job))));
    let need = team_tree_bytes(&table, &list, &licences);
    let on_small_stack = move || {
        let mut lent = TeamLent::filled(lent::full(), MOST_TREE_BYTES, 0);
        let planned = ffi::plan_team(&bytes, &licences, start, 0, &mut lent);
        let ticked = [0, 1].map(|fitter| ffi::tick(&bytes, &lent.trees[fitter][..need[fitter]], start, 0));
        (planned, ticked)
    };
    let thread = std::thread::Builder::new().stack_size(256 * 1024).spawn(on_small_stack).expect("a thread");
    let (planned, ticked) = thread.join().expect("the thread ends");
    assert_eq!(planned, [0, list.len() as u64, need[0] as u64, need[1] as u64, u64::from(kind == Paired)]);
    assert_eq!(ticked, expected.map(|(status, value)| [0, status, value]));
}
