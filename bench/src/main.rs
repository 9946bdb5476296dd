//! Times the proved library and its counterparts in Rust on the same inputs.
//!
//!     bench                       a table of times and ratios
//!     bench --list                the names of all cases with their sides
//!     bench --run CASE SIDE N     N calls of one side and nothing else, to count instructions

#[path = "../../tests/src/ffi.rs"]
#[allow(dead_code)]
mod ffi;
mod tight;

use std::cell::OnceCell;
use std::hint::black_box;
use std::rc::Rc;
use std::time::Instant;

use bay_tests::engine::{self, Job, Lent, Status, MOST_ENTRIES, MOST_PAIR_ENTRIES};
use bay_tests::make::{self, BatchRows, Jobs};
use bay_tests::random::Random;
use bay_tests::trailer;

/// One way to do a case. It gives a number made of its answer, by which the sides are compared.
struct Side {
    name: &'static str,
    call: Box<dyn FnMut() -> u64>,
}

fn side(name: &'static str, call: impl FnMut() -> u64 + 'static) -> Side {
    Side { name, call: Box::new(call) }
}

/// Twelve facts to reach, each from a fact of its own, so that the list has 4,096 entries; the other jobs do the same from
/// more needs, and what they give is dropped.
fn long_table(jobs: usize) -> (Vec<u8>, u64) {
    let job = |i: usize| {
        let fact = i % 12;
        let extra = if i < 12 { 0 } else { 1 << (24 + i % 40) };
        Job::plain(1 << (12 + fact) | extra, 1 << fact, 0, 60 + i as u16)
    };
    let jobs: Vec<Job> = (0..jobs).map(job).collect();
    (engine::table_bytes(64, &jobs, 0xfff), 0xfff000)
}

/// The same with every other job in need of its fact absent, and a start that meets the last of the 2,978 entries that such a list can have.
fn long_pair_table(jobs: usize) -> (Vec<u8>, u64) {
    let table = make::long_table(12, jobs - 12, Jobs::Paired);
    let list = engine::expand(&table, None, MOST_ENTRIES).0;
    (table.bytes(), make::long_state(&table, &list[MOST_PAIR_ENTRIES - 1]))
}

/// As with twelve jobs, and sixty more that need the goal itself: what they give has the goal for a part, the oldest entry of all.
fn goal_needing_table() -> (Vec<u8>, u64) {
    let job = |i: usize| match i {
        0..12 => Job::plain(1 << (12 + i), 1 << i, 0, 60),
        _ => Job::plain(0xfff, 1 << (12 + i % 12), 0, 60),
    };
    let jobs: Vec<Job> = (0..72).map(job).collect();
    (engine::table_bytes(24, &jobs, 0xfff), 0xfff000)
}

/// A counter of so many bits, each with a fact for set and one for clear: one way of 2^bits - 1 jobs, and as many entries and one.
fn counter_table(bits: usize) -> (Vec<u8>, u64) {
    let set = |i: usize| 1u64 << (2 * i);
    let clear = |i: usize| 2u64 << (2 * i);
    let job = |i: usize| {
        let lower_set: u64 = (0..i).map(set).sum();
        let lower_clear: u64 = (0..i).map(clear).sum();
        Job::plain(clear(i) | lower_set, set(i) | lower_clear, clear(i) | lower_set, 60)
    };
    let jobs: Vec<Job> = (0..bits).map(job).collect();
    let goal = (0..bits).map(set).sum();
    (engine::table_bytes(2 * bits as u8, &jobs, goal), (0..bits).map(clear).sum())
}

fn plan_case((table, start): (Vec<u8>, u64)) -> Vec<Side> {
    let (library_table, mut library_lent) = (table.clone(), Lent::full());
    let mut rust_lent = Lent::full();
    vec![
        side("library", move || {
            let answer = ffi::plan(&library_table, start, 0, &mut library_lent);
            assert_eq!(answer[0], 0);
            answer[1] << 32 | answer[2] << 8 | answer[3]
        }),
        side("rust", move || {
            let planned = tight::plan(&table, start, 0, &mut rust_lent).expect("a plan");
            (planned.entries << 32 | planned.tree_bytes << 8 | planned.way_jobs) as u64
        }),
    ]
}

fn status_word(status: Status) -> u64 {
    match status {
        Status::Success => 0,
        Status::Failure => 1 << 56,
        Status::Running(job) => 2 << 56 | u64::from(job),
        Status::Unsettled(mask) => 3 << 56 | mask,
        Status::Waiting => 4 << 56,
    }
}

/// A tick that reads every condition: the last entry is the one that is met.
fn tick_case(table: Vec<u8>, start: u64) -> Vec<Side> {
    let mut planned_lent = Lent::full();
    let planned = engine::plan(&table, start, 0, &mut planned_lent).expect("a plan");
    let tree = planned_lent.tree[..planned.tree_bytes].to_vec();
    let (t1, t2, t3) = (table.clone(), table.clone(), table.clone());
    let (r1, r2, r3) = (tree.clone(), tree.clone(), tree.clone());
    vec![
        side("library", move || {
            let answer = ffi::tick(&t1, &r1, start, 0);
            assert_eq!(answer[0], 0);
            told(answer[1], answer[2])
        }),
        side("rust", move || status_word(tight::tick_by_calls(&t2, &r2, start, 0).expect("sound"))),
        side("rust_flat", move || status_word(tight::tick_flat(&t3, &r3, start, 0).expect("sound"))),
        side("rust_plain", move || status_word(engine::tick(&table, &tree, start, 0).expect("sound").status)),
    ]
}

fn table_case(table: Vec<u8>) -> Vec<Side> {
    let library_table = table.clone();
    vec![
        side("library", move || {
            let answer = ffi::read_table(&library_table);
            assert_eq!(answer[0], 0);
            answer[3] ^ answer[2] << 48
        }),
        side("rust", move || {
            let header = tight::read_table(&table).unwrap_or_else(|_| panic!("a sound table"));
            header.goal ^ (header.count as u64) << 48
        }),
    ]
}

/// A thousand vehicles on a counter's list, which comes to the number 0 last: of ten, seven stop deep in it, one has a bit unread, one stops early, and
/// one fails every entry. `at` gives the state at a number, `bit` the facts of some bit, `nowhere` a state that the list does not cover.
fn counter_vehicles(last: u64, at: fn(u64) -> u64, bit: u64, nowhere: u64) -> Vec<(u64, u64)> {
    let vehicle = |i: u64| match i % 10 {
        0 => (at(last - i), 0),
        1 => (nowhere, 0),
        2 => (at(i) & !bit, bit),
        _ => (at(i / 4), 0),
    };
    (0..1_000).map(vehicle).collect()
}

/// The state of a counter with a fact for set and one for clear of each of its twelve bits.
fn counter_state(number: u64) -> u64 {
    (0..12).map(|i| if number >> i & 1 == 1 { 1 << (2 * i) } else { 2 << (2 * i) }).sum()
}

fn told(status: u64, value: u64) -> u64 {
    status << 56 | value
}

/// What all vehicles are told, as one number.
fn all_told(answers: impl Iterator<Item = u64>) -> u64 {
    answers.fold(0, |sum: u64, answer| sum.rotate_left(5) ^ answer)
}

/// The whole list for many vehicles in one walk; one of them reads it to its end.
fn batch_case(table: engine::Table, vehicles: Vec<(u64, u64)>) -> Vec<Side> {
    let list = engine::expand(&table, None, MOST_ENTRIES).0;
    let entries = list.len();
    let (bytes, tree) = (table.bytes(), engine::tree_bytes(&table, &list));
    let rows = BatchRows::of(&list, &vehicles);
    let (b1, b2, r1, r2) = (bytes.clone(), bytes.clone(), rows.clone(), rows);
    let (mut s1, mut v1) = (vec![0; vehicles.len()], vec![0; vehicles.len()]);
    let (mut s2, mut v2) = (s1.clone(), v1.clone());
    let of_rows = |statuses: &[u8], values: &[u64]| {
        all_told(statuses.iter().zip(values).map(|(status, value)| told(u64::from(*status), *value)))
    };
    vec![
        side("library", move || {
            assert_eq!(ffi::tick_all(&b1, r1.batch(), &mut s1, &mut v1), [0, entries as u64]);
            of_rows(&s1, &v1)
        }),
        side("rust", move || {
            assert_eq!(tight::tick_all(&b2, r2.batch(), &mut s2, &mut v2), Ok(entries));
            of_rows(&s2, &v2)
        }),
        side("one_by_one", move || {
            all_told(vehicles.iter().map(|(held, unread)| {
                let answer = ffi::tick(&bytes, &tree, *held, *unread);
                assert_eq!(answer[0], 0);
                told(answer[1], answer[2])
            }))
        }),
    ]
}

/// Fifteen facts and 128 jobs drawn by chance, each of which adds one fact. Where they are paired, every other one needs facts absent. The seed is one that
/// gives a greatest distance of 40 with either kind.
fn chance_table(kind: Jobs) -> Vec<u8> {
    const FACTS: u8 = 15;
    let mut random = Random::new(4_562);
    // So many facts at most: one may be drawn twice.
    let mut drawn = |count: usize| (0..count).fold(0, |mask: u64, _| mask | 1 << random.below(usize::from(FACTS)));
    let job = |i: usize| {
        let is_paired = kind == Jobs::Paired && i % 2 == 1;
        let adds = drawn(1);
        let absent = drawn(if is_paired { 2 } else { 0 });
        let needs = drawn(if is_paired { 5 } else { 7 }) & !(adds | absent);
        let deletes = drawn(3) & !adds;
        if is_paired {
            Job::paired(needs, absent, adds, deletes, 60)
        } else {
            Job::plain(needs, adds, deletes, 60)
        }
    };
    let jobs: Vec<Job> = (0..128).map(job).collect();
    engine::table_bytes(FACTS, &jobs, drawn(8))
}

/// A counter that goes down to 0, after which a last job adds the goal: one long chain. The sweeps go down as well, so that each makes one state final.
fn chain_table(facts: usize) -> Vec<u8> {
    let done = 1u64 << (facts - 1);
    let decrement = |i: usize| {
        let bit = 1u64 << i;
        let lower = bit - 1;
        Job::paired(bit, lower | done, lower, bit, 60)
    };
    let mut jobs: Vec<Job> = (0..facts - 1).map(decrement).collect();
    jobs.push(Job::paired(0, done - 1, done, 0, 60));
    engine::table_bytes(facts as u8, &jobs, done)
}

/// The fewest jobs from every state to the goal.
fn distances_case(table: Vec<u8>) -> Vec<Side> {
    let states = 1usize << table[1];
    let (t1, t2) = (table.clone(), table.clone());
    let mut r1 = vec![0u16; states];
    let (mut r2, mut r3) = (r1.clone(), r1.clone());
    // The row of the first call, which those of all further ones are compared with.
    let first: Rc<OnceCell<Vec<u16>>> = Rc::default();
    let agreed = move |row: &[u16]| {
        assert!(first.get_or_init(|| row.to_vec()) == row, "the sides give different rows");
        row.len() as u64
    };
    let (a1, a2) = (agreed.clone(), agreed.clone());
    vec![
        side("library", move || {
            assert_eq!(ffi::measure_distances(&t1, &mut r1), [0, states as u64]);
            a1(&r1)
        }),
        side("rust", move || {
            assert_eq!(tight::distances(&t2, &mut r2), Ok(states));
            a2(&r2)
        }),
        side("rust_backward", move || {
            assert_eq!(tight::distances_backward(&table, &mut r3), Ok(states));
            agreed(&r3)
        }),
    ]
}

/// The cases and what builds them: only what is asked for is built.
const CASES: [(&str, fn() -> Vec<Side>); 20] = [
    ("plan_12_jobs", || plan_case(long_table(12))),
    ("plan_72_jobs", || plan_case(long_table(72))),
    ("plan_128_jobs", || plan_case(long_table(128))),
    ("plan_oldest_part", || plan_case(goal_needing_table())),
    ("plan_12_pair_jobs", || plan_case(long_pair_table(12))),
    ("plan_72_pair_jobs", || plan_case(long_pair_table(72))),
    ("plan_128_pair_jobs", || plan_case(long_pair_table(128))),
    ("tick_8_entries", || tick_case(trailer::table(), 0x02)),
    ("tick_4096_entries", || tick_case(counter_table(12).0, counter_table(12).1)),
    ("tick_2978_pairs", || tick_case(make::pair_counter_table(12, 2_976, 60).bytes(), 0)),
    ("batch_4096_entries", || {
        let vehicles = counter_vehicles(4_095, counter_state, 3 << 8, 0);
        batch_case(make::counter_table(12, 60).0, vehicles)
    }),
    ("batch_2978_pairs", || {
        let vehicles = counter_vehicles(2_976, |number| number, 1 << 4, 4_095);
        batch_case(make::pair_counter_table(12, 2_976, 60), vehicles)
    }),
    ("table_5_jobs", || table_case(trailer::table())),
    ("table_128_jobs", || table_case(long_table(128).0)),
    ("table_128_pair_jobs", || table_case(long_pair_table(128).0)),
    ("distances_15_facts", || distances_case(chance_table(Jobs::Plain))),
    ("distances_15_facts_pairs", || distances_case(chance_table(Jobs::Paired))),
    ("distances_chain_10", || distances_case(chain_table(10))),
    ("distances_chain_11", || distances_case(chain_table(11))),
    ("distances_chain", || distances_case(chain_table(12))),
];

/// Nanoseconds of one call: the least of several rounds, each long enough to be measured.
fn nanoseconds(side: &mut Side, calls: u64) -> f64 {
    let began = Instant::now();
    for _ in 0..calls {
        black_box((side.call)());
    }
    began.elapsed().as_nanos() as f64 / calls as f64
}

fn shown(nanoseconds: f64) -> String {
    if nanoseconds >= 1e6 {
        format!("{:.2} ms", nanoseconds / 1e6)
    } else if nanoseconds >= 1e3 {
        format!("{:.2} us", nanoseconds / 1e3)
    } else {
        format!("{nanoseconds:.0} ns")
    }
}

fn measure_all() {
    const ROUNDS: usize = 7;
    const ROUND_NANOSECONDS: f64 = 4e7;
    println!("{:<24} {:<13} {:>11} {:>16}", "case", "side", "time", "library / side");
    for (name, make) in CASES {
        let mut sides = make();
        let answers: Vec<u64> = sides.iter_mut().map(|side| (side.call)()).collect();
        assert!(answers.iter().all(|answer| *answer == answers[0]), "the sides of {name} differ");
        let calls: Vec<u64> = sides
            .iter_mut()
            .map(|side| (ROUND_NANOSECONDS / nanoseconds(side, 3)).ceil().clamp(1.0, 1e7) as u64)
            .collect();
        // The sides take turns, so that a busy moment does not hit one alone.
        let mut least = vec![f64::INFINITY; sides.len()];
        for _ in 0..ROUNDS {
            for (i, side) in sides.iter_mut().enumerate() {
                least[i] = least[i].min(nanoseconds(side, calls[i]));
            }
        }
        for (side, time) in sides.iter().zip(&least) {
            println!("{:<24} {:<13} {:>11} {:>16.2}", name, side.name, shown(*time), least[0] / time);
        }
    }
}

fn main() {
    let words: Vec<String> = std::env::args().skip(1).collect();
    let words: Vec<&str> = words.iter().map(String::as_str).collect();
    match words.as_slice() {
        [] => measure_all(),
        ["--list"] => {
            for (name, make) in CASES {
                for side in make() {
                    println!("{name} {}", side.name);
                }
            }
        }
        ["--run", case, side, count] => {
            let count: u64 = count.parse().expect("N is a number");
            let (_, make) = CASES.iter().find(|(name, _)| name == case).expect("a case of --list");
            let mut sides = make();
            let side = sides.iter_mut().find(|each| each.name == *side).expect("a side of --list");
            for _ in 0..count {
                black_box((side.call)());
            }
        }
        _ => {
            eprintln!("bench [--list | --run CASE SIDE N]");
            std::process::exit(2);
        }
    }
}
