//! Document 01's trailer on the hitch, and the same with one fact less.

use crate::engine::{table_bytes, Condition, Entry, Job, DROPPED, NO_DISTANCE, NO_JOB};

pub const FACTS: u8 = 5;
pub const GOAL: u64 = 0x10;

pub fn jobs() -> Vec<Job> {
    vec![
        Job::plain(0x01, 0x02, 0x01, 300), // couple
        Job::plain(0x02, 0x01, 0x02, 240), // uncouple
        Job::plain(0x01, 0x04, 0x00, 600), // measure unloaded
        Job::plain(0x02, 0x08, 0x00, 600), // measure loaded
        Job::plain(0x0c, 0x10, 0x00, 150), // seal
    ]
}

pub fn table() -> Vec<u8> {
    table_bytes(FACTS, &jobs(), GOAL)
}

/// The bytes of a `start.bay`.
pub fn start(held: u64, unread: u64) -> Vec<u8> {
    [held.to_le_bytes(), unread.to_le_bytes()].concat()
}

/// What `bayplan` prints for held 02: the lines of document 01, the time of the way as document 02 rounds it.
pub const PRINTED: &str = "plan 8 111
0 0000000000000010 - 0 0
1 000000000000000c 4 0 1
2 0000000000000009 2 1 2
3 0000000000000006 3 1 2
4 000000000000000a 1 2 3
5 0000000000000003 3 2 3
6 0000000000000005 0 3 3
7 0000000000000002 3 4 4
way 4 26
";

/// The whole list (document 02, W2). Those that document 01 prints are the first eight.
pub fn whole_list() -> Vec<Entry> {
    let rows = [
        (0x10, NO_JOB, 0, 0),
        (0x0c, 4, 0, 1),
        (0x09, 2, 1, 2),
        (0x06, 3, 1, 2),
        (0x0a, 1, 2, 3),
        (0x03, 3, 2, 3),
        (0x05, 0, 3, 3),
        (0x02, 3, 4, 4),
        (0x01, 2, 6, 4),
    ];
    let entry = |(mask, job, parent, depth)| Entry { condition: Condition::plain(mask), job, parent, depth };
    rows.map(entry).to_vec()
}

/// Licences of two fitters at the trailer, with one fact less too (document 02, W12): the first measures, the second couples and uncouples, and both
/// may seal.
pub const LICENCES: [u8; 5] = [2, 2, 1, 1, 3];

/// No jobs lead to the goal.
const NONE: u16 = NO_DISTANCE;

/// The fewest jobs from each state, by its held mask (document 02, W13). With the trailer neither off nor on, nothing but sealing can be done; and whatever
/// else is held, a sealed one is at the goal.
#[rustfmt::skip]
pub const DISTANCES: [u16; 32] = [
    NONE, 4, 4, 3, // 00: nothing known
    NONE, 3, 2, 2, // 04: unloaded known
    NONE, 2, 3, 2, // 08: loaded known
    1, 1, 1, 1, // 0c: both known
    0, 0, 0, 0, 0, 0, 0, 0, 0, 0, 0, 0, 0, 0, 0, 0, // 10: sealed
];

/// Where each fact goes with one fact less (document 02, W14): "trailer off" has no number there.
pub const TO_ONE_FACT_LESS: [u8; 5] = [DROPPED, 0, 1, 2, 3];

/// The trailer without a fact for "trailer off": "Some jobs need the trailer to be off, and a second fact for that is clumsy" (document 02, W10).
/// 0 trailer on, 1 unloaded known, 2 loaded known, 3 sealed.
pub mod one_fact_less {
    use crate::engine::{table_bytes, Job};

    pub const FACTS: u8 = 4;
    pub const GOAL: u64 = 0x08;

    pub fn jobs() -> Vec<Job> {
        vec![
            Job::paired(0x00, 0x01, 0x01, 0x00, 300), // couple
            Job::plain(0x01, 0x00, 0x01, 240),        // uncouple
            Job::paired(0x00, 0x01, 0x02, 0x00, 600), // measure unloaded
            Job::plain(0x01, 0x04, 0x00, 600),        // measure loaded
            Job::plain(0x06, 0x08, 0x00, 150),        // seal
        ]
    }

    pub fn table() -> Vec<u8> {
        table_bytes(FACTS, &jobs(), GOAL)
    }

    /// The fewest jobs from each state, by its held mask (document 02, W13): with the trailer off and on in turn. Every state has a way.
    #[rustfmt::skip]
    pub const DISTANCES: [u16; 16] = [
        4, 4, // 00: nothing known
        3, 2, // 02: unloaded known
        2, 3, // 04: loaded known
        1, 1, // 06: both known
        0, 0, 0, 0, 0, 0, 0, 0, // 08: sealed
    ];

    /// Where each fact goes in document 01's table (document 02, W14): "trailer off" has no source.
    pub const TO_TRAILER: [u8; 4] = [1, 2, 3, 4];

    /// What `bayplan` prints for held 01.
    pub const PRINTED: &str = "plan 7 153
0 0000000000000008 0000000000000000 - 0 0
1 0000000000000006 0000000000000000 4 0 1
2 0000000000000004 0000000000000001 2 1 2
3 0000000000000003 0000000000000000 3 1 2
4 0000000000000005 0000000000000000 1 2 3
5 0000000000000002 0000000000000001 0 3 3
6 0000000000000001 0000000000000000 3 4 4
way 4 26
";
}
