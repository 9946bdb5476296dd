//! What a small table comes to, by brute force over all states: the fewest jobs, whole runs of ticks, and every way in which unread facts can turn
//! out. Who ticks is an argument: the engine, or the library beside it.

use crate::engine::*;
use crate::make;

fn states(table: &Table) -> std::ops::Range<u64> {
    0..1 << table.facts
}

/// For every state, the fewest jobs that lead to the goal, by brute force over all states.
pub fn distances(table: &Table) -> Vec<Option<usize>> {
    let mut distance: Vec<Option<usize>> = states(table).map(|state| is_part(table.goal, state).then_some(0)).collect();
    for length in 1.. {
        let mut grown = false;
        for state in states(table) {
            let reaches = |job: &Job| {
                job.is_applicable(state, 0)
                    && distance[job.finish(state) as usize].is_some_and(|rest| rest + 1 == length)
            };
            if distance[state as usize].is_none() && table.jobs.iter().any(reaches) {
                distance[state as usize] = Some(length);
                grown = true;
            }
        }
        if !grown {
            break;
        }
    }
    distance
}

/// The first entry of a list that a state meets.
pub fn first_met(list: &[Entry], state: u64) -> Option<usize> {
    list.iter().position(|entry| entry.condition.is_met_by(state))
}

/// The jobs of a run from a state, and whether it ends with Success; a job that is not applicable ends it too.
pub fn run(table: &Table, state: u64, tick: impl Fn(u64) -> Result<Ticked, Refusal>) -> (Vec<u8>, bool) {
    let mut jobs = Vec::new();
    let mut state = state;
    loop {
        match tick(state).map(|ticked| ticked.status) {
            Ok(Status::Success) => return (jobs, true),
            Ok(Status::Running(number)) => {
                let job = &table.jobs[usize::from(number)];
                if !job.is_applicable(state, 0) {
                    return (jobs, false);
                }
                jobs.push(number);
                state = job.finish(state);
            }
            _ => return (jobs, false),
        }
        assert!(jobs.len() <= MOST_ENTRIES, "the run does not end");
    }
}

/// Demand 3 on a list and its tree: from every state that the list covers the run ends with Success after the fewest jobs, which are as many as
/// the first entry met is deep, and W5: they are "in order, those from the first entry met along its parents to entry 0, and no others". From
/// every other state it fails at once.
pub fn check_runs(
    table: &Table,
    list: &[Entry],
    distance: &[Option<usize>],
    tick: impl Fn(u64) -> Result<Ticked, Refusal>,
) {
    for state in states(table) {
        let (jobs, success) = run(table, state, &tick);
        match first_met(list, state) {
            Some(first) => {
                assert!(success, "the run from {state:x} does not reach the goal");
                assert_eq!(Some(jobs.len()), distance[state as usize], "jobs of the run from {state:x}");
                assert_eq!(jobs.len(), usize::from(list[first].depth));
                assert_eq!(jobs, way_from(list, first), "the way from {state:x}");
            }
            None => assert_eq!((jobs.len(), success), (0, false)),
        }
    }
}

/// The jobs of the run of two fitters' trees from a state, each with who does it, and whether it ends with Success for both: it "ticks both on the same
/// state until neither names a job" (document 02, W12). A step is due where one of them is given a job and the other waits; any other two answers end
/// the run, and so does a job that is not applicable.
pub fn joint_run(
    table: &Table,
    state: u64,
    tick: impl Fn(Fitter, u64) -> Result<Ticked, Refusal>,
) -> (Vec<(Fitter, u8)>, bool) {
    let mut jobs = Vec::new();
    let mut state = state;
    loop {
        let told = FITTERS.map(|fitter| tick(fitter, state).map(|ticked| ticked.status));
        let (fitter, number) = match told {
            [Ok(Status::Running(number)), Ok(Status::Waiting)] => (Fitter::First, number),
            [Ok(Status::Waiting), Ok(Status::Running(number))] => (Fitter::Second, number),
            _ => return (jobs, told == [Ok(Status::Success); 2]),
        };
        let job = &table.jobs[usize::from(number)];
        if !job.is_applicable(state, 0) {
            return (jobs, false);
        }
        jobs.push((fitter, number));
        state = job.finish(state);
        assert!(jobs.len() <= MOST_ENTRIES, "the run does not end");
    }
}

/// Demand 3 on the trees of two fitters (document 02, W12): "In every fully read state the team's list covers short of the goal, exactly one of them is
/// given a job and the other waits. Done in turn, these jobs reach the goal in the team's fewest". Each job is its owner's, they are those of the first
/// entry met along its parents, and in a state that is not covered both trees fail.
pub fn check_joint_runs(
    table: &Table,
    list: &[Entry],
    licences: &[u8],
    distance: &[Option<usize>],
    tick: impl Fn(Fitter, u64) -> Result<Ticked, Refusal>,
) {
    for state in states(table) {
        let (jobs, success) = joint_run(table, state, &tick);
        match first_met(list, state) {
            Some(first) => {
                let way = way_from(list, first).into_iter().map(|job| (owner(licences[usize::from(job)]), job));
                assert!(success, "the run from {state:x} does not reach the goal");
                assert_eq!(Some(jobs.len()), distance[state as usize], "jobs of the run from {state:x}");
                assert_eq!(jobs.len(), usize::from(list[first].depth));
                assert_eq!(jobs, way.collect::<Vec<_>>(), "the way from {state:x}");
            }
            None => {
                let told = FITTERS.map(|fitter| tick(fitter, state).map(|ticked| ticked.status));
                assert_eq!(told, [Ok(Status::Failure); 2], "both are told of {state:x}");
            }
        }
    }
}

/// What a fitter is told where the team's tree gives this answer: of another's job that he waits.
pub fn told_to(fitter: Fitter, licences: &[u8], of_the_team: Status) -> Status {
    match of_the_team {
        Status::Running(job) if owner(licences[usize::from(job)]) != fitter => Status::Waiting,
        other => other,
    }
}

/// Document 02, W2: "A state then meets some condition of the tree exactly when a sequence of jobs leads from it to the goal."
pub fn check_cover(table: &Table, list: &[Entry], distance: &[Option<usize>]) {
    for state in states(table) {
        assert_eq!(first_met(list, state).is_some(), distance[state as usize].is_some(), "cover of {state:x}");
    }
}

/// Document 02, W13: "for each state the fewest jobs to the goal, or 65,535 for none".
pub fn check_distances(distance: &[Option<usize>], row: &[u16]) {
    assert_eq!(row.len(), distance.len(), "the row's length");
    for (state, (jobs, fewest)) in row.iter().zip(distance).enumerate() {
        let told = (*jobs != NO_DISTANCE).then_some(usize::from(*jobs));
        assert_eq!(told, *fewest, "the fewest jobs from {state:x}");
    }
}

/// Document 02, W13, on the list of a plan for the whole shift: "the two must agree: equal to the depth of the first entry met, and 65,535 exactly where none
/// is met".
pub fn check_depths(table: &Table, list: &[Entry], row: &[u16]) {
    assert_eq!(row.len(), 1 << table.facts, "the row's length");
    for state in states(table) {
        let jobs = row[state as usize];
        match first_met(list, state) {
            Some(first) => {
                assert_ne!(jobs, NO_DISTANCE, "{state:x} meets entry {first}");
                assert_eq!(jobs, list[first].depth, "the depth of entry {first}, the first that {state:x} meets");
            }
            None => assert_eq!(jobs, NO_DISTANCE, "{state:x} meets no entry"),
        }
    }
}

/// Document 02, W2: "each entry must be the first one met in at least one state"; of tables without 0x21 (W10).
pub fn check_no_dead_lines(table: &Table, list: &[Entry]) {
    let mut first_in_some = vec![false; list.len()];
    for state in states(table) {
        if let Some(first) = first_met(list, state) {
            first_in_some[first] = true;
        }
    }
    assert!(first_in_some.iter().all(|met| *met), "a dead line in {list:x?}");
}

/// A settled answer is the same, at the same leaf, however the unread facts turn out. Gives the answer, and whether two ways differ.
pub fn settled_in_every_filling(held: u64, unread: u64, tick: impl Fn(u64, u64) -> Ticked) -> (Ticked, bool) {
    let ticked = tick(held, unread);
    let answers: Vec<Ticked> = make::fillings(held, unread).into_iter().map(|state| tick(state, 0)).collect();
    for answer in &answers {
        assert!(!matches!(answer.status, Status::Unsettled(_)), "nothing is unread");
        if !matches!(ticked.status, Status::Unsettled(_)) {
            assert_eq!(*answer, ticked, "held {held:x} unread {unread:x}: a settled answer changes");
        }
    }
    (ticked, answers.iter().any(|answer| *answer != answers[0]))
}

/// On a built tree Unsettled comes only where two ways of filling in differ.
pub fn check_unsettled(held: u64, unread: u64, tick: impl Fn(u64, u64) -> Ticked) {
    let (ticked, differ) = settled_in_every_filling(held, unread, tick);
    if let Status::Unsettled(mask) = ticked.status {
        assert!(differ, "held {held:x} unread {unread:x}: Unsettled, but every way of filling in agrees");
        assert!(mask != 0 && is_part(mask, unread));
    }
}
