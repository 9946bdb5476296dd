"""Plans the work on a trailer, follows vehicles with the one tree, looks over a yard of them in one call, recovers the list from the tree alone, has
two fitters work on one of them, and tells an instructor how far states are from the goal; then all but the recovery with one fact less, "trailer off"
as the absence of "trailer on".

    python3 examples/python/plan.py target/libbay.so

bay.py says how the shared object is made.
"""

import sys
from typing import List, NamedTuple

from bay import Bay, Job, JobCommand, Licence, Reading, Refused, Status

JOB_NAMES = ["couple", "uncouple", "measure unloaded", "measure loaded", "seal"]
# Who may do each: the first fitter measures, the second couples and uncouples, and both may seal.
LICENCES = [Licence.SECOND_FITTER, Licence.SECOND_FITTER, Licence.FIRST_FITTER, Licence.FIRST_FITTER, Licence.BOTH_FITTERS]


class Workshop(NamedTuple):
    facts: List[str]
    jobs: List[Job]
    goal: int

    def named(self, mask):
        return ", ".join(name for i, name in enumerate(self.facts) if mask >> i & 1) or "nothing"


TRAILER = Workshop(
    facts=["trailer off", "trailer on", "unloaded known", "loaded known", "sealed"],
    jobs=[
        Job(needs=0x01, adds=0x02, deletes=0x01, seconds=300),
        Job(needs=0x02, adds=0x01, deletes=0x02, seconds=240),
        Job(needs=0x01, adds=0x04, deletes=0x00, seconds=600),
        Job(needs=0x02, adds=0x08, deletes=0x00, seconds=600),
        Job(needs=0x0C, adds=0x10, deletes=0x00, seconds=150),
    ],
    goal=0x10,
)
ONE_FACT_LESS = Workshop(
    facts=TRAILER.facts[1:],
    jobs=[
        Job(needs=0x00, adds=0x01, deletes=0x00, seconds=300, absent=0x01, command=JobCommand.PAIRED_JOB),
        Job(needs=0x01, adds=0x00, deletes=0x01, seconds=240),
        Job(needs=0x00, adds=0x02, deletes=0x00, seconds=600, absent=0x01, command=JobCommand.PAIRED_JOB),
        Job(needs=0x01, adds=0x04, deletes=0x00, seconds=600),
        Job(needs=0x06, adds=0x08, deletes=0x00, seconds=150),
    ],
    goal=0x08,
)


def planned(bay, workshop, held):
    """The table of a workshop and its plan for a start."""
    table = bay.write_table(len(workshop.facts), workshop.jobs, workshop.goal)
    header = bay.read_table(table)
    print(f"table: {len(table)} bytes, {header.facts} facts, {header.jobs} jobs, goal {workshop.named(header.goal)}")

    plan = bay.plan(table, Reading(held))
    print(f"plan: {len(plan.entries)} entries, {len(plan.tree)} tree bytes, {plan.way_jobs} jobs, {plan.way_minutes} minutes")
    for number, entry in enumerate(plan.entries):
        condition = workshop.named(entry.condition)
        if entry.absent:
            condition += f" and not {workshop.named(entry.absent)}"
        job = "-" if entry.job is None else JOB_NAMES[entry.job]
        print(f"  {number} {condition}: {job}, parent {entry.parent}, depth {entry.depth}")
    return table, plan


def follow(bay, workshop, table, tree, reading, truly):
    """Ticks and reports to the goal. `truly` is what is so on the vehicle: a fact that is asked for is read off it."""
    card = bay.open(table, reading)
    print(f"vehicle: held {workshop.named(reading.held)}; unread {workshop.named(reading.unread)}")
    while True:
        tick = bay.tick_card(table, tree, card)
        if tick.status == Status.RUNNING:
            job = bay.read_job(table, tick.job)
            card = bay.report(table, card, tick.job, job.seconds + 45)
            truly = (truly | job.adds) & ~job.deletes
            print(f"  job {tick.job}, {JOB_NAMES[tick.job]}; held {workshop.named(card.held)}")
        elif tick.status == Status.UNSETTLED:
            print(f"  to be read first: {workshop.named(tick.to_read)}")
            card = bay.read_outside(table, card, Reading(card.held | truly & tick.to_read, card.unread & ~tick.to_read))
        else:
            print("  sealed" if tick.status == Status.SUCCESS else "  not covered by this tree")
            break
    print(f"  {card.reports} reports, {card.taken} seconds, late by {bay.lateness(card)} minutes")


def look_over(bay, workshop, table, plan, yard):
    """What is next for each vehicle of a yard, from the plan's list in one call."""
    batch = bay.tick_all(table, plan.entries, yard)
    print(f"yard: {batch.entries_read} of {len(plan.entries)} entries read")
    for reading, tick in zip(yard, batch.ticks):
        if tick.status == Status.RUNNING:
            told = f"next {JOB_NAMES[tick.job]}"
        elif tick.status == Status.UNSETTLED:
            told = f"to be read first: {workshop.named(tick.to_read)}"
        else:
            told = "sealed" if tick.status == Status.SUCCESS else "not covered by this list"
        print(f"  held {workshop.named(reading.held)}; unread {workshop.named(reading.unread)}: {told}")


def recover(bay, table, plan):
    """The list again, where only the tree of a plan was kept."""
    entries = bay.recover_list(table, plan.tree)
    print(f"recovered: {len(entries)} entries, {'as planned' if entries == plan.entries else 'others than planned'}")


def told(tick):
    """What a fitter is told in a state that his team's list covers."""
    if tick.status == Status.RUNNING:
        return f"does {JOB_NAMES[tick.job]}"
    return "waits" if tick.status == Status.WAITING else "is done"


def work_as_team(bay, workshop, table, held):
    """Two fitters at one vehicle: both tick their trees on the same state, one does the job that his tree names, and the other waits."""
    plan = bay.plan_team(table, LICENCES, Reading(held))
    print(f"team: {len(plan.entries)} entries, {len(plan.first)} and {len(plan.second)} tree bytes")
    while True:
        ticks = [bay.tick(table, tree, Reading(held)) for tree in (plan.first, plan.second)]
        first, second = (told(tick) for tick in ticks)
        print(f"  held {workshop.named(held)}: first {first}, second {second}")
        named = [tick.job for tick in ticks if tick.status == Status.RUNNING]
        if not named:
            break
        job = bay.read_job(table, named[0])
        held = (held | job.adds) & ~job.deletes


def tell_distances(bay, workshop, table, states):
    """How many jobs are left at the fewest, for instructors: measured for all states at once, and printed for some."""
    distances = bay.distances(table)
    print(f"distances: {len(distances)} states, {distances.count(None)} without a way")
    for held in states:
        left = "no way" if distances[held] is None else f"{distances[held]} jobs"
        print(f"  held {workshop.named(held)}: {left}")


def main():
    bay = Bay(sys.argv[1] if len(sys.argv) > 1 else "target/libbay.so")
    table, plan = planned(bay, TRAILER, 0x02)
    follow(bay, TRAILER, table, plan.tree, Reading(0x02, 0x00), 0x02)
    follow(bay, TRAILER, table, plan.tree, Reading(0x02, 0x08), 0x0A)
    follow(bay, TRAILER, table, plan.tree, Reading(0x08, 0x00), 0x08)
    look_over(bay, TRAILER, table, plan, [Reading(0x10), Reading(0x0C), Reading(0x02, 0x08), Reading(0x0A)])
    recover(bay, table, plan)
    work_as_team(bay, TRAILER, table, 0x02)
    tell_distances(bay, TRAILER, table, [0x02, 0x0A, 0x09, 0x08, 0x10])

    for name, call in [
        ("a table that is cut", lambda: bay.read_table(table[:100])),
        ("a start with an unread fact", lambda: bay.plan(table, Reading(0x02, 0x08))),
        ("a start from which there is no way", lambda: bay.plan(table, Reading(0x08))),
        ("a tree that is cut", lambda: bay.tick(table, plan.tree[:50], Reading(0x02))),
        ("a yard whose second reading is bad", lambda: bay.tick_all(table, plan.entries, [Reading(0x02), Reading(0x20)])),
        ("a team whose fourth licence is none", lambda: bay.plan_team(table, [2, 2, 1, 4, 3], Reading(0x02))),
        ("the list of a fitter's tree", lambda: bay.recover_list(table, bay.plan_team(table, LICENCES, Reading(0x02)).first)),
        ("the distances of a table of 16 facts", lambda: bay.distances(bay.write_table(16, TRAILER.jobs, TRAILER.goal))),
    ]:
        try:
            call()
        except Refused as refused:
            print(f"{name}: refused {int(refused.refusal)} {refused.place}")

    # Whether the trailer is on is not read at first: the tree asks for it where it matters.
    table, plan = planned(bay, ONE_FACT_LESS, 0x01)
    follow(bay, ONE_FACT_LESS, table, plan.tree, Reading(0x04, 0x01), 0x04)
    look_over(bay, ONE_FACT_LESS, table, plan, [Reading(0x04), Reading(0x04, 0x01), Reading(0x05), Reading(0x00)])
    work_as_team(bay, ONE_FACT_LESS, table, 0x01)
    tell_distances(bay, ONE_FACT_LESS, table, [0x01, 0x05, 0x04, 0x00, 0x08])


if __name__ == "__main__":
    main()
