"""The bay planner from Python: every function of include/bay.h, with Python values in and out.

    import bay
    library = bay.Bay("target/libbay.so")
    plan = library.plan(table, bay.Reading(held=0x02))

The shared object is made from the static library:

    tools/library.sh
    gcc -shared -o target/libbay.so -Wl,--whole-archive target/staticlib/libbay.a -Wl,--no-whole-archive

A call that the library refuses raises Refused with the number and the place. A number that the library's parameter has no room for
raises ValueError before the call, so that none is cut; a value of another kind raises TypeError.
"""

import ctypes
import enum
import operator
from ctypes import POINTER, byref, c_int64, c_size_t, c_uint8, c_uint16, c_uint32, c_uint64, c_void_p
from typing import List, NamedTuple, Optional, Tuple

MAX_FACTS = 64
MAX_JOBS = 128
MAX_SECONDS = 5400
MAX_TABLE_BYTES = 4492
MAX_ENTRIES = 4096
MAX_PAIR_ENTRIES = 2978
MAX_TREE_BYTES = 65535
NO_JOB = 255
MAX_MEASURED_FACTS = 15
MAX_STATES = 32768
NO_DISTANCE = 65535
DROPPED = 255


class Refusal(enum.IntEnum):
    """Why a call is refused; include/bay.h says each at length."""

    OK = 0
    TABLE_CUT = 1
    COMMAND_NOT_ALLOWED = 2
    FACT_COUNT_OUT_OF_RANGE = 3
    TOO_MANY_JOBS = 4
    TABLE_MASK_OUT_OF_RANGE = 5
    EFFECTS_OVERLAP = 6
    BYTES_AFTER_TABLE = 7
    BAD_READING = 8
    START_UNREAD = 9
    LIST_FULL = 10
    NO_WAY = 11
    TREE_TOO_SHORT = 12
    BAD_TREE = 13
    TREE_TOO_DEEP = 14
    TREE_OPERAND_OUT_OF_RANGE = 15
    NO_SUCH_JOB = 16
    NEED_NOT_HELD = 17
    CARD_EXHAUSTED = 18
    JOB_TOO_LONG = 19
    OTHER_ORIGIN = 20
    NEEDS_CONTRADICT = 22
    BAD_LICENCES = 24
    TOO_MANY_FACTS = 25
    BAD_ROW_LENGTH = 26
    BAD_MAP = 27
    TOO_SHORT = 100
    UNEVEN = 101
    SECONDS_OUT_OF_RANGE = 102
    UNWRITABLE = 103


class JobCommand(enum.IntEnum):
    """The commands that a job stands in a table by. A table with a PAIRED_JOB is called paired."""

    JOB = 0x20
    PAIRED_JOB = 0x21


class Licence(enum.IntEnum):
    """Whose a job is where two fitters work on one vehicle. A job with BOTH_FITTERS is given to the first."""

    FIRST_FITTER = 1
    SECOND_FITTER = 2
    BOTH_FITTERS = 3


class Status(enum.IntEnum):
    SUCCESS = 0
    FAILURE = 1
    RUNNING = 2
    UNSETTLED = 3
    WAITING = 4  # running, and no job is named: in a plan's tree the other fitter has one to do


class Refused(Exception):
    def __init__(self, refusal: Refusal, place: int):
        super().__init__(f"refused {int(refusal)} {place}: {refusal.name.lower().replace('_', ' ')}")
        self.refusal = refusal
        self.place = place


class Reading(NamedTuple):
    """The facts held, and those that were not read. A fact in neither is read and absent."""

    held: int = 0
    unread: int = 0


class Header(NamedTuple):
    facts: int
    jobs: int
    goal: int
    paired: bool


class Job(NamedTuple):
    """A job; one that needs facts absent has the command PAIRED_JOB."""

    needs: int
    adds: int
    deletes: int
    seconds: int
    absent: int = 0
    command: int = JobCommand.JOB


class Entry(NamedTuple):
    condition: int
    job: Optional[int]  # None at entry 0
    parent: int
    depth: int
    absent: int = 0  # the facts to be absent, of a paired table


class Plan(NamedTuple):
    entries: Tuple[Entry, ...]
    tree: bytes
    way_jobs: int
    way_minutes: int
    paired: bool


class ShiftPlan(NamedTuple):
    entries: Tuple[Entry, ...]
    tree: bytes
    paired: bool


class TeamPlan(NamedTuple):
    entries: Tuple[Entry, ...]
    first: bytes  # the first fitter's tree
    second: bytes
    paired: bool


class Tick(NamedTuple):
    status: Status
    job: Optional[int] = None  # of RUNNING: to do next
    to_read: int = 0  # of UNSETTLED: the facts to read first


class BatchTick(NamedTuple):
    ticks: Tuple[Tick, ...]  # one for each vehicle
    entries_read: int


class Card(NamedTuple):
    """A job card. The calls over it give the card after them; a refused one leaves the old card as it was."""

    held: int
    unread: int
    reports: int = 0
    taken: int = 0
    planned: int = 0


def _number(name, value, bits):
    """A number that so many bits hold, or an error: ctypes would cut it."""
    try:
        number = operator.index(value)
    except TypeError:
        raise TypeError(f"{name} is to be a whole number, and not {value!r}") from None
    if not 0 <= number < 1 << bits:
        raise ValueError(f"{name} is {number}, outside 0 to {(1 << bits) - 1}")
    return number


def _row(kind, values):
    # One element more, so that an empty row has a pointer that is not null.
    return (kind * (len(values) + 1))(*values), len(values)


def _bytes(name, value):
    if not isinstance(value, (bytes, bytearray, memoryview)):
        raise TypeError(f"{name} is to be bytes, and not {value!r}")
    return _row(c_uint8, bytes(value))


def _masks(name, reading):
    held, unread = reading
    return _number(f"{name}.held", held, 64), _number(f"{name}.unread", unread, 64)


_SLICE = [c_void_p, c_size_t]
_MASKS = [c_uint64, c_uint64]
_CARD = [POINTER(c_uint64), POINTER(c_uint64), POINTER(c_uint16), POINTER(c_uint32), POINTER(c_uint32)]
_ANSWER = [POINTER(c_uint64)]

# The parameters of every function that has an answer, as include/bay.h declares them.
_PARAMETERS = {
    "bay_read_table": _SLICE + _ANSWER,
    "bay_read_job": _SLICE + [c_size_t] + _ANSWER,
    "bay_write_table": [c_size_t] + _SLICE * 6 + [c_uint64] + _SLICE + _ANSWER,
    "bay_plan": _SLICE + _MASKS + _SLICE * 6 + _ANSWER,
    "bay_plan_shift": _SLICE + _SLICE * 6 + _ANSWER,
    "bay_plan_team": _SLICE * 2 + _MASKS + _SLICE * 7 + _ANSWER,
    "bay_newest_weaker": _SLICE * 2 + _MASKS + _ANSWER,
    "bay_recover_list": _SLICE * 6 + _ANSWER,
    "bay_measure_distances": _SLICE * 2 + _ANSWER,
    "bay_tick": _SLICE * 2 + _MASKS + _ANSWER,
    "bay_tick_all": _SLICE * 8 + _ANSWER,
    "bay_open": _SLICE + _MASKS + _CARD + _ANSWER,
    "bay_read_outside": _SLICE + _MASKS + _CARD[:2] + _ANSWER,
    "bay_report": _SLICE + [c_size_t, c_size_t] + _CARD + _ANSWER,
    "bay_migrate": _SLICE * 3 + _CARD[:2] + _ANSWER,
}


class _CardParts:
    """A card in its lent parts."""

    BITS = [("held", 64), ("unread", 64), ("reports", 16), ("taken", 32), ("planned", 32)]
    KINDS = [c_uint64, c_uint64, c_uint16, c_uint32, c_uint32]

    def __init__(self, card):
        numbers = [_number(f"card.{name}", value, bits) for (name, bits), value in zip(self.BITS, card)]
        self.parts = [kind(number) for kind, number in zip(self.KINDS, numbers)]

    def lent(self):
        return [byref(part) for part in self.parts]

    def card(self):
        return Card(*(part.value for part in self.parts))


class Bay:
    """The library."""

    def __init__(self, path):
        self._library = ctypes.CDLL(path)
        for name, parameters in _PARAMETERS.items():
            function = getattr(self._library, name)
            function.argtypes = parameters
            function.restype = c_uint64
        self._library.bay_lateness.argtypes = [POINTER(c_uint32), POINTER(c_uint32)]
        self._library.bay_lateness.restype = c_int64

    def _call(self, name, words, *arguments):
        answer = (c_uint64 * words)()
        if getattr(self._library, name)(*arguments, answer) != 0:
            raise Refused(Refusal(answer[0]), answer[1])
        return list(answer[1:])

    # ---- the table

    def read_table(self, table) -> Header:
        facts, jobs, goal, paired = self._call("bay_read_table", 5, *_bytes("table", table))
        return Header(facts, jobs, goal, bool(paired))

    def read_job(self, table, job) -> Job:
        *members, command = self._call("bay_read_job", 7, *_bytes("table", table), _number("job", job, 64))
        return Job(*members, JobCommand(command))

    # The columns of a table in the order in which they are lent.
    COLUMNS = [
        ("command", c_uint8, 8),
        ("needs", c_uint64, 64),
        ("absent", c_uint64, 64),
        ("adds", c_uint64, 64),
        ("deletes", c_uint64, 64),
        ("seconds", c_uint16, 16),
    ]

    def write_table(self, facts, jobs, goal) -> bytes:
        """The bytes of a table; each job is a Job, or its members in that order. UNWRITABLE where a job's command is none of JobCommand, or is
        JOB and the job needs a fact absent."""
        jobs = [Job(*job) for job in jobs]
        columns = []
        for name, kind, bits in self.COLUMNS:
            columns += _row(kind, [_number(f"job {i}'s {name}", getattr(job, name), bits) for i, job in enumerate(jobs)])
        # Room for jobs of the wider command.
        out, room = _row(c_uint8, bytes(12 + 35 * len(jobs)))
        facts, goal = _number("facts", facts, 64), _number("goal", goal, 64)
        (length,) = self._call("bay_write_table", 2, facts, *columns, goal, out, room)
        return bytes(out[:length])

    # ---- the plan

    # The list tables in the order in which they are lent, each with the member of an entry that it holds.
    LISTS = [("condition", c_uint64), ("absent", c_uint64), ("job", c_uint8), ("parent", c_uint16), ("depth", c_uint16)]

    def _lists(self, most_entries, second_masks):
        """List tables with room for so many entries, with second masks or without, by the member of an entry that each holds."""
        most_entries = _number("most_entries", most_entries, 32)
        return {name: _row(kind, [0] * most_entries) for name, kind in self.LISTS if second_masks or name != "absent"}

    @staticmethod
    def _entries(lists, count):
        """So many entries of lent list tables."""
        rows = zip(*(row[:count] for row, _ in lists.values()))
        entries = [Entry(**dict(zip(lists, members))) for members in rows]
        return tuple(entry if i else entry._replace(job=None) for i, entry in enumerate(entries))

    def _planned(self, name, words, arguments, most_entries, trees):
        """The entries, what the library answers between their number and the last word, and whether the table is paired."""
        lists = self._lists(most_entries, second_masks=True)
        lent = [part for row in [*lists.values(), *trees] for part in row]
        entries, *more, paired = self._call(name, words, *arguments, *lent)
        # A table that is not paired leaves the second masks as they are lent: 0.
        return self._entries(lists, entries), more, bool(paired)

    @staticmethod
    def _room(name, most_bytes):
        """Room for a tree."""
        return _row(c_uint8, bytes(_number(name, most_bytes, 32)))

    def plan(self, table, start, most_entries=MAX_ENTRIES, most_tree_bytes=MAX_TREE_BYTES) -> Plan:
        arguments = (*_bytes("table", table), *_masks("start", start))
        tree = self._room("most_tree_bytes", most_tree_bytes)
        entries, (length, *way), paired = self._planned("bay_plan", 6, arguments, most_entries, [tree])
        return Plan(entries, bytes(tree[0][:length]), *way, paired)

    def plan_shift(self, table, most_entries=MAX_ENTRIES, most_tree_bytes=MAX_TREE_BYTES) -> ShiftPlan:
        tree = self._room("most_tree_bytes", most_tree_bytes)
        entries, (length,), paired = self._planned("bay_plan_shift", 4, _bytes("table", table), most_entries, [tree])
        return ShiftPlan(entries, bytes(tree[0][:length]), paired)

    def plan_team(
        self, table, licences, start, most_entries=MAX_ENTRIES, most_first_bytes=MAX_TREE_BYTES, most_second_bytes=MAX_TREE_BYTES
    ) -> TeamPlan:
        """A plan for two fitters, with a licence for each job, of Licence. Each fitter has a tree of his own: where one names a job, the other
        waits."""
        licences = _row(c_uint8, [_number(f"licence {i}", licence, 8) for i, licence in enumerate(licences)])
        arguments = (*_bytes("table", table), *licences, *_masks("start", start))
        trees = [self._room("most_first_bytes", most_first_bytes), self._room("most_second_bytes", most_second_bytes)]
        entries, lengths, paired = self._planned("bay_plan_team", 5, arguments, most_entries, trees)
        return TeamPlan(entries, *(bytes(tree[:length]) for (tree, _), length in zip(trees, lengths)), paired)

    def recover_list(self, table, tree, most_entries=MAX_ENTRIES) -> Tuple[Entry, ...]:
        """The entries of a plan, from its tree alone. OTHER_ORIGIN where the plan for no start writes a sound tree, or the table is paired;
        LIST_FULL where there are more than most_entries."""
        lists = self._lists(most_entries, second_masks=False)
        lent = [part for row in lists.values() for part in row]
        (entries,) = self._call("bay_recover_list", 2, *_bytes("table", table), *_bytes("tree", tree), *lent)
        return self._entries(lists, entries)

    def newest_weaker(self, listed, condition, absences=(), absent=0):
        """The newest entry of listed conditions that is a part of a condition, or None. Entry i wants the facts of listed[i] held and those of
        absences[i] absent, if there are so many, and else none."""
        rows = [_row(c_uint64, [_number(f"entry {i}", mask, 64) for i, mask in enumerate(masks)]) for masks in (listed, absences)]
        masks = (_number("condition", condition, 64), _number("absent", absent, 64))
        found, entry = self._call("bay_newest_weaker", 3, *rows[0], *rows[1], *masks)
        return entry if found else None

    # ---- the distances of all states

    def distances(self, table) -> List[Optional[int]]:
        """The fewest jobs to the goal from each state, by the mask of the facts that it holds, or None where no jobs lead there. TOO_MANY_FACTS
        where the table has more than MAX_MEASURED_FACTS. A long chain of jobs can take many seconds; include/bay.h says more."""
        lent = _bytes("table", table)
        facts, *_ = self._call("bay_read_table", 5, *lent)
        # With too many facts the row is empty: the library refuses them before it looks at the row.
        row, states = _row(c_uint16, [0] * (1 << facts if facts <= MAX_MEASURED_FACTS else 0))
        self._call("bay_measure_distances", 2, *lent, row, states)
        return [None if distance == NO_DISTANCE else distance for distance in row[:states]]

    # ---- the tick

    @staticmethod
    def _tick(word, value):
        status = Status(word)
        if status == Status.RUNNING:
            return Tick(status, job=value)
        return Tick(status, to_read=value)

    def tick(self, table, tree, reading) -> Tick:
        arguments = (*_bytes("table", table), *_bytes("tree", tree), *_masks("reading", reading))
        return self._tick(*self._call("bay_tick", 3, *arguments))

    def tick_all(self, table, entries, readings) -> BatchTick:
        """What a tick gives each reading on the tree of a list, which is the entries of a plan, or others. The job of entry 0 is of no account."""
        entries = [Entry(*entry) for entry in entries]
        jobs = [entry.job for entry in entries]
        if jobs and jobs[0] is None:
            jobs[0] = NO_JOB
        masks = [_masks(f"reading {i}", reading) for i, reading in enumerate(readings)]
        vehicles = len(masks)
        statuses, values = _row(c_uint8, [0] * vehicles), _row(c_uint64, [0] * vehicles)
        rows = [
            _row(c_uint64, [_number(f"entry {i}'s condition", entry.condition, 64) for i, entry in enumerate(entries)]),
            _row(c_uint64, [_number(f"entry {i}'s absent", entry.absent, 64) for i, entry in enumerate(entries)]),
            _row(c_uint8, [_number(f"entry {i}'s job", job, 8) for i, job in enumerate(jobs)]),
            _row(c_uint64, [held for held, _ in masks]),
            _row(c_uint64, [unread for _, unread in masks]),
            statuses,
            values,
        ]
        lent = [part for row in rows for part in row]
        (entries_read,) = self._call("bay_tick_all", 2, *_bytes("table", table), *lent)
        answers = zip(statuses[0][:vehicles], values[0][:vehicles])
        return BatchTick(tuple(self._tick(*answer) for answer in answers), entries_read)

    # ---- the job card

    def open(self, table, reading) -> Card:
        parts = _CardParts(Card(0, 0))
        self._call("bay_open", 2, *_bytes("table", table), *_masks("reading", reading), *parts.lent())
        return parts.card()

    def read_outside(self, table, card, reading) -> Card:
        parts = _CardParts(card)
        self._call("bay_read_outside", 2, *_bytes("table", table), *_masks("reading", reading), *parts.lent()[:2])
        return parts.card()

    def report(self, table, card, job, seconds) -> Card:
        parts = _CardParts(card)
        job, seconds = _number("job", job, 64), _number("seconds", seconds, 64)
        self._call("bay_report", 2, *_bytes("table", table), job, seconds, *parts.lent())
        return parts.card()

    def lateness(self, card) -> int:
        """Taken minus planned, in whole minutes, of every card."""
        taken, planned = _number("card.taken", card.taken, 32), _number("card.planned", card.planned, 32)
        return self._library.bay_lateness(byref(c_uint32(taken)), byref(c_uint32(planned)))

    def tick_card(self, table, tree, card) -> Tick:
        return self.tick(table, tree, Reading(card.held, card.unread))

    def migrate(self, old_table, new_table, card, fact_map) -> Card:
        """The card under a new table. The map has for each fact of the old table its number in the new one, or DROPPED; a fact of the new table that
        none is sent to becomes unread, and reports and seconds remain. BAD_MAP where the map has another length, a number that the new table has
        not, or one number twice."""
        parts = _CardParts(card)
        tables = (*_bytes("old_table", old_table), *_bytes("new_table", new_table))
        numbers = _row(c_uint8, [_number(f"the new number of fact {i}", number, 8) for i, number in enumerate(fact_map)])
        self._call("bay_migrate", 2, *tables, *numbers, *parts.lent()[:2])
        return parts.card()
