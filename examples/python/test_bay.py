"""Tests of bay.py: its ranges are checked before a call, its numbers and parameters are those of include/bay.h, its results are right.

    python3 examples/python/test_bay.py target/libbay.so

The last line is 'N passed, M failed'.
"""

import os
import re
import sys
import unittest
from ctypes import POINTER, c_size_t, c_uint16, c_uint32, c_uint64, c_void_p

import bay as module
from bay import (
    BatchTick,
    Bay,
    Card,
    Entry,
    Header,
    Job,
    JobCommand,
    Licence,
    Plan,
    Reading,
    Refusal,
    Refused,
    ShiftPlan,
    Status,
    TeamPlan,
    Tick,
)

JOBS = [
    Job(0x01, 0x02, 0x01, 300),
    Job(0x02, 0x01, 0x02, 240),
    Job(0x01, 0x04, 0x00, 600),
    Job(0x02, 0x08, 0x00, 600),
    Job(0x0C, 0x10, 0x00, 150),
]
# The same with one fact less: "trailer off" is the absence of fact 0, "trailer on".
PAIR_JOBS = [
    Job(0x00, 0x01, 0x00, 300, absent=0x01, command=JobCommand.PAIRED_JOB),
    Job(0x01, 0x00, 0x01, 240),
    Job(0x00, 0x02, 0x00, 600, absent=0x01, command=JobCommand.PAIRED_JOB),
    Job(0x01, 0x04, 0x00, 600),
    Job(0x06, 0x08, 0x00, 150),
]
# The first fitter measures, the second couples and uncouples, and both may seal.
LICENCES = [Licence.SECOND_FITTER] * 2 + [Licence.FIRST_FITTER] * 2 + [Licence.BOTH_FITTERS]
LIBRARY = "target/libbay.so"


class NoLibrary:
    """In the library's place where no call may come through."""

    def __getattr__(self, name):
        raise AssertionError(f"{name} was called")


def unlinked():
    bay = Bay.__new__(Bay)
    bay._library = NoLibrary()
    return bay


class Ranges(unittest.TestCase):
    """What the library's parameters do not hold is an error, and the library is not called."""

    TABLE = b"table"
    CARD = Card(1, 2, 3, 4, 5)

    def calls(self, bits):
        """Every parameter of so many bits, as a call with a value for it."""
        bay, table, card = unlinked(), self.TABLE, self.CARD
        job, entry = Job(0, 0, 0, 0), Entry(0, 0, 0, 0)
        if bits == 64:
            yield lambda x: bay.read_job(table, x)
            yield lambda x: bay.write_table(x, [], 0)
            yield lambda x: bay.write_table(1, [], x)
            yield lambda x: bay.newest_weaker([0, x], 0)
            yield lambda x: bay.newest_weaker([0], x)
            yield lambda x: bay.newest_weaker([0], 0, [0, x])
            yield lambda x: bay.newest_weaker([0], 0, [0], x)
            for name in ("needs", "absent", "adds", "deletes"):
                yield lambda x, name=name: bay.write_table(1, [job, job._replace(**{name: x})], 0)
            for reading in (lambda x: Reading(x, 0), lambda x: Reading(0, x)):
                yield lambda x, reading=reading: bay.plan(table, reading(x))
                yield lambda x, reading=reading: bay.plan_team(table, [], reading(x))
                yield lambda x, reading=reading: bay.tick(table, b"", reading(x))
                yield lambda x, reading=reading: bay.tick_all(table, [entry], [Reading(), reading(x)])
                yield lambda x, reading=reading: bay.open(table, reading(x))
                yield lambda x, reading=reading: bay.read_outside(table, card, reading(x))
            for name in ("condition", "absent"):
                yield lambda x, name=name: bay.tick_all(table, [entry, entry._replace(**{name: x})], [])
            yield lambda x: bay.report(table, card, x, 0)
            yield lambda x: bay.report(table, card, 0, x)
            for name in ("held", "unread"):
                yield lambda x, name=name: bay.read_outside(table, card._replace(**{name: x}), Reading())
                yield lambda x, name=name: bay.report(table, card._replace(**{name: x}), 0, 0)
                yield lambda x, name=name: bay.tick_card(table, b"", card._replace(**{name: x}))
                yield lambda x, name=name: bay.migrate(table, table, card._replace(**{name: x}), [])
        if bits == 32:
            yield lambda x: bay.plan(table, Reading(), most_entries=x)
            yield lambda x: bay.plan_shift(table, most_tree_bytes=x)
            yield lambda x: bay.recover_list(table, b"", most_entries=x)
            for name in ("most_entries", "most_first_bytes", "most_second_bytes"):
                yield lambda x, name=name: bay.plan_team(table, [], Reading(), **{name: x})
            for name in ("taken", "planned"):
                yield lambda x, name=name: bay.report(table, card._replace(**{name: x}), 0, 0)
                yield lambda x, name=name: bay.lateness(card._replace(**{name: x}))
                yield lambda x, name=name: bay.migrate(table, table, card._replace(**{name: x}), [])
        if bits == 8:
            yield lambda x: bay.write_table(1, [job, job._replace(command=x)], 0)
            yield lambda x: bay.tick_all(table, [entry, entry._replace(job=x)], [])
            yield lambda x: bay.plan_team(table, [1, x], Reading())
            yield lambda x: bay.migrate(table, table, card, [0, x])
        if bits == 16:
            yield lambda x: bay.write_table(1, [job, job._replace(seconds=x)], 0)
            yield lambda x: bay.report(table, card._replace(reports=x), 0, 0)
            yield lambda x: bay.migrate(table, table, card._replace(reports=x), [])

    def test_outside(self):
        for bits in (8, 16, 32, 64):
            for call in self.calls(bits):
                for value in (-1, -(1 << 63), 1 << bits, (1 << bits) + 3, 1 << 200):
                    with self.assertRaises(ValueError):
                        call(value)

    def test_no_numbers(self):
        for bits in (8, 16, 32, 64):
            for call in self.calls(bits):
                for value in (2.0, "3", None, b"4", [5]):
                    with self.assertRaises(TypeError):
                        call(value)

    def test_no_bytes(self):
        bay = unlinked()
        for value in (3, "table", None, [16, 5]):
            for call in (
                lambda x: bay.read_table(x),
                lambda x: bay.read_job(x, 0),
                lambda x: bay.plan(x, Reading()),
                lambda x: bay.plan_shift(x),
                lambda x: bay.plan_team(x, [], Reading()),
                lambda x: bay.recover_list(x, b""),
                lambda x: bay.recover_list(b"", x),
                lambda x: bay.distances(x),
                lambda x: bay.tick(x, b"", Reading()),
                lambda x: bay.tick(b"", x, Reading()),
                lambda x: bay.tick_all(x, [], []),
                lambda x: bay.open(x, Reading()),
                lambda x: bay.read_outside(x, self.CARD, Reading()),
                lambda x: bay.report(x, self.CARD, 0, 0),
                lambda x: bay.migrate(x, b"", self.CARD, []),
                lambda x: bay.migrate(b"", x, self.CARD, []),
            ):
                with self.assertRaises(TypeError):
                    call(value)


class Interface(unittest.TestCase):
    """Names, numbers and parameters are those of include/bay.h."""

    @classmethod
    def setUpClass(cls):
        path = os.path.join(os.path.dirname(os.path.abspath(__file__)), "../../include/bay.h")
        with open(path, encoding="utf8") as file:
            cls.header = re.sub(r"/\*.*?\*/", "", file.read(), flags=re.S)

    def names(self, enumeration):
        body = re.search(r"enum %s \{(.*?)\};" % enumeration, self.header, re.S).group(1)
        return {name: int(number, 0) for name, number in re.findall(r"BAY_(\w+) = (\w+)", body)}

    def test_refusals(self):
        self.assertEqual({refusal.name: refusal.value for refusal in Refusal}, self.names("bay_refusal"))

    def test_job_commands(self):
        self.assertEqual({command.name: command.value for command in JobCommand}, self.names("bay_job_command"))

    def test_licences(self):
        self.assertEqual({licence.name: licence.value for licence in Licence}, self.names("bay_licence"))

    def test_statuses(self):
        names = self.names("bay_status")
        del names["NO_STATUS"]
        self.assertEqual({status.name: status.value for status in Status}, names)

    def test_constants(self):
        constants = dict(re.findall(r"#define BAY_(\w+) (\d+)", self.header))
        self.assertGreaterEqual(len(constants), 8)
        for name, number in constants.items():
            self.assertEqual(getattr(module, name), int(number))

    @staticmethod
    def kind(parameter):
        """A parameter of C as bay.py passes it: a buffer by its address, what is lent alone by a pointer to its type."""
        kinds = {"uint8_t": None, "uint16_t": c_uint16, "uint32_t": c_uint32, "uint64_t": c_uint64, "size_t": c_size_t}
        words = re.match(r"(?:const )?(\w+) (\*?)(\w+)(\[\d+\])?$", parameter)
        base, star, name, row = words.groups()
        if row or star and name.startswith("card_"):
            return POINTER(kinds[base])
        return c_void_p if star else kinds[base]

    def test_parameters(self):
        declared = dict(re.findall(r"^uint64_t (bay_\w+)\(([^;{]*)\);", self.header, re.M))
        self.assertEqual(set(declared), set(module._PARAMETERS))
        for name, parameters in declared.items():
            parameters = [self.kind(re.sub(r"\s+", " ", each).strip()) for each in parameters.split(",")]
            self.assertEqual(parameters, module._PARAMETERS[name], name)


class Library(unittest.TestCase):
    def setUp(self):
        self.bay = Bay(LIBRARY)

    def refused(self, refusal, place, call, *arguments, **named):
        with self.assertRaises(Refused) as caught:
            call(*arguments, **named)
        self.assertEqual((caught.exception.refusal, caught.exception.place), (refusal, place))

    def depths_met(self, table):
        """For each state the depth of the first entry of the whole shift's list that it meets, or None where it meets none."""
        entries = self.bay.plan_shift(table).entries
        states = range(1 << self.bay.read_table(table).facts)
        return [next((e.depth for e in entries if not e.condition & ~held and not e.absent & held), None) for held in states]


class Calls(Library):
    """Document 01's trailer, through every function."""

    def setUp(self):
        super().setUp()
        self.table = self.bay.write_table(5, JOBS, 0x10)

    def test_tables(self):
        self.assertEqual(len(self.table), 147)
        self.assertEqual(self.bay.read_table(self.table), Header(facts=5, jobs=5, goal=0x10, paired=False))
        self.assertEqual([self.bay.read_job(self.table, number) for number in range(5)], JOBS)
        self.refused(Refusal.TABLE_CUT, 146, self.bay.read_table, self.table[:146])
        self.refused(Refusal.BYTES_AFTER_TABLE, 147, self.bay.read_table, self.table + b"?")
        self.refused(Refusal.TABLE_CUT, 0, self.bay.read_table, b"")
        for number in (5, 255, 256, 261, 1 << 63, (1 << 64) - 1):
            self.refused(Refusal.NO_SUCH_JOB, 0, self.bay.read_job, self.table, number)
        # 5 if they were cut to a byte.
        for facts in (0, 65, 256, 261, (1 << 32) + 5, 1 << 63):
            self.refused(Refusal.FACT_COUNT_OUT_OF_RANGE, 0, self.bay.write_table, facts, JOBS, 0x10)
        self.refused(Refusal.JOB_TOO_LONG, 2, self.bay.write_table, 5, [JOBS[0]._replace(seconds=5401)], 0x10)
        self.refused(Refusal.TOO_MANY_JOBS, 2 + 27 * 128, self.bay.write_table, 5, JOBS * 26, 0x10)
        self.assertEqual(len(self.bay.write_table(5, (JOBS * 26)[:128], 0x10)), 3468)
        wider = [job._replace(command=JobCommand.PAIRED_JOB) for job in JOBS]
        self.assertEqual(len(self.bay.write_table(5, (wider * 26)[:128], 0x10)), module.MAX_TABLE_BYTES)

    def test_plans(self):
        plan = self.bay.plan(self.table, Reading(held=0x02))
        self.assertIsInstance(plan, Plan)
        self.assertEqual((len(plan.entries), len(plan.tree), plan.way_jobs, plan.way_minutes), (8, 111, 4, 26))
        self.assertEqual(plan.entries[0], Entry(condition=0x10, job=None, parent=0, depth=0))
        self.assertEqual(plan.entries[7], Entry(condition=0x02, job=3, parent=4, depth=4))
        shift = self.bay.plan_shift(self.table)
        self.assertIsInstance(shift, ShiftPlan)
        self.assertEqual((len(shift.entries), len(shift.tree)), (9, 125))
        self.assertEqual(shift.entries[:8], plan.entries)
        self.assertEqual((plan.paired, shift.paired), (False, False))
        self.refused(Refusal.BAD_READING, 0, self.bay.plan, self.table, Reading(0x20))
        self.refused(Refusal.START_UNREAD, 0, self.bay.plan, self.table, Reading(0x02, 0x08))
        self.refused(Refusal.NO_WAY, 9, self.bay.plan, self.table, Reading(0x08))
        self.refused(Refusal.LIST_FULL, 8, self.bay.plan, self.table, Reading(0x08), most_entries=8)
        self.refused(Refusal.LIST_FULL, 0, self.bay.plan, self.table, Reading(0x10), most_entries=0)
        self.refused(Refusal.TREE_TOO_SHORT, 8, self.bay.plan, self.table, Reading(0x02), most_tree_bytes=110)
        self.refused(Refusal.LIST_FULL, 8, self.bay.plan_shift, self.table, most_entries=8)

    def told(self, plan, reading):
        """What both fitters are told."""
        return tuple(self.bay.tick(self.table, tree, reading) for tree in (plan.first, plan.second))

    def test_teams(self):
        plan = self.bay.plan_team(self.table, LICENCES, Reading(held=0x02))
        self.assertIsInstance(plan, TeamPlan)
        self.assertEqual((len(plan.entries), len(plan.first), len(plan.second), plan.paired), (8, 109, 106, False))
        self.assertEqual(plan.entries, self.bay.plan(self.table, Reading(0x02)).entries)
        waiting = Tick(Status.WAITING)
        self.assertEqual((waiting.job, waiting.to_read), (None, 0))
        for reading, told in [
            (Reading(0x02), (Tick(Status.RUNNING, job=3), waiting)),
            (Reading(0x0A), (waiting, Tick(Status.RUNNING, job=1))),
            (Reading(0x09), (Tick(Status.RUNNING, job=2), waiting)),
            (Reading(0x0D), (Tick(Status.RUNNING, job=4), waiting)),
            (Reading(0x02, 0x08), (Tick(Status.UNSETTLED, to_read=0x08),) * 2),
            (Reading(0x10), (Tick(Status.SUCCESS),) * 2),
            (Reading(0x08), (Tick(Status.FAILURE),) * 2),
        ]:
            self.assertEqual(self.told(plan, reading), told)
        # One who has every job has the plan's tree.
        tree = self.bay.plan(self.table, Reading(0x02)).tree
        self.assertEqual(self.bay.plan_team(self.table, [1, 3, 1, 3, 1], Reading(0x02)).first, tree)
        self.assertEqual(self.bay.plan_team(self.table, bytes([2] * 5), Reading(0x02)).second, tree)
        none = self.bay.write_table(1, [], 0x01)
        self.assertEqual(len(self.bay.plan_team(none, [], Reading(0x01)).second), 13)

    def test_refused_teams(self):
        plan, start = self.bay.plan_team, Reading(0x02)
        self.refused(Refusal.TABLE_CUT, 146, plan, self.table[:146], [], Reading(0x20))
        for row in ([], LICENCES[:4], LICENCES + [1], [9] * 4):
            self.refused(Refusal.BAD_LICENCES, 0, plan, self.table, row, Reading(0x20))
        self.refused(Refusal.BAD_LICENCES, 3, plan, self.table, [1, 2, 3, 4, 0], Reading(0x02, 0x08))
        self.refused(Refusal.BAD_LICENCES, 0, plan, self.table, [0, 1, 1, 1, 255], start, most_entries=0)
        self.refused(Refusal.BAD_READING, 0, plan, self.table, LICENCES, Reading(0x20))
        self.refused(Refusal.START_UNREAD, 0, plan, self.table, LICENCES, Reading(0x02, 0x08))
        self.refused(Refusal.LIST_FULL, 7, plan, self.table, LICENCES, start, most_entries=7)
        self.refused(Refusal.NO_WAY, 9, plan, self.table, LICENCES, Reading(0x08))
        self.refused(Refusal.TREE_TOO_SHORT, 8, plan, self.table, LICENCES, start, most_first_bytes=108)
        self.refused(Refusal.TREE_TOO_SHORT, 8, plan, self.table, LICENCES, start, most_second_bytes=105)
        self.assertEqual(len(plan(self.table, LICENCES, start, 8, 109, 106).first), 109)

    def test_recoveries(self):
        recover = self.bay.recover_list
        plan = self.bay.plan(self.table, Reading(0x02))
        self.assertEqual(recover(self.table, plan.tree), plan.entries)
        self.assertEqual(recover(self.table, plan.tree, most_entries=8), plan.entries)
        self.assertEqual(recover(self.table, plan.tree)[7], Entry(condition=0x02, job=3, parent=4, depth=4))
        # Every start's tree, and the whole shift's.
        for held in range(1 << 5):
            try:
                plan = self.bay.plan(self.table, Reading(held))
            except Refused:
                continue
            self.assertEqual(recover(self.table, bytearray(plan.tree)), plan.entries)
        shift = self.bay.plan_shift(self.table)
        self.assertEqual(recover(self.table, shift.tree), shift.entries)
        team = self.bay.plan_team(self.table, [2] * 5, Reading(0x02))
        self.assertEqual(recover(self.table, team.second), team.entries)

    def test_refused_recoveries(self):
        recover = self.bay.recover_list
        tree = self.bay.plan(self.table, Reading(0x02)).tree
        for most in (0, 7):
            self.refused(Refusal.LIST_FULL, 0, recover, self.table, tree, most_entries=most)
        # 20 comes before that, 13 to 15 before 20, and the table before all.
        team = self.bay.plan_team(self.table, LICENCES, Reading(0x02))
        for other in (tree[:109] + b"\x02\x4f", b"\x42" + tree[1:], b"\x46\x4f", team.first, team.second):
            self.refused(Refusal.OTHER_ORIGIN, 0, recover, self.table, other, most_entries=0)
            self.refused(Refusal.OTHER_ORIGIN, 0, recover, self.table, other)
        self.refused(Refusal.TREE_OPERAND_OUT_OF_RANGE, 108, recover, self.table, tree[:109] + b"\x05\x4f", most_entries=0)
        self.refused(Refusal.TREE_TOO_DEEP, 48, recover, self.table, b"\x41\x01\x00" * 16 + b"\x46\x4f", most_entries=0)
        self.refused(Refusal.BAD_TREE, 110, recover, self.table, tree[:110], most_entries=0)
        self.refused(Refusal.BAD_TREE, 0, recover, self.table, bytes(65536))
        self.refused(Refusal.TABLE_CUT, 146, recover, self.table[:146], tree[:110])

    def test_distances(self):
        distances = self.bay.distances(self.table)
        self.assertEqual(distances, [None, 4, 4, 3, None, 3, 2, 2, None, 2, 3, 2, 1, 1, 1, 1] + [0] * 16)
        self.assertEqual(distances, self.depths_met(self.table))
        self.assertEqual(self.bay.distances(bytearray(self.table)), distances)
        # As many as the jobs of a plan from there.
        for held, distance in enumerate(distances):
            if distance is None:
                self.refused(Refusal.NO_WAY, 9, self.bay.plan, self.table, Reading(held))
            else:
                self.assertEqual(self.bay.plan(self.table, Reading(held)).way_jobs, distance)
        # Without jobs, and with a goal that every state holds.
        self.assertEqual(self.bay.distances(self.bay.write_table(2, [], 0x02)), [None, None, 0, 0])
        self.assertEqual(self.bay.distances(self.bay.write_table(1, [], 0x00)), [0, 0])

    def test_most_distances(self):
        # A fact for the one before it, up to the last.
        jobs = [Job(needs=1 << fact, adds=2 << fact, deletes=1 << fact, seconds=60) for fact in range(14)]
        table = self.bay.write_table(module.MAX_MEASURED_FACTS, jobs, 0x4000)
        distances = self.bay.distances(table)
        self.assertEqual((len(distances), distances[:5], distances[-1]), (module.MAX_STATES, [None, 14, 13, 13, 12], 0))
        self.assertEqual(distances, self.depths_met(table))
        # Each fact with all that are before it: as many jobs as facts are absent, also where the whole shift's list is too long.
        jobs = [Job(needs=(1 << fact) - 1, adds=1 << fact, deletes=0, seconds=60) for fact in range(15)]
        table = self.bay.write_table(module.MAX_MEASURED_FACTS, jobs, 0x7FFF)
        self.refused(Refusal.LIST_FULL, 4096, self.bay.plan_shift, table)
        self.assertEqual(self.bay.distances(table), [15 - bin(held).count("1") for held in range(module.MAX_STATES)])

    def test_refused_distances(self):
        distances = self.bay.distances
        for facts in (16, 17, 32, 63, 64):
            table = self.bay.write_table(facts, JOBS, 0x10)
            self.refused(Refusal.TOO_MANY_FACTS, 0, distances, table)
            self.refused(Refusal.TABLE_CUT, 146, distances, table[:146])
        self.refused(Refusal.TABLE_CUT, 146, distances, self.table[:146])
        self.refused(Refusal.TABLE_CUT, 0, distances, b"")
        self.refused(Refusal.BYTES_AFTER_TABLE, 147, distances, self.table + b"?")
        self.refused(Refusal.FACT_COUNT_OUT_OF_RANGE, 0, distances, b"\x10\x00" + self.table[2:])
        # The method lends no row of another length, and so this goes past it.
        for length in (0, 16, 31, 33, 64):
            row = module._row(c_uint16, [7] * length)
            self.refused(Refusal.BAD_ROW_LENGTH, 0, self.bay._call, "bay_measure_distances", 2, *module._bytes("table", self.table), *row)
            self.assertEqual(row[0][:length], [7] * length)

    def test_searches(self):
        listed = [0x03, 0x01, 0x04, 0x01, 0x0C]
        self.assertEqual([self.bay.newest_weaker(listed[:n], 0x03) for n in range(6)], [None, 0, 1, 1, 3, 3])
        self.assertIsNone(self.bay.newest_weaker(listed, 0x08))
        self.assertEqual(self.bay.newest_weaker([1 << 63, 0], 1 << 63), 1)
        # Second masks: of all entries, of the first three, of more than there are.
        second = [0x00, 0x10, 0x00, 0x10, 0x00]
        self.assertEqual(self.bay.newest_weaker(listed, 0x03, second), 0)
        self.assertEqual(self.bay.newest_weaker(listed, 0x03, second, 0x30), 3)
        self.assertEqual(self.bay.newest_weaker(listed, 0x03, second[:3]), 3)
        self.assertEqual(self.bay.newest_weaker(listed[:2], 0x03, second), 0)
        self.assertIsNone(self.bay.newest_weaker(listed, 0x01, second))

    def test_ticks(self):
        tree = self.bay.plan(self.table, Reading(0x02)).tree
        for reading, tick in [
            (Reading(0x02), Tick(Status.RUNNING, job=3)),
            (Reading(0x03), Tick(Status.RUNNING, job=3)),
            (Reading(0x02, 0x01), Tick(Status.UNSETTLED, to_read=0x01)),
            (Reading(0x02, 0x08), Tick(Status.UNSETTLED, to_read=0x08)),
            (Reading(0x08), Tick(Status.FAILURE)),
            (Reading(0x10), Tick(Status.SUCCESS)),
        ]:
            self.assertEqual(self.bay.tick(self.table, tree, reading), tick)
            self.assertEqual(self.bay.tick_card(self.table, tree, Card(*reading, 65535, 1, 2)), tick)
        self.refused(Refusal.BAD_READING, 0, self.bay.tick, self.table, tree, Reading(0x02, 0x02))
        self.refused(Refusal.BAD_TREE, 110, self.bay.tick, self.table, tree[:110], Reading(0x02))
        self.refused(Refusal.BAD_TREE, 0, self.bay.tick, self.table, bytes(65536), Reading(0x02))

    def test_batches(self):
        entries = self.bay.plan(self.table, Reading(0x02)).entries
        readings = [Reading(0x10), Reading(0x02, 0x08), Reading(0x03), Reading(0x08)]
        ticks = (
            Tick(Status.SUCCESS),
            Tick(Status.UNSETTLED, to_read=0x08),
            Tick(Status.RUNNING, job=3),
            Tick(Status.FAILURE),
        )
        for vehicles, entries_read in enumerate([0, 1, 5, 6, 8]):
            batch = self.bay.tick_all(self.table, entries, readings[:vehicles])
            self.assertEqual(batch, BatchTick(ticks[:vehicles], entries_read))
        # The job of entry 0 is of no account, and neither are second masks under this table.
        for job in (None, 4, 200, 255):
            other = [entries[0]._replace(job=job, absent=1 << 63), *entries[1:]]
            self.assertEqual(self.bay.tick_all(self.table, other, readings).ticks, ticks)
        self.refused(Refusal.TABLE_CUT, 146, self.bay.tick_all, self.table[:146], [], [Reading(0x20)])
        self.refused(Refusal.BAD_READING, 2, self.bay.tick_all, self.table, [], readings[:2] + [Reading(0x20)])
        self.refused(Refusal.BAD_TREE, 0, self.bay.tick_all, self.table, [], readings)
        self.refused(Refusal.BAD_TREE, 0, self.bay.tick_all, self.table, [entries[1]] * 4097, [])
        self.assertEqual(self.bay.tick_all(self.table, [entries[1]] * 4096, [Reading()]).entries_read, 4096)
        for bad in (entries[3]._replace(condition=0x20), entries[3]._replace(job=5)):
            self.refused(Refusal.TREE_OPERAND_OUT_OF_RANGE, 3, self.bay.tick_all, self.table, [*entries[:3], bad, *entries[4:]], [])

    def test_cards(self):
        card = self.bay.open(self.table, Reading(0x02, 0x09))
        self.assertEqual(card, Card(held=0x02, unread=0x09, reports=0, taken=0, planned=0))
        self.refused(Refusal.BAD_READING, 0, self.bay.open, self.table, Reading(0x02, 0x20))
        self.refused(Refusal.BAD_READING, 0, self.bay.read_outside, self.table, card, Reading(0x02, 0x02))
        self.assertEqual(self.bay.read_outside(self.table, card, Reading(0x01)), Card(0x01, 0))
        reported = self.bay.report(self.table, card, 3, 65535)
        self.assertEqual(reported, Card(held=0x0A, unread=0x01, reports=1, taken=65535, planned=600))
        self.assertEqual(card, Card(0x02, 0x09))
        self.assertEqual(self.bay.lateness(reported), 1082)
        self.assertEqual(self.bay.lateness(Card(0, 0, 0, 0, 150)), -2)
        # Job 3 if they were cut to a byte or to 32 bits.
        for number in (5, 256, 259, (1 << 32) + 3, (1 << 63) + 3):
            self.refused(Refusal.NO_SUCH_JOB, 0, self.bay.report, self.table, card, number, 60)
        self.refused(Refusal.NEED_NOT_HELD, 0, self.bay.report, self.table, card, 0, 60)
        self.refused(Refusal.CARD_EXHAUSTED, 0, self.bay.report, self.table, card._replace(reports=65535), 3, 60)


class Pairs(Library):
    """The trailer with one fact less, through every function that it changes."""

    def setUp(self):
        super().setUp()
        self.pairs = self.bay.write_table(4, PAIR_JOBS, 0x08)

    def test_pair_tables(self):
        self.assertEqual(len(self.pairs), 163)
        self.assertEqual(self.bay.read_table(self.pairs), Header(facts=4, jobs=5, goal=0x08, paired=True))
        self.assertEqual([self.bay.read_job(self.pairs, number) for number in range(5)], PAIR_JOBS)
        # One that needs nothing absent makes a table paired, too.
        empty = self.bay.write_table(5, [JOBS[0]._replace(command=JobCommand.PAIRED_JOB)], 0x10)
        self.assertEqual((len(empty), self.bay.read_table(empty).paired), (47, True))
        contradictory = PAIR_JOBS[:1] + [PAIR_JOBS[2]._replace(needs=0x01)]
        self.refused(Refusal.NEEDS_CONTRADICT, 37, self.bay.write_table, 4, contradictory, 0x08)
        for job in (JOBS[0]._replace(absent=1), JOBS[0]._replace(command=0x22), JOBS[0]._replace(command=0)):
            self.refused(Refusal.UNWRITABLE, 1, self.bay.write_table, 300, [JOBS[0], job], 0x10)

    def test_pair_plans(self):
        plan = self.bay.plan(self.pairs, Reading(held=0x01))
        self.assertEqual((len(plan.entries), len(plan.tree), plan.way_jobs, plan.way_minutes), (7, 153, 4, 26))
        self.assertTrue(plan.paired)
        self.assertEqual(plan.entries[0], Entry(condition=0x08, job=None, parent=0, depth=0))
        self.assertEqual(plan.entries[2], Entry(condition=0x04, job=2, parent=1, depth=2, absent=0x01))
        shift = self.bay.plan_shift(self.pairs)
        self.assertEqual((len(shift.entries), len(shift.tree), shift.paired), (8, 175, True))
        self.assertEqual(shift.entries[7], Entry(condition=0, job=2, parent=5, depth=4, absent=0x01))
        self.refused(Refusal.LIST_FULL, 6, self.bay.plan, self.pairs, Reading(0x01), most_entries=6)
        self.refused(Refusal.TREE_TOO_SHORT, 7, self.bay.plan, self.pairs, Reading(0x01), most_tree_bytes=152)
        for reading, tick in [
            (Reading(0x01), Tick(Status.RUNNING, job=3)),
            (Reading(0x04), Tick(Status.RUNNING, job=2)),
            (Reading(0x04, 0x01), Tick(Status.UNSETTLED, to_read=0x01)),
            (Reading(0x00), Tick(Status.FAILURE)),
            (Reading(0x08, 0x07), Tick(Status.SUCCESS)),
        ]:
            self.assertEqual(self.bay.tick(self.pairs, plan.tree, reading), tick)

    def test_pair_teams(self):
        plan = self.bay.plan_team(self.pairs, LICENCES, Reading(held=0x01))
        self.assertEqual((len(plan.entries), len(plan.first), len(plan.second), plan.paired), (7, 151, 149, True))
        self.assertEqual(plan.entries, self.bay.plan(self.pairs, Reading(0x01)).entries)
        self.assertEqual(self.bay.tick(self.pairs, plan.second, Reading(0x05)), Tick(Status.RUNNING, job=1))
        self.assertEqual(self.bay.tick(self.pairs, plan.first, Reading(0x05)), Tick(Status.WAITING))
        self.refused(Refusal.TREE_TOO_SHORT, 7, self.bay.plan_team, self.pairs, LICENCES, Reading(0x01), most_second_bytes=148)

    def test_pair_recoveries(self):
        trees = self.bay.plan(self.pairs, Reading(0x01)).tree, self.bay.plan_shift(self.pairs).tree
        for tree in trees:
            for most in (0, 8, 4096):
                self.refused(Refusal.OTHER_ORIGIN, 0, self.bay.recover_list, self.pairs, tree, most_entries=most)
            self.refused(Refusal.BAD_TREE, len(tree) - 1, self.bay.recover_list, self.pairs, tree[:-1])

    def test_pair_distances(self):
        distances = self.bay.distances(self.pairs)
        self.assertEqual(distances, [4, 4, 3, 2, 2, 3, 1, 1] + [0] * 8)
        self.assertEqual(distances, self.depths_met(self.pairs))
        self.refused(Refusal.TABLE_CUT, 162, self.bay.distances, self.pairs[:162])
        self.refused(Refusal.TOO_MANY_FACTS, 0, self.bay.distances, self.bay.write_table(16, PAIR_JOBS, 0x08))

    def test_pair_batches(self):
        entries = self.bay.plan(self.pairs, Reading(0x01)).entries
        readings = [Reading(0x08, 0x07), Reading(0x04), Reading(0x04, 0x01), Reading(0x05)]
        ticks = (
            Tick(Status.SUCCESS),
            Tick(Status.RUNNING, job=2),
            Tick(Status.UNSETTLED, to_read=0x01),
            Tick(Status.RUNNING, job=1),
        )
        self.assertEqual(self.bay.tick_all(self.pairs, entries, readings), BatchTick(ticks, 5))
        bad = entries[2]._replace(absent=0x10)
        self.refused(Refusal.TREE_OPERAND_OUT_OF_RANGE, 2, self.bay.tick_all, self.pairs, [*entries[:2], bad], readings)
        self.refused(Refusal.BAD_TREE, 0, self.bay.tick_all, self.pairs, [entries[1]] * 2979, readings)
        self.assertEqual(self.bay.tick_all(self.pairs, [entries[1]] * 2978, [Reading()]).entries_read, 2978)

    def test_pair_cards(self):
        for reading in (Reading(0x01), Reading(0x00, 0x01)):
            card = self.bay.open(self.pairs, reading)
            self.refused(Refusal.NEED_NOT_HELD, 0, self.bay.report, self.pairs, card, 0, 300)
        card = self.bay.report(self.pairs, self.bay.open(self.pairs, Reading(0x00)), 0, 300)
        self.assertEqual(card, Card(held=0x01, unread=0, reports=1, taken=300, planned=300))


class Migrations(Library):
    """A card that goes over from the trailer's table to the one with one fact less, and back."""

    # "trailer off" has no number there.
    DOWN = [module.DROPPED, 0, 1, 2, 3]
    UP = [1, 2, 3, 4]

    def setUp(self):
        super().setUp()
        self.table = self.bay.write_table(5, JOBS, 0x10)
        self.pairs = self.bay.write_table(4, PAIR_JOBS, 0x08)

    def down(self, card, fact_map=DOWN):
        return self.bay.migrate(self.table, self.pairs, card, fact_map)

    def up(self, card, fact_map=UP):
        return self.bay.migrate(self.pairs, self.table, card, fact_map)

    def test_migrations(self):
        card = Card(held=0x0A, unread=0x04, reports=7, taken=4_000_000_000, planned=3)
        self.assertEqual(self.down(card), card._replace(held=0x05, unread=0x02))
        self.assertEqual(self.up(self.down(card)), card._replace(unread=0x05))
        self.assertEqual(card, Card(0x0A, 0x04, 7, 4_000_000_000, 3))
        for held in range(1 << 5):
            for unread in range(1 << 5):
                if not held & unread:
                    self.assertEqual(self.down(Card(held, unread)), Card(held >> 1, unread >> 1))
        # Many facts may be dropped, and the map may be bytes.
        for fact_map in ([255] * 5, bytes([255] * 5), (255,) * 5):
            self.assertEqual(self.down(card, fact_map), card._replace(held=0, unread=0x0F))
        # 18 is not judged.
        for full in (Card(0x02, 0, 65535), Card(0x02, 0, 0, 1, 1), Card(0x02, 0, 65535, (1 << 32) - 1, (1 << 32) - 1)):
            self.assertEqual(self.down(full), full._replace(held=0x01))

    def test_most_facts(self):
        table = self.bay.write_table(module.MAX_FACTS, [], 0)
        card = Card(held=0xF0E1D2C3B4A59687, unread=0x0102010408102040)
        for places in range(64):
            moved = [(fact + places) % 64 for fact in range(64)]
            masks = [(mask << places | mask >> 64 - places) & (1 << 64) - 1 for mask in card[:2]]
            self.assertEqual(self.bay.migrate(table, table, card, moved), Card(*masks))
        one = self.bay.write_table(1, [], 0)
        self.assertEqual(self.bay.migrate(one, table, Card(1, 0), [63]), Card(1 << 63, (1 << 63) - 1))
        self.assertEqual(self.bay.migrate(table, one, Card(1 << 63, 0), [255] * 63 + [0]), Card(1, 0))

    def test_refused_migrations(self):
        card, bad = Card(0x0A, 0x05, 65535, 7, 7), Card(0x2A, 0x05)
        maps = [[], self.DOWN[:4], self.DOWN + [255], [255, 0, 1, 2, 4], [254, 0, 1, 2, 3], [255, 0, 0, 2, 3], [3, 0, 1, 2, 3], [0] * 5]
        for fact_map in maps:
            self.refused(Refusal.BAD_MAP, 0, self.down, card, fact_map)
            # 8 comes before it, the new table before 8, and the old one before all.
            self.refused(Refusal.BAD_READING, 0, self.down, bad, fact_map)
            self.refused(Refusal.TABLE_CUT, 162, self.bay.migrate, self.table, self.pairs[:162], bad, fact_map)
            self.refused(Refusal.TABLE_CUT, 146, self.bay.migrate, self.table[:146], self.pairs[:162], bad, fact_map)
            self.refused(Refusal.BYTES_AFTER_TABLE, 147, self.bay.migrate, self.table + b"?", b"", bad, fact_map)
        # The masks are judged under the old table.
        self.assertEqual(self.down(Card(0x10, 0)), Card(0x08, 0))
        self.refused(Refusal.BAD_READING, 0, self.up, Card(0x10, 0))
        self.refused(Refusal.BAD_READING, 0, self.down, Card(0x03, 0x01))

    def test_goes_on(self):
        """As a card that is opened on the same reading, until CARD_EXHAUSTED."""
        tree = self.bay.plan_shift(self.pairs).tree
        for reports in (0, 1, 65532, 65533, 65534, 65535):
            card = self.down(Card(0x0A, 0x05, reports))
            fresh = self.bay.open(self.pairs, Reading(card.held, card.unread))
            left = 65535 - reports
            while True:
                tick = self.bay.tick_card(self.pairs, tree, card)
                self.assertEqual(self.bay.tick_card(self.pairs, tree, fresh), tick)
                if tick.status == Status.UNSETTLED:
                    card, fresh = (self.bay.read_outside(self.pairs, each, Reading(each.held)) for each in (card, fresh))
                elif tick.status == Status.SUCCESS or left == 0:
                    break
                else:
                    left -= 1
                    card, fresh = (self.bay.report(self.pairs, each, tick.job, 60) for each in (card, fresh))
                self.assertEqual(card, Card(fresh.held, fresh.unread, reports + fresh.reports, fresh.taken, fresh.planned))
            if tick.status != Status.SUCCESS:
                self.refused(Refusal.CARD_EXHAUSTED, 0, self.bay.report, self.pairs, card, tick.job, 60)
                self.assertEqual(self.bay.report(self.pairs, fresh, tick.job, 60).reports, fresh.reports + 1)
            self.assertEqual(fresh.reports, min(3, 65535 - reports))


def main():
    global LIBRARY
    if len(sys.argv) > 1:
        LIBRARY = sys.argv[1]
    suite = unittest.defaultTestLoader.loadTestsFromModule(sys.modules["__main__"])
    result = unittest.TextTestRunner(stream=sys.stdout).run(suite)
    failed = len(result.failures) + len(result.errors)
    print(f"{result.testsRun - failed} passed, {failed} failed")
    sys.exit(failed != 0)


if __name__ == "__main__":
    main()
