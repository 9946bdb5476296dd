/* Ticks the widest and the deepest trees that are legal and the one with the most leaves, plans the longest list, ticks it for a yard of
 * vehicles, and plans it for two fitters; of each tree, recovers its list if there is one; and measures the distances of the most states
 * with the most jobs. To be run with a stack of BAY_STACK_BYTES:
 *
 *     cc -std=c99 -Iinclude examples/c/stack.c target/staticlib/libbay.a -o target/stack && (ulimit -s 256; target/stack)
 */
#include <inttypes.h>
#include <stdio.h>

#include "bay.h"

enum {
    FALLBACK = 0x41,
    SEQUENCE = 0x42,
    CONDITION = 0x43,
    JOB_LEAF = 0x44,
    PAIR = 0x45,
    WAITING_LEAF = 0x46,
    END_OF_TREE = 0x4f,
    DEEPEST = 16,
    WIDEST = 4096,
    VEHICLES = 1000
};

static uint8_t table_bytes[BAY_MAX_TABLE_BYTES];
static uint8_t tree_bytes[BAY_MAX_TREE_BYTES];
static uint8_t second_tree_bytes[BAY_MAX_TREE_BYTES];
static size_t tree_length;
static uint64_t conditions[BAY_MAX_ENTRIES];
static uint64_t absences[BAY_MAX_PAIR_ENTRIES];
static uint8_t jobs[BAY_MAX_ENTRIES];
static uint16_t parents[BAY_MAX_ENTRIES];
static uint16_t depths[BAY_MAX_ENTRIES];

static void put(unsigned byte) {
    tree_bytes[tree_length++] = (uint8_t)byte;
}

static void put_inner(unsigned command, unsigned children) {
    put(command);
    put(children);
    put(children >> 8);
}

static void put_mask(uint64_t mask) {
    for (int i = 0; i < 8; i++) {
        put((unsigned)(mask >> 8 * i) & 0xff);
    }
}

static void put_condition(uint64_t mask) {
    put(CONDITION);
    put_mask(mask);
}

static void put_pair(uint64_t present, uint64_t absent) {
    put(PAIR);
    put_mask(present);
    put_mask(absent);
}

/* Recovers the list of a tree. Most trees here are no plan's, and that is no fault. */
static int recover(struct bay_table table, struct bay_tree tree) {
    struct bay_list_room room = {conditions, jobs, parents, depths, BAY_MAX_ENTRIES};
    struct bay_recovered list = bay_list_recover(table, tree, room);
    printf("  its list: refusal %d, %zu entries\n", (int)list.refusal, list.entries);
    return list.refusal == BAY_OK || list.refusal == BAY_OTHER_ORIGIN;
}

static int tick_tree(const char *name, struct bay_table table, struct bay_tree tree, uint64_t held) {
    struct bay_reading reading = {held, 0};
    struct bay_ticked ticked = bay_tree_tick(table, tree, reading);
    printf("%s: %zu bytes, refusal %d, status %d, job %zu\n", name, tree.length, (int)ticked.refusal, (int)ticked.status,
           ticked.job);
    return ticked.refusal == BAY_OK && recover(table, tree);
}

static int tick(const char *name, struct bay_table table, uint64_t held) {
    struct bay_tree tree = {tree_bytes, tree_length};
    return tick_tree(name, table, tree, held);
}

/* Ticks a list for a yard of vehicles, all of which hold the same, and prints what the last is told. */
static int tick_all(const char *name, struct bay_table table, size_t entries, uint64_t start) {
    static uint64_t held[VEHICLES], unread[VEHICLES], values[VEHICLES];
    static uint8_t statuses[VEHICLES];
    for (int i = 0; i < VEHICLES; i++) {
        held[i] = start;
    }
    struct bay_list list = {conditions, entries, absences, BAY_MAX_PAIR_ENTRIES};
    struct bay_batch batch = {held, unread, statuses, values, VEHICLES};
    struct bay_batch_ticked ticked = bay_list_tick_all(table, list, jobs, batch);
    struct bay_ticked last = bay_batch_vehicle(batch, VEHICLES - 1);
    printf("%s: %d vehicles, refusal %d, %zu entries read, status %d, job %zu\n", name, VEHICLES, (int)ticked.refusal,
           ticked.entries_read, (int)last.status, last.job);
    return ticked.refusal == BAY_OK;
}

/* Plans for two fitters, who have every other job each, and ticks both trees. */
static int plan_team(const char *name, struct bay_table table, struct bay_reading start) {
    static uint8_t licence_bytes[BAY_MAX_JOBS];
    for (int i = 0; i < BAY_MAX_JOBS; i++) {
        licence_bytes[i] = i % 2 == 0 ? BAY_FIRST_FITTER : BAY_SECOND_FITTER;
    }
    struct bay_licences licences = {licence_bytes, BAY_MAX_JOBS};
    struct bay_team_room room = {conditions,           jobs,              parents,
                                 depths,               BAY_MAX_ENTRIES,   absences,
                                 BAY_MAX_PAIR_ENTRIES, tree_bytes,        sizeof tree_bytes,
                                 second_tree_bytes,    sizeof second_tree_bytes};
    struct bay_team_planned plan = bay_tree_plan_team(table, licences, start, room);
    printf("%s: refusal %d, %zu entries, %zu and %zu bytes\n", name, (int)plan.refusal, plan.entries, plan.first_bytes,
           plan.second_bytes);
    struct bay_tree first = {tree_bytes, plan.first_bytes};
    struct bay_tree second = {second_tree_bytes, plan.second_bytes};
    return plan.refusal == BAY_OK && tick_tree("first", table, first, start.held) && tick_tree("second", table, second, start.held);
}

/* Plans for the whole shift, which lists all that there is room for, then for a start that meets the last entry listed and no earlier one, and
 * ticks the tree of that plan and its list, and the tree with a change; then the same for two fitters. */
static int plan(const char *name, struct bay_table table, uint64_t needed_absent) {
    struct bay_plan_room room = {conditions, jobs, parents, depths, BAY_MAX_ENTRIES, absences, BAY_MAX_PAIR_ENTRIES, tree_bytes,
                                 sizeof tree_bytes};
    struct bay_shift_planned shift = bay_tree_plan_shift(table, room);
    printf("%s for the shift: refusal %d, place %zu, %zu entries, %zu bytes\n", name, (int)shift.refusal, shift.place,
           shift.entries, shift.tree_bytes);
    size_t last = (shift.refusal == BAY_OK ? shift.entries : shift.place) - 1;
    struct bay_reading start = {conditions[last], 0};
    if (needed_absent != 0) {
        start.held |= needed_absent & ~absences[last];
    }
    struct bay_planned plan = bay_tree_plan(table, start, room);
    printf("%s: refusal %d, %zu entries, %zu bytes, %zu jobs, %" PRIu32 " minutes\n", name, (int)plan.refusal, plan.entries,
           plan.tree_bytes, plan.way_jobs, plan.way_minutes);
    tree_length = plan.tree_bytes;
    if (plan.refusal != BAY_OK || !tick("built", table, start.held) || !tick_all("yard", table, plan.entries, start.held)) {
        return 0;
    }
    /* Another job in the last entry: all of the tree but this is a plan's. */
    tree_bytes[tree_length - 2] ^= 1;
    return tick("changed", table, start.held) && plan_team("team", table, start);
}

/* Twelve facts to reach, each from a fact of its own, so that the list would have 4,096 entries; the jobs after the first twelve do the same
 * from one fact more, and what they give is dropped. A job whose own fact is one of these needs it absent, any other needs it held. */
static struct bay_table write_table(uint64_t needed_absent) {
    static uint64_t needs[BAY_MAX_JOBS], absent[BAY_MAX_JOBS], adds[BAY_MAX_JOBS], deletes[BAY_MAX_JOBS];
    static uint8_t commands[BAY_MAX_JOBS];
    static uint16_t seconds[BAY_MAX_JOBS];
    for (int i = 0; i < BAY_MAX_JOBS; i++) {
        uint64_t own = (uint64_t)1 << (12 + i % 12);
        uint64_t more = i < 12 ? 0 : (uint64_t)1 << 24;
        absent[i] = own & needed_absent;
        commands[i] = absent[i] != 0 ? BAY_PAIRED_JOB : BAY_JOB;
        needs[i] = more | (own & ~needed_absent);
        adds[i] = (uint64_t)1 << i % 12;
        deletes[i] = 0;
        seconds[i] = 60;
    }
    struct bay_columns columns = {commands, needs, absent, adds, deletes, seconds, BAY_MAX_JOBS};
    struct bay_written written = bay_table_write(25, columns, 0xfff, table_bytes, sizeof table_bytes);
    if (written.refusal != BAY_OK) {
        printf("the table is refused: %d %zu\n", (int)written.refusal, written.place);
    }
    struct bay_table table = {table_bytes, written.bytes};
    return table;
}

/* Of the most facts, with the most jobs, each by the wider command: job i adds fact i % 15, needs and deletes the fact before it, and needs one
 * further on absent, which is another in each round of 15 jobs. */
static struct bay_table write_measured_table(void) {
    static uint64_t needs[BAY_MAX_JOBS], absent[BAY_MAX_JOBS], adds[BAY_MAX_JOBS], deletes[BAY_MAX_JOBS];
    static uint8_t commands[BAY_MAX_JOBS];
    static uint16_t seconds[BAY_MAX_JOBS];
    for (int i = 0; i < BAY_MAX_JOBS; i++) {
        int fact = i % BAY_MAX_MEASURED_FACTS;
        int round = i / BAY_MAX_MEASURED_FACTS;
        commands[i] = BAY_PAIRED_JOB;
        needs[i] = (uint64_t)1 << (fact + 14) % BAY_MAX_MEASURED_FACTS;
        absent[i] = (uint64_t)1 << (fact + 1 + round) % BAY_MAX_MEASURED_FACTS;
        adds[i] = (uint64_t)1 << fact;
        deletes[i] = needs[i];
        seconds[i] = 60;
    }
    struct bay_columns columns = {commands, needs, absent, adds, deletes, seconds, BAY_MAX_JOBS};
    struct bay_written written = bay_table_write(BAY_MAX_MEASURED_FACTS, columns, 0x4001, table_bytes, sizeof table_bytes);
    if (written.refusal != BAY_OK) {
        printf("the table is refused: %d %zu\n", (int)written.refusal, written.place);
    }
    struct bay_table table = {table_bytes, written.bytes};
    return table;
}

/* Measures the distances of all states, and prints the greatest and how many states have one. */
static int measure(const char *name, struct bay_table table) {
    static uint16_t row[BAY_MAX_STATES];
    struct bay_measured measured = bay_distances_measure(table, row, BAY_MAX_STATES);
    size_t with_way = 0;
    unsigned greatest = 0;
    for (size_t held = 0; held < measured.states; held++) {
        if (row[held] != BAY_NO_DISTANCE) {
            with_way++;
            greatest = row[held] > greatest ? row[held] : greatest;
        }
    }
    printf("%s: refusal %d, %zu states, %zu with a way, the longest of %u jobs\n", name, (int)measured.refusal, measured.states,
           with_way, greatest);
    return measured.refusal == BAY_OK;
}

int main(void) {
    struct bay_table table = write_table(0);
    int ok = 1;

    /* Every child of the widest node is ticked: none of the conditions holds. */
    tree_length = 0;
    put_inner(FALLBACK, WIDEST);
    for (int i = 0; i < WIDEST; i++) {
        put_condition(2);
    }
    put(END_OF_TREE);
    ok &= tick("widest", table, 1);

    tree_length = 0;
    for (int i = 1; i < DEEPEST; i++) {
        put_inner(i % 2 ? SEQUENCE : FALLBACK, 1);
    }
    put(JOB_LEAF);
    put(11);
    put(END_OF_TREE);
    ok &= tick("deepest", table, 1);

    /* Both at once: 400 children on each of fifteen levels; and 200 with two masks. */
    tree_length = 0;
    for (int i = 1; i < DEEPEST; i++) {
        put_inner(SEQUENCE, 400);
        for (int child = 1; child < 400; child++) {
            put_condition(1);
        }
    }
    put_condition(1);
    put(END_OF_TREE);
    ok &= tick("deep and wide", table, 1);
    tree_length = 0;
    for (int i = 1; i < DEEPEST; i++) {
        put_inner(FALLBACK, 200);
        for (int child = 1; child < 200; child++) {
            put_pair(2, 1);
        }
    }
    put_pair(1, 2);
    put(END_OF_TREE);
    ok &= tick("deep and wide with pairs", table, 1);

    /* As many leaves as fit in a tree: 15 rows of 4,096 and one of 4,043. */
    tree_length = 0;
    put_inner(FALLBACK, 16);
    for (int row = 0; row < 16; row++) {
        int leaves = row < 15 ? WIDEST : 4043;
        put_inner(SEQUENCE, (unsigned)leaves);
        for (int i = 0; i < leaves; i++) {
            put(WAITING_LEAF);
        }
    }
    put(END_OF_TREE);
    ok &= tick("most leaves", table, 1);

    ok &= plan("plan", table, 0);
    uint64_t every_other = 0xaaa000;
    ok &= plan("plan with pairs", write_table(every_other), every_other);
    ok &= measure("distances", write_measured_table());
    return ok ? 0 : 1;
}
