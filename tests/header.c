/* The inline functions of include/bay.h, each on calls that are done and calls that are refused: every word has its name, and every
 * place is the one that the header states. It is compiled as C99 and as C++11. The last line is `N passed, M failed`.
 */
#include <stdio.h>
#include <string.h>

#include "bay.h"

static int passed, failed;

static void check(int holds, const char *what, int line) {
    if (holds) {
        passed++;
    } else {
        failed++;
        printf("FAILED, line %d: %s\n", line, what);
    }
}

#define CHECK(fact) check(fact, #fact, __LINE__)
/* A call that stands here for its result is made twice. */
#define REFUSED(result, number, at) CHECK((result).refusal == (number) && (result).place == (at))
#define DONE(result) REFUSED(result, BAY_OK, 0)

static uint8_t table_bytes[BAY_MAX_TABLE_BYTES + 1];
static uint64_t conditions[BAY_MAX_ENTRIES];
static uint64_t absences[BAY_MAX_PAIR_ENTRIES];
static uint8_t jobs[BAY_MAX_ENTRIES];
static uint16_t parents[BAY_MAX_ENTRIES];
static uint16_t depths[BAY_MAX_ENTRIES];
static uint8_t tree_bytes[BAY_MAX_TREE_BYTES + 1];
static uint8_t first_tree[112];
static uint8_t second_tree[112];

/* Document 01's trailer. */
static const uint8_t commands[5] = {BAY_JOB, BAY_JOB, BAY_JOB, BAY_JOB, BAY_JOB};
static const uint64_t none[5] = {0, 0, 0, 0, 0};
static const uint64_t needs[5] = {0x01, 0x02, 0x01, 0x02, 0x0c};
static const uint64_t adds[5] = {0x02, 0x01, 0x04, 0x08, 0x10};
static const uint64_t deletes[5] = {0x01, 0x02, 0x00, 0x00, 0x00};
static const uint16_t seconds[5] = {300, 240, 600, 600, 150};

/* The same with one fact less: "trailer off" is the absence of fact 0, "trailer on". */
static const uint8_t pair_commands[5] = {BAY_PAIRED_JOB, BAY_JOB, BAY_PAIRED_JOB, BAY_JOB, BAY_JOB};
static const uint64_t pair_needs[5] = {0x00, 0x01, 0x00, 0x01, 0x06};
static const uint64_t pair_absent[5] = {0x01, 0x00, 0x01, 0x00, 0x00};
static const uint64_t pair_adds[5] = {0x01, 0x00, 0x02, 0x04, 0x08};
static const uint64_t pair_deletes[5] = {0x00, 0x01, 0x00, 0x00, 0x00};
static uint8_t pair_table_bytes[163];

static struct bay_table first(size_t length) {
    struct bay_table table = {table_bytes, length};
    return table;
}

static struct bay_reading reading(uint64_t held, uint64_t unread) {
    struct bay_reading result = {held, unread};
    return result;
}

static struct bay_plan_room room(size_t entries, size_t bytes) {
    struct bay_plan_room result = {conditions, jobs, parents, depths, entries, conditions, 0, tree_bytes, bytes};
    return result;
}

static struct bay_plan_room pair_room(size_t entries, size_t absences_entries, size_t bytes) {
    struct bay_plan_room result = {conditions, jobs, parents, depths, entries, absences, absences_entries, tree_bytes, bytes};
    return result;
}

static struct bay_team_room team_room(size_t entries, size_t first_bytes, size_t second_bytes) {
    struct bay_team_room result = {conditions, jobs,       parents,     depths,      entries,     absences,
                                   entries,    first_tree, first_bytes, second_tree, second_bytes};
    return result;
}

static uint64_t list_conditions[10];
static uint8_t list_jobs[10];
static uint16_t list_parents[10];
static uint16_t list_depths[10];

/* List tables with room for so many entries, all of them filled with a pattern. */
static struct bay_list_room list_room(size_t entries) {
    struct bay_list_room result = {list_conditions, list_jobs, list_parents, list_depths, entries};
    memset(list_conditions, 0xa5, sizeof list_conditions);
    memset(list_jobs, 0xa5, sizeof list_jobs);
    memset(list_parents, 0xa5, sizeof list_parents);
    memset(list_depths, 0xa5, sizeof list_depths);
    return result;
}

/* Entries from this one on are as they were lent. */
static int unlisted(size_t from) {
    int same = 1;
    for (size_t i = from; i < 10; i++) {
        same = same && list_conditions[i] == UINT64_C(0xa5a5a5a5a5a5a5a5) && list_jobs[i] == 0xa5 && list_parents[i] == 0xa5a5 &&
               list_depths[i] == 0xa5a5;
    }
    return same;
}

/* So many entries are those that were planned last, and no other is written. */
static int listed_as_planned(size_t entries) {
    return memcmp(list_conditions, conditions, entries * sizeof conditions[0]) == 0 && memcmp(list_jobs, jobs, entries) == 0 &&
           memcmp(list_parents, parents, entries * sizeof parents[0]) == 0 &&
           memcmp(list_depths, depths, entries * sizeof depths[0]) == 0 && unlisted(entries);
}

static struct bay_condition condition(uint64_t present, uint64_t absent) {
    struct bay_condition result = {present, absent};
    return result;
}

static void tables(void) {
    struct bay_columns columns = {commands, needs, none, adds, deletes, seconds, 5};
    struct bay_written written = bay_table_write(300, columns, 0x10, table_bytes, sizeof table_bytes);
    REFUSED(written, BAY_FACT_COUNT_OUT_OF_RANGE, 0);
    CHECK(written.bytes == 0);
    /* 5 if it were cut to a byte. */
    written = bay_table_write(261, columns, 0x10, table_bytes, sizeof table_bytes);
    REFUSED(written, BAY_FACT_COUNT_OUT_OF_RANGE, 0);
    written = bay_table_write(4, columns, 0x10, table_bytes, sizeof table_bytes);
    REFUSED(written, BAY_TABLE_MASK_OUT_OF_RANGE, 2 + 4 * 27);
    written = bay_table_write(5, columns, 0x10, table_bytes, 146);
    REFUSED(written, BAY_TOO_SHORT, 0);
    CHECK(written.bytes == 147);
    CHECK(table_bytes[0] == 0);
    uint64_t answer[2];
    CHECK(bay_write_table(5, commands, 5, needs, 5, none, 5, adds, 4, deletes, 5, seconds, 5, 0x10, table_bytes, sizeof table_bytes,
                          answer) == BAY_UNEVEN);
    CHECK(bay_write_table(5, commands, 4, needs, 5, none, 5, adds, 5, deletes, 5, seconds, 5, 0x10, table_bytes, sizeof table_bytes,
                          answer) == BAY_UNEVEN);
    CHECK(bay_write_table(5, commands, 5, needs, 5, none, 4, adds, 5, deletes, 5, seconds, 5, 0x10, table_bytes, sizeof table_bytes,
                          answer) == BAY_UNEVEN);
    CHECK(answer[1] == 0 && table_bytes[0] == 0);
    written = bay_table_write(5, columns, 0x10, table_bytes, sizeof table_bytes);
    DONE(written);
    CHECK(written.bytes == 147);

    struct bay_header header = bay_table_read(first(147));
    DONE(header);
    CHECK(header.facts == 5 && header.jobs == 5 && header.goal == 0x10 && !header.paired);
    header = bay_table_read(first(146));
    REFUSED(header, BAY_TABLE_CUT, 146);
    CHECK(header.facts == 0 && header.jobs == 0 && header.goal == 0 && !header.paired);
    REFUSED(bay_table_read(first(145)), BAY_TABLE_CUT, 137);
    REFUSED(bay_table_read(first(148)), BAY_BYTES_AFTER_TABLE, 147);

    struct bay_job job = bay_table_read_job(first(147), 4);
    DONE(job);
    CHECK(job.needs == 0x0c && job.adds == 0x10 && job.deletes == 0 && job.seconds == 150);
    CHECK(job.absent == 0 && job.command == BAY_JOB);
    job = bay_table_read_job(first(147), 5);
    REFUSED(job, BAY_NO_SUCH_JOB, 0);
    CHECK(job.needs == 0 && job.adds == 0 && job.deletes == 0 && job.seconds == 0 && job.absent == 0 && job.command == 0);
    REFUSED(bay_table_read_job(first(147), 256), BAY_NO_SUCH_JOB, 0);
}

static void pair_tables(void) {
    struct bay_columns columns = {pair_commands, pair_needs, pair_absent, pair_adds, pair_deletes, seconds, 5};
    struct bay_written written = bay_table_write(4, columns, 0x08, pair_table_bytes, 162);
    REFUSED(written, BAY_TOO_SHORT, 0);
    CHECK(written.bytes == 163 && pair_table_bytes[0] == 0);
    /* Absent facts where the command has no place for them, and a command that is none of a job. */
    struct bay_columns unwritable = columns;
    unwritable.commands = commands;
    written = bay_table_write(300, unwritable, 0x08, pair_table_bytes, sizeof pair_table_bytes);
    REFUSED(written, BAY_UNWRITABLE, 0);
    CHECK(written.bytes == 0);
    static const uint8_t foreign[5] = {BAY_PAIRED_JOB, BAY_JOB, BAY_PAIRED_JOB, 0x30, 0};
    unwritable.commands = foreign;
    REFUSED(bay_table_write(4, unwritable, 0x08, pair_table_bytes, sizeof pair_table_bytes), BAY_UNWRITABLE, 3);
    /* Job 2 needs the trailer on and off. */
    static const uint64_t both[5] = {0x00, 0x01, 0x01, 0x01, 0x06};
    struct bay_columns contradictory = columns;
    contradictory.needs = both;
    REFUSED(bay_table_write(4, contradictory, 0x08, pair_table_bytes, sizeof pair_table_bytes), BAY_NEEDS_CONTRADICT, 2 + 35 + 27);
    written = bay_table_write(4, columns, 0x08, pair_table_bytes, sizeof pair_table_bytes);
    DONE(written);
    CHECK(written.bytes == 163);

    struct bay_table table = {pair_table_bytes, 163};
    struct bay_header header = bay_table_read(table);
    DONE(header);
    CHECK(header.facts == 4 && header.jobs == 5 && header.goal == 0x08 && header.paired);
    struct bay_job job = bay_table_read_job(table, 0);
    DONE(job);
    CHECK(job.needs == 0 && job.absent == 0x01 && job.adds == 0x01 && job.deletes == 0 && job.seconds == 300);
    CHECK(job.command == BAY_PAIRED_JOB);
    CHECK(bay_table_read_job(table, 1).command == BAY_JOB);
    table.length = 36;
    REFUSED(bay_table_read(table), BAY_TABLE_CUT, 2);
}

static void pair_plans(void) {
    struct bay_table table = {pair_table_bytes, 163};
    /* The fifth list table counts: 7 entries are needed of each. */
    REFUSED(bay_tree_plan(table, reading(0x01, 0), pair_room(7, 6, 200)), BAY_LIST_FULL, 6);
    REFUSED(bay_tree_plan(table, reading(0x01, 0), pair_room(6, 7, 200)), BAY_LIST_FULL, 6);
    REFUSED(bay_tree_plan(table, reading(0x01, 0), room(7, 200)), BAY_LIST_FULL, 0);
    struct bay_planned plan = bay_tree_plan(table, reading(0x01, 0), pair_room(7, 7, 152));
    REFUSED(plan, BAY_TREE_TOO_SHORT, 7);
    CHECK(!plan.paired);
    struct bay_shift_planned shift = bay_tree_plan_shift(table, pair_room(7, 7, 200));
    REFUSED(shift, BAY_LIST_FULL, 7);
    CHECK(!shift.paired);
    shift = bay_tree_plan_shift(table, pair_room(8, 8, 175));
    DONE(shift);
    CHECK(shift.entries == 8 && shift.tree_bytes == 175 && shift.paired);
    CHECK(conditions[7] == 0 && absences[7] == 0x01);

    plan = bay_tree_plan(table, reading(0x01, 0), pair_room(7, 7, 153));
    DONE(plan);
    CHECK(plan.entries == 7 && plan.tree_bytes == 153 && plan.way_jobs == 4 && plan.way_minutes == 26 && plan.paired);
    CHECK(absences[0] == 0 && conditions[2] == 0x04 && absences[2] == 0x01 && conditions[6] == 0x01 && absences[6] == 0);

    struct bay_tree tree = {tree_bytes, 153};
    struct bay_ticked ticked = bay_tree_tick(table, tree, reading(0x04, 0));
    DONE(ticked);
    CHECK(ticked.status == BAY_RUNNING && ticked.job == 2);
    ticked = bay_tree_tick(table, tree, reading(0x04, 0x01));
    DONE(ticked);
    CHECK(ticked.status == BAY_UNSETTLED && ticked.to_read == 0x01);
    /* Its own tree gives no list back, with room and without; nor does it under the table that is not paired. */
    REFUSED(bay_list_recover(table, tree, list_room(10)), BAY_OTHER_ORIGIN, 0);
    CHECK(unlisted(0));
    REFUSED(bay_list_recover(table, tree, list_room(0)), BAY_OTHER_ORIGIN, 0);
    REFUSED(bay_list_recover(first(147), tree, list_room(0)), BAY_OTHER_ORIGIN, 0);
    tree_bytes[3 + 16] = 0x80;
    REFUSED(bay_tree_tick(table, tree, reading(0x04, 0)), BAY_TREE_OPERAND_OUT_OF_RANGE, 3);
    REFUSED(bay_list_recover(table, tree, list_room(0)), BAY_TREE_OPERAND_OUT_OF_RANGE, 3);
    tree_bytes[3 + 16] = 0;

    /* Coupling needs the trailer absent, and read so. */
    struct bay_card card;
    DONE(bay_card_open(&card, table, reading(0x00, 0x01)));
    REFUSED(bay_card_report(&card, table, 0, 300), BAY_NEED_NOT_HELD, 0);
    DONE(bay_card_read_outside(&card, table, reading(0x01, 0)));
    REFUSED(bay_card_report(&card, table, 0, 300), BAY_NEED_NOT_HELD, 0);
    DONE(bay_card_read_outside(&card, table, reading(0, 0)));
    DONE(bay_card_report(&card, table, 0, 300));
    CHECK(card.held == 0x01 && card.unread == 0 && card.reports == 1 && card.planned == 300);
}

static void plans(void) {
    struct bay_table table = first(147);
    REFUSED(bay_tree_plan(table, reading(0x22, 0), room(9, 200)), BAY_BAD_READING, 0);
    REFUSED(bay_tree_plan(table, reading(0x02, 0x08), room(9, 200)), BAY_START_UNREAD, 0);
    REFUSED(bay_tree_plan(table, reading(0x08, 0), room(8, 200)), BAY_LIST_FULL, 8);
    REFUSED(bay_tree_plan(table, reading(0x08, 0), room(9, 200)), BAY_NO_WAY, 9);
    struct bay_planned plan = bay_tree_plan(table, reading(0x02, 0), room(9, 110));
    REFUSED(plan, BAY_TREE_TOO_SHORT, 8);
    CHECK(plan.entries == 0 && plan.tree_bytes == 0 && plan.way_jobs == 0 && plan.way_minutes == 0 && !plan.paired);
    CHECK(tree_bytes[0] == 0);

    struct bay_shift_planned shift = bay_tree_plan_shift(table, room(8, 200));
    REFUSED(shift, BAY_LIST_FULL, 8);
    CHECK(shift.entries == 0 && shift.tree_bytes == 0);
    shift = bay_tree_plan_shift(table, room(9, 200));
    DONE(shift);
    CHECK(shift.entries == 9 && shift.tree_bytes == 125 && !shift.paired);

    plan = bay_tree_plan(table, reading(0x02, 0), room(9, 200));
    DONE(plan);
    CHECK(plan.entries == 8 && plan.tree_bytes == 111 && plan.way_jobs == 4 && plan.way_minutes == 26 && !plan.paired);
    CHECK(jobs[0] == BAY_NO_JOB && jobs[7] == 3 && conditions[7] == 0x02 && parents[7] == 4 && depths[7] == 4);
    /* The fifth list table does not count here, however short, and is not touched, however long. */
    absences[0] = 0xa5;
    DONE(bay_tree_plan(table, reading(0x02, 0), pair_room(9, 1, 200)));
    DONE(bay_tree_plan_shift(table, pair_room(9, BAY_MAX_PAIR_ENTRIES, 200)));
    CHECK(absences[0] == 0xa5 && absences[1] == 0);
    DONE(bay_tree_plan(table, reading(0x02, 0), room(9, 200)));
}

/* A leaf under 16 nodes. */
static struct bay_tree too_deep(void) {
    static uint8_t bytes[16 * 3 + 3];
    static const uint8_t inner[] = {0x41, 1, 0};
    static const uint8_t leaf[] = {0x44, 0, 0x4f};
    for (size_t i = 0; i < 16; i++) {
        memcpy(bytes + 3 * i, inner, sizeof inner);
    }
    memcpy(bytes + 48, leaf, sizeof leaf);
    struct bay_tree tree = {bytes, sizeof bytes};
    return tree;
}

static void ticks(void) {
    struct bay_table table = first(147);
    struct bay_tree tree = {tree_bytes, 111};
    struct bay_ticked ticked = bay_tree_tick(table, tree, reading(0x02, 0));
    DONE(ticked);
    CHECK(ticked.status == BAY_RUNNING && ticked.job == 3 && ticked.to_read == 0);
    ticked = bay_tree_tick(table, tree, reading(0x02, 0x08));
    DONE(ticked);
    CHECK(ticked.status == BAY_UNSETTLED && ticked.job == BAY_NO_JOB && ticked.to_read == 0x08);
    ticked = bay_tree_tick(table, tree, reading(0x08, 0));
    DONE(ticked);
    CHECK(ticked.status == BAY_FAILURE && ticked.job == BAY_NO_JOB && ticked.to_read == 0);
    ticked = bay_tree_tick(table, tree, reading(0x10, 0));
    DONE(ticked);
    CHECK(ticked.status == BAY_SUCCESS && ticked.job == BAY_NO_JOB && ticked.to_read == 0);

    ticked = bay_tree_tick(table, tree, reading(0x02, 0x02));
    REFUSED(ticked, BAY_BAD_READING, 0);
    CHECK(ticked.status == BAY_NO_STATUS && ticked.job == BAY_NO_JOB && ticked.to_read == 0);
    tree.length = 110;
    REFUSED(bay_tree_tick(table, tree, reading(0x02, 0)), BAY_BAD_TREE, 110);
    tree.length = 109;
    REFUSED(bay_tree_tick(table, tree, reading(0x02, 0)), BAY_BAD_TREE, 108);
    tree_bytes[111] = 0x4f;
    tree.length = 112;
    REFUSED(bay_tree_tick(table, tree, reading(0x02, 0)), BAY_BAD_TREE, 111);
    tree.length = BAY_MAX_TREE_BYTES + 1;
    REFUSED(bay_tree_tick(table, tree, reading(0x02, 0)), BAY_BAD_TREE, 0);

    static const uint8_t no_job[] = {0x42, 1, 0, 0x44, 5, 0x4f};
    struct bay_tree small = {no_job, sizeof no_job};
    REFUSED(bay_tree_tick(table, small, reading(0x02, 0)), BAY_TREE_OPERAND_OUT_OF_RANGE, 3);
    REFUSED(bay_tree_tick(table, too_deep(), reading(0x02, 0)), BAY_TREE_TOO_DEEP, 48);
}

static void recoveries(void) {
    struct bay_table table = first(147);
    struct bay_tree tree = {tree_bytes, 111};
    struct bay_recovered recovered = bay_list_recover(table, tree, list_room(8));
    DONE(recovered);
    CHECK(recovered.entries == 8 && listed_as_planned(8));
    CHECK(list_jobs[0] == BAY_NO_JOB && list_conditions[7] == 0x02 && list_jobs[7] == 3 && list_parents[7] == 4 && list_depths[7] == 4);
    recovered = bay_list_recover(table, tree, list_room(7));
    REFUSED(recovered, BAY_LIST_FULL, 0);
    CHECK(recovered.entries == 0 && unlisted(0));
    /* Each of the four counts. */
    uint64_t answer[2];
    list_room(0);
    CHECK(bay_recover_list(table_bytes, 147, tree_bytes, 111, list_conditions, 7, list_jobs, 8, list_parents, 9, list_depths, 10,
                           answer) == BAY_LIST_FULL);
    CHECK(bay_recover_list(table_bytes, 147, tree_bytes, 111, list_conditions, 8, list_jobs, 7, list_parents, 9, list_depths, 10,
                           answer) == BAY_LIST_FULL);
    CHECK(bay_recover_list(table_bytes, 147, tree_bytes, 111, list_conditions, 8, list_jobs, 9, list_parents, 7, list_depths, 10,
                           answer) == BAY_LIST_FULL);
    CHECK(bay_recover_list(table_bytes, 147, tree_bytes, 111, list_conditions, 8, list_jobs, 9, list_parents, 10, list_depths, 7,
                           answer) == BAY_LIST_FULL);
    CHECK(answer[0] == BAY_LIST_FULL && answer[1] == 0 && unlisted(0));
    CHECK(bay_recover_list(table_bytes, 147, tree_bytes, 111, list_conditions, 10, list_jobs, 9, list_parents, 8, list_depths, 9,
                           answer) == BAY_OK);
    CHECK(answer[0] == BAY_OK && answer[1] == 8 && listed_as_planned(8));

    /* The table, then 13 to 15, then 20, and 10 last. */
    REFUSED(bay_list_recover(first(146), tree, list_room(0)), BAY_TABLE_CUT, 146);
    tree_bytes[109] = 2;
    recovered = bay_list_recover(table, tree, list_room(10));
    REFUSED(recovered, BAY_OTHER_ORIGIN, 0);
    CHECK(recovered.entries == 0 && unlisted(0));
    REFUSED(bay_list_recover(table, tree, list_room(0)), BAY_OTHER_ORIGIN, 0);
    tree_bytes[109] = 5;
    REFUSED(bay_list_recover(table, tree, list_room(0)), BAY_TREE_OPERAND_OUT_OF_RANGE, 108);
    tree_bytes[109] = 3;
    tree.length = 110;
    REFUSED(bay_list_recover(table, tree, list_room(0)), BAY_BAD_TREE, 110);
    tree.length = BAY_MAX_TREE_BYTES + 1;
    REFUSED(bay_list_recover(table, tree, list_room(0)), BAY_BAD_TREE, 0);
    CHECK(unlisted(0));
    REFUSED(bay_list_recover(table, too_deep(), list_room(0)), BAY_TREE_TOO_DEEP, 48);

    /* The whole shift's tree; and one entry alone, the goal. */
    DONE(bay_tree_plan_shift(table, room(9, 200)));
    tree.length = 125;
    recovered = bay_list_recover(table, tree, list_room(9));
    DONE(recovered);
    CHECK(recovered.entries == 9 && listed_as_planned(9));
    DONE(bay_tree_plan(table, reading(0x10, 0), room(9, 200)));
    tree.length = 13;
    recovered = bay_list_recover(table, tree, list_room(1));
    DONE(recovered);
    CHECK(recovered.entries == 1 && listed_as_planned(1));
    DONE(bay_tree_plan(table, reading(0x02, 0), room(9, 200)));
}

static uint16_t distances[BAY_MAX_STATES + 1];

/* A row for distances, all of it filled with a pattern. */
static uint16_t *distance_row(void) {
    memset(distances, 0xa5, sizeof distances);
    return distances;
}

/* Elements from this one on are as they were lent. */
static int unmeasured(size_t from) {
    int same = 1;
    for (size_t i = from; i < BAY_MAX_STATES + 1; i++) {
        same = same && distances[i] == 0xa5a5;
    }
    return same;
}

/* A state's distance by the list for the whole shift, which was planned last: the depth of the first entry that it meets. */
static uint16_t depth_met(uint64_t held, size_t entries, int paired) {
    for (size_t i = 0; i < entries; i++) {
        if ((conditions[i] & ~held) == 0 && (!paired || (absences[i] & held) == 0)) {
            return depths[i];
        }
    }
    return BAY_NO_DISTANCE;
}

static int measured_as_planned(size_t states, size_t entries, int paired) {
    int same = 1;
    for (size_t held = 0; held < states; held++) {
        same = same && distances[held] == depth_met(held, entries, paired);
    }
    return same;
}

/* A table without jobs, whose goal is its last fact. */
static struct bay_table without_jobs(size_t facts) {
    static uint8_t bytes[12];
    struct bay_columns columns = {commands, none, none, none, none, seconds, 0};
    struct bay_written written = bay_table_write(facts, columns, (uint64_t)1 << (facts - 1), bytes, sizeof bytes);
    struct bay_table table = {bytes, written.bytes};
    DONE(written);
    return table;
}

static void measures(void) {
    /* The sixteen states in which it is sealed follow: 0. */
    static const uint16_t trailer[32] = {BAY_NO_DISTANCE, 4, 4, 3, BAY_NO_DISTANCE, 3, 2, 2, BAY_NO_DISTANCE, 2, 3, 2, 1, 1, 1, 1};
    struct bay_table table = first(147);
    struct bay_measured measured = bay_distances_measure(table, distance_row(), 32);
    DONE(measured);
    CHECK(measured.states == 32 && memcmp(distances, trailer, sizeof trailer) == 0 && unmeasured(32));
    DONE(bay_tree_plan_shift(table, room(9, 200)));
    CHECK(measured_as_planned(32, 9, 0));
    DONE(bay_tree_plan(table, reading(0x02, 0), room(9, 200)));

    /* One element too few, one too many, as many as another table has, none, and more than there can be. */
    static const size_t lengths[] = {31, 33, 16, 64, 0, 5, BAY_MAX_STATES, BAY_MAX_STATES + 1};
    for (size_t i = 0; i < sizeof lengths / sizeof lengths[0]; i++) {
        measured = bay_distances_measure(table, distance_row(), lengths[i]);
        REFUSED(measured, BAY_BAD_ROW_LENGTH, 0);
        CHECK(measured.states == 0 && unmeasured(0));
    }
    /* The table comes before that. */
    measured = bay_distances_measure(first(146), distance_row(), 32);
    REFUSED(measured, BAY_TABLE_CUT, 146);
    CHECK(measured.states == 0 && unmeasured(0));
    REFUSED(bay_distances_measure(first(148), distance_row(), 0), BAY_BYTES_AFTER_TABLE, 147);
    CHECK(unmeasured(0));

    /* One fact, the most facts, and more: 25 comes before 26, and after all of the table. */
    measured = bay_distances_measure(without_jobs(1), distance_row(), 2);
    DONE(measured);
    CHECK(measured.states == 2 && distances[0] == BAY_NO_DISTANCE && distances[1] == 0 && unmeasured(2));
    measured = bay_distances_measure(without_jobs(BAY_MAX_MEASURED_FACTS), distance_row(), BAY_MAX_STATES);
    DONE(measured);
    CHECK(measured.states == BAY_MAX_STATES && distances[0] == BAY_NO_DISTANCE && distances[0x3fff] == BAY_NO_DISTANCE);
    CHECK(distances[0x4000] == 0 && distances[0x7fff] == 0 && unmeasured(BAY_MAX_STATES));
    REFUSED(bay_distances_measure(without_jobs(BAY_MAX_MEASURED_FACTS), distance_row(), BAY_MAX_STATES - 1), BAY_BAD_ROW_LENGTH, 0);
    static const size_t too_many[] = {16, 17, 31, 32, 64};
    for (size_t i = 0; i < sizeof too_many / sizeof too_many[0]; i++) {
        struct bay_table wide = without_jobs(too_many[i]);
        measured = bay_distances_measure(wide, distance_row(), BAY_MAX_STATES);
        REFUSED(measured, BAY_TOO_MANY_FACTS, 0);
        CHECK(measured.states == 0 && unmeasured(0));
        REFUSED(bay_distances_measure(wide, distance_row(), 0), BAY_TOO_MANY_FACTS, 0);
        REFUSED(bay_distances_measure(wide, distance_row(), 1), BAY_TOO_MANY_FACTS, 0);
        CHECK(unmeasured(0));
        wide.length--;
        REFUSED(bay_distances_measure(wide, distance_row(), BAY_MAX_STATES), BAY_TABLE_CUT, wide.length);
    }

    /* The words. */
    uint64_t answer[2];
    CHECK(bay_measure_distances(table_bytes, 147, distance_row(), 32, answer) == BAY_OK && answer[0] == 0 && answer[1] == 32);
    CHECK(bay_measure_distances(table_bytes, 147, distance_row(), 31, answer) == BAY_BAD_ROW_LENGTH);
    CHECK(answer[0] == 26 && answer[1] == 0);
    CHECK(bay_measure_distances(without_jobs(16).bytes, 12, distance_row(), 31, answer) == BAY_TOO_MANY_FACTS);
    CHECK(answer[0] == 25 && answer[1] == 0);
}

static void pair_measures(void) {
    /* The eight states in which it is sealed follow: 0. */
    static const uint16_t trailer[16] = {4, 4, 3, 2, 2, 3, 1, 1};
    struct bay_table table = {pair_table_bytes, 163};
    struct bay_measured measured = bay_distances_measure(table, distance_row(), 16);
    DONE(measured);
    CHECK(measured.states == 16 && memcmp(distances, trailer, sizeof trailer) == 0 && unmeasured(16));
    DONE(bay_tree_plan_shift(table, pair_room(8, 8, 175)));
    CHECK(measured_as_planned(16, 8, 1));
    REFUSED(bay_distances_measure(table, distance_row(), 15), BAY_BAD_ROW_LENGTH, 0);
    REFUSED(bay_distances_measure(table, distance_row(), 32), BAY_BAD_ROW_LENGTH, 0);
    CHECK(unmeasured(0));
    table.length = 36;
    REFUSED(bay_distances_measure(table, distance_row(), 16), BAY_TABLE_CUT, 2);
    CHECK(unmeasured(0));
    /* A job that needs a fact both held and absent, and one that is too long, in a table with too many facts. */
    uint8_t stopped[2 + 35 + 10];
    memcpy(stopped, pair_table_bytes, 2 + 35);
    memcpy(stopped + 2 + 35, pair_table_bytes + 153, 10);
    struct bay_table faulty = {stopped, sizeof stopped};
    stopped[1] = 16;
    REFUSED(bay_distances_measure(faulty, distance_row(), 16), BAY_TOO_MANY_FACTS, 0);
    stopped[2 + 1] = 0x01;
    stopped[2 + 1 + 16] = 0x02;
    REFUSED(bay_distances_measure(faulty, distance_row(), 16), BAY_NEEDS_CONTRADICT, 2);
    stopped[2 + 34] = 0xff;
    REFUSED(bay_distances_measure(faulty, distance_row(), 16), BAY_JOB_TOO_LONG, 2);
    CHECK(unmeasured(0));
}

/* Of the trailer the first fitter measures, the second couples and uncouples, and both may seal. */
static const uint8_t licence_bytes[6] = {BAY_SECOND_FITTER, BAY_SECOND_FITTER, BAY_FIRST_FITTER,
                                         BAY_FIRST_FITTER,  BAY_BOTH_FITTERS,  BAY_FIRST_FITTER};

static struct bay_licences licences(size_t length) {
    struct bay_licences result = {licence_bytes, length};
    return result;
}

static int fitter_told(struct bay_tree tree, uint64_t held, enum bay_status status, size_t job) {
    struct bay_ticked ticked = bay_tree_tick(first(147), tree, reading(held, 0));
    return ticked.refusal == BAY_OK && ticked.place == 0 && ticked.status == status && ticked.job == job && ticked.to_read == 0;
}

/* What both fitters are told of a state by their trees: either's job, or BAY_NO_JOB where he waits. */
static int team_told(uint64_t held, size_t first_job, size_t second_job) {
    struct bay_tree trees[2] = {{first_tree, 109}, {second_tree, 106}};
    return fitter_told(trees[0], held, first_job == BAY_NO_JOB ? BAY_WAITING : BAY_RUNNING, first_job) &&
           fitter_told(trees[1], held, second_job == BAY_NO_JOB ? BAY_WAITING : BAY_RUNNING, second_job);
}

/* Both are told the same, which is no job. */
static int alike(uint64_t held, enum bay_status status) {
    struct bay_tree trees[2] = {{first_tree, 109}, {second_tree, 106}};
    return fitter_told(trees[0], held, status, BAY_NO_JOB) && fitter_told(trees[1], held, status, BAY_NO_JOB);
}

static void teams(void) {
    struct bay_table table = first(147);
    CHECK(BAY_FIRST_FITTER == 1 && BAY_SECOND_FITTER == 2 && BAY_BOTH_FITTERS == 3);
    REFUSED(bay_tree_plan_team(first(146), licences(0), reading(0x20, 0), team_room(0, 0, 0)), BAY_TABLE_CUT, 146);
    REFUSED(bay_tree_plan_team(table, licences(4), reading(0x20, 0), team_room(0, 0, 0)), BAY_BAD_LICENCES, 0);
    REFUSED(bay_tree_plan_team(table, licences(6), reading(0x20, 0), team_room(0, 0, 0)), BAY_BAD_LICENCES, 0);
    static const uint8_t bad_bytes[5] = {1, 2, 3, 4, 0};
    struct bay_licences bad = {bad_bytes, 5};
    REFUSED(bay_tree_plan_team(table, bad, reading(0x20, 0), team_room(0, 0, 0)), BAY_BAD_LICENCES, 3);
    REFUSED(bay_tree_plan_team(table, licences(5), reading(0x20, 0), team_room(0, 0, 0)), BAY_BAD_READING, 0);
    REFUSED(bay_tree_plan_team(table, licences(5), reading(0x02, 0x08), team_room(0, 0, 0)), BAY_START_UNREAD, 0);
    REFUSED(bay_tree_plan_team(table, licences(5), reading(0x08, 0), team_room(8, 112, 112)), BAY_LIST_FULL, 8);
    REFUSED(bay_tree_plan_team(table, licences(5), reading(0x08, 0), team_room(9, 112, 112)), BAY_NO_WAY, 9);
    REFUSED(bay_tree_plan_team(table, licences(5), reading(0x02, 0), team_room(9, 108, 112)), BAY_TREE_TOO_SHORT, 8);
    struct bay_team_planned plan = bay_tree_plan_team(table, licences(5), reading(0x02, 0), team_room(9, 112, 105));
    REFUSED(plan, BAY_TREE_TOO_SHORT, 8);
    CHECK(plan.entries == 0 && plan.first_bytes == 0 && plan.second_bytes == 0 && !plan.paired);
    CHECK(first_tree[0] == 0 && second_tree[0] == 0);

    absences[0] = 0xa5;
    plan = bay_tree_plan_team(table, licences(5), reading(0x02, 0), team_room(8, 109, 106));
    DONE(plan);
    CHECK(plan.entries == 8 && plan.first_bytes == 109 && plan.second_bytes == 106 && !plan.paired);
    CHECK(jobs[0] == BAY_NO_JOB && jobs[7] == 3 && conditions[7] == 0x02 && parents[7] == 4 && depths[7] == 4);
    CHECK(absences[0] == 0xa5);
    CHECK(first_tree[108] == 0x4f && first_tree[109] == 0 && second_tree[105] == 0x4f && second_tree[106] == 0);
    CHECK(team_told(0x02, 3, BAY_NO_JOB) && team_told(0x0a, BAY_NO_JOB, 1) && team_told(0x0c, 4, BAY_NO_JOB));
    CHECK(alike(0x10, BAY_SUCCESS) && alike(0x08, BAY_FAILURE));

    /* Neither tree gives the list back, since something waits in both; where one fitter has every job, his does. */
    struct bay_tree of_first = {first_tree, 109}, of_second = {second_tree, 106};
    REFUSED(bay_list_recover(table, of_first, list_room(8)), BAY_OTHER_ORIGIN, 0);
    REFUSED(bay_list_recover(table, of_second, list_room(8)), BAY_OTHER_ORIGIN, 0);
    static const uint8_t all_second[5] = {2, 2, 2, 2, 2};
    struct bay_licences of_one = {all_second, 5};
    DONE(bay_tree_plan_team(table, of_one, reading(0x02, 0), team_room(8, 104, 111)));
    of_second.length = 111;
    DONE(bay_list_recover(table, of_second, list_room(8)));
    CHECK(listed_as_planned(8));

    /* The words of a waiting leaf: a status of its own, and no value. */
    static const uint8_t waiting[] = {0x46, 0x4f, 0x4f};
    uint64_t answer[3];
    CHECK(bay_tick(table.bytes, table.length, waiting, 2, 0x02, 0, answer) == 0 && answer[1] == 4 && answer[2] == 0);
    struct bay_tree cut = {waiting, 1};
    REFUSED(bay_tree_tick(table, cut, reading(0x02, 0)), BAY_BAD_TREE, 1);
    struct bay_tree longer = {waiting, 3};
    REFUSED(bay_tree_tick(table, longer, reading(0x02, 0)), BAY_BAD_TREE, 2);
}

static void pair_teams(void) {
    struct bay_table table = {pair_table_bytes, 163};
    static uint8_t first_bytes[151], second_bytes[149];
    struct bay_team_room room = team_room(7, 0, 0);
    room.first = first_bytes;
    room.first_bytes = sizeof first_bytes;
    room.second = second_bytes;
    room.second_bytes = sizeof second_bytes - 1;
    REFUSED(bay_tree_plan_team(table, licences(5), reading(0x01, 0), room), BAY_TREE_TOO_SHORT, 7);
    CHECK(first_bytes[0] == 0 && second_bytes[0] == 0);
    room.second_bytes = sizeof second_bytes;
    room.absences_entries = 6;
    REFUSED(bay_tree_plan_team(table, licences(5), reading(0x01, 0), room), BAY_LIST_FULL, 6);
    room.absences_entries = 7;
    struct bay_team_planned plan = bay_tree_plan_team(table, licences(5), reading(0x01, 0), room);
    DONE(plan);
    CHECK(plan.entries == 7 && plan.first_bytes == 151 && plan.second_bytes == 149 && plan.paired);
    CHECK(absences[0] == 0 && conditions[2] == 0x04 && absences[2] == 0x01);
    struct bay_tree tree = {second_bytes, 149};
    struct bay_ticked ticked = bay_tree_tick(table, tree, reading(0x05, 0));
    CHECK(ticked.status == BAY_RUNNING && ticked.job == 1);
    ticked = bay_tree_tick(table, tree, reading(0x04, 0));
    CHECK(ticked.status == BAY_WAITING && ticked.job == BAY_NO_JOB && ticked.to_read == 0);
    ticked = bay_tree_tick(table, tree, reading(0x04, 0x01));
    CHECK(ticked.status == BAY_UNSETTLED && ticked.to_read == 0x01);
}

static struct bay_found search(size_t entries, size_t second_masks, struct bay_condition wanted) {
    static const uint64_t listed[] = {0x03, 0x01, 0x04, 0x01, 0x0c};
    static const uint64_t second[] = {0x00, 0x10, 0x00, 0x10, 0x00};
    struct bay_list list = {listed, entries, second, second_masks};
    return bay_list_newest_weaker(list, wanted);
}

static void searches(void) {
    struct bay_found found = search(5, 0, condition(0x03, 0));
    CHECK(found.any && found.entry == 3);
    found = search(3, 0, condition(0x03, 0));
    CHECK(found.any && found.entry == 1);
    found = search(1, 0, condition(0x03, 0));
    CHECK(found.any && found.entry == 0);
    found = search(5, 0, condition(0x08, 0));
    CHECK(!found.any && found.entry == 0);
    found = search(0, 0, condition(0x03, 0));
    CHECK(!found.any && found.entry == 0);
    /* The entries that want fact 4 absent, too; with three second masks entry 3 wants nothing absent. */
    found = search(5, 5, condition(0x03, 0));
    CHECK(found.any && found.entry == 0);
    found = search(5, 5, condition(0x01, 0));
    CHECK(!found.any && found.entry == 0);
    found = search(5, 5, condition(0x03, 0x30));
    CHECK(found.any && found.entry == 3);
    found = search(5, 3, condition(0x03, 0));
    CHECK(found.any && found.entry == 3);
}

static uint64_t yard_held[5], yard_unread[5], yard_values[5];
static uint8_t yard_statuses[5];

/* So many vehicles on the first entries of the list planned last. */
static struct bay_batch_ticked yard(struct bay_table table, size_t entries, size_t second_masks, size_t vehicles) {
    struct bay_list list = {conditions, entries, absences, second_masks};
    struct bay_batch batch = {yard_held, yard_unread, yard_statuses, yard_values, vehicles};
    memset(yard_statuses, 0xa5, sizeof yard_statuses);
    memset(yard_values, 0xa5, sizeof yard_values);
    return bay_list_tick_all(table, list, jobs, batch);
}

static void park(size_t vehicle, uint64_t held, uint64_t unread) {
    yard_held[vehicle] = held;
    yard_unread[vehicle] = unread;
}

static int told(size_t vehicle, enum bay_status status, size_t job, uint64_t to_read) {
    struct bay_batch batch = {yard_held, yard_unread, yard_statuses, yard_values, 5};
    struct bay_ticked ticked = bay_batch_vehicle(batch, vehicle);
    return ticked.refusal == BAY_OK && ticked.place == 0 && ticked.status == status && ticked.job == job && ticked.to_read == to_read;
}

static int untold(size_t vehicle) {
    return yard_statuses[vehicle] == 0xa5 && yard_values[vehicle] == UINT64_C(0xa5a5a5a5a5a5a5a5);
}

static void batches(void) {
    struct bay_table table = first(147);
    park(0, 0x10, 0);
    park(1, 0x02, 0x08);
    park(2, 0x03, 0);
    park(3, 0x08, 0);
    park(4, 0x20, 0);
    struct bay_batch_ticked ticked = yard(table, 8, 0, 4);
    DONE(ticked);
    CHECK(ticked.entries_read == 8);
    CHECK(told(0, BAY_SUCCESS, BAY_NO_JOB, 0) && told(1, BAY_UNSETTLED, BAY_NO_JOB, 0x08));
    CHECK(told(2, BAY_RUNNING, 3, 0) && told(3, BAY_FAILURE, BAY_NO_JOB, 0) && untold(4));
    ticked = yard(table, 8, BAY_MAX_PAIR_ENTRIES, 3);
    DONE(ticked);
    CHECK(ticked.entries_read == 6 && untold(3));
    ticked = yard(table, 8, 0, 0);
    DONE(ticked);
    CHECK(ticked.entries_read == 0 && untold(0));

    ticked = yard(table, 8, 0, 5);
    REFUSED(ticked, BAY_BAD_READING, 4);
    CHECK(ticked.entries_read == 0 && untold(0) && untold(4));
    REFUSED(yard(first(146), 8, 0, 5), BAY_TABLE_CUT, 146);
    REFUSED(yard(table, 0, 0, 0), BAY_BAD_TREE, 0);
    conditions[6] |= 0x20;
    REFUSED(yard(table, 8, 0, 4), BAY_TREE_OPERAND_OUT_OF_RANGE, 6);
    conditions[6] &= 0x1f;
    jobs[7] = 5;
    REFUSED(yard(table, 8, 0, 0), BAY_TREE_OPERAND_OUT_OF_RANGE, 7);
    CHECK(untold(0));
    DONE(yard(table, 7, 0, 4));
    jobs[7] = 3;
    /* One entry too many for either table. */
    static uint64_t longer[BAY_MAX_ENTRIES + 1];
    static uint64_t longer_absences[BAY_MAX_ENTRIES + 1];
    static uint8_t longer_jobs[BAY_MAX_ENTRIES + 1];
    struct bay_list list = {longer, BAY_MAX_ENTRIES + 1, longer_absences, 0};
    struct bay_batch batch = {yard_held, yard_unread, yard_statuses, yard_values, 4};
    REFUSED(bay_list_tick_all(table, list, longer_jobs, batch), BAY_BAD_TREE, 0);
    list.entries = BAY_MAX_ENTRIES;
    DONE(bay_list_tick_all(table, list, longer_jobs, batch));
    struct bay_table pairs = {pair_table_bytes, 163};
    batch.vehicles = 1;
    yard_held[0] = 0x08;
    list.absences_entries = BAY_MAX_PAIR_ENTRIES + 1;
    REFUSED(bay_list_tick_all(pairs, list, longer_jobs, batch), BAY_BAD_TREE, 0);
    list.absences_entries = BAY_MAX_PAIR_ENTRIES;
    DONE(bay_list_tick_all(pairs, list, longer_jobs, batch));
}

static void pair_batches(void) {
    struct bay_table table = {pair_table_bytes, 163};
    park(0, 0x08, 0x07);
    park(1, 0x04, 0);
    park(2, 0x04, 0x01);
    park(3, 0x00, 0);
    struct bay_batch_ticked ticked = yard(table, 7, BAY_MAX_PAIR_ENTRIES, 3);
    DONE(ticked);
    CHECK(ticked.entries_read == 3 && untold(3));
    CHECK(told(0, BAY_SUCCESS, BAY_NO_JOB, 0) && told(1, BAY_RUNNING, 2, 0) && told(2, BAY_UNSETTLED, BAY_NO_JOB, 0x01));
    /* The list ends with its second masks: five, two, none. */
    ticked = yard(table, 7, 5, 4);
    DONE(ticked);
    CHECK(ticked.entries_read == 5 && told(3, BAY_FAILURE, BAY_NO_JOB, 0));
    ticked = yard(table, 7, 2, 2);
    DONE(ticked);
    CHECK(ticked.entries_read == 2 && told(1, BAY_FAILURE, BAY_NO_JOB, 0));
    REFUSED(yard(table, 7, 0, 4), BAY_BAD_TREE, 0);
    absences[2] |= 0x10;
    REFUSED(yard(table, 7, 7, 4), BAY_TREE_OPERAND_OUT_OF_RANGE, 2);
    absences[2] &= 0x0f;
}

static void cards(void) {
    struct bay_table table = first(147);
    struct bay_tree tree = {tree_bytes, 111};
    struct bay_card card;
    DONE(bay_card_open(&card, table, reading(0x02, 0x01)));
    CHECK(card.held == 0x02 && card.unread == 0x01 && card.reports == 0 && card.taken == 0 && card.planned == 0);
    struct bay_ticked ticked = bay_card_tick(&card, table, tree);
    CHECK(ticked.status == BAY_UNSETTLED && ticked.to_read == 0x01);
    REFUSED(bay_card_read_outside(&card, table, reading(0x02, 0x20)), BAY_BAD_READING, 0);
    CHECK(card.held == 0x02 && card.unread == 0x01);
    DONE(bay_card_read_outside(&card, table, reading(0x02, 0)));
    CHECK(card.held == 0x02 && card.unread == 0);

    struct bay_card before = card;
    /* Job 0 if they were cut to a byte. */
    static const size_t no_job[] = {5, 255, 256, 512, 300, (size_t)1 << 32, (size_t)1 << 63, SIZE_MAX};
    for (size_t i = 0; i < sizeof no_job / sizeof no_job[0]; i++) {
        REFUSED(bay_card_report(&card, table, no_job[i], 60), BAY_NO_SUCH_JOB, 0);
    }
    REFUSED(bay_card_report(&card, table, 0, 60), BAY_NEED_NOT_HELD, 0);
    REFUSED(bay_card_report(&card, first(100), 3, 60), BAY_TABLE_CUT, 83);
    CHECK(card.held == before.held && card.unread == before.unread && card.reports == 0 && card.taken == 0 && card.planned == 0);
    struct bay_done done = bay_card_report(&card, table, 3, 65535);
    DONE(done);
    CHECK(card.held == 0x0a && card.unread == 0 && card.reports == 1 && card.taken == 65535 && card.planned == 600);
    CHECK(bay_card_lateness(&card) == 1082);
    ticked = bay_card_tick(&card, table, tree);
    CHECK(ticked.refusal == BAY_OK && ticked.status == BAY_RUNNING && ticked.job == 1);
    card.reports = 65535;
    REFUSED(bay_card_report(&card, table, 1, 60), BAY_CARD_EXHAUSTED, 0);
    card.held = 0x20;
    REFUSED(bay_card_tick(&card, table, tree), BAY_BAD_READING, 0);
}

static struct bay_fact_map fact_map(const uint8_t *bytes, size_t length) {
    struct bay_fact_map result = {bytes, length};
    return result;
}

/* A card in use, which no report could be made on. */
static struct bay_card full_card(uint64_t held, uint64_t unread) {
    struct bay_card card = {held, unread, 65535, UINT32_MAX, 7};
    return card;
}

static int is_full_card(const struct bay_card *card, uint64_t held, uint64_t unread) {
    return card->held == held && card->unread == unread && card->reports == 65535 && card->taken == UINT32_MAX && card->planned == 7;
}

static void migrations(void) {
    /* "trailer off" is dropped, and the other facts go one down; or up again. */
    static const uint8_t down[6] = {BAY_DROPPED, 0, 1, 2, 3, BAY_DROPPED};
    static const uint8_t up[4] = {1, 2, 3, 4};
    struct bay_table trailer = first(147);
    struct bay_table less = {pair_table_bytes, 163};
    /* Held, absent and unread are carried over, and reports and seconds remain. */
    struct bay_card card = full_card(0x0a, 0x05);
    struct bay_done done = bay_card_migrate(&card, trailer, less, fact_map(down, 5));
    DONE(done);
    CHECK(is_full_card(&card, 0x05, 0x02));
    /* "trailer off" has no source. */
    done = bay_card_migrate(&card, less, trailer, fact_map(up, 4));
    DONE(done);
    CHECK(is_full_card(&card, 0x0a, 0x05));
    static const uint8_t all_dropped[5] = {BAY_DROPPED, BAY_DROPPED, BAY_DROPPED, BAY_DROPPED, BAY_DROPPED};
    done = bay_card_migrate(&card, trailer, less, fact_map(all_dropped, 5));
    DONE(done);
    CHECK(is_full_card(&card, 0, 0x0f));

    /* Maps that are too short, too long and empty; a number just outside and one far outside; two facts sent to one. */
    static const uint8_t at_f[5] = {BAY_DROPPED, 0, 1, 2, 4};
    static const uint8_t far_outside[5] = {254, 0, 1, 2, 3};
    static const uint8_t shared[5] = {3, 0, 1, 2, 3};
    card = full_card(0x0a, 0x05);
    REFUSED(bay_card_migrate(&card, trailer, less, fact_map(down, 4)), BAY_BAD_MAP, 0);
    REFUSED(bay_card_migrate(&card, trailer, less, fact_map(down, 6)), BAY_BAD_MAP, 0);
    REFUSED(bay_card_migrate(&card, trailer, less, fact_map(down, 0)), BAY_BAD_MAP, 0);
    REFUSED(bay_card_migrate(&card, trailer, less, fact_map(at_f, 5)), BAY_BAD_MAP, 0);
    REFUSED(bay_card_migrate(&card, trailer, less, fact_map(far_outside, 5)), BAY_BAD_MAP, 0);
    REFUSED(bay_card_migrate(&card, trailer, less, fact_map(shared, 5)), BAY_BAD_MAP, 0);
    CHECK(is_full_card(&card, 0x0a, 0x05));
    /* The old table, the new one and 8 come before that, in this order. */
    struct bay_table cut = {pair_table_bytes, 162};
    card = full_card(0x22, 0x01);
    REFUSED(bay_card_migrate(&card, first(146), cut, fact_map(shared, 5)), BAY_TABLE_CUT, 146);
    REFUSED(bay_card_migrate(&card, first(148), cut, fact_map(shared, 5)), BAY_BYTES_AFTER_TABLE, 147);
    REFUSED(bay_card_migrate(&card, trailer, cut, fact_map(shared, 5)), BAY_TABLE_CUT, 162);
    REFUSED(bay_card_migrate(&card, trailer, less, fact_map(shared, 5)), BAY_BAD_READING, 0);
    CHECK(is_full_card(&card, 0x22, 0x01));
    /* The masks are the old table's: 0x10 is a fact of the trailer, and none with one fact less. */
    card = full_card(0x10, 0);
    REFUSED(bay_card_migrate(&card, less, trailer, fact_map(up, 4)), BAY_BAD_READING, 0);
    done = bay_card_migrate(&card, trailer, less, fact_map(down, 5));
    DONE(done);
    CHECK(is_full_card(&card, 0x08, 0));

    /* A card goes on as a new one would that is opened on its reading. */
    DONE(bay_card_open(&card, trailer, reading(0x02, 0x01)));
    done = bay_card_report(&card, trailer, 3, 700);
    DONE(done);
    done = bay_card_migrate(&card, trailer, less, fact_map(down, 5));
    DONE(done);
    CHECK(card.held == 0x05 && card.unread == 0 && card.reports == 1 && card.taken == 700 && card.planned == 600);
    struct bay_card fresh;
    DONE(bay_card_open(&fresh, less, reading(card.held, card.unread)));
    struct bay_shift_planned shift = bay_tree_plan_shift(less, pair_room(8, 8, 175));
    DONE(shift);
    struct bay_tree tree = {tree_bytes, shift.tree_bytes};
    static const size_t way[3] = {1, 2, 4};
    for (size_t i = 0; i < 3; i++) {
        CHECK(bay_card_tick(&card, less, tree).job == way[i] && bay_card_tick(&fresh, less, tree).job == way[i]);
        REFUSED(bay_card_report(&card, less, 5, 60), BAY_NO_SUCH_JOB, 0);
        REFUSED(bay_card_report(&fresh, less, 5, 60), BAY_NO_SUCH_JOB, 0);
        done = bay_card_report(&card, less, way[i], 60);
        DONE(done);
        done = bay_card_report(&fresh, less, way[i], 60);
        DONE(done);
        CHECK(card.held == fresh.held && card.unread == fresh.unread && card.reports == fresh.reports + 1);
    }
    CHECK(bay_card_tick(&card, less, tree).status == BAY_SUCCESS && bay_card_tick(&fresh, less, tree).status == BAY_SUCCESS);

    /* The words. */
    uint64_t answer[2] = {9, 9};
    uint64_t held = 0x0a, unread = 0x05;
    CHECK(bay_migrate(table_bytes, 147, pair_table_bytes, 163, shared, 5, &held, &unread, answer) == BAY_BAD_MAP);
    CHECK(answer[0] == 27 && answer[1] == 0 && held == 0x0a && unread == 0x05);
    CHECK(bay_migrate(table_bytes, 147, pair_table_bytes, 163, down, 5, &held, &unread, answer) == BAY_OK);
    CHECK(answer[0] == 0 && answer[1] == 0 && held == 0x05 && unread == 0x02);
}

int main(void) {
    CHECK(BAY_MAX_TABLE_BYTES == 2 + 35 * BAY_MAX_JOBS + 10);
    CHECK(22 * BAY_MAX_PAIR_ENTRIES - 1 <= BAY_MAX_TREE_BYTES && 22 * (BAY_MAX_PAIR_ENTRIES + 1) - 1 > BAY_MAX_TREE_BYTES);
    CHECK(BAY_MAX_STATES == 1 << BAY_MAX_MEASURED_FACTS && BAY_NO_DISTANCE >= BAY_MAX_STATES);
    tables();
    pair_tables();
    plans();
    searches();
    ticks();
    recoveries();
    measures();
    batches();
    cards();
    teams();
    pair_plans();
    pair_batches();
    pair_teams();
    pair_measures();
    migrations();
    printf("%d passed, %d failed\n", passed, failed);
    return failed != 0;
}
