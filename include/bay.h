/* The bay planner: a C interface to the proved library. C99 and C++11.
 *
 * Build:  tools/library.sh        gives target/staticlib/libbay.a (x86-64 Linux)
 * Link:   cc program.c -Iinclude target/staticlib/libbay.a
 *
 * Every function takes every input, checks all of it, and returns. It needs no memory but what it is lent, and less stack than
 * BAY_STACK_BYTES.
 *
 * Two layers.
 *   Words: the functions that have an `answer` are the proved ones. Each returns the answer's first word: 0, or the number of a
 *     refusal. `answer` is written whole in every case: 0 and the values; of a refusal its number, its place, and 0 in every further
 *     word.
 *   Names: below each stands an inline function over it, bay_SUBJECT_VERB (bay_tree_plan over bay_plan, bay_card_open over bay_open),
 *     which lends the answer and gives its words names. Its result is a struct: `refusal` (BAY_OK, or why), `place` (0 unless refused),
 *     then the values, all 0 where the call was refused. A table, a tree, a list, a row of licences, a map of facts, a reading, a batch
 *     of vehicles and a card come as structs.
 *
 * Lent buffers. A buffer is a pointer and a number of elements. The pointer is aligned for its type, and not null, also where the
 * number is 0. What one call is lent, `answer` and the parts of a card included, does not overlap, and nobody else writes to it
 * meanwhile. That, and that each pointer is good for its length, is all that is asked of the caller.
 *
 * A refused call writes to nothing that it is lent but `answer`. One exception: after 10, 11 and 12 of a plan the list tables hold the
 * entries stored. bay_recover_list is no plan: its 10 leaves them untouched.
 */
#ifndef BAY_H
#define BAY_H

#include <stddef.h>
#include <stdint.h>

#ifdef __cplusplus
extern "C" {
#endif

/* A stack of so many bytes is enough for every call (examples/c/stack.c tries the worst ones). */
#define BAY_STACK_BYTES (256 * 1024)

#define BAY_MAX_FACTS 64
#define BAY_MAX_JOBS 128
#define BAY_MAX_SECONDS 5400      /* that a table may list a job with */
#define BAY_MAX_TABLE_BYTES 4492  /* of a sound table: 128 jobs by BAY_PAIRED_JOB */
#define BAY_MAX_ENTRIES 4096      /* that a plan lists, and that a list has which is ticked */
#define BAY_MAX_PAIR_ENTRIES 2978 /* the same of a paired table */
#define BAY_MAX_TREE_BYTES 65535  /* of a tree that is ticked, or that a list is recovered from */
#define BAY_NO_JOB 255            /* the job of entry 0 */
#define BAY_MAX_MEASURED_FACTS 15 /* of a table whose states' distances are measured */
#define BAY_MAX_STATES 32768      /* of such a table */
#define BAY_NO_DISTANCE 65535     /* of a state from which no jobs lead to the goal */
#define BAY_DROPPED 255           /* in a map of facts, one that the new table has no number for */

/* The commands that a job stands in a table by. A table with a BAY_PAIRED_JOB, even one that needs no fact absent, is called paired: its
 * conditions are pairs of masks, the facts to be held and the facts to be absent. In any other table the second masks are all 0, and
 * nothing is lent, written or counted for them. */
enum bay_job_command {
    BAY_JOB = 0x20,       /* needs, adds, deletes, seconds */
    BAY_PAIRED_JOB = 0x21 /* needs, absent, adds, deletes, seconds: it also needs facts to be absent */
};

/* Why a call is refused. F is the table's number of facts. The calls check in the order of the numbers, but for 19, 22 and 24: a job is
 * judged by 4, 5, 6, 19 and 22 in this order, and licences by 24 after the whole table and before 8; of a table and of a tree whatever is
 * wrong earlier in its bytes comes first. bay_recover_list checks 10 last: after 13 to 15 comes 20, and then 10. bay_measure_distances
 * checks 25 after the whole table, and then 26. And bay_migrate checks all of the old table before the new one, and 8 and 27 after both.
 *
 * The place of a refusal is
 *   - the offset of the faulty command for 1 to 7, 13 to 15, 19 and 22; but where a command byte is missing (1, 13) the length of the
 *     table or tree; where bytes follow END (7, 13) the first of them; and 0 for a tree of more than BAY_MAX_TREE_BYTES (13);
 *   - of bay_tick_all, which has no tree, the vehicle for 8, 0 for 13, and the entry for 15;
 *   - the number of entries stored for 10 to 12; but of bay_recover_list, which is no plan, 0 for 10;
 *   - the index of the first licence that is none for 24; but where there are not as many as jobs, 0;
 *   - the number of the job for BAY_UNWRITABLE;
 *   - 0 for all others. */
enum bay_refusal {
    BAY_OK = 0,
    BAY_TABLE_CUT = 1,                  /* the table ends where a command or operand is due */
    BAY_COMMAND_NOT_ALLOWED = 2,        /* a table command is unknown or not allowed there */
    BAY_FACT_COUNT_OUT_OF_RANGE = 3,    /* F is outside 1 to 64 */
    BAY_TOO_MANY_JOBS = 4,              /* a 129th job stands in the table */
    BAY_TABLE_MASK_OUT_OF_RANGE = 5,    /* a table mask has a bit at or above F */
    BAY_EFFECTS_OVERLAP = 6,            /* a job's adds share a fact with its deletes or its needs */
    BAY_BYTES_AFTER_TABLE = 7,          /* bytes follow the table's END */
    BAY_BAD_READING = 8,                /* a reading, or the card's masks, share a fact or have a bit at or above F */
    BAY_START_UNREAD = 9,               /* a start for planning has an unread fact */
    BAY_LIST_FULL = 10,                 /* a condition to be stored would exceed the capacity; or a lent list table has no room for the
                                           list of a tree */
    BAY_NO_WAY = 11,                    /* no sequence of jobs leads from the start to the goal */
    BAY_TREE_TOO_SHORT = 12,            /* a lent tree has no room for the list's tree */
    BAY_BAD_TREE = 13,                  /* a tree is overlong, cut or malformed, or goes on after its END; or a list has no entry, or too
                                           many */
    BAY_TREE_TOO_DEEP = 14,             /* a tree node is deeper than 16 */
    BAY_TREE_OPERAND_OUT_OF_RANGE = 15, /* a mask of a tree or of a list has a bit at or above F, or a job number is not below the
                                           job count */
    BAY_NO_SUCH_JOB = 16,               /* a number names no job of the table */
    BAY_NEED_NOT_HELD = 17,             /* a need of the reported job is unread or absent, or its absent fact is unread or held */
    BAY_CARD_EXHAUSTED = 18,            /* the card has 65,535 reports, its taken sum exceeds 65,535 times its count, or its planned
                                           sum 5,400 times its count */
    BAY_JOB_TOO_LONG = 19,              /* a job is listed with more than 5,400 seconds */
    BAY_OTHER_ORIGIN = 20,              /* a sound tree that bay_plan writes for no start; of a paired table, every sound tree */
    BAY_NEEDS_CONTRADICT = 22,          /* a job needs a fact both held and absent */
    BAY_BAD_LICENCES = 24,              /* the licences are not as many as the jobs, or one is none of 1 to 3 */
    BAY_TOO_MANY_FACTS = 25,            /* distances are to be measured and F is more than 15 */
    BAY_BAD_ROW_LENGTH = 26,            /* a row for distances has not as many elements as there are states, 2 to the power of F */
    BAY_BAD_MAP = 27,                   /* a map has not one number for each old fact, has one that the new table has not, or sends two
                                           facts to one */

    /* Of bay_write_table alone. */
    BAY_TOO_SHORT = 100,  /* the lent slice is shorter than the table */
    BAY_UNEVEN = 101,     /* the columns differ in length */
    BAY_UNWRITABLE = 103, /* a job's command is none of bay_job_command, or is BAY_JOB and the job needs a fact absent */

    /* Of bay_report alone, before anything else is looked at. */
    BAY_SECONDS_OUT_OF_RANGE = 102 /* more than 65,535 seconds are reported */
};

/* ---- what the inline functions take and give */

struct bay_table {
    const uint8_t *bytes;
    size_t length;
};

/* The bytes of one tree and none past them. */
struct bay_tree {
    const uint8_t *bytes;
    size_t length;
};

/* The facts held, and those that were not read. A fact in neither is read and absent. */
struct bay_reading {
    uint64_t held;
    uint64_t unread;
};

/* Whether a call was done; every result begins so. */
struct bay_done {
    enum bay_refusal refusal;
    size_t place;
};

/* The number and place of an answer, and the values of one that is no refusal. */
static inline enum bay_refusal bay_answer_refusal(const uint64_t *answer) {
    return (enum bay_refusal)answer[0];
}

static inline size_t bay_answer_place(const uint64_t *answer) {
    return answer[0] == 0 ? 0 : (size_t)answer[1];
}

static inline uint64_t bay_answer_value(const uint64_t *answer, size_t word) {
    return answer[0] == 0 ? answer[word] : 0;
}

static inline struct bay_done bay_answer_done(const uint64_t *answer) {
    struct bay_done done;
    done.refusal = bay_answer_refusal(answer);
    done.place = bay_answer_place(answer);
    return done;
}

/* ---- the table */

/* Reads a table. answer: 0, the number of facts, the number of jobs, the goal, 1 if it is paired and else 0. */
uint64_t bay_read_table(const uint8_t *table, size_t table_len, uint64_t answer[5]);

struct bay_header {
    enum bay_refusal refusal;
    size_t place;
    size_t facts;
    size_t jobs;
    uint64_t goal;
    int paired; /* has it a BAY_PAIRED_JOB? */
};

static inline struct bay_header bay_table_read(struct bay_table table) {
    uint64_t answer[5];
    struct bay_header header;
    bay_read_table(table.bytes, table.length, answer);
    header.refusal = bay_answer_refusal(answer);
    header.place = bay_answer_place(answer);
    header.facts = (size_t)bay_answer_value(answer, 1);
    header.jobs = (size_t)bay_answer_value(answer, 2);
    header.goal = bay_answer_value(answer, 3);
    header.paired = bay_answer_value(answer, 4) == 1;
    return header;
}

/* Reads one job of a table by its number; 16 where the table has no such job. answer: 0, needs, adds, deletes, seconds, the facts that it
 * needs absent, its command (BAY_JOB, which needs none absent, or BAY_PAIRED_JOB). */
uint64_t bay_read_job(const uint8_t *table, size_t table_len, size_t job, uint64_t answer[7]);

struct bay_job {
    enum bay_refusal refusal;
    size_t place;
    uint64_t needs;
    uint64_t adds;
    uint64_t deletes;
    uint16_t seconds;
    uint64_t absent;
    uint8_t command; /* of bay_job_command; 0 where the call was refused */
};

static inline struct bay_job bay_table_read_job(struct bay_table table, size_t number) {
    uint64_t answer[7];
    struct bay_job job;
    bay_read_job(table.bytes, table.length, number, answer);
    job.refusal = bay_answer_refusal(answer);
    job.place = bay_answer_place(answer);
    job.needs = bay_answer_value(answer, 1);
    job.adds = bay_answer_value(answer, 2);
    job.deletes = bay_answer_value(answer, 3);
    job.seconds = (uint16_t)bay_answer_value(answer, 4);
    job.absent = bay_answer_value(answer, 5);
    job.command = (uint8_t)bay_answer_value(answer, 6);
    return job;
}

/* Writes a table. Job i has its command at i of commands, its masks at i of needs, absent, adds and deletes, and its seconds at i of
 * seconds; with BAY_JOB its absent facts are 0.
 * answer: 0, the number of bytes written from the beginning of out. The refusals are those that reading the table would give; a number
 * of facts that no byte holds is 3 like any other outside 1 to 64.
 * Three more answers leave out untouched: BAY_UNEVEN with 0 where the six columns differ in length, before any other check; BAY_UNWRITABLE
 * with the number of the first job that no bytes stand for, after that; and BAY_TOO_SHORT with the number of bytes that it needs, after
 * all others. */
uint64_t bay_write_table(size_t facts, const uint8_t *commands, size_t commands_len, const uint64_t *needs, size_t needs_len,
                         const uint64_t *absent, size_t absent_len, const uint64_t *adds, size_t adds_len, const uint64_t *deletes,
                         size_t deletes_len, const uint16_t *seconds, size_t seconds_len, uint64_t goal, uint8_t *out,
                         size_t out_len, uint64_t answer[2]);

/* The columns of so many jobs. */
struct bay_columns {
    const uint8_t *commands;
    const uint64_t *needs;
    const uint64_t *absent;
    const uint64_t *adds;
    const uint64_t *deletes;
    const uint16_t *seconds;
    size_t jobs;
};

struct bay_written {
    enum bay_refusal refusal;
    size_t place;
    size_t bytes; /* written, or with BAY_TOO_SHORT wanted */
};

static inline struct bay_written bay_table_write(size_t facts, struct bay_columns columns, uint64_t goal, uint8_t *out,
                                                 size_t out_length) {
    uint64_t answer[2];
    struct bay_written written;
    bay_write_table(facts, columns.commands, columns.jobs, columns.needs, columns.jobs, columns.absent, columns.jobs, columns.adds,
                    columns.jobs, columns.deletes, columns.jobs, columns.seconds, columns.jobs, goal, out, out_length, answer);
    written.refusal = bay_answer_refusal(answer);
    written.place = written.refusal == BAY_TOO_SHORT ? 0 : bay_answer_place(answer);
    written.bytes = written.refusal == BAY_TOO_SHORT ? (size_t)answer[1] : (size_t)bay_answer_value(answer, 1);
    return written;
}

/* ---- the plan */

/* Plans from a start: lists the conditions from which jobs lead to the goal, and writes the list's tree.
 * Entry i of the list stands at i of conditions, jobs, parents and depths; of a paired table the facts to be absent at i of absences.
 * The shortest of the four bounds the list, and BAY_MAX_ENTRIES does; of a paired table the shortest of the five, and
 * BAY_MAX_PAIR_ENTRIES. Under any other table absences is neither read nor written nor counted, and may have 0 elements.
 * The tree of n entries has 14 * n - 1 bytes, of a paired table 22 * n - 1.
 * answer: 0, entries, bytes of the tree, of the way from the start its jobs and its time in minutes, and 1 if the table is paired, so that
 * absences has entries, and else 0.
 * Nothing is written past the list and the tree. After 10, 11 and 12 the list tables hold the entries stored, and the tree is
 * untouched. */
uint64_t bay_plan(const uint8_t *table, size_t table_len, uint64_t held, uint64_t unread, uint64_t *conditions,
                  size_t conditions_len, uint64_t *absences, size_t absences_len, uint8_t *jobs, size_t jobs_len, uint16_t *parents,
                  size_t parents_len, uint16_t *depths, size_t depths_len, uint8_t *tree, size_t tree_len, uint64_t answer[6]);

/* What a plan is lent: four list tables of the same length, a fifth for paired tables, and the tree. The fifth has a number of its own. For
 * a table that is not paired 0 is enough; the pointer is then any that is aligned and not null, that of conditions say. */
struct bay_plan_room {
    uint64_t *conditions;
    uint8_t *jobs;
    uint16_t *parents;
    uint16_t *depths;
    size_t entries;
    uint64_t *absences;
    size_t absences_entries;
    uint8_t *tree;
    size_t tree_bytes;
};

struct bay_planned {
    enum bay_refusal refusal;
    size_t place;
    size_t entries;
    size_t tree_bytes;
    size_t way_jobs;
    uint32_t way_minutes;
    int paired; /* has absences the entries' second masks? */
};

static inline struct bay_planned bay_tree_plan(struct bay_table table, struct bay_reading start, struct bay_plan_room room) {
    uint64_t answer[6];
    struct bay_planned planned;
    bay_plan(table.bytes, table.length, start.held, start.unread, room.conditions, room.entries, room.absences,
             room.absences_entries, room.jobs, room.entries, room.parents, room.entries, room.depths, room.entries, room.tree,
             room.tree_bytes, answer);
    planned.refusal = bay_answer_refusal(answer);
    planned.place = bay_answer_place(answer);
    planned.entries = (size_t)bay_answer_value(answer, 1);
    planned.tree_bytes = (size_t)bay_answer_value(answer, 2);
    planned.way_jobs = (size_t)bay_answer_value(answer, 3);
    planned.way_minutes = (uint32_t)bay_answer_value(answer, 4);
    planned.paired = bay_answer_value(answer, 5) == 1;
    return planned;
}

/* Plans for the whole shift: no start ends the list, every entry is expanded, and one tree serves every vehicle. A state meets some
 * condition of it exactly when a sequence of jobs leads from the state to the goal. The list tables and the tree are lent and left
 * as for bay_plan; 8, 9 and 11 do not arise. answer: 0, entries, bytes of the tree, 1 if the table is paired and else 0. */
uint64_t bay_plan_shift(const uint8_t *table, size_t table_len, uint64_t *conditions, size_t conditions_len, uint64_t *absences,
                        size_t absences_len, uint8_t *jobs, size_t jobs_len, uint16_t *parents, size_t parents_len,
                        uint16_t *depths, size_t depths_len, uint8_t *tree, size_t tree_len, uint64_t answer[4]);

struct bay_shift_planned {
    enum bay_refusal refusal;
    size_t place;
    size_t entries;
    size_t tree_bytes;
    int paired;
};

static inline struct bay_shift_planned bay_tree_plan_shift(struct bay_table table, struct bay_plan_room room) {
    uint64_t answer[4];
    struct bay_shift_planned planned;
    bay_plan_shift(table.bytes, table.length, room.conditions, room.entries, room.absences, room.absences_entries, room.jobs,
                   room.entries, room.parents, room.entries, room.depths, room.entries, room.tree, room.tree_bytes, answer);
    planned.refusal = bay_answer_refusal(answer);
    planned.place = bay_answer_place(answer);
    planned.entries = (size_t)bay_answer_value(answer, 1);
    planned.tree_bytes = (size_t)bay_answer_value(answer, 2);
    planned.paired = bay_answer_value(answer, 3) == 1;
    return planned;
}

/* Whose a job is where two fitters work on one vehicle. A job with BAY_BOTH_FITTERS is given to the first. */
enum bay_licence {
    BAY_FIRST_FITTER = 1,
    BAY_SECOND_FITTER = 2,
    BAY_BOTH_FITTERS = 3
};

/* Plans from a start for two fitters: lists the conditions as bay_plan does, and writes a tree for each fitter, in which the jobs of the
 * other are waiting leaves, of one byte. Job i has its licence at i of licences, of bay_licence; a table without jobs takes 0 of them.
 * In every fully read state that the list covers short of the goal, a tick of one tree names a job and a tick of the other answers
 * BAY_WAITING. Done in turn, these jobs reach the goal by the fewest jobs, and there both trees answer BAY_SUCCESS. One tree alone need
 * not lead to the goal.
 * The list tables are lent and left, and bound the list, as for bay_plan. The tree of n entries has 14 * n - 1 bytes, of a paired table
 * 22 * n - 1, less one for each waiting leaf.
 * answer: 0, entries, bytes of the first fitter's tree, bytes of the second's, and 1 if the table is paired and else 0.
 * After the table's refusals comes 24, then those of bay_plan, of which 12 where either tree is shorter than its own bytes. Nothing is
 * written past the list and the trees. After 10, 11 and 12 the list tables hold the entries stored, and both trees are untouched. */
uint64_t bay_plan_team(const uint8_t *table, size_t table_len, const uint8_t *licences, size_t licences_len, uint64_t held,
                       uint64_t unread, uint64_t *conditions, size_t conditions_len, uint64_t *absences, size_t absences_len,
                       uint8_t *jobs, size_t jobs_len, uint16_t *parents, size_t parents_len, uint16_t *depths, size_t depths_len,
                       uint8_t *first, size_t first_len, uint8_t *second, size_t second_len, uint64_t answer[5]);

/* A licence for each job of a table. */
struct bay_licences {
    const uint8_t *bytes;
    size_t length;
};

/* What a plan for two fitters is lent: the list tables as in bay_plan_room, and two trees. */
struct bay_team_room {
    uint64_t *conditions;
    uint8_t *jobs;
    uint16_t *parents;
    uint16_t *depths;
    size_t entries;
    uint64_t *absences;
    size_t absences_entries;
    uint8_t *first;
    size_t first_bytes;
    uint8_t *second;
    size_t second_bytes;
};

struct bay_team_planned {
    enum bay_refusal refusal;
    size_t place;
    size_t entries;
    size_t first_bytes;
    size_t second_bytes;
    int paired;
};

static inline struct bay_team_planned bay_tree_plan_team(struct bay_table table, struct bay_licences licences,
                                                         struct bay_reading start, struct bay_team_room room) {
    uint64_t answer[5];
    struct bay_team_planned planned;
    bay_plan_team(table.bytes, table.length, licences.bytes, licences.length, start.held, start.unread, room.conditions, room.entries,
                  room.absences, room.absences_entries, room.jobs, room.entries, room.parents, room.entries, room.depths, room.entries,
                  room.first, room.first_bytes, room.second, room.second_bytes, answer);
    planned.refusal = bay_answer_refusal(answer);
    planned.place = bay_answer_place(answer);
    planned.entries = (size_t)bay_answer_value(answer, 1);
    planned.first_bytes = (size_t)bay_answer_value(answer, 2);
    planned.second_bytes = (size_t)bay_answer_value(answer, 3);
    planned.paired = bay_answer_value(answer, 4) == 1;
    return planned;
}

/* The search that a plan makes of each new condition, on any list: the newest entry whose condition is a part of the given one, that
 * is, wants no other fact held and no other absent. Entry i wants the facts of listed[i] held and those of absences[i] absent, of which
 * there may be fewer than of listed: an entry past their end wants nothing absent. answer: 0, 1 and the entry, or 0 and 0 where there is
 * none. It is never refused. */
uint64_t bay_newest_weaker(const uint64_t *listed, size_t listed_len, const uint64_t *absences, size_t absences_len,
                           uint64_t present, uint64_t absent, uint64_t answer[3]);

/* The facts to be held and the facts to be absent. */
struct bay_condition {
    uint64_t present;
    uint64_t absent;
};

/* A list of conditions: the first masks, and the second of its first entries or of all. */
struct bay_list {
    const uint64_t *conditions;
    size_t entries;
    const uint64_t *absences;
    size_t absences_entries;
};

struct bay_found {
    int any;      /* is there one? */
    size_t entry; /* 0 where there is none */
};

static inline struct bay_found bay_list_newest_weaker(struct bay_list list, struct bay_condition condition) {
    uint64_t answer[3];
    struct bay_found found;
    bay_newest_weaker(list.conditions, list.entries, list.absences, list.absences_entries, condition.present, condition.absent,
                      answer);
    found.any = answer[1] == 1;
    found.entry = (size_t)answer[2];
    return found;
}

/* ---- from the tree back to the list */

/* Recovers the list of a tree that a plan wrote, with its parents and depths, where only the tree was kept. The tree is accepted exactly
 * where the table is not paired and bay_plan, with room enough, writes the same bytes for some start; the list is the one that it leaves
 * for that start. So the tree of bay_plan_shift is accepted too, and one of bay_plan_team if nothing waits in it.
 * Entry i of the list stands at i of conditions, jobs, parents and depths. answer: 0, entries. Nothing is written past the list.
 * After the table's refusals come 13 to 15 of the tree; 20 with 0 for a sound tree that is not accepted, under a paired table every one;
 * and then 10 with 0 where one of the four is shorter than the list. In each case the four are untouched. */
uint64_t bay_recover_list(const uint8_t *table, size_t table_len, const uint8_t *tree, size_t tree_len, uint64_t *conditions,
                          size_t conditions_len, uint8_t *jobs, size_t jobs_len, uint16_t *parents, size_t parents_len,
                          uint16_t *depths, size_t depths_len, uint64_t answer[2]);

/* What a recovery is lent: four list tables of the same length. BAY_MAX_ENTRIES are enough for every tree, and (length + 1) / 14 for one
 * of this length. */
struct bay_list_room {
    uint64_t *conditions;
    uint8_t *jobs;
    uint16_t *parents;
    uint16_t *depths;
    size_t entries;
};

struct bay_recovered {
    enum bay_refusal refusal;
    size_t place;
    size_t entries;
};

static inline struct bay_recovered bay_list_recover(struct bay_table table, struct bay_tree tree, struct bay_list_room room) {
    uint64_t answer[2];
    struct bay_recovered recovered;
    bay_recover_list(table.bytes, table.length, tree.bytes, tree.length, room.conditions, room.entries, room.jobs, room.entries,
                     room.parents, room.entries, room.depths, room.entries, answer);
    recovered.refusal = bay_answer_refusal(answer);
    recovered.place = bay_answer_place(answer);
    recovered.entries = (size_t)bay_answer_value(answer, 1);
    return recovered;
}

/* ---- the distances of all states */

/* Measures how far every state is from the goal, for a table of at most BAY_MAX_MEASURED_FACTS. A state is a set of facts held, all others
 * being absent, and its mask is its index in row: there it gets the fewest jobs of a sequence that leads from it to the goal, 0 where the
 * goal is held, and BAY_NO_DISTANCE where no sequence does. The row has exactly one element for each state: 2 to the power of F.
 * Where bay_plan_shift succeeds for the same table, this number is the depth of the first entry that the state meets, and BAY_NO_DISTANCE
 * stands exactly where it meets none. No list is needed here.
 * answer: 0, the number of states. After the table's refusals come 25 with 0 for more facts, whatever the row, and 26 with 0 for a row of
 * another length. A refused call leaves the row untouched.
 * What it costs: it sweeps over all states and jobs until nothing changes, at most as many times as the greatest distance plus 1, and most
 * often far fewer. A table of 15 facts and 128 jobs drawn by chance takes some 40 to 120 ms. But a long chain of jobs that count states
 * down can take many seconds: one through half of the states takes 30 to 50 ms with 12 facts and some 10 s with 15, and one through all
 * states of 15 facts some 40 s. */
uint64_t bay_measure_distances(const uint8_t *table, size_t table_len, uint16_t *row, size_t row_len, uint64_t answer[2]);

struct bay_measured {
    enum bay_refusal refusal;
    size_t place;
    size_t states;
};

/* BAY_MAX_STATES are enough for every row; row_length is 1 << facts, as bay_table_read gives them. */
static inline struct bay_measured bay_distances_measure(struct bay_table table, uint16_t *row, size_t row_length) {
    uint64_t answer[2];
    struct bay_measured measured;
    bay_measure_distances(table.bytes, table.length, row, row_length, answer);
    measured.refusal = bay_answer_refusal(answer);
    measured.place = bay_answer_place(answer);
    measured.states = (size_t)bay_answer_value(answer, 1);
    return measured;
}

/* ---- the tick */

enum bay_status {
    BAY_SUCCESS = 0,
    BAY_FAILURE = 1,
    BAY_RUNNING = 2,    /* with the number of the job to do next */
    BAY_UNSETTLED = 3,  /* with the mask of the facts to read first, to be held or to be absent */
    BAY_WAITING = 4,    /* running, and no job is named: in a plan's tree the other fitter has one to do */
    BAY_NO_STATUS = 255 /* in the result of a refused tick; no word of an answer is this */
};

/* Ticks a tree on a reading. Give it the bytes of one tree and none past them; conditions of one mask and of two, and waiting leaves, may
 * stand in any tree, under any table. answer: 0, a status of the first five, the job or mask (0 where there is none). */
uint64_t bay_tick(const uint8_t *table, size_t table_len, const uint8_t *tree, size_t tree_len, uint64_t held, uint64_t unread,
                  uint64_t answer[3]);

struct bay_ticked {
    enum bay_refusal refusal;
    size_t place;
    enum bay_status status;
    size_t job;        /* of BAY_RUNNING, else BAY_NO_JOB */
    uint64_t to_read;  /* of BAY_UNSETTLED, else 0 */
};

/* A status and its job or mask, of a tick that was done. */
static inline struct bay_ticked bay_status_ticked(enum bay_status status, uint64_t value) {
    struct bay_ticked ticked;
    ticked.refusal = BAY_OK;
    ticked.place = 0;
    ticked.status = status;
    ticked.job = status == BAY_RUNNING ? (size_t)value : BAY_NO_JOB;
    ticked.to_read = status == BAY_UNSETTLED ? value : 0;
    return ticked;
}

static inline struct bay_ticked bay_tree_tick(struct bay_table table, struct bay_tree tree, struct bay_reading reading) {
    uint64_t answer[3];
    struct bay_ticked ticked;
    bay_tick(table.bytes, table.length, tree.bytes, tree.length, reading.held, reading.unread, answer);
    ticked = bay_status_ticked(answer[0] == 0 ? (enum bay_status)answer[1] : BAY_NO_STATUS, answer[2]);
    ticked.refusal = bay_answer_refusal(answer);
    ticked.place = bay_answer_place(answer);
    return ticked;
}

/* ---- the tick of many vehicles */

/* Ticks a list for many vehicles in one walk: each is told what bay_tick tells it on the list's tree, and the tree need not be there.
 * Entry i of the list stands at i of conditions and jobs, of a paired table at i of absences too. The list has as many entries as the
 * shortest of the two, or of the three. Under any other table absences is neither read nor counted, and may have 0 elements. The job of
 * entry 0 is neither judged nor used. The list need not be a plan's.
 * Vehicle i has its reading at i of held and unread; its answer goes to i of statuses, one of the first four of bay_status, since a list
 * has no waiting leaves, and to i of values, the job or mask (0 where there is none). There are as many vehicles as the shortest of these
 * four rows has elements: readings past them are not judged, and nothing past them is written.
 * answer: 0, the number of entries read: 0 where there are no vehicles, all where a vehicle fails every entry, else one more than the
 * furthest entry at which a vehicle stopped.
 * After the table's refusals come 8 with the first vehicle whose reading is bad; 13 with 0 for a list of no entry, of more than
 * BAY_MAX_ENTRIES, or of a paired table of more than BAY_MAX_PAIR_ENTRIES; and 15 with the first entry that has a fact, or after entry 0
 * a job, that the table has not. The list is judged also where there are no vehicles. */
uint64_t bay_tick_all(const uint8_t *table, size_t table_len, const uint64_t *conditions, size_t conditions_len,
                      const uint64_t *absences, size_t absences_len, const uint8_t *jobs, size_t jobs_len, const uint64_t *held,
                      size_t held_len, const uint64_t *unread, size_t unread_len, uint8_t *statuses, size_t statuses_len,
                      uint64_t *values, size_t values_len, uint64_t answer[2]);

/* So many vehicles: their readings, and room for their answers. */
struct bay_batch {
    const uint64_t *held;
    const uint64_t *unread;
    uint8_t *statuses; /* of bay_status */
    uint64_t *values;  /* jobs or masks */
    size_t vehicles;
};

struct bay_batch_ticked {
    enum bay_refusal refusal;
    size_t place;
    size_t entries_read;
};

/* There are list.entries jobs. After a plan that is the number of entries planned, and the second masks may be all that the plan was lent:
 * those past the entries do not count. Fewer would end the list of a paired table. */
static inline struct bay_batch_ticked bay_list_tick_all(struct bay_table table, struct bay_list list, const uint8_t *jobs,
                                                        struct bay_batch batch) {
    uint64_t answer[2];
    struct bay_batch_ticked ticked;
    bay_tick_all(table.bytes, table.length, list.conditions, list.entries, list.absences, list.absences_entries, jobs, list.entries,
                 batch.held, batch.vehicles, batch.unread, batch.vehicles, batch.statuses, batch.vehicles, batch.values,
                 batch.vehicles, answer);
    ticked.refusal = bay_answer_refusal(answer);
    ticked.place = bay_answer_place(answer);
    ticked.entries_read = (size_t)bay_answer_value(answer, 1);
    return ticked;
}

/* The answer of one vehicle of a batch that was ticked. */
static inline struct bay_ticked bay_batch_vehicle(struct bay_batch batch, size_t vehicle) {
    return bay_status_ticked((enum bay_status)batch.statuses[vehicle], batch.values[vehicle]);
}

/* ---- the job card */

/* A card is kept by the caller; the functions of words take the addresses of its members. */
struct bay_card {
    uint64_t held;
    uint64_t unread;
    uint16_t reports;
    uint32_t taken;   /* seconds */
    uint32_t planned; /* seconds */
};

/* Opens a card with a reading: the counts are 0. answer: 0, 0. */
uint64_t bay_open(const uint8_t *table, size_t table_len, uint64_t held, uint64_t unread, uint64_t *card_held,
                  uint64_t *card_unread, uint16_t *card_reports, uint32_t *card_taken, uint32_t *card_planned, uint64_t answer[2]);

static inline struct bay_done bay_card_open(struct bay_card *card, struct bay_table table, struct bay_reading reading) {
    uint64_t answer[2];
    bay_open(table.bytes, table.length, reading.held, reading.unread, &card->held, &card->unread, &card->reports, &card->taken,
             &card->planned, answer);
    return bay_answer_done(answer);
}

/* Replaces the card's masks by an outside reading. answer: 0, 0. */
uint64_t bay_read_outside(const uint8_t *table, size_t table_len, uint64_t held, uint64_t unread, uint64_t *card_held,
                          uint64_t *card_unread, uint64_t answer[2]);

static inline struct bay_done bay_card_read_outside(struct bay_card *card, struct bay_table table, struct bay_reading reading) {
    uint64_t answer[2];
    bay_read_outside(table.bytes, table.length, reading.held, reading.unread, &card->held, &card->unread, answer);
    return bay_answer_done(answer);
}

/* Reports a finished job and the seconds that it took. A number that names no job is 16, one whose needs are not all held, or whose absent
 * facts are not all read and absent, is 17, and more than 65,535 seconds are 102. answer: 0, 0. */
uint64_t bay_report(const uint8_t *table, size_t table_len, size_t job, size_t seconds, uint64_t *card_held,
                    uint64_t *card_unread, uint16_t *card_reports, uint32_t *card_taken, uint32_t *card_planned, uint64_t answer[2]);

static inline struct bay_done bay_card_report(struct bay_card *card, struct bay_table table, size_t job, size_t seconds) {
    uint64_t answer[2];
    bay_report(table.bytes, table.length, job, seconds, &card->held, &card->unread, &card->reports, &card->taken, &card->planned,
               answer);
    return bay_answer_done(answer);
}

/* Taken minus planned, in whole minutes, nearest, an exact half to the even one; of every card, sound or not. */
int64_t bay_lateness(const uint32_t *card_taken, const uint32_t *card_planned);

static inline int64_t bay_card_lateness(const struct bay_card *card) {
    return bay_lateness(&card->taken, &card->planned);
}

/* A tick on the card's masks, which are judged by 8; its counts are not judged. */
static inline struct bay_ticked bay_card_tick(const struct bay_card *card, struct bay_table table, struct bay_tree tree) {
    struct bay_reading reading;
    reading.held = card->held;
    reading.unread = card->unread;
    return bay_tree_tick(table, tree, reading);
}

/* ---- a new table for a card in use */

/* Takes a card over to a new table, where the table is revised during a job. The map has one byte for each fact of the old table: byte i is
 * the new number of fact i, or BAY_DROPPED. A fact that is sent to a new number is held, absent or unread under it as it was before. A fact
 * of the new table that none is sent to becomes unread, and of a dropped fact nothing is kept. The card's reports and seconds are not lent:
 * they remain, and 18 is not judged here.
 * answer: 0, 0. The old table's refusals come first, then the new one's, each with its place there; the answer does not tell which of the
 * two it was. Then comes 8 with 0 for the card's masks, which are judged under the old table, and last 27 with 0: for a map of another
 * length than the old table's number of facts, for a number that is neither BAY_DROPPED nor below the new table's F, and for two facts that
 * are sent to one. Any number of facts may be dropped. A refused call leaves the card as it was, to go on under the old table.
 * What may be relied on afterwards: ticks and reports answer for this card as for one that bay_open opens on the same masks under the new
 * table and that is given the same calls, openings, outside readings and further tables among them; and the masks of both stay the same.
 * Only reports and seconds differ, by those that the card brought along. That holds until a report on this card is refused as 18, which for
 * the other card comes no earlier.
 * No card knows its table: from here on each call is to be given the new one. */
uint64_t bay_migrate(const uint8_t *old_table, size_t old_table_len, const uint8_t *new_table, size_t new_table_len, const uint8_t *map,
                     size_t map_len, uint64_t *card_held, uint64_t *card_unread, uint64_t answer[2]);

/* For each fact of the old table its new number, or BAY_DROPPED. */
struct bay_fact_map {
    const uint8_t *bytes;
    size_t length;
};

static inline struct bay_done bay_card_migrate(struct bay_card *card, struct bay_table old_table, struct bay_table new_table,
                                               struct bay_fact_map map) {
    uint64_t answer[2];
    bay_migrate(old_table.bytes, old_table.length, new_table.bytes, new_table.length, map.bytes, map.length, &card->held, &card->unread,
                answer);
    return bay_answer_done(answer);
}

#ifdef __cplusplus
}
#endif

#endif
