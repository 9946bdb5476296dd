/* Plans once for the whole shift, names the next job of every vehicle in the yard in one call, and follows the one tree for each of them.
 *
 *     shift BAY.TAB HELD..   a table, and of each vehicle the facts held, in hexadecimal; all other facts are absent
 *
 * Build, from the repository's root: cc -std=c99 -Iinclude examples/c/shift.c target/staticlib/libbay.a -o target/shift
 */
#include <inttypes.h>
#include <stdio.h>
#include <stdlib.h>

#include "bay.h"

static uint8_t table_bytes[65536];
static uint64_t conditions[BAY_MAX_ENTRIES];
static uint64_t absences[BAY_MAX_PAIR_ENTRIES];
static uint8_t jobs[BAY_MAX_ENTRIES];
static uint16_t parents[BAY_MAX_ENTRIES];
static uint16_t depths[BAY_MAX_ENTRIES];
static uint8_t tree_bytes[BAY_MAX_TREE_BYTES];

enum { MOST_VEHICLES = 100 };
static uint64_t yard_held[MOST_VEHICLES];
static uint64_t yard_unread[MOST_VEHICLES];
static uint8_t yard_statuses[MOST_VEHICLES];
static uint64_t yard_values[MOST_VEHICLES];

static int refused(const char *call, enum bay_refusal refusal, size_t place) {
    printf("%s: refused %d %zu\n", call, (int)refusal, place);
    return 1;
}

static const char *word(enum bay_status status) {
    return status == BAY_SUCCESS ? "goal" : "no way";
}

/* What is next for each vehicle, from the shift's list alone. */
static int look_over(struct bay_table table, struct bay_list list, struct bay_batch yard) {
    struct bay_batch_ticked ticked = bay_list_tick_all(table, list, jobs, yard);
    if (ticked.refusal != BAY_OK) {
        return refused("yard", ticked.refusal, ticked.place);
    }
    printf("yard: %zu entries read, next:", ticked.entries_read);
    for (size_t i = 0; i < yard.vehicles; i++) {
        struct bay_ticked next = bay_batch_vehicle(yard, i);
        if (next.status == BAY_RUNNING) {
            printf(" %zu", next.job);
        } else {
            printf(" %s", word(next.status));
        }
        printf(i + 1 < yard.vehicles ? "," : "\n");
    }
    return 0;
}

/* The jobs that ticks of the shift's tree name for one vehicle, each done in turn. */
static int follow(struct bay_table table, struct bay_tree tree, uint64_t held) {
    printf("vehicle %016" PRIx64 ":", held);
    for (;;) {
        struct bay_reading reading = {held, 0};
        struct bay_ticked tick = bay_tree_tick(table, tree, reading);
        if (tick.refusal != BAY_OK) {
            return refused(" tick", tick.refusal, tick.place);
        }
        if (tick.status != BAY_RUNNING) {
            printf(" %s\n", word(tick.status));
            return 0;
        }
        struct bay_job job = bay_table_read_job(table, tick.job);
        if (job.refusal != BAY_OK) {
            return refused(" job", job.refusal, job.place);
        }
        printf(" %zu", tick.job);
        held = (held | job.adds) & ~job.deletes;
    }
}

int main(int count, char **words) {
    if (count < 2 || count > 2 + MOST_VEHICLES) {
        fprintf(stderr, "shift BAY.TAB HELD.., of at most %d vehicles\n", MOST_VEHICLES);
        return 2;
    }
    FILE *file = fopen(words[1], "rb");
    if (file == NULL) {
        perror(words[1]);
        return 1;
    }
    struct bay_table table = {table_bytes, fread(table_bytes, 1, sizeof table_bytes, file)};
    fclose(file);

    struct bay_plan_room room = {conditions, jobs, parents, depths, BAY_MAX_ENTRIES, absences, BAY_MAX_PAIR_ENTRIES, tree_bytes,
                                 sizeof tree_bytes};
    struct bay_shift_planned shift = bay_tree_plan_shift(table, room);
    if (shift.refusal != BAY_OK) {
        return refused("shift", shift.refusal, shift.place);
    }
    printf("shift: %zu entries, %zu tree bytes\n", shift.entries, shift.tree_bytes);
    size_t vehicles = (size_t)count - 2;
    for (size_t i = 0; i < vehicles; i++) {
        char *end;
        yard_held[i] = strtoull(words[i + 2], &end, 16);
        if (end == words[i + 2] || *end != '\0') {
            printf("%s is not a hexadecimal number\n", words[i + 2]);
            return 1;
        }
    }
    struct bay_list list = {conditions, shift.entries, absences, BAY_MAX_PAIR_ENTRIES};
    struct bay_batch yard = {yard_held, yard_unread, yard_statuses, yard_values, vehicles};
    if (vehicles > 0 && look_over(table, list, yard) != 0) {
        return 1;
    }
    struct bay_tree tree = {tree_bytes, shift.tree_bytes};
    for (size_t i = 0; i < vehicles; i++) {
        if (follow(table, tree, yard_held[i]) != 0) {
            return 1;
        }
    }
    return 0;
}
