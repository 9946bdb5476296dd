/* Plans for two fitters at one vehicle and works it to the goal: both tick their trees on the same job card, one does the job that his tree
 * names, and the other waits.
 *
 *     team BAY.TAB HELD LICENCES   a table; the facts held, in hexadecimal, all others being absent; and a digit for each job:
 *                                  1 first fitter, 2 second, 3 both
 *
 * Build, from the repository's root: cc -std=c99 -Iinclude examples/c/team.c target/staticlib/libbay.a -o target/team
 */
#include <inttypes.h>
#include <stdio.h>
#include <stdlib.h>

#include "bay.h"

enum { FITTERS = 2 };
static const char *const fitters[FITTERS] = {"first", "second"};

static uint8_t table_bytes[65536];
static uint64_t conditions[BAY_MAX_ENTRIES];
static uint64_t absences[BAY_MAX_PAIR_ENTRIES];
static uint8_t jobs[BAY_MAX_ENTRIES];
static uint16_t parents[BAY_MAX_ENTRIES];
static uint16_t depths[BAY_MAX_ENTRIES];
static uint8_t tree_bytes[FITTERS][BAY_MAX_TREE_BYTES];

static int refused(const char *call, enum bay_refusal refusal, size_t place) {
    printf("%s: refused %d %zu\n", call, (int)refusal, place);
    return 1;
}

/* Prints what each fitter is told, and gives the job that one of them is to do, or BAY_NO_JOB where neither has one. */
static size_t tell(const struct bay_ticked told[FITTERS]) {
    size_t job = BAY_NO_JOB;
    for (int i = 0; i < FITTERS; i++) {
        printf(i == 0 ? " %s" : ", %s", fitters[i]);
        if (told[i].status == BAY_RUNNING) {
            job = told[i].job;
            printf(" does %zu", job);
        } else if (told[i].status == BAY_WAITING) {
            printf(" waits");
        } else {
            printf(told[i].status == BAY_SUCCESS ? " is done" : " has no way");
        }
    }
    printf("\n");
    return job;
}

/* Both trees on one card, job after job, until neither names one. */
static int work(struct bay_table table, const struct bay_tree trees[FITTERS], struct bay_reading start) {
    struct bay_card card;
    struct bay_done done = bay_card_open(&card, table, start);
    if (done.refusal != BAY_OK) {
        return refused("open", done.refusal, done.place);
    }
    for (;;) {
        struct bay_ticked told[FITTERS];
        for (int i = 0; i < FITTERS; i++) {
            told[i] = bay_card_tick(&card, table, trees[i]);
            if (told[i].refusal != BAY_OK) {
                return refused("tick", told[i].refusal, told[i].place);
            }
        }
        printf("held %016" PRIx64 ":", card.held);
        size_t number = tell(told);
        if (number == BAY_NO_JOB) {
            printf("card: %u reports, %" PRIu32 " seconds\n", (unsigned)card.reports, card.taken);
            return 0;
        }
        struct bay_job job = bay_table_read_job(table, number);
        if (job.refusal != BAY_OK) {
            return refused("job", job.refusal, job.place);
        }
        done = bay_card_report(&card, table, number, job.seconds);
        if (done.refusal != BAY_OK) {
            return refused("report", done.refusal, done.place);
        }
    }
}

int main(int count, char **words) {
    if (count != 4) {
        fprintf(stderr, "team BAY.TAB HELD LICENCES\n");
        return 2;
    }
    FILE *file = fopen(words[1], "rb");
    if (file == NULL) {
        perror(words[1]);
        return 1;
    }
    struct bay_table table = {table_bytes, fread(table_bytes, 1, sizeof table_bytes, file)};
    fclose(file);
    char *end;
    struct bay_reading start = {strtoull(words[2], &end, 16), 0};
    if (end == words[2] || *end != '\0') {
        printf("%s is not a hexadecimal number\n", words[2]);
        return 1;
    }
    /* What is left out after 129 would not matter: no table has so many jobs. */
    uint8_t licence_bytes[BAY_MAX_JOBS + 1];
    struct bay_licences licences = {licence_bytes, 0};
    for (const char *digit = words[3]; *digit != '\0' && licences.length < sizeof licence_bytes; digit++) {
        licence_bytes[licences.length++] = (uint8_t)(*digit - '0');
    }

    struct bay_team_room room = {conditions,           jobs,            parents,
                                 depths,               BAY_MAX_ENTRIES, absences,
                                 BAY_MAX_PAIR_ENTRIES, tree_bytes[0],   sizeof tree_bytes[0],
                                 tree_bytes[1],        sizeof tree_bytes[1]};
    struct bay_team_planned plan = bay_tree_plan_team(table, licences, start, room);
    if (plan.refusal != BAY_OK) {
        return refused("team", plan.refusal, plan.place);
    }
    printf("team: %zu entries, %zu and %zu tree bytes\n", plan.entries, plan.first_bytes, plan.second_bytes);
    struct bay_tree trees[FITTERS] = {{tree_bytes[0], plan.first_bytes}, {tree_bytes[1], plan.second_bytes}};
    return work(table, trees, start);
}
