/* Plans the work on a vehicle and follows it to the goal: tick, do the job, report it, tick again.
 *
 *     plan                    the trailer of document 01
 *     plan BAY.TAB START.BAY  a table and a start from files
 *
 * Build, from the repository's root: cc -std=c99 -Iinclude examples/c/plan.c target/staticlib/libbay.a -o target/plan
 */
#include <inttypes.h>
#include <stdio.h>

#include "bay.h"

/* F = 5, goal: sealed. */
static const uint8_t trailer_table[147] = {
    0x10, 5,
    /* 0 couple */
    0x20, 0x01, 0, 0, 0, 0, 0, 0, 0, 0x02, 0, 0, 0, 0, 0, 0, 0, 0x01, 0, 0, 0, 0, 0, 0, 0, 0x2c, 0x01,
    /* 1 uncouple */
    0x20, 0x02, 0, 0, 0, 0, 0, 0, 0, 0x01, 0, 0, 0, 0, 0, 0, 0, 0x02, 0, 0, 0, 0, 0, 0, 0, 0xf0, 0x00,
    /* 2 measure unloaded */
    0x20, 0x01, 0, 0, 0, 0, 0, 0, 0, 0x04, 0, 0, 0, 0, 0, 0, 0, 0x00, 0, 0, 0, 0, 0, 0, 0, 0x58, 0x02,
    /* 3 measure loaded */
    0x20, 0x02, 0, 0, 0, 0, 0, 0, 0, 0x08, 0, 0, 0, 0, 0, 0, 0, 0x00, 0, 0, 0, 0, 0, 0, 0, 0x58, 0x02,
    /* 4 seal */
    0x20, 0x0c, 0, 0, 0, 0, 0, 0, 0, 0x10, 0, 0, 0, 0, 0, 0, 0, 0x00, 0, 0, 0, 0, 0, 0, 0, 0x96, 0x00,
    /* goal, end */
    0x30, 0x10, 0, 0, 0, 0, 0, 0, 0, 0x3f};

static uint8_t file_table[65536];
static uint64_t conditions[BAY_MAX_ENTRIES];
static uint64_t absences[BAY_MAX_PAIR_ENTRIES];
static uint8_t jobs[BAY_MAX_ENTRIES];
static uint16_t parents[BAY_MAX_ENTRIES];
static uint16_t depths[BAY_MAX_ENTRIES];
static uint8_t tree_bytes[BAY_MAX_TREE_BYTES];

/* The bytes of a file, at most `most`; a file that cannot be opened counts as empty. */
static size_t read_file(const char *name, uint8_t *bytes, size_t most) {
    FILE *file = fopen(name, "rb");
    size_t length = 0;
    if (file != NULL) {
        length = fread(bytes, 1, most, file);
        fclose(file);
    }
    return length;
}

static uint64_t mask_at(const uint8_t *bytes) {
    uint64_t mask = 0;
    for (int i = 7; i >= 0; i--) {
        mask = mask << 8 | bytes[i];
    }
    return mask;
}

static int refused(const char *call, enum bay_refusal refusal, size_t place) {
    printf("%s: refused %d %zu\n", call, (int)refusal, place);
    return 1;
}

int main(int count, char **words) {
    struct bay_table table = {trailer_table, sizeof trailer_table};
    struct bay_reading start = {0x02, 0};
    if (count == 3) {
        uint8_t start_bytes[17];
        table.bytes = file_table;
        table.length = read_file(words[1], file_table, sizeof file_table);
        if (read_file(words[2], start_bytes, sizeof start_bytes) != 16) {
            printf("%s does not have 16 bytes\n", words[2]);
            return 1;
        }
        start.held = mask_at(start_bytes);
        start.unread = mask_at(start_bytes + 8);
    } else if (count != 1) {
        fprintf(stderr, "plan [BAY.TAB START.BAY]\n");
        return 2;
    }

    struct bay_header header = bay_table_read(table);
    if (header.refusal != BAY_OK) {
        return refused("table", header.refusal, header.place);
    }
    printf("table: %zu facts, %zu jobs, goal %016" PRIx64 "%s\n", header.facts, header.jobs, header.goal,
           header.paired ? ", paired" : "");

    struct bay_plan_room room = {conditions, jobs, parents, depths, BAY_MAX_ENTRIES, absences, BAY_MAX_PAIR_ENTRIES, tree_bytes,
                                 sizeof tree_bytes};
    struct bay_planned plan = bay_tree_plan(table, start, room);
    if (plan.refusal != BAY_OK) {
        return refused("plan", plan.refusal, plan.place);
    }
    struct bay_tree tree = {tree_bytes, plan.tree_bytes};
    printf("plan: %zu entries, %zu tree bytes, %zu jobs, %" PRIu32 " minutes\n", plan.entries, plan.tree_bytes, plan.way_jobs,
           plan.way_minutes);

    struct bay_card card;
    struct bay_done done = bay_card_open(&card, table, start);
    if (done.refusal != BAY_OK) {
        return refused("open", done.refusal, done.place);
    }
    for (;;) {
        struct bay_ticked tick = bay_card_tick(&card, table, tree);
        if (tick.refusal != BAY_OK) {
            return refused("tick", tick.refusal, tick.place);
        }
        if (tick.status != BAY_RUNNING) {
            printf("tick: %s\n", tick.status == BAY_SUCCESS   ? "the goal is reached"
                                 : tick.status == BAY_FAILURE ? "this vehicle is not covered"
                                                              : "facts are to be read first");
            break;
        }
        struct bay_job job = bay_table_read_job(table, tick.job);
        if (job.refusal != BAY_OK) {
            return refused("job", job.refusal, job.place);
        }
        /* The fitter needs a tenth longer than listed. */
        size_t seconds = (size_t)job.seconds + job.seconds / 10;
        done = bay_card_report(&card, table, tick.job, seconds);
        if (done.refusal != BAY_OK) {
            return refused("report", done.refusal, done.place);
        }
        printf("job %zu: listed %u seconds, taken %zu, held %016" PRIx64 "\n", tick.job, (unsigned)job.seconds, seconds,
               card.held);
    }
    printf("card: %u reports, taken %" PRIu32 ", planned %" PRIu32 ", late by %" PRId64 " minutes\n", (unsigned)card.reports,
           card.taken, card.planned, bay_card_lateness(&card));

    /* A job whose needs are not held, or whose absent facts are, is refused, and the card stays as it was. */
    for (size_t number = 0; number < header.jobs; number++) {
        struct bay_job job = bay_table_read_job(table, number);
        if ((job.needs & ~card.held) != 0 || (job.absent & card.held) != 0) {
            uint16_t reports = card.reports;
            done = bay_card_report(&card, table, number, 60);
            printf("job %zu now: refused %d %zu, %s\n", number, (int)done.refusal, done.place,
                   reports == card.reports ? "card unchanged" : "card changed");
            break;
        }
    }
    return 0;
}
