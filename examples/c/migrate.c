/* Takes a job card over to a new table, where the table was revised while the vehicle is on the rollers: prints the card before and after,
 * fact by fact, and what comes next under the new table.
 *
 *     migrate OLD.TAB NEW.TAB HELD UNREAD NUMBER..   the table so far and the new one; the card's masks, in hexadecimal; and for each fact
 *                                                    of the table so far its new number, or - where it is dropped
 *
 * Build, from the repository's root: cc -std=c99 -Iinclude examples/c/migrate.c target/staticlib/libbay.a -o target/migrate
 */
#include <inttypes.h>
#include <stdio.h>
#include <stdlib.h>
#include <string.h>

#include "bay.h"

static uint8_t old_bytes[65536];
static uint8_t new_bytes[65536];
static uint64_t conditions[BAY_MAX_ENTRIES];
static uint64_t absences[BAY_MAX_PAIR_ENTRIES];
static uint8_t jobs[BAY_MAX_ENTRIES];
static uint16_t parents[BAY_MAX_ENTRIES];
static uint16_t depths[BAY_MAX_ENTRIES];
static uint8_t tree_bytes[BAY_MAX_TREE_BYTES];

static int refused(const char *call, enum bay_refusal refusal, size_t place) {
    printf("%s: refused %d %zu\n", call, (int)refusal, place);
    return 1;
}

static size_t read_file(const char *name, uint8_t *bytes, size_t most) {
    FILE *file = fopen(name, "rb");
    if (file == NULL) {
        perror(name);
        exit(1);
    }
    size_t length = fread(bytes, 1, most, file);
    fclose(file);
    return length;
}

/* A word that is a number of at most so much, in this base. */
static uint64_t number(const char *word, int base, uint64_t most) {
    char *end;
    uint64_t value = strtoull(word, &end, base);
    if (end == word || *end != '\0' || value > most) {
        printf("%s is not a number that can stand here\n", word);
        exit(1);
    }
    return value;
}

/* The card's masks, and what it knows of each fact; where there is a map, the new number of each as well. */
static void print_card(const char *when, const struct bay_card *card, size_t facts, const struct bay_fact_map *map) {
    printf("%s: held %016" PRIx64 ", unread %016" PRIx64 "\n", when, card->held, card->unread);
    for (size_t fact = 0; fact < facts; fact++) {
        int held = card->held >> fact & 1;
        int unread = card->unread >> fact & 1;
        printf("  %zu %s", fact, held ? "held" : unread ? "unread" : "absent");
        if (map != NULL && map->bytes[fact] == BAY_DROPPED) {
            printf(", dropped");
        } else if (map != NULL) {
            printf(", now %u", (unsigned)map->bytes[fact]);
        }
        printf("\n");
    }
}

/* What the tree for the whole shift names for the card. */
static int print_next(const struct bay_card *card, struct bay_table table) {
    struct bay_plan_room room = {conditions, jobs, parents, depths, BAY_MAX_ENTRIES, absences, BAY_MAX_PAIR_ENTRIES, tree_bytes,
                                 sizeof tree_bytes};
    struct bay_shift_planned shift = bay_tree_plan_shift(table, room);
    if (shift.refusal != BAY_OK) {
        return refused("shift", shift.refusal, shift.place);
    }
    struct bay_tree tree = {tree_bytes, shift.tree_bytes};
    struct bay_ticked next = bay_card_tick(card, table, tree);
    if (next.refusal != BAY_OK) {
        return refused("tick", next.refusal, next.place);
    }
    if (next.status == BAY_RUNNING) {
        printf("next: job %zu\n", next.job);
    } else if (next.status == BAY_UNSETTLED) {
        printf("next: read %016" PRIx64 "\n", next.to_read);
    } else {
        printf(next.status == BAY_SUCCESS ? "next: goal\n" : "next: no way\n");
    }
    return 0;
}

int main(int count, char **words) {
    if (count < 5) {
        fprintf(stderr, "migrate OLD.TAB NEW.TAB HELD UNREAD NUMBER..\n");
        return 2;
    }
    struct bay_table old_table = {old_bytes, read_file(words[1], old_bytes, sizeof old_bytes)};
    struct bay_table new_table = {new_bytes, read_file(words[2], new_bytes, sizeof new_bytes)};
    struct bay_card before = {number(words[3], 16, UINT64_MAX), number(words[4], 16, UINT64_MAX), 0, 0, 0};
    /* What is left out after 65 would not matter: no table has so many facts. */
    uint8_t map_bytes[BAY_MAX_FACTS + 1];
    struct bay_fact_map map = {map_bytes, 0};
    for (int i = 5; i < count && map.length < sizeof map_bytes; i++) {
        map_bytes[map.length++] = strcmp(words[i], "-") == 0 ? BAY_DROPPED : (uint8_t)number(words[i], 10, BAY_DROPPED);
    }

    struct bay_card after = before;
    struct bay_done done = bay_card_migrate(&after, old_table, new_table, map);
    if (done.refusal != BAY_OK) {
        return refused("migrate", done.refusal, done.place);
    }
    print_card("before", &before, map.length, &map);
    print_card("after", &after, bay_table_read(new_table).facts, NULL);
    return print_next(&after, new_table);
}
