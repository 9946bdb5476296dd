/* Recovers the list of a tree that was kept without it, and prints its entries as bayplan does: entry, mask, job or -, parent, depth.
 *
 *     recover BAY.TAB PLAN.TREE   a table, and the bytes of a tree that was planned with it
 *
 * Build, from the repository's root: cc -std=c99 -Iinclude examples/c/recover.c target/staticlib/libbay.a -o target/recover
 */
#include <inttypes.h>
#include <stdio.h>
#include <stdlib.h>

#include "bay.h"

static uint8_t table_bytes[65536];
/* One byte more than a tree may have, so that a file that is too long is refused. */
static uint8_t tree_bytes[BAY_MAX_TREE_BYTES + 1];
static uint64_t conditions[BAY_MAX_ENTRIES];
static uint8_t jobs[BAY_MAX_ENTRIES];
static uint16_t parents[BAY_MAX_ENTRIES];
static uint16_t depths[BAY_MAX_ENTRIES];

/* The bytes of a file, at most `most`. */
static size_t read_file(const char *name, uint8_t *bytes, size_t most) {
    FILE *file = fopen(name, "rb");
    if (file == NULL) {
        perror(name);
        exit(1);
    }
    size_t length = fread(bytes, 1, most, file);
    fclose(file);
    return length;
}

int main(int count, char **words) {
    if (count != 3) {
        fprintf(stderr, "recover BAY.TAB PLAN.TREE\n");
        return 2;
    }
    struct bay_table table = {table_bytes, read_file(words[1], table_bytes, sizeof table_bytes)};
    struct bay_tree tree = {tree_bytes, read_file(words[2], tree_bytes, sizeof tree_bytes)};
    struct bay_list_room room = {conditions, jobs, parents, depths, BAY_MAX_ENTRIES};
    struct bay_recovered list = bay_list_recover(table, tree, room);
    if (list.refusal != BAY_OK) {
        printf("refused %d %zu\n", (int)list.refusal, list.place);
        return 1;
    }
    for (size_t i = 0; i < list.entries; i++) {
        printf("%zu %016" PRIx64, i, conditions[i]);
        if (jobs[i] == BAY_NO_JOB) {
            printf(" -");
        } else {
            printf(" %u", (unsigned)jobs[i]);
        }
        printf(" %u %u\n", (unsigned)parents[i], (unsigned)depths[i]);
    }
    return 0;
}
