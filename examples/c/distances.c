/* Prints how far every state is from the goal, for instructors: the held mask as bayplan prints masks, then the fewest jobs, or - where no
 * jobs lead to the goal.
 *
 *     distances BAY.TAB   a table of at most 15 facts
 *
 * Build, from the repository's root: cc -std=c99 -Iinclude examples/c/distances.c target/staticlib/libbay.a -o target/distances
 */
#include <inttypes.h>
#include <stdio.h>

#include "bay.h"

static uint8_t table_bytes[65536];
static uint16_t row[BAY_MAX_STATES];

int main(int count, char **words) {
    if (count != 2) {
        fprintf(stderr, "distances BAY.TAB\n");
        return 2;
    }
    FILE *file = fopen(words[1], "rb");
    if (file == NULL) {
        perror(words[1]);
        return 1;
    }
    struct bay_table table = {table_bytes, fread(table_bytes, 1, sizeof table_bytes, file)};
    fclose(file);

    /* A table that is refused, and one with too many facts, gets an empty row: the call says what is wrong with it. */
    size_t facts = bay_table_read(table).facts;
    size_t states = facts != 0 && facts <= BAY_MAX_MEASURED_FACTS ? (size_t)1 << facts : 0;
    struct bay_measured measured = bay_distances_measure(table, row, states);
    if (measured.refusal != BAY_OK) {
        printf("refused %d %zu\n", (int)measured.refusal, measured.place);
        return 1;
    }
    for (size_t held = 0; held < measured.states; held++) {
        if (row[held] == BAY_NO_DISTANCE) {
            printf("%016" PRIx64 " -\n", (uint64_t)held);
        } else {
            printf("%016" PRIx64 " %u\n", (uint64_t)held, (unsigned)row[held]);
        }
    }
    return 0;
}
