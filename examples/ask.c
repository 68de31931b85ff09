/* Asks for the repair of link 0, end 0, of a network file:
 *
 *     cc -Iinclude examples/ask.c target/staticlib/libplanner.a -o ask
 *     ./ask examples/ring4.net
 */
#include <inttypes.h>
#include <stdio.h>

#include "planner.h"

/* The largest network file has 6,656 bytes. One more shows that a file is too long. */
static uint8_t file[6657];

/* Enough for the distances of 64 routers. */
static uint32_t work[64 * 64];

/* The rank of each class, 0 to 7: the lower class is preferred. With 4, 5, 0, 1, 6, 7, 2, 3 tunnels would be. */
static const uint8_t ranks[] = {0, 1, 2, 3, 4, 5, 6, 7};

int main(int count, char **words) {
    if (count != 2) {
        fputs("usage: ask FILE\n", stderr);
        return 2;
    }
    FILE *opened = fopen(words[1], "rb");
    if (opened == NULL) {
        perror(words[1]);
        return 2;
    }
    size_t length = fread(file, 1, sizeof file, opened);
    int failed = ferror(opened);
    fclose(opened);
    if (failed) {
        fprintf(stderr, "%s cannot be read\n", words[1]);
        return 2;
    }
    planner_answer answer = planner_link_repair(file, length, work, sizeof work / sizeof work[0], ranks, sizeof ranks, 0, 0);
    if (answer.kind != PLANNER_PAIR) {
        printf("refused %" PRIu32 " %" PRIu64 "\n", answer.number, answer.value);
        return 1;
    }
    printf("first hop %zu, endpoint %zu, class %" PRIu32 ", tunnel cost %" PRIu32 "\n", answer.first, answer.endpoint,
           answer.pair_class, answer.cost);
    return 0;
}
