/* Repairs link 0, end 0, of a drill, first as it is drawn and then with its last link under maintenance from router 0:
 *
 *     cc -Iinclude examples/drill.c target/staticlib/libplanner.a -o drill
 *     ./drill
 */
#include <inttypes.h>
#include <stdio.h>

#include "planner.h"

/* Enough for every drill, and for the distances of its routers. */
static uint8_t file[1024];
static uint32_t work[64 * 64];

/* The rank of each class, 0 to 7: the lower class is preferred. */
static const uint8_t ranks[] = {0, 1, 2, 3, 4, 5, 6, 7};

/* Asks for the repair and prints the answer. */
static void repair(size_t length) {
    planner_answer answer = planner_link_repair(file, length, work, sizeof work / sizeof work[0], ranks, sizeof ranks, 0, 0);
    if (answer.kind != PLANNER_PAIR) {
        printf("refused %" PRIu32 " %" PRIu64 "\n", answer.number, answer.value);
        return;
    }
    printf("first hop %zu, endpoint %zu, class %" PRIu32 ", tunnel cost %" PRIu32 "\n", answer.first, answer.endpoint,
           answer.pair_class, answer.cost);
}

int main(void) {
    /* Five routers in a ring, with costs drawn from seed 8. */
    size_t length = planner_drill(8, 5, file, sizeof file);
    repair(length);

    /* The last link joins routers 4 and 0, so that the cost from 0 is the one back. */
    planner_network network = planner_load(file, length);
    network.back[network.links - 1] = 65535;
    length = planner_write(network, file, sizeof file);
    repair(length);
    return 0;
}
