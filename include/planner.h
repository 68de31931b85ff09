/* The repair planner, for programs in C. Link with target/staticlib/libplanner.a, which `tools/build` writes.
 *
 * Of every call:
 * - It returns, for all inputs. It keeps nothing between calls, allocates nothing, and reads no clock and no file.
 * - A buffer is lent as a pointer and its length in cells, for the time of the call. The buffers of one call must not overlap each
 *   other. A null pointer with length 0 is a buffer of no cells.
 * - `file` is a network file (docs/SPECIFICATION.md, The network file), and is never changed. Any bytes may be passed: they are judged
 *   first.
 * - `work` is the work area. Where the file has N routers, the first N * N cells receive the distances, row by row: cell x * N + t is
 *   the distance from router x to router t, and 4294967295 where no path leads. The cells after them stay as they were. N is at most
 *   64, so that 4096 cells are enough for every file, and 128 bytes for `route`.
 * - `table` is a table of the file's distances, as a call leaves them in the work area, and is never changed. Whoever filled it, the
 *   call answers by it only if it holds the distances of the file.
 * - `ranks` says which classes of pairs are preferred, and is never changed: cell c is the rank of class c, and of the pairs that serve
 *   the one whose class has the lowest rank comes first. It holds the numbers 0 to 7 once each, in any order, so that `ranks_len` is 8.
 *   The cells 0, 1, 2, 3, 4, 5, 6, 7 prefer the lower class, as `plan` does; 4, 5, 0, 1, 6, 7, 2, 3 prefer tunnels. Which questions row
 *   14 refuses does not depend on the ranks, and the answer tells the class, not its rank.
 * - `link` is the number of a link in file order, `end` is 0 where its first router is S and 1 where its second is, and `prefix` is the
 *   number of a prefix in file order.
 *
 * Refusals. A call tries the rows that its comment names, in this order, each over the whole file before the next. The first that
 * applies gives the answer's number and value. "The first such" is the lowest number; all numbers count from 0.
 *
 *   number  cause                                                                                    value
 *   1       file: its length is 0, no multiple of 512, or over 6656                                  0
 *   2       block: its check is wrong                                                                the first such block
 *   3       head, which is block 0: kind, entries or block number is wrong, the routers are not 1    0
 *           to 64, the links or the prefixes are over 128, or a byte that has to be zero is not
 *   4       file: it has not as many blocks as its links and prefixes need                           the blocks needed
 *   5       later block: number, kind or entries is wrong, or a byte between its last entry and its  the first such block
 *           check is not zero
 *   6       link: a router is not below N, it joins a router to itself, or a cost is 0               the first such link
 *   7       link: it joins two routers that an earlier link joins                                    the first such later link
 *   8       prefix: its attachments are 0 or over 8, the router of a used slot is not below N, or    the first such prefix
 *           a byte that has to be zero is not, those of the unused slots among them
 *   9       prefix: two of its attachments name the same router                                      the first such prefix
 *   10      `work` or `table` has fewer than N * N cells                                             N * N
 *   18      the first N * N cells of `table` are not the distances of the file                       0
 *   11      `route` has fewer than 2 * N bytes                                                       2 * N
 *   15      `ranks` does not hold the numbers 0 to 7 once each: too few or many cells, a rank over   0
 *           7, or one that stands twice
 *   12      `link` is not below the number of links, or `end` is above 1                             the number of links
 *   13      `prefix` is not below the number of prefixes                                             the number of prefixes
 *   14      there is no repair: no pair of first hop and endpoint serves; a neighbour to which the   0
 *           link costs 65,535 from S (under maintenance) is no first hop
 *
 * Stack. The bytes that each call was measured to take of it at most, with the toolchain before today's (docs/PERFORMANCE.md, Memory),
 * beside its arguments and its result, which lie with the caller:
 *
 *   planner_load                 21856      planner_link_entry            7360
 *   planner_prefix_entry          7360      planner_distances            19626
 *   planner_p_space              20618      planner_extended_p_space     20618
 *   planner_q_space              20618      planner_size                     0
 *   planner_link_repair          19658      planner_prefix_repair        33952
 *   planner_route                31840      planner_link_repair_with     44522
 *   planner_prefix_repair_with   58154      planner_route_with           54154
 *   planner_write                21312      planner_drill                22592
 *
 * A call that is refused by any row but 14 leaves every cell of every buffer as it was. Row 14 leaves the distances in the work area,
 * and `route` as it was. docs/SPECIFICATION.md has an example of each row (Refusals), and says what S, E and the spaces are
 * (Spaces), what a pair, its class and its tunnel cost are (Repairs), and how a route is played (Routes). */
#ifndef PLANNER_H
#define PLANNER_H

#include <stddef.h>
#include <stdint.h>

/* The version of this interface. It is one higher with each change of the interface; the list says what has to be changed in a program.
 *
 *   5   planner_link_repair_with, planner_prefix_repair_with and planner_route_with are new, and row 18, which only they try. Nothing
 *       has to be changed in a program for version 4.
 *   4   There are eight classes: a pair by which a packet may visit the far router E has 4 more than before. So the repair of a link has
 *       the class 4 to 7, and that of a prefix, with ascending ranks, is by a pair that does without E where there is one. `ranks` has
 *       eight cells, and four are refused by row 15. A program that calls planner_link_repair, planner_prefix_repair or planner_route,
 *       or that reads a class, has to be changed.
 *   3   planner_write and planner_drill are new. Nothing has to be changed in a program for version 2.
 *   2   planner_link_repair, planner_prefix_repair and planner_route take `ranks` and `ranks_len` after `work_len`, and may be refused
 *       by row 15. With the ranks 0, 1, 2, 3 they answer as before. A program that calls them has to be changed.
 *   1   had no number: the three calls took no ranks. */
#define PLANNER_VERSION 5

#ifdef __cplusplus
extern "C" {
#endif

/* The kinds of an answer. */
enum {
    PLANNER_REFUSED = 0,     /* number and value are those of the table above */
    PLANNER_ACCEPTED = 1,    /* the file is sound */
    PLANNER_DONE = 2,        /* the distances are in the work area */
    PLANNER_UNREACHABLE = 3, /* the prefix cannot be reached from S */
    PLANNER_UNTOUCHED = 4,   /* no packet from S to the prefix crosses the link from S to E; so too where S is attached to the prefix */
    PLANNER_SET = 5,         /* value is the set */
    PLANNER_PAIR = 6,        /* first, endpoint, pair_class and cost are those of the pair */
    PLANNER_PLAYED = 7       /* value is the number of routers written */
};

/* An answer. A field of which its kind does not speak is 0. */
typedef struct {
    uint32_t kind;
    uint32_t number;     /* the row of the table above, 1 to 15 or 18 */
    uint64_t value;      /* the value of a refusal, a set, or a number of routers */
    size_t first;        /* the first hop */
    size_t endpoint;     /* the tunnel's endpoint */
    uint32_t pair_class; /* the class, 0 to 7. Below 4 no packet visits E, so that the repair survives the failure of E too */
    uint32_t cost;       /* the tunnel cost */
} planner_answer;

/* The network that a file holds, or of which a file is to be made. Link k joins from[k] and to[k], at cost out[k] one way and back[k]
 * the other. Prefix p has attached[p] attachments; its slot s is cell 8 * p + s of at (the router) and of own (its cost). planner_load
 * leaves every other cell 0; planner_write looks at none of them, nor at kind, number and value. */
typedef struct {
    uint32_t kind;   /* PLANNER_ACCEPTED or PLANNER_REFUSED */
    uint32_t number; /* the row of the table above, 1 to 9, or 0 */
    uint64_t value;  /* the value of a refusal, or 0 */
    size_t routers;
    size_t links;
    size_t prefixes;
    uint8_t from[128];
    uint8_t to[128];
    uint16_t out[128];
    uint16_t back[128];
    uint8_t attached[128];
    uint8_t at[1024];
    uint16_t own[1024];
} planner_network;

/* Judges a file and hands over its network: PLANNER_ACCEPTED, or a refusal by rows 1 to 9, and then every number of the network is 0. */
planner_network planner_load(const uint8_t *file, size_t file_len);

/* Copies the bytes of a link's entry into the 34 bytes at `entry`, and returns how many they are: 6, or 0 for a refused file or a link
 * number too large. The bytes after them stay as they were. `entry` is not null. */
size_t planner_link_entry(const uint8_t *file, size_t file_len, size_t link, uint8_t *entry);

/* The same for a prefix's entry: 34 bytes, or 0 for a refused file or a prefix number too large. */
size_t planner_prefix_entry(const uint8_t *file, size_t file_len, size_t prefix, uint8_t *entry);

/* Leaves the distances in the work area: PLANNER_DONE, or a refusal by rows 1 to 10. */
planner_answer planner_distances(const uint8_t *file, size_t file_len, uint32_t *work, size_t work_len);

/* P space, extended P space and Q space of a link, seen from one end: PLANNER_SET, where router r is the bit of weight 2 to the power
 * r of `value`, or a refusal by rows 1 to 10 or 12. Leaves the distances in the work area. */
planner_answer planner_p_space(const uint8_t *file, size_t file_len, uint32_t *work, size_t work_len, size_t link, size_t end);
planner_answer planner_extended_p_space(const uint8_t *file, size_t file_len, uint32_t *work, size_t work_len, size_t link,
                                        size_t end);
planner_answer planner_q_space(const uint8_t *file, size_t file_len, uint32_t *work, size_t work_len, size_t link, size_t end);

/* The number of routers in a set. */
uint32_t planner_size(uint64_t set);

/* The pair that repairs a link, around it, to its far router: PLANNER_PAIR, or a refusal by rows 1 to 10, 15, 12 or 14. Leaves the
 * distances in the work area, where row 14 refuses too. */
planner_answer planner_link_repair(const uint8_t *file, size_t file_len, uint32_t *work, size_t work_len, const uint8_t *ranks,
                                   size_t ranks_len, size_t link, size_t end);

/* The pair that repairs the traffic from S to a prefix: PLANNER_PAIR, PLANNER_UNREACHABLE, PLANNER_UNTOUCHED, or a refusal by rows 1
 * to 10, 15, 12, 13 or 14. Leaves the distances in the work area, where row 14 refuses too. */
planner_answer planner_prefix_repair(const uint8_t *file, size_t file_len, uint32_t *work, size_t work_len, const uint8_t *ranks,
                                     size_t ranks_len, size_t link, size_t end, size_t prefix);

/* Plays the route of a packet from S to a prefix by the pair that repairs it: PLANNER_PLAYED, PLANNER_UNREACHABLE, PLANNER_UNTOUCHED,
 * or a refusal by any row but 18. The bytes at `choices` decide between options, and are 0 after the last. Writes the routers that the
 * packet visits, S first, into `route`, and leaves the bytes after them as they were; only PLANNER_PLAYED writes there. Leaves the
 * distances in the work area, where row 14 refuses too. */
planner_answer planner_route(const uint8_t *file, size_t file_len, uint32_t *work, size_t work_len, const uint8_t *ranks,
                             size_t ranks_len, size_t link, size_t end, size_t prefix, const uint8_t *choices, size_t choices_len,
                             uint8_t *route, size_t route_len);

/* The same three for many questions about one file: planner_distances fills a table once, and these take the table in place of the work
 * area. A refusal is by the rows of the call above or by row 18, which is tried after row 10 and before row 11. With a table of the file's
 * distances each answers, and writes into `route`, as the call above does with a work area of as many cells. */
planner_answer planner_link_repair_with(const uint8_t *file, size_t file_len, const uint32_t *table, size_t table_len,
                                        const uint8_t *ranks, size_t ranks_len, size_t link, size_t end);
planner_answer planner_prefix_repair_with(const uint8_t *file, size_t file_len, const uint32_t *table, size_t table_len,
                                          const uint8_t *ranks, size_t ranks_len, size_t link, size_t end, size_t prefix);
planner_answer planner_route_with(const uint8_t *file, size_t file_len, const uint32_t *table, size_t table_len, const uint8_t *ranks,
                                  size_t ranks_len, size_t link, size_t end, size_t prefix, const uint8_t *choices,
                                  size_t choices_len, uint8_t *route, size_t route_len);

/* Writes the network file of a network into `buffer`, and returns how many bytes it has: 512 for each block, at most 6656. Returns 0,
 * and writes nothing, where the network is outside the limits of docs/SPECIFICATION.md, The network file, or where the buffer is
 * shorter than the file. The bytes after the file stay as they were. A file that is written is sound, and planner_load hands over the
 * same network of it; of the network of a sound file the same file is written. */
size_t planner_write(planner_network network, uint8_t *buffer, size_t buffer_len);

/* Writes the network file of a drill, a network for training that its seed and its number of routers name, into `buffer`, and returns
 * how many bytes it has, 1024. Returns 0, and writes nothing, where `routers` is not 3 to 64 or where the buffer is shorter than the
 * file. The bytes after the file stay as they were. Every drill is sound.
 *
 * A drill is a ring with no prefixes: link k joins k and k + 1, the last joins routers - 1 and 0. Its costs, in the order out[0],
 * back[0], out[1], back[1] and so on, are each 1 plus a draw modulo 100. A draw replaces the seed by 1664525 times it plus 1013904223,
 * modulo 4294967296, and is the upper 16 bits of the new seed. */
size_t planner_drill(uint32_t seed, size_t routers, uint8_t *buffer, size_t buffer_len);

#ifdef __cplusplus
}
#endif

#endif
