/* Bolgverk from C: the public operations of the static library libexports.a (x86-64 Linux).
 *
 * Every operation answers every input. It has no state: nothing is kept between two calls, and calls may run at the same time
 * where they do not share memory that one of them writes. Each answer is proved; what a C caller must see to, since nothing checks it:
 *   - no pointer is NULL or unaligned, not even where its length is 0;
 *   - a pointer with a length has that many elements behind it, each of them set;
 *   - memory that an operation writes overlaps nothing else that is passed to it, and nothing else touches it during the call.
 *
 * A refusal has a number, a place and a second place, as in the table at the end. A refused call writes no lent memory but *place and
 * *second. Only the refusals of the check, the writer and the time have a second place that is not 0, so only these three hand one over.
 * Policies: 0 LRU, 1 FIFO, 2 NMRU, 3 tree. Ways: 1 to 8 (NMRU 2 to 8, tree 2, 4 or 8). Sets: 1 to 64. Blocks: 0 to 65,534; 65,535 means none.
 */
#ifndef BOLGVERK_H
#define BOLGVERK_H

#include <stddef.h>
#include <stdint.h>

#ifdef __cplusplus
extern "C" {
#endif

/* How many numbers an accepted case file has: the total, 64 set bounds, 256 fact bounds. */
#define BOLGVERK_NUMBERS 321

/* Checks a case file of any length and bounds its misses: on every walk from node 0 that keeps the loop limits, whatever legal content the
 * cache has at the start, and after each interruption. Misses of whatever interrupts are not counted.
 *   file, file_length        the file's bytes; only read
 *   interruptions            how often a walk is interrupted at most, before its first fetch, between any two, or after its last; 0 if
 *                            never. An interruption may leave any legal content in any set. No number is refused
 *   numbers, numbers_length  gets the 321 numbers, if the file is accepted: [0] the total, [1 + q] the bound of set q, [65 + i] the
 *                            bound of fact i, 0 where there is no such set or fact; numbers past the 321st stay as they are
 *   place                    gets the refusal's place, 0 if the file is accepted; always written
 *   second                   gets the refusal's second place: for 16 and 18 the node, for 17, 24 and 25 the edge, else 0; always written
 * Returns 0 if the file is accepted, else the refusal's number: 20 first, then 1 to 10 (26 after 9), then 11 to 18 fact by fact (24
 * and 25 together with 17, by the least edge), then 19. */
uint8_t bolgverk_check(const uint8_t *file, size_t file_length, uint16_t interruptions, uint64_t *numbers, size_t numbers_length,
                       uint64_t *place, uint64_t *second);

/* Writes a case file from lists. It does not sort: what a layout rule forbids it refuses. What it writes passes those rules and reads back
 * as the same lists; and the lists of a file that passes them make the same file again.
 *   version                  1, or 2, whose loops have W
 *   policy, ways, sets       the cache
 *   nodes, nodes_length      the block of each node, 65,535 for none; all lists are only read
 *   edges, edges_length      two numbers an edge: from, to
 *   loops, loops_length      three numbers a loop: first node, last node, bound; in version 2 a fourth, W: how often a whole walk visits
 *                            the loop's first node at most, 4,294,967,295 for no such limit
 *   heads, heads_length      four numbers a fact: loop number or 65,535 for the whole graph, block, age limit, how many rows it has
 *   rows, rows_length        eight numbers a row, the number and seven slots with 65,535 in the free ones; the facts' rows one after another
 *   out, out_length          gets the file, if nothing is refused; bytes past it stay as they are
 *   length                   gets the file's length, if nothing is refused: 2 bytes a node, 4 an edge, 8 a loop (version 2:
 *                            12), 6 a fact, 16 a row, and 32
 *   place                    gets the refusal's place, 0 if nothing is refused; always written
 *   second                   gets the refusal's second place: for 16 the node, else 0; always written
 * The lengths count numbers, not records. Returns 0, or the refusal's number: 2, 3, 4 (also where a list is no whole number of records, or
 * the rows are not as many as the heads name), 6, 7, then fact by fact 12, 13, 15, 16, then 20 where out_length is below the file's length. */
uint8_t bolgverk_write(uint8_t version, uint8_t policy, uint8_t ways, uint8_t sets, const uint16_t *nodes, size_t nodes_length,
                       const uint16_t *edges, size_t edges_length, const uint32_t *loops, size_t loops_length, const uint16_t *heads,
                       size_t heads_length, const uint16_t *rows, size_t rows_length, uint8_t *out, size_t out_length, uint64_t *length,
                       uint64_t *place, uint64_t *second);

/* Finds the smallest age limit of a block in a scope for which evidence exists, and the evidence: what bolgverk_write takes as a fact's rows and
 * bolgverk_check accepts. The file's own facts, and whatever else stands between its loops and the trailer, are not looked at.
 *   file, file_length        the file's bytes; only read
 *   scope                    a loop's number, or 65,535 for the whole graph
 *   block                    the block
 *   rows, rows_length        gets eight numbers for each node of the scope, if a limit is found; numbers past them stay as they are
 *   limit                    gets the limit, or 0 where no limit up to the ways has evidence, if nothing is refused; rows then stays as it is
 *   place                    gets the refusal's place, 0 if nothing is refused; always written
 * Returns 0, or the refusal's number: 1 to 10 (26 after 9) as the check has them, then 12 where scope or block is out of range, 14, and 20
 * where rows_length is below eight numbers for each node of the scope. The place of these last three is 0. */
uint8_t bolgverk_find(const uint8_t *file, size_t file_length, uint16_t scope, uint16_t block, uint16_t *rows, size_t rows_length,
                      uint16_t *limit, uint64_t *place);

/* Salvages a case file with bad facts: drops each fact that earns 12 to 14, 16 to 18, 24 or 25, everything from a fact that is cut short onward, and bytes that belong
 * to no fact, and writes the rest: the same graph and version, and the facts kept, as they were and in their order. bolgverk_check accepts what is written; a file
 * that it accepts already stays the same.
 *   file, file_length        the file's bytes; only read
 *   out, out_length          gets what is left of the file, if nothing is refused; bytes past it stay as they are
 *   dropped, dropped_length  gets three numbers for each fact dropped, in the file's order, if nothing is refused: the first number that it earns, its place in the
 *                            file, and its second place (for 16 and 18 the node, for 17, 24 and 25 the edge, else 0); numbers past them stay as they are
 *   length                   gets the length of what is left, if nothing is refused: never more than file_length
 *   count                    gets how many facts are dropped, if nothing is refused: never more than 256
 *   place                    gets the refusal's place, 0 if nothing is refused; always written
 * Order (13) is judged against the last fact kept. A fact is cut short where fewer than 6 bytes are left (11), where its loop number is bad (12: its length is not known), and
 * where its rows are; all facts after it get 11. Returns 0, or the refusal's number: 1 to 10 (26 after 9) as the check has them, then 20 where out_length is below the
 * length or dropped_length below three numbers for each fact dropped, at place 0. */
uint8_t bolgverk_salvage(const uint8_t *file, size_t file_length, uint8_t *out, size_t out_length, uint64_t *dropped, size_t dropped_length,
                         uint64_t *length, uint64_t *count, uint64_t *place);

/* Runs a trace of block accesses from empty sets.
 *   policy, ways, sets       the cache
 *   blocks, blocks_length    the accesses in order; only read
 *   marks, marks_length      gets 1 for a miss and 0 for a hit, one byte an access, if nothing is refused; later bytes stay as they are
 *   misses                   gets the number of misses, if nothing is refused
 *   place                    gets the refusal's place, 0 if nothing is refused; always written
 * Returns 0, or the refusal's number: 3, 20, 21, tested in this order. */
uint8_t bolgverk_trace_run(uint8_t policy, uint8_t ways, uint8_t sets, const uint16_t *blocks, size_t blocks_length, uint8_t *marks,
                           size_t marks_length, uint64_t *misses, uint64_t *place);

#define BOLGVERK_HIT 0
#define BOLGVERK_MISS 1

/* One access to one set.
 *   policy, ways             the cache; the block's set is not looked at
 *   lines                    the set's eight lines, 65,535 for an empty one, those from `ways` on empty; changed in place
 *   bits                     the set's bits: bit i of value 2^i is line i's, all 0 for LRU and FIFO, the tree's bits from the root; changed in place
 *   block                    the block accessed
 * An NMRU miss takes the lowest empty line, whatever its bit, and only where none of the ways is empty the lowest line whose bit is 0.
 * A tree's bits are 0, the root, and 2i+1 and 2i+2 below bit i; 0 points to the lower lines. A miss takes the line that they lead to,
 * empty or not, and each access turns the bits on its line's path away from it. Those from `ways` - 1 on are 0.
 * Returns 0 for a hit, 1 for a miss, else the refusal's number: 3, 22, 21, tested in this order. Its place is 0, and a refused step
 * leaves lines and bits as they were. */
uint8_t bolgverk_step(uint8_t policy, uint8_t ways, uint16_t lines[8], uint8_t *bits, uint16_t block);

/* The block that an address lies in: address / line_size, rounded down.
 *   line_size                8, 16, 32, 64 or 128
 *   block                    gets the block, if nothing is refused
 * Returns 0, or the refusal's number: 23, 21, tested in this order. Its place is 0. */
uint8_t bolgverk_block_of(uint32_t address, uint32_t line_size, uint16_t *block);

/* The set that a block lives in: block mod sets.
 *   set                      gets the set's number, if nothing is refused
 * Returns 0, or the refusal's number: 3 where sets is not 1 to 64, 21 for block 65,535, tested in this order. Its place is 0. */
uint8_t bolgverk_set_of(uint16_t block, uint8_t sets, uint8_t *set);

/* What LRU would miss with one way, two ways and so on up to eight, in one pass over a trace of block accesses from empty sets: the misses of eight calls of
 * bolgverk_trace_run with policy 0.
 *   sets                     the number of sets
 *   blocks, blocks_length    the accesses in order; only read
 *   counts                   gets eight numbers, if nothing is refused: counts[w - 1] the misses with w ways, none larger than the one before it
 *   place                    gets the refusal's place, 0 if nothing is refused; always written
 * Returns 0, or the refusal's number: 3 where sets is not 1 to 64, 21 for block 65,535, tested in this order. */
uint8_t bolgverk_all_ways(uint8_t sets, const uint16_t *blocks, size_t blocks_length, uint64_t counts[8], uint64_t *place);

/* The time of a case file's graph in cycles: no walk from node 0 that keeps the loop limits takes longer, whatever legal content the cache has at the start and
 * after each interruption, where each visit takes its node's cost and each miss the penalty on top. Inside a loop the longest way from its first node along forward
 * edges, each inner loop one step of its own time, is taken as often as the loop's bound says; W is not used. To the longest way from node 0 the penalty times the
 * total of bolgverk_check is added. This assumes that hits and misses only add: a core where a hit can cost more than a miss is not covered. What the interruptions
 * themselves take is not counted.
 *   file, file_length        the file's bytes; only read
 *   costs, costs_length      the cycles of one visit of each node, its fetch a hit; only read. As many as the file has nodes
 *   penalty                  the cycles that a miss takes beyond a hit
 *   interruptions            how often a walk is interrupted at most, as in bolgverk_check
 *   cycles                   gets the time, if nothing is refused: at most 9,223,372,036,854,775,807
 *   place                    gets the refusal's place, 0 if nothing is refused; always written
 *   second                   gets the refusal's second place, as in bolgverk_check; always written
 * Returns 0, or the refusal's number: those of bolgverk_check in its order, but its 20; then 20 where costs_length is not the number of nodes, then 27. The place of
 * these two is 0. */
uint8_t bolgverk_time(const uint8_t *file, size_t file_length, const uint32_t *costs, size_t costs_length, uint32_t penalty, uint16_t interruptions,
                      uint64_t *cycles, uint64_t *place, uint64_t *second);

/* The refusals, in README.md's words: number, what is wrong, the place, the second place. The least places where it holds are given; of 17, 24 and 25,
 * which stand together before 18, the least edge decides.
 *    1  the file has fewer than 32 bytes                                                                     0              0
 *    2  the trailer's letters or version are wrong, or the writer is handed another version                  0              0
 *    3  policy, ways or sets out of range                                                                    0              0
 *    4  a number of nodes, edges, loops or facts out of range, or a list for the writer that is not whole    0              0
 *    5  an offset is wrong, or the facts would start past the trailer                                        0              0
 *    6  an edge's end is no node, or the edge does not come after the one before it                          edge           0
 *    7  a loop's first node above its last, its last no node, its bound not 1 to 1,000,000, its W 0, its first node not above that of the loop before it, or it crosses an earlier one loop           0
 *    8  a forward edge enters a loop beside its header                                                       edge           0
 *    9  a backward edge does not lead to the header of a loop around its source                              edge           0
 *   10  a node's count is above 4,294,967,295                                                                node           0
 *   11  fewer than 6 bytes are left for a fact                                                               fact           0
 *   12  a fact's loop number, block or age limit out of range                                                fact, find: 0  0
 *   13  a fact's block is below the previous fact's, or equal and its scope starts at or before the previous scope's last node fact           0
 *   14  no node of a fact's scope fetches its block                                                          fact, find: 0  0
 *   15  a fact's rows are cut short, or the writer is handed more or fewer than its scope has nodes          fact           0
 *   16  a row is not sound                                                                                   fact           node
 *   17  a set is followed by row 9, or by a set that lacks a block                                           fact           edge
 *   18  a node that fetches the fact's block has row 8 ("many")                                              fact           node
 *   19  bytes are left between the last fact and the trailer                                                 0              0
 *   20  the lent list is too short: 321 numbers, one byte an access, the file's bytes, the rows found, or the facts dropped; or the costs are not one for each node 0              0
 *   21  block 65,535 is accessed, or an address's block is above 65,534                                      access, else 0 0
 *   22  the set's state is not legal                                                                         0              0
 *   23  the line size is none of 8, 16, 32, 64, 128                                                          0              0
 *   24  row 9 ("not since b") follows a fetch of the fact's block                                            fact           edge
 *   25  row 8 ("many") is followed by another row                                                            fact           edge
 *   26  a node other than 0 that no edges lead to from node 0                                                node           0
 *   27  the time is above 9,223,372,036,854,775,807                                                          0              0
 */

#ifdef __cplusplus
}
#endif
#endif
