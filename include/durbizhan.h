/* Durbizhan: a clearance checker for animated shots. The face for C, C99 and later; durbizhan.hpp is that for C++.
 *
 * Every function returns the number of its refusal, 0 where it accepts; durbizhan_leaves, durbizhan_balls and
 * durbizhan_lines alone return a count.
 * READ THE NUMBER FIRST. The rest of a refused answer is zeros: a refused verdict is Clear, a refused colour is WHITE,
 * and neither says anything about the shapes.
 * The numbers, the places of an answer and the limits have names below; DURBIZHAN_ is left off where one is named in a
 * comment.
 *
 * A lent buffer is a pointer and the number of its elements. It is not written to where the call is refused, nor past
 * what is written where it is not, but for the work room of a pruned conversion; `answer`, and the rows of a proxy, are
 * always written, whole. What the caller owes:
 * each pointer is aligned and points to as many elements as are said, no pointer is NULL, that of an empty buffer
 * neither, and what a call writes to overlaps nothing else of that call. No function keeps a pointer or allocates; a
 * conversion, a verdict, an answer at once or durbizhan_contacts takes up to STACK_CONVERSION bytes of the stack,
 * durbizhan_lines, durbizhan_mover and durbizhan_sweep up to STACK_MOST, any other function up to STACK_OTHER.
 * Threads: the library has no state, so any number of them may call it at once, each with what it lends itself.
 *
 * axes, bits, frame_bits: a universe of 1 to 4 axes. The last counts frames, of which there are 2^frame_bits, 0 to 12
 * bits; along each other it is 2^bits units long, 0 to 10 bits. One axis counts frames alone, and bits is 0. The axes
 * are halved in turn, and one whose bits are used up is passed over.
 * rows: five numbers a0 to a4 to a halfspace, which holds where a0 + a1*x1 + .. + a4*x4 >= 0.
 * balls: four numbers to a ball, three of its centre and its radius. It holds where the distance to the centre, along
 * all axes but the last, is at most the radius, in all frames alike; with one axis that distance is 0. A centre number
 * is 0 for an axis that is not there or is the last.
 * words: a tree in postfix order. HALFSPACE(i) and BALL(i) name a row and a ball, WHITE and BLACK are nothing and all;
 * UNION, INTERSECTION and MINUS join the last two shapes.
 * A MINUS B is A where B is not: reversed, a halfspace or a ball has the opposite colour wherever it is decided and at
 * every centre, one on its surface too, so that A MINUS A is 'W' once merged.
 * expressions: one byte a symbol, '(' then the low and the high half, 'B' or 'W'.
 * windows: frames first_frame to last_frame, both ends in.
 *
 * Above each function stands what it is for, what its answer has place by place, what each lent buffer holds after an
 * accepted call, and its refusals in the order in which they are looked for; the first decides. BAD_ROWS is looked for
 * in the rows and then in the balls; BAD_TREE and OVERFULL_TREE in the first tree and then in the second, in each by
 * the number of its words, then by the first word that offends, then by what is left at the end.
 */
#ifndef DURBIZHAN_H
#define DURBIZHAN_H

#include <stddef.h>
#include <stdint.h>

/* The version of this header and of the library. */
#define DURBIZHAN_VERSION_MAJOR 1
#define DURBIZHAN_VERSION_MINOR 0
#define DURBIZHAN_VERSION "1.0"

/* Nothing is refused. */
#define DURBIZHAN_ACCEPTED 0
/* no scene or no shape: its mark, a version that is not 1 or 2 (of a scene 1 to 3), the zero byte of a scene of version
 * 1, or its length */
#define DURBIZHAN_BAD_FILE 1
/* axes not 1 to 4 (of a mover: not 4), bits over 10, frame bits over 12, or bits not 0 where there is one axis; of a
 * sweep, no such axis to drop; of octrees, not three axes or bits that differ */
#define DURBIZHAN_BAD_UNIVERSE 2
/* a row that is not five numbers or a ball that is not four, over 256 rows (beside a mover: 250) or 64 balls, a number
 * past its limit, or not 0 for an axis that is not there (of a ball's centre: or that is the last) */
#define DURBIZHAN_BAD_ROWS 3
/* words that do not make one shape: none, one that means nothing or names no row and no ball, too few shapes for an
 * operator, or too many left */
#define DURBIZHAN_BAD_TREE 4
/* more than 255 words, or more than 32 shapes pending */
#define DURBIZHAN_OVERFULL_TREE 5
/* more symbols (of a file: bytes, of a report: counts, of a pruned conversion: or nodes) than are lent; how many it
 * takes is in the answer */
#define DURBIZHAN_NO_ROOM 6
/* expression not well-formed, no list of up to 256 such, or no octree */
#define DURBIZHAN_BAD_EXPRESSION 7
/* an expression for a shape file, or from one, that is not merged */
#define DURBIZHAN_NOT_MERGED 8
/* a voxel, path or window that the universe does not hold, or a window that ends before it begins */
#define DURBIZHAN_OUTSIDE 9
/* a number of a proxy that is no whole number of sixteenths or is past its limit, or near over far; of a mover, also a
 * number of a corner, or a displacement that is not 0 */
#define DURBIZHAN_BAD_PROXY 10
/* a mover's keys under 2 or over 64, not three corner numbers to a key, or moments that do not rise or are past the end
 * of the last frame */
#define DURBIZHAN_BAD_KEYS 11
/* a mover's step that is no whole number of sixteenths, or over 64 in size */
#define DURBIZHAN_BAD_STEP 12

/* Words: of one colour, of an operator, and the first that name a halfspace and a ball. In an answer WHITE and BLACK
 * are colours. */
#define DURBIZHAN_WHITE 0
#define DURBIZHAN_BLACK 1
#define DURBIZHAN_UNION 2
#define DURBIZHAN_INTERSECTION 3
#define DURBIZHAN_MINUS 4
#define DURBIZHAN_FIRST_HALFSPACE 256
#define DURBIZHAN_FIRST_BALL 512
/* The word that names halfspace i, 0 to 255, and the one that names ball i, 0 to 63. */
#define DURBIZHAN_HALFSPACE(i) (DURBIZHAN_FIRST_HALFSPACE + (i))
#define DURBIZHAN_BALL(i) (DURBIZHAN_FIRST_BALL + (i))

/* Verdicts. */
#define DURBIZHAN_CLEAR 0
#define DURBIZHAN_HIT 1

/* A universe: its axes, the bits of its axes, and its levels and frames at the most. */
#define DURBIZHAN_LEAST_AXES 1
#define DURBIZHAN_MOST_AXES 4
#define DURBIZHAN_MOST_BITS 10
#define DURBIZHAN_MOST_FRAME_BITS 12
#define DURBIZHAN_MOST_LEVELS 42
#define DURBIZHAN_MOST_FRAMES 4096
/* Rows: the numbers of one, the most of them and of their numbers, and the largest size of a0 and of a1 to a4. */
#define DURBIZHAN_ROW_LENGTH 5
#define DURBIZHAN_MOST_ROWS 256
#define DURBIZHAN_MOST_NUMBERS 1280
#define DURBIZHAN_OFFSET_LIMIT 1099511627776
#define DURBIZHAN_COEFFICIENT_LIMIT 16777216
/* Balls: the numbers of one, the most of them and of their numbers, the largest size of a centre number, and the
 * largest radius; the least is 0. */
#define DURBIZHAN_BALL_LENGTH 4
#define DURBIZHAN_MOST_BALLS 64
#define DURBIZHAN_MOST_BALL_NUMBERS 256
#define DURBIZHAN_CENTRE_LIMIT 1024
#define DURBIZHAN_RADIUS_LIMIT 1024
/* Trees: the most words of one, and the most shapes that are pending while it is read. */
#define DURBIZHAN_MOST_WORDS 255
#define DURBIZHAN_MOST_PENDING 32
/* Proxies: the rows of a Box and their numbers; the largest size of a number of a corner and of a Cut's offset, and
 * of one of a normal, a displacement and a mover's step. All are whole numbers of sixteenths. */
#define DURBIZHAN_BOX_ROWS 6
#define DURBIZHAN_BOX_NUMBERS 30
#define DURBIZHAN_CORNER_LIMIT 4096
#define DURBIZHAN_NORMAL_LIMIT 64
/* Movers: the fewest and the most keys, the numbers of a key's corner, and the most rows beside a mover. */
#define DURBIZHAN_LEAST_KEYS 2
#define DURBIZHAN_MOST_KEYS 64
#define DURBIZHAN_CORNER_LENGTH 3
#define DURBIZHAN_MOST_STATIC_ROWS 250
/* The numbers of work room to a node of a pruned conversion, and the most expressions of a report. */
#define DURBIZHAN_NODE_LENGTH 3
#define DURBIZHAN_MOST_EXPRESSIONS 256
/* Files: the most bytes of a scene whose lines are asked for, of its lines, and the most symbols of its raw expression;
 * the bytes of a shape file before its symbols, and the most symbols of one. */
#define DURBIZHAN_MOST_SCENE_BYTES 65536
#define DURBIZHAN_MOST_LINES_BYTES 256
#define DURBIZHAN_MOST_LINES_SYMBOLS 32768
#define DURBIZHAN_SHAPE_HEADER_LENGTH 12
#define DURBIZHAN_MOST_SHAPE_SYMBOLS 4294967295
/* The stack that a call takes, in bytes: a conversion, a verdict, an answer at once or durbizhan_contacts; any
 * function; any other one than those and durbizhan_lines, durbizhan_mover and durbizhan_sweep. */
#define DURBIZHAN_STACK_CONVERSION 81920
#define DURBIZHAN_STACK_MOST 131072
#define DURBIZHAN_STACK_OTHER 16384

/* The places of an answer, and how many it has: uint64_t answer[DURBIZHAN_VERDICT_ANSWER]. */
/* durbizhan_room */
#define DURBIZHAN_ROOM_SYMBOLS 0
#define DURBIZHAN_ROOM_ANSWER 1
/* durbizhan_raw_one, durbizhan_raw_two, durbizhan_merged_one, durbizhan_merged_two */
#define DURBIZHAN_CONVERSION_LENGTH 0
#define DURBIZHAN_CONVERSION_ANSWER 1
/* durbizhan_pruned_raw_one, durbizhan_pruned_raw_two, durbizhan_pruned_merged_one, durbizhan_pruned_merged_two */
#define DURBIZHAN_PRUNED_LACK 0
#define DURBIZHAN_PRUNED_LENGTH 1
#define DURBIZHAN_PRUNED_LOOKED 2
#define DURBIZHAN_PRUNED_ANSWER 3
/* durbizhan_verdict, durbizhan_mover */
#define DURBIZHAN_VERDICT_HIT 0
#define DURBIZHAN_VERDICT_FIRST 1
#define DURBIZHAN_VERDICT_LAST 2
#define DURBIZHAN_VERDICT_VOXELS 3
#define DURBIZHAN_VERDICT_LENGTH 4
#define DURBIZHAN_VERDICT_ANSWER 5
/* durbizhan_verdict_at_once */
#define DURBIZHAN_VERDICT_AT_ONCE_HIT 0
#define DURBIZHAN_VERDICT_AT_ONCE_FIRST 1
#define DURBIZHAN_VERDICT_AT_ONCE_LAST 2
#define DURBIZHAN_VERDICT_AT_ONCE_VOXELS 3
#define DURBIZHAN_VERDICT_AT_ONCE_ANSWER 4
/* durbizhan_ends_at_once */
#define DURBIZHAN_ENDS_AT_ONCE_HIT 0
#define DURBIZHAN_ENDS_AT_ONCE_FIRST 1
#define DURBIZHAN_ENDS_AT_ONCE_LAST 2
#define DURBIZHAN_ENDS_AT_ONCE_ANSWER 3
/* durbizhan_contacts */
#define DURBIZHAN_CONTACTS_SURE 0
#define DURBIZHAN_CONTACTS_CENTRE 1
#define DURBIZHAN_CONTACTS_POSSIBLE 2
#define DURBIZHAN_CONTACTS_ANSWER 3
/* durbizhan_numbers */
#define DURBIZHAN_NUMBERS_VOLUME 0
#define DURBIZHAN_NUMBERS_HIT 1
#define DURBIZHAN_NUMBERS_FIRST 2
#define DURBIZHAN_NUMBERS_LAST 3
#define DURBIZHAN_NUMBERS_VOXELS 4
#define DURBIZHAN_NUMBERS_ANSWER 5
/* durbizhan_report */
#define DURBIZHAN_REPORT_FRAMES 0
#define DURBIZHAN_REPORT_TOTAL 1
#define DURBIZHAN_REPORT_ANSWER 2
/* durbizhan_colour */
#define DURBIZHAN_COLOUR_FOUND 0
#define DURBIZHAN_COLOUR_ANSWER 1
/* durbizhan_part */
#define DURBIZHAN_PART_START 0
#define DURBIZHAN_PART_LENGTH 1
#define DURBIZHAN_PART_ANSWER 2
/* durbizhan_sweep */
#define DURBIZHAN_SWEEP_AXES 0
#define DURBIZHAN_SWEEP_BITS 1
#define DURBIZHAN_SWEEP_FRAME_BITS 2
#define DURBIZHAN_SWEEP_LENGTH 3
#define DURBIZHAN_SWEEP_ANSWER 4
/* durbizhan_octree_export, durbizhan_octree_import */
#define DURBIZHAN_OCTREE_LENGTH 0
#define DURBIZHAN_OCTREE_ANSWER 1
/* durbizhan_merge */
#define DURBIZHAN_MERGE_LENGTH 0
#define DURBIZHAN_MERGE_HELD 1
#define DURBIZHAN_MERGE_ANSWER 2
/* durbizhan_scene */
#define DURBIZHAN_SCENE_VERSION 0
#define DURBIZHAN_SCENE_AXES 1
#define DURBIZHAN_SCENE_BITS 2
#define DURBIZHAN_SCENE_FRAME_BITS 3
#define DURBIZHAN_SCENE_ROWS 4
#define DURBIZHAN_SCENE_BALLS 5
#define DURBIZHAN_SCENE_FIRST_WORDS 6
#define DURBIZHAN_SCENE_SECOND_WORDS 7
#define DURBIZHAN_SCENE_FIRST_FRAME 8
#define DURBIZHAN_SCENE_LAST_FRAME 9
#define DURBIZHAN_SCENE_ANSWER 10
/* durbizhan_shape_read */
#define DURBIZHAN_SHAPE_READ_AXES 0
#define DURBIZHAN_SHAPE_READ_BITS 1
#define DURBIZHAN_SHAPE_READ_FRAME_BITS 2
#define DURBIZHAN_SHAPE_READ_LENGTH 3
#define DURBIZHAN_SHAPE_READ_ANSWER 4
/* durbizhan_shape_write */
#define DURBIZHAN_SHAPE_WRITE_LENGTH 0
#define DURBIZHAN_SHAPE_WRITE_ANSWER 1

#ifdef __cplusplus
extern "C" {
#endif

/* How many words of one tree name a halfspace. Of a run with two trees, N is the sum. This is a count, no refusal. */
uint64_t durbizhan_leaves(const uint16_t *words, size_t words_count);

/* How many words of one tree name a ball. They count nothing of N. This is a count, no refusal. */
uint64_t durbizhan_balls(const uint16_t *words, size_t words_count);

/* How many symbols an expression takes at the most, for N = leaves and so many words that name a ball: where there
 * is one, every block counts, whatever N is. A buffer this long is never refused NO_ROOM by a conversion or a
 * verdict; a shape file takes SHAPE_HEADER_LENGTH bytes more.
 *   answer   ROOM_SYMBOLS: so many
 *   refused  BAD_UNIVERSE */
uint64_t durbizhan_room(uint64_t axes, uint64_t bits, uint64_t frame_bits,
                        uint64_t leaves, uint64_t balls,
                        uint64_t answer[DURBIZHAN_ROOM_ANSWER]);

/* The raw expression of one tree, and of two intersected.
 *   answer   CONVERSION_LENGTH: the symbols written, or needed on NO_ROOM
 *   out      the expression at its front
 *   refused  BAD_UNIVERSE, BAD_ROWS, BAD_TREE or OVERFULL_TREE, NO_ROOM */
uint64_t durbizhan_raw_one(uint64_t axes, uint64_t bits, uint64_t frame_bits,
                           const int64_t *rows, size_t rows_count,
                           const int64_t *balls, size_t balls_count,
                           const uint16_t *words, size_t words_count,
                           uint8_t *out, size_t out_count,
                           uint64_t answer[DURBIZHAN_CONVERSION_ANSWER]);

uint64_t durbizhan_raw_two(uint64_t axes, uint64_t bits, uint64_t frame_bits,
                           const int64_t *rows, size_t rows_count,
                           const int64_t *balls, size_t balls_count,
                           const uint16_t *first, size_t first_count,
                           const uint16_t *second, size_t second_count,
                           uint8_t *out, size_t out_count,
                           uint64_t answer[DURBIZHAN_CONVERSION_ANSWER]);

/* The merged expression of one tree, and of two intersected.
 *   answer   CONVERSION_LENGTH: the symbols written, or needed on NO_ROOM
 *   out      the expression at its front
 *   refused  BAD_UNIVERSE, BAD_ROWS, BAD_TREE or OVERFULL_TREE, NO_ROOM */
uint64_t durbizhan_merged_one(uint64_t axes, uint64_t bits, uint64_t frame_bits,
                              const int64_t *rows, size_t rows_count,
                              const int64_t *balls, size_t balls_count,
                              const uint16_t *words, size_t words_count,
                              uint8_t *out, size_t out_count,
                              uint64_t answer[DURBIZHAN_CONVERSION_ANSWER]);

uint64_t durbizhan_merged_two(uint64_t axes, uint64_t bits, uint64_t frame_bits,
                              const int64_t *rows, size_t rows_count,
                              const int64_t *balls, size_t balls_count,
                              const uint16_t *first, size_t first_count,
                              const uint16_t *second, size_t second_count,
                              uint8_t *out, size_t out_count,
                              uint64_t answer[DURBIZHAN_CONVERSION_ANSWER]);

/* The same expressions by the pruned conversion: from a block to its halves it carries only what is still undecided
 * of the trees, in lent work room, NODE_LENGTH numbers to a node. It takes (L + 1) times the words of the trees in
 * nodes, L being the levels: bits times one less than the axes, and frame_bits.
 *   answer   PRUNED_LACK: 1 where NO_ROOM is for the work room, and else 0
 *            PRUNED_LENGTH: the symbols written; on NO_ROOM the need, in nodes where the work room is lacking
 *            PRUNED_LOOKED: the nodes looked at, 0 on a refusal
 *   out      the expression at its front
 *   work     scratch: BAD_UNIVERSE to OVERFULL_TREE and its own NO_ROOM leave it as it was, after all else it holds
 *            anything
 *   refused  BAD_UNIVERSE, BAD_ROWS, BAD_TREE or OVERFULL_TREE, NO_ROOM for the work room, NO_ROOM for the symbols */
uint64_t durbizhan_pruned_raw_one(uint64_t axes, uint64_t bits, uint64_t frame_bits,
                                  const int64_t *rows, size_t rows_count,
                                  const int64_t *balls, size_t balls_count,
                                  const uint16_t *words, size_t words_count,
                                  int64_t *work, size_t work_count,
                                  uint8_t *out, size_t out_count,
                                  uint64_t answer[DURBIZHAN_PRUNED_ANSWER]);

uint64_t durbizhan_pruned_raw_two(uint64_t axes, uint64_t bits, uint64_t frame_bits,
                                  const int64_t *rows, size_t rows_count,
                                  const int64_t *balls, size_t balls_count,
                                  const uint16_t *first, size_t first_count,
                                  const uint16_t *second, size_t second_count,
                                  int64_t *work, size_t work_count,
                                  uint8_t *out, size_t out_count,
                                  uint64_t answer[DURBIZHAN_PRUNED_ANSWER]);

uint64_t durbizhan_pruned_merged_one(uint64_t axes, uint64_t bits, uint64_t frame_bits,
                                     const int64_t *rows, size_t rows_count,
                                     const int64_t *balls, size_t balls_count,
                                     const uint16_t *words, size_t words_count,
                                     int64_t *work, size_t work_count,
                                     uint8_t *out, size_t out_count,
                                     uint64_t answer[DURBIZHAN_PRUNED_ANSWER]);

uint64_t durbizhan_pruned_merged_two(uint64_t axes, uint64_t bits, uint64_t frame_bits,
                                     const int64_t *rows, size_t rows_count,
                                     const int64_t *balls, size_t balls_count,
                                     const uint16_t *first, size_t first_count,
                                     const uint16_t *second, size_t second_count,
                                     int64_t *work, size_t work_count,
                                     uint8_t *out, size_t out_count,
                                     uint64_t answer[DURBIZHAN_PRUNED_ANSWER]);

/* Whether two trees share space in a window.
 *   answer   VERDICT_HIT: CLEAR or HIT. Read the number first: a refused verdict is Clear
 *            VERDICT_FIRST, VERDICT_LAST, VERDICT_VOXELS: the first and the last frame with a voxel that is black in
 *            both, and how many such voxels the window has; of CLEAR zeros
 *            VERDICT_LENGTH: the symbols written, or needed on NO_ROOM
 *   out      the raw expression of the two intersected at its front
 *   refused  BAD_UNIVERSE, BAD_ROWS, BAD_TREE or OVERFULL_TREE, OUTSIDE, NO_ROOM */
uint64_t durbizhan_verdict(uint64_t axes, uint64_t bits, uint64_t frame_bits,
                           const int64_t *rows, size_t rows_count,
                           const int64_t *balls, size_t balls_count,
                           const uint16_t *first, size_t first_count,
                           const uint16_t *second, size_t second_count,
                           uint64_t first_frame, uint64_t last_frame,
                           uint8_t *out, size_t out_count,
                           uint64_t answer[DURBIZHAN_VERDICT_ANSWER]);

/* The verdict of durbizhan_verdict at once: no room is lent, and no expression is written.
 *   answer   VERDICT_AT_ONCE_HIT: CLEAR or HIT. Read the number first: a refused verdict is Clear
 *            VERDICT_AT_ONCE_FIRST, VERDICT_AT_ONCE_LAST, VERDICT_AT_ONCE_VOXELS: as of durbizhan_verdict
 *   refused  BAD_UNIVERSE, BAD_ROWS, BAD_TREE or OVERFULL_TREE, OUTSIDE */
uint64_t durbizhan_verdict_at_once(uint64_t axes, uint64_t bits, uint64_t frame_bits,
                                   const int64_t *rows, size_t rows_count,
                                   const int64_t *balls, size_t balls_count,
                                   const uint16_t *first, size_t first_count,
                                   const uint16_t *second, size_t second_count,
                                   uint64_t first_frame, uint64_t last_frame,
                                   uint64_t answer[DURBIZHAN_VERDICT_AT_ONCE_ANSWER]);

/* The ends of that verdict alone, at once: nothing is counted, and a block is entered only where it could better them.
 *   answer   ENDS_AT_ONCE_HIT: CLEAR or HIT. Read the number first: a refused answer is Clear
 *            ENDS_AT_ONCE_FIRST, ENDS_AT_ONCE_LAST: the first and the last frame, as of durbizhan_verdict
 *   refused  BAD_UNIVERSE, BAD_ROWS, BAD_TREE or OVERFULL_TREE, OUTSIDE */
uint64_t durbizhan_ends_at_once(uint64_t axes, uint64_t bits, uint64_t frame_bits,
                                const int64_t *rows, size_t rows_count,
                                const int64_t *balls, size_t balls_count,
                                const uint16_t *first, size_t first_count,
                                const uint16_t *second, size_t second_count,
                                uint64_t first_frame, uint64_t last_frame,
                                uint64_t answer[DURBIZHAN_ENDS_AT_ONCE_ANSWER]);

/* How much two trees share of a window, counted in voxels. These never decrease in this order. Where the last is 0,
 * no point of these voxels lies strictly inside both trees: on the inner side of their planes and off them, in their
 * balls.
 *   answer   CONTACTS_SURE: those over whose whole block the intersection is decided BLACK
 *            CONTACTS_CENTRE: those that are black in both at their centre, as a verdict counts them
 *            CONTACTS_POSSIBLE: those over whose block it is not decided WHITE
 *   refused  BAD_UNIVERSE, BAD_ROWS, BAD_TREE or OVERFULL_TREE, OUTSIDE */
uint64_t durbizhan_contacts(uint64_t axes, uint64_t bits, uint64_t frame_bits,
                            const int64_t *rows, size_t rows_count,
                            const int64_t *balls, size_t balls_count,
                            const uint16_t *first, size_t first_count,
                            const uint16_t *second, size_t second_count,
                            uint64_t first_frame, uint64_t last_frame,
                            uint64_t answer[DURBIZHAN_CONTACTS_ANSWER]);

/* Whether a mover, over its keys, and a static tree share space, every frame by its own stretch. The mover is a Box
 * from near to far, which gives its size alone and whose displacement is 0, with 2 to 64 keys: moments, which rise
 * from 0 to 2^frame_bits at the most, and the near corner at each, three numbers to a corner. From a key at moment a
 * to the next at moment b the Box moves evenly, by a step of a whole number of sixteenths, at most 64, each frame;
 * that stretch judges the frames a to b - 1, at their middles. Frames before the first key and from the last key on
 * are not judged. There are four axes. The static tree has at most MOST_STATIC_ROWS rows, and its words name these
 * and its balls alone.
 *   answer   VERDICT_HIT, VERDICT_FIRST, VERDICT_LAST, VERDICT_VOXELS: as of durbizhan_verdict, over the judged frames
 *            VERDICT_LENGTH: that of the last stretch's raw expression; on NO_ROOM the largest need of any stretch
 *   out      the last stretch's raw expression at its front; each stretch's is written over the one before, and what is
 *            left of longer ones stands behind it
 *   refused  BAD_UNIVERSE, BAD_PROXY, BAD_KEYS, BAD_STEP, BAD_ROWS, BAD_TREE or OVERFULL_TREE, NO_ROOM */
uint64_t durbizhan_mover(uint64_t axes, uint64_t bits, uint64_t frame_bits,
                         double near_x, double near_y, double near_z,
                         double far_x, double far_y, double far_z,
                         double displacement_x, double displacement_y, double displacement_z,
                         const uint64_t *moments, size_t moments_count,
                         const double *corners, size_t corners_count,
                         const int64_t *rows, size_t rows_count,
                         const int64_t *balls, size_t balls_count,
                         const uint16_t *words, size_t words_count,
                         uint8_t *out, size_t out_count,
                         uint64_t answer[DURBIZHAN_VERDICT_ANSWER]);

/* Whether an expression is well-formed.
 *   refused  BAD_UNIVERSE, BAD_EXPRESSION */
uint64_t durbizhan_well_formed(uint64_t axes, uint64_t bits, uint64_t frame_bits,
                               const uint8_t *expression, size_t expression_count);

/* The black voxels of an expression in the whole universe, and whether it has one in a window.
 *   answer   NUMBERS_VOLUME: the black voxels of the whole universe
 *            NUMBERS_HIT: CLEAR or HIT. Read the number first: a refused verdict is Clear
 *            NUMBERS_FIRST, NUMBERS_LAST, NUMBERS_VOXELS: the first and the last frame of the window with a black
 *            voxel, and how many the window has; of CLEAR zeros
 *   refused  BAD_UNIVERSE, BAD_EXPRESSION, OUTSIDE */
uint64_t durbizhan_numbers(uint64_t axes, uint64_t bits, uint64_t frame_bits,
                           const uint8_t *expression, size_t expression_count,
                           uint64_t first_frame, uint64_t last_frame,
                           uint64_t answer[DURBIZHAN_NUMBERS_ANSWER]);

/* How much of each frame: expressions holds 0 to MOST_EXPRESSIONS expressions of one universe, one straight after
 * another; each ends where its own tree ends, and nothing else may stand there (BAD_EXPRESSION).
 *   answer   REPORT_FRAMES: how many counts were set, which is the window's frames; on NO_ROOM as many are needed
 *            REPORT_TOTAL: their sum
 *   counts   one for each frame of the window, from its front on: the black voxels of that frame, summed over the list;
 *            set, not added to
 *   refused  BAD_UNIVERSE, BAD_EXPRESSION, OUTSIDE, NO_ROOM */
uint64_t durbizhan_report(uint64_t axes, uint64_t bits, uint64_t frame_bits,
                          const uint8_t *expressions, size_t expressions_count,
                          uint64_t first_frame, uint64_t last_frame,
                          uint64_t *counts, size_t counts_count,
                          uint64_t answer[DURBIZHAN_REPORT_ANSWER]);

/* The colour at a voxel. Its place along the last axis is its frame; above the axes it is 0.
 *   answer   COLOUR_FOUND: WHITE or BLACK. Read the number first: a refused colour is WHITE
 *   refused  BAD_UNIVERSE, BAD_EXPRESSION, OUTSIDE */
uint64_t durbizhan_colour(uint64_t axes, uint64_t bits, uint64_t frame_bits,
                          const uint8_t *expression, size_t expression_count,
                          uint64_t x, uint64_t y, uint64_t z, uint64_t t,
                          uint64_t answer[DURBIZHAN_COLOUR_ANSWER]);

/* Where a block's part of an expression stands; its path has a byte for each half, 0 low or 1 high.
 *   answer   PART_START, PART_LENGTH: its first symbol, counted from 0, and how many it has
 *   refused  BAD_UNIVERSE, BAD_EXPRESSION, OUTSIDE */
uint64_t durbizhan_part(uint64_t axes, uint64_t bits, uint64_t frame_bits,
                        const uint8_t *expression, size_t expression_count,
                        const uint8_t *path, size_t path_count,
                        uint64_t answer[DURBIZHAN_PART_ANSWER]);

/* The space that an expression sweeps along an axis, counted from 1 to axes: a raw or merged one becomes the merged
 * expression of the universe without that axis, black exactly where some voxel over it, along that axis, is black.
 * Swept along the last axis, the expression of a mover's tree is the space in which the mover ever is. The axes that
 * are left keep their order and their bits, and the last of them then counts as frames; where one is left, its bits
 * are the frame bits, and bits is 0. A buffer as long as expression is never refused NO_ROOM. BAD_UNIVERSE also
 * where there is one axis alone, or axis is not 1 to axes.
 *   answer   SWEEP_AXES, SWEEP_BITS, SWEEP_FRAME_BITS: the universe without the axis
 *            SWEEP_LENGTH: the symbols written, or needed on NO_ROOM
 *   out      the expression at its front
 *   refused  BAD_UNIVERSE, BAD_EXPRESSION, NO_ROOM */
uint64_t durbizhan_sweep(uint64_t axes, uint64_t bits, uint64_t frame_bits,
                         uint64_t axis,
                         const uint8_t *expression, size_t expression_count,
                         uint8_t *out, size_t out_count,
                         uint64_t answer[DURBIZHAN_SWEEP_ANSWER]);

/* The octree of a raw or merged expression of three axes with equal bits (frame_bits equal to bits): preorder
 * symbols `P` for partly full, followed by its eight sons in the order 4x + 2y + z of their halves, `F` for full and
 * `E` for empty, with no `P` whose eight sons are all `F` or all `E`. It is shorter than four times the expression,
 * so a buffer four times as long is never refused NO_ROOM. BAD_UNIVERSE also where there are not three axes or the
 * bits differ.
 *   answer   OCTREE_LENGTH: the symbols written, or needed on NO_ROOM
 *   out      the octree at its front
 *   refused  BAD_UNIVERSE, BAD_EXPRESSION, NO_ROOM */
uint64_t durbizhan_octree_export(uint64_t axes, uint64_t bits, uint64_t frame_bits,
                                 const uint8_t *expression, size_t expression_count,
                                 uint8_t *out, size_t out_count,
                                 uint64_t answer[DURBIZHAN_OCTREE_ANSWER]);

/* The merged expression of such an octree, reduced or not. A `P` has exactly eight sons, and none stands below as
 * many levels as there are bits; anything else is BAD_EXPRESSION. The expression is shorter than twice the octree,
 * so a buffer twice as long is never refused NO_ROOM.
 *   answer   OCTREE_LENGTH: the symbols written, or needed on NO_ROOM
 *   out      the expression at its front
 *   refused  BAD_UNIVERSE, BAD_EXPRESSION, NO_ROOM */
uint64_t durbizhan_octree_import(uint64_t axes, uint64_t bits, uint64_t frame_bits,
                                 const uint8_t *octree, size_t octree_count,
                                 uint8_t *out, size_t out_count,
                                 uint64_t answer[DURBIZHAN_OCTREE_ANSWER]);

/* The merged expression of a raw or merged one.
 *   answer   MERGE_LENGTH: the symbols written, or needed on NO_ROOM
 *            MERGE_HELD: the most symbols that merging holds back while it receives the expression: of the merged text
 *            so far, those after its longest beginning that no legal continuation changes; at most twice the levels
 *   out      the expression at its front
 *   refused  BAD_UNIVERSE, BAD_EXPRESSION, NO_ROOM */
uint64_t durbizhan_merge(uint64_t axes, uint64_t bits, uint64_t frame_bits,
                         const uint8_t *expression, size_t expression_count,
                         uint8_t *out, size_t out_count,
                         uint64_t answer[DURBIZHAN_MERGE_ANSWER]);

/* Reads a scene file, of version 1 to 3. Version 1 has one number, 0 to 10, for bits and frame bits; of one axis it
 * is the frame bits, and bits is 0. Versions 1 and 2 have no balls.
 *   answer   SCENE_VERSION, and SCENE_AXES, SCENE_BITS, SCENE_FRAME_BITS of its universe
 *            SCENE_ROWS, SCENE_BALLS, SCENE_FIRST_WORDS, SCENE_SECOND_WORDS: how many there are, ROW_LENGTH numbers to
 *            a row and BALL_LENGTH to a ball
 *            SCENE_FIRST_FRAME, SCENE_LAST_FRAME: its window
 *   rows, balls, first, second
 *            its rows, its balls and the words of its two trees, each at the front
 *   refused  BAD_FILE, BAD_UNIVERSE, BAD_ROWS, BAD_TREE or OVERFULL_TREE, OUTSIDE */
uint64_t durbizhan_scene(const uint8_t *bytes, size_t bytes_count,
                         int64_t rows[DURBIZHAN_MOST_NUMBERS], int64_t balls[DURBIZHAN_MOST_BALL_NUMBERS],
                         uint16_t first[DURBIZHAN_MOST_WORDS], uint16_t second[DURBIZHAN_MOST_WORDS],
                         uint64_t answer[DURBIZHAN_SCENE_ANSWER]);

/* The lines that the program prints for a scene file. Returns how many bytes the lines have; this is a count, no
 * refusal.
 * READ THE LINE: a refusal is the one line "refused n", or "refused 6 needed n" where over MOST_LINES_SYMBOLS
 * symbols are needed. A scene of over MOST_SCENE_BYTES bytes is refused BAD_FILE. Each line ends with a newline, and
 * no zero byte follows the last.
 *   out      the lines at its front: no lines have more bytes than it, and nothing behind them is written to */
uint64_t durbizhan_lines(const uint8_t *scene, size_t scene_count, uint8_t out[DURBIZHAN_MOST_LINES_BYTES]);

/* Reads a shape file, of version 1 or 2. Version 2 is 12 bytes and the symbols, version 1 is 11 and the symbols,
 * with bits as in a scene of version 1.
 *   answer   SHAPE_READ_AXES, SHAPE_READ_BITS, SHAPE_READ_FRAME_BITS: its universe
 *            SHAPE_READ_LENGTH: the symbols written, or needed on NO_ROOM
 *   out      its symbols at its front
 *   refused  BAD_FILE, BAD_UNIVERSE, BAD_EXPRESSION, NOT_MERGED, NO_ROOM */
uint64_t durbizhan_shape_read(const uint8_t *bytes, size_t bytes_count,
                              uint8_t *out, size_t out_count,
                              uint64_t answer[DURBIZHAN_SHAPE_READ_ANSWER]);

/* The shape file of a merged expression, of version 2: SHAPE_HEADER_LENGTH bytes and the symbols.
 *   answer   SHAPE_WRITE_LENGTH: the bytes written, or needed on NO_ROOM, which is also for over MOST_SHAPE_SYMBOLS
 *   out      the file at its front
 *   refused  BAD_UNIVERSE, BAD_EXPRESSION, NOT_MERGED, NO_ROOM */
uint64_t durbizhan_shape_write(uint64_t axes, uint64_t bits, uint64_t frame_bits,
                               const uint8_t *expression, size_t expression_count,
                               uint8_t *out, size_t out_count,
                               uint64_t answer[DURBIZHAN_SHAPE_WRITE_ANSWER]);

/* The six rows of a stand-in Box for axes 4; the displacement is per frame.
 *   rows     near and far of x, of y, of z; refused, zeros
 *   refused  BAD_PROXY */
uint64_t durbizhan_box(double near_x, double near_y, double near_z,
                       double far_x, double far_y, double far_z,
                       double displacement_x, double displacement_y, double displacement_z,
                       int64_t rows[DURBIZHAN_BOX_NUMBERS]);

/* The row of a stand-in Cut for axes 4, which holds where n.x + offset >= 0; the displacement is per frame.
 *   row      that row; refused, zeros
 *   refused  BAD_PROXY */
uint64_t durbizhan_cut(double normal_x, double normal_y, double normal_z, double offset,
                       double displacement_x, double displacement_y, double displacement_z,
                       int64_t row[DURBIZHAN_ROW_LENGTH]);

#ifdef __cplusplus
}
#endif

#endif
