/* tests/stack.c: how much of the stack each function of the library takes. tests/stack builds and runs it, and holds
 * what it prints to what include/durbizhan.h promises: a line for each function, its name and the most bytes of a call.
 *
 * Each call is made on a stack of its own that is painted beforehand. What is painted no more was taken, the frame of
 * the call itself among it; two paints are tried, so that what is written in the colour of one is seen on the other.
 * The calls go the deepest way: to level 42 of axes 4, bits 10, frame bits 12, in the low halves and in the high ones,
 * with room short of the formula and with all of it, with the most rows, balls and words, with 13 digits to print; and
 * every function is refused, too. A call that does not return the number that stands beside it fails: it did not go
 * that way.
 */
#define _GNU_SOURCE
#include <inttypes.h>
#include <stdio.h>
#include <string.h>
#include <sys/mman.h>
#include <ucontext.h>

#include "durbizhan.h"

enum { AXES = 4, BITS = 10, FRAME_BITS = 12, LEVELS = 42, SIDE = 1 << BITS, FRAMES = 1 << FRAME_BITS };
enum { STACK = 1 << 20, GUARD = 1 << 16, ROOM = 1 << 19 };

#define COUNT(array) (sizeof(array) / sizeof((array)[0]))

/* What the next call is given. `bytes` is an expression, or a file. */
struct scene {
    uint64_t axes, bits, frame_bits;
    const int64_t *rows;
    size_t rows_count;
    const int64_t *balls;
    size_t balls_count;
    const uint16_t *first;
    size_t first_count;
    const uint16_t *second;
    size_t second_count;
};
static struct scene scene;
static uint64_t axes, bits, frame_bits, last_frame, place, frame;
static uint64_t axis;
static uint8_t bytes[ROOM], path[LEVELS + 1], out[ROOM];
static size_t bytes_count, path_count, lent, counts_count;
static double corner;

/* What it returned and wrote. */
static uint64_t number, answer[10], counts[FRAMES];
static int64_t rows[1280], balls[256];
static uint16_t first[255], second[255];

/* The work room of the pruned conversions, and whether it is lacking. */
static int64_t work[3 * (LEVELS + 1) * 2 * COUNT(first)];
static size_t work_count = COUNT(work);
static uint64_t lacks;

/* The calls. */
static void leaves(void) { number = durbizhan_leaves(scene.first, scene.first_count); }

static void ball_words(void) { number = durbizhan_balls(scene.first, scene.first_count); }

static void room(void) { number = durbizhan_room(axes, bits, frame_bits, UINT64_MAX, UINT64_MAX, answer); }

static void room_without_balls(void) { number = durbizhan_room(axes, bits, frame_bits, UINT64_MAX, 0, answer); }

static void raw_one(void)
{
    number = durbizhan_raw_one(scene.axes, scene.bits, scene.frame_bits, scene.rows, scene.rows_count,
                               scene.balls, scene.balls_count, scene.first, scene.first_count, out, lent, answer);
}

static void raw_two(void)
{
    number = durbizhan_raw_two(scene.axes, scene.bits, scene.frame_bits, scene.rows, scene.rows_count,
                               scene.balls, scene.balls_count, scene.first, scene.first_count,
                               scene.second, scene.second_count, out, lent, answer);
}

static void merged_one(void)
{
    number = durbizhan_merged_one(scene.axes, scene.bits, scene.frame_bits, scene.rows, scene.rows_count,
                                  scene.balls, scene.balls_count, scene.first, scene.first_count, out, lent, answer);
}

static void merged_two(void)
{
    number = durbizhan_merged_two(scene.axes, scene.bits, scene.frame_bits, scene.rows, scene.rows_count,
                                  scene.balls, scene.balls_count, scene.first, scene.first_count,
                                  scene.second, scene.second_count, out, lent, answer);
}

static void pruned_raw_one(void)
{
    number = durbizhan_pruned_raw_one(scene.axes, scene.bits, scene.frame_bits, scene.rows, scene.rows_count,
                                      scene.balls, scene.balls_count, scene.first, scene.first_count,
                                      work, work_count, out, lent, answer);
    lacks = answer[0];
    answer[0] = answer[1];
}

static void pruned_raw_two(void)
{
    number = durbizhan_pruned_raw_two(scene.axes, scene.bits, scene.frame_bits, scene.rows, scene.rows_count,
                                      scene.balls, scene.balls_count, scene.first, scene.first_count,
                                      scene.second, scene.second_count,
                                      work, work_count, out, lent, answer);
    lacks = answer[0];
    answer[0] = answer[1];
}

static void pruned_merged_one(void)
{
    number = durbizhan_pruned_merged_one(scene.axes, scene.bits, scene.frame_bits, scene.rows, scene.rows_count,
                                         scene.balls, scene.balls_count, scene.first, scene.first_count,
                                         work, work_count, out, lent, answer);
    lacks = answer[0];
    answer[0] = answer[1];
}

static void pruned_merged_two(void)
{
    number = durbizhan_pruned_merged_two(scene.axes, scene.bits, scene.frame_bits, scene.rows, scene.rows_count,
                                         scene.balls, scene.balls_count, scene.first, scene.first_count,
                                         scene.second, scene.second_count,
                                         work, work_count, out, lent, answer);
    lacks = answer[0];
    answer[0] = answer[1];
}

static void verdict(void)
{
    number = durbizhan_verdict(scene.axes, scene.bits, scene.frame_bits, scene.rows, scene.rows_count,
                               scene.balls, scene.balls_count, scene.first, scene.first_count,
                               scene.second, scene.second_count, 0, last_frame, out, lent, answer);
    answer[0] = answer[4];
}

static void verdict_at_once(void)
{
    number = durbizhan_verdict_at_once(scene.axes, scene.bits, scene.frame_bits, scene.rows, scene.rows_count,
                                       scene.balls, scene.balls_count, scene.first, scene.first_count,
                                       scene.second, scene.second_count, 0, last_frame, answer);
}

static void ends_at_once(void)
{
    number = durbizhan_ends_at_once(scene.axes, scene.bits, scene.frame_bits, scene.rows, scene.rows_count,
                                    scene.balls, scene.balls_count, scene.first, scene.first_count,
                                    scene.second, scene.second_count, 0, last_frame, answer);
}

static void contacts(void)
{
    number = durbizhan_contacts(scene.axes, scene.bits, scene.frame_bits, scene.rows, scene.rows_count,
                                scene.balls, scene.balls_count, scene.first, scene.first_count,
                                scene.second, scene.second_count, 0, last_frame, answer);
}

/* A cube of so many units that stays near the origin from the first frame to the last, and then goes by. */
static void mover(void)
{
    static const uint64_t moments[] = {0, FRAMES - 1, FRAMES};
    const double corners[] = {corner, 0, 0, corner, 0, 0, corner + 1, 0, 0};
    number = durbizhan_mover(scene.axes, scene.bits, scene.frame_bits, 0, 0, 0, 1, 1, 1, 0, 0, 0, moments, 3, corners,
                             9, scene.rows, scene.rows_count, scene.balls, scene.balls_count, scene.first,
                             scene.first_count, out, lent, answer);
}

static void well_formed(void) { number = durbizhan_well_formed(axes, bits, frame_bits, bytes, bytes_count); }

static void numbers(void)
{
    number = durbizhan_numbers(axes, bits, frame_bits, bytes, bytes_count, 0, last_frame, answer);
}

static void report(void)
{
    number = durbizhan_report(axes, bits, frame_bits, bytes, bytes_count, 0, last_frame, counts, counts_count, answer);
}

static void colour(void)
{
    number = durbizhan_colour(axes, bits, frame_bits, bytes, bytes_count, place, place, place, frame, answer);
}

static void sweep(void)
{
    number = durbizhan_sweep(axes, bits, frame_bits, axis, bytes, bytes_count, out, lent, answer);
}

static void octree_export(void)
{
    number = durbizhan_octree_export(axes, bits, frame_bits, bytes, bytes_count, out, lent, answer);
}

static void octree_import(void)
{
    number = durbizhan_octree_import(axes, bits, frame_bits, bytes, bytes_count, out, lent, answer);
}

static void part(void)
{
    number = durbizhan_part(axes, bits, frame_bits, bytes, bytes_count, path, path_count, answer);
}

static void merge(void) { number = durbizhan_merge(axes, bits, frame_bits, bytes, bytes_count, out, lent, answer); }

static void read_scene(void) { number = durbizhan_scene(bytes, bytes_count, rows, balls, first, second, answer); }

/* A line's number, where it is a refusal's. */
static void lines(void)
{
    durbizhan_lines(bytes, bytes_count, out);
    number = out[0] == 'r' ? (uint64_t)(out[8] - '0') : DURBIZHAN_ACCEPTED;
}

static void shape_read(void) { number = durbizhan_shape_read(bytes, bytes_count, out, lent, answer); }

static void shape_write(void)
{
    number = durbizhan_shape_write(axes, bits, frame_bits, bytes, bytes_count, out, lent, answer);
}

static void box(void) { number = durbizhan_box(0, 0, 0, corner, corner, corner, 64, 64, 64, rows); }

static void cut(void) { number = durbizhan_cut(64, 64, 64, corner, 64, 64, 64, rows); }

/* The measuring. */
static uint8_t *stack;
static const char *function;
static size_t most;
static int failures;

static size_t taken(void (*call)(void), uint8_t paint)
{
    static ucontext_t here, there;
    memset(stack, paint, STACK);
    getcontext(&there);
    there.uc_stack.ss_sp = stack;
    there.uc_stack.ss_size = STACK;
    there.uc_link = &here;
    makecontext(&there, call, 0);
    swapcontext(&here, &there);
    size_t untouched = 0;
    while (untouched < STACK && stack[untouched] == paint) untouched++;
    return STACK - untouched;
}

static void expect(const char *what, uint64_t got, uint64_t wanted)
{
    if (got == wanted) return;
    fprintf(stderr, "tests/stack: %s: %s %" PRIu64 ", not %" PRIu64 "\n", function, what, got, wanted);
    failures++;
}

/* One call, and the number that it is to return. */
static void take(void (*call)(void), uint64_t wanted)
{
    static const uint8_t paints[] = {0xa5, 0x5a};
    for (size_t i = 0; i < COUNT(paints); i++) {
        size_t bytes_taken = taken(call, paints[i]);
        if (bytes_taken > most) most = bytes_taken;
        expect("number", number, wanted);
    }
}

static void begin(const char *named)
{
    function = named;
    most = 0;
}

static void end(void) { printf("%s %zu\n", function, most); }

/* Below 1/2 on each axis, above 1023 and 1/2 on each but 4095 and 1/2 on the last, and two oblique halfspaces. */
static const int64_t halfspaces[] = {
    1, -2, 0, 0, 0,     1, 0, -2, 0, 0,     1, 0, 0, -2, 0,     1, 0, 0, 0, -2,
    -2047, 2, 0, 0, 0,  -2047, 0, 2, 0, 0,  -2047, 0, 0, 2, 0,  -8191, 0, 0, 0, 2,
    -1, 2, -2, 0, 0,    41, -2, 2, 0, 0,
};
enum { AND = 3, LOW = 256, HIGH = 260, OBLIQUE = 264 };

/* Balls about the lowest corner and the highest, each of which holds the centre of the voxel there alone. */
static const int64_t corners[] = {0, 0, 0, 1, 1024, 1024, 1024, 1};
enum { LOW_BALL = DURBIZHAN_FIRST_BALL, HIGH_BALL };

/* The lowest voxel, the highest, either by a ball, and an oblique strip in the lowest place of two axes, which has many
 * blocks. */
static const uint16_t low_voxel[] = {LOW, LOW + 1, AND, LOW + 2, AND, LOW + 3, AND};
static const uint16_t high_voxel[] = {HIGH, HIGH + 1, AND, HIGH + 2, AND, HIGH + 3, AND};
static const uint16_t low_ball[] = {LOW_BALL, LOW + 3, AND};
static const uint16_t high_ball[] = {HIGH_BALL, HIGH + 3, AND};
static const uint16_t strip[] = {OBLIQUE, OBLIQUE + 1, AND, LOW + 2, AND, LOW + 3, AND};
static const uint16_t black[] = {1};

/* The most rows, the most balls, the most words, with 32 shapes pending on the way, and a word more. Behind those that
 * are pending a halfspace and a ball take turns, 48 times. */
static int64_t all_rows[1280], all_balls[256];
static uint16_t all_words[256];
enum { BALLS_NAMED = 48, LEAVES_NAMED = 80 };

static void fill(void)
{
    memcpy(all_rows, halfspaces, sizeof halfspaces);
    for (size_t i = 0; i < COUNT(all_balls); i++) all_balls[i] = corners[i % 4];
    for (size_t i = 0; i < COUNT(all_words); i++)
        all_words[i] = i < 32 ? LOW + i % 4 : i < 63 || i % 2 == 0 ? AND : i % 4 == 3 ? LOW : LOW_BALL + i / 4;
}

#define SCENE(d, k, f, one, two) \
    (struct scene){d, k, f, halfspaces, COUNT(halfspaces), corners, COUNT(corners), one, COUNT(one), two, COUNT(two)}
#define DEEPEST(one, two) SCENE(AXES, BITS, FRAME_BITS, one, two)
#define LARGEST \
    (struct scene){AXES, BITS, FRAME_BITS, all_rows, COUNT(all_rows), all_balls, COUNT(all_balls), all_words, 255, \
                   all_words, 255}

/* Runs with one fault each. */
static void refused_runs(void (*call)(void), int windowed)
{
    last_frame = 0;
    scene = SCENE(AXES, 4, 5, low_voxel, black);
    take(call, DURBIZHAN_ACCEPTED);
    scene = SCENE(5, BITS, FRAME_BITS, low_voxel, black);
    take(call, DURBIZHAN_BAD_UNIVERSE);
    scene = SCENE(1, 0, FRAME_BITS, low_voxel, black);
    take(call, DURBIZHAN_BAD_ROWS);
    scene.rows_count = 0;
    take(call, DURBIZHAN_BAD_ROWS);
    scene = LARGEST;
    scene.balls_count--;
    take(call, DURBIZHAN_BAD_ROWS);
    scene = LARGEST;
    scene.first_count = 2;
    take(call, DURBIZHAN_BAD_TREE);
    scene.first_count = 256;
    take(call, DURBIZHAN_OVERFULL_TREE);
    if (windowed) {
        last_frame = FRAMES;
        scene = LARGEST;
        take(call, DURBIZHAN_OUTSIDE);
    }
}

/* Runs that go to level 42 in all halves, and the strip, the last. */
#define DEEP_RUNS \
    { \
        DEEPEST(low_voxel, low_voxel), DEEPEST(high_voxel, high_voxel), DEEPEST(low_ball, low_ball), \
        DEEPEST(high_ball, high_ball), LARGEST, DEEPEST(strip, black), \
    }

static void conversions(const char *named, void (*call)(void), int in_work_room)
{
    const struct scene deep[] = DEEP_RUNS;
    begin(named);
    last_frame = FRAMES - 1;
    for (size_t i = 0; i < COUNT(deep); i++) {
        scene = deep[i];
        lent = 0;
        take(call, DURBIZHAN_NO_ROOM);
        size_t needed = answer[0];
        size_t rooms[] = {needed - 1, needed, 4096, 4097, 32768, 32769, ROOM};
        for (size_t j = 0; j < COUNT(rooms); j++) {
            lent = rooms[j];
            take(call, lent < needed ? DURBIZHAN_NO_ROOM : DURBIZHAN_ACCEPTED);
        }
    }
    expect("the strip is past the scratch room", answer[0] > 32768, 1);
    refused_runs(call, call == verdict);
    if (in_work_room) {
        scene = deep[0];
        work_count = 0;
        take(call, DURBIZHAN_NO_ROOM);
        expect("it is work room that is lacking", lacks, 1);
        work_count = COUNT(work);
    }
    end();
}

static void contact_counts(void)
{
    const struct scene deep[] = DEEP_RUNS;
    begin("durbizhan_contacts");
    last_frame = FRAMES - 1;
    for (size_t i = 0; i < COUNT(deep); i++) {
        scene = deep[i];
        take(contacts, DURBIZHAN_ACCEPTED);
    }
    expect("some of the strip is sure, and more is possible", answer[0] < answer[2], 1);
    refused_runs(contacts, 1);
    end();
}

/* The calls of an answer at once. */
static void answers_at_once(const char *named, void (*call)(void))
{
    const struct scene deep[] = DEEP_RUNS;
    begin(named);
    last_frame = FRAMES - 1;
    for (size_t i = 0; i < COUNT(deep); i++) {
        scene = deep[i];
        take(call, DURBIZHAN_ACCEPTED);
        expect("a deep run is a hit", answer[0], DURBIZHAN_HIT);
    }
    refused_runs(call, 1);
    end();
}

/* Expressions that go to level 42 in the low halves, in the high ones, one all black, and one that lacks its end. */
enum shape { IN_LOW, IN_HIGH, ALL_BLACK, UNENDED };

static void express(enum shape shape)
{
    axes = AXES;
    bits = BITS;
    frame_bits = FRAME_BITS;
    bytes_count = 2 * LEVELS + (shape != UNENDED);
    for (size_t i = 0; i <= 2 * LEVELS; i++) {
        int halved = shape == IN_HIGH ? i % 2 == 0 && i < 2 * LEVELS : i < LEVELS;
        int is_black = shape == ALL_BLACK || i == (shape == IN_HIGH ? 2 * LEVELS : LEVELS);
        bytes[i] = halved ? '(' : is_black ? 'B' : 'W';
    }
}

/* The calls of a question to an expression, or of one that writes, with all room and with too little. */
static void questions(void (*call)(void), uint64_t where_black, uint64_t where_short)
{
    const uint64_t wanted[] = {DURBIZHAN_ACCEPTED, DURBIZHAN_ACCEPTED, where_black, DURBIZHAN_BAD_EXPRESSION};
    for (enum shape shape = IN_LOW; shape <= UNENDED; shape++) {
        express(shape);
        lent = ROOM;
        take(call, wanted[shape]);
        lent = 0;
        take(call, wanted[shape] == DURBIZHAN_ACCEPTED ? where_short : wanted[shape]);
    }
    axes = 5;
    take(call, DURBIZHAN_BAD_UNIVERSE);
}

static void questions_at_places(void)
{
    begin("durbizhan_colour");
    for (place = frame = 0; place < SIDE; place += SIDE - 1, frame += FRAMES - 1)
        questions(colour, DURBIZHAN_ACCEPTED, DURBIZHAN_ACCEPTED);
    express(IN_LOW);
    place = SIDE - 1;
    frame = FRAMES;
    take(colour, DURBIZHAN_OUTSIDE);
    end();
    begin("durbizhan_part");
    for (uint8_t half = 0; half < 2; half++) {
        memset(path, half, sizeof path);
        path_count = LEVELS;
        questions(part, DURBIZHAN_ACCEPTED, DURBIZHAN_ACCEPTED);
        express(half ? IN_HIGH : IN_LOW);
        path_count = LEVELS + 1;
        take(part, DURBIZHAN_OUTSIDE);
    }
    end();
}

/* The calls of a sweep: along each axis, with room for exactly its symbols and for one fewer too, and along one that is
 * not there. */
static void sweeps(void)
{
    begin("durbizhan_sweep");
    for (axis = 1; axis <= AXES; axis++) {
        questions(sweep, DURBIZHAN_ACCEPTED, DURBIZHAN_NO_ROOM);
        express(IN_HIGH);
        lent = ROOM;
        take(sweep, DURBIZHAN_ACCEPTED);
        expect("axes of the deepest sweep", answer[0], AXES - 1);
        lent = answer[3];
        take(sweep, DURBIZHAN_ACCEPTED);
        lent--;
        take(sweep, DURBIZHAN_NO_ROOM);
    }
    express(IN_HIGH);
    take(sweep, DURBIZHAN_BAD_UNIVERSE);
    end();
}

/* The calls of octrees: the deepest cube of the largest universe that has any, with room for exactly its symbols and for
 * one fewer too, what is written read back, and a universe that has none. */
static void octrees(void)
{
    begin("durbizhan_octree_export");
    axes = 3;
    bits = frame_bits = BITS;
    bytes_count = 0;
    for (int level = 0; level < 3 * BITS; level++) {
        bytes[bytes_count++] = '(';
        bytes[bytes_count++] = 'W';
    }
    bytes[bytes_count++] = 'B';
    lent = 0;
    take(octree_export, DURBIZHAN_NO_ROOM);
    lent = answer[0];
    take(octree_export, DURBIZHAN_ACCEPTED);
    expect("symbols of the deepest cube", answer[0], 8 * BITS + 1);
    lent--;
    take(octree_export, DURBIZHAN_NO_ROOM);
    lent = 4 * bytes_count;
    take(octree_export, DURBIZHAN_ACCEPTED);
    axes = 4;
    take(octree_export, DURBIZHAN_BAD_UNIVERSE);
    axes = 3;
    bytes[0] = 'F';
    take(octree_export, DURBIZHAN_BAD_EXPRESSION);
    end();
    begin("durbizhan_octree_import");
    bytes_count = 8 * BITS + 1;
    memset(bytes, 'E', bytes_count);
    memset(bytes, 'P', BITS);
    lent = 0;
    take(octree_import, DURBIZHAN_NO_ROOM);
    expect("one solid", answer[0], 1);
    bytes[BITS] = 'F';
    take(octree_import, DURBIZHAN_NO_ROOM);
    lent = answer[0];
    take(octree_import, DURBIZHAN_ACCEPTED);
    lent--;
    take(octree_import, DURBIZHAN_NO_ROOM);
    lent = 2 * bytes_count;
    take(octree_import, DURBIZHAN_ACCEPTED);
    axes = 4;
    take(octree_import, DURBIZHAN_BAD_UNIVERSE);
    axes = 3;
    bytes_count--;
    take(octree_import, DURBIZHAN_BAD_EXPRESSION);
    end();
}

/* The calls of a mover: against the deepest and the largest trees, with all room, with too little, and refused. */
static void movers(void)
{
    begin("durbizhan_mover");
    corner = 0;
    scene = DEEPEST(low_voxel, low_voxel);
    lent = 0;
    take(mover, DURBIZHAN_NO_ROOM);
    lent = answer[4] - 1;
    take(mover, DURBIZHAN_NO_ROOM);
    lent = ROOM;
    take(mover, DURBIZHAN_ACCEPTED);
    scene = LARGEST;
    take(mover, DURBIZHAN_BAD_ROWS);
    scene.rows_count = 5 * 250;
    take(mover, DURBIZHAN_ACCEPTED);
    scene = DEEPEST(low_voxel, low_voxel);
    corner = 1.0 / 32;
    take(mover, DURBIZHAN_BAD_PROXY);
    scene.axes = 3;
    take(mover, DURBIZHAN_BAD_UNIVERSE);
    end();
}

/* The low bytes of a number, behind what stands in `bytes`. */
static void put(uint64_t value, int length)
{
    for (int i = 0; i < length; i++) bytes[bytes_count++] = (uint8_t)(value >> 8 * i);
}

/* The file of a scene; version 3 alone has balls. */
static void scene_file(uint64_t version, struct scene of, uint64_t last)
{
    bytes_count = 0;
    put(0x00435348 | version << 24, 4);
    put(of.axes << 8 | of.bits << 16 | of.frame_bits << 24, 4);
    put(of.rows_count / 5, 2);
    put(of.first_count, 2);
    put(of.second_count, 2);
    put(0, 2);
    put(last, 2);
    if (version == 3) put(of.balls_count / 4, 2);
    for (size_t i = 0; i < of.rows_count; i++) put((uint64_t)of.rows[i], 8);
    for (size_t i = 0; version == 3 && i < of.balls_count; i++) put((uint64_t)of.balls[i], 2);
    for (size_t i = 0; i < of.first_count; i++) put(of.first[i], 2);
    for (size_t i = 0; i < of.second_count; i++) put(of.second[i], 2);
}

/* The calls of what reads a scene file; for the program's lines the strip has too many symbols. */
static void scenes(const char *named, void (*call)(void), uint64_t of_strip)
{
    const struct scene taken_in[] = {
        LARGEST, DEEPEST(low_voxel, low_voxel), DEEPEST(high_voxel, high_voxel), DEEPEST(low_ball, low_ball),
        DEEPEST(high_ball, high_ball), DEEPEST(black, black), SCENE(AXES, 4, 5, low_voxel, black),
    };
    begin(named);
    for (size_t i = 0; i < COUNT(taken_in); i++) {
        scene_file(3, taken_in[i], taken_in[i].bits == BITS ? FRAMES - 1 : 31);
        take(call, DURBIZHAN_ACCEPTED);
    }
    scene_file(2, DEEPEST(low_voxel, low_voxel), FRAMES - 1);
    take(call, DURBIZHAN_ACCEPTED);
    scene_file(1, SCENE(AXES, BITS, 0, low_voxel, low_voxel), SIDE - 1);
    take(call, DURBIZHAN_ACCEPTED);
    scene_file(3, DEEPEST(strip, black), FRAMES - 1);
    take(call, of_strip);
    scene_file(3, LARGEST, FRAMES);
    take(call, DURBIZHAN_OUTSIDE);
    bytes[5] = 1;
    bytes[6] = 0;
    take(call, DURBIZHAN_BAD_ROWS);
    bytes[6] = 1;
    take(call, DURBIZHAN_BAD_UNIVERSE);
    bytes[3] = 4;
    take(call, DURBIZHAN_BAD_FILE);
    struct scene wrong = LARGEST;
    wrong.second_count = 2;
    scene_file(3, wrong, 0);
    take(call, DURBIZHAN_BAD_TREE);
    wrong.second_count = 256;
    scene_file(3, wrong, 0);
    take(call, DURBIZHAN_OVERFULL_TREE);
    /* a ball's number past its limit, and a ball word where there are no balls */
    wrong = SCENE(AXES, BITS, FRAME_BITS, black, black);
    static const int64_t too_large[] = {0, 0, 0, 1025};
    wrong.balls = too_large;
    wrong.balls_count = COUNT(too_large);
    scene_file(3, wrong, 0);
    take(call, DURBIZHAN_BAD_ROWS);
    scene_file(2, DEEPEST(low_ball, black), 0);
    take(call, DURBIZHAN_BAD_TREE);
    end();
}

/* The calls of what reads a shape file. */
static void shapes(void)
{
    const uint64_t wanted[] = {
        DURBIZHAN_ACCEPTED, DURBIZHAN_ACCEPTED, DURBIZHAN_NOT_MERGED, DURBIZHAN_BAD_EXPRESSION,
    };
    begin("durbizhan_shape_read");
    for (enum shape shape = IN_LOW; shape <= UNENDED; shape++) {
        express(shape);
        size_t count = bytes_count;
        memmove(bytes + 12, bytes, count);
        bytes_count = 0;
        put(0x02544e42, 4);
        put(AXES << 8 | BITS << 16 | FRAME_BITS << 24, 4);
        put(count, 4);
        bytes_count += count;
        lent = ROOM;
        take(shape_read, wanted[shape]);
        lent = 0;
        take(shape_read, wanted[shape] == DURBIZHAN_ACCEPTED ? DURBIZHAN_NO_ROOM : wanted[shape]);
    }
    bytes[5] = 5;
    take(shape_read, DURBIZHAN_BAD_UNIVERSE);
    bytes_count--;
    take(shape_read, DURBIZHAN_BAD_FILE);
    /* version 1 */
    bytes_count = 0;
    put(0x01544e42, 4);
    put(AXES << 8 | BITS << 16, 3);
    put(1, 4);
    put('B', 1);
    lent = ROOM;
    take(shape_read, DURBIZHAN_ACCEPTED);
    end();
}

static void proxies(const char *named, void (*call)(void))
{
    begin(named);
    corner = 4096;
    take(call, DURBIZHAN_ACCEPTED);
    corner = 4096.0625;
    take(call, DURBIZHAN_BAD_PROXY);
    end();
}

int main(void)
{
    /* what goes past the stack stops at a guard */
    uint8_t *all = mmap(NULL, GUARD + STACK, PROT_NONE, MAP_PRIVATE | MAP_ANONYMOUS, -1, 0);
    if (all == MAP_FAILED || mprotect(all + GUARD, STACK, PROT_READ | PROT_WRITE) != 0) return 2;
    stack = all + GUARD;
    fill();

    begin("durbizhan_leaves");
    scene = LARGEST;
    take(leaves, LEAVES_NAMED);
    end();
    begin("durbizhan_balls");
    take(ball_words, BALLS_NAMED);
    end();
    begin("durbizhan_room");
    axes = AXES;
    bits = BITS;
    frame_bits = FRAME_BITS;
    take(room, DURBIZHAN_ACCEPTED);
    take(room_without_balls, DURBIZHAN_ACCEPTED);
    frame_bits = FRAME_BITS + 1;
    take(room, DURBIZHAN_BAD_UNIVERSE);
    end();
    conversions("durbizhan_raw_one", raw_one, 0);
    conversions("durbizhan_raw_two", raw_two, 0);
    conversions("durbizhan_merged_one", merged_one, 0);
    conversions("durbizhan_merged_two", merged_two, 0);
    conversions("durbizhan_pruned_raw_one", pruned_raw_one, 1);
    conversions("durbizhan_pruned_raw_two", pruned_raw_two, 1);
    conversions("durbizhan_pruned_merged_one", pruned_merged_one, 1);
    conversions("durbizhan_pruned_merged_two", pruned_merged_two, 1);
    conversions("durbizhan_verdict", verdict, 0);
    answers_at_once("durbizhan_verdict_at_once", verdict_at_once);
    answers_at_once("durbizhan_ends_at_once", ends_at_once);
    contact_counts();
    begin("durbizhan_well_formed");
    questions(well_formed, DURBIZHAN_ACCEPTED, DURBIZHAN_ACCEPTED);
    end();
    begin("durbizhan_numbers");
    last_frame = FRAMES - 1;
    questions(numbers, DURBIZHAN_ACCEPTED, DURBIZHAN_ACCEPTED);
    express(IN_HIGH);
    last_frame = FRAMES;
    take(numbers, DURBIZHAN_OUTSIDE);
    end();
    begin("durbizhan_report");
    last_frame = FRAMES - 1;
    counts_count = FRAMES;
    questions(report, DURBIZHAN_ACCEPTED, DURBIZHAN_ACCEPTED);
    express(IN_HIGH);
    counts_count = FRAMES - 1;
    take(report, DURBIZHAN_NO_ROOM);
    last_frame = FRAMES;
    take(report, DURBIZHAN_OUTSIDE);
    end();
    questions_at_places();
    begin("durbizhan_merge");
    questions(merge, DURBIZHAN_ACCEPTED, DURBIZHAN_NO_ROOM);
    express(IN_HIGH);
    lent = ROOM;
    take(merge, DURBIZHAN_ACCEPTED);
    expect("held of the deepest run", answer[1], 2 * LEVELS);
    end();
    sweeps();
    octrees();
    movers();
    scenes("durbizhan_scene", read_scene, DURBIZHAN_ACCEPTED);
    scenes("durbizhan_lines", lines, DURBIZHAN_NO_ROOM);
    shapes();
    begin("durbizhan_shape_write");
    questions(shape_write, DURBIZHAN_NOT_MERGED, DURBIZHAN_NO_ROOM);
    end();
    proxies("durbizhan_box", box);
    proxies("durbizhan_cut", cut);
    return failures != 0;
}
