/* How much of each frame, for a lead: up to eight shots of scene files, which share one universe and one window, a
 * column for each and one for all. Where none is named, two shots that are written below: a stand-in that moves a voxel
 * a frame meets a wall one voxel deep in the first and one three voxels deep in the second. At the repository's top, on
 * x86-64 (on another processor `tests/native` builds the archive, as target/native/libexport.a):
 *
 *   tests/native
 *   gcc -std=c11 -Wall -Wextra -Iinclude examples/c/report.c target/staticlib/libexport.a -o target/report-c
 *   target/report-c
 *
 * It prints
 *
 *   frame  shot 1  shot 2     all
 *       0       0       0       0
 *       1       1       0       1
 *       2       1       0       1
 *       3       0       1       1
 *       4       0       2       2
 *       5       0       2       2
 *       6       0       1       1
 *       7       0       0       0
 *   total       2       6       8
 */
#include <inttypes.h>
#include <stdio.h>
#include <stdlib.h>

#include "durbizhan.h"

enum { MOST_SHOTS = 8, SYMBOLS = 1 << 20 };

/* A scene as it is read: its numbers, and what they count. */
struct shot {
    uint64_t scene[DURBIZHAN_SCENE_ANSWER];
    int64_t rows[DURBIZHAN_MOST_NUMBERS], balls[DURBIZHAN_MOST_BALL_NUMBERS];
    uint16_t first[DURBIZHAN_MOST_WORDS], second[DURBIZHAN_MOST_WORDS];
};

/* Both written shots: four rows, of which two are the stand-in, between t and t + 1, and two are its wall. */
#define WRITTEN {                                                                                                     \
    [DURBIZHAN_SCENE_VERSION] = 2, [DURBIZHAN_SCENE_AXES] = 2, [DURBIZHAN_SCENE_BITS] = 3,                            \
    [DURBIZHAN_SCENE_FRAME_BITS] = 3, [DURBIZHAN_SCENE_ROWS] = 4, [DURBIZHAN_SCENE_FIRST_WORDS] = 3,                  \
    [DURBIZHAN_SCENE_SECOND_WORDS] = 3, [DURBIZHAN_SCENE_FIRST_FRAME] = 0, [DURBIZHAN_SCENE_LAST_FRAME] = 7}
#define MOVER {DURBIZHAN_HALFSPACE(0), DURBIZHAN_HALFSPACE(1), DURBIZHAN_INTERSECTION}
#define WALL {DURBIZHAN_HALFSPACE(2), DURBIZHAN_HALFSPACE(3), DURBIZHAN_INTERSECTION}

/* The walls are from 2 to 3, and from 4 to 7. */
static const struct shot written[] = {
    {.scene = WRITTEN, .rows = {0, 1, -1, 0, 0, 1, -1, 1, 0, 0, -2, 1, 0, 0, 0, 3, -1, 0, 0, 0},
     .first = MOVER, .second = WALL},
    {.scene = WRITTEN, .rows = {0, 1, -1, 0, 0, 1, -1, 1, 0, 0, -4, 1, 0, 0, 0, 7, -1, 0, 0, 0},
     .first = MOVER, .second = WALL},
};

/* The shots' intersections stand one straight after another; shot i from starts[i] on. */
static uint8_t expressions[SYMBOLS];
static size_t starts[MOST_SHOTS + 1];
static uint64_t columns[MOST_SHOTS + 1][DURBIZHAN_MOST_FRAMES], totals[MOST_SHOTS + 1];

/* A scene file, as a shot. */
static uint64_t shot_of(const char *name, struct shot *shot)
{
    static uint8_t bytes[DURBIZHAN_MOST_SCENE_BYTES + 1];
    FILE *file = fopen(name, "rb");
    size_t count = file == NULL ? 0 : fread(bytes, 1, sizeof bytes, file);
    if (file == NULL || ferror(file)) {
        perror(name);
        exit(1);
    }
    fclose(file);
    return durbizhan_scene(bytes, count, shot->rows, shot->balls, shot->first, shot->second, shot->scene);
}

/* The intersection of a shot's trees, behind those of the shots before. */
static uint64_t intersected(const struct shot *shot, int place)
{
    const uint64_t *scene = shot->scene;
    uint64_t answer[DURBIZHAN_CONVERSION_ANSWER];
    uint64_t number = durbizhan_merged_two(scene[DURBIZHAN_SCENE_AXES], scene[DURBIZHAN_SCENE_BITS],
                                           scene[DURBIZHAN_SCENE_FRAME_BITS],
                                           shot->rows, DURBIZHAN_ROW_LENGTH * scene[DURBIZHAN_SCENE_ROWS],
                                           shot->balls, DURBIZHAN_BALL_LENGTH * scene[DURBIZHAN_SCENE_BALLS],
                                           shot->first, scene[DURBIZHAN_SCENE_FIRST_WORDS],
                                           shot->second, scene[DURBIZHAN_SCENE_SECOND_WORDS],
                                           expressions + starts[place], SYMBOLS - starts[place], answer);
    starts[place + 1] = starts[place] + answer[DURBIZHAN_CONVERSION_LENGTH];
    return number;
}

/* A column: the counts of the shots from one place up to another, and their total. The number is read first. */
static uint64_t report(const uint64_t scene[DURBIZHAN_SCENE_ANSWER], int from, int to, int column)
{
    uint64_t answer[DURBIZHAN_REPORT_ANSWER];
    uint64_t number = durbizhan_report(scene[DURBIZHAN_SCENE_AXES], scene[DURBIZHAN_SCENE_BITS],
                                       scene[DURBIZHAN_SCENE_FRAME_BITS],
                                       expressions + starts[from], starts[to] - starts[from],
                                       scene[DURBIZHAN_SCENE_FIRST_FRAME], scene[DURBIZHAN_SCENE_LAST_FRAME],
                                       columns[column], DURBIZHAN_MOST_FRAMES, answer);
    totals[column] = answer[DURBIZHAN_REPORT_TOTAL];
    return number;
}

static void row(int shots, const uint64_t *counts[])
{
    for (int column = 0; column <= shots; column++) printf("%8" PRIu64, *counts[column]);
    printf("\n");
}

static void print(const uint64_t scene[DURBIZHAN_SCENE_ANSWER], int shots)
{
    uint64_t first_frame = scene[DURBIZHAN_SCENE_FIRST_FRAME], last_frame = scene[DURBIZHAN_SCENE_LAST_FRAME];
    const uint64_t *counts[MOST_SHOTS + 1];

    printf("frame");
    for (int column = 0; column < shots; column++) printf("  shot %d", column + 1);
    printf("     all\n");
    for (uint64_t frame = first_frame; frame <= last_frame; frame++) {
        for (int column = 0; column <= shots; column++) counts[column] = &columns[column][frame - first_frame];
        printf("%5" PRIu64, frame);
        row(shots, counts);
    }
    for (int column = 0; column <= shots; column++) counts[column] = &totals[column];
    printf("total");
    row(shots, counts);
}

/* Whether two shots have one universe and one window. */
static int alike(const struct shot *one, const struct shot *other)
{
    static const int places[] = {DURBIZHAN_SCENE_AXES, DURBIZHAN_SCENE_BITS, DURBIZHAN_SCENE_FRAME_BITS,
                                 DURBIZHAN_SCENE_FIRST_FRAME, DURBIZHAN_SCENE_LAST_FRAME};
    for (size_t i = 0; i < sizeof places / sizeof places[0]; i++)
        if (one->scene[places[i]] != other->scene[places[i]]) return 0;
    return 1;
}

static int refused(uint64_t number)
{
    printf("refused %" PRIu64 "\n", number);
    return 1;
}

int main(int count, char **words)
{
    static struct shot first, shot;
    int shots = count > 1 ? count - 1 : 2;
    uint64_t number = DURBIZHAN_ACCEPTED;

    if (shots > MOST_SHOTS) return 2;
    for (int place = 0; place < shots; place++) {
        shot = written[place % 2];
        if (count > 1) number = shot_of(words[place + 1], &shot);
        if (place == 0) first = shot;
        if (number == DURBIZHAN_ACCEPTED && !alike(&first, &shot)) {
            printf("%s is of another universe or window\n", words[place + 1]);
            return 1;
        }
        if (number == DURBIZHAN_ACCEPTED) number = intersected(&shot, place);
        if (number == DURBIZHAN_ACCEPTED) number = report(first.scene, place, place + 1, place);
        if (number != DURBIZHAN_ACCEPTED) return refused(number);
    }
    number = report(first.scene, 0, shots, shots);
    if (number != DURBIZHAN_ACCEPTED) return refused(number);
    print(first.scene, shots);
    return 0;
}
