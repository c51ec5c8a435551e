/* The scene of examples/program.txt, converted and judged from C. At the repository's top, on x86-64 (on another
 * processor `tests/native` builds the archive, as target/native/libexport.a):
 *
 *   tests/native
 *   gcc -std=c11 -Wall -Wextra -Iinclude examples/c/clear.c target/staticlib/libexport.a -o target/clear-c
 *   target/clear-c
 *
 * It prints
 *
 *   axes 2 bits 2
 *   leaves 4 raw 13 room 31
 *   hit first 1 last 2 voxels 2
 *
 * and of a scene file, named behind it, the lines of that one: examples/program.scene has these.
 */
#include <inttypes.h>
#include <stdio.h>
#include <string.h>

#include "durbizhan.h"

enum { AXES = 2, BITS = 2, FRAME_BITS = 2, FIRST_FRAME = 0, LAST_FRAME = 3 };

/* Two stand-ins of two halfspaces each: one that moves a voxel a frame, and one that stands from 2 to 3. */
static const int64_t rows[] = {
    0, 1, -1, 0, 0,
    1, -1, 1, 0, 0,
    -2, 1, 0, 0, 0,
    3, -1, 0, 0, 0,
};
static const uint16_t first[] = {DURBIZHAN_HALFSPACE(0), DURBIZHAN_HALFSPACE(1), DURBIZHAN_INTERSECTION};
static const uint16_t second[] = {DURBIZHAN_HALFSPACE(2), DURBIZHAN_HALFSPACE(3), DURBIZHAN_INTERSECTION};
/* There are no balls: an empty buffer, too, has a pointer. */
static const int64_t balls[1];
enum { BALLS_COUNT = 0 };

#define COUNT(array) (sizeof(array) / sizeof((array)[0]))

/* The line of a refusal: its number, and on NO_ROOM the length needed. */
static int refused(uint64_t number, uint64_t needed)
{
    printf("refused %" PRIu64, number);
    if (number == DURBIZHAN_NO_ROOM) printf(" needed %" PRIu64, needed);
    printf("\n");
    return 1;
}

/* The lines of a scene file, as the program prints them. A refusal is a line too. */
static int lines_of(const char *name)
{
    static uint8_t scene[DURBIZHAN_MOST_SCENE_BYTES + 1];
    uint8_t out[DURBIZHAN_MOST_LINES_BYTES];

    FILE *file = fopen(name, "rb");
    size_t count = file == NULL ? 0 : fread(scene, 1, sizeof scene, file);
    if (file == NULL || ferror(file)) {
        perror(name);
        return 1;
    }
    fclose(file);
    fwrite(out, 1, durbizhan_lines(scene, count, out), stdout);
    return 0;
}

int main(int count, char **words)
{
    if (count > 1) return lines_of(words[1]);

    uint8_t out[32];
    uint64_t room[DURBIZHAN_ROOM_ANSWER], verdict[DURBIZHAN_VERDICT_ANSWER], numbers[DURBIZHAN_NUMBERS_ANSWER];

    uint64_t leaves = durbizhan_leaves(first, COUNT(first)) + durbizhan_leaves(second, COUNT(second));
    uint64_t ball_words = durbizhan_balls(first, COUNT(first)) + durbizhan_balls(second, COUNT(second));
    uint64_t number = durbizhan_room(AXES, BITS, FRAME_BITS, leaves, ball_words, room);
    if (number != DURBIZHAN_ACCEPTED) return refused(number, 0);
    uint64_t symbols = room[DURBIZHAN_ROOM_SYMBOLS];
    if (symbols > sizeof out) return refused(DURBIZHAN_NO_ROOM, symbols);

    /* The number is read first: a refused verdict is Clear. */
    number = durbizhan_verdict(AXES, BITS, FRAME_BITS, rows, COUNT(rows), balls, BALLS_COUNT,
                               first, COUNT(first), second, COUNT(second), FIRST_FRAME, LAST_FRAME,
                               out, sizeof out, verdict);
    uint64_t length = verdict[DURBIZHAN_VERDICT_LENGTH];
    if (number != DURBIZHAN_ACCEPTED) return refused(number, length);

    /* Asked for its numbers, the expression that was written has the same verdict; its volume stands before that. */
    number = durbizhan_numbers(AXES, BITS, FRAME_BITS, out, length, FIRST_FRAME, LAST_FRAME, numbers);
    if (number != DURBIZHAN_ACCEPTED) return refused(number, 0);
    if (memcmp(numbers + DURBIZHAN_NUMBERS_HIT, verdict + DURBIZHAN_VERDICT_HIT, 4 * sizeof numbers[0]) != 0) return 1;

    printf("axes %d bits %d\n", AXES, BITS);
    printf("leaves %" PRIu64 " raw %" PRIu64 " room %" PRIu64 "\n", leaves, length, symbols);
    if (verdict[DURBIZHAN_VERDICT_HIT] == DURBIZHAN_CLEAR)
        printf("clear\n");
    else
        printf("hit first %" PRIu64 " last %" PRIu64 " voxels %" PRIu64 "\n", verdict[DURBIZHAN_VERDICT_FIRST],
               verdict[DURBIZHAN_VERDICT_LAST], verdict[DURBIZHAN_VERDICT_VOXELS]);
    return 0;
}
