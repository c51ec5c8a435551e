/* A keyed mover against a static Box, from a text: `axes 4 bits K frame F`, `mover X Y Z` with the size of the mover,
 * `key MOMENT X Y Z` with the near corner at a moment, and `box X Y Z  X Y Z` from near to far. `#` begins a comment.
 *
 *   tests/native
 *   gcc -std=c11 -Wall -Wextra -Iinclude examples/c/mover.c target/staticlib/libexport.a -o target/mover-c
 *   target/mover-c examples/mover.keys
 *
 * The sleeve of examples/mover.keys meets the banister on its way there and on its way back, and between them it stands
 * clear of it. It prints
 *
 *   hit first 11 last 24 voxels 224
 *
 * or else `clear`, or `refused N`, and behind 6 what is needed.
 */
#include <inttypes.h>
#include <stdio.h>
#include <string.h>

#include "durbizhan.h"

#define COUNT(array) (sizeof(array) / sizeof((array)[0]))
#define SYMBOLS (1 << 20)

static uint64_t axes, bits, frame_bits, moments[DURBIZHAN_MOST_KEYS];
static double size[3], corners[DURBIZHAN_CORNER_LENGTH * DURBIZHAN_MOST_KEYS];
static int64_t rows[DURBIZHAN_BOX_NUMBERS];
static size_t keys;
static uint8_t out[SYMBOLS];

/* One line; 0 where it is none of the above. */
static int take(const char *line)
{
    double near[3], far[3];
    uint64_t moment;
    if (strspn(line, " \n") == strlen(line))
        return 1;
    if (sscanf(line, " axes %" SCNu64 " bits %" SCNu64 " frame %" SCNu64, &axes, &bits, &frame_bits) == 3)
        return 1;
    if (sscanf(line, " mover %lf %lf %lf", &size[0], &size[1], &size[2]) == 3)
        return 1;
    if (sscanf(line, " key %" SCNu64 " %lf %lf %lf", &moment, &near[0], &near[1], &near[2]) == 4) {
        if (keys == DURBIZHAN_MOST_KEYS)
            return 0;
        moments[keys] = moment;
        memcpy(corners + DURBIZHAN_CORNER_LENGTH * keys, near, sizeof near);
        keys++;
        return 1;
    }
    if (sscanf(line, " box %lf %lf %lf %lf %lf %lf", &near[0], &near[1], &near[2], &far[0], &far[1], &far[2]) == 6)
        return durbizhan_box(near[0], near[1], near[2], far[0], far[1], far[2], 0, 0, 0, rows) == DURBIZHAN_ACCEPTED;
    return 0;
}

int main(int count, char **arguments)
{
    /* the six rows of the Box, intersected */
    static const uint16_t words[] = {
        DURBIZHAN_HALFSPACE(0), DURBIZHAN_HALFSPACE(1), DURBIZHAN_INTERSECTION,
        DURBIZHAN_HALFSPACE(2), DURBIZHAN_INTERSECTION, DURBIZHAN_HALFSPACE(3), DURBIZHAN_INTERSECTION,
        DURBIZHAN_HALFSPACE(4), DURBIZHAN_INTERSECTION, DURBIZHAN_HALFSPACE(5), DURBIZHAN_INTERSECTION,
    };
    uint64_t answer[DURBIZHAN_VERDICT_ANSWER];
    char line[256];
    FILE *text = count == 2 ? fopen(arguments[1], "r") : NULL;
    if (!text)
        return 2;
    while (fgets(line, sizeof line, text)) {
        line[strcspn(line, "#")] = 0;
        if (!take(line)) {
            fprintf(stderr, "no such line: %s\n", line);
            return 2;
        }
    }
    fclose(text);
    int64_t none[1] = {0};
    uint64_t number = durbizhan_mover(axes, bits, frame_bits, 0, 0, 0, size[0], size[1], size[2], 0, 0, 0, moments,
                                      keys, corners, DURBIZHAN_CORNER_LENGTH * keys, rows, COUNT(rows), none, 0,
                                      words, COUNT(words), out, SYMBOLS, answer);
    if (number == DURBIZHAN_NO_ROOM)
        printf("refused %" PRIu64 " needed %" PRIu64 "\n", number, answer[DURBIZHAN_VERDICT_LENGTH]);
    else if (number != DURBIZHAN_ACCEPTED)
        printf("refused %" PRIu64 "\n", number);
    else if (answer[DURBIZHAN_VERDICT_HIT] == DURBIZHAN_HIT)
        printf("hit first %" PRIu64 " last %" PRIu64 " voxels %" PRIu64 "\n", answer[DURBIZHAN_VERDICT_FIRST],
               answer[DURBIZHAN_VERDICT_LAST], answer[DURBIZHAN_VERDICT_VOXELS]);
    else
        puts("clear");
    return number != DURBIZHAN_ACCEPTED;
}
