/* The space that a mover sweeps, for whoever builds a set: tree 1 of a scene file, converted, swept along the frame
 * axis and written as a shape file. At the repository's top, on x86-64 (on another processor `tests/native` builds the
 * archive, as target/native/libexport.a):
 *
 *   tests/native
 *   gcc -std=c11 -Wall -Wextra -Iinclude examples/c/sweep.c target/staticlib/libexport.a -o target/sweep-c
 *   target/sweep-c examples/sleeve.scene target/sleeve.shape
 *
 * The space has one axis fewer, and its last axis stands as its frame axis. It prints
 *
 *   axes 3 bits 4 frame 4
 *   symbols 31 volume 256
 */
#include <inttypes.h>
#include <stdio.h>
#include <stdlib.h>

#include "durbizhan.h"

/* An expression, and the universe that it is of. */
struct shape {
    uint64_t axes, bits, frame_bits;
    uint8_t *symbols;
    uint64_t count;
};

static uint8_t *room(uint64_t count)
{
    uint8_t *found = malloc(count);
    if (found == NULL) {
        perror("room");
        exit(1);
    }
    return found;
}

/* Tree 1 of a scene, converted. The first call lends no room, and is told how much it takes. */
static uint64_t converted(const uint8_t *bytes, size_t bytes_count, struct shape *mover)
{
    static int64_t rows[DURBIZHAN_MOST_NUMBERS], balls[DURBIZHAN_MOST_BALL_NUMBERS];
    static uint16_t first[DURBIZHAN_MOST_WORDS], second[DURBIZHAN_MOST_WORDS];
    uint8_t none[1];
    uint64_t scene[DURBIZHAN_SCENE_ANSWER], length[DURBIZHAN_CONVERSION_ANSWER];

    uint64_t number = durbizhan_scene(bytes, bytes_count, rows, balls, first, second, scene);
    if (number != DURBIZHAN_ACCEPTED) return number;
    uint64_t axes = scene[DURBIZHAN_SCENE_AXES];
    uint64_t bits = scene[DURBIZHAN_SCENE_BITS], frame_bits = scene[DURBIZHAN_SCENE_FRAME_BITS];
    size_t rows_count = DURBIZHAN_ROW_LENGTH * scene[DURBIZHAN_SCENE_ROWS];
    size_t balls_count = DURBIZHAN_BALL_LENGTH * scene[DURBIZHAN_SCENE_BALLS];
    size_t words_count = scene[DURBIZHAN_SCENE_FIRST_WORDS];
    *mover = (struct shape){.axes = axes, .bits = bits, .frame_bits = frame_bits};
    number = durbizhan_merged_one(axes, bits, frame_bits, rows, rows_count, balls, balls_count,
                                  first, words_count, none, 0, length);
    if (number != DURBIZHAN_NO_ROOM) return number;
    mover->count = length[DURBIZHAN_CONVERSION_LENGTH];
    mover->symbols = room(mover->count);
    return durbizhan_merged_one(axes, bits, frame_bits, rows, rows_count, balls, balls_count,
                                first, words_count, mover->symbols, mover->count, length);
}

/* A mover swept along its last axis, into room as long as the mover is: that always suffices. */
static uint64_t swept(const struct shape *mover, struct shape *space)
{
    uint64_t answer[DURBIZHAN_SWEEP_ANSWER];
    uint8_t *out = room(mover->count);
    uint64_t number = durbizhan_sweep(mover->axes, mover->bits, mover->frame_bits, mover->axes,
                                      mover->symbols, mover->count, out, mover->count, answer);
    *space = (struct shape){answer[DURBIZHAN_SWEEP_AXES], answer[DURBIZHAN_SWEEP_BITS],
                            answer[DURBIZHAN_SWEEP_FRAME_BITS], out, answer[DURBIZHAN_SWEEP_LENGTH]};
    return number;
}

/* The black voxels of a space: the numbers over its first to its last frame. */
static uint64_t measured(const struct shape *space, uint64_t *volume)
{
    uint64_t numbers[DURBIZHAN_NUMBERS_ANSWER], last = ((uint64_t)1 << space->frame_bits) - 1;
    uint64_t number = durbizhan_numbers(space->axes, space->bits, space->frame_bits, space->symbols, space->count,
                                        0, last, numbers);
    *volume = numbers[DURBIZHAN_NUMBERS_VOLUME];
    return number;
}

/* The bytes of a space's shape file. */
static uint64_t filed(const struct shape *space, uint8_t **bytes, size_t *bytes_count)
{
    uint64_t length[DURBIZHAN_SHAPE_WRITE_ANSWER], most = space->count + DURBIZHAN_SHAPE_HEADER_LENGTH;
    *bytes = room(most);
    uint64_t number = durbizhan_shape_write(space->axes, space->bits, space->frame_bits, space->symbols, space->count,
                                            *bytes, most, length);
    *bytes_count = length[DURBIZHAN_SHAPE_WRITE_LENGTH];
    return number;
}

static int failed(const char *name)
{
    perror(name);
    return 1;
}

int main(int count, char **words)
{
    static uint8_t scene[DURBIZHAN_MOST_SCENE_BYTES + 1];
    struct shape mover, space;
    uint64_t volume;
    uint8_t *bytes;
    size_t bytes_count;

    if (count != 3) {
        fprintf(stderr, "usage: %s SCENE SHAPE\n", words[0]);
        return 2;
    }
    FILE *in = fopen(words[1], "rb");
    size_t scene_count = in == NULL ? 0 : fread(scene, 1, sizeof scene, in);
    if (in == NULL || ferror(in)) return failed(words[1]);
    fclose(in);

    /* Each number is read before the answer beside it. */
    uint64_t number = converted(scene, scene_count, &mover);
    if (number == DURBIZHAN_ACCEPTED) number = swept(&mover, &space);
    if (number == DURBIZHAN_ACCEPTED) number = measured(&space, &volume);
    if (number == DURBIZHAN_ACCEPTED) number = filed(&space, &bytes, &bytes_count);
    if (number != DURBIZHAN_ACCEPTED) {
        printf("refused %" PRIu64 "\n", number);
        return 1;
    }

    FILE *out = fopen(words[2], "wb");
    if (out == NULL) return failed(words[2]);
    size_t written = fwrite(bytes, 1, bytes_count, out);
    if (fclose(out) != 0 || written != bytes_count) return failed(words[2]);
    printf("axes %" PRIu64 " bits %" PRIu64 " frame %" PRIu64 "\n", space.axes, space.bits, space.frame_bits);
    printf("symbols %" PRIu64 " volume %" PRIu64 "\n", space.count, volume);
    return 0;
}
