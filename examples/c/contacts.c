/* Contacts that centres miss: of a scene file, for each frame of its window in which the two stand-ins possibly share
 * space, the voxels that they surely share, over the voxel's whole block, those that they share at its centre, as a
 * verdict counts them, and those that they possibly share. At the repository's top, on x86-64 (on another processor
 * `tests/native` builds the archive, as target/native/libexport.a):
 *
 *   tests/native
 *   gcc -std=c11 -Wall -Wextra -Iinclude examples/c/contacts.c target/staticlib/libexport.a -o target/contacts-c
 *   target/contacts-c examples/keyed.scene
 *
 * It prints
 *
 *   frame    sure  centre  possible
 *      10       0       0        16
 *      11       0      16        32
 *      12      16      32        32
 *      13      16      32        32
 *      14       0      16        32
 *      15       0       0        16
 *      20       0      16        16
 *      21      16      32        32
 *      22      32      32        32
 *      23      16      32        32
 *      24       0      16        16
 *   total      96     224       288
 */
#include <inttypes.h>
#include <stdio.h>

#include "durbizhan.h"

/* A scene as it is read: its numbers, and what they count. */
static uint64_t scene[DURBIZHAN_SCENE_ANSWER];
static int64_t rows[DURBIZHAN_MOST_NUMBERS], balls[DURBIZHAN_MOST_BALL_NUMBERS];
static uint16_t first[DURBIZHAN_MOST_WORDS], second[DURBIZHAN_MOST_WORDS];

/* The three counts over frames from and to, both in. */
static uint64_t contacts(uint64_t from, uint64_t to, uint64_t counts[DURBIZHAN_CONTACTS_ANSWER])
{
    return durbizhan_contacts(scene[DURBIZHAN_SCENE_AXES], scene[DURBIZHAN_SCENE_BITS],
                              scene[DURBIZHAN_SCENE_FRAME_BITS],
                              rows, DURBIZHAN_ROW_LENGTH * scene[DURBIZHAN_SCENE_ROWS],
                              balls, DURBIZHAN_BALL_LENGTH * scene[DURBIZHAN_SCENE_BALLS],
                              first, scene[DURBIZHAN_SCENE_FIRST_WORDS], second, scene[DURBIZHAN_SCENE_SECOND_WORDS],
                              from, to, counts);
}

static void row(const char *frame, const uint64_t counts[DURBIZHAN_CONTACTS_ANSWER])
{
    printf("%5s%8" PRIu64 "%8" PRIu64 "%10" PRIu64 "\n", frame, counts[DURBIZHAN_CONTACTS_SURE],
           counts[DURBIZHAN_CONTACTS_CENTRE], counts[DURBIZHAN_CONTACTS_POSSIBLE]);
}

/* The table of the scene that was read: a row for each frame with possible contact, and the total of the window. The
 * number is read before the counts beside it. */
static uint64_t table(void)
{
    uint64_t first_frame = scene[DURBIZHAN_SCENE_FIRST_FRAME], last_frame = scene[DURBIZHAN_SCENE_LAST_FRAME];
    uint64_t counts[DURBIZHAN_CONTACTS_ANSWER], total[DURBIZHAN_CONTACTS_ANSWER];
    char name[24];

    uint64_t number = contacts(first_frame, last_frame, total);
    if (number != DURBIZHAN_ACCEPTED) return number;
    printf("frame    sure  centre  possible\n");
    for (uint64_t frame = first_frame; frame <= last_frame; frame++) {
        number = contacts(frame, frame, counts);
        if (number != DURBIZHAN_ACCEPTED) return number;
        snprintf(name, sizeof name, "%" PRIu64, frame);
        if (counts[DURBIZHAN_CONTACTS_POSSIBLE] > 0) row(name, counts);
    }
    row("total", total);
    return DURBIZHAN_ACCEPTED;
}

int main(int count, char **words)
{
    static uint8_t bytes[DURBIZHAN_MOST_SCENE_BYTES + 1];

    if (count != 2) {
        fprintf(stderr, "usage: %s SCENE\n", words[0]);
        return 2;
    }
    FILE *file = fopen(words[1], "rb");
    size_t bytes_count = file == NULL ? 0 : fread(bytes, 1, sizeof bytes, file);
    if (file == NULL || ferror(file)) {
        perror(words[1]);
        return 1;
    }
    fclose(file);
    uint64_t number = durbizhan_scene(bytes, bytes_count, rows, balls, first, second, scene);
    if (number == DURBIZHAN_ACCEPTED) number = table();
    if (number != DURBIZHAN_ACCEPTED) printf("refused %" PRIu64 "\n", number);
    return number != DURBIZHAN_ACCEPTED;
}
