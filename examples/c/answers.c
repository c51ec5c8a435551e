/* An answer at once: of a scene file, the verdict over its window, and its ends alone, with no room lent. At the
 * repository's top, on x86-64 (on another processor `tests/native` builds the archive, as target/native/libexport.a):
 *
 *   tests/native
 *   gcc -std=c11 -Wall -Wextra -Iinclude examples/c/answers.c target/staticlib/libexport.a -o target/answers-c
 *   target/answers-c examples/sleeve.scene
 *
 * It prints
 *
 *   verdict hit first 9 last 9 voxels 16
 *   ends    hit first 9 last 9
 */
#include <inttypes.h>
#include <stdio.h>

#include "durbizhan.h"

/* A scene as it is read: its numbers, and what they count. */
static uint64_t scene[DURBIZHAN_SCENE_ANSWER];
static int64_t rows[DURBIZHAN_MOST_NUMBERS], balls[DURBIZHAN_MOST_BALL_NUMBERS];
static uint16_t first[DURBIZHAN_MOST_WORDS], second[DURBIZHAN_MOST_WORDS];

/* Both questions take the same. */
typedef uint64_t question(uint64_t, uint64_t, uint64_t, const int64_t *, size_t, const int64_t *, size_t,
                          const uint16_t *, size_t, const uint16_t *, size_t, uint64_t, uint64_t, uint64_t *);

/* What a question answers of the scene that was read. */
static uint64_t ask(question *asked, uint64_t *answer)
{
    return asked(scene[DURBIZHAN_SCENE_AXES], scene[DURBIZHAN_SCENE_BITS], scene[DURBIZHAN_SCENE_FRAME_BITS],
                 rows, DURBIZHAN_ROW_LENGTH * scene[DURBIZHAN_SCENE_ROWS],
                 balls, DURBIZHAN_BALL_LENGTH * scene[DURBIZHAN_SCENE_BALLS],
                 first, scene[DURBIZHAN_SCENE_FIRST_WORDS], second, scene[DURBIZHAN_SCENE_SECOND_WORDS],
                 scene[DURBIZHAN_SCENE_FIRST_FRAME], scene[DURBIZHAN_SCENE_LAST_FRAME], answer);
}

/* Both answers; a number is read before the answer beside it. */
static uint64_t answers(void)
{
    uint64_t verdict[DURBIZHAN_VERDICT_AT_ONCE_ANSWER], ends[DURBIZHAN_ENDS_AT_ONCE_ANSWER];

    uint64_t number = ask(durbizhan_verdict_at_once, verdict);
    if (number == DURBIZHAN_ACCEPTED) number = ask(durbizhan_ends_at_once, ends);
    if (number != DURBIZHAN_ACCEPTED) return number;
    if (verdict[DURBIZHAN_VERDICT_AT_ONCE_HIT] == DURBIZHAN_CLEAR)
        printf("verdict clear\n");
    else
        printf("verdict hit first %" PRIu64 " last %" PRIu64 " voxels %" PRIu64 "\n",
               verdict[DURBIZHAN_VERDICT_AT_ONCE_FIRST], verdict[DURBIZHAN_VERDICT_AT_ONCE_LAST],
               verdict[DURBIZHAN_VERDICT_AT_ONCE_VOXELS]);
    if (ends[DURBIZHAN_ENDS_AT_ONCE_HIT] == DURBIZHAN_CLEAR)
        printf("ends    clear\n");
    else
        printf("ends    hit first %" PRIu64 " last %" PRIu64 "\n", ends[DURBIZHAN_ENDS_AT_ONCE_FIRST],
               ends[DURBIZHAN_ENDS_AT_ONCE_LAST]);
    return DURBIZHAN_ACCEPTED;
}

int main(int count, char **words)
{
    static uint8_t bytes[DURBIZHAN_MOST_SCENE_BYTES + 1];

    if (count != 2) {
        fprintf(stderr, "usage: %s SCENE\n", words[0]);
        return 2;
    }
    FILE *file = fopen(words[1], "rb");
    size_t bytes_count = file == NULL ? 0 : fread(bytes, 1, sizeof bytes, file);
    if (file == NULL || ferror(file)) {
        perror(words[1]);
        return 1;
    }
    fclose(file);
    uint64_t number = durbizhan_scene(bytes, bytes_count, rows, balls, first, second, scene);
    if (number == DURBIZHAN_ACCEPTED) number = answers();
    if (number != DURBIZHAN_ACCEPTED) printf("refused %" PRIu64 "\n", number);
    return number != DURBIZHAN_ACCEPTED;
}
