/* tests/refusing.c: stands in for the library where an example is to meet every refusal. The room question and the
 * verdict return the numbers that ROOM_NUMBER and VERDICT_NUMBER name in the environment, and the question for an
 * expression's numbers that of NUMBERS_NUMBER; as with the library, all else of a refused answer is zero, which is
 * Clear, and on NO_ROOM the length needed is 77. Accepted, room is ROOM and the verdict is Clear.
 */
#include <stdlib.h>
#include <string.h>

#include "durbizhan.h"

enum { NEEDED = 77, LENGTH = 13 };

static uint64_t named(const char *name)
{
    const char *value = getenv(name);
    return value == NULL ? 0 : strtoull(value, NULL, 10);
}

uint64_t durbizhan_leaves(const uint16_t *words, size_t words_count)
{
    uint64_t count = 0;
    for (size_t i = 0; i < words_count; i++)
        count += words[i] >= DURBIZHAN_FIRST_HALFSPACE && words[i] < DURBIZHAN_FIRST_BALL;
    return count;
}

uint64_t durbizhan_balls(const uint16_t *words, size_t words_count)
{
    uint64_t count = 0;
    for (size_t i = 0; i < words_count; i++)
        count += words[i] >= DURBIZHAN_FIRST_BALL && words[i] < DURBIZHAN_FIRST_BALL + DURBIZHAN_MOST_BALLS;
    return count;
}

uint64_t durbizhan_room(uint64_t axes, uint64_t bits, uint64_t frame_bits,
                        uint64_t leaves, uint64_t balls,
                        uint64_t answer[DURBIZHAN_ROOM_ANSWER])
{
    (void)axes, (void)bits, (void)frame_bits, (void)leaves, (void)balls;
    uint64_t number = named("ROOM_NUMBER");
    answer[DURBIZHAN_ROOM_SYMBOLS] = number == DURBIZHAN_ACCEPTED ? named("ROOM") : 0;
    return number;
}

uint64_t durbizhan_verdict(uint64_t axes, uint64_t bits, uint64_t frame_bits,
                           const int64_t *rows, size_t rows_count,
                           const int64_t *balls, size_t balls_count,
                           const uint16_t *first, size_t first_count,
                           const uint16_t *second, size_t second_count,
                           uint64_t first_frame, uint64_t last_frame,
                           uint8_t *out, size_t out_count,
                           uint64_t answer[DURBIZHAN_VERDICT_ANSWER])
{
    (void)axes, (void)bits, (void)frame_bits, (void)rows, (void)rows_count, (void)balls, (void)balls_count;
    (void)first, (void)first_count, (void)second, (void)second_count, (void)first_frame, (void)last_frame;
    (void)out, (void)out_count;
    uint64_t number = named("VERDICT_NUMBER");
    memset(answer, 0, DURBIZHAN_VERDICT_ANSWER * sizeof answer[0]);
    if (number == DURBIZHAN_ACCEPTED) answer[DURBIZHAN_VERDICT_LENGTH] = LENGTH;
    if (number == DURBIZHAN_NO_ROOM) answer[DURBIZHAN_VERDICT_LENGTH] = NEEDED;
    return number;
}

uint64_t durbizhan_numbers(uint64_t axes, uint64_t bits, uint64_t frame_bits,
                           const uint8_t *expression, size_t expression_count,
                           uint64_t first_frame, uint64_t last_frame,
                           uint64_t answer[DURBIZHAN_NUMBERS_ANSWER])
{
    (void)axes, (void)bits, (void)frame_bits, (void)expression, (void)expression_count;
    (void)first_frame, (void)last_frame;
    memset(answer, 0, DURBIZHAN_NUMBERS_ANSWER * sizeof answer[0]);
    return named("NUMBERS_NUMBER");
}

uint64_t durbizhan_lines(const uint8_t *scene, size_t scene_count, uint8_t out[DURBIZHAN_MOST_LINES_BYTES])
{
    (void)scene, (void)scene_count, (void)out;
    return 0;
}
