/* tests/largest.c: a shape file at both sides of its largest symbol count, 4,294,967,295. It needs some 9 GiB of memory
 * and a minute or two, so the gate does not run it. At the repository's top, with the archive that tests/native builds:
 *
 *   cc -std=c11 -O2 -Wall -Wextra -Iinclude tests/largest.c target/native/libexport.a -o target/largest
 *   target/largest
 *
 * The shape is the full tree of 31 halvings over leaves W and B in turn, which is merged and has 2^32 - 1 symbols; one
 * leaf halved makes it two symbols more. Each is written with all the room it needs and two bytes more; the shorter one
 * with one byte less than it needs, too. Every byte of the room is looked at: header and symbols where it is written,
 * and that it is as it was lent where it is not.
 */
#include <inttypes.h>
#include <stdio.h>
#include <stdlib.h>
#include <string.h>

#include "durbizhan.h"

#define AXES 4
#define BITS 10
#define FRAME_BITS 12
#define LEVELS 31
#define LENT '.'

static int failures = 0;

static void expect(const char *what, uint64_t got, uint64_t wanted) {
    if (got != wanted) {
        printf("%s: %" PRIu64 ", and not %" PRIu64 "\n", what, got, wanted);
        failures++;
    }
}

/* Whether so many bytes, one at least, are as they were lent. */
static int untouched(const uint8_t *bytes, size_t count) {
    return bytes[0] == LENT && memcmp(bytes, bytes + 1, count - 1) == 0;
}

/* The tree of so many halvings, by doubling that of one less; gives its length. */
static size_t grow(uint8_t *symbols, int levels) {
    size_t length = 3;
    memcpy(symbols, "(WB", 3);
    for (int level = 1; level < levels; level++) {
        memmove(symbols + 1, symbols, length);
        symbols[0] = '(';
        memcpy(symbols + 1 + length, symbols + 1, length);
        length = 2 * length + 1;
    }
    return length;
}

int main(void) {
    const uint64_t most = UINT64_C(4294967295);
    const size_t room = most + 16;
    /* mark, version 2, axes, bits, frame bits, and the count: the u32 with every bit set */
    const uint8_t header[12] = {'B', 'N', 'T', 2, 0, AXES, BITS, FRAME_BITS, 0xff, 0xff, 0xff, 0xff};
    uint8_t *symbols = malloc(most + 2), *out = malloc(room);
    if (!symbols || !out) {
        puts("there is too little memory");
        return 2;
    }
    size_t length = grow(symbols, LEVELS);
    expect("symbols", length, most);
    uint64_t answer[1];

    memset(out, LENT, room);
    uint64_t number = durbizhan_shape_write(AXES, BITS, FRAME_BITS, symbols, length, out, length + 11, answer);
    expect("one byte short", number, DURBIZHAN_NO_ROOM);
    expect("its need", answer[0], length + 12);
    expect("its room is untouched", untouched(out, room), 1);
    number = durbizhan_shape_write(AXES, BITS, FRAME_BITS, symbols, length, out, length + 14, answer);
    expect("the most symbols", number, DURBIZHAN_ACCEPTED);
    expect("its length", answer[0], length + 12);
    for (size_t i = 0; i < sizeof header; i++) expect("a byte of its header", out[i], header[i]);
    expect("its symbols differ", memcmp(out + 12, symbols, length) != 0, 0);
    expect("what is past it is untouched", untouched(out + length + 12, room - length - 12), 1);

    symbols[length - 1] = '(';
    symbols[length] = 'W';
    symbols[length + 1] = 'B';
    memset(out, LENT, room);
    number = durbizhan_shape_write(AXES, BITS, FRAME_BITS, symbols, length + 2, out, length + 16, answer);
    expect("two symbols more", number, DURBIZHAN_NO_ROOM);
    expect("their need", answer[0], length + 14);
    expect("their room is untouched", untouched(out, room), 1);
    printf("tests/largest: %d differences\n", failures);
    return failures != 0;
}
