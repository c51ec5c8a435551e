/* A solid from layout: an octree as text becomes the merged expression, and comes back as it was, reduced. At the
 * repository's top, on x86-64 (on another processor `tests/native` builds the archive, as target/native/libexport.a):
 *
 *   tests/native
 *   gcc -std=c11 -Wall -Wextra -Iinclude examples/c/octree.c target/staticlib/libexport.a -o target/octree-c
 *   target/octree-c 2 examples/solid.octree
 *
 * The first word is the bits of each of the three axes. It prints the expression, which is in
 * examples/solid.expression, and the octree again:
 *
 *   (B(((((BWWWWW
 *   PFFFFPFEEEEEEEEEE
 */
#include <inttypes.h>
#include <stdio.h>
#include <stdlib.h>

#include "durbizhan.h"

enum { MOST = 65536 };

static int refused(uint64_t number)
{
    printf("refused %" PRIu64 "\n", number);
    return 1;
}

static void print(const uint8_t *symbols, uint64_t count)
{
    fwrite(symbols, 1, count, stdout);
    putchar('\n');
}

int main(int count, char **words)
{
    static uint8_t octree[MOST], expression[2 * MOST], again[8 * MOST];
    uint64_t answer[DURBIZHAN_OCTREE_ANSWER], number;

    if (count != 3) return 2;
    uint64_t bits = strtoull(words[1], NULL, 10);
    FILE *file = fopen(words[2], "rb");
    if (file == NULL) return 1;
    size_t length = fread(octree, 1, MOST, file);
    fclose(file);
    if (length > 0 && octree[length - 1] == '\n') length--;

    number = durbizhan_octree_import(3, bits, bits, octree, length, expression, sizeof expression, answer);
    if (number != DURBIZHAN_ACCEPTED) return refused(number);
    uint64_t symbols = answer[DURBIZHAN_OCTREE_LENGTH];
    print(expression, symbols);
    number = durbizhan_octree_export(3, bits, bits, expression, symbols, again, sizeof again, answer);
    if (number != DURBIZHAN_ACCEPTED) return refused(number);
    print(again, answer[DURBIZHAN_OCTREE_LENGTH]);
    return 0;
}
