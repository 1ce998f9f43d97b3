/* Writes a small script step by step, lists it through the library, and prints the listing. */
#include "ayokwelifu.h"

#include <stdio.h>
#include <string.h>

static uint8_t script[256];
static uint8_t listing[AYOKWELIFU_LONGEST_LISTING];

int main(void) {
    const char *opening = "board\t2\t1\t0\n";
    size_t length = strlen(opening);
    uint64_t count = 0;

    memcpy(script, opening, length);
    if (ayokwelifu_write_step(AYOKWELIFU_START, 0, 0, 0, script, sizeof script, length, &count) != 0) {
        return 1;
    }
    length += count;
    if (ayokwelifu_write_step(AYOKWELIFU_REST, 0, 0, 0, script, sizeof script, length, &count) != 0) {
        return 1;
    }
    length += count;
    if (ayokwelifu_list(script, length, listing, sizeof listing, &count) != 0) {
        return 1;
    }
    if (fwrite(listing, 1, count, stdout) != count) {
        return 1;
    }

    /* A buffer that is too short is refused, and the count stays as it was. */
    uint64_t same = count;
    return ayokwelifu_list(script, length, listing, count - 1, &same) == AYOKWELIFU_NO_ROOM && same == count ? 0 : 1;
}
