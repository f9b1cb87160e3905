/* A C host of verdict.
 *   host LEVELS FILE    prints the slip on level digits and a listing
 *   host --damage FILE  calls verdict on damaged copies of a listing and on short rooms, with guard bytes around the room
 */
#include "verdict.h"

#include <stdio.h>
#include <stdlib.h>
#include <string.h>

enum { MOST_BYTES = 65536, GUARD = 64 };

static size_t read_file(const char *name, uint8_t *bytes) {
    FILE *file = fopen(name, "rb");
    if (file == NULL) {
        perror(name);
        exit(2);
    }
    size_t count = fread(bytes, 1, MOST_BYTES, file);
    fclose(file);
    return count;
}

static int failures = 0;

static void expect(int holds, const char *what) {
    if (!holds) {
        printf("host: %s\n", what);
        failures++;
    }
}

/* One call, with guard bytes before and after a room of so many bytes; the slip, if there is one, goes to `slip`. */
static uint32_t guarded(const uint8_t *levels, size_t levels_length, const uint8_t *listing, size_t listing_length, size_t room, char *slip) {
    uint8_t *block = malloc(GUARD + room + GUARD);
    if (block == NULL) exit(2);
    memset(block, 0xA5, GUARD + room + GUARD);
    uint32_t answer = verdict(levels, levels_length, listing, listing_length, block + GUARD, room);
    size_t written = answer == VERDICT_WRITTEN ? VERDICT_SLIP_BYTES : 0;
    for (size_t i = 0; i < GUARD; i++) expect(block[i] == 0xA5, "a byte before the room was touched");
    for (size_t i = GUARD + written; i < GUARD + room + GUARD; i++) expect(block[i] == 0xA5, "a byte past the slip was touched");
    expect(answer == (room < VERDICT_SLIP_BYTES ? VERDICT_NO_ROOM : VERDICT_WRITTEN), "the answer does not fit the room");
    if (written) {
        memcpy(slip, block + GUARD, VERDICT_SLIP_BYTES);
        expect(slip[VERDICT_SLIP_BYTES - 1] == '\n', "a slip has no newline at its end");
        slip[VERDICT_SLIP_BYTES] = 0;
    }
    free(block);
    return answer;
}

static int damage(const uint8_t *listing, size_t length) {
    char slip[VERDICT_SLIP_BYTES + 1];
    uint8_t none[1] = {0};
    uint8_t *copy = malloc(length + 1);
    if (copy == NULL) exit(2);
    long calls = 0;
    /* every room from 0 to 120 bytes */
    for (size_t room = 0; room <= 120; room++, calls++) guarded((const uint8_t *)"100", 3, listing, length, room, slip);
    /* every shorter listing, and no digits */
    for (size_t i = 0; i <= length; i++, calls++) guarded(none, 0, listing, i, VERDICT_SLIP_BYTES, slip);
    /* every byte changed, in several ways */
    static const uint8_t others[] = {0, ' ', '0', '9', 'E', '\n', 0x7F, 0xFF};
    for (size_t i = 0; i < length; i++) {
        for (size_t j = 0; j < sizeof others; j++, calls++) {
            memcpy(copy, listing, length);
            copy[i] = others[j];
            guarded((const uint8_t *)"100", 3, copy, length, VERDICT_SLIP_BYTES + 7, slip);
        }
    }
    /* empty inputs, and bytes that are no level digits */
    guarded(none, 0, none, 0, VERDICT_SLIP_BYTES, slip);
    expect(memcmp(slip, "REFUSED           1          0          0          0\n", VERDICT_SLIP_BYTES) == 0, "an empty listing is not refused by 1");
    guarded((const uint8_t *)"102", 3, listing, length, VERDICT_SLIP_BYTES, slip);
    expect(memcmp(slip, "REFUSED          17          2          0          0\n", VERDICT_SLIP_BYTES) == 0, "level byte 2 is not refused by 17 at place 2");
    free(copy);
    printf("host: %ld calls, %d failures\n", calls + 2, failures);
    return failures != 0;
}

int main(int argc, char **argv) {
    static uint8_t listing[MOST_BYTES];
    if (argc != 3) {
        fprintf(stderr, "usage: host LEVELS FILE | host --damage FILE\n");
        return 2;
    }
    size_t length = read_file(argv[2], listing);
    if (strcmp(argv[1], "--damage") == 0) return damage(listing, length);
    uint8_t slip[VERDICT_SLIP_BYTES];
    uint32_t answer = verdict((const uint8_t *)argv[1], strlen(argv[1]), listing, length, slip, sizeof slip);
    if (answer != VERDICT_WRITTEN) return 1;
    fwrite(slip, 1, sizeof slip, stdout);
    return 0;
}
