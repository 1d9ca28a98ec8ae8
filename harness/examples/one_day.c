/* The day of 01's worked example from C: one scope, one reactor, one reaction at level 0; plain (5,0), pop, pop. */
#include <stdio.h>
#include <string.h>

#include "../barnshiver.h"

static const uint8_t day[] = {
    /* the image: length, version, nine counts */
    0, 0, 0, 30, 1, 0, 1, 0, 1, 0, 0, 0, 1, 0, 0, 0, 0, 0, 0, 0, 0, 0, 0,
    /* scope: no parent, reactor 0, no mode; reactor: root scope 0, no initial mode; reaction: level 0 */
    255, 255, 0, 0, 255, 255, 0, 0, 255, 255, 0,
    /* plain at (5,0), not terminal, one reaction: 0 */
    0, 0, 0, 19, 1, 1, 0, 0, 0, 0, 0, 0, 0, 5, 0, 0, 0, 0, 0, 0, 1, 0, 0,
    /* pop, pop */
    0, 0, 0, 2, 1, 6, 0, 0, 0, 2, 1, 6};

/* m1's clock of 01: G (100,2), L (40,1), not allowed, S (0,0) */
static const uint8_t scope_clock[BARNSHIVER_CLOCK_BYTES] = {
    0, 0, 0, 0, 0, 0, 0, 100, 0, 0, 0, 2,
    0, 0, 0, 0, 0, 0, 0, 40, 0, 0, 0, 1,
    0,
    0, 0, 0, 0, 0, 0, 0, 0, 0, 0, 0, 0};

/* A number of so many bytes, the highest first. */
static unsigned long long number(const uint8_t *bytes, int width) {
    unsigned long long n = 0;
    while (width-- > 0)
        n = n << 8 | *bytes++;
    return n;
}

int main(void) {
    static uint8_t lines[4 * BARNSHIVER_LINE_ROOM];
    static uint8_t state[BARNSHIVER_STATE_BYTES];
    uint8_t tag[BARNSHIVER_MAPPED_BYTES];
    uint8_t place[BARNSHIVER_PLACE_BYTES];
    uint8_t image[BARNSHIVER_LARGEST_IMAGE];
    uint8_t rows[11];
    uint8_t damaged[sizeof day - 1], output[sizeof damaged], report[BARNSHIVER_REPORT_ROOM(sizeof damaged)];
    uint64_t wrote;

    /* the image from its counts and rows; then with the reaction, the last row, at a level that there isn't */
    memcpy(rows, day + 23, sizeof rows);
    wrote = barnshiver_write_table(day + 5, BARNSHIVER_COUNTS_BYTES, rows, sizeof rows, image, sizeof image);
    if (wrote != 34 || memcmp(image, day, 34) != 0)
        return 1;
    printf("written: %llu bytes\n", (unsigned long long)wrote);
    rows[10] = 16;
    wrote = barnshiver_write_table(day + 5, BARNSHIVER_COUNTS_BYTES, rows, sizeof rows, image, sizeof image);
    printf("level 16: refused %u at byte %u\n", (unsigned)(wrote >> 32), (unsigned)(wrote & 0xffffffff));

    if (barnshiver_check_table(day, 34, place, sizeof place) != 0)
        return 1;
    fwrite(lines, 1, barnshiver_run_day(day, sizeof day, lines, sizeof lines), stdout);
    /* the state after the push alone: there is a peek tag (number 0), its offset (1), how many wait (5) */
    if (barnshiver_state_after(day, sizeof day - 12, state, sizeof state) != 0 || number(state, 8) != 1)
        return 1;
    printf("after the push: peek %llu, %llu waits\n", number(state + 8 * 1, 8), number(state + 8 * 5, 8));
    if (barnshiver_local_to_global(scope_clock, sizeof scope_clock, 40, 1, tag, sizeof tag) != 0)
        return 1;
    printf("local (40,1) is global (%llu,%llu)%s\n", number(tag, 8), number(tag + 8, 4), tag[12] ? ", held back" : "");
    /* the day without the push's last byte: the push takes the next record's first, and what is left of that is dropped */
    memcpy(damaged, day, 56);
    memcpy(damaged + 56, day + 57, sizeof day - 57);
    if (barnshiver_rescue(damaged, sizeof damaged, output, sizeof output, report, sizeof report) != 0)
        return 1;
    printf("rescued: %llu bytes, %llu records; dropped %llu %llu\n", number(report, 8), number(report + 8, 8), number(report + 24, 8),
           number(report + 32, 8));
    /* the same image cut short, and a tag into too few bytes */
    printf("cut short: refused %u\n", barnshiver_state_after(day, 33, state, sizeof state));
    printf("no room: %u\n", barnshiver_local_to_global(scope_clock, sizeof scope_clock, 40, 1, tag, BARNSHIVER_TAG_BYTES));
    return 0;
}
