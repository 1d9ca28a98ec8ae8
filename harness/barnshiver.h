/*
 * barnshiver.h: the functions of libexports.a (`tools/harness archive`), for x86-64 Linux.
 *
 * Each is proved to meet its contract. They keep nothing between calls, allocate nothing, and answer on any input. Of the C
 * library the archive needs memcpy and memset, and nothing else. "01" is the scope's document and "02" that of the changes;
 * numbers of refusal are theirs.
 *
 * All that is handed over is numbers and bytes. A slice is a pointer and a length in bytes, as two parameters one after the
 * other. A pointer is never null (an empty slice may point at anything that is not null). Slices that are written to must not
 * overlap others. A number in bytes has its highest byte first, as in an image.
 *
 * What a function tells besides its answer stands at the front of a lent slice; bytes behind that stay as they were. A lent
 * slice that is too short is answered BARNSHIVER_NO_ROOM before anything else is looked at, and stays as it was (but for
 * barnshiver_run_day, which takes any room, barnshiver_write_table, for which 02 has a number, and barnshiver_rescue, which
 * looks at the image first).
 */
#ifndef BARNSHIVER_H
#define BARNSHIVER_H

#include <stddef.h>
#include <stdint.h>

#ifdef __cplusplus
extern "C" {
#endif

/* A lent slice is too short. None of 01's numbers. */
#define BARNSHIVER_NO_ROOM 255
/* Bytes of a tag, as in a record: offset 8, microstep 4. */
#define BARNSHIVER_TAG_BYTES 12
/* Bytes of a local tag on the global scale: a tag 12, held back 1 (0 or 1). */
#define BARNSHIVER_MAPPED_BYTES 13
/* Bytes of a scope clock: G 12 (a tag), L 12, allowed 1 (0 or 1), S 12. */
#define BARNSHIVER_CLOCK_BYTES 37
/* Bytes of a place. */
#define BARNSHIVER_PLACE_BYTES 8
/* Bytes of a table's counts: how many rows of each of the nine kinds, two bytes each. */
#define BARNSHIVER_COUNTS_BYTES 18
/* Bytes of the largest image, its four length bytes too: room in which every image fits. */
#define BARNSHIVER_LARGEST_IMAGE 3287
/* Bytes of a rescue's report on a day of so many bytes: room in which it fits. */
#define BARNSHIVER_REPORT_ROOM(day_length) (40 + 3 * (day_length))
/* Room in which every line fits. */
#define BARNSHIVER_LINE_ROOM 4096
/* Bytes of a state; what they are stands at barnshiver_state_after. */
#define BARNSHIVER_STATE_BYTES 28608
/* No scope (the root's queue), no action, no mode. */
#define BARNSHIVER_NONE 65535

/*
 * A global tag on the scope's local scale, and a local one on the global scale (01, "Tags"; 02, C-20).
 *
 *   clock   BARNSHIVER_CLOCK_BYTES
 *   offset, microstep   the tag given
 *   tag     room for BARNSHIVER_TAG_BYTES; from local to global, for BARNSHIVER_MAPPED_BYTES
 *
 *   0    `tag` begins with the answer's 12 bytes. From local to global a 13th follows: 1 if the tag was held back, that is,
 *        would have come earlier than G, or at G and not allowed, and was moved to G's next microstep; else 0
 *   6    the tag given is beyond the limits
 *   7    the answer would be
 *   11   the clock is none: not 37 bytes, a tag beyond the limits, or allowed neither 0 nor 1
 *   255  `tag` has fewer than 12 bytes; from local to global, fewer than 13
 *
 * With any answer but 0 `tag` stays as it was. 11 comes before 6.
 */
uint8_t barnshiver_global_to_local(const uint8_t *clock, size_t clock_length, uint64_t offset, uint32_t microstep,
                                   uint8_t *tag, size_t tag_length);
uint8_t barnshiver_local_to_global(const uint8_t *clock, size_t clock_length, uint64_t offset, uint32_t microstep,
                                   uint8_t *tag, size_t tag_length);

/*
 * Whether an image is a table (01, "The table image").
 *
 *   image   all of it, its four length bytes too
 *   place   room for BARNSHIVER_PLACE_BYTES
 *
 *   0       it is, and `place` begins with eight bytes of 0
 *   1 to 4  the refusal, and `place` begins with the place that 01 names for it
 *   255     `place` has fewer than 8 bytes and stays as it was
 */
uint8_t barnshiver_check_table(const uint8_t *image, size_t image_length, uint8_t *place, size_t place_length);

/*
 * Writes the image of counts and rows (02, C-11) over the front of `buffer`; bytes behind it stay as they were.
 *
 *   counts  BARNSHIVER_COUNTS_BYTES
 *   rows    the bytes of all rows, in the image's order
 *   buffer  room for the image, which has 23 bytes more than `rows`
 *
 * The answer's high 32 bits are 0, and the low ones say how many bytes were written. Or the high ones are the refusal's
 * number and the low ones its place, and `buffer` stays as it was; the first of these that holds:
 *
 *   1, at 0  `counts` is not of 18 bytes
 *   3        a count is past its limits, or there is no scope or no reactor: the count's place in the image
 *   1, at 0  the rows don't fit the counts
 *   4        a row breaks a rule of 01's: the place of its first byte in the image
 *   1, at 0  `buffer` is too short
 *
 * barnshiver_check_table answers 0 to what was written. Counts and rows of an image that it answers 0 to begin at its bytes
 * 5 and 23, and give the same bytes again.
 */
uint64_t barnshiver_write_table(const uint8_t *counts, size_t counts_length, const uint8_t *rows, size_t rows_length,
                                uint8_t *buffer, size_t buffer_length);

/*
 * Runs a gate day, an image and its records (01, "The bench program"), and writes the lines of its answers over the front
 * of `lines`; answers how many bytes they take, and bytes behind them stay as they were. Only whole lines are written, and only
 * while the longest line would still fit: if at least BARNSHIVER_LINE_ROOM bytes are left over, no line is missing.
 */
size_t barnshiver_run_day(const uint8_t *day, size_t day_length, uint8_t *lines, size_t lines_length);

/*
 * What is still whole of a damaged gate day (02, C-23). From the end of the image on each record that is well formed is
 * kept; where the bytes at a place are none, one byte is dropped and the next place is tried. A record that is cut off or
 * too long is none.
 *
 *   day     an image, and behind it what is left of the records
 *   output  room for as many bytes as `day` has
 *   report  room for BARNSHIVER_REPORT_ROOM(bytes of `day`)
 *
 *   0       `output` begins with the image and the kept records, in order. `report` begins with numbers of eight bytes: how
 *           many bytes of `output` these are, how many records were kept, and how many runs of bytes were dropped; then for
 *           each run, in order, its place, counted from the first byte of `day`, and its length
 *   else    the high 32 bits are the refusal of the image, 1 to 4, and the low ones its place; or the high ones are
 *           BARNSHIVER_NO_ROOM and the low ones 0, if `output` or `report` is too short. Both stay as they were. A refused
 *           image comes before too little room
 *
 * Every byte of `day` is kept or dropped, once. A day whose records are all well formed comes out unchanged, with no run, and
 * so does what was rescued: barnshiver_run_day answers "refused 1" to no record of it. Dropped bytes may hide a lost push.
 * A push that lost its last byte may take the first one of the record behind it, which is then dropped in its stead.
 */
uint64_t barnshiver_rescue(const uint8_t *day, size_t day_length, uint8_t *output, size_t output_length, uint8_t *report,
                           size_t report_length);

/*
 * The state after a day's records.
 *
 *   day     an image and its records
 *   state   room for BARNSHIVER_STATE_BYTES
 *
 *   0       `state` begins with the state
 *   1 to 4  the image is refused with this number, as barnshiver_run_day has it: 1 also for one that is cut short or longer
 *           than 3,287 bytes
 *   255     `state` has fewer than 28,608 bytes; the day was not looked at
 *
 * With any answer but 0 `state` stays as it was. A state is 3,576 numbers of eight bytes; number k begins at byte 8 * k:
 *
 *      0  1 if there is a peek tag, else 0      1, 2  the peek tag: offset, microstep
 *      3  1 if what comes next is control only  4     ordinary work
 *      5  events waiting                        6     values held          7  buckets held
 *      8  modes: 16, the current mode of each reactor or BARNSHIVER_NONE
 *     24  scopes: 32 rows of 7: allowed + 2 * active + 4 * ever active; G offset, G microstep; L likewise; S likewise
 *    248  events in order of acceptance: 256 rows of 6: queue (a scope or BARNSHIVER_NONE) + action * 2^16 (or
 *         BARNSHIVER_NONE) + terminal * 2^32 + control * 2^33 + network * 2^34; offset on the queue's scale;
 *         microstep + stored microstep * 2^32; stored offset; reactions 0 to 63 as bits; reactions 64 to 127
 *   1784  values: 256 rows of 4: action, offset, microstep, value
 *   2808  buckets: 256 rows of 3: action, offset, next microstep
 *
 * Rows past a count, and those of scopes and reactors that the table lacks, mean nothing.
 */
uint8_t barnshiver_state_after(const uint8_t *day, size_t day_length, uint8_t *state, size_t state_length);

#ifdef __cplusplus
}
#endif

#endif
