/* The proved rack executive for C: link target/staticlib/librack.a, which `python3 -m command.build` writes.
 *
 * All numbers are little-endian; bytes that are not named are 0 in what is written. A slice passes as a pointer and a length; a pointer of a
 * length of 0 need only be not null. What is written to must not overlap what is read.
 * A refusal of the boundary itself returns 0 and changes no byte of `out`. */
#ifndef RACK_H
#define RACK_H

#include <stddef.h>
#include <stdint.h>

#ifdef __cplusplus
extern "C" {
#endif

/* What rack_judge needs of `out`. */
#define RACK_JUDGE_BYTES 1032

/* Loads and judges an image. `out_len` below RACK_JUDGE_BYTES: returns 0. Else out[0] is the load's number, out[1] the verdict's number (0 where the
 * load is refused), out[2..3] the load's place, out[4..5] the task that judging names, out[6..7] the count n of tasks; then for task i at
 * 8 + 16 i: bytes 0..1 its number, 2 its queue, 8..15 its charge. The bytes from 8 + 16 n to 1,031 become 0, later ones stay. Returns 8 + 16 n. */
uint64_t rack_judge(const uint8_t *image, size_t image_len, uint8_t *out, size_t out_len);

/* Loads an image, then writes its table to `buf`, with 255 in every byte that remains. Returns the load's number if it is not 0, else the
 * write's number; where it is not 0 no byte of `buf` changes. */
uint64_t rack_rewrite(const uint8_t *image, size_t image_len, uint8_t *buf, size_t buf_len);

/* The bytes of a record of a Linux list: as sched_setattr(2) has it, times in nanoseconds. */
#define RACK_LIST_RECORD 48

/* Reads a Linux list as a table in DP1, its tasks numbered by their places from 1 and put in order, and writes it to `buf` as an image, 32 bytes a
 * task, with 255 in every byte that remains. A list that is refused (6, 7, 40, 41 or 42): returns its number + 256 times its place; else the write's
 * number, 0 or 9. Where it is not 0 no byte of `buf` changes. */
uint64_t rack_import(const uint8_t *list, size_t list_len, uint8_t *buf, size_t buf_len);

/* Loads an image and writes its table to `list` as a Linux list, RACK_LIST_RECORD bytes a task, without its board and its semaphores. An image that
 * is refused: returns its number + 256 times its place; else the write's number, 0, or 43 for a task outside DP1 or a `list_len` that is not exactly
 * what the tasks take. Where it is not 0 no byte of `list` changes. */
uint64_t rack_export(const uint8_t *image, size_t image_len, uint8_t *list, size_t list_len);

/* Loads an image and plays a script of calls, records of 16 bytes: 0 the call (1 release, 2 signal, 3 withdraw, 4 acquire, 5 give, 6 complete, 7 block),
 * 2..3 a task's or semaphore's number, 4..5 a task to ask about, 8..15 a time. A script length that is no multiple of 16, an image that is
 * refused, or an `out` shorter than 32 bytes a record: returns 0. Unknown calls answer 255 and change nothing. For record i at 32 i of `out`:
 * 0 the answer, 2..3 the running task after the call, 4 the number of the standing's answer (0 or 20), 5 its queue, 6 its position, 8..15 its
 * deadline. Returns the number of records. */
uint64_t rack_play(const uint8_t *image, size_t image_len, const uint8_t *script, size_t script_len, uint8_t *out, size_t out_len);

#ifdef __cplusplus
}
#endif

#endif
