/* A small test in C of the proved library's boundary, compiled against include/rack.h. It prints nothing and ends with 0 where all is right. */
#include "rack.h"

#include <stdio.h>
#include <string.h>

static int failures;

static void expect(int ok, const char *what) {
    if (!ok) {
        fprintf(stderr, "boundary.c: %s\n", what);
        failures++;
    }
}

static void put(uint8_t *at, uint16_t value) {
    at[0] = (uint8_t)(value % 256);
    at[1] = (uint8_t)(value / 256);
}

/* A board of zeros, tasks 7 and 9 of one queue with period 2,000 and cost 1,000, and a semaphore 1; in DP1 it is P1. */
static void make_image(uint8_t image[128], uint8_t queue) {
    memset(image, 0, 128);
    image[0] = 2;
    for (int i = 1; i <= 2; i++) {
        uint8_t *task = image + 32 * i;
        task[0] = 1;
        task[1] = queue;
        task[2] = (uint8_t)(5 + 2 * i);
        put(task + 4, 2000);
        put(task + 8, 1000);
    }
    image[96] = 3;
    image[98] = 1;
}

static void test_judge(const uint8_t *image) {
    uint8_t out[RACK_JUDGE_BYTES + 1];
    memset(out, 170, sizeof out);
    expect(rack_judge(image, 128, out, RACK_JUDGE_BYTES - 1) == 0, "a short out is refused");
    expect(out[0] == 170, "a refused judging changes no byte");
    expect(rack_judge(image, 128, out, sizeof out) == 40, "two tasks take 40 bytes");
    expect(out[0] == 0 && out[1] == 0 && out[6] == 2, "P1 loads and passes with two tasks");
    expect(out[8] == 7 && out[10] == 1 && out[24] == 9, "the tasks are 7 and 9 in DP1");
    expect(out[1031] == 0 && out[1032] == 170, "the rest is zero, later bytes stay");
    expect(rack_judge(image, 33, out, sizeof out) == 8 && out[0] == 1, "length 33 gives 1");
}

static void test_rewrite(const uint8_t *image) {
    uint8_t buf[160];
    memset(buf, 170, sizeof buf);
    expect(rack_rewrite(image, 128, buf, 96) == 9 && buf[0] == 170, "a short buffer gives 9 and stays");
    expect(rack_rewrite(image, 128, buf, 160) == 0, "a longer buffer is filled");
    expect(memcmp(buf, image, 128) == 0 && buf[128] == 255 && buf[159] == 255, "the image comes back with 255 behind it");
    expect(rack_rewrite(image, 0, buf, 160) == 7, "an empty image gives 7");
}

static void test_play(const uint8_t *image) {
    uint8_t script[48], out[96];
    memset(script, 0, sizeof script);
    script[0] = 1, script[2] = 9;                   /* release 9 at 0 */
    script[16] = 1, script[18] = 7, script[24] = 1; /* release 7 at 1 */
    script[32] = 4, script[34] = 2, script[36] = 9; /* acquire 2, ask about 9 */
    expect(rack_play(image, 128, script, 47, out, sizeof out) == 0, "a cut script is refused");
    expect(rack_play(image, 128, script, 48, out, sizeof out) == 3, "three records are played");
    expect(out[0] == 0 && out[2] == 9, "9 runs");
    expect(out[32] == 0 && out[34] == 9, "9 has the earlier deadline and runs on");
    expect(out[64] == 21 && out[68] == 0 && out[69] == 1 && out[70] == 1, "semaphore 2 is unknown; 9 stands in DP1 at position 1");
    expect(out[72] == 2000 % 256 && out[73] == 2000 / 256, "with deadline 2,000");
}

/* Bytes 12..15 of task 7: its deadline, in FP alone, from the cost to one less than the period. */
static void test_deadline_range(void) {
    const struct {
        uint8_t queue;
        uint16_t deadline;
        uint8_t load;
        const char *what;
    } cases[] = {
        {3, 0, 0, "no deadline is accepted"},
        {3, 999, 4, "a deadline below the cost gives 4"},
        {3, 1000, 0, "a deadline at the cost is accepted"},
        {3, 1999, 0, "a deadline of one less than the period is accepted"},
        {3, 2000, 4, "a deadline at the period gives 4"},
        {1, 1500, 4, "a deadline in DP1 gives 4"},
        {2, 1500, 4, "a deadline in DP2 gives 4"},
    };
    for (size_t i = 0; i < sizeof cases / sizeof cases[0]; i++) {
        uint8_t image[128], buf[128], out[RACK_JUDGE_BYTES];
        make_image(image, cases[i].queue);
        put(image + 44, cases[i].deadline);
        memset(buf, 170, sizeof buf);
        rack_judge(image, 128, out, sizeof out);
        expect(out[0] == cases[i].load && out[2] == (out[0] ? 1 : 0), cases[i].what);
        expect(rack_rewrite(image, 128, buf, 128) == cases[i].load, cases[i].what);
        expect(out[0] ? buf[44] == 170 : memcmp(buf, image, 128) == 0, "the field comes back as it was, and a refusal writes nothing");
    }
}

/* Task 9 ends 2,000 after both are released: at its period in time, with a deadline of its own not. */
static void test_deadline_judged(void) {
    uint8_t image[128], out[RACK_JUDGE_BYTES];
    make_image(image, 3);
    rack_judge(image, 128, out, sizeof out);
    expect(out[0] == 0 && out[1] == 0, "both end by their period");
    put(image + 76, 1999);
    rack_judge(image, 128, out, sizeof out);
    expect(out[0] == 0 && out[1] == 14 && out[4] == 9, "with one tick less, 9 has no time");
    image[80] = 1;
    rack_judge(image, 128, out, sizeof out);
    expect(out[0] == 4 && out[2] == 2, "a byte behind the deadline gives 4");
}

/* A record as sched_setattr(2) has it, its period the deadline or zero; times below 65,536 ns. */
static void put_attr(uint8_t *record, uint16_t runtime, uint16_t deadline, int has_period) {
    memset(record, 0, RACK_LIST_RECORD);
    record[0] = RACK_LIST_RECORD;
    record[4] = 6;
    put(record + 24, runtime);
    put(record + 32, deadline);
    put(record + 40, has_period ? deadline : 0);
}

/* Two records that are rounded and put in order: the second, of the shorter period, becomes the first task. */
static void make_list(uint8_t list[96]) {
    put_attr(list, 10001, 30009, 0);
    put_attr(list + 48, 19990, 20000, 1);
}

static void test_import(void) {
    uint8_t list[96], buf[96];
    const uint8_t first[12] = {1, 1, 2, 0, 2000 % 256, 2000 / 256, 0, 0, 1999 % 256, 1999 / 256, 0, 0};
    const uint8_t second[12] = {1, 1, 1, 0, 3000 % 256, 3000 / 256, 0, 0, 1001 % 256, 1001 / 256, 0, 0};
    make_list(list);
    memset(buf, 170, sizeof buf);
    expect(rack_import(list, 96, buf, 32) == 9 && buf[0] == 170, "a buffer that is too short gives 9 and stays");
    expect(rack_import(list, 96, buf, 95) == 9 && buf[0] == 170, "a buffer of an odd length gives 9 and stays");
    expect(rack_import(list, 96, buf, 96) == 0, "a list is read");
    expect(memcmp(buf, first, 12) == 0 && memcmp(buf + 32, second, 12) == 0, "runtimes go up, periods down, the table is in order");
    expect(buf[12] == 0 && buf[63] == 0 && buf[64] == 255 && buf[95] == 255, "with zeros in the records and 255 behind them");
}

static void test_import_refused(void) {
    const struct {
        size_t at;
        uint8_t value;
        size_t length;
        uint64_t answer;
        const char *what;
    } cases[] = {
        {0, 48, 95, 40, "a length that is no multiple of 48 gives 40"},
        {48, 56, 96, 40 + 256, "a size field of 56 gives 40 at its record"},
        {4, 0, 96, 41, "policy 0 gives 41"},
        {48 + 15, 1, 96, 41 + 256, "a flag gives 41 at its record"},
        {16, 255, 96, 41, "a nice value gives 41"},
        {20, 1, 96, 41, "a priority gives 41"},
        {48 + 40, 33, 96, 42 + 256, "times that are not equal in nanoseconds give 42"},
        {48 + 31, 255, 96, 42 + 256, "a runtime near 2^64 gives 42"},
        {0, 48, 0, 7, "an empty list gives 7"},
    };
    for (size_t i = 0; i < sizeof cases / sizeof cases[0]; i++) {
        uint8_t list[96], buf[64];
        make_list(list);
        list[cases[i].at] = cases[i].value;
        memset(buf, 170, sizeof buf);
        expect(rack_import(list, cases[i].length, buf, 64) == cases[i].answer, cases[i].what);
        expect(buf[0] == 170 && buf[63] == 170, "a refused list changes no byte");
    }
}

/* 64 records are read; a 65th gives 6 at its place, if nothing else is wrong with it. */
static void test_import_full(void) {
    uint8_t list[65 * 48], buf[64 * 32];
    for (int i = 0; i < 65; i++)
        put_attr(list + 48 * i, 1, 60000, 1);
    memset(buf, 170, sizeof buf);
    expect(rack_import(list, sizeof list, buf, sizeof buf) == 6 + 256 * 64 && buf[0] == 170, "a 65th record gives 6 and nothing changes");
    expect(rack_import(list, 64 * 48, buf, sizeof buf) == 0 && buf[2] == 1 && buf[63 * 32 + 2] == 64, "64 of equal period stay in order");
    list[64 * 48 + 4] = 7;
    expect(rack_import(list, sizeof list, buf, sizeof buf) == 41 + 256 * 64, "41 comes before 6");
}

/* The tasks of P1, whose board and semaphore a list has no place for. */
static void test_export(const uint8_t *image) {
    uint8_t list[97], wanted[96], other[128];
    put_attr(wanted, 10000, 20000, 1);
    put_attr(wanted + 48, 10000, 20000, 1);
    memset(list, 170, sizeof list);
    expect(rack_export(image, 128, list, 48) == 43 && list[0] == 170, "a list with too little room gives 43 and stays");
    expect(rack_export(image, 128, list, 97) == 43 && list[0] == 170, "a list with too much room gives 43 and stays");
    expect(rack_export(image, 33, list, 96) == 1 && list[0] == 170, "an image of length 33 gives 1 and the list stays");
    make_image(other, 3);
    expect(rack_export(other, 128, list, 96) == 43 && list[0] == 170, "a task outside DP1 gives 43 and the list stays");
    other[65] = 1;
    expect(rack_export(other, 128, list, 96) == 5 + 256 * 2 && list[0] == 170, "a queue that falls gives 5 at its record");
    expect(rack_export(image, 128, list, 96) == 0, "a table in DP1 is written");
    expect(memcmp(list, wanted, 96) == 0 && list[96] == 170, "with the period in both times, and no byte more");
}

int main(void) {
    uint8_t image[128];
    make_image(image, 1);
    test_judge(image);
    test_rewrite(image);
    test_play(image);
    test_deadline_range();
    test_deadline_judged();
    test_import();
    test_import_refused();
    test_import_full();
    test_export(image);
    return failures > 0;
}
