/*
 * bench.c - nanoseconds a record: mfp_run against the plain C, as a ratio
 * taken within one run. Calls of the two alternate and the best of many
 * rounds counts, so that a busy machine disturbs both alike. Likewise
 * nanoseconds a device: mfp_row_acknowledge against an mfp_run for each.
 *
 * bench                      prints the tables
 * bench once CALL TAPE [RECORDS [short]]
 *                            makes one call only, for counting instructions:
 *                            CALL is mfp or plain, TAPE a name of kinds below,
 *                            RECORDS 0 to 512. With short the answer buffer is
 *                            too short and mfp_run refuses the call when it
 *                            has loaded and checked, and run and saved nothing
 * bench once row TAPE IMAGES
 *                            one mfp_row_acknowledge over 1 to 8 images: TAPE
 *                            is acknowledge, none requests, or vector, the
 *                            last does
 *
 * Each call starts from the same image; the answer buffer is not cleared
 * between calls.
 */
#define _POSIX_C_SOURCE 199309L

#include <stdio.h>
#include <stdlib.h>
#include <string.h>
#include <time.h>

#include "mfp.h"
#include "plain.h"

enum { RECORDS = MFP_TAPE_MAX / MFP_RECORD_BYTES, ROUNDS = 40, CALLS = 60, ROW_CALLS = 4000 };

/*
 * A device with all interrupts on and the four timers running. It is written
 * out, and not made by calls, so that they are not counted.
 */
static uint8_t start[MFP_IMAGE_BYTES] = {
    MFP_IMAGE_MARK_0, MFP_IMAGE_MARK_1,
    0x00, 0x00, 0x00,       /* GPDR, AER, DDR */
    0xFF, 0xFF, 0x00, 0x00, /* enabled, pending */
    0x00, 0x00, 0xFF, 0xFF, /* in service, mask */
    0x48, 0x01, 0x03, 0x57, /* VR, TACR, TBCR, TCDCR */
    0x03, 0x64, 0xC0, 0x00, /* data values */
    0x03, 0x64, 0xC0, 0x00, /* counters; all else is zero */
};

static uint8_t tape[MFP_TAPE_MAX];
static uint8_t answers[RECORDS * MFP_ANSWER_BYTES];
static uint8_t row[MFP_ROW_MAX * MFP_IMAGE_BYTES];

/* What a call lends: so many records, and answers too short by so many bytes. */
static size_t records = RECORDS;
static size_t lacking;
static size_t row_length;

static uint32_t seed;

/* A number below bound, the same in every run. */
static uint32_t below(uint32_t bound)
{
    seed ^= seed << 13;
    seed ^= seed >> 17;
    seed ^= seed << 5;
    return seed % bound;
}

static void put_record(size_t at, unsigned kind, unsigned a, uint32_t n)
{
    mfp_put_record(tape + MFP_RECORD_BYTES * at, kind, a, n);
}

static void put_access(size_t at)
{
    uint32_t rs = below(MFP_SCR);

    if (below(2))
        put_record(at, MFP_READ, rs, 0);
    else
        put_record(at, MFP_WRITE, rs, below(256));
}

static void put_clocks(size_t at)
{
    put_record(at, MFP_CLOCKS, 0, below(100000));
}

static void put_one_clock(size_t at)
{
    put_record(at, MFP_CLOCKS, 0, 1);
}

static void put_longest(size_t at)
{
    put_record(at, MFP_CLOCKS, 0, UINT32_MAX);
}

/* A level event: the operand is drawn first, whatever order the compiler takes arguments in. */
static void put_level(size_t at, unsigned kind, uint32_t signals)
{
    uint32_t a = below(signals);

    put_record(at, kind, a, below(2));
}

static void put_read(size_t at)
{
    put_record(at, MFP_READ, MFP_IPRB, 0);
}

static void put_write(size_t at)
{
    put_record(at, MFP_WRITE, MFP_ISRB, 0xDF);
}

static void put_acknowledge(size_t at)
{
    put_record(at, MFP_ACKNOWLEDGE, 1, 0);
}

/* Timer C is pending, so the first acknowledge gives a vector. */
static void put_vector(size_t at)
{
    start[MFP_IMAGE_IPRB] = 0x20;
    put_acknowledge(at);
}

/* Clocks and the access after them, by turns. */
static void put_clocks_read(size_t at)
{
    if (at % 2 == 0)
        put_one_clock(at);
    else
        put_read(at);
}

static void put_any(size_t at)
{
    switch (below(8)) {
    case 0:
        put_level(at, MFP_LINE, 8);
        break;
    case 1:
        put_level(at, MFP_INPUT, 2);
        break;
    case 2:
        put_acknowledge(at);
        break;
    case 3:
        put_record(at, MFP_RAISE, MFP_CHANNEL_TRANSMIT_ERROR + below(4), 0);
        break;
    case 4:
    case 5:
        put_clocks(at);
        break;
    default:
        put_access(at);
        break;
    }
}

static const struct kind {
    const char *name;
    void (*put)(size_t at);
} kinds[] = {
    {"mixed", put_any},
    {"registers", put_access},
    {"clocks", put_clocks},
    {"one-clock", put_one_clock},
    {"longest", put_longest},
    {"read", put_read},
    {"write", put_write},
    {"acknowledge", put_acknowledge},
    {"vector", put_vector},
    {"clocks-read", put_clocks_read},
};

/* The first of them are timed, the others only counted. */
enum { KINDS = sizeof kinds / sizeof kinds[0], TIMED = 5, ONE_CLOCK = 3, LONGEST = 4 };

static void make_tape(int kind)
{
    size_t at;

    seed = 1;
    for (at = 0; at < RECORDS; at++)
        kinds[kind].put(at);
}

static void fail(const char *what)
{
    fprintf(stderr, "bench: %s\n", what);
    exit(EXIT_FAILURE);
}

static void by_mfp(uint8_t *image)
{
    uint32_t code = mfp_run(image, MFP_IMAGE_BYTES, tape, records * MFP_RECORD_BYTES, answers,
                            records * MFP_ANSWER_BYTES - lacking);

    if (code != (lacking ? MFP_BAD_ANSWER_LENGTH : 0u))
        fail("mfp_run did not return what it should");
}

static void by_plain(uint8_t *image)
{
    plain_run(image, tape, records, answers);
}

/* A row of so many devices, of which the last requests or none does. */
static void make_row(size_t images, bool requested)
{
    size_t at;

    row_length = images * MFP_IMAGE_BYTES;
    for (at = 0; at < row_length; at += MFP_IMAGE_BYTES)
        memcpy(row + at, start, MFP_IMAGE_BYTES);
    if (requested)
        row[row_length - MFP_IMAGE_BYTES + MFP_IMAGE_IPRB] = 0x20;
}

static void by_row(uint8_t *images)
{
    if (mfp_row_code(mfp_row_acknowledge(images, row_length)) != 0)
        fail("mfp_row_acknowledge was refused");
}

/* The same by a record for each device: none requests but the last, so IEI is asserted for all. */
static void by_records(uint8_t *images)
{
    size_t at;

    for (at = 0; at < row_length; at += MFP_IMAGE_BYTES)
        by_mfp(images + at);
}

/* Before anything is measured both must do the same work. */
static void check_same(void)
{
    static uint8_t kept[sizeof answers];
    uint8_t one[MFP_IMAGE_BYTES], other[MFP_IMAGE_BYTES];

    memcpy(one, start, sizeof one);
    memcpy(other, start, sizeof other);
    by_mfp(one);
    memcpy(kept, answers, sizeof kept);
    by_plain(other);
    if (memcmp(one, other, sizeof one) != 0 || memcmp(kept, answers, sizeof kept) != 0)
        fail("mfp_run and the plain C differ");
}

static void check_same_row(void)
{
    uint8_t one[sizeof row], other[sizeof row];

    memcpy(one, row, sizeof row);
    memcpy(other, row, sizeof row);
    by_row(one);
    by_records(other);
    if (memcmp(one, other, sizeof row) != 0)
        fail("mfp_row_acknowledge and mfp_run differ");
}

static double now(void)
{
    struct timespec t;

    clock_gettime(CLOCK_MONOTONIC, &t);
    return 1e9 * (double)t.tv_sec + (double)t.tv_nsec;
}

/* Nanoseconds of each of so many things a call, over some calls, if better than what was there. */
static void measure(void (*run)(uint8_t *images), const uint8_t *from, size_t length, int calls,
                    size_t things, double *best)
{
    double begin = now();
    double each;
    int i;

    for (i = 0; i < calls; i++) {
        uint8_t images[sizeof row];

        memcpy(images, from, length);
        run(images);
    }
    each = (now() - begin) / calls / (double)things;
    if (each < *best)
        *best = each;
}

static void print_table(void)
{
    double mfp[TIMED], plain[TIMED];
    int kind, round;

    printf("%-12s %10s %10s %7s\n", "ns a record", "mfp_run", "plain C", "ratio");
    for (kind = 0; kind < TIMED; kind++) {
        make_tape(kind);
        check_same();
        mfp[kind] = plain[kind] = 1e9;
        for (round = 0; round < ROUNDS; round++) {
            measure(by_mfp, start, sizeof start, CALLS, RECORDS, &mfp[kind]);
            measure(by_plain, start, sizeof start, CALLS, RECORDS, &plain[kind]);
        }
        printf("%-12s %10.2f %10.2f %7.2f\n", kinds[kind].name, mfp[kind], plain[kind],
               mfp[kind] / plain[kind]);
    }
    printf("4294967295 clocks against 1: mfp_run %.2f, plain C %.2f\n",
           mfp[LONGEST] / mfp[ONE_CLOCK], plain[LONGEST] / plain[ONE_CLOCK]);
}

/* One line of the second table: a row of so many devices. */
static void print_row(const char *name, size_t images, bool requested)
{
    double whole = 1e9, single = 1e9;
    int round;

    make_row(images, requested);
    check_same_row();
    for (round = 0; round < ROUNDS; round++) {
        measure(by_row, row, row_length, ROW_CALLS, images, &whole);
        measure(by_records, row, row_length, ROW_CALLS, images, &single);
    }
    printf("%-12s %10.2f %10.2f %7.2f\n", name, whole, single, whole / single);
}

static void print_rows(void)
{
    printf("\n%-12s %10s %10s %7s\n", "ns a device", "row", "mfp_run", "ratio");
    records = 1;
    put_acknowledge(0);
    print_row("1, none", 1, false);
    print_row("8, none", MFP_ROW_MAX, false);
    print_row("1, last", 1, true);
    print_row("8, last", MFP_ROW_MAX, true);
}

static void row_once(const char *name)
{
    bool requested = strcmp(name, "vector") == 0;

    if (!requested && strcmp(name, "acknowledge") != 0)
        fail("no such row");
    if (records == 0 || records > MFP_ROW_MAX || lacking != 0)
        fail("no such call");
    make_row(records, requested);
    by_row(row);
}

static void run_once(const char *call, const char *name)
{
    int kind = 0;

    while (kind < KINDS && strcmp(kinds[kind].name, name) != 0)
        kind++;
    if (kind == KINDS)
        fail("no such tape");
    make_tape(kind);
    if (strcmp(call, "mfp") == 0)
        by_mfp(start);
    else if (strcmp(call, "plain") == 0)
        by_plain(start);
    else
        fail("no such call");
}

int main(int argc, char **argv)
{
    if (argc == 1) {
        print_table();
        print_rows();
        return EXIT_SUCCESS;
    }
    if (argc < 4 || argc > 6 || strcmp(argv[1], "once") != 0)
        fail("usage: bench [once mfp|plain TAPE [RECORDS [short]] | once row TAPE IMAGES]");
    if (argc > 4)
        records = strtoul(argv[4], NULL, 10);
    if (argc > 5)
        lacking = 1;
    if (records > RECORDS || lacking > records)
        fail("no such call");
    if (strcmp(argv[2], "row") == 0)
        row_once(argv[3]);
    else
        run_once(argv[2], argv[3]);
    return EXIT_SUCCESS;
}
