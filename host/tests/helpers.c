/*
 * helpers.c - the helpers of mfp.h against 01's bytes, written out here, and
 * against the library. It is C99 and C++17, and is linked with
 * --wrap=mfp_run, so that it sees what the library is lent.
 */
#include <stdio.h>
#include <string.h>

#include "mfp.h"

static int passed;
static int failed;

static void expect(const char *what, bool holds)
{
    if (holds) {
        passed++;
    } else {
        failed++;
        printf("FAIL %s\n", what);
    }
}

#ifdef __cplusplus
extern "C" {
#endif
uint32_t __real_mfp_run(uint8_t *image, size_t image_len, const uint8_t *tape, size_t tape_len,
                        uint8_t *answers, size_t answers_len);
uint32_t __wrap_mfp_run(uint8_t *image, size_t image_len, const uint8_t *tape, size_t tape_len,
                        uint8_t *answers, size_t answers_len);
#ifdef __cplusplus
}
#endif

static int calls;
static bool null_was_lent;

/* Every call of mfp_run comes here first. */
uint32_t __wrap_mfp_run(uint8_t *image, size_t image_len, const uint8_t *tape, size_t tape_len,
                        uint8_t *answers, size_t answers_len)
{
    calls++;
    null_was_lent = null_was_lent || image == NULL || tape == NULL || answers == NULL;
    return __real_mfp_run(image, image_len, tape, tape_len, answers, answers_len);
}

static void sizes_and_marks(void)
{
    uint8_t image[32], record[8], answer[22];

    expect("version", MFP_VERSION == 2);
    expect("sizes", MFP_IMAGE_BYTES == 32 && MFP_RECORD_BYTES == 8 && MFP_ANSWER_BYTES == 22);
    expect("longest tape", MFP_TAPE_MAX == 4096);
    expect("longest row", MFP_ROW_MAX == 8);
    mfp_put_reset(record);
    expect("fresh image", mfp_fresh(image, 32) == 0);
    expect("one answer", mfp_call(image, record, 8, answer, 22) == 0);
    expect("image mark", image[0] == MFP_IMAGE_MARK_0 && image[1] == MFP_IMAGE_MARK_1);
    expect("answer mark", answer[0] == MFP_ANSWER_MARK_0 && answer[1] == MFP_ANSWER_MARK_1);
    expect("serial registers", MFP_SCR == 19 && MFP_UCR == 20 && MFP_RSR == 21 && MFP_TSR == 22 &&
                                   MFP_UDR == 23);
}

/* A device whose bytes tell which one each is, as far as the image rule lets them. */
static const uint8_t told[32] = {
    0x4D, 0x31, 0xC3, 0x15, 0xFF, 0xF1, 0xF2, 0x71, 0x72, 0x09, 0x0A, 0x0B, 0x0C, 0x58, 0x03, 0x0A,
    0x54, 0x11, 0x12, 0x13, 0x14, 0x21, 0x22, 0x23, 0x24, 0x05, 0x06, 0x07, 0x08, 0x0A, 0x3C, 0x02,
};

/* Each register by its place in an image; of a timer's data register that is the counter. */
static const struct place {
    unsigned rs;
    size_t at;
    unsigned value;
} places[] = {
    {MFP_GPDR, MFP_IMAGE_GPDR, 0xC3},
    {MFP_AER, MFP_IMAGE_AER, 0x15},
    {MFP_DDR, MFP_IMAGE_DDR, 0xFF},
    {MFP_IERA, MFP_IMAGE_IERA, 0xF1},
    {MFP_IERB, MFP_IMAGE_IERB, 0xF2},
    {MFP_IPRA, MFP_IMAGE_IPRA, 0x71},
    {MFP_IPRB, MFP_IMAGE_IPRB, 0x72},
    {MFP_ISRA, MFP_IMAGE_ISRA, 0x09},
    {MFP_ISRB, MFP_IMAGE_ISRB, 0x0A},
    {MFP_IMRA, MFP_IMAGE_IMRA, 0x0B},
    {MFP_IMRB, MFP_IMAGE_IMRB, 0x0C},
    {MFP_VR, MFP_IMAGE_VR, 0x58},
    {MFP_TACR, MFP_IMAGE_MODE_A, 0x03},
    {MFP_TBCR, MFP_IMAGE_MODE_B, 0x0A},
    {MFP_TCDCR, MFP_IMAGE_TCDCR, 0x54},
    {MFP_TADR, MFP_IMAGE_COUNTER + MFP_TIMER_A, 0x21},
    {MFP_TBDR, MFP_IMAGE_COUNTER + MFP_TIMER_B, 0x22},
    {MFP_TCDR, MFP_IMAGE_COUNTER + MFP_TIMER_C, 0x23},
    {MFP_TDDR, MFP_IMAGE_COUNTER + MFP_TIMER_D, 0x24},
};

static void registers_have_their_places(void)
{
    uint8_t image[32], record[8], answer[22];
    char name[40];
    size_t i;

    memcpy(image, told, 32);
    for (i = 0; i < sizeof places / sizeof places[0]; i++) {
        mfp_put_read(record, places[i].rs);
        snprintf(name, sizeof name, "place of register %u", places[i].rs);
        expect(name, mfp_call(image, record, 8, answer, 22) == 0 &&
                         mfp_answer_class(answer) == MFP_DATA &&
                         mfp_answer_value(answer) == places[i].value &&
                         mfp_answer_outputs(answer) == 0x0A &&
                         image[places[i].at] == places[i].value);
    }
    expect("reads change nothing", memcmp(image, told, 32) == 0);
}

/* What the told device becomes by one event: one byte, or for clocks three. */
static void the_rest_has_its_places(void)
{
    uint8_t image[32], wanted[32], record[8], answer[22];

    memcpy(image, told, 32);
    memcpy(wanted, told, 32);
    mfp_put_write(record, MFP_TBDR, 0x99);
    wanted[MFP_IMAGE_DATA + MFP_TIMER_B] = 0x99;
    expect("place of the data values", mfp_call(image, record, 8, answer, 22) == 0 &&
                                           memcmp(image, wanted, 32) == 0 && image[18] == 0x99);
    mfp_put_clocks(record, 1);
    wanted[MFP_IMAGE_POSITION + MFP_TIMER_A] = 0x06;
    wanted[MFP_IMAGE_POSITION + MFP_TIMER_C] = 0x08;
    wanted[MFP_IMAGE_POSITION + MFP_TIMER_D] = 0x09;
    expect("place of the positions", mfp_call(image, record, 8, answer, 22) == 0 &&
                                         memcmp(image, wanted, 32) == 0 && image[25] == 0x06);
    mfp_put_line(record, 0, true);
    wanted[MFP_IMAGE_LEVELS] = 0x3D;
    expect("place of the levels", mfp_call(image, record, 8, answer, 22) == 0 &&
                                      memcmp(image, wanted, 32) == 0 && image[30] == 0x3D);
    mfp_put_input(record, MFP_TAI, true);
    wanted[MFP_IMAGE_INPUTS] = 0x03;
    expect("place of the inputs", mfp_call(image, record, 8, answer, 22) == 0 &&
                                      memcmp(image, wanted, 32) == 0 && image[31] == 0x03);
    mfp_put_write(record, MFP_TBCR, 0x1A);
    wanted[MFP_IMAGE_OUTPUTS] = 0x08;
    expect("place of the outputs", mfp_call(image, record, 8, answer, 22) == 0 &&
                                       memcmp(image, wanted, 32) == 0 && image[29] == 0x08);
}

static void records_have_their_bytes(void)
{
    static const uint8_t wanted[10][8] = {
        {0x4D, 0x45, 0, 0, 0, 0, 0, 0},
        {0x4D, 0x45, 1, 21, 0, 0, 0, 0},
        {0x4D, 0x45, 2, 11, 0, 0, 0, 0x48},
        {0x4D, 0x45, 3, 5, 0, 0, 0, 1},
        {0x4D, 0x45, 3, 5, 0, 0, 0, 0},
        {0x4D, 0x45, 4, 1, 0, 0, 0, 1},
        {0x4D, 0x45, 5, 0, 0xFE, 0xDC, 0xBA, 0x98},
        {0x4D, 0x45, 6, 1, 0, 0, 0, 0},
        {0x4D, 0x45, 6, 0, 0, 0, 0, 0},
        {0x4D, 0x45, 7, 12, 0, 0, 0, 0},
    };
    uint8_t tape[80];
    uint8_t *end = tape;
    char name[20];
    size_t i;

    memset(tape, 0xA5, sizeof tape);
    end = mfp_put_reset(end);
    end = mfp_put_read(end, MFP_RSR);
    end = mfp_put_write(end, MFP_VR, 0x48);
    end = mfp_put_line(end, 5, true);
    end = mfp_put_line(end, 5, false);
    end = mfp_put_input(end, MFP_TBI, true);
    end = mfp_put_clocks(end, 0xFEDCBA98u);
    end = mfp_put_acknowledge(end, true);
    end = mfp_put_acknowledge(end, false);
    end = mfp_put_raise(end, MFP_CHANNEL_RECEIVE_FULL);
    expect("ten records in a row", end == tape + 80);
    for (i = 0; i < 10; i++) {
        snprintf(name, sizeof name, "record %u", wanted[i][2] + 0u);
        expect(name, memcmp(tape + 8 * i, wanted[i], 8) == 0);
    }
}

/* The code of one record on a fresh device, which it then must leave alone. */
static uint32_t code_of(const uint8_t *record)
{
    uint8_t image[32], before[32], answer[22];
    uint32_t code = mfp_fresh(image, 32);

    memcpy(before, image, 32);
    memset(answer, 0xA5, 22);
    if (code == 0)
        code = mfp_call(image, record, 8, answer, 22);
    expect("refused calls alter nothing",
           code == 0 || (memcmp(image, before, 32) == 0 && answer[0] == 0xA5));
    return code;
}

/* A number that a byte would cut to a good one is refused all the same. */
static void numbers_out_of_range_are_refused(void)
{
    uint8_t record[8];

    mfp_put_record(record, 256, 0, 0);
    expect("kind 256", record[2] == 255 && code_of(record) == 6);
    mfp_put_read(record, 256);
    expect("read of register 256", record[3] == 255 && code_of(record) == 7);
    mfp_put_read(record, 24);
    expect("read of register 24", record[3] == 24 && code_of(record) == 7);
    mfp_put_write(record, MFP_GPDR, 256);
    expect("write of 256", record[6] == 1 && code_of(record) == 7);
    mfp_put_line(record, 8, true);
    expect("line 8", record[3] == 8 && code_of(record) == 7);
    mfp_put_input(record, 256, true);
    expect("input 256", record[3] == 255 && code_of(record) == 7);
    mfp_put_raise(record, 256 + 12);
    expect("raise of channel 268", record[3] == 255 && code_of(record) == 7);
    mfp_put_raise(record, MFP_CHANNEL_TIMER_A);
    expect("raise of timer A", record[3] == 13 && code_of(record) == 7);
}

/* What makes each channel pending where all are enabled; a timer that runs wants 4 clocks more. */
static const struct cause {
    unsigned channel;
    unsigned kind;
    unsigned a;
    uint32_t n;
} causes[] = {
    {MFP_CHANNEL_LINE_0, MFP_LINE, 0, 1},
    {MFP_CHANNEL_LINE_1, MFP_LINE, 1, 1},
    {MFP_CHANNEL_LINE_2, MFP_LINE, 2, 1},
    {MFP_CHANNEL_LINE_3, MFP_LINE, 3, 1},
    {MFP_CHANNEL_TIMER_D, MFP_WRITE, MFP_TCDCR, 0x01},
    {MFP_CHANNEL_TIMER_C, MFP_WRITE, MFP_TCDCR, 0x10},
    {MFP_CHANNEL_LINE_4, MFP_LINE, 4, 1},
    {MFP_CHANNEL_LINE_5, MFP_LINE, 5, 1},
    {MFP_CHANNEL_TIMER_B, MFP_WRITE, MFP_TBCR, 0x01},
    {MFP_CHANNEL_TRANSMIT_ERROR, MFP_RAISE, 9, 0},
    {MFP_CHANNEL_TRANSMIT_EMPTY, MFP_RAISE, 10, 0},
    {MFP_CHANNEL_RECEIVE_ERROR, MFP_RAISE, 11, 0},
    {MFP_CHANNEL_RECEIVE_FULL, MFP_RAISE, 12, 0},
    {MFP_CHANNEL_TIMER_A, MFP_WRITE, MFP_TACR, 0x01},
    {MFP_CHANNEL_LINE_6, MFP_LINE, 6, 1},
    {MFP_CHANNEL_LINE_7, MFP_LINE, 7, 1},
};

static void channels_have_their_numbers(void)
{
    uint8_t image[32], tape[24], answers[66];
    char name[20];
    unsigned i;

    for (i = 0; i < 16; i++) {
        uint8_t *end = mfp_put_record(tape, causes[i].kind, causes[i].a, causes[i].n);

        memset(image, 0, 32);
        image[0] = 0x4D;
        image[1] = 0x31;
        image[3] = 0xFF; /* a line is active when it is high */
        memset(image + 5, 0xFF, 2);
        memset(image + 11, 0xFF, 2);
        image[13] = 0x70;
        memset(image + 21, 0x01, 4);
        end = mfp_put_clocks(end, 4);
        end = mfp_put_acknowledge(end, true);
        snprintf(name, sizeof name, "channel %u", i);
        expect(name, end == tape + 24 && mfp_call(image, tape, 24, answers, 66) == 0 &&
                         mfp_answer_irq(answers + 22) &&
                         mfp_answer_class(answers + 44) == MFP_VECTOR &&
                         mfp_answer_value(answers + 44) == 0x70 + i && causes[i].channel == i);
    }
}

static void answers_are_read(void)
{
    static const uint8_t answer[22] = {
        0x4D, 0x41, 0x02, 0x45, 0x01, 0x0D, 0x01, 0x02, 0x03, 0x04, 0x3F,
        0xFF, 0xFF, 0xFF, 0x00, 0x00, 0x00, 0x80, 0xFF, 0xFF, 0xFF, 0xFE,
    };
    uint8_t image[32], record[8], found[22];

    expect("class", mfp_answer_class(answer) == MFP_VECTOR);
    expect("value", mfp_answer_value(answer) == 0x45);
    expect("IRQ", mfp_answer_irq(answer));
    expect("outputs", mfp_answer_outputs(answer) == 0x0D);
    expect("timeouts of A", mfp_answer_timeouts(answer, MFP_TIMER_A) == 16909060u);
    expect("timeouts of B", mfp_answer_timeouts(answer, MFP_TIMER_B) == 1073741823u);
    expect("timeouts of C", mfp_answer_timeouts(answer, MFP_TIMER_C) == 128u);
    expect("timeouts of D", mfp_answer_timeouts(answer, MFP_TIMER_D) == 4294967294u);

    expect("fresh", mfp_fresh(image, 32) == 0);
    mfp_put_acknowledge(record, true);
    expect("P1: passed on", mfp_call(image, record, 8, found, 22) == 0 &&
                                mfp_answer_class(found) == MFP_PASSED_ON &&
                                mfp_answer_value(found) == 0 && !mfp_answer_irq(found));
    mfp_put_acknowledge(record, false);
    expect("held", mfp_call(image, record, 8, found, 22) == 0 &&
                       mfp_answer_class(found) == MFP_HELD);
    image[14] = 0x01;
    image[17] = 0x01;
    image[21] = 0x01;
    mfp_put_clocks(record, 4294967295u);
    expect("P6: the longest span", mfp_call(image, record, 8, found, 22) == 0 &&
                                       mfp_answer_class(found) == MFP_DONE &&
                                       mfp_answer_outputs(found) == 1 &&
                                       mfp_answer_timeouts(found, MFP_TIMER_A) == 1073741823u &&
                                       mfp_answer_timeouts(found, MFP_TIMER_B) == 0);
}

/* A real refused call has this code, which has these two parts and these words. */
static void is_refused(uint32_t code, unsigned number, uint32_t index, const char *text)
{
    expect(text, code == 256 * index + number && mfp_refusal(code) == number &&
                     mfp_refused_record(code) == index &&
                     strcmp(mfp_refusal_text(number), text) == 0);
}

static void refusals_have_their_words(void)
{
    static uint8_t tape[4104], answers[513 * 22];
    uint8_t image[32];
    size_t i;

    for (i = 0; i < 513; i++)
        mfp_put_reset(tape + 8 * i);
    is_refused(mfp_fresh(image, 32), 0, 0, "not refused");
    is_refused(mfp_fresh(image, 31), 1, 0, "image buffer is not 32 bytes");
    is_refused(mfp_run(image, 31, tape, 8, answers, 22), 1, 0, "image buffer is not 32 bytes");
    image[1] = 0x32;
    is_refused(mfp_call(image, tape, 8, answers, 22), 2, 0, "image mark wrong");
    image[1] = 0x31;
    image[14] = 16;
    is_refused(mfp_call(image, tape, 8, answers, 22), 3, 0, "image breaks the image rule");
    image[14] = 0;
    is_refused(mfp_call(image, tape, 7, answers, 22), 4, 0,
               "tape length not a multiple of 8, or above 4,096");
    is_refused(mfp_call(image, tape, 4104, answers, sizeof answers), 4, 0,
               "tape length not a multiple of 8, or above 4,096");
    tape[8 * 511] = 0;
    is_refused(mfp_call(image, tape, 4096, answers, sizeof answers), 5, 511, "record mark wrong");
    mfp_put_record(tape + 16, 8, 0, 0);
    is_refused(mfp_call(image, tape, 24, answers, 66), 6, 2, "kind above 7");
    mfp_put_record(tape + 16, MFP_RESET, 0, 1);
    is_refused(mfp_call(image, tape, 24, answers, 66), 7, 2, "operand out of range");
    mfp_put_write(tape + 16, MFP_SCR, 0);
    is_refused(mfp_call(image, tape, 24, answers, 66), 8, 2, "read or write with rs 19 to 23");
    is_refused(mfp_call(image, tape, 16, answers, 43), 9, 0,
               "answer buffer shorter than 22 bytes a record");
    expect("parts of a code", mfp_refusal(0x1FFFFu) == 255 && mfp_refused_record(0x1FFFFu) == 511);
    expect("no eleventh refusal", strcmp(mfp_refusal_text(11), "no refusal has this number") == 0);
}

/* Eight devices, S set, vectors from 00, 10 and so on; channel 0 requests in those that a bit names. */
static void make_row(uint8_t *row, unsigned requesting)
{
    unsigned i;

    memset(row, 0, 256);
    for (i = 0; i < 8; i++) {
        row[0] = 0x4D;
        row[1] = 0x31;
        row[6] = row[12] = 0x01;
        row[8] = requesting >> i & 1u;
        row[13] = mfp_byte(16 * i + 8);
        row += 32;
    }
}

/* An accepted row: its number, the number's parts, and of its bytes the giver's two alone. */
static void row_gives(unsigned requesting, unsigned images, unsigned passed, bool gives)
{
    uint8_t row[256], wanted[256];
    unsigned vector = gives ? 16 * passed : 0;
    uint64_t told = 256 * passed + vector;
    uint64_t result;
    char name[40];

    make_row(row, requesting);
    make_row(wanted, requesting);
    if (gives) {
        wanted[32 * passed + 8] = 0;
        wanted[32 * passed + 10] = 0x01;
    }
    result = mfp_row_acknowledge(row, 32 * images);
    snprintf(name, sizeof name, "row of %u, %u passed on", images, passed);
    expect(name, result == told << 32 && memcmp(row, wanted, 256) == 0);
    snprintf(name, sizeof name, "its parts, %u and %u", images, passed);
    expect(name, mfp_row_code(result) == 0 && mfp_row_passed(result) == passed &&
                     mfp_row_vector(result) == vector &&
                     mfp_row_gave(result, 32 * images) == gives);
}

static void rows_are_read(void)
{
    unsigned images, place;

    for (images = 1; images <= 8; images++) {
        row_gives(0, images, images, false);
        row_gives(0xFFu ^ ((1u << images) - 1u), images, images, false);
        for (place = 0; place < images; place++) {
            row_gives(1u << place, images, place, true);
            row_gives(0xFFu << place & 0xFFu, images, place, true);
        }
    }
    expect("parts of a row's number",
           mfp_row_code(0x000007FEFFFFFFFFu) == 0xFFFFFFFFu &&
               mfp_row_passed(0x000007FEFFFFFFFFu) == 7 && mfp_row_vector(0x000007FEFFFFFFFFu) == 0xFE);
}

/* A refused row has these two parts and these words, tells 0, and keeps its bytes. */
static void row_is_refused(size_t length, size_t at, uint8_t byte, unsigned number, uint32_t index,
                           const char *text)
{
    uint8_t row[320], before[320];
    uint64_t result;

    memset(row, 0xA5, sizeof row);
    make_row(row, 0xFF);
    row[at] = byte;
    memcpy(before, row, sizeof row);
    result = mfp_row_acknowledge(row, length);
    is_refused(mfp_row_code(result), number, index, text);
    expect("a refused row", result >> 32 == 0 && mfp_row_passed(result) == 0 &&
                                mfp_row_vector(result) == 0 && !mfp_row_gave(result, length) &&
                                memcmp(row, before, sizeof row) == 0);
}

static void rows_are_refused(void)
{
    row_is_refused(0, 0, 0x4D, 10, 0, "row of none or more than eight");
    row_is_refused(257, 0, 0, 10, 0, "row of none or more than eight");
    row_is_refused(288, 0, 0, 10, 0, "row of none or more than eight");
    row_is_refused(31, 0, 0, 1, 0, "image buffer is not 32 bytes");
    row_is_refused(255, 0, 0, 1, 0, "image buffer is not 32 bytes");
    row_is_refused(256, 0, 0, 2, 0, "image mark wrong");
    row_is_refused(256, 32 * 7 + 1, 0x32, 2, 7, "image mark wrong");
    row_is_refused(64, 32 + 14, 16, 3, 1, "image breaks the image rule");
}

static void null_is_nothing(void)
{
    uint8_t image[32], record[8], answer[22], kept[22];

    memcpy(image, told, 32);
    memset(answer, 0xA5, 22);
    memcpy(kept, answer, 22);
    mfp_put_reset(record);
    expect("nothing to lend", mfp_call(image, NULL, 0, NULL, 0) == 0);
    expect("room and no tape", mfp_call(image, NULL, 0, answer, 22) == 0);
    expect("a tape and no room", mfp_call(image, record, 8, NULL, 0) == 9);
    expect("a bad tape and no room", mfp_call(image, record, 1, NULL, 0) == 4);
    expect("nothing was altered", memcmp(image, told, 32) == 0 && memcmp(answer, kept, 22) == 0);
}

int main(void)
{
    sizes_and_marks();
    registers_have_their_places();
    the_rest_has_its_places();
    records_have_their_bytes();
    numbers_out_of_range_are_refused();
    channels_have_their_numbers();
    answers_are_read();
    refusals_have_their_words();
    rows_are_read();
    rows_are_refused();
    null_is_nothing();
    expect("no NULL came to the library", calls > 0 && !null_was_lent);
    printf("%d passed, %d failed\n", passed, failed);
    return failed != 0;
}
