/*
 * mfp.h - a software MC68901: interrupt controller, eight lines, four timers.
 *
 * A device is an image of 32 bytes that the host keeps. The host writes what
 * happens to the device as records on a tape, calls mfp_run, and finds one
 * answer for each record. Devices that are chained by IEI and IEO it lends
 * together, as a row. The library keeps no state between calls and knows no
 * device but those it is lent.
 *
 * All numbers of more than one byte stand high byte first.
 */
#ifndef MFP_H
#define MFP_H

#include <stdbool.h>
#include <stddef.h>
#include <stdint.h>

#ifdef __cplusplus
extern "C" {
#endif

/*
 * One higher whenever a size, a byte, a number or a call below changes its
 * meaning or is added. The library is of its header's version; it has no
 * symbol that tells.
 */
#define MFP_VERSION 2

/* Sizes in bytes. MFP_TAPE_MAX is the longest tape: 512 records. */
#define MFP_IMAGE_BYTES 32
#define MFP_RECORD_BYTES 8
#define MFP_ANSWER_BYTES 22
#define MFP_TAPE_MAX 4096

/* The most images of a row. */
#define MFP_ROW_MAX 8

/* The two bytes that open an image, a record and an answer. */
#define MFP_IMAGE_MARK_0 0x4D
#define MFP_IMAGE_MARK_1 0x31
#define MFP_RECORD_MARK_0 0x4D
#define MFP_RECORD_MARK_1 0x45
#define MFP_ANSWER_MARK_0 0x4D
#define MFP_ANSWER_MARK_1 0x41

/* The four timers and their two inputs. */
enum mfp_timer { MFP_TIMER_A = 0, MFP_TIMER_B = 1, MFP_TIMER_C = 2, MFP_TIMER_D = 3 };
enum mfp_input { MFP_TAI = 0, MFP_TBI = 1 };

/*
 * Where what stands in an image. A host may look at any time; what it writes
 * there itself, the next call checks. IRQ has no byte: the answer to 0 clocks
 * tells it, and nothing changes.
 */
#define MFP_IMAGE_GPDR 2 /* the stored bits; a read gives levels where DDR is 0 */
#define MFP_IMAGE_AER 3
#define MFP_IMAGE_DDR 4
#define MFP_IMAGE_IERA 5
#define MFP_IMAGE_IERB 6
#define MFP_IMAGE_IPRA 7
#define MFP_IMAGE_IPRB 8
#define MFP_IMAGE_ISRA 9
#define MFP_IMAGE_ISRB 10
#define MFP_IMAGE_IMRA 11
#define MFP_IMAGE_IMRB 12
#define MFP_IMAGE_VR 13
#define MFP_IMAGE_MODE_A 14
#define MFP_IMAGE_MODE_B 15
#define MFP_IMAGE_TCDCR 16
#define MFP_IMAGE_DATA 17     /* + timer: the data value, from which it is reloaded */
#define MFP_IMAGE_COUNTER 21  /* + timer: the main counter */
#define MFP_IMAGE_POSITION 25 /* + timer: clocks towards its next count pulse */
#define MFP_IMAGE_OUTPUTS 29  /* bit 0 is timer A, bit 3 is D */
#define MFP_IMAGE_LEVELS 30   /* bit i is line i */
#define MFP_IMAGE_INPUTS 31   /* bit 0 is TAI, bit 1 is TBI */

/*
 * A record: the mark, a kind, an operand a of one byte and an operand n of
 * four. An operand that a kind does not name is 0.
 */
#define MFP_RECORD_KIND 2
#define MFP_RECORD_A 3
#define MFP_RECORD_N 4

enum mfp_kind {
    MFP_RESET = 0,       /* the reset line */
    MFP_READ = 1,        /* read register a */
    MFP_WRITE = 2,       /* write n, at most 255, to register a */
    MFP_LINE = 3,        /* line a, 0 to 7, to level n, 0 or 1 */
    MFP_INPUT = 4,       /* input a, MFP_TAI or MFP_TBI, to level n, 0 or 1 */
    MFP_CLOCKS = 5,      /* n clocks of the timers, any n */
    MFP_ACKNOWLEDGE = 6, /* acknowledge; a is 1 if IEI is asserted, else 0 */
    MFP_RAISE = 7        /* raise serial channel a, 9 to 12 */
};

/* Register selects. The five serial registers are refused. */
enum mfp_register {
    MFP_GPDR = 0,
    MFP_AER = 1,
    MFP_DDR = 2,
    MFP_IERA = 3,
    MFP_IERB = 4,
    MFP_IPRA = 5,
    MFP_IPRB = 6,
    MFP_ISRA = 7,
    MFP_ISRB = 8,
    MFP_IMRA = 9,
    MFP_IMRB = 10,
    MFP_VR = 11,
    MFP_TACR = 12,
    MFP_TBCR = 13,
    MFP_TCDCR = 14,
    MFP_TADR = 15,
    MFP_TBDR = 16,
    MFP_TCDR = 17,
    MFP_TDDR = 18,
    MFP_SCR = 19,
    MFP_UCR = 20,
    MFP_RSR = 21,
    MFP_TSR = 22,
    MFP_UDR = 23
};

/* Channels: the low four bits of a vector. Line 5 is channel 7. */
enum mfp_channel {
    MFP_CHANNEL_LINE_0 = 0,
    MFP_CHANNEL_LINE_1 = 1,
    MFP_CHANNEL_LINE_2 = 2,
    MFP_CHANNEL_LINE_3 = 3,
    MFP_CHANNEL_TIMER_D = 4,
    MFP_CHANNEL_TIMER_C = 5,
    MFP_CHANNEL_LINE_4 = 6,
    MFP_CHANNEL_LINE_5 = 7,
    MFP_CHANNEL_TIMER_B = 8,
    MFP_CHANNEL_TRANSMIT_ERROR = 9,
    MFP_CHANNEL_TRANSMIT_EMPTY = 10,
    MFP_CHANNEL_RECEIVE_ERROR = 11,
    MFP_CHANNEL_RECEIVE_FULL = 12,
    MFP_CHANNEL_TIMER_A = 13,
    MFP_CHANNEL_LINE_6 = 14,
    MFP_CHANNEL_LINE_7 = 15
};

/*
 * An answer: the mark, a class, a value (0 if none), IRQ after the event (0
 * or 1), the timer outputs after it (bit 0 is A, bit 3 is D), and how many
 * timeouts of timers A, B, C and D the event made, four bytes each.
 */
#define MFP_ANSWER_CLASS 2
#define MFP_ANSWER_VALUE 3
#define MFP_ANSWER_IRQ 4
#define MFP_ANSWER_OUTPUTS 5
#define MFP_ANSWER_TIMEOUTS 6

enum mfp_class {
    MFP_DONE = 0,      /* done, no value */
    MFP_DATA = 1,      /* the value read */
    MFP_VECTOR = 2,    /* the vector given */
    MFP_PASSED_ON = 3, /* acknowledge without a request: IEO is asserted */
    MFP_HELD = 4       /* acknowledge while IEI is not asserted */
};

/*
 * Refusals. The order in which mfp_run checks them: 1 to 4, then 5 to 8 for
 * each record in tape order, then 9. That of mfp_row_acknowledge: 10, 1, then
 * 2 and 3 for each image in the order of the row.
 */
enum mfp_refusal_number {
    MFP_BAD_IMAGE_LENGTH = 1,  /* not MFP_IMAGE_BYTES; of a row, no multiple of it */
    MFP_BAD_IMAGE_MARK = 2,    /* the image does not open with its mark */
    MFP_BAD_IMAGE = 3,         /* the image breaks the image rule */
    MFP_BAD_TAPE_LENGTH = 4,   /* no multiple of 8 bytes, or above MFP_TAPE_MAX */
    MFP_BAD_RECORD_MARK = 5,   /* a record does not open with its mark */
    MFP_BAD_KIND = 6,          /* a kind above 7 */
    MFP_BAD_OPERAND = 7,       /* an operand out of range */
    MFP_SERIAL_REGISTER = 8,   /* read or write of a serial register */
    MFP_BAD_ANSWER_LENGTH = 9, /* fewer than MFP_ANSWER_BYTES a record */
    MFP_BAD_ROW_LENGTH = 10    /* a row of none, or of more than MFP_ROW_MAX images */
};

/*
 * Run a tape on a device.
 *
 * image    the device; loaded before the first record, saved after the last
 * tape     tape_len / MFP_RECORD_BYTES records; a tape of 0 bytes is accepted
 * answers  room for MFP_ANSWER_BYTES a record; more room is left as it is
 *
 * Returns 0, or 256 * index of the bad record + number of the refusal; the
 * index is 0 for refusals 1 to 4 and 9. mfp_refusal and mfp_refused_record
 * take the two apart.
 *
 * Success writes the image and the first MFP_ANSWER_BYTES * records bytes of
 * the answers, and nothing else. A refusal leaves image and answers as they
 * came; the tape is never written.
 *
 * The caller sees to it that each buffer is valid for its length and that no
 * two of them overlap; this cannot be checked here. A buffer of length 0 is
 * not touched, but its pointer must not be NULL: mfp_call, below, sees to it.
 */
uint32_t mfp_run(uint8_t *image, size_t image_len, const uint8_t *tape, size_t tape_len,
                 uint8_t *answers, size_t answers_len);

/*
 * Write the image of a fresh device: the mark, and all else zero.
 *
 * Returns 0, or MFP_BAD_IMAGE_LENGTH where image_len is not MFP_IMAGE_BYTES;
 * the buffer then stays as it came. What it held before does not matter. It
 * must be valid for its length, and its pointer must not be NULL.
 */
uint32_t mfp_fresh(uint8_t *image, size_t image_len);

/*
 * Acknowledge over a row of one to MFP_ROW_MAX devices that are chained: the
 * IEI of the first is asserted, the IEO of each is the IEI of the next.
 *
 * images   the devices one after another, the highest priority first;
 *          images_len / MFP_IMAGE_BYTES of them
 *
 * The first device that requests gives its vector and changes as by an
 * acknowledge record; those before it pass on, those after it are held. Where
 * none requests, all pass on. A bit in service alone holds nothing back.
 *
 * Returns the code in the low 32 bits, as mfp_run does: 0, or 256 * index of
 * the bad image + number of the refusal; the index is 0 for refusals 10 and 1.
 * In the high 32 bits it tells 256 * the devices that passed on + the vector.
 * Where none requests, as many passed on as there are, and the vector is 0. A
 * refused call tells 0. mfp_row_code, mfp_row_passed, mfp_row_vector and
 * mfp_row_gave take the number apart.
 *
 * It refuses, in this order: MFP_BAD_ROW_LENGTH where images_len is 0 or above
 * MFP_ROW_MAX * MFP_IMAGE_BYTES; MFP_BAD_IMAGE_LENGTH where it is no multiple
 * of MFP_IMAGE_BYTES; MFP_BAD_IMAGE_MARK and MFP_BAD_IMAGE for each image in
 * turn, so that the first bad image counts.
 *
 * Success alters the image of the device that gave the vector, and no other
 * byte. What a device of an accepted row answers and becomes never depends on
 * those after it. A refusal leaves every byte of the row as it came.
 *
 * The caller sees to it that the buffer is valid for its length, that its
 * images are of MFP_IMAGE_BYTES each and that no other call is lent a byte of
 * it meanwhile; this cannot be checked here. A buffer of length 0 is not
 * touched, but its pointer must not be NULL.
 */
uint64_t mfp_row_acknowledge(uint8_t *images, size_t images_len);

#ifdef __cplusplus
}
#endif

/*
 * Helpers, compiled into the host. Of the library they need mfp_run alone, and
 * that in mfp_call.
 */

/*
 * mfp_run on an image of MFP_IMAGE_BYTES, for a host that may have nothing to
 * lend: tape and answers may be NULL where their length is 0. NULL with
 * another length is the host's error, as every pointer is that is not valid
 * for its length.
 */
static inline uint32_t mfp_call(uint8_t *image, const uint8_t *tape, size_t tape_len,
                                uint8_t *answers, size_t answers_len)
{
    uint8_t nothing = 0;

    return mfp_run(image, MFP_IMAGE_BYTES, tape_len != 0 ? tape : &nothing, tape_len,
                   answers_len != 0 ? answers : &nothing, answers_len);
}

/* A number as a byte; one that has no byte as 255, which no kind takes. */
static inline uint8_t mfp_byte(unsigned number)
{
    return number < 255u ? number & 255u : 255u;
}

/*
 * Make a record: each of these writes MFP_RECORD_BYTES and returns where the
 * next record goes, so that a tape can be put together in a row. They check
 * nothing. A number out of range stays out of range, and mfp_run refuses it; a
 * truth value is never out of range.
 */

/* A record of any kind; enum mfp_kind says what a and n are. */
static inline uint8_t *mfp_put_record(uint8_t *record, unsigned kind, unsigned a, uint32_t n)
{
    int at;

    record[0] = MFP_RECORD_MARK_0;
    record[1] = MFP_RECORD_MARK_1;
    record[MFP_RECORD_KIND] = mfp_byte(kind);
    record[MFP_RECORD_A] = mfp_byte(a);
    for (at = MFP_RECORD_BYTES - 1; at >= MFP_RECORD_N; at--) {
        record[at] = n & 255u;
        n >>= 8;
    }
    return record + MFP_RECORD_BYTES;
}

/* The reset line. */
static inline uint8_t *mfp_put_reset(uint8_t *record)
{
    return mfp_put_record(record, MFP_RESET, 0, 0);
}

/* Read register rs. */
static inline uint8_t *mfp_put_read(uint8_t *record, unsigned rs)
{
    return mfp_put_record(record, MFP_READ, rs, 0);
}

/* Write value, at most 255, to register rs. */
static inline uint8_t *mfp_put_write(uint8_t *record, unsigned rs, unsigned value)
{
    return mfp_put_record(record, MFP_WRITE, rs, value);
}

/* Line 0 to 7 goes to a level. */
static inline uint8_t *mfp_put_line(uint8_t *record, unsigned line, bool level)
{
    return mfp_put_record(record, MFP_LINE, line, level);
}

/* MFP_TAI or MFP_TBI goes to a level. */
static inline uint8_t *mfp_put_input(uint8_t *record, unsigned input, bool level)
{
    return mfp_put_record(record, MFP_INPUT, input, level);
}

/* So many clocks of the timers, any n. */
static inline uint8_t *mfp_put_clocks(uint8_t *record, uint32_t n)
{
    return mfp_put_record(record, MFP_CLOCKS, 0, n);
}

/* Acknowledge; iei says whether IEI is asserted. */
static inline uint8_t *mfp_put_acknowledge(uint8_t *record, bool iei)
{
    return mfp_put_record(record, MFP_ACKNOWLEDGE, iei, 0);
}

/* Raise serial channel 9 to 12. */
static inline uint8_t *mfp_put_raise(uint8_t *record, unsigned channel)
{
    return mfp_put_record(record, MFP_RAISE, channel, 0);
}

/* Read an answer, MFP_ANSWER_BYTES that an accepted call has written. */

/* One of enum mfp_class. */
static inline unsigned mfp_answer_class(const uint8_t *answer)
{
    return answer[MFP_ANSWER_CLASS];
}

/* What was read, for MFP_DATA; the vector, for MFP_VECTOR; else 0. */
static inline unsigned mfp_answer_value(const uint8_t *answer)
{
    return answer[MFP_ANSWER_VALUE];
}

/* Whether IRQ is asserted after the event. */
static inline bool mfp_answer_irq(const uint8_t *answer)
{
    return answer[MFP_ANSWER_IRQ] != 0;
}

/* The timer outputs after the event: bit 0 is A, bit 3 is D. */
static inline unsigned mfp_answer_outputs(const uint8_t *answer)
{
    return answer[MFP_ANSWER_OUTPUTS];
}

/* How many timeouts of a timer, 0 to 3, the event made. */
static inline uint32_t mfp_answer_timeouts(const uint8_t *answer, unsigned timer)
{
    const uint8_t *count = answer + MFP_ANSWER_TIMEOUTS + 4 * timer;
    uint32_t n = 0;
    int i;

    for (i = 0; i < 4; i++)
        n = n << 8 | count[i];
    return n;
}

/* Take a code apart: the number of the refusal, 0 if there is none. */
static inline unsigned mfp_refusal(uint32_t code)
{
    return code & 255u;
}

/*
 * And the index of what it is about: of a tape the record's, 0 for refusals 1
 * to 4 and 9; of a row the image's, 0 for refusals 10 and 1.
 */
static inline uint32_t mfp_refused_record(uint32_t code)
{
    return code >> 8;
}

/* Take the number of a row apart: the code, 0 if it was accepted. */
static inline uint32_t mfp_row_code(uint64_t result)
{
    return result & 0xFFFFFFFFu;
}

/* How many devices passed on: the index of the one after them, which gave its vector. */
static inline unsigned mfp_row_passed(uint64_t result)
{
    return result >> 40 & 255u;
}

/* The vector; 0 where none was given, and 0 may be one, so ask mfp_row_gave. */
static inline unsigned mfp_row_vector(uint64_t result)
{
    return result >> 32 & 255u;
}

/* Whether a device of the row gave a vector; images_len as in the call. */
static inline bool mfp_row_gave(uint64_t result, size_t images_len)
{
    return mfp_row_code(result) == 0 && mfp_row_passed(result) < images_len / MFP_IMAGE_BYTES;
}

/* A refusal in words, by its number. It is a constant; nobody frees it. */
static inline const char *mfp_refusal_text(unsigned number)
{
    switch (number) {
    case 0:
        return "not refused";
    case MFP_BAD_IMAGE_LENGTH:
        return "image buffer is not 32 bytes";
    case MFP_BAD_IMAGE_MARK:
        return "image mark wrong";
    case MFP_BAD_IMAGE:
        return "image breaks the image rule";
    case MFP_BAD_TAPE_LENGTH:
        return "tape length not a multiple of 8, or above 4,096";
    case MFP_BAD_RECORD_MARK:
        return "record mark wrong";
    case MFP_BAD_KIND:
        return "kind above 7";
    case MFP_BAD_OPERAND:
        return "operand out of range";
    case MFP_SERIAL_REGISTER:
        return "read or write with rs 19 to 23";
    case MFP_BAD_ANSWER_LENGTH:
        return "answer buffer shorter than 22 bytes a record";
    case MFP_BAD_ROW_LENGTH:
        return "row of none or more than eight";
    default:
        return "no refusal has this number";
    }
}

#endif
