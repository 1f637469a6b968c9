/*
 * example.c - a small host: it sets up timer C and a line interrupt, lets
 * clocks go by, and acknowledges what comes, as an emulator's main loop does.
 *
 * The set-up is one tape of six records. What comes after it is played event
 * by event, which is the simplest way to react to each.
 */
#include <stdio.h>
#include <stdlib.h>

#include "mfp.h"

enum { SET_UP_RECORDS = 6 };

/* End the program if a call that it knows to be right was refused. */
static void must(uint32_t code)
{
    if (code != 0) {
        fprintf(stderr, "refused, record %lu: %s\n", (unsigned long)mfp_refused_record(code),
                mfp_refusal_text(mfp_refusal(code)));
        exit(EXIT_FAILURE);
    }
}

/* One record, a tape of its own; what mfp_run returns. */
static uint32_t play(uint8_t *image, const uint8_t *record, uint8_t *answer)
{
    return mfp_call(image, record, MFP_RECORD_BYTES, answer, MFP_ANSWER_BYTES);
}

static void set_up(uint8_t *image)
{
    uint8_t tape[SET_UP_RECORDS * MFP_RECORD_BYTES];
    uint8_t answers[SET_UP_RECORDS * MFP_ANSWER_BYTES];
    uint8_t *end = tape;

    must(mfp_fresh(image, MFP_IMAGE_BYTES));
    end = mfp_put_write(end, MFP_VR, 0x48);    /* vectors 40 to 4F, service remembered */
    end = mfp_put_write(end, MFP_AER, 0x20);   /* line 5 interrupts when it goes high */
    end = mfp_put_write(end, MFP_IERB, 0xA0);  /* channels 7 and 5 enabled */
    end = mfp_put_write(end, MFP_IMRB, 0xA0);  /* and not masked */
    end = mfp_put_write(end, MFP_TCDR, 6);     /* six count pulses a timeout */
    end = mfp_put_write(end, MFP_TCDCR, 0x10); /* timer C, a count pulse every 4 clocks */
    must(mfp_call(image, tape, (size_t)(end - tape), answers, sizeof answers));
    printf("timer C times out every 24 clocks, line 5 interrupts when it goes high\n");
}

static void clocks(uint8_t *image, uint32_t n, uint8_t *answer)
{
    uint8_t record[MFP_RECORD_BYTES];

    mfp_put_clocks(record, n);
    must(play(image, record, answer));
    printf("%lu clocks, timeouts of timer C: %lu\n", (unsigned long)n,
           (unsigned long)mfp_answer_timeouts(answer, MFP_TIMER_C));
}

static void line_5(uint8_t *image, bool level, uint8_t *answer)
{
    uint8_t record[MFP_RECORD_BYTES];

    mfp_put_line(record, 5, level);
    must(play(image, record, answer));
    printf("line 5 goes %s\n", level ? "high" : "low");
}

static void acknowledge(uint8_t *image, uint8_t *answer)
{
    uint8_t record[MFP_RECORD_BYTES];

    mfp_put_acknowledge(record, true);
    must(play(image, record, answer));
}

/* End of service: a 0 clears the channel's bit, the 1s leave the others. */
static void end_service(uint8_t *image, unsigned channel, uint8_t *answer)
{
    uint8_t record[MFP_RECORD_BYTES];

    mfp_put_write(record, MFP_ISRB, 0xFFu ^ 1u << channel);
    must(play(image, record, answer));
}

static const char *channel_name(unsigned channel)
{
    switch (channel) {
    case MFP_CHANNEL_LINE_5:
        return "line 5";
    case MFP_CHANNEL_TIMER_C:
        return "timer C";
    default:
        return "a channel that was never enabled";
    }
}

/*
 * Serve while IRQ is asserted after the last event, whose answer comes in and
 * goes out. An acknowledge then gives a vector.
 */
static void serve(uint8_t *image, uint8_t *answer)
{
    while (mfp_answer_irq(answer)) {
        unsigned vector, channel;

        acknowledge(image, answer);
        vector = mfp_answer_value(answer);
        channel = vector & 15u;
        printf("  vector %02X: %s\n", vector, channel_name(channel));
        end_service(image, channel, answer);
    }
    printf("  nothing more to serve\n");
}

static void show_refusal(uint8_t *image)
{
    uint8_t record[MFP_RECORD_BYTES], answer[MFP_ANSWER_BYTES];
    uint32_t code;

    mfp_put_read(record, MFP_UDR);
    code = play(image, record, answer);
    printf("reading UDR is refused: number %u, record %lu, %s\n", mfp_refusal(code),
           (unsigned long)mfp_refused_record(code), mfp_refusal_text(mfp_refusal(code)));
}

int main(void)
{
    uint8_t image[MFP_IMAGE_BYTES], answer[MFP_ANSWER_BYTES];
    int i;

    set_up(image);
    for (i = 0; i < 3; i++) {
        clocks(image, 10, answer);
        serve(image, answer);
    }
    line_5(image, true, answer);
    serve(image, answer);
    line_5(image, false, answer);
    clocks(image, 20, answer);
    line_5(image, true, answer);
    serve(image, answer);
    clocks(image, 4294967295u, answer);
    serve(image, answer);
    show_refusal(image);
    return EXIT_SUCCESS;
}
