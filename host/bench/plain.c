/*
 * plain.c - the rules in plain C. Sets of channels are 16-bit words with
 * channel c in bit c; a span of clocks goes by pulses, in closed form.
 */
#include "plain.h"

#include "mfp.h"

/* Where the fields of an image stand. */
enum {
    AT_GPDR = 2,
    AT_AER = 3,
    AT_DDR = 4,
    AT_IER = 5,
    AT_IPR = 7,
    AT_ISR = 9,
    AT_IMR = 11,
    AT_VR = 13,
    AT_MODE_A = 14,
    AT_MODE_B = 15,
    AT_TCDCR = 16,
    AT_DATA = 17,
    AT_COUNTER = 21,
    AT_POSITION = 25,
    AT_OUTPUTS = 29,
    AT_LEVELS = 30,
    AT_INPUTS = 31
};

enum { TIMER_A, TIMER_B, TIMER_C, TIMER_D, TIMERS };

enum { STOPPED = 0, EVENT_COUNT = 8 };

#define VR_S 0x08
#define VR_STORED 0xF8
#define TCR_RESET_OUTPUT 0x10

struct timer {
    uint8_t mode;
    uint8_t data;
    uint8_t counter;
    uint8_t position;
    uint8_t output;
};

struct device {
    uint8_t gpdr, aer, ddr, vr;
    uint8_t levels; /* outside levels of the lines */
    uint8_t inputs; /* TAI in bit 0, TBI in bit 1 */
    uint16_t ier, ipr, isr, imr;
    struct timer timer[TIMERS];
};

struct answer {
    uint8_t class;
    uint8_t value;
    uint32_t timeouts[TIMERS];
};

static const uint8_t divisor[8] = {0, 4, 10, 16, 50, 64, 100, 200};
static const uint16_t timer_channel[TIMERS] = {1u << 13, 1u << 8, 1u << 5, 1u << 4};
static const uint16_t line_channel[8] = {1u << 0, 1u << 1, 1u << 2,  1u << 3,
                                         1u << 6, 1u << 7, 1u << 14, 1u << 15};
/* AER bit, line and thereby channel that TAI and TBI share. */
static const uint8_t input_line[2] = {4, 3};

static uint16_t get16(const uint8_t *p)
{
    return (uint16_t)(p[0] << 8 | p[1]);
}

static uint32_t get32(const uint8_t *p)
{
    return (uint32_t)p[0] << 24 | (uint32_t)p[1] << 16 | (uint32_t)p[2] << 8 | p[3];
}

static void put16(uint8_t *p, uint16_t v)
{
    p[0] = (uint8_t)(v >> 8);
    p[1] = (uint8_t)v;
}

static void put32(uint8_t *p, uint32_t v)
{
    p[0] = (uint8_t)(v >> 24);
    p[1] = (uint8_t)(v >> 16);
    p[2] = (uint8_t)(v >> 8);
    p[3] = (uint8_t)v;
}

static void load(struct device *d, const uint8_t *image)
{
    const uint8_t modes[TIMERS] = {image[AT_MODE_A], image[AT_MODE_B], image[AT_TCDCR] >> 4,
                                   image[AT_TCDCR] & 7};
    int t;

    d->gpdr = image[AT_GPDR];
    d->aer = image[AT_AER];
    d->ddr = image[AT_DDR];
    d->ier = get16(image + AT_IER);
    d->ipr = get16(image + AT_IPR);
    d->isr = get16(image + AT_ISR);
    d->imr = get16(image + AT_IMR);
    d->vr = image[AT_VR];
    d->levels = image[AT_LEVELS];
    d->inputs = image[AT_INPUTS];
    for (t = 0; t < TIMERS; t++) {
        d->timer[t].mode = modes[t];
        d->timer[t].data = image[AT_DATA + t];
        d->timer[t].counter = image[AT_COUNTER + t];
        d->timer[t].position = image[AT_POSITION + t];
        d->timer[t].output = image[AT_OUTPUTS] >> t & 1;
    }
}

static uint8_t outputs(const struct device *d)
{
    return (uint8_t)(d->timer[TIMER_A].output | d->timer[TIMER_B].output << 1 |
                     d->timer[TIMER_C].output << 2 | d->timer[TIMER_D].output << 3);
}

static uint8_t tcdcr(const struct device *d)
{
    return (uint8_t)(d->timer[TIMER_C].mode << 4 | d->timer[TIMER_D].mode);
}

static void save(const struct device *d, uint8_t *image)
{
    int t;

    image[AT_GPDR] = d->gpdr;
    image[AT_AER] = d->aer;
    image[AT_DDR] = d->ddr;
    put16(image + AT_IER, d->ier);
    put16(image + AT_IPR, d->ipr);
    put16(image + AT_ISR, d->isr);
    put16(image + AT_IMR, d->imr);
    image[AT_VR] = d->vr;
    image[AT_MODE_A] = d->timer[TIMER_A].mode;
    image[AT_MODE_B] = d->timer[TIMER_B].mode;
    image[AT_TCDCR] = tcdcr(d);
    for (t = 0; t < TIMERS; t++) {
        image[AT_DATA + t] = d->timer[t].data;
        image[AT_COUNTER + t] = d->timer[t].counter;
        image[AT_POSITION + t] = d->timer[t].position;
    }
    image[AT_OUTPUTS] = outputs(d);
    image[AT_LEVELS] = d->levels;
    image[AT_INPUTS] = d->inputs;
}

static void raise_channel(struct device *d, uint16_t channel)
{
    d->ipr |= channel & d->ier;
}

/* The highest requesting channel, or -1. */
static int requesting(const struct device *d)
{
    uint16_t wanted = d->ipr & d->imr;
    int channel;

    if (wanted == 0)
        return -1;
    channel = 31 - __builtin_clz(wanted);
    return d->isr >> channel ? -1 : channel;
}

/* 1 if the pulse made a timeout. */
static uint32_t pulse(struct timer *t)
{
    if (t->counter != 1) {
        t->counter--;
        return 0;
    }
    t->counter = t->data;
    t->output ^= 1;
    return 1;
}

/* The timeouts that n clocks make; active tells whether the input is. */
static uint32_t advance(struct timer *t, uint32_t n, int active)
{
    uint32_t div = divisor[t->mode & 7];
    uint64_t clocks = (uint64_t)t->position + n;
    uint32_t pulses, first, period, timeouts;

    if (div == 0 || (t->mode > EVENT_COUNT && !active))
        return 0;
    t->position = (uint8_t)(clocks % div);
    pulses = (uint32_t)(clocks / div);
    first = t->counter ? t->counter : 256;
    if (pulses < first) {
        t->counter = (uint8_t)(t->counter - pulses);
        return 0;
    }
    pulses -= first;
    period = t->data ? t->data : 256;
    timeouts = 1 + pulses / period;
    t->counter = (uint8_t)(t->data - pulses % period);
    t->output ^= timeouts & 1;
    return timeouts;
}

/* Bits of signals that are active: level equal to edge bit. */
static uint8_t active_lines(const struct device *d)
{
    return (uint8_t) ~(d->levels ^ d->aer);
}

static int active_input(const struct device *d, int input)
{
    return (d->inputs >> input & 1) == (d->aer >> input_line[input] & 1);
}

static void clocks(struct device *d, uint32_t n, struct answer *a)
{
    int t;

    for (t = 0; t < TIMERS; t++) {
        int active = t <= TIMER_B && active_input(d, t);

        a->timeouts[t] = advance(&d->timer[t], n, active);
        if (a->timeouts[t])
            raise_channel(d, timer_channel[t]);
    }
}

/* Lines that raise nothing: outputs, and 4 and 3 in the pulse-width modes. */
static uint8_t silent_lines(const struct device *d)
{
    uint8_t silent = d->ddr;

    if (d->timer[TIMER_A].mode > EVENT_COUNT)
        silent |= (uint8_t)(1u << input_line[TIMER_A]);
    if (d->timer[TIMER_B].mode > EVENT_COUNT)
        silent |= (uint8_t)(1u << input_line[TIMER_B]);
    return silent;
}

/* TAI or TBI was active or not before; count or raise by what it is now. */
static void input_edge(struct device *d, int input, int was, struct answer *a)
{
    struct timer *t = &d->timer[input];
    int is = active_input(d, input);

    if (!was && is && t->mode == EVENT_COUNT) {
        a->timeouts[input] = pulse(t);
        if (a->timeouts[input])
            raise_channel(d, timer_channel[input]);
    }
    if (was && !is && t->mode > EVENT_COUNT)
        raise_channel(d, line_channel[input_line[input]]);
}

/* New levels, inputs and edge bits, with the edges that they make. */
static void signals(struct device *d, uint8_t levels, uint8_t inputs, uint8_t aer,
                    struct answer *a)
{
    uint8_t before = active_lines(d);
    int tai = active_input(d, MFP_TAI);
    int tbi = active_input(d, MFP_TBI);
    uint8_t rose;
    int line;

    d->levels = levels;
    d->inputs = inputs;
    d->aer = aer;
    rose = (uint8_t)(active_lines(d) & ~before & ~silent_lines(d));
    for (line = 0; rose; line++, rose >>= 1)
        if (rose & 1)
            raise_channel(d, line_channel[line]);
    input_edge(d, MFP_TAI, tai, a);
    input_edge(d, MFP_TBI, tbi, a);
}

static uint8_t with_bit(uint8_t byte, unsigned bit, uint32_t level)
{
    return (uint8_t)((byte & ~(1u << bit)) | level << bit);
}

static void acknowledge(struct device *d, int iei, struct answer *a)
{
    int channel = requesting(d);

    if (!iei) {
        a->class = MFP_HELD;
        return;
    }
    if (channel < 0) {
        a->class = MFP_PASSED_ON;
        return;
    }
    a->class = MFP_VECTOR;
    a->value = (uint8_t)((d->vr & 0xF0) | channel);
    d->ipr &= (uint16_t) ~(1u << channel);
    if (d->vr & VR_S)
        d->isr |= (uint16_t)(1u << channel);
}

static void reset(struct device *d)
{
    int t;

    d->gpdr = d->aer = d->ddr = d->vr = 0;
    d->ier = d->ipr = d->isr = d->imr = 0;
    for (t = 0; t < TIMERS; t++) {
        d->timer[t].mode = STOPPED;
        d->timer[t].position = 0;
        d->timer[t].output = 0;
    }
}

static uint8_t read_register(const struct device *d, unsigned rs)
{
    switch (rs) {
    case MFP_GPDR:
        return (uint8_t)((d->gpdr & d->ddr) | (d->levels & ~d->ddr));
    case MFP_AER:
        return d->aer;
    case MFP_DDR:
        return d->ddr;
    case MFP_IERA:
        return (uint8_t)(d->ier >> 8);
    case MFP_IERB:
        return (uint8_t)d->ier;
    case MFP_IPRA:
        return (uint8_t)(d->ipr >> 8);
    case MFP_IPRB:
        return (uint8_t)d->ipr;
    case MFP_ISRA:
        return (uint8_t)(d->isr >> 8);
    case MFP_ISRB:
        return (uint8_t)d->isr;
    case MFP_IMRA:
        return (uint8_t)(d->imr >> 8);
    case MFP_IMRB:
        return (uint8_t)d->imr;
    case MFP_VR:
        return d->vr;
    case MFP_TACR:
        return d->timer[TIMER_A].mode;
    case MFP_TBCR:
        return d->timer[TIMER_B].mode;
    case MFP_TCDCR:
        return tcdcr(d);
    default:
        return d->timer[rs - MFP_TADR].counter;
    }
}

static void set_mode(struct timer *t, uint8_t mode)
{
    if (mode != t->mode)
        t->position = 0;
    t->mode = mode;
}

static void write_tcr(struct timer *t, uint8_t v)
{
    set_mode(t, v & 15);
    if (v & TCR_RESET_OUTPUT)
        t->output = 0;
}

static void write_data(struct timer *t, uint8_t v)
{
    t->data = v;
    if (t->mode == STOPPED)
        t->counter = v;
}

static void write_register(struct device *d, unsigned rs, uint8_t v, struct answer *a)
{
    switch (rs) {
    case MFP_GPDR:
        d->gpdr = v;
        break;
    case MFP_AER:
        signals(d, d->levels, d->inputs, v, a);
        break;
    case MFP_DDR:
        d->ddr = v;
        break;
    case MFP_IERA:
        d->ier = (uint16_t)(v << 8 | (d->ier & 0x00FF));
        d->ipr &= d->ier;
        break;
    case MFP_IERB:
        d->ier = (uint16_t)((d->ier & 0xFF00) | v);
        d->ipr &= d->ier;
        break;
    case MFP_IPRA:
        d->ipr &= (uint16_t)(v << 8 | 0x00FF);
        break;
    case MFP_IPRB:
        d->ipr &= (uint16_t)(0xFF00 | v);
        break;
    case MFP_ISRA:
        d->isr &= (uint16_t)(v << 8 | 0x00FF);
        break;
    case MFP_ISRB:
        d->isr &= (uint16_t)(0xFF00 | v);
        break;
    case MFP_IMRA:
        d->imr = (uint16_t)(v << 8 | (d->imr & 0x00FF));
        break;
    case MFP_IMRB:
        d->imr = (uint16_t)((d->imr & 0xFF00) | v);
        break;
    case MFP_VR:
        d->vr = v & VR_STORED;
        if (!(v & VR_S))
            d->isr = 0;
        break;
    case MFP_TACR:
        write_tcr(&d->timer[TIMER_A], v);
        break;
    case MFP_TBCR:
        write_tcr(&d->timer[TIMER_B], v);
        break;
    case MFP_TCDCR:
        set_mode(&d->timer[TIMER_C], v >> 4 & 7);
        set_mode(&d->timer[TIMER_D], v & 7);
        break;
    default:
        write_data(&d->timer[rs - MFP_TADR], v);
        break;
    }
}

static void step(struct device *d, const uint8_t *record, struct answer *a)
{
    unsigned operand = record[MFP_RECORD_A];
    uint32_t n = get32(record + MFP_RECORD_N);

    switch (record[MFP_RECORD_KIND]) {
    case MFP_RESET:
        reset(d);
        break;
    case MFP_READ:
        a->class = MFP_DATA;
        a->value = read_register(d, operand);
        break;
    case MFP_WRITE:
        write_register(d, operand, (uint8_t)n, a);
        break;
    case MFP_LINE:
        signals(d, with_bit(d->levels, operand, n), d->inputs, d->aer, a);
        break;
    case MFP_INPUT:
        signals(d, d->levels, with_bit(d->inputs, operand, n), d->aer, a);
        break;
    case MFP_CLOCKS:
        clocks(d, n, a);
        break;
    case MFP_ACKNOWLEDGE:
        acknowledge(d, (int)operand, a);
        break;
    case MFP_RAISE:
        raise_channel(d, (uint16_t)(1u << operand));
        break;
    }
}

static void put_answer(const struct device *d, const struct answer *a, uint8_t *bytes)
{
    int t;

    bytes[0] = MFP_ANSWER_MARK_0;
    bytes[1] = MFP_ANSWER_MARK_1;
    bytes[MFP_ANSWER_CLASS] = a->class;
    bytes[MFP_ANSWER_VALUE] = a->value;
    bytes[MFP_ANSWER_IRQ] = requesting(d) >= 0;
    bytes[MFP_ANSWER_OUTPUTS] = outputs(d);
    for (t = 0; t < TIMERS; t++)
        put32(bytes + MFP_ANSWER_TIMEOUTS + 4 * t, a->timeouts[t]);
}

void plain_run(uint8_t *image, const uint8_t *tape, size_t records, uint8_t *answers)
{
    struct device d;
    size_t i;

    load(&d, image);
    for (i = 0; i < records; i++) {
        struct answer a = {MFP_DONE, 0, {0, 0, 0, 0}};

        step(&d, tape + MFP_RECORD_BYTES * i, &a);
        put_answer(&d, &a, answers + MFP_ANSWER_BYTES * i);
    }
    save(&d, image);
}
