/*
 * page.c - the C of docs/HOST.md does what the page says. run-tests takes it
 * out of the page, in the order in which it stands there, as page.h.
 */
#include <stdio.h>

#include "page.h"

static int passed;
static int failed;

static void expect(const char *what, bool holds)
{
    if (holds) {
        passed++;
    } else {
        failed++;
        printf("FAIL %s\n", what);
    }
}

static void write_register(struct part *p, unsigned rs, unsigned value)
{
    uint8_t answer[MFP_ANSWER_BYTES];

    if (event(p, MFP_WRITE, rs, value, answer) != 0)
        expect("a write is accepted", false);
}

/* Line 5 falls, AER 0: whether that raises its channel. */
static bool fall_is_seen(struct part *p)
{
    uint8_t answer[MFP_ANSWER_BYTES];

    write_register(p, MFP_IERB, 1u << MFP_CHANNEL_LINE_5);
    write_register(p, MFP_IMRB, 1u << MFP_CHANNEL_LINE_5);
    return event(p, MFP_LINE, 5, 0, answer) == 0 && p->irq;
}

static void levels(void)
{
    struct part p;
    uint8_t answer[MFP_ANSWER_BYTES];

    expect("power on", power_on(&p) == 0 && !p.irq);
    expect("power on raises nothing", p.image[MFP_IMAGE_IPRA] == 0 && p.image[MFP_IMAGE_IPRB] == 0);
    expect("lines and inputs are high", p.image[MFP_IMAGE_LEVELS] == 255 && p.image[MFP_IMAGE_INPUTS] == 3);
    expect("the first fall is seen", fall_is_seen(&p));
    expect("the same level again", event(&p, MFP_LINE, 5, 0, answer) == 0 && p.irq);
    expect("power on", power_on(&p) == 0);
    memset(p.serial, 0x5A, sizeof p.serial);
    expect("reset leaves the levels", reset(&p) == 0 && p.image[MFP_IMAGE_LEVELS] == 255 && fall_is_seen(&p));
    expect("and of the serial bytes UDR's", p.serial[0] == 0 && p.serial[3] == 0 && p.serial[4] == 0x5A);
    memset(&p, 0, sizeof p);
    expect("fresh", mfp_fresh(p.image, sizeof p.image) == 0);
    expect("without power on it is lost", !fall_is_seen(&p));
}

/* Timer C every 24 clocks, enabled and unmasked. */
static void start_timer(struct part *p)
{
    if (power_on(p) != 0)
        expect("power on", false);
    write_register(p, MFP_VR, 0x48);
    write_register(p, MFP_IERB, 1u << MFP_CHANNEL_TIMER_C);
    write_register(p, MFP_IMRB, 1u << MFP_CHANNEL_TIMER_C);
    write_register(p, MFP_TCDR, 6);
    write_register(p, MFP_TCDCR, 0x10);
}

static void clocks(void)
{
    struct part p;
    uint32_t second = CPU_HZ;
    uint32_t slice = 1;

    expect("power on", power_on(&p) == 0);
    while (second != 0) {
        slice = slice % 977 + 13;
        slice = slice < second ? slice : second;
        pass(&p, slice);
        second -= slice;
    }
    expect("a second of slices is a second of clocks", p.owed == TIMER_HZ && p.rest == 0);
}

/* More clocks than a record takes are given in pieces, and none is lost. */
static void many_clocks(void)
{
    struct part p, q;
    uint8_t answer[MFP_ANSWER_BYTES];
    uint64_t cycles = 0;
    int i;

    start_timer(&p);
    q = p;
    for (i = 0; i < 5; i++) {
        pass(&p, 4294967295u);
        cycles += 4294967295u;
    }
    expect("no clock is lost", p.owed == cycles * TIMER_HZ / CPU_HZ && p.owed > 4294967295u);
    for (i = 0; i < 8; i++) {
        q.owed = p.owed / 8;
        expect("an eighth", look(&q, answer) == 0 && q.owed == 0);
    }
    q.owed = p.owed % 8;
    expect("all at once", look(&p, answer) == 0 && p.owed == 0 && p.irq);
    expect("and in eighths", look(&q, answer) == 0 && memcmp(p.image, q.image, sizeof p.image) == 0);
    expect("every timeout is counted", p.timeouts[MFP_TIMER_C] == cycles * TIMER_HZ / CPU_HZ / 24 && q.timeouts[MFP_TIMER_C] == p.timeouts[MFP_TIMER_C]);
    expect("and no other", p.timeouts[MFP_TIMER_A] == 0 && p.timeouts[MFP_TIMER_B] == 0 && p.timeouts[MFP_TIMER_D] == 0);
    write_register(&p, MFP_IPRB, 0);
    p.owed = 4294967295u + 2ull;
    expect("refused after a piece", event(&p, MFP_READ, MFP_UDR, 0, answer) == 256 + MFP_SERIAL_REGISTER);
    expect("the rest is still owed", p.owed == 2 && p.irq);
}

static void events(void)
{
    struct part p;
    uint8_t before[MFP_IMAGE_BYTES], answer[MFP_ANSWER_BYTES];
    uint8_t value = 0;
    int vector = 0;

    start_timer(&p);
    expect("no request yet", acknowledge(&p, &vector) == 0 && vector == -1);
    p.owed = 23;
    expect("the clocks come first", bus_read(&p, 2 * MFP_TCDR + 1, &value) == 0 && value == 1 && !p.irq);
    expect("and are given once", p.owed == 0 && bus_read(&p, 2 * MFP_TCDR + 1, &value) == 0 && value == 1);
    p.owed = 1;
    memcpy(before, p.image, sizeof before);
    expect("a serial register is refused", event(&p, MFP_READ, MFP_UDR, 0, answer) == 256 + MFP_SERIAL_REGISTER);
    expect("and nothing has happened", p.owed == 1 && memcmp(before, p.image, sizeof before) == 0);
    expect("above offset 47", bus_read(&p, 48, &value) == 256 + MFP_BAD_OPERAND);
    p.serial[MFP_UDR - MFP_SCR] = 0x5A;
    expect("the host answers UDR", bus_read(&p, 2 * MFP_UDR + 1, &value) == 0 && value == 0x5A);
    expect("the clock is still owed", p.owed == 1);
    expect("IEI not asserted: held", event(&p, MFP_ACKNOWLEDGE, 0, 0, answer) == 0 &&
                                         mfp_answer_class(answer) == MFP_HELD && p.irq);
    expect("the vector of timer C", acknowledge(&p, &vector) == 0 && vector == 0x45 && !p.irq);
    write_register(&p, MFP_ISRB, 0);
    p.owed = 24;
    expect("IRQ is that after the event", acknowledge(&p, &vector) == 0 && vector == 0x45 && !p.irq);
}

static void refusals(void)
{
    uint8_t image[MFP_IMAGE_BYTES], tape[MFP_RECORD_BYTES], answer[MFP_ANSWER_BYTES];

    expect("fresh", mfp_fresh(image, sizeof image) == 0);
    memset(tape, 0, sizeof tape);
    expect("5: not filled", mfp_call(image, tape, sizeof tape, answer, sizeof answer) == MFP_BAD_RECORD_MARK);
    mfp_put_record(tape, 8, 0, 0);
    expect("6: kind 8", mfp_call(image, tape, sizeof tape, answer, sizeof answer) == MFP_BAD_KIND);
    mfp_put_record(tape, MFP_LINE, 0, 2);
    expect("7: level 2", mfp_call(image, tape, sizeof tape, answer, sizeof answer) == MFP_BAD_OPERAND);
    mfp_put_input(tape, 2, true);
    expect("7: input 2", mfp_call(image, tape, sizeof tape, answer, sizeof answer) == MFP_BAD_OPERAND);
    mfp_put_record(tape, MFP_ACKNOWLEDGE, 2, 0);
    expect("7: IEI 2", mfp_call(image, tape, sizeof tape, answer, sizeof answer) == MFP_BAD_OPERAND);
    mfp_put_record(tape, MFP_RESET, 0, 1);
    expect("7: an unused operand", mfp_call(image, tape, sizeof tape, answer, sizeof answer) == MFP_BAD_OPERAND);
    expect("1: half a row", mfp_row_acknowledge(image, sizeof image - 1) == MFP_BAD_IMAGE_LENGTH);
    expect("10: no row", mfp_row_acknowledge(image, 0) == MFP_BAD_ROW_LENGTH);
}

static void looking(void)
{
    struct part p;
    uint8_t before[MFP_IMAGE_BYTES], answer[MFP_ANSWER_BYTES];

    start_timer(&p);
    p.owed = 24;
    write_register(&p, MFP_GPDR, 0);
    memcpy(before, p.image, sizeof before);
    expect("IRQ without an event", look(&p, answer) == 0 && mfp_answer_irq(answer));
    expect("the outputs", mfp_answer_outputs(answer) == p.image[MFP_IMAGE_OUTPUTS] &&
                              mfp_answer_outputs(answer) == 1u << MFP_TIMER_C);
    expect("a good image", check(p.image, sizeof p.image) == 0);
    expect("nothing has changed", memcmp(before, p.image, sizeof before) == 0);
    expect("a short image", check(p.image, 31) == MFP_BAD_IMAGE_LENGTH);
    p.image[MFP_IMAGE_MODE_A] = 16;
    expect("a broken image", check(p.image, sizeof p.image) == MFP_BAD_IMAGE);
    p.image[0] = 0;
    expect("no image", check(p.image, sizeof p.image) == MFP_BAD_IMAGE_MARK);
}

/* A damaged image is no answer: each function hands the code on, and the clocks are still owed. */
static void broken(void)
{
    struct part p;
    uint8_t answer[MFP_ANSWER_BYTES];
    uint8_t value = 0x5A;
    uint32_t n = 7;
    bool irq = true;
    int vector = 7;

    start_timer(&p);
    p.image[MFP_IMAGE_MODE_A] = 16;
    p.owed = 3;
    expect("an event", event(&p, MFP_CLOCKS, 0, 1, answer) == MFP_BAD_IMAGE);
    expect("a read", bus_read(&p, 2 * MFP_TCDR, &value) == MFP_BAD_IMAGE && value == 0x5A);
    expect("an acknowledge", acknowledge(&p, &vector) == MFP_BAD_IMAGE && vector == 7);
    expect("a reset", reset(&p) == MFP_BAD_IMAGE);
    expect("a look", look(&p, answer) == MFP_BAD_IMAGE);
    expect("a try", irq_after(&p, 24, &irq) == MFP_BAD_IMAGE && irq);
    expect("the clocks to IRQ", clocks_to_irq(&p, 24, &n) == MFP_BAD_IMAGE);
    expect("a wait", doze(&p, 24) == MFP_BAD_IMAGE);
    expect("nothing was given", p.owed == 3);
}

static void sleeping(void)
{
    struct part p;
    uint8_t before[MFP_IMAGE_BYTES], answer[MFP_ANSWER_BYTES];
    uint32_t most = 0;
    uint32_t n = 0;

    start_timer(&p);
    p.owed = 5;
    expect("5 clocks", look(&p, answer) == 0 && p.owed == 0);
    memcpy(before, p.image, sizeof before);
    while (most < 64 && clocks_to_irq(&p, most, &n) == 0 && n == (most < 19 ? 0u : 19u))
        most++;
    expect("19 are left", most == 64);
    expect("19 of the longest span", clocks_to_irq(&p, 4294967295u, &n) == 0 && n == 19);
    expect("trying changes nothing", memcmp(before, p.image, sizeof before) == 0);
    p.owed = 18;
    expect("asleep", look(&p, answer) == 0 && !p.irq);
    p.owed = 1;
    expect("awake", look(&p, answer) == 0 && p.irq);
    write_register(&p, MFP_TCDCR, 0);
    write_register(&p, MFP_IPRB, 0);
    expect("for ever", clocks_to_irq(&p, 4294967295u, &n) == 0 && n == 0);
}

/* A wait gives what is owed first, and ends at the clock at which IRQ is asserted. */
static void dozing(void)
{
    struct part p, q;
    uint8_t answer[MFP_ANSWER_BYTES];

    start_timer(&p);
    q = p;
    p.owed = 17;
    expect("too short", doze(&p, 6) == 0 && !p.irq && p.owed == 0);
    expect("the last clock", doze(&p, 1000) == 0 && p.irq && p.owed == 0);
    q.owed = 24;
    expect("24 clocks in all", look(&q, answer) == 0 && memcmp(p.image, q.image, sizeof p.image) == 0);
    expect("awake already", doze(&p, 1000) == 0 && memcmp(p.image, q.image, sizeof p.image) == 0);
    start_timer(&p);
    p.owed = 24;
    expect("awake by what was owed", doze(&p, 1000) == 0 && memcmp(p.image, q.image, sizeof p.image) == 0);
    start_timer(&p);
    p.owed = 17;
    expect("what was owed counts", doze(&p, 1000) == 0 && memcmp(p.image, q.image, sizeof p.image) == 0);
}

/* Two parts of the page, vectors 40 to 4F and 50 to 5F. */
static void start_chain(struct part *parts)
{
    start_timer(&parts[0]);
    start_timer(&parts[1]);
    write_register(&parts[1], MFP_VR, 0x58);
}

/* A cycle in which this part gives this vector; PARTS and -1 for a spurious one. */
static bool gives(struct part *parts, size_t part, int wanted)
{
    size_t giver = 77;
    int vector = 77;

    return chain_acknowledge(parts, &vector, &giver) == 0 && giver == part && vector == wanted;
}

/* The images are those of before. */
static bool stays(const struct part *parts, const struct part *before, size_t n)
{
    size_t i = 0;

    while (i < n && memcmp(parts[i].image, before[i].image, sizeof parts[i].image) == 0)
        i++;
    return i == n;
}

static void chained(void)
{
    struct part parts[PARTS], before[PARTS];
    uint8_t answer[MFP_ANSWER_BYTES];

    start_chain(parts);
    memcpy(before, parts, sizeof before);
    expect("no part requests", chain_look(parts) == 0 && !chain_irq(parts));
    expect("spurious", gives(parts, PARTS, -1) && stays(parts, before, PARTS));
    parts[1].owed = 24;
    expect("what is owed comes first", !chain_irq(parts) && chain_look(parts) == 0 && parts[1].owed == 0);
    expect("either part's IRQ is the level's", chain_irq(parts) && !parts[0].irq);
    memcpy(before, parts, sizeof before);
    expect("the first passes on", gives(parts, 1, 0x55) && !chain_irq(parts));
    expect("and stays", stays(parts, before, 1));
    expect("the giver is in service", parts[1].image[MFP_IMAGE_ISRB] == 0x20 && parts[1].image[MFP_IMAGE_IPRB] == 0);
    expect("end of service", end_of_service(&parts[1], 0x55, answer) == 0 && parts[1].image[MFP_IMAGE_ISRB] == 0);
    parts[0].owed = parts[1].owed = 24;
    expect("of two the first gives", gives(parts, 0, 0x45) && parts[1].owed == 0);
    expect("the other is held, and still asks", chain_irq(parts) && parts[1].irq && !parts[0].irq);
    expect("no service holds it back", parts[0].image[MFP_IMAGE_ISRB] == 0x20 && gives(parts, 1, 0x55));
    parts[0].owed = 24;
    expect("but its own channels", chain_look(parts) == 0 && !chain_irq(parts) && gives(parts, PARTS, -1));
    expect("until the end", end_of_service(&parts[0], 0x45, answer) == 0 && chain_irq(parts));
    expect("the other's bit stays", parts[1].image[MFP_IMAGE_ISRB] == 0x20 && gives(parts, 0, 0x45));
}

static void withdrawn(void)
{
    struct part parts[PARTS], before[PARTS];
    uint8_t answer[MFP_ANSWER_BYTES];

    start_chain(parts);
    parts[0].owed = 24;
    expect("a request", chain_look(parts) == 0 && chain_irq(parts));
    write_register(&parts[0], MFP_IMRB, 0);
    memcpy(before, parts, sizeof before);
    expect("masked before the cycle", !chain_irq(parts) && gives(parts, PARTS, -1));
    expect("it is still pending", stays(parts, before, PARTS) && parts[0].image[MFP_IMAGE_IPRB] == 0x20);
    write_register(&parts[0], MFP_IERA, 1u << (MFP_CHANNEL_RECEIVE_FULL - 8));
    write_register(&parts[0], MFP_IMRA, 1u << (MFP_CHANNEL_RECEIVE_FULL - 8));
    expect("a channel of ISRA", event(&parts[0], MFP_RAISE, MFP_CHANNEL_RECEIVE_FULL, 0, answer) == 0 && gives(parts, 0, 0x4C));
    expect("its end", parts[0].image[MFP_IMAGE_ISRA] == 0x10 && end_of_service(&parts[0], 0x4C, answer) == 0 &&
                          parts[0].image[MFP_IMAGE_ISRA] == 0);
}

/* Which part is broken, and no vector of any. */
static void broken_chain(void)
{
    struct part parts[PARTS], before[PARTS];
    size_t giver = 7;
    int vector = 7;

    start_chain(parts);
    parts[0].owed = 24;
    expect("a request", chain_look(parts) == 0 && parts[0].irq);
    parts[1].image[MFP_IMAGE_MODE_A] = 16;
    memcpy(before, parts, sizeof before);
    expect("the second part", chain_look(parts) == 256 + MFP_BAD_IMAGE);
    expect("refused", chain_acknowledge(parts, &vector, &giver) == 256 + MFP_BAD_IMAGE);
    expect("nothing was given", vector == 7 && giver == 7 && stays(parts, before, PARTS));
    parts[0].image[0] = 0;
    expect("the first part", chain_acknowledge(parts, &vector, &giver) == MFP_BAD_IMAGE_MARK);
}

int main(void)
{
    levels();
    clocks();
    many_clocks();
    events();
    refusals();
    looking();
    broken();
    sleeping();
    dozing();
    chained();
    withdrawn();
    broken_chain();
    printf("%d passed, %d failed\n", passed, failed);
    return failed != 0;
}
