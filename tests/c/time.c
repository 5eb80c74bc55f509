/* Time: mcp795_advance over a write cycle, an alarm and the watchdog, and bytes that take time. The ticks are worked out from
 * F28, K3, K6, K19 and K23 to K26 of docs/RULES.md: 32 ticks until the oscillator is on, and only those after them are counted;
 * the first hundredth is the 328th counted tick, and a second has 32,768. */
#include "check.h"

#include <string.h>

#define SECOND MCP795_TICKS_PER_SECOND

/* What was reported, and what the report is to do. */
typedef struct journal {
    mcp795_change changes[16];
    size_t count;
    mcp795_chip *clears; /* clears the flag of alarm 0 of this chip */
    mcp795_chip *spoils; /* makes this no chip */
} journal;

static void note(const mcp795_change *change, void *context)
{
    static const uint8_t clear[] = {MCP795_WRITE, 0x0F, 0x00};
    journal *to = (journal *)context;
    if (to->count < sizeof to->changes / sizeof to->changes[0]) to->changes[to->count] = *change;
    to->count++;
    if (to->clears != NULL) send_frame(to->clears, clear, sizeof clear);
    if (to->spoils != NULL) to->spoils->state[MCP795_AT_PART] = 0;
}

#define CHECK_CHANGE(journal, at, ticks, changed, irq, wdo, wip) \
    check_change(__LINE__, &(journal)->changes[at], ticks, changed, irq, wdo, wip)

static void check_change(int line, const mcp795_change *change, uint64_t ticks, unsigned changed, bool irq, bool wdo, bool wip)
{
    check_equal(__FILE__, line, "ticks", change->ticks, ticks);
    check_equal(__FILE__, line, "changed", change->changed, changed);
    check_equal(__FILE__, line, "irq", change->irq, irq);
    check_equal(__FILE__, line, "wdo", change->wdo, wdo);
    check_equal(__FILE__, line, "wip", change->wip, wip);
}

/* A clock at 58.`hundredths` seconds that is to run, with alarm 0 on IRQ at 59 seconds, and this byte in 0Ah. */
static mcp795_chip alarm_chip(uint8_t hundredths, uint8_t watchdog)
{
    const uint8_t time[] = {MCP795_WRITE, 0x00, hundredths, 0xD8}, control[] = {MCP795_WRITE, 0x08, 0x10, 0x00, watchdog},
                  seconds[] = {MCP795_WRITE, 0x0C, 0x59};
    mcp795_chip chip;
    CHECK(mcp795_init(&chip, MCP795_PART_W2K), 0);
    send_frame(&chip, time, sizeof time);
    send_frame(&chip, control, sizeof control);
    send_frame(&chip, seconds, sizeof seconds);
    return chip;
}

/* The cycle ends at tick 164. The alarm comes with the first hundredth, at 32 + 328 = 360. The watchdog of 512 times out at
 * 32 + 512 = 544, for 4 ticks. */
static void every_line(void)
{
    mcp795_chip chip = alarm_chip(0x99, 0x81), shorter;
    journal seen;
    memset(&seen, 0, sizeof seen);
    begin_write(&chip);
    shorter = chip;
    CHECK_ANSWER(mcp795_advance(&chip, 548, note, &seen), 0, false, 0, 548, false, true);
    CHECK(seen.count, 4);
    CHECK_CHANGE(&seen, 0, 164, MCP795_CHANGED_WIP, true, true, false);
    CHECK_CHANGE(&seen, 1, 360, MCP795_CHANGED_IRQ, false, true, false);
    CHECK_CHANGE(&seen, 2, 544, MCP795_CHANGED_WDO, false, false, false);
    CHECK_CHANGE(&seen, 3, 548, MCP795_CHANGED_WDO, false, true, false);
    CHECK_ANSWER(mcp795_advance(&chip, 1000, note, &seen), 0, false, 0, 1000, false, true);
    CHECK(seen.count, 4);
    /* a tick less, and then that tick */
    seen.count = 0;
    CHECK_ANSWER(mcp795_advance(&shorter, 547, note, &seen), 0, false, 0, 547, false, false);
    CHECK(seen.count, 3);
    CHECK_ANSWER(mcp795_advance(&shorter, 1, note, &seen), 0, false, 0, 1, false, true);
    CHECK(seen.count, 4);
    CHECK_CHANGE(&seen, 3, 1, MCP795_CHANGED_WDO, false, true, false);
    CHECK_ANSWER(mcp795_advance(&shorter, 1000, NULL, NULL), 0, false, 0, 1000, false, true);
    CHECK_BYTES(&shorter, &chip, sizeof chip);
    CHECK_ANSWER(mcp795_advance(&chip, 0, note, &seen), 0, false, 0, 0, false, true);
    CHECK(seen.count, 4);
}

/* A write that begins after 196 ticks ends with the alarm. */
static void two_at_once(void)
{
    mcp795_chip chip = alarm_chip(0x99, 0);
    journal seen;
    memset(&seen, 0, sizeof seen);
    CHECK_COUNT(mcp795_advance(&chip, 196, note, &seen), 196);
    begin_write(&chip);
    CHECK_ANSWER(mcp795_advance(&chip, 164, note, &seen), 0, false, 0, 164, false, true);
    CHECK(seen.count, 1);
    CHECK_CHANGE(&seen, 0, 164, MCP795_CHANGED_IRQ | MCP795_CHANGED_WIP, false, true, false);
}

/* The report clears the flag, as an interrupt handler would: the alarm comes again a minute later. What the handler itself changed
 * is not reported. */
static void handler(void)
{
    mcp795_chip chip = alarm_chip(0, 0);
    journal seen;
    memset(&seen, 0, sizeof seen);
    seen.clears = &chip;
    CHECK_COUNT(mcp795_advance(&chip, 32 + 61 * SECOND, note, &seen), 32 + 61 * SECOND);
    CHECK(seen.count, 2);
    CHECK_CHANGE(&seen, 0, 32 + SECOND, MCP795_CHANGED_IRQ, false, true, false);
    CHECK_CHANGE(&seen, 1, 32 + 61 * SECOND, MCP795_CHANGED_IRQ, false, true, false);
}

/* Longer than a wait may be: twenty minutes and the start of the oscillator. Then a cut with no battery: ticks pass, nothing moves. */
static void long_time(void)
{
    static const uint8_t start[] = {MCP795_WRITE, 0x01, 0x80};
    mcp795_chip chip;
    journal seen;
    memset(&seen, 0, sizeof seen);
    CHECK(mcp795_init(&chip, MCP795_PART_W1K), 0);
    send_frame(&chip, start, sizeof start);
    CHECK_COUNT(mcp795_advance(&chip, 32 + 1200 * SECOND, note, &seen), 32 + 1200 * SECOND);
    CHECK(seen.count, 0);
    CHECK(mcp795_peek(&chip, 0x00), 0);
    CHECK(mcp795_peek(&chip, 0x01), 0x80);
    CHECK(mcp795_peek(&chip, 0x02), 0x20);
    CHECK(count_at(chip.state, MCP795_AT_DIVIDER), 0);
    CHECK_DONE(mcp795_cut(&chip, 0));
    CHECK_COUNT(mcp795_advance(&chip, 5000, note, &seen), 5000);
    CHECK(seen.count, 0);
}

/* What is no chip is refused, before the first tick or where the report made it so. */
static void refused(void)
{
    mcp795_chip chip = alarm_chip(0, 0), before;
    journal seen;
    memset(&seen, 0, sizeof seen);
    begin_write(&chip);
    seen.spoils = &chip;
    CHECK_ANSWER(mcp795_advance(&chip, 1000, note, &seen), 3, false, 0, 164, true, true);
    CHECK(seen.count, 1);
    before = chip;
    CHECK_ANSWER(mcp795_advance(&chip, 1000, note, &seen), 3, false, 0, 0, true, true);
    CHECK_ANSWER(mcp795_advance(&chip, 0, note, &seen), 3, false, 0, 0, true, true);
    CHECK(seen.count, 1);
    CHECK_BYTES(&chip, &before, sizeof chip);
}

/* How many times a driver reads STATUS until WIP is clear, or 1000. */
static unsigned polls(uint32_t hz)
{
    mcp795_bus bus = {0, 0, NULL, NULL};
    mcp795_chip chip;
    unsigned reads = 0;
    mcp795_answer status;
    bus.hz = hz;
    CHECK(mcp795_init(&chip, MCP795_PART_W2K), 0);
    begin_write(&chip);
    do {
        CHECK_DONE(mcp795_select(&chip));
        CHECK_DONE(mcp795_transfer_at(&chip, &bus, MCP795_SRREAD));
        status = mcp795_transfer_at(&chip, &bus, 0);
        CHECK(status.driven, true);
        CHECK_DONE(mcp795_end(&chip, 0));
        reads++;
    } while ((status.reply & MCP795_STATUS_WIP) != 0 && reads < 1000);
    return reads;
}

/* Read k comes after the time of 2 k - 1 bytes. At 1 MHz 164 ticks take 164 * 1000000 / 262144 = 625.6 bytes, so it is read 314;
 * at 262,144 Hz a byte is a tick, at 1 Hz it is longer than the cycle. */
static void polling_ends(void)
{
    CHECK(polls(1000000), 314);
    CHECK(polls(262144), 83);
    CHECK(polls(1), 1);
}

/* The divider counts the ticks once the oscillator is on. */
static mcp795_chip counting_chip(void)
{
    static const uint8_t start[] = {MCP795_WRITE, 0x01, 0x80};
    mcp795_chip chip;
    CHECK(mcp795_init(&chip, MCP795_PART_B2K), 0);
    send_frame(&chip, start, sizeof start);
    CHECK_COUNT(mcp795_wait(&chip, 32), 32);
    CHECK_DONE(mcp795_select(&chip));
    return chip;
}

/* At 3 Hz three bytes are 262,144 ticks; at 10 MHz a thousand are 26.2144. */
static void no_time_is_lost(void)
{
    mcp795_bus slow = {3, 0, NULL, NULL}, fast = {10000000, 0, NULL, NULL};
    mcp795_chip chip = counting_chip();
    int bytes;
    CHECK_DONE(mcp795_transfer_at(&chip, &slow, 0));
    CHECK(count_at(chip.state, MCP795_AT_DIVIDER), 87381 % 32768);
    CHECK_DONE(mcp795_transfer_at(&chip, &slow, 0));
    CHECK(count_at(chip.state, MCP795_AT_DIVIDER), 174762 % 32768);
    CHECK(slow.rest, 2);
    CHECK_DONE(mcp795_transfer_at(&chip, &slow, 0));
    CHECK(count_at(chip.state, MCP795_AT_DIVIDER), 0);
    CHECK(slow.rest, 0);
    for (bytes = 0; bytes < 1000; bytes++) CHECK(mcp795_transfer_at(&chip, &fast, 0).refusal, 0);
    CHECK(count_at(chip.state, MCP795_AT_DIVIDER), 26);
    CHECK(fast.rest, 2144000);
}

/* At 1 kHz a byte is 262.144 ticks: the cycle ends in the first. A byte that is refused takes no time. */
static void bus(void)
{
    mcp795_bus bus = {1000, 0, note, NULL}, stopped = {0, 0, NULL, NULL};
    mcp795_chip chip, before;
    journal seen;
    memset(&seen, 0, sizeof seen);
    bus.context = &seen;
    CHECK(mcp795_init(&chip, MCP795_PART_W2K), 0);
    begin_write(&chip);
    before = chip;
    CHECK_ANSWER(mcp795_transfer_at(&chip, &bus, 0), 2, false, 0, 0, true, true);
    CHECK(bus.rest, 0);
    CHECK_BYTES(&chip, &before, sizeof chip);
    CHECK_DONE(mcp795_select(&chip));
    before = chip;
    CHECK_ANSWER(mcp795_transfer_at(&chip, &stopped, 0), 3, false, 0, 0, true, true);
    CHECK_BYTES(&chip, &before, sizeof chip);
    CHECK_DONE(mcp795_transfer_at(&chip, &bus, MCP795_SRREAD));
    CHECK(seen.count, 1);
    CHECK_CHANGE(&seen, 0, 164, MCP795_CHANGED_WIP, true, true, false);
    CHECK_REPLY(mcp795_transfer_at(&chip, &bus, 0), 0);
    CHECK(seen.count, 1);
    chip.state[MCP795_AT_PART] = 0;
    CHECK_ANSWER(mcp795_transfer_at(&chip, &stopped, 0), 3, false, 0, 0, true, true);
}

/* The same chip as in every_line, but with the long pulse: after 262 ticks nothing has moved, after 524 IRQ has, after 786 WDO. */
static void lines_after_a_byte(void)
{
    mcp795_bus bus = {1000, 0, NULL, NULL};
    mcp795_chip chip = alarm_chip(0x99, 0x91);
    CHECK_DONE(mcp795_select(&chip));
    CHECK_ANSWER(mcp795_transfer_at(&chip, &bus, MCP795_SRREAD), 0, false, 0, 0, true, true);
    CHECK_ANSWER(mcp795_transfer_at(&chip, &bus, 0), 0, true, 0, 0, false, true);
    CHECK_ANSWER(mcp795_transfer_at(&chip, &bus, 0), 0, true, 0, 0, false, false);
}

void test_time(void)
{
    every_line();
    two_at_once();
    handler();
    long_time();
    refused();
    polling_ends();
    no_time_is_lost();
    bus();
    lines_after_a_byte();
}
