/* The event inputs: the door's switch on EVLS, the drum's sensor on EVHS. Expected are V1 to V13 of docs/RULES.md: an event is 1, 4,
 * 16 or 32 rises of EVHS with 8,192 ticks at most after the first, or EVLS high for 1,024 or 16,384 ticks. */
#include "check.h"

#include <string.h>

/* A chip of this part whose oscillator is on, with this byte in 0Bh. */
static mcp795_chip watching(uint64_t part, uint8_t byte)
{
    const uint8_t start[] = {MCP795_WRITE, 0x01, 0x80}, events[] = {MCP795_WRITE, MCP795_EVENT_DETECT, byte};
    mcp795_chip chip;
    CHECK(mcp795_init(&chip, part), 0);
    send_frame(&chip, start, sizeof start);
    CHECK_COUNT(mcp795_wait(&chip, 32), 32);
    send_frame(&chip, events, sizeof events);
    return chip;
}

static void write_events(mcp795_chip *chip, uint8_t byte)
{
    const uint8_t events[] = {MCP795_WRITE, MCP795_EVENT_DETECT, byte};
    send_frame(chip, events, sizeof events);
}

/* The byte of 0Bh by a frame. */
static uint8_t read_events(mcp795_chip *chip)
{
    uint8_t byte;
    CHECK(mcp795_select(chip).refusal, 0);
    CHECK(mcp795_transfer(chip, MCP795_READ).refusal, 0);
    CHECK(mcp795_transfer(chip, MCP795_EVENT_DETECT).refusal, 0);
    byte = mcp795_transfer(chip, 0).reply;
    CHECK(mcp795_end(chip, 0).refusal, 0);
    return byte;
}

/* So many rises of EVHS, which is low before them and after; IRQ stays high. */
static void rises(mcp795_chip *chip, unsigned count)
{
    for (; count > 0; count--) {
        CHECK_DONE(mcp795_set_evhs(chip, 1));
        CHECK_DONE(mcp795_set_evhs(chip, 0));
    }
}

/* V8, V9, V11: the flag comes at the last tick of a level that stays, and each bounce starts anew. */
static void door(uint8_t setting, uint64_t ticks)
{
    const uint8_t byte = (uint8_t)(MCP795_EVEN0 | setting);
    mcp795_chip chip = watching(MCP795_PART_W2K, byte);
    check_in("0Bh, ticks", byte, ticks);
    CHECK_DONE(mcp795_set_evls(&chip, 1));
    CHECK(count_at(chip.state, MCP795_AT_DEBOUNCE), ticks);
    CHECK_COUNT(mcp795_wait(&chip, ticks - 1), ticks - 1);
    CHECK_DONE(mcp795_set_evls(&chip, 0));
    CHECK(count_at(chip.state, MCP795_AT_DEBOUNCE), 0);
    CHECK_COUNT(mcp795_wait(&chip, 50000), 50000);
    CHECK_DONE(mcp795_set_evls(&chip, 1));
    CHECK_COUNT(mcp795_wait(&chip, 100), 100);
    /* the level that is there is no edge */
    CHECK_DONE(mcp795_set_evls(&chip, 1));
    CHECK_COUNT(mcp795_wait(&chip, ticks - 101), ticks - 101);
    CHECK(read_events(&chip), byte);
    CHECK_ANSWER(mcp795_wait(&chip, 1000), 0, false, 0, 1, false, true);
    CHECK(read_events(&chip), byte | MCP795_EVLIF);
    CHECK(mcp795_event_flags(&chip), MCP795_EVLIF);
    /* with the flag set nothing starts, and a fall does not clear it */
    CHECK_ANSWER(mcp795_set_evls(&chip, 0), 0, false, 0, 0, false, true);
    CHECK_ANSWER(mcp795_set_evls(&chip, 1), 0, false, 0, 0, false, true);
    CHECK(count_at(chip.state, MCP795_AT_DEBOUNCE), 0);
    write_events(&chip, byte);
    CHECK_DONE(mcp795_levels(&chip));
    CHECK(mcp795_event_flags(&chip), 0);
    /* it stayed open: no rise, no event */
    CHECK_COUNT(mcp795_wait(&chip, 50000), 50000);
    check_in(NULL, 0, 0);
}

/* V4 to V6: the last of the rises flags in its act, up to the 8,192nd tick after the first. */
static void drum(uint8_t setting, unsigned number)
{
    const uint8_t byte = (uint8_t)(MCP795_EVEN1 | setting);
    mcp795_chip chip = watching(MCP795_PART_B1K, byte), late;
    check_in("0Bh, edges", byte, number);
    rises(&chip, number - 1);
    CHECK(chip.state[MCP795_AT_EDGES], number - 1);
    late = chip;
    CHECK_COUNT(mcp795_wait(&chip, 8192), 8192);
    CHECK(count_at(chip.state, MCP795_AT_SINCE), number == 1 ? 0 : 8192);
    CHECK_ANSWER(mcp795_set_evhs(&chip, 1), 0, false, 0, 0, false, true);
    CHECK(chip.state[MCP795_AT_EDGES], 0);
    CHECK(count_at(chip.state, MCP795_AT_SINCE), 0);
    CHECK(read_events(&chip), byte | MCP795_EVHIF);
    /* with the flag set nothing is counted */
    CHECK_ANSWER(mcp795_set_evhs(&chip, 0), 0, false, 0, 0, false, true);
    CHECK_ANSWER(mcp795_set_evhs(&chip, 1), 0, false, 0, 0, false, true);
    CHECK(chip.state[MCP795_AT_EDGES], 0);
    /* a tick later, the rise is a first one */
    CHECK_COUNT(mcp795_wait(&late, 8193), 8193);
    CHECK(late.state[MCP795_AT_EDGES], 0);
    CHECK(count_at(late.state, MCP795_AT_SINCE), 0);
    if (number > 1) {
        rises(&late, number - 1);
        CHECK(late.state[MCP795_AT_EDGES], number - 1);
    }
    CHECK_ANSWER(mcp795_set_evhs(&late, 1), 0, false, 0, 0, false, true);
    check_in(NULL, 0, 0);
}

/* V12: a byte written to 0Bh, the same one too, takes the counts. */
static void a_write_zeroes(void)
{
    const uint8_t byte = MCP795_EVEN1 | MCP795_EVEN0 | MCP795_EDGES_4;
    mcp795_chip chip = watching(MCP795_PART_W1K, byte);
    rises(&chip, 3);
    CHECK_DONE(mcp795_set_evls(&chip, 1));
    CHECK_COUNT(mcp795_wait(&chip, 1000), 1000);
    write_events(&chip, byte);
    CHECK(chip.state[MCP795_AT_EDGES], 0);
    CHECK(count_at(chip.state, MCP795_AT_SINCE), 0);
    CHECK(count_at(chip.state, MCP795_AT_DEBOUNCE), 0);
    CHECK(mcp795_evls(&chip), true);
    rises(&chip, 3);
    CHECK_COUNT(mcp795_wait(&chip, 50000), 50000);
}

/* V4, V8: without an enable, or without OSCON, an edge is none, then or later. */
static void not_seen(void)
{
    static const uint8_t stop[] = {MCP795_WRITE, 0x01, 0x00}, start[] = {MCP795_WRITE, 0x01, 0x80};
    mcp795_chip chip = watching(MCP795_PART_W2K, 0);
    rises(&chip, 1);
    CHECK_DONE(mcp795_set_evls(&chip, 1));
    write_events(&chip, MCP795_EVEN1 | MCP795_EVEN0);
    CHECK_COUNT(mcp795_wait(&chip, 50000), 50000);
    CHECK_DONE(mcp795_set_evls(&chip, 0));
    send_frame(&chip, stop, sizeof stop);
    CHECK_DONE(mcp795_set_evls(&chip, 1));
    rises(&chip, 1);
    send_frame(&chip, start, sizeof start);
    CHECK_COUNT(mcp795_wait(&chip, 50000), 50000);
    /* counts stand while the oscillator does */
    CHECK_DONE(mcp795_set_evls(&chip, 0));
    CHECK_DONE(mcp795_set_evls(&chip, 1));
    CHECK_COUNT(mcp795_wait(&chip, 1000), 1000);
    send_frame(&chip, stop, sizeof stop);
    CHECK_COUNT(mcp795_wait(&chip, 50000), 50000);
    send_frame(&chip, start, sizeof start);
    CHECK_ANSWER(mcp795_wait(&chip, 1000), 0, false, 0, 32 + 24, false, true);
}

/* V7: with EVWDT either edge of EVHS zeroes the watchdog's count, and none is an event. The period of 0Ah 81h is 512. */
static void for_the_watchdog(void)
{
    static const uint8_t watchdog[] = {MCP795_WRITE, 0x0A, 0x81};
    mcp795_chip chip = watching(MCP795_PART_B2K, MCP795_EVWDT | MCP795_EVEN1);
    int turn;
    send_frame(&chip, watchdog, sizeof watchdog);
    for (turn = 1; turn <= 6; turn++) {
        CHECK_COUNT(mcp795_wait(&chip, 511), 511);
        CHECK_DONE(mcp795_set_evhs(&chip, (unsigned)turn % 2));
        CHECK(count_at(chip.state, MCP795_AT_WATCHDOG), 0);
    }
    CHECK_COUNT(mcp795_wait(&chip, 511), 511);
    /* the level that is there is no edge */
    CHECK_DONE(mcp795_set_evhs(&chip, 0));
    CHECK_ANSWER(mcp795_wait(&chip, 511), 0, false, 0, 1, true, false);
    CHECK(mcp795_event_flags(&chip), 0);
}

/* V11: a flag holds IRQ low, enabled or not, whoever set it. */
static void flags_and_irq(void)
{
    static const uint8_t flags[] = {MCP795_EVHIF, MCP795_EVLIF, MCP795_EVHIF | MCP795_EVLIF};
    size_t at;
    for (at = 0; at < sizeof flags; at++) {
        mcp795_chip chip;
        check_in("0Bh", flags[at], 0);
        CHECK(mcp795_init(&chip, MCP795_PART_W2K), 0);
        write_events(&chip, 0x3F);
        CHECK_DONE(mcp795_levels(&chip));
        write_events(&chip, flags[at]);
        CHECK_ANSWER(mcp795_levels(&chip), 0, false, 0, 0, false, true);
        CHECK(mcp795_event_flags(&chip), flags[at]);
        CHECK_ANSWER(mcp795_end(&chip, 0), 2, false, 0, 0, false, true);
        write_events(&chip, 0);
        CHECK_DONE(mcp795_levels(&chip));
    }
    check_in(NULL, 0, 0);
}

/* V13: a cut leaves the levels. On the battery the door is still waited for; without it the counts are gone. */
static void without_power(void)
{
    static const uint8_t battery[] = {MCP795_WRITE, 0x04, 0x09};
    mcp795_chip chip = watching(MCP795_PART_W2K, MCP795_EVEN1 | MCP795_EVEN0 | MCP795_EDGES_4), lost;
    rises(&chip, 2);
    CHECK_DONE(mcp795_set_evhs(&chip, 1));
    CHECK_DONE(mcp795_set_evls(&chip, 1));
    CHECK_COUNT(mcp795_wait(&chip, 24), 24);
    lost = chip;
    CHECK_DONE(mcp795_cut(&lost, 0));
    CHECK(mcp795_evls(&lost), true);
    CHECK(mcp795_evhs(&lost), true);
    CHECK(lost.state[MCP795_AT_EDGES], 0);
    CHECK(count_at(lost.state, MCP795_AT_SINCE), 0);
    CHECK(count_at(lost.state, MCP795_AT_DEBOUNCE), 0);
    CHECK_DONE(mcp795_set_evls(&lost, 0));
    CHECK_DONE(mcp795_set_evls(&lost, 1));
    CHECK_COUNT(mcp795_wait(&lost, 50000), 50000);
    send_frame(&chip, battery, sizeof battery);
    CHECK_DONE(mcp795_cut(&chip, 0));
    CHECK(chip.state[MCP795_AT_EDGES], 3);
    CHECK(count_at(chip.state, MCP795_AT_SINCE), 24);
    CHECK_ANSWER(mcp795_wait(&chip, 50000), 0, false, 0, 1000, false, true);
    CHECK_ANSWER(mcp795_set_evhs(&chip, 0), 0, false, 0, 0, false, true);
    CHECK_ANSWER(mcp795_set_evhs(&chip, 1), 0, false, 0, 0, false, true);
    CHECK(mcp795_event_flags(&chip), MCP795_EVHIF | MCP795_EVLIF);
    CHECK(mcp795_powered(&chip), false);
}

/* What was reported. */
typedef struct journal {
    mcp795_change changes[8];
    size_t count;
    mcp795_chip *clears; /* writes 0Bh of this chip without its flags, as a handler would */
} journal;

static void note(const mcp795_change *change, void *context)
{
    journal *to = (journal *)context;
    if (to->count < sizeof to->changes / sizeof to->changes[0]) to->changes[to->count] = *change;
    to->count++;
    if (to->clears != NULL) write_events(to->clears, mcp795_peek(to->clears, MCP795_EVENT_DETECT) & 0x3F);
}

static void check_change(const mcp795_change *change, uint64_t ticks, unsigned changed, bool irq, uint8_t flags)
{
    CHECK(change->ticks, ticks);
    CHECK(change->changed, changed);
    CHECK(change->irq, irq);
    CHECK(change->wdo, true);
    CHECK(change->wip, false);
    CHECK(change->flags, flags);
}

/* mcp795_advance reports a flag with its line, a flag alone where IRQ is low already, that of its last tick too, and no other. */
static void reported(void)
{
    mcp795_chip chip = watching(MCP795_PART_W2K, MCP795_EVEN1 | MCP795_EVEN0), low, handled;
    journal seen;
    memset(&seen, 0, sizeof seen);
    CHECK_DONE(mcp795_set_evls(&chip, 1));
    low = handled = chip;
    CHECK_ANSWER(mcp795_advance(&chip, 50000, note, &seen), 0, false, 0, 50000, false, true);
    CHECK(seen.count, 1);
    check_change(&seen.changes[0], 1024, MCP795_CHANGED_IRQ | MCP795_CHANGED_EVENT, false, MCP795_EVLIF);
    CHECK_ANSWER(mcp795_set_evhs(&low, 1), 0, false, 0, 0, false, true);
    chip = low;
    CHECK_ANSWER(mcp795_wait(&low, 50000), 0, false, 0, 1024, false, true);
    memset(&seen, 0, sizeof seen);
    CHECK_ANSWER(mcp795_advance(&chip, 1024, note, &seen), 0, false, 0, 1024, false, true);
    CHECK(seen.count, 1);
    check_change(&seen.changes[0], 1024, MCP795_CHANGED_EVENT, false, MCP795_EVHIF | MCP795_EVLIF);
    CHECK_BYTES(&chip, &low, sizeof chip);
    memset(&seen, 0, sizeof seen);
    seen.clears = &handled;
    CHECK_COUNT(mcp795_advance(&handled, 50000, note, &seen), 50000);
    CHECK(seen.count, 1);
    CHECK(mcp795_event_flags(&handled), 0);
}

void test_events(void)
{
    door(0, 1024);
    door(MCP795_EVLDB, 16384);
    drum(MCP795_EDGES_1, 1);
    drum(MCP795_EDGES_4, 4);
    drum(MCP795_EDGES_16, 16);
    drum(MCP795_EDGES_32, 32);
    a_write_zeroes();
    not_seen();
    for_the_watchdog();
    flags_and_irq();
    without_power();
    reported();
}
