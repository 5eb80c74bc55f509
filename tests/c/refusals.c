/* Every refusal, by the table in the README: what it answers, that nothing changed, and which comes first. */
#include "check.h"

#include <string.h>

#define MOST UINT64_MAX

/* A chip on the bare functions, with room around each array that no call may touch. */
typedef struct fenced {
    uint8_t fence0[16];
    uint8_t state[MCP795_STATE + 10]; /* 10: then the struct has no gaps */
    uint8_t eeprom[256 + 16];
    uint8_t id[MCP795_ID_SIZE + 16];
    uint64_t answer[MCP795_ANSWER];
    uint64_t fence1[2];
} fenced;

static fenced new_chip(uint64_t part)
{
    fenced chip;
    memset(&chip, 0xA5, sizeof chip);
    CHECK(mcp795_new(part, chip.state, MCP795_STATE, chip.eeprom, mcp795_eeprom_size(part), chip.id, MCP795_ID_SIZE), 0);
    return chip;
}

/* An act, with memories of these sizes, is refused by `by`: all of the chip stays, and the fences do. The second is for a state of
 * another size. */
#define REFUSED(chip, eeprom, id, act, number, by, irq) refused(__LINE__, chip, MCP795_STATE, eeprom, id, act, number, by, irq)
#define REFUSED_STATE(chip, state, eeprom, id, act, number, by) refused(__LINE__, chip, state, eeprom, id, act, number, by, 1)

static void refused(int line, fenced *chip, size_t state, size_t eeprom, size_t id, uint64_t act, uint64_t number, uint64_t by,
                    uint64_t irq)
{
    const uint64_t expected[MCP795_ANSWER] = {by, 0, 0, 0, irq, 1};
    fenced before;
    uint64_t found;
    size_t at;
    memset(chip->answer, 0xA5, sizeof chip->answer);
    before = *chip;
    found = mcp795_act(chip->state, state, chip->eeprom, eeprom, chip->id, id, act, number, chip->answer);
    check_equal(__FILE__, line, "mcp795_act", found, by);
    for (at = 0; at < MCP795_ANSWER; at++) check_equal(__FILE__, line, "a number of the answer", chip->answer[at], expected[at]);
    memcpy(chip->answer, before.answer, sizeof chip->answer);
    check_bytes(__FILE__, line, "the chip", chip, &before, sizeof before);
}

#define DONE(chip, act, number) done(__LINE__, chip, act, number)

static void done(int line, fenced *chip, uint64_t act, uint64_t number)
{
    fenced before = *chip, after;
    size_t size = mcp795_eeprom_size(chip->state[MCP795_AT_PART]);
    check_equal(__FILE__, line, "mcp795_act",
                mcp795_act(chip->state, MCP795_STATE, chip->eeprom, size, chip->id, MCP795_ID_SIZE, act, number, chip->answer), 0);
    after = *chip;
    memcpy(after.state, before.state, MCP795_STATE);
    memcpy(after.eeprom, before.eeprom, size);
    memcpy(after.id, before.id, MCP795_ID_SIZE);
    memcpy(after.answer, before.answer, sizeof after.answer);
    check_bytes(__FILE__, line, "the fences", &after, &before, sizeof before);
}

static void by_act(void)
{
    static const uint64_t none[] = {8, 9, 255, 256, 257, 262, 65536, UINT64_C(1) << 32, (UINT64_C(1) << 32) + 3,
                                    (UINT64_C(1) << 32) + 6, UINT64_C(1) << 63, MOST};
    fenced chip = new_chip(MCP795_PART_W2K);
    size_t at;
    uint64_t act;
    /* 2 */
    REFUSED(&chip, 256, 16, MCP795_ACT_BYTE, 0, 2, 1);
    REFUSED(&chip, 256, 16, MCP795_ACT_BYTE, 255, 2, 1);
    REFUSED(&chip, 256, 16, MCP795_ACT_END, 0, 2, 1);
    REFUSED(&chip, 256, 16, MCP795_ACT_END, 7, 2, 1);
    /* 5, and before it 3 */
    REFUSED(&chip, 256, 16, MCP795_ACT_UP, 0, 5, 1);
    REFUSED(&chip, 256, 16, MCP795_ACT_UP, 1, 3, 1);
    /* 3 before 2 */
    REFUSED(&chip, 256, 16, MCP795_ACT_BYTE, 256, 3, 1);
    REFUSED(&chip, 256, 16, MCP795_ACT_END, 8, 3, 1);
    /* 3 for an argument, and for what is no act, whatever its number */
    REFUSED(&chip, 256, 16, MCP795_ACT_SELECT, 1, 3, 1);
    REFUSED(&chip, 256, 16, MCP795_ACT_SELECT, MOST, 3, 1);
    REFUSED(&chip, 256, 16, MCP795_ACT_WAIT, MCP795_WAIT_MAX + 1, 3, 1);
    REFUSED(&chip, 256, 16, MCP795_ACT_WAIT, UINT64_C(1) << 32, 3, 1);
    REFUSED(&chip, 256, 16, MCP795_ACT_WAIT, MOST, 3, 1);
    REFUSED(&chip, 256, 16, MCP795_ACT_CUT, 256, 3, 1);
    REFUSED(&chip, 256, 16, MCP795_ACT_CUT, MOST, 3, 1);
    for (at = 0; at < sizeof none / sizeof none[0]; at++) {
        check_in("act", none[at], 0);
        REFUSED(&chip, 256, 16, none[at], 0, 3, 1);
        REFUSED(&chip, 256, 16, none[at], 1, 3, 1);
        REFUSED(&chip, 256, 16, none[at], MOST, 3, 1);
    }
    for (act = MCP795_ACT_EVHS + 1; act < 300; act++) {
        check_in("act", act, 0);
        REFUSED(&chip, 256, 16, act, 0, 3, 1);
    }
    check_in(NULL, 0, 0);
    /* 1, and before it 3 */
    DONE(&chip, MCP795_ACT_SELECT, 0);
    REFUSED(&chip, 256, 16, MCP795_ACT_SELECT, 0, 1, 1);
    REFUSED(&chip, 256, 16, MCP795_ACT_SELECT, 1, 3, 1);
    REFUSED(&chip, 256, 16, MCP795_ACT_BYTE, 256, 3, 1);
    REFUSED(&chip, 256, 16, MCP795_ACT_BYTE, (UINT64_C(1) << 32) + 6, 3, 1);
    REFUSED(&chip, 256, 16, MCP795_ACT_BYTE, MOST, 3, 1);
    REFUSED(&chip, 256, 16, MCP795_ACT_END, 8, 3, 1);
    REFUSED(&chip, 256, 16, MCP795_ACT_END, MOST, 3, 1);
    REFUSED(&chip, 256, 16, MCP795_ACT_UP, 0, 5, 1);
    DONE(&chip, MCP795_ACT_BYTE, MCP795_EEWREN);
    DONE(&chip, MCP795_ACT_END, 0);
    CHECK(chip.state[MCP795_AT_WEL], 1);
    /* 5 before 2, and before it 3 */
    DONE(&chip, MCP795_ACT_CUT, 255);
    REFUSED(&chip, 256, 16, MCP795_ACT_SELECT, 0, 5, 1);
    REFUSED(&chip, 256, 16, MCP795_ACT_BYTE, 0, 5, 1);
    REFUSED(&chip, 256, 16, MCP795_ACT_END, 0, 5, 1);
    REFUSED(&chip, 256, 16, MCP795_ACT_CUT, 0, 5, 1);
    REFUSED(&chip, 256, 16, MCP795_ACT_SELECT, 1, 3, 1);
    REFUSED(&chip, 256, 16, MCP795_ACT_BYTE, 256, 3, 1);
    REFUSED(&chip, 256, 16, MCP795_ACT_END, 8, 3, 1);
    REFUSED(&chip, 256, 16, MCP795_ACT_CUT, 256, 3, 1);
    REFUSED(&chip, 256, 16, MCP795_ACT_UP, 1, 3, 1);
    REFUSED(&chip, 256, 16, 8, 0, 3, 1);
    DONE(&chip, MCP795_ACT_WAIT, 5);
    DONE(&chip, MCP795_ACT_UP, 0);
    DONE(&chip, MCP795_ACT_WAIT, MCP795_WAIT_MAX);
    CHECK(chip.answer[3], MCP795_WAIT_MAX);
}

/* V1: a pin takes 0 and 1 and nothing else, with a frame open, without one, and without power; it is never refused by 1, 2 or 5. */
static void by_pin(void)
{
    static const uint64_t pins[] = {MCP795_ACT_EVLS, MCP795_ACT_EVHS};
    static const uint64_t wrong[] = {2, 3, 7, 8, 255, 256, 257, 65536, UINT64_C(1) << 32, (UINT64_C(1) << 32) + 1,
                                     UINT64_C(1) << 63, MOST};
    static const size_t places[] = {MCP795_AT_EVLS, MCP795_AT_EVHS};
    size_t pin, at;
    int stage;
    for (pin = 0; pin < 2; pin++) {
        fenced chip = new_chip(MCP795_PART_B2K);
        for (stage = 0; stage < 3; stage++) {
            check_in("pin, stage", pins[pin], (uint64_t)stage);
            for (at = 0; at < sizeof wrong / sizeof wrong[0]; at++) REFUSED(&chip, 256, 16, pins[pin], wrong[at], 3, 1);
            DONE(&chip, pins[pin], 1);
            CHECK(chip.state[places[pin]], 1);
            for (at = 0; at < sizeof wrong / sizeof wrong[0]; at++) REFUSED(&chip, 256, 16, pins[pin], wrong[at], 3, 1);
            DONE(&chip, pins[pin], 1);
            DONE(&chip, pins[pin], 0);
            CHECK(chip.state[places[pin]], 0);
            for (at = 1; at <= 3; at++) CHECK(chip.answer[at], 0);
            if (stage == 0) DONE(&chip, MCP795_ACT_SELECT, 0);
            if (stage == 1) DONE(&chip, MCP795_ACT_CUT, 0);
        }
        /* 4 and 6 come before it */
        REFUSED(&chip, 128, 16, pins[pin], 1, 4, 1);
        chip.state[places[pin]] = 2;
        REFUSED(&chip, 256, 16, pins[pin], 0, 6, 1);
    }
    check_in(NULL, 0, 0);
}

/* Rows that judge no act come first: 3 for the part, 4, 6. */
static void by_setup(void)
{
    static const size_t sizes[][2] = {{128, 16}, {0, 16}, {255, 16}, {257, 16}, {256, 0}, {256, 15}, {256, 17}, {0, 0}, {272, 32}};
    fenced chip = new_chip(MCP795_PART_W2K), spoiled;
    size_t at;
    int part;
    for (part = 0; part <= 255; part++) {
        if (part >= 1 && part <= 4) continue;
        check_in("part", (uint64_t)part, 0);
        spoiled = chip;
        spoiled.state[MCP795_AT_PART] = (uint8_t)part;
        REFUSED(&spoiled, 256, 16, MCP795_ACT_WAIT, 0, 3, 1);
        REFUSED(&spoiled, 0, 0, MCP795_ACT_WAIT, 0, 3, 1);
        set_count(spoiled.state, MCP795_AT_DIVIDER, MOST);
        REFUSED(&spoiled, 128, 15, MCP795_ACT_BYTE, 0, 3, 1);
        REFUSED_STATE(&spoiled, MCP795_STATE - 1, 256, 16, MCP795_ACT_BYTE, 0, 3);
    }
    for (at = 0; at < sizeof sizes / sizeof sizes[0]; at++) {
        check_in("sizes", sizes[at][0], sizes[at][1]);
        REFUSED(&chip, sizes[at][0], sizes[at][1], MCP795_ACT_SELECT, 0, 4, 1);
        spoiled = chip;
        set_count(spoiled.state, MCP795_AT_DIVIDER, MOST);
        REFUSED(&spoiled, sizes[at][0], sizes[at][1], 8, MOST, 4, 1);
    }
    check_in(NULL, 0, 0);
    spoiled = new_chip(MCP795_PART_B1K);
    REFUSED(&spoiled, 256, 16, MCP795_ACT_SELECT, 0, 4, 1);
    REFUSED(&spoiled, 127, 16, MCP795_ACT_SELECT, 0, 4, 1);
    REFUSED(&spoiled, 129, 16, MCP795_ACT_SELECT, 0, 4, 1);
    DONE(&spoiled, MCP795_ACT_SELECT, 0);
    spoiled = chip;
    spoiled.state[MCP795_AT_LEFT] = 165;
    REFUSED(&spoiled, 256, 16, MCP795_ACT_WAIT, 0, 6, 1);
    REFUSED(&spoiled, 256, 16, MCP795_ACT_WAIT, MOST, 6, 1);
    REFUSED(&spoiled, 256, 16, 8, 0, 6, 1);
    REFUSED(&spoiled, 256, 16, MCP795_ACT_UP, 0, 6, 1);
    REFUSED(&spoiled, 256, 16, MCP795_ACT_BYTE, 0, 6, 1);
    spoiled = chip;
    spoiled.state[MCP795_AT_POWER] = 2;
    REFUSED(&spoiled, 256, 16, MCP795_ACT_SELECT, 0, 6, 1);
}

/* A state of another size than the library's: 3 if it has not even a part, else 6, and 4 before that. 133 is that of the headers
 * that knew no event inputs. */
static void by_state_size(void)
{
    static const size_t sizes[] = {0, 1, 2, 97, 123, 133, MCP795_STATE - 1, MCP795_STATE + 1, MCP795_STATE + 10};
    static const size_t memories[][2] = {{128, 16}, {256, 15}, {0, 0}};
    const fenced whole = new_chip(MCP795_PART_W2K);
    size_t at, k;
    uint64_t act;
    CHECK(sizeof whole, 16 + 152 + 272 + 32 + 8 * (MCP795_ANSWER + 2));
    for (at = 0; at < sizeof sizes / sizeof sizes[0]; at++) {
        const uint64_t by = sizes[at] == 0 ? 3 : 6;
        fenced chip = whole, before;
        check_in("state size", sizes[at], 0);
        for (act = 0; act <= 8; act++) {
            REFUSED_STATE(&chip, sizes[at], 256, 16, act, 0, by);
            REFUSED_STATE(&chip, sizes[at], 256, 16, act, MOST, by);
        }
        for (k = 0; k < sizeof memories / sizeof memories[0]; k++) {
            REFUSED_STATE(&chip, sizes[at], memories[k][0], memories[k][1], MCP795_ACT_WAIT, 0, by == 3 ? 3 : 4);
        }
        /* lines that are low, numbers out of range, no part */
        chip.state[MCP795_AT_REGISTERS + 0x08] = 0x10;
        chip.state[MCP795_AT_REGISTERS + 0x0F] = 0x08;
        REFUSED_STATE(&chip, sizes[at], 256, 16, MCP795_ACT_WAIT, 0, by);
        chip.state[MCP795_AT_POWER] = 2;
        REFUSED_STATE(&chip, sizes[at], 256, 16, MCP795_ACT_WAIT, 0, by);
        chip.state[MCP795_AT_PART] = 5;
        REFUSED_STATE(&chip, sizes[at], 256, 16, MCP795_ACT_WAIT, 0, 3);
        REFUSED_STATE(&chip, sizes[at], 0, 0, MCP795_ACT_WAIT, 0, 3);
        /* mcp795_new is told its part: 3 for that, 4, then 6 */
        memset(&before, 0xA5, sizeof before);
        chip = before;
        CHECK(mcp795_new(MCP795_PART_W2K, chip.state, sizes[at], chip.eeprom, 256, chip.id, MCP795_ID_SIZE), 6);
        CHECK(mcp795_new(MCP795_PART_B1K, chip.state, sizes[at], chip.eeprom, 128, chip.id, MCP795_ID_SIZE), 6);
        CHECK(mcp795_new(MCP795_PART_B1K, chip.state, sizes[at], chip.eeprom, 256, chip.id, MCP795_ID_SIZE), 4);
        CHECK(mcp795_new(MCP795_PART_W2K, chip.state, sizes[at], chip.eeprom, 256, chip.id, 0), 4);
        CHECK(mcp795_new(0, chip.state, sizes[at], chip.eeprom, 256, chip.id, MCP795_ID_SIZE), 3);
        CHECK(mcp795_new(5, chip.state, sizes[at], chip.eeprom, 0, chip.id, 0), 3);
        CHECK_BYTES(&chip, &before, sizeof chip);
    }
    check_in(NULL, 0, 0);
}

/* A refused act answers the lines as they are; what is no chip answers them high. 0Fh 08h: a flag that holds IRQ low. */
static void lines_of_a_refused_act(void)
{
    fenced chip = new_chip(MCP795_PART_W2K);
    chip.state[MCP795_AT_REGISTERS + 0x08] = 0x10;
    chip.state[MCP795_AT_REGISTERS + 0x0F] = 0x08;
    DONE(&chip, MCP795_ACT_WAIT, 0);
    CHECK(chip.answer[4], 0);
    CHECK(chip.answer[5], 1);
    REFUSED(&chip, 256, 16, MCP795_ACT_BYTE, 0, 2, 0);
    REFUSED(&chip, 256, 16, MCP795_ACT_END, 9, 3, 0);
    REFUSED(&chip, 256, 16, MCP795_ACT_UP, 0, 5, 0);
    REFUSED(&chip, 256, 16, 8, 0, 3, 0);
    REFUSED(&chip, 256, 16, MCP795_ACT_EVHS, 2, 3, 0);
    REFUSED(&chip, 128, 16, MCP795_ACT_WAIT, 0, 4, 1);
    REFUSED(&chip, 256, 15, MCP795_ACT_BYTE, 0, 4, 1);
    REFUSED_STATE(&chip, MCP795_STATE + 1, 256, 16, MCP795_ACT_WAIT, 0, 6);
    chip.state[MCP795_AT_NEXT] = 8;
    REFUSED(&chip, 256, 16, MCP795_ACT_WAIT, 0, 6, 1);
    chip.state[MCP795_AT_PART] = 0;
    REFUSED(&chip, 256, 16, MCP795_ACT_WAIT, 0, 3, 1);
}

/* 0Fh 88h: the flag of alarm 0 on WDO. */
static void levels(void)
{
    mcp795_chip chip, before;
    CHECK(mcp795_init(&chip, MCP795_PART_B2K), 0);
    chip.state[MCP795_AT_REGISTERS + 0x08] = 0x10;
    chip.state[MCP795_AT_REGISTERS + 0x0F] = 0x88;
    before = chip;
    CHECK_ANSWER(mcp795_levels(&chip), 0, false, 0, 0, true, false);
    CHECK_BYTES(&chip, &before, sizeof chip);
    CHECK_ANSWER(mcp795_end(&chip, 0), 2, false, 0, 0, true, false);
}

static void by_new(void)
{
    static const struct {
        uint64_t part, eeprom, id, by;
    } rows[] = {
        {0, 256, 16, 3}, {5, 256, 16, 3},   {MOST, 256, 16, 3}, {256, 256, 16, 3}, {(UINT64_C(1) << 32) + 2, 256, 16, 3},
        {0, 0, 0, 3},    {1, 256, 16, 4},   {2, 128, 16, 4},    {3, 256, 16, 4},   {4, 128, 16, 4},
        {2, 255, 16, 4}, {2, 257, 16, 4},   {2, 256, 15, 4},    {2, 256, 17, 4},   {1, 0, 16, 4},
        {1, 128, 0, 4},  {1, 128, 32, 4},
    };
    fenced chip, before;
    mcp795_chip struct_before, as_struct;
    size_t at;
    memset(&before, 0xA5, sizeof before);
    memset(&struct_before, 0xA5, sizeof struct_before);
    chip = before;
    as_struct = struct_before;
    for (at = 0; at < sizeof rows / sizeof rows[0]; at++) {
        check_in("row", at, 0);
        CHECK(mcp795_new(rows[at].part, chip.state, MCP795_STATE, chip.eeprom, rows[at].eeprom, chip.id, rows[at].id), rows[at].by);
        CHECK_BYTES(&chip, &before, sizeof chip);
        if (rows[at].by != 3) continue;
        CHECK(mcp795_init(&as_struct, rows[at].part), 3);
        CHECK_BYTES(&as_struct, &struct_before, sizeof as_struct);
    }
    check_in(NULL, 0, 0);
}

/* The named acts are refused as the bare ones are. */
static void by_name(void)
{
    mcp795_chip chip, before;
    CHECK(mcp795_init(&chip, MCP795_PART_W1K), 0);
    before = chip;
    CHECK_ANSWER(mcp795_transfer(&chip, 6), 2, false, 0, 0, true, true);
    CHECK_ANSWER(mcp795_end(&chip, 0), 2, false, 0, 0, true, true);
    CHECK_ANSWER(mcp795_end(&chip, 8), 3, false, 0, 0, true, true);
    CHECK_ANSWER(mcp795_wait(&chip, MCP795_WAIT_MAX + 1), 3, false, 0, 0, true, true);
    CHECK_ANSWER(mcp795_up(&chip), 5, false, 0, 0, true, true);
    CHECK_ANSWER(mcp795_set_evls(&chip, 2), 3, false, 0, 0, true, true);
    CHECK_ANSWER(mcp795_set_evhs(&chip, 2), 3, false, 0, 0, true, true);
    CHECK_ANSWER(mcp795_do(&chip, 8, 0), 3, false, 0, 0, true, true);
    CHECK_BYTES(&chip, &before, sizeof chip);
    CHECK_DONE(mcp795_select(&chip));
    CHECK_ANSWER(mcp795_select(&chip), 1, false, 0, 0, true, true);
    CHECK_DONE(mcp795_cut(&chip, 255));
    CHECK_ANSWER(mcp795_cut(&chip, 0), 5, false, 0, 0, true, true);
    CHECK_DONE(mcp795_up(&chip));
    CHECK_BYTES(&chip, &before, sizeof chip);
    chip.state[MCP795_AT_PART] = 9;
    CHECK_ANSWER(mcp795_levels(&chip), 3, false, 0, 0, true, true);
}

static void words(void)
{
    /* 9 is none of them; 71 to 75 are a tape's */
    static const int numbers[] = {0, 1, 2, 3, 4, 5, 6, 8, 71, 72, 73, 74, 75, 9};
    static const int none[] = {-1, 7, 10, 70, 76};
    size_t at, other;
    CHECK(strcmp(mcp795_refusal_text(0), "done"), 0);
    CHECK(strcmp(mcp795_refusal_text(1), "select, and the chip is selected already"), 0);
    CHECK(strcmp(mcp795_refusal_text(4), "a memory has not the part's length"), 0);
    CHECK(strcmp(mcp795_refusal_text(72), "the line is not of the form"), 0);
    CHECK(strcmp(mcp795_refusal_text(75), "the line's number has a needless zero, or more than 8 digits"), 0);
    for (at = 0; at < sizeof numbers / sizeof numbers[0]; at++) {
        for (other = 0; other < at; other++) {
            CHECK(strcmp(mcp795_refusal_text(numbers[at]), mcp795_refusal_text(numbers[other])) != 0, true);
        }
    }
    for (at = 0; at < sizeof none / sizeof none[0]; at++) CHECK(strcmp(mcp795_refusal_text(none[at]), mcp795_refusal_text(9)), 0);
}

void test_refusals(void)
{
    by_act();
    by_pin();
    by_setup();
    by_state_size();
    lines_of_a_refused_act();
    levels();
    by_new();
    by_name();
    words();
}
