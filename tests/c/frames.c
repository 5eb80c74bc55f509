/* Frames: the whole case, two chips side by side, the bits of an end. Expected are the README's numbers, and docs/RULES.md's. */
#include "check.h"

#include <string.h>

/* T10: the whole case, on the bare functions. */
static void whole_case(void)
{
    static const struct {
        uint64_t act, number, driven, reply, count;
    } steps[] = {
        {MCP795_ACT_SELECT, 0, 0, 0, 0}, {MCP795_ACT_BYTE, 6, 0, 0, 0},  {MCP795_ACT_END, 0, 0, 0, 0},
        {MCP795_ACT_SELECT, 0, 0, 0, 0}, {MCP795_ACT_BYTE, 2, 0, 0, 0},  {MCP795_ACT_BYTE, 7, 0, 0, 0},
        {MCP795_ACT_BYTE, 18, 0, 0, 0},  {MCP795_ACT_BYTE, 52, 0, 0, 0}, {MCP795_ACT_END, 0, 0, 0, 0},
        {MCP795_ACT_WAIT, 200, 0, 0, 164},
        {MCP795_ACT_SELECT, 0, 0, 0, 0}, {MCP795_ACT_BYTE, 3, 0, 0, 0},  {MCP795_ACT_BYTE, 0, 0, 0, 0},
        {MCP795_ACT_BYTE, 0, 1, 52, 0},  {MCP795_ACT_END, 0, 0, 0, 0},
    };
    uint64_t answer[MCP795_ANSWER];
    uint8_t state[MCP795_STATE], eeprom[256], id[MCP795_ID_SIZE], erased[256];
    size_t at;
    memset(erased, 0xFF, sizeof erased);
    CHECK(mcp795_new(MCP795_PART_W2K, state, sizeof state, eeprom, sizeof eeprom, id, sizeof id), 0);
    CHECK_BYTES(eeprom, erased, sizeof eeprom);
    CHECK_BYTES(id, erased, sizeof id);
    for (at = 0; at < sizeof steps / sizeof steps[0]; at++) {
        check_in("step", at, steps[at].act);
        CHECK(mcp795_act(state, sizeof state, eeprom, sizeof eeprom, id, sizeof id, steps[at].act, steps[at].number, answer), 0);
        CHECK(answer[0], 0);
        CHECK(answer[1], steps[at].driven);
        CHECK(answer[2], steps[at].reply);
        CHECK(answer[3], steps[at].count);
        CHECK(answer[4], 1);
        CHECK(answer[5], 1);
    }
    check_in(NULL, 0, 0);
    erased[0] = 52;
    erased[7] = 18;
    CHECK_BYTES(eeprom, erased, sizeof eeprom);
    memset(erased, 0xFF, sizeof erased);
    CHECK_BYTES(id, erased, sizeof id);
}

/* A35, A36: what a fresh chip of each part is. */
static void fresh(void)
{
    uint8_t part, expected[MCP795_STATE], erased[MCP795_EEPROM_MAX];
    memset(erased, 0xFF, sizeof erased);
    for (part = 1; part <= 4; part++) {
        mcp795_chip chip;
        check_in("part", part, 0);
        memset(&chip, 0xA5, sizeof chip);
        memset(expected, 0, sizeof expected);
        expected[MCP795_AT_PART] = part;
        expected[MCP795_AT_REGISTERS + 4] = expected[MCP795_AT_REGISTERS + 5] = expected[MCP795_AT_REGISTERS + 6] = 1;
        expected[MCP795_AT_POWER] = 1;
        CHECK(mcp795_init(&chip, part), 0);
        CHECK_BYTES(chip.state, expected, sizeof expected);
        CHECK_BYTES(chip.eeprom, erased, sizeof chip.eeprom);
        CHECK_BYTES(chip.id, erased, sizeof chip.id);
        CHECK(mcp795_eeprom_size(part), part % 2 == 1 ? 128 : 256);
        CHECK_DONE(mcp795_levels(&chip));
    }
    check_in(NULL, 0, 0);
    CHECK(mcp795_eeprom_size(0), 0);
    CHECK(mcp795_eeprom_size(5), 0);
}

typedef struct step {
    uint64_t act, number;
    int reply; /* -1: SO is off */
    uint64_t count;
} step;

static void take(mcp795_chip *chip, const step *next)
{
    mcp795_answer answer = mcp795_do(chip, next->act, next->number);
    CHECK_ANSWER(answer, 0, next->reply >= 0, (uint8_t)(next->reply >= 0 ? next->reply : 0), next->count, true, true);
}

/* A chip of 2 Kbit and one of 1 Kbit, act by act in turn: each answers and ends as it does alone. */
static void two_chips(void)
{
    static const step first[] = {
        {MCP795_ACT_SELECT, 0, -1, 0},  {MCP795_ACT_BYTE, MCP795_EEWREN, -1, 0},  {MCP795_ACT_END, 0, -1, 0},
        {MCP795_ACT_SELECT, 0, -1, 0},  {MCP795_ACT_BYTE, MCP795_EEWRITE, -1, 0}, {MCP795_ACT_BYTE, 7, -1, 0},
        {MCP795_ACT_BYTE, 18, -1, 0},   {MCP795_ACT_BYTE, 52, -1, 0},             {MCP795_ACT_END, 0, -1, 0},
        {MCP795_ACT_WAIT, 200, -1, 164},
        {MCP795_ACT_SELECT, 0, -1, 0},  {MCP795_ACT_BYTE, MCP795_READ, -1, 0},    {MCP795_ACT_BYTE, 0x20, -1, 0},
        {MCP795_ACT_BYTE, 0, 0, 0},     {MCP795_ACT_END, 0, -1, 0},
        {MCP795_ACT_SELECT, 0, -1, 0},  {MCP795_ACT_BYTE, MCP795_EEREAD, -1, 0},  {MCP795_ACT_BYTE, 4, -1, 0},
        {MCP795_ACT_BYTE, 0, 255, 0},   {MCP795_ACT_BYTE, 0, 255, 0},             {MCP795_ACT_BYTE, 0, 255, 0},
        {MCP795_ACT_BYTE, 0, 18, 0},    {MCP795_ACT_END, 0, -1, 0},
    };
    static const step second[] = {
        {MCP795_ACT_SELECT, 0, -1, 0},  {MCP795_ACT_BYTE, MCP795_WRITE, -1, 0},   {MCP795_ACT_BYTE, 0x20, -1, 0},
        {MCP795_ACT_BYTE, 0xA5, -1, 0}, {MCP795_ACT_END, 0, -1, 0},
        {MCP795_ACT_SELECT, 0, -1, 0},  {MCP795_ACT_BYTE, MCP795_EEWREN, -1, 0},  {MCP795_ACT_END, 0, -1, 0},
        {MCP795_ACT_SELECT, 0, -1, 0},  {MCP795_ACT_BYTE, MCP795_EEWRITE, -1, 0}, {MCP795_ACT_BYTE, 0x85, -1, 0},
        {MCP795_ACT_BYTE, 77, -1, 0},   {MCP795_ACT_END, 0, -1, 0},               {MCP795_ACT_WAIT, 200, -1, 164},
        {MCP795_ACT_SELECT, 0, -1, 0},  {MCP795_ACT_BYTE, MCP795_READ, -1, 0},    {MCP795_ACT_BYTE, 0x20, -1, 0},
        {MCP795_ACT_BYTE, 0, 0xA5, 0},  {MCP795_ACT_END, 0, -1, 0},
        {MCP795_ACT_SELECT, 0, -1, 0},  {MCP795_ACT_BYTE, MCP795_EEREAD, -1, 0},  {MCP795_ACT_BYTE, 5, -1, 0},
        {MCP795_ACT_BYTE, 0, 77, 0},    {MCP795_ACT_END, 3, 7, 0},
    };
    const size_t firsts = sizeof first / sizeof first[0], seconds = sizeof second / sizeof second[0];
    mcp795_chip chips[2], alone[2];
    size_t at;
    CHECK(mcp795_init(&chips[0], MCP795_PART_W2K), 0);
    CHECK(mcp795_init(&chips[1], MCP795_PART_B1K), 0);
    memcpy(alone, chips, sizeof alone);
    for (at = 0; at < firsts || at < seconds; at++) {
        check_in("in turn, step", at, 0);
        if (at < firsts) take(&chips[0], &first[at]);
        if (at < seconds) take(&chips[1], &second[at]);
    }
    for (at = 0; at < firsts; at++) take(&alone[0], &first[at]);
    for (at = 0; at < seconds; at++) take(&alone[1], &second[at]);
    check_in(NULL, 0, 0);
    CHECK_BYTES(&chips[0], &alone[0], sizeof chips[0]);
    CHECK_BYTES(&chips[1], &alone[1], sizeof chips[1]);
    CHECK(chips[0].eeprom[0], 52);
    CHECK(chips[0].eeprom[5], 0xFF);
    CHECK(chips[1].eeprom[0], 0xFF);
    CHECK(chips[1].eeprom[5], 77);
}

/* A read of `code` at `address`, or with no address below 0, broken off after `bits` bits. */
static mcp795_answer broken_off(mcp795_chip *chip, uint8_t code, int address, unsigned bits)
{
    CHECK_DONE(mcp795_select(chip));
    CHECK_DONE(mcp795_transfer(chip, code));
    if (address >= 0) CHECK_DONE(mcp795_transfer(chip, (uint8_t)address));
    return mcp795_end(chip, bits);
}

/* A38: an end answers the bits that had left SO, the highest first. 210 is 1101 0010. */
static void bits_of_an_end(void)
{
    static const uint8_t shown[] = {0, 1, 3, 6, 13, 26, 52, 105};
    mcp795_chip chip;
    unsigned bits;
    CHECK(mcp795_init(&chip, MCP795_PART_W2K), 0);
    begin_write(&chip);
    CHECK(mcp795_wip(&chip), true);
    CHECK_COUNT(mcp795_wait(&chip, 200), 164);
    CHECK(mcp795_wip(&chip), false);
    for (bits = 1; bits <= 7; bits++) {
        check_in("bits", bits, 0);
        CHECK_REPLY(broken_off(&chip, MCP795_EEREAD, 0x11, bits), shown[bits]);
    }
    check_in(NULL, 0, 0);
    CHECK_REPLY(broken_off(&chip, MCP795_EEREAD, 0x10, 5), 0);
    CHECK_DONE(broken_off(&chip, MCP795_EEREAD, 0x11, 0));
    CHECK_DONE(broken_off(&chip, MCP795_EEREAD, -1, 5));
    CHECK_DONE(broken_off(&chip, MCP795_EEWRITE, 0x11, 5));
    CHECK_REPLY(broken_off(&chip, MCP795_READ, 0x60, 7), 0);
    CHECK_REPLY(broken_off(&chip, MCP795_SRREAD, -1, 7), 0);
}

/* F33, F27: the ID is programmed behind its two steps, and not without them. */
static void id(void)
{
    static const uint8_t step1[] = {MCP795_UNLOCK, 0x55}, step2[] = {MCP795_UNLOCK, 0xAA}, enable[] = {MCP795_EEWREN},
                         write[] = {MCP795_IDWRITE, 0x1E, 9};
    mcp795_chip chip;
    CHECK(mcp795_init(&chip, MCP795_PART_B2K), 0);
    send_frame(&chip, enable, sizeof enable);
    send_frame(&chip, write, sizeof write);
    CHECK(mcp795_wip(&chip), false);
    send_frame(&chip, step1, sizeof step1);
    send_frame(&chip, step2, sizeof step2);
    send_frame(&chip, write, sizeof write);
    CHECK_COUNT(mcp795_wait(&chip, MCP795_WAIT_MAX), 164);
    CHECK(chip.id[14], 9);
    CHECK(chip.id[6], 0xFF);
}

void test_frames(void)
{
    whole_case();
    fresh();
    two_chips();
    bits_of_an_end();
    id();
}
