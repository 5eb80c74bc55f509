/* A chip copied, and a chip as text. Expected are the README's table of bad files, and D154 to D158 and D194 of
 * docs/DECISIONS.md. */
#include "check.h"

#include <stdio.h>
#include <string.h>

#define ROOM 4096

/* Of a state, the library's own apart; none above 256. */
static const size_t other_sizes[] = {0, 1, 123, 133, MCP795_STATE - 1, MCP795_STATE + 1, 256};

/* A text with its size; room enough to spoil it. */
typedef struct saved {
    char text[ROOM];
    size_t size;
} saved;

static saved text_of(const mcp795_chip *chip)
{
    saved made;
    memset(made.text, 'x', sizeof made.text);
    CHECK(mcp795_to_text(chip, made.text, sizeof made.text, &made.size), 0);
    CHECK(made.size > 0 && made.size <= MCP795_TEXT_MAX, true);
    CHECK(made.text[made.size], 'x');
    return made;
}

/* The offset of line `number`, from 1. */
static size_t line_at(const saved *of, size_t number)
{
    size_t at = 0;
    while (number > 1 && at < of->size) number -= of->text[at++] == '\n';
    return at;
}

/* The text with line `number` replaced; `line` has its own newline, or is empty. */
static saved with_line(const saved *of, size_t number, const char *line)
{
    const size_t from = line_at(of, number), to = line_at(of, number + 1);
    saved made;
    memset(&made, 0, sizeof made);
    memcpy(made.text, of->text, from);
    memcpy(made.text + from, line, strlen(line));
    memcpy(made.text + from + strlen(line), of->text + to, of->size - to);
    made.size = of->size - (to - from) + strlen(line);
    return made;
}

static bool has_line(const saved *of, size_t number, const char *line)
{
    const size_t from = line_at(of, number), to = line_at(of, number + 1);
    return to - from == strlen(line) && memcmp(of->text + from, line, to - from) == 0;
}

/* D154, D194: the whole text of a fresh chip. */
static void fresh_text(uint64_t part)
{
    saved expected, found;
    mcp795_chip chip;
    char *to = expected.text;
    int k;
    to += sprintf(to, "part=%d\n", (int)part);
    for (k = 0; k < 32; k++) to += sprintf(to, "reg%d=%d\n", k, k >= 4 && k <= 6);
    for (k = 0; k < 8; k++) to += sprintf(to, "sram%d=0,0,0,0,0,0,0,0\n", k);
    to += sprintf(to, "divider=0\nstartup=0\nwatchdog=0\ndelay=0\npulse=0\npower=1\nmark=0\nwel=0\nbp=0\nlock=0\nstage=0,0,0\n");
    to += sprintf(to, "offsets=0\nload=0,0,0,0,0,0,0,0\nnext=0\ntarget=0,0\nleft=0\n");
    for (k = 0; k < (part % 2 == 1 ? 16 : 32); k++) to += sprintf(to, "ee%d=255,255,255,255,255,255,255,255\n", k);
    for (k = 0; k < 2; k++) to += sprintf(to, "id%d=255,255,255,255,255,255,255,255\n", k);
    to += sprintf(to, "evls=0\nevhs=0\nedges=0\nsince=0\ndebounce=0\n");
    expected.size = (size_t)(to - expected.text);
    CHECK(mcp795_init(&chip, part), 0);
    found = text_of(&chip);
    CHECK(found.size, expected.size);
    CHECK_BYTES(found.text, expected.text, expected.size);
}

/* The chip of the README's evening: its write cycle has 64 ticks left. */
static mcp795_chip evening(void)
{
    mcp795_chip chip;
    CHECK(mcp795_init(&chip, MCP795_PART_W2K), 0);
    begin_write(&chip);
    CHECK_COUNT(mcp795_wait(&chip, 100), 100);
    return chip;
}

/* One copy goes on, one meets a cut that lets offset 0 through, one a cut for offset 1. */
static void copied_in_a_write(void)
{
    mcp795_chip chip = evening(), first = chip, second = chip, third;
    const mcp795_chip kept = chip;
    uint8_t expected[256];
    memset(expected, 0xFF, sizeof expected);
    CHECK_BYTES(first.eeprom, expected, sizeof expected);
    CHECK_COUNT(mcp795_cut(&first, 0xFD), 1);
    expected[0x10] = 4;
    CHECK_BYTES(first.eeprom, expected, sizeof expected);
    CHECK_COUNT(mcp795_cut(&second, 0x02), 1);
    expected[0x10] = 0xFF;
    expected[0x11] = 210;
    CHECK_BYTES(second.eeprom, expected, sizeof expected);
    CHECK_COUNT(mcp795_wait(&chip, 200), 64);
    expected[0x10] = 4;
    CHECK_BYTES(chip.eeprom, expected, sizeof expected);
    /* back to the copy, and on as before */
    third = chip;
    chip = kept;
    CHECK_COUNT(mcp795_cut(&chip, 0xFC), 0);
    CHECK(chip.eeprom[0x10], 0xFF);
    CHECK(chip.eeprom[0x11], 0xFF);
    chip = kept;
    CHECK_COUNT(mcp795_wait(&chip, 200), 64);
    CHECK_BYTES(&chip, &third, sizeof chip);
}

/* What is saved is loaded as it was, for each part, whatever was there before; and saved again it is the same text. */
static void round_trip(void)
{
    static const uint8_t clock[] = {MCP795_WRITE, 0x00, 0x99, 0xD9, 0x59, 0x23, 0x0F, 0x28, 0x02, 0x24, 0x30, 0, 0xB7, 0x31};
    uint64_t part, line;
    for (part = 1; part <= 4; part++) {
        mcp795_chip chip, back;
        saved text, again;
        check_in("part", part, 0);
        CHECK(mcp795_init(&chip, part), 0);
        send_frame(&chip, clock, sizeof clock);
        begin_write(&chip);
        CHECK_COUNT(mcp795_wait(&chip, 60), 60);
        CHECK_DONE(mcp795_set_evls(&chip, 1));
        CHECK_DONE(mcp795_set_evhs(&chip, 1));
        CHECK_COUNT(mcp795_wait(&chip, 41), 41);
        CHECK(chip.state[MCP795_AT_EDGES], 1);
        CHECK(count_at(chip.state, MCP795_AT_SINCE), 41);
        CHECK(count_at(chip.state, MCP795_AT_DEBOUNCE), 1024 - 41);
        CHECK_DONE(mcp795_select(&chip));
        CHECK_DONE(mcp795_transfer(&chip, MCP795_SRREAD));
        text = text_of(&chip);
        memset(&back, 0x5A, sizeof back);
        line = 9;
        CHECK(mcp795_from_text(&back, text.text, text.size, &line), 0);
        CHECK(line, 0);
        CHECK_BYTES(&back, &chip, sizeof back);
        again = text_of(&back);
        CHECK(again.size, text.size);
        CHECK_BYTES(again.text, text.text, text.size);
        /* WIP and WEL, and the cycle goes on */
        CHECK_REPLY(mcp795_transfer(&back, 0), MCP795_STATUS_WIP | MCP795_STATUS_WEL);
        CHECK_COUNT(mcp795_wait(&back, 200), 63);
        CHECK_REPLY(mcp795_transfer(&back, 0), 0);
        /* the debounce too: both alarms come with the first hundredth, at tick 32 + 328, and EVLIF where IRQ is low already */
        CHECK_ANSWER(mcp795_wait(&back, 2000), 0, false, 0, 360 - 164, false, true);
        CHECK(mcp795_event_flags(&back), 0);
        CHECK_ANSWER(mcp795_wait(&back, 2000), 0, false, 0, 60 + 1024 - 360, false, true);
        CHECK(mcp795_event_flags(&back), MCP795_EVLIF);
    }
    check_in(NULL, 0, 0);
}

/* A text is refused by 8 with this line, and the chip it was for stays. */
#define BAD(of, line) bad(__LINE__, of, line)

static void bad(int at, const saved *of, uint64_t line)
{
    const uint8_t *text = (const uint8_t *)of->text;
    mcp795_chip chip, before;
    uint64_t told = 1000;
    memset(&chip, 0x5A, sizeof chip);
    before = chip;
    check_equal(__FILE__, at, "mcp795_from_text", (uint64_t)mcp795_from_text(&chip, of->text, of->size, &told), 8);
    check_equal(__FILE__, at, "line", told, line);
    check_bytes(__FILE__, at, "the chip", &chip, &before, sizeof chip);
    /* 8 goes before 4, and 6 for the state's size before 8 */
    told = 1000;
    check_equal(__FILE__, at, "mcp795_load",
                mcp795_load(text, of->size, chip.state, MCP795_STATE, chip.eeprom, 0, chip.id, 0, &told), 8);
    check_equal(__FILE__, at, "line", told, line);
    told = 1000;
    check_equal(__FILE__, at, "mcp795_load",
                mcp795_load(text, of->size, chip.state, MCP795_STATE - 1, chip.eeprom, 0, chip.id, 0, &told), 6);
    check_equal(__FILE__, at, "line", told, 0);
    check_bytes(__FILE__, at, "the chip", &chip, &before, sizeof chip);
}

static void bad_texts(void)
{
    const mcp795_chip chip = evening();
    const saved good = text_of(&chip);
    saved spoiled;
    uint64_t line = 9;
    size_t number, at;
    mcp795_chip loaded;
    CHECK(has_line(&good, 6, "reg4=1\n"), true);
    CHECK(has_line(&good, 47, "power=1\n"), true);
    CHECK(has_line(&good, 48, "mark=0\n"), true);
    CHECK(has_line(&good, 49, "wel=1\n"), true);
    CHECK(has_line(&good, 57, "left=64\n"), true);
    CHECK(has_line(&good, 60, "ee2=255,255,255,255,255,255,255,255\n"), true);
    CHECK(has_line(&good, 91, "id1=255,255,255,255,255,255,255,255\n"), true);
    CHECK(has_line(&good, 92, "evls=0\n"), true);
    CHECK(has_line(&good, 96, "debounce=0\n"), true);
    CHECK(line_at(&good, 97), good.size);
    spoiled = with_line(&good, 6, "reg4=33\n");
    BAD(&spoiled, 6);
    spoiled = with_line(&good, 57, "left=165\n");
    BAD(&spoiled, 57);
    spoiled = with_line(&good, 47, "power=0\n");
    BAD(&spoiled, 57);
    spoiled = with_line(&good, 49, "wel=01\n");
    BAD(&spoiled, 49);
    spoiled = with_line(&good, 48, "");
    BAD(&spoiled, 48);
    spoiled = with_line(&good, 1, "part=1\n");
    BAD(&spoiled, 74);
    spoiled = with_line(&good, 1, "part=0\n");
    BAD(&spoiled, 1);
    spoiled = with_line(&good, 1, "part=5\n");
    BAD(&spoiled, 1);
    spoiled = with_line(&good, 42, "divider=18446744073709551616\n");
    BAD(&spoiled, 42);
    spoiled = with_line(&good, 91, "id1=255,255,255,255,255,255,255,256\n");
    BAD(&spoiled, 91);
    spoiled = good;
    spoiled.size--;
    BAD(&spoiled, 96);
    spoiled = good;
    spoiled.text[spoiled.size++] = '\n';
    BAD(&spoiled, 97);
    /* the lines of the event inputs, of which none is enabled */
    spoiled = with_line(&good, 92, "evls=2\n");
    BAD(&spoiled, 92);
    spoiled = with_line(&good, 93, "evhs=2\n");
    BAD(&spoiled, 93);
    spoiled = with_line(&good, 94, "edges=1\n");
    BAD(&spoiled, 94);
    spoiled = with_line(&good, 95, "since=1\n");
    BAD(&spoiled, 95);
    spoiled = with_line(&good, 96, "debounce=1\n");
    BAD(&spoiled, 96);
    spoiled = with_line(&good, 92, "");
    BAD(&spoiled, 92);
    spoiled = with_line(&good, 1, "part=2\r\n");
    BAD(&spoiled, 1);
    /* cut off before each line: the first that is missing. Only the lines of the event inputs may be missing, all of them */
    for (number = 1; number <= 96; number++) {
        check_in("line", number, 0);
        spoiled = good;
        spoiled.size = line_at(&good, number);
        if (number != 92) BAD(&spoiled, number);
        at = spoiled.size;
        spoiled.size = line_at(&good, number + 1) - 1;
        if (spoiled.size > at) BAD(&spoiled, number);
        spoiled = with_line(&good, number, "\n");
        BAD(&spoiled, number);
    }
    check_in(NULL, 0, 0);
    CHECK(mcp795_from_text(&loaded, NULL, 0, &line), 8);
    CHECK(line, 1);
}

/* A text that ends behind `id1` is one from before there were event inputs: their numbers are 0, and are written from then on. */
static void older_text(uint64_t part)
{
    static const uint8_t both[] = {MCP795_WRITE, 0x0B, 0x33};
    mcp795_chip chip, back;
    saved text, older, again;
    uint64_t line = 9;
    CHECK(mcp795_init(&chip, part), 0);
    send_frame(&chip, both, sizeof both);
    begin_write(&chip);
    CHECK_COUNT(mcp795_wait(&chip, 33), 33);
    text = text_of(&chip);
    CHECK(has_line(&text, part % 2 == 1 ? 76 : 92, "evls=0\n"), true);
    older = text;
    older.size = line_at(&text, part % 2 == 1 ? 76 : 92);
    memset(&back, 0x5A, sizeof back);
    CHECK(mcp795_from_text(&back, older.text, older.size, &line), 0);
    CHECK(line, 0);
    CHECK_BYTES(&back, &chip, sizeof back);
    again = text_of(&back);
    CHECK(again.size, text.size);
    CHECK_BYTES(again.text, text.text, text.size);
    /* levels and counts that its lines had are lost with them */
    CHECK_DONE(mcp795_set_evls(&chip, 1));
    CHECK_DONE(mcp795_set_evhs(&chip, 1));
    older = text_of(&chip);
    older.size = line_at(&older, part % 2 == 1 ? 76 : 92);
    CHECK(mcp795_from_text(&back, older.text, older.size, &line), 0);
    again = text_of(&back);
    CHECK(again.size, text.size);
    CHECK_BYTES(again.text, text.text, text.size);
}

/* A good text, and memories that are not its part's, or a state that is not the library's. */
static void wrong_sizes(void)
{
    static const size_t sizes[][2] = {{128, 16}, {0, 16}, {255, 16}, {257, 16}, {256, 15}, {256, 17}, {256, 0}, {0, 0}};
    const mcp795_chip chip = evening();
    const saved good = text_of(&chip);
    const uint8_t *text = (const uint8_t *)good.text;
    uint8_t state[256], eeprom[512], id[32], kept[512];
    uint64_t line;
    size_t at;
    memset(state, 0x5A, sizeof state);
    memset(eeprom, 0x5A, sizeof eeprom);
    memset(id, 0x5A, sizeof id);
    memset(kept, 0x5A, sizeof kept);
    for (at = 0; at < sizeof sizes / sizeof sizes[0]; at++) {
        check_in("sizes", sizes[at][0], sizes[at][1]);
        line = 9;
        CHECK(mcp795_load(text, good.size, state, MCP795_STATE, eeprom, sizes[at][0], id, sizes[at][1], &line), 4);
        CHECK(line, 0);
        CHECK_BYTES(state, kept, sizeof state);
        CHECK_BYTES(eeprom, kept, sizeof eeprom);
        CHECK_BYTES(id, kept, sizeof id);
    }
    for (at = 0; at < sizeof other_sizes / sizeof other_sizes[0]; at++) {
        check_in("state size", other_sizes[at], 0);
        line = 9;
        CHECK(mcp795_load(text, good.size, state, other_sizes[at], eeprom, 256, id, 16, &line), 6);
        CHECK(line, 0);
        line = 9;
        CHECK(mcp795_load(text, good.size, state, other_sizes[at], eeprom, 128, id, 0, &line), 6);
        CHECK(line, 0);
        CHECK_BYTES(state, kept, sizeof state);
        CHECK_BYTES(eeprom, kept, sizeof eeprom);
        CHECK_BYTES(id, kept, sizeof id);
    }
    check_in(NULL, 0, 0);
    CHECK(mcp795_load(text, good.size, state, MCP795_STATE, eeprom, 256, id, 16, &line), 0);
    CHECK(line, 0);
    CHECK_BYTES(state, chip.state, MCP795_STATE);
    CHECK_BYTES(state + MCP795_STATE, kept, sizeof state - MCP795_STATE);
    CHECK_BYTES(eeprom, chip.eeprom, 256);
    CHECK_BYTES(eeprom + 256, kept, 256);
    CHECK_BYTES(id, chip.id, 16);
    CHECK_BYTES(id + 16, kept, 16);
}

/* Nothing is written where saving is refused, and nothing behind the text where it is not. */
static void room(void)
{
    mcp795_chip chip = evening();
    const saved good = text_of(&chip);
    uint8_t text[ROOM], before[ROOM], longer[256];
    uint64_t length;
    size_t size, at, written = 9;
    memset(before, 'x', sizeof before);
    memset(text, 'x', sizeof text);
    memset(longer, 0, sizeof longer);
    for (size = 0; size < good.size; size += size + 17 < good.size ? 17 : 1) {
        check_in("room", size, good.size);
        length = 9;
        CHECK(mcp795_save(chip.state, MCP795_STATE, chip.eeprom, 256, chip.id, 16, text, size, &length), 8);
        CHECK(length, 0);
        CHECK_BYTES(text, before, sizeof text);
    }
    check_in(NULL, 0, 0);
    CHECK(mcp795_save(chip.state, MCP795_STATE, chip.eeprom, 256, chip.id, 16, text, good.size, &length), 0);
    CHECK(length, good.size);
    CHECK_BYTES(text, good.text, good.size);
    CHECK_BYTES(text + good.size, before, sizeof text - good.size);
    CHECK(mcp795_to_text(&chip, NULL, 0, &written), 8);
    CHECK(written, 0);
    /* 4, 6 and 3 go before 8 and before each other as for an act, also where the state has another size */
    memset(text, 'x', sizeof text);
    memcpy(longer, chip.state, MCP795_STATE);
    for (at = 0; at < sizeof other_sizes / sizeof other_sizes[0]; at++) {
        const size_t state = other_sizes[at];
        check_in("state size", state, 0);
        length = 9;
        CHECK(mcp795_save(longer, state, chip.eeprom, 256, chip.id, 16, text, sizeof text, &length), state == 0 ? 3 : 6);
        CHECK(length, 0);
        CHECK(mcp795_save(longer, state, chip.eeprom, 256, chip.id, 16, text, 0, &length), state == 0 ? 3 : 6);
        CHECK(mcp795_save(longer, state, chip.eeprom, 128, chip.id, 16, text, sizeof text, &length), state == 0 ? 3 : 4);
        CHECK(length, 0);
        CHECK_BYTES(text, before, sizeof text);
    }
    check_in(NULL, 0, 0);
    CHECK(mcp795_save(chip.state, MCP795_STATE, chip.eeprom, 128, chip.id, 16, text, 0, &length), 4);
    CHECK(mcp795_save(chip.state, MCP795_STATE, chip.eeprom, 256, chip.id, 15, text, sizeof text, &length), 4);
    CHECK(length, 0);
    chip.state[MCP795_AT_LEFT] = 165;
    CHECK(mcp795_save(chip.state, MCP795_STATE, chip.eeprom, 256, chip.id, 16, text, 0, &length), 6);
    CHECK(mcp795_save(chip.state, MCP795_STATE, chip.eeprom, 256, chip.id, 16, text, sizeof text, &length), 6);
    CHECK(mcp795_save(chip.state, MCP795_STATE, chip.eeprom, 255, chip.id, 16, text, sizeof text, &length), 4);
    CHECK(length, 0);
    chip.state[MCP795_AT_PART] = 5;
    CHECK(mcp795_save(chip.state, MCP795_STATE, chip.eeprom, 128, chip.id, 16, text, sizeof text, &length), 3);
    CHECK(length, 0);
    CHECK_BYTES(text, before, sizeof text);
    CHECK(mcp795_to_text(&chip, (char *)text, sizeof text, &written), 3);
    CHECK(written, 0);
}

/* As many digits everywhere as D154 and D194 allow: counted by their tables, the longest text has 2,100 bytes. */
static void longest(void)
{
    static const uint8_t clock_block[32] = {
        255, 255, 127, 255, 31, 63, 31, 255, 255, 255, 255, 255, 127, 127, 63,  255,
        63,  31,  255, 127, 127, 63, 255, 63, 255, 255, 255, 255, 255, 255, 255, 255,
    };
    mcp795_chip chip, back;
    saved text;
    uint64_t line;
    size_t at;
    CHECK(mcp795_init(&chip, MCP795_PART_B2K), 0);
    memcpy(chip.state + MCP795_AT_REGISTERS, clock_block, sizeof clock_block);
    for (at = 0; at < 64; at++) chip.state[MCP795_AT_SRAM + at] = 255;
    for (at = 0; at < 8; at++) chip.state[MCP795_AT_LOAD + at] = 255;
    set_count(chip.state, MCP795_AT_DIVIDER, 32767);
    set_count(chip.state, MCP795_AT_STARTUP, 32);
    set_count(chip.state, MCP795_AT_WATCHDOG, 2097151);
    set_count(chip.state, MCP795_AT_DELAY, 2097152);
    set_count(chip.state, MCP795_AT_PULSE, 4096);
    chip.state[MCP795_AT_STAGE] = 4;
    chip.state[MCP795_AT_STAGE + 1] = 1;
    chip.state[MCP795_AT_STAGE + 2] = 255;
    chip.state[MCP795_AT_OFFSETS] = 255;
    chip.state[MCP795_AT_TARGET + 1] = 255;
    chip.state[MCP795_AT_LEFT] = 164;
    chip.state[MCP795_AT_EVLS] = chip.state[MCP795_AT_EVHS] = 1;
    chip.state[MCP795_AT_EDGES] = 31;
    set_count(chip.state, MCP795_AT_SINCE, 8192);
    set_count(chip.state, MCP795_AT_DEBOUNCE, 16384);
    text = text_of(&chip);
    CHECK(text.size, 2100);
    CHECK(mcp795_to_text(&chip, text.text, 2099, &at), 8);
    CHECK(mcp795_to_text(&chip, text.text, MCP795_TEXT_MAX, &at), 0);
    CHECK(at, text.size);
    CHECK(mcp795_from_text(&back, text.text, text.size, &line), 0);
    CHECK_BYTES(&back, &chip, sizeof back);
}

void test_saved(void)
{
    copied_in_a_write();
    fresh_text(1);
    fresh_text(2);
    fresh_text(3);
    fresh_text(4);
    round_trip();
    older_text(MCP795_PART_B1K);
    older_text(MCP795_PART_W2K);
    bad_texts();
    wrong_sizes();
    room();
    longest();
}
