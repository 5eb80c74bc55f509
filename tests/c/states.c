/* States that somebody spoiled: refused by 3, 4 or 6 and left alone, or lawful. Expected are S3 to S7 and V14 of docs/RULES.md,
 * written out below a second time. And where a state has what. */
#include "check.h"

#include <string.h>

/* A27: the bits that each register may hold. */
static const uint8_t kept[32] = {
    0xFF, 0xFF, 0x7F, 0xFF, 0x1F, 0x3F, 0x1F, 0xFF, 0xFF, 0xFF, 0xFF, 0xFF, 0x7F, 0x7F, 0x3F, 0xFF,
    0x3F, 0x1F, 0xFF, 0x7F, 0x7F, 0x3F, 0xFF, 0x3F, 0xFF, 0xFF, 0xFF, 0xFF, 0xFF, 0xFF, 0xFF, 0xFF,
};

/* K23, by the three low bits of 0Ah. */
static const uint64_t periods[8] = {32, 512, 2048, 4096, 32768, 524288, 1048576, 2097152};

/* V3, by the two low bits of 0Bh. */
static const uint8_t edges[4] = {1, 4, 16, 32};

/* F1, from the lowest; and whether each is heard while a cycle runs (F32). */
static const struct {
    uint8_t code;
    bool heard;
} codes[] = {
    {0x01, false}, {0x02, false}, {0x03, false}, {0x04, false}, {0x05, true}, {0x06, false}, {0x12, true},
    {0x13, true},  {0x14, false}, {0x32, false}, {0x33, false}, {0x44, true}, {0x54, true},
};

/* Whether a code is one of F1, or 0 for all others; `heard` tells F32 of it. */
static bool is_code(uint8_t number, bool *heard)
{
    size_t at;
    *heard = false;
    for (at = 0; at < sizeof codes / sizeof codes[0]; at++) {
        if (codes[at].code == number) {
            *heard = codes[at].heard;
            return true;
        }
    }
    return number == 0;
}

/* S5: whether a stage is one; `deaf` tells that a cycle cannot run beside it (S6). */
static bool is_stage(const uint8_t *stage, size_t eeprom, bool *deaf)
{
    bool heard = true, good;
    switch (stage[0]) {
    case 0:
    case 1:
    case 2: good = stage[1] == 0 && stage[2] == 0; break;
    case 3: good = is_code(stage[1], &heard) && stage[2] == 0; break;
    case 4:
    case 5:
        heard = stage[1] == 1;
        good = stage[1] <= 2 && stage[2] < (stage[1] == 0 ? eeprom : stage[1] == 1 ? 256 : 16);
        break;
    case 6:
        heard = stage[1] >= 2;
        good = stage[1] <= 3 && stage[2] <= (stage[1] <= 1 ? 255 : 0);
        break;
    case 7:
        heard = stage[1] == 2 || stage[1] == 3;
        good = stage[1] <= 5 && stage[2] == 0;
        break;
    default: good = false;
    }
    *deaf = !heard;
    return good;
}

/* V14: whether the last nine bytes are those of a chip with this byte in 0Bh. */
static bool is_events(const uint8_t *last, uint8_t byte)
{
    const uint64_t since = count_at(last, 3), left = count_at(last, 6);
    if (last[0] > 1 || last[1] > 1) return false;
    if (last[2] >= edges[byte & 3] || ((byte & 0x20) == 0 && last[2] != 0)) return false;
    if (since > 8192 || (last[2] == 0 && since != 0)) return false;
    if (left != 0 && (last[0] == 0 || (byte & 0x10) == 0)) return false;
    return left <= ((byte & 0x04) != 0 ? 16384 : 1024);
}

/* The number by which a state is refused that comes with so many bytes of EEPROM and 16 of ID. */
static uint64_t judged(const uint8_t *s, size_t eeprom)
{
    const uint8_t part = s[MCP795_AT_PART], *target = s + MCP795_AT_TARGET;
    const bool on = s[MCP795_AT_POWER] == 1;
    bool deaf;
    size_t at;
    if (part < 1 || part > 4) return 3;
    if (eeprom != (part == 1 || part == 3 ? 128 : 256)) return 4;
    /* S3. SRAM and load may have any byte, and so may offsets (S6). */
    for (at = 0; at < 32; at++) {
        if ((s[MCP795_AT_REGISTERS + at] & ~kept[at]) != 0) return 6;
    }
    /* S4 */
    if (count_at(s, MCP795_AT_DIVIDER) > 32767 || count_at(s, MCP795_AT_STARTUP) > 32) return 6;
    if (part <= 2 && s[MCP795_AT_REGISTERS + 0x01] < 0x80 && count_at(s, MCP795_AT_STARTUP) != 0) return 6;
    if (count_at(s, MCP795_AT_WATCHDOG) >= periods[s[MCP795_AT_REGISTERS + 0x0A] & 7]) return 6;
    if (count_at(s, MCP795_AT_DELAY) > 2097152 || count_at(s, MCP795_AT_PULSE) > 4096) return 6;
    if (s[MCP795_AT_POWER] > 1 || s[MCP795_AT_MARK] > (on ? 0 : 1) || s[MCP795_AT_WEL] > 1) return 6;
    if (s[MCP795_AT_BP] > 3 || s[MCP795_AT_LOCK] > 2) return 6;
    /* S5 */
    if (!is_stage(s + MCP795_AT_STAGE, eeprom, &deaf) || (!on && s[MCP795_AT_STAGE] != 0)) return 6;
    /* S6 */
    if (s[MCP795_AT_NEXT] > 7) return 6;
    if (target[0] > 2 || target[1] >= (target[0] == 0 ? eeprom : target[0] == 1 ? 16 : 4)) return 6;
    if (s[MCP795_AT_LEFT] > (on && !deaf ? 164 : 0)) return 6;
    return is_events(s + 133, s[MCP795_AT_REGISTERS + 0x0B]) ? 0 : 6;
}

/* A wait of 0 and a save say `by`, and neither changes a byte of the chip. */
static void verdict(mcp795_chip *chip, size_t eeprom, uint64_t by)
{
    static uint8_t text[MCP795_TEXT_MAX];
    const uint64_t refused[MCP795_ANSWER] = {by, 0, 0, 0, 1, 1};
    const mcp795_chip before = *chip;
    uint64_t answer[MCP795_ANSWER], length = 1;
    CHECK(mcp795_act(chip->state, MCP795_STATE, chip->eeprom, eeprom, chip->id, MCP795_ID_SIZE, MCP795_ACT_WAIT, 0, answer), by);
    CHECK_BYTES(answer, refused, by == 0 ? 4 * sizeof answer[0] : sizeof answer);
    CHECK(mcp795_save(chip->state, MCP795_STATE, chip->eeprom, eeprom, chip->id, MCP795_ID_SIZE, text, sizeof text, &length), by);
    CHECK(length > 0, by == 0);
    CHECK_BYTES(chip, &before, sizeof before);
}

/* The same by the rules above; tells whether the state is lawful. */
static bool by_the_rules(mcp795_chip *chip, size_t eeprom)
{
    const uint64_t by = judged(chip->state, eeprom);
    verdict(chip, eeprom, by);
    return by == 0;
}

static size_t size_of(const mcp795_chip *chip)
{
    return mcp795_eeprom_size(chip->state[MCP795_AT_PART]);
}

/* Each place with each of the 256 bytes, the others as they are; then each count with numbers near its limits, which may need two
 * bytes changed. Gives how many of the first are lawful. */
static unsigned every_place(const mcp795_chip *chip)
{
    static const size_t counts[] = {MCP795_AT_DIVIDER, MCP795_AT_STARTUP, MCP795_AT_WATCHDOG, MCP795_AT_DELAY,
                                    MCP795_AT_PULSE,   MCP795_AT_SINCE,   MCP795_AT_DEBOUNCE};
    static const uint64_t limits[] = {0,     1,     31,    32,    33,    511,   512,    1023,   1024,    1025,    4095,
                                      4096,  4097,  8191,  8192,  8193,  16383, 16384,  16385,  32767,   32768,   65535,
                                      65536, 65537, 524287, 524288, 1048576, 2097151, 2097152, 2097153, 4194304, 0xFFFFFF};
    mcp795_chip spoiled = *chip;
    unsigned lawful = 0;
    size_t place, at;
    int byte;
    CHECK(judged(chip->state, size_of(chip)), 0);
    for (place = 0; place < MCP795_STATE; place++) {
        for (byte = 0; byte <= 255; byte++) {
            check_in("place, byte", place, (uint64_t)byte);
            spoiled.state[place] = (uint8_t)byte;
            lawful += by_the_rules(&spoiled, size_of(chip));
        }
        spoiled.state[place] = chip->state[place];
    }
    for (place = 0; place < sizeof counts / sizeof counts[0]; place++) {
        for (at = 0; at < sizeof limits / sizeof limits[0]; at++) {
            check_in("count at, number", counts[place], limits[at]);
            set_count(spoiled.state, counts[place], limits[at]);
            by_the_rules(&spoiled, size_of(chip));
        }
        spoiled = *chip;
    }
    check_in(NULL, 0, 0);
    return lawful;
}

/* Some that must be refused, or must not, told by hand. */
static void by_hand(const mcp795_chip *chip)
{
    static const struct {
        size_t place;
        uint8_t byte;
        uint64_t by;
    } rows[] = {
        {MCP795_AT_PART, 0, 3},
        {MCP795_AT_PART, 5, 3},
        {MCP795_AT_PART, 255, 3},
        {MCP795_AT_PART, 1, 4},
        {MCP795_AT_PART, 4, 0},
        {MCP795_AT_REGISTERS + 0x04, 33, 6},
        {MCP795_AT_REGISTERS + 0x04, 31, 0},
        {MCP795_AT_REGISTERS + 0x1F, 255, 0},
        {MCP795_AT_SRAM, 255, 0},
        {MCP795_AT_SRAM + 63, 255, 0},
        {MCP795_AT_DIVIDER, 255, 0},
        {MCP795_AT_DIVIDER + 1, 127, 0},
        {MCP795_AT_DIVIDER + 1, 128, 6},
        {MCP795_AT_DIVIDER + 2, 1, 6},
        {MCP795_AT_STARTUP, 1, 6},
        {MCP795_AT_WATCHDOG, 31, 0},
        {MCP795_AT_WATCHDOG, 32, 6},
        {MCP795_AT_WATCHDOG + 1, 1, 6},
        {MCP795_AT_DELAY + 2, 32, 0},
        {MCP795_AT_DELAY + 2, 33, 6},
        {MCP795_AT_PULSE + 1, 16, 0},
        {MCP795_AT_PULSE + 1, 17, 6},
        {MCP795_AT_PULSE + 2, 1, 6},
        {MCP795_AT_POWER, 0, 0},
        {MCP795_AT_POWER, 2, 6},
        {MCP795_AT_MARK, 1, 6},
        {MCP795_AT_WEL, 1, 0},
        {MCP795_AT_WEL, 2, 6},
        {MCP795_AT_BP, 3, 0},
        {MCP795_AT_BP, 4, 6},
        {MCP795_AT_LOCK, 2, 0},
        {MCP795_AT_LOCK, 3, 6},
        {MCP795_AT_STAGE, 7, 0},
        {MCP795_AT_STAGE, 8, 6},
        {MCP795_AT_STAGE + 1, 1, 6},
        {MCP795_AT_STAGE + 2, 1, 6},
        {MCP795_AT_OFFSETS, 255, 0},
        {MCP795_AT_LOAD, 255, 0},
        {MCP795_AT_LOAD + 7, 255, 0},
        {MCP795_AT_NEXT, 7, 0},
        {MCP795_AT_NEXT, 8, 6},
        {MCP795_AT_TARGET, 2, 0},
        {MCP795_AT_TARGET, 3, 6},
        {MCP795_AT_TARGET + 1, 255, 0},
        {MCP795_AT_LEFT, 164, 0},
        {MCP795_AT_LEFT, 165, 6},
        {MCP795_AT_LEFT, 255, 6},
        {MCP795_AT_EVLS, 1, 0},
        {MCP795_AT_EVLS, 2, 6},
        {MCP795_AT_EVHS, 1, 0},
        {MCP795_AT_EVHS, 255, 6},
        /* 0Bh is 0: nothing is enabled */
        {MCP795_AT_EDGES, 1, 6},
        {MCP795_AT_SINCE, 1, 6},
        {MCP795_AT_SINCE + 2, 1, 6},
        {MCP795_AT_DEBOUNCE, 1, 6},
        {MCP795_AT_DEBOUNCE + 2, 1, 6},
    };
    size_t at;
    for (at = 0; at < sizeof rows / sizeof rows[0]; at++) {
        mcp795_chip spoiled = *chip;
        check_in("place, byte", rows[at].place, rows[at].byte);
        spoiled.state[rows[at].place] = rows[at].byte;
        verdict(&spoiled, 256, rows[at].by);
    }
    check_in(NULL, 0, 0);
}

/* Every kind and case of a stage, with and without a cycle, with power and without: A29, and A30, which keeps five codes beside a
 * cycle. Every target. */
static void stages(const mcp795_chip *chip)
{
    static const uint8_t values[] = {0, 1, 15, 16, 127, 128, 255};
    mcp795_chip spoiled = *chip;
    int kind, name;
    size_t at;
    for (kind = 0; kind <= 8; kind++) {
        for (name = 0; name <= 255; name++) {
            for (at = 0; at < sizeof values / sizeof values[0]; at++) {
                check_in("case, value", (uint64_t)name, values[at]);
                spoiled.state[MCP795_AT_STAGE] = (uint8_t)kind;
                spoiled.state[MCP795_AT_STAGE + 1] = (uint8_t)name;
                spoiled.state[MCP795_AT_STAGE + 2] = values[at];
                spoiled.state[MCP795_AT_LEFT] = 0;
                by_the_rules(&spoiled, size_of(chip));
                spoiled.state[MCP795_AT_LEFT] = 1;
                by_the_rules(&spoiled, size_of(chip));
            }
        }
        spoiled = *chip;
        spoiled.state[MCP795_AT_STAGE] = (uint8_t)kind;
        spoiled.state[MCP795_AT_POWER] = 0;
        by_the_rules(&spoiled, size_of(chip));
        spoiled.state[MCP795_AT_MARK] = 1;
        by_the_rules(&spoiled, size_of(chip));
        spoiled.state[MCP795_AT_LEFT] = 1;
        by_the_rules(&spoiled, size_of(chip));
        spoiled = *chip;
    }
    for (kind = 0; kind <= 3; kind++) {
        for (name = 0; name <= 255; name++) {
            check_in("target", (uint64_t)kind, (uint64_t)name);
            spoiled.state[MCP795_AT_TARGET] = (uint8_t)kind;
            spoiled.state[MCP795_AT_TARGET + 1] = (uint8_t)name;
            by_the_rules(&spoiled, size_of(chip));
        }
    }
    check_in(NULL, 0, 0);
}

/* The two counts that a register limits: watchdog count and 0Ah, start-up count and 01h. */
static void counts_by_registers(const mcp795_chip *chip)
{
    static const uint64_t startup[] = {0, 1, 31, 32, 33, 256, 65536};
    mcp795_chip spoiled = *chip;
    size_t at;
    int byte;
    for (byte = 0; byte <= 255; byte++) {
        check_in("0Ah", (uint64_t)byte, 0);
        spoiled.state[MCP795_AT_REGISTERS + 0x0A] = (uint8_t)byte;
        set_count(spoiled.state, MCP795_AT_WATCHDOG, periods[byte % 8] - 1);
        verdict(&spoiled, size_of(chip), 0);
        set_count(spoiled.state, MCP795_AT_WATCHDOG, periods[byte % 8]);
        verdict(&spoiled, size_of(chip), 6);
    }
    spoiled = *chip;
    for (byte = 0; byte <= 255; byte++) {
        spoiled.state[MCP795_AT_REGISTERS + 0x01] = (uint8_t)byte;
        for (at = 0; at < sizeof startup / sizeof startup[0]; at++) {
            check_in("01h, start-up count", (uint64_t)byte, startup[at]);
            set_count(spoiled.state, MCP795_AT_STARTUP, startup[at]);
            by_the_rules(&spoiled, size_of(chip));
        }
    }
    check_in(NULL, 0, 0);
}

/* The counts of the event inputs at and past their limits, with each byte in 0Bh and both levels of EVLS. A flag beside a count is
 * in range, and so are edges beside EVWDT. */
static void counts_by_events(const mcp795_chip *chip)
{
    static const uint64_t left[] = {1, 1023, 1024, 1025, 16383, 16384, 16385, 65536};
    mcp795_chip spoiled = *chip;
    int byte, level;
    size_t at;
    for (byte = 0; byte <= 255; byte++) {
        const uint8_t number = edges[byte & 3];
        const bool counts = (byte & 0x20) != 0, waits = (byte & 0x10) != 0;
        const uint64_t longest = (byte & 0x04) != 0 ? 16384 : 1024;
        check_in("0Bh", (uint64_t)byte, 0);
        spoiled = *chip;
        spoiled.state[MCP795_AT_REGISTERS + 0x0B] = (uint8_t)byte;
        verdict(&spoiled, size_of(chip), 0);
        spoiled.state[MCP795_AT_EDGES] = number;
        verdict(&spoiled, size_of(chip), 6);
        spoiled.state[MCP795_AT_EDGES] = (uint8_t)(number - 1);
        verdict(&spoiled, size_of(chip), counts || number == 1 ? 0 : 6);
        set_count(spoiled.state, MCP795_AT_SINCE, 8192);
        verdict(&spoiled, size_of(chip), counts && number > 1 ? 0 : 6);
        set_count(spoiled.state, MCP795_AT_SINCE, 8193);
        verdict(&spoiled, size_of(chip), 6);
        spoiled.state[MCP795_AT_EDGES] = 0;
        set_count(spoiled.state, MCP795_AT_SINCE, 1);
        verdict(&spoiled, size_of(chip), 6);
        set_count(spoiled.state, MCP795_AT_SINCE, 0);
        for (level = 0; level <= 1; level++) {
            spoiled.state[MCP795_AT_EVLS] = (uint8_t)level;
            for (at = 0; at < sizeof left / sizeof left[0]; at++) {
                check_in("0Bh, debounce", (uint64_t)byte, left[at]);
                set_count(spoiled.state, MCP795_AT_DEBOUNCE, left[at]);
                verdict(&spoiled, size_of(chip), level == 1 && waits && left[at] <= longest ? 0 : 6);
            }
        }
    }
    check_in(NULL, 0, 0);
}

/* The bytes of a state that is not fresh, by their numbers in the array, and the looks of the header. 1000 counted ticks are E8h 03h
 * 00h; 2,097,152 of delay less them are 18h FCh 1Fh. */
static void places(void)
{
    static const uint8_t clock[] = {MCP795_WRITE, 0x01, 0x80, 0x12, 0x13, 0x09}, delay[] = {MCP795_WRITE, 0x0A, 0xB7},
                         sram[] = {MCP795_WRITE, 0x5F, 0x5E, 0x5D}, enable[] = {MCP795_EEWREN}, status[] = {MCP795_SRWRITE, 0x08},
                         step1[] = {MCP795_UNLOCK, 0x55}, step2[] = {MCP795_UNLOCK, 0xAA}, id[] = {MCP795_IDWRITE, 0x1E, 9, 8};
    mcp795_chip chip, before;
    int address;
    CHECK(MCP795_STATE, 142);
    CHECK(sizeof chip.state, 142);
    CHECK(mcp795_init(&chip, MCP795_PART_W2K), 0);
    CHECK(chip.state[0], 2);
    CHECK(chip.state[112], 1);
    CHECK(mcp795_powered(&chip), true);
    CHECK(mcp795_selected(&chip), false);
    CHECK(mcp795_wip(&chip), false);
    CHECK(mcp795_wel(&chip), false);
    send_frame(&chip, clock, sizeof clock);
    send_frame(&chip, delay, sizeof delay);
    send_frame(&chip, sram, sizeof sram);
    CHECK_COUNT(mcp795_wait(&chip, 32 + 1000), 32 + 1000);
    CHECK(chip.state[1 + 0x01], 0x80);
    CHECK(chip.state[1 + 0x02], 0x12);
    CHECK(chip.state[1 + 0x0A], 0xB7);
    CHECK(chip.state[1 + 0x5F], 0x5E);
    CHECK(chip.state[1 + 0x20], 0x5D);
    CHECK(chip.state[97], 0xE8);
    CHECK(chip.state[98], 0x03);
    CHECK(chip.state[99], 0);
    CHECK(chip.state[100], 32);
    CHECK(chip.state[106], 0x18);
    CHECK(chip.state[107], 0xFC);
    CHECK(chip.state[108], 0x1F);
    for (address = 0; address <= 255; address++) {
        check_in("address", (uint64_t)address, 0);
        CHECK(mcp795_peek(&chip, (uint8_t)address), address < 0x60 ? chip.state[1 + address] : 0);
    }
    check_in(NULL, 0, 0);
    /* OSCON is made when read */
    CHECK_DONE(mcp795_select(&chip));
    CHECK(chip.state[117], 1);
    CHECK_DONE(mcp795_transfer(&chip, MCP795_READ));
    CHECK(chip.state[117], 3);
    CHECK(chip.state[118], 0x13);
    CHECK_DONE(mcp795_transfer(&chip, 0x04));
    CHECK(chip.state[117], 4);
    CHECK(chip.state[118], 1);
    CHECK(chip.state[119], 0x04);
    CHECK(mcp795_selected(&chip), true);
    before = chip;
    CHECK(mcp795_peek(&chip, 0x04), 0x09);
    CHECK_BYTES(&chip, &before, sizeof chip);
    CHECK_REPLY(mcp795_transfer(&chip, 0), 0x29);
    CHECK_DONE(mcp795_end(&chip, 0));
    CHECK(mcp795_selected(&chip), false);
    /* BP, the lock, WEL */
    send_frame(&chip, enable, sizeof enable);
    CHECK(chip.state[114], 1);
    CHECK(mcp795_wel(&chip), true);
    send_frame(&chip, status, sizeof status);
    CHECK(chip.state[130], 2);
    CHECK(chip.state[131], 2);
    CHECK_COUNT(mcp795_wait(&chip, 200), 164);
    CHECK(mcp795_wel(&chip), false);
    CHECK(chip.state[115], 2);
    send_frame(&chip, step1, sizeof step1);
    CHECK(chip.state[116], 1);
    send_frame(&chip, step2, sizeof step2);
    CHECK(chip.state[116], 2);
    /* a write of the ID's upper page: offsets 6 and 7 */
    send_frame(&chip, enable, sizeof enable);
    CHECK_DONE(mcp795_select(&chip));
    CHECK_DONE(mcp795_transfer(&chip, id[0]));
    CHECK_DONE(mcp795_transfer(&chip, id[1]));
    CHECK(chip.state[117], 5);
    CHECK(chip.state[118], 2);
    CHECK(chip.state[129], 6);
    CHECK_DONE(mcp795_transfer(&chip, id[2]));
    CHECK(chip.state[129], 7);
    CHECK_DONE(mcp795_transfer(&chip, id[3]));
    CHECK_DONE(mcp795_end(&chip, 0));
    CHECK(chip.state[132], 164);
    CHECK(mcp795_wip(&chip), true);
    CHECK_COUNT(mcp795_wait(&chip, 50), 50);
    CHECK(chip.state[132], 114);
    CHECK(chip.state[120], 0xC0);
    CHECK(chip.state[121 + 6], 9);
    CHECK(chip.state[121 + 7], 8);
    CHECK(chip.state[130], 1);
    CHECK(chip.state[131] / 8, 1);
    /* power fails, and VBATEN is set */
    CHECK_COUNT(mcp795_cut(&chip, 0x80), 1);
    CHECK(chip.id[15], 8);
    CHECK(chip.state[112], 0);
    CHECK(chip.state[113], 1);
    CHECK(chip.state[132], 0);
    CHECK(mcp795_powered(&chip), false);
    CHECK(mcp795_wip(&chip), false);
}

/* The other two counts: 70,000 ticks of a watchdog, 70h 11h 01h; the long pulse, 4,096, is 00h 10h 00h. */
static void watchdog_places(void)
{
    static const uint8_t slow[] = {MCP795_WRITE, 0x0A, 0x87}, fast[] = {MCP795_WRITE, 0x0A, 0x91};
    mcp795_chip chip;
    CHECK(mcp795_init(&chip, MCP795_PART_B1K), 0);
    CHECK_COUNT(mcp795_wait(&chip, 32), 32);
    send_frame(&chip, slow, sizeof slow);
    CHECK_COUNT(mcp795_wait(&chip, 70000), 70000);
    CHECK(chip.state[103], 0x70);
    CHECK(chip.state[104], 0x11);
    CHECK(chip.state[105], 0x01);
    send_frame(&chip, fast, sizeof fast);
    CHECK_ANSWER(mcp795_wait(&chip, 70000), 0, false, 0, 512, true, false);
    CHECK(chip.state[109], 0);
    CHECK(chip.state[110], 0x10);
    CHECK(chip.state[111], 0);
    CHECK_ANSWER(mcp795_wait(&chip, 1), 0, false, 0, 1, true, false);
    CHECK(chip.state[109], 0xFF);
    CHECK(chip.state[110], 0x0F);
    CHECK_ANSWER(mcp795_wait(&chip, 70000), 0, false, 0, 4095, true, true);
}

/* The last nine bytes. Both inputs enabled, 16 edges, the long debounce: two rises 300 ticks apart, then EVLS. 340 are 54h 01h 00h,
 * and 16,384 less 40 are D8h 3Fh 00h. */
static void event_places(void)
{
    static const uint8_t both[] = {MCP795_WRITE, 0x0B, 0x36}, last[] = {1, 0, 2, 0x54, 0x01, 0, 0xD8, 0x3F, 0};
    mcp795_chip chip;
    CHECK(mcp795_init(&chip, MCP795_PART_B1K), 0);
    CHECK_COUNT(mcp795_wait(&chip, 32), 32);
    send_frame(&chip, both, sizeof both);
    CHECK_DONE(mcp795_set_evhs(&chip, 1));
    CHECK(mcp795_evhs(&chip), true);
    CHECK(chip.state[134], 1);
    CHECK_COUNT(mcp795_wait(&chip, 300), 300);
    CHECK_DONE(mcp795_set_evhs(&chip, 0));
    CHECK_DONE(mcp795_set_evhs(&chip, 1));
    CHECK_DONE(mcp795_set_evhs(&chip, 0));
    CHECK_DONE(mcp795_set_evls(&chip, 1));
    CHECK_COUNT(mcp795_wait(&chip, 40), 40);
    CHECK_BYTES(chip.state + 133, last, sizeof last);
    CHECK(MCP795_AT_EVLS, 133);
    CHECK(MCP795_AT_EVHS, 134);
    CHECK(MCP795_AT_EDGES, 135);
    CHECK(MCP795_AT_SINCE, 136);
    CHECK(MCP795_AT_DEBOUNCE, 139);
    CHECK(mcp795_evls(&chip), true);
    CHECK(mcp795_evhs(&chip), false);
}

void test_states(void)
{
    static const uint8_t clock[] = {MCP795_WRITE, 0x01, 0x80, 0, 0, 0x09}, both[] = {MCP795_WRITE, 0x0B, 0x37};
    mcp795_chip chip, running, off;
    int rise;
    places();
    watchdog_places();
    event_places();
    CHECK(mcp795_init(&chip, MCP795_PART_W2K), 0);
    by_hand(&chip);
    /* 2 parts; registers 19 * 256 + 5 * 128 + 5 * 64 + 3 * 32, by the masks; SRAM 64 * 256; divider 256 + 128 + 1, start-up count
     * 1 + 1 + 1, watchdog count 32 + 1 + 1, delay 256 + 256 + 33, pulse 256 + 17 + 1; power 2, mark 1, WEL 2, BP 4, lock 3; stage
     * 8 + 1 + 1; offsets 256, load 8 * 256, next 8; target 3 + 256; left 165; EVLS 2, EVHS 2, edges 1, ticks since 1 + 1 + 1,
     * debounce 1 + 1 + 1 */
    CHECK(every_place(&chip), 26316);
    stages(&chip);
    counts_by_registers(&chip);
    counts_by_events(&chip);
    /* the clock runs on a battery, a write cycle is under way and a frame open */
    running = chip;
    send_frame(&running, clock, sizeof clock);
    begin_write(&running);
    CHECK_COUNT(mcp795_wait(&running, 50), 50);
    CHECK_DONE(mcp795_select(&running));
    CHECK_DONE(mcp795_transfer(&running, MCP795_READ));
    CHECK_DONE(mcp795_transfer(&running, 0x20));
    every_place(&running);
    /* power is off, and the mark is set */
    off = running;
    CHECK_COUNT(mcp795_cut(&off, 255), 2);
    CHECK(off.state[MCP795_AT_MARK], 1);
    every_place(&off);
    /* both inputs count, on the battery too: 3 of 32 edges, the long debounce */
    CHECK_DONE(mcp795_end(&running, 0));
    send_frame(&running, both, sizeof both);
    for (rise = 0; rise < 3; rise++) {
        CHECK_DONE(mcp795_set_evhs(&running, 1));
        CHECK_DONE(mcp795_set_evhs(&running, 0));
    }
    CHECK_DONE(mcp795_set_evls(&running, 1));
    CHECK_COUNT(mcp795_wait(&running, 114), 114);
    CHECK_COUNT(mcp795_wait(&running, 1000), 1000);
    CHECK(running.state[MCP795_AT_EDGES], 3);
    CHECK(count_at(running.state, MCP795_AT_SINCE), 1114);
    CHECK(count_at(running.state, MCP795_AT_DEBOUNCE), 16384 - 1114);
    every_place(&running);
    CHECK_DONE(mcp795_cut(&running, 0));
    CHECK(running.state[MCP795_AT_EDGES], 3);
    every_place(&running);
    /* a B part in the middle of a page write */
    CHECK(mcp795_init(&chip, MCP795_PART_B2K), 0);
    CHECK_COUNT(mcp795_wait(&chip, 20), 20);
    CHECK_DONE(mcp795_select(&chip));
    CHECK_DONE(mcp795_transfer(&chip, MCP795_EEWRITE));
    CHECK_DONE(mcp795_transfer(&chip, 0xFD));
    CHECK_DONE(mcp795_transfer(&chip, 1));
    every_place(&chip);
    counts_by_registers(&chip);
    /* 1 Kbit: an address of the EEPROM is less than 128 */
    CHECK(mcp795_init(&chip, MCP795_PART_B1K), 0);
    stages(&chip);
    CHECK_DONE(mcp795_select(&chip));
    CHECK_DONE(mcp795_transfer(&chip, MCP795_EEREAD));
    CHECK_DONE(mcp795_transfer(&chip, 0x7F));
    every_place(&chip);
    CHECK(mcp795_init(&chip, MCP795_PART_W1K), 0);
    begin_write(&chip);
    every_place(&chip);
}
