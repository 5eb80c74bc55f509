/* mcp795.h: the proved MCP795XX in your own test run. C99 or C++11, x86-64 Linux.
 *
 *     mcp795_chip chip;
 *     mcp795_answer got;
 *     mcp795_init(&chip, MCP795_PART_W2K);
 *     mcp795_select(&chip);
 *     mcp795_transfer(&chip, MCP795_EEREAD);
 *     mcp795_transfer(&chip, 0x10);
 *     got = mcp795_transfer(&chip, 0);        got.driven is true, got.reply is FFh: the EEPROM is erased
 *     mcp795_end(&chip, 0);
 *
 * tools/library builds the library and tells how to link it; docs/RULES.md says what the chip does. Later editions have more
 * acts and a longer state: use the names below, not their numbers, and the header of the tree that the library was built in. A chip
 * that was made with a header of another length is refused by 6; nothing is written past its array.
 */
#ifndef MCP795_H
#define MCP795_H

#include <stdbool.h>
#include <stddef.h>
#include <stdint.h>

#if SIZE_MAX < UINT64_MAX
#error "mcp795.h: the library is for x86-64 Linux, where a size_t has 64 bits"
#endif

#ifdef __cplusplus
extern "C" {
#endif

/* ---- Numbers ---- */

#define MCP795_STATE 142       /* bytes of a state */
#define MCP795_ANSWER 6        /* numbers of an answer */
#define MCP795_DIFF_ANSWER 5   /* numbers of the answer of mcp795_diff */
#define MCP795_CLOCK_BLOCK 96  /* bytes of registers and SRAM: addresses 00h to 5Fh */
#define MCP795_ID_SIZE 16      /* bytes of the ID */
#define MCP795_EEPROM_MAX 256  /* bytes of the larger EEPROM; see mcp795_eeprom_size */
#define MCP795_TEXT_MAX 2108   /* bytes that every saved text fits in */
#define MCP795_LISTING_MAX 16384 /* bytes that every listing of mcp795_diff fits in */

#define MCP795_TICKS_PER_SECOND UINT64_C(32768)
#define MCP795_WAIT_MAX UINT64_C(16777216) /* ticks of the longest wait */

/* Parts */
#define MCP795_PART_W1K 1 /* W, EEPROM of 1 Kbit: 128 bytes */
#define MCP795_PART_W2K 2 /* W, 2 Kbit: 256 bytes */
#define MCP795_PART_B1K 3 /* B, 1 Kbit */
#define MCP795_PART_B2K 4 /* B, 2 Kbit */

/* Acts, and the number that each takes */
#define MCP795_ACT_SELECT 0 /* CS falls: 0 */
#define MCP795_ACT_BYTE 1   /* eight bits in and out: the byte */
#define MCP795_ACT_END 2    /* CS rises: 0 to 7, the leftover bits of a byte that was not finished */
#define MCP795_ACT_WAIT 3   /* time passes: ticks, at most MCP795_WAIT_MAX */
#define MCP795_ACT_CUT 4    /* power fails: bit k is set if offset k of a page being written got stored */
#define MCP795_ACT_UP 5     /* power comes back: 0 */
#define MCP795_ACT_EVLS 6   /* the door's switch, EVLS: its level, 0 or 1 */
#define MCP795_ACT_EVHS 7   /* the drum's sensor, EVHS: its level, 0 or 1 */

/* Refusals; mcp795_refusal_text has the words. 71 to 75 are a tape's, for a line that is bad, and are never answered here. */
#define MCP795_DONE 0
#define MCP795_REFUSED_SELECTED 1
#define MCP795_REFUSED_NOT_SELECTED 2
#define MCP795_REFUSED_ARGUMENT 3
#define MCP795_REFUSED_SIZE 4
#define MCP795_REFUSED_POWER 5
#define MCP795_REFUSED_STATE 6
#define MCP795_REFUSED_TEXT 8

/* Instruction codes, the first byte of a frame */
#define MCP795_SRWRITE 0x01
#define MCP795_EEWRITE 0x02
#define MCP795_EEREAD 0x03
#define MCP795_EEWRDI 0x04
#define MCP795_SRREAD 0x05
#define MCP795_EEWREN 0x06
#define MCP795_WRITE 0x12
#define MCP795_READ 0x13
#define MCP795_UNLOCK 0x14
#define MCP795_IDWRITE 0x32
#define MCP795_IDREAD 0x33
#define MCP795_CLRWDT 0x44
#define MCP795_CLRRAM 0x54

/* STATUS, which SRREAD answers */
#define MCP795_STATUS_WIP 0x01 /* a write cycle runs */
#define MCP795_STATUS_WEL 0x02 /* the write enable latch */
#define MCP795_STATUS_BP0 0x04
#define MCP795_STATUS_BP1 0x08

/* EVENT_DETECT, the register of the event inputs, and its bits */
#define MCP795_EVENT_DETECT 0x0B
#define MCP795_EVHIF 0x80  /* EVHS had its edges */
#define MCP795_EVLIF 0x40  /* EVLS stayed high for the debounce */
#define MCP795_EVEN1 0x20  /* enables EVHS */
#define MCP795_EVEN0 0x10  /* enables EVLS */
#define MCP795_EVWDT 0x08  /* edges of EVHS zero the watchdog's count, and are no events */
#define MCP795_EVLDB 0x04  /* the debounce is 500 ms, and not 31.25 ms */
#define MCP795_EDGES_1 0x00
#define MCP795_EDGES_4 0x01
#define MCP795_EDGES_16 0x02
#define MCP795_EDGES_32 0x03

/* Where a state has what: a byte, unless another number of them is told. A count has three, the lowest first. D154 and
 * D194 of docs/DECISIONS.md tell which numbers each place may have. */
#define MCP795_AT_PART 0
#define MCP795_AT_REGISTERS 1  /* 32: 00h to 1Fh as stored; bits that READ computes are 0 */
#define MCP795_AT_SRAM 33      /* 64: 20h to 5Fh, so that address a of the clock block is at MCP795_AT_REGISTERS + a */
#define MCP795_AT_DIVIDER 97   /* a count, and so are the next four */
#define MCP795_AT_STARTUP 100
#define MCP795_AT_WATCHDOG 103
#define MCP795_AT_DELAY 106
#define MCP795_AT_PULSE 109
#define MCP795_AT_POWER 112
#define MCP795_AT_MARK 113
#define MCP795_AT_WEL 114
#define MCP795_AT_BP 115
#define MCP795_AT_LOCK 116
#define MCP795_AT_STAGE 117    /* 3: kind (0: not selected), case, value */
#define MCP795_AT_OFFSETS 120
#define MCP795_AT_LOAD 121     /* 8 */
#define MCP795_AT_NEXT 129
#define MCP795_AT_TARGET 130   /* 2: kind, value */
#define MCP795_AT_LEFT 132     /* ticks left of the write cycle; WIP is set while it is not 0 */
#define MCP795_AT_EVLS 133     /* the level */
#define MCP795_AT_EVHS 134
#define MCP795_AT_EDGES 135    /* rises of EVHS that are counted */
#define MCP795_AT_SINCE 136    /* a count: ticks since the first of them */
#define MCP795_AT_DEBOUNCE 139 /* a count: ticks that EVLS has yet to stay high; 0: nothing is awaited */

/* ---- The library ----
 *
 * A chip is a state and two memories, arrays of bytes, all of them the caller's; the library has no memory of its own and
 * allocates none. The caller sees to it that
 *
 * - every pointer is valid, also where its size is 0, and no two of one call overlap, but for the two texts of mcp795_diff;
 * - an array has as many bytes as its size tells; an answer has MCP795_ANSWER numbers, that of mcp795_diff MCP795_DIFF_ANSWER, and
 *   it, line and length are aligned;
 * - no two threads use one chip at a time. Chips know nothing of each other: different ones may be used at once.
 *
 * A state has MCP795_STATE bytes. One of any other size, as an older header would make it, is refused by 6 and not overrun.
 *
 * Each function returns a refusal number, 0 for done. What is refused changes nothing but answer, *line or *length.
 */

/* A fresh chip, its memories erased. Refused by 3 if there is no such part, by 4 if a memory's size is not the part's, by 6 if
 * state_size is not MCP795_STATE. */
uint64_t mcp795_new(uint64_t part, uint8_t *state, size_t state_size, uint8_t *eeprom, size_t eeprom_size, uint8_t *id,
                    size_t id_size);

/* An act. The answer: [0] the refusal number; [1] 1 if SO drives a reply; [2] the reply, a byte, or of an end its leftover bits
 * as a number; [3] the ticks that a wait used, or the bytes that a cut stored; [4] IRQ and [5] WDO after the act, 1 high, 0 low.
 * What does not apply is 0. A wait is over after the first tick that changes IRQ, WDO, WIP or an event flag (EVHIF, EVLIF). Of
 * several refusals the first answers: 3 if the first byte is no part, or there is none; 4; 6; 3 for act and number; 5; 1 or 2.
 * Arrays that are refused by the first three of these are no chip, and IRQ and WDO are 1. */
uint64_t mcp795_act(uint8_t *state, size_t state_size, uint8_t *eeprom, size_t eeprom_size, uint8_t *id, size_t id_size,
                    uint64_t act, uint64_t number, uint64_t *answer);

/* The chip of a saved text. Refused by 6 if state_size is not MCP795_STATE; then by 8 if the text is no saved chip: *line is its
 * first bad line, from 1; then by 4 if a memory's size is not that of the text's part. *line is 0 but for 8. A text that ends
 * before the lines of the event inputs, saved when there were none, is a chip that has 0 in each. */
uint64_t mcp795_load(const uint8_t *text, size_t text_size, uint8_t *state, size_t state_size, uint8_t *eeprom,
                     size_t eeprom_size, uint8_t *id, size_t id_size, uint64_t *line);

/* The chip as text, *length bytes with no 0 after them. Refused as an act is by 3, 4 and 6; then by 8 if text_size is too small.
 * *length is 0 where it is refused. */
uint64_t mcp795_save(const uint8_t *state, size_t state_size, const uint8_t *eeprom, size_t eeprom_size, const uint8_t *id,
                     size_t id_size, uint8_t *text, size_t text_size, uint64_t *length);

/* What differs between the chips of two saved texts. For each number that is not the same the listing has a line
 * `key,place,first,second`, as `ee2,1,255,210`: the key of its line, its place in that line from 0, and the two numbers. The lines stand
 * in the order of the saved form, each with its newline. The answer: [0] the refusal number; [1] the text that was refused, 1 or 2;
 * [2] its first bad line, from 1; [3] how many numbers differ; [4] the bytes of the listing, with no 0 after them. What does not apply
 * is 0. Refused by 8 if a text is no saved chip, the first before the second; by no other number.
 *
 * Too little room is no refusal: the first whole lines that fit are listed, and [3] still counts all. Lines that only one of the texts has
 * are not compared: those of the larger EEPROM behind the smaller. A text from before there were event inputs is compared as the chip that
 * it loads as. */
uint64_t mcp795_diff(const uint8_t *first, size_t first_size, const uint8_t *second, size_t second_size, uint8_t *listing,
                     size_t listing_size, uint64_t *answer);

/* ---- A chip as a struct ---- */

/* Copying it copies the chip, and writing the copy back restores it, a write cycle under way and an open frame too. */
typedef struct mcp795_chip {
    uint8_t state[MCP795_STATE];
    uint8_t eeprom[MCP795_EEPROM_MAX]; /* a part of 1 Kbit uses the first half; the rest is FFh */
    uint8_t id[MCP795_ID_SIZE];
} mcp795_chip;

typedef struct mcp795_answer {
    int refusal;    /* 0: done */
    bool driven;    /* SO drives a reply */
    uint8_t reply;  /* 0 if it does not */
    uint64_t count; /* ticks that a wait used, bytes that a cut stored */
    bool irq;       /* the lines after the act: true is high */
    bool wdo;
} mcp795_answer;

/* What a refusal number means; 71 to 75 for who reads the answers of a tape. */
static inline const char *mcp795_refusal_text(int number)
{
    switch (number) {
    case MCP795_DONE: return "done";
    case MCP795_REFUSED_SELECTED: return "select, and the chip is selected already";
    case MCP795_REFUSED_NOT_SELECTED: return "byte or end, and the chip is not selected";
    case MCP795_REFUSED_ARGUMENT: return "the argument is not one that the act takes, or there is no such act or part";
    case MCP795_REFUSED_SIZE: return "a memory has not the part's length";
    case MCP795_REFUSED_POWER: return "power is off, and the act is select, byte, end or cut; or it is on, and the act is up";
    case MCP795_REFUSED_STATE: return "the chip's state is out of range, or has another length than the library's";
    case MCP795_REFUSED_TEXT: return "the text is no saved chip, or there is too little room for it";
    case 71: return "the line is longer than 64 bytes";
    case 72: return "the line is not of the form";
    case 73: return "the line has an unknown name";
    case 74: return "the line comes before a part, or names a part again";
    case 75: return "the line's number has a needless zero, or more than 8 digits";
    default: return "no such number";
    }
}

/* Bytes of a part's EEPROM; 0 if there is no such part. */
static inline size_t mcp795_eeprom_size(uint64_t part)
{
    switch (part) {
    case MCP795_PART_W1K:
    case MCP795_PART_B1K: return 128;
    case MCP795_PART_W2K:
    case MCP795_PART_B2K: return 256;
    default: return 0;
    }
}

/* For the functions below: makes the EEPROM bytes that the part has not got FFh. */
static inline void mcp795_fill_rest(mcp795_chip *chip)
{
    size_t at;
    for (at = mcp795_eeprom_size(chip->state[MCP795_AT_PART]); at < MCP795_EEPROM_MAX; at++) chip->eeprom[at] = 0xFF;
}

/* A fresh chip. Returns the refusal number, which is 6 if the header is not the library's; a refused call leaves the struct as it
 * was. */
static inline int mcp795_init(mcp795_chip *chip, uint64_t part)
{
    int refusal = (int)mcp795_new(part, chip->state, MCP795_STATE, chip->eeprom, mcp795_eeprom_size(part), chip->id,
                                  MCP795_ID_SIZE);
    if (refusal == MCP795_DONE) mcp795_fill_rest(chip);
    return refusal;
}

/* Any act; those below are this one by name. */
static inline mcp795_answer mcp795_do(mcp795_chip *chip, uint64_t act, uint64_t number)
{
    uint64_t raw[MCP795_ANSWER];
    mcp795_answer answer;
    mcp795_act(chip->state, MCP795_STATE, chip->eeprom, mcp795_eeprom_size(chip->state[MCP795_AT_PART]), chip->id, MCP795_ID_SIZE,
               act, number, raw);
    answer.refusal = (int)raw[0];
    answer.driven = raw[1] != 0;
    answer.reply = (uint8_t)raw[2];
    answer.count = raw[3];
    answer.irq = raw[4] != 0;
    answer.wdo = raw[5] != 0;
    return answer;
}

static inline mcp795_answer mcp795_select(mcp795_chip *chip)
{
    return mcp795_do(chip, MCP795_ACT_SELECT, 0);
}

/* A byte takes no time. So a driver that polls WIP, or anything that time changes, never ends: see mcp795_transfer_at. */
static inline mcp795_answer mcp795_transfer(mcp795_chip *chip, uint8_t byte)
{
    return mcp795_do(chip, MCP795_ACT_BYTE, byte);
}

static inline mcp795_answer mcp795_end(mcp795_chip *chip, unsigned leftover_bits)
{
    return mcp795_do(chip, MCP795_ACT_END, leftover_bits);
}

/* Stops early, where a line, WIP or an event flag changes: the answer's count tells when. mcp795_advance does not. */
static inline mcp795_answer mcp795_wait(mcp795_chip *chip, uint64_t ticks)
{
    return mcp795_do(chip, MCP795_ACT_WAIT, ticks);
}

static inline mcp795_answer mcp795_cut(mcp795_chip *chip, uint8_t mask)
{
    return mcp795_do(chip, MCP795_ACT_CUT, mask);
}

static inline mcp795_answer mcp795_up(mcp795_chip *chip)
{
    return mcp795_do(chip, MCP795_ACT_UP, 0);
}

/* The door's switch, EVLS. A rise starts the debounce if EVEN0 and OSCON are set and EVLIF is clear; a fall ends it. Levels are 0
 * and 1, with power or without; the level that is there already is no edge. */
static inline mcp795_answer mcp795_set_evls(mcp795_chip *chip, unsigned level)
{
    return mcp795_do(chip, MCP795_ACT_EVLS, level);
}

/* The drum's sensor, EVHS. A rise counts if EVEN1 and OSCON are set and EVHIF and EVWDT clear: the last one sets EVHIF, and the
 * answer shows IRQ low. */
static inline mcp795_answer mcp795_set_evhs(mcp795_chip *chip, unsigned level)
{
    return mcp795_do(chip, MCP795_ACT_EVHS, level);
}

/* IRQ and WDO as they are. Nothing changes, and no time passes. */
static inline mcp795_answer mcp795_levels(mcp795_chip *chip)
{
    return mcp795_wait(chip, 0);
}

/* ---- Looks without a frame: the chip is not asked, and nothing changes ---- */

/* A byte of the clock block as it is stored: a register, 00h to 1Fh, or SRAM, 20h to 5Fh. Bits that the chip makes when it is
 * read (OSCON, the leap year, bit 6 of the alarms' hours) are not in it; a READ frame has them. 0 above 5Fh. */
static inline uint8_t mcp795_peek(const mcp795_chip *chip, uint8_t address)
{
    return address < MCP795_CLOCK_BLOCK ? chip->state[MCP795_AT_REGISTERS + address] : (uint8_t)0;
}

/* A write cycle runs. */
static inline bool mcp795_wip(const mcp795_chip *chip)
{
    return chip->state[MCP795_AT_LEFT] != 0;
}

/* The write enable latch is set. */
static inline bool mcp795_wel(const mcp795_chip *chip)
{
    return chip->state[MCP795_AT_WEL] != 0;
}

/* A frame is open. */
static inline bool mcp795_selected(const mcp795_chip *chip)
{
    return chip->state[MCP795_AT_STAGE] != 0;
}

/* Power is on. */
static inline bool mcp795_powered(const mcp795_chip *chip)
{
    return chip->state[MCP795_AT_POWER] != 0;
}

/* The levels that the event inputs were set to: true is high. */
static inline bool mcp795_evls(const mcp795_chip *chip)
{
    return chip->state[MCP795_AT_EVLS] != 0;
}

static inline bool mcp795_evhs(const mcp795_chip *chip)
{
    return chip->state[MCP795_AT_EVHS] != 0;
}

/* MCP795_EVHIF and MCP795_EVLIF, those that are set. Each of them holds IRQ low. */
static inline uint8_t mcp795_event_flags(const mcp795_chip *chip)
{
    return mcp795_peek(chip, MCP795_EVENT_DETECT) & (MCP795_EVHIF | MCP795_EVLIF);
}

/* ---- Time ---- */

#define MCP795_CHANGED_IRQ 1u
#define MCP795_CHANGED_WDO 2u
#define MCP795_CHANGED_WIP 4u
#define MCP795_CHANGED_EVENT 8u /* an event flag */

typedef struct mcp795_change {
    uint64_t ticks;   /* since mcp795_advance was called, the tick of the change among them */
    unsigned changed; /* MCP795_CHANGED_.. */
    bool irq;         /* the levels after it */
    bool wdo;
    bool wip;
    uint8_t flags;    /* as mcp795_event_flags has them */
} mcp795_change;

typedef void mcp795_report(const mcp795_change *change, void *context);

/* Lets all of these ticks pass, however many, and reports every change of IRQ, WDO, WIP and the event flags on the way, that of the
 * last tick too. `report` may be null. It may act on the chip, as an interrupt handler would; ticks that it lets pass itself are not
 * among these. In the answer, count is how many passed: all, if nothing was refused. */
static inline mcp795_answer mcp795_advance(mcp795_chip *chip, uint64_t ticks, mcp795_report *report, void *context)
{
    uint64_t passed = 0;
    mcp795_answer answer = mcp795_levels(chip);
    while (answer.refusal == MCP795_DONE && passed < ticks) {
        const mcp795_answer before = answer;
        const bool wip = mcp795_wip(chip);
        const uint8_t flags = mcp795_event_flags(chip);
        const uint64_t asked = ticks - passed < MCP795_WAIT_MAX ? ticks - passed : MCP795_WAIT_MAX;
        mcp795_change change;
        answer = mcp795_wait(chip, asked);
        passed += answer.count;
        change.ticks = passed;
        change.irq = answer.irq;
        change.wdo = answer.wdo;
        change.wip = mcp795_wip(chip);
        change.flags = mcp795_event_flags(chip);
        change.changed = (change.irq != before.irq ? MCP795_CHANGED_IRQ : 0) | (change.wdo != before.wdo ? MCP795_CHANGED_WDO : 0) |
                         (change.wip != wip ? MCP795_CHANGED_WIP : 0) | (change.flags != flags ? MCP795_CHANGED_EVENT : 0);
        if (report != NULL && (change.changed != 0 || answer.count < asked)) {
            report(&change, context);
            answer = mcp795_levels(chip);
        }
    }
    answer.count = passed;
    return answer;
}

/* An SPI bus on which bytes take time: eight bits at `hz` are 8 * 32768 / hz ticks. What is less than a tick is kept for the
 * next byte. */
typedef struct mcp795_bus {
    uint32_t hz;           /* the clock's frequency, not 0; to change it, set `rest` to 0 */
    uint64_t rest;         /* time that is no whole tick yet, in 1/hz of a tick; begin with 0 */
    mcp795_report *report; /* as for mcp795_advance; its ticks are those of one byte */
    void *context;
} mcp795_bus;

/* A byte, then the time that it takes. A refused one takes none; hz of 0 is refused by 3. IRQ and WDO are those after that time. In a
 * driver's SPI hook:
 *
 *     static mcp795_bus bus = {1000000, 0, NULL, NULL};
 *     mcp795_answer got = mcp795_transfer_at(&chip, &bus, out);
 *     return got.driven ? got.reply : 0xFF;
 */
static inline mcp795_answer mcp795_transfer_at(mcp795_chip *chip, mcp795_bus *bus, uint8_t byte)
{
    mcp795_answer answer, after;
    uint64_t ticks;
    if (bus->hz == 0) {
        answer = mcp795_levels(chip);
        if (answer.refusal == MCP795_DONE) answer.refusal = MCP795_REFUSED_ARGUMENT;
        return answer;
    }
    answer = mcp795_transfer(chip, byte);
    if (answer.refusal != MCP795_DONE) return answer;
    bus->rest += 8 * MCP795_TICKS_PER_SECOND;
    ticks = bus->rest / bus->hz;
    bus->rest %= bus->hz;
    after = mcp795_advance(chip, ticks, bus->report, bus->context);
    answer.irq = after.irq;
    answer.wdo = after.wdo;
    return answer;
}

/* ---- Saved text, as ./run --save writes it ---- */

/* Sets *length. MCP795_TEXT_MAX bytes of room are always enough; where there is none, `text` may be null. */
static inline int mcp795_to_text(const mcp795_chip *chip, char *text, size_t room, size_t *length)
{
    uint8_t none = 0;
    uint64_t written = 0;
    int refusal = (int)mcp795_save(chip->state, MCP795_STATE, chip->eeprom, mcp795_eeprom_size(chip->state[MCP795_AT_PART]),
                                   chip->id, MCP795_ID_SIZE, room == 0 ? &none : (uint8_t *)text, room, &written);
    *length = (size_t)written;
    return refusal;
}

/* The chip of a text, whatever its part. Where it is refused by 8, *line is the first bad line. A refused call leaves the struct as
 * it was. `text` may be null if it has no byte. */
static inline int mcp795_from_text(mcp795_chip *chip, const char *text, size_t size, uint64_t *line)
{
    const uint8_t none = 0;
    const uint8_t *bytes = size == 0 ? &none : (const uint8_t *)text;
    int refusal = (int)mcp795_load(bytes, size, chip->state, MCP795_STATE, chip->eeprom, 256, chip->id, MCP795_ID_SIZE, line);
    if (refusal == MCP795_REFUSED_SIZE) {
        refusal = (int)mcp795_load(bytes, size, chip->state, MCP795_STATE, chip->eeprom, 128, chip->id, MCP795_ID_SIZE, line);
    }
    if (refusal == MCP795_DONE) mcp795_fill_rest(chip);
    return refusal;
}

/* ---- What differs between two chips, as ./run --diff lists it ---- */

typedef struct mcp795_differences {
    int refusal;   /* 0: done */
    int which;     /* the text or chip that was refused, 1 or 2; 0: none */
    uint64_t line; /* the first bad line of a text that was refused by 8 */
    size_t count;  /* how many numbers differ; 0: they are alike */
    size_t length; /* bytes of the listing */
} mcp795_differences;

/* Of two saved texts, as mcp795_diff. MCP795_LISTING_MAX bytes of room are always enough. A pointer may be null if it has no byte: with no
 * room, only the count is asked for. */
static inline mcp795_differences mcp795_diff_texts(const char *first, size_t first_size, const char *second, size_t second_size,
                                                   char *listing, size_t room)
{
    const uint8_t nothing = 0;
    uint8_t none = 0;
    uint64_t raw[MCP795_DIFF_ANSWER];
    mcp795_differences found;
    mcp795_diff(first_size == 0 ? &nothing : (const uint8_t *)first, first_size,
                second_size == 0 ? &nothing : (const uint8_t *)second, second_size, room == 0 ? &none : (uint8_t *)listing, room, raw);
    found.refusal = (int)raw[0];
    found.which = (int)raw[1];
    found.line = raw[2];
    found.count = (size_t)raw[3];
    found.length = (size_t)raw[4];
    return found;
}

/* Of two chips: what changed from a copy to the chip itself, say. A chip that mcp795_to_text refuses is refused by the same number. */
static inline mcp795_differences mcp795_diff_chips(const mcp795_chip *first, const mcp795_chip *second, char *listing, size_t room)
{
    char texts[2][MCP795_TEXT_MAX];
    size_t sizes[2];
    mcp795_differences found = {0, 1, 0, 0, 0};
    found.refusal = mcp795_to_text(first, texts[0], sizeof texts[0], &sizes[0]);
    if (found.refusal != MCP795_DONE) return found;
    found.which = 2;
    found.refusal = mcp795_to_text(second, texts[1], sizeof texts[1], &sizes[1]);
    if (found.refusal != MCP795_DONE) return found;
    return mcp795_diff_texts(texts[0], sizes[0], texts[1], sizes[1], listing, room);
}

#ifdef __cplusplus
}
#endif

#endif
