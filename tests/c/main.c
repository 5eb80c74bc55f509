/* The tests of the C interface. Prints how many checks passed, or each that failed; then the status is 1. */
#include "check.h"

#include <inttypes.h>
#include <stdio.h>

static unsigned long passed, failed;
static const char *context;
static uint64_t context_first, context_second;

void check_in(const char *name, uint64_t first, uint64_t second)
{
    context = name;
    context_first = first;
    context_second = second;
}

/* Counts a failure, and says whether it is to be told: of many, the first ones are enough. */
static bool told(const char *file, int line, const char *what)
{
    failed++;
    if (failed > 20) return false;
    printf("%s:%d: %s", file, line, what);
    if (context != NULL) printf(" (%s %" PRIu64 ", %" PRIu64 ")", context, context_first, context_second);
    return true;
}

void check_equal(const char *file, int line, const char *what, uint64_t found, uint64_t expected)
{
    if (found == expected) {
        passed++;
    } else if (told(file, line, what)) {
        printf(": found %" PRIu64 ", expected %" PRIu64 "\n", found, expected);
    }
}

void check_bytes(const char *file, int line, const char *what, const void *found, const void *expected, size_t size)
{
    const uint8_t *one = (const uint8_t *)found, *other = (const uint8_t *)expected;
    size_t at = 0;
    while (at < size && one[at] == other[at]) at++;
    if (at == size) {
        passed++;
    } else if (told(file, line, what)) {
        printf(": byte %zu: found %u, expected %u\n", at, one[at], other[at]);
    }
}

void check_answer(const char *file, int line, mcp795_answer answer, int refusal, bool driven, uint8_t reply, uint64_t count,
                  bool irq, bool wdo)
{
    check_equal(file, line, "refusal", (uint64_t)answer.refusal, (uint64_t)refusal);
    check_equal(file, line, "driven", answer.driven, driven);
    check_equal(file, line, "reply", answer.reply, reply);
    check_equal(file, line, "count", answer.count, count);
    check_equal(file, line, "irq", answer.irq, irq);
    check_equal(file, line, "wdo", answer.wdo, wdo);
}

uint64_t count_at(const uint8_t *state, size_t place)
{
    return (uint64_t)state[place] | (uint64_t)state[place + 1] << 8 | (uint64_t)state[place + 2] << 16;
}

void set_count(uint8_t *state, size_t place, uint64_t number)
{
    int byte;
    for (byte = 0; byte < 3; byte++) state[place + (size_t)byte] = (uint8_t)(number >> 8 * byte & 255);
}

void send_frame(mcp795_chip *chip, const uint8_t *bytes, size_t size)
{
    size_t at;
    CHECK(mcp795_select(chip).refusal, 0);
    for (at = 0; at < size; at++) CHECK(mcp795_transfer(chip, bytes[at]).refusal, 0);
    CHECK(mcp795_end(chip, 0).refusal, 0);
}

void begin_write(mcp795_chip *chip)
{
    static const uint8_t enable[] = {MCP795_EEWREN}, write[] = {MCP795_EEWRITE, 0x10, 4, 210};
    send_frame(chip, enable, sizeof enable);
    send_frame(chip, write, sizeof write);
}

int main(void)
{
    test_frames();
    test_refusals();
    test_states();
    test_saved();
    test_time();
    test_events();
    if (failed != 0) {
        printf("%lu checks failed, %lu passed\n", failed, passed);
        return 1;
    }
    printf("%lu checks passed\n", passed);
    return 0;
}
