/* What the tests share. C99 that is C++11 too. */
#ifndef CHECK_H
#define CHECK_H

#include "mcp795.h"

/* A check of two numbers. One that fails is told with its place and both values, and the tests go on. */
#define CHECK(found, expected) check_equal(__FILE__, __LINE__, #found, (uint64_t)(found), (uint64_t)(expected))

/* Of two runs of bytes; the first place at which they differ is told. */
#define CHECK_BYTES(found, expected, size) check_bytes(__FILE__, __LINE__, #found, found, expected, size)

/* An answer as it has to be. */
#define CHECK_ANSWER(answer, refusal, driven, reply, count, irq, wdo) \
    check_answer(__FILE__, __LINE__, answer, refusal, driven, reply, count, irq, wdo)

/* An answer that is done with both lines high, as most are: nothing driven; a reply; a count. */
#define CHECK_DONE(answer) CHECK_ANSWER(answer, 0, false, 0, 0, true, true)
#define CHECK_REPLY(answer, reply) CHECK_ANSWER(answer, 0, true, reply, 0, true, true)
#define CHECK_COUNT(answer, count) CHECK_ANSWER(answer, 0, false, 0, count, true, true)

void check_equal(const char *file, int line, const char *what, uint64_t found, uint64_t expected);
void check_bytes(const char *file, int line, const char *what, const void *found, const void *expected, size_t size);
void check_answer(const char *file, int line, mcp795_answer answer, int refusal, bool driven, uint8_t reply, uint64_t count,
                  bool irq, bool wdo);

/* What a failure is told with, for checks in a loop: a name and two numbers. Null ends it. */
void check_in(const char *name, uint64_t first, uint64_t second);

/* The count that has its three bytes at a place of a state; and a state with another number there, its low 24 bits. */
uint64_t count_at(const uint8_t *state, size_t place);
void set_count(uint8_t *state, size_t place, uint64_t number);

/* A whole frame, nothing of it refused. */
void send_frame(mcp795_chip *chip, const uint8_t *bytes, size_t size);

/* EEWREN, then a write of 4 and 210 at 10h: its cycle of 164 ticks runs. */
void begin_write(mcp795_chip *chip);

void test_frames(void);
void test_refusals(void);
void test_states(void);
void test_saved(void);
void test_time(void);
void test_events(void);

#endif
