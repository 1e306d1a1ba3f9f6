/* The controller's one entry point, for hosts in C (from C99) and C++. docs/HOSTS.md has it at length, with a
 * first program; docs/NUMBERS.md says what each number means and what to do about it.
 *
 * Link target/staticlib/libcontroller.a, made by `host/archive.sh` for x86-64 Linux. It needs memcpy and
 * memset, has no data of its own and calls nothing else, so any number of threads may be inside it at once, each with
 * buffers of its own. A call takes at most TOLTJEBRIM_STACK bytes of stack.
 */
#ifndef TOLTJEBRIM_H
#define TOLTJEBRIM_H

#include <stddef.h>
#include <stdint.h>

#ifdef __cplusplus
extern "C" {
#endif

/* The exact lengths, in bytes, of lent memory and of the lent table. */
#define TOLTJEBRIM_MEMORY 57344
#define TOLTJEBRIM_TABLE 7168

/* The longest routine, in bytes; a longer one is refused unread. */
#define TOLTJEBRIM_ROUTINE 16384

/* No call takes more bytes of stack than this; tests/host.sh measures it. */
#define TOLTJEBRIM_STACK 491520

/* The reasons. From 30 on, and 0: how a run stopped. From 1 to 11: why there was none. */
enum toltjebrim_reason {
    TOLTJEBRIM_END = 0,            /* the run reached END */
    TOLTJEBRIM_TOO_LONG = 1,       /* the file is too long */
    TOLTJEBRIM_ENDS_EARLY = 2,     /* the file ends early */
    TOLTJEBRIM_BAD_NUMBER = 3,     /* a number is not in its shortest form, or does not fit 32 bits */
    TOLTJEBRIM_VERSION = 4,        /* the version is not 1 */
    TOLTJEBRIM_COUNT = 5,          /* a count is out of its range */
    TOLTJEBRIM_FIELD = 6,          /* another number is out of its range or order */
    TOLTJEBRIM_LEFT_OVER = 7,      /* bytes after the last instruction */
    TOLTJEBRIM_CLASSES = 8,        /* more than 254 classes */
    TOLTJEBRIM_GLOBALS = 9,        /* the globals do not fit */
    TOLTJEBRIM_CODE_ROOM = 10,     /* no room for instrumented code: this function never gives it */
    TOLTJEBRIM_LENGTHS = 11,       /* memory or table is not of its exact length */
    TOLTJEBRIM_PAST_END = 30,      /* the run went past the last instruction */
    TOLTJEBRIM_LIMIT = 31,         /* the limit was used up */
    TOLTJEBRIM_NO_INPUT = 32,      /* IN, and no more input */
    TOLTJEBRIM_NO_ROOM = 33,       /* OUT, and no room */
    TOLTJEBRIM_READ_OUTSIDE = 34,  /* a read outside memory */
    TOLTJEBRIM_STORE_OUTSIDE = 35, /* a store outside memory: this function never gives it */
    TOLTJEBRIM_FORBIDDEN = 36,     /* a store outside the objects on its list */
    TOLTJEBRIM_BAD_FREE = 37,      /* FREE of what is no live block */
    TOLTJEBRIM_UNSOUND = 38        /* an unsound heap: this function never gives it */
};

/* What comes back. Of a refusal the place is a byte of the file (0 for 1, 8, 9 and 11), and steps, out and taken are 0;
 * of a stop it is the instruction, counted from 0. */
typedef struct toltjebrim_record {
    uint64_t reason; /* one of the above */
    uint64_t place;
    uint64_t steps; /* instructions that were completed */
    uint64_t out;   /* how many numbers stand in `room` */
    uint64_t taken; /* how many numbers of `input` were taken */
} toltjebrim_record;

/* Instruments a routine (a version 1 file) and runs it. `numbers` gets the five numbers of a record, in its order.
 *
 * Each buffer is a pointer and a length. file_length, memory_length and table_length count bytes; input_length and
 * room_length count numbers of four bytes. Pointers are aligned for their type. A pointer may be NULL only where its
 * length is 0. The buffers do not overlap and are used by nobody else during the call; none is kept after it.
 *
 * Memory and table are cleared first, so nothing of an earlier run is left. `limit` counts completed instructions;
 * checks are not among them. What came before a stop stays, in memory and in room; the instruction that stops changes
 * nothing. Numbers of `room` behind the last one put out stay as they were. A refusal changes no lent byte. */
void toltjebrim_control(const uint8_t *file, size_t file_length,
                        const uint32_t *input, size_t input_length,
                        uint8_t *memory, size_t memory_length,
                        uint8_t *table, size_t table_length,
                        uint32_t *room, size_t room_length,
                        uint32_t limit, uint64_t numbers[5]);

/* The same, with memory and table of their lengths, and the record as a struct. */
static inline toltjebrim_record toltjebrim_run(const uint8_t *file, size_t file_length,
                                               const uint32_t *input, size_t input_length,
                                               uint8_t memory[TOLTJEBRIM_MEMORY], uint8_t table[TOLTJEBRIM_TABLE],
                                               uint32_t *room, size_t room_length, uint32_t limit) {
    uint64_t numbers[5];
    toltjebrim_record record;
    toltjebrim_control(file, file_length, input, input_length, memory, TOLTJEBRIM_MEMORY, table, TOLTJEBRIM_TABLE, room,
                       room_length, limit, numbers);
    record.reason = numbers[0];
    record.place = numbers[1];
    record.steps = numbers[2];
    record.out = numbers[3];
    record.taken = numbers[4];
    return record;
}

/* Whether there was a run: 0 for a refusal. */
static inline int toltjebrim_ran(toltjebrim_record record) {
    return record.reason == TOLTJEBRIM_END || record.reason >= TOLTJEBRIM_PAST_END;
}

/* A reason in words. */
static inline const char *toltjebrim_words(uint64_t reason) {
    switch (reason) {
    case TOLTJEBRIM_END: return "finished";
    case TOLTJEBRIM_TOO_LONG: return "the file is too long";
    case TOLTJEBRIM_ENDS_EARLY: return "the file ends early";
    case TOLTJEBRIM_BAD_NUMBER: return "a number is not in its shortest form, or does not fit 32 bits";
    case TOLTJEBRIM_VERSION: return "the version is another one";
    case TOLTJEBRIM_COUNT: return "a count is out of its range";
    case TOLTJEBRIM_FIELD: return "a number is out of its range or order";
    case TOLTJEBRIM_LEFT_OVER: return "bytes after the last instruction";
    case TOLTJEBRIM_CLASSES: return "more than 254 classes";
    case TOLTJEBRIM_GLOBALS: return "the globals do not fit";
    case TOLTJEBRIM_CODE_ROOM: return "no room for the instrumented code";
    case TOLTJEBRIM_LENGTHS: return "memory or table of another length";
    case TOLTJEBRIM_PAST_END: return "past the last instruction";
    case TOLTJEBRIM_LIMIT: return "the limit was used up";
    case TOLTJEBRIM_NO_INPUT: return "no more input";
    case TOLTJEBRIM_NO_ROOM: return "no room for output";
    case TOLTJEBRIM_READ_OUTSIDE: return "a read outside memory";
    case TOLTJEBRIM_STORE_OUTSIDE: return "a store outside memory";
    case TOLTJEBRIM_FORBIDDEN: return "a forbidden store";
    case TOLTJEBRIM_BAD_FREE: return "a bad FREE";
    case TOLTJEBRIM_UNSOUND: return "an unsound heap";
    default: return "no number of this library";
    }
}

#ifdef __cplusplus
}
#endif

#endif
