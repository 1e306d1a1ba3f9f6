/* Tries the header: routine A of the scope with limit 8, memory of the wrong length, and a routine that takes
 * numbers and puts numbers out. tests/host.sh compiles it as C99, C17 and C++. */
#include "toltjebrim.h"
#include <stdio.h>
#include <string.h>

static const uint8_t a[] = {0x01, 0x03, 0x00, 0x05, 0x00, 0x08, 0x01, 0x01, 0x02, 0x00,
                            0x02, 0x05, 0x01, 0x01, 0x07, 0x02, 0x00, 0x00, 0x0A, 0x00,
                            0x01, 0x00, 0x03, 0x00, 0x00, 0x01, 0x0D, 0x01, 0x02};
/* IN 0, IN 1, ADD 2 0 1, OUT 2, OUT 0, JUMP 0 */
static const uint8_t sums[] = {0x01, 0x00, 0x00, 0x06, 0x10, 0x00, 0x10, 0x01, 0x03,
                               0x02, 0x00, 0x01, 0x11, 0x02, 0x11, 0x00, 0x0C, 0x00};
static const uint32_t input[] = {35, 7, 57000};
static uint8_t memory[TOLTJEBRIM_MEMORY], table[TOLTJEBRIM_TABLE];
static uint32_t room[4];
static int passed, failed;

static void check(const char *what, int holds) {
    printf("%s: %s\n", holds ? "ok" : "FAILED", what);
    *(holds ? &passed : &failed) += 1;
}

static int is(const uint64_t *numbers, uint64_t reason, uint64_t place, uint64_t steps, uint64_t out,
              uint64_t taken) {
    return numbers[0] == reason && numbers[1] == place && numbers[2] == steps && numbers[3] == out &&
           numbers[4] == taken;
}

static int holds_room(uint32_t first, uint32_t second, uint32_t third, uint32_t fourth) {
    return room[0] == first && room[1] == second && room[2] == third && room[3] == fourth;
}

static void clear_room(void) {
    room[0] = room[1] = room[2] = room[3] = 9;
}

/* The struct says what the five numbers say, and the words go by them. */
static void check_record(void) {
    toltjebrim_record run = toltjebrim_run(a, sizeof a, NULL, 0, memory, table, room, 4, 1000000);
    check("routine A as a record: 36 2 8 0 0", run.reason == TOLTJEBRIM_FORBIDDEN && run.place == 2 && run.steps == 8 &&
                                                   run.out == 0 && run.taken == 0);
    check("it was run", toltjebrim_ran(run));
    check("it says so in words", strcmp(toltjebrim_words(run.reason), "a forbidden store") == 0);
    run = toltjebrim_run(a, sizeof a - 1, NULL, 0, memory, table, room, 4, 1000000);
    check("a file that ends early as a record", run.reason == TOLTJEBRIM_ENDS_EARLY && run.place == sizeof a - 1);
    check("it was not run", !toltjebrim_ran(run));
    run = toltjebrim_run(sums, sizeof sums, input, 3, memory, table, room, 4, 1000);
    check("a record tells out from taken", run.out == 2 && run.taken == 3);
    run = toltjebrim_run(NULL, 0, NULL, 0, memory, table, NULL, 0, 1000);
    check("NULL with length 0 is the empty file", run.reason == TOLTJEBRIM_ENDS_EARLY && run.place == 0);
    check("a number that is no reason has words too", strcmp(toltjebrim_words(12), "no number of this library") == 0);
}

int main(void) {
    uint64_t numbers[5];
    toltjebrim_control(a, sizeof a, 0, 0, memory, sizeof memory, table, sizeof table, room, 4, 8, numbers);
    check("routine A with limit 8 gives 31 2 8 0 0", is(numbers, 31, 2, 8, 0, 0));
    toltjebrim_control(a, sizeof a, 0, 0, memory, 100, table, sizeof table, room, 4, 8, numbers);
    check("memory of another length is refused with 11", is(numbers, 11, 0, 0, 0, 0));

    clear_room();
    toltjebrim_control(sums, sizeof sums, input, 3, memory, sizeof memory, table, sizeof table, room, 4, 1000,
                       numbers);
    check("three inputs: 32 1 7 2 3", is(numbers, 32, 1, 7, 2, 3));
    check("42 and 35 were put out, and what is behind them stays", holds_room(42, 35, 9, 9));
    check("the inputs stay", input[0] == 35 && input[1] == 7 && input[2] == 57000);

    clear_room();
    toltjebrim_control(sums, sizeof sums, input, 3, memory, sizeof memory, table, sizeof table, room, 1, 1000,
                       numbers);
    check("room for one number: 33 4 4 1 2", is(numbers, 33, 4, 4, 1, 2));
    check("42 was put out, and what is behind the room stays", holds_room(42, 9, 9, 9));
    check_record();
    printf("%d passed, %d failed\n", passed, failed);
    return failed != 0;
}
