/* A first program: runs the routine in a file and says in words how it went. */
#include "toltjebrim.h"
#include <stdio.h>

static uint8_t file[TOLTJEBRIM_ROUTINE + 1], memory[TOLTJEBRIM_MEMORY], table[TOLTJEBRIM_TABLE];
static uint32_t room[100];

int main(int count, char **words) {
    FILE *from;
    size_t length, i;
    toltjebrim_record run;
    if (count != 2) {
        fprintf(stderr, "usage: first FILE\n");
        return 2;
    }
    from = fopen(words[1], "rb");
    if (from == NULL) {
        perror(words[1]);
        return 1;
    }
    /* One byte more than the longest routine, so that a longer one is seen to be too long. */
    length = fread(file, 1, sizeof file, from);
    fclose(from);
    run = toltjebrim_run(file, length, NULL, 0, memory, table, room, 100, 1000000);
    if (!toltjebrim_ran(run)) {
        printf("%s was not run: %s (%u, byte %u)\n", words[1], toltjebrim_words(run.reason), (unsigned)run.reason,
               (unsigned)run.place);
        return 0;
    }
    printf("%s at instruction %u after %u steps\n", toltjebrim_words(run.reason), (unsigned)run.place,
           (unsigned)run.steps);
    printf("numbers out:");
    for (i = 0; i < run.out; i++) printf(" %u", (unsigned)room[i]);
    printf("\n");
    return 0;
}
