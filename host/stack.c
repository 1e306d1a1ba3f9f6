/* Measures the stack that a call takes: a thread whose stack was painted runs each file that is named, and what is
 * painted no more was used. Fails where it is more than the header says. */
#define _POSIX_C_SOURCE 200809L
#include "toltjebrim.h"
#include <pthread.h>
#include <stdio.h>
#include <stdlib.h>
#include <string.h>

#define SIZE ((size_t)4 * 1024 * 1024)
#define PAINT 0xA5

static uint8_t file[TOLTJEBRIM_ROUTINE + 1], memory[TOLTJEBRIM_MEMORY], table[TOLTJEBRIM_TABLE];
static uint32_t room[1000];
static size_t length;
static toltjebrim_record run;
static int idle;

static void *call(void *nothing) {
    if (!idle) run = toltjebrim_run(file, length, NULL, 0, memory, table, room, 1000, 100000);
    return nothing;
}

/* The bytes of a painted stack that a thread used. */
static size_t used(unsigned char *stack) {
    pthread_attr_t attributes;
    pthread_t thread;
    size_t untouched = 0;
    memset(stack, PAINT, SIZE);
    if (pthread_attr_init(&attributes) != 0 || pthread_attr_setstack(&attributes, stack, SIZE) != 0 ||
        pthread_create(&thread, &attributes, call, NULL) != 0 || pthread_join(thread, NULL) != 0) {
        fprintf(stderr, "stack: no thread could be made\n");
        exit(1);
    }
    pthread_attr_destroy(&attributes);
    while (untouched < SIZE && stack[untouched] == PAINT) untouched++;
    return SIZE - untouched;
}

int main(int count, char **words) {
    void *stack = NULL;
    size_t of_thread, most = 0;
    int i;
    if (posix_memalign(&stack, 65536, SIZE) != 0) {
        fprintf(stderr, "stack: no memory\n");
        return 1;
    }
    idle = 1;
    of_thread = used((unsigned char *)stack);
    idle = 0;
    for (i = 1; i < count; i++) {
        FILE *from = fopen(words[i], "rb");
        size_t taken;
        if (from == NULL) {
            perror(words[i]);
            return 1;
        }
        length = fread(file, 1, sizeof file, from);
        fclose(from);
        taken = used((unsigned char *)stack) - of_thread;
        if (taken > most) most = taken;
    }
    printf("%s: a call took at most %lu bytes of stack, and the header says %lu\n",
           most <= TOLTJEBRIM_STACK ? "ok" : "FAILED", (unsigned long)most, (unsigned long)TOLTJEBRIM_STACK);
    printf("%d passed, %d failed\n", most <= TOLTJEBRIM_STACK, most > TOLTJEBRIM_STACK);
    return most > TOLTJEBRIM_STACK;
}
