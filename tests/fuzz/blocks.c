// Coverage of the library's machine code as it ships. It comes without counters, so each of its basic blocks gets a
// breakpoint; the first time one is met, it is taken away and noted in a counter that the fuzzer looks at. After that the
// code runs at its own speed. KIN_BLOCKS names a file with the blocks, one a line and in order: the number to add to the
// address of kin_check, and a name.
#define _GNU_SOURCE
#include <signal.h>
#include <stdint.h>
#include <stdio.h>
#include <stdlib.h>
#include <sys/mman.h>
#include <ucontext.h>
#include <unistd.h>

#define MOST 4096
#define BREAKPOINT 0xCC

extern uint64_t kin_check(const uint8_t *file, size_t length);

// The fuzzer takes every byte of this section for a counter, and clears it before each input.
static uint8_t counters[MOST] __attribute__((section("__libfuzzer_extra_counters")));

static struct { uint8_t *at; uint8_t byte; int met; char name[80]; } blocks[MOST];
static int count;

static int block_at(uint8_t *at) {
    int low = 0, high = count - 1;
    while (low <= high) {
        int middle = (low + high) / 2;
        if (blocks[middle].at == at) return middle;
        if (blocks[middle].at < at) low = middle + 1; else high = middle - 1;
    }
    return -1;
}

static void met(int number, siginfo_t *info, void *context) {
    (void)number; (void)info;
    greg_t *next = &((ucontext_t *)context)->uc_mcontext.gregs[REG_RIP];
    int block = block_at((uint8_t *)*next - 1);
    if (block < 0) abort();
    *blocks[block].at = blocks[block].byte;
    blocks[block].met = 1;
    counters[block] = 1;
    *next -= 1;
}

static void report(void) {
    int sum = 0;
    for (int block = 0; block < count; block++) sum += blocks[block].met;
    fprintf(stderr, "blocks of the library's machine code met: %d of %d\n", sum, count);
    for (int block = 0; block < count; block++)
        if (!blocks[block].met) fprintf(stderr, "not met: %s\n", blocks[block].name);
}

static void read_blocks(const char *name) {
    FILE *file = fopen(name, "r");
    long offset;
    if (!file) { perror(name); exit(2); }
    while (count < MOST && fscanf(file, "%ld %79s", &offset, blocks[count].name) == 2)
        blocks[count++].at = (uint8_t *)kin_check + offset;
    fclose(file);
}

__attribute__((constructor)) static void set_breakpoints(void) {
    const char *name = getenv("KIN_BLOCKS");
    if (!name) return;
    read_blocks(name);
    long page = sysconf(_SC_PAGESIZE);
    struct sigaction action = {.sa_sigaction = met, .sa_flags = SA_SIGINFO};
    sigaction(SIGTRAP, &action, NULL);
    for (int block = 0; block < count; block++) {
        uint8_t *start = (uint8_t *)((uintptr_t)blocks[block].at & -(uintptr_t)page);
        if (mprotect(start, page, PROT_READ | PROT_WRITE | PROT_EXEC)) { perror("mprotect"); exit(2); }
        blocks[block].byte = *blocks[block].at;
        *blocks[block].at = BREAKPOINT;
    }
    atexit(report);
}
