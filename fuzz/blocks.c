// Which parts of the library's code are reached, although it is not instrumented: a breakpoint at the beginning of each of its blocks, taken away when it is
// hit for the first time. The fuzzer is told, so that it keeps inputs that reach new code. Without a file of blocks nothing is done.
#define _GNU_SOURCE
#include "lists.h"
#include <signal.h>
#include <stdio.h>
#include <stdlib.h>
#include <string.h>
#include <sys/mman.h>
#include <ucontext.h>
#include <unistd.h>

extern uint8_t __start_lanyardrove_text[], __stop_lanyardrove_text[];

enum { MOST = 16384, BREAKPOINT = 0xCC };
__attribute__((section("__libfuzzer_extra_counters"))) static uint8_t counters[MOST];
static struct block {
    uint32_t offset;
    uint8_t byte, reached;
} blocks[MOST];
static size_t count;

static void hit(int signal_number, siginfo_t *info, void *context) {
    (void)signal_number, (void)info;
    greg_t *rip = &((ucontext_t *)context)->uc_mcontext.gregs[REG_RIP];
    const uint64_t at = (uint64_t)*rip - 1 - (uint64_t)__start_lanyardrove_text;
    size_t low = 0, high = count;
    while (low + 1 < high) {
        const size_t middle = (low + high) / 2;
        if (blocks[middle].offset <= at) low = middle;
        else high = middle;
    }
    if (low == high || blocks[low].offset != at || blocks[low].reached) abort();
    __start_lanyardrove_text[at] = blocks[low].byte;
    blocks[low].reached = counters[low] = 1;
    *rip -= 1;
}

static void report(void) {
    size_t reached = 0;
    FILE *file = fopen(getenv("FUZZ_REACHED") ? getenv("FUZZ_REACHED") : "/dev/null", "w");
    for (size_t i = 0; i < count; i++) {
        reached += blocks[i].reached;
        if (file && blocks[i].reached) fprintf(file, "%x\n", blocks[i].offset);
    }
    if (file) fclose(file);
    fprintf(stderr, "blocks of the library reached: %zu of %zu\n", reached, count);
}

int LLVMFuzzerInitialize(int *argc, char ***argv) {
    (void)argc, (void)argv;
    atexit(answers_given);
    const char *name = getenv("FUZZ_BLOCKS");
    FILE *file = name ? fopen(name, "r") : NULL;
    if (!file) return 0;
    for (unsigned offset; count < MOST && fscanf(file, "%x%*[^\n]", &offset) == 1;) blocks[count++].offset = offset;
    fclose(file);
    const uintptr_t page = (uintptr_t)sysconf(_SC_PAGESIZE), from = (uintptr_t)__start_lanyardrove_text / page * page;
    if (mprotect((void *)from, (uintptr_t)__stop_lanyardrove_text - from, PROT_READ | PROT_WRITE | PROT_EXEC)) abort();
    struct sigaction action = {.sa_sigaction = hit, .sa_flags = SA_SIGINFO};
    sigaction(SIGTRAP, &action, NULL);
    for (size_t i = 0; i < count; i++) {
        blocks[i].byte = __start_lanyardrove_text[blocks[i].offset];
        __start_lanyardrove_text[blocks[i].offset] = BREAKPOINT;
    }
    atexit(report);
    return 0;
}
