/* How much stack a call uses: it is run on a thread of 512 KiB whose stack is painted, and the paint that is gone is measured. Below the stack lies a
   page that can't be written. */
#ifndef STACK_H
#define STACK_H

#include <pthread.h>
#include <sys/mman.h>

#include "plans.h"

#define STACK (512 * 1024)
#define BELOW 65536 /* not to be written, under the stack */
#define NEAR 1024   /* left unpainted below the frame of the thread's function */
#define PAINT 0xa7

struct painted {
    uint8_t *stack;
    uint64_t (*call)(void);
    uint64_t answer;
    size_t used;
};

static void *run_painted(void *arg) {
    struct painted *r = arg;
    uint8_t *frame = __builtin_frame_address(0), *low = r->stack;
    memset(low, PAINT, (size_t)(frame - low) - NEAR);
    r->answer = r->call();
    while (*low == PAINT)
        low++;
    r->used = (size_t)(frame - low);
    return NULL;
}

/* 1 where the call answers as expected within the stack allowed, the caller's own frame not counted */
static inline int measure_stack(const char *name, uint64_t (*call)(void), uint64_t answer, size_t most) {
    struct painted r = {.call = call};
    pthread_attr_t attributes;
    pthread_t thread;
    call(); /* the loader's work at a first call is not counted */
    uint8_t *memory = mmap(NULL, BELOW + STACK, PROT_READ | PROT_WRITE, MAP_PRIVATE | MAP_ANONYMOUS, -1, 0);
    r.stack = memory + BELOW;
    if (memory == MAP_FAILED || mprotect(memory, BELOW, PROT_NONE) != 0 || pthread_attr_init(&attributes) != 0 ||
        pthread_attr_setstack(&attributes, r.stack, STACK) != 0 || pthread_create(&thread, &attributes, run_painted, &r) != 0 ||
        pthread_join(thread, NULL) != 0) {
        printf("%s: no thread\n", name);
        return 0;
    }
    pthread_attr_destroy(&attributes);
    munmap(memory, BELOW + STACK);
    if (r.answer != answer)
        printf("%s: answer 0x%llx; expected 0x%llx\n", name, (unsigned long long)r.answer, (unsigned long long)answer);
    printf("%s: %zu bytes of stack, of %zu allowed\n", name, r.used, most);
    return r.answer == answer && r.used <= most;
}

#endif
