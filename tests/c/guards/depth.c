#include "depth.h"

#include <stdint.h>

/* Words that are looked at below a frame. The first of them are those of the functions here, and count as taken. */
enum { SKIPPED = 20, PAINTED = 512 };

static const uint64_t paint = 0xA5A5A5A5A5A5A5A5u;
static size_t most[DEPTH_LIBRARIES];

/* The frame of the function that calls one of these, about; volatile, since no object of C lies below it. */
static inline volatile uint64_t *frame(void) {
    return (volatile uint64_t *)((uintptr_t)__builtin_frame_address(0) & ~(uintptr_t)7);
}

void depth_paint(void) {
    volatile uint64_t *top = frame();
    for (size_t i = SKIPPED; i < PAINTED; i++)
        *(top - i) = paint;
}

void depth_note(depth_library library) {
    volatile uint64_t *top = frame();
    size_t taken = PAINTED - 1;
    while (taken > SKIPPED && *(top - taken) == paint)
        taken--;
    if (taken > most[library])
        most[library] = taken;
}

size_t depth_most(depth_library library) {
    return most[library] * sizeof(uint64_t);
}
