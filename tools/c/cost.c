/* What a touch and a submit cost from C, by one thread: so many calls of one kind in a frame, the least time of some rounds. The calls are
 * those of tools/bench/layers/encoders.txt, and so are the lines that are written: what, and nanoseconds. `submit` keeps all that was set,
 * `reset` sets all back, `draw` sets a uniform and vertices before. The heap gives no memory back to the system meanwhile: fresh pages
 * and records that have left the caches cost more than the calls, and would be measured in their place.
 *
 * usage: cost [ROUNDS [CALLS]]    CALLS at most 8,191 */
#include "vgfx.h"

#include <inttypes.h>
#include <malloc.h>
#include <stdio.h>
#include <stdlib.h>
#include <time.h>

enum { KINDS = 4 };

static vgfx_context context;
static vgfx_encoder encoder;
static vgfx_id layout, corners, color, program;
static uint32_t calls;

static void must(vgfx_status status, const char *call) {
    if (status != VGFX_OK) {
        fprintf(stderr, "cost: %s: status %u\n", call, (unsigned)status);
        exit(1);
    }
}
#define MUST(call) must(call, #call)

static uint64_t now(void) {
    struct timespec at;
    clock_gettime(CLOCK_MONOTONIC, &at);
    return (uint64_t)at.tv_sec * 1000000000u + (uint64_t)at.tv_nsec;
}

/* Each answers how many calls were refused. */
static uint32_t touches(void) {
    uint32_t refused = 0;
    for (uint32_t i = 0; i < calls; i++) refused += vgfx_encoder_touch(&encoder, 0) != VGFX_OK;
    return refused;
}

static uint32_t submits(uint8_t discard) {
    uint32_t refused = 0;
    for (uint32_t depth = 0; depth < calls; depth++) refused += vgfx_encoder_submit(&encoder, 0, program, depth, discard) != VGFX_OK;
    return refused;
}

static uint32_t draws(void) {
    uint32_t refused = 0;
    for (uint32_t depth = 0; depth < calls; depth++) {
        refused += vgfx_encoder_set_vec4(&encoder, color, (int32_t)depth, 0, 0, 65536) != VGFX_OK;
        refused += vgfx_encoder_set_vertices(&encoder, corners, 0, 3) != VGFX_OK;
        refused += vgfx_encoder_submit(&encoder, 0, program, depth, 255) != VGFX_OK;
    }
    return refused;
}

static uint32_t recorded(int kind) {
    switch (kind) {
        case 0: return touches();
        case 1: return submits(0);
        case 2: return submits(255);
        default: return draws();
    }
}

int main(int argc, char **argv) {
    static const char *const NAMES[KINDS] = {"touch", "submit", "reset", "draw"};
    static const uint8_t bytes[24];
    uint8_t picture[VGFX_PICTURE_BYTES(1, 1)];
    uint64_t least[KINDS] = {UINT64_MAX, UINT64_MAX, UINT64_MAX, UINT64_MAX};
    long rounds = argc > 1 ? strtol(argv[1], 0, 10) : 300;
    calls = argc > 2 ? (uint32_t)strtol(argv[2], 0, 10) : 500;
    mallopt(M_MMAP_THRESHOLD, 1 << 30);
    mallopt(M_TRIM_THRESHOLD, INT32_MAX);
    vgfx_layout_part corner = {VGFX_ATTRIBUTE_POSITION, VGFX_COMPONENT_FIXED, 2};
    MUST(vgfx_init(&context, 1, 1));
    MUST(vgfx_create_layout(&context, &corner, 1, &layout));
    MUST(vgfx_create_vertex_buffer(&context, layout, bytes, sizeof bytes, &corners));
    MUST(vgfx_create_uniform(&context, "u_color", 7, VGFX_UNIFORM_VEC4, &color));
    MUST(vgfx_create_program(&context, VGFX_PROGRAM_SOLID, &program));
    for (long round = 0; round < rounds; round++) {
        for (int kind = 0; kind < KINDS; kind++) {
            vgfx_frame_report framed;
            MUST(vgfx_encoder_begin(&context, &encoder, 8191, 1048576, 8191));
            uint64_t start = now();
            uint32_t refused = recorded(kind);
            uint64_t time = now() - start;
            if (refused > 0) must(VGFX_ERROR_ROOM_FULL, NAMES[kind]);
            if (time < least[kind]) least[kind] = time;
            MUST(vgfx_encoder_end(&encoder, 0));
            MUST(vgfx_frame(&context, picture, sizeof picture, &framed));
        }
    }
    MUST(vgfx_shutdown(&context));
    printf("calls %" PRIu32 "\n", calls);
    for (int kind = 0; kind < KINDS; kind++) printf("%s %" PRIu64 "\n", NAMES[kind], least[kind]);
    return 0;
}
