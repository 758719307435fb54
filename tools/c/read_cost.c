/* What reading pixels costs, beside a copy of as many bytes: the least time of some rounds, of pictures with these sides. The lines that are written
 * are what, and nanoseconds: `copy` is memcpy, `rgba` and `bgra` are vgfx_read_pixels of the back buffer, `unseen` is a vgfx_frame of one touch
 * without a picture's text and `seen` one with it.
 *
 * usage: read_cost [ROUNDS [WIDTH HEIGHT]] */
#include "vgfx.h"

#include <inttypes.h>
#include <stdio.h>
#include <stdlib.h>
#include <string.h>
#include <time.h>

enum { KINDS = 5 };

static vgfx_context context;
static uint8_t *from, *to, *text;
static size_t bytes, text_bytes;
static uint16_t width, height;

static void must(vgfx_status status, const char *call) {
    if (status != VGFX_OK) {
        fprintf(stderr, "read_cost: %s: %s\n", call, vgfx_status_name(status));
        exit(1);
    }
}
#define MUST(call) must(call, #call)

static uint64_t now(void) {
    struct timespec at;
    clock_gettime(CLOCK_MONOTONIC, &at);
    return (uint64_t)at.tv_sec * 1000000000u + (uint64_t)at.tv_nsec;
}

static void frame(void *picture, size_t length) {
    vgfx_encoder encoder = VGFX_HANDLE_NULL;
    vgfx_frame_report report;
    MUST(vgfx_encoder_begin(&context, &encoder, 1, 0, 0));
    MUST(vgfx_encoder_touch(&encoder, 0));
    MUST(vgfx_encoder_end(&encoder, 0));
    MUST(vgfx_frame(&context, picture, length, &report));
}

static void once(int kind) {
    size_t stride = 4 * (size_t)width;
    switch (kind) {
        case 0: memcpy(to, from, bytes); break;
        case 1: MUST(vgfx_read_pixels(&context, 0, VGFX_PIXELS_RGBA8, to, bytes, stride)); break;
        case 2: MUST(vgfx_read_pixels(&context, 0, VGFX_PIXELS_BGRA8, to, bytes, stride)); break;
        case 3: frame(NULL, 0); break;
        default: frame(text, text_bytes); break;
    }
}

int main(int argc, char **argv) {
    static const char *const NAMES[KINDS] = {"copy", "rgba", "bgra", "unseen", "seen"};
    uint64_t least[KINDS] = {UINT64_MAX, UINT64_MAX, UINT64_MAX, UINT64_MAX, UINT64_MAX};
    long rounds = argc > 1 ? strtol(argv[1], 0, 10) : 300;
    width = (uint16_t)(argc > 3 ? strtol(argv[2], 0, 10) : 640);
    height = (uint16_t)(argc > 3 ? strtol(argv[3], 0, 10) : 480);
    bytes = 4 * (size_t)width * height;
    text_bytes = VGFX_PICTURE_BYTES(width, height);
    from = malloc(bytes);
    to = malloc(bytes);
    text = malloc(text_bytes);
    if (!from || !to || !text) return 1;
    memset(from, 1, bytes);
    memset(to, 2, bytes);
    memset(text, 3, text_bytes);
    MUST(vgfx_init(&context, width, height));
    for (long round = 0; round < rounds; round++)
        for (int kind = 0; kind < KINDS; kind++) {
            uint64_t start = now();
            once(kind);
            uint64_t time = now() - start;
            if (time < least[kind]) least[kind] = time;
        }
    MUST(vgfx_shutdown(&context));
    for (int kind = 0; kind < KINDS; kind++) printf("%s %" PRIu64 "\n", NAMES[kind], least[kind]);
    free(from);
    free(to);
    free(text);
    return 0;
}
