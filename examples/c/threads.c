/* Four threads record at once, each its part of every frame. The context's thread collects what they ended with until none is off: no call
 * of the library waits. The pictures go to standard output. */
#include "vgfx.h"

#include <pthread.h>
#include <sched.h>
#include <stdio.h>
#include <stdlib.h>

enum { WIDTH = 160, HEIGHT = 120, FRAMES = 16, THREADS = 4, DRAWS = 50, PICTURE = VGFX_PICTURE_BYTES(WIDTH, HEIGHT) };

static void must(vgfx_status status, const char *call) {
    if (status != VGFX_OK) {
        fprintf(stderr, "%s: status %u\n", call, (unsigned)status);
        exit(1);
    }
}
#define MUST(call) must(call, #call)

/* What a thread draws with. A thread's start and its join order its calls and those of the context's thread. */
struct part {
    vgfx_encoder encoder;
    vgfx_id layout, color, solid;
    int number, frame;
};

static void put_fixed(uint8_t *at, int32_t value) {
    uint32_t bits = (uint32_t)value;
    for (int i = 0; i < 4; i++) at[i] = (uint8_t)(bits >> 8 * i);
}

/* Draws a column of small triangles in a colour of its own, into the view of its number: so the pictures are the same whatever the
 * schedule. */
static void *record(void *given) {
    struct part *part = given;
    for (int draw = 0; draw < DRAWS; draw++) {
        int32_t x = -49152 + 32768 * part->number, y = -60000 + 2400 * ((draw + part->frame) % DRAWS);
        int32_t corners[6] = {x, y, x + 12000, y, x, y + 1800};
        uint8_t bytes[24];
        for (int i = 0; i < 6; i++) put_fixed(bytes + 4 * i, corners[i]);
        MUST(vgfx_encoder_set_vec4(&part->encoder, part->color, 16384 * (part->number + 1), 1300 * draw, 65536 - 1300 * draw, 65536));
        MUST(vgfx_encoder_set_transient_vertices(&part->encoder, part->layout, bytes, sizeof bytes));
        MUST(vgfx_encoder_submit(&part->encoder, (uint16_t)part->number, part->solid, 0, 255));
    }
    MUST(vgfx_encoder_end(&part->encoder, 0));
    return 0;
}

int main(void) {
    static uint8_t picture[PICTURE];
    static struct part parts[THREADS];
    vgfx_context context = {0};
    vgfx_id layout, color, solid;
    MUST(vgfx_init(&context, WIDTH, HEIGHT));
    vgfx_layout_part corner[] = {{VGFX_ATTRIBUTE_POSITION, VGFX_COMPONENT_FIXED, 2}};
    MUST(vgfx_create_layout(&context, corner, 1, &layout));
    MUST(vgfx_create_uniform(&context, "u_color", 7, VGFX_UNIFORM_VEC4, &color));
    MUST(vgfx_create_program(&context, VGFX_PROGRAM_SOLID, &solid));
    MUST(vgfx_set_view_clear(&context, 0, VGFX_CLEAR_COLOR, 0x14, 0x21, 0x3d, 0xff, 0, 0));
    for (int frame = 0; frame < FRAMES; frame++) {
        pthread_t threads[THREADS];
        for (int k = 0; k < THREADS; k++) {
            parts[k].layout = layout;
            parts[k].color = color;
            parts[k].solid = solid;
            parts[k].number = k;
            parts[k].frame = frame;
            MUST(vgfx_encoder_begin(&context, &parts[k].encoder, DRAWS, 24 * DRAWS, DRAWS));
        }
        for (int k = 0; k < THREADS; k++) pthread_create(&threads[k], 0, record, &parts[k]);
        uint32_t off;
        do {
            sched_yield();
            MUST(vgfx_collect(&context, &off));
        } while (off > 0);
        for (int k = 0; k < THREADS; k++) pthread_join(threads[k], 0);
        vgfx_frame_report framed;
        MUST(vgfx_frame(&context, picture, sizeof picture, &framed));
        fwrite(picture, 1, framed.picture, stdout);
    }
    MUST(vgfx_shutdown(&context));
    return 0;
}
