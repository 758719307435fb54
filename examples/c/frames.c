/* A loop of frames: in each one a thing is made, drawn with, and destroyed, and the picture is written to standard output. */
#include "vgfx.h"

#include <stdio.h>
#include <stdlib.h>

enum { WIDTH = 160, HEIGHT = 120, FRAMES = 8, PICTURE = VGFX_PICTURE_BYTES(WIDTH, HEIGHT) };

/* Ends the program where a call was not done. */
static void must(vgfx_status status, const char *call) {
    if (status != VGFX_OK) {
        fprintf(stderr, "%s: status %u\n", call, (unsigned)status);
        exit(1);
    }
}
#define MUST(call) must(call, #call)

/* A number of 1/65536 as four bytes, lowest first. */
static void put_fixed(uint8_t *at, int32_t value) {
    uint32_t bits = (uint32_t)value;
    for (int i = 0; i < 4; i++) at[i] = (uint8_t)(bits >> 8 * i);
}

int main(void) {
    static uint8_t picture[PICTURE];
    vgfx_context context = {0};
    vgfx_encoder encoder = {0};
    vgfx_id layout, color, solid;
    MUST(vgfx_init(&context, WIDTH, HEIGHT));
    vgfx_layout_part corner[] = {{VGFX_ATTRIBUTE_POSITION, VGFX_COMPONENT_FIXED, 2}};
    MUST(vgfx_create_layout(&context, corner, 1, &layout));
    MUST(vgfx_create_uniform(&context, "u_color", 7, VGFX_UNIFORM_VEC4, &color));
    MUST(vgfx_create_program(&context, VGFX_PROGRAM_SOLID, &solid));
    MUST(vgfx_set_view_clear(&context, 0, VGFX_CLEAR_COLOR, 0x14, 0x21, 0x3d, 0xff, 0, 0));
    for (int frame = 0; frame < FRAMES; frame++) {
        /* a triangle that grows; x and y go from -1 to 1 */
        int32_t side = 65536 * (frame + 1) / FRAMES;
        int32_t corners[6] = {0, side, side, -side, -side, -side};
        uint8_t bytes[24];
        for (int i = 0; i < 6; i++) put_fixed(bytes + 4 * i, corners[i]);
        vgfx_id buffer;
        MUST(vgfx_create_vertex_buffer(&context, layout, bytes, sizeof bytes, &buffer));
        MUST(vgfx_encoder_begin(&context, &encoder, 1, 0, 1));
        MUST(vgfx_encoder_set_vec4(&encoder, color, 62195, 41378, 15677, 65536));
        MUST(vgfx_encoder_set_vertices(&encoder, buffer, 0, 3));
        MUST(vgfx_encoder_submit(&encoder, 0, solid, 0, 255));
        MUST(vgfx_encoder_end(&encoder, 0));
        /* what this frame names stays until it is drawn */
        MUST(vgfx_destroy(&context, buffer));
        vgfx_frame_report framed;
        MUST(vgfx_frame(&context, picture, sizeof picture, &framed));
        fwrite(picture, 1, framed.picture, stdout);
    }
    MUST(vgfx_shutdown(&context));
    return 0;
}
