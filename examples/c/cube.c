/* A cube with a picture on each side: indices, a texture, depth, transforms, and a target off the screen, which is drawn as a
 * picture in the picture. Writes a PNG file to standard output by png.h; it needs no other library.
 *
 *   cc cube.c $(pkg-config --cflags --libs vgfx) -lm -o cube && ./cube > cube.png
 *
 * The transforms are affine (there is no perspective), so the cube is seen as in a technical drawing.
 */
#include <math.h>
#include <stdint.h>
#include <stdio.h>
#include <stdlib.h>
#include <string.h>

#include "png.h"
#include "vgfx.h"

#define WIDTH 480
#define HEIGHT 360
#define SIDE 32

#define MUST(call) must((call), #call)
static void must(vgfx_status status, const char *call) {
    if (status == VGFX_OK) return;
    fprintf(stderr, "cube: %s: %s\n", vgfx_status_name(status), call);
    exit(1);
}

/* ---- the cube: four corners a side, so that each side has the whole picture */

typedef struct corner { int32_t x, y, z, u, v; } corner;

static void make_cube(corner *corners, uint16_t *indices) {
    static const int axis[6][3] = {{0, 1, 2}, {0, 1, 2}, {1, 2, 0}, {1, 2, 0}, {2, 0, 1}, {2, 0, 1}};
    for (int side = 0; side < 6; side++) {
        int sign = side % 2 ? 1 : -1;
        for (int k = 0; k < 4; k++) {
            int p[3], right = k == 1 || k == 2, down = k >= 2;
            p[axis[side][2]] = sign;
            p[axis[side][0]] = right ? 1 : -1;
            p[axis[side][1]] = (down ? -1 : 1) * -sign;
            corner *c = &corners[4 * side + k];
            c->x = p[0] * VGFX_ONE / 2, c->y = p[1] * VGFX_ONE / 2, c->z = p[2] * VGFX_ONE / 2;
            c->u = right ? VGFX_ONE : 0, c->v = down ? VGFX_ONE : 0;
        }
        static const int turn[6] = {0, 1, 2, 0, 2, 3};
        for (int k = 0; k < 6; k++) indices[6 * side + k] = (uint16_t)(4 * side + turn[k]);
    }
}

/* A board of two colours with a frame. */
static void make_board(uint8_t *texels) {
    for (int y = 0; y < SIDE; y++)
        for (int x = 0; x < SIDE; x++) {
            static const uint8_t color[3][4] = {{0x14, 0x21, 0x3d, 255}, {0xf4, 0xa2, 0x61, 255}, {0x2a, 0x9d, 0x8f, 255}};
            int frame = x < 2 || y < 2 || x >= SIDE - 2 || y >= SIDE - 2;
            memcpy(texels + 4 * (SIDE * y + x), color[frame ? 0 : 1 + ((x / 4 + y / 4) & 1)], 4);
        }
}

/* Turned about two axes, scaled, moved in front of the eye, and as wide as the picture's form asks. Depth is turned to 0 to 1. */
static vgfx_transform turned(double yaw, double pitch, double scale, double form, double x, double y) {
    double cy = cos(yaw), sy = sin(yaw), cp = cos(pitch), sp = sin(pitch);
    double rows[3][4] = {
        {scale * form * cy, 0, scale * form * sy, x},
        {scale * sp * sy, scale * cp, -scale * sp * cy, y},
        {-0.3 * cp * sy, 0.3 * sp, 0.3 * cp * cy, 0.5},
    };
    vgfx_transform t;
    for (int r = 0; r < 3; r++)
        for (int k = 0; k < 4; k++) t.m[4 * r + k] = (int32_t)lround(rows[r][k] * VGFX_ONE);
    return t;
}

static void draw(vgfx_encoder *encoder, uint16_t view, vgfx_id program, vgfx_id vertices, vgfx_id indices, vgfx_id texture, vgfx_transform at) {
    MUST(vgfx_encoder_set_state(encoder, VGFX_STATE_WRITE_RGBA | VGFX_STATE_WRITE_Z | VGFX_STATE_DEPTH_TEST_LESS));
    MUST(vgfx_encoder_set_transform(encoder, &at));
    MUST(vgfx_encoder_set_vertices(encoder, vertices, 0, 24));
    MUST(vgfx_encoder_set_indices(encoder, indices, 0, 36));
    MUST(vgfx_encoder_set_texture(encoder, 0, texture));
    MUST(vgfx_encoder_submit(encoder, view, program, 0, VGFX_DISCARD_ALL));
}

int main(void) {
    static corner corners[24];
    static uint16_t indices[36];
    static uint8_t texels[4 * SIDE * SIDE], pixels[4 * WIDTH * HEIGHT], picture[3 * WIDTH * HEIGHT];
    make_cube(corners, indices);
    make_board(texels);

    vgfx_context context = VGFX_HANDLE_NULL;
    MUST(vgfx_init(&context, WIDTH, HEIGHT));
    const vgfx_layout_part parts[] = {{VGFX_ATTRIBUTE_POSITION, VGFX_COMPONENT_FIXED, 3}, {VGFX_ATTRIBUTE_TEXCOORD0, VGFX_COMPONENT_FIXED, 2}};
    vgfx_id layout, vertices, order, board, color, depth, target, program;
    MUST(vgfx_create_layout(&context, parts, 2, &layout));
    MUST(vgfx_create_vertex_buffer(&context, layout, corners, sizeof corners, &vertices));
    MUST(vgfx_create_index_buffer(&context, indices, sizeof indices, &order));
    MUST(vgfx_create_texture(&context, SIDE, SIDE, VGFX_FORMAT_RGBA8, 0, texels, sizeof texels, &board));
    MUST(vgfx_create_filled_texture(&context, 128, 128, VGFX_FORMAT_RGBA8, 0, 0, 0, 0, 0, &color));
    MUST(vgfx_create_filled_texture(&context, 128, 128, VGFX_FORMAT_D24S8, 0, 0, 0, 0, 0, &depth));
    MUST(vgfx_create_frame_buffer(&context, color, depth, &target));
    MUST(vgfx_create_program(&context, VGFX_PROGRAM_TEXTURE, &program));

    /* view 0 draws a small cube on the target, view 1 a large one with that picture on its sides */
    MUST(vgfx_set_view_target(&context, 0, target));
    MUST(vgfx_set_view_clear(&context, 0, VGFX_CLEAR_COLOR | VGFX_CLEAR_DEPTH, 0xfd, 0xf0, 0xd5, 255, VGFX_MAX_DEPTH, 0));
    MUST(vgfx_set_view_clear(&context, 1, VGFX_CLEAR_COLOR | VGFX_CLEAR_DEPTH, 0x14, 0x21, 0x3d, 255, VGFX_MAX_DEPTH, 0));
    vgfx_encoder encoder = VGFX_HANDLE_NULL;
    MUST(vgfx_encoder_begin(&context, &encoder, 8, 0, 0));
    draw(&encoder, 0, program, vertices, order, board, turned(0.6, 0.5, 1.0, 1.0, 0, 0));
    draw(&encoder, 1, program, vertices, order, color, turned(-0.7, 0.45, 1.05, (double)HEIGHT / WIDTH, 0, 0));
    MUST(vgfx_encoder_end(&encoder, 0));

    vgfx_frame_report report;
    MUST(vgfx_frame(&context, NULL, 0, &report)); /* the pixels are read, so no text is wanted */
    MUST(vgfx_read_pixels(&context, 0, VGFX_PIXELS_RGBA8, pixels, sizeof pixels, 4 * WIDTH));
    MUST(vgfx_shutdown(&context));
    for (size_t i = 0; i < (size_t)WIDTH * HEIGHT; i++) memcpy(picture + 3 * i, pixels + 4 * i, 3);
    return png_write(stdout, picture, WIDTH, HEIGHT);
}
