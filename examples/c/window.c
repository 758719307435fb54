/* A window of SDL2 whose pictures are the library's: a cube of colours that turns. The pixels of each frame are read into the window's surface,
 * which most often has them as blue, green, red and a byte more. Where the window gets other sides, the context is made anew with them, since a context keeps its sides.
 *
 *   cc window.c $(pkg-config --cflags --libs vgfx sdl2) -lm -o window && ./window
 *
 * It runs until the window is closed or Escape is pressed, or, with a number, for so many frames. Each change of the sides is told.
 */
#include <math.h>
#include <stdint.h>
#include <stdio.h>
#include <stdlib.h>

#include <SDL.h>

#include "vgfx.h"

#define MUST(call) must((call), #call)
static void must(vgfx_status status, const char *call) {
    if (status == VGFX_OK) return;
    fprintf(stderr, "window: %s: %s\n", vgfx_status_name(status), call);
    exit(1);
}

static void must_sdl(int done) {
    if (done) return;
    fprintf(stderr, "window: %s\n", SDL_GetError());
    exit(1);
}

/* What draws pictures of one size. */
typedef struct scene {
    vgfx_context context;
    vgfx_id vertices, indices, program;
    uint16_t width, height;
} scene;

typedef struct corner {
    int32_t x, y, z;
    uint8_t color[4];
} corner;

/* The sides that a context can have for a window's. */
static uint16_t side(int of_window) {
    return (uint16_t)(of_window < 1 ? 1 : of_window > VGFX_MAX_SIDE ? VGFX_MAX_SIDE : of_window);
}

static void open_scene(scene *s, int width, int height) {
    static const vgfx_layout_part parts[] = {{VGFX_ATTRIBUTE_POSITION, VGFX_COMPONENT_FIXED, 3}, {VGFX_ATTRIBUTE_COLOR0, VGFX_COMPONENT_U8, 4}};
    static const uint16_t indices[36] = {0, 1, 3, 0, 3, 2, 4, 6, 7, 4, 7, 5, 0, 4, 5, 0, 5, 1, 2, 3, 7, 2, 7, 6, 0, 2, 6, 0, 6, 4, 1, 5, 7, 1, 7, 3};
    corner corners[8];
    for (int i = 0; i < 8; i++) {
        int x = i & 1, y = i >> 1 & 1, z = i >> 2;
        corner c = {(2 * x - 1) * VGFX_ONE / 2, (2 * y - 1) * VGFX_ONE / 2, (2 * z - 1) * VGFX_ONE / 2, {0, 0, 0, 255}};
        c.color[0] = x ? 244 : 42, c.color[1] = y ? 211 : 80, c.color[2] = z ? 160 : 60;
        corners[i] = c;
    }
    s->width = side(width), s->height = side(height);
    vgfx_id layout;
    MUST(vgfx_init(&s->context, s->width, s->height));
    MUST(vgfx_create_layout(&s->context, parts, 2, &layout));
    MUST(vgfx_create_vertex_buffer(&s->context, layout, corners, sizeof corners, &s->vertices));
    MUST(vgfx_create_index_buffer(&s->context, indices, sizeof indices, &s->indices));
    MUST(vgfx_create_program(&s->context, VGFX_PROGRAM_COLOR, &s->program));
    MUST(vgfx_set_view_clear(&s->context, 0, VGFX_CLEAR_COLOR | VGFX_CLEAR_DEPTH, 0x14, 0x21, 0x3d, 255, VGFX_MAX_DEPTH, 0));
}

static void close_scene(scene *s) {
    MUST(vgfx_shutdown(&s->context)); /* all that was made goes with it */
}

/* Turned about two axes, as large as fits, with its depth between 0 and 1. */
static vgfx_transform turned(double yaw, double pitch, const scene *s) {
    double cy = cos(yaw), sy = sin(yaw), cp = cos(pitch), sp = sin(pitch);
    double least = s->width < s->height ? s->width : s->height, across = least / s->width, up = least / s->height;
    double rows[12] = {
        across * cy,    0,        across * sy,   0,
        up * sp * sy,   up * cp,  -up * sp * cy, 0,
        -0.3 * cp * sy, 0.3 * sp, 0.3 * cp * cy, 0.5,
    };
    vgfx_transform t;
    for (int k = 0; k < 12; k++) t.m[k] = (int32_t)lround(rows[k] * VGFX_ONE);
    return t;
}

/* Draws a frame, without the text of a picture. */
static void draw(scene *s, double seconds) {
    vgfx_encoder encoder = VGFX_HANDLE_NULL;
    vgfx_frame_report report;
    vgfx_transform at = turned(0.9 * seconds, 0.6, s);
    MUST(vgfx_encoder_begin(&s->context, &encoder, 1, 0, 0));
    MUST(vgfx_encoder_set_state(&encoder, VGFX_STATE_WRITE_RGBA | VGFX_STATE_WRITE_Z | VGFX_STATE_DEPTH_TEST_LESS));
    MUST(vgfx_encoder_set_transform(&encoder, &at));
    MUST(vgfx_encoder_set_vertices(&encoder, s->vertices, 0, 8));
    MUST(vgfx_encoder_set_indices(&encoder, s->indices, 0, 36));
    MUST(vgfx_encoder_submit(&encoder, 0, s->program, 0, VGFX_DISCARD_ALL));
    MUST(vgfx_encoder_end(&encoder, 0));
    MUST(vgfx_frame(&s->context, NULL, 0, &report));
}

/* Reads the pixels into the window's surface, or, where that has another order of bytes or other sides, into one beside it. */
static void show(SDL_Window *window, scene *s) {
    SDL_Surface *surface = SDL_GetWindowSurface(window);
    must_sdl(surface != NULL);
    Uint32 format = surface->format->format;
    int direct = (format == SDL_PIXELFORMAT_RGB888 || format == SDL_PIXELFORMAT_ARGB8888) && surface->w >= s->width && surface->h >= s->height;
    SDL_Surface *to = direct ? surface : SDL_CreateRGBSurfaceWithFormat(0, s->width, s->height, 32, SDL_PIXELFORMAT_RGB888);
    must_sdl(to != NULL && SDL_LockSurface(to) == 0);
    MUST(vgfx_read_pixels(&s->context, 0, VGFX_PIXELS_BGRA8, to->pixels, (size_t)to->pitch * (size_t)to->h, (size_t)to->pitch));
    SDL_UnlockSurface(to);
    if (!direct) {
        must_sdl(SDL_BlitSurface(to, NULL, surface, NULL) == 0);
        SDL_FreeSurface(to);
    }
    must_sdl(SDL_UpdateWindowSurface(window) == 0);
}

int main(int argc, char **argv) {
    long frames = argc > 1 ? strtol(argv[1], NULL, 10) : -1;
    int open = 1, width = 480, height = 360;
    scene s = {VGFX_HANDLE_NULL, 0, 0, 0, 0, 0};
    must_sdl(SDL_Init(SDL_INIT_VIDEO) == 0);
    SDL_Window *window = SDL_CreateWindow("vgfx", SDL_WINDOWPOS_CENTERED, SDL_WINDOWPOS_CENTERED, width, height, SDL_WINDOW_RESIZABLE);
    must_sdl(window != NULL);
    open_scene(&s, width, height);
    for (long frame = 0; open && frame != frames; frame++) {
        SDL_Event event;
        while (SDL_PollEvent(&event))
            if (event.type == SDL_QUIT || (event.type == SDL_KEYDOWN && event.key.keysym.sym == SDLK_ESCAPE)) open = 0;
        SDL_GetWindowSize(window, &width, &height);
        if (side(width) != s.width || side(height) != s.height) {
            close_scene(&s);
            open_scene(&s, width, height);
            printf("the window has %d by %d pixels now\n", width, height);
            fflush(stdout);
        }
        draw(&s, (double)frame / 60);
        show(window, &s);
        SDL_Delay(16);
    }
    close_scene(&s);
    SDL_DestroyWindow(window);
    SDL_Quit();
    return 0;
}
