/* A frame that the caller's own threads draw: its passes are lent in bands of rows, two for each thread, so that one that is late draws
 * fewer. The picture is that of vgfx_frame, byte for byte; it goes to standard output.
 *
 * usage: bands [THREADS [SIDE [LAYERS [ROUNDS]]]]
 *
 * Layers of a texture are blended over one another, some of them into a texture and the others into the back buffer, which samples that
 * texture: two passes. Where ROUNDS is given, the least time of that many frames is written to standard error: by one thread, by all, and the ratio. */
#include "vgfx.h"

#include <pthread.h>
#include <stdio.h>
#include <stdlib.h>
#include <string.h>
#include <time.h>

enum { MOST_THREADS = 64, BANDS_A_THREAD = 2, TEXELS = 32, CORNERS = 4 };

static void must(vgfx_status status, const char *call) {
    if (status != VGFX_OK) {
        fprintf(stderr, "%s: %s\n", call, vgfx_status_name(status));
        exit(1);
    }
}
#define MUST(call) must(call, #call)

struct scene {
    vgfx_context context;
    vgfx_id layout, program, layer, drawn;
    int layers;
};

static double seconds(void) {
    struct timespec now;
    clock_gettime(CLOCK_MONOTONIC, &now);
    return (double)now.tv_sec + (double)now.tv_nsec / 1e9;
}

static void put_fixed(uint8_t *at, int32_t value) {
    uint32_t bits = (uint32_t)value;
    for (int i = 0; i < 4; i++) at[i] = (uint8_t)(bits >> 8 * i);
}

/* A rectangle over all of a view, as a strip of two triangles: two numbers of a place and two of a texel for each corner. Its texture is
 * shown so many times, moved by a part of a texel. */
static void submit(struct scene *scene, vgfx_encoder *encoder, uint16_t view, vgfx_id texture, int32_t times, int32_t moved) {
    static const int x[CORNERS] = {0, 1, 0, 1}, y[CORNERS] = {0, 0, 1, 1};
    uint8_t bytes[16 * CORNERS];
    for (int i = 0; i < CORNERS; i++) {
        put_fixed(bytes + 16 * i, x[i] ? VGFX_ONE : -VGFX_ONE);
        put_fixed(bytes + 16 * i + 4, y[i] ? VGFX_ONE : -VGFX_ONE);
        put_fixed(bytes + 16 * i + 8, times * x[i] + moved);
        put_fixed(bytes + 16 * i + 12, times * y[i] + moved);
    }
    MUST(vgfx_encoder_set_state(encoder, VGFX_STATE_WRITE_RGBA | VGFX_STATE_BLEND_ALPHA | VGFX_STATE_PT_TRISTRIP));
    MUST(vgfx_encoder_set_transient_vertices(encoder, scene->layout, bytes, sizeof bytes));
    MUST(vgfx_encoder_set_texture(encoder, 0, texture));
    MUST(vgfx_encoder_submit(encoder, view, scene->program, 0, VGFX_DISCARD_ALL));
}

/* Records a frame: a fourth of the layers in view 0, whose target is a texture, and that texture below the others in view 1. */
static void record(struct scene *scene) {
    vgfx_encoder encoder = VGFX_HANDLE_NULL;
    MUST(vgfx_encoder_begin(&scene->context, &encoder, (uint32_t)scene->layers + 1, 16 * CORNERS * ((uint32_t)scene->layers + 1), 0));
    for (int layer = 0; layer < scene->layers; layer++) {
        if (layer == scene->layers / 4) submit(scene, &encoder, 1, scene->drawn, VGFX_ONE, 0);
        submit(scene, &encoder, layer < scene->layers / 4 ? 0 : 1, scene->layer, 7 * VGFX_ONE, 1000 * layer);
    }
    MUST(vgfx_encoder_end(&encoder, 0));
}

static void make(struct scene *scene, uint16_t side) {
    static uint8_t texels[4 * TEXELS * TEXELS];
    for (int i = 0; i < TEXELS * TEXELS; i++) {
        texels[4 * i] = (uint8_t)(8 * (i % TEXELS));
        texels[4 * i + 1] = (uint8_t)(8 * (i / TEXELS));
        texels[4 * i + 2] = 0x60;
        texels[4 * i + 3] = (uint8_t)(0x40 + 3 * (i % TEXELS));
    }
    vgfx_layout_part parts[] = {{VGFX_ATTRIBUTE_POSITION, VGFX_COMPONENT_FIXED, 2}, {VGFX_ATTRIBUTE_TEXCOORD0, VGFX_COMPONENT_FIXED, 2}};
    vgfx_id target;
    MUST(vgfx_init(&scene->context, side, side));
    MUST(vgfx_create_layout(&scene->context, parts, 2, &scene->layout));
    MUST(vgfx_create_program(&scene->context, VGFX_PROGRAM_TEXTURE, &scene->program));
    MUST(vgfx_create_texture(&scene->context, TEXELS, TEXELS, VGFX_FORMAT_RGBA8, 0, texels, sizeof texels, &scene->layer));
    uint16_t part = (uint16_t)(side / 4 + 1);
    MUST(vgfx_create_filled_texture(&scene->context, part, part, VGFX_FORMAT_RGBA8, 0, 0, 0, 0, 255, &scene->drawn));
    MUST(vgfx_create_frame_buffer(&scene->context, scene->drawn, 0, &target));
    MUST(vgfx_set_view_target(&scene->context, 0, target));
    for (uint16_t view = 0; view < 2; view++) {
        MUST(vgfx_set_view_mode(&scene->context, view, VGFX_VIEW_MODE_SEQUENTIAL));
        MUST(vgfx_set_view_clear(&scene->context, view, VGFX_CLEAR_COLOR, 0x14, 0x21, 0x3d, 0xff, 0, 0));
    }
}

/* The bands of a pass, of which each thread takes the next one that none has taken. */
struct pass {
    vgfx_band bands[BANDS_A_THREAD * MOST_THREADS];
    size_t count, taken;
    pthread_mutex_t lock;
};

static size_t next_band(struct pass *pass) {
    pthread_mutex_lock(&pass->lock);
    size_t next = pass->taken < pass->count ? pass->taken++ : pass->count;
    pthread_mutex_unlock(&pass->lock);
    return next;
}

static void *draw(void *lent) {
    struct pass *pass = lent;
    for (size_t band = next_band(pass); band < pass->count; band = next_band(pass)) MUST(vgfx_band_draw(&pass->bands[band]));
    return 0;
}

/* Draws a frame by so many threads, this one among them. The start and the join of a thread order its calls and those of this one. */
static void frame_by_threads(vgfx_context *context, size_t threads, uint8_t *picture, size_t length) {
    static struct pass pass = {.lock = PTHREAD_MUTEX_INITIALIZER};
    pthread_t others[MOST_THREADS];
    vgfx_frame_report report;
    MUST(vgfx_frame_begin(context));
    for (;;) {
        MUST(vgfx_pass_next(context, pass.bands, BANDS_A_THREAD * threads, &pass.count));
        if (pass.count == 0) break;
        pass.taken = 0;
        for (size_t k = 1; k < threads; k++)
            if (pthread_create(&others[k], 0, draw, &pass) != 0) exit(1);
        draw(&pass);
        for (size_t k = 1; k < threads; k++) pthread_join(others[k], 0);
        MUST(vgfx_pass_end(context, pass.bands, pass.count));
    }
    MUST(vgfx_frame_end(context, picture, length, &report));
}

int main(int argc, char **argv) {
    size_t threads = argc > 1 ? (size_t)atoi(argv[1]) : 4;
    int side = argc > 2 ? atoi(argv[2]) : 320, rounds = argc > 4 ? atoi(argv[4]) : 1;
    struct scene scene = {VGFX_HANDLE_NULL, 0, 0, 0, 0, argc > 3 ? atoi(argv[3]) : 8};
    if (threads < 1 || threads > MOST_THREADS || side < 1 || side > VGFX_MAX_SIDE || scene.layers < 4 || scene.layers > 1000) {
        fprintf(stderr, "usage: bands [THREADS [SIDE [LAYERS [ROUNDS]]]]\n");
        return 2;
    }
    make(&scene, (uint16_t)side);
    size_t length = VGFX_PICTURE_BYTES((size_t)side, (size_t)side);
    uint8_t *one = malloc(length), *all = malloc(length);
    if (!one || !all) return 1;
    vgfx_frame_report report;
    double least_one = 0, least_all = 0;
    for (int round = 0; round < rounds; round++) {
        record(&scene);
        double start = seconds();
        MUST(vgfx_frame(&scene.context, one, length, &report));
        double took = seconds() - start;
        if (round == 0 || took < least_one) least_one = took;
        record(&scene);
        start = seconds();
        frame_by_threads(&scene.context, threads, all, length);
        took = seconds() - start;
        if (round == 0 || took < least_all) least_all = took;
        if (memcmp(one, all, report.picture) != 0) {
            fprintf(stderr, "the bands have another picture\n");
            return 1;
        }
    }
    if (argc > 4) fprintf(stderr, "one thread %.2f ms, %zu threads %.2f ms, a ratio of %.2f\n", 1e3 * least_one, threads, 1e3 * least_all, least_one / least_all);
    fwrite(all, 1, report.picture, stdout);
    MUST(vgfx_shutdown(&scene.context));
    free(one);
    free(all);
    return 0;
}
