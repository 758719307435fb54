/* A heap that gives up: of a fixed list of calls each allocation fails in turn. A call answers VGFX_ERROR_OUT_OF_MEMORY only where one failed in it;
 * then the things that it was given are as before, and the same call is done when it is made again, with the same pictures in the end. So is a
 * vgfx_frame, unless its render wanted memory: then the context is ended. State that is set and taken back changes no picture, and an encoder
 * that is dropped ends its context; neither wants memory. All blocks are given back. The program writes how many allocations
 * failed, how many calls answered so, and how many frames of them were done when they were ended again, and how many were not. It has the
 * library's heap itself, in place of tools/c/heap.c. */
#include "vgfx.h"

#include <stdbool.h>
#include <stdio.h>
#include <stdlib.h>
#include <string.h>

enum { WIDTH = 8, HEIGHT = 4, PICTURE = VGFX_PICTURE_BYTES(WIDTH, HEIGHT), FRAMES = 2 };

/* ---- the heap */

struct tried {
    bool ok;
    void *at;
};

static char nothing;
static unsigned long until; /* how many allocations there are up to one that fails; 0 for none */
static bool failed;         /* one failed since this was set to false */
static long blocks;

static bool fails(void) {
    if (until == 0 || --until > 0) return false;
    failed = true;
    return true;
}

struct tried rattle_alloc(size_t size, size_t align);
struct tried rattle_realloc(void *at, size_t kept, size_t size, size_t align);
void rattle_dealloc(void *at);

struct tried rattle_alloc(size_t size, size_t align) {
    void *at = fails() ? 0 : malloc(size ? size : align);
    if (!at) return (struct tried){false, &nothing};
    blocks++;
    return (struct tried){true, at};
}

struct tried rattle_realloc(void *at, size_t kept, size_t size, size_t align) {
    (void)kept;
    void *more = fails() ? 0 : realloc(at, size ? size : align);
    return more ? (struct tried){true, more} : (struct tried){false, &nothing};
}

void rattle_dealloc(void *at) {
    blocks--;
    free(at);
}

/* ---- the calls */

static unsigned long wants, again, lost;

static void wrong(const char *what) {
    fprintf(stderr, "want: %s\n", what);
    exit(1);
}

/* Makes a call, and where it wants memory makes it again. */
#define MUST(call) ANSWERS(call, VGFX_OK)
#define ANSWERS(call, wanted)                                                    \
    do {                                                                         \
        failed = false;                                                          \
        vgfx_status status = (call);                                              \
        if (status == VGFX_ERROR_OUT_OF_MEMORY) {                                       \
            if (!failed) wrong("no allocation failed in " #call);                \
            wants++;                                                             \
            status = (call);                                                     \
        }                                                                        \
        if (status != (wanted)) wrong(#call);                                    \
    } while (0)

/* The same of a call that writes a word, which is as before where memory is wanting. */
#define MAKES(call, thing)                                                       \
    do {                                                                         \
        vgfx_id before = (thing) = 12345;                                      \
        failed = false;                                                          \
        vgfx_status status = (call);                                              \
        if (status == VGFX_ERROR_OUT_OF_MEMORY) {                                       \
            if (!failed) wrong("no allocation failed in " #call);                \
            if ((thing) != before) wrong("a word was written by " #call);        \
            wants++;                                                             \
            status = (call);                                                     \
        }                                                                        \
        if (status != VGFX_OK) wrong(#call);                                    \
    } while (0)

static uint8_t picture[FRAMES][PICTURE], first[FRAMES][PICTURE];

/* A frame that did not end: the buffer is as before, and nothing was told. */
static void is_untold(int frame, const vgfx_frame_report *framed) {
    for (int i = 0; i < PICTURE; i++)
        if (picture[frame][i] != 9) wrong("a picture was written where memory was wanting");
    if (framed->number != 7 || framed->picture != 7 || framed->dropped != 7) wrong("a frame was told that did not end");
}

/* The pixels that are read are those of the picture. Nothing is taken for it. */
static void is_read(vgfx_context *context, const uint8_t *colors) {
    uint8_t pixels[4 * WIDTH * HEIGHT];
    failed = false;
    if (vgfx_read_pixels(context, 0, VGFX_PIXELS_RGBA8, pixels, sizeof pixels, 4 * WIDTH) != VGFX_OK || failed) wrong("vgfx_read_pixels");
    for (int i = 0; i < WIDTH * HEIGHT; i++)
        if (memcmp(pixels + 4 * i, colors + 3 * i, 3) != 0) wrong("the pixels that were read");
}

/* Ends a frame that is drawn in passes. Want of memory for a band only costs time: no call but the first and the last is refused for it. */
static vgfx_status in_passes(vgfx_context *context, int frame, vgfx_frame_report *framed) {
    vgfx_band bands[3] = {{0}, {0}, {0}};
    size_t count = 9;
    vgfx_status status = vgfx_frame_begin(context);
    if (status != VGFX_OK) return status;
    for (;;) {
        if (vgfx_pass_next(context, bands, 3, &count) != VGFX_OK || count > 3) wrong("vgfx_pass_next");
        if (count == 0) break;
        if (vgfx_band_draw(&bands[0]) != VGFX_OK || vgfx_pass_end(context, bands, count) != VGFX_OK) wrong("a pass");
    }
    return vgfx_frame_end(context, picture[frame], PICTURE, framed);
}

/* Ends a frame, each other one in passes, and where that wants memory ends it again. Answers whether it has a picture: where its render wanted memory the context is ended. */
static bool is_shown(vgfx_context *context, int frame) {
    vgfx_frame_report framed = {7, 7, 7};
    vgfx_encoder encoder = {0};
    memset(picture[frame], 9, PICTURE);
    failed = false;
    vgfx_status status = frame % 2 ? in_passes(context, frame, &framed) : vgfx_frame(context, picture[frame], PICTURE, &framed);
    if (status == VGFX_ERROR_OUT_OF_MEMORY) {
        if (!failed) wrong("no allocation failed in vgfx_frame");
        wants++;
        is_untold(frame, &framed);
        status = vgfx_frame(context, picture[frame], PICTURE, &framed);
        if (status == VGFX_ERROR_ENDED) {
            is_untold(frame, &framed);
            if (vgfx_encoder_begin(context, &encoder, 1, 0, 0) != VGFX_ERROR_ENDED) wrong("an encoder began after a render that wanted memory");
            lost++;
            return false;
        }
        again++;
    }
    if (status != VGFX_OK || framed.number != (uint32_t)frame || framed.dropped != 2) wrong("vgfx_frame");
    is_read(context, picture[frame] + framed.picture - 3 * WIDTH * HEIGHT);
    return true;
}

/* State by which nothing is drawn, which is taken back. */
static void take_back(vgfx_encoder *encoder, const vgfx_id *of) {
    failed = false;
    if (vgfx_encoder_set_state(encoder, 0) != VGFX_OK || vgfx_encoder_set_scissor(encoder, 0, 0, 0, 0) != VGFX_OK) wrong("a state that draws nothing");
    if (vgfx_encoder_set_vertices(encoder, of[1], 0, 0) != VGFX_OK) wrong("no vertices");
    if (vgfx_encoder_discard(encoder, VGFX_DISCARD_ALL) != VGFX_OK || failed) wrong("vgfx_encoder_discard");
}

/* An encoder that is dropped: no encoder begins and no frame ends from then on. */
static void give_up(vgfx_context *context) {
    vgfx_encoder encoder = {0}, next = {0};
    vgfx_frame_report framed = {7, 7, 7};
    uint8_t text[PICTURE] = {9};
    uint32_t out = 9;
    MUST(vgfx_encoder_begin(context, &encoder, 1, 0, 0));
    MUST(vgfx_encoder_touch(&encoder, 0));
    failed = false;
    if (vgfx_encoder_drop(&encoder) != VGFX_OK || vgfx_encoder_drop(&encoder) != VGFX_ERROR_NO_OBJECT) wrong("vgfx_encoder_drop");
    if (vgfx_collect(context, &out) != VGFX_OK || out != 1) wrong("an encoder that was dropped has come");
    for (int i = 0; i < 2; i++)
        if (vgfx_frame(context, text, PICTURE, &framed) != VGFX_ERROR_ENDED) wrong("a frame ended behind an encoder that was dropped");
    if (failed || text[0] != 9 || framed.number != 7) wrong("what a frame left that did not end");
    ANSWERS(vgfx_encoder_begin(context, &next, 1, 0, 0), VGFX_ERROR_ENDED);
}

/* A draw by both kinds of vertices, with a texture that is copied first. */
static void record(vgfx_encoder *encoder, const vgfx_id *of) {
    static const uint8_t corners[24] = {0, 0, 255, 255, 0, 0, 1, 0, 0, 0, 1, 0, 0, 0, 1, 0, 0, 0, 255, 255, 0, 0, 255, 255};
    static const uint8_t order[6] = {0, 0, 2, 0, 1, 0};
    MUST(vgfx_encoder_blit(encoder, 0, of[3], 0, 0, of[4], 0, 0, 2, 2));
    MUST(vgfx_encoder_set_texture(encoder, 0, of[3]));
    MUST(vgfx_encoder_set_vertices(encoder, of[1], 0, 3));
    MUST(vgfx_encoder_set_indices(encoder, of[2], 0, 3));
    MUST(vgfx_encoder_submit(encoder, 1, of[8], 0, 255));
    MUST(vgfx_encoder_set_vec4(encoder, of[6], 65536, 0, 0, 65536));
    MUST(vgfx_encoder_set_transient_vertices(encoder, of[0], corners, sizeof corners));
    MUST(vgfx_encoder_set_transient_indices(encoder, order, sizeof order));
    MUST(vgfx_encoder_submit(encoder, 0, of[7], 0, 255));
    MUST(vgfx_encoder_touch(encoder, 2));
    MUST(vgfx_encoder_end(encoder, 1));
}

/* Plays a scene's text: two frames of one pixel. Where memory is wanting nothing is written. */
static void play_text(void) {
    static const char text[] = "scene 2\nsize 1 1\nencoders 2\nlatency 2\nframe\nview 0 clear 1 ff0000ff 0 0\nencoder 0\ntouch 0\n"
                               "frame\nview 0 clear 1 00ff00ff 0 0\nencoder 1\ntouch 0\ntouch 512\ndone\n";
    static const char lines[] = "frame 0 items 1 dropped 0\nframe 1 items 1 dropped 1\n";
    static const uint8_t shown[28] = "P6\n1 1\n255\n\377\0\0P6\n1 1\n255\n\0\377";
    uint8_t pictures[30], report[60];
    vgfx_play_report played = {7, 7, 7, 7};
    memset(pictures, 9, sizeof pictures);
    memset(report, 9, sizeof report);
    failed = false;
    vgfx_status status = vgfx_play((const uint8_t *)text, sizeof text - 1, pictures, sizeof pictures, report, sizeof report, &played);
    if (status == VGFX_ERROR_OUT_OF_MEMORY) {
        if (!failed) wrong("no allocation failed in vgfx_play");
        for (size_t i = 0; i < sizeof report; i++)
            if (report[i] != 9 || pictures[i / 2] != 9) wrong("a play wrote where memory was wanting");
        if (played.pictures != 7 || played.report != 7 || played.line != 7 || played.cause != 7) wrong("a play was told that wanted memory");
        wants++;
        status = vgfx_play((const uint8_t *)text, sizeof text - 1, pictures, sizeof pictures, report, sizeof report, &played);
    }
    if (status != VGFX_OK || played.pictures != sizeof shown || played.report != sizeof lines - 1) wrong("vgfx_play");
    if (memcmp(pictures, shown, sizeof shown) != 0 || memcmp(report, lines, sizeof lines - 1) != 0) wrong("what vgfx_play wrote");
}

/* Plays a text; makes things, and two frames with two encoders each. Answers how many frames had a picture. */
static int play(void) {
    static const uint8_t corners[24] = {0, 0, 0, 0, 0, 0, 1, 0, 0, 0, 1, 0, 0, 0, 255, 255, 0, 0, 255, 255, 0, 0, 255, 255};
    static const uint8_t order[6] = {0, 0, 1, 0, 2, 0}, texels[16] = {200, 100, 50, 255, 1, 2, 3, 4};
    vgfx_context context = {0};
    vgfx_layout_part corner = {VGFX_ATTRIBUTE_POSITION, VGFX_COMPONENT_FIXED, 2};
    vgfx_id of[9], depth, target, more;
    int frame = 0;
    play_text();
    MUST(vgfx_init(&context, WIDTH, HEIGHT));
    MAKES(vgfx_create_layout(&context, &corner, 1, &of[0]), of[0]);
    MAKES(vgfx_create_vertex_buffer(&context, of[0], corners, sizeof corners, &of[1]), of[1]);
    MAKES(vgfx_create_index_buffer(&context, order, sizeof order, &of[2]), of[2]);
    MAKES(vgfx_create_filled_texture(&context, 2, 2, VGFX_FORMAT_RGBA8, 1, 1, 2, 3, 4, &of[3]), of[3]);
    MAKES(vgfx_create_texture(&context, 2, 2, VGFX_FORMAT_RGBA8, 0, texels, sizeof texels, &of[4]), of[4]);
    MAKES(vgfx_create_filled_texture(&context, 2, 2, VGFX_FORMAT_RGBA8, 0, 0, 0, 0, 0, &of[5]), of[5]);
    MAKES(vgfx_create_filled_texture(&context, 2, 2, VGFX_FORMAT_D24S8, 0, 0, 0, 0, 0, &depth), depth);
    MAKES(vgfx_create_frame_buffer(&context, of[5], depth, &target), target);
    MAKES(vgfx_create_uniform(&context, "u_color", 7, VGFX_UNIFORM_VEC4, &of[6]), of[6]);
    MAKES(vgfx_create_program(&context, VGFX_PROGRAM_SOLID, &of[7]), of[7]);
    MAKES(vgfx_create_program(&context, VGFX_PROGRAM_TEXTURE, &of[8]), of[8]);
    MUST(vgfx_set_view_target(&context, 2, target));
    MUST(vgfx_set_view_clear(&context, 2, VGFX_CLEAR_COLOR | VGFX_CLEAR_DEPTH, 1, 2, 3, 4, 5, 6));
    MUST(vgfx_set_view_mode(&context, 0, VGFX_VIEW_MODE_SEQUENTIAL));
    for (; frame < FRAMES; frame++) {
        vgfx_encoder encoders[2] = {{0}, {0}};
        MUST(vgfx_update_buffer(&context, of[1], 0, corners, sizeof corners));
        MUST(vgfx_update_texture(&context, of[4], 0, 0, 2, 2, texels, sizeof texels));
        for (int k = 0; k < 2; k++) MUST(vgfx_encoder_begin(&context, &encoders[k], 8, 64, 4));
        MAKES(vgfx_create_index_buffer(&context, order, sizeof order, &more), more);
        for (int k = 0; k < 2; k++) {
            if (frame > 0) take_back(&encoders[k], of);
            record(&encoders[k], of);
        }
        MUST(vgfx_destroy(&context, more));
        if (!is_shown(&context, frame)) break;
    }
    if (frame == FRAMES) give_up(&context);
    MUST(vgfx_shutdown(&context));
    if (blocks != 0) wrong("blocks were not given back");
    return frame;
}

int main(void) {
    if (play() != FRAMES || wants != 0) wrong("calls without want");
    if (memcmp(picture[0], picture[1], PICTURE) != 0) wrong("state that was taken back changed a picture");
    memcpy(first, picture, sizeof first);
    unsigned long n = 0;
    do {
        until = ++n;
        int frames = play();
        if (memcmp(first, picture, (size_t)frames * PICTURE) != 0) wrong("a picture is another where memory was wanting");
    } while (until == 0);
    if (again == 0 || lost == 0) wrong("no frame wanted memory before its render, or none in it");
    printf("each of %lu allocations failed: %lu calls wanted memory, of which %lu frames were done again and %lu were not\n", n - 1, wants, again, lost);
    return 0;
}
