/* Random calls, by a seed: handles that are null, of another kind or ended, words that name nothing, numbers that stand for nothing, buffers
 * too small. Each is answered by a status of the header, none by want of memory, and a call that is not done changes no word that it is given.
 * The program writes how often each status came. Among 100,000 calls or more each of the 47 is done at least once, or the program fails.
 *
 * usage: random [SEED [CALLS]] */
#include "vgfx.h"

#include <inttypes.h>
#include <stdio.h>
#include <stdlib.h>
#include <string.h>

enum { WIDTH = 17, HEIGHT = 5, PICTURE = 3 * WIDTH * HEIGHT + 17, WORDS = 32, ENCODERS = 10, BANDS = 6, CALLS = 47, FIRST_OF_PASSES = 42 };

enum kind { LAYOUT, VERTEX_BUFFER, INDEX_BUFFER, TEXTURE, FRAME_BUFFER, PROGRAM, UNIFORM, KINDS };

static uint64_t state;

/* splitmix64, by Sebastiano Vigna: https://prng.di.unimi.it/splitmix64.c */
static uint64_t next(void) {
    uint64_t z = (state += 0x9e3779b97f4a7c15u);
    z = (z ^ (z >> 30)) * 0xbf58476d1ce4e5b9u;
    z = (z ^ (z >> 27)) * 0x94d049bb133111ebu;
    return z ^ (z >> 31);
}

static uint32_t below(uint32_t n) {
    return (uint32_t)(next() % n);
}

static vgfx_id words[KINDS][WORDS];

/* A word that was made for a thing of this kind, mostly; or for one of any kind; or none; or any number. */
static vgfx_id word(uint32_t kind) {
    uint32_t k = below(16);
    if (k == 0) return 0;
    if (k == 1) return next();
    if (k < 4) kind = below(KINDS);
    vgfx_id made = words[kind][below(WORDS)];
    return k == 4 ? made ^ (UINT64_C(1) << below(64)) : made;
}

/* A handle whose use is no encoder's, no band's or no context's, too. A handle is one pointer, so one may be passed as the other. */
static vgfx_context context;
static vgfx_encoder encoders[ENCODERS];
static vgfx_band bands[BANDS];
static int is_begun;

static vgfx_context *some_context(void) {
    static vgfx_context none;
    uint32_t k = below(16);
    if (k == 0) return &none;
    if (k == 1) return (vgfx_context *)(void *)&encoders[below(ENCODERS)];
    if (k == 2) return (vgfx_context *)(void *)&bands[below(BANDS)];
    return &context;
}

static vgfx_encoder *some_encoder(void) {
    uint32_t k = below(16);
    if (k == 0) return (vgfx_encoder *)(void *)&context;
    if (k == 1) return (vgfx_encoder *)(void *)&bands[below(BANDS)];
    return &encoders[below(ENCODERS)];
}

static vgfx_band *some_band(void) {
    uint32_t k = below(16);
    if (k == 0) return (vgfx_band *)(void *)&context;
    if (k == 1) return (vgfx_band *)(void *)&encoders[below(ENCODERS)];
    return &bands[below(BANDS)];
}

static void fail(const char *what) {
    fprintf(stderr, "random: %s\n", what);
    exit(1);
}

static uint8_t bytes[4096];
static uint8_t picture[PICTURE], pixels[4 * 6 * WIDTH];

static vgfx_status create(uint32_t call, vgfx_context *c, vgfx_id *made) {
    uint32_t n = below(65);
    switch (call) {
        case 0: {
            vgfx_layout_part parts[3];
            for (int i = 0; i < 3; i++) parts[i] = (vgfx_layout_part){(uint8_t)(below(6) ? below(8) : 255), (uint8_t)below(4), (uint8_t)below(5)};
            return vgfx_create_layout(c, parts, below(4), made);
        }
        case 1: return vgfx_create_vertex_buffer(c, word(LAYOUT), bytes, n, made);
        case 2: return vgfx_create_index_buffer(c, bytes, n, made);
        case 3: {
            uint16_t w = (uint16_t)below(6), h = (uint16_t)below(6);
            return vgfx_create_texture(c, w, h, (vgfx_format)below(3), (uint8_t)below(2), bytes, below(8) ? 4u * w * h : n, made);
        }
        case 4: return vgfx_create_filled_texture(c, (uint16_t)below(6), (uint16_t)below(6), (vgfx_format)below(3), (uint8_t)below(2), 1, 2, 3, 4, made);
        case 5: return vgfx_create_frame_buffer(c, word(TEXTURE), word(TEXTURE), made);
        case 6: return vgfx_create_program(c, (vgfx_program)below(5), made);
        default: {
            char name = (char)('a' + below(26));
            return vgfx_create_uniform(c, below(4) ? &name : "u_color", below(4) ? 1 : 7, (vgfx_uniform)below(3), made);
        }
    }
}

static vgfx_status any_call(uint32_t call) {
    vgfx_context *c = some_context();
    vgfx_encoder *e = some_encoder();
    uint16_t view = (uint16_t)(below(16) ? below(6) : next());
    uint16_t x = (uint16_t)below(20), y = (uint16_t)below(20), w = (uint16_t)below(20), h = (uint16_t)below(20);
    vgfx_transform transform;
    for (int i = 0; i < 12; i++) transform.m[i] = (int32_t)next();
    if (call < 8) {
        vgfx_id old = next(), made = old;
        vgfx_status status = create(call, c, &made);
        static const uint8_t kinds[] = {LAYOUT, VERTEX_BUFFER, INDEX_BUFFER, TEXTURE, TEXTURE, FRAME_BUFFER, PROGRAM, UNIFORM};
        if (status == VGFX_OK) words[kinds[call]][below(WORDS)] = made;
        else if (made != old) fail("a refused create wrote a word");
        return status;
    }
    switch (call) {
        case 8: return vgfx_update_buffer(c, word(below(2) ? VERTEX_BUFFER : INDEX_BUFFER), below(70), bytes, below(65));
        case 9: {
            uint16_t wide = (uint16_t)below(4), high = (uint16_t)below(4);
            return vgfx_update_texture(c, word(TEXTURE), (uint16_t)below(4), (uint16_t)below(4), wide, high, bytes, below(8) ? 4u * wide * high : below(65));
        }
        case 10: case 11: return vgfx_destroy(c, word(below(KINDS)));
        case 12: return vgfx_set_view_rect(c, view, x, y, w, h);
        case 13: return vgfx_set_view_scissor(c, view, x, y, w, h);
        case 14: return vgfx_set_view_clear(c, view, (uint8_t)below(9), 1, 2, 3, 4, (uint32_t)next() >> 7, (uint8_t)next());
        case 15: return vgfx_set_view_mode(c, view, (uint8_t)below(5));
        case 16: return vgfx_set_view_transform(c, view, &transform);
        case 17: return vgfx_set_view_target(c, view, word(FRAME_BUFFER));
        case 18: { uint16_t ids[3] = {view, (uint16_t)below(6), (uint16_t)below(6)}; return vgfx_set_view_order(c, ids, below(4)); }
        case 19: return vgfx_reset_view(c, view);
        case 20: case 21:
            /* two arguments of one call lie apart, and an encoder does not begin where a band lies */
            e = below(16) ? &encoders[below(ENCODERS)] : (vgfx_encoder *)(void *)&context;
            if ((void *)c == (void *)e) return VGFX_ERROR_NO_OBJECT;
            return vgfx_encoder_begin(c, e, below(40), below(400), below(20));
        case 22: return vgfx_encoder_set_state(e, below(2) ? 15 : next());
        case 23: return vgfx_encoder_set_stencil(e, below(2) ? 0 : (uint32_t)next(), 0);
        case 24: return vgfx_encoder_set_scissor(e, x, y, w, h);
        case 25: return vgfx_encoder_set_transform(e, &transform);
        case 26: return vgfx_encoder_set_vertices(e, word(VERTEX_BUFFER), below(4), below(8));
        case 27: return vgfx_encoder_set_indices(e, word(INDEX_BUFFER), below(4), below(8));
        case 28: return vgfx_encoder_set_transient_vertices(e, word(LAYOUT), bytes, below(65));
        case 29: return vgfx_encoder_set_transient_indices(e, bytes, below(65));
        case 30: return vgfx_encoder_set_texture(e, (uint8_t)below(3), word(TEXTURE));
        case 31: return vgfx_encoder_set_vec4(e, word(UNIFORM), 1, 2, 3, 4);
        case 32: return vgfx_encoder_set_int(e, word(UNIFORM), (int32_t)next());
        case 33: return vgfx_encoder_submit(e, view, word(PROGRAM), (uint32_t)next(), (uint8_t)next());
        case 34: return vgfx_encoder_touch(e, view);
        case 35: return vgfx_encoder_blit(e, view, word(TEXTURE), x, y, word(TEXTURE), y, x, w, h);
        case 36: return vgfx_encoder_end(e, below(3));
        case 37: { uint32_t off; return vgfx_collect(c, &off); }
        case 38: { uint32_t number; return vgfx_frame_number(c, &number); }
        case 39: return vgfx_encoder_discard(e, (uint8_t)next());
        case 40: {
            size_t stride = below(8) ? 4 * WIDTH + below(8) : below(80), length = below(8) ? sizeof pixels : below(sizeof pixels);
            return vgfx_read_pixels(c, below(2) ? word(TEXTURE) : 0, (vgfx_pixels)below(4), pixels, length, stride);
        }
        case 42: {
            /* a view that is touched is a pass */
            for (int i = 0; i < ENCODERS && c == &context && below(32); i++) {
                (void)!vgfx_encoder_touch(&encoders[i], (uint16_t)below(6));
                (void)!vgfx_encoder_end(&encoders[i], 1);
            }
            vgfx_status status = vgfx_frame_begin(c);
            if (status == VGFX_OK) is_begun = 1;
            return status;
        }
        case 43: case 45: {
            /* the context is no band among those that are given */
            size_t first = below(2) ? 0 : below(BANDS), length = below(BANDS + 1 - (uint32_t)first), count = 77;
            if (c != &context) return VGFX_ERROR_NO_OBJECT;
            if (call == 45) return vgfx_pass_end(c, bands + first, length);
            vgfx_status status = vgfx_pass_next(c, bands + first, length, &count);
            if (status == VGFX_OK ? count > length : count != 77) fail("bands are told wrongly");
            return status;
        }
        case 44: return vgfx_band_draw(some_band());
        case 46: default: {
            /* most frames end their encoders first, and take their bands back */
            if (call != 46 && below(4)) for (int i = 0; i < ENCODERS; i++) (void)!vgfx_encoder_end(&encoders[i], 1);
            if (call == 46 && c == &context && below(4)) (void)!vgfx_pass_end(c, bands, BANDS);
            vgfx_frame_report framed;
            size_t length = below(4) ? sizeof picture : below(2) ? below(sizeof picture) : 0;
            vgfx_status status = call == 46 ? vgfx_frame_end(c, picture, length, &framed) : vgfx_frame(c, picture, length, &framed);
            if (status == VGFX_OK && call == 46) is_begun = 0;
            if (status == VGFX_OK && length == 0 && framed.picture != 0) fail("a picture where no buffer was given");
            if (status == VGFX_OK && length > 0 && (framed.picture != 3 * WIDTH * HEIGHT + 12 || memcmp(picture, "P6\n17 5\n255\n", 12) != 0)) fail("a picture is not whole");
            return status;
        }
    }
}

int main(int argc, char **argv) {
    /* there is memory: VGFX_ERROR_OUT_OF_MEMORY, and VGFX_ERROR_ENDED behind it, would be wrong */
    static const vgfx_status known[] = {0, 1, 2, 3, 4, 5, 6, 7, 8, 9, 10, 11, 12, 13, 14, 16, 100, 101, 103, 104, 105, 108, 109};
    static uint64_t counts[110], done[CALLS];
    state = argc > 1 ? strtoull(argv[1], 0, 10) : 1;
    uint64_t calls = argc > 2 ? strtoull(argv[2], 0, 10) : 100000;
    for (size_t i = 0; i < sizeof bytes; i++) bytes[i] = (uint8_t)next();
    if (vgfx_init(&context, WIDTH, HEIGHT) != VGFX_OK) fail("no context");
    if (vgfx_init(&context, WIDTH, HEIGHT) != VGFX_ERROR_TAKEN) fail("a context was made over another");
    for (uint64_t i = 0; i < calls; i++) {
        /* while a frame is begun, all other calls are refused */
        uint32_t call = is_begun && below(16) ? FIRST_OF_PASSES + below(CALLS - FIRST_OF_PASSES) : below(CALLS);
        vgfx_status status = any_call(call);
        size_t k = 0;
        while (k < sizeof known / sizeof known[0] && known[k] != status) k++;
        if (k == sizeof known / sizeof known[0]) fail("a status that stands for nothing, or for want of memory");
        counts[status]++;
        done[call] += status == VGFX_OK;
    }
    if (calls >= 100000)
        for (int i = 0; i < CALLS; i++)
            if (done[i] == 0) fail("one of the calls was never done");
    for (int i = 0; i < ENCODERS; i++) (void)!vgfx_encoder_drop(&encoders[i]);
    (void)!vgfx_frame_begin(&context);
    if (vgfx_shutdown(&context) != VGFX_OK || vgfx_shutdown(&context) != VGFX_ERROR_NO_OBJECT) fail("the context was not given up once");
    /* bands that outlive their context are taken back by the null handle */
    if (vgfx_pass_end(&context, bands, BANDS) != VGFX_ERROR_NO_OBJECT || vgfx_band_draw(&bands[0]) != VGFX_ERROR_NO_OBJECT) fail("a band was not taken back");
    for (size_t s = 0; s < sizeof counts / sizeof counts[0]; s++)
        if (counts[s]) printf("status %zu: %" PRIu64 "\n", s, counts[s]);
    return 0;
}
