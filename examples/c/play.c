/* Plays a scene of docs/rules/formats.md, read from standard input, and writes its pictures to standard output and its report to standard error, as
 * the program `gfx_play play` does. With the word `lines` it plays the scene by calls that it makes of its lines, and writes the pictures
 * alone: it reads scenes that are well formed, and plays the blocks of a frame one after another. */
#include "vgfx.h"

#include <stdio.h>
#include <stdlib.h>
#include <string.h>

enum { MOST_FIELDS = 600, MOST_NAMES = 8192, MOST_ENCODERS = 8 };

static void fail(const char *what) {
    fprintf(stderr, "play: %s\n", what);
    exit(1);
}

/* ---- a line and its fields */

static char *field[MOST_FIELDS];
static int fields;

static int is(int k, const char *word) {
    return k < fields && strcmp(field[k], word) == 0;
}

static unsigned long long number(int k) {
    return k < fields ? strtoull(field[k], 0, 10) : 0;
}

static int32_t sign(int k) {
    return k < fields ? (int32_t)strtoll(field[k], 0, 10) : 0;
}

static uint16_t side(int k) {
    return (uint16_t)number(k);
}

/* Reads bytes that are written as hexadecimal digits, `-` for none. */
static uint8_t *bytes;
static size_t length;

static void hex(const char *text) {
    length = strcmp(text, "-") == 0 ? 0 : strlen(text) / 2;
    bytes = realloc(bytes, length + 1);
    if (!bytes) fail("no memory");
    for (size_t i = 0; i < length; i++) {
        char two[3] = {text[2 * i], text[2 * i + 1], 0};
        bytes[i] = (uint8_t)strtoul(two, 0, 16);
    }
}

static vgfx_transform transform(int from) {
    vgfx_transform t;
    for (int i = 0; i < 12; i++) t.m[i] = sign(from + i);
    return t;
}

/* ---- names */

static struct { char *name; vgfx_id thing; int bound; } names[MOST_NAMES];
static int known;

static int place(const char *name) {
    int k = 0;
    while (k < known && strcmp(names[k].name, name) != 0) k++;
    if (k == MOST_NAMES) fail("too many names");
    if (k == known) {
        names[known].name = malloc(strlen(name) + 1);
        if (!names[known].name) fail("no memory");
        strcpy(names[known++].name, name);
    }
    return k;
}

/* The word of a name; no thing where its line was refused. */
static vgfx_id thing(int k) {
    return is(k, "-") ? 0 : names[place(field[k])].thing;
}

static int choice(int k, const char *const *words) {
    int n = 0;
    while (words[n] && !is(k, words[n])) n++;
    if (!words[n]) fail("a word that is not known");
    return n;
}

/* ---- the lines of the API thread */

static vgfx_context context;

static const char *const ATTRIBUTES[] = {"position", "normal", "tangent", "color0", "color1", "texcoord0", "texcoord1", 0};
static const char *const TYPES[] = {"u8", "i16", "fixed", 0};
static const char *const FORMATS[] = {"rgba8", "d24s8", 0};
static const char *const PROGRAMS[] = {"solid", "color", "texture", "texcolor", 0};
static const char *const UNIFORMS[] = {"vec4", "int", 0};
static const char *const MODES[] = {"default", "sequential", "ascending", "descending", 0};

static vgfx_status layout(vgfx_id *made) {
    vgfx_layout_part parts[16];
    size_t n = 0;
    for (int k = 2; k < fields && n < 16; k++, n++) {
        char *a = strtok(field[k], ":"), *b = strtok(0, ":"), *c = strtok(0, ":");
        if (!b) fail("a part that is not known");
        if (strcmp(a, "skip") == 0) {
            parts[n] = (vgfx_layout_part){VGFX_ATTRIBUTE_SKIP, 0, (uint8_t)atoi(b)};
            continue;
        }
        int attribute = 0, type = 0;
        while (ATTRIBUTES[attribute] && strcmp(ATTRIBUTES[attribute], a) != 0) attribute++;
        while (TYPES[type] && strcmp(TYPES[type], b) != 0) type++;
        parts[n] = (vgfx_layout_part){(uint8_t)attribute, (uint8_t)type, (uint8_t)atoi(c ? c : "0")};
    }
    return vgfx_create_layout(&context, parts, n, made);
}

static vgfx_status texture(vgfx_id *made) {
    uint8_t format = (uint8_t)choice(4, FORMATS), blit = (uint8_t)is(5, "dst");
    if (strncmp(field[6], "fill:", 5) == 0) {
        hex(field[6] + 5);
        return vgfx_create_filled_texture(&context, side(2), side(3), format, blit, bytes[0], bytes[1], bytes[2], bytes[3], made);
    }
    hex(field[6] + 4);
    return vgfx_create_texture(&context, side(2), side(3), format, blit, bytes, length, made);
}

static vgfx_status create(vgfx_id *made) {
    if (is(0, "layout")) return layout(made);
    if (is(0, "vb")) { hex(field[3]); return vgfx_create_vertex_buffer(&context, thing(2), bytes, length, made); }
    if (is(0, "ib")) { hex(field[2]); return vgfx_create_index_buffer(&context, bytes, length, made); }
    if (is(0, "texture")) return texture(made);
    if (is(0, "fb")) return vgfx_create_frame_buffer(&context, thing(2), thing(3), made);
    if (is(0, "program")) return vgfx_create_program(&context, (vgfx_program)choice(2, PROGRAMS), made);
    return vgfx_create_uniform(&context, field[1], strlen(field[1]), (vgfx_uniform)choice(2, UNIFORMS), made);
}

/* A line of a scene that is refused is dropped. */
static void line(vgfx_status status) { (void)status; }

static void view(void) {
    uint16_t v = side(1);
    if (is(2, "rect")) line(vgfx_set_view_rect(&context, v, side(3), side(4), side(5), side(6)));
    else if (is(2, "scissor")) line(vgfx_set_view_scissor(&context, v, side(3), side(4), side(5), side(6)));
    else if (is(2, "mode")) line(vgfx_set_view_mode(&context, v, (vgfx_view_mode)choice(3, MODES)));
    else if (is(2, "target")) line(vgfx_set_view_target(&context, v, thing(3)));
    else if (is(2, "reset")) line(vgfx_reset_view(&context, v));
    else if (is(2, "transform")) { vgfx_transform t = transform(3); line(vgfx_set_view_transform(&context, v, &t)); }
    else {
        hex(field[4]);
        line(vgfx_set_view_clear(&context, v, (uint8_t)number(3), bytes[0], bytes[1], bytes[2], bytes[3], (uint32_t)number(5), (uint8_t)number(6)));
    }
}

static void resource_line(void) {
    if (is(0, "view")) view();
    else if (is(0, "update")) { hex(field[3]); line(vgfx_update_buffer(&context, thing(1), (uint32_t)number(2), bytes, length)); }
    else if (is(0, "texupdate")) { hex(field[6]); line(vgfx_update_texture(&context, thing(1), side(2), side(3), side(4), side(5), bytes, length)); }
    else if (is(0, "destroy")) line(vgfx_destroy(&context, thing(1)));
    else if (is(0, "order")) {
        uint16_t ids[MOST_FIELDS];
        for (int k = 1; k < fields; k++) ids[k - 1] = side(k);
        line(vgfx_set_view_order(&context, ids, (size_t)(fields - 1)));
    } else {
        int k = place(field[1]);
        vgfx_id made = 0;
        create(&made);
        names[k].thing = made;
    }
}

/* ---- the lines of an encoder */

static vgfx_status encoder_line(vgfx_encoder *e) {
    if (is(0, "state")) return vgfx_encoder_set_state(e, number(1));
    if (is(0, "stencil")) return vgfx_encoder_set_stencil(e, (uint32_t)number(1), (uint32_t)number(2));
    if (is(0, "scissor")) return vgfx_encoder_set_scissor(e, side(1), side(2), side(3), side(4));
    if (is(0, "transform")) { vgfx_transform t = transform(1); return vgfx_encoder_set_transform(e, &t); }
    if (is(0, "vertices")) return vgfx_encoder_set_vertices(e, thing(1), (uint32_t)number(2), (uint32_t)number(3));
    if (is(0, "indices")) return vgfx_encoder_set_indices(e, thing(1), (uint32_t)number(2), (uint32_t)number(3));
    if (is(0, "tvertices")) { hex(field[2]); return vgfx_encoder_set_transient_vertices(e, thing(1), bytes, length); }
    if (is(0, "tindices")) { hex(field[1]); return vgfx_encoder_set_transient_indices(e, bytes, length); }
    if (is(0, "bind")) return vgfx_encoder_set_texture(e, (uint8_t)number(1), thing(2));
    if (is(0, "set") && fields == 3) return vgfx_encoder_set_int(e, thing(1), sign(2));
    if (is(0, "set")) return vgfx_encoder_set_vec4(e, thing(1), sign(2), sign(3), sign(4), sign(5));
    if (is(0, "submit")) return vgfx_encoder_submit(e, side(1), thing(2), (uint32_t)number(3), (uint8_t)number(4));
    if (is(0, "touch")) return vgfx_encoder_touch(e, side(1));
    if (is(0, "blit")) return vgfx_encoder_blit(e, side(1), thing(2), side(3), side(4), thing(5), side(6), side(7), side(8), side(9));
    fail("a line that is not known");
    return VGFX_OK;
}

/* ---- a scene */

static vgfx_encoder encoders[MOST_ENCODERS];
static uint32_t dropped[MOST_ENCODERS];
static int encoder_count;
static uint32_t room[3] = {8191, 1048576, 8191};
static uint8_t *picture;
static size_t picture_length;

static void begin_all(void) {
    for (int k = 0; k < encoder_count; k++) {
        dropped[k] = 0;
        if (vgfx_encoder_begin(&context, &encoders[k], room[0], room[1], room[2]) != VGFX_OK) fail("an encoder does not begin");
    }
}

static void end_frame(void) {
    for (int k = 0; k < encoder_count; k++)
        if (vgfx_encoder_end(&encoders[k], dropped[k]) != VGFX_OK) fail("an encoder does not end");
    vgfx_frame_report framed;
    if (vgfx_frame(&context, picture, picture_length, &framed) != VGFX_OK) fail("a frame does not end");
    fwrite(picture, 1, framed.picture, stdout);
}

static void play_lines(char *text) {
    int begun = 0, block = -1, frames = 0;
    for (char *line = text, *after; *line; line = after) {
        after = line + strcspn(line, "\n");
        if (*after) *after++ = 0;
        if (*line == '#' || !*line) continue;
        fields = 0;
        for (char *at = line; *at && fields < MOST_FIELDS;) {
            field[fields++] = at;
            at += strcspn(at, " ");
            if (*at) *at++ = 0;
        }
        if (is(0, "scene") || is(0, "latency")) continue;
        if (is(0, "size")) {
            picture_length = VGFX_PICTURE_BYTES(side(1), side(2));
            picture = malloc(picture_length);
            if (!picture || vgfx_init(&context, side(1), side(2)) != VGFX_OK) fail("no context");
        } else if (is(0, "encoders")) encoder_count = (int)number(1);
        else if (is(0, "room")) for (int k = 0; k < 3; k++) room[k] = (uint32_t)number(k + 1);
        else if (is(0, "frame") || is(0, "done")) {
            if (frames++) {
                if (!begun) begin_all();
                end_frame();
            }
            begun = 0;
            block = -1;
        } else if (is(0, "encoder")) {
            if (!begun) begin_all();
            begun = 1;
            block = (int)number(1);
        } else if (is(0, "beside")) block = -1;
        else if (block < 0) resource_line();
        else if (encoder_line(&encoders[block]) != VGFX_OK) dropped[block]++;
    }
    if (vgfx_shutdown(&context) != VGFX_OK) fail("the context was not given up");
}

/* ---- the text as a whole */

static void play_text(const char *text, size_t n) {
    vgfx_play_report played = {0, 0, 0, 0};
    uint8_t none[2] = {0, 0};
    uint8_t *pictures = NULL, *report = NULL;
    vgfx_status status = vgfx_play((const uint8_t *)text, n, &none[0], 0, &none[1], 0, &played);
    if (status == VGFX_ERROR_TOO_SMALL) { /* the lengths are those of every run on this text, so the next call is not answered so */
        size_t pictures_length = played.pictures, report_length = played.report;
        pictures = malloc(pictures_length + 1);
        report = malloc(report_length + 1);
        if (!pictures || !report) fail("no memory");
        status = vgfx_play((const uint8_t *)text, n, pictures, pictures_length, report, report_length, &played);
    }
    if (status == VGFX_ERROR_NO_SCENE) {
        fprintf(stderr, "scene refused at line %lu for cause %lu\n", (unsigned long)played.line, (unsigned long)played.cause);
        exit(2);
    }
    if (status != VGFX_OK) fail("the scene is not played");
    if (pictures) fwrite(pictures, 1, played.pictures, stdout);
    if (report) fwrite(report, 1, played.report, stderr);
    free(pictures);
    free(report);
}

int main(int argc, char **argv) {
    size_t capacity = 1 << 16, n = 0, got;
    char *text = malloc(capacity + 1);
    while (text && (got = fread(text + n, 1, capacity - n, stdin)) > 0)
        if ((n += got) == capacity) text = realloc(text, (capacity *= 2) + 1);
    if (!text) fail("no memory");
    text[n] = 0;
    if (argc > 1 && strcmp(argv[1], "lines") == 0) play_lines(text);
    else play_text(text, n);
    free(text);
    return 0;
}
