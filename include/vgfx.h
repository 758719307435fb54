/* vgfx: a renderer's front end for C and C++, whose calls are proved against their definition. Contexts, resources, views, encoders that
 * several threads use at once, frames and their pictures; and whole scenes as text.
 *
 * The page docs/use/from-c.md says how to build and link, what the caller owes, and what is proved up to which line.
 *
 * Words used below
 *   context    what draws: resources, views, a back buffer, and the frame that is being recorded
 *   resource   a layout, buffer, texture, frame buffer, program or uniform. It is named by an id of 64 bits; 0 is no resource
 *   encoder    what records draws for one frame, on any thread. It is out from its begin until a collect or a frame takes it in
 *   pass       the views of a frame that are drawn at one go; its target's rows are lent in bands
 *   band       rows of a pass, which one thread draws. It is out from vgfx_pass_next to vgfx_pass_end
 *   item       a draw, a touch or a blit: what an encoder records, in one view
 *
 * Handles. A vgfx_context, a vgfx_encoder or a vgfx_band starts as VGFX_HANDLE_NULL and is passed by its address. The caller never reads, writes or
 * copies it; it may be moved while no call has it. One call at a time has a handle. Another thread may have it next, where the two are
 * ordered by a mutex, a condition variable, a semaphore, the start or the end of a thread, or a seq_cst atomic. Calls on different
 * handles need no order: encoders record beside one another and beside the calls of their context, and bands are drawn beside one another.
 *
 * Ids. Any number may be passed. One that names no resource that this context made is refused as VGFX_ERROR_UNKNOWN. An id does not tell
 * of which context it is: that of another context is a number like any other.
 *
 * Pointers are not null, but for one beside a length of 0. What is only written (an id, a report, a number) needs no value before.
 *
 * Statuses. Each call answers VGFX_OK or why it did nothing. After every other answer all is as it was, except where a call says
 * otherwise. Where several reasons hold, the first in the order of the call's list is answered. VGFX_ERROR_OUT_OF_MEMORY comes from the
 * calls alone that list it, and last, but from vgfx_init, vgfx_encoder_begin, vgfx_create_texture and vgfx_play it may come before others.
 *
 * Conventions
 *   units        positions, transforms and vec4 values are whole numbers of 1/65536 (VGFX_ONE is 1)
 *   space        x from -1 (left) to 1 (right), y from -1 (bottom) to 1 (top), z from 0 (near) to 1 (far) over a view's rectangle
 *   guard range  a triangle with a vertex where |x| or |y| is over 8, or z is not 0 to 1, is dropped whole: nothing is clipped
 *   front        a triangle that is clockwise on the screen
 *   transforms   affine: three rows of four numbers. There is no perspective, of positions or of textures
 *   vertices     position, color0 and texcoord0 are read. The other attributes take their bytes and do nothing. A vertex or an index past
 *                the end of its buffer does not exist, and a triangle with such a vertex is dropped
 *   indices      16 bits, lowest byte first
 *   textures     row by row from the top, four bytes a texel: red, green, blue, alpha, or, of VGFX_FORMAT_D24S8, the depth in three bytes,
 *                lowest first, and the stencil. (0, 0) is the upper left corner, 1 is one width or height. A sample is the nearest texel;
 *                outside 0 to 1 the texture repeats. No linear filter and no mips
 *   rectangles   of views and scissors: pixels of the target, from its upper left corner
 *   depth        of pixels: 0 to 16777215. The depth of a submit is another thing: any number, which orders the draws of a view
 *   order        draws of one view are ordered by its mode, and those that tie by the order in which they were submitted. So where two
 *                encoders submit to one view draws that tie, as all draws of VGFX_VIEW_MODE_SEQUENTIAL do, the picture depends on which
 *                thread was first. A view for each encoder, or different depths in a depth mode, make it the same each time
 *   contents     the back buffer and all textures keep what was drawn from frame to frame; vgfx_set_view_clear says what entering a
 *                view clears. A view without an item in a frame is not entered and not cleared; a touch is enough
 */
#ifndef VGFX_H
#define VGFX_H

#include <stddef.h>
#include <stdint.h>

#define VGFX_VERSION_MAJOR 0
#define VGFX_VERSION_MINOR 3
#define VGFX_VERSION_PATCH 0
#define VGFX_VERSION ((VGFX_VERSION_MAJOR << 16) | (VGFX_VERSION_MINOR << 8) | VGFX_VERSION_PATCH)

#if defined(__GNUC__) || defined(__clang__)
#define VGFX_CALL __attribute__((warn_unused_result)) vgfx_status
#else
#define VGFX_CALL vgfx_status
#endif

#if defined(__GNUC__) || defined(__clang__)
#define VGFX_INLINE static __inline__ __attribute__((unused))
#else
#define VGFX_INLINE static inline
#endif

#ifdef __cplusplus
#define VGFX_CAST(type, value) static_cast<type>(value)
#define VGFX_HANDLE_NULL {}
extern "C" {
#else
#define VGFX_CAST(type, value) ((type)(value))
#define VGFX_HANDLE_NULL {0}
#endif

/* ---- types */

#if defined(__cplusplus) && __cplusplus >= 201103L
/* In C++ a handle is moved and not copied. */
#define VGFX_HANDLE(name) \
    struct name { \
        void *at; \
        constexpr name() noexcept : at(nullptr) {} \
        name(name &&other) noexcept : at(other.at) { other.at = nullptr; } \
        name(const name &) = delete; \
        name &operator=(const name &) = delete; \
    };
VGFX_HANDLE(vgfx_context)
VGFX_HANDLE(vgfx_encoder)
VGFX_HANDLE(vgfx_band)
#undef VGFX_HANDLE
#else
/* A handle is not to be copied: two copies that are both used are two owners of one object. */
typedef struct vgfx_context { void *at; } vgfx_context;
typedef struct vgfx_encoder { void *at; } vgfx_encoder;
typedef struct vgfx_band { void *at; } vgfx_band;
#endif

/* The id of a resource; 0 is none. */
typedef uint64_t vgfx_id;

/* Why a call did nothing, or VGFX_OK. */
typedef uint32_t vgfx_status;

enum {
    VGFX_OK = 0,
    VGFX_ERROR_FULL = 1,            /* as many of the kind are there as there can be */
    VGFX_ERROR_STALE = 2,           /* the resource is gone */
    VGFX_ERROR_BAD_RANGE = 3,       /* a range passes an end, or a list has a repeat */
    VGFX_ERROR_BAD_SIZE = 4,        /* a size is not admitted */
    VGFX_ERROR_NOT_BLIT_DST = 5,    /* the destination texture was not made as one */
    VGFX_ERROR_WRONG_KIND = 6,      /* a resource or a value is of another kind */
    VGFX_ERROR_ATTACHED = 7,        /* a frame buffer that is there holds the texture */
    VGFX_ERROR_ROOM_FULL = 8,       /* the encoder's items or uniform values are used up; what is used is not given back */
    VGFX_ERROR_BYTES_FULL = 9,      /* the encoder's bytes would be passed; what is used is not given back */
    VGFX_ERROR_BAD_VIEW = 10,       /* there is no such view */
    VGFX_ERROR_NO_ENCODER = 11,     /* VGFX_MAX_ENCODERS were begun in this frame */
    VGFX_ERROR_SERIALS_SPENT = 12,  /* 4294967295 resources were made */
    VGFX_ERROR_FRAMES_SPENT = 13,   /* the frame's number is 1073741823 */
    VGFX_ERROR_TEXELS_FULL = 14,    /* all textures would have more than VGFX_MAX_TEXELS texels */
    VGFX_ERROR_BAD_STATE = 16,      /* a state word, a stencil word or a clear setting is not admitted */
    VGFX_ERROR_OUT_OF_MEMORY = 17,
    VGFX_ERROR_NO_OBJECT = 100,     /* the handle is null, or of another kind */
    VGFX_ERROR_TRY_AGAIN = 101,     /* an encoder or a band has not come back yet */
    VGFX_ERROR_ENDED = 102,         /* memory was wanting in an earlier frame's render, or an encoder was dropped: no encoder begins, no frame ends */
    VGFX_ERROR_TOO_SMALL = 103,     /* a buffer that is to be written is too small */
    VGFX_ERROR_BAD_VALUE = 104,     /* a number is none of its enumeration; or the call is not one for now: a frame is begun, or none is */
    VGFX_ERROR_TAKEN = 105,         /* the handle that is to be set is not null */
    VGFX_ERROR_NO_SCENE = 106,      /* the text is no scene */
    VGFX_ERROR_TOO_LONG = 107,      /* the text has more than VGFX_MAX_SCENE_BYTES bytes */
    VGFX_ERROR_UNKNOWN = 108,       /* the id names no resource of this context; of an encoder: none that was made before it began */
    VGFX_ERROR_NOT_THERE = 109      /* the last frame left no such texture: no frame has ended since it was made, or it was destroyed */
};

/* What a part of a vertex holds. VGFX_ATTRIBUTE_SKIP passes bytes over. */
typedef enum vgfx_attribute {
    VGFX_ATTRIBUTE_POSITION = 0, VGFX_ATTRIBUTE_NORMAL = 1, VGFX_ATTRIBUTE_TANGENT = 2, VGFX_ATTRIBUTE_COLOR0 = 3,
    VGFX_ATTRIBUTE_COLOR1 = 4, VGFX_ATTRIBUTE_TEXCOORD0 = 5, VGFX_ATTRIBUTE_TEXCOORD1 = 6, VGFX_ATTRIBUTE_SKIP = 255
} vgfx_attribute;

/* The type of a component: a byte, 0 to 255 for 0 to 1; 16 bits, -32768 to 32767 for -1 to 1; 32 bits of 1/65536. */
typedef enum vgfx_component { VGFX_COMPONENT_U8 = 0, VGFX_COMPONENT_I16 = 1, VGFX_COMPONENT_FIXED = 2 } vgfx_component;

/* What a texel holds: a colour, or a depth of 24 bits with a stencil of 8. */
typedef enum vgfx_format { VGFX_FORMAT_RGBA8 = 0, VGFX_FORMAT_D24S8 = 1 } vgfx_format;

/* What pixels are read as, four bytes each: red, green, blue, alpha; the depth in three bytes, lowest first, and the stencil; blue, green,
 * red, alpha. */
typedef enum vgfx_pixels { VGFX_PIXELS_RGBA8 = 0, VGFX_PIXELS_D24S8 = 1, VGFX_PIXELS_BGRA8 = 2 } vgfx_pixels;

/* What a program paints: the uniform "u_color", the vertex colour, the sample, or the product of the last two. */
typedef enum vgfx_program {
    VGFX_PROGRAM_SOLID = 0, VGFX_PROGRAM_COLOR = 1, VGFX_PROGRAM_TEXTURE = 2, VGFX_PROGRAM_TEXTURE_COLOR = 3
} vgfx_program;

/* What a uniform holds: four numbers of 1/65536, or one whole number. */
typedef enum vgfx_uniform { VGFX_UNIFORM_VEC4 = 0, VGFX_UNIFORM_INT = 1 } vgfx_uniform;

/* How a view orders its draws and touches: opaque before blended, then by program, then by depth; as they were submitted; by depth, least
 * first or greatest first. */
typedef enum vgfx_view_mode {
    VGFX_VIEW_MODE_DEFAULT = 0, VGFX_VIEW_MODE_SEQUENTIAL = 1, VGFX_VIEW_MODE_DEPTH_ASCENDING = 2, VGFX_VIEW_MODE_DEPTH_DESCENDING = 3
} vgfx_view_mode;

/* A part of a layout: `count` components, 1 to 4, of an attribute; or, of VGFX_ATTRIBUTE_SKIP, `count` bytes. Parts lie behind one
 * another without padding. */
typedef struct vgfx_layout_part {
    uint8_t attribute; /* a vgfx_attribute */
    uint8_t component; /* a vgfx_component */
    uint8_t count;
} vgfx_layout_part;

/* Three rows of four numbers of 1/65536. A row a, b, c, d takes x, y, z to a*x + b*y + c*z + d. */
typedef struct vgfx_transform { int32_t m[12]; } vgfx_transform;

/* What is told of a frame: its number, how many bytes of picture were written, and the sum of the numbers that its encoders ended with. */
typedef struct vgfx_frame_report {
    uint32_t number;
    size_t picture;
    uint64_t dropped;
} vgfx_frame_report;

/* What is told of a play: how many bytes of pictures and of report were written or are wanted; and of a text that is no scene its first
 * line that fails, from 1, and the cause, 1 to 12 (docs/rules/formats.md). */
typedef struct vgfx_play_report {
    size_t pictures, report;
    uint32_t line, cause;
} vgfx_play_report;

/* ---- numbers */

#define VGFX_ONE 65536 /* 1, in positions, transforms and vec4 values */

#define VGFX_MAX_LAYOUTS 64
#define VGFX_MAX_VERTEX_BUFFERS 1024
#define VGFX_MAX_INDEX_BUFFERS 1024
#define VGFX_MAX_TEXTURES 1024
#define VGFX_MAX_FRAME_BUFFERS 128
#define VGFX_MAX_PROGRAMS 256
#define VGFX_MAX_UNIFORMS 256
#define VGFX_MAX_UNIFORM_NAME 32 /* bytes */
#define VGFX_MAX_VIEWS 512
#define VGFX_MAX_ENCODERS 8 /* of a frame */
#define VGFX_MAX_ITEMS 8191 /* of an encoder */
#define VGFX_MAX_TRANSIENT_BYTES 1048576 /* of an encoder */
#define VGFX_MAX_UNIFORM_VALUES 8191 /* of an encoder */
#define VGFX_MAX_SIDE 2048 /* of a picture or a texture */
#define VGFX_MAX_TEXELS 33554432 /* of all textures */
#define VGFX_MAX_BUFFER_BYTES 524288
#define VGFX_MAX_STRIDE 255 /* bytes of a vertex */
#define VGFX_MAX_SCENE_BYTES 16777216
#define VGFX_MAX_DEPTH 16777215 /* of a pixel */

/* How many bytes the buffer for a picture of these sides has at least. The picture's last 3 * width * height bytes are the pixels. */
#define VGFX_PICTURE_BYTES(width, height) (3 * VGFX_CAST(size_t, width) * VGFX_CAST(size_t, height) + 17)

#define VGFX_CLEAR_COLOR 1
#define VGFX_CLEAR_DEPTH 2
#define VGFX_CLEAR_STENCIL 4

#define VGFX_DISCARD_NONE 0
#define VGFX_DISCARD_BINDINGS 1        /* both textures */
#define VGFX_DISCARD_INDEX_BUFFER 2    /* the indices; draws go by vertices again */
#define VGFX_DISCARD_STATE 8           /* the state word, the stencil words and the scissor */
#define VGFX_DISCARD_TRANSFORM 16
#define VGFX_DISCARD_VERTEX_STREAMS 32 /* the vertices */
#define VGFX_DISCARD_ALL 255

/* The state word of a draw is the sum of one of each of these that it wants. VGFX_STATE_DEFAULT is what an encoder begins with: all
 * channels are written, no depth test, no blending, no culling, a list of triangles. */
#define VGFX_STATE_WRITE_R UINT64_C(0x1)
#define VGFX_STATE_WRITE_G UINT64_C(0x2)
#define VGFX_STATE_WRITE_B UINT64_C(0x4)
#define VGFX_STATE_WRITE_A UINT64_C(0x8)
#define VGFX_STATE_WRITE_RGB UINT64_C(0x7)
#define VGFX_STATE_WRITE_RGBA UINT64_C(0xf)
#define VGFX_STATE_DEFAULT VGFX_STATE_WRITE_RGBA
/* The depth of a drawn pixel is kept, whether it is tested or not. */
#define VGFX_STATE_WRITE_Z UINT64_C(0x4000000000)
#define VGFX_STATE_DEPTH_TEST(compare) (VGFX_CAST(uint64_t, compare) << 4)
#define VGFX_STATE_DEPTH_TEST_LESS VGFX_STATE_DEPTH_TEST(VGFX_COMPARE_LESS)
#define VGFX_STATE_DEPTH_TEST_LEQUAL VGFX_STATE_DEPTH_TEST(VGFX_COMPARE_LEQUAL)
#define VGFX_STATE_DEPTH_TEST_EQUAL VGFX_STATE_DEPTH_TEST(VGFX_COMPARE_EQUAL)
#define VGFX_STATE_DEPTH_TEST_GEQUAL VGFX_STATE_DEPTH_TEST(VGFX_COMPARE_GEQUAL)
#define VGFX_STATE_DEPTH_TEST_GREATER VGFX_STATE_DEPTH_TEST(VGFX_COMPARE_GREATER)
#define VGFX_STATE_DEPTH_TEST_NOTEQUAL VGFX_STATE_DEPTH_TEST(VGFX_COMPARE_NOTEQUAL)
#define VGFX_STATE_DEPTH_TEST_NEVER VGFX_STATE_DEPTH_TEST(VGFX_COMPARE_NEVER)
#define VGFX_STATE_DEPTH_TEST_ALWAYS VGFX_STATE_DEPTH_TEST(VGFX_COMPARE_ALWAYS)
#define VGFX_STATE_CULL_CW UINT64_C(0x1000000000)  /* triangles that face the front are left out */
#define VGFX_STATE_CULL_CCW UINT64_C(0x2000000000) /* triangles that face the back are left out */
#define VGFX_STATE_PT_TRISTRIP UINT64_C(0x1000000000000)
#define VGFX_STATE_BLEND_FUNC_SEPARATE(source_rgb, destination_rgb, source_alpha, destination_alpha) \
    ((VGFX_CAST(uint64_t, source_rgb) << 12) | (VGFX_CAST(uint64_t, destination_rgb) << 16) | (VGFX_CAST(uint64_t, source_alpha) << 20) | (VGFX_CAST(uint64_t, destination_alpha) << 24))
#define VGFX_STATE_BLEND_FUNC(source, destination) VGFX_STATE_BLEND_FUNC_SEPARATE(source, destination, source, destination)
#define VGFX_STATE_BLEND_ALPHA VGFX_STATE_BLEND_FUNC(VGFX_BLEND_SRC_ALPHA, VGFX_BLEND_INV_SRC_ALPHA)
#define VGFX_STATE_BLEND_ADD VGFX_STATE_BLEND_FUNC(VGFX_BLEND_ONE, VGFX_BLEND_ONE)
#define VGFX_STATE_BLEND_MULTIPLY VGFX_STATE_BLEND_FUNC(VGFX_BLEND_DST_COLOR, VGFX_BLEND_ZERO)
/* Without one the products are added. It is of use with a blend function alone. */
#define VGFX_STATE_BLEND_EQUATION_SEPARATE(rgb, alpha) ((VGFX_CAST(uint64_t, rgb) << 28) | (VGFX_CAST(uint64_t, alpha) << 31))
#define VGFX_STATE_BLEND_EQUATION(equation) VGFX_STATE_BLEND_EQUATION_SEPARATE(equation, equation)

/* A stencil word: (reference & mask) is compared with (stored & mask); then what happens to the stencil where that fails, where the depth
 * test fails, and where both pass. */
#define VGFX_STENCIL_NONE UINT32_C(0)
#define VGFX_STENCIL(reference, mask, compare, stencil_fails, depth_fails, passes) \
    (VGFX_CAST(uint32_t, reference) | (VGFX_CAST(uint32_t, mask) << 8) | (VGFX_CAST(uint32_t, compare) << 16) | (VGFX_CAST(uint32_t, stencil_fails) << 20) | (VGFX_CAST(uint32_t, depth_fails) << 24) | (VGFX_CAST(uint32_t, passes) << 28))

enum {
    VGFX_COMPARE_LESS = 1, VGFX_COMPARE_LEQUAL = 2, VGFX_COMPARE_EQUAL = 3, VGFX_COMPARE_GEQUAL = 4, VGFX_COMPARE_GREATER = 5,
    VGFX_COMPARE_NOTEQUAL = 6, VGFX_COMPARE_NEVER = 7, VGFX_COMPARE_ALWAYS = 8
};
enum {
    VGFX_BLEND_ZERO = 1, VGFX_BLEND_ONE = 2, VGFX_BLEND_SRC_COLOR = 3, VGFX_BLEND_INV_SRC_COLOR = 4, VGFX_BLEND_SRC_ALPHA = 5,
    VGFX_BLEND_INV_SRC_ALPHA = 6, VGFX_BLEND_DST_ALPHA = 7, VGFX_BLEND_INV_DST_ALPHA = 8, VGFX_BLEND_DST_COLOR = 9,
    VGFX_BLEND_INV_DST_COLOR = 10, VGFX_BLEND_SRC_ALPHA_SAT = 11
};
enum { VGFX_EQUATION_ADD = 0, VGFX_EQUATION_SUB = 1, VGFX_EQUATION_REVSUB = 2, VGFX_EQUATION_MIN = 3, VGFX_EQUATION_MAX = 4 };
enum {
    VGFX_STENCIL_ZERO = 0, VGFX_STENCIL_KEEP = 1, VGFX_STENCIL_REPLACE = 2, VGFX_STENCIL_INCR = 3, VGFX_STENCIL_INCRSAT = 4,
    VGFX_STENCIL_DECR = 5, VGFX_STENCIL_DECRSAT = 6, VGFX_STENCIL_INVERT = 7
};

/* ---- the library */

/* The version of the library: VGFX_VERSION of the header that it was made with. */
uint32_t vgfx_version(void);

/* ---- a scene as text. It needs no context, and may be called by several threads at once, each with its own buffers and its own report;
 * they may share the text */

/* Plays a scene's text (docs/rules/formats.md) on the calling thread. Writes the P6 texts of its pictures one behind the other, and its
 * report: a line for each frame with its items and its dropped lines. It is one of the outputs that the program gfx_play can write in the
 * mode `play`, by the order of one encoder after another; where no two encoders of a frame share a key in a view, every run has these
 * pictures. The whole scene is played before the lengths are known; till then the library keeps all pictures in memory of its own. A
 * picture has at most VGFX_PICTURE_BYTES(width, height) bytes. What the buffers have behind what is written is as before.
 * Returns:
 *   VGFX_OK                   `played` has the lengths; its line and cause are 0
 *   VGFX_ERROR_TOO_LONG       `played` and the buffers are as before
 *   VGFX_ERROR_NO_SCENE       `played` has the line and the cause; its lengths are 0. The buffers are as before
 *   VGFX_ERROR_TOO_SMALL      a buffer is too small; `played` has the lengths that are wanted, which are those of every run on this
 *                             text. The buffers are as before. Lengths of 0 ask for the lengths
 *   VGFX_ERROR_OUT_OF_MEMORY  `played` and the buffers are as before */
VGFX_CALL vgfx_play(const void *text, size_t text_length, void *pictures, size_t pictures_length, void *report, size_t report_length, vgfx_play_report *played);

/* ---- a context; each of its calls by one thread at a time. VGFX_ERROR_NO_OBJECT is in each list, first. From vgfx_frame_begin to
 * vgfx_frame_end each call on the context but vgfx_shutdown and those of a frame in passes is VGFX_ERROR_BAD_VALUE, with nothing changed */

/* Makes a context with pictures of these sides, 1 to VGFX_MAX_SIDE, and a back buffer of zeros with depth and stencil, for a handle that is
 * null. The sides stay.
 * Returns: VGFX_OK, VGFX_ERROR_TAKEN, VGFX_ERROR_BAD_SIZE, VGFX_ERROR_OUT_OF_MEMORY. */
VGFX_CALL vgfx_init(vgfx_context *context, uint16_t width, uint16_t height);

/* Gives a context up with all that was made, also from vgfx_frame_begin to vgfx_frame_end. Encoders that are out may still record, and be
 * ended or dropped; bands that are out may still be drawn, and vgfx_pass_end with the null handle takes them back.
 * Returns: VGFX_OK. */
VGFX_CALL vgfx_shutdown(vgfx_context *context);

/* Tells the number of the frame that is recorded, from 0.
 * Returns: VGFX_OK. */
VGFX_CALL vgfx_frame_number(vgfx_context *context, uint32_t *number);

/* Begins this frame's next encoder, for a handle that is null, with room for 1 to VGFX_MAX_ITEMS items, 0 to VGFX_MAX_TRANSIENT_BYTES bytes
 * of transient vertices and indices, and 0 to VGFX_MAX_UNIFORM_VALUES uniform values. It knows the resources that were made before it
 * began; make all that a frame draws first.
 * Returns: VGFX_OK, VGFX_ERROR_TAKEN before VGFX_ERROR_NO_OBJECT, VGFX_ERROR_ENDED, VGFX_ERROR_BAD_SIZE, VGFX_ERROR_NO_ENCODER,
 * VGFX_ERROR_OUT_OF_MEMORY. */
VGFX_CALL vgfx_encoder_begin(vgfx_context *context, vgfx_encoder *encoder, uint32_t items, uint32_t bytes, uint32_t uniforms);

/* Takes in the encoders that have ended, and tells how many are still out. vgfx_frame does so too.
 * Returns: VGFX_OK. */
VGFX_CALL vgfx_collect(vgfx_context *context, uint32_t *out);

/* Ends the frame, renders it on the calling thread, and writes its picture as a P6 text: "P6\nWIDTH HEIGHT\n255\n" and three bytes a pixel.
 * The buffer has at least VGFX_PICTURE_BYTES(width, height) bytes; or it has none, and no text is written: vgfx_read_pixels reads the pixels.
 * Returns:
 *   VGFX_OK
 *   VGFX_ERROR_ENDED          also where an encoder was dropped, and from then on
 *   VGFX_ERROR_TOO_SMALL
 *   VGFX_ERROR_TRY_AGAIN      an encoder is still out. What has come is kept and nothing is lost: call again when it has ended
 *   VGFX_ERROR_FRAMES_SPENT   what has come is kept
 *   VGFX_ERROR_OUT_OF_MEMORY  where memory was wanting before the frame was rendered, what has come is kept, the pixels are those of the last
 *                             frame, and it can be called again; else the pixels are drawn in part, and from then on it is VGFX_ERROR_ENDED */
VGFX_CALL vgfx_frame(vgfx_context *context, void *picture, size_t picture_length, vgfx_frame_report *report);

/* ---- a frame in passes, which the caller's threads draw. In place of one vgfx_frame:
 *
 *     vgfx_frame_begin(&context);
 *     while (vgfx_pass_next(&context, bands, threads, &count) == VGFX_OK && count > 0) {
 *         (each of `count` threads)  vgfx_band_draw(&bands[its number]);
 *         (behind them all)          vgfx_pass_end(&context, bands, count);
 *     }
 *     vgfx_frame_end(&context, picture, sizeof picture, &report);
 *
 * The picture is that of vgfx_frame, byte for byte, however many bands there are, whoever draws them and in which order. A pass is the views
 * of one target that come behind each other, or one view with blits: so what it samples, an earlier pass drew. The threads meet between two
 * passes, as by a join */

/* Begins the frame: takes in the encoders that have ended, makes the frame and does its first commands. It is drawn by the calls below. No
 * encoder begins and nothing is made, changed or read until vgfx_frame_end.
 * Returns:
 *   VGFX_OK
 *   VGFX_ERROR_BAD_VALUE      a frame is begun already
 *   VGFX_ERROR_ENDED          also where an encoder was dropped, and from then on
 *   VGFX_ERROR_TRY_AGAIN      an encoder is still out. What has come is kept and nothing is lost: call again when it has ended
 *   VGFX_ERROR_FRAMES_SPENT   what has come is kept
 *   VGFX_ERROR_OUT_OF_MEMORY  what has come is kept, and it can be called again */
VGFX_CALL vgfx_frame_begin(vgfx_context *context);

/* Begins the next pass and lends its bands, to the first of `bands_length` handles, all of which are null before; tells how many there are:
 * at most 64, and one for each row. Passes that lend none are drawn by this call. It tells 0 where no pass is left, as where memory is
 * wanting to prepare one, which vgfx_frame_end tells then. A caller that is in no hurry may stop asking: vgfx_frame_end draws what is left.
 * Where memory for bands is wanting there are fewer, and vgfx_pass_end draws their rows.
 * Returns:
 *   VGFX_OK
 *   VGFX_ERROR_TAKEN          before VGFX_ERROR_NO_OBJECT: one of the handles is not null
 *   VGFX_ERROR_BAD_VALUE      no frame is begun, or a pass is not ended */
VGFX_CALL vgfx_pass_next(vgfx_context *context, vgfx_band *bands, size_t bands_length, size_t *count);

/* Draws a band, by any thread, beside the other bands of its pass. One that was drawn is left as it is. It takes no memory and never waits.
 * Returns: VGFX_OK, VGFX_ERROR_NO_OBJECT. */
VGFX_CALL vgfx_band_draw(vgfx_band *band);

/* Takes bands back, whose handles are null from then on, whatever is answered; other handles among them are left as they are. Then ends the
 * pass: rows that were not drawn are drawn by this call, also those of bands that were lost.
 * Returns:
 *   VGFX_OK
 *   VGFX_ERROR_BAD_VALUE      no frame is begun, or no pass
 *   VGFX_ERROR_TRY_AGAIN      a band of the pass is still out: call again with it. Nothing is lost */
VGFX_CALL vgfx_pass_end(vgfx_context *context, vgfx_band *bands, size_t bands_length);

/* Ends the frame: draws on the calling thread what no pass drew, does its last commands, and writes its picture as vgfx_frame does.
 * Returns:
 *   VGFX_OK
 *   VGFX_ERROR_BAD_VALUE      no frame is begun, or a pass is not ended
 *   VGFX_ERROR_TOO_SMALL      the frame stays begun
 *   VGFX_ERROR_OUT_OF_MEMORY  the pixels are drawn in part, and from then on vgfx_frame and vgfx_frame_begin are VGFX_ERROR_ENDED */
VGFX_CALL vgfx_frame_end(vgfx_context *context, void *picture, size_t picture_length, vgfx_frame_report *report);

/* Reads the back buffer by 0, or a texture, as the last frame left it: row by row from the top, four bytes a pixel, with `stride` bytes from
 * the start of a row to that of the next. What lies behind a row and before the next is left as it is, and what lies behind the last row too.
 * Resources that were made, updated or destroyed since the last frame are as that frame left them.
 * Returns:
 *   VGFX_OK
 *   VGFX_ERROR_BAD_VALUE      `pixels_format` is none
 *   VGFX_ERROR_UNKNOWN
 *   VGFX_ERROR_WRONG_KIND     the resource is no texture of this format; VGFX_PIXELS_BGRA8 reads one of VGFX_FORMAT_RGBA8
 *   VGFX_ERROR_NOT_THERE      no frame has ended since the texture was made, or one has since it was destroyed
 *   VGFX_ERROR_BAD_SIZE       the stride is shorter than a row
 *   VGFX_ERROR_TOO_SMALL      the last row passes the end of the buffer */
VGFX_CALL vgfx_read_pixels(vgfx_context *context, vgfx_id texture, vgfx_pixels pixels_format, void *pixels, size_t pixels_length, size_t stride);

/* ---- resources; each call writes the id of what it made */

/* Makes a layout of parts.
 * Returns: VGFX_OK, VGFX_ERROR_BAD_VALUE, VGFX_ERROR_BAD_SIZE where the stride is 0 or over VGFX_MAX_STRIDE, an attribute stands twice or a
 * count is not 1 to 4; VGFX_ERROR_FULL, VGFX_ERROR_SERIALS_SPENT, VGFX_ERROR_OUT_OF_MEMORY. */
VGFX_CALL vgfx_create_layout(vgfx_context *context, const vgfx_layout_part *parts, size_t parts_length, vgfx_id *made);

/* Makes a vertex buffer of a layout, of 1 to VGFX_MAX_BUFFER_BYTES bytes, which are copied.
 * Returns: VGFX_OK, VGFX_ERROR_UNKNOWN, VGFX_ERROR_BAD_SIZE, VGFX_ERROR_WRONG_KIND, VGFX_ERROR_STALE, VGFX_ERROR_FULL,
 * VGFX_ERROR_SERIALS_SPENT, VGFX_ERROR_OUT_OF_MEMORY. */
VGFX_CALL vgfx_create_vertex_buffer(vgfx_context *context, vgfx_id layout, const void *bytes, size_t bytes_length, vgfx_id *made);

/* Makes an index buffer, of 2 to VGFX_MAX_BUFFER_BYTES bytes, an even number, which are copied.
 * Returns: VGFX_OK, VGFX_ERROR_BAD_SIZE, VGFX_ERROR_FULL, VGFX_ERROR_SERIALS_SPENT, VGFX_ERROR_OUT_OF_MEMORY. */
VGFX_CALL vgfx_create_index_buffer(vgfx_context *context, const void *bytes, size_t bytes_length, vgfx_id *made);

/* Makes a texture with sides of 1 to VGFX_MAX_SIDE, of four bytes a texel, which are copied once the sizes are found right. A `blit_destination` of 0 makes one that no
 * blit may write.
 * Returns: VGFX_OK, VGFX_ERROR_BAD_VALUE, VGFX_ERROR_BAD_SIZE where a side is not admitted or the bytes are not four a texel,
 * VGFX_ERROR_FULL, VGFX_ERROR_TEXELS_FULL, VGFX_ERROR_SERIALS_SPENT, VGFX_ERROR_OUT_OF_MEMORY. */
VGFX_CALL vgfx_create_texture(vgfx_context *context, uint16_t width, uint16_t height, vgfx_format format, uint8_t blit_destination, const void *bytes, size_t bytes_length, vgfx_id *made);

/* Makes a texture all of whose texels are these four bytes: of VGFX_FORMAT_D24S8 the depth, lowest byte first, and the stencil.
 * Returns: as vgfx_create_texture; VGFX_ERROR_OUT_OF_MEMORY last. */
VGFX_CALL vgfx_create_filled_texture(vgfx_context *context, uint16_t width, uint16_t height, vgfx_format format, uint8_t blit_destination, uint8_t red, uint8_t green, uint8_t blue, uint8_t alpha, vgfx_id *made);

/* Makes a frame buffer of a colour texture, and of a depth texture of the same sides, or none by 0.
 * Returns: VGFX_OK, VGFX_ERROR_UNKNOWN, VGFX_ERROR_WRONG_KIND, VGFX_ERROR_STALE, VGFX_ERROR_FULL, VGFX_ERROR_SERIALS_SPENT,
 * VGFX_ERROR_OUT_OF_MEMORY. */
VGFX_CALL vgfx_create_frame_buffer(vgfx_context *context, vgfx_id color, vgfx_id depth, vgfx_id *made);

/* Makes a program. VGFX_PROGRAM_SOLID paints the value of the uniform "u_color" of VGFX_UNIFORM_VEC4 as red, green, blue and alpha from 0 to
 * VGFX_ONE, and white where there is no such uniform. The sample of the other two is of the texture on the stage that the uniform "s_tex" of
 * VGFX_UNIFORM_INT says, and of stage 0 where there is no such uniform; where that stage has no texture, or that of the view's own target,
 * it is 0, 0, 0, 0.
 * Returns: VGFX_OK, VGFX_ERROR_BAD_VALUE, VGFX_ERROR_FULL, VGFX_ERROR_SERIALS_SPENT, VGFX_ERROR_OUT_OF_MEMORY. */
VGFX_CALL vgfx_create_program(vgfx_context *context, vgfx_program program, vgfx_id *made);

/* Makes a uniform of a name of 1 to VGFX_MAX_UNIFORM_NAME bytes, whose value is 0, or refers to the one of that name once more.
 * Returns: VGFX_OK, VGFX_ERROR_BAD_VALUE, VGFX_ERROR_BAD_SIZE, VGFX_ERROR_WRONG_KIND, VGFX_ERROR_FULL (also where it has 65535
 * references), VGFX_ERROR_SERIALS_SPENT, VGFX_ERROR_OUT_OF_MEMORY. */
VGFX_CALL vgfx_create_uniform(vgfx_context *context, const char *name, size_t name_length, vgfx_uniform kind, vgfx_id *made);

/* Changes bytes of a vertex or index buffer, before all draws of this frame.
 * Returns: VGFX_OK, VGFX_ERROR_UNKNOWN, VGFX_ERROR_WRONG_KIND, VGFX_ERROR_STALE, VGFX_ERROR_BAD_RANGE, VGFX_ERROR_OUT_OF_MEMORY. */
VGFX_CALL vgfx_update_buffer(vgfx_context *context, vgfx_id buffer, uint32_t offset, const void *bytes, size_t bytes_length);

/* Changes texels of a texture, four bytes each, before all draws of this frame.
 * Returns: VGFX_OK, VGFX_ERROR_UNKNOWN, VGFX_ERROR_WRONG_KIND, VGFX_ERROR_STALE, VGFX_ERROR_BAD_RANGE, VGFX_ERROR_BAD_SIZE,
 * VGFX_ERROR_OUT_OF_MEMORY. */
VGFX_CALL vgfx_update_texture(vgfx_context *context, vgfx_id texture, uint16_t x, uint16_t y, uint16_t w, uint16_t h, const void *bytes, size_t bytes_length);

/* Destroys a resource, or takes one reference of a uniform. Encoders of this frame may still draw with it.
 * Returns: VGFX_OK, VGFX_ERROR_UNKNOWN, VGFX_ERROR_STALE, VGFX_ERROR_ATTACHED. */
VGFX_CALL vgfx_destroy(vgfx_context *context, vgfx_id resource);

/* ---- views, 0 to VGFX_MAX_VIEWS - 1. Settings stay from frame to frame; a frame takes those that stand when it ends.
 * VGFX_ERROR_BAD_VIEW is in each list, behind VGFX_ERROR_NO_OBJECT */

/* Sets the part of its target that a view draws on; with both sides 0 it is all of it.
 * Returns: VGFX_OK. */
VGFX_CALL vgfx_set_view_rect(vgfx_context *context, uint16_t view, uint16_t x, uint16_t y, uint16_t w, uint16_t h);

/* Sets the scissor of a view, which cuts draws and not clears; with both sides 0 there is none.
 * Returns: VGFX_OK. */
VGFX_CALL vgfx_set_view_scissor(vgfx_context *context, uint16_t view, uint16_t x, uint16_t y, uint16_t w, uint16_t h);

/* Sets what entering a view clears (VGFX_CLEAR_COLOR | ..), and to what.
 * Returns: VGFX_OK, VGFX_ERROR_BAD_STATE where `flags` is over 7 or the depth over VGFX_MAX_DEPTH. */
VGFX_CALL vgfx_set_view_clear(vgfx_context *context, uint16_t view, uint8_t flags, uint8_t red, uint8_t green, uint8_t blue, uint8_t alpha, uint32_t depth, uint8_t stencil);

/* Sets how a view orders its draws and touches.
 * Returns: VGFX_OK, VGFX_ERROR_BAD_VALUE before VGFX_ERROR_BAD_VIEW. */
VGFX_CALL vgfx_set_view_mode(vgfx_context *context, uint16_t view, vgfx_view_mode mode);

/* Sets the transform of a view, which comes after that of the draw.
 * Returns: VGFX_OK. */
VGFX_CALL vgfx_set_view_transform(vgfx_context *context, uint16_t view, const vgfx_transform *transform);

/* Sets the target of a view, a frame buffer, or the back buffer by 0.
 * Returns: VGFX_OK, VGFX_ERROR_UNKNOWN before VGFX_ERROR_BAD_VIEW, VGFX_ERROR_WRONG_KIND, VGFX_ERROR_STALE. */
VGFX_CALL vgfx_set_view_target(vgfx_context *context, uint16_t view, vgfx_id target);

/* Sets the views that come first, in this order, in place of those before. All others follow by their numbers.
 * Returns: VGFX_OK, VGFX_ERROR_BAD_RANGE where one stands twice. */
VGFX_CALL vgfx_set_view_order(vgfx_context *context, const uint16_t *views, size_t views_length);

/* Sets a view as it is at first: all of the back buffer, no clear, VGFX_VIEW_MODE_DEFAULT, no transform.
 * Returns: VGFX_OK. */
VGFX_CALL vgfx_reset_view(vgfx_context *context, uint16_t view);

/* ---- an encoder; each of its calls by the thread that has it, beside all calls of the context and of other encoders.
 * VGFX_ERROR_NO_OBJECT is in each list, first; then VGFX_ERROR_UNKNOWN in those of calls with an id */

/* Sets the state word of the next draws (VGFX_STATE_WRITE_RGBA | ..).
 * Returns: VGFX_OK, VGFX_ERROR_BAD_STATE. */
VGFX_CALL vgfx_encoder_set_state(vgfx_encoder *encoder, uint64_t state);

/* Sets the stencil words (VGFX_STENCIL) for triangles that face the front and the back. VGFX_STENCIL_NONE is no stencil for the front, and as
 * the front for the back.
 * Returns: VGFX_OK, VGFX_ERROR_BAD_STATE. */
VGFX_CALL vgfx_encoder_set_stencil(vgfx_encoder *encoder, uint32_t front, uint32_t back);

/* Sets the scissor; with both sides 0 there is none.
 * Returns: VGFX_OK. */
VGFX_CALL vgfx_encoder_set_scissor(vgfx_encoder *encoder, uint16_t x, uint16_t y, uint16_t w, uint16_t h);

/* Sets the transform from the vertices to the view.
 * Returns: VGFX_OK. */
VGFX_CALL vgfx_encoder_set_transform(vgfx_encoder *encoder, const vgfx_transform *transform);

/* Takes `count` vertices of a buffer from number `first` on. The range is not tested: what lies past the end does not exist.
 * Returns: VGFX_OK, VGFX_ERROR_WRONG_KIND, VGFX_ERROR_STALE. */
VGFX_CALL vgfx_encoder_set_vertices(vgfx_encoder *encoder, vgfx_id buffer, uint32_t first, uint32_t count);

/* Takes `count` indices of a buffer from number `first` on, not tested either. VGFX_DISCARD_INDEX_BUFFER takes them off.
 * Returns: VGFX_OK, VGFX_ERROR_WRONG_KIND, VGFX_ERROR_STALE. */
VGFX_CALL vgfx_encoder_set_indices(vgfx_encoder *encoder, vgfx_id buffer, uint32_t first, uint32_t count);

/* Takes a copy of bytes as vertices of a layout.
 * Returns: VGFX_OK, VGFX_ERROR_WRONG_KIND, VGFX_ERROR_STALE, VGFX_ERROR_BYTES_FULL. */
VGFX_CALL vgfx_encoder_set_transient_vertices(vgfx_encoder *encoder, vgfx_id layout, const void *bytes, size_t bytes_length);

/* Takes a copy of bytes as indices. Of no bytes it takes no indices, so that draws have no triangles.
 * Returns: VGFX_OK, VGFX_ERROR_BYTES_FULL. */
VGFX_CALL vgfx_encoder_set_transient_indices(vgfx_encoder *encoder, const void *bytes, size_t bytes_length);

/* Puts a texture of VGFX_FORMAT_RGBA8 on stage 0 or 1, or takes it off by 0. Programs read the stage that the uniform "s_tex" says.
 * Returns: VGFX_OK, VGFX_ERROR_WRONG_KIND, VGFX_ERROR_STALE, VGFX_ERROR_BAD_RANGE. */
VGFX_CALL vgfx_encoder_set_texture(vgfx_encoder *encoder, uint8_t stage, vgfx_id texture);

/* Sets four values, or one, of a uniform. They belong to the next draw or touch, are given to the uniform when that is drawn, in the order
 * of drawing, and stay until another value comes, over frames too. Only resources of the same kind of value are taken.
 * Returns: VGFX_OK, VGFX_ERROR_WRONG_KIND, VGFX_ERROR_STALE, VGFX_ERROR_ROOM_FULL. */
VGFX_CALL vgfx_encoder_set_vec4(vgfx_encoder *encoder, vgfx_id uniform, int32_t x, int32_t y, int32_t z, int32_t w);
VGFX_CALL vgfx_encoder_set_int(vgfx_encoder *encoder, vgfx_id uniform, int32_t value);

/* Records a draw with the current state and the uniform values, and resets the parts that `discard` names (VGFX_DISCARD_BINDINGS | ..).
 * `depth` is any number, which orders the draws of a view by its mode; it has nothing to do with positions. Draws of two encoders in one
 * view that tie are ordered by who was first: see "order" at the head.
 * Returns: VGFX_OK, VGFX_ERROR_BAD_VIEW, VGFX_ERROR_WRONG_KIND, VGFX_ERROR_STALE, VGFX_ERROR_ROOM_FULL. */
VGFX_CALL vgfx_encoder_submit(vgfx_encoder *encoder, uint16_t view, vgfx_id program, uint32_t depth, uint8_t discard);

/* Resets the parts of the state for the next draw that `discard` names (VGFX_DISCARD_BINDINGS | ..), as they are where an encoder begins.
 * Nothing is recorded; uniform values that were set stay for the next draw or touch.
 * Returns: VGFX_OK. */
VGFX_CALL vgfx_encoder_discard(vgfx_encoder *encoder, uint8_t discard);

/* Records an empty primitive with the uniform values, so that the view is entered, and resets all as VGFX_DISCARD_ALL.
 * Returns: VGFX_OK, VGFX_ERROR_BAD_VIEW, VGFX_ERROR_ROOM_FULL. */
VGFX_CALL vgfx_encoder_touch(vgfx_encoder *encoder, uint16_t view);

/* Records a copy of a region between textures of one format. The blits of a view come behind its clear and before its draws.
 * Returns: VGFX_OK, VGFX_ERROR_BAD_VIEW, VGFX_ERROR_WRONG_KIND, VGFX_ERROR_STALE, VGFX_ERROR_NOT_BLIT_DST, VGFX_ERROR_ROOM_FULL. */
VGFX_CALL vgfx_encoder_blit(vgfx_encoder *encoder, uint16_t view, vgfx_id destination, uint16_t dx, uint16_t dy, vgfx_id source, uint16_t sx, uint16_t sy, uint16_t w, uint16_t h);

/* Ends an encoder with a number of the caller's own, as of the calls that it left out. Its handle is null from then on, and what it recorded
 * waits for vgfx_collect or vgfx_frame.
 * Returns: VGFX_OK; VGFX_ERROR_TRY_AGAIN where another recording waits in its place, and the encoder is as it was. An encoder of a frame has
 * its place alone, so this is not to be expected. */
VGFX_CALL vgfx_encoder_end(vgfx_encoder *encoder, uint32_t dropped);

/* Gives up an encoder whose context is, or will be, shut down. Its handle is null from then on, and it stays out for ever: each later
 * vgfx_frame of its context answers VGFX_ERROR_ENDED. To be rid of an encoder and go on, end it; to take back what was set, vgfx_encoder_discard.
 * Returns: VGFX_OK. */
VGFX_CALL vgfx_encoder_drop(vgfx_encoder *encoder);

#ifdef __cplusplus
}
#endif

/* ---- conveniences, which the compiler puts in place */

/* The name of a status, as "VGFX_ERROR_STALE"; "unknown status" of a number that is none. */
VGFX_INLINE const char *vgfx_status_name(vgfx_status status) {
    switch (status) {
    case VGFX_OK: return "VGFX_OK";
    case VGFX_ERROR_FULL: return "VGFX_ERROR_FULL";
    case VGFX_ERROR_STALE: return "VGFX_ERROR_STALE";
    case VGFX_ERROR_BAD_RANGE: return "VGFX_ERROR_BAD_RANGE";
    case VGFX_ERROR_BAD_SIZE: return "VGFX_ERROR_BAD_SIZE";
    case VGFX_ERROR_NOT_BLIT_DST: return "VGFX_ERROR_NOT_BLIT_DST";
    case VGFX_ERROR_WRONG_KIND: return "VGFX_ERROR_WRONG_KIND";
    case VGFX_ERROR_ATTACHED: return "VGFX_ERROR_ATTACHED";
    case VGFX_ERROR_ROOM_FULL: return "VGFX_ERROR_ROOM_FULL";
    case VGFX_ERROR_BYTES_FULL: return "VGFX_ERROR_BYTES_FULL";
    case VGFX_ERROR_BAD_VIEW: return "VGFX_ERROR_BAD_VIEW";
    case VGFX_ERROR_NO_ENCODER: return "VGFX_ERROR_NO_ENCODER";
    case VGFX_ERROR_SERIALS_SPENT: return "VGFX_ERROR_SERIALS_SPENT";
    case VGFX_ERROR_FRAMES_SPENT: return "VGFX_ERROR_FRAMES_SPENT";
    case VGFX_ERROR_TEXELS_FULL: return "VGFX_ERROR_TEXELS_FULL";
    case VGFX_ERROR_BAD_STATE: return "VGFX_ERROR_BAD_STATE";
    case VGFX_ERROR_OUT_OF_MEMORY: return "VGFX_ERROR_OUT_OF_MEMORY";
    case VGFX_ERROR_NO_OBJECT: return "VGFX_ERROR_NO_OBJECT";
    case VGFX_ERROR_TRY_AGAIN: return "VGFX_ERROR_TRY_AGAIN";
    case VGFX_ERROR_ENDED: return "VGFX_ERROR_ENDED";
    case VGFX_ERROR_TOO_SMALL: return "VGFX_ERROR_TOO_SMALL";
    case VGFX_ERROR_BAD_VALUE: return "VGFX_ERROR_BAD_VALUE";
    case VGFX_ERROR_TAKEN: return "VGFX_ERROR_TAKEN";
    case VGFX_ERROR_NO_SCENE: return "VGFX_ERROR_NO_SCENE";
    case VGFX_ERROR_TOO_LONG: return "VGFX_ERROR_TOO_LONG";
    case VGFX_ERROR_UNKNOWN: return "VGFX_ERROR_UNKNOWN";
    case VGFX_ERROR_NOT_THERE: return "VGFX_ERROR_NOT_THERE";
    default: return "unknown status";
    }
}

/* Where a length is 0 the pointer beside it may be null: the library is passed the address of something instead, which it does not touch. */
VGFX_INLINE const void *vgfx_or_byte(const void *bytes) {
    static const unsigned char none = 0;
    return bytes ? bytes : &none;
}
VGFX_INLINE void *vgfx_or_room(void *room) {
    static unsigned char none;
    return room ? room : &none;
}
VGFX_INLINE const char *vgfx_or_name(const char *name) { return name ? name : ""; }
VGFX_INLINE const vgfx_layout_part *vgfx_or_part(const vgfx_layout_part *parts) {
    static const vgfx_layout_part none = {0, 0, 0};
    return parts ? parts : &none;
}
VGFX_INLINE const uint16_t *vgfx_or_view(const uint16_t *views) {
    static const uint16_t none = 0;
    return views ? views : &none;
}
VGFX_INLINE vgfx_band *vgfx_or_band(vgfx_band *bands) {
    static vgfx_band none;
    return bands ? bands : &none;
}
#define vgfx_play(text, text_length, pictures, pictures_length, report, report_length, played) \
    vgfx_play(vgfx_or_byte(text), text_length, vgfx_or_room(pictures), pictures_length, vgfx_or_room(report), report_length, played)
#define vgfx_frame(context, picture, picture_length, report) vgfx_frame(context, vgfx_or_room(picture), picture_length, report)
#define vgfx_pass_next(context, bands, bands_length, count) vgfx_pass_next(context, vgfx_or_band(bands), bands_length, count)
#define vgfx_pass_end(context, bands, bands_length) vgfx_pass_end(context, vgfx_or_band(bands), bands_length)
#define vgfx_frame_end(context, picture, picture_length, report) vgfx_frame_end(context, vgfx_or_room(picture), picture_length, report)
#define vgfx_read_pixels(context, texture, pixels_format, pixels, pixels_length, stride) \
    vgfx_read_pixels(context, texture, pixels_format, vgfx_or_room(pixels), pixels_length, stride)
#define vgfx_create_layout(context, parts, parts_length, made) vgfx_create_layout(context, vgfx_or_part(parts), parts_length, made)
#define vgfx_create_vertex_buffer(context, layout, bytes, bytes_length, made) vgfx_create_vertex_buffer(context, layout, vgfx_or_byte(bytes), bytes_length, made)
#define vgfx_create_index_buffer(context, bytes, bytes_length, made) vgfx_create_index_buffer(context, vgfx_or_byte(bytes), bytes_length, made)
#define vgfx_create_texture(context, width, height, format, blit_destination, bytes, bytes_length, made) \
    vgfx_create_texture(context, width, height, format, blit_destination, vgfx_or_byte(bytes), bytes_length, made)
#define vgfx_create_uniform(context, name, name_length, kind, made) vgfx_create_uniform(context, vgfx_or_name(name), name_length, kind, made)
#define vgfx_update_buffer(context, buffer, offset, bytes, bytes_length) vgfx_update_buffer(context, buffer, offset, vgfx_or_byte(bytes), bytes_length)
#define vgfx_update_texture(context, texture, x, y, w, h, bytes, bytes_length) vgfx_update_texture(context, texture, x, y, w, h, vgfx_or_byte(bytes), bytes_length)
#define vgfx_set_view_order(context, views, views_length) vgfx_set_view_order(context, vgfx_or_view(views), views_length)
#define vgfx_encoder_set_transient_vertices(encoder, layout, bytes, bytes_length) \
    vgfx_encoder_set_transient_vertices(encoder, layout, vgfx_or_byte(bytes), bytes_length)
#define vgfx_encoder_set_transient_indices(encoder, bytes, bytes_length) vgfx_encoder_set_transient_indices(encoder, vgfx_or_byte(bytes), bytes_length)

#endif
