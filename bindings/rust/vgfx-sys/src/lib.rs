//! The calls of `include/vgfx.h` as they are: types, numbers and functions by their C names.
//!
//! The crate `vgfx` stands over this one and is safe. What each call does, what it answers and what its caller owes stands in the header; on
//! top of that, a pointer is never null here, also beside a length of 0 (the header passes an address in its place).
//!
//! tools/c/rust_calls writes this file from the header.
//!
//! `VGFX_LIB_DIR` names the folder of `libvgfx.a` where the crate is built; without it `pkg-config` is asked for `vgfx`.
#![no_std]
#![deny(missing_docs)]
#![allow(non_camel_case_types)]

use core::ffi::{c_char, c_void};

/// The id of a resource; 0 is none.
pub type vgfx_id = u64;
/// Why a call did nothing, or [`VGFX_OK`].
pub type vgfx_status = u32;

/// A context. It starts as [`vgfx_context::NULL`] and is neither read, written nor copied.
#[repr(C)]
#[derive(Debug)]
pub struct vgfx_context {
    at: *mut c_void,
}

/// An encoder. It starts as [`vgfx_encoder::NULL`] and is neither read, written nor copied.
#[repr(C)]
#[derive(Debug)]
pub struct vgfx_encoder {
    at: *mut c_void,
}

/// A band. It starts as [`vgfx_band::NULL`] and is neither read, written nor copied.
#[repr(C)]
#[derive(Debug)]
pub struct vgfx_band {
    at: *mut c_void,
}

impl vgfx_context {
    /// No context.
    pub const NULL: Self = Self { at: core::ptr::null_mut() };
}

impl vgfx_encoder {
    /// No encoder.
    pub const NULL: Self = Self { at: core::ptr::null_mut() };
}

impl vgfx_band {
    /// No band.
    pub const NULL: Self = Self { at: core::ptr::null_mut() };
}

/// A part of a layout: `count` components of an attribute, or bytes that are passed over.
#[repr(C)]
#[derive(Clone, Copy, Debug, PartialEq, Eq)]
pub struct vgfx_layout_part {
    /// A `VGFX_ATTRIBUTE_*`.
    pub attribute: u8,
    /// A `VGFX_COMPONENT_*`.
    pub component: u8,
    /// 1 to 4, or bytes of a skip.
    pub count: u8,
}

/// Three rows of four numbers of 1/65536.
#[repr(C)]
#[derive(Clone, Copy, Debug, PartialEq, Eq)]
pub struct vgfx_transform {
    /// The rows, one behind the other.
    pub m: [i32; 12],
}

/// What is told of a frame.
#[repr(C)]
#[derive(Clone, Copy, Debug, Default, PartialEq, Eq)]
pub struct vgfx_frame_report {
    /// The frame's number.
    pub number: u32,
    /// How many bytes of picture were written.
    pub picture: usize,
    /// The sum of the numbers that its encoders ended with.
    pub dropped: u64,
}

/// What is told of a play.
#[repr(C)]
#[derive(Clone, Copy, Debug, Default, PartialEq, Eq)]
pub struct vgfx_play_report {
    /// How many bytes of pictures were written or are wanted.
    pub pictures: usize,
    /// How many bytes of report were written or are wanted.
    pub report: usize,
    /// The first line that fails, from 1.
    pub line: u32,
    /// Why it fails, 1 to 12.
    pub cause: u32,
}

// ---- numbers, by their names in the header

/// `VGFX_OK`.
pub const VGFX_OK: vgfx_status = 0;
/// `VGFX_ERROR_FULL`.
pub const VGFX_ERROR_FULL: vgfx_status = 1;
/// `VGFX_ERROR_STALE`.
pub const VGFX_ERROR_STALE: vgfx_status = 2;
/// `VGFX_ERROR_BAD_RANGE`.
pub const VGFX_ERROR_BAD_RANGE: vgfx_status = 3;
/// `VGFX_ERROR_BAD_SIZE`.
pub const VGFX_ERROR_BAD_SIZE: vgfx_status = 4;
/// `VGFX_ERROR_NOT_BLIT_DST`.
pub const VGFX_ERROR_NOT_BLIT_DST: vgfx_status = 5;
/// `VGFX_ERROR_WRONG_KIND`.
pub const VGFX_ERROR_WRONG_KIND: vgfx_status = 6;
/// `VGFX_ERROR_ATTACHED`.
pub const VGFX_ERROR_ATTACHED: vgfx_status = 7;
/// `VGFX_ERROR_ROOM_FULL`.
pub const VGFX_ERROR_ROOM_FULL: vgfx_status = 8;
/// `VGFX_ERROR_BYTES_FULL`.
pub const VGFX_ERROR_BYTES_FULL: vgfx_status = 9;
/// `VGFX_ERROR_BAD_VIEW`.
pub const VGFX_ERROR_BAD_VIEW: vgfx_status = 10;
/// `VGFX_ERROR_NO_ENCODER`.
pub const VGFX_ERROR_NO_ENCODER: vgfx_status = 11;
/// `VGFX_ERROR_SERIALS_SPENT`.
pub const VGFX_ERROR_SERIALS_SPENT: vgfx_status = 12;
/// `VGFX_ERROR_FRAMES_SPENT`.
pub const VGFX_ERROR_FRAMES_SPENT: vgfx_status = 13;
/// `VGFX_ERROR_TEXELS_FULL`.
pub const VGFX_ERROR_TEXELS_FULL: vgfx_status = 14;
/// `VGFX_ERROR_BAD_STATE`.
pub const VGFX_ERROR_BAD_STATE: vgfx_status = 16;
/// `VGFX_ERROR_OUT_OF_MEMORY`.
pub const VGFX_ERROR_OUT_OF_MEMORY: vgfx_status = 17;
/// `VGFX_ERROR_NO_OBJECT`.
pub const VGFX_ERROR_NO_OBJECT: vgfx_status = 100;
/// `VGFX_ERROR_TRY_AGAIN`.
pub const VGFX_ERROR_TRY_AGAIN: vgfx_status = 101;
/// `VGFX_ERROR_ENDED`.
pub const VGFX_ERROR_ENDED: vgfx_status = 102;
/// `VGFX_ERROR_TOO_SMALL`.
pub const VGFX_ERROR_TOO_SMALL: vgfx_status = 103;
/// `VGFX_ERROR_BAD_VALUE`.
pub const VGFX_ERROR_BAD_VALUE: vgfx_status = 104;
/// `VGFX_ERROR_TAKEN`.
pub const VGFX_ERROR_TAKEN: vgfx_status = 105;
/// `VGFX_ERROR_NO_SCENE`.
pub const VGFX_ERROR_NO_SCENE: vgfx_status = 106;
/// `VGFX_ERROR_TOO_LONG`.
pub const VGFX_ERROR_TOO_LONG: vgfx_status = 107;
/// `VGFX_ERROR_UNKNOWN`.
pub const VGFX_ERROR_UNKNOWN: vgfx_status = 108;
/// `VGFX_ERROR_NOT_THERE`.
pub const VGFX_ERROR_NOT_THERE: vgfx_status = 109;
/// `VGFX_ATTRIBUTE_POSITION`.
pub const VGFX_ATTRIBUTE_POSITION: u8 = 0;
/// `VGFX_ATTRIBUTE_NORMAL`.
pub const VGFX_ATTRIBUTE_NORMAL: u8 = 1;
/// `VGFX_ATTRIBUTE_TANGENT`.
pub const VGFX_ATTRIBUTE_TANGENT: u8 = 2;
/// `VGFX_ATTRIBUTE_COLOR0`.
pub const VGFX_ATTRIBUTE_COLOR0: u8 = 3;
/// `VGFX_ATTRIBUTE_COLOR1`.
pub const VGFX_ATTRIBUTE_COLOR1: u8 = 4;
/// `VGFX_ATTRIBUTE_TEXCOORD0`.
pub const VGFX_ATTRIBUTE_TEXCOORD0: u8 = 5;
/// `VGFX_ATTRIBUTE_TEXCOORD1`.
pub const VGFX_ATTRIBUTE_TEXCOORD1: u8 = 6;
/// `VGFX_ATTRIBUTE_SKIP`.
pub const VGFX_ATTRIBUTE_SKIP: u8 = 255;
/// `VGFX_COMPONENT_U8`.
pub const VGFX_COMPONENT_U8: u8 = 0;
/// `VGFX_COMPONENT_I16`.
pub const VGFX_COMPONENT_I16: u8 = 1;
/// `VGFX_COMPONENT_FIXED`.
pub const VGFX_COMPONENT_FIXED: u8 = 2;
/// `VGFX_FORMAT_RGBA8`.
pub const VGFX_FORMAT_RGBA8: u32 = 0;
/// `VGFX_FORMAT_D24S8`.
pub const VGFX_FORMAT_D24S8: u32 = 1;
/// `VGFX_PIXELS_RGBA8`.
pub const VGFX_PIXELS_RGBA8: u32 = 0;
/// `VGFX_PIXELS_D24S8`.
pub const VGFX_PIXELS_D24S8: u32 = 1;
/// `VGFX_PIXELS_BGRA8`.
pub const VGFX_PIXELS_BGRA8: u32 = 2;
/// `VGFX_PROGRAM_SOLID`.
pub const VGFX_PROGRAM_SOLID: u32 = 0;
/// `VGFX_PROGRAM_COLOR`.
pub const VGFX_PROGRAM_COLOR: u32 = 1;
/// `VGFX_PROGRAM_TEXTURE`.
pub const VGFX_PROGRAM_TEXTURE: u32 = 2;
/// `VGFX_PROGRAM_TEXTURE_COLOR`.
pub const VGFX_PROGRAM_TEXTURE_COLOR: u32 = 3;
/// `VGFX_UNIFORM_VEC4`.
pub const VGFX_UNIFORM_VEC4: u32 = 0;
/// `VGFX_UNIFORM_INT`.
pub const VGFX_UNIFORM_INT: u32 = 1;
/// `VGFX_VIEW_MODE_DEFAULT`.
pub const VGFX_VIEW_MODE_DEFAULT: u32 = 0;
/// `VGFX_VIEW_MODE_SEQUENTIAL`.
pub const VGFX_VIEW_MODE_SEQUENTIAL: u32 = 1;
/// `VGFX_VIEW_MODE_DEPTH_ASCENDING`.
pub const VGFX_VIEW_MODE_DEPTH_ASCENDING: u32 = 2;
/// `VGFX_VIEW_MODE_DEPTH_DESCENDING`.
pub const VGFX_VIEW_MODE_DEPTH_DESCENDING: u32 = 3;
/// `VGFX_COMPARE_LESS`.
pub const VGFX_COMPARE_LESS: u32 = 1;
/// `VGFX_COMPARE_LEQUAL`.
pub const VGFX_COMPARE_LEQUAL: u32 = 2;
/// `VGFX_COMPARE_EQUAL`.
pub const VGFX_COMPARE_EQUAL: u32 = 3;
/// `VGFX_COMPARE_GEQUAL`.
pub const VGFX_COMPARE_GEQUAL: u32 = 4;
/// `VGFX_COMPARE_GREATER`.
pub const VGFX_COMPARE_GREATER: u32 = 5;
/// `VGFX_COMPARE_NOTEQUAL`.
pub const VGFX_COMPARE_NOTEQUAL: u32 = 6;
/// `VGFX_COMPARE_NEVER`.
pub const VGFX_COMPARE_NEVER: u32 = 7;
/// `VGFX_COMPARE_ALWAYS`.
pub const VGFX_COMPARE_ALWAYS: u32 = 8;
/// `VGFX_BLEND_ZERO`.
pub const VGFX_BLEND_ZERO: u32 = 1;
/// `VGFX_BLEND_ONE`.
pub const VGFX_BLEND_ONE: u32 = 2;
/// `VGFX_BLEND_SRC_COLOR`.
pub const VGFX_BLEND_SRC_COLOR: u32 = 3;
/// `VGFX_BLEND_INV_SRC_COLOR`.
pub const VGFX_BLEND_INV_SRC_COLOR: u32 = 4;
/// `VGFX_BLEND_SRC_ALPHA`.
pub const VGFX_BLEND_SRC_ALPHA: u32 = 5;
/// `VGFX_BLEND_INV_SRC_ALPHA`.
pub const VGFX_BLEND_INV_SRC_ALPHA: u32 = 6;
/// `VGFX_BLEND_DST_ALPHA`.
pub const VGFX_BLEND_DST_ALPHA: u32 = 7;
/// `VGFX_BLEND_INV_DST_ALPHA`.
pub const VGFX_BLEND_INV_DST_ALPHA: u32 = 8;
/// `VGFX_BLEND_DST_COLOR`.
pub const VGFX_BLEND_DST_COLOR: u32 = 9;
/// `VGFX_BLEND_INV_DST_COLOR`.
pub const VGFX_BLEND_INV_DST_COLOR: u32 = 10;
/// `VGFX_BLEND_SRC_ALPHA_SAT`.
pub const VGFX_BLEND_SRC_ALPHA_SAT: u32 = 11;
/// `VGFX_EQUATION_ADD`.
pub const VGFX_EQUATION_ADD: u32 = 0;
/// `VGFX_EQUATION_SUB`.
pub const VGFX_EQUATION_SUB: u32 = 1;
/// `VGFX_EQUATION_REVSUB`.
pub const VGFX_EQUATION_REVSUB: u32 = 2;
/// `VGFX_EQUATION_MIN`.
pub const VGFX_EQUATION_MIN: u32 = 3;
/// `VGFX_EQUATION_MAX`.
pub const VGFX_EQUATION_MAX: u32 = 4;
/// `VGFX_STENCIL_ZERO`.
pub const VGFX_STENCIL_ZERO: u32 = 0;
/// `VGFX_STENCIL_KEEP`.
pub const VGFX_STENCIL_KEEP: u32 = 1;
/// `VGFX_STENCIL_REPLACE`.
pub const VGFX_STENCIL_REPLACE: u32 = 2;
/// `VGFX_STENCIL_INCR`.
pub const VGFX_STENCIL_INCR: u32 = 3;
/// `VGFX_STENCIL_INCRSAT`.
pub const VGFX_STENCIL_INCRSAT: u32 = 4;
/// `VGFX_STENCIL_DECR`.
pub const VGFX_STENCIL_DECR: u32 = 5;
/// `VGFX_STENCIL_DECRSAT`.
pub const VGFX_STENCIL_DECRSAT: u32 = 6;
/// `VGFX_STENCIL_INVERT`.
pub const VGFX_STENCIL_INVERT: u32 = 7;
/// `VGFX_VERSION_MAJOR`.
pub const VGFX_VERSION_MAJOR: u32 = 0;
/// `VGFX_VERSION_MINOR`.
pub const VGFX_VERSION_MINOR: u32 = 3;
/// `VGFX_VERSION_PATCH`.
pub const VGFX_VERSION_PATCH: u32 = 0;
/// `VGFX_ONE`.
pub const VGFX_ONE: i32 = 65536;
/// `VGFX_MAX_LAYOUTS`.
pub const VGFX_MAX_LAYOUTS: u32 = 64;
/// `VGFX_MAX_VERTEX_BUFFERS`.
pub const VGFX_MAX_VERTEX_BUFFERS: u32 = 1024;
/// `VGFX_MAX_INDEX_BUFFERS`.
pub const VGFX_MAX_INDEX_BUFFERS: u32 = 1024;
/// `VGFX_MAX_TEXTURES`.
pub const VGFX_MAX_TEXTURES: u32 = 1024;
/// `VGFX_MAX_FRAME_BUFFERS`.
pub const VGFX_MAX_FRAME_BUFFERS: u32 = 128;
/// `VGFX_MAX_PROGRAMS`.
pub const VGFX_MAX_PROGRAMS: u32 = 256;
/// `VGFX_MAX_UNIFORMS`.
pub const VGFX_MAX_UNIFORMS: u32 = 256;
/// `VGFX_MAX_UNIFORM_NAME`.
pub const VGFX_MAX_UNIFORM_NAME: u32 = 32;
/// `VGFX_MAX_VIEWS`.
pub const VGFX_MAX_VIEWS: u16 = 512;
/// `VGFX_MAX_ENCODERS`.
pub const VGFX_MAX_ENCODERS: u32 = 8;
/// `VGFX_MAX_ITEMS`.
pub const VGFX_MAX_ITEMS: u32 = 8191;
/// `VGFX_MAX_TRANSIENT_BYTES`.
pub const VGFX_MAX_TRANSIENT_BYTES: u32 = 1048576;
/// `VGFX_MAX_UNIFORM_VALUES`.
pub const VGFX_MAX_UNIFORM_VALUES: u32 = 8191;
/// `VGFX_MAX_SIDE`.
pub const VGFX_MAX_SIDE: u16 = 2048;
/// `VGFX_MAX_TEXELS`.
pub const VGFX_MAX_TEXELS: u32 = 33554432;
/// `VGFX_MAX_BUFFER_BYTES`.
pub const VGFX_MAX_BUFFER_BYTES: u32 = 524288;
/// `VGFX_MAX_STRIDE`.
pub const VGFX_MAX_STRIDE: u32 = 255;
/// `VGFX_MAX_SCENE_BYTES`.
pub const VGFX_MAX_SCENE_BYTES: u32 = 16777216;
/// `VGFX_MAX_DEPTH`.
pub const VGFX_MAX_DEPTH: u32 = 16777215;
/// `VGFX_CLEAR_COLOR`.
pub const VGFX_CLEAR_COLOR: u8 = 1;
/// `VGFX_CLEAR_DEPTH`.
pub const VGFX_CLEAR_DEPTH: u8 = 2;
/// `VGFX_CLEAR_STENCIL`.
pub const VGFX_CLEAR_STENCIL: u8 = 4;
/// `VGFX_DISCARD_NONE`.
pub const VGFX_DISCARD_NONE: u8 = 0;
/// `VGFX_DISCARD_BINDINGS`.
pub const VGFX_DISCARD_BINDINGS: u8 = 1;
/// `VGFX_DISCARD_INDEX_BUFFER`.
pub const VGFX_DISCARD_INDEX_BUFFER: u8 = 2;
/// `VGFX_DISCARD_STATE`.
pub const VGFX_DISCARD_STATE: u8 = 8;
/// `VGFX_DISCARD_TRANSFORM`.
pub const VGFX_DISCARD_TRANSFORM: u8 = 16;
/// `VGFX_DISCARD_VERTEX_STREAMS`.
pub const VGFX_DISCARD_VERTEX_STREAMS: u8 = 32;
/// `VGFX_DISCARD_ALL`.
pub const VGFX_DISCARD_ALL: u8 = 255;
/// `VGFX_STATE_WRITE_R`.
pub const VGFX_STATE_WRITE_R: u64 = 0x1;
/// `VGFX_STATE_WRITE_G`.
pub const VGFX_STATE_WRITE_G: u64 = 0x2;
/// `VGFX_STATE_WRITE_B`.
pub const VGFX_STATE_WRITE_B: u64 = 0x4;
/// `VGFX_STATE_WRITE_A`.
pub const VGFX_STATE_WRITE_A: u64 = 0x8;
/// `VGFX_STATE_WRITE_RGB`.
pub const VGFX_STATE_WRITE_RGB: u64 = 0x7;
/// `VGFX_STATE_WRITE_RGBA`.
pub const VGFX_STATE_WRITE_RGBA: u64 = 0xf;
/// `VGFX_STATE_WRITE_Z`.
pub const VGFX_STATE_WRITE_Z: u64 = 0x4000000000;
/// `VGFX_STATE_CULL_CW`.
pub const VGFX_STATE_CULL_CW: u64 = 0x1000000000;
/// `VGFX_STATE_CULL_CCW`.
pub const VGFX_STATE_CULL_CCW: u64 = 0x2000000000;
/// `VGFX_STATE_PT_TRISTRIP`.
pub const VGFX_STATE_PT_TRISTRIP: u64 = 0x1000000000000;
/// `VGFX_STENCIL_NONE`.
pub const VGFX_STENCIL_NONE: u32 = 0;
/// `VGFX_VERSION`.
pub const VGFX_VERSION: u32 = (VGFX_VERSION_MAJOR << 16) | (VGFX_VERSION_MINOR << 8) | VGFX_VERSION_PATCH;

// ---- calls

unsafe extern "C" {
    /// The version of the library: VGFX_VERSION of the header that it was made with.
    pub fn vgfx_version() -> u32;
    /// Plays a scene's text (docs/rules/formats.md) on the calling thread.
    pub fn vgfx_play(text: *const c_void, text_length: usize, pictures: *mut c_void, pictures_length: usize, report: *mut c_void, report_length: usize, played: *mut vgfx_play_report) -> vgfx_status;
    /// Makes a context with pictures of these sides, 1 to VGFX_MAX_SIDE, and a back buffer of zeros with depth and stencil, for a handle that is null.
    pub fn vgfx_init(context: *mut vgfx_context, width: u16, height: u16) -> vgfx_status;
    /// Gives a context up with all that was made, also from vgfx_frame_begin to vgfx_frame_end.
    pub fn vgfx_shutdown(context: *mut vgfx_context) -> vgfx_status;
    /// Tells the number of the frame that is recorded, from 0.
    pub fn vgfx_frame_number(context: *mut vgfx_context, number: *mut u32) -> vgfx_status;
    /// Begins this frame's next encoder, for a handle that is null, with room for 1 to VGFX_MAX_ITEMS items, 0 to VGFX_MAX_TRANSIENT_BYTES bytes of transient vertices and indices, and 0 to VGFX_MAX_UNIFORM_VALUES uniform values.
    pub fn vgfx_encoder_begin(context: *mut vgfx_context, encoder: *mut vgfx_encoder, items: u32, bytes: u32, uniforms: u32) -> vgfx_status;
    /// Takes in the encoders that have ended, and tells how many are still out.
    pub fn vgfx_collect(context: *mut vgfx_context, out: *mut u32) -> vgfx_status;
    /// Ends the frame, renders it on the calling thread, and writes its picture as a P6 text: "P6\nWIDTH HEIGHT\n255\n" and three bytes a pixel.
    pub fn vgfx_frame(context: *mut vgfx_context, picture: *mut c_void, picture_length: usize, report: *mut vgfx_frame_report) -> vgfx_status;
    /// Begins the frame: takes in the encoders that have ended, makes the frame and does its first commands.
    pub fn vgfx_frame_begin(context: *mut vgfx_context) -> vgfx_status;
    /// Begins the next pass and lends its bands, to the first of `bands_length` handles, all of which are null before.
    pub fn vgfx_pass_next(context: *mut vgfx_context, bands: *mut vgfx_band, bands_length: usize, count: *mut usize) -> vgfx_status;
    /// Draws a band, by any thread, beside the other bands of its pass.
    pub fn vgfx_band_draw(band: *mut vgfx_band) -> vgfx_status;
    /// Takes bands back, whose handles are null from then on, whatever is answered.
    pub fn vgfx_pass_end(context: *mut vgfx_context, bands: *mut vgfx_band, bands_length: usize) -> vgfx_status;
    /// Ends the frame: draws on the calling thread what no pass drew, does its last commands, and writes its picture as vgfx_frame does.
    pub fn vgfx_frame_end(context: *mut vgfx_context, picture: *mut c_void, picture_length: usize, report: *mut vgfx_frame_report) -> vgfx_status;
    /// Reads the back buffer by 0, or a texture, as the last frame left it: row by row from the top, four bytes a pixel, with `stride` bytes from the start of a row to that of the next.
    pub fn vgfx_read_pixels(context: *mut vgfx_context, texture: vgfx_id, pixels_format: u32, pixels: *mut c_void, pixels_length: usize, stride: usize) -> vgfx_status;
    /// Makes a layout of parts.
    pub fn vgfx_create_layout(context: *mut vgfx_context, parts: *const vgfx_layout_part, parts_length: usize, made: *mut vgfx_id) -> vgfx_status;
    /// Makes a vertex buffer of a layout, of 1 to VGFX_MAX_BUFFER_BYTES bytes, which are copied.
    pub fn vgfx_create_vertex_buffer(context: *mut vgfx_context, layout: vgfx_id, bytes: *const c_void, bytes_length: usize, made: *mut vgfx_id) -> vgfx_status;
    /// Makes an index buffer, of 2 to VGFX_MAX_BUFFER_BYTES bytes, an even number, which are copied.
    pub fn vgfx_create_index_buffer(context: *mut vgfx_context, bytes: *const c_void, bytes_length: usize, made: *mut vgfx_id) -> vgfx_status;
    /// Makes a texture with sides of 1 to VGFX_MAX_SIDE, of four bytes a texel, which are copied once the sizes are found right.
    pub fn vgfx_create_texture(context: *mut vgfx_context, width: u16, height: u16, format: u32, blit_destination: u8, bytes: *const c_void, bytes_length: usize, made: *mut vgfx_id) -> vgfx_status;
    /// Makes a texture all of whose texels are these four bytes: of VGFX_FORMAT_D24S8 the depth, lowest byte first, and the stencil.
    pub fn vgfx_create_filled_texture(context: *mut vgfx_context, width: u16, height: u16, format: u32, blit_destination: u8, red: u8, green: u8, blue: u8, alpha: u8, made: *mut vgfx_id) -> vgfx_status;
    /// Makes a frame buffer of a colour texture, and of a depth texture of the same sides, or none by 0.
    pub fn vgfx_create_frame_buffer(context: *mut vgfx_context, color: vgfx_id, depth: vgfx_id, made: *mut vgfx_id) -> vgfx_status;
    /// Makes a program.
    pub fn vgfx_create_program(context: *mut vgfx_context, program: u32, made: *mut vgfx_id) -> vgfx_status;
    /// Makes a uniform of a name of 1 to VGFX_MAX_UNIFORM_NAME bytes, whose value is 0, or refers to the one of that name once more.
    pub fn vgfx_create_uniform(context: *mut vgfx_context, name: *const c_char, name_length: usize, kind: u32, made: *mut vgfx_id) -> vgfx_status;
    /// Changes bytes of a vertex or index buffer, before all draws of this frame.
    pub fn vgfx_update_buffer(context: *mut vgfx_context, buffer: vgfx_id, offset: u32, bytes: *const c_void, bytes_length: usize) -> vgfx_status;
    /// Changes texels of a texture, four bytes each, before all draws of this frame.
    pub fn vgfx_update_texture(context: *mut vgfx_context, texture: vgfx_id, x: u16, y: u16, w: u16, h: u16, bytes: *const c_void, bytes_length: usize) -> vgfx_status;
    /// Destroys a resource, or takes one reference of a uniform.
    pub fn vgfx_destroy(context: *mut vgfx_context, resource: vgfx_id) -> vgfx_status;
    /// Sets the part of its target that a view draws on.
    pub fn vgfx_set_view_rect(context: *mut vgfx_context, view: u16, x: u16, y: u16, w: u16, h: u16) -> vgfx_status;
    /// Sets the scissor of a view, which cuts draws and not clears.
    pub fn vgfx_set_view_scissor(context: *mut vgfx_context, view: u16, x: u16, y: u16, w: u16, h: u16) -> vgfx_status;
    /// Sets what entering a view clears (VGFX_CLEAR_COLOR | ..), and to what.
    pub fn vgfx_set_view_clear(context: *mut vgfx_context, view: u16, flags: u8, red: u8, green: u8, blue: u8, alpha: u8, depth: u32, stencil: u8) -> vgfx_status;
    /// Sets how a view orders its draws and touches.
    pub fn vgfx_set_view_mode(context: *mut vgfx_context, view: u16, mode: u32) -> vgfx_status;
    /// Sets the transform of a view, which comes after that of the draw.
    pub fn vgfx_set_view_transform(context: *mut vgfx_context, view: u16, transform: *const vgfx_transform) -> vgfx_status;
    /// Sets the target of a view, a frame buffer, or the back buffer by 0.
    pub fn vgfx_set_view_target(context: *mut vgfx_context, view: u16, target: vgfx_id) -> vgfx_status;
    /// Sets the views that come first, in this order, in place of those before.
    pub fn vgfx_set_view_order(context: *mut vgfx_context, views: *const u16, views_length: usize) -> vgfx_status;
    /// Sets a view as it is at first: all of the back buffer, no clear, VGFX_VIEW_MODE_DEFAULT, no transform.
    pub fn vgfx_reset_view(context: *mut vgfx_context, view: u16) -> vgfx_status;
    /// Sets the state word of the next draws (VGFX_STATE_WRITE_RGBA | ..).
    pub fn vgfx_encoder_set_state(encoder: *mut vgfx_encoder, state: u64) -> vgfx_status;
    /// Sets the stencil words (VGFX_STENCIL) for triangles that face the front and the back.
    pub fn vgfx_encoder_set_stencil(encoder: *mut vgfx_encoder, front: u32, back: u32) -> vgfx_status;
    /// Sets the scissor.
    pub fn vgfx_encoder_set_scissor(encoder: *mut vgfx_encoder, x: u16, y: u16, w: u16, h: u16) -> vgfx_status;
    /// Sets the transform from the vertices to the view.
    pub fn vgfx_encoder_set_transform(encoder: *mut vgfx_encoder, transform: *const vgfx_transform) -> vgfx_status;
    /// Takes `count` vertices of a buffer from number `first` on.
    pub fn vgfx_encoder_set_vertices(encoder: *mut vgfx_encoder, buffer: vgfx_id, first: u32, count: u32) -> vgfx_status;
    /// Takes `count` indices of a buffer from number `first` on, not tested either.
    pub fn vgfx_encoder_set_indices(encoder: *mut vgfx_encoder, buffer: vgfx_id, first: u32, count: u32) -> vgfx_status;
    /// Takes a copy of bytes as vertices of a layout.
    pub fn vgfx_encoder_set_transient_vertices(encoder: *mut vgfx_encoder, layout: vgfx_id, bytes: *const c_void, bytes_length: usize) -> vgfx_status;
    /// Takes a copy of bytes as indices.
    pub fn vgfx_encoder_set_transient_indices(encoder: *mut vgfx_encoder, bytes: *const c_void, bytes_length: usize) -> vgfx_status;
    /// Puts a texture of VGFX_FORMAT_RGBA8 on stage 0 or 1, or takes it off by 0.
    pub fn vgfx_encoder_set_texture(encoder: *mut vgfx_encoder, stage: u8, texture: vgfx_id) -> vgfx_status;
    /// Sets four values, or one, of a uniform.
    pub fn vgfx_encoder_set_vec4(encoder: *mut vgfx_encoder, uniform: vgfx_id, x: i32, y: i32, z: i32, w: i32) -> vgfx_status;
    /// Sets four values, or one, of a uniform.
    pub fn vgfx_encoder_set_int(encoder: *mut vgfx_encoder, uniform: vgfx_id, value: i32) -> vgfx_status;
    /// Records a draw with the current state and the uniform values, and resets the parts that `discard` names (VGFX_DISCARD_BINDINGS | ..).
    pub fn vgfx_encoder_submit(encoder: *mut vgfx_encoder, view: u16, program: vgfx_id, depth: u32, discard: u8) -> vgfx_status;
    /// Resets the parts of the state for the next draw that `discard` names (VGFX_DISCARD_BINDINGS | ..), as they are where an encoder begins.
    pub fn vgfx_encoder_discard(encoder: *mut vgfx_encoder, discard: u8) -> vgfx_status;
    /// Records an empty primitive with the uniform values, so that the view is entered, and resets all as VGFX_DISCARD_ALL.
    pub fn vgfx_encoder_touch(encoder: *mut vgfx_encoder, view: u16) -> vgfx_status;
    /// Records a copy of a region between textures of one format.
    pub fn vgfx_encoder_blit(encoder: *mut vgfx_encoder, view: u16, destination: vgfx_id, dx: u16, dy: u16, source: vgfx_id, sx: u16, sy: u16, w: u16, h: u16) -> vgfx_status;
    /// Ends an encoder with a number of the caller's own, as of the calls that it left out.
    pub fn vgfx_encoder_end(encoder: *mut vgfx_encoder, dropped: u32) -> vgfx_status;
    /// Gives up an encoder whose context is, or will be, shut down.
    pub fn vgfx_encoder_drop(encoder: *mut vgfx_encoder) -> vgfx_status;
}
