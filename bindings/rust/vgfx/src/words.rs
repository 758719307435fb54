use std::ops::BitOr;

use vgfx_sys as sys;

/// 1, in positions, transforms and the values of a [`Vec4Uniform`](crate::Vec4Uniform).
pub const ONE: i32 = sys::VGFX_ONE;

/// A number as a whole number of 1/65536, the nearest; the nearer end of the range where it lies outside.
pub fn fixed(value: f64) -> i32 {
    (value * f64::from(ONE)).round() as i32
}

/// What a part of a vertex holds.
#[derive(Clone, Copy, Debug, PartialEq, Eq)]
#[repr(u8)]
pub enum Attribute {
    /// Its place.
    Position = sys::VGFX_ATTRIBUTE_POSITION,
    /// Not read.
    Normal = sys::VGFX_ATTRIBUTE_NORMAL,
    /// Not read.
    Tangent = sys::VGFX_ATTRIBUTE_TANGENT,
    /// Its colour.
    Color0 = sys::VGFX_ATTRIBUTE_COLOR0,
    /// Not read.
    Color1 = sys::VGFX_ATTRIBUTE_COLOR1,
    /// Its place in a texture.
    Texcoord0 = sys::VGFX_ATTRIBUTE_TEXCOORD0,
    /// Not read.
    Texcoord1 = sys::VGFX_ATTRIBUTE_TEXCOORD1,
}

/// The type of a component.
#[derive(Clone, Copy, Debug, PartialEq, Eq)]
#[repr(u8)]
pub enum Component {
    /// A byte, 0 to 255 for 0 to 1.
    U8 = sys::VGFX_COMPONENT_U8,
    /// 16 bits, lowest byte first, -32768 to 32767 for -1 to 1.
    I16 = sys::VGFX_COMPONENT_I16,
    /// 32 bits of 1/65536, lowest byte first.
    Fixed = sys::VGFX_COMPONENT_FIXED,
}

/// A part of a layout. Parts lie behind one another without padding.
#[derive(Clone, Copy, Debug, PartialEq, Eq)]
#[repr(transparent)]
pub struct LayoutPart(pub(crate) sys::vgfx_layout_part);

impl LayoutPart {
    /// Components of an attribute, 1 to 4.
    pub const fn new(attribute: Attribute, component: Component, count: u8) -> Self {
        Self(sys::vgfx_layout_part {
            attribute: attribute as u8,
            component: component as u8,
            count,
        })
    }

    /// Bytes that are passed over, 1 to 255.
    pub const fn skip(bytes: u8) -> Self {
        Self(sys::vgfx_layout_part {
            attribute: sys::VGFX_ATTRIBUTE_SKIP,
            component: 0,
            count: bytes,
        })
    }
}

/// What a texel holds.
#[derive(Clone, Copy, Debug, PartialEq, Eq)]
#[repr(u32)]
pub enum Format {
    /// Red, green, blue and alpha.
    Rgba8 = sys::VGFX_FORMAT_RGBA8,
    /// A depth in three bytes, lowest first, and a stencil.
    D24S8 = sys::VGFX_FORMAT_D24S8,
}

/// What pixels are read as, four bytes each.
#[derive(Clone, Copy, Debug, PartialEq, Eq)]
#[repr(u32)]
pub enum Pixels {
    /// Red, green, blue and alpha.
    Rgba8 = sys::VGFX_PIXELS_RGBA8,
    /// The depth in three bytes, lowest first, and the stencil.
    D24S8 = sys::VGFX_PIXELS_D24S8,
    /// Blue, green, red and alpha, of a texture of [`Format::Rgba8`].
    Bgra8 = sys::VGFX_PIXELS_BGRA8,
}

/// What a program paints.
#[derive(Clone, Copy, Debug, PartialEq, Eq)]
#[repr(u32)]
pub enum ProgramKind {
    /// The value of the uniform "u_color"; white where there is none.
    Solid = sys::VGFX_PROGRAM_SOLID,
    /// The vertices' colour.
    Color = sys::VGFX_PROGRAM_COLOR,
    /// The sample of the texture on the stage that the uniform "s_tex" says; stage 0 where there is none.
    Texture = sys::VGFX_PROGRAM_TEXTURE,
    /// The product of the last two.
    TextureColor = sys::VGFX_PROGRAM_TEXTURE_COLOR,
}

/// How a view orders its draws and touches.
#[derive(Clone, Copy, Debug, PartialEq, Eq)]
#[repr(u32)]
pub enum ViewMode {
    /// Opaque before blended, then by program, then by depth.
    Default = sys::VGFX_VIEW_MODE_DEFAULT,
    /// As they were submitted.
    Sequential = sys::VGFX_VIEW_MODE_SEQUENTIAL,
    /// By depth, least first.
    DepthAscending = sys::VGFX_VIEW_MODE_DEPTH_ASCENDING,
    /// By depth, greatest first.
    DepthDescending = sys::VGFX_VIEW_MODE_DEPTH_DESCENDING,
}

/// Pixels of a target, from its upper left corner.
#[derive(Clone, Copy, Debug, Default, PartialEq, Eq)]
pub struct Rect {
    /// Columns to its left.
    pub x: u16,
    /// Rows above it.
    pub y: u16,
    /// Its width.
    pub w: u16,
    /// Its height.
    pub h: u16,
}

/// Three rows of four numbers of 1/65536: a row a, b, c, d takes x, y, z to a*x + b*y + c*z + d.
#[derive(Clone, Copy, Debug, PartialEq, Eq)]
pub struct Transform(pub [i32; 12]);

impl Transform {
    /// What changes nothing.
    pub const IDENTITY: Self = Self([ONE, 0, 0, 0, 0, ONE, 0, 0, 0, 0, ONE, 0]);

    /// From numbers, each rounded to the nearest 1/65536.
    pub fn from_rows(rows: [[f64; 4]; 3]) -> Self {
        let mut m = [0; 12];
        for (place, value) in m.iter_mut().zip(rows.as_flattened()) {
            *place = fixed(*value);
        }
        Self(m)
    }

    pub(crate) fn raw(self) -> sys::vgfx_transform {
        sys::vgfx_transform { m: self.0 }
    }
}

/// A comparison of a depth or a stencil with the stored one.
#[derive(Clone, Copy, Debug, PartialEq, Eq)]
#[repr(u32)]
pub enum Compare {
    /// It is less.
    Less = sys::VGFX_COMPARE_LESS,
    /// It is less or equal.
    LessEqual = sys::VGFX_COMPARE_LEQUAL,
    /// It is equal.
    Equal = sys::VGFX_COMPARE_EQUAL,
    /// It is greater or equal.
    GreaterEqual = sys::VGFX_COMPARE_GEQUAL,
    /// It is greater.
    Greater = sys::VGFX_COMPARE_GREATER,
    /// It is another.
    NotEqual = sys::VGFX_COMPARE_NOTEQUAL,
    /// Never.
    Never = sys::VGFX_COMPARE_NEVER,
    /// Always.
    Always = sys::VGFX_COMPARE_ALWAYS,
}

/// What a colour is multiplied by where it is blended.
#[derive(Clone, Copy, Debug, PartialEq, Eq)]
#[repr(u32)]
pub enum Factor {
    /// 0.
    Zero = sys::VGFX_BLEND_ZERO,
    /// 1.
    One = sys::VGFX_BLEND_ONE,
    /// The source's colour.
    SourceColor = sys::VGFX_BLEND_SRC_COLOR,
    /// 1 less the source's colour.
    InverseSourceColor = sys::VGFX_BLEND_INV_SRC_COLOR,
    /// The source's alpha.
    SourceAlpha = sys::VGFX_BLEND_SRC_ALPHA,
    /// 1 less the source's alpha.
    InverseSourceAlpha = sys::VGFX_BLEND_INV_SRC_ALPHA,
    /// The destination's alpha.
    DestinationAlpha = sys::VGFX_BLEND_DST_ALPHA,
    /// 1 less the destination's alpha.
    InverseDestinationAlpha = sys::VGFX_BLEND_INV_DST_ALPHA,
    /// The destination's colour.
    DestinationColor = sys::VGFX_BLEND_DST_COLOR,
    /// 1 less the destination's colour.
    InverseDestinationColor = sys::VGFX_BLEND_INV_DST_COLOR,
    /// The lesser of the source's alpha and 1 less the destination's.
    SourceAlphaSaturated = sys::VGFX_BLEND_SRC_ALPHA_SAT,
}

/// The state word of a draw: a sum, by `|`, of what it wants. What is written and tested stands in the header.
#[derive(Clone, Copy, Debug, PartialEq, Eq)]
pub struct State(pub u64);

impl State {
    /// All four channels are written, and nothing else: what an encoder begins with.
    pub const WRITE_RGBA: Self =
        Self(sys::VGFX_STATE_WRITE_R | sys::VGFX_STATE_WRITE_G | sys::VGFX_STATE_WRITE_B | sys::VGFX_STATE_WRITE_A);
    /// The depth is written.
    pub const WRITE_DEPTH: Self = Self(sys::VGFX_STATE_WRITE_Z);
    /// Triangles that face the front are left out.
    pub const CULL_CLOCKWISE: Self = Self(sys::VGFX_STATE_CULL_CW);
    /// Triangles that face the back are left out.
    pub const CULL_COUNTER_CLOCKWISE: Self = Self(sys::VGFX_STATE_CULL_CCW);
    /// The vertices are a strip of triangles.
    pub const TRIANGLE_STRIP: Self = Self(sys::VGFX_STATE_PT_TRISTRIP);
    /// The usual blend, by the source's alpha.
    pub const BLEND_ALPHA: Self = Self::blend(Factor::SourceAlpha, Factor::InverseSourceAlpha);

    /// Pixels whose depth compares so with the stored one are drawn.
    pub const fn depth_test(compare: Compare) -> Self {
        Self((compare as u64) << 4)
    }

    /// The source and the destination are multiplied by these and added, of colour and alpha.
    pub const fn blend(source: Factor, destination: Factor) -> Self {
        Self::blend_apart([source, destination], [source, destination])
    }

    /// The same with factors of their own for colour and for alpha, the source's first.
    pub const fn blend_apart(color: [Factor; 2], alpha: [Factor; 2]) -> Self {
        Self((color[0] as u64) << 12 | (color[1] as u64) << 16 | (alpha[0] as u64) << 20 | (alpha[1] as u64) << 24)
    }
}

impl Default for State {
    fn default() -> Self {
        Self::WRITE_RGBA
    }
}

impl BitOr for State {
    type Output = Self;

    fn bitor(self, other: Self) -> Self {
        Self(self.0 | other.0)
    }
}

/// What happens to a stored stencil.
#[derive(Clone, Copy, Debug, PartialEq, Eq)]
#[repr(u32)]
pub enum StencilStep {
    /// It becomes 0.
    Zero = sys::VGFX_STENCIL_ZERO,
    /// It stays.
    Keep = sys::VGFX_STENCIL_KEEP,
    /// It becomes the reference.
    Replace = sys::VGFX_STENCIL_REPLACE,
    /// One more, and 0 after 255.
    Increment = sys::VGFX_STENCIL_INCR,
    /// One more, to 255.
    IncrementSaturated = sys::VGFX_STENCIL_INCRSAT,
    /// One less, and 255 after 0.
    Decrement = sys::VGFX_STENCIL_DECR,
    /// One less, to 0.
    DecrementSaturated = sys::VGFX_STENCIL_DECRSAT,
    /// Each bit is turned.
    Invert = sys::VGFX_STENCIL_INVERT,
}

/// A stencil word.
#[derive(Clone, Copy, Debug, Default, PartialEq, Eq)]
pub struct Stencil(pub u32);

impl Stencil {
    /// No stencil; for the back, as for the front.
    pub const NONE: Self = Self(0);

    /// `reference` under `mask` is compared with what is stored under `mask`; then comes the step for where that fails, for where the depth test
    /// fails, and for where both pass.
    pub const fn new(reference: u8, mask: u8, compare: Compare, steps: [StencilStep; 3]) -> Self {
        let [stencil_fails, depth_fails, passes] = steps;
        let test = reference as u32 | (mask as u32) << 8 | (compare as u32) << 16;
        Self(test | (stencil_fails as u32) << 20 | (depth_fails as u32) << 24 | (passes as u32) << 28)
    }
}

/// What an encoder forgets after a draw: a sum, by `|`.
#[derive(Clone, Copy, Debug, PartialEq, Eq)]
pub struct Discard(pub u8);

impl Discard {
    /// Nothing.
    pub const NONE: Self = Self(0);
    /// Both textures.
    pub const BINDINGS: Self = Self(sys::VGFX_DISCARD_BINDINGS);
    /// The indices.
    pub const INDEX_BUFFER: Self = Self(sys::VGFX_DISCARD_INDEX_BUFFER);
    /// The state word, the stencil words and the scissor.
    pub const STATE: Self = Self(sys::VGFX_DISCARD_STATE);
    /// The transform.
    pub const TRANSFORM: Self = Self(sys::VGFX_DISCARD_TRANSFORM);
    /// The vertices.
    pub const VERTEX_STREAMS: Self = Self(sys::VGFX_DISCARD_VERTEX_STREAMS);
    /// All.
    pub const ALL: Self = Self(sys::VGFX_DISCARD_ALL);
}

impl BitOr for Discard {
    type Output = Self;

    fn bitor(self, other: Self) -> Self {
        Self(self.0 | other.0)
    }
}
