use std::cell::UnsafeCell;
use std::ffi::c_void;
use std::marker::PhantomData;
use std::mem;

use vgfx_sys as sys;

use crate::{
    Buffer, Encoder, Error, Format, FrameBuffer, IndexBuffer, IntUniform, Layout, LayoutPart, Pixels, Program, ProgramKind, Rect, Resource,
    Texture, Transform, Vec4Uniform, VertexBuffer, ViewMode,
};

/// What draws: resources, views, a back buffer, and the frame that is being recorded. It is shut down where it is dropped.
#[derive(Debug)]
pub struct Context {
    raw: UnsafeCell<sys::vgfx_context>,
    width: u16,
    height: u16,
}

// SAFETY: a context's handle may be moved while no call has it, and be used by another thread next, where the two are ordered, as they are by
// whatever moves a value to another thread. It is not `Sync`: one thread at a time makes its calls, and none of them calls back.
unsafe impl Send for Context {}

/// The room that an encoder takes at its begin.
#[derive(Clone, Copy, Debug, PartialEq, Eq)]
pub struct Room {
    /// Draws, touches and blits, 1 to 8191.
    pub items: u32,
    /// Bytes of transient vertices and indices, to 1048576.
    pub bytes: u32,
    /// Uniform values, to 8191.
    pub uniforms: u32,
}

impl Room {
    /// Room for items alone.
    pub const fn of_items(items: u32) -> Self {
        Self {
            items,
            bytes: 0,
            uniforms: 0,
        }
    }
}

/// What entering a view clears, and to what.
#[derive(Clone, Copy, Debug, Default, PartialEq, Eq)]
pub struct Clear {
    /// Red, green, blue and alpha.
    pub color: Option<[u8; 4]>,
    /// A depth, to 16777215.
    pub depth: Option<u32>,
    /// A stencil.
    pub stencil: Option<u8>,
}

/// What is told of a frame.
#[derive(Clone, Copy, Debug, PartialEq, Eq)]
pub struct FrameReport {
    /// Its number, from 0.
    pub number: u32,
    /// The sum of the numbers that its encoders ended with.
    pub dropped: u64,
}

/// A frame's picture. One is used again for the next frame without new memory.
#[derive(Clone, Debug, Default)]
pub struct Picture {
    bytes: Vec<u8>,
    length: usize,
    pixels: usize,
}

impl Picture {
    /// No picture yet.
    pub const fn new() -> Self {
        Self {
            bytes: Vec::new(),
            length: 0,
            pixels: 0,
        }
    }

    /// Has a call write a picture of these sides, whose report it fills; where it is refused there is no picture.
    pub(crate) fn put(
        &mut self,
        sides: (u16, u16),
        call: impl FnOnce(*mut c_void, usize, &mut sys::vgfx_frame_report) -> Result<(), Error>,
    ) -> Result<FrameReport, Error> {
        let pixels = 3 * usize::from(sides.0) * usize::from(sides.1);
        (self.length, self.pixels) = (0, 0);
        self.bytes.resize(pixels + 17, 0);
        let mut told = sys::vgfx_frame_report::default();
        call(self.bytes.as_mut_ptr().cast(), self.bytes.len(), &mut told)?;
        (self.length, self.pixels) = (told.picture, pixels);
        Ok(FrameReport {
            number: told.number,
            dropped: told.dropped,
        })
    }

    /// The pixels, row by row from the top, three bytes each: red, green and blue.
    pub fn pixels(&self) -> &[u8] {
        &self.p6()[self.length - self.pixels..]
    }

    /// The picture as a P6 text, a file of the form `.ppm`.
    pub fn p6(&self) -> &[u8] {
        &self.bytes[..self.length]
    }
}

impl Context {
    /// Makes a context with pictures of these sides, 1 to 2048, which stay. [`Error::BadSize`], [`Error::OutOfMemory`].
    pub fn new(width: u16, height: u16) -> Result<Self, Error> {
        let mut raw = sys::vgfx_context::NULL;
        // SAFETY: the handle is null and here alone.
        Error::of(unsafe { sys::vgfx_init(&mut raw, width, height) })?;
        Ok(Self {
            raw: UnsafeCell::new(raw),
            width,
            height,
        })
    }

    /// The width and the height of its pictures.
    pub fn sides(&self) -> (u16, u16) {
        (self.width, self.height)
    }

    pub(crate) fn call(&self, call: impl FnOnce(*mut sys::vgfx_context) -> sys::vgfx_status) -> Result<(), Error> {
        Error::of(call(self.raw.get()))
    }

    fn made<T>(
        &self,
        of: impl FnOnce(u64) -> T,
        call: impl FnOnce(*mut sys::vgfx_context, *mut u64) -> sys::vgfx_status,
    ) -> Result<T, Error> {
        let mut id = 0;
        self.call(|context| call(context, &mut id))?;
        Ok(of(id))
    }

    /// The number of the frame that is recorded, from 0.
    pub fn frame_number(&self) -> Result<u32, Error> {
        let mut number = 0;
        // SAFETY: the handle is this context's. It is on one thread, and no call calls back, so no other call has it: so in all calls below.
        self.call(|context| unsafe { sys::vgfx_frame_number(context, &mut number) })?;
        Ok(number)
    }

    /// Begins this frame's next encoder; there are eight. [`Error::Ended`], [`Error::BadSize`], [`Error::NoEncoder`], [`Error::OutOfMemory`].
    pub fn begin(&self, room: Room) -> Result<Encoder<'_>, Error> {
        let mut raw = sys::vgfx_encoder::NULL;
        // SAFETY: as above, and the encoder's handle is null and here alone.
        self.call(|context| unsafe { sys::vgfx_encoder_begin(context, &mut raw, room.items, room.bytes, room.uniforms) })?;
        Ok(Encoder { raw, context: PhantomData })
    }

    /// Takes in the encoders that have ended, and tells how many have not. A frame does so too.
    pub fn collect(&self) -> Result<u32, Error> {
        let mut out = 0;
        // SAFETY: as above.
        self.call(|context| unsafe { sys::vgfx_collect(context, &mut out) })?;
        Ok(out)
    }

    /// Ends the frame, renders it on this thread, and puts its picture down; where it is refused there is no picture. [`Error::Ended`], [`Error::FramesSpent`], [`Error::OutOfMemory`], after
    /// which the frame can be ended again, unless memory was wanting in its render; [`Error::TryAgain`] where an encoder was forgotten by [`mem::forget`].
    pub fn frame(&mut self, picture: &mut Picture) -> Result<FrameReport, Error> {
        // SAFETY: as above; the pointer and the length are one vector's.
        picture.put(self.sides(), |at, length, told| {
            self.call(|context| unsafe { sys::vgfx_frame(context, at, length, told) })
        })
    }

    /// Ends the frame and renders it on this thread, without a picture's text. Refused as [`Context::frame`] is.
    pub fn frame_unseen(&mut self) -> Result<FrameReport, Error> {
        let (mut told, mut none) = (sys::vgfx_frame_report::default(), 0u8);
        // SAFETY: as above; a length of 0 has the address of a byte beside it.
        self.call(|context| unsafe { sys::vgfx_frame(context, (&raw mut none).cast(), 0, &mut told) })?;
        Ok(FrameReport {
            number: told.number,
            dropped: told.dropped,
        })
    }

    /// Reads a texture, or the back buffer where none is given, as the last frame left it: row by row from the top, four bytes a pixel, with
    /// `stride` bytes from the start of a row to that of the next. [`Error::Unknown`], [`Error::WrongKind`], [`Error::NotThere`],
    /// [`Error::BadSize`] where the stride is shorter than a row, [`Error::TooSmall`].
    pub fn read_pixels(&self, texture: Option<Texture>, format: Pixels, buffer: &mut [u8], stride: usize) -> Result<(), Error> {
        let (texture, at, length) = (texture.map_or(0, Texture::id), buffer.as_mut_ptr().cast(), buffer.len());
        // SAFETY: as above; the pointer and the length are one slice's.
        self.call(|context| unsafe { sys::vgfx_read_pixels(context, texture, format as u32, at, length, stride) })
    }

    /// Makes a layout of parts. [`Error::BadSize`], [`Error::Full`], [`Error::SerialsSpent`], [`Error::OutOfMemory`].
    pub fn create_layout(&self, parts: &[LayoutPart]) -> Result<Layout, Error> {
        // SAFETY: as above; the pointer and the length are one slice's, whose elements have the form of C's.
        self.made(Layout, |context, id| unsafe {
            sys::vgfx_create_layout(context, parts.as_ptr().cast(), parts.len(), id)
        })
    }

    /// Makes a vertex buffer of 1 to 524288 bytes, which are copied. [`Error::Unknown`], [`Error::BadSize`], [`Error::Stale`], [`Error::Full`],
    /// [`Error::SerialsSpent`], [`Error::OutOfMemory`].
    pub fn create_vertex_buffer(&self, layout: Layout, bytes: &[u8]) -> Result<VertexBuffer, Error> {
        let (at, length) = (bytes.as_ptr().cast(), bytes.len());
        // SAFETY: as above; the pointer and the length are one slice's.
        self.made(VertexBuffer, |context, id| unsafe {
            sys::vgfx_create_vertex_buffer(context, layout.id(), at, length, id)
        })
    }

    /// Makes an index buffer of 1 to 262144 indices, which are copied. [`Error::BadSize`], [`Error::Full`], [`Error::SerialsSpent`],
    /// [`Error::OutOfMemory`].
    pub fn create_index_buffer(&self, indices: &[u16]) -> Result<IndexBuffer, Error> {
        let (at, length) = (indices.as_ptr().cast(), mem::size_of_val(indices));
        // SAFETY: as above; the machine has the lowest byte of a number first, as the library wants it.
        self.made(IndexBuffer, |context, id| unsafe {
            sys::vgfx_create_index_buffer(context, at, length, id)
        })
    }

    /// Makes a texture with sides of 1 to 2048, of four bytes a texel, which are copied. [`Error::BadSize`], [`Error::Full`],
    /// [`Error::TexelsFull`], [`Error::SerialsSpent`], [`Error::OutOfMemory`].
    pub fn create_texture(&self, sides: (u16, u16), format: Format, blit_destination: bool, texels: &[u8]) -> Result<Texture, Error> {
        let ((w, h), at, length) = (sides, texels.as_ptr().cast(), texels.len());
        // SAFETY: as above; the pointer and the length are one slice's.
        self.made(Texture, |context, id| unsafe {
            sys::vgfx_create_texture(context, w, h, format as u32, blit_destination.into(), at, length, id)
        })
    }

    /// Makes a texture all of whose texels are these four bytes. Refused as [`Context::create_texture`] is.
    pub fn create_filled_texture(
        &self,
        sides: (u16, u16),
        format: Format,
        blit_destination: bool,
        texel: [u8; 4],
    ) -> Result<Texture, Error> {
        let ((w, h), [r, g, b, a], blit) = (sides, texel, blit_destination.into());
        // SAFETY: as above.
        self.made(Texture, |context, id| unsafe {
            sys::vgfx_create_filled_texture(context, w, h, format as u32, blit, r, g, b, a, id)
        })
    }

    /// Makes a frame buffer of a colour texture, and of a depth texture of the same sides, or none. [`Error::Unknown`], [`Error::WrongKind`],
    /// [`Error::Stale`], [`Error::Full`], [`Error::SerialsSpent`], [`Error::OutOfMemory`].
    pub fn create_frame_buffer(&self, color: Texture, depth: Option<Texture>) -> Result<FrameBuffer, Error> {
        let depth = depth.map_or(0, Texture::id);
        // SAFETY: as above.
        self.made(FrameBuffer, |context, id| unsafe {
            sys::vgfx_create_frame_buffer(context, color.id(), depth, id)
        })
    }

    /// Makes a program. [`Error::Full`], [`Error::SerialsSpent`], [`Error::OutOfMemory`].
    pub fn create_program(&self, kind: ProgramKind) -> Result<Program, Error> {
        // SAFETY: as above.
        self.made(Program, |context, id| unsafe { sys::vgfx_create_program(context, kind as u32, id) })
    }

    /// Makes a uniform of four numbers, with a name of 1 to 32 bytes, or refers to the one of that name once more. [`Error::BadSize`],
    /// [`Error::WrongKind`], [`Error::Full`], [`Error::SerialsSpent`], [`Error::OutOfMemory`].
    pub fn create_vec4(&self, name: &str) -> Result<Vec4Uniform, Error> {
        // SAFETY: as above; the pointer and the length are one text's.
        self.made(Vec4Uniform, |context, id| unsafe {
            sys::vgfx_create_uniform(context, name.as_ptr().cast(), name.len(), sys::VGFX_UNIFORM_VEC4, id)
        })
    }

    /// Makes a uniform of one whole number in the same way.
    pub fn create_int(&self, name: &str) -> Result<IntUniform, Error> {
        // SAFETY: as above; the pointer and the length are one text's.
        self.made(IntUniform, |context, id| unsafe {
            sys::vgfx_create_uniform(context, name.as_ptr().cast(), name.len(), sys::VGFX_UNIFORM_INT, id)
        })
    }

    /// Changes bytes of a buffer, before all draws of this frame. [`Error::Unknown`], [`Error::Stale`], [`Error::BadRange`],
    /// [`Error::OutOfMemory`].
    pub fn update_buffer(&self, buffer: impl Buffer, offset: u32, bytes: &[u8]) -> Result<(), Error> {
        // SAFETY: as above; the pointer and the length are one slice's.
        self.call(|context| unsafe { sys::vgfx_update_buffer(context, buffer.id(), offset, bytes.as_ptr().cast(), bytes.len()) })
    }

    /// Changes texels, four bytes each, before all draws of this frame. [`Error::Unknown`], [`Error::Stale`], [`Error::BadRange`],
    /// [`Error::BadSize`], [`Error::OutOfMemory`].
    pub fn update_texture(&self, texture: Texture, rect: Rect, texels: &[u8]) -> Result<(), Error> {
        let (Rect { x, y, w, h }, at, length) = (rect, texels.as_ptr().cast(), texels.len());
        // SAFETY: as above; the pointer and the length are one slice's.
        self.call(|context| unsafe { sys::vgfx_update_texture(context, texture.id(), x, y, w, h, at, length) })
    }

    /// Destroys a resource, or takes one reference of a uniform. Encoders of this frame may still draw with it. [`Error::Unknown`],
    /// [`Error::Stale`], [`Error::Attached`].
    pub fn destroy(&self, resource: impl Resource) -> Result<(), Error> {
        // SAFETY: as above.
        self.call(|context| unsafe { sys::vgfx_destroy(context, resource.id()) })
    }

    /// Sets the part of its target that a view draws on; with both sides 0 it is all of it. [`Error::BadView`], as of each call of a view.
    pub fn set_view_rect(&self, view: u16, rect: Rect) -> Result<(), Error> {
        // SAFETY: as above.
        self.call(|context| unsafe { sys::vgfx_set_view_rect(context, view, rect.x, rect.y, rect.w, rect.h) })
    }

    /// Sets the scissor of a view, which cuts draws and not clears; with both sides 0 there is none.
    pub fn set_view_scissor(&self, view: u16, rect: Rect) -> Result<(), Error> {
        // SAFETY: as above.
        self.call(|context| unsafe { sys::vgfx_set_view_scissor(context, view, rect.x, rect.y, rect.w, rect.h) })
    }

    /// Sets what entering a view clears. [`Error::BadState`] where the depth is over 16777215.
    pub fn set_view_clear(&self, view: u16, clear: Clear) -> Result<(), Error> {
        let wanted = [
            (clear.color.is_some(), sys::VGFX_CLEAR_COLOR),
            (clear.depth.is_some(), sys::VGFX_CLEAR_DEPTH),
            (clear.stencil.is_some(), sys::VGFX_CLEAR_STENCIL),
        ];
        let flags = wanted.iter().filter(|(is_wanted, _)| *is_wanted).map(|(_, flag)| flag).sum();
        let ([r, g, b, a], depth, stencil) = (
            clear.color.unwrap_or_default(),
            clear.depth.unwrap_or_default(),
            clear.stencil.unwrap_or_default(),
        );
        // SAFETY: as above.
        self.call(|context| unsafe { sys::vgfx_set_view_clear(context, view, flags, r, g, b, a, depth, stencil) })
    }

    /// Sets how a view orders its draws and touches.
    pub fn set_view_mode(&self, view: u16, mode: ViewMode) -> Result<(), Error> {
        // SAFETY: as above.
        self.call(|context| unsafe { sys::vgfx_set_view_mode(context, view, mode as u32) })
    }

    /// Sets the transform of a view, which comes after that of the draw.
    pub fn set_view_transform(&self, view: u16, transform: Transform) -> Result<(), Error> {
        let transform = transform.raw();
        // SAFETY: as above; the transform lives till the call returns.
        self.call(|context| unsafe { sys::vgfx_set_view_transform(context, view, &transform) })
    }

    /// Sets the target of a view, or the back buffer. [`Error::Unknown`], [`Error::Stale`].
    pub fn set_view_target(&self, view: u16, target: Option<FrameBuffer>) -> Result<(), Error> {
        let target = target.map_or(0, FrameBuffer::id);
        // SAFETY: as above.
        self.call(|context| unsafe { sys::vgfx_set_view_target(context, view, target) })
    }

    /// Sets the views that come first; all others follow by their numbers. [`Error::BadRange`] where one stands twice.
    pub fn set_view_order(&self, views: &[u16]) -> Result<(), Error> {
        // SAFETY: as above; the pointer and the length are one slice's.
        self.call(|context| unsafe { sys::vgfx_set_view_order(context, views.as_ptr(), views.len()) })
    }

    /// Sets a view as it is at first.
    pub fn reset_view(&self, view: u16) -> Result<(), Error> {
        // SAFETY: as above.
        self.call(|context| unsafe { sys::vgfx_reset_view(context, view) })
    }
}

impl Drop for Context {
    fn drop(&mut self) {
        // SAFETY: as above. The call refuses a null handle alone.
        let _ = self.call(|context| unsafe { sys::vgfx_shutdown(context) });
    }
}
