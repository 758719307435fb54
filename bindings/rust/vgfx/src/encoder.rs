use std::marker::PhantomData;
use std::mem;

use vgfx_sys as sys;

use crate::{
    Discard, Error, IndexBuffer, IntUniform, Layout, Program, Rect, Resource, State, Stencil, Texture, Transform, Vec4Uniform, VertexBuffer,
};

/// What records draws for one frame, on any thread. It knows the resources that were made before it began, and refuses others as
/// [`Error::Unknown`].
///
/// One that is dropped is ended: what it recorded is drawn.
#[derive(Debug)]
#[must_use = "one that is dropped has recorded nothing"]
pub struct Encoder<'context> {
    pub(crate) raw: sys::vgfx_encoder,
    pub(crate) context: PhantomData<&'context ()>,
}

// SAFETY: an encoder's handle may be moved while no call has it, and be used by another thread next, where the two are ordered, as they are by
// whatever moves a value to another thread. Its calls run beside those of its context and of other encoders.
unsafe impl Send for Encoder<'_> {}

/// A copy of a region between textures of one format.
#[derive(Clone, Copy, Debug, PartialEq, Eq)]
pub struct Blit {
    /// The texture that is written, which was made as a blit's destination.
    pub destination: Texture,
    /// The column and the row where it is written.
    pub to: [u16; 2],
    /// The texture that is read.
    pub source: Texture,
    /// The region that is read.
    pub from: Rect,
}

impl Encoder<'_> {
    fn call(&mut self, call: impl FnOnce(*mut sys::vgfx_encoder) -> sys::vgfx_status) -> Result<(), Error> {
        Error::of(call(&mut self.raw))
    }

    /// Sets the state word of the next draws. [`Error::BadState`].
    pub fn set_state(&mut self, state: State) -> Result<(), Error> {
        // SAFETY: the handle is this encoder's and no other call has it, as in all calls below.
        self.call(|encoder| unsafe { sys::vgfx_encoder_set_state(encoder, state.0) })
    }

    /// Sets the stencil words for triangles that face the front and the back. [`Error::BadState`].
    pub fn set_stencil(&mut self, front: Stencil, back: Stencil) -> Result<(), Error> {
        // SAFETY: as above.
        self.call(|encoder| unsafe { sys::vgfx_encoder_set_stencil(encoder, front.0, back.0) })
    }

    /// Sets the scissor; with both sides 0 there is none.
    pub fn set_scissor(&mut self, rect: Rect) -> Result<(), Error> {
        // SAFETY: as above.
        self.call(|encoder| unsafe { sys::vgfx_encoder_set_scissor(encoder, rect.x, rect.y, rect.w, rect.h) })
    }

    /// Sets the transform from the vertices to the view.
    pub fn set_transform(&mut self, transform: Transform) -> Result<(), Error> {
        let transform = transform.raw();
        // SAFETY: as above; the transform lives till the call returns.
        self.call(|encoder| unsafe { sys::vgfx_encoder_set_transform(encoder, &transform) })
    }

    /// Takes `count` vertices from number `first` on; what lies past the end does not exist. [`Error::Unknown`], [`Error::Stale`].
    pub fn set_vertices(&mut self, buffer: VertexBuffer, first: u32, count: u32) -> Result<(), Error> {
        // SAFETY: as above.
        self.call(|encoder| unsafe { sys::vgfx_encoder_set_vertices(encoder, buffer.id(), first, count) })
    }

    /// Takes `count` indices from number `first` on, not tested either. [`Error::Unknown`], [`Error::Stale`].
    pub fn set_indices(&mut self, buffer: IndexBuffer, first: u32, count: u32) -> Result<(), Error> {
        // SAFETY: as above.
        self.call(|encoder| unsafe { sys::vgfx_encoder_set_indices(encoder, buffer.id(), first, count) })
    }

    /// Takes a copy of bytes as vertices of a layout. [`Error::Unknown`], [`Error::Stale`], [`Error::BytesFull`].
    pub fn set_transient_vertices(&mut self, layout: Layout, bytes: &[u8]) -> Result<(), Error> {
        // SAFETY: as above; the pointer and the length are one slice's.
        self.call(|encoder| unsafe { sys::vgfx_encoder_set_transient_vertices(encoder, layout.id(), bytes.as_ptr().cast(), bytes.len()) })
    }

    /// Takes a copy of indices. Of none it takes no indices, so that draws have no triangles. [`Error::BytesFull`].
    pub fn set_transient_indices(&mut self, indices: &[u16]) -> Result<(), Error> {
        // SAFETY: as above; the machine has the lowest byte of a number first, as the library wants it.
        self.call(|encoder| unsafe { sys::vgfx_encoder_set_transient_indices(encoder, indices.as_ptr().cast(), mem::size_of_val(indices)) })
    }

    /// Puts a texture on stage 0 or 1, or takes it off. [`Error::Unknown`], [`Error::WrongKind`], [`Error::Stale`], [`Error::BadRange`].
    pub fn set_texture(&mut self, stage: u8, texture: Option<Texture>) -> Result<(), Error> {
        let texture = texture.map_or(0, Texture::id);
        // SAFETY: as above.
        self.call(|encoder| unsafe { sys::vgfx_encoder_set_texture(encoder, stage, texture) })
    }

    /// Sets four values, which belong to the next draw or touch and stay until others come. [`Error::Unknown`], [`Error::Stale`],
    /// [`Error::RoomFull`].
    pub fn set_vec4(&mut self, uniform: Vec4Uniform, value: [i32; 4]) -> Result<(), Error> {
        let [x, y, z, w] = value;
        // SAFETY: as above.
        self.call(|encoder| unsafe { sys::vgfx_encoder_set_vec4(encoder, uniform.id(), x, y, z, w) })
    }

    /// Sets one value in the same way. [`Error::Unknown`], [`Error::Stale`], [`Error::RoomFull`].
    pub fn set_int(&mut self, uniform: IntUniform, value: i32) -> Result<(), Error> {
        // SAFETY: as above.
        self.call(|encoder| unsafe { sys::vgfx_encoder_set_int(encoder, uniform.id(), value) })
    }

    /// Records a draw, and forgets what `discard` names. Draws that tie are ordered by which was first. [`Error::Unknown`], [`Error::BadView`],
    /// [`Error::Stale`], [`Error::RoomFull`].
    pub fn submit(&mut self, view: u16, program: Program, depth: u32, discard: Discard) -> Result<(), Error> {
        // SAFETY: as above.
        self.call(|encoder| unsafe { sys::vgfx_encoder_submit(encoder, view, program.id(), depth, discard.0) })
    }

    /// Forgets the parts of the state for the next draw that `discard` names; uniform values that were set stay. Nothing is recorded.
    pub fn discard(&mut self, discard: Discard) -> Result<(), Error> {
        // SAFETY: as above.
        self.call(|encoder| unsafe { sys::vgfx_encoder_discard(encoder, discard.0) })
    }

    /// Records an empty primitive, so that the view is entered and cleared, and forgets all. [`Error::BadView`], [`Error::RoomFull`].
    pub fn touch(&mut self, view: u16) -> Result<(), Error> {
        // SAFETY: as above.
        self.call(|encoder| unsafe { sys::vgfx_encoder_touch(encoder, view) })
    }

    /// Records a copy between textures, which comes behind the view's clear and before its draws. [`Error::Unknown`], [`Error::BadView`],
    /// [`Error::WrongKind`], [`Error::Stale`], [`Error::NotBlitDestination`], [`Error::RoomFull`].
    pub fn blit(&mut self, view: u16, blit: Blit) -> Result<(), Error> {
        let ([dx, dy], Rect { x, y, w, h }) = (blit.to, blit.from);
        // SAFETY: as above.
        self.call(|encoder| unsafe { sys::vgfx_encoder_blit(encoder, view, blit.destination.id(), dx, dy, blit.source.id(), x, y, w, h) })
    }

    /// Ends the encoder with a number of the caller's own, as of the calls that it left out; a frame tells their sum.
    pub fn end(mut self, dropped: u32) -> Result<(), Error> {
        // SAFETY: as above.
        self.call(|encoder| unsafe { sys::vgfx_encoder_end(encoder, dropped) })?;
        mem::forget(self);
        Ok(())
    }
}

impl Drop for Encoder<'_> {
    fn drop(&mut self) {
        // SAFETY: as above. An end is refused where its place is taken, which is not to be expected; then the encoder is given up.
        if self.call(|encoder| unsafe { sys::vgfx_encoder_end(encoder, 0) }).is_err() {
            // SAFETY: as above.
            let _ = self.call(|encoder| unsafe { sys::vgfx_encoder_drop(encoder) });
        }
    }
}
