use std::ops::{Deref, DerefMut};

use vgfx_sys as sys;

use crate::{Context, Error, FrameReport, Picture};

/// A frame that is begun and is drawn in passes. One that is dropped is ended, without a picture's text.
#[derive(Debug)]
#[must_use = "one that is dropped is drawn by this thread alone"]
pub struct Passes<'context> {
    context: &'context mut Context,
    is_ended: bool,
}

/// The views of a frame that are drawn at one go, as their bands. One that is dropped is ended: rows that were not drawn are drawn then.
#[derive(Debug)]
pub struct Pass<'frame> {
    context: &'frame mut Context,
    bands: Vec<Band>,
}

/// Rows of a pass, which one thread draws.
#[derive(Debug)]
#[repr(transparent)]
pub struct Band {
    raw: sys::vgfx_band,
}

// SAFETY: a band's handle may be moved while no call has it, and be used by another thread next, where the two are ordered, as they are by
// whatever moves a value to another thread. It is drawn beside the other bands of its pass.
unsafe impl Send for Band {}

impl Context {
    /// Begins the frame, which is drawn in passes, by any threads. Its picture is that of [`Context::frame`]. [`Error::Ended`],
    /// [`Error::FramesSpent`], [`Error::OutOfMemory`], after which it can be begun again; [`Error::TryAgain`] where an encoder was forgotten
    /// by [`std::mem::forget`].
    pub fn frame_in_passes(&mut self) -> Result<Passes<'_>, Error> {
        // SAFETY: the handle is this context's, and no other call has it, as in all calls below.
        self.call(|context| unsafe { sys::vgfx_frame_begin(context) })?;
        Ok(Passes {
            context: self,
            is_ended: false,
        })
    }
}

impl Passes<'_> {
    /// Begins the next pass, with at most so many bands, and at most 64; none where no pass is left. [`Error::Other`] where the pass before
    /// was forgotten by [`std::mem::forget`].
    pub fn next_pass(&mut self, bands: usize) -> Result<Option<Pass<'_>>, Error> {
        let mut pass: Vec<Band> = Vec::new();
        pass.resize_with(bands.clamp(1, 64), || Band { raw: sys::vgfx_band::NULL });
        let (at, length, mut count) = (pass.as_mut_ptr().cast(), pass.len(), 0);
        // SAFETY: as above; the pointer and the length are one vector's, whose elements have the form of C's and are null.
        self.context
            .call(|context| unsafe { sys::vgfx_pass_next(context, at, length, &mut count) })?;
        pass.truncate(count);
        Ok((count > 0).then_some(Pass {
            context: self.context,
            bands: pass,
        }))
    }

    /// Ends the frame: draws on this thread what no pass drew, and puts its picture down. [`Error::OutOfMemory`] where memory was wanting in
    /// its render: then the context is over.
    pub fn end(mut self, picture: &mut Picture) -> Result<FrameReport, Error> {
        self.is_ended = true;
        let context = &*self.context;
        // SAFETY: as above; the pointer and the length are one vector's.
        picture.put(context.sides(), |at, length, told| {
            context.call(|context| unsafe { sys::vgfx_frame_end(context, at, length, told) })
        })
    }

    /// Ends the frame without a picture's text. Refused as [`Passes::end`] is.
    pub fn end_unseen(mut self) -> Result<FrameReport, Error> {
        self.is_ended = true;
        self.close()
    }

    fn close(&self) -> Result<FrameReport, Error> {
        let (mut told, mut none) = (sys::vgfx_frame_report::default(), 0u8);
        // SAFETY: as above; a length of 0 has the address of a byte beside it.
        self.context
            .call(|context| unsafe { sys::vgfx_frame_end(context, (&raw mut none).cast(), 0, &mut told) })?;
        Ok(FrameReport {
            number: told.number,
            dropped: told.dropped,
        })
    }
}

impl Drop for Passes<'_> {
    fn drop(&mut self) {
        if !self.is_ended {
            let _ = self.close();
        }
    }
}

impl Deref for Pass<'_> {
    type Target = [Band];

    fn deref(&self) -> &[Band] {
        &self.bands
    }
}

impl DerefMut for Pass<'_> {
    fn deref_mut(&mut self) -> &mut [Band] {
        &mut self.bands
    }
}

impl Drop for Pass<'_> {
    fn drop(&mut self) {
        let (at, length) = (self.bands.as_mut_ptr().cast(), self.bands.len());
        // SAFETY: as above; the pointer and the length are one vector's. No other thread has a band: each is borrowed from here.
        let _ = self
            .context
            .call(|context| unsafe { sys::vgfx_pass_end(context, at, length) });
    }
}

impl Band {
    /// Draws the rows, beside the other bands of the pass. Those that were drawn are left as they are.
    pub fn draw(&mut self) {
        // SAFETY: the handle is this band's and no other call has it. The call refuses a null handle alone.
        let _ = Error::of(unsafe { sys::vgfx_band_draw(&mut self.raw) });
    }
}
