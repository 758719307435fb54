//! A renderer's front end whose calls are proved against their definition, from plain Rust.
//!
//! ```
//! use vgfx::{Attribute, Clear, Component, Context, Discard, LayoutPart, Picture, ProgramKind, Room, ONE};
//!
//! let mut context = Context::new(4, 4)?;
//! let layout = context.create_layout(&[LayoutPart::new(Attribute::Position, Component::Fixed, 2)])?;
//! let corners: [[i32; 2]; 3] = [[-ONE, ONE], [3 * ONE, ONE], [-ONE, -3 * ONE]];
//! let bytes: Vec<u8> = corners.iter().flatten().flat_map(|part| part.to_le_bytes()).collect();
//! let vertices = context.create_vertex_buffer(layout, &bytes)?;
//! let white = context.create_program(ProgramKind::Solid)?;
//! context.set_view_clear(0, Clear { color: Some([0, 0, 0, 255]), ..Clear::default() })?;
//!
//! let mut encoder = context.begin(Room::of_items(1))?;
//! encoder.set_vertices(vertices, 0, 3)?;
//! encoder.submit(0, white, 0, Discard::ALL)?;
//! encoder.end(0)?;
//!
//! let mut picture = Picture::new();
//! context.frame(&mut picture)?;
//! assert!(picture.pixels().iter().all(|part| *part == 255));
//! # Ok::<(), vgfx::Error>(())
//! ```
//!
//! What each call does stands in the header of C, `include/vgfx.h`, whose "Conventions" hold here. What is proved, and up to which line, stands in
//! `docs/use/from-c.md`; this crate is plain Rust over that line and is not proved.
//!
//! **Threads.** A [`Context`] may be moved to another thread and is used by one at a time. An [`Encoder`] borrows its context, so that a frame
//! cannot end and the context cannot go while one is alive; it may be moved to another thread, and records there beside all others and beside the
//! calls of its context. What Rust has to move a value to another thread (a start, a join, a lock, a channel) orders the two as the library asks.
//!
//! A frame may be drawn by several threads, in passes whose [`Band`]s each thread draws: [`Context::frame_in_passes`].
//!
//! A frame does not end while an encoder lives:
//!
//! ```compile_fail,E0502
//! # let mut context = vgfx::Context::new(4, 4).unwrap();
//! let mut encoder = context.begin(vgfx::Room::of_items(1)).unwrap();
//! context.frame(&mut vgfx::Picture::new());
//! encoder.touch(0);
//! ```
//!
//! Two threads do not share a context:
//!
//! ```compile_fail,E0277
//! fn shared<T: Sync>() {}
//! shared::<vgfx::Context>();
//! ```

#![deny(missing_docs)]

mod context;
mod encoder;
mod error;
mod ids;
mod passes;
mod play;
mod words;

pub use context::{Clear, Context, FrameReport, Picture, Room};
pub use encoder::{Blit, Encoder};
pub use error::Error;
pub use ids::{Buffer, FrameBuffer, IndexBuffer, IntUniform, Layout, Program, Resource, Texture, Vec4Uniform, VertexBuffer};
pub use passes::{Band, Pass, Passes};
pub use play::{PlayError, Played, play};
pub use words::{
    Attribute, Compare, Component, Discard, Factor, Format, LayoutPart, ONE, Pixels, ProgramKind, Rect, State, Stencil, StencilStep, Transform,
    ViewMode, fixed,
};

/// The version of the library that is linked: the major number in the bits from 16, the minor in those from 8, the patch below.
pub fn version() -> u32 {
    // SAFETY: the call has no arguments.
    unsafe { vgfx_sys::vgfx_version() }
}
