/// A thing that a context made and can destroy.
pub trait Resource: Copy + sealed::Sealed {
    /// Its id, as calls of C take it.
    fn id(self) -> u64;
}

/// A buffer whose bytes can be updated.
pub trait Buffer: Resource {}

mod sealed {
    pub trait Sealed {}
}

macro_rules! ids {
    ($($(#[$said:meta])* $name:ident)*) => {$(
        $(#[$said])*
        ///
        /// It is a number, and of one context: another context refuses it, or takes it for a resource of its own.
        #[derive(Clone, Copy, Debug, PartialEq, Eq, Hash)]
        pub struct $name(pub(crate) u64);

        impl sealed::Sealed for $name {}

        impl Resource for $name {
            fn id(self) -> u64 {
                self.0
            }
        }
    )*};
}

ids! {
    /// How a vertex lies in its bytes.
    Layout
    /// Vertices of a layout.
    VertexBuffer
    /// Indices of 16 bits.
    IndexBuffer
    /// Texels in rows.
    Texture
    /// A colour texture, with a depth texture or none, as a view's target.
    FrameBuffer
    /// What paints a draw.
    Program
    /// A uniform of four numbers of 1/65536.
    Vec4Uniform
    /// A uniform of one whole number.
    IntUniform
}

impl Buffer for VertexBuffer {}
impl Buffer for IndexBuffer {}
