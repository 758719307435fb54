use std::fmt;

use vgfx_sys as sys;

/// Why a call did nothing. What each call answers stands in the header of C, under the same names.
#[derive(Clone, Copy, Debug, PartialEq, Eq, Hash)]
#[non_exhaustive]
pub enum Error {
    /// As many of the kind are there as there can be.
    Full,
    /// The resource is gone.
    Stale,
    /// A range passes an end, or a list has a repeat.
    BadRange,
    /// A size is not admitted.
    BadSize,
    /// The destination texture was not made as one.
    NotBlitDestination,
    /// A resource or a value is of another kind.
    WrongKind,
    /// A frame buffer that is there holds the texture.
    Attached,
    /// The encoder's items or uniform values are used up.
    RoomFull,
    /// The encoder's bytes would be passed.
    BytesFull,
    /// There is no such view.
    BadView,
    /// Eight encoders were begun in this frame.
    NoEncoder,
    /// 4294967295 resources were made.
    SerialsSpent,
    /// The frame's number is 1073741823.
    FramesSpent,
    /// All textures would have more than 33554432 texels.
    TexelsFull,
    /// A state word, a stencil word or a clear setting is not admitted.
    BadState,
    /// Memory was wanting.
    OutOfMemory,
    /// An encoder has not come back: it was forgotten and never dropped.
    TryAgain,
    /// Memory was wanting in an earlier frame's render, or an encoder was given up.
    Ended,
    /// A buffer is too short.
    TooSmall,
    /// The scene's text is longer than 16777216 bytes.
    TooLong,
    /// The id names no resource of this context, or none that was made before the encoder began.
    Unknown,
    /// The last frame left no such texture: no frame has ended since it was made, or it was destroyed.
    NotThere,
    /// Another answer of the library, by its number in the header.
    Other(u32),
}

impl Error {
    pub(crate) fn of(status: sys::vgfx_status) -> Result<(), Error> {
        Err(match status {
            sys::VGFX_OK => return Ok(()),
            sys::VGFX_ERROR_FULL => Error::Full,
            sys::VGFX_ERROR_STALE => Error::Stale,
            sys::VGFX_ERROR_BAD_RANGE => Error::BadRange,
            sys::VGFX_ERROR_BAD_SIZE => Error::BadSize,
            sys::VGFX_ERROR_NOT_BLIT_DST => Error::NotBlitDestination,
            sys::VGFX_ERROR_WRONG_KIND => Error::WrongKind,
            sys::VGFX_ERROR_ATTACHED => Error::Attached,
            sys::VGFX_ERROR_ROOM_FULL => Error::RoomFull,
            sys::VGFX_ERROR_BYTES_FULL => Error::BytesFull,
            sys::VGFX_ERROR_BAD_VIEW => Error::BadView,
            sys::VGFX_ERROR_NO_ENCODER => Error::NoEncoder,
            sys::VGFX_ERROR_SERIALS_SPENT => Error::SerialsSpent,
            sys::VGFX_ERROR_FRAMES_SPENT => Error::FramesSpent,
            sys::VGFX_ERROR_TEXELS_FULL => Error::TexelsFull,
            sys::VGFX_ERROR_BAD_STATE => Error::BadState,
            sys::VGFX_ERROR_OUT_OF_MEMORY => Error::OutOfMemory,
            sys::VGFX_ERROR_TRY_AGAIN => Error::TryAgain,
            sys::VGFX_ERROR_ENDED => Error::Ended,
            sys::VGFX_ERROR_TOO_SMALL => Error::TooSmall,
            sys::VGFX_ERROR_TOO_LONG => Error::TooLong,
            sys::VGFX_ERROR_UNKNOWN => Error::Unknown,
            sys::VGFX_ERROR_NOT_THERE => Error::NotThere,
            other => Error::Other(other),
        })
    }
}

impl fmt::Display for Error {
    fn fmt(&self, to: &mut fmt::Formatter<'_>) -> fmt::Result {
        to.write_str(match self {
            Error::Full => "as many of the kind are there as there can be",
            Error::Stale => "the resource is gone",
            Error::BadRange => "a range passes an end, or a list has a repeat",
            Error::BadSize => "a size is not admitted",
            Error::NotBlitDestination => "the destination texture was not made as one",
            Error::WrongKind => "a resource or a value is of another kind",
            Error::Attached => "a frame buffer that is there holds the texture",
            Error::RoomFull => "the encoder's items or uniform values are used up",
            Error::BytesFull => "the encoder's bytes would be passed",
            Error::BadView => "there is no such view",
            Error::NoEncoder => "eight encoders were begun in this frame",
            Error::SerialsSpent => "4294967295 resources were made",
            Error::FramesSpent => "the frame's number is 1073741823",
            Error::TexelsFull => "all textures would have more than 33554432 texels",
            Error::BadState => "a state word, a stencil word or a clear setting is not admitted",
            Error::OutOfMemory => "memory was wanting",
            Error::TryAgain => "an encoder has not come back",
            Error::Ended => "memory was wanting in an earlier frame's render, or an encoder was given up",
            Error::TooSmall => "a buffer is too short",
            Error::TooLong => "the scene's text is longer than 16777216 bytes",
            Error::Unknown => "the id names no resource that is known here",
            Error::NotThere => "the last frame left no such texture",
            Error::Other(status) => return write!(to, "status {status}"),
        })
    }
}

impl std::error::Error for Error {}
