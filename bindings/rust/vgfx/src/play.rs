use std::fmt;

use vgfx_sys as sys;

use crate::Error;

/// What a scene's text plays to.
#[derive(Clone, Debug, Default, PartialEq, Eq)]
pub struct Played {
    /// The P6 texts of the pictures, one behind the other.
    pub pictures: Vec<u8>,
    /// A line for each frame, with its items and its dropped lines.
    pub report: Vec<u8>,
}

/// Why a text did not play.
#[derive(Clone, Copy, Debug, PartialEq, Eq)]
pub enum PlayError {
    /// It is no scene.
    NoScene {
        /// Its first line that fails, from 1.
        line: u32,
        /// Why it fails, 1 to 12.
        cause: u32,
    },
    /// [`Error::TooLong`], or [`Error::OutOfMemory`].
    Refused(Error),
}

impl fmt::Display for PlayError {
    fn fmt(&self, to: &mut fmt::Formatter<'_>) -> fmt::Result {
        match self {
            PlayError::NoScene { line, cause } => write!(to, "no scene: line {line}, cause {cause}"),
            PlayError::Refused(error) => error.fmt(to),
        }
    }
}

impl std::error::Error for PlayError {}

/// Plays a scene's text on this thread. It plays twice: once for the lengths, and once to write.
pub fn play(text: &[u8]) -> Result<Played, PlayError> {
    let mut played = Played::default();
    let mut told = sys::vgfx_play_report::default();
    loop {
        let (pictures, report) = (&mut played.pictures, &mut played.report);
        // SAFETY: the pointers and the lengths are a slice's and two vectors', which share nothing.
        let status = unsafe {
            let (pictures, report) = (
                (pictures.as_mut_ptr().cast(), pictures.len()),
                (report.as_mut_ptr().cast(), report.len()),
            );
            sys::vgfx_play(
                text.as_ptr().cast(),
                text.len(),
                pictures.0,
                pictures.1,
                report.0,
                report.1,
                &mut told,
            )
        };
        match status {
            sys::VGFX_ERROR_TOO_SMALL => {
                pictures.resize(told.pictures, 0);
                report.resize(told.report, 0);
            }
            sys::VGFX_ERROR_NO_SCENE => {
                return Err(PlayError::NoScene {
                    line: told.line,
                    cause: told.cause,
                });
            }
            status => return Error::of(status).map(|()| played).map_err(PlayError::Refused),
        }
    }
}
