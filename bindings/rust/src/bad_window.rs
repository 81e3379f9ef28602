//! Why there is no window.

use std::error::Error;
use std::fmt;

/// Why a text or coordinates give no window. It is displayed with the text, or with the coordinates.
///
/// ```
/// # use dozhemik::{BadWindowKind, Window};
/// let error = "x=30..10,y=35..45".parse::<Window>().unwrap_err();
/// assert_eq!(error.kind(), BadWindowKind::Order);
/// assert_eq!(error.to_string(), r#""x=30..10,y=35..45": lower bound above upper bound"#);
/// ```
#[derive(Clone, Copy, Debug, PartialEq, Eq, Hash)]
pub struct BadWindow {
    kind: BadWindowKind,
    text: Shown,
}

/// The kind of a [`BadWindow`].
#[derive(Clone, Copy, Debug, PartialEq, Eq, Hash)]
#[non_exhaustive]
pub enum BadWindowKind {
    /// The text doesn't have the form of a window.
    Form,
    /// A lower bound is above its upper one.
    Order,
    /// A coordinate is infinite, or not a number.
    NotFinite,
}

impl BadWindow {
    pub(crate) const fn new(kind: BadWindowKind) -> BadWindow {
        BadWindow { kind, text: Shown::NOTHING }
    }

    /// An error that shows a text.
    pub(crate) fn of(kind: BadWindowKind, text: impl fmt::Display) -> BadWindow {
        let mut shown = Shown::NOTHING;
        // What doesn't fit is cut off.
        let _ = fmt::write(&mut shown, format_args!("{text}"));
        BadWindow { kind, text: shown }
    }

    /// Why there is no window.
    pub const fn kind(&self) -> BadWindowKind {
        self.kind
    }
}

impl fmt::Display for BadWindow {
    fn fmt(&self, f: &mut fmt::Formatter<'_>) -> fmt::Result {
        let text = self.text.as_str();
        match (text, self.text.is_cut) {
            ("", false) if self.kind != BadWindowKind::Form => write!(f, "{}", self.kind),
            (_, false) => write!(f, "{text:?}: {}", self.kind),
            (_, true) => write!(f, "{text:?}..: {}", self.kind),
        }
    }
}

impl fmt::Display for BadWindowKind {
    /// The program's words for it, where it has some.
    fn fmt(&self, f: &mut fmt::Formatter<'_>) -> fmt::Result {
        f.write_str(match self {
            BadWindowKind::Form => "not of the form x=A..B,y=C..D[,z=E..F][,m=G..H]",
            BadWindowKind::Order => "lower bound above upper bound",
            BadWindowKind::NotFinite => "not finite",
        })
    }
}

impl Error for BadWindow {}

/// How much of a text is kept.
const MOST: usize = 120;

/// The beginning of a text, in place, so that an error takes no memory and can be copied.
#[derive(Clone, Copy, PartialEq, Eq, Hash)]
struct Shown {
    bytes: [u8; MOST],
    len: u8,
    is_cut: bool,
}

impl Shown {
    const NOTHING: Shown = Shown { bytes: [0; MOST], len: 0, is_cut: false };

    fn as_str(&self) -> &str {
        std::str::from_utf8(&self.bytes[..usize::from(self.len)]).unwrap_or_default()
    }
}

impl fmt::Write for Shown {
    fn write_str(&mut self, piece: &str) -> fmt::Result {
        let start = usize::from(self.len);
        let mut fits = piece.len().min(MOST - start);
        while !piece.is_char_boundary(fits) {
            fits -= 1;
        }
        self.bytes[start..start + fits].copy_from_slice(&piece.as_bytes()[..fits]);
        // There are fewer than 256.
        self.len += fits as u8;
        if fits < piece.len() {
            self.is_cut = true;
            return Err(fmt::Error);
        }
        Ok(())
    }
}

impl fmt::Debug for Shown {
    fn fmt(&self, f: &mut fmt::Formatter<'_>) -> fmt::Result {
        self.as_str().fmt(f)
    }
}
