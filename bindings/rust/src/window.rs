//! Windows, and the numbers that bound them.

use crate::decimals::Text;
use crate::{ffi, BadWindow, BadWindowKind};
use std::fmt;
use std::ops::RangeInclusive;
use std::str::FromStr;

/// A range in units, both ends included.
///
/// A unit is 10^-7: a bound of 35.5 is 355,000,000 units. There are three ways to make a span:
///
/// - [from units](Span::from_units);
/// - [from coordinates](Span::from_coordinates), any finite floats;
/// - [from decimals](Span::from_decimals), in texts of any length.
///
/// Each bound is taken exactly. Coordinates of a layer are whole numbers of units, so the library rounds a range inward
/// to units: the lower bound up, and the upper bound down. No vertex is lost or gained by this.
///
/// ```
/// # use dozhemik::{BadWindow, Span};
/// let span = Span::from_coordinates(-128.8..=-128.8 + 1.0)?;
/// assert_eq!(span, Span::from_units(-1_288_000_000..=-1_278_000_001)?);
/// // The float is a little above a tenth, and the text is a tenth.
/// assert_eq!(Span::from_coordinates(0.1..=35.5)?.lo(), 1_000_001);
/// assert_eq!(Span::from_decimals("0.1", "35.5")?.lo(), 1_000_000);
/// # Ok::<(), BadWindow>(())
/// ```
#[derive(Clone, Copy, Debug, PartialEq, Eq, Hash)]
pub struct Span {
    lo: i128,
    hi: i128,
}

impl Span {
    /// The span of units.
    ///
    /// # Errors
    ///
    /// [`BadWindowKind::Order`], if the lower end is above the upper one.
    pub const fn from_units(units: RangeInclusive<i128>) -> Result<Span, BadWindow> {
        let (lo, hi) = (*units.start(), *units.end());
        if lo > hi {
            return Err(BadWindow::new(BadWindowKind::Order));
        }
        Ok(Span { lo, hi })
    }

    /// The span of coordinates, rounded inward.
    ///
    /// A float is its exact binary value, so `0.1` is a little more than a tenth, and with this lower bound a vertex at
    /// 0.1 is outside. Pass decimals that somebody wrote [as texts](Span::from_decimals).
    ///
    /// # Errors
    ///
    /// [`BadWindowKind::NotFinite`], if an end is infinite or not a number. [`BadWindowKind::Order`], if the lower end is
    /// above the upper one.
    pub fn from_coordinates(coordinates: RangeInclusive<f64>) -> Result<Span, BadWindow> {
        let (lo, hi) = (*coordinates.start(), *coordinates.end());
        span_of_floats(lo, hi).map_err(|kind| BadWindow::of(kind, format_args!("{lo}..{hi}")))
    }

    /// The span of two decimals, rounded inward. Each is an optional minus, digits, and optionally a point and digits.
    ///
    /// # Errors
    ///
    /// [`BadWindowKind::Form`], if a text is no decimal. [`BadWindowKind::Order`], if the lower end is above the upper one.
    pub fn from_decimals(lo: &str, hi: &str) -> Result<Span, BadWindow> {
        span_of(lo.as_bytes(), hi.as_bytes()).map_err(|kind| BadWindow::of(kind, format_args!("{lo}..{hi}")))
    }

    /// Whether it contains no unit, as a range between two units does after rounding inward. Nothing is inside.
    pub const fn is_empty(&self) -> bool {
        self.lo > self.hi
    }

    /// The lower end in units. If the span is empty, it is above the upper one.
    pub const fn lo(&self) -> i128 {
        self.lo
    }

    /// The upper end in units.
    pub const fn hi(&self) -> i128 {
        self.hi
    }

    const fn lent(&self) -> ffi::Span {
        ffi::Span { lo: split(self.lo), hi: split(self.hi) }
    }

    const fn taken(span: &ffi::Span) -> Span {
        Span { lo: joined(&span.lo), hi: joined(&span.hi) }
    }
}

/// A window: a range for X and one for Y, and perhaps for Z and for M.
///
/// A vertex is inside if it has each axis that the window bounds, with a value in its range. A window is made from
/// [spans](Span), or from a text of the form `x=A..B,y=C..D[,z=E..F][,m=G..H]` by [`str::parse`]. A number of such a
/// text is an optional minus, 1 to 27 digits, and optionally a point and 1 to 7 digits. The text is parsed exactly.
///
/// ```
/// # use dozhemik::{BadWindow, BadWindowKind, Span, Window};
/// let text: Window = "x=10..30,y=35..45.5,z=0..100".parse()?;
/// let window = Window::new(Span::from_coordinates(10.0..=30.0)?, Span::from_decimals("35", "45.5")?);
/// assert_eq!(text, window.with_z(Span::from_units(0..=1_000_000_000)?));
/// assert_eq!(window, Window::from_bbox([10.0, 35.0, 30.0, 45.5])?);
/// assert_eq!(window.to_string(), "x=10..30,y=35..45.5");
///
/// assert_eq!("x=30..10,y=35..45.5".parse::<Window>().unwrap_err().kind(), BadWindowKind::Order);
/// # Ok::<(), BadWindow>(())
/// ```
#[derive(Clone, Copy, Debug, PartialEq, Eq, Hash)]
pub struct Window {
    x: Span,
    y: Span,
    z: Option<Span>,
    m: Option<Span>,
}

impl Window {
    /// A window of these ranges in X and Y.
    pub const fn new(x: Span, y: Span) -> Window {
        Window { x, y, z: None, m: None }
    }

    /// The window of a box: the least X, the least Y, the greatest X and the greatest Y, as GeoJSON and most libraries order
    /// them. Each pair is taken as [`Span::from_coordinates`] takes it.
    ///
    /// # Errors
    ///
    /// As for [`Span::from_coordinates`]. The error is displayed with the name of the axis.
    pub fn from_bbox([x_min, y_min, x_max, y_max]: [f64; 4]) -> Result<Window, BadWindow> {
        let span = |axis, lo, hi| {
            span_of_floats(lo, hi).map_err(|kind| BadWindow::of(kind, format_args!("{axis}={lo}..{hi}")))
        };
        Ok(Window::new(span("x", x_min, x_max)?, span("y", y_min, y_max)?))
    }

    /// This window with a range for Z.
    #[must_use]
    pub const fn with_z(self, z: Span) -> Window {
        Window { z: Some(z), ..self }
    }

    /// This window with a range for M.
    #[must_use]
    pub const fn with_m(self, m: Span) -> Window {
        Window { m: Some(m), ..self }
    }

    /// The range for X.
    pub const fn x(&self) -> Span {
        self.x
    }

    /// The range for Y.
    pub const fn y(&self) -> Span {
        self.y
    }

    /// The range for Z, if it is bounded.
    pub const fn z(&self) -> Option<Span> {
        self.z
    }

    /// The range for M, if it is bounded.
    pub const fn m(&self) -> Option<Span> {
        self.m
    }

    /// The window as the library takes it.
    pub(crate) fn lent(&self) -> ffi::Window {
        ffi::Window {
            x: self.x.lent(),
            y: self.y.lent(),
            z: self.z.unwrap_or(NOTHING).lent(),
            m: self.m.unwrap_or(NOTHING).lent(),
            has_z: self.z.is_some(),
            has_m: self.m.is_some(),
        }
    }

    fn taken(window: &ffi::Window) -> Window {
        Window {
            x: Span::taken(&window.x),
            y: Span::taken(&window.y),
            z: window.has_z.then(|| Span::taken(&window.z)),
            m: window.has_m.then(|| Span::taken(&window.m)),
        }
    }
}

impl fmt::Display for Span {
    /// Its ends in coordinates, as a window's text has them: `10..30.5`.
    fn fmt(&self, f: &mut fmt::Formatter<'_>) -> fmt::Result {
        write_coordinate(f, self.lo)?;
        f.write_str("..")?;
        write_coordinate(f, self.hi)
    }
}

impl fmt::Display for Window {
    /// Its text, which parses to this window again, unless a range is empty or has more than 27 digits before the point.
    fn fmt(&self, f: &mut fmt::Formatter<'_>) -> fmt::Result {
        write!(f, "x={},y={}", self.x, self.y)?;
        for (axis, span) in [("z", self.z), ("m", self.m)] {
            if let Some(span) = span {
                write!(f, ",{axis}={span}")?;
            }
        }
        Ok(())
    }
}

impl FromStr for Window {
    type Err = BadWindow;

    /// Parses a window.
    ///
    /// # Errors
    ///
    /// [`BadWindowKind::Form`] or [`BadWindowKind::Order`]. The form of the whole text is checked before the order of any
    /// range.
    fn from_str(text: &str) -> Result<Window, BadWindow> {
        let mut window = Window::new(NOTHING, NOTHING).lent();
        // Sound: a slice's pointer is good for its length and isn't null, and the window is this function's own.
        let answer = unsafe { ffi::twkb_window_parse(text.as_ptr().cast(), text.len(), &mut window) };
        accepted(answer).map_err(|kind| BadWindow::of(kind, text))?;
        Ok(Window::taken(&window))
    }
}

// ---- across the border

/// How many units a coordinate of 1 has.
const UNITS: u128 = 10_000_000;

const NOTHING: Span = Span { lo: 0, hi: 0 };

const fn split(units: i128) -> ffi::Units {
    ffi::Units { low: units as u64, high: (units >> 64) as i64 }
}

const fn joined(units: &ffi::Units) -> i128 {
    (units.high as i128) << 64 | units.low as i128
}

/// A number of units as a coordinate, without zeros at its end.
fn write_coordinate(f: &mut fmt::Formatter<'_>, units: i128) -> fmt::Result {
    let (sign, size) = (if units < 0 { "-" } else { "" }, units.unsigned_abs());
    let (mut fraction, mut digits) = (size % UNITS, 7);
    write!(f, "{sign}{}", size / UNITS)?;
    if fraction == 0 {
        return Ok(());
    }
    while fraction % 10 == 0 {
        fraction /= 10;
        digits -= 1;
    }
    write!(f, ".{fraction:0digits$}")
}

/// The span of two floats, rounded inward.
fn span_of_floats(lo: f64, hi: f64) -> Result<Span, BadWindowKind> {
    match (Text::of(lo), Text::of(hi)) {
        (Some(lo), Some(hi)) => span_of(lo.as_bytes(), hi.as_bytes()),
        _ => Err(BadWindowKind::NotFinite),
    }
}

/// The span of two decimals of any length, rounded inward.
fn span_of(lo: &[u8], hi: &[u8]) -> Result<Span, BadWindowKind> {
    let mut span = NOTHING.lent();
    let (lo_text, hi_text) = (lo.as_ptr().cast(), hi.as_ptr().cast());
    // Sound: a slice's pointer is good for its length and isn't null, and the span is this function's own.
    let answer = unsafe { ffi::twkb_span_of_decimals(lo_text, lo.len(), hi_text, hi.len(), &mut span) };
    accepted(answer)?;
    Ok(Span::taken(&span))
}

/// Whether a text was read.
fn accepted(answer: u32) -> Result<(), BadWindowKind> {
    match answer {
        ffi::READ => Ok(()),
        ffi::BAD_FORM => Err(BadWindowKind::Form),
        ffi::BAD_ORDER => Err(BadWindowKind::Order),
        _ => unreachable!("the library has three answers to a text"),
    }
}
