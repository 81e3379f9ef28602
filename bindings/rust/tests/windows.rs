//! Windows, of texts, of units and of coordinates.

use dozhemik::{BadWindow, BadWindowKind, Layer, Span, Window};
use std::error::Error;
use std::ops::RangeInclusive;

fn parsed(text: &str) -> Result<Window, BadWindow> {
    text.parse()
}

fn units(lo: i128, hi: i128) -> Span {
    Span::from_units(lo..=hi).expect("in order")
}

/// The units of one coordinate as a lower end and as an upper one.
fn of(coordinate: f64) -> (i128, i128) {
    let span = Span::from_coordinates(coordinate..=coordinate).unwrap();
    (span.lo(), span.hi())
}

fn kind<T: std::fmt::Debug>(answer: Result<T, BadWindow>) -> BadWindowKind {
    answer.unwrap_err().kind()
}

#[test]
fn texts_are_read_exactly() {
    let window =
        parsed("x=-0.5..0.0000001,y=-12..99.99,z=-0..007,m=1.10..999999999999999999999999999.9999999").unwrap();
    assert_eq!(window.x(), units(-5_000_000, 1));
    assert_eq!(window.y(), units(-120_000_000, 999_900_000));
    assert_eq!(window.z(), Some(units(0, 70_000_000)));
    assert_eq!(window.m(), Some(units(11_000_000, 10_i128.pow(34) - 1)));
    let window = parsed("x=-1000000000000000..1000000000000000,y=-1000000000000000..-999999999999999.9999999").unwrap();
    assert_eq!(window.x(), units(-(10_i128.pow(22)), 10_i128.pow(22)));
    assert_eq!(window.y(), units(-(10_i128.pow(22)), 1 - 10_i128.pow(22)));
    let window = parsed("x=0..1,y=0..1").unwrap();
    assert_eq!((window.z(), window.m()), (None, None));
    assert_eq!(window, Window::new(units(0, 10_000_000), units(0, 10_000_000)));
}

#[test]
fn texts_of_another_form_are_refused() {
    let texts = [
        "",
        "x",
        "x=0..1",
        "y=0..1,x=0..1",
        "x=0..1,y=0..1,",
        "x=0..1,y=0..1 ",
        " x=0..1,y=0..1",
        "x=0..1,y=0..1,m=0..1,z=0..1",
        "x=0..1,y=0..1,z=0..1,z=0..1",
        "x=0..1.,y=0..1",
        "x=.5..1,y=0..1",
        "x=+1..2,y=0..1",
        "x=--1..2,y=0..1",
        "x=1e3..2e3,y=0..1",
        "x=0...1,y=0..1",
        "x=0..0.12345678,y=0..1",
        "x=0..1000000000000000000000000000,y=0..1",
        "x=0..NaN,y=0..1",
        "x=0..\u{661},y=0..1",
        "x=0..1,y=0..1\0",
        // The form is judged before the order.
        "x=1..0,y=0..",
    ];
    for text in texts {
        assert_eq!(kind(parsed(text)), BadWindowKind::Form, "{text}");
    }
}

#[test]
fn upside_down_is_refused() {
    for text in ["x=1..0,y=0..1", "x=0..1,y=0..-0.0000001", "x=0..1,y=0..1,z=2..1", "x=0..1,y=0..1,m=2..1"] {
        assert_eq!(kind(parsed(text)), BadWindowKind::Order, "{text}");
    }
    assert_eq!(kind(Span::from_units(RangeInclusive::new(1, 0))), BadWindowKind::Order);
    assert_eq!(kind(Span::from_coordinates(RangeInclusive::new(0.1, 0.0))), BadWindowKind::Order);
    assert_eq!(kind(Span::from_decimals("0.00000002", "0.00000001")), BadWindowKind::Order);
    assert_eq!(kind(Window::from_bbox([10.0, 0.0, 0.0, 1.0])), BadWindowKind::Order);
    assert_eq!(kind(Window::from_bbox([0.0, 10.0, 1.0, 0.0])), BadWindowKind::Order);
    assert!(Span::from_coordinates(0.0..=-0.0).is_ok());
}

#[test]
fn units_are_kept() {
    let ends = [i128::MIN, -(1 << 64) - 1, -(1 << 64), -1, 0, 1, (1 << 64) - 1, 1 << 64, i128::MAX];
    for (i, &lo) in ends.iter().enumerate() {
        for &hi in &ends[i..] {
            let span = units(lo, hi);
            assert_eq!((span.lo(), span.hi()), (lo, hi));
        }
    }
}

#[test]
fn coordinates_are_their_exact_values_rounded_inward() {
    let known = [
        (0.0, 0, 0),
        (-0.0, 0, 0),
        (35.5, 355_000_000, 355_000_000),
        // A little above a tenth, a little below seven tenths.
        (0.1, 1_000_001, 1_000_000),
        (0.7, 7_000_000, 6_999_999),
        (0.1 + 0.2, 3_000_001, 3_000_000),
        (f64::from(0.1_f32), 1_000_001, 1_000_000),
        (0.00000001, 1, 0),
        (f64::MIN_POSITIVE, 1, 0),
        (5e-324, 1, 0),
        (1e15, 10_i128.pow(22), 10_i128.pow(22)),
        // The float is 8,388,608 less than this number.
        (1e23, 10_i128.pow(30) - 83_886_080_000_000, 10_i128.pow(30) - 83_886_080_000_000),
        (f64::from(u32::MAX), 42_949_672_950_000_000, 42_949_672_950_000_000),
    ];
    for (coordinate, lo, hi) in known {
        assert_eq!(of(coordinate), (lo, hi), "{coordinate}");
        assert_eq!(of(-coordinate), (-hi, -lo), "{coordinate}");
    }
}

#[test]
fn coordinates_of_few_bits_are_decimals_of_few_digits() {
    for i in -2000_i32..2000 {
        let (low, high) = (f64::from(i) / 128.0, f64::from(i + 7) / 64.0 + 40.0);
        let text = parsed(&format!("x={low}..{high},y=0..1")).unwrap();
        assert_eq!(Span::from_coordinates(low..=high), Ok(text.x()), "{low} {high}");
        assert_eq!(Span::from_decimals(&low.to_string(), &high.to_string()), Ok(text.x()), "{low} {high}");
    }
}

#[test]
fn coordinates_that_were_computed_are_taken() {
    let mut x = -180.0_f64;
    while x < 180.0 {
        let span = Span::from_coordinates(x..=x + 1.0).unwrap();
        // One is ten million units, less at most one at each end.
        assert!((10_000_000 - 1..=10_000_001).contains(&(span.hi() - span.lo() + 1)), "{x}");
        let units = x * 1e7;
        assert!((span.lo() as f64 - units).abs() <= 1.5, "{x}");
        x += 0.1;
    }
}

#[test]
fn ends_beyond_all_coordinates_are_taken() {
    // The greatest coordinate is less than 2^63 times 10^8.
    let most = (1_i128 << 63) * 10_i128.pow(15);
    for great in [1e27, 1e100, f64::MAX] {
        assert!(of(great).0 >= most.min(10_i128.pow(34)) && of(-great).1 <= -most.min(10_i128.pow(34)), "{great}");
    }
    let long = "9".repeat(5000);
    assert!(Span::from_decimals(&format!("-{long}"), &long).unwrap().hi() >= most);
}

#[test]
fn decimals_have_any_length() {
    let zeros = "0".repeat(5000);
    assert_eq!(Span::from_decimals(&format!("0.{zeros}1"), "1"), Ok(units(1, 10_000_000)));
    assert_eq!(Span::from_decimals("-0.99999999", &format!("{zeros}1.5{zeros}")), Ok(units(-9_999_999, 15_000_000)));
    for text in
        ["", "-", "+1", "1.", ".5", "1e5", " 1", "1 ", "1\n", "1_0", "0x1", "nan", "\u{661}", "1\0", "1..2", "1,2"]
    {
        assert_eq!(kind(Span::from_decimals(text, "1")), BadWindowKind::Form, "{text}");
        assert_eq!(kind(Span::from_decimals("1", text)), BadWindowKind::Form, "{text}");
    }
}

#[test]
fn a_range_without_a_unit_is_empty() {
    let empty = Span::from_decimals("1.00000001", "1.00000002").unwrap();
    assert!(empty.is_empty() && !units(1, 1).is_empty());
    let layer = Layer::certify(&[1, 0, 2, 4]).unwrap();
    assert_eq!(layer.scan(&Window::new(empty, units(0, 1 << 40))).unwrap().hits, []);
    assert_eq!(layer.directory().unwrap().scan(&Window::new(units(0, 1 << 40), empty)).unwrap().hits, []);
    assert_eq!(layer.scan(&Window::new(units(0, 1 << 40), units(0, 1 << 40))).unwrap().hits.len(), 1);
}

#[test]
fn what_is_not_finite_is_refused() {
    for coordinate in [f64::INFINITY, f64::NEG_INFINITY, f64::NAN] {
        for (lo, hi) in [(coordinate, 1.0), (-1.0, coordinate), (coordinate, coordinate)] {
            assert_eq!(kind(Span::from_coordinates(lo..=hi)), BadWindowKind::NotFinite, "{lo} {hi}");
        }
    }
}

#[test]
fn boxes_are_least_and_greatest_corners() {
    assert_eq!(Window::from_bbox([10.0, 35.0, 30.0, 45.5]), parsed("x=10..30,y=35..45.5"));
}

#[test]
fn an_error_of_a_box_names_the_axis() {
    let told = |bbox| Window::from_bbox(bbox).unwrap_err().to_string();
    assert_eq!(told([30.0, 35.0, 10.5, 45.0]), r#""x=30..10.5": lower bound above upper bound"#);
    assert_eq!(told([10.0, 45.0, 30.0, 35.0]), r#""y=45..35": lower bound above upper bound"#);
    assert_eq!(told([10.0, 35.0, f64::INFINITY, 45.0]), r#""x=10..inf": not finite"#);
    assert_eq!(told([10.0, f64::NAN, 30.0, 45.0]), r#""y=NaN..45": not finite"#);
}

#[test]
fn windows_are_displayed_as_their_texts() {
    for text in [
        "x=10..30,y=35..45.5",
        "x=-180..180,y=-90..90,z=0..100,m=-5.25..5",
        "x=-0.0000001..0.0000001,y=-1.00203..0,m=0.5..7",
        "x=-999999999999999999999999999.9999999..999999999999999999999999999.9999999,y=0.1000001..10000000",
    ] {
        assert_eq!(parsed(text).unwrap().to_string(), text);
    }
    assert_eq!(parsed("x=-0..007.50,y=1.10..2.0000000").unwrap().to_string(), "x=0..7.5,y=1.1..2");
    let most = Window::new(units(i128::MIN, i128::MAX), Span::from_decimals("0.11", "0.11000001").unwrap());
    let ends = ("-17014118346046923173168730371588.4105728", "17014118346046923173168730371588.4105727");
    assert_eq!(most.to_string(), format!("x={}..{},y=0.11..0.11", ends.0, ends.1));
    assert_eq!(Span::from_coordinates(0.1..=0.1).unwrap().to_string(), "0.1000001..0.1");
}

#[test]
fn axes_are_given_one_by_one() {
    let (x, y, z, m) = (units(0, 1), units(2, 3), units(4, 5), units(6, 7));
    let window = Window::new(x, y);
    assert_eq!((window.x(), window.y(), window.z(), window.m()), (x, y, None, None));
    assert_eq!(window.with_z(z).with_m(m), window.with_m(m).with_z(z));
    assert_eq!((window.with_m(m).z(), window.with_m(m).m()), (None, Some(m)));
}

#[test]
fn errors_show_the_text() {
    let error: Box<dyn Error + Send + Sync> = parsed("x").unwrap_err().into();
    assert_eq!(error.to_string(), r#""x": not of the form x=A..B,y=C..D[,z=E..F][,m=G..H]"#);
    let told = |answer: Result<Span, BadWindow>| answer.unwrap_err().to_string();
    assert_eq!(parsed("").unwrap_err().to_string(), r#""": not of the form x=A..B,y=C..D[,z=E..F][,m=G..H]"#);
    assert_eq!(
        told(Span::from_coordinates(RangeInclusive::new(1.5, 0.1))),
        r#""1.5..0.1": lower bound above upper bound"#
    );
    assert_eq!(told(Span::from_coordinates(0.0..=f64::NAN)), r#""0..NaN": not finite"#);
    assert_eq!(told(Span::from_units(RangeInclusive::new(1, 0))), "lower bound above upper bound");
    // In one line, whatever the text is, and not too long.
    let line = parsed("x=0..1,\ny=\u{e9}").unwrap_err().to_string();
    assert_eq!(
        line,
        r#""x=0..1,\ny=\u{e9}": not of the form x=A..B,y=C..D[,z=E..F][,m=G..H]"#.replace(r"\u{e9}", "\u{e9}")
    );
    for text in ["0".repeat(120), "0".repeat(121), "\u{e9}".repeat(100), format!("0{}", "\u{20ac}".repeat(100))] {
        let line = parsed(&text).unwrap_err().to_string();
        assert!(line.len() < 200 && line.contains("\"..: ") == (text.len() > 120), "{line}");
    }
}
