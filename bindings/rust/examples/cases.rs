//! Takes the words of the program `twkb_tool`, and prints what it prints on standard output, by the library.
//!
//! usage: cases check [--tight] FILE | cases list FILE | cases scan FILE WINDOW..
//!
//! The tests compare it with the program. As the program does, it makes a directory first where there are two windows
//! or more. The status is the program's: 0, 1 for a layer that is refused, 2 for bad words, else 3.

use dozhemik::{BadWindow, CertifyError, Layer, Scan, Window};
use std::collections::TryReserveError;
use std::fmt::Write;
use std::process::ExitCode;
use std::{env, fs};

enum Asked {
    Check { tight: bool },
    List,
    Scan(Vec<Window>),
}

/// Why nothing is printed: the status, and a line for standard error.
type Fault = (u8, String);

fn main() -> ExitCode {
    let words: Vec<String> = env::args().skip(1).collect();
    let words: Vec<&str> = words.iter().map(String::as_str).collect();
    match run(&words) {
        Ok((status, text)) => {
            print!("{text}");
            ExitCode::from(status)
        }
        Err((status, why)) => {
            eprintln!("cases: {why}");
            ExitCode::from(status)
        }
    }
}

/// The status and the text.
fn run(words: &[&str]) -> Result<(u8, String), Fault> {
    let (asked, file) = asked(words)?;
    let bytes = fs::read(file).map_err(|why| (3, why.to_string()))?;
    match certified(&bytes, &asked) {
        Ok(layer) => {
            let text = text_of(&layer, &asked).map_err(|_| (3, "out of memory".to_string()))?;
            Ok((0, text))
        }
        Err(CertifyError::Refused(refusal)) => Ok((1, format!("no {refusal}\n"))),
        Err(error) => Err((3, error.to_string())),
    }
}

fn asked<'w>(words: &[&'w str]) -> Result<(Asked, &'w str), Fault> {
    match words {
        ["check", "--tight", file] | ["check", file, "--tight"] => Ok((Asked::Check { tight: true }, file)),
        ["check", file] => Ok((Asked::Check { tight: false }, file)),
        ["list", file] => Ok((Asked::List, file)),
        ["scan", file, texts @ ..] if !texts.is_empty() => Ok((Asked::Scan(windows(texts)?), file)),
        _ => Err((2, "usage: check [--tight] FILE | list FILE | scan FILE WINDOW..".to_string())),
    }
}

fn windows(texts: &[&str]) -> Result<Vec<Window>, Fault> {
    let numbered =
        |(i, text): (usize, &&str)| text.parse().map_err(|why: BadWindow| (2, format!("window {}: {why}", i + 1)));
    texts.iter().enumerate().map(numbered).collect()
}

fn certified<'a>(bytes: &'a [u8], asked: &Asked) -> Result<Layer<'a>, CertifyError> {
    match asked {
        Asked::Check { tight: true } => Layer::certify_tight(bytes),
        _ => Layer::certify(bytes),
    }
}

fn text_of(layer: &Layer<'_>, asked: &Asked) -> Result<String, TryReserveError> {
    match asked {
        Asked::Check { .. } => Ok(format!("ok blobs={} vertices={}\n", layer.blobs(), layer.vertices())),
        Asked::List => rows(layer),
        Asked::Scan(windows) => scans(layer, windows),
    }
}

fn rows(layer: &Layer<'_>) -> Result<String, TryReserveError> {
    let mut text = String::new();
    for row in layer.list()? {
        let (size, bounds) = (yes_no(row.has_size), yes_no(row.has_box));
        let _ = write!(text, "blob={} offset={} bytes={} type={} ", row.blob, row.offset, row.bytes, row.kind);
        let _ = writeln!(text, "precision={} vertices={} size={size} box={bounds}", row.precision, row.vertices);
    }
    Ok(text)
}

/// With a directory where there are several windows.
fn scans(layer: &Layer<'_>, windows: &[Window]) -> Result<String, TryReserveError> {
    if let [window] = windows {
        return Ok(hits(layer, &layer.scan(window)?));
    }
    let directory = layer.directory()?;
    windows.iter().map(|window| Ok(hits(layer, &directory.scan(window)?))).collect()
}

fn hits(layer: &Layer<'_>, scan: &Scan) -> String {
    let mut text = String::new();
    for hit in scan {
        let _ = writeln!(text, "hit blob={} offset={}", hit.blob, hit.offset);
    }
    let _ = writeln!(text, "hits={} read={} of={}", scan.hits.len(), scan.bytes_read, layer.bytes().len());
    text
}

fn yes_no(is: bool) -> &'static str {
    if is {
        "yes"
    } else {
        "no"
    }
}
