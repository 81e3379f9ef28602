//! Certifies a layer, and names the blobs that have a vertex inside a window of coordinates.
//!
//! usage: scan FILE X_FROM X_TO Y_FROM Y_TO
//!
//! From the repository: `cargo run --release --example scan ../../examples/coast_lines_sized.twkb 10 30 35 45.5`

use dozhemik::{Layer, Span, Window};
use std::error::Error;
use std::process::ExitCode;
use std::{env, fs};

fn main() -> ExitCode {
    let words: Vec<String> = env::args().skip(1).collect();
    match run(&words) {
        Ok(()) => ExitCode::SUCCESS,
        Err(why) => {
            eprintln!("scan: {why}");
            ExitCode::FAILURE
        }
    }
}

fn run(words: &[String]) -> Result<(), Box<dyn Error>> {
    match words {
        [file, x_from, x_to, y_from, y_to] => {
            let (x, y) = (Span::from_decimals(x_from, x_to)?, Span::from_decimals(y_from, y_to)?);
            scan(&fs::read(file)?, &Window::new(x, y))
        }
        _ => Err("usage: scan FILE X_FROM X_TO Y_FROM Y_TO".into()),
    }
}

fn scan(bytes: &[u8], window: &Window) -> Result<(), Box<dyn Error>> {
    let layer = Layer::certify(bytes)?;
    println!("{} blobs with {} vertices are certified.", layer.blobs(), layer.vertices());
    let rows = layer.list()?;
    let scan = layer.scan(window)?;
    for hit in &scan {
        let row = rows[hit.blob];
        println!(
            "blob {}: a {} of {} vertices in {} bytes at {}",
            hit.blob, row.kind, row.vertices, row.bytes, row.offset
        );
    }
    println!(
        "{} of them have a vertex inside; {} of {} bytes were read.",
        scan.hits.len(),
        scan.bytes_read,
        bytes.len()
    );
    Ok(())
}
