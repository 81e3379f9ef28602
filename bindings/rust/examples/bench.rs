//! Times certifying and listing a layer, scanning it for a thousand windows, with a directory (in one call, and in a call for
//! each) and without, and calls on a layer of seven bytes.
//!
//! usage: bench FILE
//!
//! The windows are tiles of the world, nine degrees wide and seven high. `bindings/c/bench.c` times the same, and
//! prints the same sums.

use dozhemik::{Directory, Hit, Layer, Scan, Scanned, Window};
use std::collections::TryReserveError;
use std::error::Error;
use std::time::Instant;
use std::{env, fs};

const WINDOWS: i32 = 1000;
const CALLS: u32 = 1_000_000;
/// A line from 1 1 to 5 5.
const LINE: [u8; 7] = [2, 0, 2, 2, 2, 8, 8];

fn main() -> Result<(), Box<dyn Error>> {
    let file = env::args().nth(1).ok_or("usage: bench FILE")?;
    let bytes = fs::read(file)?;

    let start = Instant::now();
    let layer = Layer::certify(&bytes)?;
    println!("certify: {:.1} ms, {} blobs, {} vertices", milliseconds(start), layer.blobs(), layer.vertices());

    let start = Instant::now();
    let rows = layer.list()?;
    println!("list: {:.1} ms, {} rows", milliseconds(start), rows.len());

    let windows = (0..WINDOWS).map(tile).collect::<Result<Vec<Window>, _>>()?;
    let mut room = vec![Hit::default(); layer.blobs()];
    into_a_room("scan", &windows, |window| layer.scan_into(window, &mut room));
    into_vectors("scan", &windows, |window| layer.scan(window))?;

    let start = Instant::now();
    let directory = layer.directory()?;
    println!("directory: {:.1} ms", milliseconds(start));
    at_once(&directory, &windows)?;
    into_a_room("directory scan one by one", &windows, |window| directory.scan_into(window, &mut room));
    into_vectors("directory scan one by one", &windows, |window| directory.scan(window))?;
    calls()
}

/// All windows in one call.
fn at_once(directory: &Directory<'_>, windows: &[Window]) -> Result<(), TryReserveError> {
    let start = Instant::now();
    let (mut hits, mut read) = (0, 0);
    for scan in directory.scan_many(windows)? {
        hits += scan.hits.len();
        read += scan.bytes_read;
    }
    println!("directory scan, {WINDOWS} windows: {:.1} ms, {hits} hits, {read} bytes read", milliseconds(start));
    Ok(())
}

fn into_a_room(title: &str, windows: &[Window], mut scan: impl FnMut(&Window) -> Scanned) {
    let start = Instant::now();
    let (mut hits, mut read) = (0, 0);
    for window in windows {
        let scanned = scan(window);
        hits += scanned.hits;
        read += scanned.bytes_read;
    }
    println!("{title}, {WINDOWS} windows into a room: {:.1} ms, {hits} hits, {read} bytes read", milliseconds(start));
}

fn into_vectors(
    title: &str,
    windows: &[Window],
    scan: impl Fn(&Window) -> Result<Scan, TryReserveError>,
) -> Result<(), TryReserveError> {
    let start = Instant::now();
    let (mut hits, mut read) = (0, 0);
    for window in windows {
        let scan = scan(window)?;
        hits += scan.hits.len();
        read += scan.bytes_read;
    }
    println!("{title}, {WINDOWS} windows into vectors: {:.1} ms, {hits} hits, {read} bytes read", milliseconds(start));
    Ok(())
}

/// What calls on a small layer take.
fn calls() -> Result<(), Box<dyn Error>> {
    let start = Instant::now();
    let mut vertices = 0;
    for _ in 0..CALLS {
        vertices += Layer::certify(&LINE)?.vertices();
    }
    println!("certify, a call on seven bytes: {:.1} ns, {vertices} vertices", nanoseconds(start));

    let (layer, window) = (Layer::certify(&LINE)?, "x=0..1,y=0..1".parse()?);
    let start = Instant::now();
    let mut room = [Hit::default()];
    let mut hits = 0;
    for _ in 0..CALLS {
        hits += layer.scan_into(&window, &mut room).hits;
    }
    println!("scan, a call on seven bytes: {:.1} ns, {hits} hits", nanoseconds(start));
    Ok(())
}

/// One of a thousand tiles: forty columns and 25 rows.
fn tile(number: i32) -> Result<Window, dozhemik::BadWindow> {
    let (x, y) = (9 * (number % 40) - 180, 7 * (number / 40) - 90);
    format!("x={x}..{},y={y}..{}", x + 9, y + 7).parse()
}

fn milliseconds(start: Instant) -> f64 {
    start.elapsed().as_secs_f64() * 1e3
}

/// Of one of the calls since then.
fn nanoseconds(start: Instant) -> f64 {
    start.elapsed().as_secs_f64() * 1e9 / f64::from(CALLS)
}
