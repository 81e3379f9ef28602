//! The yardstick with SIMD: the fastest checker and scanner of TWKB layers that we know how to write in Rust for one
//! thread of an x86-64-v2 processor. It isn't verified.
//!
//! It is used as `../fast` is, and has its answers. Compile it with `-C target-cpu=x86-64-v2`.
//!
//! `kernels` reads several varints into the lanes of a vector (`lanes`), by the top bits of their bytes (`tables`).
//! From these come boxes (`frames`) and runs of points (`runs`), which an audit compares with the box (`audits`) and a
//! scan with the window (`windows`, `scans`). Without a box the ends of varints are counted (`unboxed`), and blobs of
//! one form that follow one another are read in loops of their own (`series`). All of these only answer what they are
//! sure of. The passes of `../fast` read again what they aren't sure of: numbers that are too long for a lane, the last
//! few hundred bytes, and false or malformed geometries.
mod audits;
#[path = "../fast/bodies.rs"]
mod bodies;
#[path = "../fast/command.rs"]
mod command;
#[allow(dead_code, reason = "a whole layer is checked by `audits`")]
#[path = "../fast/audits.rs"]
mod fast_audits;
#[allow(dead_code, reason = "a whole layer is scanned by `scans`")]
#[path = "../fast/scans.rs"]
mod fast_scans;
mod frames;
mod headers;
mod kernels;
mod lanes;
#[path = "../fast/plain.rs"]
mod plain;
mod runs;
mod scans;
mod series;
mod tables;
mod unboxed;
mod windows;
#[path = "../fast/words.rs"]
mod words;

fn main() {
    command::run(command::Program {
        check: |bytes, judge| if judge { audits::check(bytes) } else { fast_audits::check(bytes, false) },
        hop_scan: scans::scan_all::<true>,
        whole_scan: scans::scan_all::<false>,
    });
}
