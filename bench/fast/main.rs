//! The yardstick: the fastest checker and scanner of TWKB layers that we know how to write in plain safe Rust, with no
//! threads and no SIMD. It isn't verified.
//!
//! Usage: fast touch|check|decode FILE [REPEATS], fast scan|scanall FILE X0 X1 Y0 Y1 [REPEATS], the window in units.
//! `touch` sums the bytes, `check` audits claims, `decode` reads every coordinate and judges no size and no box, `scan`
//! hops over what has a size and a box that misses, `scanall` looks at every vertex. The answer is printed, for a scan
//! the hits and the bytes that had to be read, and after it the best time of one repeat in nanoseconds.
//!
//! Quick passes (`audits`, `scans`, over `words` and `bodies`) only answer what they are sure of. Where they aren't (a
//! false claim, a malformation, a varint of more than eight bytes, a member's box not inside the one over it) a plain
//! pass (`plain`) reads the blob again, and names what is wrong.
mod audits;
mod bodies;
mod command;
mod plain;
mod scans;
mod words;

fn main() {
    command::run(command::Program {
        check: audits::check,
        hop_scan: scans::scan_all::<true>,
        whole_scan: scans::scan_all::<false>,
    });
}
