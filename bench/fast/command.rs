//! The words of the command line, and the best time of some repeats.
use std::hint::black_box;
use std::time::Instant;

/// What a program does with the bytes of a layer, and with a window in units.
pub struct Program {
    /// The verdict of an audit, which judges claims if the argument is true.
    pub check: fn(&[u8], bool) -> String,
    /// The number of hits and of bytes that had to be read, where geometries whose box misses the window are hopped over.
    pub hop_scan: fn(&[u8], [i128; 4]) -> (usize, usize),
    /// The number of hits and of bytes that had to be read, where every vertex is looked at.
    pub whole_scan: fn(&[u8], [i128; 4]) -> (usize, usize),
}

impl Program {
    /// The answer of a mode.
    fn answer(&self, mode: &str, bytes: &[u8], window: [i128; 4]) -> String {
        match mode {
            "touch" => bytes.iter().map(|&byte| byte as u64).sum::<u64>().to_string(),
            "check" | "decode" => (self.check)(bytes, mode == "check"),
            "scan" => told((self.hop_scan)(bytes, window)),
            "scanall" => told((self.whole_scan)(bytes, window)),
            _ => panic!("no such mode: {mode}"),
        }
    }
}

fn told((hits, read): (usize, usize)) -> String {
    format!("hits={hits} read={read}")
}

/// Prints what a program answers for a mode, a file and a window, and the best time of one repeat.
pub fn run(program: Program) {
    let words: Vec<String> = std::env::args().collect();
    let (mode, bytes) = (words[1].as_str(), std::fs::read(&words[2]).expect("a file to read"));
    let mut rest = words[3..].iter().map(|word| word.parse::<i128>().expect("a number"));
    let window = if mode.starts_with("scan") {
        [(); 4].map(|()| rest.next().expect("the four ends of a window"))
    } else {
        [0; 4]
    };
    let repeats = rest.next().unwrap_or(1).max(1);
    let (mut text, mut best) = (String::new(), u128::MAX);
    for _ in 0..repeats {
        let start = Instant::now();
        text = black_box(program.answer(mode, black_box(&bytes), window));
        best = best.min(start.elapsed().as_nanos());
    }
    println!("{text} nanoseconds={best}");
}
