// Times ergo_tokenize, the published tokenize and the peer by re2c on every row of bench/texts.rs, in one process, by turns; then how time grows
// with the script, and lines and columns (bench/lines.rs). bench/speed builds and runs it.
mod calls;
mod lines;
mod records;
mod texts;

use calls::Who;
use records::{bound, HEAD, INT_LIT};
use std::hint::black_box;
use std::time::Instant;
use texts::{chosen, upto, CONTRACT, MIB};

// Measures, allocates what is needed, and writes.
fn twice(script: &str) -> Vec<u8> {
    let mut records = match calls::measure(script) {
        [0, _, _, bytes] => vec![0; bytes as usize],
        _ => return Vec::new(),
    };
    calls::ours(script, &mut records);
    records
}

pub fn median(mut times: Vec<f64>) -> f64 {
    times.sort_by(f64::total_cmp);
    times[times.len() / 2]
}

pub fn timed(repeat: usize, mut run: impl FnMut()) -> f64 {
    let start = Instant::now();
    for _ in 0..repeat {
        run();
    }
    start.elapsed().as_secs_f64() / repeat as f64
}

// Memory that is lent again and again, and how often a row is timed.
struct Bench {
    records: Vec<u8>,
    others: Vec<u8>,
    rounds: usize,
    all: Vec<Who>,
}

// The column of three that one of them has.
fn column(who: Who) -> usize {
    match who {
        Who::Ours => 0,
        Who::Tokenize | Who::Widened => 1,
        Who::Peer => 2,
    }
}

// Median seconds of a call: of each of the three, and of ours by two calls with an allocation between.
struct Times {
    number: u32,
    of: [f64; 3],
    two: f64,
}

impl Bench {
    fn new(rounds: usize) -> Bench {
        let longest = bound(16 * MIB);
        Bench { records: vec![0; longest], others: vec![0; longest], rounds, all: calls::all(false) }
    }

    fn measure(&mut self, name: &str, script: &str) -> Times {
        // Before timing: all must agree. This also warms up memory and code.
        let number = calls::agree(name, script, &self.all, &mut self.records, &mut self.others);
        let records = &mut self.records[..bound(script.len())];
        // A round takes each of them about a hundredth of a second, or one call.
        let once = timed(1, || calls::call(Who::Ours, script, records));
        let repeat = (0.01 / once).clamp(1.0, 5000.0) as usize;
        let (mut of, mut two) = ([Vec::new(), Vec::new(), Vec::new()], Vec::new());
        for _ in 0..self.rounds {
            for &who in &self.all {
                of[column(who)].push(timed(repeat, || calls::call(who, script, records)));
            }
            two.push(timed(repeat, || drop(black_box(twice(black_box(script))))));
        }
        Times { number, of: of.map(|times| if times.is_empty() { f64::NAN } else { median(times) }), two: median(two) }
    }
}

// Nothing is said of what was not timed.
fn cell(x: f64, digits: usize) -> String {
    if x.is_nan() {
        "-".to_string()
    } else {
        format!("{x:.digits$}")
    }
}

fn show(name: &str, bytes: usize, times: &Times) {
    let speed = |seconds: f64| cell(bytes as f64 / seconds / 1e6, 1);
    let [ours, tokenize, peer] = times.of;
    println!(
        "{name:<40} {bytes:>9} {:>4} {:>9} {:>9} {:>9} {:>9} {:>8} {:>8} {:>8}",
        times.number,
        speed(ours),
        speed(times.two),
        speed(tokenize),
        speed(peer),
        cell(tokenize / ours, 2),
        cell(tokenize / times.two, 2),
        cell(peer / ours, 2)
    );
}

fn show_rows(bench: &mut Bench, words: &[String]) {
    println!(
        "ergo_tokenize, the published tokenize and a lexer by re2c, in one process, by turns; medians of {} rounds; MB/s is 10^6 bytes",
        bench.rounds
    );
    println!("of script a second. ergo_tokenize and re2c's check UTF-8, which tokenize's &str has behind it, and look for direction marks.");
    println!("\"one call\" writes into one buffer of {INT_LIT}n + {HEAD} bytes, lent again and again: buffers were not cleared between calls.");
    println!("\"two calls\" measures, allocates just what is needed (zeroed, as vec! does), writes, and frees. tokenize allocates its tokens and frees");
    println!("them. Ratios: the other's time by ours; above 1, ours is faster. no.: 0, or the refusal, which stands at the end.");
    println!();
    let heads = ["one call", "two calls", "tokenize", "re2c"];
    println!("{:<40} {:>9} {:>4} {:>9} {:>9} {:>9} {:>9} tokenize tokenize  re2c by", "row", "bytes", "no.", heads[0], heads[1], heads[2], heads[3]);
    println!("{:<40} {:>9} {:>4} {:>9} {:>9} {:>9} {:>9}   by one   by two      one", "", "", "", "MB/s", "MB/s", "MB/s", "MB/s");
    for row in chosen(words) {
        bench.all = calls::all(row.signs);
        for (end, script) in [("", row.text()), (", refused", row.refused())] {
            let name = format!("{}{end}", row.name);
            show(&name, script.len(), &bench.measure(&name, &script));
        }
    }
}

fn show_growth(bench: &mut Bench) {
    println!("Growth from 1 MiB to 16 MiB: time of one call in milliseconds, and the factor between; a factor of 16 is linear.");
    println!();
    let heads = ["ours 1", "ours 16", "factor", "tokenize 1", "tokenize 16", "factor", "re2c 1", "re2c 16", "factor"];
    println!("{:<15} {}", "again and again", heads.map(|head| format!("{head:>11}")).join(" "));
    for (name, unit) in [("_", "_"), ("/*", "/*"), ("\"", "\""), ("'", "'"), ("/", "/"), ("contract", CONTRACT)] {
        let [small, large] = [MIB, 16 * MIB].map(|n| bench.measure(name, &upto(n, unit)));
        let columns = (0..3).flat_map(|who| [cell(small.of[who] * 1e3, 3), cell(large.of[who] * 1e3, 3), cell(large.of[who] / small.of[who], 2)]);
        println!("{name:<15} {}", columns.map(|column| format!("{column:>11}")).collect::<Vec<_>>().join(" "));
    }
}

fn main() {
    let mut words: Vec<String> = std::env::args().skip(1).collect();
    let rounds = words.first().and_then(|word| word.parse().ok());
    if rounds.is_some() {
        words.remove(0);
    }
    if cfg!(published) {
        assert_eq!(char::UNICODE_VERSION, (16, 0, 0), "the published tokenize takes the character classes of this compiler");
    }
    let mut bench = Bench::new(rounds.unwrap_or(9));
    show_rows(&mut bench, &words);
    bench.all = calls::all(false);
    if words.is_empty() {
        println!();
        show_growth(&mut bench);
        println!();
        lines::show(bench.rounds);
    }
}
