// Times ergo_index_lines and ergo_line_column beside the UTF-8 check that both make first, on the same inputs, by turns. Part of bench/speed.
use crate::{median, timed, upto, CONTRACT, MIB};
use std::hint::black_box;
use std::time::Instant;

#[link(name = "ergo", kind = "static")]
extern "C" {
    fn ergo_index_lines(script: *const u8, n: u64, index: *mut u32, m: u64, answer: *mut u8, k: u64) -> u32;
    fn ergo_line_column(script: *const u8, n: u64, index: *const u32, m: u64, place: u32, answer: *mut u8, k: u64) -> u32;
}

#[link(name = "chars_host", kind = "static")]
extern "C" {
    fn chars_valid_prefix(s: *const u8, n: u64) -> u64;
}

fn check(script: &str) -> u64 {
    unsafe { chars_valid_prefix(script.as_ptr(), script.len() as u64) }
}

// The number handed back and the last two numbers of the block.
fn build(script: &str, index: &mut [u32]) -> (u32, u32, u32) {
    let mut answer = [0u8; 16];
    let (i, a) = (index.as_mut_ptr(), answer.as_mut_ptr());
    let number = unsafe { ergo_index_lines(script.as_ptr(), script.len() as u64, i, index.len() as u64, a, 16) };
    (number, word(&answer, 8), word(&answer, 12))
}

fn query(script: &str, index: &[u32], place: u32) -> (u32, u32, u32) {
    let mut answer = [0u8; 16];
    let (i, a) = (index.as_ptr(), answer.as_mut_ptr());
    let number = unsafe { ergo_line_column(script.as_ptr(), script.len() as u64, i, index.len() as u64, place, a, 16) };
    (number, word(&answer, 8), word(&answer, 12))
}

fn word(answer: &[u8], at: usize) -> u32 {
    u32::from_le_bytes(answer[at..at + 4].try_into().unwrap())
}

// Median seconds of a call.
struct Times {
    check: f64,
    build: f64,
    query: f64,
    lines: u32,
}

fn measure(script: &str, index: &mut [u32], rounds: usize) -> Times {
    // Before timing: the answers are those of Rust's own counting. This also warms up memory and code.
    let (lines, end) = (1 + script.matches('\n').count() as u32, script.len() as u32);
    let column = 1 + script.rsplit('\n').next().unwrap_or_default().chars().count() as u32;
    assert_eq!(check(script), script.len() as u64);
    assert_eq!(build(script, index), (0, lines, 0));
    assert_eq!(query(script, index, end), (0, lines, column));
    // A round takes building about a fiftieth of a second, and the other two less.
    let start = Instant::now();
    black_box(build(script, index));
    let repeat = (0.02 / start.elapsed().as_secs_f64()).clamp(1.0, 50_000.0) as usize;
    let (mut checks, mut builds, mut queries) = (Vec::new(), Vec::new(), Vec::new());
    for _ in 0..rounds {
        checks.push(timed(repeat, || {
            black_box(check(black_box(script)));
        }));
        builds.push(timed(repeat, || {
            black_box(build(black_box(script), index));
        }));
        queries.push(timed(repeat, || {
            black_box(query(black_box(script), index, end));
        }));
    }
    Times { check: median(checks), build: median(builds), query: median(queries), lines }
}

pub fn show(rounds: usize) {
    let long = format!("{}\n", "a".repeat(199));
    let inputs: [(&str, String); 9] = [
        ("contract, 2 kB", CONTRACT.to_string()),
        ("contract, 2 MB", upto(2_000_000, CONTRACT)),
        ("lines of 6 bytes", upto(MIB, "abcde\n")),
        ("CR LF lines of 12 bytes", upto(MIB, "val x = 7;\r\n")),
        ("lines of 200 bytes", upto(MIB, &long)),
        ("LF", upto(MIB, "\n")),
        ("blanks, one line", upto(MIB, " ")),
        ("Cyrillic lines", upto(MIB, "значение больше порога\n")),
        ("Chinese comment lines", upto(MIB, "// 金额必须大于零，否则拒绝\n")),
    ];
    println!(
        "Lines and columns beside the UTF-8 check, in one process, by turns; medians of {rounds} rounds; MB/s is 10^6 bytes of script a second."
    );
    println!("check: chars_valid_prefix. build: ergo_index_lines with numbers enough lent again and again. query: ergo_line_column for the script's");
    println!("end. Both check UTF-8 and count lines first. ratio: their time by the check's.");
    println!();
    println!("{:<26} {:>9} {:>8} {:>9} {:>9} {:>9} {:>8} {:>8}", "input", "bytes", "lines", "check", "build", "query", "ratio of", "ratio of");
    println!("{:<26} {:>9} {:>8} {:>9} {:>9} {:>9} {:>8} {:>8}", "", "", "", "MB/s", "MB/s", "MB/s", "build", "query");
    let mut index = vec![0u32; 2 * MIB];
    for (name, script) in &inputs {
        let times = measure(script, &mut index, rounds);
        let speed = |seconds: f64| script.len() as f64 / seconds / 1e6;
        println!(
            "{name:<26} {:>9} {:>8} {:>9.0} {:>9.0} {:>9.0} {:>8.2} {:>8.2}",
            script.len(),
            times.lines,
            speed(times.check),
            speed(times.build),
            speed(times.query),
            times.build / times.check,
            times.query / times.check
        );
    }
}
