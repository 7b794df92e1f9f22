// Calls ergo_tokenize, the published tokenize and the peer on every row of bench/texts.rs, and the other functions on contracts, with marks between
// which callgrind counts. bench/count builds it, runs it, and puts the counts behind the lines that are printed here.
mod calls;
mod records;
mod texts;

use calls::Who;
use std::hint::black_box;
use texts::{chosen, CONTRACT, MIB};

#[link(name = "ergo", kind = "static")]
extern "C" {
    fn ergo_index_lines(script: *const u8, n: u64, index: *mut u32, m: u64, answer: *mut u8, k: u64) -> u32;
    fn ergo_line_column(script: *const u8, n: u64, index: *const u32, m: u64, place: u32, answer: *mut u8, k: u64) -> u32;
}

#[link(name = "chars_host", kind = "static")]
extern "C" {
    fn chars_valid_prefix(s: *const u8, n: u64) -> u64;
}

// callgrind writes down and clears its counts wherever this is called.
#[no_mangle]
#[inline(never)]
extern "C" fn bench_mark() {
    black_box(());
}

// Two counts, of no call and of so many calls: their difference is what the calls cost.
fn count(line: &str, bytes: usize, calls: usize, mut call: impl FnMut()) {
    println!("{line}\t{bytes}\t{calls}");
    for times in [0, calls] {
        bench_mark();
        for _ in 0..black_box(times) {
            call();
        }
    }
    bench_mark();
}

// Fewer calls the longer the script is.
fn repeats(bytes: usize) -> usize {
    match bytes {
        0..=9_999 => 10,
        10_000..MIB => 2,
        _ => 1,
    }
}

fn name(who: Who) -> &'static str {
    match who {
        Who::Ours => "ours",
        Who::Tokenize | Who::Widened => "tokenize",
        Who::Peer => "re2c",
    }
}

fn count_rows(words: &[String]) {
    for row in chosen(words) {
        let all = calls::all(row.signs);
        for (end, script) in [("accepted", row.text()), ("refused", row.refused())] {
            let bound = records::bound(script.len());
            let (mut records, mut others) = (vec![0u8; bound], vec![0u8; bound]);
            // This also warms up memory and code.
            let number = calls::agree(&row.name, &script, &all, &mut records, &mut others);
            assert_eq!(number, if end == "accepted" { 0 } else { 3 }, "{}: not {end}", row.name);
            for &who in &all {
                let line = format!("row\t{}\t{}\t{end}\t{}", row.group, row.name, name(who));
                count(&line, script.len(), repeats(script.len()), || calls::call(who, &script, &mut records));
            }
        }
    }
}

fn count_function(group: &str, name: &str, bytes: usize, mut call: impl FnMut()) {
    call(); // to warm up
    count(&format!("function\t{group}\t{name}\taccepted\tours"), bytes, 10, call);
}

// ergo_tokenize where it writes and where it is lent no records, and ergo_measure.
fn count_measuring(group: &str, script: &str) {
    let n = script.len();
    let mut records = vec![0u8; records::bound(n)];
    let told = calls::measure(script);
    assert_eq!(told[0], 0, "not accepted");
    assert_eq!(calls::ours(script, &mut records), told, "measuring answers otherwise");
    count_function(group, "write", n, || calls::call(Who::Ours, script, &mut records));
    count_function(group, "lent nothing", n, || calls::call(Who::Ours, script, &mut []));
    count_function(group, "measure", n, || {
        black_box(calls::measure(black_box(script)));
    });
}

// The functions of lines and columns, and the check that they begin with, on one contract.
fn count_lines() {
    let (s, n) = (CONTRACT.as_ptr(), CONTRACT.len());
    let mut index = vec![0u32; n + 1];
    let mut answer = [0u8; 16];
    let (i, a) = (index.as_mut_ptr(), answer.as_mut_ptr());
    let length = n as u64;
    count_function("", "index", n, || assert_eq!(unsafe { ergo_index_lines(black_box(s), length, i, length + 1, a, 16) }, 0));
    count_function("", "query", n, || assert_eq!(unsafe { ergo_line_column(black_box(s), length, i, length + 1, n as u32, a, 16) }, 0));
    count_function("", "check", n, || assert_eq!(unsafe { chars_valid_prefix(black_box(s), length) }, length));
}

fn main() {
    let words: Vec<String> = std::env::args().skip(1).collect();
    if words.is_empty() || words.iter().any(|word| word == "functions") {
        count_measuring("", CONTRACT);
        count_lines();
        // So long that a call which writes walks twice.
        count_measuring("20 contracts", &CONTRACT.repeat(20));
    }
    count_rows(&words);
}
