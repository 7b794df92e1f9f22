// Prints the tokens of a script, one per line: kind, start, end, cut and values; or `refused N at P`. With --contact the script is a contact, with
// its limits. With --records it writes the script's records to standard output instead: a roll. With --roll the file is such a roll, and its tokens
// are printed without the script. With --place it prints the line and the column of a place in the script. hosts/build builds it.
use std::ffi::OsStr;
use std::io::Write;
use std::path::Path;

mod ergo {
    #[link(name = "ergo", kind = "static")]
    extern "C" {
        fn ergo_tokenize(script: *const u8, n: u64, records: *mut u8, m: u64, answer: *mut u8, k: u64) -> u32;
        fn ergo_tokenize_contact(script: *const u8, n: u64, records: *mut u8, m: u64, answer: *mut u8, k: u64) -> u32;
        fn ergo_measure(script: *const u8, n: u64, answer: *mut u8, k: u64) -> u32;
        fn ergo_token_text(script: *const u8, n: u64, start: u32, end: u32) -> u32;
        fn ergo_read_roll(roll: *const u8, n: u64, answer: *mut u8, k: u64) -> u32;
        fn ergo_read_record(roll: *const u8, n: u64, at: u32, previous: u32, answer: *mut u8, k: u64) -> u32;
        fn ergo_index_lines(script: *const u8, n: u64, index: *mut u32, m: u64, answer: *mut u8, k: u64) -> u32;
        fn ergo_line_column(script: *const u8, n: u64, index: *const u32, m: u64, place: u32, answer: *mut u8, k: u64) -> u32;
    }

    // A refusal, by its number and its place.
    pub struct Refused {
        pub number: u32,
        pub place: u32,
    }

    // A length as the functions take it: with 64 bits on every processor.
    fn length<T>(part: &[T]) -> u64 {
        part.len() as u64
    }

    // A number of an answer block.
    fn word(answer: &[u8], at: usize) -> u32 {
        u32::from_le_bytes(answer[at..at + 4].try_into().unwrap())
    }

    // How many bytes the records of a script take.
    fn measure(script: &[u8]) -> Result<usize, Refused> {
        let mut answer = [0u8; 32];
        match unsafe { ergo_measure(script.as_ptr(), length(script), answer.as_mut_ptr(), length(&answer)) } {
            0 => Ok(word(&answer, 12) as usize),
            number => Err(Refused { number, place: word(&answer, 4) }),
        }
    }

    // The records of a script: measured first, then written into a buffer of exactly that length.
    pub fn tokenize(script: &[u8]) -> Result<Vec<u8>, Refused> {
        let mut records = vec![0; measure(script)?];
        let mut answer = [0u8; 16];
        let (r, a) = (records.as_mut_ptr(), answer.as_mut_ptr());
        match unsafe { ergo_tokenize(script.as_ptr(), length(script), r, length(&records), a, length(&answer)) } {
            0 => Ok(records),
            number => super::fail(&format!("refused {number} after measuring")),
        }
    }

    // Enough for the records of every contact: 511 times a LongLit's, and Eof's.
    const CONTACT_RECORDS: usize = 511 * 21 + 13;

    // The records of a contact: one call does.
    pub fn tokenize_contact(script: &[u8]) -> Result<Vec<u8>, Refused> {
        let mut records = vec![0; CONTACT_RECORDS];
        let mut answer = [0u8; 16];
        let (r, a) = (records.as_mut_ptr(), answer.as_mut_ptr());
        match unsafe { ergo_tokenize_contact(script.as_ptr(), length(script), r, length(&records), a, length(&answer)) } {
            0 => {
                records.truncate(word(&answer, 12) as usize);
                Ok(records)
            }
            number => Err(Refused { number, place: word(&answer, 4) }),
        }
    }

    // The text of a token, or nothing where the places are none of this script's.
    pub fn text(script: &[u8], start: u32, end: u32) -> Option<&[u8]> {
        let good = unsafe { ergo_token_text(script.as_ptr(), length(script), start, end) } == 0;
        if good {
            Some(&script[start as usize..end as usize])
        } else {
            None
        }
    }

    // A token of a roll, with the offset of the next record.
    pub struct Held {
        pub kind: u32,
        pub start: u32,
        pub end: u32,
        pub cut: u32,
        pub next: u32,
        pub values: [u8; 8],
    }

    // The token count of a roll, or why it can't be read.
    pub fn read_roll(roll: &[u8]) -> Result<u32, Refused> {
        let mut answer = [0u8; 16];
        match unsafe { ergo_read_roll(roll.as_ptr(), length(roll), answer.as_mut_ptr(), length(&answer)) } {
            0 => Ok(word(&answer, 8)),
            number => Err(Refused { number, place: word(&answer, 4) }),
        }
    }

    // The token of the record at an offset, where the one before it ends at `previous`.
    pub fn read_record(roll: &[u8], at: u32, previous: u32) -> Result<Held, Refused> {
        let mut answer = [0u8; 40];
        match unsafe { ergo_read_record(roll.as_ptr(), length(roll), at, previous, answer.as_mut_ptr(), length(&answer)) } {
            0 => Ok(Held {
                kind: word(&answer, 8),
                start: word(&answer, 12),
                end: word(&answer, 16),
                cut: word(&answer, 20),
                next: word(&answer, 28),
                values: answer[32..].try_into().unwrap(),
            }),
            number => Err(Refused { number, place: word(&answer, 4) }),
        }
    }

    // The number handed back, and the place and the number of lines of the answer block.
    fn build(script: &[u8], index: &mut [u32]) -> (u32, u32, u32) {
        let mut answer = [0u8; 16];
        let (i, a) = (index.as_mut_ptr(), answer.as_mut_ptr());
        let number = unsafe { ergo_index_lines(script.as_ptr(), length(script), i, length(index), a, length(&answer)) };
        (number, word(&answer, 4), word(&answer, 8))
    }

    // The places where the lines of a script start: their number first, with no numbers lent, then an index of exactly that many.
    pub fn index(script: &[u8]) -> Result<Vec<u32>, Refused> {
        let (number, place, lines) = build(script, &mut []);
        if number != 26 {
            return Err(Refused { number, place });
        }
        let mut index = vec![0; lines as usize];
        match build(script, &mut index) {
            (0, _, _) => Ok(index),
            (number, _, _) => super::fail(&format!("refused {number} after the lines were counted")),
        }
    }

    // The line and the column of a place, by the index of the same script.
    pub fn line_column(script: &[u8], index: &[u32], place: u32) -> Result<(u32, u32), Refused> {
        let mut answer = [0u8; 16];
        let (i, a) = (index.as_ptr(), answer.as_mut_ptr());
        match unsafe { ergo_line_column(script.as_ptr(), length(script), i, length(index), place, a, length(&answer)) } {
            0 => Ok((word(&answer, 8), word(&answer, 12))),
            number => Err(Refused { number, place: word(&answer, 4) }),
        }
    }
}

// The bytes of a record before its values.
const HEAD: usize = 13;

// Ends the program where nothing can be answered. The status tells that from a refusal, whose status is 1.
fn fail(what: &str) -> ! {
    eprintln!("{what}");
    std::process::exit(2)
}

fn number(bytes: &[u8]) -> u64 {
    bytes.iter().rev().fold(0, |value, &byte| value << 8 | byte as u64)
}

// The line of a token. Behind the values may stand zeros.
fn line(kind: u32, start: u32, end: u32, cut: u32, values: &[u8]) -> String {
    match kind {
        4 | 5 | 17 => format!("{kind} {start} {end} {cut} {}\n", number(values)),
        6 => format!("{kind} {start} {end} {cut} {} {}\n", number(&values[..4]), number(&values[4..])),
        _ => format!("{kind} {start} {end} {cut}\n"),
    }
}

fn show_script(script: &[u8], records: &[u8]) -> Vec<u8> {
    let mut lines = String::new();
    let mut rest = records;
    while !rest.is_empty() {
        let (record, others) = rest.split_at(number(&rest[..2]) as usize);
        let (kind, start, end) = (number(&record[2..4]) as u32, number(&record[4..8]) as u32, number(&record[8..12]) as u32);
        lines += &line(kind, start, end, record[12] as u32, &record[HEAD..]);
        if ergo::text(script, start, end).is_none() {
            fail("a record without a text");
        }
        rest = others;
    }
    lines.into_bytes()
}

// Reads the whole roll first, so that a damaged one gives no line.
fn show_roll(roll: &[u8]) -> Result<Vec<u8>, ergo::Refused> {
    if u32::try_from(roll.len()).is_err() {
        fail("the roll is too long to be read in steps");
    }
    let count = ergo::read_roll(roll)?;
    let mut lines = String::new();
    let (mut at, mut previous) = (0, 0);
    for _ in 0..count {
        let Ok(held) = ergo::read_record(roll, at, previous) else { fail("refused after the whole roll was read") };
        lines += &line(held.kind, held.start, held.end, held.cut, &held.values);
        (at, previous) = (held.next, held.end);
    }
    if at as usize != roll.len() {
        fail("the last record is not at the roll's end");
    }
    Ok(lines.into_bytes())
}

fn show_place(script: &[u8], place: u32) -> Result<Vec<u8>, ergo::Refused> {
    let index = ergo::index(script)?;
    let (line, column) = ergo::line_column(script, &index, place)?;
    Ok(format!("line {line} column {column}\n").into_bytes())
}

// A place: decimal digits, and a number of 4 bytes.
fn read_place(text: &OsStr) -> Option<u32> {
    text.to_str().filter(|text| text.bytes().all(|byte| byte.is_ascii_digit()))?.parse().ok()
}

// What to do with the file.
enum Task {
    Tokens,
    Contact,
    Records,
    Roll,
    Place(u32),
}

// Writes all of it: what is left in a buffer could still fail.
fn write(bytes: &[u8]) {
    let mut out = std::io::stdout();
    if let Err(error) = out.write_all(bytes).and_then(|()| out.flush()) {
        fail(&format!("standard output: {error}"));
    }
}

fn main() {
    let arguments: Vec<_> = std::env::args_os().skip(1).collect();
    let task = match &arguments[..] {
        [path] => Some((Task::Tokens, path)),
        [option, path] if option == "--contact" => Some((Task::Contact, path)),
        [option, path] if option == "--records" => Some((Task::Records, path)),
        [option, path] if option == "--roll" => Some((Task::Roll, path)),
        [option, place, path] if option == "--place" => read_place(place).map(|place| (Task::Place(place), path)),
        _ => None,
    };
    let Some((task, path)) = task else { fail("usage: rust [--contact | --records | --roll | --place PLACE] FILE") };
    let file = std::fs::read(path).unwrap_or_else(|error| fail(&format!("{}: {error}", Path::new(path).display())));
    let answer = match task {
        Task::Tokens => ergo::tokenize(&file).map(|records| show_script(&file, &records)),
        Task::Contact => ergo::tokenize_contact(&file).map(|records| show_script(&file, &records)),
        Task::Records => ergo::tokenize(&file),
        Task::Roll => show_roll(&file),
        Task::Place(place) => show_place(&file, place),
    };
    match answer {
        Ok(bytes) => write(&bytes),
        Err(refused) => {
            let line = format!("refused {} at {}\n", refused.number, refused.place);
            if matches!(task, Task::Records) {
                eprint!("{line}"); // standard output is the roll, if there is one
            } else {
                write(line.as_bytes());
            }
            std::process::exit(1);
        }
    }
}
