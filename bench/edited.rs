// The listing of the script on standard input, in one line: kind, start, end, cut and values of each record, or the refusal. For bench/edited.
use std::io::Read;

#[link(name = "ergo", kind = "static")]
extern "C" {
    fn ergo_tokenize(script: *const u8, n: u64, records: *mut u8, m: u64, answer: *mut u8, k: u64) -> u32;
}

fn main() {
    let mut script = Vec::new();
    std::io::stdin().read_to_end(&mut script).expect("a script");
    let mut records = vec![0u8; 17 * script.len() + 13];
    let mut answer = [0u8; 16];
    let (n, m) = (script.len() as u64, records.len() as u64);
    let number = unsafe { ergo_tokenize(script.as_ptr(), n, records.as_mut_ptr(), m, answer.as_mut_ptr(), 16) };
    let four = |bytes: &[u8], at: usize| u32::from_le_bytes(bytes[at..at + 4].try_into().unwrap());
    if number != 0 {
        println!("refused {number} at {}", four(&answer, 4));
        return;
    }
    let bytes = four(&answer, 12) as usize;
    let mut tokens = Vec::new();
    let mut at = 0;
    while at + 13 <= bytes {
        let record = &records[at..];
        let length = u16::from_le_bytes([record[0], record[1]]) as usize;
        let kind = u16::from_le_bytes([record[2], record[3]]);
        let mut token = format!("{kind} {} {} {}", four(record, 4), four(record, 8), record[12]);
        match (kind, length) {
            (4, 17) => token += &format!(" {}", four(record, 13)),
            (5, 21) | (6, 21) => token += &format!(" {} {}", four(record, 13), four(record, 17)),
            (17, 14) => token += &format!(" {}", record[13]),
            _ => {}
        }
        tokens.push(token);
        if length < 13 {
            break;
        }
        at += length;
    }
    println!("{}", tokens.join(", "));
}
