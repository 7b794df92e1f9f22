// Calls ergo_tokenize and then ergo_measure once on each file that is named, and prints each one's length and name. Built and run by bench/try, under
// callgrind.
#[link(name = "ergo", kind = "static")]
extern "C" {
    fn ergo_tokenize(script: *const u8, n: u64, records: *mut u8, m: u64, answer: *mut u8, k: u64) -> u32;
    fn ergo_measure(script: *const u8, n: u64, answer: *mut u8, k: u64) -> u32;
}

fn main() {
    for name in std::env::args().skip(1) {
        let script = std::fs::read(&name).expect("a file");
        let mut records = vec![0u8; 17 * script.len() + 13];
        let mut answer = [0u8; 16];
        let (n, m) = (script.len() as u64, records.len() as u64);
        let number = unsafe { ergo_tokenize(script.as_ptr(), n, records.as_mut_ptr(), m, answer.as_mut_ptr(), 16) };
        let mut need = [0u8; 32];
        let told = unsafe { ergo_measure(script.as_ptr(), n, need.as_mut_ptr(), 32) };
        assert_eq!((told, &need[4..16]), (number, &answer[4..16]), "{name}: measuring answers otherwise");
        let file = name.rsplit('/').next().unwrap_or("");
        if number == 0 {
            println!("{} {}", script.len(), file);
        } else {
            println!("{} {} (refused by {})", script.len(), file, number);
        }
    }
}
