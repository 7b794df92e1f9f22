// What a direction mark in a script changes nothing of: the roll of its published tokens is read back, whole and record by record, its lines are
// indexed, and line, column and token text are told at the mark. Lines and columns are counted here by Rust's own means.
use super::{kind, marks, records, shown, HEAD};
use published::token::{tokenize, Token};

#[link(name = "ergo", kind = "static")]
extern "C" {
    fn ergo_read_roll(roll: *const u8, n: u64, answer: *mut u8, k: u64) -> u32;
    fn ergo_read_record(roll: *const u8, n: u64, at: u32, previous: u32, answer: *mut u8, k: u64) -> u32;
    fn ergo_index_lines(script: *const u8, n: u64, index: *mut u32, m: u64, answer: *mut u8, k: u64) -> u32;
    fn ergo_line_column(script: *const u8, n: u64, index: *const u32, m: u64, place: u32, answer: *mut u8, k: u64) -> u32;
    fn ergo_token_text(script: *const u8, n: u64, start: u32, end: u32) -> u32;
}

fn block(words: &[u32]) -> Vec<u8> {
    words.iter().flat_map(|word| word.to_le_bytes()).collect()
}

// What is said of a script: the calls, and what differs.
#[derive(Default)]
pub struct Kept {
    pub calls: u64,
    pub rolls: u64,
    pub faults: Vec<String>,
}

impl Kept {
    fn same(&mut self, what: &str, script: &str, got: (u32, &[u8]), wanted: &[u8]) {
        self.calls += 1;
        if got.0 != 0 || got.1 != wanted {
            self.faults.push(format!("{what} of {}: number {}, {:?}, wanted {wanted:?}", shown(script.as_bytes()), got.0, got.1));
        }
    }

    fn record(&mut self, script: &str, roll: &[u8], at: usize, token: &Token, previous: u32) -> usize {
        let mut values = Vec::new();
        let kind = kind(script, token, &mut values);
        let next = at + HEAD + values.len();
        values.resize(8, 0);
        let words = [0, 0, kind as u32, token.start, token.end, token.bc_before as u32, 0, next as u32];
        let mut answer = [0xA5; 40];
        let number = unsafe { ergo_read_record(roll.as_ptr(), roll.len() as u64, at as u32, previous, answer.as_mut_ptr(), 40) };
        self.same("a record", script, (number, &answer), &[block(&words), values].concat());
        next
    }

    fn roll(&mut self, script: &str, tokens: &[Token]) {
        let roll = records(script, tokens);
        let mut answer = [0xA5; 16];
        let number = unsafe { ergo_read_roll(roll.as_ptr(), roll.len() as u64, answer.as_mut_ptr(), 16) };
        self.same("the roll", script, (number, &answer), &block(&[0, 0, tokens.len() as u32, roll.len() as u32]));
        let (mut at, mut previous) = (0, 0);
        for token in tokens {
            at = self.record(script, &roll, at, token, previous);
            previous = token.end;
        }
        self.rolls += 1;
    }

    fn position(&mut self, script: &str, index: &[u32], place: usize) {
        let before = &script[..place];
        let line = 1 + before.matches('\n').count();
        let column = 1 + before.rsplit('\n').next().unwrap_or_default().chars().count();
        let (s, n, m, mut answer) = (script.as_ptr(), script.len() as u64, index.len() as u64, [0xA5; 16]);
        let number = unsafe { ergo_line_column(s, n, index.as_ptr(), m, place as u32, answer.as_mut_ptr(), 16) };
        self.same("line and column", script, (number, &answer), &block(&[0, 0, line as u32, column as u32]));
    }

    fn lines(&mut self, script: &str, marks: &[usize]) {
        let starts: Vec<u32> = [0].into_iter().chain(script.match_indices('\n').map(|(at, _)| at as u32 + 1)).collect();
        let (s, n, mut answer) = (script.as_ptr(), script.len() as u64, [0xA5; 16]);
        let mut index = vec![0xA5A5_A5A5; starts.len()];
        let number = unsafe { ergo_index_lines(s, n, index.as_mut_ptr(), index.len() as u64, answer.as_mut_ptr(), 16) };
        let told = [&answer[..], &block(&index)].concat();
        self.same("the index", script, (number, &told), &block(&[&[0, 0, starts.len() as u32, 0], &starts[..]].concat()));
        for &at in marks {
            self.position(script, &index, at);
            self.position(script, &index, at + 3);
            let number = unsafe { ergo_token_text(s, n, at as u32, at as u32 + 3) };
            self.same("token text at a mark", script, (number, &[]), &[]);
        }
    }

    pub fn of(script: &[u8]) -> Kept {
        let mut kept = Kept::default();
        let Ok(script) = std::str::from_utf8(script) else { return kept };
        let marks: Vec<usize> = script.char_indices().filter(|&(_, c)| marks::is_mark(c)).map(|(at, _)| at).collect();
        if marks.is_empty() {
            return kept;
        }
        kept.lines(script, &marks);
        if let Ok(tokens) = tokenize(script) {
            kept.roll(script, &tokens);
        }
        kept
    }
}
