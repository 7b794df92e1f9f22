// Compares ergo_tokenize, ergo_tokenize_contact, ergo_measure and ergo_token_text, the exports of crates/ergo, with the published tokenize of token.rs,
// and writes the list of answers that crates/replay replays and the listings that crates/listing_cases prints. Built and run by compare/tokenize.
//
//     tokenize [--count N] [--seed S]   compare, and print how many scripts were compared and how many differed; exit status 1 if any differed
//     tokenize --list                   print its part of what crates/replay/stdin is to hold; only the published source is asked
//     tokenize --cases                  print its part of what crates/listing_cases/stdin is to hold
//     tokenize --listing                print the listings of these, for crates/listing_cases/stdout; only the published source is asked
//
// Refusals 1 to 16, every record byte and the counts of measuring are judged by tokenize; 17 to 21, 27 to 29, the answer blocks and the bytes past
// the records by what RULES and REQUESTS say of them. tokenize takes direction marks, so its answer to a script that has one is not what is wanted: the
// first mark is searched for here (marks.rs). Its tokens of such a script are used for what marks do not change (kept.rs): there rolls and lines
// are asked too. Of the operator signs past ASCII it knows `⇒` alone: scripts with another one are judged by this program built a second time, over
// a copy of tokenize that has the others too, with `--cfg widened` (signs.rs). Each of the two leaves out what the other one judges.
#[cfg(whole)]
mod kept;
mod limits;
mod listing;
mod marks;
mod measure;
mod scripts;
mod signs;

use measure::Counts;
use published::error::ParseError;
use published::token::{tokenize, Kw, Token, TokenKind};
use scripts::{contract, Alphabet, Random, ALPHABETS, ROLES};
use std::io::Write;

#[cfg(linked)]
#[link(name = "ergo", kind = "static")]
extern "C" {
    fn ergo_tokenize(script: *const u8, n: u64, records: *mut u8, m: u64, answer: *mut u8, k: u64) -> u32;
    fn ergo_tokenize_contact(script: *const u8, n: u64, records: *mut u8, m: u64, answer: *mut u8, k: u64) -> u32;
    fn ergo_token_text(script: *const u8, n: u64, start: u32, end: u32) -> u32;
}

const LIMIT: usize = 16_777_216;

// Does this program judge the scripts with operator signs that the published tokenize does not know (signs.rs)?
const WIDENED: bool = cfg!(widened);

// REQUESTS, "Limits": those of a contact, and the record bytes that are enough for every one.
const CONTACT_BYTES: usize = 4096;
const CONTACT_TOKENS: u32 = 512;
const CONTACT_RECORDS: usize = 10_744;

// Which function a script is handed to.
#[derive(Clone, Copy, PartialEq)]
enum Entry {
    Compiler,
    Contact,
}

#[cfg(linked)]
const ENTRIES: [Entry; 2] = [Entry::Compiler, Entry::Contact];

// The lengths of records by RULES, "Record": of the head, before the values, and of the whole record of a kind with values.
const HEAD: usize = 13;
const INT_LIT: usize = HEAD + 4;
const NEWLINE: usize = HEAD + 1;

// RULES, "Record bound": the record bytes that are enough for every script of n bytes: a byte of script costs at most the record of an IntLit.
const fn bound(n: usize) -> usize {
    INT_LIT * n + HEAD
}

// What RULES asks for a script: the number, the place, the token count, the record bytes and the records.
#[derive(Default)]
struct Wanted {
    length: usize, // of the script
    number: u32,
    place: u32,
    tokens: u32,
    bytes: u32,
    records: Vec<u8>,
    counts: Counts,
}

// The sixteen messages of tokenize, in the order of RULES, "Refusals of a piece".
const MESSAGES: [&str; 16] = [
    "lone carriage return (\\r) outside string/comment",
    "unterminated block comment",
    "unexpected character ",
    "unterminated backtick identifier",
    "empty backtick identifier",
    "integer literal out of range",
    "unterminated string literal",
    "newline in single-quoted string",
    "unterminated triple-quoted string",
    "backslash in triple-quoted string",
    "string interpolation block not supported",
    "unterminated escape sequence",
    "invalid unicode escape",
    "invalid escape sequence",
    "expected closing ' after character escape",
    "expected char or symbol after `'`",
];

// The number of a message. Only the third goes on, with the character.
fn refusal(message: &str) -> u32 {
    let same = |(i, &m): (usize, &&str)| if i == 2 { message.starts_with(m) } else { message == m };
    let found = MESSAGES.iter().enumerate().position(same);
    1 + found.unwrap_or_else(|| panic!("a message of tokenize that is not among the sixteen: {message}")) as u32
}

fn keyword(k: Kw) -> u16 {
    match k {
        Kw::Case => 32,
        Kw::Else => 33,
        Kw::False => 34,
        Kw::Function => 35,
        Kw::If => 36,
        Kw::Match => 37,
        Kw::Return => 38,
        Kw::Then => 39,
        Kw::True => 40,
        Kw::Colon => 41,
        Kw::FatArrow => 42,
        Kw::Assign => 43,
        Kw::Hash => 44,
        Kw::At => 45,
    }
}

// Where a string's content starts and ends: of a plain one, while its text starts with a quote, that quote is dropped and each time a last
// one too, if one is left. Of a prefixed one it is all the text.
fn content(text: &[u8], start: usize) -> (u32, u32) {
    let (mut from, mut to) = (0, text.len());
    while from < to && text[from] == b'"' {
        from += 1;
        if from < to && text[to - 1] == b'"' {
            to -= 1;
        }
    }
    ((start + from) as u32, (start + to) as u32)
}

// The kind number of a token and the values of its record.
fn kind(script: &str, token: &Token, values: &mut Vec<u8>) -> u16 {
    match &token.kind {
        TokenKind::Ident => 1,
        TokenKind::OpId => 2,
        TokenKind::BacktickId => 3,
        TokenKind::IntLit(value) => {
            values.extend(u32::try_from(*value).unwrap().to_le_bytes());
            4
        }
        TokenKind::LongLit(value) => {
            values.extend(u64::try_from(*value).unwrap().to_le_bytes());
            5
        }
        TokenKind::Str(value) => {
            let (from, to) = content(token.text(script).as_bytes(), token.start as usize);
            assert_eq!(&script[from as usize..to as usize], value, "the content by the rules is not tokenize's value");
            values.extend(from.to_le_bytes());
            values.extend(to.to_le_bytes());
            6
        }
        TokenKind::CharSym(value) => {
            assert_eq!(token.text(script), value);
            7
        }
        TokenKind::LParen => 8,
        TokenKind::RParen => 9,
        TokenKind::LBracket => 10,
        TokenKind::RBracket => 11,
        TokenKind::LBrace => 12,
        TokenKind::RBrace => 13,
        TokenKind::Comma => 14,
        TokenKind::Semi => 15,
        TokenKind::Dot => 16,
        TokenKind::Newline { after_comment } => {
            values.push(*after_comment as u8);
            17
        }
        TokenKind::Eof => 18,
        TokenKind::Kw(k) => keyword(*k),
    }
}

fn records(script: &str, tokens: &[Token]) -> Vec<u8> {
    let mut out = Vec::with_capacity(tokens.len() * NEWLINE + 16);
    let mut values = Vec::new();
    for token in tokens {
        values.clear();
        let kind = kind(script, token, &mut values);
        out.extend(((HEAD + values.len()) as u16).to_le_bytes());
        out.extend(kind.to_le_bytes());
        out.extend(token.start.to_le_bytes());
        out.extend(token.end.to_le_bytes());
        out.push(token.bc_before as u8);
        out.extend_from_slice(&values);
    }
    out
}

fn refused(number: u32, place: usize) -> Wanted {
    Wanted { number, place: place as u32, ..Wanted::default() }
}

fn wanted(script: &[u8]) -> Wanted {
    Wanted { length: script.len(), ..answered(script) }
}

fn answered(script: &[u8]) -> Wanted {
    if script.len() > LIMIT {
        return refused(17, 0);
    }
    let text = match std::str::from_utf8(script) {
        Ok(text) => text,
        Err(e) => return refused(18, e.valid_up_to()),
    };
    if let Some(place) = marks::first_mark(text) {
        return refused(29, place);
    }
    match tokenize(text) {
        Ok(tokens) => {
            let records = records(text, &tokens);
            assert!(records.len() <= bound(script.len()), "more record bytes than the bound");
            Wanted { tokens: tokens.len() as u32, bytes: records.len() as u32, records, counts: Counts::of(&tokens), ..Wanted::default() }
        }
        Err(ParseError::Lexical { pos, msg }) => refused(refusal(&msg), pos as usize),
        Err(other) => panic!("tokenize refused otherwise than by a lexical error: {other:?}"),
    }
}

impl Wanted {
    // The number for a records buffer and an answer block of these lengths.
    fn number_at(&self, entry: Entry, lent: usize, block: usize) -> u32 {
        let contact = entry == Entry::Contact;
        if block != 16 {
            20
        } else if contact && self.length > CONTACT_BYTES && self.length <= LIMIT {
            27
        } else if self.number != 0 {
            self.number
        } else if contact && self.tokens > CONTACT_TOKENS {
            28
        } else if self.bytes as usize > lent {
            19
        } else {
            0
        }
    }

    fn block(&self, number: u32) -> Vec<u8> {
        let words = match number {
            27 | 28 => [number, 0, 0, 0],
            _ => [number, self.place, self.tokens, self.bytes],
        };
        words.iter().flat_map(|word| word.to_le_bytes()).collect()
    }
}

fn shown(script: &[u8]) -> String {
    let cut = script.len().min(300);
    let more = if cut < script.len() { format!(".. ({} bytes)", script.len()) } else { String::new() };
    format!("`{}`{more}", script[..cut].escape_ascii())
}

#[cfg(linked)]
mod compare {
    use super::*;
    use measure::Told;
    use std::sync::atomic::{AtomicU64, Ordering};

    // Bytes that every lent buffer and block holds before a call, and a few behind its end. Two calls with masks 0 and 255 agree at no byte,
    // so that an unwritten one shows.
    pub fn fill(bytes: &mut Vec<u8>, length: usize, mask: u8) {
        bytes.clear();
        bytes.extend((0..length + BEHIND).map(|i| (i as u8).wrapping_mul(29) ^ mask ^ 0x5A));
    }

    // A block as four or eight numbers, one of another length as bytes.
    pub fn words(block: &[u8]) -> String {
        if block.len() != 16 && block.len() != measure::BLOCK {
            return format!("{block:?}");
        }
        let words: Vec<u32> = block.chunks(4).map(|word| u32::from_le_bytes(word.try_into().unwrap())).collect();
        format!("{words:?}")
    }

    const BEHIND: usize = 8;
    const MOST_SHOWN: u64 = 4; // of a part

    #[derive(Default)]
    pub struct Bench {
        scripts: u64,
        accepted: u64, // of the scripts that were tokenized
        marked: u64,   // scripts that 29 refuses
        calls: u64,
        measured: u64, // of the calls, those of ergo_measure
        differed: u64, // scripts
        faults: u64,   // calls
        measure_faults: u64,
        rolls: u64,      // of scripts with marks, read back
        greatest: usize, // need of a contact
        numbers: [u64; 30],
        shown: Vec<String>,
        lent: Vec<u8>,
        before: Vec<u8>,
        block: Vec<u8>,
        block_before: Vec<u8>,
    }

    impl Bench {
        fn note(&mut self, what: String) {
            self.faults += 1;
            if self.faults <= MOST_SHOWN {
                self.shown.push(what);
            }
        }

        // Counts a script that 29 refuses.
        fn marked(&mut self, want: &Wanted) {
            self.marked += (want.number == 29) as u64;
        }

        // Counts a script, and whether any of its calls differs.
        fn counted(&mut self, calls: impl FnOnce(&mut Self)) {
            let before = self.faults;
            calls(self);
            self.scripts += 1;
            self.differed += (self.faults > before) as u64;
        }

        // One call: the number handed back, every byte of the block and of the records buffer, and the bytes behind both.
        fn call(&mut self, entry: Entry, script: &[u8], want: &Wanted, lent: usize, block: usize, mask: u8) {
            self.calls += 1;
            fill(&mut self.before, lent, mask);
            fill(&mut self.block_before, block, !mask);
            self.lent.clone_from(&self.before);
            self.block.clone_from(&self.block_before);
            let (r, a) = (self.lent.as_mut_ptr(), self.block.as_mut_ptr());
            let tokenize = match entry {
                Entry::Compiler => ergo_tokenize,
                Entry::Contact => ergo_tokenize_contact,
            };
            let got = unsafe { tokenize(script.as_ptr(), script.len() as u64, r, lent as u64, a, block as u64) };
            let number = want.number_at(entry, lent, block);
            self.numbers[number as usize] += 1;
            if number == 0 {
                self.before[..want.records.len()].copy_from_slice(&want.records);
            }
            if number != 20 {
                self.block_before[..16].copy_from_slice(&want.block(number));
            }
            if got == number && self.lent == self.before && self.block == self.block_before {
                return;
            }
            let at = self.lent.iter().zip(&self.before).position(|(x, y)| x != y);
            let bytes = match at {
                Some(i) => format!("buffer byte {i} is {}, wanted {}", self.lent[i], self.before[i]),
                None => "buffer as wanted".into(),
            };
            let (block, block_wanted) = (words(&self.block[..block]), words(&self.block_before[..block]));
            let name = if entry == Entry::Contact { ", a contact" } else { "" };
            self.note(format!("{}{name}, {lent} lent: number {got}, wanted {number}; block {block}, wanted {block_wanted}; {bytes}", shown(script)));
        }

        // One call of ergo_measure, with a block of this length.
        fn measure(&mut self, script: &[u8], want: &Told, block: usize, mask: u8) {
            self.calls += 1;
            self.measured += 1;
            self.numbers[measure::number(want, block) as usize] += 1;
            if let Some(what) = measure::fault(script, want, block, mask) {
                self.measure_faults += 1;
                self.note(what);
            }
        }

        // A script, by both functions, with a buffer that is ample, and once more with a buffer or a block that its number chooses. It is measured in a
        // block whose old bytes its number chooses, and every eighth once more in a block of some other length.
        pub fn script(&mut self, script: &[u8], number: u64) {
            if !signs::is_judged(script) {
                return;
            }
            let want = wanted(script);
            let need = want.bytes as usize;
            self.marked(&want);
            self.accepted += (want.number == 0) as u64;
            let ample = if want.number == 0 { need + 5 } else { bound(script.len()) };
            let (lent, block) = match number % 8 {
                0 | 1 => (need.saturating_sub(1), 16),
                2 => (need + 1, 16),
                3 => (0, 16),
                4 => (need, (number / 8 % 41) as usize),
                _ => (need, 16),
            };
            let (told, mask) = (want.told(), number as u8);
            self.counted(|bench| {
                for entry in ENTRIES {
                    bench.call(entry, script, &want, ample, 16, 0);
                    bench.call(entry, script, &want, lent, block, 255);
                }
                bench.measure(script, &told, measure::BLOCK, mask);
                if number % 8 == 4 {
                    bench.measure(script, &told, block, !mask);
                }
            });
        }

        // Every length of buffer up to one over what is needed, and every length of block up to 40 bytes.
        pub fn lengths(&mut self, script: &[u8]) {
            if !signs::is_judged(script) {
                return;
            }
            let want = wanted(script);
            let need = want.bytes as usize;
            self.marked(&want);
            self.counted(|bench| {
                for entry in ENTRIES {
                    for lent in 0..=need + 1 {
                        bench.call(entry, script, &want, lent, 16, 0);
                        bench.call(entry, script, &want, lent, 16, 255);
                    }
                    for block in 0..=40 {
                        for lent in [0, need.saturating_sub(1), need, need + 1] {
                            bench.call(entry, script, &want, lent, block, 0);
                        }
                    }
                }
                for block in 0..=40 {
                    bench.measure(script, &want.told(), block, 0);
                    bench.measure(script, &want.told(), block, 255);
                }
            });
        }

        // The token text of one place and another.
        fn text(&mut self, script: &[u8], start: u32, end: u32) {
            self.calls += 1;
            let n = script.len();
            let inside = |at: u32| script.get(at as usize).is_some_and(|b| (0x80..=0xBF).contains(b));
            let good = start <= end && end as usize <= n && !inside(start) && !inside(end);
            let number = if good { 0 } else { 21 };
            if let Ok(text) = std::str::from_utf8(script) {
                assert_eq!(good, text.get(start as usize..end as usize).is_some(), "the rule for token text is not that of str::get");
            }
            self.numbers[number as usize] += 1;
            let got = unsafe { ergo_token_text(script.as_ptr(), n as u64, start, end) };
            if got != number {
                self.note(format!("token text of {} from {start} to {end}: {got}, wanted {number}", shown(script)));
            }
        }

        // Every two places up to two past the end, and some far past it.
        pub fn texts(&mut self, script: &[u8]) {
            let far = [u32::MAX - 1, u32::MAX, 1 << 31, LIMIT as u32];
            let places: Vec<u32> = (0..script.len() as u32 + 3).chain(far).collect();
            self.counted(|bench| {
                for &start in &places {
                    for &end in &places {
                        bench.text(script, start, end);
                    }
                }
            });
        }

        // No bytes at no address.
        pub fn nulls(&mut self) {
            self.counted(Bench::null_calls);
        }

        fn null_calls(&mut self) {
            let null = std::ptr::null_mut();
            for tokenize in [ergo_tokenize, ergo_tokenize_contact] {
                let mut block = [9u8; 16];
                let number = unsafe { tokenize(null, 0, null, 0, block.as_mut_ptr(), 16) };
                if number != 19 || block != [19, 0, 0, 0, 0, 0, 0, 0, 1, 0, 0, 0, HEAD as u8, 0, 0, 0] {
                    self.note(format!("empty script and buffer at null: {number}, {block:?}"));
                }
                let number = unsafe { tokenize(null, 0, null, 0, null, 0) };
                if number != 20 {
                    self.note(format!("empty block at null: {number}"));
                }
            }
            if unsafe { ergo_token_text(null, 0, 0, 0) } != 0 || unsafe { ergo_token_text(null, 0, 0, 1) } != 21 {
                self.note("empty text at null".into());
            }
            if let Some(what) = measure::null_fault() {
                self.measure_faults += 1;
                self.note(what);
            }
            self.calls += 8;
            self.measured += 2;
        }

        // A script with what is to be told of it, in blocks of several lengths, each with several old bytes.
        pub fn told(&mut self, script: &[u8], want: &Told) {
            self.counted(|bench| {
                for block in measure::LENGTHS {
                    for mask in [0, 85, 170, 255] {
                        bench.measure(script, want, block, mask);
                    }
                }
            });
        }

        // What the other exports say of a script with a mark.
        #[cfg(whole)]
        pub fn kept(&mut self, script: &[u8]) {
            if !signs::is_judged(script) {
                return;
            }
            let kept = kept::Kept::of(script);
            if kept.calls == 0 {
                return;
            }
            self.calls += kept.calls;
            self.rolls += kept.rolls;
            self.counted(|bench| kept.faults.into_iter().for_each(|what| bench.note(what)));
        }

        // A script at a contact's limits, with what it needs and with what is enough for every contact.
        pub fn limit(&mut self, script: &[u8]) {
            let want = wanted(script);
            let need = want.bytes as usize;
            if want.tokens <= CONTACT_TOKENS {
                assert!(need <= CONTACT_RECORDS, "a contact needs more than {CONTACT_RECORDS} bytes: {}", shown(script));
                self.greatest = self.greatest.max(need);
            }
            let lengths = [(need, 16), (need.saturating_sub(1), 16), (0, 16), (CONTACT_RECORDS, 16), (need, 15)];
            self.at(script, &want, &lengths, &[0, 255]);
        }

        // Calls of both functions with buffers and blocks of given lengths, and of ergo_measure.
        pub fn at(&mut self, script: &[u8], want: &Wanted, lengths: &[(usize, usize)], masks: &[u8]) {
            self.marked(want);
            self.counted(|bench| {
                for entry in ENTRIES {
                    for &(lent, block) in lengths {
                        for &mask in masks {
                            bench.call(entry, script, want, lent, block, mask);
                        }
                    }
                }
                for &mask in masks {
                    bench.measure(script, &want.told(), measure::BLOCK, mask);
                }
            });
        }

        fn join(&mut self, other: Bench) {
            self.scripts += other.scripts;
            self.accepted += other.accepted;
            self.marked += other.marked;
            self.calls += other.calls;
            self.measured += other.measured;
            self.differed += other.differed;
            self.faults += other.faults;
            self.measure_faults += other.measure_faults;
            self.rolls += other.rolls;
            self.greatest = self.greatest.max(other.greatest);
            self.shown.extend(other.shown);
            for (mine, theirs) in self.numbers.iter_mut().zip(other.numbers) {
                *mine += theirs;
            }
        }

        fn say_shown(&self) {
            for what in self.shown.iter().take(MOST_SHOWN as usize) {
                println!("differs: {what}");
            }
        }

        pub fn say(&self, name: &str) {
            let some = |count, what: &str| if count > 0 { format!(", {count} {what}") } else { String::new() };
            let (accepted, marked) = (some(self.accepted, "of them accepted"), some(self.marked, "refused by 29"));
            println!("{name}: {} scripts compared{accepted}{marked}, {} calls, {} differed", self.scripts, self.calls, self.differed);
        }

        pub fn say_numbers(&self) {
            let met: Vec<String> = (0..22).chain(27..30).map(|n| format!("{n}: {}", self.numbers[n])).collect();
            println!("numbers wanted, with how many calls each: {}", met.join(", "));
            println!("ergo_measure: {} of the calls, {} differed", self.measured, self.measure_faults);
            let read = if cfg!(whole) { format!(", and {} rolls of such read back", self.rolls) } else { String::new() };
            println!("scripts with direction marks: {} refused by 29{read}", self.marked);
            if !WIDENED {
                println!("the greatest need of a contact at the limits: {} record bytes", self.greatest);
                assert_eq!(self.greatest, CONTACT_RECORDS, "what is enough for every contact is more than any needs");
            }
        }

        pub fn same(&self) -> bool {
            self.faults == 0
        }
    }

    // Runs a part's scripts, numbered from 0, on all cores, prints its line, and adds it to what was compared in all.
    pub fn part(all: &mut Bench, name: &str, scripts: u64, each: impl Fn(&mut Bench, u64) + Sync) {
        let threads = std::thread::available_parallelism().map_or(1, |n| n.get());
        let next = AtomicU64::new(0);
        let work = || {
            let mut bench = Bench::default();
            loop {
                let first = next.fetch_add(512, Ordering::Relaxed);
                if first >= scripts {
                    return bench;
                }
                for number in first..scripts.min(first + 512) {
                    each(&mut bench, number);
                }
            }
        };
        let mut sum = Bench::default();
        std::thread::scope(|scope| {
            let started: Vec<_> = (0..threads).map(|_| scope.spawn(&work)).collect();
            for thread in started {
                sum.join(thread.join().unwrap());
            }
        });
        sum.say_shown();
        if sum.scripts > 0 {
            sum.say(name);
        }
        all.join(sum);
    }
}

// The characters that are walked one by one: all up to U+FFFF, and every 61st above.
fn character(number: u64) -> char {
    let code = match number as u32 {
        n @ 0..=0xD7FF => n,
        n @ 0xD800..=0xF7FF => n + 0x800,
        n => 0x10000 + (n - 0xF800) * 61,
    };
    char::from_u32(code).unwrap()
}

const LOW_CHARACTERS: u64 = 63_488;
#[cfg(linked)]
const CHARACTERS: u64 = LOW_CHARACTERS + 0x10_0000 / 61;

// Those of the examples that are refused by 1 to 16, in this order.
const REFUSED: std::ops::Range<usize> = 21..37;

// The examples of RULES: "Marked scripts", "Refusals of a piece" and "Listing".
const EXAMPLES: [&str; 44] = [
    "",
    "0x",
    "0x80000000",
    "0x80000000L",
    "a_//",
    "_+",
    "__+",
    "=//",
    "= //",
    "\n/**/x",
    "\n/**/\nx",
    "\"\"\"a\"\"\"\"",
    "\"\"\"\"a\"\"\"",
    "'''",
    "''",
    "a\"\\\"",
    "\"\\\"",
    "/*/",
    "/*/**/*/",
    "\u{4E00}",
    "a\u{4E00}",
    "a\rb",
    "x /* /* */",
    "a\u{20AC}",
    "`ab",
    "``",
    "7+2147483648",
    "\"str",
    "\"a\n",
    "\"\"\"a\"",
    "\"\"\"a\\",
    "s\"${",
    "\"\\",
    "\"\\u12G4\"",
    "\"\\\\\"",
    "'\\nx",
    "'(x",
    "a",
    "ab",
    "x = 7 // n\n\"a\"",
    "if (HEIGHT > 100) alice else bob",
    "\u{2170}\u{2170}",
    "\"\\999\"",
    "case\"x\"",
];

#[cfg(linked)]
fn random_script(seed: u64, number: u64) -> (Random, Vec<u8>) {
    let mut random = Random(seed ^ number.wrapping_mul(0xD6E8_FEB8_6659_FD93));
    let length = random.below(4001);
    let mut script = contract(&mut random, length);
    script.truncate(4000);
    (random, script)
}

// Scripts as long as they may be and one byte longer. The one of line ends has 16,777,217 tokens, for which tokenize takes some gigabytes.
#[cfg(linked)]
fn long_scripts(bench: &mut compare::Bench) {
    let pieces: [&[u8]; 12] =
        [b" ", b"a", b"_", b"+", b"\"", b"/", b"/*", b"1", b"'", b"if (x) \"y\" else 42; // z\n/* c */ ", "\u{4E00}".as_bytes(), b"`"];
    let mut scripts: Vec<Vec<u8>> = pieces.iter().map(|piece| piece.iter().cycle().take(LIMIT + 1).copied().collect()).collect();
    scripts.push(b"a_".iter().copied().chain("\u{4E00}".bytes().cycle().take(LIMIT - 4)).chain(*b"++").collect());
    scripts.push(b"0".iter().cycle().take(LIMIT - 2).copied().chain(*b"1L").collect());
    scripts.push(b"\"\"\"".iter().copied().chain("\u{1F600}".bytes().cycle().take(LIMIT - 8)).chain(*b"\"\"\"\"\"").collect());
    scripts.push(vec![b'\n'; LIMIT + 1]);
    let mut spoilt = vec![b' '; LIMIT + 1];
    spoilt[LIMIT - 1] = 0xE4;
    scripts.push(spoilt.clone());
    // 17 goes before 29 and 29 behind 18, however far the mark stands from the end.
    let mark = "\u{202E}".as_bytes();
    scripts.push([mark, &spoilt[3..]].concat());
    scripts.push([mark, &vec![b' '; LIMIT - 2]].concat());
    scripts.push([&vec![b' '; LIMIT - 3], mark, b" "].concat());
    scripts.push("\u{4E00}".bytes().cycle().take(LIMIT - 4).chain(*b" ").chain(mark.iter().copied()).chain(*b" ").collect());
    for script in &scripts {
        let longest = &script[..script.len().min(LIMIT)];
        let want = wanted(longest);
        let need = want.bytes as usize;
        bench.at(longest, &want, &[(need, 16), (need.saturating_sub(1), 16), (0, 15)], &[0]);
        if script.len() > LIMIT {
            bench.at(script, &wanted(script), &[(64, 16), (0, 16), (0, 15)], &[0]);
        }
    }
}

// Short texts, all of each sort.
#[cfg(linked)]
fn compare_short(all: &mut compare::Bench) {
    use compare::part;
    for alphabet in &ALPHABETS {
        let name = format!("every text of up to {} of {} pieces, {}", alphabet.length, alphabet.pieces.len(), alphabet.name);
        part(all, &name, alphabet.texts(), |bench, i| {
            let mut script = Vec::new();
            alphabet.text(i, &mut script);
            bench.script(&script, i);
        });
    }
    part(all, "every text of three ASCII characters", 1 << 21, |bench, i| bench.script(&[(i >> 14) as u8, (i >> 7) as u8 & 127, i as u8 & 127], i));
    part(all, "every sequence of two bytes", 1 << 16, |bench, i| bench.script(&[(i >> 8) as u8, i as u8], i));
    let name = format!("each of {CHARACTERS} characters, all up to U+FFFF, in {} roles", ROLES.len());
    part(all, &name, CHARACTERS * ROLES.len() as u64, |bench, i| {
        let (before, after) = ROLES[(i / CHARACTERS) as usize];
        bench.script(format!("{before}{}{after}", character(i % CHARACTERS)).as_bytes(), i);
    });
}

#[cfg(linked)]
fn compare_random(all: &mut compare::Bench, count: u64, seed: u64) {
    use compare::part;
    part(all, &format!("random texts, seed {seed}"), count, |bench, i| bench.script(&random_script(seed, i).1, i));
    part(all, &format!("damaged random texts, seed {seed}"), 3 * count, |bench, i| {
        let (mut random, script) = random_script(seed, i / 3);
        random.0 ^= i % 3;
        bench.script(&scripts::damaged(&mut random, &script), i);
    });
    part(all, &format!("random texts with direction marks and their neighbours, seed {seed}"), count, |bench, i| {
        let (mut random, script) = random_script(!seed, i);
        let script = marks::marked(&mut random, &script);
        bench.script(&if i % 4 == 0 { scripts::damaged(&mut random, &script) } else { script }, i);
    });
    part(all, &format!("random texts with operator signs past ASCII and characters like them, seed {seed}"), count, |bench, i| {
        let (mut random, script) = random_script(seed.rotate_left(32), i);
        let script = signs::signed(&mut random, &script);
        bench.script(&if i % 4 == 0 { scripts::damaged(&mut random, &script) } else { script }, i);
    });
    part(all, "random texts, each length of buffer and block", 40, |bench, i| {
        let mut random = Random(seed ^ i);
        bench.lengths(&contract(&mut random, i as usize));
    });
}

// What no reader is asked for.
#[cfg(linked)]
fn compare_others(all: &mut compare::Bench, count: u64, seed: u64) {
    use compare::part;
    part(all, "no bytes at no address", 1, |bench, _| bench.nulls());
    part(all, "token texts at every two places", count / 50, |bench, i| {
        let mut random = Random(!seed ^ i);
        let length = random.below(30);
        let script = contract(&mut random, length);
        let script = match i % 3 {
            0 => script,
            1 => scripts::damaged(&mut random, &script),
            _ => marks::marked(&mut random, &script),
        };
        bench.texts(&script[..script.len().min(60)]);
    });
    let cases = measure::cases();
    part(all, "measured, counted by hand", cases.len() as u64, |bench, i| {
        let (script, want) = &cases[i as usize];
        bench.told(script, want);
    });
}

// Scripts with operator signs past ASCII, and with characters that are like them.
#[cfg(linked)]
fn compare_signs(all: &mut compare::Bench) {
    use compare::part;
    let mut each = |name: &str, list: Vec<Vec<u8>>| part(all, name, list.len() as u64, |bench, i| bench.script(&list[i as usize], i));
    each("operator signs and characters like them in each kind of piece", signs::in_places());
    each("the ends of each range of operator signs, and the codes beside them", signs::at_ends());
    each("operator signs before and behind what is refused by 1 to 16", signs::beside_refused());
    let places = signs::in_places();
    part(all, "operator signs, each length of buffer and block", places.len() as u64 / 7, |bench, i| bench.lengths(&places[7 * i as usize]));
}

// Scripts with direction marks and their neighbours.
#[cfg(linked)]
fn compare_marks(all: &mut compare::Bench) {
    use compare::part;
    let mut each = |name: &str, list: Vec<Vec<u8>>| part(all, name, list.len() as u64, |bench, i| bench.script(&list[i as usize], i));
    each("direction marks and their neighbours in each kind of piece", marks::in_pieces());
    each("before and behind what is refused by 1 to 16 and 18", [marks::beside_refused(), marks::pieces_beside_refused()].concat());
    each("at each offset, beside characters of each width", marks::at_offsets());
    each("marks before bytes that are no UTF-8", marks::before_spoilt());
    part(all, "every two pieces with marks or neighbours", marks::PAIRS, |bench, i| bench.script(&marks::pair(i), i));
    part(all, "every three bytes that begin as a character of three, alone and beside others", marks::THREES, |bench, i| {
        bench.script(&marks::three(i), i)
    });
    let pieces = marks::in_pieces();
    part(all, "marks and neighbours, each length of buffer and block", pieces.len() as u64 / 7, |bench, i| bench.lengths(&pieces[7 * i as usize]));
}

// What is kept of them: rolls, lines and token texts.
#[cfg(whole)]
fn compare_kept(all: &mut compare::Bench, count: u64, seed: u64) {
    use compare::part;
    part(all, "roll, lines and token texts of every two pieces with marks", marks::PAIRS, |bench, i| bench.kept(&marks::pair(i)));
    part(all, &format!("roll, lines and token texts of random texts with marks, seed {seed}"), count / 4, |bench, i| {
        let (mut random, script) = random_script(!seed, i);
        bench.kept(&marks::marked(&mut random, &script));
    });
}

#[cfg(all(linked, not(whole)))]
fn compare_kept(_: &mut compare::Bench, _: u64, _: u64) {}

#[cfg(linked)]
fn compare_all(count: u64, seed: u64) {
    use compare::{part, Bench};
    let mut all = Bench::default();
    part(&mut all, "the rules' examples, each length of buffer and block", EXAMPLES.len() as u64, |bench, i| {
        bench.lengths(EXAMPLES[i as usize].as_bytes())
    });
    compare_short(&mut all);
    compare_marks(&mut all);
    compare_signs(&mut all);
    compare_random(&mut all, count, seed);
    compare_kept(&mut all, count, seed);
    if !WIDENED {
        compare_others(&mut all, count, seed);
        let contacts = limits::compared();
        part(&mut all, "scripts at a contact's limits", contacts.len() as u64, |bench, i| bench.limit(&contacts[i as usize]));
        part(&mut all, "scripts of 16,777,216 and 16,777,217 bytes", 1, |bench, _| long_scripts(bench));
    }
    all.say_numbers();
    all.say(if WIDENED { "in all, with an operator sign that is not published" } else { "in all" });
    if !all.same() {
        std::process::exit(1);
    }
}

#[cfg(not(linked))]
fn compare_all(_count: u64, _seed: u64) {
    eprintln!("tokenize: built without the static library; only --list, --cases and --listing are there");
    std::process::exit(2);
}

// One case of the list that crates/replay/src/main.rt replays, whose format is written there.
fn put_case(out: &mut Vec<u8>, entry: Entry, script: &[u8], want: &Wanted, lent: usize) -> u32 {
    let number = want.number_at(entry, lent, 16);
    out.extend((script.len() as u32).to_le_bytes());
    out.extend((lent as u32).to_le_bytes());
    out.extend((entry as u32).to_le_bytes());
    out.extend(want.block(number));
    out.extend_from_slice(script);
    if number == 0 {
        out.extend_from_slice(&want.records);
    }
    number
}

// Awkward characters of every sort.
const AWKWARD: &[&str] = &["\"", "'", "`", "\\", "/", "*", "\n", "\r", "_", "a", "=", "0", "{", "$", "\u{21D2}"];

// Every text of up to so many pieces.
fn put_texts(list: &mut Vec<Vec<u8>>, pieces: &'static [&'static str], length: u32) {
    let alphabet = Alphabet { name: "", pieces, length };
    for number in 0..alphabet.texts() {
        let mut script = Vec::new();
        alphabet.text(number, &mut script);
        list.push(script);
    }
}

// The scripts of the list: the examples, each byte, every short text of some alphabets, some wide characters in each role, random texts, direction
// marks and their neighbours in each piece and beside each refusal, and operator signs past ASCII with what is like them and beside their ranges.
fn listed_scripts() -> Vec<Vec<u8>> {
    let mut list: Vec<Vec<u8>> = EXAMPLES.iter().map(|text| text.as_bytes().to_vec()).collect();
    list.extend((0..=255).map(|byte| vec![byte]));
    put_texts(&mut list, AWKWARD, 3);
    for alphabet in &ALPHABETS {
        put_texts(&mut list, alphabet.pieces, 2);
    }
    for alphabet in ALPHABETS.iter().filter(|alphabet| ["prefixed strings", "escapes of characters"].contains(&alphabet.name)) {
        put_texts(&mut list, alphabet.pieces, 3);
    }
    for number in (0..LOW_CHARACTERS).step_by(997) {
        list.extend(ROLES.iter().map(|(before, after)| format!("{before}{}{after}", character(number)).into_bytes()));
    }
    for number in 0..600 {
        let mut random = Random(number);
        let script = contract(&mut random, number as usize / 4);
        if number % 3 == 0 {
            list.push(scripts::damaged(&mut random, &script));
        }
        list.push(script);
    }
    list.extend(marks::listed());
    list.extend(signs::listed());
    list
}

// Of the accepted ones every fourth is lent a byte too little, and every fourth a few bytes more than it needs. Every third is a contact, and so are
// all at the limits of one, which are lent what is enough for every contact, and, where tokenize takes them, a byte too little and nothing.
fn print_list() {
    let mut out = Vec::new();
    let (mut cases, mut marked) = (0, 0);
    let mut put = |entry, script: &[u8], want: &Wanted, lent| {
        let number = put_case(&mut out, entry, script, want, lent);
        cases += 1;
        marked += (number == 29) as u32;
    };
    for (i, script) in listed_scripts().iter().enumerate() {
        if !signs::is_judged(script) {
            continue;
        }
        let want = wanted(script);
        let lent = match i % 4 {
            0 if want.bytes > 0 => want.bytes as usize - 1,
            1 => want.bytes as usize + 7,
            _ => want.bytes as usize,
        };
        let entry = if i % 3 == 2 { Entry::Contact } else { Entry::Compiler };
        put(entry, script, &want, lent);
    }
    for script in limits::listed().iter().filter(|script| signs::is_judged(script)) {
        let want = wanted(script);
        put(Entry::Contact, script, &want, CONTACT_RECORDS);
        if want.number == 0 {
            if want.bytes as usize <= CONTACT_RECORDS {
                put(Entry::Contact, script, &want, want.bytes as usize - 1);
            }
            put(Entry::Contact, script, &want, 0);
        }
        // What the compiler takes beyond them.
        if want.number == 0 && want.number_at(Entry::Contact, CONTACT_RECORDS, 16) != 0 {
            put(Entry::Compiler, script, &want, CONTACT_RECORDS);
        }
    }
    std::io::stdout().write_all(&out).unwrap();
    eprintln!("tokenize: {cases} scripts listed, {marked} refused by 29, {} bytes", out.len());
}

fn main() {
    assert_eq!(char::UNICODE_VERSION, (16, 0, 0), "a rustc of another Unicode is no judge of the classes: set RUSTC");
    marks::check();
    signs::check();
    let (mut count, mut seed) = (100_000, 1);
    let mut args = std::env::args().skip(1);
    while let Some(option) = args.next() {
        match option.as_str() {
            "--list" => return print_list(),
            "--cases" => return listing::print_cases(),
            "--listing" => return listing::print_listings(),
            _ => {}
        }
        let value = args.next().and_then(|text| text.parse().ok());
        match (option.as_str(), value) {
            ("--count", Some(number)) => count = number,
            ("--seed", Some(number)) => seed = number,
            _ => {
                eprintln!("tokenize: no option {option}, or no number after it");
                std::process::exit(2);
            }
        }
    }
    compare_all(count, seed);
}
