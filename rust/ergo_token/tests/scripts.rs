// The wrapper on the examples of RULES (docs/RULES.md): the header's and the C example's script, the listing, the twelve marked scripts, and each refusal's.
// Every script is measured too, by the wrapper and by the library's own function, and what to expect is counted from its records, from REQUESTS
// (docs/REQUESTS.md), "Exact need" and "Answer of measuring".
use ergo_token::{measure, position, record_bound, shown, token_text, tokenize, tokenize_contact, view, view_contact, write};
use ergo_token::{Kw, Need, Refusal, Roll, Size, Token, TokenKind, Tokens};
use ergo_token::{CONTACT_BYTES, CONTACT_RECORDS, CONTACT_TOKENS, SCRIPT_LIMIT};
use ergo_token::{INT_LIT_LENGTH, LONG_LIT_LENGTH, NEWLINE_LENGTH, RECORD_HEAD, STR_LENGTH};

// The wrapper links the library that has this.
extern "C" {
    fn ergo_measure(script: *const u8, n: u64, answer: *mut u8, k: u64) -> u32;
}

// What the library must not change.
const BYTE: u8 = 0xAA;

// The direction marks.
const MARKS: [char; 9] = ['\u{202A}', '\u{202B}', '\u{202C}', '\u{202D}', '\u{202E}', '\u{2066}', '\u{2067}', '\u{2068}', '\u{2069}'];

// The record bytes of `a`: an identifier and Eof.
const BYTES_OF_A: usize = 2 * RECORD_HEAD;

// What the records of a script need, counted from those that are written where enough is lent for every script; or its refusal.
fn counted(script: &[u8]) -> Result<Need, Refusal> {
    let mut lent = vec![0; record_bound(script.len())];
    let Size { count, bytes } = write(script, &mut lent)?;
    let mut need = Need { count, bytes, int_lits: 0, long_lits: 0, strs: 0, newlines: 0 };
    for record in Roll::read(&lent[..bytes as usize])? {
        match record.kind {
            TokenKind::IntLit(_) => need.int_lits += 1,
            TokenKind::LongLit(_) => need.long_lits += 1,
            TokenKind::Str { .. } => need.strs += 1,
            TokenKind::Newline { .. } => need.newlines += 1,
            _ => {}
        }
    }
    Ok(need)
}

// The number handed back by measuring and the block, of so many bytes.
fn block(script: &[u8], k: usize) -> (u32, Vec<u8>) {
    let mut answer = vec![BYTE; k];
    let number = unsafe { ergo_measure(script.as_ptr(), script.len() as u64, answer.as_mut_ptr(), k as u64) };
    (number, answer)
}

// Measures a script, and compares with what its records need.
fn measured(script: &[u8]) -> Result<Need, Refusal> {
    let wanted = counted(script);
    let words = match wanted {
        Ok(Need { count, bytes, int_lits, long_lits, strs, newlines }) => [0, 0, count, bytes, int_lits, long_lits, strs, newlines],
        Err(Refusal { number, place }) => [number, place, 0, 0, 0, 0, 0, 0],
    };
    let name = script[..script.len().min(80)].escape_ascii();
    assert_eq!(block(script, 32), (words[0], words.map(u32::to_le_bytes).concat()), "{name}");
    assert_eq!(measure(script), wanted, "{name}");
    if let Ok(Need { count, bytes, int_lits, long_lits, strs, newlines }) = wanted {
        assert_eq!(bytes, 13 * count + 4 * int_lits + 8 * (long_lits + strs) + newlines, "{name}");
        // It is enough, and one byte less is not.
        let mut lent = vec![0; bytes as usize];
        assert_eq!(write(script, &mut lent), Ok(Size { count, bytes }), "{name}");
        lent.pop();
        assert_eq!(write(script, &mut lent), Err(Refusal { number: 19, place: 0 }), "{name}");
    }
    wanted
}

fn tokens(script: &str) -> Vec<Token<'_>> {
    let tokens = tokenize(script.as_bytes()).expect(script);
    let list: Vec<_> = tokens.iter().collect();
    assert_eq!(list.len(), tokens.count(), "{script}");
    assert_eq!(list.last().map(|eof| (eof.kind, eof.start, eof.end)), Some((TokenKind::Eof, script.len() as u32, script.len() as u32)));
    let need = measured(script.as_bytes()).unwrap();
    assert_eq!((list.len(), tokens.records().len()), (need.count as usize, need.bytes as usize));
    for token in &list {
        assert_eq!(token_text(script.as_bytes(), token.start, token.end), Ok(token.text.as_bytes()));
    }
    list
}

// Kind, start, end, cut and values, as the listing program and both hosts print them.
fn listing(script: &str) -> Vec<String> {
    let line = |token: &Token| {
        let values = match token.kind {
            TokenKind::IntLit(value) => format!(" {value}"),
            TokenKind::LongLit(value) => format!(" {value}"),
            TokenKind::Str { content_start, content_end } => format!(" {content_start} {content_end}"),
            TokenKind::Newline { after_comment } => format!(" {}", after_comment as u8),
            _ => String::new(),
        };
        format!("{} {} {} {}{values}", token.kind.number(), token.start, token.end, token.cut as u8)
    };
    tokens(script).iter().map(line).collect()
}

fn refusal(script: &[u8]) -> (u32, u32) {
    let refusal = tokenize(script).expect_err("accepted");
    assert_eq!(measured(script), Err(refusal));
    (refusal.number, refusal.place)
}

#[test]
fn record_bytes_of_the_readme() {
    let accepted = tokenize(b"a").unwrap();
    let length = RECORD_HEAD as u8;
    let ident: [u8; RECORD_HEAD] = [length, 0, 1, 0, 0, 0, 0, 0, 1, 0, 0, 0, 0];
    let eof: [u8; RECORD_HEAD] = [length, 0, 18, 0, 1, 0, 0, 0, 1, 0, 0, 0, 0];
    let records = [ident, eof].concat();
    let size = Size { count: 2, bytes: BYTES_OF_A as u32 };
    assert_eq!(accepted.records(), records);
    assert_eq!(accepted.count(), 2);

    let mut lent = [BYTE; BYTES_OF_A + 4];
    assert_eq!(write(b"a", &mut lent), Ok(size));
    assert_eq!(lent[..BYTES_OF_A], records);
    assert_eq!(lent[BYTES_OF_A..], [BYTE; 4]);
}

#[test]
fn lengths_of_records() {
    let bytes = |script: &[u8]| measured(script).unwrap().bytes as usize;
    assert_eq!(bytes(b""), RECORD_HEAD);
    for (script, length) in [("7", INT_LIT_LENGTH), ("7L", LONG_LIT_LENGTH), ("\"\"", STR_LENGTH), ("\n", NEWLINE_LENGTH), ("a", RECORD_HEAD)] {
        assert_eq!(bytes(script.as_bytes()), length + RECORD_HEAD, "{script:?}");
        assert!(bytes(script.as_bytes()) <= record_bound(script.len()), "{script:?}");
    }
    // The bound is met.
    assert_eq!((bytes(b""), bytes(b"7")), (record_bound(0), record_bound(1)));
    assert_eq!(record_bound(usize::MAX), usize::MAX);
}

#[test]
fn listing_of_the_rules() {
    let lines = ["1 0 1 0", "43 2 3 0", "4 4 5 0 7", "17 10 11 0 1", "6 11 14 0 12 13", "18 14 14 0"];
    assert_eq!(listing("x = 7 // n\n\"a\""), lines);
}

#[test]
fn the_twelve_marked_scripts() {
    assert_eq!(listing(""), ["18 0 0 0"]);
    assert_eq!(listing("0x"), ["4 0 1 0 0", "1 1 2 0", "18 2 2 0"]);
    assert_eq!(refusal(b"0x80000000"), (6, 0));
    assert_eq!(listing("0x80000000L"), ["5 0 11 0 2147483648", "18 11 11 0"]);
    assert_eq!(listing("a_//"), ["1 0 4 0", "18 4 4 0"]);
    assert_eq!(listing("_+"), ["1 0 1 0", "2 1 2 0", "18 2 2 0"]);
    assert_eq!(listing("__+"), ["1 0 3 0", "18 3 3 0"]);
    assert_eq!(listing("=//"), ["2 0 1 0", "18 3 3 0"]);
    assert_eq!(listing("= //"), ["43 0 1 0", "18 4 4 0"]);
    assert_eq!(listing("\n/**/x"), ["17 0 1 0 0", "1 5 6 1", "18 6 6 0"]);
    assert_eq!(listing("\n/**/\nx"), ["17 0 1 0 0", "17 5 6 0 1", "1 6 7 0", "18 7 7 0"]);
    assert_eq!(listing("\"\"\"a\"\"\"\""), ["6 0 8 0 3 5", "18 8 8 0"]);
    assert_eq!(listing("\"\"\"\"a\"\"\""), ["6 0 8 0 4 5", "18 8 8 0"]);
    assert_eq!(listing("'''"), ["7 0 3 0", "18 3 3 0"]);
    assert_eq!(refusal(b"''"), (16, 1));
    assert_eq!(listing("a\"\\\""), ["6 0 4 0 0 4", "18 4 4 0"]);
    assert_eq!(refusal(b"\"\\\""), (7, 3));
    assert_eq!(refusal(b"/*/"), (2, 0));
    assert_eq!(listing("/*/**/*/"), ["18 8 8 0"]);
    assert_eq!(refusal("\u{4E00}".as_bytes()), (3, 0));
    assert_eq!(listing("a\u{4E00}"), ["1 0 4 0", "18 4 4 0"]);
}

// One for each of 1 to 16, and one for 18.
const EXAMPLES: [(&[u8], (u32, u32)); 17] = [
    (b"a\rb", (1, 1)),
    (b"x /* /* */", (2, 2)),
    ("a\u{20AC}".as_bytes(), (3, 1)),
    (b"`ab", (4, 0)),
    (b"``", (5, 0)),
    (b"7+2147483648", (6, 2)),
    (b"\"str", (7, 4)),
    (b"\"a\n", (8, 2)),
    (b"\"\"\"a\"", (9, 5)),
    (b"\"\"\"a\\", (10, 4)),
    (b"s\"${", (11, 2)),
    (b"\"\\", (12, 2)),
    (b"\"\\u12G4\"", (13, 5)),
    (b"\"\\\\\"", (14, 2)),
    (b"'\\nx", (15, 3)),
    (b"'(x", (16, 1)),
    (b"a\xC0\x80", (18, 1)),
];

#[test]
fn the_example_of_each_refusal() {
    for (script, answer) in EXAMPLES.into_iter().chain([("// \u{202E}".as_bytes(), (29, 3))]) {
        assert_eq!(refusal(script), answer);
        // The buffer keeps its values.
        let mut lent = vec![BYTE; record_bound(script.len())];
        assert_eq!(write(script, &mut lent), Err(Refusal { number: answer.0, place: answer.1 }));
        assert!(lent.iter().all(|&byte| byte == BYTE));
    }
}

#[test]
fn too_long() {
    let mut script = vec![b' '; 16_777_217];
    assert_eq!(refusal(&script), (17, 0));
    script.pop();
    assert_eq!(tokenize(&script).map(|tokens| tokens.count()), Ok(1));
    // 17 goes before 18, and 18 before the refusals of the tokenizer.
    assert_eq!(refusal(&vec![0xFF; 16_777_217]), (17, 0));
    assert_eq!(refusal(b"\"\\\xFF"), (18, 2));
}

#[test]
fn contacts() {
    // Both bounds themselves are taken; the compiler takes more.
    let (commas, spaces) = ([b','; CONTACT_TOKENS], [b' '; CONTACT_BYTES + 1]);
    let number = |script: &[u8]| tokenize_contact(script).map(|tokens| tokens.count()).map_err(|refusal| (refusal.number, refusal.place));
    assert_eq!((number(&commas[1..]), number(&commas)), (Ok(CONTACT_TOKENS), Err((28, 0))));
    assert_eq!((number(&spaces[1..]), number(&spaces)), (Ok(1), Err((27, 0))));
    assert_eq!(tokens(std::str::from_utf8(&commas).unwrap()).len(), CONTACT_TOKENS + 1);
    assert_eq!(tokens(std::str::from_utf8(&spaces).unwrap()).len(), 1);
    // Bytes count, and not characters.
    assert_eq!(number(&[&spaces[2..], "\u{E9}".as_bytes()].concat()), Err((27, 0)));
    // 27 goes before 18, and 28 behind 1 to 16.
    assert_eq!((number(&[0xFF; 5000]), number(&[0xFF; CONTACT_BYTES])), (Err((27, 0)), Err((18, 0))));
    assert_eq!(number(&[&commas[..], &commas, b"\""].concat()), Err((7, 2 * CONTACT_TOKENS as u32 + 1)));
    assert_eq!(number(&vec![b' '; SCRIPT_LIMIT + 1]), Err((17, 0)));
    // What is enough for every contact is just enough for this one.
    let most = b"0L".repeat(CONTACT_TOKENS - 1);
    assert_eq!(tokenize_contact(&most).unwrap().records().len(), CONTACT_RECORDS);
    // Otherwise the answers are the same.
    for script in ["", "x = 7 // n\n\"a\"", "a\rb", "\"str", "'(x"] {
        assert_eq!(tokenize_contact(script.as_bytes()), tokenize(script.as_bytes()));
    }
}

// A script is refused for a mark here, by each of the three functions, and no buffer is needed for that.
fn marked(script: &[u8], place: usize) {
    let refusal = Refusal { number: 29, place: place as u32 };
    let name = script.escape_ascii();
    assert_eq!(measured(script), Err(refusal), "{name}");
    assert_eq!(tokenize(script), Err(refusal), "{name}");
    assert_eq!(write(script, &mut []), Err(refusal), "{name}");
    assert_eq!(tokenize_contact(script), Err(refusal), "{name}");
}

#[test]
fn direction_marks_in_every_piece() {
    // What stands before a mark and behind it, and whether other characters that can't be seen may stand there.
    let around = [
        ("// ", "", true),
        ("a // ", "\r\nb", true),
        ("/* ", " */", true),
        ("/* /* ", "*/ */", true),
        ("\"", "\"", true),
        ("\"\\n", "\\n\"", true),
        ("\"\"\"", "\"\"\"", true),
        ("s\"", "\"", true),
        ("s\"\"\"", "\"\"\"", true),
        ("`", "`", true),
        ("`", "`\"\"", true),
        ("'", "'", false),
        ("'s", "", false),
        ("", "", false),
        ("a ", " b", false),
        ("a", "b", false),
        ("7", "L", false),
        ("+", "+", false),
        ("\n", "\n", false),
    ];
    // Near the marks by code, by bytes, or by what they do to a text.
    let others = "\u{2029}\u{202F}\u{2065}\u{206A}\u{206E}\u{200E}\u{200F}\u{61C}\u{20AA}\u{102A}\u{2026}\u{2069E}";
    for (before, behind, any) in around {
        for mark in MARKS {
            marked(format!("{before}{mark}{behind}").as_bytes(), before.len());
            marked(format!("{before}{mark}{mark}{behind}\u{2066}").as_bytes(), before.len());
        }
        for other in others.chars() {
            let script = format!("{before}{other}{behind}");
            match measured(script.as_bytes()) {
                Ok(_) => {}
                Err(refusal) => assert!(!any && refusal.number < 17, "{script:?}"),
            }
        }
    }
}

// In a comment all other characters are taken.
#[test]
fn nine_marks_and_no_other() {
    for c in '\0'..=char::MAX {
        let number = tokenize(format!("/* {c} */").as_bytes()).map_or_else(|refusal| refusal.number, |_| 0);
        assert_eq!(number, if MARKS.contains(&c) { 29 } else { 0 }, "U+{:04X}", c as u32);
    }
}

// 18 or 29 where a script must be refused by it, told by std.
fn barred(script: &[u8]) -> Option<(u32, u32)> {
    match std::str::from_utf8(script) {
        Ok(text) => text.find(MARKS).map(|place| (29, place as u32)),
        Err(error) => Some((18, error.valid_up_to() as u32)),
    }
}

// Each three bytes of which the first begins a character of three or four: alone, behind a character of three, and behind a mark.
#[test]
fn every_three_bytes() {
    for before in ["", "\u{4E00}", "\u{202E}"] {
        let mut script = format!("{before}... ").into_bytes();
        for bytes in (0xE0_u8..=0xF4).flat_map(|a| (0..=0xFF).flat_map(move |b| (0..=0xFF).map(move |c| [a, b, c]))) {
            script[before.len()..][..3].copy_from_slice(&bytes);
            let given = measure(&script).err().map(|refusal| (refusal.number, refusal.place));
            assert_eq!(given.filter(|&(number, _)| number > 17), barred(&script), "{}", script.escape_ascii());
        }
    }
}

// At each place of scripts about the lengths at which bytes are taken together, behind characters of one byte to four.
#[test]
fn direction_marks_at_every_place() {
    for filler in ["a", "\n", "\u{44F}", "\u{2026}", "\u{2065}", "\u{1F600}"] {
        for before in 0..150 {
            for behind in [0, 1, 2, 3, 7, 64] {
                let script = format!("{}\u{202A}{}", filler.repeat(before), "\u{2069}".repeat(behind));
                marked(script.as_bytes(), filler.len() * before);
            }
        }
    }
}

#[test]
fn direction_marks_and_other_refusals() {
    // 29 goes before 1 to 16, whatever the places, and behind 18, likewise.
    for (script, (number, place)) in EXAMPLES {
        for at in (0..=script.len()).filter(|&at| script.get(at).is_none_or(|byte| byte & 0xC0 != 0x80)) {
            let with = [&script[..at], "\u{2067}".as_bytes(), &script[at..]].concat();
            match number {
                18 => assert_eq!(refusal(&with), (18, if at > place as usize { place } else { place + 3 })),
                _ => marked(&with, at),
            }
        }
    }
    // A mark that is cut short, or has another byte in it, is none.
    for (script, place) in [(&b"// \xE2\x80"[..], 3), (b"\xE2\x81\n\xA6", 0), (b"\xE2\x80\xAE\xAE", 3), (b"\xE2\xE2\x80\xAE", 0)] {
        assert_eq!(refusal(script), (18, place));
    }
    // 17 and 27 go before it, also where the mark begins within the limit; 28 and 19 behind it. 20 goes before all.
    let blanks = |n: usize| [&vec![b' '; n], "\u{2069}".as_bytes()].concat();
    assert_eq!(refusal(&blanks(SCRIPT_LIMIT - 2)), (17, 0));
    assert_eq!(refusal(&blanks(SCRIPT_LIMIT - 3)), (29, SCRIPT_LIMIT as u32 - 3));
    assert_eq!(tokenize_contact(&blanks(CONTACT_BYTES - 2)), Err(Refusal { number: 27, place: 0 }));
    assert_eq!(refusal(&blanks(CONTACT_BYTES - 2)), (29, CONTACT_BYTES as u32 - 2));
    marked(&blanks(CONTACT_BYTES - 3), CONTACT_BYTES - 3);
    marked(&[&[b','; CONTACT_TOKENS][..], "//\u{202A}".as_bytes()].concat(), CONTACT_TOKENS + 2);
    assert_eq!(block("\u{202A}".as_bytes(), 16), (20, vec![BYTE; 16]));
}

// Written out, an escape is six ASCII characters.
#[test]
fn escapes_of_direction_marks() {
    for mark in MARKS {
        let escape = format!("\\u{:04X}", mark as u32);
        for script in [format!("\"{escape}\""), format!("'{escape}'"), format!("s\"{escape}\""), format!("`{escape}` // {escape}")] {
            assert_eq!(tokens(&script).len(), 2, "{script}");
        }
    }
}

// Of a script that is refused for one.
#[test]
fn places_and_texts_of_direction_marks() {
    let script = "x\r\n\t\"a\u{202E}b\"".as_bytes();
    marked(script, 6);
    assert_eq!(position(script, 6).map(|at| (at.line, at.column)), Ok((2, 4)));
    assert_eq!(token_text(script, 5, 10), Ok("a\u{202E}b".as_bytes()));
    assert_eq!(token_text(script, 7, 10), Err(Refusal { number: 21, place: 0 }));
}

#[test]
fn short_buffer() {
    let mut lent = [BYTE; BYTES_OF_A - 1];
    assert_eq!(write(b"a", &mut lent), Err(Refusal { number: 19, place: 0 }));
    assert_eq!(lent, [BYTE; BYTES_OF_A - 1]);
    // 19 comes last.
    assert_eq!(write(b"\"str", &mut []), Err(Refusal { number: 7, place: 4 }));
}

// How many IntLits, LongLits, Strs and Newlines.
fn counts(script: &str) -> [u32; 4] {
    let Need { int_lits, long_lits, strs, newlines, .. } = measured(script.as_bytes()).expect(script);
    [int_lits, long_lits, strs, newlines]
}

#[test]
fn counts_of_each_kind() {
    for (kind, unit) in ["7 ", "7L ", "\"\" ", "\r\n"].iter().enumerate() {
        for n in [1, 2, 300, 70_000] {
            let mut wanted = [0; 4];
            wanted[kind] = n;
            assert_eq!(counts(&unit.repeat(n as usize)), wanted, "{n} times {unit:?}");
        }
    }
    // Character and symbol, keywords, signs and backticks are tokens and no more.
    assert_eq!(counts("'c' '\\n' '\"' 'sym case true => : = +< ` 7L ` ()[]{},;. a7"), [0; 4]);
    // A string counts once, with a prefix or behind a backtick, whatever it holds.
    assert_eq!(counts("s\"7\" `s`\"\"\"L\"\"\" \"'7'\""), [0, 0, 3, 0]);
    // Line ends in strings and block comments are none, and CR LF is one.
    assert_eq!(counts("\"\"\"\n\r\n\"\"\" /*\n 7 \"*/ // 7L\r\n\n"), [0, 0, 1, 2]);
    assert_eq!(counts("0x7L 0x7 7l 7-7"), [3, 2, 0, 0]);
}

#[test]
fn measuring_with_other_blocks() {
    for k in (0..=64).filter(|&k| k != 32) {
        for script in ["7", "\"str"] {
            assert_eq!(block(script.as_bytes(), k), (20, vec![BYTE; k]), "{script}");
        }
    }
    // 20 goes before 17 and 18.
    assert_eq!(block(&vec![0xFF; SCRIPT_LIMIT + 1], 16), (20, vec![BYTE; 16]));
    assert_eq!(block(b"\xFF", 16), (20, vec![BYTE; 16]));
}

// Length 0 with any pointer is an empty slice.
#[test]
fn measuring_nothing() {
    let of_nothing = block(&[], 32).1;
    assert_eq!(counts(""), [0; 4]);
    for script in [std::ptr::null(), std::ptr::without_provenance(1)] {
        let mut answer = [BYTE; 32];
        assert_eq!(unsafe { ergo_measure(script, 0, answer.as_mut_ptr(), 32) }, 0);
        assert_eq!(answer[..], of_nothing);
        assert_eq!(unsafe { ergo_measure(script, 0, std::ptr::null_mut(), 0) }, 20);
    }
}

#[test]
fn text_of_a_token() {
    let none = Err(Refusal { number: 21, place: 0 });
    assert_eq!(token_text(b"ab", 1, 2), Ok(&b"b"[..]));
    assert_eq!(token_text(b"ab", 2, 2), Ok(&b""[..]));
    assert_eq!(token_text(b"ab", 1, 3), none);
    assert_eq!(token_text(b"ab", 2, 1), none);
    assert_eq!(token_text("a\u{20AC}".as_bytes(), 0, 2), none);
    assert_eq!(token_text("a\u{20AC}".as_bytes(), 3, 4), none);
    assert_eq!(token_text(b"", 0, 0), Ok(&b""[..]));
    assert_eq!(token_text(b"ab", u32::MAX, u32::MAX), none);
}

#[test]
fn every_kind() {
    use TokenKind::*;
    let kinds = |script| tokens(script).iter().map(|token| token.kind).collect::<Vec<_>>();
    assert_eq!(
        kinds("case else false function if match return then true : => = # @"),
        [
            Kw(self::Kw::Case),
            Kw(self::Kw::Else),
            Kw(self::Kw::False),
            Kw(self::Kw::Function),
            Kw(self::Kw::If),
            Kw(self::Kw::Match),
            Kw(self::Kw::Return),
            Kw(self::Kw::Then),
            Kw(self::Kw::True),
            Kw(self::Kw::Colon),
            Kw(self::Kw::FatArrow),
            Kw(self::Kw::Assign),
            Kw(self::Kw::Hash),
            Kw(self::Kw::At),
            Eof
        ]
    );
    assert_eq!(kinds("()[]{},;."), [LParen, RParen, LBracket, RBracket, LBrace, RBrace, Comma, Semi, Dot, Eof]);
    assert_eq!(
        kinds("val +< `a b` 2147483647 9223372036854775807L 'c' 'sym \"s\" // c\r\n"),
        [
            Ident,
            OpId,
            BacktickId,
            IntLit(2147483647),
            LongLit(9223372036854775807),
            CharSym,
            CharSym,
            Str { content_start: 55, content_end: 56 },
            Newline { after_comment: true },
            Eof
        ]
    );
}

#[test]
fn contents_of_strings() {
    let strings = tokens("\"a\\n\" \"\"\"b\"\"\"\" s\"c\" \"\"");
    let contents: Vec<_> = strings.iter().map(|token| token.content()).collect();
    assert_eq!(contents, [Some("a\\n"), Some("b\""), Some("s\"c\""), Some(""), None]);
}

#[test]
fn every_number_has_words() {
    let of = |number| Refusal { number, place: 3 };
    let unknown = of(30);
    for number in 1..=29 {
        assert_ne!(of(number).meaning(), unknown.meaning());
        assert_ne!(of(number).advice(), unknown.advice());
        for other in 1..number {
            assert_ne!(of(number).meaning(), of(other).meaning());
        }
        assert!(of(number).to_string().starts_with(&format!("refused {number} at 3: ")));
    }
}

// Whatever is viewed, no mark is printed.
fn viewed(script: &[u8]) -> (bool, String) {
    let mut out = Vec::new();
    let accepted = view(&mut out, script).unwrap();
    let text = String::from_utf8(out).unwrap();
    assert!(!text.contains(MARKS), "{text:?}");
    (accepted, text)
}

#[test]
fn view_of_an_accepted_script() {
    let (accepted, text) = viewed("\u{44F} +\r\n/*c*/b 0x10L // n\n\"a\"".as_bytes());
    let lines = "\
1:1       Ident        \u{44F}
1:3       OpId         +
1:4       Newline      CR LF
2:6       Ident        b  <- cut: the line end at 1:4 is hard
2:8       LongLit      0x10L  value 16
2:18      Newline      LF  after a comment
3:1       Str          \"a\"  content a
3:4       Eof
accepted: token count 8 (line ends and Eof included), with the cut 1
";
    assert!(accepted && text.starts_with(lines), "{text}");
    // What the cut is follows only where there is one.
    assert_eq!(text[lines.len()..].lines().count(), 3);
    assert_eq!(viewed(b"").1, "1:1       Eof\naccepted: token count 1 (line ends and Eof included), with the cut 0\n");
}

#[test]
fn view_of_a_refused_script() {
    let carets: [(&[u8], &str, &str); 7] = [
        (b"\n\t\"\\u12G4\"", "refused 13 at 7: line 2, column 7", "2 | \t\"\\u12G4\"\n  | \t     ^\n"),
        (b"\"a\r\nb", "refused 8 at 3: line 1, column 4", "1 | \"a\n  |    ^\n"),
        (b"a\rb", "refused 1 at 1: line 1, column 2", "1 | a<U+000D>b\n  |  ^\n"),
        (b"\"str\n", "refused 8 at 4: line 1, column 5", "1 | \"str\n  |     ^\n"),
        (b"`\n", "refused 4 at 0: line 1, column 1", "1 | `\n  | ^\n"),
        (b"\n\xD1\x8F\xC0z", "refused 18 at 3: line 2, column 2", "2 | \u{44F}<C0>z\n  |  ^\n"),
        (b"\"\"\"a\n", "refused 9 at 5: line 2, column 1", "2 |\n  | ^\n"),
    ];
    for (script, head, caret) in carets {
        let (accepted, text) = viewed(script);
        assert!(!accepted && text.starts_with(head) && text.ends_with(caret), "{text}");
        let refusal = tokenize(script).unwrap_err();
        assert!(text.contains(refusal.meaning()) && text.contains(refusal.advice()), "{text}");
    }
    // A contact is viewed likewise, with its own limits.
    let mut out = Vec::new();
    assert!(!view_contact(&mut out, &[b','; CONTACT_TOKENS]).unwrap());
    let refusal = tokenize_contact(&[b','; CONTACT_TOKENS]).unwrap_err();
    let head = format!("refused 28 at 0: line 1, column 1\nmet: {}\ndo:  {}\n1 | ,,,", refusal.meaning(), refusal.advice());
    assert!(String::from_utf8(out).unwrap().starts_with(&head));
    assert!(view_contact(&mut Vec::new(), b"x = 7").unwrap());
    // Long lines are shown about the caret.
    let long = format!("{}\u{20AC}{}", "a".repeat(300), "b".repeat(300));
    let line = format!("1 | ... {}\u{20AC}{} ...\n  | {:64}^\n", "a".repeat(60), "b".repeat(59), "");
    assert!(viewed(long.as_bytes()).1.ends_with(&line));
}

#[test]
fn view_of_direction_marks() {
    for mark in MARKS {
        let (number, script) = (format!("U+{:04X}", mark as u32), format!("x\n\t\"{mark}b\u{2066}\" // \u{202E}"));
        let refusal = tokenize(script.as_bytes()).unwrap_err();
        let text = format!(
            "refused 29 at 4: line 2, column 3\nmet: {}: {number}\ndo:  {}: \\u{}\n2 | \t\"<{number}>b<U+2066>\" // <U+202E>\n  | \t ^\n",
            refusal.meaning(),
            refusal.advice(),
            &number[2..]
        );
        assert_eq!(viewed(script.as_bytes()), (false, text));
    }
    // The first of two has the caret; behind one the caret stands behind its shown form.
    assert!(viewed("\"\u{202E}\u{202C}\"".as_bytes()).1.ends_with("1 | \"<U+202E><U+202C>\"\n  |  ^\n"));
    let (_, text) = viewed(b"a\n\xE2\x80\xAE\xFF\xE2\x81\xA6");
    assert!(text.starts_with("refused 18 at 5: line 2, column 2\n") && text.ends_with("2 | <U+202E><FF><U+2066>\n  |         ^\n"), "{text}");
    // Where the line is long, and where the limit is met.
    let many = "\u{2068}".repeat(CONTACT_BYTES);
    assert!(viewed(format!("/*{many}").as_bytes()).1.ends_with(&format!("1 | /*{} ...\n  |   ^\n", "<U+2068>".repeat(60))));
    let mut out = Vec::new();
    assert!(!view_contact(&mut out, many.as_bytes()).unwrap());
    let text = String::from_utf8(out).unwrap();
    assert!(text.starts_with("refused 27 at 0: ") && text.ends_with(&format!("1 | {} ...\n  | ^\n", "<U+2068>".repeat(60))), "{text}");
}

// What a reader would not see, or take for a space, has its number: in the lines, in the texts of tokens, and in names.
#[test]
fn view_of_what_is_not_seen() {
    let blank = "\0\n\r\x1B\x7F\u{85}\u{9B}\u{A0}\u{1680}\u{2003}\u{2028}\u{202F}\u{3000}";
    let unseen = "\u{AD}\u{34F}\u{61C}\u{180E}\u{200B}\u{200F}\u{2060}\u{206A}\u{3164}\u{FE0F}\u{FEFF}\u{FFF9}\u{E0041}";
    for c in blank.chars().chain(unseen.chars()).chain(MARKS) {
        assert_eq!(shown(format!("a{c}b").as_bytes()), format!("a<U+{:04X}>b", c as u32));
    }
    for text in ["a b\tc", "\u{44F}\u{20AC}\u{4E00}\u{1F600}", "\u{5D0}\u{627}\u{915}\u{947}", "\u{FFFD}<U+202E>"] {
        assert_eq!(shown(text.as_bytes()), text);
    }
    assert_eq!(shown(b"\xE2\x80\xAE\xE2\x80"), "<U+202E><E2><80>");
    let (_, text) = viewed("`a\u{200F}` \"\"\"\u{FEFF}\n\"\"\"".as_bytes());
    assert!(text.starts_with("1:1       BacktickId   `a<U+200F>`\n1:6       Str          \"\"\"<U+FEFF><U+000A>\"\"\"  content <U+FEFF><U+000A>\n"));
    // The name of a file that isn't there; the program stands where cargo or rust/build has put it.
    let program = option_env!("CARGO_BIN_EXE_view").unwrap_or("target/rust/view");
    let said = std::process::Command::new(program).arg("no\u{202E}\x1B[7m").output().unwrap().stderr;
    assert!(said.starts_with(b"no<U+202E><U+001B>[7m: "), "{}", said.escape_ascii());
}

// The tokens follow each other up to the script's end.
fn in_order(tokens: &Tokens) {
    let mut last = 0;
    assert_eq!(tokens.iter().count(), tokens.count());
    for token in tokens {
        assert!(last <= token.start && token.start <= token.end);
        last = token.end;
    }
    assert_eq!(last as usize, tokens.script().len());
}

// Bytes of every kind, in every order that a plain generator gives: no panic, and tokens that cover what they say.
#[test]
fn any_bytes() {
    let texts = [
        "a", "_", "+", "/", "*", "\"", "'", "\\", "`", "\n", "\r", "\r\n", " ", "\t", "0", "x", "99999", "L", "$", "{", "}", "u", "\0", "\x7F", "€",
        "я", "😀", "/*", "*/",
    ];
    let texts = texts.map(str::as_bytes);
    // What is refused wherever it stands comes seldom, so that the other refusals are met too.
    let seldom: [&[u8]; 5] = [b"\x80", b"\xC0", b"\xED\xA0\x80", "\u{202E}".as_bytes(), "\u{2066}".as_bytes()];
    let mut state = 1u64;
    let mut random = |below: u64| {
        state = state.wrapping_mul(6364136223846793005).wrapping_add(1442695040888963407);
        (state >> 33) % below
    };
    let (mut accepted, mut numbers) = (0, [0; 30]);
    for _ in 0..200_000 {
        let mut script = Vec::new();
        for _ in 0..random(12) {
            let pieces = if random(16) == 0 { &seldom[..] } else { &texts };
            script.extend_from_slice(pieces[random(pieces.len() as u64) as usize]);
        }
        let tokens = tokenize(&script);
        assert_eq!(measured(&script).map(|need| need.count as usize), tokens.as_ref().map(Tokens::count).map_err(|&refusal| refusal));
        assert_eq!(viewed(&script).0, tokens.is_ok());
        let given = tokens.as_ref().err().map(|refusal| (refusal.number, refusal.place));
        assert_eq!(given.filter(|&(number, _)| number > 17), barred(&script));
        match tokens {
            Ok(tokens) => {
                accepted += 1;
                in_order(&tokens);
            }
            Err(refusal) => {
                assert!(refusal.place as usize <= script.len());
                numbers[refusal.number as usize] += 1;
            }
        }
    }
    assert!(accepted > 0);
    assert!(numbers[1..=16].iter().all(|&n| n > 0) && numbers[18] > 0 && numbers[29] > 0, "{numbers:?}");
}
