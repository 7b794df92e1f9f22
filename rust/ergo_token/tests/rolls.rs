// Stored rolls, read back without the script: by the wrapper and, step by step, by the library's own function for one record. What to expect of
// damaged rolls is written down here a second time, from REQUESTS (docs/REQUESTS.md), "Stored rolls".
use ergo_token::{token_text, tokenize, Kw, Record, Refusal, Roll, TokenKind};
use ergo_token::{INT_LIT_LENGTH, LONG_LIT_LENGTH, NEWLINE_LENGTH, RECORD_HEAD, STR_LENGTH};
use std::iter::FusedIterator;

// The wrapper links the library that has these two.
extern "C" {
    fn ergo_read_roll(roll: *const u8, n: u64, answer: *mut u8, k: u64) -> u32;
    fn ergo_read_record(roll: *const u8, n: u64, at: u32, previous: u32, answer: *mut u8, k: u64) -> u32;
}

const SCRIPTS: [&str; 9] = [
    "",
    "a",
    "x = 7 // n\n\"a\"",
    "case else false function if match return then true : => = # @",
    "()[]{},;.",
    "val +< `a b` 2147483647 9223372036854775807L 'c' 'sym \"s\" // c\r\n",
    "\n/**/x",
    "\"\" \"\"\"b\"\"\"\" s\"c\" 0x80000000L 0\n\n // c\n\n/**/",
    "я a\u{4E00} \"€\" {\n  sigmaProp(HEIGHT > 100L && OUTPUTS(0).value >= 1)\n}\n",
];

fn roll_of(script: &str) -> Vec<u8> {
    tokenize(script.as_bytes()).expect(script).records().to_vec()
}

fn refusal(roll: &[u8]) -> (u32, u32) {
    let refusal = Roll::read(roll).expect_err("a roll");
    (refusal.number, refusal.place)
}

// The offset of each record, and the roll's length.
fn offsets(roll: &[u8]) -> Vec<usize> {
    let mut at = vec![0];
    while at[at.len() - 1] < roll.len() {
        let last = at[at.len() - 1];
        at.push(last + roll[last] as usize);
    }
    at
}

fn number(bytes: &[u8]) -> u64 {
    bytes.iter().rev().fold(0, |value, &byte| value << 8 | byte as u64)
}

// What REQUESTS says of a roll: the number of its tokens, or number and place of its refusal.
fn judged(roll: &[u8]) -> Result<usize, (u32, u32)> {
    let (mut at, mut previous, mut count) = (0, 0, 0);
    loop {
        let rest = &roll[at..];
        let refused = |number| Err((number, at as u32));
        if rest.is_empty() {
            return refused(24);
        }
        if rest.len() < 4 || rest.len() < number(&rest[..2]) as usize {
            return refused(22);
        }
        let (length, kind) = (number(&rest[..2]) as usize, number(&rest[2..4]));
        let values = match kind {
            4 => 4,
            5 | 6 => 8,
            17 => 1,
            1..=18 | 32..=45 => 0,
            _ => return refused(23),
        };
        if length != RECORD_HEAD + values {
            return refused(23);
        }
        let (start, end, cut, values) = (number(&rest[4..8]), number(&rest[8..12]), rest[12], &rest[RECORD_HEAD..length]);
        let wrong_values = match kind {
            4 | 5 => values[values.len() - 1] >= 128,
            6 => !(start <= number(&values[..4]) && number(&values[..4]) <= number(&values[4..]) && number(&values[4..]) <= end),
            17 => values[0] > 1,
            _ => false,
        };
        if cut > 1 || start > end || start < previous || wrong_values {
            return refused(24);
        }
        (at, previous, count) = (at + length, end, count + 1);
        if kind == 18 {
            return if at == roll.len() { Ok(count) } else { Err((24, at as u32)) };
        }
    }
}

// The bytes of a token's record, as RULES, "Record", has them.
fn written(record: Record) -> Vec<u8> {
    let values = match record.kind {
        TokenKind::IntLit(value) => value.to_le_bytes().to_vec(),
        TokenKind::LongLit(value) => value.to_le_bytes().to_vec(),
        TokenKind::Str { content_start, content_end } => [content_start.to_le_bytes(), content_end.to_le_bytes()].concat(),
        TokenKind::Newline { after_comment } => vec![after_comment as u8],
        _ => Vec::new(),
    };
    let mut out = ((RECORD_HEAD + values.len()) as u16).to_le_bytes().to_vec();
    out.extend(record.kind.number().to_le_bytes());
    out.extend(record.start.to_le_bytes());
    out.extend(record.end.to_le_bytes());
    out.push(record.cut as u8);
    out.extend(values);
    out
}

// The block of ergo_read_record, as ten numbers: the last two are the values.
fn step(roll: &[u8], at: u32, previous: u32) -> [u32; 10] {
    let mut answer = [0xAA; 40];
    let handed = unsafe { ergo_read_record(roll.as_ptr(), roll.len() as u64, at, previous, answer.as_mut_ptr(), 40) };
    let mut block = [0; 10];
    for (word, bytes) in block.iter_mut().zip(answer.chunks_exact(4)) {
        *word = number(bytes) as u32;
    }
    assert_eq!(block[0], handed);
    block
}

// A roll by steps: the blocks of its tokens, and the refusal that ended it, if any.
fn steps(roll: &[u8]) -> (Vec<[u32; 10]>, Option<(u32, u32)>) {
    let (mut at, mut previous, mut blocks) = (0, 0, Vec::new());
    loop {
        let block = step(roll, at, previous);
        if block[0] != 0 {
            assert_eq!(block[2..], [0; 8]);
            return (blocks, Some((block[0], block[1])));
        }
        blocks.push(block);
        (at, previous) = (block[7], block[4]);
        if block[2] == 18 {
            assert_eq!(at as usize, roll.len());
            return (blocks, None);
        }
    }
}

// The block that belongs to a token at an offset.
fn block_of(record: Record, at: u32) -> [u32; 10] {
    let (length, [first, second]) = match record.kind {
        TokenKind::IntLit(value) => (INT_LIT_LENGTH, [value, 0]),
        TokenKind::LongLit(value) => (LONG_LIT_LENGTH, [value as u32, (value >> 32) as u32]),
        TokenKind::Str { content_start, content_end } => (STR_LENGTH, [content_start, content_end]),
        TokenKind::Newline { after_comment } => (NEWLINE_LENGTH, [after_comment as u32, 0]),
        _ => (RECORD_HEAD, [0, 0]),
    };
    [0, 0, record.kind.number() as u32, record.start, record.end, record.cut as u32, 0, at + length as u32, first, second]
}

// Whatever the bytes: wrapper, steps and REQUESTS agree, and the tokens of a roll that is read are written as the same bytes.
fn agrees(roll: &[u8]) -> Result<usize, (u32, u32)> {
    let wanted = judged(roll);
    let (blocks, refused) = steps(roll);
    match Roll::read(roll) {
        Ok(read) => {
            let records: Vec<Record> = read.iter().collect();
            assert_eq!((Ok(read.count()), Ok(records.len())), (wanted, wanted), "{roll:?}");
            assert_eq!(records.iter().flat_map(|&record| written(record)).collect::<Vec<_>>(), roll);
            let at = offsets(roll);
            let expected: Vec<_> = records.iter().zip(&at).map(|(&record, &at)| block_of(record, at as u32)).collect();
            assert_eq!((blocks, refused), (expected, None), "{roll:?}");
            let eofs: Vec<bool> = records.iter().map(|record| record.kind == TokenKind::Eof).collect();
            assert!(eofs.iter().rev().enumerate().all(|(i, &eof)| eof == (i == 0)));
        }
        Err(Refusal { number, place }) => {
            assert_eq!(Err((number, place)), wanted, "{roll:?}");
            assert_eq!(refused, Some((number, place)), "{roll:?}");
        }
    }
    wanted
}

#[test]
fn what_was_written_is_read() {
    for script in SCRIPTS {
        let tokens = tokenize(script.as_bytes()).expect(script);
        let roll = Roll::read(tokens.records()).expect(script);
        assert_eq!(roll.count(), tokens.count(), "{script}");
        assert_eq!(roll.records(), tokens.records(), "{script}");
        let of_script: Vec<Record> = tokens.iter().map(|token| token.record()).collect();
        assert_eq!(roll.iter().collect::<Vec<_>>(), of_script, "{script}");
        assert_eq!(agrees(tokens.records()), Ok(tokens.count()), "{script}");
    }
    let stored = roll_of("7 =");
    let kinds: Vec<TokenKind> = (&Roll::read(&stored).unwrap()).into_iter().map(|record| record.kind).collect();
    assert_eq!(kinds, [TokenKind::IntLit(7), TokenKind::Kw(Kw::Assign), TokenKind::Eof]);
}

// At each step what is left lies between the hints, and after its end the walk stays there. Gives the hint that it began with.
fn walked(mut walk: impl FusedIterator + Clone) -> usize {
    let most = walk.size_hint().1;
    loop {
        let ((least, most), left) = (walk.size_hint(), walk.clone().count());
        assert!(least <= left && most.is_some_and(|most| left <= most), "{left} are left of {least} to {most:?}");
        if walk.next().is_none() {
            break;
        }
    }
    assert_eq!(walk.size_hint(), (0, Some(0)));
    assert!((0..3).all(|_| walk.next().is_none()));
    most.unwrap()
}

#[test]
fn hints_and_ends() {
    for script in SCRIPTS {
        let tokens = tokenize(script.as_bytes()).expect(script);
        let roll = Roll::read(tokens.records()).expect(script);
        assert_eq!(walked(tokens.iter()), walked(roll.iter()), "{script}");
    }
    // Where no record has values, the upper bound is the count.
    let heads = roll_of("()[]{},;.");
    assert_eq!(walked(Roll::read(&heads).unwrap().iter()), 10);
}

// Without the attribute the lint would have nothing to say, and this would not compile.
#[test]
#[deny(unfulfilled_lint_expectations)]
fn unused_is_told() {
    let tokens = tokenize(b"a").unwrap();
    let roll = Roll::read(tokens.records()).unwrap();
    #[expect(unused_must_use)]
    tokens.iter();
    #[expect(unused_must_use)]
    roll.iter();
    #[expect(unused_must_use)]
    Roll::read(tokens.records()).unwrap();
}

// Records hold places and no text, so the roll that was stored of a script with direction marks, when these were taken, is that of the same script with
// other characters of three bytes.
#[test]
fn stored_before_marks_were_refused() {
    let script = "x = \"a\u{202E}b\u{202C}\" // \u{2066}\n`\u{2069}` '\u{202A}'";
    assert_eq!(tokenize(script.as_bytes()).map_err(|refusal| (refusal.number, refusal.place)), Err((29, 6)));
    let stored = roll_of(&script.replace(|c: char| c > '\x7F', "\u{20AC}"));
    assert_eq!(agrees(&stored), Ok(7));
    let texts: Vec<_> = Roll::read(&stored).unwrap().iter().map(|record| token_text(script.as_bytes(), record.start, record.end)).collect();
    assert_eq!(texts[5], Ok("'\u{202A}'".as_bytes()));
    assert!(texts.iter().all(|text| text.is_ok()));
}

#[test]
fn cut_short_at_every_length() {
    for script in SCRIPTS {
        let roll = roll_of(script);
        let at = offsets(&roll);
        for length in 0..roll.len() {
            // Between two records the Eof is missing, inside one its own bytes are.
            let record = *at.iter().rev().find(|&&at| at <= length).unwrap();
            let wanted = if record == length { (24, length as u32) } else { (22, record as u32) };
            assert_eq!(refusal(&roll[..length]), wanted, "{script}, {length}");
            assert_eq!(agrees(&roll[..length]), Err(wanted), "{script}, {length}");
        }
    }
}

#[test]
fn every_byte_changed() {
    let mut numbers = [0; 25];
    for script in SCRIPTS {
        let roll = roll_of(script);
        for at in 0..roll.len() {
            let mut damaged = roll.clone();
            for byte in 0..=255 {
                damaged[at] = byte;
                match agrees(&damaged) {
                    Ok(_) => numbers[0] += 1,
                    Err((number, _)) => numbers[number as usize] += 1,
                }
            }
        }
    }
    // Some changed bytes make another roll: a kind of the same length, or a place that still is in order.
    assert!(numbers[0] > 0 && numbers[22] > 0 && numbers[23] > 0 && numbers[24] > 0, "{numbers:?}");
}

#[test]
fn joined_and_exchanged() {
    for script in SCRIPTS {
        let roll = roll_of(script);
        for other in SCRIPTS {
            let joined = [roll.clone(), roll_of(other)].concat();
            assert_eq!(agrees(&joined), Err((24, roll.len() as u32)), "{script}, {other}");
            // Without the first Eof.
            let _ = agrees(&[&roll[..roll.len() - RECORD_HEAD], &roll_of(other)].concat());
        }
        for more in 1..5 {
            let joined = [roll.clone(), vec![0; more]].concat();
            assert_eq!(agrees(&joined), Err((24, roll.len() as u32)), "{script}");
        }
        let at = offsets(&roll);
        for i in 0..at.len() - 1 {
            for j in i + 1..at.len() - 1 {
                let record = |i: usize| &roll[at[i]..at[i + 1]];
                let exchanged = [&roll[..at[i]], record(j), &roll[at[i + 1]..at[j]], record(i), &roll[at[j + 1]..]].concat();
                let _ = agrees(&exchanged);
            }
        }
    }
    // Without the first Eof: of `a` twice, the second starts before the first ends; with an Eof further on, all is in order.
    let a = roll_of("a");
    assert_eq!(refusal(&[&a[..RECORD_HEAD], &a[..]].concat()), (24, 13));
    assert_eq!(agrees(&[&a[..RECORD_HEAD], &roll_of("   ")[..]].concat()), Ok(2));
}

// The tables of docs/RECORDS.md, docs/REFUSALS.md and docs/HOSTS.md, about the roll of `7`.
#[test]
fn the_examples_of_the_pages() {
    let roll = roll_of("7");
    let int_lit = [0x11, 0, 4, 0, 0, 0, 0, 0, 1, 0, 0, 0, 0, 7, 0, 0, 0];
    let eof = [0x0D, 0, 0x12, 0, 1, 0, 0, 0, 1, 0, 0, 0, 0];
    assert_eq!(roll, [&int_lit[..], &eof[..]].concat());
    assert_eq!(step(&roll, 0, 0), [0, 0, 4, 0, 1, 0, 0, 17, 7, 0]);
    assert_eq!(step(&roll, 17, 1), [0, 0, 18, 1, 1, 0, 0, 30, 0, 0]);
    let changed = |length: usize, at: usize, byte: u8| {
        let mut roll = roll.clone();
        roll[at] = byte;
        roll.truncate(length);
        agrees(&roll)
    };
    assert_eq!(agrees(&[]), Err((24, 0)));
    assert_eq!(agrees(&roll[..17]), Err((24, 17)));
    assert_eq!(agrees(&roll[..29]), Err((22, 17)));
    assert_eq!(changed(29, 19, 0x13), Err((22, 17)));
    assert_eq!(changed(30, 2, 0x13), Err((23, 0)));
    assert_eq!(changed(30, 2, 1), Err((23, 0)));
    assert_eq!(changed(30, 0, 0), Err((23, 0)));
    assert_eq!(changed(30, 12, 2), Err((24, 0)));
    assert_eq!(changed(30, 16, 0x80), Err((24, 0)));
    assert_eq!(changed(30, 4, 2), Err((24, 0)));
    assert_eq!(changed(30, 21, 0), Err((24, 17)));
    assert_eq!(agrees(&[&roll[..], &[0]].concat()), Err((24, 30)));
    assert_eq!(agrees(&roll.repeat(2)), Err((24, 30)));
    assert_eq!(agrees(&[0; 30]), Err((23, 0)));
}

// A record with a start and an end; its values are given as bytes.
fn record(kind: u16, start: u32, end: u32, cut: u8, values: &[u8]) -> Vec<u8> {
    let mut out = ((RECORD_HEAD + values.len()) as u16).to_le_bytes().to_vec();
    out.extend(kind.to_le_bytes());
    out.extend(start.to_le_bytes());
    out.extend(end.to_le_bytes());
    out.push(cut);
    out.extend(values);
    out
}

// A roll of an identifier from 0 to 3, this record, and Eof at 9: the record stands at 13.
fn around(middle: Vec<u8>) -> Vec<u8> {
    [record(1, 0, 3, 0, &[]), middle, record(18, 9, 9, 0, &[])].concat()
}

fn with_length(mut record: Vec<u8>, length: u16) -> Vec<u8> {
    record[..2].copy_from_slice(&length.to_le_bytes());
    record
}

#[test]
fn the_rules_one_by_one() {
    assert_eq!(agrees(&[]), Err((24, 0)));
    assert_eq!(refusal(&[]), (24, 0));
    let content = |from: u32, to: u32| [from.to_le_bytes(), to.to_le_bytes()].concat();
    let (ident, int, long) = (record(1, 3, 9, 0, &[]), record(4, 3, 9, 0, &[7, 0, 0, 0]), record(5, 3, 9, 0, &[7, 0, 0, 0, 0, 0, 0, 0]));
    let refused = [
        // 22: fewer bytes than the record's length are left, whatever its kind.
        (22, with_length(ident.clone(), 27)),
        (22, with_length(ident.clone(), 65535)),
        (22, with_length(record(0, 3, 9, 0, &[]), 27)),
        // 23: no such kind, or another length than the kind's; also one with which the roll would never go on.
        (23, record(0, 3, 9, 0, &[])),
        (23, record(19, 3, 9, 0, &[])),
        (23, record(31, 3, 9, 0, &[])),
        (23, record(46, 3, 9, 0, &[])),
        (23, record(257, 3, 9, 0, &[])),
        (23, with_length(ident.clone(), 0)),
        (23, with_length(ident.clone(), 3)),
        (23, with_length(ident.clone(), 12)),
        (23, with_length(ident.clone(), 14)),
        (23, record(4, 3, 9, 0, &[])),
        (23, record(4, 3, 9, 0, &[0; 8])),
        (23, record(5, 3, 9, 0, &[0; 4])),
        (23, record(6, 3, 9, 0, &[0; 4])),
        (23, record(17, 3, 9, 0, &[])),
        (23, record(0, 9, 3, 2, &[])),
        // 24
        (24, record(1, 3, 9, 2, &[])),
        (24, record(1, 3, 9, 255, &[])),
        (24, record(17, 3, 9, 0, &[2])),
        (24, record(4, 3, 9, 0, &[0, 0, 0, 128])),
        (24, record(5, 3, 9, 0, &[0, 0, 0, 0, 0, 0, 0, 128])),
        (24, record(1, 9, 8, 0, &[])),
        (24, record(1, 2, 9, 0, &[])),
        (24, record(6, 3, 9, 0, &content(2, 8))),
        (24, record(6, 3, 9, 0, &content(4, 10))),
        (24, record(6, 3, 9, 0, &content(5, 4))),
        (24, record(1, 3, 10, 0, &[])), // its own record is fine: the Eof behind it starts too early
    ];
    for (i, (number, middle)) in refused.iter().enumerate() {
        let length = middle.len();
        let place = if i == refused.len() - 1 { 13 + length } else { 13 };
        assert_eq!(agrees(&around(middle.clone())), Err((*number, place as u32)), "{middle:?}");
    }
    let read = [
        ident.clone(),
        int,
        long,
        record(4, 3, 9, 0, &[255, 255, 255, 127]),
        record(5, 3, 9, 0, &[255, 255, 255, 255, 255, 255, 255, 127]),
        record(6, 3, 9, 1, &content(3, 9)),
        record(6, 3, 9, 0, &content(9, 9)),
        record(45, 3, 3, 0, &[]),
        record(17, 9, 9, 0, &[1]),
        // What REQUESTS does not list is not judged: the cut of a line end, texts that no such token has.
        record(17, 3, 9, 1, &[0]),
        record(8, 4, 9, 0, &[]),
    ];
    for middle in read {
        assert_eq!(agrees(&around(middle.clone())), Ok(3), "{middle:?}");
    }
    // One to three bytes left are too few, four can tell a length and a kind.
    for left in 1..=4 {
        let wanted = if left < 4 { 22 } else { 23 };
        assert_eq!(agrees(&[record(1, 0, 3, 0, &[]), vec![0; left]].concat()), Err((wanted, 13)));
    }
    // Places past every script, an Eof that is not empty, and one with a cut.
    assert_eq!(agrees(&[record(1, 0, u32::MAX, 0, &[]), record(18, u32::MAX, u32::MAX, 1, &[])].concat()), Ok(2));
    assert_eq!(agrees(&record(18, 3, 9, 0, &[])), Ok(1));
    // A wrong Eof is refused at its offset, before the bytes behind it are looked at.
    assert_eq!(agrees(&[record(18, 9, 3, 0, &[]), vec![0]].concat()), Err((24, 0)));
}

#[test]
fn steps_anywhere() {
    let roll = roll_of("x = 7 // n\n\"a\"");
    // At the roll's length and past it.
    for at in [roll.len() as u32, roll.len() as u32 + 1, u32::MAX] {
        assert_eq!(step(&roll, at, 0), [24, roll.len() as u32, 0, 0, 0, 0, 0, 0, 0, 0]);
    }
    assert_eq!(step(&[], 0, 0), [24, 0, 0, 0, 0, 0, 0, 0, 0, 0]);
    // The IntLit at 26, whatever stood before it; not after a token that ends behind its start.
    assert_eq!(step(&roll, 26, 0), [0, 0, 4, 4, 5, 0, 0, 43, 7, 0]);
    assert_eq!(step(&roll, 26, 4), [0, 0, 4, 4, 5, 0, 0, 43, 7, 0]);
    assert_eq!(step(&roll, 26, 5), [24, 26, 0, 0, 0, 0, 0, 0, 0, 0]);
    // An offset inside a record is judged as it stands.
    assert_eq!(step(&roll, 1, 0)[..2], [22, 1]);
}

#[test]
fn blocks_of_other_lengths() {
    let roll = roll_of("a");
    for length in 0..=48 {
        let mut answer = vec![0xAA; length];
        let whole = unsafe { ergo_read_roll(roll.as_ptr(), roll.len() as u64, answer.as_mut_ptr(), length as u64) };
        assert_eq!(whole, if length == 16 { 0 } else { 20 });
        let wanted = if length == 16 { [0, 0, 0, 0, 0, 0, 0, 0, 2, 0, 0, 0, 26, 0, 0, 0].to_vec() } else { vec![0xAA; length] };
        assert_eq!(answer, wanted);
        let mut answer = vec![0xAA; length];
        let one = unsafe { ergo_read_record(roll.as_ptr(), roll.len() as u64, 0, 0, answer.as_mut_ptr(), length as u64) };
        assert_eq!(one, if length == 40 { 0 } else { 20 });
        assert!(length == 40 || answer == vec![0xAA; length]);
    }
    // On a refusal count and bytes are 0.
    let mut answer = [0xAA; 16];
    let number = unsafe { ergo_read_roll(roll.as_ptr(), 20, answer.as_mut_ptr(), 16) };
    assert_eq!((number, answer), (22, [22, 0, 0, 0, 13, 0, 0, 0, 0, 0, 0, 0, 0, 0, 0, 0]));
}

// Records put together by a plain generator, most of them right: many rolls are read, and each number is met.
#[test]
fn any_records() {
    let mut state = 1u64;
    let mut random = |below: u64| {
        state = state.wrapping_mul(6364136223846793005).wrapping_add(1442695040888963407);
        (state >> 33) % below
    };
    let (mut read, mut numbers) = (0, [0; 25]);
    for _ in 0..100_000 {
        let (mut roll, mut place) = (Vec::new(), 0);
        for _ in 0..random(8) {
            let kind = match random(60) {
                0 => random(65536) as u16,
                k if k < 46 && k != 18 && !(19..32).contains(&k) => k as u16,
                _ => 17,
            };
            let start = if random(40) == 0 { random(20) as u32 } else { place + random(3) as u32 };
            let end = if random(40) == 0 { random(20) as u32 } else { start + random(4) as u32 };
            let mut values = match kind {
                4 => (random(1 << 31) as u32).to_le_bytes().to_vec(),
                5 => (random(1 << 31) << random(32)).to_le_bytes().to_vec(),
                6 => [start.to_le_bytes(), end.to_le_bytes()].concat(),
                17 => vec![random(2) as u8],
                _ => Vec::new(),
            };
            if random(40) == 0 {
                let length = values.len() as u64;
                values = (0..random(length + 1)).map(|_| random(256) as u8).collect();
            }
            if let (Some(last), 0) = (values.last_mut(), random(20)) {
                *last = random(256) as u8;
            }
            let cut = if random(80) == 0 { random(256) as u8 } else { random(2) as u8 };
            roll.extend(record(kind, start, end, cut, &values));
            place = end;
        }
        if random(20) > 0 {
            roll.extend(record(18, place, place, 0, &[]));
        }
        if random(20) == 0 {
            roll.truncate(random(roll.len() as u64 + 1) as usize);
        }
        match agrees(&roll) {
            Ok(_) => read += 1,
            Err((number, _)) => numbers[number as usize] += 1,
        }
    }
    assert!(read > 10_000, "{read}");
    assert!(numbers[22..].iter().all(|&n| n > 1_000), "{numbers:?}");
}

// A long roll, so that a walk that is not linear would be felt.
#[test]
fn a_long_roll() {
    let count = 2_000_000;
    let mut roll: Vec<u8> = (0..count).flat_map(|at| record(17, at, at + 1, 0, &[0])).collect();
    assert_eq!(refusal(&roll), (24, roll.len() as u32));
    roll.extend(record(18, count, count, 0, &[]));
    let read = Roll::read(&roll).unwrap();
    assert_eq!((read.count(), read.iter().count()), (count as usize + 1, count as usize + 1));
}
