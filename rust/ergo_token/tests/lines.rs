// Lines and columns: by the library's own two functions and by the wrapper. What to expect is counted here from the script's first byte, from
// REQUESTS (docs/REQUESTS.md), "Lines and columns".
use ergo_token::{position, tokenize, view, Lines, Position, Refusal, SCRIPT_LIMIT};

// The wrapper links the library that has these two.
extern "C" {
    fn ergo_index_lines(script: *const u8, n: u64, index: *mut u32, m: u64, answer: *mut u8, k: u64) -> u32;
    fn ergo_line_column(script: *const u8, n: u64, index: *const u32, m: u64, place: u32, answer: *mut u8, k: u64) -> u32;
}

// What the library must not change.
const BYTE: u8 = 0xA5;
const NUMBER: u32 = 0xA5A5_0000;

// Numbers that differ from each other and from places.
fn sentinels(n: usize) -> Vec<u32> {
    (0..n as u32).map(|i| NUMBER + i).collect()
}

fn block(words: [u32; 4]) -> Vec<u8> {
    words.iter().flat_map(|word| word.to_le_bytes()).collect()
}

// The number handed back and the block, of so many bytes.
fn build(script: &[u8], index: &mut [u32], bytes: usize) -> (u32, Vec<u8>) {
    let mut answer = vec![BYTE; bytes];
    let (n, m, k) = (script.len() as u64, index.len() as u64, bytes as u64);
    let number = unsafe { ergo_index_lines(script.as_ptr(), n, index.as_mut_ptr(), m, answer.as_mut_ptr(), k) };
    (number, answer)
}

fn query(script: &[u8], index: &[u32], place: u32, bytes: usize) -> (u32, Vec<u8>) {
    let mut answer = vec![BYTE; bytes];
    let (n, m, k) = (script.len() as u64, index.len() as u64, bytes as u64);
    let number = unsafe { ergo_line_column(script.as_ptr(), n, index.as_ptr(), m, place, answer.as_mut_ptr(), k) };
    (number, answer)
}

// Enough of a script to know it by.
fn named(script: &[u8]) -> String {
    format!("{} bytes, {}", script.len(), script[..script.len().min(80)].escape_ascii())
}

// The four numbers of a query's block.
fn asked(script: &[u8], index: &[u32], place: u32) -> [u32; 4] {
    let (number, answer) = query(script, index, place, 16);
    let mut words = [0; 4];
    for (word, bytes) in words.iter_mut().zip(answer.chunks_exact(4)) {
        *word = u32::from_le_bytes(bytes.try_into().unwrap());
    }
    assert_eq!(words[0], number, "{} at {place}", named(script));
    words
}

// Line and column of each place up to the length, counted from the first byte; nothing inside a character.
fn counted(text: &str) -> Vec<Option<(u32, u32)>> {
    let (mut line, mut column) = (1, 1);
    let mut positions = Vec::new();
    for c in text.chars() {
        positions.push(Some((line, column)));
        positions.resize(positions.len() + c.len_utf8() - 1, None);
        (line, column) = if c == '\n' { (line + 1, 1) } else { (line, column + 1) };
    }
    positions.push(Some((line, column)));
    positions
}

// Where lines start: at 0, and behind each LF. CR LF ends in one.
fn starts_of(text: &str) -> Vec<u32> {
    let ends = text.match_indices('\n').map(|(at, _)| at as u32 + 1);
    [0].into_iter().chain(ends).collect()
}

fn found(line: u32, column: u32) -> Position {
    Position { line: line as usize, column: column as usize }
}

// Builds an index of so many numbers, with others before and behind it. All that may not change is compared.
fn builds(script: &[u8], lent: usize, number: u32, place: u32, lines: u32, starts: &[u32]) {
    let mut numbers = sentinels(lent + 4);
    let mut wanted = numbers.clone();
    wanted[2..2 + starts.len()].copy_from_slice(starts);
    let answer = build(script, &mut numbers[2..2 + lent], 16);
    assert_eq!(answer, (number, block([number, place, lines, 0])), "{}, {lent}", named(script));
    assert_eq!(numbers, wanted, "{}, {lent}", named(script));
}

// Every answer about a script that can't be taken.
fn refuses(script: &[u8], refusal: Refusal, places: &[u32]) {
    let Refusal { number, place } = refusal;
    for lent in [0, 1, 2, 9] {
        builds(script, lent, number, place, 0, &[]);
        for &at in places {
            assert_eq!(asked(script, &sentinels(lent), at), [number, place, 0, 0], "{} at {at}, {lent}", named(script));
        }
    }
    assert_eq!(Lines::index(script), Err(refusal));
    assert_eq!(position(script, places[0]), Err(refusal));
}

// Every answer about a script.
fn agrees(script: &[u8]) {
    let places: Vec<u32> = (0..script.len() as u32 + 3).chain([u32::MAX]).collect();
    let text = match std::str::from_utf8(script) {
        Ok(text) => text,
        Err(error) => return refuses(script, Refusal { number: 18, place: error.valid_up_to() as u32 }, &places),
    };
    let (positions, starts, name) = (counted(text), starts_of(text), named(script));
    let lines = starts.len();
    for lent in 0..lines.min(2) {
        builds(script, lent, 26, 0, lines as u32, &[]);
    }
    builds(script, lines - 1, 26, 0, lines as u32, &[]);
    builds(script, lines, 0, 0, lines as u32, &starts);
    builds(script, lines + 1, 0, 0, lines as u32, &starts);

    let longer = [&starts[..], &[0, u32::MAX]].concat();
    let index = Lines::index(script).unwrap();
    assert_eq!((index.count(), index.starts(), index.script()), (lines, &starts[..], script));
    let mut ascending = index.positions();
    for place in places {
        match positions.get(place as usize).copied().flatten() {
            Some((line, column)) => {
                assert_eq!(asked(script, &starts, place), [0, 0, line, column], "{name} at {place}");
                assert_eq!(asked(script, &longer, place), [0, 0, line, column], "{name} at {place}");
                for lent in [0, lines - 1] {
                    assert_eq!(asked(script, &starts[..lent], place), [26, 0, 0, 0], "{name} at {place}");
                }
                let position = Ok(found(line, column));
                assert_eq!((index.position(place), ascending.at(place)), (position, position), "{name} at {place}");
            }
            // 25 goes before 26.
            None => {
                for index in [&starts[..], &longer, &[]] {
                    assert_eq!(asked(script, index, place), [25, 0, 0, 0], "{name} at {place}");
                }
                let none = Err(Refusal { number: 25, place: 0 });
                assert_eq!((index.position(place), ascending.at(place)), (none, none), "{name} at {place}");
            }
        }
    }
}

// A plain generator.
struct Random(u64);

impl Random {
    fn below(&mut self, n: u64) -> u64 {
        self.0 = self.0.wrapping_mul(6364136223846793005).wrapping_add(1442695040888963407);
        (self.0 >> 33) % n
    }
}

// Each script of at most so many pieces.
fn each_script(pieces: &[&[u8]], most: usize, visit: &mut impl FnMut(&[u8])) {
    fn behind(script: &mut Vec<u8>, pieces: &[&[u8]], more: usize, visit: &mut impl FnMut(&[u8])) {
        visit(script);
        if more > 0 {
            for piece in pieces {
                script.extend_from_slice(piece);
                behind(script, pieces, more - 1, visit);
                script.truncate(script.len() - piece.len());
            }
        }
    }
    behind(&mut Vec::new(), pieces, most, visit);
}

const PIECES: [&[u8]; 7] = [b"a", b"\n", b"\r", "\u{436}".as_bytes(), "\u{20AC}".as_bytes(), "\u{1F600}".as_bytes(), b"\x80"];

#[test]
fn every_short_script() {
    let mut scripts = 0;
    each_script(&PIECES, 5, &mut |script| {
        agrees(script);
        scripts += 1;
    });
    assert_eq!(scripts, 1 + 7 + 49 + 343 + 2401 + 16807);
}

// A line end at each place of scripts about the lengths at which bytes are taken together, eight or more at once.
#[test]
fn one_line_end_anywhere() {
    for length in (0..40).chain(216..232).chain(446..450) {
        let blank = vec![b' '; length];
        agrees(&blank);
        for at in 0..length {
            let mut script = blank.clone();
            script[at] = b'\n';
            let starts = [0, at as u32 + 1];
            builds(&script, 3, 0, 0, 2, &starts);
            builds(&script, 1, 26, 0, 2, &[]);
            assert_eq!(asked(&script, &starts, at as u32), [0, 0, 1, at as u32 + 1]);
            assert_eq!(asked(&script, &starts, at as u32 + 1), [0, 0, 2, 1]);
            assert_eq!(asked(&script, &starts, length as u32), [0, 0, 2, (length - at) as u32]);
        }
    }
}

#[test]
fn one_character_over_and_over() {
    for piece in ["\n", "\r\n", "\r", "a", "\u{436}", "\u{20AC}", "\u{1F600}", "a\n", "abcdef\n", "\u{436}\r\n", "// \u{4E00}\u{4E00}\n"] {
        for count in [1, 2, 7, 8, 9, 31, 32, 33, 56, 57, 111, 112, 113, 223, 224, 225, 256, 300] {
            agrees(piece.repeat(count).as_bytes());
        }
    }
}

// Longer scripts, with line ends seldom, often, or nearly always; some are cut inside a character, or end in bytes that are none.
#[test]
fn random_scripts() {
    let bad: [&[u8]; 4] = [b"\xC0\x80", b"\xED\xA0\x80", b"\xF4\x90\x80\x80", b"\xE2\x82\n"];
    let mut random = Random(1);
    let mut refused = 0;
    for _ in 0..400 {
        let (length, ends) = (random.below(700), 1 + random.below(8));
        let mut script = Vec::new();
        for _ in 0..length {
            let piece = if random.below(8) < ends { 1 + random.below(2) } else { random.below(6) };
            script.extend_from_slice(PIECES[piece as usize]);
        }
        match random.below(8) {
            0 | 1 => script.truncate(random.below(script.len() as u64 + 1) as usize),
            2 => script.extend_from_slice(bad[random.below(bad.len() as u64) as usize]),
            _ => {}
        }
        refused += usize::from(std::str::from_utf8(&script).is_err());
        agrees(&script);
    }
    assert!(refused > 40, "{refused}");
}

// The sentences of REQUESTS, and the examples of the pages.
#[test]
fn examples() {
    let positions = |script: &[u8]| {
        let lines = Lines::index(script).unwrap();
        (0..=script.len() as u32).map(|place| lines.position(place).map_or((0, 0), |at| (at.line, at.column))).collect::<Vec<_>>()
    };
    // Both bytes of CR LF belong to the line that they end; a script has one line more than line ends.
    assert_eq!(positions(b"a\r\nb\n"), [(1, 1), (1, 2), (1, 3), (2, 1), (2, 2), (3, 1)]);
    assert_eq!(positions(b""), [(1, 1)]);
    assert_eq!(positions(b"\n\n"), [(1, 1), (2, 1), (3, 1)]);
    // A CR alone ends no line, nor do two before an LF.
    assert_eq!(positions(b"a\rb"), [(1, 1), (1, 2), (1, 3), (1, 4)]);
    assert_eq!(positions(b"\r\r\n"), [(1, 1), (1, 2), (1, 3), (2, 1)]);
    // Also inside strings, comments and backticks.
    for script in ["\"\"\"a\n\"\"\"", "/*\n*/", "`\n`", "// a\n", "'\n"] {
        assert_eq!(Lines::index(script.as_bytes()).map(|lines| lines.count()), Ok(2), "{script}");
    }
    // Columns count characters.
    assert_eq!(position("\u{44F}\u{20AC}\u{1F600}b".as_bytes(), 9), Ok(found(1, 4)));
    // A direction mark, for which the script is refused, is a character as any.
    let marked = "a\n\"\u{2067}b\u{2069}\"\n".as_bytes();
    let place = tokenize(marked).unwrap_err().place;
    assert_eq!((place, position(marked, place), position(marked, 7)), (3, Ok(found(2, 2)), Ok(found(2, 4))));
    agrees(marked);
    assert_eq!(found(2, 7).to_string(), "line 2, column 7");

    let mut index = [7; 4];
    assert_eq!(build(b"a\r\nb\n", &mut index, 16), (0, block([0, 0, 3, 0])));
    assert_eq!(index, [0, 3, 5, 7]);
    assert_eq!(build(b"a\r\nb\n", &mut [7; 2], 16), (26, block([26, 0, 3, 0])));
    assert_eq!(query(b"a\r\nb\n", &index, 4, 16), (0, block([0, 0, 2, 2])));
    assert_eq!(query(b"a\r\nb\n", &index, 6, 16), (25, block([25, 0, 0, 0])));
    assert_eq!(query(b"a\r\nb\n", &index[..2], 4, 16), (26, block([26, 0, 0, 0])));
    assert_eq!(query("\u{20AC}".as_bytes(), &[0], 1, 16), (25, block([25, 0, 0, 0])));
    assert_eq!(query(b"a\xC0\x80", &[0], 9, 16), (18, block([18, 1, 0, 0])));
}

// 20 goes before every other refusal, and changes nothing.
#[test]
fn blocks_of_other_lengths() {
    let too_long = vec![0xFF; SCRIPT_LIMIT + 1];
    let scripts: [&[u8]; 4] = [b"a\nb", b"", b"\xFF", &too_long];
    for script in scripts {
        for length in (0..40).filter(|&length| length != 16) {
            for lent in [0, 1, 2, 3] {
                let mut index = sentinels(lent);
                assert_eq!(build(script, &mut index, length), (20, vec![BYTE; length]));
                assert_eq!(index, sentinels(lent));
                for place in [0, 1, u32::MAX] {
                    assert_eq!(query(script, &index, place, length), (20, vec![BYTE; length]));
                }
            }
        }
    }
    assert_eq!(build(b"a\nb", &mut [7; 2], 16).0, 0);
}

#[test]
fn too_long() {
    let refusal = Refusal { number: 17, place: 0 };
    // 17 goes before 18, 25 and 26.
    for byte in [b'\n', b' ', 0xFF] {
        refuses(&vec![byte; SCRIPT_LIMIT + 1], refusal, &[0, 1, SCRIPT_LIMIT as u32 + 1, u32::MAX]);
    }
    assert_eq!(tokenize(&vec![b'\n'; SCRIPT_LIMIT + 1]).err(), Some(refusal));
}

// The longest scripts, and as many lines as there can be.
#[test]
fn the_longest() {
    let (limit, last) = (SCRIPT_LIMIT as u32, SCRIPT_LIMIT as u32 + 1);
    let ends = vec![b'\n'; SCRIPT_LIMIT];
    let mut index = sentinels(SCRIPT_LIMIT + 2);
    assert_eq!(build(&ends, &mut index[..SCRIPT_LIMIT], 16), (26, block([26, 0, last, 0])));
    assert_eq!(index, sentinels(SCRIPT_LIMIT + 2));
    // One number more than bytes is enough.
    assert_eq!(build(&ends, &mut index, 16), (0, block([0, 0, last, 0])));
    assert!(index[..SCRIPT_LIMIT + 1].iter().copied().eq(0..=limit));
    assert_eq!(index[SCRIPT_LIMIT + 1], NUMBER + last);
    for place in [0, 1, limit / 2, limit - 1, limit] {
        assert_eq!(asked(&ends, &index, place), [0, 0, place + 1, 1]);
    }
    assert_eq!(asked(&ends, &index, limit + 1), [25, 0, 0, 0]);

    let blanks = vec![b' '; SCRIPT_LIMIT];
    assert_eq!(Lines::index(&blanks).map(|lines| lines.starts().to_vec()), Ok(vec![0]));
    assert_eq!(asked(&blanks, &[0], limit), [0, 0, 1, limit + 1]);
    let mut cut = "\u{20AC}".repeat(SCRIPT_LIMIT / 3).into_bytes();
    assert_eq!(asked(&cut, &[0], cut.len() as u32), [0, 0, 1, limit / 3 + 1]);
    cut.push(0xE2);
    assert_eq!(cut.len(), SCRIPT_LIMIT);
    assert_eq!(asked(&cut, &[0], 0), [18, limit - 1, 0, 0]);
}

// Over other numbers a query still ends, with some line of the script and some column, and the numbers behind the lines make no difference.
#[test]
fn other_numbers() {
    let mut random = Random(2);
    let scripts = ["", "a", "\n", "a\r\n\u{436}\n\n\u{20AC}\u{1F600}", "a\nb\nc\nd\ne\nf\ng\nh\n", "\u{1F600}\n\u{1F600}\u{1F600}\n\u{1F600}\n"];
    let long: Vec<String> = [30, 100, 1000].iter().map(|&n| "\u{436}\n".repeat(n)).collect();
    let mut others = 0;
    for script in scripts.into_iter().chain(long.iter().map(|text| &text[..])) {
        let (positions, starts) = (counted(script), starts_of(script));
        let (lines, length) = (starts.len(), script.len() as u32);
        for round in 0..200 {
            // Huge, small, descending, all the same, nearly right, and about the script's length.
            let index: Vec<u32> = match round % 6 {
                0 => (0..lines).map(|_| (random.below(1 << 31) * 2 + 1) as u32).collect(),
                1 => (0..lines).map(|_| random.below(length as u64 + 2) as u32).collect(),
                2 => starts.iter().rev().copied().collect(),
                3 => vec![[0, 1, length, length + 1, u32::MAX][random.below(5) as usize]; lines],
                4 => starts.iter().map(|&start| start + random.below(2) as u32).collect(),
                _ => (0..lines).map(|_| length.wrapping_add(random.below(3) as u32).wrapping_sub(1)).collect(),
            };
            let more = [&index[..], &sentinels(3)].concat();
            for (place, position) in positions.iter().enumerate().filter(|_| length < 50 || random.below(40) == 0) {
                let answer = asked(script.as_bytes(), &index, place as u32);
                if position.is_none() {
                    assert_eq!(answer, [25, 0, 0, 0]);
                    continue;
                }
                let [number, at, line, column] = answer;
                assert_eq!((number, at), (0, 0), "{script:?} at {place}, {index:?}");
                assert!((1..=lines as u32).contains(&line), "{script:?} at {place}, {index:?}: {line}");
                assert!((1..=place as u32 + 1).contains(&column), "{script:?} at {place}, {index:?}: {column}");
                assert_eq!(asked(script.as_bytes(), &more, place as u32), answer);
                others += usize::from(Some((line, column)) != *position);
            }
        }
    }
    assert!(others > 1000, "{others}");
}

// Length 0 with any pointer, of whatever alignment, is an empty slice.
#[test]
fn nothing_lent() {
    let (none, odd) = (std::ptr::null_mut::<u32>(), std::ptr::without_provenance_mut::<u32>(1));
    for index in [none, odd] {
        for script in [std::ptr::null(), std::ptr::without_provenance(1)] {
            let mut answer = [BYTE; 16];
            assert_eq!(unsafe { ergo_index_lines(script, 0, index, 0, answer.as_mut_ptr(), 16) }, 26);
            assert_eq!(answer[..], block([26, 0, 1, 0]));
            assert_eq!(unsafe { ergo_line_column(script, 0, index, 0, 0, answer.as_mut_ptr(), 16) }, 26);
            assert_eq!(answer[..], block([26, 0, 0, 0]));
            assert_eq!(unsafe { ergo_line_column(script, 0, index, 0, 1, answer.as_mut_ptr(), 16) }, 25);
            let lent = &mut [NUMBER];
            assert_eq!(unsafe { ergo_index_lines(script, 0, lent.as_mut_ptr(), 1, answer.as_mut_ptr(), 16) }, 0);
            assert_eq!((&lent[..], &answer[..]), (&[0][..], &block([0, 0, 1, 0])[..]));
        }
    }
    assert_eq!(unsafe { ergo_index_lines(std::ptr::null(), 0, none, 0, std::ptr::null_mut(), 0) }, 20);
    assert_eq!(unsafe { ergo_line_column(std::ptr::null(), 0, none, 0, 0, std::ptr::null_mut(), 0) }, 20);
}

// Places in any order, twice, and bad ones between.
#[test]
fn positions_in_any_order() {
    let mut random = Random(3);
    for text in ["", "\n", "a\r\n\u{436}b\n\n\u{20AC}\u{1F600}\r", &"\u{4E00}\u{4E01}\r\n".repeat(50), &"\u{436}".repeat(200)] {
        let positions = counted(text);
        let lines = Lines::index(text.as_bytes()).unwrap();
        let mut walk = lines.positions();
        for _ in 0..2000 {
            let place = random.below(positions.len() as u64 + 2) as usize;
            let wanted = match positions.get(place).copied().flatten() {
                Some((line, column)) => Ok(found(line, column)),
                None => Err(Refusal { number: 25, place: 0 }),
            };
            assert_eq!((walk.at(place as u32), lines.position(place as u32)), (wanted, wanted), "{text:?} at {place}");
        }
    }
}

// What the view says of a refused script's place, and of the tokens of an accepted one.
#[test]
fn positions_of_the_view() {
    let pieces = ["a", "\n", "\r\n", "\r", " ", "\u{436}", "\u{20AC}", "\"", "/*", "*/", "'", "1"];
    let mut random = Random(4);
    let (mut accepted, mut refused) = (0, 0);
    for _ in 0..20_000 {
        let mut script = String::new();
        for _ in 0..random.below(12) {
            script += pieces[random.below(pieces.len() as u64) as usize];
        }
        let positions = counted(&script);
        let mut bytes = script.into_bytes();
        if random.below(8) == 0 {
            bytes.push(0xFF);
        }
        let mut out = Vec::new();
        view(&mut out, &bytes).unwrap();
        let shown = String::from_utf8(out).unwrap();
        match tokenize(&bytes) {
            Ok(tokens) => {
                for (token, shown) in tokens.iter().zip(shown.lines()) {
                    let (line, column) = positions[token.start as usize].unwrap();
                    assert!(shown.starts_with(&format!("{line}:{column} ")), "{bytes:?}: {shown}");
                }
                accepted += 1;
            }
            Err(Refusal { number, place }) => {
                let (line, column) = positions[place as usize].unwrap();
                let head = format!("refused {number} at {place}: line {line}, column {column}\n");
                assert!(shown.starts_with(&head), "{bytes:?}: {shown}");
                refused += 1;
            }
        }
    }
    assert!(accepted > 1000 && refused > 1000, "{accepted}, {refused}");
}

// The view of long scripts, with many lines and with one: a walk that is not linear would be felt.
#[test]
fn a_long_view() {
    for line in ["a b c d e f g\r\n", "a b \u{436} "] {
        let script = line.repeat(60_000);
        let mut out = Vec::new();
        assert!(view(&mut out, script.as_bytes()).unwrap());
        let last = match line.ends_with('\n') {
            true => "\n60001:1   Eof\n",
            false => "\n1:360001  Eof\n",
        };
        assert!(String::from_utf8(out).unwrap().contains(last));
    }
}
