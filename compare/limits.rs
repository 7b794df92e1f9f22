// Scripts at a contact's limits, REQUESTS, "Limits": of 4,095 to 4,097 bytes and of 511 to 513 tokens, with no other refusal and with each of 1 to 16, 18
// and 29.
use super::{wanted, CONTACT_BYTES, CONTACT_TOKENS, EXAMPLES, REFUSED};

// What a script ends with: nothing, or what is refused by 1 to 16, in this order, or by 18 or 29.
fn ends() -> Vec<&'static [u8]> {
    let mut ends: Vec<&[u8]> = vec![b""];
    ends.extend(EXAMPLES[REFUSED].iter().map(|text| text.as_bytes()));
    ends.push(b"a\xC0\x80");
    ends.push(MARK);
    let numbers: Vec<u32> = ends.iter().map(|end| wanted(end).number).collect();
    assert!(numbers.iter().copied().eq((0..=16).chain([18, 29])), "an end that another number refuses: {numbers:?}");
    ends
}

// Texts of one token each, with records of every length. The second needs most: 511 of them and Eof 10,744 bytes.
const TOKENS: [&[u8]; 6] = [b";", b"0L", b"\n", b"1 ", b"\"\" ", b"a "];

// One byte again and again, and the end, of so many bytes in all.
fn filled(with: u8, bytes: usize, end: &[u8]) -> Vec<u8> {
    let mut script = vec![with; bytes - end.len()];
    script.extend(end);
    script
}

// So many tokens, Eof among them, and the end.
fn counted(token: &[u8], tokens: usize, end: &[u8]) -> Vec<u8> {
    let mut script = token.repeat(tokens - 1);
    script.extend(end);
    script
}

// One that begins with a direction mark: so many bytes in all, or tokens beside it.
const MARK: &[u8] = "\u{2066}".as_bytes();

fn marked(script: Vec<u8>) -> Vec<u8> {
    [MARK, &script].concat()
}

// Those that crates/replay replays.
pub fn listed() -> Vec<Vec<u8>> {
    let tokens = CONTACT_TOKENS as usize;
    let mut list = Vec::new();
    for end in ends() {
        list.extend((CONTACT_BYTES - 1..=CONTACT_BYTES + 1).map(|bytes| filled(b' ', bytes, end)));
        list.extend((tokens - 1..=tokens + 1).chain([600]).map(|count| counted(TOKENS[0], count, end)));
    }
    for token in &TOKENS[1..] {
        list.extend((tokens - 1..=tokens + 1).map(|count| counted(token, count, b"")));
    }
    list.push(filled(b' ', CONTACT_BYTES + 1, "\u{E9}".as_bytes()));
    list.push(vec![0xFF; CONTACT_BYTES]);
    list.push(vec![0xFF; 5000]);
    list.extend((CONTACT_BYTES - 1..=CONTACT_BYTES + 1).map(|bytes| marked(filled(b' ', bytes - MARK.len(), b""))));
    list.extend((tokens - 1..=tokens + 1).map(|count| marked(counted(TOKENS[0], count, b""))));
    list.push(marked(filled(b' ', CONTACT_BYTES - MARK.len(), b"\xFF")));
    list
}

// And line ends up to the limit for bytes, far over that for tokens, and each of these tokens with each end.
#[cfg(linked)]
pub fn compared() -> Vec<Vec<u8>> {
    let tokens = CONTACT_TOKENS as usize;
    let mut list = listed();
    for end in ends() {
        list.extend((CONTACT_BYTES - 1..=CONTACT_BYTES + 1).map(|bytes| filled(b'\n', bytes, end)));
        for token in &TOKENS[1..] {
            list.extend((tokens - 1..=tokens + 1).map(|count| counted(token, count, end)));
        }
    }
    list
}
