use crate::{position, tokenize, tokenize_contact, Lines, Refusal, Token, TokenKind, Tokens};
use std::io::{self, Write};

// At most so many characters of a token's text, and so many of a line on each side of the caret.
const SHOWN: usize = 60;

// Bytes that hold more characters than that.
const ENOUGH: usize = 4 * (SHOWN + 1);

const ABOUT_CUT: &str = "\
cut: between that line end and this token stands a block comment that, past spaces and tabs, no line end follows. An expression that could
go on over a soft line end, after an operator for instance, does not go on over this one. End the line after the comment, or put the
comment before the line end.";

// A character as it is shown: by its number if a reader would not see it, could not tell it from a space, or would see others moved by it. Printed
// raw, a direction mark would do to what is shown what it is refused for, and a control could steer the terminal. A space and a tab stay.
fn character(c: char) -> String {
    // Unicode's Default_Ignorable_Code_Point, the nine direction marks among them, and the marks of annotations, U+FFF9 to U+FFFB.
    let unseen = matches!(
        c,
        '\u{AD}' | '\u{34F}' | '\u{61C}' | '\u{115F}' | '\u{1160}' | '\u{17B4}' | '\u{17B5}' | '\u{180B}'..='\u{180F}' | '\u{200B}'..='\u{200F}'
            | '\u{202A}'..='\u{202E}' | '\u{2060}'..='\u{206F}' | '\u{3164}' | '\u{FE00}'..='\u{FE0F}' | '\u{FEFF}' | '\u{FFA0}'
            | '\u{FFF0}'..='\u{FFFB}' | '\u{1BCA0}'..='\u{1BCA3}' | '\u{1D173}'..='\u{1D17A}' | '\u{E0000}'..='\u{E0FFF}'
    );
    let blank = c.is_whitespace() || c.is_control();
    if unseen || blank && c != ' ' && c != '\t' {
        format!("<{}>", code(c))
    } else {
        c.to_string()
    }
}

fn code(c: char) -> String {
    format!("U+{:04X}", c as u32)
}

// The first characters of a text.
fn shown_text(text: &str) -> String {
    let mut characters = text.chars();
    let mut out: String = characters.by_ref().take(SHOWN).map(character).collect();
    if characters.next().is_some() {
        out.push_str(" ...");
    }
    out
}

// The shown characters of some bytes, UTF-8 or not.
fn pieces(bytes: &[u8]) -> Vec<String> {
    let mut out = Vec::new();
    let mut rest = bytes;
    while !rest.is_empty() {
        let (good, bad) = match std::str::from_utf8(rest) {
            Ok(text) => (text, 0),
            Err(error) => {
                let good = std::str::from_utf8(rest.get(..error.valid_up_to()).unwrap_or_default()).unwrap_or_default();
                (good, error.error_len().unwrap_or(rest.len() - good.len()))
            }
        };
        out.extend(good.chars().map(character));
        let end = good.len() + bad;
        out.extend(rest.get(good.len()..end).unwrap_or_default().iter().map(|byte| format!("<{byte:02X}>")));
        rest = rest.get(end..).unwrap_or_default();
    }
    out
}

/// A text on one line, UTF-8 or not, so that it can be printed: by its number each character that a reader would not see, could not tell from a space, or
/// would see others moved by, as a direction mark, and by its value each byte that is not UTF-8. A tab stays. [`view`] shows all texts like this.
///
/// ```
/// assert_eq!(ergo_token::shown("a\u{202E}b\n".as_bytes()), "a<U+202E>b<U+000A>");
/// assert_eq!(ergo_token::shown(b"\xFF"), "<FF>");
/// ```
pub fn shown(text: &[u8]) -> String {
    pieces(text).concat()
}

// The last bytes of a text, enough of them, from a character's start on.
fn last(text: &[u8]) -> &[u8] {
    let mut from = text.len().saturating_sub(ENOUGH);
    while from > 0 && text[from..].first().is_some_and(|byte| byte & 0xC0 == 0x80) {
        from -= 1;
    }
    &text[from..]
}

fn value(token: &Token) -> String {
    match token.kind {
        TokenKind::IntLit(value) => format!("  value {value}"),
        TokenKind::LongLit(value) => format!("  value {value}"),
        TokenKind::Str { .. } => format!("  content {}", shown_text(token.content().unwrap_or_default())),
        TokenKind::Newline { after_comment: true } => "  after a comment".to_string(),
        _ => String::new(),
    }
}

fn kind(token: &Token) -> String {
    match token.kind {
        TokenKind::IntLit(_) => "IntLit".to_string(),
        TokenKind::LongLit(_) => "LongLit".to_string(),
        TokenKind::Str { .. } => "Str".to_string(),
        TokenKind::Newline { .. } => "Newline".to_string(),
        TokenKind::Kw(kw) => format!("Kw {kw:?}"),
        kind => format!("{kind:?}"),
    }
}

fn text(token: &Token) -> String {
    match (token.kind, token.text) {
        (TokenKind::Newline { .. }, "\n") => "LF".to_string(),
        (TokenKind::Newline { .. }, _) => "CR LF".to_string(),
        _ => shown_text(token.text),
    }
}

fn accepted(out: &mut impl Write, tokens: &Tokens, lines: &Lines) -> io::Result<()> {
    let mut positions = lines.positions();
    let mut cuts = 0;
    // The first line end since the last token that is none.
    let mut line_end = None;
    for token in tokens {
        let at = positions.at(token.start).map_err(io::Error::other)?;
        let place = format!("{}:{}", at.line, at.column);
        let mark = match (token.cut, &line_end) {
            (true, Some(hard)) => format!("  <- cut: the line end at {hard} is hard"),
            (true, None) => "  <- cut".to_string(),
            (false, _) => String::new(),
        };
        let line = format!("{place:<9} {:<12} {}{}{mark}", kind(&token), text(&token), value(&token));
        writeln!(out, "{}", line.trim_end())?;
        cuts += usize::from(token.cut);
        line_end = match token.kind {
            TokenKind::Newline { .. } => line_end.or(Some(place)),
            _ => None,
        };
    }
    writeln!(out, "accepted: token count {} (line ends and Eof included), with the cut {cuts}", tokens.count())?;
    if cuts > 0 {
        writeln!(out, "{ABOUT_CUT}")?;
    }
    Ok(())
}

fn refused(out: &mut impl Write, script: &[u8], refusal: Refusal) -> io::Result<()> {
    let (head, tail) = script.split_at((refusal.place as usize).min(script.len()));
    // Line and column of the place are those of the end of what stands before it, which is UTF-8 and short enough even where the script is not.
    let at = position(head, head.len() as u32).map_err(io::Error::other)?;
    // Which of the nine marks is met, since nobody can tell them by looking, and its escape.
    let mark = tail.get(..3).and_then(|bytes| std::str::from_utf8(bytes).ok()?.chars().next()).filter(|_| refusal.number == 29);
    let (which, escape) = mark.map(|c| (format!(": {}", code(c)), format!(": \\u{:04X}", c as u32))).unwrap_or_default();
    writeln!(out, "refused {} at {}: {at}", refusal.number, refusal.place)?;
    writeln!(out, "met: {}{which}", refusal.meaning())?;
    writeln!(out, "do:  {}{escape}", refusal.advice())?;

    // The line, without its end, before the place and from it on.
    let head = &head[head.iter().rposition(|&byte| byte == b'\n').map_or(0, |lf| lf + 1)..];
    let ended = tail.iter().position(|&byte| byte == b'\n');
    let tail = &tail[..ended.unwrap_or(tail.len())];
    let (head, tail, cr) = match (ended, tail, head) {
        // The place is the LF of CR LF: the CR is not shown, and has a column.
        (Some(0), [], [head @ .., b'\r']) => (head, tail, " "),
        (Some(_), [tail @ .., b'\r'], _) => (head, tail, ""),
        _ => (head, tail, ""),
    };
    let (before, more_before) = match pieces(last(head)) {
        all if all.len() > SHOWN => (all[all.len() - SHOWN..].concat(), "... "),
        all => (all.concat(), ""),
    };
    let (after, more_after) = match pieces(&tail[..tail.len().min(ENOUGH)]) {
        all if all.len() > SHOWN => (all[..SHOWN].concat(), " ..."),
        all => (all.concat(), ""),
    };
    let number = at.line.to_string();
    let blanks = |text: &str| text.chars().map(|c| if c == '\t' { c } else { ' ' }).collect::<String>();
    writeln!(out, "{}", format!("{number} | {more_before}{before}{after}{more_after}").trim_end())?;
    writeln!(out, "{} | {}{}{cr}^", blanks(&number), blanks(more_before), blanks(&before))
}

fn view_by(out: &mut impl Write, script: &[u8], tokens: Result<Tokens<'_>, Refusal>) -> io::Result<bool> {
    let answer = tokens.and_then(|tokens| Ok((tokens, Lines::index(script)?)));
    match &answer {
        Ok((tokens, lines)) => accepted(out, tokens, lines)?,
        Err(refusal) => refused(out, script, *refusal)?,
    }
    Ok(answer.is_ok())
}

/// Writes the tokens of a script for its author, one to a line: line and column (both from 1, the column in characters), kind, text, value. A
/// token that carries the cut is marked, with the line end that is hard by it. For a refused script: number, place, line and column, what
/// was met, what to do, and the line with a caret. Texts are as [`shown`] makes them. Answers whether the script is accepted.
pub fn view(out: &mut impl Write, script: &[u8]) -> io::Result<bool> {
    view_by(out, script, tokenize(script))
}

/// As [`view`], of a contact.
pub fn view_contact(out: &mut impl Write, script: &[u8]) -> io::Result<bool> {
    view_by(out, script, tokenize_contact(script))
}
