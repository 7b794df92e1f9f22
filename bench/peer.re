// A peer for the benchmarks: a lexer by re2c, written from RULES (docs/RULES.md), that keeps the promise of ergo_tokenize. Same arguments, same records,
// same answer block, same refusals with their places; a refusal leaves the records buffer as it was. bench/peer builds it, bench/peer-check
// compares it with the published tokenize. It is no part of the library.
//
// It copies the script, puts FF hex behind it, and on the copy checks UTF-8 and looks for direction marks, in one walk. FF is in no character, and no
// class has it: so no rule runs past the end, and no loop looks for the end. The records go to memory of its own, and from there to the host's when
// the whole script has been read.
#include <stdint.h>
#include <stdlib.h>
#include <string.h>

typedef uint8_t byte;

enum { SCRIPT_LIMIT = 16777216, BLOCK = 16, HEAD = 13, PER_BYTE = HEAD + 4 };
enum { IDENT = 1, OP_ID, BACKTICK_ID, INT_LIT, LONG_LIT, STR, CHAR_SYM };
enum { L_PAREN = 8, R_PAREN, L_BRACKET, R_BRACKET, L_BRACE, R_BRACE, COMMA, SEMI, DOT, NEWLINE, END };
enum { CASE = 32, ELSE, FALSE, FUNCTION, IF, MATCH, RETURN, THEN, TRUE, COLON, ARROW, ASSIGN, HASH, AT };

// What is known of the gap before a token: bits.
enum { CUT = 1, AFTER_COMMENT = 2, LINE_ENDED = 4 };

typedef struct {
    uint32_t number, place, count, bytes;
} Answer;

static inline byte *put4(byte *out, uint32_t word)
{
    memcpy(out, &word, 4);
    return out + 4;
}

static inline byte *put_head(byte *out, uint32_t kind, uint32_t length, size_t start, size_t end, uint32_t cut)
{
    out = put4(out, kind << 16 | length);
    out = put4(out, (uint32_t)start);
    out = put4(out, (uint32_t)end);
    *out = (byte)cut;
    return out + 1;
}

// A number's digits, without sign, prefix and suffix. What is above every limit comes out as UINT64_MAX.
static inline uint64_t decimal(const byte *at, const byte *end)
{
    uint64_t value = 0;
    if (end - at > 19) {
        while (at < end && *at == '0') at++;
        if (end - at > 19) return UINT64_MAX;
    }
    for (; at < end; at++) value = value * 10 + (*at - '0');
    return value;
}

static inline uint64_t hexadecimal(const byte *at, const byte *end)
{
    uint64_t value = 0;
    if (end - at > 16) {
        while (at < end && *at == '0') at++;
        if (end - at > 16) return UINT64_MAX;
    }
    for (; at < end; at++) value = value << 4 | ((*at & 15) + (*at >> 6) * 9);
    return value;
}

static inline int line_end_follows(const byte *at)
{
    while (*at == ' ' || *at == '\t') at++;
    return *at == '\n' || (*at == '\r' && at[1] == '\n');
}

static inline int comment_follows(const byte *at)
{
    return *at == '/' || *at == '*';
}

// What a byte behind the first, ASCII part of a name or an operator may begin. Only then are the rules for all characters gone through.
enum { MORE_NAME = 1, QUOTE = 2, MORE_SIGNS = 4 };
static const byte follows[256] = {
    ['_'] = MORE_NAME, ['"'] = QUOTE, ['/'] = MORE_SIGNS, [0x80 ... 0xEF] = MORE_NAME | MORE_SIGNS,
};

/*!include:re2c "classes.re" */
/*!re2c
    re2c:define:YYCTYPE = byte;
    re2c:define:YYCURSOR = at;
    re2c:define:YYMARKER = marker;
    re2c:yyfill:enable = 0;

    id_start = (lowercase | uppercase | [$_]) \ [\u24B6-\u24E9];
    id_char = (alphabetic \ alpha_not_letter) | nd | [$];
    // Operator signs, without the slash and without slash and star.
    wide_sign = math_or_other_symbol \ [\u0000-\u007F];
    sign = [!#%&*+\-:<=>?@\\^|~] | wide_sign;
    after_slash = sign \ [*];
    printable = [\u0020-\uFFEF] \ [\u007F-\u009F\\];

    digit = [0-9];
    hex = [0-9a-fA-F];
    dq = ["];
    escape = "\\" ([btnfr'"\]] | digit{1,3} | "u" hex{4});

    rest_of_name = ("_"* id_char+)* ("_"+ (sign | "/")*)?;
    identifier = id_start rest_of_name;
    // A slash at the end is taken back where a comment begins with it.
    more_signs = sign* ("/" after_slash sign*)* "/"?;
    operator = sign more_signs | "/" (after_slash more_signs)?;
    // Behind a ' no backslash begins one.
    symbol_operator = (sign \ [\\]) more_signs | "/" (after_slash more_signs)?;
*/

// Comments and quoted texts: their bytes need not be taken for characters, and FF hex is left out by hand.
/*!re2c
    re2c:encoding:utf8 = 0;
    plain_text = [^"\\\n\xFF] | escape;
    prefixed_text = [^"\n$\xFF] | "$"+ [^"\n${\xFF];
*/

static const byte *line_comment_end(const byte *at)
{
    /*!re2c
    * { at--; return at; }
    [^\n\xFF]+ { return at - (*at == '\n' && at[-1] == '\r'); }
    */
}

// Behind the last */ of a block comment whose first two characters stand before, or no place.
static const byte *block_comment_end(const byte *at)
{
    uint32_t depth = 1;
more:
    /*!re2c
    * { return NULL; }
    [^*/\xFF]+ { goto more; }
    [^*/\xFF]* ("*"+ | "/"+) { goto more; }
    [^*/\xFF]* "/"+ "*" { depth++; goto more; }
    [^*/\xFF]* "*"+ "/" { if (--depth) goto more; return at; }
    */
}

// Behind the closing quotes of a string whose opening ones stand before, or no place.
static const byte *plain_end(const byte *at)
{
    const byte *marker;
    /*!re2c
    * { return NULL; }
    plain_text* dq { return at; }
    */
}

static const byte *triple_end(const byte *at)
{
    const byte *marker;
    /*!re2c
    * { return NULL; }
    ([^"\\\xFF] | dq{1,2} [^"\\\xFF])* dq dq dq+ { return at; }
    */
}

static const byte *prefixed_end(const byte *at)
{
    const byte *marker;
    /*!re2c
    * { return NULL; }
    prefixed_text* "$"* dq { return at; }
    */
}

static const byte *prefixed_triple_end(const byte *at)
{
    const byte *marker;
more:
    /*!re2c
    * { return NULL; }
    [^"\\$\xFF]* dq dq dq+ { return at; }
    [^"\\$\xFF]* ["$] { goto more; }
    [^"\\$\xFF]+ { goto more; }
    [^"\\$\xFF]* "${" { return NULL; }
    */
}

static const byte *backtick_end(const byte *at)
{
    const byte *marker;
    /*!re2c
    * { return NULL; }
    [^`\xFF]+ "`" { return at; }
    */
}

#define REFUSED(n, p) return (Answer){(n), (uint32_t)((p) - text), 0, 0}

static Answer escape_fault(const byte *text, const byte *at, const byte *limit)
{
    /*!re2c
    * { REFUSED(at > limit ? 12 : 14, at - 1); }
    "u" hex{0,3} { REFUSED(13, at); }
    */
}

// What is wrong with a string that does not end, from its opening on. Each is read a second time, and the script is then refused.
static Answer plain_fault(const byte *text, const byte *at, const byte *limit)
{
    const byte *marker;
    /*!re2c
    * { REFUSED(7, limit); }
    plain_text* "\n" { REFUSED(8, at - 1); }
    plain_text* "\\" { return escape_fault(text, at, limit); }
    plain_text+ { REFUSED(7, limit); }
    */
}

static Answer triple_fault(const byte *text, const byte *at, const byte *limit)
{
    const byte *marker;
    /*!re2c
    * { REFUSED(9, limit); }
    [^\\\xFF]* "\\" { REFUSED(10, at - 1); }
    */
}

static Answer prefixed_fault(const byte *text, const byte *at, const byte *limit)
{
    const byte *marker;
    /*!re2c
    * { REFUSED(7, limit); }
    prefixed_text* "$"* "\n" { REFUSED(8, at - 1); }
    prefixed_text* "$"+ "{" { REFUSED(11, at - 2); }
    */
}

static Answer prefixed_triple_fault(const byte *text, const byte *at, const byte *limit)
{
    const byte *marker;
    /*!re2c
    * { REFUSED(9, limit); }
    ([^\\$\xFF] | "$"+ [^\\${\xFF])* "$"* "\\" { REFUSED(10, at - 1); }
    ([^\\$\xFF] | "$"+ [^\\${\xFF])* "$"+ "{" { REFUSED(11, at - 2); }
    */
}

static Answer character_fault(const byte *text, const byte *at, const byte *limit)
{
    const byte *marker, *start = at;
    /*!re2c
    * { REFUSED(16, start); }
    escape { REFUSED(15, at); }
    "\\" { return escape_fault(text, at, limit); }
    */
}

// From here on by characters again.
/*!re2c
    re2c:encoding:utf8 = 1;
*/

// The rest of a name whose first characters stand before.
static const byte *name_end(const byte *at)
{
    const byte *marker, *start = at;
    /*!re2c
    * { return start; }
    rest_of_name { return at; }
    */
}

// Of the bytes of MORE_SIGNS: a sign past ASCII must be there whole. A slash is a sign or begins a comment, and in neither case the signs before it are
// a keyword.
static int sign_follows(const byte *at)
{
    const byte *marker;
    /*!re2c
    * { return 0; }
    wide_sign | "/" { return 1; }
    */
}

static const byte *operator_end(const byte *at)
{
    const byte *marker;
    /*!re2c
    * { return at; }
    operator { return at - (at[-1] == '/' && comment_follows(at)); }
    */
}

#define HEAD_OF(kind, values) (count++, out = put_head(out, (kind), HEAD + (values), start - text, at - text, gap & CUT), gap = 0)
#define TOKEN(kind) do { HEAD_OF(kind, 0); goto next; } while (0)
#define WORD(kind) do { if (follows[*at] & MORE_NAME && name_end(at) > at) goto name; TOKEN(kind); } while (0)
#define SIGNS(kind) do { if (follows[*at] & MORE_SIGNS && sign_follows(at)) goto operator; TOKEN(kind); } while (0)

// All records of a text that is UTF-8 and has FF hex at its limit. There is room for them. The rules of the first block are of ASCII alone, so
// that their loops are short; the others follow where they are needed.
static Answer lex(const byte *text, const byte *limit, byte *records)
{
    const byte *at = text, *marker, *start, *open;
    byte *out = records;
    uint32_t count = 0, gap = 0;
    uint64_t value;

next:
    start = at;
    /*!re2c
    * { goto wide; }

    [ \t]+ { goto next; }
    "\n" [ \t]* { value = 1; goto line_end; }
    "\r\n" [ \t]* { value = 2; goto line_end; }
    "\r" { REFUSED(1, start); }
    "//" {
        at = line_comment_end(at);
        gap |= AFTER_COMMENT;
        goto next;
    }
    "/*" { goto block_comment; }

    "(" { TOKEN(L_PAREN); }
    ")" { TOKEN(R_PAREN); }
    "[" { TOKEN(L_BRACKET); }
    "]" { TOKEN(R_BRACKET); }
    "{" { TOKEN(L_BRACE); }
    "}" { TOKEN(R_BRACE); }
    "," { TOKEN(COMMA); }
    ";" { TOKEN(SEMI); }
    "." { TOKEN(DOT); }

    "case" { WORD(CASE); }
    "else" { WORD(ELSE); }
    "false" { WORD(FALSE); }
    "function" { WORD(FUNCTION); }
    "if" { WORD(IF); }
    "match" { WORD(MATCH); }
    "return" { WORD(RETURN); }
    "then" { WORD(THEN); }
    "true" { WORD(TRUE); }
    [a-zA-Z$] [a-zA-Z0-9$]* {
        if (follows[*at] & (MORE_NAME | QUOTE)) goto name;
        TOKEN(IDENT);
    }
    "_" { goto name; }

    ":" { SIGNS(COLON); }
    "=>" { SIGNS(ARROW); }
    "=" { SIGNS(ASSIGN); }
    "#" { SIGNS(HASH); }
    "@" { SIGNS(AT); }
    [!#%&*+\-:<=>?@\\^|~]+ { SIGNS(OP_ID); }
    "/" { goto operator; }

    digit+ { value = decimal(start, at); goto int_lit; }
    digit+ [lL] { value = decimal(start, at - 1); goto long_lit; }
    "0x" hex+ { value = hexadecimal(start + 2, at); goto int_lit; }
    "0x" hex+ [lL] { value = hexadecimal(start + 2, at - 1); goto long_lit; }

    dq { goto plain; }
    dq dq dq { goto triple; }
    "`" { goto backtick; }
    "'" [\x20-\x5B\x5D-\x7E] "'" { TOKEN(CHAR_SYM); }
    "'" { goto quoted; }
    */

wide:
    if (start == limit) {
        at = start;
        HEAD_OF(END, 0);
        return (Answer){0, 0, count, (uint32_t)(out - records)};
    }
    at = start;
    /*!re2c
    * { REFUSED(3, start); }
    id_start { goto name; }
    wide_sign { goto operator; }
    */

name:
    at = name_end(at);
    if (*at == '"') goto prefixed;
    TOKEN(IDENT);

operator:
    at = operator_end(start);
    TOKEN(OP_ID);

line_end:
    count++;
    out = put_head(out, NEWLINE, HEAD + 1, start - text, start + value - text, 0);
    *out++ = (gap & AFTER_COMMENT) != 0;
    gap = (gap & CUT) | LINE_ENDED;
    goto next;

block_comment:
    at = block_comment_end(at);
    if (!at) REFUSED(2, start);
    if (gap & LINE_ENDED && !line_end_follows(at)) gap |= CUT;
    gap |= AFTER_COMMENT;
    goto next;

int_lit:
    if (value > INT32_MAX) REFUSED(6, start);
    HEAD_OF(INT_LIT, 4);
    out = put4(out, (uint32_t)value);
    goto next;

long_lit:
    if (value > INT64_MAX) REFUSED(6, start);
    HEAD_OF(LONG_LIT, 8);
    memcpy(out, &value, 8);
    out += 8;
    goto next;

plain:
    at = plain_end(at);
    if (!at) return plain_fault(text, start + 1, limit);
    HEAD_OF(STR, 8);
    out = put4(out, (uint32_t)(start + 1 - text));
    out = put4(out, (uint32_t)(at - 1 - text));
    goto next;

triple: {
    const byte *from = start, *to;
    at = triple_end(at);
    if (!at) return triple_fault(text, start + 3, limit);
    // Of its quotes at either end, as long as one stands first.
    for (to = at; from < to && *from == '"'; from++) to -= from + 1 < to && to[-1] == '"';
    HEAD_OF(STR, 8);
    out = put4(out, (uint32_t)(from - text));
    out = put4(out, (uint32_t)(to - text));
    goto next;
}

prefixed:
    open = at;
    if (at[1] == '"' && at[2] == '"') {
        at = prefixed_triple_end(open + 3);
        if (!at) return prefixed_triple_fault(text, open + 3, limit);
    } else {
        at = prefixed_end(open + 1);
        if (!at) return prefixed_fault(text, open + 1, limit);
    }
    HEAD_OF(STR, 8);
    out = put4(out, (uint32_t)(start - text));
    out = put4(out, (uint32_t)(at - text));
    goto next;

backtick:
    if (*at == '`') REFUSED(5, start);
    at = backtick_end(at);
    if (!at) REFUSED(4, start);
    if (*at == '"') goto prefixed;
    TOKEN(BACKTICK_ID);

quoted:
    /*!re2c
    * { return character_fault(text, start + 1, limit); }
    (escape | printable) "'" { TOKEN(CHAR_SYM); }
    identifier { TOKEN(CHAR_SYM); }
    symbol_operator {
        at -= at[-1] == '/' && comment_follows(at);
        if (at == start + 1) REFUSED(16, at);
        TOKEN(CHAR_SYM);
    }
    ";" { TOKEN(CHAR_SYM); }
    ";" (sign | "/") { REFUSED(16, start + 1); }
    */
}

static inline int continues(byte b)
{
    return (int8_t)b < -0x40;
}

// Of three bytes that begin with E2 hex: whether they are U+202A to U+202E, or U+2066 to U+2069.
static inline int is_mark(const byte *s)
{
    return (s[1] == 0x80 && s[2] >= 0xAA && s[2] <= 0xAE) || (s[1] == 0x81 && s[2] >= 0xA6 && s[2] <= 0xA9);
}

// The length of the sequence of Table 3-7 that stands here, or 0. The FF hex behind the text is in no sequence. The first direction mark is kept.
static inline size_t sequence(const byte *s, const byte **mark)
{
    if (s[0] < 0x80) return 1;
    if (s[0] < 0xE0) return s[0] >= 0xC2 && continues(s[1]) ? 2 : 0;
    if (!continues(s[1]) || !continues(s[2])) return 0;
    if (s[0] < 0xF0) {
        if (s[0] > 0xE2) return s[0] == 0xED && s[1] > 0x9F ? 0 : 3;
        if (s[0] < 0xE2) return s[0] == 0xE0 && s[1] < 0xA0 ? 0 : 3;
        if (is_mark(s) && !*mark) *mark = s;
        return 3;
    }
    if ((s[0] == 0xF0 && s[1] < 0x90) || (s[0] == 0xF4 && s[1] > 0x8F) || s[0] > 0xF4) return 0;
    return continues(s[3]) ? 4 : 0;
}

// The end of the longest valid prefix, and the first direction mark before it, if one is there.
typedef struct {
    const byte *end, *mark;
} Checked;

// By 32 bytes where they are ASCII, else by characters.
static Checked check(const byte *at, const byte *limit)
{
    const byte *mark = NULL;
    while (at < limit) {
        uint64_t words[4];
        const byte *end = limit - at < 32 ? limit : at + 32;
        if (limit - at >= 32) {
            memcpy(words, at, 32);
            if (!((words[0] | words[1] | words[2] | words[3]) & 0x8080808080808080u)) {
                at += 32;
                continue;
            }
        }
        while (at < end) {
            size_t length = sequence(at, &mark);
            if (length == 0) return (Checked){at, mark};
            at += length;
        }
    }
    return (Checked){at, mark};
}

// Reads a script through memory for its copy and for its records.
static Answer read_script(const byte *script, size_t n, byte *copy, byte *scratch)
{
    Checked checked;
    if (n) memcpy(copy, script, n);
    copy[n] = 0xFF;
    checked = check(copy, copy + n);
    if (checked.end < copy + n) return (Answer){18, (uint32_t)(checked.end - copy), 0, 0};
    if (checked.mark) return (Answer){29, (uint32_t)(checked.mark - copy), 0, 0};
    return lex(copy, copy + n, scratch);
}

static uint32_t tell(Answer answer, const byte *scratch, byte *records, size_t m, byte *block)
{
    if (answer.number == 0 && answer.bytes > m) answer.number = 19;
    if (answer.number == 0) memcpy(records, scratch, answer.bytes);
    memcpy(block, &answer, BLOCK);
    return answer.number;
}

enum { SMALL = 2048 }; // bytes of a script for which the stack is enough

static uint32_t by_stack(const byte *script, size_t n, byte *records, size_t m, byte *block)
{
    byte copy[SMALL + 1], scratch[PER_BYTE * SMALL + HEAD];
    return tell(read_script(script, n, copy, scratch), scratch, records, m, block);
}

static uint32_t by_heap(const byte *script, size_t n, byte *records, size_t m, byte *block)
{
    byte *copy = malloc(n + 1), *scratch = malloc(PER_BYTE * n + HEAD);
    uint32_t number;
    if (!copy || !scratch) abort();
    number = tell(read_script(script, n, copy, scratch), scratch, records, m, block);
    free(scratch);
    free(copy);
    return number;
}

uint32_t peer_tokenize(const uint8_t *script, uint64_t n, uint8_t *records, uint64_t m, uint8_t *answer, uint64_t k)
{
    if (k != BLOCK) return 20;
    if (n > SCRIPT_LIMIT) return tell((Answer){17, 0, 0, 0}, NULL, NULL, 0, answer);
    return (n <= SMALL ? by_stack : by_heap)(script, n, records, m, answer);
}

// bench/peer-check compares the peer in the place of the library, which has three more functions.
#ifdef IN_PLACE_OF_ERGO
enum { CONTACT_BYTES = 4096, CONTACT_TOKENS = 512, NEED_BLOCK = 32 };

// The block of measuring.
typedef struct {
    Answer answer;
    uint32_t int_lits, long_lits, strs, newlines;
} Need;

_Static_assert(sizeof(Answer) == BLOCK && sizeof(Need) == NEED_BLOCK, "the blocks are copied from these");

static int inside(const uint8_t *script, uint64_t n, uint32_t at)
{
    return at < n && (script[at] & 0xC0) == 0x80;
}

uint32_t ergo_tokenize(const uint8_t *script, uint64_t n, uint8_t *records, uint64_t m, uint8_t *answer, uint64_t k)
{
    return peer_tokenize(script, n, records, m, answer, k);
}

// The library has limits as an argument; this one measures first, since no contact is timed.
uint32_t ergo_tokenize_contact(const uint8_t *script, uint64_t n, uint8_t *records, uint64_t m, uint8_t *answer, uint64_t k)
{
    Answer need;
    if (k != BLOCK) return 20;
    if (n > CONTACT_BYTES && n <= SCRIPT_LIMIT) return tell((Answer){27, 0, 0, 0}, NULL, NULL, 0, answer);
    if (peer_tokenize(script, n, NULL, 0, answer, k) == 19) {
        memcpy(&need, answer, BLOCK);
        if (need.count > CONTACT_TOKENS) return tell((Answer){28, 0, 0, 0}, NULL, NULL, 0, answer);
    }
    return peer_tokenize(script, n, records, m, answer, k);
}

// What lex does not count: how many of the records are of each kind that has values.
static Need need_of(Answer answer, const byte *records)
{
    Need need = {answer, 0, 0, 0, 0};
    const byte *at = records;
    uint32_t head; // length and kind, as put_head has them
    for (; at < records + answer.bytes; at += head & 0xFFFF) {
        memcpy(&head, at, 4);
        switch (head >> 16) {
        case INT_LIT: need.int_lits++; break;
        case LONG_LIT: need.long_lits++; break;
        case STR: need.strs++; break;
        case NEWLINE: need.newlines++; break;
        }
    }
    return need;
}

// Makes the records and walks over them, since measuring is not timed either.
uint32_t ergo_measure(const uint8_t *script, uint64_t n, uint8_t *answer, uint64_t k)
{
    Need need = {{17, 0, 0, 0}, 0, 0, 0, 0};
    if (k != NEED_BLOCK) return 20;
    if (n <= SCRIPT_LIMIT) {
        byte *copy = malloc(n + 1), *scratch = malloc(PER_BYTE * n + HEAD);
        if (!copy || !scratch) abort();
        need = need_of(read_script(script, n, copy, scratch), scratch);
        free(scratch);
        free(copy);
    }
    memcpy(answer, &need, NEED_BLOCK);
    return need.answer.number;
}

uint32_t ergo_token_text(const uint8_t *script, uint64_t n, uint32_t start, uint32_t end)
{
    return start <= end && end <= n && !inside(script, n, start) && !inside(script, n, end) ? 0 : 21;
}
#endif
