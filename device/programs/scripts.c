/* Scripts by number: the same bytes on every target. Pieces of ErgoScript are put together by chance; where a script is to be odd, pieces that are
 * refused are among them, characters of all alphabets, and bytes that are no UTF-8. */
#include "programs.h"

static uint8_t room[LONGEST];
static uint32_t length, most;
static uint64_t state;

uint8_t *script_bytes(void)
{
    return room;
}

/* Chance: xorshift64*, of which the high half is used. */

uint32_t chance(void)
{
    state ^= state >> 12;
    state ^= state << 25;
    state ^= state >> 27;
    return (uint32_t)(state * 0x2545F4914F6CDD1Dull >> 32);
}

uint32_t below(uint32_t limit)
{
    return (uint32_t)((uint64_t)chance() * limit >> 32);
}

void begin_chance(uint32_t number)
{
    state = (uint64_t)number * 0x9E3779B97F4A7C15ull + 0xD1B54A32D192ED03ull;
    chance();
    chance();
}

/* What is put behind the script. What does not fit is left out, also in the middle of a piece. */

static void add(uint32_t byte)
{
    if (length < most)
        room[length++] = (uint8_t)byte;
}

static void add_text(const char *text)
{
    while (*text != '\0')
        add((uint8_t)*text++);
}

static void add_times(const char *text, uint32_t times)
{
    while (times-- > 0)
        add_text(text);
}

/* A character by its number; that of a surrogate too, which is then no UTF-8. */
static void add_character(uint32_t code)
{
    if (code < 0x80) {
        add(code);
    } else if (code < 0x800) {
        add(0xC0 | code >> 6);
        add(0x80 | (code & 0x3F));
    } else if (code < 0x10000) {
        add(0xE0 | code >> 12);
        add(0x80 | (code >> 6 & 0x3F));
        add(0x80 | (code & 0x3F));
    } else {
        add(0xF0 | code >> 18);
        add(0x80 | (code >> 12 & 0x3F));
        add(0x80 | (code >> 6 & 0x3F));
        add(0x80 | (code & 0x3F));
    }
}

/* The pieces. Hexadecimal digits behind an escape would belong to it, so some texts are in two parts. */

static const char *const WORDS[] = {
    "val", "def", "if", "else", "true", "false", "case", "match", "return", "then", "function", "x", "SELF", "OUTPUTS", "R4", "sigmaProp",
    "getVar", "a_b", "a_+", "_", "$", "$x", "x1", "_1", "a_b_", "a__", "abstract_=>", "anIdentifierThatIsRatherLongForAScript", "iff", "elsE",
    "value", "HEIGHT", "INPUTS", "CONTEXT", "fold", "i", "truefalse", "cas", "a_\\", "b_/", "c_//d"};

static const char *const SIGNS[] = {
    "{", "}", "(", ")", "[", "]", ",", ";", ".", ":", "=", "=>", "==", "#", "@", "+", "-", "*", "/", "&&", "||", "!", "<=", ">=", "<-", "->", "~",
    "^", "%", "\\", "?", ":=", "::", "=>>", "##", "@@", "<>", "|", "&", "+/", "-/+", "*+", "\xE2\x87\x92", "\xE2\x86\x90", "=\xE2\x87\x92",
    "\xE2\x87\x92\xE2\x87\x92", "\xC2\xAC", "\xC3\x97\xC3\xB7", "\xE2\x88\x80\xE2\x88\x83", "+\xE2\x88\x9E", "\xC2\xB1/", "\xF0\x9F\x98\x80",
    "\xF0\x9D\x9B\x81", "\xE2\x87\x92/", "\xE2\x87\x92//x\n"};

static const char *const LINES[] = {
    "\n", "\r\n", "\n\n", "\n  ", "\r\n\r\n", "\n\t\n", " ", "  ", "\t", "        ", "                                ", "\n/* c */ ", "\n/* c */\n",
    "\n// c\n", "\r\n// c\r\n", "/* \n */", "\n /**/ /* \r\n */ \n"};

static const char *const NUMBERS[] = {
    "0", "7", "123", "2147483647", "9223372036854775807L", "0x7f", "0x7FFFFFFF", "0xFFFFFFFFL", "0x7FFFFFFFFFFFFFFFL", "1L", "00", "0L", "10l",
    "1.5", "1.x", "1_000", "0X1", "0xG", "1e5", "2147483646", "12345678901L", "000000000000000000000000007"};

static const char *const STRINGS[] = {
    "\"\"", "\"abc\"", "\"a\\n\\t\"", "\"\\u0041\"", "\"\\101\"", "\"\\\\\\\"\"", "\"\"\"\"\"\"", "\"\"\"a\nb\"\"\"", "\"\"\"a\"b\"\"c\"\"\"",
    "\"\"\"\"\"\"\"\"", "s\"a$b\"", "s\"$$\"", "fromBase58(\"9f\")", "`a`\"b\"", "f\"\"\"a\nb\"\"\"", "\"\xC3\xA9\xE4\xB8\xAD\xF0\x9D\x94\xB8\"",
    "\"a long string with many ordinary bytes, and one more\"", "\"\\u202A\"", "\xD1\x8F\"x\"", "\"\"\"\xE4\xB8\xAD\r\n\xE6\x96\x87\"\"\"",
    "\"a\\b\\f\\r\\'\"", "\"// no comment /* \"", "\"\\0\\00\\000\""};

static const char *const CHARACTERS[] = {
    "'a'", "'\\n'", "'sym", "'\\u0041'", "'\"'", "'\\''", "'\\\\'", "'\xC3\xA9'", "'\xC3\xA9t\xC3\xA9", "'\xE4\xB8\xAD'", "'\xE4\xB8\xAD\xE6\x96\x87",
    "'\xF0\x9D\x94\xB8'", "'\xF0\x9D\x94\xB8x", "'\xE2\x87\x92", "'\xE2\x87\x92'", "'\xE2\x87\x92\xE2\x87\x92", "'+", "'+'", "'=>", "'a_+", "' '",
    "'1'", "'_", "'$x", "'\\7'", "'\\177'", "'\xE2\x88\x80/\xE2\x88\x83", "'/", "'/**/", "'a'b", "'x_\xE2\x87\x92", "'`'"};

static const char *const BACKTICKS[] = {"`a b`", "`x`", "`=>`", "`a\nb`", "`\xE4\xB8\xAD \xE2\x87\x92`", "`// c`", "`a\rb`", "` `"};

static const char *const COMMENTS[] = {
    "// c\n", "/* c */", "/* /* c */ */", "/**/", "/***/", "/*/**/*/", "// a long comment with many ordinary bytes, and one more \xC3\xA9\n",
    "/* \xE4\xB8\xAD\xE6\x96\x87 \xE0\xA4\xB9\xE0\xA4\xBF \xF0\x9F\x98\x80 */", "// \xD0\x9F\xD1\x80\xD0\xB8\n", "/* ** / * /* */ */", "// a\rb\n",
    "//\n", "/* \xE2\x80\xA8 \xEF\xBB\xBF */", "// \" ' `\n"};

static const char *const WIDE_WORDS[] = {
    "\xC3\xA9", "\xC3\xA9t\xC3\xA9", "\xD0\x90\xD0\xB1", "\xD1\x8F", "\xCE\xB1\xCE\xB2", "\xE4\xB8\xAD\xE6\x96\x87", "a\xE5\x80\xBC",
    "\xE5\x80\xBC_1", "\xF0\x9D\x94\xB8", "\xF0\x9D\x94\xB8x_1", "\xF0\x90\x90\x80\xF0\x90\x90\xA8", "\xC2\xAA", "\xC2\xB5", "\xC7\x85", "\xCA\xB0", "\xE2\x85\xA7",
    "x\xD9\xA0", "x\xE0\xA5\xA7", "\xE0\xA4\xB9", "\xE1\x9E\x81", "\xED\x95\x9C", "\xE3\x81\x82\xE3\x82\xA2", "\xD7\x90", "\xD8\xA7", "\xE1\x83\x90",
    "\xD5\xA1", "\xE0\xB8\x81", "\xF0\xA0\x80\x80", "a_\xE2\x87\x92", "\xC3\xA9_+", "\xE4\xB8\xAD_\xE4\xB8\xAD", "val\xC3\xA9", "if_\xE2\x88\x80"};

static const char *const CONTRACT[] = {
    "{ val a = SELF.R4[Long].get", "HEIGHT > 100", "OUTPUTS.exists { (b: Box) => b.value >= 1000000L }", "allOf(Coll(a, b))", "sigmaProp(a && b)\n",
    "  val i = INPUTS(0)\n", "if (a) { b } else { c }", "def f(x: Int): Int = x + 1\n", "(a, b)", "box.tokens.fold(0L, { (s, t) => s + t._2 })"};

/* What is refused, or may be: a sign that begins nothing, a piece without its end, an escape that is none, a direction mark and its neighbours. */
static const char *const ODD[] = {
    "\r", "\rx", "/*", "/* /* */", "\xC2\xA0", "\x01", "\x7F", "\xEF\xBB\xBF", "\xE2\x80\xA8", "\xCC\x81", "\xD9\xA0", "`", "``", "`a", "2147483648",
    "9223372036854775808L", "0x80000000", "0x8000000000000000L", "99999999999999999999999", "\"", "\"a", "\"a\n\"", "\"\r\n\"", "\"\"\"", "\"\"\"a\"\"",
    "\"\"\"\\\"\"\"", "s\"${a}\"", "s\"\"\"${a}\"\"\"", "\"\\", "\"\\u12\"", "\"\\u12G4\"", "\"\\x\"", "\"\\9\"", "'\\u00", "'\\nx", "'\\n", "'\\", "'\\x'",
    "''", "'", "'\n'", "'\r'", "\xE2\x80\xAA", "\xE2\x80\xAB", "\xE2\x80\xAC", "\xE2\x80\xAD", "\xE2\x80\xAE", "\xE2\x81\xA6", "\xE2\x81\xA7", "\xE2\x81\xA8",
    "\xE2\x81\xA9", "/* \xE2\x80\xAE */", "\"\xE2\x81\xA6\"", "// \xE2\x81\xA9\n", "\xE2\x80\xA9", "\xE2\x80\xAF", "\xE2\x81\xA5", "\xE2\x81\xAA",
    "\xE2\x80\x8E", "\xE2\x80\x8F", "\xD8\x9C", "\xC0\x80", "\xC1\xBF", "\xE0\x80\x80", "\xE0\x9F\xBF", "\xED\xA0\x80", "\xED\xBF\xBF", "\xF0\x80\x80\x80",
    "\xF0\x8F\xBF\xBF", "\xF4\x90\x80\x80", "\xF5\x80\x80\x80", "\xFF", "\x80", "\xBF", "\xE2\x87", "\xF0\x9D\x94", "\xC3", "\xEF\xBF\xBE", "\xEF\xBF\xBF",
    "\xF4\x8F\xBF\xBF", "\xEE\x80\x80", "\xF3\xA0\x80\x81"};

struct pieces {
    const char *const *texts;
    uint32_t count;
};

#define PIECES(texts) {texts, sizeof(texts) / sizeof *(texts)}

static const struct pieces GOOD[] = {PIECES(WORDS),      PIECES(WORDS),     PIECES(SIGNS),    PIECES(SIGNS),      PIECES(LINES),   PIECES(NUMBERS),
                                     PIECES(STRINGS),    PIECES(CHARACTERS), PIECES(BACKTICKS), PIECES(COMMENTS), PIECES(WIDE_WORDS), PIECES(CONTRACT)};

#define GOOD_COUNT ((uint32_t)(sizeof GOOD / sizeof *GOOD))

static void add_one_of(const struct pieces *pieces)
{
    add_text(pieces->texts[below(pieces->count)]);
}

static void add_odd(void)
{
    static const struct pieces odd = PIECES(ODD);
    add_one_of(&odd);
}

static void add_any_of(const char *text, uint32_t count, uint32_t times)
{
    while (times-- > 0)
        add((uint8_t)text[below(count)]);
}

/* Letters, signs and digits by chance, so that each of them comes. */
static void add_any_piece(void)
{
    static const char letters[] = "abcdefghijklmnopqrstuvwxyzABCDEFGHIJKLMNOPQRSTUVWXYZ_$0123456789";
    static const char signs[] = "!#%&*+-/:<=>?@\\^|~";
    static const char digits[] = "0123456789";
    uint32_t times = 1 + below(10);
    switch (below(4)) {
    case 0:
        add_any_of(signs, sizeof signs - 1, 1 + times / 3);
        break;
    case 1:
        add_any_of(digits, sizeof digits - 1, times);
        break;
    default:
        add_any_of(letters, sizeof letters - 11, 1); /* no digit */
        add_any_of(letters, sizeof letters - 1, times);
    }
}

/* A character of any width: most of those that a class may have, and all others. */
static void add_any_character(void)
{
    switch (below(6)) {
    case 0:
        add_character(below(0x80));
        break;
    case 1:
        add_character(0x80 + below(0x780));
        break;
    case 2:
        add_character(0x2000 + below(0xC00));
        break;
    case 3:
        add_character(below(0x10000));
        break;
    case 4:
        add_character(0x10000 + below(0x10000));
        break;
    default:
        add_character(below(0x110000));
    }
}

/* The kinds of script. Each goes on until the script has so many bytes or some more, or is as long as it may be. */

static int is_short_of(uint32_t aim)
{
    return length < aim && length < most;
}

/* Pieces, mostly with a blank between them, of a few kinds or of all and by chance; one in `odd` is an odd one, and none if that is 0. */
static void add_mixture(uint32_t aim, uint32_t odd)
{
    uint32_t kinds = below(4) == 0 ? 1 + below(3) : GOOD_COUNT, first = below(GOOD_COUNT);
    while (is_short_of(aim)) {
        if (odd != 0 && below(odd) == 0)
            add_odd();
        else if (kinds == GOOD_COUNT && below(6) == 0)
            add_any_piece();
        else
            add_one_of(&GOOD[(first + below(kinds)) % GOOD_COUNT]);
        if (below(4) != 0)
            add(' ');
    }
}

static void add_characters(uint32_t aim)
{
    while (is_short_of(aim))
        add_any_character();
}

static void add_bytes(uint32_t aim)
{
    while (is_short_of(aim))
        add(chance());
}

/* Characters of any kind where each of them may stand. */
static void add_enclosed_characters(uint32_t aim)
{
    static const char *const around[4][2] = {{"\"", "\""}, {"/*", "*/"}, {"`", "`"}, {"//", "\n"}};
    uint32_t kind = below(4);
    add_text(around[kind][0]);
    while (is_short_of(aim))
        add_character(0xA0 + below(below(4) == 0 ? 0x10FF60 : 0xD000));
    add_text(around[kind][1]);
}

/* One token that is long, among others. */
static void add_long_token(uint32_t aim)
{
    static const char *const around[][3] = {
        {"", "a", ""},        {"", "ab_", ""},          {"", "+", ""},         {"", "\xE2\x87\x92", ""}, {"", "\xD1\x8F", ""}, {"", "0", "7"},
        {"\"", "x", "\""},    {"\"", "\\n", "\""},      {"\"\"\"", "y\n", "\"\"\""}, {"`", "z ", "`"},   {"// ", "c", "\n"},   {"/* ", "* ", "*/"},
        {"'", "s", ""},       {"'", "\xE2\x87\x92", ""}, {"/* ", "\xE4\xB8\xAD", " */"}, {"\"", "\xE4\xB8\xAD", "\""}, {"", " ", ""}, {"", "\n", ""},
        {"", "\xF0\x9D\x94\xB8", ""}, {"s\"", "b", "\""}, {"a_", "/", ""}, {"0x", "0", "F"}, {"\"", "\\u0041", "\""}, {"", "9", ""}};
    uint32_t kind = below((uint32_t)(sizeof around / sizeof *around));
    add_mixture(length + below(40), 0);
    add_text(around[kind][0]);
    add_times(around[kind][1], 1 + below(aim));
    add_text(around[kind][2]);
    add_mixture(length + below(40), 0);
}

/* Comments in comments, closed as often as they were opened, or nearly so. */
static void add_deep_comment(uint32_t aim)
{
    uint32_t depth = 1 + below(aim / 4 + 1), closed = below(4) == 0 ? below(depth + 2) : depth;
    add_mixture(length + below(20), 0);
    add_times("/*", depth);
    add_text(below(2) == 0 ? " c " : "\n");
    add_times("*/", closed);
    add_mixture(length + below(20), 0);
}

/* About as many tokens as a contact may have. */
static void add_many_tokens(void)
{
    static const char *const texts[] = {";", "0L ", "a ", "\n;", "\"\" ", "7,", "'a "};
    uint32_t kind = below((uint32_t)(sizeof texts / sizeof *texts)), tokens = kind == 3 || kind == 5 ? 2 : 1;
    add_times(texts[kind], (ERGO_CONTACT_TOKENS - 6 + below(12)) / tokens);
}

/* Just so many bytes: a script that is accepted, mostly, and blanks behind it. */
static void add_exactly(uint32_t bytes)
{
    add_mixture(bytes > 80 ? bytes - 80 : 0, 0);
    if (bytes < most)
        most = bytes;
    while (length < most)
        add(' ');
}

static uint32_t aim_by_chance(void)
{
    uint32_t kind = below(64);
    if (kind < 2)
        return below(LONGEST);
    if (kind < 8)
        return below(600);
    if (kind < 24)
        return below(150);
    return below(48);
}

static uint32_t odd_by_chance(void)
{
    static const uint32_t odd[8] = {0, 0, 0, 0, 40, 40, 12, 4};
    return odd[below(8)];
}

uint32_t make_script(uint32_t number)
{
    uint32_t aim;
    begin_chance(number);
    length = 0;
    most = LONGEST;
    aim = aim_by_chance();
    if (aim > LONGEST)
        aim = LONGEST;
    if (below(16) == 0)
        most = aim; /* cut, also in the middle of a piece */
    switch (below(64)) {
    case 0:
        add_exactly(ERGO_CONTACT_BYTES - 4 + below(10));
        break;
    case 1:
        add_many_tokens();
        break;
    case 2:
    case 3:
    case 4:
        add_long_token(aim);
        break;
    case 5:
    case 6:
        add_deep_comment(aim);
        break;
    case 7:
    case 8:
        add_characters(aim);
        break;
    case 9:
        add_bytes(aim);
        break;
    case 10:
    case 11:
    case 12:
        add_enclosed_characters(aim);
        break;
    default:
        add_mixture(aim, odd_by_chance());
    }
    return length;
}

static uint32_t text_length(const char *text)
{
    uint32_t n = 0;
    while (text[n] != '\0')
        n++;
    return n;
}

uint32_t repeat_text(const char *text, uint32_t bytes)
{
    uint32_t times = bytes / text_length(text);
    length = 0;
    most = LONGEST;
    add_times(text, times == 0 ? 1 : times);
    return length;
}

/* Two scripts that need no memory to be written to. A contact may have 4,096 of the first one's bytes, and 511 of the second one's, each a token
 * and Eof one more. */

#define FOUR(text) text text text text
#define SIXTEEN(text) FOUR(FOUR(text))

const uint8_t LONG_CONTACT[] = SIXTEEN(SIXTEEN("'s /* comment */"));
const uint8_t MANY_TOKENS[] = SIXTEEN(SIXTEEN(";;"));
