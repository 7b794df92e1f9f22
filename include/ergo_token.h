/* ErgoScript tokens as records: the eight functions of crates/ergo, for C and C++. `rt lib`, in that folder, makes the library,
 * crates/ergo/out/libergo.a, for Linux on x86-64 processors of level v2 (SSE4.2). `device/build TARGET` makes it for other processors; docs/DEVICE.md
 * says for which. On x86-64 tokenizing takes at most some 9 kB of stack, measuring some 400 bytes, reading stored records less than 200, lines and
 * columns too; docs/DEVICE.md has what other processors take. The library allocates nothing, and calls nothing but memmove and memset, which the
 * compiler puts in, and on other processors a few functions more; a host without a C library must have these. It keeps nothing between calls: calls
 * from several threads at once are fine as long as no two of them lend the same bytes for writing.
 *
 * All lengths are uint64_t on every processor: the functions that are proved take 64 bits for a length wherever they run. size_t has 32 on some, and
 * no linker tells that a host passes too few; so a host that declares the functions itself must have uint64_t too. Where addresses have 32 bits, each
 * part of memory that is lent must have less than 2^31 bytes.
 *
 * All places are byte offsets from 0: those of tokens and of refusals 1 to 18 and 29 into the script, those of refusals 22 to 24 into the roll.
 * All numbers in records and answer blocks are unsigned and little-endian. Those of an index of line starts are uint32_t, in the machine's own
 * byte order. */
#ifndef ERGO_TOKEN_H
#define ERGO_TOKEN_H

#include <stdint.h>

#ifdef __cplusplus
extern "C" {
#endif

/* Tokenizes the n bytes at script. On acceptance (the answer is 0) the records stand at the start of the m bytes at records, and the bytes past
 * them keep their values. On every refusal (the answer is the refusal's number) all m bytes keep their values.
 *
 * The k bytes at answer are the answer block; k must be ERGO_ANSWER_BYTES. It gets four numbers of 4 bytes each:
 *
 *     at 0   the number that is handed back
 *     at 4   the place of the refusal, for 1 to 16, 18 and 29
 *     at 8   the token count, line ends and Eof included, for 0 and 19
 *     at 12  the record bytes: how many all records take, for 0 and 19
 *
 * and 0 where nothing is to be said. With any other k the block keeps its values.
 *
 * The order of refusals is 20, 17, 18, 29, then the first of 1 to 16, then 19. So a script of UTF-8 and at most ERGO_SCRIPT_LIMIT bytes in which a
 * direction mark stands is refused by ERGO_DIRECTION_MARK (29) at the first one, wherever that is, and whatever of 1 to 16 is met further left: marks
 * make a comment or a string look other than it reads. A stored roll of such a script is read like any other.
 *
 * The buffer: ERGO_RECORD_BOUND(n) bytes are enough for every script of n bytes. ergo_measure tells the exact need, with the counts that it
 * comes from. A call with m = 0 tells the need too: an acceptable script is answered 19, with token count and record bytes in the block. A call
 * with that many bytes is then accepted.
 *
 * Length 0 with any pointer, NULL included, is passed as an empty slice. That was run from C; no exported contract speaks of pointers. The
 * three parts of memory must be readable, the last two also writable, for their lengths, and must not overlap: the proof takes that from
 * the caller. */
uint32_t ergo_tokenize(const uint8_t *script, uint64_t n, uint8_t *records, uint64_t m, uint8_t *answer, uint64_t k);

/* Tokenizes a contact: a script that an entry of the address book holds. What ergo_tokenize says holds here too; only the limits are smaller, and
 * both are themselves allowed. A script of more than ERGO_CONTACT_BYTES bytes is refused by ERGO_OVER_LIMIT (27), one of more than ERGO_SCRIPT_LIMIT
 * bytes still by 17. One that would else be accepted, but has more than ERGO_CONTACT_TOKENS tokens, line ends and Eof included, is refused by
 * ERGO_TOO_MANY_TOKENS (28). Of 27 and 28 the place is 0, and so are the two numbers behind it.
 *
 * The order of refusals is 20, then 17, 27, 18, 29, then the first of 1 to 16, then 28, then 19: 5,000 bytes that are not UTF-8 are refused by 27, an
 * open string behind 600 tokens by 7, and that with a direction mark in it by 29. 28 also comes where no buffer is lent.
 *
 * The buffer: ERGO_CONTACT_RECORDS bytes are enough for every contact, so that one call does, and 19 never comes. */
uint32_t ergo_tokenize_contact(const uint8_t *script, uint64_t n, uint8_t *records, uint64_t m, uint8_t *answer, uint64_t k);

/* Measures the n bytes at script: how many bytes the records need, and how many tokens are of the kinds that have values. No buffer is lent for
 * records, and none is made. The answer is 0 where ergo_tokenize accepts the script if enough bytes are lent, else the refusal that ergo_tokenize
 * gives, with the same place. The k bytes at answer are the answer block; k must be ERGO_MEASURE_BYTES. It gets eight numbers of 4 bytes each:
 *
 *     at ERGO_ANSWER_AT_NUMBER        the number that is handed back
 *     at ERGO_ANSWER_AT_PLACE         the place of the refusal, for 1 to 16, 18 and 29
 *     at ERGO_ANSWER_AT_COUNT         the token count, line ends and Eof included
 *     at ERGO_ANSWER_AT_RECORD_BYTES  the record bytes: ERGO_NEED of the counts here
 *     at ERGO_MEASURE_AT_INT_LITS     how many tokens are IntLits
 *     at ERGO_MEASURE_AT_LONG_LITS    how many are LongLits
 *     at ERGO_MEASURE_AT_STRS         how many are Strs
 *     at ERGO_MEASURE_AT_NEWLINES     how many are Newlines
 *
 * and 0 where nothing is to be said: on a refusal everything behind the place is 0. With any other k the answer is 20 and the block keeps its
 * values. The order of refusals is 20, 17, 18, 29, then the first of 1 to 16; 19, 27 and 28 never come.
 *
 * To reserve no more than is needed: measure, reserve the record bytes, and lend ergo_tokenize just these. It then accepts the script.
 *
 * What ergo_tokenize asks of pointers and lengths is asked here too: script and block must be readable, the block also writable, for their lengths,
 * and must not overlap. An empty script may have any pointer, NULL included. */
uint32_t ergo_measure(const uint8_t *script, uint64_t n, uint8_t *answer, uint64_t k);

/* Whether the bytes of the script from start to end (end not included) are a text: 0 if so, else ERGO_TOKEN_TEXT (21). A token's text is then
 * script + start, of end - start bytes. It is 21 where start is past end, end is past n, or either lies inside a character: on a byte 0x80 to
 * 0xBF. The start and end of every record are answered 0. Nothing else is judged: a text of a script that is refused may hold direction marks, so
 * show these by their numbers. */
uint32_t ergo_token_text(const uint8_t *script, uint64_t n, uint32_t start, uint32_t end);

/* Reads a stored roll, without its script: the n bytes at roll are to be the records of one script, as ergo_tokenize or ergo_tokenize_contact writes
 * them. The answer is 0 where every record can be read and the roll ends with its only Eof; else it is 22, 23 or 24, whichever is met first from the
 * roll's start on. What only the script could tell is not judged: a roll stays readable where its script would now be refused by 29. The k bytes at
 * answer are the answer block; k must be ERGO_ANSWER_BYTES. It gets four numbers of 4 bytes each:
 *
 *     at 0   the number that is handed back
 *     at 4   the place of the refusal: the offset of the record, or as ergo_number says of 24
 *     at 8   the token count, line ends and Eof included, for 0
 *     at 12  the bytes of the roll, for 0
 *
 * and 0 where nothing is to be said. With any other k the answer is 20 and the block keeps its values. A roll may be longer than numbers of
 * 4 bytes can say: the block then has place, count and bytes modulo 2^32. */
uint32_t ergo_read_roll(const uint8_t *roll, uint64_t n, uint8_t *answer, uint64_t k);

/* Reads one record of a roll: the one at the offset `at`, where the token before it ends at `previous`. The k bytes at answer are the answer
 * block; k must be ERGO_STEP_BYTES. It gets eight numbers of 4 bytes each and 8 bytes of values:
 *
 *     at ERGO_ANSWER_AT_NUMBER  the number that is handed back: 0, 22, 23 or 24
 *     at ERGO_ANSWER_AT_PLACE   the place of the refusal
 *     at ERGO_STEP_AT_KIND      kind
 *     at ERGO_STEP_AT_START     start
 *     at ERGO_STEP_AT_END       end, not included
 *     at ERGO_STEP_AT_CUT       cut
 *     at ERGO_STEP_AT_DEPTH     0: records hold no bracket depth
 *     at ERGO_STEP_AT_NEXT      the offset of the next record
 *     at ERGO_STEP_AT_VALUES    the values as the record has them from ERGO_RECORD_HEAD on, and zeros behind them
 *
 * On a refusal everything behind the place is 0, the offset of the next record too: whoever steps tests the number. With any other k the answer
 * is 20 and the block keeps its values.
 *
 * To read a roll, begin with 0 as `at` and 0 as `previous`; after each token go on with the offset of the next record and the token's end;
 * stop at kind ERGO_EOF or at a refusal. That gives the tokens that ergo_read_roll counts, or its refusal. A host that steps sees tokens
 * before a later refusal: call ergo_read_roll first, or discard these tokens on a refusal.
 *
 * With `at` at the roll's length or past it the answer is 24, at the roll's length: the roll ends without Eof. An Eof behind which bytes stand
 * is not given: the answer is 24, at the first of these bytes. Place and next offset are modulo 2^32, so only rolls of less than 2^32 bytes can
 * be read in steps.
 *
 * What ergo_tokenize asks of pointers and lengths, both readers ask: roll and block must be readable, the block also writable, for their
 * lengths, and must not overlap. An empty roll may have any pointer, NULL included. */
uint32_t ergo_read_record(const uint8_t *roll, uint64_t n, uint32_t at, uint32_t previous, uint8_t *answer, uint64_t k);

/* Builds the index of line starts of the n bytes at script: the place where each line starts, in order, the first of them 0. LF and CR LF end a
 * line everywhere, also inside strings, comments and backticks; a CR alone ends none. So a script has one line more than it has line ends, and at
 * least one. Of the script only length and UTF-8 are judged: it need not be one that ergo_tokenize accepts. So the line of a refusal, of 1 to 16 or of
 * a direction mark (29), can be shown.
 *
 * Where the answer is 0, the starts are the first of the m numbers at index, and the numbers past them keep their values. On every refusal all m
 * numbers keep their values. The k bytes at answer are the answer block; k must be ERGO_ANSWER_BYTES. It gets four numbers of 4 bytes each:
 *
 *     at ERGO_ANSWER_AT_NUMBER  the number that is handed back: 0, 17, 18 or 26
 *     at ERGO_ANSWER_AT_PLACE   the place of the refusal, for 18
 *     at ERGO_ANSWER_AT_LINES   the number of lines, for 0 and 26
 *     at 12                     0
 *
 * and 0 where nothing is to be said. With any other k the answer is 20 and the block keeps its values. The order is 20, 17, 18, 26.
 *
 * The index: ERGO_INDEX_BOUND(n) numbers are enough for every script of n bytes. To learn the exact need, call with m = 0: a script that is
 * neither too long nor bad UTF-8 is answered 26, with the number of lines in the block. A second call with that many numbers is then answered 0.
 *
 * m counts numbers, not bytes. The m numbers must be readable and writable, and aligned as uint32_t is; m = 0 may come with any pointer, NULL
 * included. Of the other pointers the same is asked as by ergo_tokenize, and none of the three parts of memory may overlap. */
uint32_t ergo_index_lines(const uint8_t *script, uint64_t n, uint32_t *index, uint64_t m, uint8_t *answer, uint64_t k);

/* The line and the column of a place in the script, both counted from 1, the column in characters, by the index that ergo_index_lines built from
 * the same n bytes: what counting from the script's first byte gives. Both bytes of CR LF belong to the line that they end: the LF stands one
 * column behind the CR. The script's length is a good place, and so is one between CR and LF.
 *
 * A query reads the whole script: it checks length and UTF-8 and counts the lines, as building does. What the index saves is the search for the
 * line only. Whoever asks for many places of one script takes the lines from the index and counts columns on from place to place.
 *
 * The k bytes at answer are the answer block; k must be ERGO_ANSWER_BYTES. It gets four numbers of 4 bytes each:
 *
 *     at ERGO_ANSWER_AT_NUMBER  the number that is handed back: 0, 17, 18, 25 or 26
 *     at ERGO_ANSWER_AT_PLACE   the place of the refusal, for 18
 *     at ERGO_ANSWER_AT_LINE    the line, for 0
 *     at ERGO_ANSWER_AT_COLUMN  the column, for 0
 *
 * and 0 where nothing is to be said: on a refusal everything behind the place is 0, also at 26. With any other k the answer is 20 and the block
 * keeps its values. The order is 20, 17, 18, 25, 26. To show the place of an 18, ask over the bytes before it, n being that place: they are UTF-8,
 * and their end has the same line and column. The places of 1 to 16 and of 29 can be asked for as they are.
 *
 * Only the first numbers of the index are looked at, as many as the script has lines; the others may be anything. Over other numbers than the
 * script's own starts a query still ends, with some line from 1 to the number of lines and some column from 1 to one more than the place:
 * nothing tells the host that they are others. So build the index again whenever the script changes.
 *
 * The m numbers must be readable, and aligned as uint32_t is; m = 0 may come with any pointer, NULL included. Of the other pointers the same is
 * asked as by ergo_tokenize, and the block may overlap neither script nor index. */
uint32_t ergo_line_column(const uint8_t *script, uint64_t n, const uint32_t *index, uint64_t m, uint32_t place, uint8_t *answer, uint64_t k);

#define ERGO_SCRIPT_LIMIT 16777216u /* bytes: a longer script is refused by 17 */

/* Of ergo_tokenize_contact: a script of more bytes is refused by 27, and one that would else be accepted, of more tokens by 28. */
#define ERGO_CONTACT_BYTES 4096u
#define ERGO_CONTACT_TOKENS 512u

/* The lengths of answer blocks. */
#define ERGO_ANSWER_BYTES 16u
#define ERGO_MEASURE_BYTES 32u /* of ergo_measure */
#define ERGO_STEP_BYTES 40u    /* of ergo_read_record */

/* What stands where in an answer block. In each: */
#define ERGO_ANSWER_AT_NUMBER 0u
#define ERGO_ANSWER_AT_PLACE 4u

/* In a block of ERGO_ANSWER_BYTES: */
#define ERGO_ANSWER_AT_COUNT 8u /* of ergo_tokenize, ergo_tokenize_contact and ergo_read_roll */
#define ERGO_ANSWER_AT_RECORD_BYTES 12u
#define ERGO_ANSWER_AT_LINES 8u /* of ergo_index_lines */
#define ERGO_ANSWER_AT_LINE 8u  /* of ergo_line_column */
#define ERGO_ANSWER_AT_COLUMN 12u

/* In a block of ERGO_MEASURE_BYTES, behind count and record bytes, which stand where ergo_tokenize has them: */
#define ERGO_MEASURE_AT_INT_LITS 16u
#define ERGO_MEASURE_AT_LONG_LITS 20u
#define ERGO_MEASURE_AT_STRS 24u
#define ERGO_MEASURE_AT_NEWLINES 28u

/* In a block of ERGO_STEP_BYTES: */
#define ERGO_STEP_AT_KIND 8u
#define ERGO_STEP_AT_START 12u
#define ERGO_STEP_AT_END 16u
#define ERGO_STEP_AT_CUT 20u
#define ERGO_STEP_AT_DEPTH 24u
#define ERGO_STEP_AT_NEXT 28u
#define ERGO_STEP_AT_VALUES 32u

/* A record, of a head and its values:
 *
 *     at ERGO_AT_LENGTH    2 bytes  length of the whole record, values included: the next record starts so many bytes on
 *     at ERGO_AT_KIND      2 bytes  kind
 *     at ERGO_AT_START     4 bytes  start
 *     at ERGO_AT_END       4 bytes  end, not included
 *     at ERGO_AT_CUT       1 byte   cut: 1 if, since the last token that is no line end, a block comment stands behind a line end and, past
 *                                   spaces and tabs, is not followed by a line end; else 0. Always 0 for line ends.
 *     at ERGO_RECORD_HEAD           the values, by kind
 *
 * Records come in the order of the script, blanks and comments left out; the last is Eof. */
#define ERGO_AT_LENGTH 0u
#define ERGO_AT_KIND 2u
#define ERGO_AT_START 4u
#define ERGO_AT_END 8u
#define ERGO_AT_CUT 12u
#define ERGO_RECORD_HEAD 13u /* the head's length; of a kind without values the whole record is just the head */

/* The lengths of the records that have values. */
#define ERGO_INT_LIT_LENGTH (ERGO_RECORD_HEAD + 4u)
#define ERGO_LONG_LIT_LENGTH (ERGO_RECORD_HEAD + 8u)
#define ERGO_STR_LENGTH (ERGO_RECORD_HEAD + 8u)
#define ERGO_NEWLINE_LENGTH (ERGO_RECORD_HEAD + 1u)

/* Bytes that the records of so many tokens take, line ends and Eof included, of which so many are IntLits, LongLits, Strs and Newlines: a head for
 * each token, and the values. */
#define ERGO_NEED(tokens, int_lits, long_lits, strs, newlines) \
    (ERGO_RECORD_HEAD * (uint64_t)(tokens) + (ERGO_INT_LIT_LENGTH - ERGO_RECORD_HEAD) * (uint64_t)(int_lits) \
     + (ERGO_LONG_LIT_LENGTH - ERGO_RECORD_HEAD) * (uint64_t)(long_lits) + (ERGO_STR_LENGTH - ERGO_RECORD_HEAD) * (uint64_t)(strs) \
     + (ERGO_NEWLINE_LENGTH - ERGO_RECORD_HEAD) * (uint64_t)(newlines))

/* Bytes enough for the records of every script of n bytes: one byte of script costs at most an IntLit's record, and Eof costs a head. As a uint64_t:
 * where size_t has 32 bits, it fits that for every script of at most ERGO_SCRIPT_LIMIT bytes, and for longer ones it may not. */
#define ERGO_RECORD_PER_BYTE ERGO_INT_LIT_LENGTH
#define ERGO_RECORD_BOUND(n) (ERGO_RECORD_PER_BYTE * (uint64_t)(n) + ERGO_RECORD_HEAD)

/* Bytes enough for the records of every contact: each token costs at most a LongLit's record, and Eof costs a head. 511 times 0L needs all of it. */
#define ERGO_CONTACT_RECORDS ((ERGO_CONTACT_TOKENS - 1u) * ERGO_LONG_LIT_LENGTH + ERGO_RECORD_HEAD)

/* Numbers enough for the line starts of every script of n bytes, as a uint64_t: each byte could be an LF. */
#define ERGO_INDEX_BOUND(n) ((uint64_t)(n) + 1u)

enum ergo_kind {
    ERGO_IDENT = 1,
    ERGO_OP_ID = 2,       /* a run of operator signs that is no keyword */
    ERGO_BACKTICK_ID = 3, /* start and end take in the backticks */
    ERGO_INT_LIT = 4,     /* at ERGO_RECORD_HEAD, 4 bytes: the value, at most 2147483647 */
    ERGO_LONG_LIT = 5,    /* at ERGO_RECORD_HEAD, 8 bytes: the value, at most 9223372036854775807 */
    ERGO_STR = 6,         /* at ERGO_RECORD_HEAD, 4 bytes: content start; 4 bytes on, 4 bytes: content end. Escapes are checked, not decoded */
    ERGO_CHAR_SYM = 7,    /* 'c' or 'symbol, with its quotes */
    ERGO_L_PAREN = 8,
    ERGO_R_PAREN = 9,
    ERGO_L_BRACKET = 10,
    ERGO_R_BRACKET = 11,
    ERGO_L_BRACE = 12,
    ERGO_R_BRACE = 13,
    ERGO_COMMA = 14,
    ERGO_SEMI = 15,
    ERGO_DOT = 16,
    ERGO_NEWLINE = 17, /* at ERGO_RECORD_HEAD, 1 byte: 1 if a comment stands between it and the line end before it in the same gap, or the
                        * gap's start */
    ERGO_EOF = 18,     /* starts and ends at the script's length; of a stored roll this is not judged */
    ERGO_KW_CASE = 32,
    ERGO_KW_ELSE = 33,
    ERGO_KW_FALSE = 34,
    ERGO_KW_FUNCTION = 35,
    ERGO_KW_IF = 36,
    ERGO_KW_MATCH = 37,
    ERGO_KW_RETURN = 38,
    ERGO_KW_THEN = 39,
    ERGO_KW_TRUE = 40,
    ERGO_KW_COLON = 41,     /* : */
    ERGO_KW_FAT_ARROW = 42, /* => */
    ERGO_KW_ASSIGN = 43,    /* = */
    ERGO_KW_HASH = 44,      /* # */
    ERGO_KW_AT = 45         /* @ */
};

/* The numbers handed back, each with the place that the block gives and what to do: for 1 to 16 and 29 the script's author, for 17 to 21 the host's,
 * for 22 to 24, which only ergo_read_roll and ergo_read_record give, whoever keeps the stored roll, for 25 and 26, which only
 * ergo_index_lines and ergo_line_column give, the host's author again, and for 27 and 28, which only ergo_tokenize_contact gives, the author of the
 * contact's script. */
enum ergo_number {
    ERGO_ACCEPTED = 0,
    ERGO_LONE_CR = 1,            /* the CR: end lines by LF or CR LF; a CR alone may stand only in strings, comments and backticks */
    ERGO_OPEN_COMMENT = 2,       /* its outermost start: close the block comment; each inner one needs a close of its own */
    ERGO_UNEXPECTED = 3,         /* the character: no token starts with it; take it out, or put it into a string or backticks */
    ERGO_OPEN_BACKTICK = 4,      /* its start: close the backtick */
    ERGO_EMPTY_BACKTICK = 5,     /* its start: put a name between the backticks */
    ERGO_NUMBER_TOO_LARGE = 6,   /* its start: append L, up to 9223372036854775807, or write a smaller number */
    ERGO_OPEN_STRING = 7,        /* the script's end: close the string */
    ERGO_LINE_END_IN_STRING = 8, /* the LF: close the string on its line, or use three quotes */
    ERGO_OPEN_TRIPLE = 9,        /* the script's end: close the string by three quotes */
    ERGO_TRIPLE_BACKSLASH = 10,  /* the backslash: a string in three quotes holds none; use a string in single ones */
    ERGO_INTERPOLATION = 11,     /* the $: ${ in a prefixed string is not supported; join strings instead */
    ERGO_ESCAPE_AT_END = 12,     /* the script's end: finish the escape and the string or character */
    ERGO_UNICODE_ESCAPE = 13,    /* where the missing hex digit should stand: \u takes exactly four */
    ERGO_ESCAPE = 14,            /* the character after the backslash: write \b \t \n \f \r \' \" \] , one to three digits, or \u and four hex digits */
    ERGO_OPEN_CHARACTER = 15,    /* where the missing ' should stand: close the character right after its escape */
    ERGO_QUOTE = 16,             /* after the ': write a character and ', or a symbol */
    ERGO_TOO_LONG = 17,          /* 0: the script has more than ERGO_SCRIPT_LIMIT bytes; hand over a shorter one */
    ERGO_NOT_UTF8 = 18,          /* the length of the longest valid prefix: hand the script over in UTF-8 */
    ERGO_SHORT_BUFFER = 19,      /* 0: lend as many bytes as the block says at 12 */
    ERGO_ANSWER_BLOCK = 20,      /* none, and the block is unchanged: lend a block of ERGO_ANSWER_BYTES bytes, for ergo_measure of
                                  * ERGO_MEASURE_BYTES, for ergo_read_record of ERGO_STEP_BYTES */
    ERGO_TOKEN_TEXT = 21,        /* of ergo_token_text only: ask for a start and an end as they stand in a record of this script */
    ERGO_SHORT_ROLL = 22,        /* the record: fewer bytes are left than it has. The roll was cut short, or a record's length damaged: fetch
                                  * it again */
    ERGO_UNKNOWN_RECORD = 23,    /* the record: no such kind, or a length that is not the kind's. This is no roll, or one of another version: tokenize
                                  * the script again */
    ERGO_DAMAGED_ROLL = 24,      /* the record: a field is out of its range, or it starts before the one before it ends; or the first byte after Eof; or
                                  * the roll's length, where no Eof came. The roll was damaged, cut short between two records, or joined with
                                  * another: fetch it again and hand it over alone, or tokenize the script again */
    ERGO_BAD_PLACE = 25,         /* 0, of ergo_line_column only: the place asked for is past the script's end or inside a character, on a byte 0x80
                                  * to 0xBF; ask for the place of a token or of a refusal of this script, or its length */
    ERGO_SHORT_INDEX = 26,       /* 0: fewer numbers were lent than the script has lines; lend as many as ergo_index_lines says at
                                  * ERGO_ANSWER_AT_LINES */
    ERGO_OVER_LIMIT = 27,        /* 0: the contact has more than ERGO_CONTACT_BYTES bytes; shorten it */
    ERGO_TOO_MANY_TOKENS = 28,   /* 0: the contact has more than ERGO_CONTACT_TOKENS tokens, line ends and Eof included; use fewer, and take out
                                  * empty lines: each costs a token */
    ERGO_DIRECTION_MARK = 29     /* the first mark: one of the nine characters U+202A to U+202E and U+2066 to U+2069, which may stand nowhere in a
                                  * script; take it out, or write its escape, as \u202A, in a character or in a string that opens by one " and has no
                                  * prefix */
};

#ifdef __cplusplus
}
#endif

#endif
