/* Prints the tokens of a script, one per line: kind, start, end, cut and values; or `refused N at P`. With --contact the script is a contact, with
 * its limits. With --records it writes the script's records to standard output instead: a roll. With --roll the file is such a roll, and its tokens
 * are printed without the script. With --place it prints the line and the column of a place in the script. hosts/build builds it. */
#include "ergo_token.h"

#include <stdio.h>
#include <stdlib.h>
#include <string.h>

typedef unsigned long long wide; /* has all numbers of 8 bytes, and a format of printf in every C library */

static wide number(const uint8_t *at, unsigned bytes)
{
    wide value = 0;
    while (bytes-- > 0)
        value = value << 8 | at[bytes];
    return value;
}

static void fail(const char *what)
{
    perror(what);
    exit(2);
}

/* Returns the first bytes of a file, at most so many (65,536 or more), or NULL if it is empty. */
static uint8_t *read_file(const char *path, size_t most, size_t *n)
{
    FILE *file = fopen(path, "rb");
    uint8_t *bytes = NULL;
    size_t room = 0, got;
    if (file == NULL)
        fail(path);
    *n = 0;
    do {
        if (*n == room) {
            room = room == 0 ? 65536 : room < most / 2 ? 2 * room : most;
            bytes = realloc(bytes, room);
            if (bytes == NULL)
                fail(path);
        }
        got = fread(bytes + *n, 1, room - *n, file);
        *n += got;
    } while (got > 0 && *n < most);
    if (ferror(file))
        fail(path);
    fclose(file);
    if (*n == 0) {
        free(bytes);
        return NULL;
    }
    return bytes;
}

static void print_token(wide kind, wide start, wide end, wide cut, const uint8_t *values)
{
    printf("%llu %llu %llu %llu", kind, start, end, cut);
    if (kind == ERGO_INT_LIT)
        printf(" %llu", number(values, 4));
    if (kind == ERGO_LONG_LIT)
        printf(" %llu", number(values, 8));
    if (kind == ERGO_STR)
        printf(" %llu %llu", number(values, 4), number(values + 4, 4));
    if (kind == ERGO_NEWLINE)
        printf(" %u", values[0]);
    putchar('\n');
}

static int refused(FILE *out, const uint8_t *answer)
{
    fprintf(out, "refused %llu at %llu\n", number(answer + ERGO_ANSWER_AT_NUMBER, 4), number(answer + ERGO_ANSWER_AT_PLACE, 4));
    return 1;
}

/* Prints the tokens of a script by its records. */
static int print_tokens(const uint8_t *script, size_t n, const uint8_t *records, size_t bytes)
{
    size_t at;
    for (at = 0; at < bytes; at += (size_t)number(records + at + ERGO_AT_LENGTH, 2)) {
        const uint8_t *record = records + at;
        wide start = number(record + ERGO_AT_START, 4), end = number(record + ERGO_AT_END, 4);
        print_token(number(record + ERGO_AT_KIND, 2), start, end, record[ERGO_AT_CUT], record + ERGO_RECORD_HEAD);
        if (ergo_token_text(script, n, (uint32_t)start, (uint32_t)end) != 0) {
            fprintf(stderr, "a record without a text\n");
            return 2;
        }
    }
    return 0;
}

/* Prints the tokens of a contact. One call does: no contact needs more bytes than are lent. */
static int show_contact(const char *path)
{
    static uint8_t records[ERGO_CONTACT_RECORDS];
    uint8_t answer[ERGO_ANSWER_BYTES];
    uint8_t *script;
    size_t n;
    int status;

    script = read_file(path, ERGO_SCRIPT_LIMIT + 1, &n);
    if (ergo_tokenize_contact(script, n, records, sizeof records, answer, sizeof answer) != ERGO_ACCEPTED)
        status = refused(stdout, answer);
    else
        status = print_tokens(script, n, records, (size_t)number(answer + ERGO_ANSWER_AT_RECORD_BYTES, 4));
    free(script);
    return status;
}

/* The record bytes that a block of measuring tells: the need that its counts come to. */
static size_t need_of(const uint8_t *block)
{
    wide tokens = number(block + ERGO_ANSWER_AT_COUNT, 4);
    wide int_lits = number(block + ERGO_MEASURE_AT_INT_LITS, 4), long_lits = number(block + ERGO_MEASURE_AT_LONG_LITS, 4);
    wide strs = number(block + ERGO_MEASURE_AT_STRS, 4), newlines = number(block + ERGO_MEASURE_AT_NEWLINES, 4);
    size_t bytes = (size_t)number(block + ERGO_ANSWER_AT_RECORD_BYTES, 4);
    if (bytes != ERGO_NEED(tokens, int_lits, long_lits, strs, newlines)) {
        fprintf(stderr, "the counts do not add up to the record bytes\n");
        exit(2);
    }
    return bytes;
}

/* Prints the tokens of a script, or writes its records. */
static int show_script(const char *path, int as_records)
{
    uint8_t answer[ERGO_ANSWER_BYTES], need[ERGO_MEASURE_BYTES];
    uint8_t *script, *records;
    size_t n, bytes;
    uint32_t refusal;
    int status = 0;

    /* Of a script that is too long, one byte past the limit is enough to be refused. */
    script = read_file(path, ERGO_SCRIPT_LIMIT + 1, &n);

    /* Measure first, then write into a buffer of exactly that length. */
    if (ergo_measure(script, n, need, sizeof need) != ERGO_ACCEPTED) {
        free(script);
        return refused(as_records ? stderr : stdout, need); /* standard output is the roll, if there is one */
    }
    bytes = need_of(need);
    records = malloc(bytes);
    if (records == NULL)
        fail("records");
    refusal = ergo_tokenize(script, n, records, bytes, answer, sizeof answer);
    if (refusal != ERGO_ACCEPTED) {
        fprintf(stderr, "refused %llu after measuring\n", (wide)refusal);
        return 2;
    }
    if (as_records && fwrite(records, 1, bytes, stdout) != bytes)
        fail("standard output");
    if (!as_records)
        status = print_tokens(script, n, records, bytes);
    free(records);
    free(script);
    return status;
}

/* A roll of so many bytes is too long: it can't be read in steps, or, where addresses have 32 bits, not be lent. */
#if SIZE_MAX > UINT32_MAX
#define ROLL_BYTES ((size_t)UINT32_MAX + 1)
#else
#define ROLL_BYTES ((size_t)INT32_MAX + 1)
#endif

/* Prints the tokens of a roll. */
static int show_roll(const char *path)
{
    uint8_t answer[ERGO_ANSWER_BYTES], token[ERGO_STEP_BYTES];
    uint8_t *roll;
    size_t n;
    wide kind = 0, count, seen = 0;
    uint32_t at = 0, previous = 0;

    roll = read_file(path, ROLL_BYTES, &n);
    if (n == ROLL_BYTES) {
        fprintf(stderr, "%s: too long to be read in steps\n", path);
        return 2;
    }

    /* Read the whole roll first, so that no token of a damaged one is printed. */
    if (ergo_read_roll(roll, n, answer, sizeof answer) != ERGO_ACCEPTED) {
        free(roll);
        return refused(stdout, answer);
    }
    count = number(answer + ERGO_ANSWER_AT_COUNT, 4);
    while (kind != ERGO_EOF) {
        uint32_t refusal = ergo_read_record(roll, n, at, previous, token, sizeof token);
        if (refusal != ERGO_ACCEPTED) {
            fprintf(stderr, "refused %llu after the whole roll was read\n", (wide)refusal);
            return 2;
        }
        kind = number(token + ERGO_STEP_AT_KIND, 4);
        previous = (uint32_t)number(token + ERGO_STEP_AT_END, 4);
        at = (uint32_t)number(token + ERGO_STEP_AT_NEXT, 4);
        print_token(kind, number(token + ERGO_STEP_AT_START, 4), previous, number(token + ERGO_STEP_AT_CUT, 4), token + ERGO_STEP_AT_VALUES);
        seen++;
    }
    free(roll);
    if (seen != count || at != n) {
        fprintf(stderr, "%llu tokens up to %llu, where %llu were counted\n", seen, (wide)at, count);
        return 2;
    }
    return 0;
}

/* Prints the line and the column of a place in a script. */
static int show_place(const char *path, uint32_t place)
{
    uint8_t answer[ERGO_ANSWER_BYTES];
    uint8_t *script;
    uint32_t *index;
    size_t n, lines;
    uint32_t refusal;

    script = read_file(path, ERGO_SCRIPT_LIMIT + 1, &n);

    /* Learn the number of lines first, with no numbers lent, then build an index of exactly that many. */
    refusal = ergo_index_lines(script, n, NULL, 0, answer, sizeof answer);
    if (refusal != ERGO_SHORT_INDEX) {
        free(script);
        return refused(stdout, answer);
    }
    lines = (size_t)number(answer + ERGO_ANSWER_AT_LINES, 4);
    index = malloc(lines * sizeof *index); /* at most ERGO_SCRIPT_LIMIT + 1 lines: their bytes fit a size_t of 32 bits */
    if (index == NULL)
        fail("index");
    refusal = ergo_index_lines(script, n, index, lines, answer, sizeof answer);
    if (refusal != ERGO_ACCEPTED) {
        fprintf(stderr, "refused %llu after the lines were counted\n", (wide)refusal);
        return 2;
    }
    refusal = ergo_line_column(script, n, index, lines, place, answer, sizeof answer);
    free(index);
    free(script);
    if (refusal != ERGO_ACCEPTED)
        return refused(stdout, answer);
    printf("line %llu column %llu\n", number(answer + ERGO_ANSWER_AT_LINE, 4), number(answer + ERGO_ANSWER_AT_COLUMN, 4));
    return 0;
}

/* Reads a place, decimal digits and a number of 4 bytes: whether it is one. */
static int read_place(const char *text, uint32_t *place)
{
    wide value = 0;
    const char *at;
    for (at = text; *at >= '0' && *at <= '9' && value <= UINT32_MAX; at++)
        value = 10 * value + (wide)(*at - '0');
    *place = (uint32_t)value;
    return at != text && *at == '\0' && value <= UINT32_MAX;
}

int main(int argc, char **argv)
{
    uint32_t place;
    int status;
    if (argc == 2) {
        status = show_script(argv[1], 0);
    } else if (argc == 3 && strcmp(argv[1], "--contact") == 0) {
        status = show_contact(argv[2]);
    } else if (argc == 3 && strcmp(argv[1], "--records") == 0) {
        status = show_script(argv[2], 1);
    } else if (argc == 3 && strcmp(argv[1], "--roll") == 0) {
        status = show_roll(argv[2]);
    } else if (argc == 4 && strcmp(argv[1], "--place") == 0 && read_place(argv[2], &place)) {
        status = show_place(argv[3], place);
    } else {
        fprintf(stderr, "usage: %s [--contact | --records | --roll | --place PLACE] FILE\n", argv[0]);
        return 2;
    }
    if (fflush(stdout) != 0 || ferror(stdout)) /* what is left in a buffer could still fail */
        fail("standard output");
    return status;
}
