
/* A part that is read only, and one that is written too. No byte of an empty part is touched, whatever its pointer is. */
static struct part read_only(const void *bytes, u64 length)
{
    struct part part;
    part.bytes = (const u8 *)bytes;
    part.written = NULL;
    part.length = length;
    return part;
}

static struct part written(void *bytes, u64 length)
{
    struct part part = read_only(bytes, length);
    part.written = (u8 *)bytes;
    return part;
}

/* A place past the range of addresses of a script or roll would fall into another part. A script that is too long by the rules is refused before any
 * place of it is looked at, but texts and rolls are read whatever their length. */
static void check_length(u64 length)
{
    if (length > MOST_BYTES)
        ERGO_TRAP();
}

/* A call, with its stack, which is empty at first. */
static struct call call_of(u8 *stack, u32 bytes, struct part script, struct part lent, struct part answer)
{
    const u32 one = 1;
    struct call call;
    if (*(const u8 *)&one != 1)
        ERGO_TRAP(); /* a big-endian processor */
    call.tables = read_only(tables, sizeof tables);
    call.stack = written(stack, bytes);
    call.answer = answer;
    call.lent = lent;
    call.script = script;
    call.stack_pointer = STACK + bytes;
    return call;
}

static struct part none(void)
{
    return read_only(NULL, 0);
}

uint32_t ergo_tokenize(const uint8_t *script, uint64_t n, uint8_t *records, uint64_t m, uint8_t *answer, uint64_t k)
{
    u8 stack[STACK_OF_ergo_tokenize];
    struct call call = call_of(stack, sizeof stack, read_only(script, n), written(records, m), written(answer, k));
    return module_ergo_tokenize(&call, SCRIPT, n, LENT, m, ANSWER, k);
}

uint32_t ergo_tokenize_contact(const uint8_t *script, uint64_t n, uint8_t *records, uint64_t m, uint8_t *answer, uint64_t k)
{
    u8 stack[STACK_OF_ergo_tokenize_contact];
    struct call call = call_of(stack, sizeof stack, read_only(script, n), written(records, m), written(answer, k));
    return module_ergo_tokenize_contact(&call, SCRIPT, n, LENT, m, ANSWER, k);
}

uint32_t ergo_measure(const uint8_t *script, uint64_t n, uint8_t *answer, uint64_t k)
{
    u8 stack[STACK_OF_ergo_measure];
    struct call call = call_of(stack, sizeof stack, read_only(script, n), none(), written(answer, k));
    return module_ergo_measure(&call, SCRIPT, n, ANSWER, k);
}

uint32_t ergo_token_text(const uint8_t *script, uint64_t n, uint32_t start, uint32_t end)
{
    u8 stack[STACK_OF_ergo_token_text];
    struct call call = call_of(stack, sizeof stack, read_only(script, n), none(), none());
    check_length(n);
    return module_ergo_token_text(&call, SCRIPT, n, start, end);
}

uint32_t ergo_read_roll(const uint8_t *roll, uint64_t n, uint8_t *answer, uint64_t k)
{
    u8 stack[STACK_OF_ergo_read_roll];
    struct call call = call_of(stack, sizeof stack, read_only(roll, n), none(), written(answer, k));
    check_length(n);
    return module_ergo_read_roll(&call, SCRIPT, n, ANSWER, k);
}

uint32_t ergo_read_record(const uint8_t *roll, uint64_t n, uint32_t at, uint32_t previous, uint8_t *answer, uint64_t k)
{
    u8 stack[STACK_OF_ergo_read_record];
    struct call call = call_of(stack, sizeof stack, read_only(roll, n), none(), written(answer, k));
    check_length(n);
    return module_ergo_read_record(&call, SCRIPT, n, at, previous, ANSWER, k);
}

uint32_t ergo_index_lines(const uint8_t *script, uint64_t n, uint32_t *index, uint64_t m, uint8_t *answer, uint64_t k)
{
    u8 stack[STACK_OF_ergo_index_lines];
    struct call call = call_of(stack, sizeof stack, read_only(script, n), written(index, 4 * m), written(answer, k));
    return module_ergo_index_lines(&call, SCRIPT, n, LENT, m, ANSWER, k);
}

uint32_t ergo_line_column(const uint8_t *script, uint64_t n, const uint32_t *index, uint64_t m, uint32_t place, uint8_t *answer, uint64_t k)
{
    u8 stack[STACK_OF_ergo_line_column];
    struct call call = call_of(stack, sizeof stack, read_only(script, n), read_only(index, 4 * m), written(answer, k));
    return module_ergo_line_column(&call, SCRIPT, n, LENT, m, place, ANSWER, k);
}
