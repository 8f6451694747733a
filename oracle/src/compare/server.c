/* Answers readings over a pipe, little-endian on both ends. What is lent to the library
   stands between 16 filled bytes on each side. A changed byte there, or in what is only
   read, ends the program with status 3.

   Request: u32 list length, u32 script bytes, u32 words lent, u32 text bytes lent,
   the list, the script, the words and the text as they are before the call.
   Answer: 12 u32, the words, the text after the call.

   The same with u32 FFFFFFFF for the text bytes asks for the rows of the fields: the words are lent
   for them, and no text.
   Answer: 12 u32, the words after the call.

   Request for the literals of a script: u32 FFFFFFFF, u32 script bytes, u32 numbers lent,
   u32 offset, the script, the numbers as they are before the call.
   Answer: 12 u32, the numbers after the call.

   The same with u32 FFFFFFFE in front asks for every field of the script: the numbers are lent for
   the rows, and the offset is not used. With FFFFFFF2 it asks for every literal of the script.

   The same with u32 FFFFFFF4 in front checks the numbers as cuts in a body, which is sent as the
   script, and with FFFFFFF3 plans cuts into the numbers; the offset is the limit.

   Requests with a file of names: u32 FFFFFFFD to build its index, FFFFFFFC to check a lent one,
   FFFFFFFB to read with both checked, FFFFFFFA to read with both searched, FFFFFFF9 for every field
   of a script; then u32 file bytes, u32 index numbers, u32 list length, u32 script bytes, u32
   words lent, u32 text bytes lent, 0 for those that the call does not have; then the file, the
   index, the list, the script, the words and the text. A row buffer is lent as the words.
   Answer: 12 u32, the index, the words, the text after the call.

   Request for a trace replayed through a template: u32 FFFFFFF8, u32 list length, u32 script bytes,
   u32 trace bytes, u32 words lent, u32 text bytes lent, u32 output bytes lent, then all of these.
   Answer: 12 u32, the words, the text, the output after the call.

   Request for the parts of a format spec: u32 FFFFFFF7, u32 spec bytes, u32 0, u32 0, the spec.
   Answer: 12 u32.

   Request for two answers compared: u32 FFFFFFF6, u32 24, u32 words and u32 text bytes of the first,
   the same of the second, u32 numbers lent for the list; then the twelve numbers of both readings, and
   all of these.
   Answer: 12 u32, the list after the call.

   Request for a body written back: u32 FFFFFFF5, u32 words, u32 text bytes, u32 body bytes lent, the
   words, the text, 12 u32 of the reading, the body. Answer: 12 u32, the body after the call.

   Requests may come together; what was answered goes out before more is waited for. */
#include "../pipe.h"
#include "stumpgarret.h"

enum { GUARD = 16, FILL = 0x5A };
static const uint32_t LITERALS = UINT32_MAX, FIELDS = UINT32_MAX - 1, ROWS = UINT32_MAX;
static const uint32_t BUILD = UINT32_MAX - 2, CHECK = UINT32_MAX - 3,
                      SEARCHED = UINT32_MAX - 5, FIELDS_NAMED = UINT32_MAX - 6;
static const uint32_t REPLAY = UINT32_MAX - 7, SPEC = UINT32_MAX - 8, COMPARE = UINT32_MAX - 9, WRITE = UINT32_MAX - 10;
static const uint32_t CUTS_CHECK = UINT32_MAX - 11, CUTS_PLAN = UINT32_MAX - 12, CUT = UINT32_MAX - 13;

static void *lend(size_t size)
{
    uint8_t *whole = malloc(size + 2 * GUARD);
    if (!whole)
        fail(4, "no memory");
    memset(whole, FILL, GUARD);
    memset(whole + GUARD + size, FILL, GUARD);
    return whole + GUARD;
}

static void give_back(void *lent, size_t size, const char *name)
{
    uint8_t *whole = (uint8_t *)lent - GUARD;
    for (int i = 0; i < GUARD; i++)
        if (whole[i] != FILL || whole[GUARD + size + i] != FILL) {
            fprintf(stderr, "server: changed outside of %s (%zu bytes), guard byte %d\n", name,
                    size, i);
            exit(3);
        }
    free(whole);
}

static void unchanged(const void *now, const void *before, size_t size, const char *name)
{
    if (size && memcmp(now, before, size)) {
        fprintf(stderr, "server: %s changed\n", name);
        exit(3);
    }
}

static void answer_reading(const uint32_t size[4])
{
    size_t list_size = 4 * (size_t)size[0], words_size = 4 * (size_t)size[2];
    uint32_t *list = lend(list_size), *words = lend(words_size);
    uint8_t *script = lend(size[1]), *text = lend(size[3]);
    take(list, list_size);
    take(script, size[1]);
    take(words, words_size);
    take(text, size[3]);
    void *list_before = lend(list_size), *script_before = lend(size[1]);
    memcpy(list_before, list, list_size);
    memcpy(script_before, script, size[1]);
    uint32_t *answer = lend(48);
    memset(answer, 0xFF, 48);
    stumpgarret_read(script, size[1], list, size[0], words, size[2], text, size[3], answer);
    put(answer, 48);
    put(words, words_size);
    put(text, size[3]);
    unchanged(list, list_before, list_size, "the list");
    unchanged(script, script_before, size[1], "the script");
    give_back(list_before, list_size, "a copy of the list");
    give_back(script_before, size[1], "a copy of the script");
    give_back(answer, 48, "the answer");
    give_back(text, size[3], "the text");
    give_back(words, words_size, "the words");
    give_back(script, size[1], "the script");
    give_back(list, list_size, "the list");
}

static void answer_rows(const uint32_t size[4])
{
    size_t list_size = 4 * (size_t)size[0], rows_size = 4 * (size_t)size[2];
    uint32_t *list = lend(list_size), *rows = lend(rows_size);
    uint8_t *script = lend(size[1]);
    take(list, list_size);
    take(script, size[1]);
    take(rows, rows_size);
    void *list_before = lend(list_size), *script_before = lend(size[1]);
    memcpy(list_before, list, list_size);
    memcpy(script_before, script, size[1]);
    uint32_t *answer = lend(48);
    memset(answer, 0xFF, 48);
    stumpgarret_signs(script, size[1], list, size[0], rows, size[2], answer);
    put(answer, 48);
    put(rows, rows_size);
    unchanged(list, list_before, list_size, "the list");
    unchanged(script, script_before, size[1], "the script");
    give_back(list_before, list_size, "a copy of the list");
    give_back(script_before, size[1], "a copy of the script");
    give_back(answer, 48, "the answer");
    give_back(rows, rows_size, "the rows");
    give_back(script, size[1], "the script");
    give_back(list, list_size, "the list");
}

static void answer_script(const uint32_t size[4])
{
    size_t numbers_size = 4 * (size_t)size[2];
    uint8_t *script = lend(size[1]);
    uint32_t *numbers = lend(numbers_size);
    take(script, size[1]);
    take(numbers, numbers_size);
    void *script_before = lend(size[1]), *numbers_before = lend(numbers_size);
    memcpy(script_before, script, size[1]);
    memcpy(numbers_before, numbers, numbers_size);
    uint32_t *answer = lend(48);
    memset(answer, 0xFF, 48);
    if (size[0] == LITERALS)
        stumpgarret_literals(script, size[1], size[3], numbers, size[2], answer);
    else if (size[0] == FIELDS)
        stumpgarret_fields(script, size[1], numbers, size[2], answer);
    else if (size[0] == CUT)
        stumpgarret_cut(script, size[1], numbers, size[2], answer);
    else if (size[0] == CUTS_PLAN)
        stumpgarret_cuts_plan(script, size[1], size[3], numbers, size[2], answer);
    else {
        stumpgarret_cuts_check(script, size[1], size[3], numbers, size[2], answer);
        unchanged(numbers, numbers_before, numbers_size, "the cuts");
    }
    put(answer, 48);
    put(numbers, numbers_size);
    give_back(numbers_before, numbers_size, "a copy of the numbers");
    unchanged(script, script_before, size[1], "the script");
    give_back(script_before, size[1], "a copy of the script");
    give_back(answer, 48, "the answer");
    give_back(numbers, numbers_size, "the numbers");
    give_back(script, size[1], "the script");
}

/* What is lent to a call with a file of names, in the order in which it comes. */
enum { FILE_BYTES, INDEX, LIST, SCRIPT, WORDS, TEXT, LENT };

static void answer_named(const uint32_t head[4])
{
    static const char *const names[LENT] = {"the file", "the index", "the list",
                                            "the script", "the words", "the text"};
    uint32_t verb = head[0], count[LENT];
    memcpy(count, head + 1, 3 * sizeof *count);
    take(count + 3, 3 * sizeof *count);
    size_t size[LENT];
    void *lent[LENT], *before[LENT];
    for (int i = 0; i < LENT; i++) {
        size[i] = (i == INDEX || i == LIST || i == WORDS ? 4 : 1) * (size_t)count[i];
        lent[i] = lend(size[i]);
        before[i] = lend(size[i]);
        take(lent[i], size[i]);
        memcpy(before[i], lent[i], size[i]);
    }
    uint32_t *answer = lend(48);
    memset(answer, 0xFF, 48);
    if (verb == BUILD)
        stumpgarret_names_build(lent[FILE_BYTES], count[FILE_BYTES], lent[INDEX], count[INDEX],
                                answer);
    else if (verb == CHECK)
        stumpgarret_names_check(lent[FILE_BYTES], count[FILE_BYTES], lent[INDEX], count[INDEX],
                                answer);
    else if (verb == FIELDS_NAMED)
        stumpgarret_fields_named(lent[SCRIPT], count[SCRIPT], lent[FILE_BYTES], count[FILE_BYTES],
                                 lent[INDEX], count[INDEX], lent[WORDS], count[WORDS], answer);
    else
        (verb == SEARCHED ? stumpgarret_read_searched : stumpgarret_read_named)(
            lent[SCRIPT], count[SCRIPT], lent[LIST], count[LIST], lent[FILE_BYTES],
            count[FILE_BYTES], lent[INDEX], count[INDEX], lent[WORDS], count[WORDS], lent[TEXT],
            count[TEXT], answer);
    put(answer, 48);
    put(lent[INDEX], size[INDEX]);
    put(lent[WORDS], size[WORDS]);
    put(lent[TEXT], size[TEXT]);
    give_back(answer, 48, "the answer");
    for (int i = 0; i < LENT; i++) {
        if (i < WORDS && !(i == INDEX && verb == BUILD))
            unchanged(lent[i], before[i], size[i], names[i]);
        give_back(before[i], size[i], "a copy");
        give_back(lent[i], size[i], names[i]);
    }
}

/* What is lent to a replay, in the order in which it comes. */
enum { REPLAYED_LIST, REPLAYED_SCRIPT, TRACE, REPLAYED_WORDS, REPLAYED_TEXT, OUTPUT, REPLAY_LENT };

static void answer_replay(const uint32_t head[4])
{
    static const char *const names[REPLAY_LENT] = {"the list",  "the script", "the trace",
                                                   "the words", "the text",   "the output"};
    uint32_t count[REPLAY_LENT];
    memcpy(count, head + 1, 3 * sizeof *count);
    take(count + 3, 3 * sizeof *count);
    size_t size[REPLAY_LENT];
    void *lent[REPLAY_LENT], *before[REPLAY_LENT];
    for (int i = 0; i < REPLAY_LENT; i++) {
        size[i] = (i == REPLAYED_LIST || i == REPLAYED_WORDS ? 4 : 1) * (size_t)count[i];
        lent[i] = lend(size[i]);
        before[i] = lend(size[i]);
        take(lent[i], size[i]);
        memcpy(before[i], lent[i], size[i]);
    }
    uint32_t *answer = lend(48);
    memset(answer, 0xFF, 48);
    stumpgarret_replay(lent[REPLAYED_SCRIPT], count[REPLAYED_SCRIPT], lent[REPLAYED_LIST],
                       count[REPLAYED_LIST], lent[TRACE], count[TRACE], lent[REPLAYED_WORDS],
                       count[REPLAYED_WORDS], lent[REPLAYED_TEXT], count[REPLAYED_TEXT],
                       lent[OUTPUT], count[OUTPUT], answer);
    put(answer, 48);
    for (int i = REPLAYED_WORDS; i < REPLAY_LENT; i++)
        put(lent[i], size[i]);
    give_back(answer, 48, "the answer");
    for (int i = 0; i < REPLAY_LENT; i++) {
        if (i < REPLAYED_WORDS)
            unchanged(lent[i], before[i], size[i], names[i]);
        give_back(before[i], size[i], "a copy");
        give_back(lent[i], size[i], names[i]);
    }
}

static void answer_spec(const uint32_t head[4])
{
    size_t size = head[1];
    uint8_t *spec = lend(size), *before = lend(size);
    take(spec, size);
    memcpy(before, spec, size);
    uint32_t *answer = lend(48);
    memset(answer, 0xFF, 48);
    stumpgarret_spec(spec, size, answer);
    put(answer, 48);
    give_back(answer, 48, "the answer");
    unchanged(spec, before, size, "the spec");
    give_back(before, size, "a copy of the spec");
    give_back(spec, size, "the spec");
}

/* What is lent to a comparison, in the order in which it comes. */
enum { READINGS, FIRST_WORDS, FIRST_TEXT, SECOND_WORDS, SECOND_TEXT, MIDDLES, COMPARE_LENT };

static void answer_compare(const uint32_t head[4])
{
    static const char *const names[COMPARE_LENT] = {"the numbers",      "the first words",
                                                    "the first text",   "the second words",
                                                    "the second text",  "the list"};
    uint32_t count[COMPARE_LENT];
    memcpy(count, head + 1, 3 * sizeof *count);
    take(count + 3, 3 * sizeof *count);
    if (count[READINGS] != 24)
        fail(4, "the numbers of two readings are 24");
    size_t size[COMPARE_LENT];
    void *lent[COMPARE_LENT], *before[COMPARE_LENT];
    for (int i = 0; i < COMPARE_LENT; i++) {
        size[i] = (i == FIRST_TEXT || i == SECOND_TEXT ? 1 : 4) * (size_t)count[i];
        lent[i] = lend(size[i]);
        before[i] = lend(size[i]);
        take(lent[i], size[i]);
        memcpy(before[i], lent[i], size[i]);
    }
    uint32_t *answer = lend(48);
    memset(answer, 0xFF, 48);
    stumpgarret_compare(lent[FIRST_WORDS], count[FIRST_WORDS], lent[FIRST_TEXT], count[FIRST_TEXT],
                        lent[READINGS], lent[SECOND_WORDS], count[SECOND_WORDS], lent[SECOND_TEXT],
                        count[SECOND_TEXT], (uint32_t *)lent[READINGS] + 12, lent[MIDDLES],
                        count[MIDDLES], answer);
    put(answer, 48);
    put(lent[MIDDLES], size[MIDDLES]);
    give_back(answer, 48, "the answer");
    for (int i = 0; i < COMPARE_LENT; i++) {
        if (i < MIDDLES)
            unchanged(lent[i], before[i], size[i], names[i]);
        give_back(before[i], size[i], "a copy");
        give_back(lent[i], size[i], names[i]);
    }
}

/* What is lent to a write, in the order in which it comes. */
enum { WRITTEN_WORDS, WRITTEN_TEXT, READING, BODY, WRITE_LENT };

static void answer_write(const uint32_t head[4])
{
    static const char *const names[WRITE_LENT] = {"the words", "the text", "the reading", "the body"};
    const size_t size[WRITE_LENT] = {4 * (size_t)head[1], head[2], 48, head[3]};
    void *lent[WRITE_LENT], *before[WRITE_LENT];
    for (int i = 0; i < WRITE_LENT; i++) {
        lent[i] = lend(size[i]);
        before[i] = lend(size[i]);
        take(lent[i], size[i]);
        memcpy(before[i], lent[i], size[i]);
    }
    uint32_t *answer = lend(48);
    memset(answer, 0xFF, 48);
    stumpgarret_write(lent[WRITTEN_WORDS], head[1], lent[WRITTEN_TEXT], head[2], lent[READING],
                      lent[BODY], head[3], answer);
    put(answer, 48);
    put(lent[BODY], size[BODY]);
    give_back(answer, 48, "the answer");
    for (int i = 0; i < WRITE_LENT; i++) {
        if (i != BODY)
            unchanged(lent[i], before[i], size[i], names[i]);
        give_back(before[i], size[i], "a copy");
        give_back(lent[i], size[i], names[i]);
    }
}

int main(void)
{
    setvbuf(stdout, NULL, _IOFBF, 1 << 20);
    while (more()) {
        uint32_t size[4];
        take(size, sizeof size);
        if (size[0] == LITERALS || size[0] == FIELDS || size[0] == CUT || size[0] == CUTS_CHECK || size[0] == CUTS_PLAN)
            answer_script(size);
        else if (size[0] >= FIELDS_NAMED)
            answer_named(size);
        else if (size[0] == REPLAY)
            answer_replay(size);
        else if (size[0] == SPEC)
            answer_spec(size);
        else if (size[0] == COMPARE)
            answer_compare(size);
        else if (size[0] == WRITE)
            answer_write(size);
        else if (size[3] == ROWS)
            answer_rows(size);
        else
            answer_reading(size);
    }
    return 0;
}
