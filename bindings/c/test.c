/* Calls the library through the header and checks each answer, word and byte. */
#define _DEFAULT_SOURCE /* MAP_ANONYMOUS */
#include <stdio.h>
#include <stdlib.h>
#include <string.h>
#include <sys/mman.h>

#include "stumpgarret.h"

#define COUNT(array) (sizeof(array) / sizeof *(array))

enum { WORDS = 192, TEXT = 64, FILL = 0xA5 };

static uint32_t words[WORDS];
static uint8_t text[TEXT];
static uint32_t answer[STUMPGARRET_ANSWER_NUMBERS];
static int checks;

static void fail(const char *what, size_t at, unsigned long got, unsigned long expected)
{
    fprintf(stderr, "test: %s %lu is %lu, not %lu\n", what, (unsigned long)at, got, expected);
    exit(1);
}

/* The first `count` numbers are those given. */
static void numbers_are(const char *what, const uint32_t *got, const uint32_t *expected,
                        size_t count)
{
    for (size_t i = 0; i < count; i++)
        if (got[i] != expected[i])
            fail(what, i, got[i], expected[i]);
    checks++;
}

/* All bytes from `from` up to `size` are `byte`. */
static void filled(const char *what, const void *got, size_t from, size_t size, uint8_t byte)
{
    const uint8_t *bytes = (const uint8_t *)got;
    for (size_t i = from; i < size; i++)
        if (bytes[i] != byte)
            fail(what, i, bytes[i], byte);
    checks++;
}

/* Reads with so many words and text bytes lent, all filled before. */
static void read_with(const char *script, const uint32_t *literals, size_t literals_length,
                      size_t words_length, size_t text_length)
{
    memset(words, FILL, sizeof words);
    memset(text, FILL, sizeof text);
    memset(answer, FILL, sizeof answer);
    stumpgarret_read((const uint8_t *)script, strlen(script), literals, literals_length,
                     words, words_length, text, text_length, answer);
}

/* An acceptance with these records and this text, and nothing else changed. */
static void accepted(const uint32_t *numbers, const uint32_t *records, const char *expected_text)
{
    size_t used = STUMPGARRET_RECORD_WORDS * (size_t)numbers[STUMPGARRET_ANSWER_RECORDS];
    size_t length = strlen(expected_text);
    numbers_are("answer", answer, numbers, STUMPGARRET_ANSWER_NUMBERS);
    numbers_are("word", words, records, used);
    filled("byte of the words", words, used * sizeof *words, sizeof words, FILL);
    for (size_t i = 0; i < length; i++)
        if (text[i] != (uint8_t)expected_text[i])
            fail("text byte", i, text[i], (uint8_t)expected_text[i]);
    filled("text byte", text, length, sizeof text, FILL);
}

/* A refusal with these numbers, and zeros up to twelve: zeros in what was lent, and nothing else
   changed. */
static void refused(const uint32_t *numbers, size_t count, size_t words_length, size_t text_length)
{
    numbers_are("answer", answer, numbers, count);
    filled("byte of the answer", answer, count * sizeof *answer, sizeof answer, 0);
    filled("byte of the words", words, 0, words_length * sizeof *words, 0);
    filled("byte of the words", words, words_length * sizeof *words, sizeof words, FILL);
    filled("text byte", text, 0, text_length, 0);
    filled("text byte", text, text_length, sizeof text, FILL);
}

/* The second of two adjacent literals is not lost. */
static const char two_script[] = "'VDD ' f'{mv / 12.5:.0f}\\n'";
static const uint32_t two[] = {
    STUMPGARRET_STRING, 0, 1, 4, 0, 6,
    STUMPGARRET_FSTRING, 0, 9, 17, 7, 27,
};
enum { TWO_RECORDS = 5, TWO_TEXT = 17, TWO_BYTES = 21 };
static const uint32_t two_answer[STUMPGARRET_ANSWER_NUMBERS] = {
    STUMPGARRET_ACCEPTED, STUMPGARRET_JOINED, 0, 0, 27, TWO_RECORDS, TWO_TEXT, 0, TWO_BYTES,
};
static const uint32_t two_records[] = {
    STUMPGARRET_LITERAL_RECORD, 0, 4, 0, 27, 0, 0, 0,
    STUMPGARRET_FIELD_RECORD, 4, 9, 7, 27, 0, 1, 10,
    STUMPGARRET_SPEC_RECORD, 13, 0, 7, 27, 0, 1, 0,
    STUMPGARRET_LITERAL_RECORD, 13, 3, 7, 27, 0, 0, 0,
    STUMPGARRET_LITERAL_RECORD, 16, 1, 0, 27, 0, 0, 0,
};

static void reads_two(void)
{
    read_with(two_script, two, COUNT(two), WORDS, TEXT);
    accepted(two_answer, two_records, "VDD mv / 12.5.0f\n");

    const uint32_t *field = words + STUMPGARRET_RECORD_WORDS;
    const uint32_t by_name[] = {
        field[STUMPGARRET_RECORD_KIND],        field[STUMPGARRET_RECORD_TEXT],
        field[STUMPGARRET_RECORD_TEXT_LENGTH], field[STUMPGARRET_RECORD_START],
        field[STUMPGARRET_RECORD_END],         field[STUMPGARRET_RECORD_CONVERSION],
        field[STUMPGARRET_RECORD_PARTS],       field[STUMPGARRET_RECORD_PLACE],
    };
    numbers_are("named word", by_name, two_records + STUMPGARRET_RECORD_WORDS, COUNT(by_name));
    const uint32_t answer_by_name[] = {
        answer[STUMPGARRET_ANSWER_NUMBER], answer[STUMPGARRET_ANSWER_SORT],
        answer[STUMPGARRET_ANSWER_MARK],   answer[STUMPGARRET_ANSWER_START],
        answer[STUMPGARRET_ANSWER_END],    answer[STUMPGARRET_ANSWER_RECORDS],
        answer[STUMPGARRET_ANSWER_TEXT_LENGTH], 0, answer[STUMPGARRET_ANSWER_CHARS],
    };
    numbers_are("named number", answer_by_name, two_answer, COUNT(answer_by_name));
}

/* Too little room gives the counts; with them the same call is accepted. */
static void grows(void)
{
    static const uint32_t none[] = {
        STUMPGARRET_TOO_FEW_RECORD_PLACES, 0, 0, TWO_RECORDS, TWO_TEXT, 0, 0, 0, TWO_BYTES,
    };
    static const uint32_t no_text[] = {
        STUMPGARRET_TOO_LITTLE_TEXT_ROOM, 0, 0, TWO_RECORDS, TWO_TEXT, 0, 0, 0, TWO_BYTES,
    };
    read_with(two_script, two, COUNT(two), 0, 0);
    refused(none, COUNT(none), 0, 0);
    size_t needed = STUMPGARRET_RECORD_WORDS * (size_t)answer[STUMPGARRET_REFUSAL_DETAIL_A];
    size_t text_needed = answer[STUMPGARRET_REFUSAL_DETAIL_B];

    read_with(two_script, two, COUNT(two), needed - 1, text_needed);
    refused(none, COUNT(none), needed - 1, text_needed);
    read_with(two_script, two, COUNT(two), needed, text_needed - 1);
    refused(no_text, COUNT(no_text), needed, text_needed - 1);
    read_with(two_script, two, COUNT(two), needed, text_needed);
    accepted(two_answer, two_records, "VDD mv / 12.5.0f\n");
}

/* The room that the header names is enough. */
static void fits(void)
{
    static const uint32_t empty[] = {STUMPGARRET_STRING, 0, 1, 0, 0, 2};
    static const uint32_t empty_answer[STUMPGARRET_ANSWER_NUMBERS] = {
        STUMPGARRET_ACCEPTED, STUMPGARRET_PLAIN, 0, 0, 2, 1,
    };
    static const uint32_t empty_record[] = {STUMPGARRET_LITERAL_RECORD, 0, 0, 0, 2, 0, 0, 0};
    size_t records = TWO_BYTES + COUNT(two) / STUMPGARRET_LITERAL_NUMBERS;
    read_with(two_script, two, COUNT(two), STUMPGARRET_RECORD_WORDS * records, 2 * TWO_BYTES);
    accepted(two_answer, two_records, "VDD mv / 12.5.0f\n");
    read_with("''", empty, COUNT(empty), STUMPGARRET_RECORD_WORDS, 0);
    accepted(empty_answer, empty_record, "");
}

/* A refusal in the second literal names it, the place, both brackets, where the first was opened,
   line and column, and the characters before. */
static void refuses(void)
{
    static const uint32_t literals[] = {
        STUMPGARRET_UNICODE, 0, 2, 1, 0, 4,
        STUMPGARRET_RAW_FSTRING, 1, 9, 8, 4, 20,
    };
    static const uint32_t mismatched[] = {
        STUMPGARRET_MISMATCHED_DELIMITER, 1, 16, '(', ']', 15, 2, 3, 7,
    };
    read_with("u'a'rf'''\xc3\xa9\n\n{(]}'''", literals, COUNT(literals), 40, 9);
    refused(mismatched, COUNT(mismatched), 40, 9);
    const uint32_t by_name[] = {
        answer[STUMPGARRET_ANSWER_NUMBER], answer[STUMPGARRET_REFUSAL_LITERAL],
        answer[STUMPGARRET_REFUSAL_PLACE], answer[STUMPGARRET_REFUSAL_DETAIL_A],
        answer[STUMPGARRET_REFUSAL_DETAIL_B], answer[STUMPGARRET_REFUSAL_OPENED],
        answer[STUMPGARRET_REFUSAL_LINE],  answer[STUMPGARRET_REFUSAL_COLUMN],
        answer[STUMPGARRET_ANSWER_CHARS],
    };
    numbers_are("named number", by_name, mismatched, COUNT(by_name));
}

/* Each refusal that one body can get, by its name. */
static void refuses_bodies(void)
{
    static const struct {
        uint32_t kind;
        const char *body;
        uint32_t expected[STUMPGARRET_ANSWER_CHARS + 1];
    } rows[] = {
        {STUMPGARRET_STRING, "a\xff", {STUMPGARRET_NOT_UTF8, 0, 2, 0, 0, 0, 0, 0, 0}},
        {STUMPGARRET_STRING, "a\\", {STUMPGARRET_STRING_ERROR, 0, 3, 0, 0, 0, 0, 2, 2}},
        {STUMPGARRET_STRING, "\\x4", {STUMPGARRET_UNICODE_ERROR, 0, 3, 0, 0, 0, 0, 2, 2}},
        {STUMPGARRET_BYTES, "a\xc3\xa9", {STUMPGARRET_NON_ASCII_IN_BYTES, 0, 5, 0, 0, 0, 0, 2, 2}},
        {STUMPGARRET_STRING, "\\N{SNOWMAN}", {STUMPGARRET_NAME_NOT_HELD, 0, 4, 0, 0, 0, 0, 3, 3}},
        {STUMPGARRET_FSTRING, "{x!",
         {STUMPGARRET_UNCLOSED_LBRACE, 0, 5, STUMPGARRET_UNCLOSED_AFTER_BANG, 0, 0, 0, 3, 3}},
        {STUMPGARRET_FSTRING, "{x!r b}",
         {STUMPGARRET_UNCLOSED_LBRACE, 0, 6, STUMPGARRET_UNCLOSED_AFTER_CONVERSION, 0, 0, 0, 4, 4}},
        {STUMPGARRET_FSTRING, "{x=y}",
         {STUMPGARRET_UNCLOSED_LBRACE, 0, 6, STUMPGARRET_UNCLOSED_AFTER_EQUALS, 0, 0, 0, 4, 4}},
        {STUMPGARRET_FSTRING, "{x",
         {STUMPGARRET_UNCLOSED_LBRACE, 0, 4, STUMPGARRET_UNCLOSED_IN_FIELD, 0, 0, 0, 2, 2}},
        {STUMPGARRET_FSTRING, "{",
         {STUMPGARRET_UNCLOSED_LBRACE, 0, 3, STUMPGARRET_UNCLOSED_LAST_BRACE, 0, 0, 0, 1, 1}},
        {STUMPGARRET_FSTRING, "{x!x}", {STUMPGARRET_INVALID_CONVERSION_FLAG, 0, 6, 0, 0, 0, 0, 4, 4}},
        {STUMPGARRET_FSTRING, "{}", {STUMPGARRET_EMPTY_EXPRESSION, 0, 4, 0, 0, 0, 0, 2, 2}},
        {STUMPGARRET_FSTRING, "{f(a[0)}",
         {STUMPGARRET_MISMATCHED_DELIMITER, 0, 9, '[', ')', 7, 0, 7, 7}},
        {STUMPGARRET_FSTRING, "{x:{y:{z}}}",
         {STUMPGARRET_EXPRESSION_NESTED_TOO_DEEPLY, 0, 8, 0, 0, 0, 0, 6, 6}},
        {STUMPGARRET_FSTRING, "a}b", {STUMPGARRET_SINGLE_RBRACE, 0, 4, 0, 0, 0, 0, 2, 2}},
        {STUMPGARRET_FSTRING, "{x)", {STUMPGARRET_UNMATCHED, 0, 5, ')', 0, 0, 0, 3, 3}},
        {STUMPGARRET_FSTRING, "{'", {STUMPGARRET_UNTERMINATED_STRING, 0, 4, 0, 0, 0, 0, 2, 2}},
        {STUMPGARRET_FSTRING,
         "{((((((((((((((((((((((((((((((((((((((((((((((((((((((((((((((((((",
         {STUMPGARRET_TOO_MANY_BRACKETS, 0, 68, 0, 0, 0, 0, 66, 66}},
    };
    for (size_t i = 0; i < COUNT(rows); i++) {
        uint32_t length = (uint32_t)strlen(rows[i].body);
        uint32_t literal[STUMPGARRET_LITERAL_NUMBERS];
        literal[STUMPGARRET_LITERAL_KIND] = rows[i].kind;
        literal[STUMPGARRET_LITERAL_TRIPLE] = 0;
        literal[STUMPGARRET_LITERAL_BODY] = 0;
        literal[STUMPGARRET_LITERAL_BODY_LENGTH] = length;
        literal[STUMPGARRET_LITERAL_START] = 0;
        literal[STUMPGARRET_LITERAL_END] = length + 3;
        read_with(rows[i].body, literal, COUNT(literal), 8, 3);
        refused(rows[i].expected, COUNT(rows[i].expected), 8, 3);
    }
}

/* What the entry checks refuse, and that the limits themselves pass them. */
static void refuses_lists(void)
{
    static uint32_t many[STUMPGARRET_LITERAL_NUMBERS * (STUMPGARRET_MOST_LITERALS + 1)];
    static char script[STUMPGARRET_MOST_BODY_BYTES + 2];
    uint32_t one[] = {STUMPGARRET_STRING, 0, 0, STUMPGARRET_MOST_BODY_BYTES + 1, 0, UINT32_MAX};
    uint32_t mixed[] = {
        STUMPGARRET_RAW_STRING, 0, 0, 0, 7, 10,
        STUMPGARRET_RAW_BYTES, 0, 0, 0, 10, 14,
    };
    static const uint32_t empty = STUMPGARRET_EMPTY_LIST, cut = STUMPGARRET_NOT_SIXES,
                          too_many = STUMPGARRET_TOO_MANY_LITERALS,
                          too_long = STUMPGARRET_BODIES_TOO_LONG;
    static const uint32_t bad[] = {STUMPGARRET_BAD_DESCRIPTOR, 0, 0, 0, 0};
    static const uint32_t no_room[] = {
        STUMPGARRET_TOO_FEW_RECORD_PLACES, 0, 0, 1, STUMPGARRET_MOST_BODY_BYTES, 0, 0, 0,
        STUMPGARRET_MOST_BODY_BYTES,
    };
    static const uint32_t mixture[] = {STUMPGARRET_MIXED_BYTES, 0, 7, 0, 0};

    read_with("", many, 0, 3, 3);
    refused(&empty, 1, 3, 3);
    read_with("", many, STUMPGARRET_LITERAL_NUMBERS - 1, 3, 3);
    refused(&cut, 1, 3, 3);
    read_with("", many, COUNT(many), 3, 3);
    refused(&too_many, 1, 3, 3);
    read_with("", many, COUNT(many) - STUMPGARRET_LITERAL_NUMBERS, 3, 3);
    refused(bad, COUNT(bad), 3, 3);
    memset(script, 'a', sizeof script - 1);
    read_with(script, one, COUNT(one), 3, 3);
    refused(&too_long, 1, 3, 3);
    one[STUMPGARRET_LITERAL_BODY_LENGTH]--;
    read_with(script, one, COUNT(one), 3, 3);
    refused(no_room, COUNT(no_room), 3, 3);
    read_with("", mixed, COUNT(mixed), 3, 3);
    refused(mixture, COUNT(mixture), 3, 3);
}

/* A u mark, with a raw string, and bytes. */
static void reads_marks_and_bytes(void)
{
    static const uint32_t marked[] = {
        STUMPGARRET_UNICODE, 0, 2, 1, 5, 9,
        STUMPGARRET_RAW_STRING, 0, 6, 2, 9, 14,
    };
    static const uint32_t marked_answer[STUMPGARRET_ANSWER_NUMBERS] = {
        STUMPGARRET_ACCEPTED, STUMPGARRET_PLAIN, 1, 5, 14, 1, 3, 0, 3,
    };
    static const uint32_t marked_record[] = {STUMPGARRET_LITERAL_RECORD, 0, 3, 5, 14, 1, 0, 0};
    static const uint32_t bytes[] = {STUMPGARRET_BYTES, 0, 2, 4, 0, 7};
    static const uint32_t bytes_answer[STUMPGARRET_ANSWER_NUMBERS] = {
        STUMPGARRET_ACCEPTED, STUMPGARRET_BYTES_VALUE, 0, 0, 7, 1, 1, 0, 4,
    };
    static const uint32_t bytes_record[] = {STUMPGARRET_BYTES_RECORD, 0, 1, 0, 7, 0, 0, 0};
    read_with("u'a'r'\\n'", marked, COUNT(marked), WORDS, TEXT);
    accepted(marked_answer, marked_record, "a\\n");
    const uint32_t marks[] = {answer[STUMPGARRET_ANSWER_MARK], words[STUMPGARRET_RECORD_MARK]};
    const uint32_t both[] = {1, 1};
    numbers_are("named mark", marks, both, COUNT(both));
    read_with("b'\\777'", bytes, COUNT(bytes), WORDS, TEXT);
    accepted(bytes_answer, bytes_record, "\xff");
}

/* Asks for the rows with so many numbers lent, all filled before. */
static void signs_with(const char *script, const uint32_t *literals, size_t literals_length,
                       size_t rows_length)
{
    memset(words, FILL, sizeof words);
    memset(answer, FILL, sizeof answer);
    stumpgarret_signs((const uint8_t *)script, strlen(script), literals, literals_length, words,
                      rows_length, answer);
}

/* The four reasons, a nested field, room, and a refusal. */
static void signs(void)
{
    static const char script[] = "{x!r}{y=}{z=:{w}}";
    static const uint32_t literal[] = {STUMPGARRET_FSTRING, 0, 0, 17, 0, 20};
    static const uint32_t accepted[STUMPGARRET_ANSWER_NUMBERS] = {
        STUMPGARRET_ACCEPTED, STUMPGARRET_JOINED, 0, 0, 20, 4, 0, 0, 17,
    };
    static const uint32_t rows[] = {
        STUMPGARRET_REASON_WRITTEN, 0, 3, 1, 'r', 0, 5, 0, 7, 0,
        STUMPGARRET_REASON_REPR, 0, 8, 1, 'r', 10, 0, 0, 11, 0,
        STUMPGARRET_REASON_SPEC, 0, 12, 1, 0, 14, 0, 15, 19, 0,
        STUMPGARRET_REASON_NONE, 0, 16, 1, 0, 0, 0, 0, 18, 0,
    };
    static const uint32_t short_of_room[STUMPGARRET_ANSWER_NUMBERS] = {
        STUMPGARRET_TOO_FEW_RECORD_PLACES, 0, 0, 4, 0, 0, 0, 0, 17,
    };
    static const uint32_t empty[STUMPGARRET_ANSWER_NUMBERS] = {
        STUMPGARRET_EMPTY_EXPRESSION, 0, 4, 0, 0, 0, 0, 2, 2,
    };
    signs_with(script, literal, COUNT(literal), WORDS);
    numbers_are("answer", answer, accepted, COUNT(accepted));
    numbers_are("row", words, rows, COUNT(rows));
    filled("byte of the rows", words, sizeof rows, sizeof words, FILL);
    const uint32_t *third = words + 2 * STUMPGARRET_ROW_NUMBERS;
    const uint32_t by_name[] = {
        third[STUMPGARRET_ROW_REASON], third[STUMPGARRET_ROW_START],
        third[STUMPGARRET_ROW_PLACE],  third[STUMPGARRET_ROW_EXPRESSION],
        third[STUMPGARRET_ROW_CONVERSION], third[STUMPGARRET_ROW_EQUALS],
        third[STUMPGARRET_ROW_BANG],   third[STUMPGARRET_ROW_COLON],
        third[STUMPGARRET_ROW_CLOSE],  third[STUMPGARRET_ROW_WITHIN],
    };
    numbers_are("named number", by_name, rows + 2 * STUMPGARRET_ROW_NUMBERS, COUNT(by_name));

    signs_with(script, literal, COUNT(literal), COUNT(rows) - 1);
    numbers_are("answer", answer, short_of_room, COUNT(short_of_room));
    filled("byte of the rows", words, 0, sizeof rows - sizeof *rows, 0);
    filled("byte of the rows", words, sizeof rows - sizeof *rows, sizeof words, FILL);
    static const uint32_t two_bytes[] = {STUMPGARRET_FSTRING, 0, 0, 2, 0, 5};
    signs_with("{}", two_bytes, COUNT(two_bytes), COUNT(rows));
    numbers_are("answer", answer, empty, COUNT(empty));
    filled("byte of the rows", words, 0, sizeof rows, 0);
}

/* Lists the literals of so many bytes from an offset on, with so many numbers lent, all filled
   before. */
static void list_with(const void *script, size_t length, uint32_t offset, size_t lent)
{
    memset(words, FILL, sizeof words);
    memset(answer, FILL, sizeof answer);
    stumpgarret_literals((const uint8_t *)script, length, offset, words, lent, answer);
}

/* A list with these numbers, and nothing else changed. */
static void listed(const uint32_t *numbers, const uint32_t *literals)
{
    size_t used = STUMPGARRET_LITERAL_NUMBERS * (size_t)numbers[STUMPGARRET_LIST_LITERALS];
    numbers_are("answer", answer, numbers, STUMPGARRET_ANSWER_NUMBERS);
    numbers_are("number", words, literals, used);
    filled("byte of the numbers", words, used * sizeof *words, sizeof words, FILL);
}

/* A refusal at a place, with how many numbers are needed: zeros in what was lent. */
static void not_listed(uint32_t number, uint32_t place, uint32_t needed, size_t lent)
{
    uint32_t expected[STUMPGARRET_ANSWER_NUMBERS] = {0};
    expected[STUMPGARRET_ANSWER_NUMBER] = number;
    expected[STUMPGARRET_REFUSAL_PLACE] = place;
    expected[STUMPGARRET_LIST_NEEDED] = needed;
    numbers_are("answer", answer, expected, COUNT(expected));
    filled("byte of the numbers", words, 0, lent * sizeof *words, 0);
    filled("byte of the numbers", words, lent * sizeof *words, sizeof words, FILL);
}

/* Two literals with a comment between them are listed, and what is listed is read. */
static void lists_two(void)
{
    static const char script[] = "x = ('VDD ' # it's mV\n\t Rf\"\"\"{mv}\"\"\")";
    static const uint32_t literals[] = {
        STUMPGARRET_STRING, 0, 6, 4, 5, 11,
        STUMPGARRET_RAW_FSTRING, 1, 29, 4, 24, 36,
    };
    static const uint32_t both[STUMPGARRET_ANSWER_NUMBERS] = {STUMPGARRET_ACCEPTED, 2, 36, 36};
    static const uint32_t second[STUMPGARRET_ANSWER_NUMBERS] = {STUMPGARRET_ACCEPTED, 1, 36, 36};
    size_t length = strlen(script);
    list_with(script, length, 5, WORDS);
    listed(both, literals);
    const uint32_t by_name[] = {
        answer[STUMPGARRET_ANSWER_NUMBER], answer[STUMPGARRET_LIST_LITERALS],
        answer[STUMPGARRET_LIST_END], answer[STUMPGARRET_LIST_STOP],
    };
    numbers_are("named number", by_name, both, COUNT(by_name));
    list_with(script, length, 24, WORDS);
    listed(second, literals + STUMPGARRET_LITERAL_NUMBERS);

    list_with(script, length, 5, COUNT(literals) - 1);
    not_listed(STUMPGARRET_TOO_LITTLE_LIST_ROOM, 0, COUNT(literals), COUNT(literals) - 1);
    list_with(script, length, 5, answer[STUMPGARRET_LIST_NEEDED]);
    listed(both, literals);

    uint32_t list[COUNT(literals)];
    memcpy(list, words, sizeof list);
    read_with(script, list, COUNT(list), WORDS, TEXT);
    static const uint32_t read[] = {STUMPGARRET_ACCEPTED, STUMPGARRET_JOINED, 0, 5, 36, 2, 6};
    numbers_are("answer", answer, read, COUNT(read));
}

/* What is refused, each by its name, and how long a script may be. */
static void refuses_scripts(void)
{
    static const struct {
        const char *script;
        uint32_t offset, number, place;
    } rows[] = {
        {"'a' f'b\\", 0, STUMPGARRET_NEVER_CLOSED, 4},
        {"'''a''", 0, STUMPGARRET_NEVER_CLOSED, 0},
        {"'a' u'b\n'", 0, STUMPGARRET_NEWLINE_IN_LITERAL, 4},
        {"ur'a'", 0, STUMPGARRET_NO_LITERAL, 0},
        {"'a'", 3, STUMPGARRET_NO_LITERAL, 3},
        {"'a'", UINT32_MAX, STUMPGARRET_NO_LITERAL, UINT32_MAX},
    };
    for (size_t i = 0; i < COUNT(rows); i++) {
        list_with(rows[i].script, strlen(rows[i].script), rows[i].offset, 12);
        not_listed(rows[i].number, rows[i].place, 0, 12);
    }
    enum { MOST = STUMPGARRET_MOST_SCRIPT_BYTES };
    static char script[MOST + 1];
    static const uint32_t one[STUMPGARRET_ANSWER_NUMBERS] = {STUMPGARRET_ACCEPTED, 1, MOST, MOST};
    static const uint32_t literal[] = {STUMPGARRET_STRING, 0, 1, MOST - 2, 0, MOST};
    memset(script, 'a', sizeof script);
    script[0] = script[MOST - 1] = '\'';
    list_with(script, MOST, 0, WORDS);
    listed(one, literal);
    list_with(script, MOST + 1, 0, 3);
    not_listed(STUMPGARRET_SCRIPT_TOO_LONG, 0, 0, 3);
}

/* Lists every literal of so many bytes with so many numbers lent, all filled before. */
static void cut_with(const void *script, size_t length, size_t lent)
{
    memset(words, FILL, sizeof words);
    memset(answer, FILL, sizeof answer);
    stumpgarret_cut((const uint8_t *)script, length, words, lent, answer);
}

/* Every literal of a script, what it ended with, and what is refused. */
static void cuts_whole(void)
{
    static const char script[] = "x = ('VDD ' # it's\n, Rf\"\"\"{mv}\"\"\")\ny = f'";
    static const uint32_t literals[] = {
        STUMPGARRET_STRING, 0, 6, 4, 5, 11,
        STUMPGARRET_RAW_FSTRING, 1, 26, 4, 21, 33,
    };
    static const uint32_t broken[STUMPGARRET_ANSWER_NUMBERS] = {
        STUMPGARRET_ACCEPTED, 2, 39, STUMPGARRET_NEVER_CLOSED,
    };
    static const uint32_t whole[STUMPGARRET_ANSWER_NUMBERS] = {STUMPGARRET_ACCEPTED, 2, 38, 0};
    cut_with(script, strlen(script), WORDS);
    listed(broken, literals);
    const uint32_t by_name[] = {
        answer[STUMPGARRET_ANSWER_NUMBER], answer[STUMPGARRET_CUT_LITERALS],
        answer[STUMPGARRET_CUT_TO], answer[STUMPGARRET_CUT_ENDED],
    };
    numbers_are("named number", by_name, broken, COUNT(by_name));
    cut_with(script, 38, COUNT(literals));
    listed(whole, literals);
    cut_with(script, 38, COUNT(literals) - 1);
    not_listed(STUMPGARRET_TOO_LITTLE_LIST_ROOM, 0, COUNT(literals), COUNT(literals) - 1);
    cut_with(script, 38, answer[STUMPGARRET_CUT_NEEDED]);
    listed(whole, literals);

    enum { MOST = STUMPGARRET_MOST_SCRIPT_BYTES };
    static char blank[MOST + 1];
    static const uint32_t none[STUMPGARRET_ANSWER_NUMBERS] = {STUMPGARRET_ACCEPTED, 0, MOST, 0};
    memset(blank, ' ', sizeof blank);
    cut_with(blank, MOST, 3);
    listed(none, NULL);
    cut_with(blank, MOST + 1, 3);
    not_listed(STUMPGARRET_SCRIPT_TOO_LONG, 0, 0, 3);
}

/* Lists the fields of so many bytes with so many numbers lent, all filled before. */
static void fields_with(const char *script, size_t length, size_t lent)
{
    memset(words, FILL, sizeof words);
    memset(answer, FILL, sizeof answer);
    stumpgarret_fields((const uint8_t *)script, length, words, lent, answer);
}

/* A list of these rows, and nothing else changed. */
static void fields_are(const char *script, const uint32_t *numbers, const uint32_t *rows)
{
    size_t used = STUMPGARRET_ROW_NUMBERS * (size_t)numbers[STUMPGARRET_FIELDS_ROWS];
    fields_with(script, strlen(script), WORDS);
    numbers_are("answer", answer, numbers, STUMPGARRET_ANSWER_NUMBERS);
    numbers_are("row", words, rows, used);
    filled("byte of the rows", words, used * sizeof *words, sizeof words, FILL);
}

/* Nothing is decoded: a field that only a coding line's codec shows is none, and no refusal tells it. */
static void decodes_nothing(void)
{
    static const uint32_t none[STUMPGARRET_ANSWER_NUMBERS] = {STUMPGARRET_ACCEPTED, 0, 0, 0, 34};
    static const uint32_t one[STUMPGARRET_ANSWER_NUMBERS] = {STUMPGARRET_ACCEPTED, 1, 0, 1, 22};
    static const uint32_t row[STUMPGARRET_ROW_NUMBERS] = {STUMPGARRET_REASON_NONE, 16, 19, 1, 0, 0, 0, 0, 21};
    fields_are("# coding: utf-7\n+AGYAJwB7AHgAfQAn-", none, NULL);
    fields_are("# coding: utf-7\nf'{x}'", one, row);
}

/* A refusal with how many rows are needed: zeros in what was lent. */
static void fields_refused(uint32_t number, uint32_t needed, size_t lent)
{
    uint32_t expected[STUMPGARRET_ANSWER_NUMBERS] = {0};
    expected[STUMPGARRET_ANSWER_NUMBER] = number;
    expected[STUMPGARRET_FIELDS_NEEDED] = needed;
    numbers_are("answer", answer, expected, COUNT(expected));
    filled("byte of the rows", words, 0, lent * sizeof *words, 0);
    filled("byte of the rows", words, lent * sizeof *words, sizeof words, FILL);
}

/* Adjacent literals, a comment's quote, a nested field, and an f-string in an expression. */
static void lists_fields(void)
{
    static const char script[] = "'VDD ' f'{mv:.{n}f}' # it's\nRF'''{x!r}{f\"{y=}\"}'''";
    static const uint32_t numbers[STUMPGARRET_ANSWER_NUMBERS] = {STUMPGARRET_ACCEPTED, 5, 0, 3, 50};
    static const uint32_t rows[] = {
        STUMPGARRET_REASON_NONE, 7, 10, 2, 0, 0, 0, 13, 19, 0,
        STUMPGARRET_REASON_NONE, 7, 15, 1, 0, 0, 0, 0, 17, 0,
        STUMPGARRET_REASON_WRITTEN, 28, 34, 1, 'r', 0, 36, 0, 38, 0,
        STUMPGARRET_REASON_NONE, 28, 39, 7, 0, 0, 0, 0, 47, 0,
        STUMPGARRET_REASON_REPR, 39, 42, 1, 'r', 44, 0, 0, 45, 4,
    };
    fields_are(script, numbers, rows);
    const uint32_t by_name[] = {
        answer[STUMPGARRET_ANSWER_NUMBER], answer[STUMPGARRET_FIELDS_ROWS],
        answer[STUMPGARRET_FIELDS_REFUSALS], answer[STUMPGARRET_FIELDS_LITERALS],
        answer[STUMPGARRET_FIELDS_CUT],
    };
    numbers_are("named number", by_name, numbers, COUNT(by_name));

    size_t length = strlen(script);
    fields_with(script, length, COUNT(rows) - 1);
    fields_refused(STUMPGARRET_TOO_LITTLE_LIST_ROOM, 5, COUNT(rows) - 1);
    size_t needed = STUMPGARRET_ROW_NUMBERS * (size_t)answer[STUMPGARRET_FIELDS_NEEDED];
    fields_with(script, length, needed);
    numbers_are("answer", answer, numbers, COUNT(numbers));
    numbers_are("row", words, rows, COUNT(rows));
    filled("byte of the rows", words, sizeof rows, sizeof words, FILL);
    fields_with(script, length, 0);
    fields_refused(STUMPGARRET_TOO_LITTLE_LIST_ROOM, 5, 0);
}

/* A word before a literal is told, unless Python 3.11 lets it stand there. */
static void lists_words(void)
{
    static const uint32_t numbers[STUMPGARRET_ANSWER_NUMBERS] = {STUMPGARRET_ACCEPTED, 3, 2, 4, 27};
    static const uint32_t rows[] = {
        STUMPGARRET_REASON_REFUSED, 1, 0, STUMPGARRET_UNKNOWN_PREFIX, 0, 0, 0, 0, 0, 0,
        STUMPGARRET_REASON_NONE, 19, 22, 3, 0, 0, 0, 0, 26, 0,
        STUMPGARRET_REASON_REFUSED, 23, 22, STUMPGARRET_UNKNOWN_PREFIX, 0, 0, 0, 0, 0, 2,
    };
    fields_are("t'{x}' 1if''else'' f'{t\"\"}'", numbers, rows);
}

/* A refused literal ends nothing, one that never closes ends the cut, and what Python reads otherwise is
   told. */
static void lists_refusals(void)
{
    static const uint32_t numbers[STUMPGARRET_ANSWER_NUMBERS] = {STUMPGARRET_ACCEPTED, 4, 3, 2, 16};
    static const uint32_t rows[] = {
        STUMPGARRET_REASON_REFUSED, 0, 6, STUMPGARRET_MISMATCHED_DELIMITER, '(', ']', 4, 0, 0, 0,
        STUMPGARRET_REASON_NONE, 8, 11, 3, 0, 0, 0, 0, 15, 0,
        STUMPGARRET_REASON_REFUSED, 16, 16, STUMPGARRET_NEWLINE_IN_LITERAL, 0, 0, 0, 0, 0, 0,
        STUMPGARRET_REASON_REFUSED, 8, 12, STUMPGARRET_READ_OTHERWISE, 0, 0, 0, 0, 0, 2,
    };
    fields_are("f'{(x]}'f'{x#y}'f'\nf'{z}'", numbers, rows);
    const uint32_t by_name[] = {
        words[STUMPGARRET_ROW_REASON],  words[STUMPGARRET_ROW_START],
        words[STUMPGARRET_ROW_PLACE],   words[STUMPGARRET_ROW_REFUSAL],
        words[STUMPGARRET_ROW_DETAIL_A], words[STUMPGARRET_ROW_DETAIL_B],
        words[STUMPGARRET_ROW_OPENED],  0,
        0,                              words[STUMPGARRET_ROW_WITHIN],
    };
    numbers_are("named number", by_name, rows, COUNT(by_name));

    enum { MOST = STUMPGARRET_MOST_SCRIPT_BYTES };
    static char script[MOST + 1];
    memset(script, ' ', sizeof script);
    memcpy(script + MOST - 6, "f'{x}'", 6);
    fields_with(script, MOST, WORDS);
    static const uint32_t one[STUMPGARRET_ANSWER_NUMBERS] = {STUMPGARRET_ACCEPTED, 1, 0, 1, MOST};
    numbers_are("answer", answer, one, COUNT(one));
    fields_with(script, MOST + 1, 3);
    fields_refused(STUMPGARRET_SCRIPT_TOO_LONG, 0, 3);
}

/* A file of names: a prefix of a name behind it, codes of four to six digits in either case, and lines
   without a name, one of them with a surrogate's code. */
#define FIELDS ";So;0;ON;;;;;N;;;;;\n"
#define SNOWMAN "2603;SNOWMAN" FIELDS
#define CONTROL "0000;<control>;Cc;0;BN;;;;;N;NULL;;;;\n"
#define SNAKE "01f40D;SNAKE" FIELDS
#define SURROGATE "D800;<Non Private Use High Surrogate, First>;Cs;0;L;;;;;N;;;;;\n"
#define COMET "02604;COMET" FIELDS
#define SNOW "2745;SNOW" FIELDS
static const char names_file[] = SNOWMAN CONTROL SNAKE SURROGATE COMET SNOW;
enum {
    SNOWMAN_AT = 0,
    SNAKE_AT = sizeof(SNOWMAN CONTROL) - 1,
    COMET_AT = sizeof(SNOWMAN CONTROL SNAKE SURROGATE) - 1,
    SNOW_AT = sizeof(SNOWMAN CONTROL SNAKE SURROGATE COMET) - 1,
    ENTRIES = 4
};
static const uint32_t names_index[ENTRIES] = {COMET_AT, SNAKE_AT, SNOW_AT, SNOWMAN_AT};

/* Builds the index of a file with so many numbers lent, all filled before. */
static void build_with(const char *file, size_t lent)
{
    memset(words, FILL, sizeof words);
    memset(answer, FILL, sizeof answer);
    stumpgarret_names_build((const uint8_t *)file, strlen(file), words, lent, answer);
}

/* An index of so many entries, and nothing else changed. */
static void built(const uint32_t *index, uint32_t entries)
{
    const uint32_t numbers[] = {STUMPGARRET_ACCEPTED, entries};
    numbers_are("answer", answer, numbers, COUNT(numbers));
    filled("byte of the answer", answer, sizeof numbers, sizeof answer, 0);
    numbers_are("number", words, index, entries);
    filled("byte of the index", words, entries * sizeof *words, sizeof words, FILL);
    if (answer[STUMPGARRET_NAMES_ENTRIES] != entries)
        fail("named number", STUMPGARRET_NAMES_ENTRIES, answer[STUMPGARRET_NAMES_ENTRIES], entries);
}

/* A number and zeros in the answer, zeros in so many of the words, and nothing else changed. */
static void names_refused(uint32_t number, size_t lent)
{
    numbers_are("answer", answer, &number, 1);
    filled("byte of the answer", answer, sizeof number, sizeof answer, 0);
    filled("byte of the words", words, 0, lent * sizeof *words, 0);
    filled("byte of the words", words, lent * sizeof *words, sizeof words, FILL);
}

/* Files that are refused whatever their index is. */
static const struct {
    const char *file;
    uint32_t number;
} bad_files[] = {
    {"\n", STUMPGARRET_LINE_MALFORMED},
    {"2603;SNOWMAN;So;0;ON;;;;;N;;;;;", STUMPGARRET_LINE_MALFORMED},
    {SNAKE "2603;SNOWMAN;So;0;ON;;;;;N;;;;;", STUMPGARRET_LINE_MALFORMED},
    {SNAKE "\n" SNOW, STUMPGARRET_LINE_MALFORMED},
    {"2603;SNOWMAN;So;0;ON;;;;;N;;;;\n", STUMPGARRET_LINE_MALFORMED},
    {"2603;SNOWMAN;So;0;ON;;;;;N;;;;;;\n", STUMPGARRET_LINE_MALFORMED},
    {"2603;" FIELDS, STUMPGARRET_LINE_MALFORMED},
    {"603;SNOWMAN" FIELDS, STUMPGARRET_LINE_MALFORMED},
    {"0002603;SNOWMAN" FIELDS, STUMPGARRET_LINE_MALFORMED},
    {"260G;SNOWMAN" FIELDS, STUMPGARRET_LINE_MALFORMED},
    {" 2603;SNOWMAN" FIELDS, STUMPGARRET_LINE_MALFORMED},
    {"D800;SNOWMAN" FIELDS, STUMPGARRET_LINE_MALFORMED},
    {"dfff;SNOWMAN" FIELDS, STUMPGARRET_LINE_MALFORMED},
    {"110000;SNOWMAN" FIELDS, STUMPGARRET_LINE_MALFORMED},
    {"26 3;<control>" FIELDS, STUMPGARRET_LINE_MALFORMED},
    {SNOWMAN SNOWMAN "\n", STUMPGARRET_LINE_MALFORMED},
    {SNOWMAN SNOWMAN, STUMPGARRET_NAME_TWICE},
    {SNOWMAN SNAKE COMET "2745;SNOWMAN" FIELDS, STUMPGARRET_NAME_TWICE},
};

static void builds_names(void)
{
    static const uint32_t first[] = {0};
    for (size_t lent = 0; lent < ENTRIES; lent++) {
        build_with(names_file, lent);
        names_refused(STUMPGARRET_TOO_LITTLE_INDEX_ROOM, lent);
    }
    for (size_t lent = ENTRIES; lent < ENTRIES + 3; lent++) {
        build_with(names_file, lent);
        built(names_index, ENTRIES);
    }
    build_with("", 0);
    built(names_index, 0);
    build_with("", 3);
    built(names_index, 0);
    build_with(CONTROL SURROGATE CONTROL, 0);
    built(names_index, 0);
    /* the least line with a name, for which twenty bytes of a file are counted */
    build_with("0000;A;;;;;;;;;;;;;\n", 20 / 20);
    built(first, 1);
    build_with("10FFFF;A;;;;;;;;;;;;;\n", 1);
    built(first, 1);
    for (size_t i = 0; i < COUNT(bad_files); i++)
        for (size_t lent = 0; lent < 4; lent++) {
            build_with(bad_files[i].file, lent);
            names_refused(bad_files[i].number, lent);
        }
}

/* The answer of a check, which writes nothing else. */
static void check_is(const char *file, const uint32_t *index, size_t entries, uint32_t number)
{
    const uint32_t expected[] = {number, number ? 0 : (uint32_t)entries};
    memset(answer, FILL, sizeof answer);
    stumpgarret_names_check((const uint8_t *)file, strlen(file), index, entries, answer);
    numbers_are("answer", answer, expected, COUNT(expected));
    filled("byte of the answer", answer, sizeof expected, sizeof answer, 0);
}

static void checks_names(void)
{
    uint32_t index[ENTRIES + 1];
    memcpy(index, names_index, sizeof names_index);
    index[ENTRIES] = 0;
    check_is(names_file, index, ENTRIES, STUMPGARRET_ACCEPTED);
    check_is(names_file, index, ENTRIES + 1, STUMPGARRET_WRONG_INDEX);
    check_is(names_file, index, ENTRIES - 1, STUMPGARRET_WRONG_INDEX);
    check_is(names_file, index, 0, STUMPGARRET_WRONG_INDEX);
    check_is("", index, 0, STUMPGARRET_ACCEPTED);
    check_is("", index, 1, STUMPGARRET_WRONG_INDEX);
    check_is(CONTROL, index, 0, STUMPGARRET_ACCEPTED);
    check_is(CONTROL, index, 1, STUMPGARRET_WRONG_INDEX);
    for (size_t i = 0; i < ENTRIES; i++) {
        static const uint32_t wrong[] = {1, sizeof SNOWMAN - 1, sizeof names_file, UINT32_MAX};
        for (size_t j = 0; j < COUNT(wrong); j++) {
            index[i] = wrong[j];
            check_is(names_file, index, ENTRIES, STUMPGARRET_WRONG_INDEX);
        }
        index[i] = names_index[(i + 1) % ENTRIES];
        check_is(names_file, index, ENTRIES, STUMPGARRET_WRONG_INDEX);
        index[(i + 1) % ENTRIES] = names_index[i];
        check_is(names_file, index, ENTRIES, STUMPGARRET_WRONG_INDEX);
        memcpy(index, names_index, sizeof names_index);
    }
    check_is(names_file, index, ENTRIES, STUMPGARRET_ACCEPTED);
    for (size_t i = 0; i < COUNT(bad_files); i++)
        for (size_t entries = 0; entries < ENTRIES; entries++)
            check_is(bad_files[i].file, index, entries, bad_files[i].number);
}

/* Offsets of 32 bits do not reach every byte of such a file, which is not looked at. */
static void refuses_long_files(void)
{
    size_t length = (size_t)1 << 32;
    void *whole = mmap(NULL, length, PROT_NONE, MAP_PRIVATE | MAP_ANONYMOUS | MAP_NORESERVE, -1, 0);
    if (whole == MAP_FAILED) {
        perror("test: 2^32 bytes");
        exit(1);
    }
    const uint8_t *file = (const uint8_t *)whole;
    static const uint32_t literal[] = {STUMPGARRET_FSTRING, 0, 0, 0, 0, 3};
    memset(words, FILL, sizeof words);
    memset(text, FILL, sizeof text);
    memset(answer, FILL, sizeof answer);
    stumpgarret_names_build(file, length, words, 3, answer);
    names_refused(STUMPGARRET_TOO_LITTLE_INDEX_ROOM, 3);
    check_is("", words, 3, STUMPGARRET_WRONG_INDEX);
    memset(answer, FILL, sizeof answer);
    stumpgarret_names_check(file, length, words, 0, answer);
    names_refused(STUMPGARRET_WRONG_INDEX, 3);
    memset(answer, FILL, sizeof answer);
    stumpgarret_read_named(file, 0, literal, COUNT(literal), file, length, literal, 0, words, 8, text,
                           2, answer);
    names_refused(STUMPGARRET_WRONG_INDEX, 8);
    filled("text byte", text, 0, 2, 0);
    memset(answer, FILL, sizeof answer);
    stumpgarret_fields_named(file, 0, file, length, literal, 0, words, 10, answer);
    names_refused(STUMPGARRET_WRONG_INDEX, 10);
    munmap(whole, length);
}

typedef void reading(const uint8_t *, size_t, const uint32_t *, size_t, const uint8_t *, size_t,
                     const uint32_t *, size_t, uint32_t *, size_t, uint8_t *, size_t, uint32_t *);

/* Reads with a file of names, with so many words and text bytes lent, all filled before. */
static void named_with(reading *call, const char *script, const uint32_t *literals,
                       size_t literals_length, const char *file, const uint32_t *index,
                       size_t entries, size_t words_length, size_t text_length)
{
    memset(words, FILL, sizeof words);
    memset(text, FILL, sizeof text);
    memset(answer, FILL, sizeof answer);
    call((const uint8_t *)script, strlen(script), literals, literals_length, (const uint8_t *)file,
         strlen(file), index, entries, words, words_length, text, text_length, answer);
}

static void reads_named(void)
{
    static const char script[] = "'\\N{SNOW}' f'\\N{SNAKE}{x}\\N{COMET}'";
    static const uint32_t literals[] = {
        STUMPGARRET_STRING, 0, 1, 8, 0, 10,
        STUMPGARRET_FSTRING, 0, 13, 21, 11, 35,
    };
    static const uint32_t numbers[STUMPGARRET_ANSWER_NUMBERS] = {
        STUMPGARRET_ACCEPTED, STUMPGARRET_JOINED, 0, 0, 35, 3, 11, 0, 29,
    };
    static const uint32_t records[] = {
        STUMPGARRET_LITERAL_RECORD, 0, 7, 0, 35, 0, 0, 0,
        STUMPGARRET_FIELD_RECORD, 7, 1, 11, 35, 0, 0, 23,
        STUMPGARRET_LITERAL_RECORD, 8, 3, 0, 35, 0, 0, 0,
    };
    static const char read[] = "\xe2\x9d\x85\xf0\x9f\x90\x8dx\xe2\x98\x84";
    static const uint32_t not_held[] = {STUMPGARRET_NAME_NOT_HELD, 0, 4, 0, 0, 0, 0, 3, 3};
    static const uint32_t no_places[] = {
        STUMPGARRET_TOO_FEW_RECORD_PLACES, 0, 0, 3, 11, 0, 0, 0, 29,
    };
    static const uint32_t no_text[] = {
        STUMPGARRET_TOO_LITTLE_TEXT_ROOM, 0, 0, 3, 11, 0, 0, 0, 29,
    };
    reading *const calls[] = {stumpgarret_read_named, stumpgarret_read_searched};
    for (size_t i = 0; i < COUNT(calls); i++) {
        named_with(calls[i], script, literals, COUNT(literals), names_file, names_index, ENTRIES,
                   WORDS, TEXT);
        accepted(numbers, records, read);
        named_with(calls[i], script, literals, COUNT(literals), names_file, names_index, ENTRIES, 23,
                   11);
        refused(no_places, COUNT(no_places), 23, 11);
        named_with(calls[i], script, literals, COUNT(literals), names_file, names_index, ENTRIES, 24,
                   10);
        refused(no_text, COUNT(no_text), 24, 10);
        /* a name of the constant list that the file does not have, small letters, and no file */
        static const uint32_t degree[] = {STUMPGARRET_STRING, 0, 1, 15, 0, 17};
        named_with(calls[i], "'\\N{DEGREE SIGN}'", degree, COUNT(degree), names_file, names_index,
                   ENTRIES, 8, 3);
        refused(not_held, COUNT(not_held), 8, 3);
        static const uint32_t small[] = {STUMPGARRET_STRING, 0, 1, 8, 0, 10};
        named_with(calls[i], "'\\N{snow}'", small, COUNT(small), names_file, names_index, ENTRIES, 8,
                   3);
        refused(not_held, COUNT(not_held), 8, 3);
        named_with(calls[i], script, literals, COUNT(literals), "", names_index, 0, 8, 3);
        refused(not_held, COUNT(not_held), 8, 3);
    }
    read_with(script, literals, COUNT(literals), 8, 3);
    refused(not_held, COUNT(not_held), 8, 3);
}

/* A body asks for a name of at most 88 bytes, whatever the file has. */
static void reads_long_names(void)
{
    char file[128], script[128];
    for (size_t length = 87; length < 90; length++) {
        memset(file, 'A', sizeof file);
        memcpy(file, "2603;", 5);
        memcpy(file + 5 + length, FIELDS, sizeof FIELDS);
        memset(script, 'A', sizeof script);
        memcpy(script, "'\\N{", 4);
        memcpy(script + 4 + length, "}'", 3);
        uint32_t body = (uint32_t)length + 4, place = body + 1;
        const uint32_t literal[] = {STUMPGARRET_STRING, 0, 1, body, 0, body + 2}, index[] = {0};
        const uint32_t one[STUMPGARRET_ANSWER_NUMBERS] = {
            STUMPGARRET_ACCEPTED, STUMPGARRET_PLAIN, 0, 0, body + 2, 1, 3, 0, body,
        };
        const uint32_t record[] = {STUMPGARRET_LITERAL_RECORD, 0, 3, 0, body + 2, 0, 0, 0};
        const uint32_t too_long[] = {STUMPGARRET_UNICODE_ERROR, 0, place, 0, 0, 0, 0, body, body};
        named_with(stumpgarret_read_named, script, literal, COUNT(literal), file, index, 1, WORDS,
                   TEXT);
        if (length <= 88)
            accepted(one, record, "\xe2\x98\x83");
        else
            refused(too_long, COUNT(too_long), WORDS, TEXT);
    }
}

/* A search takes a file that is refused, and an index that is not the file's. */
static void searches_unchecked(void)
{
    static const struct {
        const char *file;
        uint32_t index[2];
        size_t entries;
    } rows[] = {
        {SNOW "no line", {0, 0}, 1},
        {"2745;SNOW", {0, 0}, 1},
        {SNOW SNOW, {sizeof SNOW - 1, 0}, 2},
        {SNOW COMET, {0, 0}, 1},
        {COMET SNOW, {UINT32_MAX, sizeof COMET - 1}, 2},
    };
    static const uint32_t literal[] = {STUMPGARRET_STRING, 0, 1, 8, 0, 10};
    static const uint32_t numbers[STUMPGARRET_ANSWER_NUMBERS] = {
        STUMPGARRET_ACCEPTED, STUMPGARRET_PLAIN, 0, 0, 10, 1, 3, 0, 8,
    };
    static const uint32_t record[] = {STUMPGARRET_LITERAL_RECORD, 0, 3, 0, 10, 0, 0, 0};
    for (size_t i = 0; i < COUNT(rows); i++) {
        named_with(stumpgarret_read_searched, "'\\N{SNOW}'", literal, COUNT(literal), rows[i].file,
                   rows[i].index, rows[i].entries, WORDS, TEXT);
        accepted(numbers, record, "\xe2\x9d\x85");
        named_with(stumpgarret_read_named, "'\\N{SNOW}'", literal, COUNT(literal), rows[i].file,
                   rows[i].index, rows[i].entries, WORDS, TEXT);
        if (answer[STUMPGARRET_ANSWER_NUMBER] < STUMPGARRET_LINE_MALFORMED)
            fail("number of row", i, answer[STUMPGARRET_ANSWER_NUMBER], STUMPGARRET_WRONG_INDEX);
    }
}

/* What a reading with names gives is what the check says of file and index, after the entry checks, and
   else what a search gives. */
static void named_is_checked_and_searched(void)
{
    static const char *const files[] = {
        names_file, SNOWMAN, SNOW, "", CONTROL, SNOWMAN SNOWMAN, "\n", "2603;SNOWMAN", SNAKE "x",
    };
    static const uint32_t indexes[][ENTRIES] = {
        {COMET_AT, SNAKE_AT, SNOW_AT, SNOWMAN_AT},
        {SNOWMAN_AT, SNAKE_AT, SNOW_AT, COMET_AT},
        {0, 0, 0, 0},
        {5, UINT32_MAX, sizeof SNOWMAN - 1, 1},
    };
    static const struct {
        uint32_t kind, start;
        const char *body;
    } bodies[] = {
        {STUMPGARRET_STRING, 0, "\\N{SNOWMAN}"},
        {STUMPGARRET_FSTRING, 0, "{x}\\N{SNOW}\\N{COMET}"},
        {STUMPGARRET_FSTRING, 0, "{x:{y}\\N{SNAKE}}"},
        {STUMPGARRET_FSTRING, 0, "{x}"},
        {STUMPGARRET_STRING, 0, "\\N{OHM SIGN}"},
        {STUMPGARRET_STRING, 0, "\\N{}"},
        {STUMPGARRET_BYTES, 0, "\\N{SNOW}"},
        {STUMPGARRET_RAW_STRING, 0, "\\N{SNOW}"},
        {STUMPGARRET_STRING, 0, "\\N{SNOW"},
        {STUMPGARRET_FSTRING, 0, "}"},
        {STUMPGARRET_STRING, 0, ""},
        {STUMPGARRET_STRING, 0, "\xff"},
        {STUMPGARRET_STRING, 9, "a"},
        {7, 0, "a"},
    };
    static const size_t rooms[][2] = {{0, 0}, {7, 64}, {16, 3}, {64, 64}};
    static uint32_t searched_words[WORDS], searched_answer[STUMPGARRET_ANSWER_NUMBERS];
    static uint8_t searched_text[TEXT];
    int seen[STUMPGARRET_UNKNOWN_PREFIX] = {0};
    for (size_t f = 0; f < COUNT(files); f++)
    for (size_t x = 0; x < COUNT(indexes); x++)
    for (size_t entries = 0; entries <= ENTRIES; entries++)
    for (size_t b = 0; b < COUNT(bodies); b++)
    for (size_t r = 0; r < COUNT(rooms); r++) {
        const char *body = bodies[b].body;
        uint32_t length = (uint32_t)strlen(body);
        const uint32_t literal[] = {bodies[b].kind, 0, 0, length, bodies[b].start, length + 3};
        size_t words_length = rooms[r][0], text_length = rooms[r][1];
        stumpgarret_names_check((const uint8_t *)files[f], strlen(files[f]), indexes[x], entries,
                                answer);
        uint32_t checked = answer[STUMPGARRET_ANSWER_NUMBER];
        named_with(stumpgarret_read_searched, body, literal, COUNT(literal), files[f], indexes[x],
                   entries, words_length, text_length);
        memcpy(searched_words, words, sizeof words);
        memcpy(searched_text, text, sizeof text);
        memcpy(searched_answer, answer, sizeof answer);
        uint32_t searched = answer[STUMPGARRET_ANSWER_NUMBER];
        if (searched >= STUMPGARRET_LINE_MALFORMED)
            fail("number of a search in file", f, searched, STUMPGARRET_NAME_NOT_HELD);
        named_with(stumpgarret_read_named, body, literal, COUNT(literal), files[f], indexes[x],
                   entries, words_length, text_length);
        seen[answer[STUMPGARRET_ANSWER_NUMBER]] = 1;
        if (checked && (searched < STUMPGARRET_EMPTY_LIST || searched > STUMPGARRET_MIXED_BYTES)) {
            refused(&checked, 1, words_length, text_length);
            continue;
        }
        numbers_are("answer", answer, searched_answer, COUNT(searched_answer));
        numbers_are("word", words, searched_words, WORDS);
        for (size_t i = 0; i < TEXT; i++)
            if (text[i] != searched_text[i])
                fail("text byte", i, text[i], searched_text[i]);
    }
    static const uint32_t met[] = {
        STUMPGARRET_ACCEPTED, STUMPGARRET_BAD_DESCRIPTOR, STUMPGARRET_NOT_UTF8,
        STUMPGARRET_STRING_ERROR, STUMPGARRET_NAME_NOT_HELD, STUMPGARRET_SINGLE_RBRACE,
        STUMPGARRET_TOO_FEW_RECORD_PLACES, STUMPGARRET_TOO_LITTLE_TEXT_ROOM,
        STUMPGARRET_LINE_MALFORMED, STUMPGARRET_NAME_TWICE, STUMPGARRET_WRONG_INDEX,
    };
    for (size_t i = 0; i < COUNT(met); i++)
        if (!seen[met[i]])
            fail("number", met[i], 0, 1);
}

/* Lists the fields of so many bytes with a file of names and so many numbers lent, all filled before. */
static void fields_named_with(const char *script, size_t length, const char *file,
                              const uint32_t *index, size_t entries, size_t lent)
{
    memset(words, FILL, sizeof words);
    memset(answer, FILL, sizeof answer);
    stumpgarret_fields_named((const uint8_t *)script, length, (const uint8_t *)file, strlen(file),
                             index, entries, words, lent, answer);
}

static void lists_fields_named(void)
{
    static const char script[] = "f'{x}\\N{SNOWMAN}{f\"\\N{SNOW}{y}\"}' '\\N{}' f'\\N{OHM SIGN}'";
    size_t length = strlen(script);
    static const uint32_t numbers[STUMPGARRET_ANSWER_NUMBERS] = {STUMPGARRET_ACCEPTED, 5, 2, 3, 56};
    static const uint32_t rows[] = {
        STUMPGARRET_REASON_NONE, 0, 3, 1, 0, 0, 0, 0, 5, 0,
        STUMPGARRET_REASON_NONE, 0, 17, 14, 0, 0, 0, 0, 32, 0,
        STUMPGARRET_REASON_REFUSED, 41, 46, STUMPGARRET_NAME_NOT_HELD, 0, 0, 0, 0, 0, 0,
        STUMPGARRET_REASON_REFUSED, 0, 19, STUMPGARRET_READ_OTHERWISE, 0, 0, 0, 0, 0, 2,
        STUMPGARRET_REASON_NONE, 17, 28, 1, 0, 0, 0, 0, 30, 2,
    };
    fields_named_with(script, length, names_file, names_index, ENTRIES, WORDS);
    numbers_are("answer", answer, numbers, COUNT(numbers));
    numbers_are("row", words, rows, COUNT(rows));
    filled("byte of the rows", words, sizeof rows, sizeof words, FILL);
    fields_named_with(script, length, names_file, names_index, ENTRIES, COUNT(rows) - 1);
    fields_refused(STUMPGARRET_TOO_LITTLE_LIST_ROOM, 5, COUNT(rows) - 1);

    /* without the file the constant list, and with an empty one none */
    static const uint32_t held[STUMPGARRET_ANSWER_NUMBERS] = {STUMPGARRET_ACCEPTED, 1, 1, 3, 56};
    static const uint32_t none[STUMPGARRET_ANSWER_NUMBERS] = {STUMPGARRET_ACCEPTED, 2, 2, 3, 56};
    fields_with(script, length, WORDS);
    numbers_are("answer", answer, held, COUNT(held));
    fields_named_with(script, length, "", names_index, 0, WORDS);
    numbers_are("answer", answer, none, COUNT(none));

    for (size_t i = 0; i < COUNT(bad_files); i++) {
        fields_named_with(script, length, bad_files[i].file, names_index, 1, 40);
        names_refused(bad_files[i].number, 40);
    }
    for (size_t entries = 0; entries < ENTRIES; entries++) {
        fields_named_with("", 0, names_file, names_index, entries, 40);
        names_refused(STUMPGARRET_WRONG_INDEX, 40);
    }
    static char longest[STUMPGARRET_MOST_SCRIPT_BYTES + 1];
    memset(longest, ' ', sizeof longest);
    fields_named_with(longest, sizeof longest, "\n", names_index, 0, 3);
    fields_refused(STUMPGARRET_SCRIPT_TOO_LONG, 0, 3);
    fields_named_with(longest, sizeof longest - 1, "\n", names_index, 0, 3);
    names_refused(STUMPGARRET_LINE_MALFORMED, 3);

    /* a script that asks for no name */
    static const char plain[] = "'VDD ' f'{mv:.{n}f}' rf'\\N{SNOW}' f'{(]}' f'{z";
    static uint32_t expected[WORDS], expected_answer[STUMPGARRET_ANSWER_NUMBERS];
    fields_with(plain, strlen(plain), WORDS);
    memcpy(expected, words, sizeof words);
    memcpy(expected_answer, answer, sizeof answer);
    fields_named_with(plain, strlen(plain), names_file, names_index, ENTRIES, WORDS);
    numbers_are("answer", answer, expected_answer, COUNT(expected_answer));
    numbers_are("word", words, expected, WORDS);
}

/* Tells the parts of a spec: its numbers, and zeros up to twelve. */
static void spec_is(const char *spec, size_t length, const uint32_t *numbers, size_t count)
{
    memset(answer, FILL, sizeof answer);
    stumpgarret_spec((const uint8_t *)spec, length, answer);
    numbers_are("answer", answer, numbers, count);
    filled("byte of the answer", answer, count * sizeof *answer, sizeof answer, 0);
}

static void tells_specs(void)
{
    static const struct {
        const char *spec;
        uint32_t numbers[STUMPGARRET_ANSWER_NUMBERS];
    } specs[] = {
        {"", {STUMPGARRET_ACCEPTED}},
        {"d", {STUMPGARRET_ACCEPTED, 0, 0, 0, 0, 0, 0, 0, 0, 0, 'd', 0}},
        {"*^+z#064,.3f", {STUMPGARRET_ACCEPTED, '*', '^', '+', 1, 1, 1, 65, ',', 4, 'f', 1}},
        {"\xe2\x98\x83= _x", {STUMPGARRET_ACCEPTED, 0x2603, '=', ' ', 0, 0, 0, 0, '_', 0, 'x', 0}},
        {"<<", {STUMPGARRET_ACCEPTED, '<', '<', 0, 0, 0, 0, 0, 0, 0, 0, 0}},
        {"00", {STUMPGARRET_ACCEPTED, 0, 0, 0, 0, 0, 1, 1, 0, 0, 0, 0}},
        {".0", {STUMPGARRET_ACCEPTED, 0, 0, 0, 0, 0, 0, 0, 0, 1, 0, 1}},
        {".2s", {STUMPGARRET_ACCEPTED, 0, 0, 0, 0, 0, 0, 0, 0, 3, 's', 0}},
        {"4294967293", {STUMPGARRET_ACCEPTED, 0, 0, 0, 0, 0, 0, 4294967294u, 0, 0, 0, 0}},
        {"99999999999", {STUMPGARRET_ACCEPTED, 0, 0, 0, 0, 0, 0, UINT32_MAX, 0, 0, 0, 0}},
    };
    for (size_t i = 0; i < COUNT(specs); i++)
        spec_is(specs[i].spec, strlen(specs[i].spec), specs[i].numbers, COUNT(specs[i].numbers));
    static const uint32_t not_of_grammar[] = {STUMPGARRET_NOT_OF_GRAMMAR};
    static const char *const none[] = {"q", "5 ", ".", "dd", ">>>", "__", "5,_", "\xff", "\xd9\xa5"};
    for (size_t i = 0; i < COUNT(none); i++)
        spec_is(none[i], strlen(none[i]), not_of_grammar, 1);
    static const uint32_t nul[] = {STUMPGARRET_ACCEPTED, 0, '>', 0, 0, 0, 0, 6};
    spec_is("\0>5", 3, nul, COUNT(nul));

    spec_is("*^+z#064,.3f", 12, specs[2].numbers, COUNT(specs[2].numbers));
    const uint32_t by_name[] = {
        answer[STUMPGARRET_ANSWER_NUMBER],  answer[STUMPGARRET_SPEC_FILL],
        answer[STUMPGARRET_SPEC_ALIGN],     answer[STUMPGARRET_SPEC_SIGN],
        answer[STUMPGARRET_SPEC_Z],         answer[STUMPGARRET_SPEC_ALTERNATE],
        answer[STUMPGARRET_SPEC_ZERO],      answer[STUMPGARRET_SPEC_WIDTH],
        answer[STUMPGARRET_SPEC_GROUPING],  answer[STUMPGARRET_SPEC_PRECISION],
        answer[STUMPGARRET_SPEC_TYPE],      answer[STUMPGARRET_SPEC_ROUNDS],
    };
    numbers_are("named number", by_name, specs[2].numbers, COUNT(by_name));
}

enum { OUTPUT = 256 };

static uint8_t output[OUTPUT];

/* Replays a trace through the f-string that a script is, with so much lent, all filled before. */
static void replay_with(const char *script, const char *trace, size_t words_length,
                        size_t text_length, size_t output_length)
{
    uint32_t length = (uint32_t)strlen(script);
    const uint32_t literal[] = {STUMPGARRET_FSTRING, 0, 2, length - 3, 0, length};
    memset(words, FILL, sizeof words);
    memset(text, FILL, sizeof text);
    memset(output, FILL, sizeof output);
    memset(answer, FILL, sizeof answer);
    stumpgarret_replay((const uint8_t *)script, length, literal, COUNT(literal),
                       (const uint8_t *)trace, strlen(trace), words, words_length, text,
                       text_length, output, output_length, answer);
}

/* A refusal with these numbers: zeros in all that was lent, and nothing else changed. */
static void replay_refused(const uint32_t *numbers, size_t count, size_t words_length,
                           size_t text_length, size_t output_length)
{
    refused(numbers, count, words_length, text_length);
    filled("byte of the output", output, 0, output_length, 0);
    filled("byte of the output", output, output_length, sizeof output, FILL);
}

static void replays(void)
{
    static const char script[] = "f'VDD {mv:>6,} mV {code:#06x}'";
    static const char trace[] = "1234,255\r\n\"-1\",0";
    static const char lines[] = "VDD  1,234 mV 0x00ff\nVDD     -1 mV 0x0000\n";
    size_t size = strlen(lines);
    static const uint32_t records[] = {
        STUMPGARRET_LITERAL_RECORD, 0, 4, 0, 30, 0, 0, 0,
        STUMPGARRET_FIELD_RECORD, 4, 2, 0, 30, 0, 1, 7,
        STUMPGARRET_SPEC_RECORD, 6, 0, 0, 30, 0, 1, 0,
        STUMPGARRET_LITERAL_RECORD, 6, 3, 0, 30, 0, 0, 0,
        STUMPGARRET_LITERAL_RECORD, 9, 4, 0, 30, 0, 0, 0,
        STUMPGARRET_FIELD_RECORD, 13, 4, 0, 30, 0, 1, 19,
        STUMPGARRET_SPEC_RECORD, 17, 0, 0, 30, 0, 1, 0,
        STUMPGARRET_LITERAL_RECORD, 17, 4, 0, 30, 0, 0, 0,
    };
    const uint32_t numbers[STUMPGARRET_ANSWER_NUMBERS] = {
        STUMPGARRET_ACCEPTED, STUMPGARRET_JOINED, 0, 0, 30, 8, 21, 0, 27, 2, (uint32_t)size,
    };
    for (size_t room = size; room <= OUTPUT; room += OUTPUT - size) {
        replay_with(script, trace, WORDS, TEXT, room);
        accepted(numbers, records, "VDD mv>6, mV code#06x");
        for (size_t i = 0; i < size; i++)
            if (output[i] != (uint8_t)lines[i])
                fail("byte of the output", i, output[i], (uint8_t)lines[i]);
        filled("byte of the output", output, size, sizeof output, FILL);
    }
    if (answer[STUMPGARRET_REPLAY_ROWS] != 2 || answer[STUMPGARRET_REPLAY_BYTES] != size)
        fail("number", STUMPGARRET_REPLAY_ROWS, answer[STUMPGARRET_REPLAY_ROWS], 2);

    /* the reading's own refusals, and 73 with what is needed */
    static const uint32_t places[] = {
        STUMPGARRET_TOO_FEW_RECORD_PLACES, 0, 0, 8, 21, 0, 0, 0, 27,
    };
    replay_with(script, trace, 63, TEXT, size);
    replay_refused(places, COUNT(places), 63, TEXT, size);
    static const uint32_t brace[] = {STUMPGARRET_SINGLE_RBRACE, 0, 6, 0, 0, 0, 0, 4, 4};
    replay_with("f'{x}}'", "q", WORDS, TEXT, 9);
    replay_refused(brace, COUNT(brace), WORDS, TEXT, 9);
    const uint32_t room[] = {
        STUMPGARRET_TOO_LITTLE_LINE_ROOM, 0, 0, 0, 0, 0, 0, 0, 0, (uint32_t)size,
    };
    for (size_t lent = 0; lent < size; lent++) {
        replay_with(script, trace, WORDS, TEXT, lent);
        replay_refused(room, COUNT(room), WORDS, TEXT, lent);
    }

    /* no row, and no field */
    static const uint32_t nothing[STUMPGARRET_ANSWER_NUMBERS] = {
        STUMPGARRET_ACCEPTED, STUMPGARRET_JOINED, 0, 0, 6, 1, 1, 0, 3, 0, 0,
    };
    static const uint32_t record[] = {STUMPGARRET_FIELD_RECORD, 0, 1, 0, 6, 0, 0, 3};
    replay_with("f'{x}'", "", WORDS, TEXT, 0);
    accepted(nothing, record, "x");
    filled("byte of the output", output, 0, sizeof output, FILL);
}

static void refuses_replays(void)
{
    static const struct {
        const char *script, *trace;
        uint32_t number, told;
    } rows[] = {
        {"f'{x:q}'", "q", STUMPGARRET_NOT_OF_GRAMMAR, 0},
        {"f'{x}{y!r:q}'", "q", STUMPGARRET_NOT_OF_GRAMMAR, 1},
        {"f'{x}{y:{w}q}{z:q}'", "q", STUMPGARRET_OUTSIDE_SET, 1},
        {"f'{x!s}'", "q", STUMPGARRET_OUTSIDE_SET, 0},
        {"f'{x=}'", "1", STUMPGARRET_OUTSIDE_SET, 0},
        {"f'{x:65}'", "1", STUMPGARRET_OUTSIDE_SET, 0},
        {"f'{x:f}'", "1", STUMPGARRET_OUTSIDE_SET, 0},
        {"f'{x:.1}'", "1", STUMPGARRET_OUTSIDE_SET, 0},
        {"f'{x:,x}'", "1", STUMPGARRET_OUTSIDE_SET, 0},
        {"f'{x:zd}'", "1", STUMPGARRET_OUTSIDE_SET, 0},
        {"f'{x}'", "1\r\n2\n3", STUMPGARRET_ROW_MALFORMED, 1},
        {"f'{x}'", "1\r2", STUMPGARRET_ROW_MALFORMED, 0},
        {"f'{x}'", "\r\n", STUMPGARRET_ROW_MALFORMED, 0},
        {"f'{x}'", "1\r\n\r\n", STUMPGARRET_ROW_MALFORMED, 1},
        {"f'{x}'", "99999999999,", STUMPGARRET_ROW_MALFORMED, 0},
        {"f'{x}'", "+1", STUMPGARRET_ROW_MALFORMED, 0},
        {"f'{x}'", "\"1", STUMPGARRET_ROW_MALFORMED, 0},
        {"f'{x}'", "1\r\n2\r\n99999999999,3\r\nq", STUMPGARRET_WRONG_COLUMNS, 2},
        {"f''", "1", STUMPGARRET_WRONG_COLUMNS, 0},
        {"f'{x}'", "2147483647\r\n-2147483648\r\n2147483648", STUMPGARRET_OUT_OF_RANGE, 2},
        {"f'{x}'", "-2147483649", STUMPGARRET_OUT_OF_RANGE, 0},
    };
    for (size_t i = 0; i < COUNT(rows); i++) {
        const uint32_t numbers[] = {rows[i].number, 0, 0, 0, 0, 0, 0, 0, 0, rows[i].told};
        replay_with(rows[i].script, rows[i].trace, WORDS, TEXT, OUTPUT);
        replay_refused(numbers, COUNT(numbers), WORDS, TEXT, OUTPUT);
    }
}

/* What one reading left: its words, its text and its numbers. */
struct revision {
    uint32_t words[WORDS], numbers[STUMPGARRET_ANSWER_NUMBERS];
    uint8_t text[TEXT];
};

static struct revision read_alone(const char *script, uint32_t kind, uint32_t prefix)
{
    struct revision left;
    uint32_t length = (uint32_t)strlen(script);
    const uint32_t literal[] = {kind, 0, prefix + 1, length - prefix - 2, 0, length};
    memset(&left, FILL, sizeof left);
    stumpgarret_read((const uint8_t *)script, length, literal, COUNT(literal), left.words, WORDS,
                     left.text, TEXT, left.numbers);
    return left;
}

static uint32_t list[WORDS];

/* Compares two readings with so much room: these twelve numbers, the list, and nothing else changed. */
static void compare_with(const struct revision *a, const struct revision *b, size_t room,
                         const uint32_t *numbers, size_t count, const uint32_t *middles)
{
    memset(list, FILL, sizeof list);
    memset(answer, FILL, sizeof answer);
    stumpgarret_compare(a->words, WORDS, a->text, TEXT, a->numbers, b->words, WORDS, b->text, TEXT,
                        b->numbers, list, room, answer);
    numbers_are("answer", answer, numbers, count);
    filled("byte of the answer", answer, count * sizeof *answer, sizeof answer, 0);
    size_t written = answer[STUMPGARRET_COMPARE_FIRST_MIDDLE] + answer[STUMPGARRET_COMPARE_SECOND_MIDDLE];
    if (answer[STUMPGARRET_ANSWER_NUMBER]) {
        filled("byte of the list", list, 0, room * sizeof *list, 0);
        written = room;
    } else {
        numbers_are("list", list, middles, written);
    }
    filled("byte of the list", list, written * sizeof *list, sizeof list, FILL);
}

static void compares(void)
{
    struct revision old = read_alone("f'VDD {mv:>6,} mV {code:#06x}'", STUMPGARRET_FSTRING, 1);
    struct revision edited = read_alone("f'VDD {mv:>8,}{unit!r} {code:#06x}'", STUMPGARRET_FSTRING, 1);
    static const uint32_t numbers[] = {STUMPGARRET_ACCEPTED, 1, 1, 4, 5, 2, 3};
    static const uint32_t middles[] = {1, 2, 1, 2, 3};
    compare_with(&old, &edited, 5, numbers, COUNT(numbers), middles);
    compare_with(&old, &edited, WORDS, numbers, COUNT(numbers), middles);
    static const uint32_t other_way[] = {STUMPGARRET_ACCEPTED, 1, 1, 5, 4, 3, 2};
    static const uint32_t other_middles[] = {1, 2, 3, 1, 2};
    compare_with(&edited, &old, WORDS, other_way, COUNT(other_way), other_middles);
    static const uint32_t same[] = {STUMPGARRET_ACCEPTED, 4, 0, 4, 4, 0, 0};
    compare_with(&old, &old, 0, same, COUNT(same), NULL);

    /* the sort does not count, a bytes record is no literal, and it need not be UTF-8 */
    struct revision plain = read_alone("'ab'", STUMPGARRET_STRING, 0);
    struct revision joined = read_alone("f'ab'", STUMPGARRET_FSTRING, 1);
    struct revision bytes = read_alone("b'\\xff'", STUMPGARRET_BYTES, 1);
    static const uint32_t one[] = {STUMPGARRET_ACCEPTED, 1, 0, 1, 1, 0, 0};
    compare_with(&plain, &joined, 0, one, COUNT(one), NULL);
    compare_with(&bytes, &bytes, 0, one, COUNT(one), NULL);
    static const uint32_t none[] = {STUMPGARRET_ACCEPTED, 0, 0, 1, 1, 1, 1};
    static const uint32_t first_of_each[] = {0, 0};
    compare_with(&plain, &bytes, 2, none, COUNT(none), first_of_each);

    /* 57 before 58 before 59 */
    static const uint32_t first_ill[] = {STUMPGARRET_FIRST_ILL_FORMED};
    static const uint32_t second_ill[] = {STUMPGARRET_SECOND_ILL_FORMED};
    struct revision ill = old;
    ill.words[STUMPGARRET_RECORD_PARTS] = 1;
    compare_with(&ill, &ill, WORDS, first_ill, 1, NULL);
    compare_with(&old, &ill, 0, second_ill, 1, NULL);
    ill = old;
    ill.numbers[STUMPGARRET_ANSWER_NUMBER] = STUMPGARRET_SINGLE_RBRACE;
    compare_with(&ill, &old, 3, first_ill, 1, NULL);
    ill = old;
    ill.text[0] = 0xFF;
    compare_with(&old, &ill, 3, second_ill, 1, NULL);
    for (uint32_t room = 0; room < 5; room++) {
        static const uint32_t needed[] = {
            STUMPGARRET_TOO_LITTLE_MIDDLE_ROOM, 0, 0, 0, 0, 0, 0, 0, 0, 5,
        };
        compare_with(&old, &edited, room, needed, COUNT(needed), NULL);
    }
    if (answer[STUMPGARRET_COMPARE_NEEDED] != 5)
        fail("number", STUMPGARRET_COMPARE_NEEDED, answer[STUMPGARRET_COMPARE_NEEDED], 5);

    /* ranges, places and u marks do not count */
    struct revision moved = old;
    moved.words[STUMPGARRET_RECORD_MARK] = 1;
    moved.words[STUMPGARRET_RECORD_PLACE] = 9;
    moved.words[STUMPGARRET_RECORD_WORDS + STUMPGARRET_RECORD_START] = 7;
    compare_with(&old, &moved, 0, same, COUNT(same), NULL);
    compare_with(&old, &edited, 5, numbers, COUNT(numbers), middles);
    const uint32_t by_name[] = {
        answer[STUMPGARRET_ANSWER_NUMBER],        answer[STUMPGARRET_COMPARE_FRONT],
        answer[STUMPGARRET_COMPARE_BACK],         answer[STUMPGARRET_COMPARE_FIRST],
        answer[STUMPGARRET_COMPARE_SECOND],       answer[STUMPGARRET_COMPARE_FIRST_MIDDLE],
        answer[STUMPGARRET_COMPARE_SECOND_MIDDLE],
    };
    numbers_are("named number", by_name, numbers, COUNT(by_name));
}

/* Writes what was read, or what the words and the text now say, with so many bytes lent. */
static void write_with(const uint32_t *reading, size_t words_length, size_t text_length,
                       size_t body_length)
{
    memset(output, FILL, sizeof output);
    memset(answer, FILL, sizeof answer);
    stumpgarret_write(words, words_length, text, text_length, reading, output, body_length, answer);
}

/* A body, and nothing behind it. */
static void wrote(const char *body, size_t body_length)
{
    const uint32_t length = (uint32_t)strlen(body);
    const uint32_t numbers[STUMPGARRET_ANSWER_NUMBERS] = {0, length};
    numbers_are("answer of a write", answer, numbers, COUNT(numbers));
    if (memcmp(output, body, length) != 0)
        fail("body of", length, output[0], (uint8_t)body[0]);
    filled("body behind", output, length, body_length, FILL);
    filled("output behind the body", output, body_length, sizeof output, FILL);
}

/* A refusal, and zeros. */
static void write_refused(uint32_t number, uint32_t needed, size_t body_length)
{
    const uint32_t numbers[STUMPGARRET_ANSWER_NUMBERS] = {number, 0, 0, 0, 0, 0, 0, 0, 0, needed};
    numbers_are("refusal of a write", answer, numbers, COUNT(numbers));
    filled("refused body", output, 0, body_length, 0);
    filled("output behind a refused body", output, body_length, sizeof output, FILL);
}

static void writes(void)
{
    static const struct {
        const char *script, *body;
    } rows[] = {
        {"f''", ""},
        {"f'a{x:>5}'", "a{x:>5}"},
        {"f'{x = }'", "x = {x !r}"},
        {"f'{{{x}}}\\x5c'", "{{{x}}}\\\\"},
        {"f'{x:\\n>{w}\\x7b}'", "{x:\\n>{w}\\x7b}"},
        {"f'{x!=y!r:{z!a}}'", "{x!=y!r:{z!a}}"},
        {"f'a\\nb'", "a\nb"},
    };
    for (size_t i = 0; i < COUNT(rows); i++) {
        const uint32_t length = (uint32_t)strlen(rows[i].script);
        const uint32_t literal[] = {STUMPGARRET_FSTRING, 0, 2, length - 3, 0, length};
        uint32_t reading[STUMPGARRET_ANSWER_NUMBERS];
        read_with(rows[i].script, literal, COUNT(literal), WORDS, TEXT);
        memcpy(reading, answer, sizeof reading);
        write_with(reading, WORDS, TEXT, OUTPUT);
        wrote(rows[i].body, OUTPUT);
        write_with(reading, STUMPGARRET_RECORD_WORDS * (size_t)reading[STUMPGARRET_ANSWER_RECORDS],
                   reading[STUMPGARRET_ANSWER_TEXT_LENGTH], strlen(rows[i].body));
        wrote(rows[i].body, strlen(rows[i].body));
    }
}

static void edits_and_refuses_to_write(void)
{
    static const uint32_t literal[] = {STUMPGARRET_FSTRING, 0, 2, 9, 0, 12};
    uint32_t reading[STUMPGARRET_ANSWER_NUMBERS], changed[STUMPGARRET_ANSWER_NUMBERS];
    read_with("f'{mv:.0f} '", literal, COUNT(literal), WORDS, TEXT);
    memcpy(reading, answer, sizeof reading);
    text[3] = '2'; /* .0f becomes .2f */
    write_with(reading, WORDS, TEXT, OUTPUT);
    wrote("{mv:.2f} ", OUTPUT);
    write_with(reading, WORDS, TEXT, 8);
    write_refused(STUMPGARRET_TOO_LITTLE_BODY_ROOM, 9, 8);

    /* what is left aside, whatever it holds */
    words[STUMPGARRET_RECORD_START] = words[STUMPGARRET_RECORD_PLACE] = 77;
    memcpy(changed, reading, sizeof changed);
    changed[STUMPGARRET_ANSWER_MARK] = changed[STUMPGARRET_ANSWER_CHARS] = 77;
    write_with(changed, WORDS, TEXT, OUTPUT);
    wrote("{mv:.2f} ", OUTPUT);

    /* 54: not as many words or text bytes, another sort, a refusal's numbers, a rule broken */
    write_with(reading, 31, TEXT, OUTPUT);
    write_refused(STUMPGARRET_NOT_WRITABLE, 0, OUTPUT);
    write_with(reading, WORDS, 5, OUTPUT);
    write_refused(STUMPGARRET_NOT_WRITABLE, 0, OUTPUT);
    changed[STUMPGARRET_ANSWER_SORT] = STUMPGARRET_PLAIN;
    write_with(changed, WORDS, TEXT, OUTPUT);
    write_refused(STUMPGARRET_NOT_WRITABLE, 0, OUTPUT);
    changed[STUMPGARRET_ANSWER_SORT] = STUMPGARRET_JOINED;
    changed[STUMPGARRET_ANSWER_NUMBER] = STUMPGARRET_SINGLE_RBRACE;
    write_with(changed, WORDS, TEXT, OUTPUT);
    write_refused(STUMPGARRET_NOT_WRITABLE, 0, OUTPUT);
    words[STUMPGARRET_RECORD_CONVERSION] = 'q';
    write_with(reading, WORDS, TEXT, OUTPUT);
    write_refused(STUMPGARRET_NOT_WRITABLE, 0, OUTPUT);
    words[STUMPGARRET_RECORD_CONVERSION] = 'r';
    write_with(reading, WORDS, TEXT, OUTPUT);
    wrote("{mv!r:.2f} ", OUTPUT);
    text[3] = 0xFF;
    write_with(reading, WORDS, TEXT, OUTPUT);
    write_refused(STUMPGARRET_NOT_WRITABLE, 0, OUTPUT);

    /* 55, also where there is no room */
    text[3] = '}';
    write_with(reading, WORDS, TEXT, OUTPUT);
    write_refused(STUMPGARRET_NOT_READ_BACK, 0, OUTPUT);
    write_with(reading, WORDS, TEXT, 0);
    write_refused(STUMPGARRET_NOT_READ_BACK, 0, 0);
}

enum { CUTS = 8 };

static uint32_t cuts[CUTS];

static void checks_cuts(void)
{
    static const struct {
        const char *body;
        uint32_t limit, count, offsets[3], number;
    } rows[] = {
        {"abcd", 2, 1, {2}, STUMPGARRET_ACCEPTED},
        {"abcd", 4, 0, {0}, STUMPGARRET_ACCEPTED},
        {"", 0, 0, {0}, STUMPGARRET_ACCEPTED},
        {"{x}a{y}", 4, 1, {3}, STUMPGARRET_ACCEPTED},
        {"{{{x}", 3, 1, {2}, STUMPGARRET_ACCEPTED},
        {"abcd", 9, 1, {0}, STUMPGARRET_WRONG_OFFSETS},
        {"abcd", 9, 1, {4}, STUMPGARRET_WRONG_OFFSETS},
        {"abcd", 9, 2, {2, 2}, STUMPGARRET_WRONG_OFFSETS},
        {"ab}", 1, 2, {2, 1}, STUMPGARRET_WRONG_OFFSETS},
        {"abcd", 3, 0, {0}, STUMPGARRET_PIECE_TOO_LONG},
        {"abcd", 1, 2, {1, 2}, STUMPGARRET_PIECE_TOO_LONG},
        {"ab}", 1, 1, {1}, STUMPGARRET_PIECE_TOO_LONG},
        {"ab}", 2, 1, {1}, STUMPGARRET_PIECE_REFUSED},
        {"{{", 9, 1, {1}, STUMPGARRET_PIECE_REFUSED},
        {"{x:a}", 9, 1, {4}, STUMPGARRET_PIECE_REFUSED},
        {"\xc3\xa9", 9, 1, {1}, STUMPGARRET_PIECE_REFUSED},
        {"\\101", 9, 1, {2}, STUMPGARRET_READINGS_DIFFER},
        {"\\101", 9, 2, {2, 3}, STUMPGARRET_READINGS_DIFFER},
        {"\\101}", 9, 1, {2}, STUMPGARRET_PIECE_REFUSED},
    };
    for (size_t i = 0; i < COUNT(rows); i++) {
        memset(answer, FILL, sizeof answer);
        stumpgarret_cuts_check((const uint8_t *)rows[i].body, strlen(rows[i].body), rows[i].limit,
                               rows[i].offsets, rows[i].count, answer);
        numbers_are("answer", answer, &rows[i].number, 1);
        filled("byte of the answer", answer, sizeof *answer, sizeof answer, 0);
    }
}

/* Plans with room for so many cuts, all filled before: the numbers, and zeros up to twelve; and the
   cuts in front and nothing else changed, or zeros in what was lent. */
static void plan_is(const char *body, uint32_t limit, size_t room, const uint32_t *numbers,
                    size_t count, const uint32_t *offsets)
{
    memset(cuts, FILL, sizeof cuts);
    memset(answer, FILL, sizeof answer);
    stumpgarret_cuts_plan((const uint8_t *)body, strlen(body), limit, cuts, room, answer);
    numbers_are("answer", answer, numbers, count);
    filled("byte of the answer", answer, count * sizeof *answer, sizeof answer, 0);
    size_t kept = 0;
    if (numbers[0] == STUMPGARRET_ACCEPTED && numbers[STUMPGARRET_PLAN_EXISTS]) {
        kept = numbers[STUMPGARRET_PLAN_CUTS];
        numbers_are("cut", cuts, offsets, kept);
    } else {
        kept = room;
        filled("byte of the cuts", cuts, 0, room * sizeof *cuts, 0);
    }
    filled("byte of the cuts", cuts, kept * sizeof *cuts, sizeof cuts, FILL);
}

static void plans_cuts(void)
{
    static const struct {
        const char *body;
        uint32_t limit, count, offsets[3];
    } rows[] = {
        {"abcd", 4, 0, {0}},
        {"abcd", 3, 1, {3}},
        {"abcd", 1, 3, {1, 2, 3}},
        {"", 0, 0, {0}},
        {"ab{x}", 3, 1, {2}},
        {"a{{b", 2, 2, {1, 3}},
        {"\\101\\1", 5, 1, {4}},
        {"a\\{{", 3, 1, {1}},
        {"\xc3\xa9\xc3\xa9", 3, 1, {2}},
    };
    for (size_t i = 0; i < COUNT(rows); i++) {
        const uint32_t numbers[] = {STUMPGARRET_ACCEPTED, 1, rows[i].count};
        for (size_t room = rows[i].count; room <= CUTS; room++)
            plan_is(rows[i].body, rows[i].limit, room, numbers, COUNT(numbers), rows[i].offsets);
        const uint32_t short_of[] = {
            STUMPGARRET_TOO_LITTLE_CUT_ROOM, 0, 0, 0, 0, 0, 0, 0, 0, rows[i].count,
        };
        for (size_t room = 0; room < rows[i].count; room++)
            plan_is(rows[i].body, rows[i].limit, room, short_of, COUNT(short_of), cuts);
        memset(answer, FILL, sizeof answer);
        stumpgarret_cuts_check((const uint8_t *)rows[i].body, strlen(rows[i].body), rows[i].limit,
                               rows[i].offsets, rows[i].count, answer);
        numbers_are("answer", answer, numbers, 1);
    }
    static const uint32_t none[] = {STUMPGARRET_ACCEPTED, 0};
    static const struct {
        const char *body;
        uint32_t limit;
    } without[] = {{"abcd", 0}, {"ab{x}", 2}, {"a\\}}", 2}, {"}", 9}, {"a\xff", 9}};
    for (size_t i = 0; i < COUNT(without); i++)
        for (size_t room = 0; room <= CUTS; room++)
            plan_is(without[i].body, without[i].limit, room, none, COUNT(none), cuts);
}

int main(void)
{
    reads_two();
    grows();
    fits();
    refuses();
    refuses_bodies();
    refuses_lists();
    reads_marks_and_bytes();
    signs();
    lists_two();
    refuses_scripts();
    cuts_whole();
    lists_fields();
    decodes_nothing();
    lists_words();
    lists_refusals();
    builds_names();
    checks_names();
    refuses_long_files();
    reads_named();
    reads_long_names();
    searches_unchecked();
    named_is_checked_and_searched();
    lists_fields_named();
    tells_specs();
    replays();
    refuses_replays();
    compares();
    writes();
    edits_and_refuses_to_write();
    checks_cuts();
    plans_cuts();
    printf("bindings/c: %d checks passed\n", checks);
    return 0;
}
