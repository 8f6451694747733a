/* Lists every formatted field of a whole Python script; reads runs of its string literals to records:
   texts, formatted fields, format specs; tells where the signs of each field stand; lists the
   literals of a script, from an offset on or all; takes the names of characters from a file that is lent;
   reads format specs; replays recorded readings through a template; compares two revisions of such a
   run; writes the body of an f-string back from its records; and plans and checks where a long
   template may be broken over lines.
   For C99 and C++11 on x86-64 Linux:

       cc -I bindings/include program.c target/staticlib/libstumpgarret.a

   All numbers are 32 bits wide and unsigned. A place is a literal's start, plus the length of
   its prefix and opening quotes, plus the bytes of its body taken so far. */
#ifndef STUMPGARRET_H
#define STUMPGARRET_H

#include <stddef.h>
#include <stdint.h>

#ifdef __cplusplus
extern "C" {
#endif

/* A literal is described by six numbers, at these indexes. */
enum stumpgarret_literal {
    STUMPGARRET_LITERAL_KIND,        /* one of stumpgarret_kind */
    STUMPGARRET_LITERAL_TRIPLE,      /* 1 if triple-quoted, else 0 */
    STUMPGARRET_LITERAL_BODY,        /* where its body begins in the script */
    STUMPGARRET_LITERAL_BODY_LENGTH, /* the bytes of the body */
    STUMPGARRET_LITERAL_START,       /* where the literal, with prefix and quotes, starts */
    STUMPGARRET_LITERAL_END,         /* where it ends; not below the start, and the next literal
                                        does not start below it */
    STUMPGARRET_LITERAL_NUMBERS      /* how many: 6 */
};

enum stumpgarret_kind {
    STUMPGARRET_STRING,       /* '..'   */
    STUMPGARRET_FSTRING,      /* f'..'  */
    STUMPGARRET_BYTES,        /* b'..'  */
    STUMPGARRET_RAW_STRING,   /* r'..'  */
    STUMPGARRET_RAW_FSTRING,  /* rf'..' */
    STUMPGARRET_RAW_BYTES,    /* rb'..' */
    STUMPGARRET_UNICODE       /* u'..'  */
};

/* What one call takes at most. */
enum stumpgarret_limit {
    STUMPGARRET_MOST_LITERALS = 1024,
    STUMPGARRET_MOST_BODY_BYTES = 1048576, /* all bodies together */
    STUMPGARRET_MOST_SCRIPT_BYTES = 1048576 /* of stumpgarret_literals, stumpgarret_fields
                                               and stumpgarret_cut */
};

/* A record is eight words, at these indexes. A word that a kind has no use for is 0.

   LITERAL  text: at the top level or in a spec. START and END are the whole run's at the top level,
            and in a spec those of the literal it stands in. MARK is the run's u mark at the top
            level, and 0 in a spec.
   FIELD    a formatted field: its text is the expression, which is not parsed. CONVERSION is 0 or
            the code of s, a or r. PARTS is 1 if it has a format spec, whose record then follows,
            and else 0. PLACE is just after its opening brace. START and END are its literal's.
   SPEC     a format spec, which has no text of its own: PARTS direct parts, each a LITERAL or a
            FIELD (with its own spec), follow. START and END are its literal's.
   BYTES    the value of a run of bytes literals. START and END are the whole run's.

   Texts lie one after the other in record order, without gaps. They are UTF-8, but for a BYTES
   record's. TEXT is the offset reached also where a record has no text. */
enum stumpgarret_record {
    STUMPGARRET_RECORD_KIND,        /* one of stumpgarret_record_kind */
    STUMPGARRET_RECORD_TEXT,        /* where its text begins in the text buffer */
    STUMPGARRET_RECORD_TEXT_LENGTH, /* the bytes of its text */
    STUMPGARRET_RECORD_START,
    STUMPGARRET_RECORD_END,
    STUMPGARRET_RECORD_CONVERSION,  /* of a field */
    STUMPGARRET_RECORD_MARK = STUMPGARRET_RECORD_CONVERSION, /* of a literal */
    STUMPGARRET_RECORD_PARTS,
    STUMPGARRET_RECORD_PLACE,
    STUMPGARRET_RECORD_WORDS        /* how many: 8 */
};

enum stumpgarret_record_kind {
    STUMPGARRET_LITERAL_RECORD = 1,
    STUMPGARRET_FIELD_RECORD,
    STUMPGARRET_SPEC_RECORD,
    STUMPGARRET_BYTES_RECORD
};

/* The answer is twelve numbers. The first is 0 for an acceptance and else a refusal's number;
   those not named are 0, and kept for later use. */
enum stumpgarret_answer {
    STUMPGARRET_ANSWER_NUMBER,      /* one of stumpgarret_refusal */

    STUMPGARRET_ANSWER_SORT = 1,    /* one of stumpgarret_sort */
    STUMPGARRET_ANSWER_MARK,        /* the u mark: 1 if the first literal's kind is 6, else 0 */
    STUMPGARRET_ANSWER_START,       /* the first literal's start */
    STUMPGARRET_ANSWER_END,         /* the last literal's end */
    STUMPGARRET_ANSWER_RECORDS,     /* how many records were written */
    STUMPGARRET_ANSWER_TEXT_LENGTH, /* how many text bytes were written */

    STUMPGARRET_REFUSAL_LITERAL = 1, /* the index of the literal, from 0; see stumpgarret_refusal */
    STUMPGARRET_REFUSAL_PLACE,
    STUMPGARRET_REFUSAL_DETAIL_A,
    STUMPGARRET_REFUSAL_DETAIL_B,
    STUMPGARRET_REFUSAL_OPENED,      /* of 23: the place just after the bracket that is still open */
    STUMPGARRET_REFUSAL_LINE,        /* of 10 to 28: the place's line in the literal's body, from 0;
                                        a byte 10 ends a line */
    STUMPGARRET_REFUSAL_COLUMN,      /* and its column in that line, from 0, by characters */

    STUMPGARRET_ANSWER_CHARS = 8,   /* how many characters were read: of all bodies, also for 30 and
                                       31; for 10 to 28 of the literals before and of the refused
                                       one up to the place; for 1 to 7, 60, 61 and 63 none */

    STUMPGARRET_ANSWER_NUMBERS = 12 /* how many */
};

enum stumpgarret_sort {
    STUMPGARRET_PLAIN,        /* strings: one literal record */
    STUMPGARRET_JOINED,       /* an f-string among them: literals, fields and specs, or nothing */
    STUMPGARRET_BYTES_VALUE   /* bytes: one bytes record */
};

/* Refusals. 1 to 7 are checked in that order, each over the whole list before the next. 10 to 28
   are met in the order of the literals and their characters; the first wins. 30 and 31 come only
   for input that is otherwise accepted, 30 before 31.
   The literal is that of the first bad one for 4 and 6, of the one being read for 10 to 28, and
   else 0. Place and details are 0 where nothing is said of them; the place of a bracket is 0 but
   for 23, line and column are 0 but for 10 to 28. */
enum stumpgarret_refusal {
    STUMPGARRET_ACCEPTED = 0,
    STUMPGARRET_EMPTY_LIST = 1,
    STUMPGARRET_NOT_SIXES = 2,          /* the list's length is no multiple of six */
    STUMPGARRET_TOO_MANY_LITERALS = 3,
    STUMPGARRET_BAD_DESCRIPTOR = 4,     /* unknown kind, triple above 1, body outside the script,
                                           start above end, start below the previous end, or
                                           prefix, opening quotes and body reach past the end */
    STUMPGARRET_BODIES_TOO_LONG = 5,
    STUMPGARRET_NOT_UTF8 = 6,           /* place: after the body's longest well-formed prefix */
    STUMPGARRET_MIXED_BYTES = 7,        /* bytes with other kinds; place: the first start */
    STUMPGARRET_STRING_ERROR = 10,      /* an unfinished escape; place: the body's end, or after
                                           a \N with no brace */
    STUMPGARRET_UNICODE_ERROR = 11,     /* a hex digit is missing or a code is above 10FFFF, place:
                                           after the letter; or a name is over 88 bytes, place:
                                           after its closing brace */
    STUMPGARRET_NON_ASCII_IN_BYTES = 12, /* place: after it */
    STUMPGARRET_NAME_NOT_HELD = 13,     /* the name in \N{..} is not in the file that is lent, or, where
                                           none is, not one of fourteen; place: after its opening
                                           brace */
    STUMPGARRET_UNCLOSED_LBRACE = 20,   /* place: after the last character taken; first detail: why,
                                           one of stumpgarret_unclosed */
    STUMPGARRET_INVALID_CONVERSION_FLAG = 21, /* place: after it */
    STUMPGARRET_EMPTY_EXPRESSION = 22,  /* or one of blanks alone, Unicode's White_Space; place:
                                           after the ! or the closing brace */
    STUMPGARRET_MISMATCHED_DELIMITER = 23, /* place: after the closer; details: the codes of
                                              opener and closer */
    STUMPGARRET_EXPRESSION_NESTED_TOO_DEEPLY = 24, /* place: before the opening brace */
    STUMPGARRET_SINGLE_RBRACE = 25,     /* place: after it */
    STUMPGARRET_UNMATCHED = 26,         /* place: after the closer; first detail: its code */
    STUMPGARRET_UNTERMINATED_STRING = 27, /* in an expression, or a backslash outside of quotes
                                             there; place: after the last character taken */
    STUMPGARRET_TOO_MANY_BRACKETS = 28, /* a field's 65th open bracket; place: after it */
    STUMPGARRET_TOO_FEW_RECORD_PLACES = 30, /* details: the records and the text bytes needed */
    STUMPGARRET_TOO_LITTLE_TEXT_ROOM = 31,  /* details: the same */

    /* Of stumpgarret_literals, with no literal and no details: 49 before all else, then the first
       that is met, and 53 only for what is otherwise accepted. Of stumpgarret_cut 49 and 53 only. */
    STUMPGARRET_SCRIPT_TOO_LONG = 49,
    STUMPGARRET_NEVER_CLOSED = 50,      /* place: where the literal starts */
    STUMPGARRET_NEWLINE_IN_LITERAL = 51, /* a byte 10 in a literal of one quote; place: where the
                                            literal starts */
    STUMPGARRET_NO_LITERAL = 52,        /* at the offset, which is the place */
    STUMPGARRET_TOO_LITTLE_LIST_ROOM = 53, /* see STUMPGARRET_LIST_NEEDED */

    /* Of stumpgarret_compare, in this order, with all else of the answer 0 but what 59 needs. */
    STUMPGARRET_FIRST_ILL_FORMED = 57,  /* the first answer is none of an accepted reading's: by its
                                           numbers, the record rules, or a text that is not UTF-8 */
    STUMPGARRET_SECOND_ILL_FORMED = 58, /* the second one is not */
    STUMPGARRET_TOO_LITTLE_MIDDLE_ROOM = 59, /* see STUMPGARRET_COMPARE_NEEDED */

    /* Of stumpgarret_write, with no literal, no place, no details and no characters; in this order. */
    STUMPGARRET_NOT_WRITABLE = 54,      /* the records break the rules of records, ranges, places, u marks
                                           and touching literals aside; a text is not UTF-8; or the
                                           sort is not joined */
    STUMPGARRET_NOT_READ_BACK = 55,     /* the spelling would be read otherwise */
    STUMPGARRET_TOO_LITTLE_BODY_ROOM = 56, /* see STUMPGARRET_WRITE_NEEDED */

    /* Of the calls that are lent a file of names, with no literal, no place and no details. 60 is told
       of the whole file, then 61, then 62 or 63. */
    STUMPGARRET_LINE_MALFORMED = 60,    /* or a name's code is no scalar value: a surrogate's, or above
                                           10FFFF */
    STUMPGARRET_NAME_TWICE = 61,
    STUMPGARRET_TOO_LITTLE_INDEX_ROOM = 62, /* of stumpgarret_names_build: fewer numbers than entries;
                                               or the file has 2^32 bytes or more */
    STUMPGARRET_WRONG_INDEX = 63,       /* the lent index is not the file's; or the file has 2^32 bytes
                                           or more */

    /* Of stumpgarret_cuts_check, each over the whole list before the next, with all else of the answer 0. */
    STUMPGARRET_WRONG_OFFSETS = 64,     /* they do not rise strictly inside the body */
    STUMPGARRET_PIECE_TOO_LONG = 65,
    STUMPGARRET_PIECE_REFUSED = 66,     /* stumpgarret_read refuses a piece */
    STUMPGARRET_READINGS_DIFFER = 67,   /* the pieces joined do not read as the body does, or the body
                                           is refused */

    /* Of stumpgarret_replay, and 68 of stumpgarret_spec too, with no literal, no place, no details and
       no characters; see STUMPGARRET_REPLAY_TOLD. The template comes before the trace: its first field
       that is refused, for 68 before 69. Then the first row that is refused, for 70 before 71 before
       72; and 73 only for what is otherwise accepted. */
    STUMPGARRET_NOT_OF_GRAMMAR = 68,    /* the spec is none of the format specification mini-language */
    STUMPGARRET_OUTSIDE_SET = 69,       /* a conversion or a nested field; a width above 64; a type but
                                           d, b, o, x, X and none; or what Python refuses for integers:
                                           z, a precision, a comma with b, o, x or X */
    STUMPGARRET_ROW_MALFORMED = 70,     /* by RFC 4180; or a column is not digits after at most one - */
    STUMPGARRET_WRONG_COLUMNS = 71,     /* not as many columns as the template has fields */
    STUMPGARRET_OUT_OF_RANGE = 72,      /* a number below -2,147,483,648 or above 2,147,483,647 */
    STUMPGARRET_TOO_LITTLE_LINE_ROOM = 73,

    /* Of stumpgarret_cuts_plan, only where there is a plan; see STUMPGARRET_PLAN_NEEDED. */
    STUMPGARRET_TOO_LITTLE_CUT_ROOM = 74,

    /* Of stumpgarret_fields: 49, and 53, see STUMPGARRET_FIELDS_NEEDED; 6, 10 to 28, 50 and 51 as rows,
       and as a row only: */
    STUMPGARRET_READ_OTHERWISE = 75,    /* Python reads the field otherwise, or not at all */
    STUMPGARRET_UNKNOWN_PREFIX = 76     /* a word before a literal that Python 3.11 lets not stand there */
};

/* Why an opening brace counts as unclosed: the first detail of STUMPGARRET_UNCLOSED_LBRACE. */
enum stumpgarret_unclosed {
    STUMPGARRET_UNCLOSED_AFTER_BANG = 1,   /* the body ends right after a field's ! */
    STUMPGARRET_UNCLOSED_AFTER_CONVERSION, /* the character after a conversion is neither a closing
                                              brace nor a colon, or there is none */
    STUMPGARRET_UNCLOSED_AFTER_EQUALS,     /* something not allowed follows a self-documenting = */
    STUMPGARRET_UNCLOSED_IN_FIELD,         /* the body ends elsewhere inside a field */
    STUMPGARRET_UNCLOSED_LAST_BRACE        /* an opening brace in no field is the last character */
};

/* Reads the literals, six numbers for each, from the script. Lengths count elements: bytes of
   `script` and `text`, 32-bit numbers of `literals` and `words`. Eight words make one record place;
   up to seven left over are not used. For n literals with b body bytes together, room for b + n
   records and 2 * b text bytes is always enough: 30 and 31 never come then.

   Afterwards: on acceptance the records stand in front in `words` and their texts in front in
   `text`, and what follows them is unchanged. On refusal, every word and every text byte is 0.
   `answer` always gets twelve numbers.

   The caller sees to it that
   - each pointer is valid for its length, aligned for its type and not null, with a length of 0
     too, where nothing is read or written through it;
   - `words`, `text` and `answer` overlap neither each other nor anything else that is passed
     (`script` and `literals` may overlap);
   - nothing else writes to what is passed, or reads what is written, until the call returns.
   Nothing more is asked: any bytes, numbers and lengths get an answer. The function keeps no
   state, so threads may call it at the same time. */
void stumpgarret_read(const uint8_t *script, size_t script_length,
                      const uint32_t *literals, size_t literals_length,
                      uint32_t *words, size_t words_length,
                      uint8_t *text, size_t text_length,
                      uint32_t answer[STUMPGARRET_ANSWER_NUMBERS]);

/* A row is ten numbers, at these indexes: a field, and where its signs stand; or, in stumpgarret_fields,
   a refusal. A place is 0 where there is no such sign. */
enum stumpgarret_row {
    STUMPGARRET_ROW_REASON,      /* one of stumpgarret_reason */
    STUMPGARRET_ROW_START,       /* its literal's start */
    STUMPGARRET_ROW_PLACE,       /* just after its opening brace */
    STUMPGARRET_ROW_EXPRESSION,  /* the bytes of its expression, as in its record */
    STUMPGARRET_ROW_CONVERSION,  /* as in its record */
    STUMPGARRET_ROW_EQUALS,      /* just after its first self-documenting = */
    STUMPGARRET_ROW_BANG,        /* just after its ! */
    STUMPGARRET_ROW_COLON,       /* just after its :, where its spec begins */
    STUMPGARRET_ROW_CLOSE,       /* just after its closing brace */
    STUMPGARRET_ROW_WITHIN,      /* the row, from 1, in whose source its literal stands; 0 for a
                                    literal of the script, and in stumpgarret_signs */
    STUMPGARRET_ROW_NUMBERS,     /* how many: 10 */

    /* Of a refusal: REASON is STUMPGARRET_REASON_REFUSED, PLACE is its place, START and WITHIN are as
       for a field, and those not named are 0. */
    STUMPGARRET_ROW_REFUSAL = 3, /* one of stumpgarret_refusal */
    STUMPGARRET_ROW_DETAIL_A,
    STUMPGARRET_ROW_DETAIL_B,
    STUMPGARRET_ROW_OPENED       /* of 23: the place just after the bracket that is still open */
};

/* The reason of a field's conversion, or that the row is a refusal. */
enum stumpgarret_reason {
    STUMPGARRET_REASON_WRITTEN = 1, /* written after ! */
    STUMPGARRET_REASON_NONE,        /* none: nothing is written, and there is no self-documenting = */
    STUMPGARRET_REASON_REPR,        /* repr: = stands with neither conversion nor spec */
    STUMPGARRET_REASON_SPEC,        /* none: = stands with a spec */
    STUMPGARRET_REASON_REFUSED      /* no field */
};

/* Reads the literals as stumpgarret_read does, and writes a row for each field, in record order,
   nested ones too, in place of records and text. Ten numbers make one row's place; up to nine left
   over are not used. For n literals with b body bytes together, room for b + n rows is always enough.

   The answer is that of stumpgarret_read, with the count of rows for the records and 0 for the text's
   length. Refusals are the same: 30 comes if there are fewer places than fields, with their count as
   first detail, and 31 never. On acceptance the rows stand in front in `rows`, and what follows them is
   unchanged. On refusal every one of `rows` is 0. `answer` always gets twelve numbers.

   The caller sees to the same as for stumpgarret_read: `rows` and `answer` overlap nothing else that
   is passed. */
void stumpgarret_signs(const uint8_t *script, size_t script_length,
                       const uint32_t *literals, size_t literals_length,
                       uint32_t *rows, size_t rows_length,
                       uint32_t answer[STUMPGARRET_ANSWER_NUMBERS]);

/* The answer of stumpgarret_literals. */
enum stumpgarret_list_answer {
    STUMPGARRET_LIST_LITERALS = 1,  /* how many literals were listed */
    STUMPGARRET_LIST_END,           /* where the last one ends */
    STUMPGARRET_LIST_STOP,          /* where the run stopped: at the first thing that is no literal */

    STUMPGARRET_LIST_NEEDED = 9     /* of 53: how many numbers the list needs */
};

/* Lists the literals that stand side by side in the script from the offset on, six numbers for
   each: offsets, starts and ends are those of the script. stumpgarret_read takes the list as it is.

   A literal is a prefix (r, u, b, f, br, rb, fr, rf, each letter in either case, or none), one or
   three quotes of either sort, a body, the same quotes. A backslash takes the next byte with it, in
   raw literals too. Between literals spaces, tabs, newlines (byte 10) and comments are passed over.

   Afterwards: on acceptance the list stands in front in `numbers`, and what follows is unchanged. On
   refusal every one of `numbers` is 0. `answer` always gets twelve numbers.

   The caller sees to the same as for stumpgarret_read: `numbers` and `answer` overlap nothing else
   that is passed. Any bytes, any offset and any length get an answer. */
void stumpgarret_literals(const uint8_t *script, size_t script_length, uint32_t offset,
                          uint32_t *numbers, size_t numbers_length,
                          uint32_t answer[STUMPGARRET_ANSWER_NUMBERS]);

/* The answer of stumpgarret_fields. */
enum stumpgarret_fields_answer {
    STUMPGARRET_FIELDS_ROWS = 1,    /* how many rows were written */
    STUMPGARRET_FIELDS_REFUSALS,    /* how many of them are refusals: if none, the list is complete */
    STUMPGARRET_FIELDS_LITERALS,    /* how many literals the script has, of any kind */
    STUMPGARRET_FIELDS_CUT,         /* how far the script was cut: its length, or where the literal of
                                       a 50 or 51 starts */

    STUMPGARRET_FIELDS_NEEDED = 9   /* of 53: how many rows there are */
};

/* Lists every field of a whole script, a row for each.

   The script is cut from the front. A comment, from # to before a byte 10 or 13, is passed over. A
   quote begins a literal; the letters before it are its prefix if they are one and no ASCII letter,
   digit or underscore stands before them. A literal ends as in stumpgarret_literals; one that does
   not ends the cut, by 50 or 51. Any other byte is passed over.

   A literal that starts directly behind a word has a row of 76 before its others, with where it starts
   as START and where the word begins as PLACE, unless the word may stand there. A word is as many ASCII
   letters, digits, underscores and bytes from 80 (hex) on as there are. It may stand there if it is and,
   as, assert, await, case, del, elif, else, except, for, from, if, in, is, match, not, or, raise,
   return, while, with or yield, or if it begins with a digit and ends with one of these. A literal with
   such a row is read as if the word were not there.

   Of the literals the f-strings are read, each alone as stumpgarret_signs reads it: no other has a
   field. An f-string has a row for each field, in record order, or one for its refusal (6, or 10 to
   28). The row of a 50 or 51 follows those of its cut, with where the literal starts as START and
   PLACE. After the rows of the script, for each row of a field in order, come those of its source,
   which goes from its place up to its first !, : or closing brace, and is cut as the script is: first
   a 75, if there is one, then the rows of its literals; and so on until no row is left.

   A 75 is told once for a field, with START as the field's and WITHIN as its row, at the least place
   of these: a # in the source outside of its literals, and not behind a 50 or 51; a backslash in the
   source; the start of a triple-quoted literal in it that has its own quote inside; just after its
   first self-documenting =, if anything but spaces follows in the source; in an f-string that is not
   raw, a backslash in its spec before the first nested field.

   The bytes are read as UTF-8, and nothing is decoded. Where Python reads other bytes, the caller makes
   them first, or the list is not that of Python's script:
   - a byte order mark at the front is taken off;
   - CR LF and CR become byte 10;
   - a script whose coding line (PEP 263: a comment in one of the first two lines) says neither UTF-8
     nor ASCII is decoded by that codec and lent as UTF-8. Under "# coding: utf-7" the bytes
     +AGYAJwB7AHgAfQAn- are an f-string with a field; as they stand they are none, and the list is
     accepted without it;
   - a script with a byte 0, as one in UTF-16 has, is not lent: Python does not take it.

   Ten numbers make one row's place; up to nine left over are not used. A script has at most as many
   rows as bytes. Refusals are 49, and 53 if there are fewer places than rows. On acceptance the rows
   stand in front in `rows`, and what follows them is unchanged. On refusal every one of `rows` is 0.
   `answer` always gets twelve numbers.

   The caller sees to the same as for stumpgarret_read: `rows` and `answer` overlap nothing else that
   is passed. Any bytes and any length get an answer. */
void stumpgarret_fields(const uint8_t *script, size_t script_length,
                        uint32_t *rows, size_t rows_length,
                        uint32_t answer[STUMPGARRET_ANSWER_NUMBERS]);

/* The answer of stumpgarret_cut. */
enum stumpgarret_cut_answer {
    STUMPGARRET_CUT_LITERALS = 1,   /* how many literals were listed */
    STUMPGARRET_CUT_TO,             /* how far the script was cut: its length, or where the literal of
                                       a 50 or 51 starts */
    STUMPGARRET_CUT_ENDED,          /* that 50 or 51, or 0 if the script was cut to its end */

    STUMPGARRET_CUT_NEEDED = 9      /* of 53: how many numbers the list needs */
};

/* Lists every literal of a whole script, six numbers for each: offsets, starts and ends are those of
   the script. It is cut as stumpgarret_fields cuts it, and literals of every kind are listed, but none
   that stands in an expression of another. What lies between them are gaps, with nothing of a literal
   in them. A 50 or 51 is no refusal here: the literals before it are listed.

   Two bytes at least make a literal, so room for three numbers for each byte of the script is always
   enough. Refusals are 49, and 53 if fewer numbers are lent than the list needs. On acceptance the list
   stands in front in `numbers`, and what follows is unchanged. On refusal every one of `numbers` is 0.
   `answer` always gets twelve numbers.

   The caller sees to the same as for stumpgarret_read: `numbers` and `answer` overlap nothing else
   that is passed. Any bytes and any length get an answer. */
void stumpgarret_cut(const uint8_t *script, size_t script_length,
                     uint32_t *numbers, size_t numbers_length,
                     uint32_t answer[STUMPGARRET_ANSWER_NUMBERS]);

/* A file of names is the text of UnicodeData.txt, as Unicode publishes it. Each line is ended by a
   byte 10 and has fifteen fields parted by ; signs: the first is a code in four to six hex digits, the
   second a name, which is not empty. One that begins with < is no name, and needs no scalar value. No
   name stands twice. Names compare byte for byte; a body asks for one of at most 88 bytes. An empty
   file is one that holds no name.

   Its index has a number for each line with a name, the offset where the line begins, ordered by
   name: by bytes, unsigned, a prefix first. As many numbers as are lent are its entries, so that a
   file has exactly one index.

   The calls above, which are lent no file, know fourteen names. */

/* The answer of stumpgarret_names_build and stumpgarret_names_check. */
enum stumpgarret_names_answer {
    STUMPGARRET_NAMES_ENTRIES = 1   /* how many entries the index has */
};

/* Builds the index of a file of names. A line with a name has at least twenty bytes, so room for
   file_length / 20 numbers is always enough.

   Refusals: 62 for a file of 2^32 bytes or more, before all else; then 60, 61, and 62 if there are
   fewer numbers than entries. On acceptance the index stands in front in `index`, and what follows it
   is unchanged. On refusal every one of `index` is 0. `answer` always gets twelve numbers.

   The caller sees to the same as for stumpgarret_read: `index` and `answer` overlap nothing else that
   is passed. Any bytes and any length get an answer. */
void stumpgarret_names_build(const uint8_t *file, size_t file_length,
                             uint32_t *index, size_t index_length,
                             uint32_t answer[STUMPGARRET_ANSWER_NUMBERS]);

/* Checks a file of names and an index that is lent. Refusals: 63 for a file of 2^32 bytes or more,
   before all else; then 60, 61, and 63 for any index but the file's. What stumpgarret_names_build
   accepts and writes is accepted. `answer` always gets twelve numbers, and nothing else is written.

   The caller sees to the same as for stumpgarret_read; `file` and `index` may overlap. */
void stumpgarret_names_check(const uint8_t *file, size_t file_length,
                             const uint32_t *index, size_t index_length,
                             uint32_t answer[STUMPGARRET_ANSWER_NUMBERS]);

/* Reads as stumpgarret_read does, with the names of the file. File and index are checked after 7 and
   before 10 to 28, whether or not a body has a \N: 60, 61 and 63 come as in stumpgarret_names_check,
   with no literal, no place, no details and no characters. Words, text and answer are as for
   stumpgarret_read. What is only read, `script`, `literals`, `file` and `index`, may overlap. */
void stumpgarret_read_named(const uint8_t *script, size_t script_length,
                            const uint32_t *literals, size_t literals_length,
                            const uint8_t *file, size_t file_length,
                            const uint32_t *index, size_t index_length,
                            uint32_t *words, size_t words_length,
                            uint8_t *text, size_t text_length,
                            uint32_t answer[STUMPGARRET_ANSWER_NUMBERS]);

/* The same without the check, for a file and an index that passed stumpgarret_names_check or were
   built: the answer is then that of stumpgarret_read_named, and a check is not paid for at each call.
   Any others get an answer too. A name is then what a search by halves finds of it in whatever is
   lent, and 13 does not mean that the file has no such name. 60, 61 and 63 never come. */
void stumpgarret_read_searched(const uint8_t *script, size_t script_length,
                               const uint32_t *literals, size_t literals_length,
                               const uint8_t *file, size_t file_length,
                               const uint32_t *index, size_t index_length,
                               uint32_t *words, size_t words_length,
                               uint8_t *text, size_t text_length,
                               uint32_t answer[STUMPGARRET_ANSWER_NUMBERS]);

/* Lists every field of a whole script as stumpgarret_fields does, with the names of the file. File and
   index are checked once: after 49 come 60, 61 and 63 as in stumpgarret_names_check, with all else of
   the answer 0, and then what stumpgarret_fields gives. Rows and answer are as there. What is only
   read, `script`, `file` and `index`, may overlap. */
void stumpgarret_fields_named(const uint8_t *script, size_t script_length,
                              const uint8_t *file, size_t file_length,
                              const uint32_t *index, size_t index_length,
                              uint32_t *rows, size_t rows_length,
                              uint32_t answer[STUMPGARRET_ANSWER_NUMBERS]);

/* The answer of stumpgarret_spec. Those of one character are its ASCII code, 0 for none. */
enum stumpgarret_spec_answer {
    STUMPGARRET_SPEC_FILL = 1,   /* its code point, 0 for none. The fill U+0000 is 0 too: a spec that is
                                    accepted and begins with a byte 0 has it */
    STUMPGARRET_SPEC_ALIGN,      /* one of < > = ^ */
    STUMPGARRET_SPEC_SIGN,       /* + - or a space */
    STUMPGARRET_SPEC_Z,          /* 1 if it has a z, else 0 */
    STUMPGARRET_SPEC_ALTERNATE,  /* 1 if it has a #, else 0 */
    STUMPGARRET_SPEC_ZERO,       /* 1 if it has a 0 before the width, else 0 */
    STUMPGARRET_SPEC_WIDTH,      /* 0 for none, else 1 more than its value, at most 4,294,967,295 */
    STUMPGARRET_SPEC_GROUPING,   /* _ or a comma */
    STUMPGARRET_SPEC_PRECISION,  /* as the width */
    STUMPGARRET_SPEC_TYPE,       /* one of b c d e E f F g G n o s x X % */
    STUMPGARRET_SPEC_ROUNDS      /* 1 if it rounds a number, else 0: a type of e E f F g G n %, or no
                                    type with a precision */
};

/* Reads a format spec by the mini-language of Python 3.11's library reference,

       [[fill]align][sign][z][#][0][width][grouping][.precision][type]

   from its bytes: a fill is any character with an align behind it, digits are ASCII, the first 0
   behind the # is the flag. Refusal: 68, with all else of the answer 0. `answer` always gets twelve
   numbers, and nothing else is written.

   The caller sees to the same as for stumpgarret_read. Any bytes and any length get an answer. */
void stumpgarret_spec(const uint8_t *spec, size_t spec_length,
                      uint32_t answer[STUMPGARRET_ANSWER_NUMBERS]);

/* The answer of stumpgarret_replay: an acceptance has the numbers that stumpgarret_read gives of the
   template, and these. */
enum stumpgarret_replay_answer {
    STUMPGARRET_REPLAY_ROWS = 9,  /* how many rows the trace has */
    STUMPGARRET_REPLAY_BYTES,     /* how many bytes their lines have */

    STUMPGARRET_REPLAY_TOLD = 9   /* of 68 and 69 the top-level field, of 70 to 72 the row, both from 0;
                                     of 73 the bytes that are needed; at most 4,294,967,295 */
};

/* Replays a recorded trace through a template: for each row the line that Python would write with
   column k in the k-th top-level field, and a byte 10. The template is a run of literals, of any sort,
   as stumpgarret_read takes it; `words` and `text` are lent to read it into, and hold its records
   afterwards. No file of names is lent, so fourteen names are known.

   The trace is a file of RFC 4180 without a header: rows end with CR LF, the last one may lack it,
   columns are parted by commas, and a column may stand in quotes. A byte 10 or 13 alone is 70, and so
   is an empty line; an empty file has no row. A column is at most one - and ASCII digits, any number
   of them, zeros in front too.

   A field has no conversion and no nested field, and a spec that asks for an integer: fill and align,
   sign, #, 0, a width up to 64, grouping, and one of the types d, b, o, x, X or none.

   Refusals: 1 to 31 as stumpgarret_read gives them, then 68 and 69, then 70 to 72, then 73. On
   acceptance the lines stand in front in `output`, the template's records in `words` and `text`, and
   what follows them is unchanged. On refusal every word, text byte and byte of the output is 0.
   `answer` always gets twelve numbers. Each line depends on its row and the template alone: a trace
   may be lent in parts that end with rows.

   The caller sees to the same as for stumpgarret_read: `words`, `text`, `output` and `answer` overlap
   neither each other nor anything else that is passed. Any bytes, numbers and lengths get an answer. */
void stumpgarret_replay(const uint8_t *script, size_t script_length,
                        const uint32_t *literals, size_t literals_length,
                        const uint8_t *trace, size_t trace_length,
                        uint32_t *words, size_t words_length,
                        uint8_t *text, size_t text_length,
                        uint8_t *output, size_t output_length,
                        uint32_t answer[STUMPGARRET_ANSWER_NUMBERS]);

/* The answer of stumpgarret_compare. */
enum stumpgarret_compare_answer {
    STUMPGARRET_COMPARE_FRONT = 1,     /* how many items are equal in front */
    STUMPGARRET_COMPARE_BACK,          /* and of the others how many behind */
    STUMPGARRET_COMPARE_FIRST,         /* how many items the first answer has */
    STUMPGARRET_COMPARE_SECOND,        /* and the second */
    STUMPGARRET_COMPARE_FIRST_MIDDLE,  /* how many of the first lie between */
    STUMPGARRET_COMPARE_SECOND_MIDDLE, /* and of the second */

    STUMPGARRET_COMPARE_NEEDED = 9     /* of 59 how many numbers the list needs; at most 4,294,967,295 */
};

/* Compares two answers that were read: the longest equal run of items in front, then the longest of
   what remains at the back, and what lies between in each. A literal or bytes record at the top level
   is an item, and a field with its spec and parts is one. Two items are equal if their kinds, texts,
   conversions and parts are, whatever their places, ranges, u marks and sorts.

   Each answer is lent as its words, its text and the twelve numbers of its reading, of which those at
   0, 1, 5 and 6 are looked at: accepted, sort, records, text length. The buffers may be longer than the
   answer. What stumpgarret_read and its kin accepted is always taken; any other answer, such as one
   that was edited, is held against the rules: 57 or 58 if it breaks them. These are, as the records
   above are described: buffers that hold so many records and text bytes; a sort of three, with one
   LITERAL record if plain, one BYTES record if bytes, and none of these if joined; known kinds and
   conversions; a SPEC with no text behind each field that has PARTS 1, and nowhere else; each spec's
   parts behind it; texts without gaps, up to the text length; each text of UTF-8, but for bytes.

   The list gets the item numbers, from 0, of the first answer's middle and then of the second's. Room
   for a number for each record of both is always enough.

   Afterwards: on acceptance the numbers stand in front in `list`, and what follows them is unchanged.
   On refusal every number of it is 0. `answer` always gets twelve numbers.

   The caller sees to the same as for stumpgarret_read: `list` and `answer` overlap neither each other
   nor anything else that is passed; what is only read may overlap, and may be one answer twice. Any
   words, bytes, numbers and lengths get an answer. */
void stumpgarret_compare(const uint32_t *words, size_t words_length,
                         const uint8_t *text, size_t text_length,
                         const uint32_t reading[STUMPGARRET_ANSWER_NUMBERS],
                         const uint32_t *other_words, size_t other_words_length,
                         const uint8_t *other_text, size_t other_text_length,
                         const uint32_t other_reading[STUMPGARRET_ANSWER_NUMBERS],
                         uint32_t *list, size_t list_length,
                         uint32_t answer[STUMPGARRET_ANSWER_NUMBERS]);

/* The answer of stumpgarret_write. */
enum stumpgarret_write_answer {
    STUMPGARRET_WRITE_BYTES = 1,    /* how many bytes were written */

    STUMPGARRET_WRITE_NEEDED = 9    /* of 56: how many bytes the body has */
};

/* Writes the body of an f-string (kind 1) that reads as the records of a joined answer do, in one fixed
   spelling. `words` and `text` are as a reading left them or as the caller changed them, and `reading`
   is the answer that the reading gave: its numbers at STUMPGARRET_ANSWER_NUMBER, _SORT, _RECORDS and
   _TEXT_LENGTH are looked at. `words` and `text` may be longer than the answer.

   Text at the top level has braces and backslashes doubled. A field is an opening brace, its
   expression, ! and its conversion, : and its spec, a closing brace. A spec's text stands as it is
   before the first field in the spec; after it backslashes are doubled and braces are \x7b and \x7d. A
   line end or a quote stands as it is, so what quotes the body fits is the caller's question.

   Reading the body, with room and no file of names, gives the same kinds, texts, conversions and
   specs, once empty literals are dropped and touching ones joined on both sides. 55 is given exactly if
   it would not: a top-level expression begins with a brace; a brace stands in a spec's text before the
   first field in the spec; an expression is blank, has a :, a ! or an = that would end it, an open
   quote, a bracket without its match or over 64 of them, or a backslash outside of quotes; a field
   stands three deep; or the body has more than STUMPGARRET_MOST_BODY_BYTES.

   Four bytes for each text byte and each record are always enough: 56 never comes then. Afterwards: on
   acceptance the body stands in front in `body`, and what follows is unchanged. On refusal every byte
   of `body` is 0. `answer` always gets twelve numbers.

   The caller sees to the same as for stumpgarret_read: `body` and `answer` overlap nothing else that is
   passed. */
void stumpgarret_write(const uint32_t *words, size_t words_length,
                       const uint8_t *text, size_t text_length,
                       const uint32_t reading[STUMPGARRET_ANSWER_NUMBERS],
                       uint8_t *body, size_t body_length,
                       uint32_t answer[STUMPGARRET_ANSWER_NUMBERS]);

/* A long template over several lines: its body, of kind f'..', is cut at offsets, and the pieces stand
   as adjacent literals. Offsets and lengths count bytes of the body, without prefix and quotes; the
   first piece begins at 0, each cut begins the next, and the last ends with the body. No cuts make one
   piece. A piece is read alone as stumpgarret_read reads an f-string with room, with the fourteen
   names. The pieces' answers are joined: literals that touch become one.

   Checks cuts: they rise strictly inside the body (0 < first < .. < last < body_length), each piece has
   at most `limit` bytes, each is read without refusal, and the pieces joined have the kinds, texts,
   conversions and parts of the body's own records. Refusals: 64 to 67, in this order. `answer` always
   gets twelve numbers, of which all but the first are 0, and nothing else is written.

   Quotes are not looked at: no reading does. Whoever puts a piece between quotes sees that it has none
   of them, as the body has none.

   The caller sees to the same as for stumpgarret_read; `body` and `offsets` may overlap. Any bytes,
   numbers and lengths get an answer. Time grows with the bytes of the body and the cuts. */
void stumpgarret_cuts_check(const uint8_t *body, size_t body_length,
                            uint32_t limit,
                            const uint32_t *offsets, size_t offsets_length,
                            uint32_t answer[STUMPGARRET_ANSWER_NUMBERS]);

/* The answer of stumpgarret_cuts_plan. */
enum stumpgarret_plan_answer {
    STUMPGARRET_PLAN_EXISTS = 1,  /* 1 if there is a plan, 0 if no cuts pass the check */
    STUMPGARRET_PLAN_CUTS,        /* how many cuts it has */

    STUMPGARRET_PLAN_NEEDED = 9   /* of 74: how many cuts it has */
};

/* Plans cuts: a list that passes the check, with no cut where the rest needs none, and else each in
   turn as late as a list that passes allows. There is one such list, or none passes at all; that is no
   refusal. A plan has fewer cuts than the body has bytes.

   Refusal: 74, if `offsets` has room for fewer numbers than there are cuts, and only where there is a
   plan. With a plan its cuts stand in front in `offsets`, and what follows them is unchanged. Without
   one, and after 74, every one of `offsets` is 0. `answer` always gets twelve numbers.

   The caller sees to the same as for stumpgarret_read: `offsets` and `answer` overlap nothing else that
   is passed. Any bytes, numbers and lengths get an answer. */
void stumpgarret_cuts_plan(const uint8_t *body, size_t body_length,
                           uint32_t limit,
                           uint32_t *offsets, size_t offsets_length,
                           uint32_t answer[STUMPGARRET_ANSWER_NUMBERS]);

#ifdef __cplusplus
}
#endif

#endif
