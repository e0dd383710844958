/* Eon texts by the proved calls of crates/eon_c. Link crates/eon_c/out/libeon_c.a, written by `rt lib` in crates/eon_c.
 *
 * Texts are any bytes; read are those of at most EON_MAX_TEXT bytes of UTF-8. A call answers, or refuses by a number, and a
 * refusal leaves the lent table, output, scratch or list as it was. No call allocates, keeps a pointer, or needs a text that
 * ends in a zero byte. What the caller owes:
 * - a pointer is good for its length; where that is 0 it is not looked at, and may be null;
 * - tables, outputs, scratches, lists and answers are initialised, also where a call only writes them, and aligned as their
 *   types;
 * - what is lent to be written overlaps nothing else that is handed to the same call;
 * - the call's stack, EON_STACK_..; a thread needs some 10 KB for itself besides.
 *
 * A table has EON_RECORD_WORDS words a record, records in the order of the text: kind, start, text end (a variant name's
 * end, otherwise the end), end, and the number of records in it counting itself. A map's values alternate, key and value.
 * Records are numbered from 0 on. A record's span is its bytes from its start on, its end not counted.
 */
#ifndef EON_H
#define EON_H

#include <stdbool.h>
#include <stddef.h>
#include <stdint.h>

#ifdef __cplusplus
extern "C" {
#endif

/* The version of this header and of the archive that it goes with: major, minor, patch. */
#define EON_VERSION "0.3.0"
#define EON_VERSION_NUMBER 300 /* 10000 * major + 100 * minor + patch */

#define EON_MAX_TEXT 65535
#define EON_RECORD_WORDS 5

/* Of a lookup: the most paths, the most keys of a path, and the answer of a path that reaches nothing, which is no record's
 * number. */
#define EON_PATHS_MAX 128
#define EON_KEYS_MAX 8
#define EON_NONE UINT32_MAX

/* Lent so much, no call on a text of n bytes refuses by EON_NO_SPACE: the table's words, the layout's bytes under
 * EON_DEFAULT_SETTINGS (an indentation of at most 65 tabs, a line end, a blank line and a byte), the scratch's bytes, the
 * list's hits. */
#define EON_TABLE_WORDS(n) (EON_RECORD_WORDS * ((n) + 1))
#define EON_LAYOUT_BYTES(n) (68 * ((n) + 1))
#define EON_SCRATCH_BYTES(n) (n)
#define EON_HITS(n) ((n) + 1)

/* Bytes of stack that a call takes at most, with a margin; reformatting by the length of the text. */
#define EON_STACK_READ (100 * 1024)
#define EON_STACK_FORMAT (130 * 1024)
#define EON_STACK_REFORMAT_SMALL (180 * 1024)  /* up to EON_SMALL_TEXT bytes */
#define EON_STACK_REFORMAT_MEDIUM (550 * 1024) /* up to EON_MEDIUM_TEXT bytes */
#define EON_STACK_REFORMAT (1700 * 1024)
#define EON_STACK_COMPARE (100 * 1024)
#define EON_STACK_RECORD_AT (100 * 1024)
#define EON_STACK_RECORDS_IN (100 * 1024)
#define EON_STACK_LOOKUP (130 * 1024)
#define EON_STACK_OTHERS (8 * 1024)
#define EON_SMALL_TEXT 2047
#define EON_MEDIUM_TEXT 16383

enum eon_record_kind {
    EON_RECORD_IDENTIFIER = 1,
    EON_RECORD_NUMBER,
    EON_RECORD_STRING,
    EON_RECORD_LIST,
    EON_RECORD_MAP,
    EON_RECORD_VARIANT,
    EON_RECORD_PREFIX_COMMENT,
    EON_RECORD_SUFFIX_COMMENT,
    EON_RECORD_CLOSING_COMMENT
};

enum eon_token_kind {
    EON_TOKEN_COMMENT = 1,
    EON_TOKEN_OPEN_LIST,
    EON_TOKEN_CLOSE_LIST,
    EON_TOKEN_OPEN_BRACE,
    EON_TOKEN_CLOSE_BRACE,
    EON_TOKEN_OPEN_PAREN,
    EON_TOKEN_CLOSE_PAREN,
    EON_TOKEN_COLON,
    EON_TOKEN_COMMA,
    EON_TOKEN_IDENTIFIER,
    EON_TOKEN_NUMBER,
    EON_TOKEN_DOUBLE_QUOTED_STRING,
    EON_TOKEN_SINGLE_QUOTED_STRING,
    EON_TOKEN_MULTILINE_BASIC_STRING,
    EON_TOKEN_MULTILINE_LITERAL_STRING
};

/* Start and end say which bytes of the text are meant; from EON_NO_SPACE on they are 0, 0. */
enum eon_refusal {
    EON_OVERLONG = 1,         /* over EON_MAX_TEXT bytes; at that length */
    EON_GARBLED,              /* not UTF-8; at the end of the longest well-formed beginning */
    EON_STRAY,                /* an invalid token */
    EON_TOO_DEEP,             /* a value inside 64 containers; the token before it, a comment or a comma among them */
    EON_MISSING_VALUE,        /* the text ends where a value must start; at its end */
    EON_UNBALANCED_LIST,      /* a `]` found as a value */
    EON_UNBALANCED_BRACE,     /* a `}` found as a value */
    EON_UNBALANCED_PAREN,     /* a `)` found as a value */
    EON_NAMELESS,             /* a `(` found as a value */
    EON_NO_VALUE,             /* a `:` or `,` found as a value */
    EON_MISMATCH,             /* another token than the one expected; the token found */
    EON_CUT_OFF,              /* the text ends where a token is expected; the token before, a comment or a comma among them */
    EON_SURPLUS,              /* a token behind the end */
    EON_NO_SPACE,             /* the answer is longer than the lent memory */
    EON_STALE,                /* the table is not this text's */
    EON_BAD_SETTINGS,         /* a setting over 16 bytes or not UTF-8 */
    EON_NO_OPENING_QUOTE,     /* from here to EON_NO_SCALAR_VALUE: of unquoting */
    EON_NO_CLOSING_QUOTE,
    EON_LINE_BREAK,           /* in a one-line string */
    EON_ENDS_IN_BACKSLASH,
    EON_UNKNOWN_ESCAPE,
    EON_NO_BRACE,             /* \u without { */
    EON_NINTH_DIGIT,          /* in \u{..} */
    EON_FOREIGN_CHARACTER,    /* in \u{..} */
    EON_NOT_CLOSED,           /* \u{.. */
    EON_NO_SCALAR_VALUE,      /* \u{..} of a code point that is no Unicode scalar value */
    EON_NO_BYTE,              /* of the record at an offset: the records cover no byte */
    EON_NO_PATHS              /* of a lookup: the path text is no list of paths */
};

/* Every call but the identifier test writes all eight words. */
typedef struct eon_answer {
    uint64_t number;   /* 0: answered; otherwise the refusal's number */
    uint64_t start;    /* where the refused part of the text starts, in bytes */
    uint64_t end;      /* where it ends */
    uint64_t expected; /* EON_MISMATCH, EON_CUT_OFF: the token kind expected; otherwise 0 */
    uint64_t found;    /* EON_MISMATCH: the token kind found; otherwise 0 */
    uint64_t value;    /* answered: the number that the call names; refused: 0 */
    uint64_t slice;    /* unquoting: 0, the value is a part of the quoted slice; 1, of the scratch */
    uint64_t from;     /* unquoting: where in that slice the value starts */
} eon_answer;

/* The settings of the calls that lay out: a tab, a line feed, a blank, `: `, no outer braces. */
#define EON_DEFAULT_SETTINGS                                                                                           \
    (const uint8_t *)"\t", 1, (const uint8_t *)"\n", 1, (const uint8_t *)" ", 1, (const uint8_t *)": ", 2, false

/* Reads a text into the table. value: the number of records; they are the first EON_RECORD_WORDS * value words, and the
 * words behind them keep their content. Refuses by 1 to 13, then by 14. */
void eon_read(const uint8_t *text, size_t text_len, uint32_t *table, size_t table_words, eon_answer *answer);

/* Lays a text out by its finished table. value: the number of bytes written to the beginning of `out`; the bytes behind
 * them keep their content. Refuses by 16, 1 to 13, 15, then by 14. */
void eon_format(const uint8_t *text, size_t text_len, const uint32_t *table, size_t table_words,
                const uint8_t *indentation, size_t indentation_len, const uint8_t *newline, size_t newline_len,
                const uint8_t *space_before_suffix_comment, size_t space_before_suffix_comment_len,
                const uint8_t *key_value_separator, size_t key_value_separator_len, bool always_include_outer_braces,
                uint8_t *out, size_t out_len, eon_answer *answer);

/* Reads a text into the table and lays it out, without a second check of the table. value: the number of bytes written to
 * the beginning of `out`; the table is then finished. Refuses by 16, 1 to 13, then by 14 if the table or `out` is too
 * short; both are unchanged then. */
void eon_reformat(const uint8_t *text, size_t text_len, uint32_t *table, size_t table_words, const uint8_t *indentation,
                  size_t indentation_len, const uint8_t *newline, size_t newline_len,
                  const uint8_t *space_before_suffix_comment, size_t space_before_suffix_comment_len,
                  const uint8_t *key_value_separator, size_t key_value_separator_len,
                  bool always_include_outer_braces, uint8_t *out, size_t out_len, eon_answer *answer);

/* Compares the trees of two texts with their finished tables, spans aside. value: 1 if they are equal, otherwise 0.
 * Refuses by 1 to 13 and 15 of the first text, then of the second. */
void eon_compare(const uint8_t *text1, size_t text1_len, const uint32_t *table1, size_t table1_words,
                 const uint8_t *text2, size_t text2_len, const uint32_t *table2, size_t table2_words,
                 eon_answer *answer);

/* The record at a byte offset of a text with its finished table. value: the number of the highest-numbered record whose
 * span holds the offset. If none does, the nearest byte that a record covers stands in for the offset; of one before and one
 * after at equal distance, the earlier. An offset beyond the text is allowed. Refuses by 1 to 13, 15, then by 27 if the
 * records cover no byte, which is so of the empty text alone. */
void eon_record_at(const uint8_t *text, size_t text_len, const uint32_t *table, size_t table_words, uint64_t offset,
                   eon_answer *answer);

/* A record's number and its span. */
typedef struct eon_hit {
    uint64_t record;
    uint64_t start;
    uint64_t end;
} eon_hit;

/* The records of a text with its finished table that share a byte with the range from `start` on, its `end` not counted.
 * value: how many; they are the first hits of the list, in table order, and the hits behind them keep their content. A range
 * may reach beyond the text; an empty or reversed one shares no byte. Refuses by 1 to 13, 15, then by 14 if the list is too
 * short. As many hits as the text has records suffice. */
void eon_records_in(const uint8_t *text, size_t text_len, const uint32_t *table, size_t table_words, uint64_t start,
                    uint64_t end, eon_hit *hits, size_t hits_len, eon_answer *answer);

/* Looks paths up in a text with its finished table, all in one walk. The path text, with its finished table too, is a list of
 * at most EON_PATHS_MAX paths, each a list of 1 to EON_KEYS_MAX keys, identifiers or strings; comments in it are ignored. A
 * path goes through maps from the root. Keys are compared by the bytes of their texts, a string's with its quotes; a key of
 * the text that is no identifier or string matches none.
 *
 * `answers` is a list of EON_PATHS_MAX words, never null. Each is set: for each path the number of a record that it reaches,
 * that of the value itself and not of a comment before it; EON_NONE for a path that reaches nothing, and behind the last path.
 * If a path reaches several values, as equal keys make it, the answer is some one of them; which one is left open.
 * value: the steps, which are the root and, in each map that a proper front of some path reaches, every key and value, each
 * once: never more than the text has records. Refuses by 1 to 13 and 15 of the text, then of the path text, then by 28 if
 * that is no such list. */
void eon_lookup(const uint8_t *text, size_t text_len, const uint32_t *table, size_t table_words, const uint8_t *paths,
                size_t paths_len, const uint32_t *paths_table, size_t paths_table_words,
                uint32_t answers[EON_PATHS_MAX], eon_answer *answer);

/* The value of a quoted string. value: its length; it stands at `from` in the quoted slice (slice 0) if that has no
 * carriage return and is literal or has no backslash; the scratch is then unchanged. Otherwise it is the beginning of the
 * scratch (slice 1), and the bytes behind it keep their content. Refuses by 1, 2, 17 to 26, then by 14 if the value is to be
 * written and longer than the scratch. */
void eon_unquote(const uint8_t *quoted, size_t quoted_len, uint8_t *scratch, size_t scratch_len, eon_answer *answer);

/* Where the part stands that unquoting named by `slice`, `from` and `value`: slice 0 is the quoted one, any other the
 * scratch. The answer's slice, from and value lie within these two slices whatever was named: a part that reaches beyond
 * its slice, and an empty one, is the empty beginning of the quoted slice. Never refuses. */
void eon_show(const uint8_t *quoted, size_t quoted_len, const uint8_t *scratch, size_t scratch_len, uint64_t slice,
              size_t from, size_t value, eon_answer *answer);

/* Whether a string needs no quotes: [a-zA-Z_][a-zA-Z0-9_]* other than true, false and null. Takes any bytes. */
bool eon_is_valid_identifier(const uint8_t *text, size_t text_len);

/* The word for a refusal's number. */
static inline const char *eon_refusal_word(uint64_t number) {
    switch (number) {
    case EON_OVERLONG: return "overlong";
    case EON_GARBLED: return "garbled";
    case EON_STRAY: return "stray";
    case EON_TOO_DEEP: return "too deep";
    case EON_MISSING_VALUE: return "missing value";
    case EON_UNBALANCED_LIST: return "unbalanced `]`";
    case EON_UNBALANCED_BRACE: return "unbalanced `}`";
    case EON_UNBALANCED_PAREN: return "unbalanced `)`";
    case EON_NAMELESS: return "nameless";
    case EON_NO_VALUE: return "no value";
    case EON_MISMATCH: return "mismatch";
    case EON_CUT_OFF: return "cut off";
    case EON_SURPLUS: return "surplus";
    case EON_NO_SPACE: return "no space";
    case EON_STALE: return "stale";
    case EON_BAD_SETTINGS: return "bad settings";
    case EON_NO_OPENING_QUOTE: return "no opening quote";
    case EON_NO_CLOSING_QUOTE: return "no closing quote";
    case EON_LINE_BREAK: return "line break in a one-line string";
    case EON_ENDS_IN_BACKSLASH: return "ends in a backslash";
    case EON_UNKNOWN_ESCAPE: return "unknown escape";
    case EON_NO_BRACE: return "`\\u` without `{`";
    case EON_NINTH_DIGIT: return "ninth hex digit";
    case EON_FOREIGN_CHARACTER: return "foreign character in `\\u{..}`";
    case EON_NOT_CLOSED: return "`\\u{..}` not closed";
    case EON_NO_SCALAR_VALUE: return "not a Unicode scalar value";
    case EON_NO_BYTE: return "no byte covered";
    case EON_NO_PATHS: return "no list of paths";
    default: return "unknown refusal";
    }
}

/* A byte's place as an editor shows it: both count from 1, columns in characters. */
typedef struct eon_line_column {
    size_t line;
    size_t column;
} eon_line_column;

/* A place behind the text counts as its end. */
static inline eon_line_column eon_line_column_of(const uint8_t *text, size_t text_len, uint64_t at) {
    eon_line_column place = {1, 1};
    for (size_t i = 0; i < text_len && i < at; i++) {
        if (text[i] == '\n') {
            place.line++;
            place.column = 1;
        } else if ((text[i] & 0xC0) != 0x80) {
            place.column++;
        }
    }
    return place;
}

#ifdef __cplusplus
}
#endif

#endif
