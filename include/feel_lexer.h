/* The proved FEEL lexer for C and C++: opening a text, names in scope, tokens, runs and repair.
 *
 * Link libfeel_lexer.a, which `rt lib` in crates/feel_lexer writes to crates/feel_lexer/out (x86-64, Linux).
 * examples/c/tokens.c puts names in scope, runs, repairs and asks for tokens, and says how it is compiled.
 *
 * Memory. The functions allocate nothing and keep nothing between calls: all memory is lent by the
 * caller, and calls on different memory may run at the same time. A slice is a pointer and a count
 * of elements; a slice of rows counts rows. FEEL_WHOLE(array) gives both for an array. Of each slice
 * the caller sees to this, and to nothing else:
 *   - the pointer is not null, even where the count is 0, and is aligned for its type;
 *   - as many elements as the count says are there and hold some number;
 *   - a slice that a call writes overlaps no other slice of that call.
 * Whatever the numbers are, a call ends and either does its work or refuses.
 *
 * Answers. Every call returns 0, or the number of a refusal (enum feel_refusal), and writes eight
 * numbers to `answer` (enum feel_answer). Numbers that a call does not give are 0. A refusal gives
 * a place and, for 3, 5 and 6, a carry in FEEL_ANSWER_EXTRA. Places in a text count characters.
 * feel_is_built_in_function_name alone has no answer and refuses nothing.
 *
 * Refused calls. A refused call leaves everything as it was, but for the answer, for scratch, and
 * for the lexer after 3 to 8. Scratch is all zero after every call that takes it, so lend no more
 * of it than is needed: clearing it takes its time.
 *
 * Shapes. Each call looks at these first, before the order given at the call; all of them are
 * refusal 9: an answer that is not of FEEL_ANSWER_SIZE numbers (nothing is written to it), then,
 * with place 0, numbers that are no lexer (feel_next_token; see enum feel_lexer), opening flags
 * above FEEL_ALL_FLAGS (feel_run). A scope that is not of FEEL_SCOPE_SIZE numbers is no shape but a
 * broken scope: 10, where the call's order has it.
 *
 * Cost. A run takes time with the text's length, and checks its scope once; a token call checks the
 * scope and clears scratch each time. Names cost most. Where a name begins, the lexer walks over all
 * that might belong to it: words, white space and . / - ' + *, to the first other character. If names
 * are in scope it then tries, from long to short, every prefix of that stretch which is no longer than
 * the longest key (the longest name of each depth, added up), and compares each with all names. So a
 * text that is one such stretch takes time with the square of its length, and with the names in scope
 * and the length of the longest key beside. Rules and names as people write them take microseconds;
 * 16,384 characters of `a+a+a...` take half a second with `a` in scope, a second with 56 nested names
 * of some words beside it, and over a minute with names of 128 characters nested eight deep
 * (docs/BENCHMARKS.md). A host that takes texts or names from strangers should bound both. The cost of
 * a pushed list is linear in its rows, whatever the names.
 *
 * Version. Sizes and places below may change from one version to the next. A program that was
 * compiled with the header of another version than the archive's does not link.
 */
#ifndef FEEL_LEXER_H
#define FEEL_LEXER_H

#include <stddef.h>
#include <stdint.h>

#ifdef __cplusplus
extern "C" {
#endif

/* ---- Version ---- */

#define FEEL_LEXER_VERSION 1

/* Returns the version of the archive, which is part of its name. */
uint32_t feel_lexer_version_1(void);

/* Every file that includes this header refers to the function of the header's version, whatever
 * else it calls: from here, before main. GCC and Clang have the attribute. */
#define FEEL_LEXER_JOINED(name, version) name##version
#define FEEL_LEXER_OF(version) FEEL_LEXER_JOINED(feel_lexer_version_, version)

__attribute__((constructor)) static void feel_lexer_linked(void)
{
    (void)FEEL_LEXER_OF(FEEL_LEXER_VERSION)();
}

/* ---- Slices ---- */

/* An array and its count, as two arguments of a call. */
#define FEEL_WHOLE(array) (array), (sizeof(array) / sizeof((array)[0]))

/* Rows that are only read. C before C23 has no conversion from rows to constant rows, so the word
 * is left out there. */
#if defined(__cplusplus) || (defined(__STDC_VERSION__) && __STDC_VERSION__ >= 202311L)
#define FEEL_READ const
#else
#define FEEL_READ
#endif

/* ---- Sizes ---- */

#define FEEL_MAX_CHARS 16384 /* characters of a text */
#define FEEL_MAX_BYTES 65536 /* bytes that are opened */

#define FEEL_ANSWER_SIZE 8 /* numbers of an answer */
#define FEEL_SCOPE_SIZE 3  /* numbers of a scope */
#define FEEL_LEXER_SIZE 4  /* numbers of a lexer */

#define FEEL_SLOTS 768      /* rows of slots, and rows of names, beside a scope */
#define FEEL_SLOT_CELLS 4   /* numbers of a slot, and of an entry of a list */
#define FEEL_NAME_CELLS 128 /* characters of a name at most */
#define FEEL_ROW_CELLS 11   /* numbers of a row of a record */

/* What a run or a repair of a (new) text of n characters needs. */
#define FEEL_ROWS_FOR(n) ((n) + 2)    /* rows of a record */
#define FEEL_STORE_FOR(n) (n)         /* cells of its value store; also of a token's output */
#define FEEL_SCRATCH_FOR(n) (2 * (n)) /* cells of scratch */

#define FEEL_MAX_CONTEXTS 32 /* stacked contexts */
#define FEEL_MAX_ENTRIES 512 /* entries at all depths of all contexts */
#define FEEL_MAX_PARSED 256  /* distinct parsed names */
#define FEEL_MAX_DEPTH 7     /* depth of an entry */

/* ---- Places ---- */

/* Of an answer. */
enum feel_answer {
    FEEL_ANSWER_PLACE = 0,    /* a token: the position behind it; a refusal: its place */
    FEEL_ANSWER_TYPE = 1,     /* a token's type */
    FEEL_ANSWER_LENGTH = 2,   /* characters opened; value cells of a token; store cells of a record */
    FEEL_ANSWER_BEFORE = 3,   /* a number's digits before the point */
    FEEL_ANSWER_AFTER = 4,    /* ... behind it */
    FEEL_ANSWER_EXPONENT = 5, /* ... of the exponent */
    FEEL_ANSWER_EXTRA = 6,    /* a Boolean; 1 for an exponent with a minus; a refusal's carry */
    FEEL_ANSWER_ITEMS = 7     /* rows of a record */
};

/* Of a scope: three counts. Slots 0 to 511 are entries, 512 to 767 parsed names. Rows that the
 * counts do not cover, the cells of a name behind its length and the first three numbers of a parsed
 * name's slot are free: a call that is not refused may leave anything there, and none reads them. */
enum feel_scope { FEEL_SCOPE_CONTEXTS = 0, FEEL_SCOPE_ENTRIES = 1, FEEL_SCOPE_PARSED = 2 };

/* Of a slot: the entry's context (from 1), depth, kind, length of the name in the row of `names`
 * with the same index. A parsed name uses the last alone. */
enum feel_slot { FEEL_SLOT_CONTEXT = 0, FEEL_SLOT_DEPTH = 1, FEEL_SLOT_KIND = 2, FEEL_SLOT_LENGTH = 3 };

/* Of an entry of a list: depth, kind, and where in the slice `cells` its name lies. An entry of
 * depth k above 0 belongs to the nearest earlier one of depth k - 1, which must be a context, with
 * no lower depth between. */
enum feel_entry { FEEL_ENTRY_DEPTH = 0, FEEL_ENTRY_KIND = 1, FEEL_ENTRY_START = 2, FEEL_ENTRY_LENGTH = 3 };

enum feel_kind { FEEL_KIND_VARIABLE = 0, FEEL_KIND_CONTEXT = 1 };

/* Of a lexer. A new one is { 0, 0, 1, start type }; a start type other than the nine FEEL_TOKEN_START_...
 * gives FEEL_TOKEN_YY_ERROR. Setting a flag is adding its bit.
 * No lexer are: more or fewer than FEEL_LEXER_SIZE numbers; flags above FEEL_ALL_FLAGS; a third
 * number other than 0 and 1; a start type of 2^32 or more; a start type other than 0 where none is
 * due, such as { p, f, 0, FEEL_TOKEN_START_EXPRESSION }. Any position is a lexer's; beyond the text
 * it is 12. */
enum feel_lexer {
    FEEL_LEXER_POSITION = 0,
    FEEL_LEXER_FLAGS = 1,
    FEEL_LEXER_PENDING = 2,   /* 1 where the start token is due, else 0 */
    FEEL_LEXER_START_TYPE = 3 /* its type where it is due, else 0 */
};

/* Of a row of a record: one item. */
enum feel_row {
    FEEL_ROW_REFUSED = 0,  /* 1 for a refusal, which is the last item, else 0 */
    FEEL_ROW_NUMBER = 1,   /* token type, or number of the refusal */
    FEEL_ROW_POSITION = 2, /* position behind the item */
    FEEL_ROW_FLAGS = 3,    /* flags behind it */
    FEEL_ROW_REACH = 4,    /* one more than the largest index looked at; 0 for the start token */
    FEEL_ROW_START = 5,    /* where in the store its value begins */
    FEEL_ROW_LENGTH = 6,   /* cells of the value */
    FEEL_ROW_BEFORE = 7,   /* a number's digits before the point, */
    FEEL_ROW_AFTER = 8,    /* behind it, */
    FEEL_ROW_EXPONENT = 9, /* and of the exponent */
    FEEL_ROW_EXTRA = 10    /* a Boolean; 1 for an exponent with a minus; a refusal's carry */
};

/* ---- Numbers ---- */

/* Flags of a lexer and of an item, added up. */
enum feel_flag {
    FEEL_FLAG_UNARY_TESTS = 1,
    FEEL_FLAG_BETWEEN = 2,
    FEEL_FLAG_TYPE_NAME = 4,
    FEEL_FLAG_TILL_IN = 8,
    FEEL_FLAG_AFTER_DOT = 16,
    FEEL_ALL_FLAGS = 31
};

/* Why a call refuses. The text's author causes 1 to 8, the host 9 to 13. */
enum feel_refusal {
    FEEL_REFUSAL_TOO_LONG = 1,           /* more than FEEL_MAX_CHARS characters, or FEEL_MAX_BYTES bytes */
    FEEL_REFUSAL_NOT_UTF8 = 2,           /* place: the byte where the first bad sequence begins */
    FEEL_REFUSAL_NO_HEX_DIGIT = 3,       /* a hexadecimal digit was due; carry: what stands there */
    FEEL_REFUSAL_END_AT_HEX_DIGIT = 4,   /* the text ends where a hexadecimal digit was due */
    FEEL_REFUSAL_NO_SCALAR_VALUE = 5,    /* an escape in DC00..DFFF or above 10FFFF; carry: its value */
    FEEL_REFUSAL_NO_SECOND_HALF = 6,     /* a pair's second half outside DC00..DFFF; carry: its value */
    FEEL_REFUSAL_END_AT_SECOND_HALF = 7, /* under two characters behind a pair's first half */
    FEEL_REFUSAL_STARTS_WITH_IN = 8,     /* till_in is set, and the name's first part is `in` */
    FEEL_REFUSAL_SHORT_SLICE = 9,        /* a lent output, scratch or record; or a shape, see above */
    FEEL_REFUSAL_BROKEN_SCOPE = 10,      /* an entry list, a name or the lent scope is broken */
    FEEL_REFUSAL_OVER_LIMIT = 11,        /* the scope would exceed a limit afterwards */
    FEEL_REFUSAL_BEYOND_TEXT = 12,       /* the position lies beyond the text */
    FEEL_REFUSAL_BROKEN_REQUEST = 13     /* edit, old record and text part do not fit together, or a row is no item's */
};

/* Token types; the numbers are those of the grammar's tables. */
enum feel_token {
    FEEL_TOKEN_YY_EOF = 0,     /* the end; also an unfinished string or comment. Ends a run */
    FEEL_TOKEN_YY_ERROR = 256, /* for a start type that is none. Ends a run */
    FEEL_TOKEN_YY_UNDEF = 257, /* no token begins here. Ends a run */
    FEEL_TOKEN_START_EXPRESSION = 258,
    FEEL_TOKEN_START_BOXED_EXPRESSION = 259,
    FEEL_TOKEN_START_TEXTUAL_EXPRESSION = 260,
    FEEL_TOKEN_START_TEXTUAL_EXPRESSIONS = 261,
    FEEL_TOKEN_START_UNARY_TESTS = 262,
    FEEL_TOKEN_START_SIMPLE_EXPRESSION = 263,
    FEEL_TOKEN_START_SIMPLE_EXPRESSIONS = 264,
    FEEL_TOKEN_START_SIMPLE_VALUE = 265,
    FEEL_TOKEN_START_RANGE_LITERAL = 266,
    FEEL_TOKEN_AT = 267,
    FEEL_TOKEN_NOT = 268, /* under unary_tests */
    FEEL_TOKEN_COLON = 269,
    FEEL_TOKEN_COMMA = 270,
    FEEL_TOKEN_EVERY = 271,
    FEEL_TOKEN_FOR = 272,
    FEEL_TOKEN_LEFT_BRACE = 273,
    FEEL_TOKEN_NULL = 274,
    FEEL_TOKEN_RIGHT_ARROW = 275,
    FEEL_TOKEN_OF = 276,
    FEEL_TOKEN_LIST = 277,
    FEEL_TOKEN_RANGE = 278,
    FEEL_TOKEN_CONTEXT = 279,
    FEEL_TOKEN_THEN = 280,
    FEEL_TOKEN_FUNCTION = 281,
    FEEL_TOKEN_EXTERNAL = 282,
    FEEL_TOKEN_IF = 283,
    FEEL_TOKEN_RIGHT_BRACE = 284,
    FEEL_TOKEN_RETURN = 285,
    FEEL_TOKEN_SOME = 286,
    FEEL_TOKEN_NUMERIC = 287, /* value: digits before, behind the point and of the exponent */
    FEEL_TOKEN_STRING = 288,  /* value: its characters */
    FEEL_TOKEN_BOOLEAN = 289, /* value: in EXTRA */
    FEEL_TOKEN_SATISFIES = 290,
    FEEL_TOKEN_ELSE = 291,
    FEEL_TOKEN_OR = 292,
    FEEL_TOKEN_AND = 293,
    FEEL_TOKEN_EQ = 294,
    FEEL_TOKEN_NE = 295,
    FEEL_TOKEN_LT = 296,
    FEEL_TOKEN_LE = 297,
    FEEL_TOKEN_GT = 298,
    FEEL_TOKEN_GE = 299,
    FEEL_TOKEN_BETWEEN = 300,
    FEEL_TOKEN_BETWEEN_AND = 301, /* `and` under between */
    FEEL_TOKEN_IN = 302,
    FEEL_TOKEN_MINUS = 303,
    FEEL_TOKEN_PLUS = 304,
    FEEL_TOKEN_MUL = 305,
    FEEL_TOKEN_DIV = 306,
    FEEL_TOKEN_EXP = 307,
    FEEL_TOKEN_INSTANCE = 309,
    FEEL_TOKEN_NAME = 310,               /* value: its characters */
    FEEL_TOKEN_NAME_DATE_TIME = 311,     /* a temporal name before `(`; value: its characters */
    FEEL_TOKEN_BUILT_IN_TYPE_NAME = 312, /* under type_name; value: its characters */
    FEEL_TOKEN_LEFT_PAREN = 313,
    FEEL_TOKEN_RIGHT_PAREN = 314,
    FEEL_TOKEN_LEFT_BRACKET = 315,
    FEEL_TOKEN_RIGHT_BRACKET = 316,
    FEEL_TOKEN_ELLIPSIS = 317,
    FEEL_TOKEN_DOT = 318
};

/* ---- Texts ---- */

/* Opens UTF-8: one cell a character, at the front of `cells`. FEEL_ANSWER_LENGTH is the number of
 * characters; cells behind them stay.
 * cells: one for each character (FEEL_MAX_CHARS will always do).
 * Refuses, in this order: 1 over 65,536 bytes; 2; 1 over 16,384 characters; 9 cells too short.
 * The place of 2 is a byte, that of the others 0. */
uint32_t feel_open(const uint8_t *bytes, size_t bytes_len, uint32_t *cells, size_t cells_len,
                   size_t *answer, size_t answer_len);

/* ---- Names of functions ---- */

/* Whether a name, one cell a character, is that of a built-in function, spelled exactly so: 1 or 0.
 * A run reads such a name like any other; an editor may ask this of a FEEL_TOKEN_NAME or
 * _NAME_DATE_TIME before `(`. */
uint32_t feel_is_built_in_function_name(const uint32_t *name, size_t name_len);

/* ---- Scopes ----
 *
 * A scope is three counts with FEEL_SLOTS rows of slots and as many of names beside them. It is a
 * stack of contexts; a name is found in any of them, and among the parsed names. Names are taken as
 * given, one cell a character. They are met by words parted by single spaces, with no space around
 * . / - ' + and *: `row width-gutter`. Names that end in a symbol or have two in a row may need
 * another spelling (docs/DIFFERENCES.md, M1).
 *
 * All of these refuse, in this order: 10, then 11, with place 0. 10 is a scope that is not of
 * FEEL_SCOPE_SIZE numbers or that no call leaves; slots or names of fewer than FEEL_SLOTS rows; a
 * name over 128 characters or with a cell that is no Unicode scalar value; an entry list with a
 * depth above 7, another kind, no parent or a name outside `cells`. 11 is counted after what is
 * replaced has gone. */

/* Opens a scope: one empty context, no parsed names. The rows beside it may hold anything, and so
 * may its three numbers: 10 is for more or fewer, 11 for nothing. */
uint32_t feel_scope_opened(size_t *scope, size_t scope_len, size_t *answer, size_t answer_len);

/* Pushes an empty context. */
uint32_t feel_scope_push_default(size_t *scope, size_t scope_len,
                                 FEEL_READ uint32_t (*slots)[FEEL_SLOT_CELLS], size_t slots_len,
                                 FEEL_READ uint32_t (*names)[FEEL_NAME_CELLS], size_t names_len,
                                 size_t *answer, size_t answer_len);

/* Pushes an entry list as one context. A name repeated at one level replaces the earlier entry with
 * all below it. */
uint32_t feel_scope_push(size_t *scope, size_t scope_len,
                         uint32_t (*slots)[FEEL_SLOT_CELLS], size_t slots_len,
                         uint32_t (*names)[FEEL_NAME_CELLS], size_t names_len,
                         FEEL_READ uint32_t (*list)[FEEL_SLOT_CELLS], size_t list_len,
                         const uint32_t *cells, size_t cells_len,
                         size_t *answer, size_t answer_len);

/* Pops the last context; does nothing on an empty stack. Parsed names stay. */
uint32_t feel_scope_pop(size_t *scope, size_t scope_len,
                        FEEL_READ uint32_t (*slots)[FEEL_SLOT_CELLS], size_t slots_len,
                        FEEL_READ uint32_t (*names)[FEEL_NAME_CELLS], size_t names_len,
                        size_t *answer, size_t answer_len);

/* Names a variable in the last context, in place of an entry of that name and all below it. Does
 * nothing on an empty stack. */
uint32_t feel_scope_set_entry_name(size_t *scope, size_t scope_len,
                                   uint32_t (*slots)[FEEL_SLOT_CELLS], size_t slots_len,
                                   uint32_t (*names)[FEEL_NAME_CELLS], size_t names_len,
                                   const uint32_t *name, size_t name_len,
                                   size_t *answer, size_t answer_len);

/* Names a context in the last context, with an entry list below it: each entry lies one deeper than
 * its row says, so depth 7 is refused. Does nothing on an empty stack. */
uint32_t feel_scope_set_context(size_t *scope, size_t scope_len,
                                uint32_t (*slots)[FEEL_SLOT_CELLS], size_t slots_len,
                                uint32_t (*names)[FEEL_NAME_CELLS], size_t names_len,
                                const uint32_t *name, size_t name_len,
                                FEEL_READ uint32_t (*list)[FEEL_SLOT_CELLS], size_t list_len,
                                const uint32_t *cells, size_t cells_len,
                                size_t *answer, size_t answer_len);

/* Adds a parsed name, which no pop takes away; one that is there already changes nothing. */
uint32_t feel_scope_add_parsed_name(size_t *scope, size_t scope_len,
                                    uint32_t (*slots)[FEEL_SLOT_CELLS], size_t slots_len,
                                    uint32_t (*names)[FEEL_NAME_CELLS], size_t names_len,
                                    const uint32_t *name, size_t name_len,
                                    size_t *answer, size_t answer_len);

/* ---- Tokens ---- */

/* The next token. The lexer moves behind it, its value fills the front of `out` (the rest stays),
 * and the answer has its place, type, lengths and extra number.
 * out: FEEL_STORE_FOR(text_len) cells, scratch: FEEL_SCRATCH_FOR(text_len), whatever token comes.
 * Refuses, in this order: 1; 12; 10; 9; then 3 to 8 by the text. The place of the first four is the
 * lexer's position, and the lexer stays; 3 to 8 leave it at their place, unary_tests cleared. */
uint32_t feel_next_token(size_t *lexer, size_t lexer_len, const uint32_t *text, size_t text_len,
                         const size_t *scope, size_t scope_len,
                         FEEL_READ uint32_t (*slots)[FEEL_SLOT_CELLS], size_t slots_len,
                         FEEL_READ uint32_t (*names)[FEEL_NAME_CELLS], size_t names_len,
                         uint32_t *out, size_t out_len, uint32_t *scratch, size_t scratch_len,
                         size_t *answer, size_t answer_len);

/* ---- Runs and repair ---- */

/* The record of a whole text: the start token, then every token to the first FEEL_TOKEN_YY_EOF,
 * _YY_UNDEF, _YY_ERROR or refusal. Refusals 3 to 8 do not refuse the call; they are its last item.
 * FEEL_ANSWER_ITEMS is the number of rows, FEEL_ANSWER_LENGTH that of the store cells used; what
 * lies behind them stays.
 * rows: FEEL_ROWS_FOR(text_len), store: FEEL_STORE_FOR(text_len), scratch: FEEL_SCRATCH_FOR(text_len).
 * Refuses, in this order: 1; 10; 9; with place 0. */
uint32_t feel_run(const uint32_t *text, size_t text_len, uint32_t start_type, uint32_t flags,
                  const size_t *scope, size_t scope_len,
                  FEEL_READ uint32_t (*slots)[FEEL_SLOT_CELLS], size_t slots_len,
                  FEEL_READ uint32_t (*names)[FEEL_NAME_CELLS], size_t names_len,
                  uint32_t (*rows)[FEEL_ROW_CELLS], size_t rows_len,
                  uint32_t *store, size_t store_len, uint32_t *scratch, size_t scratch_len,
                  size_t *answer, size_t answer_len);

/* The record of an edited text: characters from..to of the old text, `to` not included, were
 * replaced by `size` characters. Handed what feel_run or feel_repair left for the old text, and the
 * same scope, it leaves exactly what feel_run leaves for the new text with the old start type and flags.
 * old_length: characters of the old text. old_rows: its record, exactly the rows that the answer
 * counted. old_store: its values; cells behind them are not read.
 * part: the new text from feel_part_start(old_rows, old_rows_len, from) to its end.
 * rows, store, scratch: as for a run of the new text. They are not those of the old record.
 * Refuses, in this order: 13; 1; 10; 9; with place 0. 13 is: an edit that ends before it begins or
 * behind the old text; an old text over FEEL_MAX_CHARS; no rows, or more than FEEL_ROWS_FOR(old_length);
 * a row of no item, with FEEL_ROW_REFUSED above 1 or FEEL_ROW_FLAGS above FEEL_ALL_FLAGS; a first
 * position or reach other than 0, a position that is not above the one before or lies behind the text
 * (the last may equal the one before), a reach below its position or above old_length + 12; a value
 * that begins elsewhere than where the last one ended, lies outside the store or is longer than the
 * step in position; a number whose three lengths do not add up; an item that ends a run before the
 * last one, or none as the last; a part of another length. Whatever else a row holds is kept. */
uint32_t feel_repair(size_t old_length, FEEL_READ uint32_t (*old_rows)[FEEL_ROW_CELLS], size_t old_rows_len,
                     const uint32_t *old_store, size_t old_store_len,
                     size_t from, size_t to, size_t size, const uint32_t *part, size_t part_len,
                     const size_t *scope, size_t scope_len,
                     FEEL_READ uint32_t (*slots)[FEEL_SLOT_CELLS], size_t slots_len,
                     FEEL_READ uint32_t (*names)[FEEL_NAME_CELLS], size_t names_len,
                     uint32_t (*rows)[FEEL_ROW_CELLS], size_t rows_len,
                     uint32_t *store, size_t store_len, uint32_t *scratch, size_t scratch_len,
                     size_t *answer, size_t answer_len);

/* How many items an edit at `from` keeps: those before the first that looked beyond it. This and the
 * next are compiled into the host; they are no part of the library. */
static inline size_t feel_kept(FEEL_READ uint32_t (*rows)[FEEL_ROW_CELLS], size_t rows_len, size_t from)
{
    size_t kept = 0;
    while (kept < rows_len && rows[kept][FEEL_ROW_REACH] <= from)
        kept++;
    return kept;
}

/* Where the part begins that feel_repair is handed: the position of the last item kept. */
static inline size_t feel_part_start(FEEL_READ uint32_t (*rows)[FEEL_ROW_CELLS], size_t rows_len, size_t from)
{
    size_t kept = feel_kept(rows, rows_len, from);
    return kept == 0 ? 0 : rows[kept - 1][FEEL_ROW_POSITION];
}

#ifdef __cplusplus
}
#endif

#endif
