/* Prints the tokens of a FEEL rule, edits it, repairs the tokens and holds them against a fresh run
 * and against the token call.
 *
 *     mkdir -p target
 *     cc -std=c99 -I include examples/c/tokens.c crates/feel_lexer/out/libfeel_lexer.a -o target/tokens
 *     target/tokens 'if row width-gutter > 10 then 1 else 2' 'row width' gutter
 *
 * The first argument is the rule (- or none: standard input), the others are names in scope. Before
 * them may stand --edit FROM..TO=TEXT, which replaces the characters FROM to TO, TO not included;
 * without it ` + 1` is put behind the rule.
 *
 * A line is an item: its number, token type (R and number if refused), position behind it, reach,
 * value. Numbers show before/after/sign/exponent, names and strings `=` and hexadecimal code points.
 */
#include "feel_lexer.h"

#include <stdio.h>
#include <stdlib.h>
#include <string.h>

struct text {
    uint32_t cells[FEEL_MAX_CHARS];
    size_t length;
};

struct record {
    uint32_t rows[FEEL_ROWS_FOR(FEEL_MAX_CHARS)][FEEL_ROW_CELLS];
    uint32_t store[FEEL_STORE_FOR(FEEL_MAX_CHARS)];
    size_t items, used;
};

struct edit {
    size_t from, to;
    const char *put;
};

/* All memory that is lent; nothing is allocated. */
static uint8_t input[FEEL_MAX_BYTES + 1];
static struct text old_text, new_text, put;
static struct record old_record, repaired, fresh;
static size_t scope[FEEL_SCOPE_SIZE];
static uint32_t slots[FEEL_SLOTS][FEEL_SLOT_CELLS];
static uint32_t names[FEEL_SLOTS][FEEL_NAME_CELLS];
static uint32_t scratch[FEEL_SCRATCH_FOR(FEEL_MAX_CHARS)];
static size_t answer[FEEL_ANSWER_SIZE];

/* Ends the program where a call refuses. */
static void accepted(uint32_t refusal, const char *call)
{
    if (refusal == 0)
        return;
    fflush(stdout);
    fprintf(stderr, "%s: refusal %u at %zu, carry %zX\n", call, (unsigned)refusal, answer[FEEL_ANSWER_PLACE],
            answer[FEEL_ANSWER_EXTRA]);
    exit(1);
}

static void open_bytes(const uint8_t *bytes, size_t length, struct text *text)
{
    accepted(feel_open(bytes, length, FEEL_WHOLE(text->cells), FEEL_WHOLE(answer)), "feel_open");
    text->length = answer[FEEL_ANSWER_LENGTH];
}

static void open_string(const char *string, struct text *text)
{
    open_bytes((const uint8_t *)string, strlen(string), text);
}

static void open_input(struct text *text)
{
    size_t length = fread(input, 1, sizeof input, stdin);
    open_bytes(input, length, text);
}

static void put_in_scope(const char *string)
{
    static struct text name;
    open_string(string, &name);
    accepted(feel_scope_set_entry_name(FEEL_WHOLE(scope), FEEL_WHOLE(slots), FEEL_WHOLE(names), name.cells, name.length,
                                       FEEL_WHOLE(answer)),
             "feel_scope_set_entry_name");
}

static void run(const struct text *text, struct record *record)
{
    accepted(feel_run(text->cells, text->length, FEEL_TOKEN_START_EXPRESSION, 0, FEEL_WHOLE(scope), FEEL_WHOLE(slots),
                      FEEL_WHOLE(names), FEEL_WHOLE(record->rows), FEEL_WHOLE(record->store), scratch,
                      FEEL_SCRATCH_FOR(text->length), FEEL_WHOLE(answer)),
             "feel_run");
    record->items = answer[FEEL_ANSWER_ITEMS];
    record->used = answer[FEEL_ANSWER_LENGTH];
}

/* Old text, replacement, old text again; 0 where that cannot be. */
static int apply(const struct text *old, const struct edit *edit, struct text *next)
{
    open_string(edit->put, &put);
    if (edit->from > edit->to || edit->to > old->length)
        return 0;
    if (old->length - (edit->to - edit->from) + put.length > FEEL_MAX_CHARS)
        return 0;
    memcpy(next->cells, old->cells, edit->from * sizeof(uint32_t));
    memcpy(next->cells + edit->from, put.cells, put.length * sizeof(uint32_t));
    memcpy(next->cells + edit->from + put.length, old->cells + edit->to, (old->length - edit->to) * sizeof(uint32_t));
    next->length = old->length - (edit->to - edit->from) + put.length;
    return 1;
}

/* Of the new text only what lies behind the last item kept is handed on. */
static void repair(const struct edit *edit)
{
    size_t start = feel_part_start(old_record.rows, old_record.items, edit->from);
    accepted(feel_repair(old_text.length, old_record.rows, old_record.items, old_record.store, old_record.used, edit->from,
                         edit->to, put.length, new_text.cells + start, new_text.length - start, FEEL_WHOLE(scope),
                         FEEL_WHOLE(slots), FEEL_WHOLE(names), FEEL_WHOLE(repaired.rows), FEEL_WHOLE(repaired.store),
                         scratch, FEEL_SCRATCH_FOR(new_text.length), FEEL_WHOLE(answer)),
             "feel_repair");
    repaired.items = answer[FEEL_ANSWER_ITEMS];
    repaired.used = answer[FEEL_ANSWER_LENGTH];
    printf("items kept: %zu, characters handed on: %zu of %zu\n",
           feel_kept(old_record.rows, old_record.items, edit->from), new_text.length - start, new_text.length);
}

static int same(const struct record *a, const struct record *b)
{
    return a->items == b->items && a->used == b->used && memcmp(a->rows, b->rows, a->items * sizeof a->rows[0]) == 0 &&
           memcmp(a->store, b->store, a->used * sizeof a->store[0]) == 0;
}

/* Whether the token call, asked again and again, gives a record's items. */
static int walks(const struct text *text, const struct record *record)
{
    static uint32_t out[FEEL_STORE_FOR(FEEL_MAX_CHARS)];
    size_t lexer[FEEL_LEXER_SIZE] = {0, 0, 1, FEEL_TOKEN_START_EXPRESSION};
    for (size_t i = 0; i < record->items; i++) {
        const uint32_t *row = record->rows[i];
        uint32_t refusal = feel_next_token(FEEL_WHOLE(lexer), text->cells, text->length, FEEL_WHOLE(scope),
                                           FEEL_WHOLE(slots), FEEL_WHOLE(names), out, FEEL_STORE_FOR(text->length),
                                           scratch, FEEL_SCRATCH_FOR(text->length), FEEL_WHOLE(answer));
        /* A refusal of the text is the record's last item; any other would be the host's mistake. */
        size_t number = refusal == 0 ? answer[FEEL_ANSWER_TYPE] : refusal;
        if (number != row[FEEL_ROW_NUMBER] || (refusal != 0) != (row[FEEL_ROW_REFUSED] == 1))
            return 0;
        if (lexer[FEEL_LEXER_POSITION] != row[FEEL_ROW_POSITION] || lexer[FEEL_LEXER_FLAGS] != row[FEEL_ROW_FLAGS])
            return 0;
        if (answer[FEEL_ANSWER_LENGTH] != row[FEEL_ROW_LENGTH] || answer[FEEL_ANSWER_EXTRA] != row[FEEL_ROW_EXTRA])
            return 0;
        if (memcmp(out, record->store + row[FEEL_ROW_START], row[FEEL_ROW_LENGTH] * sizeof(uint32_t)) != 0)
            return 0;
    }
    return 1;
}

static void print_digits(const uint32_t *cells, uint32_t count)
{
    for (uint32_t i = 0; i < count; i++)
        putchar((int)cells[i]);
}

static void print_number(const uint32_t *row, const uint32_t *value)
{
    print_digits(value, row[FEEL_ROW_BEFORE]);
    putchar('/');
    print_digits(value + row[FEEL_ROW_BEFORE], row[FEEL_ROW_AFTER]);
    printf("/%c/", row[FEEL_ROW_EXTRA] == 1 ? '-' : '+');
    print_digits(value + row[FEEL_ROW_BEFORE] + row[FEEL_ROW_AFTER], row[FEEL_ROW_EXPONENT]);
}

static void print_characters(const uint32_t *row, const uint32_t *value)
{
    putchar('=');
    for (uint32_t i = 0; i < row[FEEL_ROW_LENGTH]; i++)
        printf("%s%X", i == 0 ? "" : ",", (unsigned)value[i]);
}

static void print_token_value(const uint32_t *row, const uint32_t *value)
{
    switch (row[FEEL_ROW_NUMBER]) {
    case FEEL_TOKEN_NUMERIC:
        print_number(row, value);
        break;
    case FEEL_TOKEN_BOOLEAN:
        fputs(row[FEEL_ROW_EXTRA] == 1 ? "true" : "false", stdout);
        break;
    case FEEL_TOKEN_STRING:
    case FEEL_TOKEN_NAME:
    case FEEL_TOKEN_NAME_DATE_TIME:
    case FEEL_TOKEN_BUILT_IN_TYPE_NAME:
        print_characters(row, value);
        break;
    default:
        putchar('-');
    }
}

static void print_carry(const uint32_t *row)
{
    switch (row[FEEL_ROW_NUMBER]) {
    case FEEL_REFUSAL_NO_HEX_DIGIT:
    case FEEL_REFUSAL_NO_SCALAR_VALUE:
    case FEEL_REFUSAL_NO_SECOND_HALF:
        printf("%X", (unsigned)row[FEEL_ROW_EXTRA]);
        break;
    default:
        putchar('-');
    }
}

static void print_record(const struct record *record)
{
    for (size_t i = 0; i < record->items; i++) {
        const uint32_t *row = record->rows[i];
        printf("%zu %s%u %u %u ", i, row[FEEL_ROW_REFUSED] == 1 ? "R" : "", (unsigned)row[FEEL_ROW_NUMBER],
               (unsigned)row[FEEL_ROW_POSITION], (unsigned)row[FEEL_ROW_REACH]);
        if (row[FEEL_ROW_REFUSED] == 1)
            print_carry(row);
        else
            print_token_value(row, record->store + row[FEEL_ROW_START]);
        putchar('\n');
    }
}

/* FROM..TO=TEXT */
static int read_edit(const char *argument, struct edit *edit)
{
    int length = 0;
    if (sscanf(argument, "%zu..%zu=%n", &edit->from, &edit->to, &length) != 2 || length == 0)
        return 0;
    edit->put = argument + length;
    return 1;
}

int main(int argc, char **argv)
{
    struct edit edit = {0, 0, NULL};
    int next = 1;
    if (argc > 2 && strcmp(argv[1], "--edit") == 0) {
        if (!read_edit(argv[2], &edit)) {
            fprintf(stderr, "usage: %s [--edit FROM..TO=TEXT] [RULE [NAME]...]\n", argv[0]);
            return 2;
        }
        next = 3;
    }
    if (next == argc || strcmp(argv[next], "-") == 0)
        open_input(&old_text);
    else
        open_string(argv[next], &old_text);
    accepted(feel_scope_opened(FEEL_WHOLE(scope), FEEL_WHOLE(answer)), "feel_scope_opened");
    for (int i = next + 1; i < argc; i++)
        put_in_scope(argv[i]);

    if (edit.put == NULL)
        edit = (struct edit){old_text.length, old_text.length, " + 1"};
    if (!apply(&old_text, &edit, &new_text)) {
        fprintf(stderr, "the edit lies outside the rule of %zu characters, or makes it too long\n", old_text.length);
        return 1;
    }

    run(&old_text, &old_record);
    print_record(&old_record);
    printf("\nedit %zu..%zu=%s: ", edit.from, edit.to, edit.put);
    repair(&edit);
    print_record(&repaired);

    run(&new_text, &fresh);
    if (!same(&repaired, &fresh)) {
        puts("not what a run of the new text gives");
        return 1;
    }
    printf("the same as a run of the new text: %zu items, %zu value cells\n", fresh.items, fresh.used);
    if (!walks(&new_text, &fresh)) {
        puts("not what the token call gives");
        return 1;
    }
    puts("the same as the token call gives, asked again and again");
    return 0;
}
