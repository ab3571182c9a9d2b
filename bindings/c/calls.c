/*
 * calls PRINTED NAMED DEFINITIONS LIST: every function of zapelaritz.h is called, on the decks printed.deck, named.deck and
 * definitions.deck and the list withdraw.calls of examples/. What is expected stands in the statement of rules, README.md and
 * docs/DECK.md, or follows from the rules by hand.
 *
 * After each call the test also looks at every slice: nothing is written that the call only reads, nothing behind a slice's
 * end, nothing by a call that is lent an answer of a wrong size (load apart, which leaves all lent tables zero, the answer
 * too), and neither model nor log by a refused merge or rollback.
 */
#include <inttypes.h>
#include <stdio.h>
#include <stdlib.h>
#include <string.h>

#include "zapelaritz.h"

enum { SCHEMA, ELEMENTS, MODEL, LOG, TABLES };

static const size_t right_length[TABLES] = { 8964, 7299, 5122, 5121 };

enum {
    DECK_LIMIT = 32768,
    TEXT_ROOM = DECK_LIMIT + 8,
    TABLE_ROOM = 8964 + 8,
    ANSWER_ROOM = ZAPELARITZ_ANSWER_SIZE + 8,
    OUT_ROOM = 4096
};

/* Past 32 bits: a number that is cut to 32 bits on its way is noticed. */
static const uint64_t past_32_bits = UINT64_C(1) << 32;

struct text {
    uint8_t bytes[TEXT_ROOM];
    size_t length;
};

struct tables {
    uint64_t cells[TABLES][TABLE_ROOM];
};

/* What is lent, and a copy of it from before the call. A slice of length 0 is lent as null. */
static struct text deck, deck_before, list, list_before;
static struct tables tables, tables_before;
static size_t length[TABLES];
static uint64_t answer[ANSWER_ROOM], answer_before[ANSWER_ROOM];
static size_t answer_length;
static uint8_t out[OUT_ROOM], out_before[OUT_ROOM];
static size_t out_length;

#define TEXT(t) (t.length == 0 ? NULL : t.bytes), t.length
#define TABLE(i) (length[i] == 0 ? NULL : tables.cells[i]), length[i]
#define ALL_TABLES TABLE(SCHEMA), TABLE(ELEMENTS), TABLE(MODEL), TABLE(LOG)
#define OUT (out_length == 0 ? NULL : out), out_length
#define ANSWER (answer_length == 0 ? NULL : answer), answer_length

/* ---- checks */

static int checks, failures;

/* The slice that the latest call should not have written, or null. */
static const char *spoiled;

static int failed(int line, const char *what)
{
    failures++;
    printf("calls.c:%d: %s\n", line, what);
    return 0;
}

static int check(int line, const char *what, int holds)
{
    checks++;
    return holds ? 1 : failed(line, what);
}

static void check_code(int line, const char *call, uint64_t code, uint64_t expected)
{
    if (!check(line, call, code == expected))
        printf("    expected %" PRIu64 ", was %" PRIu64 "\n", expected, code);
    if (!check(line, call, spoiled == NULL))
        printf("    not as it should be afterwards: %s\n", spoiled);
}

/* The fourth number is 0 in every answer. */
static void check_call(int line, const char *call, uint64_t code, uint64_t expected, uint64_t a, uint64_t b, uint64_t c)
{
    if (!check(line, call, answer[0] == a && answer[1] == b && answer[2] == c && answer[3] == 0)) {
        printf("    expected %" PRIu64 ", %" PRIu64 ", %" PRIu64 ", 0\n", a, b, c);
        printf("    was      %" PRIu64 ", %" PRIu64 ", %" PRIu64 ", %" PRIu64 "\n", answer[0], answer[1], answer[2], answer[3]);
    }
    check_code(line, call, code, expected);
}

#define CHECK(holds) check(__LINE__, #holds, holds)
#define ACCEPTED(call, a, b, c) check_call(__LINE__, #call, call, ZAPELARITZ_ACCEPTED, a, b, c)
#define REFUSED(call, number, b, c) check_call(__LINE__, #call, call, number, number, b, c)
#define WRONG_SIZE(call) check_code(__LINE__, #call, call, ZAPELARITZ_REFUSAL_TABLES)

/* ---- the slices before and after a call */

static void before(void)
{
    memset(answer, 0x55, sizeof answer);
    memset(out, '#', sizeof out);
    deck_before = deck;
    list_before = list;
    tables_before = tables;
    memcpy(answer_before, answer, sizeof answer);
    memcpy(out_before, out, sizeof out);
    spoiled = NULL;
}

static void must(int holds, const char *slice)
{
    if (!holds && spoiled == NULL)
        spoiled = slice;
}

/* The tables before the first that the call may write, and all of them where `written` is TABLES, have to stand whole. */
static void tables_must_stand(int written)
{
    static const char *const name[TABLES] = { "schema", "elements", "model", "log" };
    int i;
    for (i = 0; i < TABLES; i++) {
        size_t from = i < written ? 0 : length[i];
        must(memcmp(tables.cells[i] + from, tables_before.cells[i] + from, (TABLE_ROOM - from) * sizeof(uint64_t)) == 0, name[i]);
    }
}

static void texts_must_stand(void)
{
    must(memcmp(&deck, &deck_before, sizeof deck) == 0, "deck");
    must(memcmp(&list, &list_before, sizeof list) == 0, "list of calls");
}

static void answer_must_stand(size_t from)
{
    must(memcmp(answer + from, answer_before + from, (ANSWER_ROOM - from) * sizeof(uint64_t)) == 0, "answer");
}

static void out_must_stand(size_t from)
{
    must(from <= out_length && memcmp(out + from, out_before + from, OUT_ROOM - from) == 0, "out");
}

static int answer_fits(void)
{
    return answer_length == ZAPELARITZ_ANSWER_SIZE;
}

static uint64_t after(uint64_t code, int written)
{
    texts_must_stand();
    tables_must_stand(written);
    answer_must_stand(answer_fits() ? answer_length : 0);
    return code;
}

static int zero(const uint64_t *cells, size_t count)
{
    size_t k;
    for (k = 0; k < count; k++)
        if (cells[k] != 0)
            return 0;
    return 1;
}

static int zero_tables(void)
{
    int i;
    for (i = 0; i < TABLES; i++)
        if (!zero(tables.cells[i], length[i]))
            return 0;
    return 1;
}

/* ---- the calls */

static uint64_t load(void)
{
    uint64_t code;
    before();
    code = zapelaritz_load(TEXT(deck), ALL_TABLES, ANSWER);
    must(code == ZAPELARITZ_ACCEPTED || zero_tables(), "zero tables");
    must(answer_fits() || zero(answer, answer_length), "zero answer");
    texts_must_stand();
    tables_must_stand(SCHEMA);
    answer_must_stand(answer_length);
    out_must_stand(0);
    return code;
}

static uint64_t merge(uint64_t file)
{
    uint64_t code;
    before();
    code = zapelaritz_merge(TEXT(deck), ALL_TABLES, file, ANSWER);
    out_must_stand(0);
    return after(code, code == ZAPELARITZ_ACCEPTED ? MODEL : TABLES);
}

static uint64_t rollback(uint64_t mark)
{
    uint64_t code;
    before();
    code = zapelaritz_rollback(TEXT(deck), ALL_TABLES, mark, ANSWER);
    out_must_stand(0);
    return after(code, code == ZAPELARITZ_ACCEPTED ? MODEL : TABLES);
}

static uint64_t range(uint64_t element, uint64_t name, uint64_t version)
{
    uint64_t code;
    before();
    code = zapelaritz_range(TEXT(deck), ALL_TABLES, element, name, version, ANSWER);
    out_must_stand(0);
    return after(code, TABLES);
}

static uint64_t mark(void)
{
    uint64_t code;
    before();
    code = zapelaritz_mark(TEXT(deck), ALL_TABLES, ANSWER);
    out_must_stand(0);
    return after(code, TABLES);
}

static uint64_t after_print(uint64_t code)
{
    out_must_stand(code == ZAPELARITZ_ACCEPTED ? answer[0] : 0);
    return after(code, TABLES);
}

static uint64_t model(size_t from)
{
    before();
    return after_print(zapelaritz_print_model(TEXT(deck), ALL_TABLES, from, OUT, ANSWER));
}

static uint64_t trees(size_t from)
{
    before();
    return after_print(zapelaritz_print_trees(TEXT(deck), ALL_TABLES, from, OUT, ANSWER));
}

static uint64_t entries(size_t from)
{
    before();
    return after_print(zapelaritz_print_log(TEXT(deck), ALL_TABLES, from, OUT, ANSWER));
}

/* The five texts, each by one function of the same form: the count of bytes written from `from` on. */

static size_t print_model(size_t from) { return model(from) == ZAPELARITZ_ACCEPTED ? answer[0] : SIZE_MAX; }
static size_t print_trees(size_t from) { return trees(from) == ZAPELARITZ_ACCEPTED ? answer[0] : SIZE_MAX; }
static size_t print_log(size_t from) { return entries(from) == ZAPELARITZ_ACCEPTED ? answer[0] : SIZE_MAX; }

static size_t after_output(size_t count)
{
    out_must_stand(count);
    texts_must_stand();
    tables_must_stand(TABLES);
    answer_must_stand(0);
    return count;
}

static size_t print_output(size_t from)
{
    before();
    return after_output(zapelaritz_print_output(TEXT(deck), from, OUT));
}

static size_t print_calls(size_t from)
{
    before();
    return after_output(zapelaritz_print_calls(TEXT(deck), TEXT(list), from, OUT));
}

static int prints_by_parts(size_t (*print)(size_t), size_t part, const char *expected)
{
    static uint8_t text[2 * OUT_ROOM];
    size_t whole = 0, count;
    out_length = part;
    do {
        count = print(whole);
        if (count > part || count > sizeof text - whole || spoiled != NULL)
            return 0;
        memcpy(text + whole, out, count);
        whole += count;
    } while (count == part);
    return whole == strlen(expected) && memcmp(text, expected, whole) == 0;
}

/* Part by part, in parts of exactly the text's length, and at once. */
static int prints(size_t (*print)(size_t), const char *expected)
{
    size_t whole = strlen(expected);
    return prints_by_parts(print, 1, expected) && prints_by_parts(print, 7, expected)
        && (whole == 0 || prints_by_parts(print, whole, expected)) && prints_by_parts(print, OUT_ROOM - 1, expected);
}

/* ---- what is lent */

static void empty(struct text *t)
{
    memset(t, 0, sizeof *t);
}

static void add(struct text *t, const char *line, int times)
{
    size_t n = strlen(line);
    while (times-- > 0) {
        if (n > TEXT_ROOM - t->length) {
            fprintf(stderr, "calls: a text of the test is too long\n");
            exit(1);
        }
        memcpy(t->bytes + t->length, line, n);
        t->length += n;
    }
}

static struct text text_of(const char *lines)
{
    struct text t;
    empty(&t);
    add(&t, lines, 1);
    return t;
}

/* Right lengths, every cell of every table 7, and a deck. */
static void lend(struct text d)
{
    int i;
    size_t k;
    for (i = 0; i < TABLES; i++) {
        length[i] = right_length[i];
        for (k = 0; k < TABLE_ROOM; k++)
            tables.cells[i][k] = 7;
    }
    answer_length = ZAPELARITZ_ANSWER_SIZE;
    out_length = OUT_ROOM;
    deck = d;
}

static void lend_loaded(struct text d)
{
    lend(d);
    ACCEPTED(load(), 0, 0, 0);
}

static int equal_tables(const struct tables *a, const struct tables *b)
{
    return memcmp(a, b, sizeof *a) == 0;
}

/* ---- texts expected, of README.md */

#define PRINTED_DECK_MODEL "E,0,0,1\nE,1,3,0\nC,2,s,p\n"
#define PRINTED_MODEL "E,0,0,3\nE,1,3,1\nC,2,s,p\nE,1,3,2\nC,2,s,q\nE,1,4,2\nC,2,u,7\n"
#define NAMED_MODEL \
    "E,0,0,7\nE,1,3,5\nE,2,1,0\nC,3,s,engine\nE,2,4,4\nC,3,u,7\nE,1,3,3\nE,2,1,0\nC,3,s,doors\n" \
    "E,1,3,2\nE,2,1,0\nC,3,s,brakes\nE,1,3,4\nE,2,1,0\nC,3,s,lights\n"
#define DEFINITIONS_MODEL \
    "E,0,0,3\nE,1,5,1\nE,2,2,0\nC,3,s,baud\nE,2,6,0\nC,3,u,500\nE,1,5,0\nE,2,2,0\nC,3,s,mode\n" \
    "E,2,6,2\nC,3,e,1\nE,1,5,2\nE,2,2,0\nC,3,s,rate\n"
#define WITHDRAWN_MODEL \
    "E,0,0,5\nE,1,3,0\nE,2,1,0\nC,3,s,engine\nE,2,4,4\nC,3,u,7\nE,1,3,1\nE,2,1,0\nC,3,s,doors\n" \
    "E,1,3,4\nE,2,1,0\nC,3,s,lights\n"
#define WITHDRAWN_LOG \
    "log,8\nrestriction,1,0\nimport,8,0,5,0\nextension,0,1\nrestriction,3,0\nimport,14,0,10,0\n" \
    "import,13,1,11,0\nextension,1,2\nextension,0,2\n"

/* The E and C lines behind the M of named.deck, and its deliveries. */
#define NAMED_DECK_MODEL "E,0,0,1\nE,1,3,0\nE,2,1,0\nC,3,s,engine\nE,1,3,0\nE,2,1,0\nC,3,s,doors\n"
#define NAMED_1 "B,1\nE,0,0,0\nE,1,3,0\nE,2,1,0\nC,3,s,doors\nE,1,3,0\nE,2,1,0\nC,3,s,brakes\n"
#define NAMED_2 \
    "B,2\nE,0,0,0\nE,1,3,0\nE,2,1,0\nC,3,s,engine\nE,2,4,0\nC,3,u,7\nE,1,3,0\nE,2,1,0\nC,3,s,lights\n"
#define PRINTED_1 "B,1\nE,0,0,0\nE,1,3,0\nC,2,s,q\nE,1,4,0\nC,2,u,7\n"
/* p is restricted, q and the 7 are imported from the delivery's root, element 2, and the root gains file 1. */
#define PRINTED_LOG "log,4\nrestriction,1,0\nimport,3,0,2,0\nimport,4,0,2,0\nextension,0,1\n"

static struct text printed, named, definitions, withdraw;

/* ---- tests */

static void sizes(void)
{
    CHECK(ZAPELARITZ_VERSION == 10000 * 0 + 100 * 2 + 0);
    CHECK(zapelaritz_version() == ZAPELARITZ_VERSION);
    CHECK(zapelaritz_deck_limit() == DECK_LIMIT);
    CHECK(zapelaritz_schema_size() == right_length[SCHEMA]);
    CHECK(zapelaritz_elements_size() == right_length[ELEMENTS]);
    CHECK(zapelaritz_model_size() == right_length[MODEL]);
    CHECK(zapelaritz_log_size() == right_length[LOG]);
    CHECK(zapelaritz_answer_size() == ZAPELARITZ_ANSWER_SIZE);
}

/* What is no refusal's number has one text, which no refusal has. */
static void refusal_texts(void)
{
    const uint64_t none[5] = { 15, 254, 256, past_32_bits, UINT64_MAX };
    const char *other = zapelaritz_refusal_text(none[0]);
    uint64_t i, k;
    for (i = 0; i <= ZAPELARITZ_REFUSAL_NO_MARK; i++) {
        CHECK(i < ZAPELARITZ_ACCEPTED);
        CHECK(*zapelaritz_refusal_text(i) != '\0');
        CHECK(strcmp(zapelaritz_refusal_text(i), other) != 0);
        CHECK(strcmp(zapelaritz_refusal_text(i), zapelaritz_refusal_text(ZAPELARITZ_ACCEPTED)) != 0);
        for (k = 0; k < i; k++)
            CHECK(strcmp(zapelaritz_refusal_text(i), zapelaritz_refusal_text(k)) != 0);
    }
    for (k = 0; k < 5; k++)
        CHECK(strcmp(zapelaritz_refusal_text(none[k]), other) == 0);
    CHECK(strcmp(zapelaritz_refusal_text(ZAPELARITZ_ACCEPTED), "accepted") == 0);
    CHECK(strcmp(zapelaritz_refusal_text(ZAPELARITZ_REFUSAL_LOG_FULL), "the log is full") == 0);
}

static void refused_loads(void)
{
    lend(text_of("T,0,5,0,0\n"));
    REFUSED(load(), ZAPELARITZ_REFUSAL_FORM, 1, 0);
    lend(text_of("G,0,0,0\n"));
    REFUSED(load(), ZAPELARITZ_REFUSAL_SCHEMA_RULE, 1, 0);
    lend(text_of("T,0,0,0,0\nM\n"));
    REFUSED(load(), ZAPELARITZ_REFUSAL_TREE_RULE, 2, 0);
    lend(text_of("T,0,0,0,0\nF,0,0\nE,32,0,0\n"));
    REFUSED(load(), ZAPELARITZ_REFUSAL_LIMIT, 3, 0);
    lend(text_of(""));
    REFUSED(load(), ZAPELARITZ_REFUSAL_TREE_RULE, 0, 0);
    lend(printed);
    deck.length--;
    REFUSED(load(), ZAPELARITZ_REFUSAL_FORM, 16, 0);
    lend_loaded(named);
    deck = text_of("X\n");
    REFUSED(load(), ZAPELARITZ_REFUSAL_FORM, 1, 0);
    REFUSED(merge(1), ZAPELARITZ_REFUSAL_TABLES, 0, 0);
}

static void longest_deck(void)
{
    struct text d = text_of("T,0,3,0,0\nF,0,0\nM\nE,0,0,1\nC,1,s,");
    add(&d, "x", DECK_LIMIT - 1 - (int)d.length);
    add(&d, "\n", 1);
    CHECK(d.length == zapelaritz_deck_limit());
    lend_loaded(d);
    d.bytes[d.length - 1] = 'x';
    add(&d, "\n", 1);
    lend(d);
    REFUSED(load(), ZAPELARITZ_REFUSAL_LIMIT, 0, 0);
}

static uint64_t merge_1(void) { return merge(1); }
static uint64_t rollback_0(void) { return rollback(0); }
static uint64_t range_0(void) { return range(0, 3, 2); }
static uint64_t model_0(void) { return model(0); }
static uint64_t trees_0(void) { return trees(0); }
static uint64_t log_0(void) { return entries(0); }

/* The calls on loaded tables. Each is accepted on those of named.deck. */
enum { CALLS = 7 };
static uint64_t (*const calls[CALLS])(void) = { merge_1, rollback_0, range_0, mark, model_0, trees_0, log_0 };

static void each_call_refuses_the_tables(void)
{
    int i;
    for (i = 0; i < CALLS; i++)
        REFUSED(calls[i](), ZAPELARITZ_REFUSAL_TABLES, 0, 0);
}

static void wrong_table_lengths(void)
{
    int i, k;
    for (i = 0; i < TABLES; i++) {
        const size_t wrong[5] = { 0, 1, right_length[i] - 1, right_length[i] + 1, right_length[(i + 1) % TABLES] };
        for (k = 0; k < 5; k++) {
            lend(named);
            length[i] = wrong[k];
            REFUSED(load(), ZAPELARITZ_REFUSAL_TABLES, 0, 0);
            lend_loaded(named);
            length[i] = wrong[k];
            each_call_refuses_the_tables();
        }
    }
}

static void no_slices(void)
{
    lend(text_of(""));
    memset(length, 0, sizeof length);
    REFUSED(load(), ZAPELARITZ_REFUSAL_TABLES, 0, 0);
    each_call_refuses_the_tables();
    answer_length = 0;
    WRONG_SIZE(load());
    list = text_of("");
    CHECK(prints(print_output, "deck,3,0\n"));
    CHECK(prints(print_calls, "deck,3,0\n"));
    out_length = 0;
    CHECK(print_output(0) == 0 && spoiled == NULL);
    CHECK(print_calls(0) == 0 && spoiled == NULL);
}

/* A bad deck and an answer of a wrong size: the model that was loaded before does not stay. */
static void load_with_wrong_answer(void)
{
    lend_loaded(named);
    answer_length = 2;
    deck = text_of("X\n");
    WRONG_SIZE(load());
    CHECK(zero_tables());
    deck = named;
    answer_length = ZAPELARITZ_ANSWER_SIZE;
    REFUSED(merge(1), ZAPELARITZ_REFUSAL_TABLES, 0, 0);
}

static void answer_lengths(void)
{
    size_t lent;
    int i;
    for (lent = 0; lent <= 6; lent++) {
        if (lent == ZAPELARITZ_ANSWER_SIZE)
            continue;
        for (i = 0; i < CALLS; i++) {
            lend_loaded(named);
            answer_length = lent;
            WRONG_SIZE(calls[i]());
        }
        length[LOG] = 0;
        WRONG_SIZE(merge(1));
        WRONG_SIZE(load());
        lend_loaded(named);
        answer_length = lent;
        WRONG_SIZE(load());
        CHECK(zero_tables());
        CHECK(zero(answer, lent));
    }
    lend(named);
    ACCEPTED(load(), 0, 0, 0);
    ACCEPTED(merge(1), 1, 1, 1);
    ACCEPTED(rollback(0), 3, 0, 0);
    ACCEPTED(range(0, 3, 2), 0, 2, 0);
    ACCEPTED(mark(), 0, 0, 0);
    ACCEPTED(model(0), strlen(NAMED_DECK_MODEL), 0, 0);
    ACCEPTED(trees(0), strlen("M\n" NAMED_DECK_MODEL NAMED_1 NAMED_2), 0, 0);
    ACCEPTED(entries(0), strlen("log,0\n"), 0, 0);
}

static void no_room(void)
{
    lend_loaded(named);
    out_length = 0;
    ACCEPTED(model(0), 0, 0, 0);
    ACCEPTED(trees(1), 0, 0, 0);
    ACCEPTED(entries(SIZE_MAX), 0, 0, 0);
}

/* The last string of named.deck ends before its last LF. */
static void other_decks(void)
{
    lend_loaded(named);
    deck.length = 0;
    each_call_refuses_the_tables();
    deck.length = named.length - 2;
    each_call_refuses_the_tables();
    deck.length = named.length - 1;
    ACCEPTED(merge(1), 1, 1, 1);
}

static void forge(int i, size_t at, uint64_t number)
{
    lend_loaded(named);
    tables.cells[i][at] = number;
    each_call_refuses_the_tables();
}

/* The first number of each table is a count; the last is not used, and has to be 0. */
static void forged_tables(void)
{
    int i;
    for (i = 0; i < TABLES; i++) {
        forge(i, 0, UINT64_MAX);
        forge(i, 0, past_32_bits);
        forge(i, right_length[i] - 1, 1);
        forge(i, right_length[i] - 1, UINT64_MAX);
    }
    lend(named);
    each_call_refuses_the_tables();
}

static void largest_numbers(void)
{
    lend_loaded(named);
    REFUSED(merge(0), ZAPELARITZ_REFUSAL_NOT_WAITING, 0, 0);
    REFUSED(merge(3), ZAPELARITZ_REFUSAL_NOT_WAITING, 0, 0);
    REFUSED(merge(64), ZAPELARITZ_REFUSAL_NOT_WAITING, 0, 0);
    REFUSED(merge(past_32_bits + 1), ZAPELARITZ_REFUSAL_NOT_WAITING, 0, 0);
    REFUSED(merge(UINT64_MAX), ZAPELARITZ_REFUSAL_NOT_WAITING, 0, 0);
    REFUSED(rollback(1), ZAPELARITZ_REFUSAL_NO_MARK, 0, 0);
    REFUSED(rollback(past_32_bits), ZAPELARITZ_REFUSAL_NO_MARK, 0, 0);
    REFUSED(rollback(UINT64_MAX), ZAPELARITZ_REFUSAL_NO_MARK, 0, 0);
    REFUSED(range(past_32_bits, 3, 2), ZAPELARITZ_REFUSAL_NO_SUCH_ELEMENT, 0, 0);
    REFUSED(range(UINT64_MAX, 3, 2), ZAPELARITZ_REFUSAL_NO_SUCH_ELEMENT, 0, 0);
    REFUSED(range(0, past_32_bits + 3, 2), ZAPELARITZ_REFUSAL_NOT_IN_VERSION, 0, past_32_bits + 3);
    REFUSED(range(0, UINT64_MAX, 2), ZAPELARITZ_REFUSAL_NOT_IN_VERSION, 0, UINT64_MAX);
    REFUSED(range(0, 3, past_32_bits + 2), ZAPELARITZ_REFUSAL_NO_SUCH_ELEMENT, 0, 0);
    REFUSED(range(0, 3, UINT64_MAX), ZAPELARITZ_REFUSAL_NO_SUCH_ELEMENT, 0, 0);
    REFUSED(range(UINT64_MAX, UINT64_MAX, UINT64_MAX), ZAPELARITZ_REFUSAL_NO_SUCH_ELEMENT, 0, 0);
    ACCEPTED(model(past_32_bits), 0, 0, 0);
    ACCEPTED(model(SIZE_MAX), 0, 0, 0);
    ACCEPTED(trees(past_32_bits), 0, 0, 0);
    ACCEPTED(trees(SIZE_MAX), 0, 0, 0);
    ACCEPTED(entries(past_32_bits), 0, 0, 0);
    ACCEPTED(entries(SIZE_MAX), 0, 0, 0);
    list = withdraw;
    CHECK(print_output(past_32_bits) == 0 && spoiled == NULL);
    CHECK(print_output(SIZE_MAX) == 0 && spoiled == NULL);
    CHECK(print_calls(past_32_bits) == 0 && spoiled == NULL);
    CHECK(print_calls(SIZE_MAX) == 0 && spoiled == NULL);
}

static void ranges(void)
{
    lend_loaded(text_of("T,0,0,0,0\nT,1,4,0,0\nS,0,0,3,1,2,1\nS,0,1,4,1,2,1\nS,0,2,5,1,0,1\nF,0,0\n"
                        "M\nE,0,0,1\nE,1,3,0\nE,1,4,0\nE,1,5,0\n"));
    ACCEPTED(range(0, 4, 0), 1, 2, 0);
    REFUSED(range(0, 5, 0), ZAPELARITZ_REFUSAL_NO_PLACE, 0, 0);
    REFUSED(range(0, 4, 1), ZAPELARITZ_REFUSAL_NOT_IN_VERSION, 0, 4);
    REFUSED(range(0, 4, 32), ZAPELARITZ_REFUSAL_NO_SUCH_ELEMENT, 0, 0);
    lend_loaded(named);
    ACCEPTED(range(0, 3, 2), 0, 2, 0);
    ACCEPTED(range(1, 4, 3), 1, 1, 0);
    REFUSED(range(1, 9, 2), ZAPELARITZ_REFUSAL_NOT_IN_VERSION, 1, 9);
    REFUSED(range(3, 1, 2), ZAPELARITZ_REFUSAL_NO_PLACE, 3, 0);
    REFUSED(range(4, 3, 2), ZAPELARITZ_REFUSAL_CHARACTERS_PARENT, 4, 0);
    REFUSED(range(15, 3, 2), ZAPELARITZ_REFUSAL_CHARACTERS_PARENT, 15, 0);
    REFUSED(range(16, 3, 2), ZAPELARITZ_REFUSAL_NO_SUCH_ELEMENT, 0, 0);
}

static void printed_example(void)
{
    static struct tables loaded, merged;
    lend_loaded(printed);
    loaded = tables;
    ACCEPTED(mark(), 0, 0, 0);
    CHECK(prints(print_model, PRINTED_DECK_MODEL));
    CHECK(prints(print_trees, "M\n" PRINTED_DECK_MODEL PRINTED_1));
    CHECK(prints(print_log, "log,0\n"));
    CHECK(prints(print_output, "merged,1,2,1,1\n" PRINTED_MODEL));
    ACCEPTED(merge(1), 2, 1, 1);
    merged = tables;
    ACCEPTED(mark(), 4, 0, 0);
    CHECK(prints(print_model, PRINTED_MODEL));
    CHECK(prints(print_trees, "M\n" PRINTED_MODEL));
    CHECK(prints(print_log, PRINTED_LOG));
    REFUSED(merge(1), ZAPELARITZ_REFUSAL_NOT_WAITING, 0, 0);
    REFUSED(rollback(3), ZAPELARITZ_REFUSAL_NO_MARK, 0, 0);
    REFUSED(rollback(5), ZAPELARITZ_REFUSAL_NO_MARK, 0, 0);
    ACCEPTED(rollback(4), 0, 0, 0);
    CHECK(equal_tables(&tables, &merged));
    ACCEPTED(rollback(0), 4, 0, 0);
    CHECK(equal_tables(&tables, &loaded));
    ACCEPTED(merge(1), 2, 1, 1);
    CHECK(equal_tables(&tables, &merged));
}

static void withdrawn(void)
{
    static struct tables loaded, first;
    lend_loaded(named);
    loaded = tables;
    CHECK(prints(print_model, NAMED_DECK_MODEL));
    CHECK(prints(print_trees, "M\n" NAMED_DECK_MODEL NAMED_1 NAMED_2));
    ACCEPTED(merge(1), 1, 1, 1);
    first = tables;
    ACCEPTED(mark(), 3, 0, 0);
    ACCEPTED(merge(2), 2, 1, 2);
    ACCEPTED(mark(), 8, 0, 0);
    CHECK(prints(print_model, NAMED_MODEL));
    CHECK(prints(print_trees, "M\n" NAMED_MODEL));
    CHECK(prints(print_log, WITHDRAWN_LOG));
    ACCEPTED(rollback(3), 5, 0, 0);
    CHECK(equal_tables(&tables, &first));
    ACCEPTED(merge(2), 2, 1, 2);
    ACCEPTED(rollback(0), 8, 0, 0);
    CHECK(equal_tables(&tables, &loaded));
    ACCEPTED(merge(2), 2, 1, 1);
    ACCEPTED(mark(), 4, 0, 0);
    CHECK(prints(print_model, WITHDRAWN_MODEL));
    CHECK(prints(print_trees, "M\n" WITHDRAWN_MODEL NAMED_1));
}

static void printed_texts(void)
{
    lend(named);
    list = withdraw;
    CHECK(prints(print_output, "merged,1,1,1,1\nmerged,2,2,1,2\n" NAMED_MODEL));
    CHECK(prints(print_calls, "merged,1,1,1,1\nmerged,2,2,1,2\n" WITHDRAWN_LOG "rolledback,0,8\nmerged,2,2,1,1\n" WITHDRAWN_MODEL));
    list = text_of("");
    CHECK(prints(print_calls, ""));
    list = text_of("rollback,0\nrollback,00\n");
    CHECK(prints(print_calls, "rolledback,0,0\ncalls,2\n"));
    lend(definitions);
    CHECK(prints(print_output, "merged,1,2,1,1\nrefused,2,6,1,-\n" DEFINITIONS_MODEL));
    lend(text_of("T,0,5,0,0\n"));
    CHECK(prints(print_output, "deck,1,1\n"));
    CHECK(prints(print_calls, "deck,1,1\n"));
}

static void refused_merges(void)
{
    lend_loaded(definitions);
    ACCEPTED(merge(1), 2, 1, 1);
    REFUSED(merge(2), ZAPELARITZ_REFUSAL_UNMERGEABLE, 1, 0);
    CHECK(prints(print_model, DEFINITIONS_MODEL));
    ACCEPTED(mark(), 4, 0, 0);
    lend_loaded(text_of("T,0,0,0,0\nS,0,0,3,0,2,1\nF,0,0\nF,1,1\nM\nE,0,0,1\nB,1\nE,0,0,0\nE,1,3,0\n"));
    REFUSED(merge(1), ZAPELARITZ_REFUSAL_NOT_IN_VERSION, 0, 3);
    lend_loaded(text_of("T,0,3,0,0\nS,0,0,2,0,2,1\nS,0,1,3,0,2,1\nF,0,0\nF,1,0\nM\nE,0,0,1\nE,1,3,0\nE,1,3,0\n"
                        "B,1\nE,0,0,0\nE,1,3,0\nE,2,2,0\nC,3,s,d\nE,1,3,0\n"));
    REFUSED(merge(1), ZAPELARITZ_REFUSAL_USED_TWICE, 6, 0);
}

/* The deck of refusal 9 in docs/DECK.md, with so many elements of name 4. */
static struct text log_deck(int elements)
{
    struct text d = text_of(
        "T,0,2,0,1\nT,1,1,0,0\nT,2,4,0,0\nS,0,0,3,1,2,1\nS,0,1,4,2,2,1\nS,1,0,5,2,0,1\nF,0,0\nF,1,0\nF,2,0\nF,3,0\nF,4,0\n"
        "M\nE,0,0,1\nE,1,3,0\nE,2,5,0\nC,3,u,0\n"
        "B,1\nE,0,0,0\nE,1,3,0\nE,2,5,0\nC,3,u,1\n"
        "B,2\nE,0,0,0\nE,1,3,0\nE,2,5,0\nC,3,u,2\n"
        "B,3\nE,0,0,0\nE,1,3,0\nE,2,5,0\nC,3,u,3\n"
        "B,4\nE,0,0,0\nE,1,3,0\nE,1,3,0\nE,1,3,0\nE,1,3,0\n");
    add(&d, "E,1,4,0\n", elements);
    return d;
}

static void merge_three(void)
{
    ACCEPTED(merge(1), 1, 1, 1);
    ACCEPTED(merge(2), 1, 1, 1);
    ACCEPTED(merge(3), 1, 1, 1);
}

/* The fourth delivery imports the elements of name 4, restricts four values, and extends four sets and the root's. */
static void full_log(void)
{
    lend_loaded(log_deck(1006));
    merge_three();
    ACCEPTED(merge(4), 1006, 4, 5);
    ACCEPTED(mark(), 1024, 0, 0);
    ACCEPTED(rollback(9), 1015, 0, 0);
    ACCEPTED(rollback(0), 9, 0, 0);
    lend_loaded(log_deck(1007));
    merge_three();
    REFUSED(merge(4), ZAPELARITZ_REFUSAL_LOG_FULL, 0, 0);
    ACCEPTED(mark(), 9, 0, 0);
}

/* So many texts and one delivered element: a merge makes one item more. */
static struct text content_deck(int texts)
{
    struct text d = text_of("T,0,3,0,0\nS,0,0,3,0,2,1\nF,0,0\nF,1,0\nM\nE,0,0,1\n");
    add(&d, "C,1,u,0\n", texts);
    add(&d, "B,1\nE,0,0,0\nE,1,3,0\n", 1);
    return d;
}

static void full_content(void)
{
    lend_loaded(content_deck(2046));
    ACCEPTED(merge(1), 1, 0, 1);
    lend_loaded(content_deck(2047));
    REFUSED(merge(1), ZAPELARITZ_REFUSAL_CONTENT_FULL, 0, 0);
}

/* A chain of elements of name 3, each in the one before, down to depth 30. */
static void add_chain(struct text *d, const char *root)
{
    char line[24];
    int depth;
    add(d, root, 1);
    for (depth = 1; depth <= 30; depth++) {
        sprintf(line, "E,%d,3,0\n", depth);
        add(d, line, 1);
    }
}

/* The largest depth, 31: every element of the model is paired, and a 3 is imported into the last 3, before its 4. */
static void deepest_merge(void)
{
    static struct text d, expected;
    d = text_of("T,0,0,0,0\nT,1,4,0,0\nS,0,0,3,0,2,1\nS,0,1,4,1,2,1\nF,0,0\nF,1,0\nM\n");
    add_chain(&d, "E,0,0,1\n");
    add(&d, "E,31,4,0\nB,1\n", 1);
    add_chain(&d, "E,0,0,0\n");
    add(&d, "E,31,3,0\nE,31,4,0\n", 1);
    lend_loaded(d);
    empty(&expected);
    add(&expected, "merged,1,1,0,1\n", 1);
    add_chain(&expected, "E,0,0,3\n");
    add(&expected, "E,31,3,2\nE,31,4,0\n", 1);
    list = text_of("merge,1\nmodel\n");
    ACCEPTED(merge(1), 1, 0, 1);
    CHECK(prints(print_output, (const char *)expected.bytes));
    CHECK(prints(print_calls, (const char *)expected.bytes));
    CHECK(prints(print_model, (const char *)expected.bytes + strlen("merged,1,1,0,1\n")));
}

static struct text read_text(const char *path)
{
    struct text t;
    FILE *f = fopen(path, "rb");
    if (f == NULL) {
        perror(path);
        exit(1);
    }
    empty(&t);
    t.length = fread(t.bytes, 1, TEXT_ROOM, f);
    if (ferror(f) || !feof(f)) {
        fprintf(stderr, "calls: %s: not read to its end\n", path);
        exit(1);
    }
    fclose(f);
    return t;
}

int main(int argc, char **argv)
{
    if (argc != 5) {
        fprintf(stderr, "usage: calls printed.deck named.deck definitions.deck withdraw.calls\n");
        return 1;
    }
    printed = read_text(argv[1]);
    named = read_text(argv[2]);
    definitions = read_text(argv[3]);
    withdraw = read_text(argv[4]);
    sizes();
    refusal_texts();
    refused_loads();
    longest_deck();
    wrong_table_lengths();
    no_slices();
    answer_lengths();
    load_with_wrong_answer();
    no_room();
    other_decks();
    forged_tables();
    largest_numbers();
    ranges();
    printed_example();
    withdrawn();
    printed_texts();
    refused_merges();
    full_log();
    full_content();
    deepest_merge();
    printf("calls: %d checks, %d failed\n", checks, failures);
    return failures == 0 ? 0 : 1;
}
