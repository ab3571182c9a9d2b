/*
 * Zapelaritz: a merge engine for AUTOSAR ARXML deliveries. The library loads a deck (schema, files, model and waiting
 * deliveries, as text) into tables that the caller lends, merges deliveries into the model with three counts (elements
 * imported, elements restricted to the older files, file sets extended), takes the latest merges back, and prints. Every
 * function is proved to meet its contract for any bytes and any numbers. docs/DECK.md describes decks, calls and refusals.
 *
 * Link with target/staticlib/libzapelaritz_c.a, which `tools/build zapelaritz_c` proves and writes, on x86-64 alone. Of
 * the C library it needs memcpy, memmove and memset.
 *
 * Slices. Each slice passes as a pointer and then a length: of deck, calls and out in bytes, of the tables and the answer
 * in numbers. The pointer may be null where the length is 0. A slice that passes as a pointer to const is only read. A
 * slice that a call may write must not overlap another slice of that call.
 *
 * Who owns what. The caller owns the deck, the tables, the answer and the output. They are lent for the call alone: the
 * library keeps no pointer, allocates nothing and frees nothing. Strings are not copied from the deck, so every call on
 * loaded tables has to be lent the bytes that were loaded; with other bytes it is safe, but reads other strings or refuses
 * (0). The tables hold numbers and no pointers: they may be copied, moved and put back.
 *
 * What the tables may hold. Any numbers are safe. Load writes over them. Every other call tests its tables first and
 * refuses (0) where a size is wrong, a number is past its range or a rule is broken that load keeps.
 *
 * Forged tables. Do not write into loaded tables: forged ones that pass the test get the answers that the rules give for
 * them. Printing takes time in proportion to `from` and the room, whatever the tables. After a load each element is reached
 * at most once, so that a merge visits no more pairs than the deck has elements. A merge of forged tables whose lists share
 * elements can visit each path from a root, and there is no useful bound: with 31 depths of 8 elements, each listing all 8
 * of the next, it does not end in any time that one could wait.
 *
 * Threads. No function holds state. Calls on different slices may run at the same time, and so may calls that share slices
 * and only read them. A slice that one call writes must not be used by another call at the same time.
 *
 * Stack. Every call runs on the caller's stack. As measured on trees of the largest depth, of a library that an older
 * toolchain built, a merge takes up to 1,100,000 bytes of it, zapelaritz_print_output and zapelaritz_print_calls up to
 * 1,290,000, and every other call up to 14,000. No theorem bounds the stack, and nothing tests it: a call that runs out of it
 * crashes at the guard page. A thread that merges should have 2 MiB.
 */
#ifndef ZAPELARITZ_H
#define ZAPELARITZ_H

#include <stddef.h>
#include <stdint.h>

#ifdef __cplusplus
extern "C" {
#endif

/* The version of this header; zapelaritz_version is that of the library: 10000 * major + 100 * minor + patch. */
#define ZAPELARITZ_VERSION 200

/* What a call returns: this where it is accepted, else the refusal's number, which is below it. 0 is a refusal. */
enum zapelaritz_code {
    ZAPELARITZ_ACCEPTED = 255
};

/*
 * The refusals: what a refused call returns, and the first number of its answer.
 *
 * Behind it: for 1 to 4 the line of the deck, from 1 (0: the deck as a whole); for 6, 8, 12 and 13 an element; for 7 an
 * element and a name. All other numbers of the answer are 0. So a 0 in the second place is element 0 for 6, 7, 8, 12 and
 * 13, and no element for the rest.
 *
 * The answer is a lent table too. Where it has not ZAPELARITZ_ANSWER_SIZE numbers, every call is refused (0), before
 * anything else. Load then leaves the four tables and the answer zero to the lengths that were lent; every other call leaves
 * every slice as it stood, the answer too.
 */
enum zapelaritz_refusal {
    /* every call: a table of a wrong size; load apart: a number past its range, or a rule broken that load keeps */
    ZAPELARITZ_REFUSAL_TABLES = 0,
    /* load: the form of a line */
    ZAPELARITZ_REFUSAL_FORM = 1,
    /* load: a rule of the schema */
    ZAPELARITZ_REFUSAL_SCHEMA_RULE = 2,
    /* load: a rule of the trees */
    ZAPELARITZ_REFUSAL_TREE_RULE = 3,
    /* load: a limit; a deck that is too long has line 0 */
    ZAPELARITZ_REFUSAL_LIMIT = 4,
    /* merge: no delivery of that file waits */
    ZAPELARITZ_REFUSAL_NOT_WAITING = 5,
    /* merge: the delivery cannot be merged; with the element in whose content it failed */
    ZAPELARITZ_REFUSAL_UNMERGEABLE = 6,
    /* merge, range: the name is not known in the version; with the parent and the name */
    ZAPELARITZ_REFUSAL_NOT_IN_VERSION = 7,
    /* merge: a delivered element would be used twice; with the first such element */
    ZAPELARITZ_REFUSAL_USED_TWICE = 8,
    /* merge: the log is full, and a 1,025th entry is due */
    ZAPELARITZ_REFUSAL_LOG_FULL = 9,
    /* merge: the content lists are full, and an import would make a 2,049th item */
    ZAPELARITZ_REFUSAL_CONTENT_FULL = 10,
    /* range: no such element, or a version over 31 */
    ZAPELARITZ_REFUSAL_NO_SUCH_ELEMENT = 11,
    /* range: the element is of mode 4 (characters), which has no children; with the element */
    ZAPELARITZ_REFUSAL_CHARACTERS_PARENT = 12,
    /* range: there is no place for the name; with the element */
    ZAPELARITZ_REFUSAL_NO_PLACE = 13,
    /* rollback: no mark; the number is above the log's length, or not 0 and no merge ended there */
    ZAPELARITZ_REFUSAL_NO_MARK = 14
};

/* The numbers of an answer. */
#define ZAPELARITZ_ANSWER_SIZE 4

/* ---- version and sizes */

/* ZAPELARITZ_VERSION, where header and library are of one version */
uint64_t zapelaritz_version(void);

/* The bytes of the longest deck that loads. A longer one may be lent; load refuses it (4, line 0). */
size_t zapelaritz_deck_limit(void);

/* How many numbers each table has, no more and no fewer. All four together are under 220,000 bytes. */
size_t zapelaritz_schema_size(void);
size_t zapelaritz_elements_size(void);
size_t zapelaritz_model_size(void);
size_t zapelaritz_log_size(void);

/* ZAPELARITZ_ANSWER_SIZE */
size_t zapelaritz_answer_size(void);

/* ---- calls on lent tables; each returns ZAPELARITZ_ACCEPTED or the refusal's number
 *
 * The answer of an accepted call has the results named below, that of a refused one its number, and then the line or the
 * element and the name. Zeros stand behind them.
 */

/*
 * Loads a deck into the four tables; what they held is lost. The log is empty then, and every delivery waits.
 * Accepted: nothing. Refused: 0 to 4, line; all four tables become zero to the lengths that were lent.
 */
uint64_t zapelaritz_load(
    const uint8_t *deck, size_t deck_length,
    uint64_t *schema, size_t schema_length,
    uint64_t *elements, size_t elements_length,
    uint64_t *model, size_t model_length,
    uint64_t *log, size_t log_length,
    uint64_t *answer, size_t answer_length);

/*
 * Merges the waiting delivery of a file into the model.
 * Accepted: imports, restrictions, extensions. Refused: 0 or 5 to 10, element, name; model and log stay as they stood.
 */
uint64_t zapelaritz_merge(
    const uint8_t *deck, size_t deck_length,
    const uint64_t *schema, size_t schema_length,
    const uint64_t *elements, size_t elements_length,
    uint64_t *model, size_t model_length,
    uint64_t *log, size_t log_length,
    uint64_t file,
    uint64_t *answer, size_t answer_length);

/*
 * Takes back every merge since a mark; their deliveries wait again. A mark is 0, or what zapelaritz_mark answered behind
 * the last merge that is to stay.
 * Accepted: the entries taken off the log (the sum of the counts of the merges taken back). Refused: 0 or 14; model and
 * log stay as they stood.
 */
uint64_t zapelaritz_rollback(
    const uint8_t *deck, size_t deck_length,
    const uint64_t *schema, size_t schema_length,
    const uint64_t *elements, size_t elements_length,
    uint64_t *model, size_t model_length,
    uint64_t *log, size_t log_length,
    uint64_t mark,
    uint64_t *answer, size_t answer_length);

/*
 * The places in an element's content where a child of a name may be put, in a version.
 * Accepted: the first place, the last place. Refused: 0, 7 or 11 to 13, element, name.
 */
uint64_t zapelaritz_range(
    const uint8_t *deck, size_t deck_length,
    const uint64_t *schema, size_t schema_length,
    const uint64_t *elements, size_t elements_length,
    const uint64_t *model, size_t model_length,
    const uint64_t *log, size_t log_length,
    uint64_t element, uint64_t name, uint64_t version,
    uint64_t *answer, size_t answer_length);

/*
 * The mark of now, which is the log's length.
 * Accepted: the mark. Refused: 0.
 */
uint64_t zapelaritz_mark(
    const uint8_t *deck, size_t deck_length,
    const uint64_t *schema, size_t schema_length,
    const uint64_t *elements, size_t elements_length,
    const uint64_t *model, size_t model_length,
    const uint64_t *log, size_t log_length,
    uint64_t *answer, size_t answer_length);

/* ---- printing in parts
 *
 * Each call writes the bytes of a text from byte `from` on, as many as `out` has room for, and gives their count. A count
 * smaller than the room means that the text ended. To print all, begin at 0 and call again with `from` raised by the count.
 * No byte with value 0 is put behind the text. What `out` holds behind the count stays.
 */

/*
 * What the tables say, each as the call of that name in a list of calls prints it (docs/DECK.md): the model's E and C lines;
 * M, the model, and each delivery that waits, behind its B line; the log's length and its entries, oldest first. Each returns
 * ZAPELARITZ_ACCEPTED or the refusal's number.
 * Accepted: the count of bytes written. Refused: 0, and nothing is written.
 */
uint64_t zapelaritz_print_model(
    const uint8_t *deck, size_t deck_length,
    const uint64_t *schema, size_t schema_length,
    const uint64_t *elements, size_t elements_length,
    const uint64_t *model, size_t model_length,
    const uint64_t *log, size_t log_length,
    size_t from,
    uint8_t *out, size_t out_length,
    uint64_t *answer, size_t answer_length);

uint64_t zapelaritz_print_trees(
    const uint8_t *deck, size_t deck_length,
    const uint64_t *schema, size_t schema_length,
    const uint64_t *elements, size_t elements_length,
    const uint64_t *model, size_t model_length,
    const uint64_t *log, size_t log_length,
    size_t from,
    uint8_t *out, size_t out_length,
    uint64_t *answer, size_t answer_length);

uint64_t zapelaritz_print_log(
    const uint8_t *deck, size_t deck_length,
    const uint64_t *schema, size_t schema_length,
    const uint64_t *elements, size_t elements_length,
    const uint64_t *model, size_t model_length,
    const uint64_t *log, size_t log_length,
    size_t from,
    uint8_t *out, size_t out_length,
    uint64_t *answer, size_t answer_length);

/* What the program prints for a deck: every delivery merged, an answer for each, and the model. Returns the count. */
size_t zapelaritz_print_output(
    const uint8_t *deck, size_t deck_length,
    size_t from,
    uint8_t *out, size_t out_length);

/* What the program prints for a deck and a list of calls. Returns the count. */
size_t zapelaritz_print_calls(
    const uint8_t *deck, size_t deck_length,
    const uint8_t *calls, size_t calls_length,
    size_t from,
    uint8_t *out, size_t out_length);

/* ---- words */

/* One sentence for what a call returned. */
static inline const char *zapelaritz_refusal_text(uint64_t number)
{
    switch (number) {
    case ZAPELARITZ_REFUSAL_TABLES: return "a lent table has a wrong size, or holds what load would not leave";
    case ZAPELARITZ_REFUSAL_FORM: return "a line of the deck has a wrong form";
    case ZAPELARITZ_REFUSAL_SCHEMA_RULE: return "the deck breaks a rule of the schema";
    case ZAPELARITZ_REFUSAL_TREE_RULE: return "the deck breaks a rule of the trees";
    case ZAPELARITZ_REFUSAL_LIMIT: return "the deck is over a limit";
    case ZAPELARITZ_REFUSAL_NOT_WAITING: return "no delivery of that file waits";
    case ZAPELARITZ_REFUSAL_UNMERGEABLE: return "the delivery cannot be merged";
    case ZAPELARITZ_REFUSAL_NOT_IN_VERSION: return "the name is not known in the version";
    case ZAPELARITZ_REFUSAL_USED_TWICE: return "a delivered element would be used twice";
    case ZAPELARITZ_REFUSAL_LOG_FULL: return "the log is full";
    case ZAPELARITZ_REFUSAL_CONTENT_FULL: return "the content lists are full";
    case ZAPELARITZ_REFUSAL_NO_SUCH_ELEMENT: return "there is no such element, or the version is over 31";
    case ZAPELARITZ_REFUSAL_CHARACTERS_PARENT: return "the element is of characters and has no children";
    case ZAPELARITZ_REFUSAL_NO_PLACE: return "there is no place for the name";
    case ZAPELARITZ_REFUSAL_NO_MARK: return "the number is no mark";
    case ZAPELARITZ_ACCEPTED: return "accepted";
    default: return "not a refusal's number";
    }
}

#ifdef __cplusplus
}
#endif

#endif
