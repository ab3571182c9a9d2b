/*
 * withdraw DECK FILE...: loads a deck, merges the deliveries of the files in the order given, prints an answer for each and
 * then the model, and withdraws them all again. The lines are those of the program (docs/DECK.md, "Calls and answers").
 *
 *     cc -std=c99 -I include examples/withdraw.c target/staticlib/libzapelaritz_c.a -o withdraw
 *     ./withdraw examples/named.deck 1 2
 */
#include <errno.h>
#include <inttypes.h>
#include <stdio.h>
#include <stdlib.h>
#include <string.h>

#include "zapelaritz.h"

struct merger {
    uint8_t *deck;
    size_t deck_length;
    uint64_t *schema, *elements, *model, *log;
    uint64_t answer[ZAPELARITZ_ANSWER_SIZE];
};

/* The slices of a call, each with its length. */
#define TABLES(m) \
    (m)->deck, (m)->deck_length, (m)->schema, zapelaritz_schema_size(), (m)->elements, zapelaritz_elements_size(), \
        (m)->model, zapelaritz_model_size(), (m)->log, zapelaritz_log_size()
#define ANSWER(m) (m)->answer, ZAPELARITZ_ANSWER_SIZE

static void fail(const char *what, const char *why)
{
    fprintf(stderr, "withdraw: %s: %s\n", what, why);
    exit(1);
}

static void must_accept(uint64_t code, const char *call)
{
    if (code != ZAPELARITZ_ACCEPTED)
        fail(call, zapelaritz_refusal_text(code));
}

static void *room_for(size_t count, size_t size)
{
    void *room = calloc(count, size);
    if (room == NULL)
        fail("memory", strerror(errno));
    return room;
}

/* As far as one byte more than a deck may have, which load refuses. */
static void read_deck(struct merger *m, const char *path)
{
    size_t limit = zapelaritz_deck_limit();
    FILE *f = fopen(path, "rb");
    if (f == NULL)
        fail(path, strerror(errno));
    m->deck = room_for(limit + 1, 1);
    m->deck_length = fread(m->deck, 1, limit + 1, f);
    if (ferror(f))
        fail(path, strerror(errno));
    fclose(f);
}

static void load(struct merger *m)
{
    uint64_t code;
    m->schema = room_for(zapelaritz_schema_size(), sizeof(uint64_t));
    m->elements = room_for(zapelaritz_elements_size(), sizeof(uint64_t));
    m->model = room_for(zapelaritz_model_size(), sizeof(uint64_t));
    m->log = room_for(zapelaritz_log_size(), sizeof(uint64_t));
    code = zapelaritz_load(TABLES(m), ANSWER(m));
    if (code == ZAPELARITZ_ACCEPTED)
        return;
    printf("deck,%" PRIu64 ",%" PRIu64 "\n", code, m->answer[1]);
    fail("load", zapelaritz_refusal_text(code));
}

/* The code of a merge tells what its answer has: counts, an element and a name, an element, or nothing more. */
static void print_answer(uint64_t file, uint64_t code, const uint64_t *answer)
{
    switch (code) {
    case ZAPELARITZ_ACCEPTED:
        printf("merged,%" PRIu64 ",%" PRIu64 ",%" PRIu64 ",%" PRIu64 "\n", file, answer[0], answer[1], answer[2]);
        break;
    case ZAPELARITZ_REFUSAL_NOT_IN_VERSION:
        printf("refused,%" PRIu64 ",%" PRIu64 ",%" PRIu64 ",%" PRIu64 "\n", file, code, answer[1], answer[2]);
        break;
    case ZAPELARITZ_REFUSAL_UNMERGEABLE:
    case ZAPELARITZ_REFUSAL_USED_TWICE:
        printf("refused,%" PRIu64 ",%" PRIu64 ",%" PRIu64 ",-\n", file, code, answer[1]);
        break;
    default:
        printf("refused,%" PRIu64 ",%" PRIu64 ",-,-\n", file, code);
    }
}

static void merge(struct merger *m, const char *word)
{
    char *end;
    uint64_t file;
    errno = 0;
    file = strtoull(word, &end, 10);
    if (*word < '0' || '9' < *word || *end != '\0' || errno != 0)
        fail(word, "no file number");
    print_answer(file, zapelaritz_merge(TABLES(m), file, ANSWER(m)), m->answer);
}

static void print_model(struct merger *m)
{
    uint8_t part[4096];
    size_t from = 0;
    do {
        must_accept(zapelaritz_print_model(TABLES(m), from, part, sizeof part, ANSWER(m)), "model");
        fwrite(part, 1, m->answer[0], stdout);
        from += m->answer[0];
    } while (m->answer[0] == sizeof part);
}

int main(int argc, char **argv)
{
    struct merger m;
    uint64_t mark;
    int i;
    if (argc < 2)
        fail("usage", "withdraw DECK FILE...");
    if (zapelaritz_version() != ZAPELARITZ_VERSION)
        fail("library", "not of the header's version");
    read_deck(&m, argv[1]);
    load(&m);
    must_accept(zapelaritz_mark(TABLES(&m), ANSWER(&m)), "mark");
    mark = m.answer[0];
    for (i = 2; i < argc; i++)
        merge(&m, argv[i]);
    print_model(&m);
    must_accept(zapelaritz_rollback(TABLES(&m), mark, ANSWER(&m)), "rollback");
    printf("rolledback,%" PRIu64 ",%" PRIu64 "\n", mark, m.answer[0]);
    free(m.deck);
    free(m.schema);
    free(m.elements);
    free(m.model);
    free(m.log);
    return 0;
}
