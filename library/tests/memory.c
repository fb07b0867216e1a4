/* Refuses growths of memory, and counts what is held: memory SCD DIC A B OTHER.
 * A and B state one plan, and OTHER another.
 *
 * It is linked with --wrap=malloc, --wrap=realloc and --wrap=free, so that the library asks here. First each growth of each call is refused in turn: the
 * call answers that memory ran out, or what it answers else, and what it holds is freed. Then a million calls at random, in any order that the
 * header allows, of which some lack memory.
 */
#include <stdio.h>
#include <stdlib.h>
#include <string.h>

#include "edicad.h"

void *__real_malloc(size_t size);
void *__real_realloc(void *at, size_t size);
void __real_free(void *at);

static long held, asked, refuse_at;

static int is_refused(void) {
    return ++asked == refuse_at;
}

void *__wrap_malloc(size_t size) {
    void *at = is_refused() ? NULL : __real_malloc(size);
    held += at != NULL;
    return at;
}

void *__wrap_realloc(void *from, size_t size) {
    void *at = is_refused() ? NULL : __real_realloc(from, size);
    held += from == NULL && at != NULL;
    return at;
}

void __wrap_free(void *at) {
    held -= at != NULL;
    __real_free(at);
}

typedef struct {
    uint8_t *at;
    size_t length;
} bytes;

static unsigned long run, failed;

static void check(int holds, const char *what, long number) {
    run++;
    if (!holds) {
        failed++;
        printf("failed: %s %ld\n", what, number);
    }
}

static bytes read_file(const char *path) {
    FILE *file = fopen(path, "rb");
    if (!file) {
        fprintf(stderr, "memory: cannot read %s\n", path);
        exit(2);
    }
    fseek(file, 0, SEEK_END);
    long length = ftell(file);
    rewind(file);
    bytes all = {__real_malloc(length + 1), (size_t)length};
    if (fread(all.at, 1, length, file) != all.length) exit(2);
    fclose(file);
    return all;
}

enum { SHEETS = 5, CALLS = 12 };

static bytes scd, dic, none, sheets[SHEETS], pairing;

static const char *const names[CALLS] = {"load", "check", "canonical", "digest", "explain", "compare", "pairing", "verify", "diff", "pair_records", "diff by object", "diff as JSON"};

/* The records paired, and their pairs freed. */
static edicad_answer paired(edicad_schema *schema, bytes a, bytes b) {
    edicad_pairs pairs = EDICAD_EMPTY;
    edicad_answer answer = edicad_pair_records(schema, a.at, a.length, b.at, b.length, &pairs);
    check((edicad_pairs_length(&pairs) > 0) == (answer.status == EDICAD_DONE), "pairs", answer.status);
    edicad_pairs_free(&pairs);
    return answer;
}

/* A call by its number, over two sheets, with a handle for what it gives. */
static edicad_answer make(int call, edicad_schema *schema, bytes a, bytes b, edicad_bytes *given) {
    static uint8_t digest[32];
    const uint8_t *name = (const uint8_t *)"name";
    switch (call) {
    case 0: return edicad_schema_load(scd.at, scd.length, dic.at, dic.length, schema);
    case 1: return edicad_check(schema, a.at, a.length);
    case 2: return edicad_canonical(schema, a.at, a.length, given);
    case 3: return edicad_digest(schema, a.at, a.length, digest);
    case 4: return edicad_explain(schema, a.at, a.length, name, 4, given);
    case 5: return edicad_compare(schema, a.at, a.length, b.at, b.length);
    case 6: return edicad_pairing(schema, a.at, a.length, b.at, b.length, given);
    case 7: return edicad_verify(schema, a.at, a.length, b.at, b.length, pairing.at, pairing.length, name, 4, given);
    case 9: return paired(schema, a, b);
    case 10: return edicad_diff(schema, a.at, a.length, b.at, b.length, EDICAD_BY_OBJECT, given);
    case 11: return edicad_diff(schema, a.at, a.length, b.at, b.length, EDICAD_JSON, given);
    default: return edicad_diff(schema, a.at, a.length, b.at, b.length, EDICAD_BY_RECORD, given);
    }
}

static int same_answer(edicad_answer a, edicad_answer b) {
    return a.status == b.status && a.input == b.input && a.rule == b.rule && a.unit == b.unit && a.place == b.place;
}

/* Refuses each growth of a call in turn, until it asks for none that is refused. */
static void sweep(int call, edicad_schema *schema, bytes a, bytes b) {
    edicad_bytes given = EDICAD_EMPTY;
    refuse_at = 0;
    edicad_answer wanted = make(call, schema, a, b, &given);
    size_t length = edicad_bytes_length(&given);
    edicad_bytes_free(&given);
    long before = held, lacking = 0;
    for (long at = 1;; at++) {
        asked = 0;
        refuse_at = at;
        edicad_answer answer = make(call, schema, a, b, &given);
        refuse_at = 0;
        int lacks = answer.status == EDICAD_NO_MEMORY;
        lacking += lacks;
        check(lacks || same_answer(answer, wanted), names[call], at);
        check(edicad_bytes_length(&given) == (lacks ? 0 : length), "what is given by", call);
        edicad_bytes_free(&given);
        if (call == 0 && lacks) check(edicad_check(schema, a.at, a.length).status == EDICAD_WRONG_CALL, "no schema without memory", at);
        if (call == 0) edicad_schema_load(scd.at, scd.length, dic.at, dic.length, schema);
        check(held == before, "memory that is held", at);
        check(make(call, schema, a, b, &given).status == wanted.status, "the same call again", at);
        edicad_bytes_free(&given);
        if (asked < at) break;
    }
    check(lacking > 0, "no growth was refused of", call);
    printf("%s: %ld growths refused\n", names[call], lacking);
}

static uint64_t state = 88172645463325252u;

static unsigned random_below(unsigned most) {
    state ^= state << 13;
    state ^= state >> 7;
    state ^= state << 17;
    return (unsigned)(state >> 33) % most;
}

/* Calls at random, with three handles of each type. */
static void at_random(long count) {
    edicad_schema schemas[3] = {EDICAD_EMPTY, EDICAD_EMPTY, EDICAD_EMPTY};
    edicad_bytes handles[3] = {EDICAD_EMPTY, EDICAD_EMPTY, EDICAD_EMPTY};
    long before = held, statuses[6] = {0};
    for (long i = 0; i < count; i++) {
        edicad_schema *schema = &schemas[random_below(3)];
        edicad_bytes *given = &handles[random_below(3)];
        bytes a = sheets[random_below(SHEETS)], b = sheets[random_below(SHEETS)];
        asked = 0;
        refuse_at = random_below(4) ? 0 : 1 + random_below(300);
        unsigned what = random_below(40);
        if (what == 0) {
            edicad_schema_free(schema);
        } else if (what == 1) {
            edicad_bytes_free(given);
        } else if (what < 10) {
            uint8_t room[64];
            size_t length = edicad_bytes_length(given);
            edicad_answer answer = edicad_bytes_copy(given, room, length < sizeof room ? length : 0);
            check(answer.status == (length < sizeof room ? EDICAD_DONE : EDICAD_WRONG_CALL), "copying", i);
        } else {
            /* loading is rarer than the calls under a schema */
            int call = what == 10 ? 0 : 1 + random_below(CALLS - 1);
            void *inner = schema->inner;
            edicad_answer answer = make(call, schema, a, b, given);
            check(answer.status <= EDICAD_NO_MEMORY && answer.status != 4, names[call], i);
            if (call > 0) check(schema->inner == inner, "the schema stays", i);
            if (call > 0) check((answer.status == EDICAD_WRONG_CALL) == (inner == NULL), "a wrong call", i);
            if (answer.status <= EDICAD_NO_MEMORY) statuses[answer.status]++;
        }
        refuse_at = 0;
    }
    for (int i = 0; i < 3; i++) {
        edicad_schema_free(&schemas[i]);
        edicad_bytes_free(&handles[i]);
    }
    check(held == before, "memory that is held after calls at random", count);
    for (int i = 0; i < 6; i++) check(statuses[i] > 0 || i == 4, "a status that is never answered", i);
    printf("%ld calls at random\n", count);
}

int main(int count, char **words) {
    if (count != 6) return 3;
    scd = read_file(words[1]);
    dic = read_file(words[2]);
    sheets[0] = read_file(words[3]);
    sheets[1] = read_file(words[4]);
    sheets[2] = none;
    sheets[3] = (bytes){sheets[0].at, sheets[0].length / 2};
    sheets[4] = read_file(words[5]);
    edicad_schema schema = EDICAD_EMPTY;
    edicad_bytes given = EDICAD_EMPTY;
    check(make(0, &schema, none, none, &given).status == EDICAD_DONE, names[0], 0);
    check(make(6, &schema, sheets[0], sheets[1], &given).status == EDICAD_DONE, names[6], 0);
    pairing.length = edicad_bytes_length(&given);
    pairing.at = __real_malloc(pairing.length);
    edicad_bytes_copy(&given, pairing.at, pairing.length);
    edicad_bytes_free(&given);
    for (int call = 0; call < CALLS; call++) sweep(call, &schema, sheets[0], sheets[1]);
    for (int call = 8; call < CALLS; call++) sweep(call, &schema, sheets[0], sheets[4]);
    edicad_schema_free(&schema);
    check(held == 0, "memory that is held", 0);
    at_random(1000000);
    printf("%lu checks, %lu failed\n", run, failed);
    return failed ? 1 : 0;
}
