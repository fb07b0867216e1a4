/* Puts the files of cases that the arguments name to the library, and compares each answer: cases SCHEMA DICTIONARY FILE..
 *
 * A file of cases has a line `--` between its blocks, `==` between the inputs of a block and `->` before what is wanted; a backslash at the end of a line joins the
 * next line to it. The first block names a call; its inputs are an explanation, and the schema and the dictionary of all cases,
 * which are those of the arguments where it has none; its answer is the codes of the four kinds.
 */
#include <stdio.h>
#include <stdlib.h>
#include <string.h>

#include "edicad.h"

enum { MOST_INPUTS = 4 };

_Static_assert(sizeof(edicad_answer) == 24 && offsetof(edicad_answer, place) == 16, "an answer as the library has it");
_Static_assert(sizeof(edicad_schema) == sizeof(void *) && sizeof(edicad_bytes) == sizeof(void *) && sizeof(edicad_pairs) == sizeof(void *), "handles as the library has them");
_Static_assert(sizeof(edicad_pair) == 8, "a pair as the library has it");

/* Bytes with room of their own, so that reading past them is found. */
typedef struct {
    uint8_t *at;
    size_t length;
} bytes;

typedef struct {
    char *title;
    bytes inputs[MOST_INPUTS];
    int count;
    bytes wanted;
} block;

static unsigned long run, failed;

static void stop(const char *what, const char *which) {
    fprintf(stderr, "cases: %s: %s\n", what, which);
    exit(2);
}

static bytes bytes_of(const void *from, size_t length) {
    bytes made = {malloc(length ? length : 1), length};
    if (!made.at) stop("no memory", "");
    if (length) memcpy(made.at, from, length);
    return made;
}

static bytes read_file(const char *path) {
    FILE *file = fopen(path, "rb");
    if (!file) stop("cannot read", path);
    fseek(file, 0, SEEK_END);
    long length = ftell(file);
    rewind(file);
    bytes all = {malloc(length + 1), (size_t)length};
    if (!all.at || fread(all.at, 1, all.length, file) != all.length) stop("cannot read", path);
    all.at[length] = 0;
    fclose(file);
    return all;
}

/* Where the next line begins, or the end. */
static const char *behind_line(const char *at, const char *end) {
    const char *feed = memchr(at, '\n', end - at);
    return feed ? feed + 1 : end;
}

/* Where a line of the text is this one, or the end. */
static const char *line_at(const char *text, const char *end, const char *line) {
    size_t length = strlen(line);
    for (const char *at = text; at < end; at = behind_line(at, end)) {
        if ((size_t)(end - at) >= length && memcmp(at, line, length) == 0) return at;
    }
    return end;
}

/* An input, with its joined lines. */
static bytes joined(const char *from, const char *end) {
    bytes made = bytes_of(from, end - from);
    size_t length = 0;
    for (size_t i = 0; i < made.length; i++) {
        if (made.at[i] == '\\' && i + 1 < made.length && made.at[i + 1] == '\n') {
            i++;
        } else {
            made.at[length++] = made.at[i];
        }
    }
    bytes exact = bytes_of(made.at, length);
    free(made.at);
    return exact;
}

static block block_of(const char *text, const char *end) {
    const char *first = memchr(text, '\n', end - text);
    if (!first) stop("a block without a title", "");
    block made = {.title = strndup(text, first - text)};
    const char *arrow = line_at(first + 1, end, "->\n");
    for (const char *at = first + 1; made.count < MOST_INPUTS;) {
        const char *next = line_at(at, arrow, "==\n");
        made.inputs[made.count++] = joined(at, next);
        if (next == arrow) break;
        at = next + 3;
    }
    if (arrow == end) stop("a block without an answer", made.title);
    made.wanted = bytes_of(arrow + 3, end - arrow - 3);
    return made;
}

static void free_block(block *it) {
    for (int i = 0; i < it->count; i++) free(it->inputs[i].at);
    free(it->wanted.at);
    free(it->title);
}

static void check(int holds, const block *it, const char *what) {
    run++;
    if (!holds) {
        failed++;
        printf("failed: %s: %s\n", it->title, what);
    }
}

/* What a handle holds, as bytes of their own, and the handle empty. */
static bytes taken(edicad_bytes *from) {
    size_t length = edicad_bytes_length(from);
    bytes made = {malloc(length ? length : 1), length};
    if (!made.at) stop("no memory", "");
    edicad_answer copied = edicad_bytes_copy(from, made.at, length);
    edicad_answer wrong = edicad_bytes_copy(from, made.at, length + 1);
    if (copied.status != EDICAD_DONE || wrong.status != EDICAD_WRONG_CALL || edicad_bytes_length(from) != length) stop("copying", "");
    edicad_bytes_free(from);
    if (edicad_bytes_length(from) != 0) stop("freeing", "");
    return made;
}

static int is_same(bytes a, const char *text) {
    return a.length == strlen(text) && memcmp(a.at, text, a.length) == 0;
}

static int are_same(bytes a, bytes b) {
    return a.length == b.length && memcmp(a.at, b.at, a.length) == 0;
}

/* The line that the program writes of an answer. `pair` says whether there are two sheets. */
static void words(char *line, size_t room, edicad_answer answer, int pair) {
    static const char *inputs[] = {"", "scd ", "dic ", "", "second ", "pairing "};
    const char *input = pair && answer.input == EDICAD_FIRST ? "first " : inputs[answer.input];
    const char *unit = answer.unit == EDICAD_LINES ? "line" : "record";
    if (answer.status == EDICAD_DONE) {
        snprintf(line, room, pair ? "same\n" : "accepted\n");
    } else if (answer.status == EDICAD_DIFFERENT) {
        snprintf(line, room, "different at line %llu\n", (unsigned long long)answer.place);
    } else if (answer.rule == 604) {
        snprintf(line, room, "refused kinds 604\n");
    } else if (answer.status == EDICAD_REFUSED && answer.rule == 0) {
        snprintf(line, room, "refused %s%s %llu", input, unit, (unsigned long long)answer.place);
    } else if (answer.status == EDICAD_REFUSED) {
        snprintf(line, room, "refused %s%u %s %llu\n", input, answer.rule, unit, (unsigned long long)answer.place);
    } else {
        snprintf(line, room, "status %u\n", answer.status);
    }
}

static void expect(edicad_answer answer, int pair, const block *it, const char *what) {
    char line[128];
    words(line, sizeof line, answer, pair);
    check(is_same(it->wanted, line), it, what);
}

static int is_refused(const block *it) {
    return it->wanted.length >= 7 && memcmp(it->wanted.at, "refused", 7) == 0;
}

static int same_answer(edicad_answer a, edicad_answer b) {
    return a.status == b.status && a.input == b.input && a.rule == b.rule && a.unit == b.unit && a.place == b.place;
}

/* A canonical file as a case has it: each line feed for a carriage return and a line feed. */
static int is_canonical(bytes file, bytes wanted) {
    size_t at = 0;
    for (size_t i = 0; i < wanted.length; i++) {
        if (wanted.at[i] == '\n' && (at >= file.length || file.at[at++] != '\r')) return 0;
        if (at >= file.length || file.at[at++] != wanted.at[i]) return 0;
    }
    return at == file.length;
}

static void sheet_case(edicad_schema *schema, const block *it) {
    bytes sheet = it->inputs[0];
    edicad_bytes held = EDICAD_EMPTY, text = EDICAD_EMPTY;
    uint8_t digest[34], again[32];
    memset(digest, 7, sizeof digest);
    edicad_answer checked = edicad_check(schema, sheet.at, sheet.length);
    edicad_answer made = edicad_canonical(schema, sheet.at, sheet.length, &held);
    edicad_answer digested = edicad_digest(schema, sheet.at, sheet.length, digest + 1);
    edicad_answer explained = edicad_explain(schema, sheet.at, sheet.length, (const uint8_t *)"v", 1, &text);
    check(same_answer(checked, made) && same_answer(checked, digested) && same_answer(checked, explained), it, "four calls, one answer");
    check(digest[0] == 7 && digest[33] == 7, it, "beside the digest");
    bytes canonical = taken(&held), said = taken(&text);
    check(said.length > 0, it, "explained");
    if (is_refused(it)) {
        expect(checked, 0, it, "refused");
        check(canonical.length == 0 && digest[1] == 7 && digest[32] == 7, it, "nothing made");
        check(said.length > 2 && memcmp(said.at, "v:", 2) == 0, it, "explained by its name");
    } else {
        check(checked.status == EDICAD_DONE, it, "accepted");
        check(is_canonical(canonical, it->wanted), it, "canonical file");
        edicad_answer fixed = edicad_digest(schema, canonical.at, canonical.length, again);
        check(fixed.status == EDICAD_DONE && memcmp(again, digest + 1, 32) == 0, it, "digest of the canonical file");
        check(edicad_compare(schema, sheet.at, sheet.length, canonical.at, canonical.length).status == EDICAD_DONE, it, "same as its canonical file");
    }
    free(canonical.at);
    free(said.at);
}

static edicad_answer verified(edicad_schema *schema, bytes a, bytes b, bytes pairing, edicad_bytes *reason) {
    return edicad_verify(schema, a.at, a.length, b.at, b.length, pairing.at, pairing.length, (const uint8_t *)"p", 1, reason);
}

/* A pair for each record, as the file of the pairing has them: a place of the second sheet, and whether the arc is reversed. */
static void pairs_case(edicad_schema *schema, const block *it, edicad_answer compared, bytes pairing) {
    bytes a = it->inputs[0], b = it->inputs[1];
    edicad_pairs held = EDICAD_EMPTY;
    edicad_answer answer = edicad_pair_records(schema, a.at, a.length, b.at, b.length, &held);
    check(same_answer(compared, answer), it, "compared with pairs");
    size_t length = edicad_pairs_length(&held), lines = 0, reversed = 0, marked = 0;
    for (size_t i = 0; i < pairing.length; i++) lines += pairing.at[i] == '\n';
    check(length == (lines ? lines - 1 : 0), it, "as many pairs as lines");
    edicad_pair *pairs = malloc((length + 1) * sizeof *pairs);
    uint8_t *met = calloc(length + 1, 1);
    if (!pairs || !met) stop("no memory", "");
    check(edicad_pairs_copy(&held, pairs, length + 1).status == EDICAD_WRONG_CALL, it, "pairs for other room");
    check(edicad_pairs_copy(&held, pairs, length).status == EDICAD_DONE, it, "pairs copied");
    for (size_t i = 0; i < length; i++) {
        check(pairs[i].second < length && !met[pairs[i].second] && pairs[i].reversed <= 1, it, "each record once");
        if (pairs[i].second < length) met[pairs[i].second] = 1;
        marked += pairs[i].reversed;
    }
    for (size_t i = 0; i + 9 < pairing.length; i++) reversed += memcmp(pairing.at + i, ";reversed\n", 10) == 0;
    check(marked == reversed, it, "as many reversed arcs");
    edicad_pairs_free(&held);
    check(edicad_pairs_length(&held) == 0, it, "no pairs once they are freed");
    free(pairs);
    free(met);
}

static void compare_case(edicad_schema *schema, const block *it) {
    bytes a = it->inputs[0], b = it->inputs[1];
    edicad_bytes held = EDICAD_EMPTY, text = EDICAD_EMPTY;
    edicad_answer compared = edicad_compare(schema, a.at, a.length, b.at, b.length);
    edicad_answer paired = edicad_pairing(schema, a.at, a.length, b.at, b.length, &held);
    edicad_answer differs = edicad_diff(schema, a.at, a.length, b.at, b.length, EDICAD_BRIEF, &text);
    expect(compared, 1, it, "compared");
    check(same_answer(compared, paired), it, "compared with a pairing");
    check(compared.status == differs.status, it, "compared for differences");
    bytes pairing = taken(&held), said = taken(&text);
    check((pairing.length > 0) == (compared.status == EDICAD_DONE), it, "a pairing of the same");
    check((said.length > 0) == (compared.status != EDICAD_REFUSED), it, "a text of differences");
    pairs_case(schema, it, compared, pairing);
    if (compared.status == EDICAD_DONE) {
        check(verified(schema, a, b, pairing, &text).status == EDICAD_DONE && edicad_bytes_length(&text) == 0, it, "its pairing verified");
        pairing.length--;
        edicad_answer cut = verified(schema, a, b, pairing, &text);
        check(cut.status == EDICAD_REFUSED && cut.input == EDICAD_PAIRING && edicad_bytes_length(&text) > 0, it, "its pairing cut off");
    }
    edicad_bytes_free(&text);
    free(pairing.at);
    free(said.at);
}

static size_t count_lines(bytes text) {
    size_t count = 0;
    for (size_t i = 0; i < text.length; i++) count += text.at[i] == '\n';
    return count;
}

/* The other forms of what differs: the same answer, and as JSON a line for each that the text has; no form has the number 4. */
static void forms_case(edicad_schema *schema, const block *it, edicad_answer answer, bytes told) {
    bytes a = it->inputs[0], b = it->inputs[1];
    edicad_bytes text = EDICAD_EMPTY;
    edicad_answer objects = edicad_diff(schema, a.at, a.length, b.at, b.length, EDICAD_BY_OBJECT, &text);
    check(same_answer(objects, answer), it, "object by object");
    edicad_answer json = edicad_diff(schema, a.at, a.length, b.at, b.length, EDICAD_JSON, &text);
    bytes lines = taken(&text);
    check(same_answer(json, answer) && count_lines(lines) == count_lines(told), it, "lines of JSON");
    const char *counts = "{\"version\":1,\"what\":\"counts\",";
    size_t last = lines.length ? lines.length - 1 : 0;
    while (last > 0 && lines.at[last - 1] != '\n') last--;
    check(lines.length == 0 || (lines.length - last > strlen(counts) && memcmp(lines.at + last, counts, strlen(counts)) == 0), it, "the last line of JSON");
    edicad_answer none = edicad_diff(schema, a.at, a.length, b.at, b.length, 4, &text);
    check(none.status == EDICAD_WRONG_CALL && edicad_bytes_length(&text) == 0, it, "a form that there isn't");
    free(lines.at);
}

static void diff_case(edicad_schema *schema, const block *it) {
    bytes a = it->inputs[0], b = it->inputs[1];
    edicad_bytes text = EDICAD_EMPTY;
    edicad_answer answer = edicad_diff(schema, a.at, a.length, b.at, b.length, EDICAD_BY_RECORD, &text);
    bytes said = taken(&text);
    forms_case(schema, it, answer, said);
    if (is_refused(it)) {
        expect(answer, 1, it, "refused");
        check(said.length == 0, it, "no text");
    } else {
        const char *word = answer.status == EDICAD_DONE ? "same\n" : "different\n";
        size_t length = strlen(word);
        bytes rest = {it->wanted.at + length, it->wanted.length - length};
        check(answer.status <= EDICAD_DIFFERENT && it->wanted.length > length && memcmp(it->wanted.at, word, length) == 0, it, "same or not");
        check(are_same(said, rest), it, "the text");
    }
    free(said.at);
}

static void verify_case(edicad_schema *schema, const block *it) {
    edicad_bytes reason = EDICAD_EMPTY;
    edicad_answer answer = verified(schema, it->inputs[0], it->inputs[1], it->inputs[2], &reason);
    bytes said = taken(&reason);
    char line[512], why[256];
    snprintf(why, sizeof why, "%.*s", (int)said.length, (const char *)said.at);
    words(line, sizeof line, answer, 1);
    if (answer.status == EDICAD_DONE) {
        snprintf(line, sizeof line, "true\n");
    } else if (answer.status == EDICAD_DIFFERENT) {
        snprintf(line, sizeof line, "does not pair\n%s\n", why);
    } else if (answer.input == EDICAD_PAIRING) {
        snprintf(line + strlen(line), sizeof line - strlen(line), ": %s\n", why);
    }
    check(is_same(it->wanted, line), it, line);
    check((said.length > 0) == (answer.status == EDICAD_DIFFERENT || answer.input == EDICAD_PAIRING), it, "a reason");
    free(said.at);
}

static edicad_answer load(edicad_schema *schema, bytes scd, bytes dic, bytes kinds) {
    const uint8_t *codes[4] = {kinds.at};
    size_t lengths[4] = {0};
    int code = 0;
    for (size_t i = 0; i < kinds.length && kinds.at[i] != '\n'; i++) {
        if (kinds.at[i] == ',' && code < 3) {
            codes[++code] = kinds.at + i + 1;
        } else {
            lengths[code]++;
        }
    }
    if (code == 0) return edicad_schema_load(scd.at, scd.length, dic.at, dic.length, schema);
    return edicad_schema_load_kinds(scd.at, scd.length, dic.at, dic.length, codes[0], lengths[0], codes[1], lengths[1], codes[2], lengths[2], codes[3], lengths[3], schema);
}

static void schema_case(const block *it, bytes kinds) {
    edicad_schema schema = EDICAD_EMPTY;
    edicad_answer answer = load(&schema, it->inputs[0], it->inputs[1], kinds);
    edicad_answer after = edicad_check(&schema, NULL, 0);
    if (is_refused(it)) {
        expect(answer, 0, it, "refused");
        check(after.status == EDICAD_WRONG_CALL, it, "no schema");
    } else {
        check(answer.status == EDICAD_DONE, it, "loaded");
        check(after.status == EDICAD_REFUSED && after.input == EDICAD_FIRST, it, "an empty sheet under it");
    }
    edicad_schema_free(&schema);
    check(edicad_check(&schema, NULL, 0).status == EDICAD_WRONG_CALL, it, "no schema once it is freed");
    edicad_schema_free(&schema);
}

static void run_case(edicad_schema *schema, const char *call, const block *it, bytes kinds) {
    if (strcmp(call, "canon") == 0) {
        sheet_case(schema, it);
    } else if (strcmp(call, "compare") == 0) {
        compare_case(schema, it);
    } else if (strcmp(call, "diff") == 0) {
        diff_case(schema, it);
    } else if (strcmp(call, "verify") == 0) {
        verify_case(schema, it);
    } else if (strcmp(call, "schema") == 0) {
        schema_case(it, kinds);
    } else if ((strcmp(call, "records") == 0 || strcmp(call, "zones") == 0) && is_refused(it)) {
        sheet_case(schema, it);
    }
}

static void run_file(const char *path, bytes scd, bytes dic) {
    bytes all = read_file(path);
    const char *at = (const char *)all.at, *end = at + all.length;
    const char *next = line_at(at, end, "--\n");
    block shared = block_of(at, next);
    int own = shared.count > 2 && shared.inputs[1].length > 0;
    edicad_schema schema = EDICAD_EMPTY;
    edicad_answer loaded = load(&schema, own ? shared.inputs[1] : scd, own ? shared.inputs[2] : dic, shared.wanted);
    unsigned long before = run;
    while (next < end) {
        at = next + 3;
        next = line_at(at, end, "--\n");
        block it = block_of(at, next);
        if (loaded.status == EDICAD_DONE) {
            run_case(&schema, shared.title, &it, shared.wanted);
        } else {
            expect(loaded, 0, &it, "schema refused");
        }
        free_block(&it);
    }
    printf("%s: %lu\n", path, run - before);
    edicad_schema_free(&schema);
    free_block(&shared);
    free(all.at);
}

int main(int count, char **words) {
    if (count < 4) stop("usage", "cases SCHEMA DICTIONARY FILE..");
    if (edicad_version() != EDICAD_VERSION) stop("another version", "");
    bytes scd = read_file(words[1]), dic = read_file(words[2]);
    for (int i = 3; i < count; i++) run_file(words[i], scd, dic);
    free(scd.at);
    free(dic.at);
    printf("%lu checks, %lu failed\n", run, failed);
    return failed ? 1 : 0;
}
