/* Four threads, each with a schema of its own, over the same inputs; then one handle that goes from thread to thread: threads SCD DIC SHEET OTHER. */
#include <pthread.h>
#include <stdio.h>
#include <stdlib.h>
#include <string.h>

#include "edicad.h"

enum { THREADS = 4, ROUNDS = 20 };

typedef struct {
    uint8_t *at;
    size_t length;
} bytes;

typedef struct {
    edicad_schema schema;
    uint8_t digest[32];
    int wrong;
} worker;

static bytes scd, dic, sheet, other;

static bytes read_file(const char *path) {
    FILE *file = fopen(path, "rb");
    if (!file) exit(2);
    fseek(file, 0, SEEK_END);
    long length = ftell(file);
    rewind(file);
    bytes all = {malloc(length + 1), (size_t)length};
    if (!all.at || fread(all.at, 1, length, file) != all.length) exit(2);
    fclose(file);
    return all;
}

static void *work(void *of) {
    worker *own = of;
    for (int i = 0; i < ROUNDS; i++) {
        edicad_bytes given = EDICAD_EMPTY;
        if (!own->schema.inner && edicad_schema_load(scd.at, scd.length, dic.at, dic.length, &own->schema).status != EDICAD_DONE) own->wrong = 1;
        if (edicad_digest(&own->schema, sheet.at, sheet.length, own->digest).status != EDICAD_DONE) own->wrong = 1;
        if (edicad_canonical(&own->schema, sheet.at, sheet.length, &given).status != EDICAD_DONE) own->wrong = 1;
        if (edicad_compare(&own->schema, sheet.at, sheet.length, sheet.at, sheet.length).status != EDICAD_DONE) own->wrong = 1;
        if (edicad_bytes_length(&given) == 0) own->wrong = 1;
        if (edicad_diff(&own->schema, sheet.at, sheet.length, other.at, other.length, EDICAD_JSON, &given).status != EDICAD_DIFFERENT) own->wrong = 1;
        if (edicad_explain(&own->schema, sheet.at, sheet.length, NULL, 0, &given).status != EDICAD_DONE) own->wrong = 1;
        edicad_bytes_free(&given);
    }
    return NULL;
}

int main(int count, char **words) {
    if (count != 5) return 3;
    scd = read_file(words[1]);
    dic = read_file(words[2]);
    sheet = read_file(words[3]);
    other = read_file(words[4]);
    static worker workers[THREADS];
    pthread_t threads[THREADS];
    for (int i = 0; i < THREADS; i++) pthread_create(&threads[i], NULL, work, &workers[i]);
    for (int i = 0; i < THREADS; i++) pthread_join(threads[i], NULL);
    int wrong = 0;
    for (int i = 0; i < THREADS; i++) wrong |= workers[i].wrong || memcmp(workers[i].digest, workers[0].digest, 32) != 0;
    for (int i = 0; i < THREADS; i++) {
        pthread_create(&threads[i], NULL, work, &workers[0]);
        pthread_join(threads[i], NULL);
    }
    wrong |= workers[0].wrong;
    for (int i = 0; i < THREADS; i++) edicad_schema_free(&workers[i].schema);
    free(scd.at);
    free(dic.at);
    free(sheet.at);
    free(other.at);
    printf("%s\n", wrong ? "failed" : "threads: the same digest in each");
    return wrong;
}
