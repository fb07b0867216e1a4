/* The digest of the canonical file of each sheet: digest SCD DIC SHEET..
 *
 * cc digest.c $(pkg-config --cflags --libs edicad)
 */
#include <stdio.h>
#include <stdlib.h>

#include <edicad.h>

/* A whole file, which the caller frees; null where it can't be read. */
static uint8_t *read_file(const char *path, size_t *length) {
    FILE *file = fopen(path, "rb");
    if (!file) return NULL;
    uint8_t *bytes = NULL;
    size_t room = 0;
    *length = 0;
    do {
        if (*length == room) {
            room = room ? 2 * room : 1 << 16;
            uint8_t *more = realloc(bytes, room);
            if (!more) break;
            bytes = more;
        }
        *length += fread(bytes + *length, 1, room - *length, file);
    } while (!feof(file) && !ferror(file));
    if (!feof(file)) {
        free(bytes);
        bytes = NULL;
    }
    fclose(file);
    return bytes;
}

static int say(const char *path, edicad_answer answer) {
    static const char *const units[] = {"", "line", "record"};
    if (answer.status == EDICAD_REFUSED) {
        fprintf(stderr, "%s: refused %u %s %llu\n", path, answer.rule, units[answer.unit], (unsigned long long)answer.place);
    } else {
        fprintf(stderr, "%s: status %u\n", path, answer.status);
    }
    return (int)answer.status;
}

static int digest(edicad_schema *schema, const char *path) {
    size_t length;
    uint8_t bytes[32], *sheet = read_file(path, &length);
    if (!sheet) {
        fprintf(stderr, "%s: cannot read\n", path);
        return 4;
    }
    edicad_answer answer = edicad_digest(schema, sheet, length, bytes);
    free(sheet);
    if (answer.status != EDICAD_DONE) return say(path, answer);
    for (int i = 0; i < 32; i++) printf("%02x", bytes[i]);
    printf("  %s\n", path);
    return 0;
}

int main(int count, char **words) {
    size_t scd_length, dic_length;
    if (count < 3) return 3;
    uint8_t *scd = read_file(words[1], &scd_length), *dic = read_file(words[2], &dic_length);
    if (!scd || !dic) return 4;
    edicad_schema schema = EDICAD_EMPTY;
    edicad_answer loaded = edicad_schema_load(scd, scd_length, dic, dic_length, &schema);
    free(scd);
    free(dic);
    if (loaded.status != EDICAD_DONE) return say(words[loaded.input == EDICAD_DIC ? 2 : 1], loaded);
    int worst = 0;
    for (int i = 3; i < count; i++) {
        int status = digest(&schema, words[i]);
        if (status > worst) worst = status;
    }
    edicad_schema_free(&schema);
    return worst;
}
