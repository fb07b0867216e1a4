/* edicad: France's cadastral sheets (EDIGeO) checked, compared and written in their canonical form.
 *
 * docs/FORMAT.md says what is read and what is written, docs/EMBEDDING.md how to build and link,
 * and what is proved.
 *
 * BYTES. An input is a pointer and a length. The bytes are read during the call alone and never
 * written, and nothing that a call gives refers to them. A null pointer is an empty input if its
 * length is 0; with another length it is a mistake that isn't caught. Any bytes may be given: those
 * that are no sheet are refused.
 *
 * HANDLES. A schema, and the bytes or the pairs that a call gives, are held by structs of one
 * pointer. Set one to EDICAD_EMPTY before its first use. Whoever has it owns what it holds, and
 * frees it once with edicad_schema_free, edicad_bytes_free or edicad_pairs_free; a call that puts
 * something into it frees what it held before. Never copy such a struct and never write its
 * pointer. An empty handle is always allowed: a schema that was never loaded, or was freed, makes a
 * call answer EDICAD_WRONG_CALL, and freeing an empty handle does nothing. The pointers to handles,
 * to room for a digest and to room that isn't empty are never null, and what one call writes never
 * overlaps with another argument; neither is caught.
 *
 * THREADS. There is no state beside the handles. Calls that share no handle may run at one time in
 * any threads. One handle serves one call at a time, a schema too, although no call changes what a
 * schema holds: load one for each thread, or take turns. A handle may go from one thread to
 * another. Inputs may be shared, since they are only read.
 *
 * MEMORY comes from malloc, realloc and free. Where it runs out a call answers EDICAD_NO_MEMORY,
 * which says nothing of its inputs, and a schema that it was given stays as it was. No call prints,
 * opens a file, waits, raises a signal or ends the process. None may be made in a signal handler,
 * or after fork in the child of a process with several threads. A call takes less than 64 kilobytes
 * of stack, whatever the size of its sheets (measured, not proved).
 */
#ifndef EDICAD_H
#define EDICAD_H

#include <stddef.h>
#include <stdint.h>

#ifdef __cplusplus
extern "C" {
#endif

/* The version of this interface, which edicad_version gives. It changes where a caller has to be
 * changed or built again. */
#define EDICAD_VERSION 1

/* The statuses, which are the program's exit statuses. */
enum {
    EDICAD_DONE = 0,       /* accepted, the same, no difference, a pairing that carries; or what was asked for is there */
    EDICAD_DIFFERENT = 1,  /* the sheets state different plans, or the pairing doesn't carry */
    EDICAD_REFUSED = 2,    /* an input breaks a rule: input, rule, unit and place of the answer say which and where */
    EDICAD_WRONG_CALL = 3, /* a handle doesn't hold what the call needs, or an argument is wrong */
    EDICAD_NO_MEMORY = 5   /* memory ran out */
};

/* The inputs, as an answer names them. */
enum {
    EDICAD_NO_INPUT = 0,
    EDICAD_SCD = 1,     /* the file of classes */
    EDICAD_DIC = 2,     /* the dictionary */
    EDICAD_FIRST = 3,   /* the only sheet, or the first of two */
    EDICAD_SECOND = 4,  /* the second sheet */
    EDICAD_PAIRING = 5  /* the file of a pairing */
};

/* What a place counts. */
enum { EDICAD_NOTHING = 0, EDICAD_LINES = 1, EDICAD_RECORDS = 2 };

/* What a call answers. Whatever the status doesn't use is 0. */
typedef struct edicad_answer {
    uint32_t status; /* EDICAD_DONE, .. */
    uint32_t input;  /* refused: which input */
    uint32_t rule;   /* refused: the first broken rule (docs/RULES.md), 101 to 604; of a pairing's file 0 */
    uint32_t unit;   /* what place counts */
    uint64_t place;  /* refused: the line or the record, from 1, at which the rule is broken (rule 604 has none);
                        different: the first line in which the canonical files differ, where it is known */
} edicad_answer;

/* A schema, or nothing. */
typedef struct edicad_schema {
    void *inner;
} edicad_schema;

/* Bytes that a call gave, or nothing. */
typedef struct edicad_bytes {
    void *inner;
} edicad_bytes;

/* Pairs that a call gave, or nothing. */
typedef struct edicad_pairs {
    void *inner;
} edicad_pairs;

#define EDICAD_EMPTY {0}

/* A record of the first of two sheets, by the record of the second that it is. */
typedef struct edicad_pair {
    uint32_t second;   /* the place of the second sheet's record, from 0, in the order of its file */
    uint32_t reversed; /* 1 of an arc that is reversed, else 0 */
} edicad_pair;

/* EDICAD_VERSION of the library that is linked. */
uint32_t edicad_version(void);

/* ---- schemas ---- */

/* Loads the schema of a file of classes (SCD) and a dictionary (DIC), with the usual codes of the
 * four kinds of link: IND, FND, LPO, RPO.
 *
 * EDICAD_DONE: schema holds it. EDICAD_REFUSED: input is EDICAD_SCD or EDICAD_DIC, and schema is
 * empty, as it is after EDICAD_NO_MEMORY. What schema held before is freed. Neither file is used
 * after the call.
 */
edicad_answer edicad_schema_load(const uint8_t *scd, size_t scd_length,
                                 const uint8_t *dic, size_t dic_length, edicad_schema *schema);

/* The same with other codes: of links to the initial and the final node of an arc, and to the faces
 * on its left and its right. EDICAD_WRONG_CALL where one is empty or two are equal, and schema is
 * empty. */
edicad_answer edicad_schema_load_kinds(const uint8_t *scd, size_t scd_length,
                                       const uint8_t *dic, size_t dic_length,
                                       const uint8_t *initial, size_t initial_length,
                                       const uint8_t *final_node, size_t final_length,
                                       const uint8_t *left, size_t left_length,
                                       const uint8_t *right, size_t right_length,
                                       edicad_schema *schema);

/* Frees what schema holds, and leaves it empty. */
void edicad_schema_free(edicad_schema *schema);

/* ---- one sheet (VEC) ---- */

/* Whether a sheet is accepted: EDICAD_DONE exactly if it breaks no rule, else EDICAD_REFUSED with
 * the first broken rule. */
edicad_answer edicad_check(edicad_schema *schema, const uint8_t *sheet, size_t length);

/* The canonical file of a sheet. EDICAD_DONE: canonical holds it. Two sheets have one canonical
 * file exactly if they state the same plan. Else canonical is empty. What it held before is freed,
 * whatever the status. */
edicad_answer edicad_canonical(edicad_schema *schema, const uint8_t *sheet, size_t length,
                               edicad_bytes *canonical);

/* The SHA-256 of the canonical file of a sheet, as 32 bytes. With another status than EDICAD_DONE
 * digest is as it was. */
edicad_answer edicad_digest(edicad_schema *schema, const uint8_t *sheet, size_t length,
                            uint8_t digest[32]);

/* What a sheet holds, or why it is refused, as lines of text (docs/USING.md, "explain").
 * EDICAD_DONE: text holds how many records of each type there are, the least and the greatest
 * coordinates, and the character set. EDICAD_REFUSED: text holds where the broken line or record
 * stands in the file, its identifier, the rule in words, the earlier record that the rule speaks
 * of, and the zone with which the record breaks it. Its lines name the file by name, which has any
 * bytes; those that a terminal could act on are shown by escapes. Else text is empty. */
edicad_answer edicad_explain(edicad_schema *schema, const uint8_t *sheet, size_t length,
                             const uint8_t *name, size_t name_length, edicad_bytes *text);

/* ---- two sheets ---- */

/* Whether two sheets state the same plan: EDICAD_DONE exactly if both are accepted and they do;
 * EDICAD_DIFFERENT, with the first line in which their canonical files differ, if both are accepted
 * and they don't. EDICAD_REFUSED: input is EDICAD_FIRST, or EDICAD_SECOND where the first is
 * accepted. */
edicad_answer edicad_compare(edicad_schema *schema, const uint8_t *first, size_t first_length,
                             const uint8_t *second, size_t second_length);

/* What edicad_compare answers, and with EDICAD_DONE pairing holds a file (docs/FORMAT.md,
 * "Pairings") that says which record of the second sheet each of the first is, and carries the one
 * plan onto the other. Else pairing is empty. */
edicad_answer edicad_pairing(edicad_schema *schema, const uint8_t *first, size_t first_length,
                             const uint8_t *second, size_t second_length, edicad_bytes *pairing);

/* What edicad_compare answers, and with EDICAD_DONE pairs holds a pair for each record of the first
 * sheet, in the order of its file, which together carry the one plan onto the other: a pairing by
 * places, as that of edicad_pairing is one by identifiers. Else pairs is empty. */
edicad_answer edicad_pair_records(edicad_schema *schema, const uint8_t *first, size_t first_length,
                                  const uint8_t *second, size_t second_length, edicad_pairs *pairs);

/* Whether the file of a pairing, wherever it comes from, carries the plan of the first sheet onto
 * that of the second: EDICAD_DONE exactly if it does, and reason is empty; EDICAD_DIFFERENT if it
 * states a pairing that doesn't, and reason says why, in a line that names the file by name.
 * EDICAD_REFUSED: a sheet is refused; or, with EDICAD_PAIRING, the file states no pairing of the
 * two: place is its first wrong line, and reason says what is wrong with it. Else reason is empty.
 */
edicad_answer edicad_verify(edicad_schema *schema, const uint8_t *first, size_t first_length,
                            const uint8_t *second, size_t second_length,
                            const uint8_t *pairing, size_t pairing_length,
                            const uint8_t *name, size_t name_length, edicad_bytes *reason);

/* The forms in which edicad_diff tells what differs between two sheets, all by one matching of their
 * records (docs/FORMAT.md, "Differences"). */
enum {
    EDICAD_BY_RECORD = 0, /* a line for each record that differs, and one that counts them */
    EDICAD_BRIEF = 1,     /* the line that counts them, and that of the character sets where they differ */
    EDICAD_BY_OBJECT = 2, /* object by object, by the attributes that people know */
    EDICAD_JSON = 3       /* record by record, as lines of JSON (docs/JSON.md) */
};

/* What differs between two sheets: EDICAD_DONE if they state the same plan, EDICAD_DIFFERENT if not,
 * and text tells it in this form, in UTF-8. EDICAD_REFUSED as of edicad_compare; EDICAD_WRONG_CALL
 * also where form is none of the above. Else text is empty. */
edicad_answer edicad_diff(edicad_schema *schema, const uint8_t *first, size_t first_length,
                          const uint8_t *second, size_t second_length, uint8_t form,
                          edicad_bytes *text);

/* ---- bytes that a call gave ---- */

/* How many bytes there are; 0 of an empty handle. */
size_t edicad_bytes_length(edicad_bytes *bytes);

/* Copies them to room, whose length must be theirs: else EDICAD_WRONG_CALL, and room is as it was.
 */
edicad_answer edicad_bytes_copy(edicad_bytes *bytes, uint8_t *room, size_t length);

/* Frees them, and leaves the handle empty. */
void edicad_bytes_free(edicad_bytes *bytes);

/* ---- pairs that a call gave ---- */

/* How many pairs there are; 0 of an empty handle. */
size_t edicad_pairs_length(edicad_pairs *pairs);

/* Copies them to room, which must have room for exactly so many: else EDICAD_WRONG_CALL, and room
 * is as it was. */
edicad_answer edicad_pairs_copy(edicad_pairs *pairs, edicad_pair *room, size_t length);

/* Frees them, and leaves the handle empty. */
void edicad_pairs_free(edicad_pairs *pairs);

#ifdef __cplusplus
}
#endif

#endif
