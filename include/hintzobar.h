/*
 * Hintzobar: variable names, notes, DRAT proof lines and DIMACS CNF files (documents 01 and 02), for C and Rust.
 * Built by tools/archives.sh, which writes target/staticlib/libcapi.a and target/staticlib/libknown.a; the second has the
 * calls of the last section, those named hz_known_ and _in, and is linked only where they are used.
 *
 * The caller owns all memory. A table is an hz_counts, six numbers, and six lists of `capacity` words, lent in this order:
 *     gu, ug        global from user, user from global      (0 for none, else index + 1)
 *     sg, gs        solver from global, global from solver  (the same)
 *     assignment    a word for each solver index: 0 none, 1 false, 2 true
 *     records       a word for each global: mode (0 Sample, 1 Witness, 2 Hide) + 3 * unit + 9 if isolated + 18 if assumed + 36 if deleted
 * A list is a pointer and its length in elements. A pointer is aligned and not null, also where the length is 0, and a list that a call may
 * change overlaps no other list lent to it.
 * An index, a literal code (twice the index, one more if negated) and a length may be any number, and a list may hold any words; only calls named
 * hz_known_ assume more of the table, see there.
 * Stack, beside the caller's own: hz_simplify_binary takes 193 KB, hz_simplify up to 99 KB, hz_pose 33 KB and hz_write 35 KB, also for a short
 * clause, the others a few. A thread of 256 KB is enough for any call, one of 128 KB for any but hz_simplify_binary; one of 64 KB is too small
 * for hz_simplify. A call named hz_known_ takes no more than the call without known.
 *
 * Every answer that is a struct begins with `refusal`: 0 if the call was accepted, else one of the numbers below or HZ_UNKNOWN. A refused call changes no
 * memory, its counts are those given (of hz_open: the capacity given and five times 0), and its other fields are 0 or false unless said
 * otherwise. After an accepted call the table is the same six lists with the counts that came back. A note takes three words: its kind
 * (0 U, 1 S, 2 D, 3 C), the global, and what is told of it: an index + 1, or 0 where it is withdrawn; of C 1 for Sample, else 0; of D 0.
 */
#ifndef HINTZOBAR_H
#define HINTZOBAR_H

#include <stdbool.h>
#include <stddef.h>
#include <stdint.h>

#ifdef __cplusplus
extern "C" {
#endif

enum hz_refusal {
    HZ_ACCEPTED = 0,
    HZ_UNSOUND = 1,          /* the table is not sound: its lists and its counts, `used` and `next` among them, do not fit together */
    HZ_SHORT = 2,            /* a lent output is shorter than this call fills */
    HZ_OUT_OF_RANGE = 3,     /* an index at or above its bound, more than 8,192 literals, or lists that do not fit together */
    HZ_NOT_SAMPLED = 4,      /* sampling is required and a global is not Sample */
    HZ_NO_ROOM = 5,          /* more users to map than there are free globals, `capacity - used` */
    HZ_DELETED = 6,          /* the global is deleted */
    HZ_ASSUMED = 7,          /* the global is assumed */
    HZ_NOT_HELD = 8,         /* no global holds the solver index */
    HZ_HAS_VALUE = 9,        /* the solver index has a value */
    HZ_BAD_SIZE = 10,        /* the capacity is not 1 to 4,096, or a list has another length */
    HZ_NOT_IN_DRAT = 11,     /* DRAT lacks this kind of step */
    HZ_FEW_UNKNOWN = 12,     /* no literal is true, some are false, and fewer than two are unknown */
    HZ_BROKEN_PROOF = 13,    /* a step is not whole */
    HZ_UNMATCHED = 14,       /* units and hashes differ in number */
    HZ_BAD_LISTS = 15,       /* the lists are not one section for each literal code, or an entry has no mirror */
    HZ_STILL_ASSUMED = 16,   /* the global that holds the solver index is assumed */
    HZ_BAD_CNF = 17          /* a file is no DIMACS CNF of the strict form */
};

/* A number for a mode, a mark, a format, a step kind, a cause or the kind of one clause that stands for none. Nothing is done. */
#define HZ_UNKNOWN UINT32_C(0xFFFFFFFF)

enum hz_mode { HZ_SAMPLE = 0, HZ_WITNESS = 1, HZ_HIDE = 2 };
enum hz_mark { HZ_USED = 0, HZ_ASSUME = 1, HZ_RELEASE = 2 };
enum hz_format { HZ_TEXT = 0, HZ_BINARY = 1 };
enum hz_cause { HZ_REDUNDANT = 0, HZ_SATISFIED = 1, HZ_SIMPLIFIED = 2 };
enum hz_made { HZ_KEPT = 0, HZ_DROPPED = 1, HZ_SHORTENED = 2, HZ_MADE_BINARY = 3 };

/* What a line of a proof does with its clause: the `kind` of hz_write_clause, and the kinds that hz_read fills and hz_write_proof takes. These
 * are no step kinds (hz_kind). */
enum hz_clause { HZ_ADD = 0, HZ_DELETE = 1 };

/* The kinds of step, with what each carries of its own. A name is its index + 1, or 0 where it is withdrawn. */
enum hz_kind {
    HZ_ADD_CLAUSE = 0,
    HZ_AT_CLAUSE = 1,             /* a: 0, or another number if redundant */
    HZ_UNIT_CLAUSES = 2,
    HZ_DELETE_CLAUSE = 3,         /* a: the cause */
    HZ_MODEL = 4,
    HZ_ASSUMPTIONS = 5,
    HZ_FAILED_ASSUMPTIONS = 6,
    HZ_SOLVER_VAR_NAME = 7,       /* a: the global, b: the name */
    HZ_USER_VAR_NAME = 8,         /* a: the global, b: the name */
    HZ_DELETE_VAR = 9,            /* a: the global */
    HZ_CHANGE_SAMPLING_MODE = 10, /* a: the global, b: 0, or another number if Sample */
    HZ_CHANGE_HASH_BITS = 11,     /* a: the bits */
    HZ_END = 12
};

/* The capacity, the three watermarks, and two numbers by which a table says how full it is and which solver index comes next:
 *     used    how many globals are undeleted, hidden ones too: the records below 36; `capacity - used` globals are free
 *     next    the least solver index that no global holds: the least s below `solver` with gs[s] = 0, else `solver`. A global that gets an
 *             index gets this one; it is `capacity` where all are held
 * hz_open sets both to 0, and the calls that map, grant, delete or remove keep them true. They may be given as any number, but a table in which
 * either differs from the recount is not sound: hz_is_sound answers false, and every other call that takes an hz_counts, but those named
 * hz_known_, refuses it with 1, unless the answer is HZ_UNKNOWN.
 *
 * This struct had only its first four fields in earlier versions. A program built against that header must be compiled anew: the struct and every
 * answer that holds it have another size. A table kept from an earlier version is brought up to date by counting the two numbers, as said above;
 * its lists and the first four counts stay as they are. */
typedef struct {
    uint32_t capacity, user, global, solver, used, next;
} hz_counts;

typedef struct {
    uint32_t kind, a, b;
} hz_step;

/* ---- answers */

typedef struct {
    uint32_t refusal;
    hz_counts counts;
} hz_changed;

typedef struct {
    uint32_t refusal;
    hz_counts counts;
    uint32_t notes; /* how many notes were filled, here and below */
} hz_noted;

typedef struct {
    uint32_t refusal;
    bool found;
    uint32_t value; /* 0 where nothing is found */
} hz_found;

typedef struct {
    uint32_t refusal;
    hz_counts counts;
    uint32_t global;
    uint32_t notes;
} hz_mapped;

typedef struct {
    uint32_t refusal;
    hz_counts counts;
    uint32_t user;
    uint32_t global;
    uint32_t notes;
} hz_new_mapped;

typedef struct {
    uint32_t refusal;
    hz_counts counts;
    uint32_t solver;
    uint32_t notes;
} hz_granted;

typedef struct {
    uint32_t refusal;
    hz_counts counts;
    bool granted; /* whether a user was granted */
    uint32_t user; /* 0 where none was */
    uint32_t notes;
} hz_mode_set;

/* Pose, Observe: how many literals, or users, were filled. */
typedef struct {
    uint32_t refusal;
    hz_counts counts;
    uint32_t filled;
    uint32_t notes;
} hz_posed;

/* How many users are to be mapped, and how many to be granted a solver index. */
typedef struct {
    uint32_t refusal;
    uint32_t users;
    uint32_t grants;
} hz_users;

typedef struct {
    uint32_t refusal;
    uint32_t made; /* enum hz_made */
    size_t lits;
    bool redundant; /* the add step's flag */
    size_t bytes;
} hz_simplified;

typedef struct {
    uint32_t refusal;
    size_t words; /* how many words the lists have now */
    size_t half;  /* half the number of their entries, rounded down */
    size_t bytes;
} hz_thinned;

typedef struct {
    uint32_t refusal;
    hz_step step; /* as given, with a refusal too */
    size_t lits;
    size_t hashes;
} hz_renamed;

typedef struct {
    uint32_t refusal;
    size_t bytes;
} hz_written;

typedef struct {
    uint32_t refusal;
    uint32_t globals;
    uint32_t users;
} hz_modelled;

/* With refusal 13, `place` is that of the first token of the first step that is not whole; else it is 0. */
typedef struct {
    uint32_t refusal;
    size_t place;
    size_t lits;
    size_t steps;
} hz_reading;

/* The first step is the `length` bytes from `place` on; the next one is the first of the bytes from `place + length` on. With refusal 13 it is not
 * whole: `place` is that of its first token, 0 without any, and `length` is 0. In earlier versions `place` was 0 and `length` took in a text step's
 * line feed: a program that goes on by `length` alone must add `place`. */
typedef struct {
    uint32_t refusal;
    size_t place;
    size_t length;
} hz_first;

/* A file's header, and how many codes and ends were filled. With refusal 17, `place` is the start of the first wrong line; else it is 0. */
typedef struct {
    uint32_t refusal;
    size_t place;
    uint32_t variables; /* the header's V */
    size_t lits;
    size_t clauses; /* the header's C */
} hz_cnf;

/* The table as every call takes it: to be changed, and only read. */
#define HZ_TABLE                                                                                             \
    uint32_t *gu, size_t gu_len, uint32_t *ug, size_t ug_len, uint32_t *sg, size_t sg_len, uint32_t *gs,     \
        size_t gs_len, uint32_t *assignment, size_t assignment_len, uint32_t *records, size_t records_len
#define HZ_TABLE_CONST                                                                                       \
    const uint32_t *gu, size_t gu_len, const uint32_t *ug, size_t ug_len, const uint32_t *sg, size_t sg_len, \
        const uint32_t *gs, size_t gs_len, const uint32_t *assignment, size_t assignment_len,                \
        const uint32_t *records, size_t records_len
#define HZ_NOTES uint32_t *notes, size_t notes_len

/* ---- the table: Open (10); whether it is sound, by its lists and all six counts; Lookup (1) */

hz_changed hz_open(uint32_t capacity, HZ_TABLE);
bool hz_is_sound(hz_counts c, HZ_TABLE_CONST);

hz_found hz_global_from_user(hz_counts c, HZ_TABLE_CONST, uint32_t user);
hz_found hz_user_from_global(hz_counts c, HZ_TABLE_CONST, uint32_t global);
hz_found hz_solver_from_global(hz_counts c, HZ_TABLE_CONST, uint32_t global);
hz_found hz_global_from_solver(hz_counts c, HZ_TABLE_CONST, uint32_t solver);
hz_found hz_record(hz_counts c, HZ_TABLE_CONST, uint32_t global);
hz_found hz_assignment(hz_counts c, HZ_TABLE_CONST, uint32_t solver);

/* ---- names */

/* Map a user: 1, 3, 4, 5, 2. New user: 1, 5, 2. */
hz_mapped hz_map(hz_counts c, HZ_TABLE, uint32_t user, bool sampling, HZ_NOTES);
hz_new_mapped hz_new_user(hz_counts c, HZ_TABLE, HZ_NOTES);

/* Pose user literals; their solver literals are filled into `out`: 1, 3, 4, 5, 2. */
hz_posed hz_pose(hz_counts c, HZ_TABLE, const uint32_t *lits, size_t lits_len, bool sampling, uint32_t *out, size_t out_len,
                 HZ_NOTES);

/* How many distinct users hz_pose would map and grant a solver index; where it is accepted, it fills so many notes together. To be mapped are the users
 * below the user watermark that `gu` does not map and a literal names, and all from the watermark up to and including the greatest that is
 * named. The table is not tested: of a sound one, and of users below its capacity, the counts are hz_pose's; of other words they are what the watermark,
 * `gu` and `sg` give. 3: more than 8,192 literals, or an index of 4,096 or more. hz_users_to_map marks the users seen and counts in one pass;
 * hz_users_to_map_plain looks for each literal's user among the literals before it. They answer the same. */
hz_users hz_users_to_map(uint32_t watermark, const uint32_t *gu, size_t gu_len, const uint32_t *sg, size_t sg_len, const uint32_t *lits,
                         size_t lits_len);
hz_users hz_users_to_map_plain(uint32_t watermark, const uint32_t *gu, size_t gu_len, const uint32_t *sg, size_t sg_len,
                               const uint32_t *lits, size_t lits_len);

/* Grant a solver index: 1, 3, 6, 2. */
hz_granted hz_grant(hz_counts c, HZ_TABLE, uint32_t global, HZ_NOTES);

/* Set mode: 1, 3, 6, 7, 2. Observe; the users are filled into `out`: 1, 7, 2. */
hz_mode_set hz_set_mode(hz_counts c, HZ_TABLE, uint32_t global, uint32_t mode, HZ_NOTES);
hz_posed hz_observe(hz_counts c, HZ_TABLE, uint32_t *out, size_t out_len, HZ_NOTES);

/* Marks: 1, 8. Assign a solver literal: 1, 8, 9. */
hz_changed hz_mark(hz_counts c, HZ_TABLE, uint32_t mark, uint32_t solver);
hz_changed hz_assign(hz_counts c, HZ_TABLE, uint32_t lit);

/* Remove a solver index, unless its global is assumed: 1, 8, 16, 2. Sweep: 1, 2. */
hz_noted hz_remove(hz_counts c, HZ_TABLE, uint32_t solver, HZ_NOTES);
hz_noted hz_sweep(hz_counts c, HZ_TABLE, HZ_NOTES);

/* ---- proof lines */

/* Simplify a clause of solver literals; the rest is filled into `out`, the steps' bytes into `proof`: 1, 3, 8, 12, 2. */
hz_simplified hz_simplify(hz_counts c, HZ_TABLE_CONST, uint32_t format, const uint32_t *lits, size_t lits_len, bool redundant,
                          uint32_t *out, size_t out_len, uint8_t *proof, size_t proof_len);

/* Simplify binary clauses before the sweep: those with a literal that has a value go. The lists that are left are filled into `out`, the delete
 * steps' bytes into `proof`: 1, 15, 8, 2.
 * Lists are words: for each literal code below twice the solver watermark, ascending, a section of a count and then that many literal codes,
 * the entries. An entry m in the section of l is the clause of not l and m; the same clause stands there as often as not l in the section of
 * not m, its mirror. 8: a section that is not empty is of an index that no global holds. As many words as were given are enough for `out`. */
hz_thinned hz_simplify_binary(hz_counts c, HZ_TABLE_CONST, uint32_t format, const uint32_t *lists, size_t lists_len, uint32_t *out,
                              size_t out_len, uint8_t *proof, size_t proof_len);

/* Rename a step's literals, which are solver literals if `solver_vars`, else global ones: 1, 14, 3, 8, 2. */
hz_renamed hz_rename(hz_counts c, HZ_TABLE_CONST, hz_step step, bool solver_vars, const uint32_t *lits, size_t lits_len,
                     const uint64_t *hashes, size_t hashes_len, uint32_t *out, size_t out_len, uint64_t *hash_out,
                     size_t hash_out_len);

/* Write a step: 1, 14, 3, 8, 11, 2. */
hz_written hz_write(hz_counts c, HZ_TABLE_CONST, uint32_t format, hz_step step, bool solver_vars, const uint32_t *lits,
                    size_t lits_len, const uint64_t *hashes, size_t hashes_len, uint8_t *proof, size_t proof_len);

/* Write one clause of global literals from lits[a..b] at proof[at..], with no table; `kind` is an enum hz_clause: 3, 2. The answer's `bytes` is
 * the place after it. */
hz_written hz_write_clause(uint32_t format, uint32_t kind, const uint32_t *lits, size_t lits_len, size_t a, size_t b, uint8_t *proof,
                           size_t proof_len, size_t at);

/* Write a whole proof of global literals from the lists that `hz_read` fills, from the start of `proof` on, with no table: 3, 2. 3 where the lists
 * are no proof: a code of 8,192 or more, not as many ends as kinds, an end below the one before it, a last end that is not the number of
 * codes, a kind that is no enum hz_clause. */
hz_written hz_write_proof(uint32_t format, const uint32_t *codes, size_t codes_len, const uint64_t *ends, size_t ends_len,
                          const uint8_t *kinds, size_t kinds_len, uint8_t *proof, size_t proof_len);

/* Read a proof: all literal codes in a row, where each step ends in it, and kinds (enum hz_clause): 13, 2. The first step alone: 13. A step of
 * text ends at its 0; between tokens stand blanks and line feeds, one or more, before the first and after the last any number. */
hz_reading hz_read(uint32_t format, const uint8_t *bytes, size_t bytes_len, uint32_t *codes, size_t codes_len, uint64_t *ends,
                   size_t ends_len, uint8_t *kinds, size_t kinds_len);
hz_first hz_first_step(uint32_t format, const uint8_t *bytes, size_t bytes_len);

/* ---- clauses, with no table
 *
 * A DIMACS CNF file here is the header `p cnf V C`, then a line for each clause: each number followed by a blank, then 0. Every line is closed by
 * a line feed. V and C have no leading zero; V is at most 4,096, and no number's magnitude exceeds it; C is the number of clauses. */

/* Write clauses of global literals, all codes in a row and where each clause ends in it, as such a file from the start of `out` on: 3, 2. V is the
 * largest magnitude, or 0. 3: a code of 8,192 or more, an end below the one before it, a last end that is not the number of codes, or codes and no
 * end. 6 bytes for each code, 2 for each end and 32 are enough. */
hz_written hz_write_cnf(const uint32_t *codes, size_t codes_len, const uint64_t *ends, size_t ends_len, uint8_t *out, size_t out_len);

/* Read such a file, before whose header there may be lines that start with `c`; all codes in a row, and where each clause ends in it: 17, 2. The
 * place is the start of the first line that is wrong; where every line is right but they are not C, the header's; of a file that has only `c`
 * lines, the last perhaps unclosed, its end. As many codes and ends as half the bytes are enough. */
hz_cnf hz_read_cnf(const uint8_t *bytes, size_t bytes_len, uint32_t *codes, size_t codes_len, uint64_t *ends, size_t ends_len);

/* ---- the model: a word for each global below its watermark, and the user literals: 1, 2 */

hz_modelled hz_model(hz_counts c, HZ_TABLE_CONST, uint32_t *globals, size_t globals_len, uint32_t *users, size_t users_len);

/* ---- known tables, in libknown.a
 *
 * Each call above that takes an hz_counts reads the whole table first, to refuse one that is not sound with 1. The calls below do not.
 *
 * A call named hz_known_ does what the call without known does on a sound table, with the same answer, notes and refusals but 1. The table must be
 * sound: opened by an accepted hz_open or found sound by hz_is_sound, and since then changed by nothing but calls of this library that were lent it as
 * their table: the same six lists, in order, with the counts that were answered last; of an _in call the lists that it takes, each in its place. None of
 * the lists is ever lent as a slice to be filled. The cursors must be true of the table. Otherwise anything may happen: memory that was not lent may be
 * read or written. No call leaves a sound table unsound.
 *
 * Cursors say from where on to look, so that what is known to be taken is not read again; 0 is always right.
 *     ufrom    every user index below it is mapped, and it is at most the user watermark
 *     gfrom    no global below it is deleted (its record is below 36), and it is at most the global watermark
 * A cursor stays right through every call but these, if they are accepted:
 *     hz_set_mode to Hide of a global that had the user u: ufrom is to be u where that is less
 *     a call with a note D of a global g (Set mode to Hide, Remove, Sweep): gfrom is to be g where that is less
 *     hz_open: both are to be 0
 * To look less, a caller may set ufrom to u + 1 after New user answered u, and gfrom to g after Map or New user of u, with a note, answered a global g
 * that is not u.
 *
 * A call named _in is lent only the lists that it touches; any words are allowed, as everywhere else. Its answer, and what it makes of the lists, are
 * the call's on every sound table that has these lists, whose counts and other lists the call leaves alone. Of lists that no sound table has, it may be
 * anything, also 1; only what was lent is touched. hz_mark_in and hz_assign_in answer the refusal alone, 0 for none: 8, or HZ_UNKNOWN for the mark; 8, 9.
 * hz_rename_in may be refused; the other structs have the refusal 0. `watermark` is the global one for records, the solver one for assignment. Where hz_map_in or hz_grant_in finds something, the call is accepted with that global, or solver index,
 * makes no note and changes nothing; where nothing is found, the call is refused or has more to do: make it. hz_pose_in is true where hz_pose is
 * accepted and makes no note: then the solver literals are filled, as many as were given; where it is false nothing is filled: make the call.
 * hz_rename_in is hz_rename, with its refusals 3, 8, 2, of the solver literals of a step that carries literals, with no hashes; of HZ_UNIT_CLAUSES
 * only with no literals. */

typedef struct {
    uint32_t refusal;
    size_t lits;
} hz_renamed_in;

hz_found hz_global_from_user_in(const uint32_t *gu, size_t gu_len, uint32_t user);
hz_found hz_user_from_global_in(const uint32_t *ug, size_t ug_len, uint32_t global);
hz_found hz_solver_from_global_in(const uint32_t *sg, size_t sg_len, uint32_t global);
hz_found hz_global_from_solver_in(const uint32_t *gs, size_t gs_len, uint32_t solver);
hz_found hz_record_in(uint32_t watermark, const uint32_t *records, size_t records_len, uint32_t global);
hz_found hz_assignment_in(uint32_t watermark, const uint32_t *assignment, size_t assignment_len, uint32_t solver);

hz_found hz_map_in(const uint32_t *gu, size_t gu_len, const uint32_t *records, size_t records_len, uint32_t user, bool sampling);
hz_found hz_grant_in(const uint32_t *sg, size_t sg_len, uint32_t global);
bool hz_pose_in(const uint32_t *gu, size_t gu_len, const uint32_t *sg, size_t sg_len, const uint32_t *records, size_t records_len,
                const uint32_t *lits, size_t lits_len, bool sampling, uint32_t *out, size_t out_len);
hz_renamed_in hz_rename_in(const uint32_t *gs, size_t gs_len, const uint32_t *lits, size_t lits_len, uint32_t *out, size_t out_len);
uint32_t hz_mark_in(const uint32_t *gs, size_t gs_len, uint32_t *records, size_t records_len, uint32_t mark, uint32_t solver);
uint32_t hz_assign_in(const uint32_t *gs, size_t gs_len, uint32_t *assignment, size_t assignment_len, uint32_t lit);

hz_mapped hz_known_map(hz_counts c, HZ_TABLE, uint32_t user, bool sampling, uint32_t gfrom, HZ_NOTES);
hz_new_mapped hz_known_new_user(hz_counts c, HZ_TABLE, uint32_t ufrom, uint32_t gfrom, HZ_NOTES);
hz_posed hz_known_pose(hz_counts c, HZ_TABLE, const uint32_t *lits, size_t lits_len, bool sampling, uint32_t gfrom, uint32_t *out,
                       size_t out_len, HZ_NOTES);
hz_granted hz_known_grant(hz_counts c, HZ_TABLE, uint32_t global, HZ_NOTES);
hz_mode_set hz_known_set_mode(hz_counts c, HZ_TABLE, uint32_t global, uint32_t mode, uint32_t ufrom, HZ_NOTES);
hz_posed hz_known_observe(hz_counts c, HZ_TABLE, uint32_t ufrom, uint32_t *out, size_t out_len, HZ_NOTES);
hz_noted hz_known_remove(hz_counts c, HZ_TABLE, uint32_t solver, HZ_NOTES);
hz_noted hz_known_sweep(hz_counts c, HZ_TABLE, HZ_NOTES);

hz_simplified hz_known_simplify(hz_counts c, HZ_TABLE_CONST, uint32_t format, const uint32_t *lits, size_t lits_len, bool redundant,
                                uint32_t *out, size_t out_len, uint8_t *proof, size_t proof_len);
hz_thinned hz_known_simplify_binary(hz_counts c, HZ_TABLE_CONST, uint32_t format, const uint32_t *lists, size_t lists_len, uint32_t *out,
                                    size_t out_len, uint8_t *proof, size_t proof_len);
hz_renamed hz_known_rename(hz_counts c, HZ_TABLE_CONST, hz_step step, bool solver_vars, const uint32_t *lits, size_t lits_len,
                           const uint64_t *hashes, size_t hashes_len, uint32_t *out, size_t out_len, uint64_t *hash_out,
                           size_t hash_out_len);
hz_written hz_known_write(hz_counts c, HZ_TABLE_CONST, uint32_t format, hz_step step, bool solver_vars, const uint32_t *lits,
                          size_t lits_len, const uint64_t *hashes, size_t hashes_len, uint8_t *proof, size_t proof_len);
hz_modelled hz_known_model(hz_counts c, HZ_TABLE_CONST, uint32_t *globals, size_t globals_len, uint32_t *users, size_t users_len);

#ifdef __cplusplus
}
#endif

#endif
