/*
 * A session from C, from Open to Model, and a short one on a table that is known to be sound. It prints one line if every answer is as expected.
 *
 *     tools/archives.sh
 *     cc -std=c99 -Wall -Wextra -Werror -Iinclude examples/session.c target/staticlib/libknown.a target/staticlib/libcapi.a -o session
 */
#include "hintzobar.h"

#include <stdio.h>
#include <stdlib.h>
#include <string.h>

#define CAPACITY 8

/* A table is its counts and six lists, which every call is lent. Two notes for each index are room for any call's notes. */
static hz_counts c;
static uint32_t gu[CAPACITY], ug[CAPACITY], sg[CAPACITY], gs[CAPACITY], assignment[CAPACITY], records[CAPACITY];
static uint32_t notes[6 * CAPACITY];

#define TABLE gu, CAPACITY, ug, CAPACITY, sg, CAPACITY, gs, CAPACITY, assignment, CAPACITY, records, CAPACITY
#define NOTES notes, 6 * CAPACITY

/* Literal codes: positive and negative. */
#define POS(index) (2 * (index))
#define NEG(index) (2 * (index) + 1)

#define expect(holds)                                                     \
    do {                                                                  \
        if (!(holds)) {                                                   \
            fprintf(stderr, "session.c:%d: not so: %s\n", __LINE__, #holds); \
            exit(1);                                                      \
        }                                                                 \
    } while (0)

/* Note i is a kind (0 U, 1 S, 2 D, 3 C), a global, and an index + 1 or 0. */
static bool note(int i, uint32_t kind, uint32_t global, uint32_t last) {
    return notes[3 * i] == kind && notes[3 * i + 1] == global && notes[3 * i + 2] == last;
}

/* Names: intake knows boxes 0 to 3, the search gets an index for three of them. */
static void naming(uint32_t *clause) {
    hz_changed opened = hz_open(CAPACITY, TABLE);
    expect(opened.refusal == HZ_ACCEPTED && opened.counts.capacity == CAPACITY);
    c = opened.counts;
    expect(c.used == 0 && c.next == 0);

    hz_mapped mapped = hz_map(c, TABLE, 2, false, NOTES);
    expect(mapped.refusal == HZ_ACCEPTED && mapped.global == 2 && mapped.notes == 3);
    expect(note(0, 0, 0, 1) && note(1, 0, 1, 2) && note(2, 0, 2, 3));
    c = mapped.counts;
    expect(c.used == 3 && c.next == 0);

    hz_granted granted = hz_grant(c, TABLE, 2, NOTES);
    expect(granted.refusal == HZ_ACCEPTED && granted.solver == 0 && granted.notes == 1 && note(0, 1, 2, 1));
    c = granted.counts;
    expect(c.used == 3 && c.next == 1);

    /* Users 1 and 2 are mapped and 2 has a solver index: one is to be mapped, two are to be granted an index. */
    const uint32_t users[3] = {POS(1), NEG(2), POS(3)};
    hz_users needed = hz_users_to_map(c.user, gu, CAPACITY, sg, CAPACITY, users, 3);
    hz_users again = hz_users_to_map_plain(c.user, gu, CAPACITY, sg, CAPACITY, users, 3);
    expect(needed.refusal == HZ_ACCEPTED && needed.users == 1 && needed.grants == 2);
    expect(again.refusal == HZ_ACCEPTED && again.users == 1 && again.grants == 2);
    const uint32_t outside[1] = {POS(4096)};
    needed = hz_users_to_map(c.user, gu, CAPACITY, sg, CAPACITY, outside, 1);
    expect(needed.refusal == HZ_OUT_OF_RANGE && needed.users == 0 && needed.grants == 0);

    hz_posed posed = hz_pose(c, TABLE, users, 3, false, clause, 3, NOTES);
    expect(posed.refusal == HZ_ACCEPTED && posed.filled == 3 && posed.notes == 3);
    expect(clause[0] == POS(1) && clause[1] == NEG(0) && clause[2] == POS(2));
    expect(note(0, 1, 1, 2) && note(1, 0, 3, 4) && note(2, 1, 3, 3));
    c = posed.counts;
    expect(c.used == 4 && c.next == 3);
}

/* Proof lines: box 2's literal becomes true, the clause loses its false literal, and the unit is written in both formats. */
static size_t proving(const uint32_t *clause, uint8_t *proof, size_t room) {
    hz_changed changed = hz_assign(c, TABLE, POS(0));
    expect(changed.refusal == HZ_ACCEPTED);
    expect(hz_assign(changed.counts, TABLE, POS(0)).refusal == HZ_HAS_VALUE);
    c = changed.counts;

    uint32_t rest[3];
    hz_simplified made = hz_simplify(c, TABLE, HZ_TEXT, clause, 3, false, rest, 3, proof, room);
    expect(made.refusal == HZ_ACCEPTED && made.made == HZ_MADE_BINARY && !made.redundant);
    expect(made.lits == 2 && rest[0] == POS(1) && rest[1] == POS(2));
    size_t length = made.bytes;

    const hz_step step = {HZ_AT_CLAUSE, 0, 0};
    const uint32_t unit[1] = {POS(0)};
    const uint64_t no_hashes[1] = {0}; /* a pointer is not null, also where the length is 0 */
    hz_written text = hz_write(c, TABLE, HZ_TEXT, step, true, unit, 1, no_hashes, 0, proof + length, room - length);
    expect(text.refusal == HZ_ACCEPTED);
    length += text.bytes;
    expect(length == 21 && memcmp(proof, "2 4 0\nd 2 -3 4 0\n3 0\n", 21) == 0);

    uint8_t bytes[8];
    hz_written binary = hz_write(c, TABLE, HZ_BINARY, step, true, unit, 1, no_hashes, 0, bytes, sizeof bytes);
    expect(binary.refusal == HZ_ACCEPTED && binary.bytes == 3 && memcmp(bytes, "\x61\x06\x00", 3) == 0);
    return length;
}

/* Pairs before the sweep: `box 2 or not box 1` has a true literal and goes, `box 1 or box 3` stays. An entry m under l is the clause not l or m. */
static void thinning(void) {
    const uint32_t lists[10] = {0, 1, NEG(1), 1, POS(0), 1, POS(2), 0, 1, POS(1)};
    const uint32_t kept_want[8] = {0, 0, 0, 1, POS(2), 0, 1, POS(1)};
    uint32_t kept[10];
    uint8_t line[16];
    hz_thinned thinned = hz_simplify_binary(c, TABLE, HZ_TEXT, lists, 10, kept, 10, line, sizeof line);
    expect(thinned.refusal == HZ_ACCEPTED && thinned.words == 8 && thinned.half == 1 && thinned.bytes == 9);
    expect(memcmp(kept, kept_want, sizeof kept_want) == 0 && memcmp(line, "d 3 -2 0\n", 9) == 0);
    hz_thinned cut = hz_simplify_binary(c, TABLE, HZ_TEXT, lists, 9, kept, 10, line, sizeof line);
    expect(cut.refusal == HZ_BAD_LISTS && cut.words == 0 && cut.half == 0 && cut.bytes == 0);
}

/* An assumption names the index of box 3: it may not be removed, and a line about it is still written. Then the assumption is taken back. */
static void assuming(void) {
    hz_changed assumed = hz_mark(c, TABLE, HZ_ASSUME, 2);
    expect(assumed.refusal == HZ_ACCEPTED);
    c = assumed.counts;

    hz_noted kept = hz_remove(c, TABLE, 2, NOTES);
    expect(kept.refusal == HZ_STILL_ASSUMED && kept.notes == 0 && kept.counts.solver == c.solver && gs[2] == 4);
    expect(hz_remove(c, TABLE, 2, notes, 0).refusal == HZ_STILL_ASSUMED);
    const hz_step step = {HZ_AT_CLAUSE, 0, 0};
    const uint32_t unit[1] = {NEG(2)};
    const uint64_t no_hashes[1] = {0};
    uint8_t line[8];
    hz_written text = hz_write(c, TABLE, HZ_TEXT, step, true, unit, 1, no_hashes, 0, line, sizeof line);
    expect(text.refusal == HZ_ACCEPTED && text.bytes == 5 && memcmp(line, "-4 0\n", 5) == 0);

    hz_changed released = hz_mark(c, TABLE, HZ_RELEASE, 2);
    expect(released.refusal == HZ_ACCEPTED);
    c = released.counts;
}

/* Box 1 is hidden; box 3 is in use and stays through the sweep. A line about the index that box 2 has given back is then refused. */
static void sweeping(uint8_t *proof, size_t room) {
    hz_mode_set hidden = hz_set_mode(c, TABLE, 1, HZ_HIDE, NOTES);
    expect(hidden.refusal == HZ_ACCEPTED && !hidden.granted && hidden.notes == 1 && note(0, 0, 1, 0));
    c = hidden.counts;

    hz_changed used = hz_mark(c, TABLE, HZ_USED, 2);
    expect(used.refusal == HZ_ACCEPTED);
    c = used.counts;

    hz_noted swept = hz_sweep(c, TABLE, NOTES);
    expect(swept.refusal == HZ_ACCEPTED && swept.notes == 3);
    expect(note(0, 1, 2, 0) && note(1, 1, 1, 0) && note(2, 2, 1, 0));
    c = swept.counts;
    expect(c.used == 3 && c.next == 0);

    const hz_step step = {HZ_DELETE_CLAUSE, HZ_REDUNDANT, 0};
    const uint32_t gone[1] = {POS(0)};
    const uint64_t no_hashes[1] = {0};
    uint8_t before = proof[0];
    hz_written refused = hz_write(c, TABLE, HZ_TEXT, step, true, gone, 1, no_hashes, 0, proof, room);
    expect(refused.refusal == HZ_NOT_HELD && refused.bytes == 0 && proof[0] == before);
    expect(hz_write(c, TABLE, 7, step, true, gone, 1, no_hashes, 0, proof, room).refusal == HZ_UNKNOWN);
}

/* The two numbers, counted in the lists: so a table that was kept before it had them is brought up to date. */
static hz_counts recounted(hz_counts kept) {
    kept.used = 0;
    for (uint32_t g = 0; g < CAPACITY; g++) {
        kept.used += records[g] < 36;
    }
    kept.next = 0;
    while (kept.next < kept.solver && gs[kept.next] != 0) {
        kept.next++;
    }
    return kept;
}

/* How full the table is, and which index comes next: a table in which either number is wrong is refused. */
static void counting(void) {
    hz_counts kept = {c.capacity, c.user, c.global, c.solver, 0, 0};
    expect(!hz_is_sound(kept, TABLE));
    kept = recounted(kept);
    expect(hz_is_sound(kept, TABLE) && kept.used == c.used && kept.next == c.next);

    hz_counts wrong = c;
    wrong.used++;
    hz_mapped mapped = hz_map(wrong, TABLE, 0, false, NOTES);
    expect(mapped.refusal == HZ_UNSOUND && mapped.counts.used == wrong.used && mapped.counts.next == wrong.next);
    wrong = c;
    wrong.next = UINT32_MAX;
    hz_granted granted = hz_grant(wrong, TABLE, 0, NOTES);
    expect(granted.refusal == HZ_UNSOUND && granted.counts.next == UINT32_MAX && gs[0] == 0);
}

/* What was written is read back. */
static void reading(const uint8_t *proof, size_t length) {
    const uint32_t codes_want[6] = {POS(1), POS(3), POS(1), NEG(2), POS(3), POS(2)};
    uint32_t codes[21];
    uint64_t ends[21];
    uint8_t kinds[21];
    hz_reading read = hz_read(HZ_TEXT, proof, length, codes, 21, ends, 21, kinds, 21);
    expect(read.refusal == HZ_ACCEPTED && read.lits == 6 && read.steps == 3);
    expect(memcmp(codes, codes_want, sizeof codes_want) == 0 && ends[0] == 2 && ends[1] == 5 && ends[2] == 6);
    expect(kinds[0] == HZ_ADD && kinds[1] == HZ_DELETE && kinds[2] == HZ_ADD);

    uint8_t again[64];
    hz_written whole = hz_write_proof(HZ_TEXT, codes, read.lits, ends, read.steps, kinds, read.steps, again, sizeof again);
    expect(whole.refusal == HZ_ACCEPTED && whole.bytes == length && memcmp(again, proof, length) == 0);
    hz_written clause = hz_write_clause(HZ_BINARY, HZ_DELETE, codes, read.lits, 2, 5, again, sizeof again, 0);
    expect(clause.refusal == HZ_ACCEPTED && clause.bytes == 5 && memcmp(again, "\x64\x04\x07\x08\x00", 5) == 0);

    hz_first first = hz_first_step(HZ_TEXT, proof, length);
    expect(first.refusal == HZ_ACCEPTED && first.place == 0 && first.length == 5);
    hz_reading cut = hz_read(HZ_TEXT, proof, length - 2, codes, 21, ends, 21, kinds, 21);
    expect(cut.refusal == HZ_BROKEN_PROOF && cut.place == 17);
}

/* The clauses beside the proof, as a DIMACS CNF file: boxes 1 or 3 but not 2, and box 2. */
static void clauses(void) {
    const uint32_t codes[4] = {POS(1), NEG(2), POS(3), POS(2)};
    const uint64_t ends[2] = {3, 4};
    const char *want = "p cnf 4 2\n2 -3 4 0\n3 0\n";
    uint8_t file[64];
    hz_written written = hz_write_cnf(codes, 4, ends, 2, file, sizeof file);
    expect(written.refusal == HZ_ACCEPTED && written.bytes == strlen(want) && memcmp(file, want, written.bytes) == 0);
    expect(hz_write_cnf(codes, 4, ends, 1, file, sizeof file).refusal == HZ_OUT_OF_RANGE);

    uint32_t codes_read[32];
    uint64_t ends_read[32];
    hz_cnf read = hz_read_cnf(file, written.bytes, codes_read, 32, ends_read, 32);
    expect(read.refusal == HZ_ACCEPTED && read.variables == 4 && read.lits == 4 && read.clauses == 2);
    expect(memcmp(codes_read, codes, sizeof codes) == 0 && memcmp(ends_read, ends, sizeof ends) == 0);
    hz_cnf cut = hz_read_cnf(file, written.bytes - 1, codes_read, 32, ends_read, 32);
    expect(cut.refusal == HZ_BAD_CNF && cut.place == 19 && cut.variables == 0 && cut.lits == 0 && cut.clauses == 0);
}

/* The model: box 0 is false, as nothing was said of it, box 1 is deleted, box 2 true, and box 3 has no value yet. */
static void modelling(void) {
    uint32_t globals[CAPACITY], users[CAPACITY];
    hz_modelled model = hz_model(c, TABLE, globals, CAPACITY, users, CAPACITY);
    expect(model.refusal == HZ_ACCEPTED && model.globals == 4 && model.users == 2);
    expect(globals[0] == 1 && globals[1] == 0 && globals[2] == 2 && globals[3] == 0);
    expect(users[0] == NEG(0) && users[1] == POS(2));

    hz_found user = hz_user_from_global(c, TABLE, 2);
    expect(user.refusal == HZ_ACCEPTED && user.found && user.value == 2);
    records[0] = 99;
    expect(!hz_is_sound(c, TABLE) && hz_model(c, TABLE, globals, CAPACITY, users, CAPACITY).refusal == HZ_UNSOUND);
}

/* A table just opened is sound, and stays so through these calls, which do not test it: each is lent the same lists, with the counts that the one
 * before answered. The cursors go along; a caller who does not want them gives 0. */
static void knowing(void) {
    uint32_t ufrom = 0, gfrom = 0;
    uint32_t clause[2];
    const uint32_t users[2] = {POS(2), NEG(1)};
    hz_changed opened = hz_open(CAPACITY, TABLE);
    expect(opened.refusal == HZ_ACCEPTED);
    c = opened.counts;

    hz_posed posed = hz_known_pose(c, TABLE, users, 2, false, gfrom, clause, 2, NOTES);
    expect(posed.refusal == HZ_ACCEPTED && posed.filled == 2 && posed.notes == 5);
    expect(clause[0] == POS(0) && clause[1] == NEG(1));
    c = posed.counts;

    /* What is mapped and held already is found in the lists, without a call on the table; box 0 holds no index yet, so that the call has to be made. */
    hz_found mapped = hz_map_in(gu, CAPACITY, records, CAPACITY, 2, true);
    hz_found held = hz_grant_in(sg, CAPACITY, 2);
    expect(mapped.found && mapped.value == 2 && held.found && held.value == 0);
    expect(!hz_grant_in(sg, CAPACITY, 0).found && !hz_map_in(gu, CAPACITY, records, CAPACITY, 3, false).found);
    hz_granted granted = hz_known_grant(c, TABLE, 0, NOTES);
    expect(granted.refusal == HZ_ACCEPTED && granted.solver == 2 && granted.notes == 1 && note(0, 1, 0, 3));
    c = granted.counts;

    /* Lookups, marks and values are lent only the lists that they touch; the counts stay. */
    hz_found global = hz_global_from_solver_in(gs, CAPACITY, 1);
    expect(global.found && global.value == 1 && !hz_global_from_solver_in(gs, CAPACITY, UINT32_MAX).found);
    expect(hz_assign_in(gs, CAPACITY, assignment, CAPACITY, clause[1]) == HZ_ACCEPTED);
    expect(hz_assign_in(gs, CAPACITY, assignment, CAPACITY, clause[1]) == HZ_HAS_VALUE);
    expect(hz_mark_in(gs, CAPACITY, records, CAPACITY, HZ_USED, 0) == HZ_ACCEPTED);
    expect(hz_mark_in(gs, CAPACITY, records, CAPACITY, HZ_USED, 3) == HZ_NOT_HELD);
    expect(hz_mark_in(gs, CAPACITY, records, CAPACITY, 9, 0) == HZ_UNKNOWN);
    hz_found value = hz_assignment_in(c.solver, assignment, CAPACITY, 1), record = hz_record_in(c.global, records, CAPACITY, 2);
    expect(value.found && value.value == 1 && record.found && record.value == 0);

    /* User 3 comes: all users up to it are mapped. Box 1 is hidden and loses its index, and user 1 and global 1 are free: the cursors go back to them. */
    hz_new_mapped fresh = hz_known_new_user(c, TABLE, ufrom, gfrom, NOTES);
    expect(fresh.refusal == HZ_ACCEPTED && fresh.user == 3 && fresh.global == 3);
    c = fresh.counts;
    ufrom = fresh.user + 1;
    hz_mode_set hidden = hz_known_set_mode(c, TABLE, 1, HZ_HIDE, ufrom, NOTES);
    expect(hidden.refusal == HZ_ACCEPTED && hidden.notes == 1 && note(0, 0, 1, 0));
    c = hidden.counts;
    ufrom = 1;
    hz_noted removed = hz_known_remove(c, TABLE, 1, NOTES);
    expect(removed.refusal == HZ_ACCEPTED && removed.notes == 2 && note(1, 2, 1, 0));
    c = removed.counts;
    gfrom = gfrom < 1 ? gfrom : 1;
    fresh = hz_known_new_user(c, TABLE, ufrom, gfrom, NOTES);
    expect(fresh.refusal == HZ_ACCEPTED && fresh.user == 1 && fresh.global == 1);
    c = fresh.counts;

    const hz_step step = {HZ_AT_CLAUSE, 0, 0};
    const uint64_t no_hashes[1] = {0};
    uint8_t line[8];
    hz_written text = hz_known_write(c, TABLE, HZ_TEXT, step, true, clause, 1, no_hashes, 0, line, sizeof line);
    expect(text.refusal == HZ_ACCEPTED && text.bytes == 4 && memcmp(line, "3 0\n", 4) == 0);
    expect(hz_is_sound(c, TABLE));
}

int main(void) {
    uint32_t clause[3];
    uint8_t proof[64];
    naming(clause);
    size_t length = proving(clause, proof, sizeof proof);
    thinning();
    assuming();
    sweeping(proof, sizeof proof);
    counting();
    reading(proof, length);
    clauses();
    modelling();
    knowing();
    printf("session.c: a session from Open to Model, every answer as expected\n");
    return 0;
}
