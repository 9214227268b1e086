/* SPDX-License-Identifier: Apache-2.0 */
/* What include/cablegorse.h says, tried from C: every function, every field of an answer with a number of its own in it,
 * (NULL, 0) in the place of every slice, every question, each part, whole chunks, boards, operations performed and written,
 * names known and new, and a wrong `folding`.
 * Prints each line that is wrong, and how many were right. */
#include <stdio.h>
#include <string.h>

#include "cablegorse.h"

static int right, wrong;

static void check(int line, int holds, const char *what) {
    if (holds) {
        right++;
        return;
    }
    wrong++;
    printf("tests/c/boundary.c:%d: not so: %s\n", line, what);
}
#define CHECK(what) check(__LINE__, (what), #what)

/* ---- records, written by the header's places */
static uint8_t record[2048];
static size_t record_len;

static void put(size_t at, uint64_t number, int bytes) {
    for (int i = 0; i < bytes; i++)
        record[at + (size_t)i] = (uint8_t)(number >> 8 * i);
}

static void begin(unsigned kind, uint32_t sequence, size_t length) {
    memset(record, 0, sizeof record);
    record_len = length;
    put(0, length - 2, 2);
    put(2, kind, 2);
    put(4, sequence, 4);
}

/* A lock in a record whose ACTIVE body starts `later` bytes after an ACTIVE record's. Its id is its number in both halves. */
static void lock(size_t later, uint8_t id, unsigned kind, uint8_t number, uint16_t subject, uint8_t ecus, uint8_t parent) {
    record[CABLEGORSE_AT_ID + 7 + later] = id;
    record[CABLEGORSE_AT_ID + 15 + later] = id;
    record[CABLEGORSE_AT_SCOPE_KIND + later] = (uint8_t)kind;
    record[CABLEGORSE_AT_SCOPE_NUMBER + later] = number;
    if (kind != CABLEGORSE_SCOPE_VEHICLE) {
        record[CABLEGORSE_AT_COVERAGE + later] = CABLEGORSE_COVERAGE_SET;
        record[CABLEGORSE_AT_SET + later] = ecus;
    }
    put(CABLEGORSE_AT_SUBJECT + later, subject, 2);
    put(CABLEGORSE_AT_EXPIRES + later, 1000, 8);
    if (parent != 0) {
        record[CABLEGORSE_AT_HAS_PARENT + later] = 1;
        record[CABLEGORSE_AT_PARENT + 7 + later] = parent;
        record[CABLEGORSE_AT_PARENT + 15 + later] = parent;
    }
}

static void insert(uint32_t sequence, uint8_t id, unsigned kind, uint8_t number, uint16_t subject, uint8_t ecus,
                   uint8_t parent) {
    begin(CABLEGORSE_KIND_INSERT_ACTIVE, sequence, 95);
    lock(4, id, kind, number, subject, ecus, parent);
}

static void replace(uint32_t sequence, uint8_t root, uint8_t id, uint8_t ecu, uint16_t subject) {
    begin(CABLEGORSE_KIND_COMMIT_REPLACEMENT, sequence, 109 + 16);
    lock(4, id, CABLEGORSE_SCOPE_ECU, ecu, subject, (uint8_t)(1 << ecu), 0);
    put(95, 31, 4);  /* broken by */
    put(99, 500, 8); /* broken at */
    put(107, 1, 2);
    record[109 + 7] = record[109 + 15] = root;
}

/* ---- a host's image and buffers */
static uint8_t image[CABLEGORSE_IMAGE_LIMIT], next[CABLEGORSE_IMAGE_LIMIT];
static uint8_t removed[CABLEGORSE_REMOVED_LIMIT], expired[CABLEGORSE_EXPIRED_LIMIT], out[1024];
static size_t image_len;

static cablegorse_applied apply(size_t at, const uint8_t *feed, size_t feed_len) {
    cablegorse_applied a = cablegorse_apply(image, image_len, feed, feed_len, at, next, sizeof next, removed,
                                            sizeof removed, expired, sizeof expired);
    if (a.part == CABLEGORSE_PART_APPLIED) {
        memcpy(image, next, a.written);
        image_len = a.written;
    }
    return a;
}

static cablegorse_told ask(uint32_t question, uint64_t x, uint64_t y, const uint8_t *given, size_t given_len) {
    return cablegorse_read(image, image_len, question, x, y, given, given_len, out, sizeof out);
}

static void start(uint64_t revision, uint32_t expected) {
    begin(CABLEGORSE_KIND_HEAD, 0, CABLEGORSE_HEAD_BYTES);
    put(4, revision, 8);
    put(12, expected, 4);
    memcpy(image, record, image_len = record_len);
}

/* A number of its own in every field. */
static void fields(void) {
    start(0x1122334455667788, 0x99aabbcc);
    cablegorse_told t = cablegorse_test(image, image_len);
    CHECK(t.number == CABLEGORSE_DONE && t.count == 4);
    CHECK(t.v[0] == 0x1122334455667788 && t.v[1] == 0x99aabbcc && t.v[2] == 0 && t.v[3] == 0 && t.v[4] == 0);

    insert(0x99aabbcc, 7, CABLEGORSE_SCOPE_VEHICLE, 0, 1, 0, 0);
    cablegorse_applied a = apply(0, record, record_len);
    CHECK(a.number == CABLEGORSE_DONE && a.count == 0 && a.part == CABLEGORSE_PART_APPLIED);

    /* 11.3: a child of another subject. The record stands at byte 3 of the feed. */
    uint8_t feed[3 + 95] = {0};
    insert(0x99aabbcd, 8, CABLEGORSE_SCOPE_ECU, 5, 2, 1 << 5, 7);
    memcpy(feed + 3, record, record_len);
    a = apply(3, feed, sizeof feed);
    CHECK(a.number == CABLEGORSE_INVARIANT && a.count == 5);
    CHECK(a.v[0] == 3 && a.v[1] == 8 && a.v[2] == 8 && a.v[3] == 7 && a.v[4] == 7);
    CHECK(a.part == CABLEGORSE_PART_APPLIED && a.sequence == 0x99aabbcd && a.place == 98);
    CHECK(a.written == CABLEGORSE_HEAD_BYTES + CABLEGORSE_ACTIVE_BYTES && a.gone == 0 && a.lapsed == 0);

    /* 7 at no ECU: the whole vehicle is locked, the other covers nothing. */
    insert(0x99aabbce, 8, CABLEGORSE_SCOPE_GROUP, 5, 2, 0, 0);
    a = apply(0, record, record_len);
    CHECK(a.number == CABLEGORSE_COVERAGE_CONFLICT && a.count == 4);
    CHECK(a.v[0] == 7 && a.v[1] == 7 && a.v[2] == 0 && a.v[3] == 0 && a.v[4] == 0);

    begin(CABLEGORSE_KIND_DELETE, 0x99aabbcf, 24);
    record[8 + 7] = record[8 + 15] = 7;
    a = apply(0, record, record_len);
    CHECK(a.number == CABLEGORSE_DONE && a.gone == 1 && a.lapsed == 0 && a.written == CABLEGORSE_HEAD_BYTES);
    CHECK(removed[2] == CABLEGORSE_KIND_ACTIVE && removed[CABLEGORSE_AT_ID + 15] == 7);
}

/* A refused operation is applied: the host that drops its image can't go on. */
static void refused_is_applied(void) {
    uint8_t old[CABLEGORSE_IMAGE_LIMIT];
    start(0, 0);
    insert(0, 1, CABLEGORSE_SCOPE_ECU, 5, 1, 1 << 5, 0);
    apply(0, record, record_len);
    size_t old_len = image_len;
    memcpy(old, image, image_len);
    insert(1, 2, CABLEGORSE_SCOPE_GROUP, 3, 2, 1 << 5 | 1 << 6, 0);
    cablegorse_applied a = apply(0, record, record_len);
    CHECK(a.number == CABLEGORSE_COVERAGE_CONFLICT && a.count == 4 && a.v[0] == 1 && a.v[1] == 1);
    CHECK(a.v[2] == 1 && a.v[3] == 5 && a.v[4] == 0);
    CHECK(a.part == CABLEGORSE_PART_APPLIED && a.written == image_len);
    CHECK(cablegorse_response_class(a.number) == CABLEGORSE_CLASS_CONFLICT);
    insert(2, 2, CABLEGORSE_SCOPE_GROUP, 3, 2, 1 << 6, 0);
    a = cablegorse_apply(old, old_len, record, record_len, 0, next, sizeof next, removed, sizeof removed, expired,
                         sizeof expired);
    CHECK(a.number == CABLEGORSE_AHEAD && a.part == CABLEGORSE_PART_RECORD_REFUSED && a.v[0] == 1 && a.written == 0);
    a = apply(0, record, record_len);
    CHECK(a.number == CABLEGORSE_DONE);
    a = apply(0, record, record_len);
    CHECK(a.number == CABLEGORSE_REPEAT && a.part == CABLEGORSE_PART_RECORD_REFUSED && a.v[0] == 3);
}

/* The other parts; then lapsed, and delete_defunct. Follows refused_is_applied: lock 1 on ECU 5, lock 2 on group 3. */
static void parts(void) {
    image[2] = 9;
    cablegorse_applied a = apply(0, record, record_len);
    CHECK(a.number == CABLEGORSE_BAD_KIND && a.part == CABLEGORSE_PART_IMAGE_REFUSED && a.v[0] == 0);
    image[2] = CABLEGORSE_KIND_HEAD;

    replace(3, 1, 4, 5, 3);
    memset(next, 0x5a, sizeof next);
    a = cablegorse_apply(image, image_len, record, record_len, 0, next, image_len, removed, 90, expired, 0);
    CHECK(a.number == CABLEGORSE_SHORT_OUTPUT && a.part == CABLEGORSE_PART_SHORT_OUTPUT && a.count == 3);
    CHECK(a.v[0] == image_len + CABLEGORSE_DEFUNCT_BYTES && a.v[1] == CABLEGORSE_ACTIVE_BYTES && a.v[2] == 0);
    CHECK(next[0] == 0x5a && a.place == 0);
    a = apply(0, record, record_len);
    CHECK(a.number == CABLEGORSE_DONE && a.gone == 1);

    uint8_t before[CABLEGORSE_IMAGE_LIMIT];
    size_t before_len = image_len;
    memcpy(before, image, image_len);
    begin(CABLEGORSE_KIND_EXPIRE_DEFUNCT, 4, 16);
    put(8, 1000, 8);
    a = apply(0, record, record_len);
    CHECK(a.number == CABLEGORSE_DONE && a.lapsed == 1 && a.gone == 0 && expired[7] == 1 && expired[15] == 1);
    memcpy(image, before, image_len = before_len);

    a = cablegorse_delete_defunct(image, image_len, 1, 1, CABLEGORSE_SCOPE_ECU, 6, 1, next, sizeof next);
    CHECK(a.number == CABLEGORSE_DONE && a.v[0] == 0 && a.part == CABLEGORSE_PART_APPLIED && a.written == 0);
    a = cablegorse_delete_defunct(image, image_len, 1, 1, CABLEGORSE_SCOPE_ECU, 5, 2, next, sizeof next);
    CHECK(a.number == CABLEGORSE_FORBIDDEN && a.part == CABLEGORSE_PART_APPLIED && a.written == 0);
    a = cablegorse_delete_defunct(image, image_len, 1, 1, 3, 5, 1, next, sizeof next);
    CHECK(a.number == CABLEGORSE_BAD_FIELD && a.part == CABLEGORSE_PART_RECORD_REFUSED);
    a = cablegorse_delete_defunct(image, image_len, 1, 1, CABLEGORSE_SCOPE_ECU, 5, 1, NULL, 0);
    CHECK(a.number == CABLEGORSE_SHORT_OUTPUT && a.v[0] == image_len - CABLEGORSE_DEFUNCT_BYTES);
    a = cablegorse_delete_defunct(image, image_len, 1, 1, CABLEGORSE_SCOPE_ECU, 5, 1, next, sizeof next);
    CHECK(a.number == CABLEGORSE_DONE && a.v[0] == 1 && a.written == image_len - CABLEGORSE_DEFUNCT_BYTES);
}

/* Each question once. Lock 4 (subject 3) on ECU 5, lock 2 (subject 2, ECU 6) on group 3, defunct lock 1. */
static void questions(void) {
    cablegorse_told t = ask(CABLEGORSE_ASK_REVISION, 0, 0, NULL, 0);
    CHECK(t.number == CABLEGORSE_DONE && t.count == 1 && t.v[0] == 3);
    t = ask(CABLEGORSE_ASK_ACTIVE_FOR_SCOPE, CABLEGORSE_SCOPE_ECU, 5, NULL, 0);
    CHECK(t.v[0] == 1 && out[CABLEGORSE_AT_ID + 15] == 4 && out[CABLEGORSE_AT_SUBJECT] == 3);
    CHECK(ask(CABLEGORSE_ASK_ACTIVE_FOR_SCOPE, CABLEGORSE_SCOPE_ECU, 6, NULL, 0).v[0] == 0);
    CHECK(ask(CABLEGORSE_ASK_ACTIVE_BY_ID, 4, 4, NULL, 0).v[0] == 1 && out[CABLEGORSE_AT_ID + 15] == 4);
    CHECK(ask(CABLEGORSE_ASK_ACTIVE_AT, 1, 0, NULL, 0).v[0] == 1 && out[CABLEGORSE_AT_ID + 15] == 4);
    CHECK(ask(CABLEGORSE_ASK_DEFUNCT_AT, 0, 0, NULL, 0).v[0] == 1 && out[CABLEGORSE_AT_ID + 15] == 1);
    CHECK(ask(CABLEGORSE_ASK_DEFUNCT_BY_ID, 1, 1, NULL, 0).v[0] == 1);
    CHECK(out[CABLEGORSE_AT_EXPIRES] + 256 * out[CABLEGORSE_AT_EXPIRES + 1] == 1000);
    CHECK(out[CABLEGORSE_AT_BROKEN_AT] + 256 * out[CABLEGORSE_AT_BROKEN_AT + 1] == 500);
    CHECK(out[CABLEGORSE_AT_BROKEN_BY] == 31 && out[CABLEGORSE_AT_REPLACEMENT + 15] == 4 && out[CABLEGORSE_AT_HOLDER] == 3);
    uint8_t defunct[CABLEGORSE_DEFUNCT_BYTES];
    memcpy(defunct, out, sizeof defunct);
    t = ask(CABLEGORSE_ASK_CURRENT_HOLDER, 0, 0, defunct, sizeof defunct);
    CHECK(t.number == CABLEGORSE_DONE && t.count == 2 && t.v[0] == 3 && t.v[1] == 0);

    /* A group's lock of subject 3 on ECUs 5 and 6, which isn't in the state; one of subject 1 on ECU 4. */
    begin(CABLEGORSE_KIND_ACTIVE, 0, CABLEGORSE_ACTIVE_BYTES);
    lock(0, 9, CABLEGORSE_SCOPE_GROUP, 8, 3, 1 << 5 | 1 << 6, 0);
    t = ask(CABLEGORSE_ASK_COVERED_NARROW_LOCKS, 0, 0, record, record_len);
    CHECK(t.v[0] == 1 && out[7] == 4 && out[15] == 4);
    begin(CABLEGORSE_KIND_ACTIVE, 0, CABLEGORSE_ACTIVE_BYTES);
    lock(0, 9, CABLEGORSE_SCOPE_GROUP, 8, 1, 1 << 4, 0);
    CHECK(ask(CABLEGORSE_ASK_UNCOVERED_DEFUNCT, 999, 0, record, record_len).v[0] == 0);
    CHECK(ask(CABLEGORSE_ASK_COVERING_FUNCTIONAL_GROUP, 2, 6, NULL, 0).v[0] == 1 && out[CABLEGORSE_AT_SCOPE_NUMBER] == 3);
    t = ask(CABLEGORSE_ASK_TESTER_PRESENT_FOR, 3, CABLEGORSE_SCOPE_ECU * 256 + 5, NULL, 0);
    CHECK(t.count == 2 && t.v[0] == 1 && t.v[1] == 5);
    CHECK(ask(CABLEGORSE_ASK_TESTER_PRESENT_NEEDED, 2, 3, NULL, 0).v[0] == 1);
    CHECK(ask(CABLEGORSE_ASK_VEHICLE_LOCK_OWNER_SUB, 0, 0, NULL, 0).v[0] == 0);
    CHECK(ask(CABLEGORSE_ASK_HAS_NON_VEHICLE_LOCKS, 0, 0, NULL, 0).v[0] == 1);
    CHECK(ask(15, 0, 0, NULL, 0).number == CABLEGORSE_BAD_KIND);
    CHECK(ask(CABLEGORSE_ASK_ACTIVE_FOR_SCOPE, 3, 0, NULL, 0).number == CABLEGORSE_BAD_FIELD);
    CHECK(cablegorse_prepare_runtime_update(image, image_len, 1).number == CABLEGORSE_FUNCTIONAL_GROUP_LOCKS_HELD);
    start(0, 0);
    t = cablegorse_prepare_runtime_update(image, image_len, 41);
    CHECK(t.number == CABLEGORSE_DONE && t.v[0] == 42);
}

/* A chunk: locks on ECU 5 and 6, one that is refused, one that comes early, the first again; each part. */
static void chunks(void) {
    static uint8_t chunk[5 * 95 + 10];
    size_t at = 0;
    start(0x1122334455667788, 0xfffffffe);
    uint8_t ids[] = {1, 2, 3, 4, 1}, ecus[] = {5, 6, 5, 7, 5};
    uint32_t sequences[] = {0xfffffffe, 0xffffffff, 0, 2, 0xfffffffe};
    for (int i = 0; i < 5; i++, at += record_len) {
        insert(sequences[i], ids[i], CABLEGORSE_SCOPE_ECU, ecus[i], 1, (uint8_t)(1 << ecus[i]), 0);
        memcpy(chunk + at, record, record_len);
    }
    memset(next, 0x5a, sizeof next);
    cablegorse_followed f = cablegorse_follow(image, image_len, chunk, at, next, 20 + 2 * 91 - 1);
    CHECK(f.number == CABLEGORSE_SHORT_OUTPUT && f.count == 1 && f.v[0] == 20 + 2 * 91 && f.v[1] == 0);
    CHECK(f.part == CABLEGORSE_CHUNK_SHORT_OUTPUT && f.expected == 0 && f.place == 0 && f.read == 0 && f.applied == 0);
    CHECK(f.written == 0 && next[0] == 0x5a);
    f = cablegorse_follow(image, 19, chunk, at, next, sizeof next);
    CHECK(f.number == CABLEGORSE_TORN && f.count == 1 && f.part == CABLEGORSE_CHUNK_IMAGE_REFUSED && f.v[0] == 0);
    CHECK(f.expected == 0 && f.place == 0 && f.read == 0 && f.applied == 0 && f.written == 0 && next[0] == 0x5a);
    f = cablegorse_follow(image, image_len, chunk, at, next, 20 + 2 * 91);
    CHECK(f.number == CABLEGORSE_DONE && f.count == 0 && f.v[0] == 0 && f.v[4] == 0 && f.part == CABLEGORSE_CHUNK_ENDED);
    CHECK(f.expected == 1 && f.place == 5 * 95 && f.read == 5 && f.applied == 3 && f.written == 20 + 2 * 91);
    CHECK(next[f.written] == 0x5a);
    /* The same by apply, record by record; then half a record behind the chunk, and no record at all. */
    size_t before_len = image_len;
    uint8_t before[CABLEGORSE_HEAD_BYTES];
    memcpy(before, image, image_len);
    for (size_t place = 0; place < at;)
        place = apply(place, chunk, at).place;
    CHECK(image_len == f.written && memcmp(image, next, image_len) == 0);
    memcpy(chunk + at, record, 10);
    f = cablegorse_follow(before, before_len, chunk, at + 10, next, sizeof next);
    CHECK(f.number == CABLEGORSE_TORN && f.count == 1 && f.v[0] == at && f.part == CABLEGORSE_CHUNK_STOPPED);
    CHECK(f.place == at && f.read == 5 && f.applied == 3 && memcmp(image, next, image_len) == 0);
    chunk[at + 2] = 24;
    f = cablegorse_follow(before, before_len, chunk, at + 10, next, sizeof next);
    CHECK(f.number == CABLEGORSE_BAD_KIND && f.v[0] == at && f.part == CABLEGORSE_CHUNK_STOPPED);
    CHECK(f.written == image_len && memcmp(image, next, image_len) == 0);
}

/* The board of control units: made, kept over a record, refused (28) and left. Lock 1 on ECU 5, a vehicle lock 2. */
static void boards(void) {
    static uint8_t board[CABLEGORSE_BOARD_BYTES + 1], other[sizeof board], kept[sizeof board];
    cablegorse_applied a;
    const size_t size = CABLEGORSE_BOARD_BYTES, five = 5 * CABLEGORSE_ENTRY_BYTES, last = 255 * CABLEGORSE_ENTRY_BYTES;
    start(0, 0);
    insert(0, 1, CABLEGORSE_SCOPE_ECU, 5, 1, 1 << 5, 0);
    apply(0, record, record_len);
    memset(board, 0x5a, sizeof board);
    cablegorse_told t = cablegorse_board(image, image_len, board, size - 1);
    CHECK(t.number == CABLEGORSE_SHORT_OUTPUT && t.count == 1 && t.v[0] == size && board[0] == 0x5a);
    t = cablegorse_board(image, 19, board, size);
    CHECK(t.number == CABLEGORSE_TORN && t.v[0] == 0 && board[0] == 0x5a);
    t = cablegorse_board(image, image_len, board, sizeof board);
    CHECK(t.number == CABLEGORSE_DONE && t.count == 1 && t.v[0] == size && board[size] == 0x5a);
    CHECK(board[five] == 1 && board[five + 1 + 7] == 1 && board[five + 1 + 15] == 1 && board[five + 1] == 0);
    CHECK(board[0] == 0 && board[last] == 0 && board[size - 1] == 0);

    insert(1, 2, CABLEGORSE_SCOPE_VEHICLE, 0, 1, 0, 0);
    memcpy(other, board, sizeof board);
    memset(next, 0x5a, sizeof next);
    memset(removed, 0x5a, sizeof removed);
    memset(expired, 0x5a, sizeof expired);
    other[last + 3] ^= 1;
    /* A byte of it, then its size: 28, at a place without a record and at one that is due. */
    uint8_t *lent[] = {other, other, board, board};
    size_t sizes[] = {size, size, size - 1, size + 1}, places[] = {7, 0, 0, 0};
    for (int i = 0; i < 4; i++) {
        memcpy(kept, lent[i], sizeof kept);
        a = cablegorse_apply_board(image, image_len, lent[i], sizes[i], record, record_len, places[i], next, sizeof next,
                                   removed, sizeof removed, expired, sizeof expired);
        CHECK(a.number == CABLEGORSE_BOARD_MISMATCH && a.count == 0 && a.part == CABLEGORSE_PART_IMAGE_REFUSED);
        CHECK(a.place == places[i] && a.sequence == 0 && a.written == 0 && memcmp(lent[i], kept, sizeof kept) == 0);
        CHECK(next[0] == 0x5a && removed[0] == 0x5a && expired[0] == 0x5a);
        a = cablegorse_delete_defunct_board(image, image_len, lent[i], sizes[i], 1, 1, 3, 5, 1, next, sizeof next);
        CHECK(a.number == CABLEGORSE_BOARD_MISMATCH && a.part == CABLEGORSE_PART_IMAGE_REFUSED && next[0] == 0x5a);
    }
    CHECK(cablegorse_response_class(CABLEGORSE_BOARD_MISMATCH) == CABLEGORSE_CLASS_NONE);

    /* Too short: all four are left. Then all four are written. */
    a = cablegorse_apply_board(image, image_len, board, size, record, record_len, 0, next, image_len + 90, removed,
                               sizeof removed, expired, sizeof expired);
    CHECK(a.number == CABLEGORSE_SHORT_OUTPUT && a.part == CABLEGORSE_PART_SHORT_OUTPUT);
    CHECK(board[0] == 0 && next[0] == 0x5a);
    a = cablegorse_apply_board(image, image_len, board, size, record, record_len, 0, next, image_len + 91, removed,
                               sizeof removed, expired, sizeof expired);
    CHECK(a.number == CABLEGORSE_DONE && a.part == CABLEGORSE_PART_APPLIED);
    CHECK(a.sequence == 1 && a.written == image_len + 91);
    CHECK(board[0] == 1 && board[1 + 15] == 2 && board[five] == 2 && board[five + 1 + 15] == 1 && board[last] == 1);
    CHECK(board[size] == 0x5a);
    t = cablegorse_board(next, a.written, other, size);
    CHECK(t.number == CABLEGORSE_DONE && memcmp(board, other, size) == 0);
    /* The board that went along isn't the old image's any more. */
    a = cablegorse_apply_board(image, image_len, board, size, record, record_len, 0, next, sizeof next, removed,
                               sizeof removed, expired, sizeof expired);
    CHECK(a.number == CABLEGORSE_BOARD_MISMATCH);
    a = cablegorse_delete_defunct_board(next, image_len + 91, board, size, 1, 1, 3, 5, 1, NULL, 0);
    CHECK(a.number == CABLEGORSE_BAD_FIELD && a.part == CABLEGORSE_PART_RECORD_REFUSED);
    a = cablegorse_delete_defunct_board(next, image_len + 91, board, size, 1, 1, CABLEGORSE_SCOPE_ECU, 5, 1, NULL, 0);
    CHECK(a.number == CABLEGORSE_DONE && a.v[0] == 0 && a.part == CABLEGORSE_PART_APPLIED && a.written == 0);
}

/* ---- a primary */
static uint8_t sent[CABLEGORSE_RECORD_LIMIT + 1];

/* A number in what was sent. */
static uint64_t field(size_t at, int bytes) {
    uint64_t number = 0;
    for (int i = 0; i < bytes; i++)
        number |= (uint64_t)sent[at + (size_t)i] << 8 * i;
    return number;
}

/* Half an id in what was sent. */
static uint64_t half(size_t at) {
    uint64_t number = 0;
    for (size_t i = 0; i < 8; i++)
        number = number << 8 | sent[at + i];
    return number;
}

/* A number of its own in every field, no two bytes of it alike. */
static cablegorse_operation every(unsigned kind) {
    cablegorse_operation o = {.hi = 0x0102030405060708, .lo = 0x1112131415161718, .parent_hi = 0x2122232425262728,
                              .parent_lo = 0x3132333435363738, .w0 = 0x4142434445464748, .w1 = 0x5152535455565758,
                              .w2 = 0x6162636465666768, .w3 = 0x7172737475767778, .expires = 0x8182838485868788,
                              .now = 0x9192939495969798, .principal = 0xa1a2a3a4, .metadata = 0xb1b2b3b4,
                              .breaker = 0xc1c2c3c4, .subject = 0xd1d2, .scope = CABLEGORSE_SCOPE_GROUP, .number = 0xe1,
                              .exclusive = 1, .coverage = CABLEGORSE_COVERAGE_SET, .child = 1, .given = 1};
    o.kind = (uint16_t)kind;
    return o;
}

static cablegorse_told written(cablegorse_operation asked, size_t words, size_t room) {
    static uint64_t list[132];
    for (size_t i = 0; i < 132; i++)
        list[i] = 0xf1f2f3f4f5f6f700 + 200 - i;
    memset(sent, 0x5a, sizeof sent);
    return cablegorse_write_record(0x01020304, asked, list, words, sent, room);
}

static void record_fields(void) {
    cablegorse_operation o = every(CABLEGORSE_KIND_COMMIT_REPLACEMENT);
    cablegorse_told t = written(o, 4, sizeof sent);
    CHECK(t.number == CABLEGORSE_DONE && t.count == 1 && t.v[0] == 141 && t.v[1] == 0);
    CHECK(field(0, 2) == 139 && field(2, 2) == 21 && field(4, 4) == 0x01020304);
    CHECK(half(CABLEGORSE_AT_ID + 4) == o.hi && half(CABLEGORSE_AT_ID + 12) == o.lo);
    CHECK(field(CABLEGORSE_AT_SCOPE_KIND + 4, 1) == 2 && field(CABLEGORSE_AT_SCOPE_NUMBER + 4, 1) == 0xe1);
    CHECK(field(CABLEGORSE_AT_EXCLUSIVE + 4, 1) == 1 && field(CABLEGORSE_AT_COVERAGE + 4, 1) == 1);
    CHECK(field(CABLEGORSE_AT_SET + 4, 8) == o.w0 && field(CABLEGORSE_AT_SET + 12, 8) == o.w1);
    CHECK(field(CABLEGORSE_AT_SET + 20, 8) == o.w2 && field(CABLEGORSE_AT_SET + 28, 8) == o.w3);
    CHECK(field(CABLEGORSE_AT_SUBJECT + 4, 2) == o.subject && field(CABLEGORSE_AT_PRINCIPAL + 4, 4) == o.principal);
    CHECK(field(CABLEGORSE_AT_METADATA + 4, 4) == o.metadata && field(CABLEGORSE_AT_EXPIRES + 4, 8) == o.expires);
    CHECK(field(CABLEGORSE_AT_HAS_PARENT + 4, 1) == 1);
    CHECK(half(CABLEGORSE_AT_PARENT + 4) == o.parent_hi && half(CABLEGORSE_AT_PARENT + 12) == o.parent_lo);
    CHECK(field(95, 4) == o.breaker && field(99, 8) == o.now && field(107, 2) == 2);
    CHECK(half(109) == 0xf1f2f3f4f5f6f700 + 200 && half(133) == 0xf1f2f3f4f5f6f700 + 197 && sent[141] == 0x5a);

    o.scope = CABLEGORSE_SCOPE_VEHICLE; /* and what doesn't apply is zero */
    o.coverage = CABLEGORSE_COVERAGE_VEHICLE;
    o.child = 0;
    CHECK(written(o, 0, sizeof sent).v[0] == 109);
    CHECK(field(CABLEGORSE_AT_SCOPE_NUMBER + 4, 1) == 0 && field(CABLEGORSE_AT_SET + 4, 8) == 0);
    CHECK(field(CABLEGORSE_AT_SET + 28, 8) == 0 && half(CABLEGORSE_AT_PARENT + 4) == 0 && half(CABLEGORSE_AT_PARENT + 12) == 0);

    o = every(CABLEGORSE_KIND_RENEW);
    CHECK(written(o, 3, sizeof sent).v[0] == 45 && field(2, 2) == 18 && half(8) == o.hi && half(16) == o.lo);
    CHECK(field(24, 8) == o.expires && field(32, 8) == o.now && field(40, 1) == 1 && field(41, 4) == o.metadata);
    o.given = 0;
    CHECK(written(o, 3, sizeof sent).v[0] == 45 && field(40, 1) == 0 && field(41, 4) == 0);
    CHECK(written(every(CABLEGORSE_KIND_BEGIN_EXPIRATION), 0, sizeof sent).v[0] == 32 && field(24, 8) == o.now);
    CHECK(written(every(CABLEGORSE_KIND_EXPIRE_DEFUNCT), 0, sizeof sent).v[0] == 16 && field(8, 8) == o.now);
}

/* 18, 19, 14, 29, 21, in this order; and every buffer that is too short, of every kind. */
static void record_refusals(void) {
    unsigned none[] = {0, 2, 15, 24, 16 + 256, 65535};
    for (int i = 0; i < 6; i++) {
        cablegorse_told t = written(every(none[i]), 131, 0);
        CHECK(t.number == CABLEGORSE_BAD_KIND && t.count == 1 && t.v[0] == 0);
    }
    for (unsigned kind = CABLEGORSE_KIND_INSERT_ACTIVE; kind <= CABLEGORSE_KIND_EXPIRE_DEFUNCT; kind++) {
        int lists = kind == CABLEGORSE_KIND_INSERT_VEHICLE || kind == CABLEGORSE_KIND_COMMIT_REPLACEMENT;
        int brings = lists || kind == CABLEGORSE_KIND_INSERT_ACTIVE;
        for (int i = 0; i < 5; i++) {
            cablegorse_operation o = every(kind);
            uint8_t *flags[] = {&o.scope, &o.exclusive, &o.coverage, &o.child, &o.given};
            *flags[i] = i == 0 ? 3 : 2;
            int read = i < 4 ? brings : kind == CABLEGORSE_KIND_RENEW;
            CHECK((written(o, 131, 0).number == CABLEGORSE_BAD_FIELD) == read);
        }
        size_t size = written(every(kind), 128, sizeof sent).v[0];
        CHECK(written(every(kind), 129, 0).number == (lists ? CABLEGORSE_BAD_LIST : CABLEGORSE_SHORT_OUTPUT));
        CHECK(written(every(kind), 130, 0).number == (lists ? CABLEGORSE_LIST_TOO_LONG : CABLEGORSE_SHORT_OUTPUT));
        CHECK(written(every(kind), 131, sizeof sent).number == (lists ? CABLEGORSE_BAD_LIST : CABLEGORSE_DONE));
        CHECK(written(every(kind), 130, sizeof sent).number == (lists ? CABLEGORSE_LIST_TOO_LONG : CABLEGORSE_DONE));
        CHECK(lists == (sent[0] == 0x5a));
        int told = 1;
        for (size_t room = 0; room < size; room++) {
            cablegorse_told t = written(every(kind), 128, room);
            told = told && t.number == CABLEGORSE_SHORT_OUTPUT && t.count == 1 && t.v[0] == size;
            for (size_t i = 0; i < sizeof sent; i++)
                told = told && sent[i] == 0x5a;
        }
        CHECK(told);
    }
    CHECK(written(every(CABLEGORSE_KIND_COMMIT_REPLACEMENT), 128, CABLEGORSE_RECORD_LIMIT).v[0] == CABLEGORSE_RECORD_LIMIT);
    CHECK(cablegorse_response_class(CABLEGORSE_LIST_TOO_LONG) == CABLEGORSE_CLASS_NONE);
}

static const uint64_t roots[] = {1, 1, 1, 1}; /* one id, twice */

/* Each output a byte too short: 21 with what all four need, and none is written. */
static void a_byte_short(cablegorse_operation o, const size_t needed[4], uint32_t sequence) {
    for (int output = 0; output < 4; output++) {
        size_t room[4];
        memcpy(room, needed, sizeof room);
        if (room[output]-- == 0)
            continue;
        memset(next, 0x5a, sizeof next);
        memset(removed, 0x5a, sizeof removed);
        memset(sent, 0x5a, sizeof sent);
        cablegorse_applied a = cablegorse_perform(image, image_len, o, roots, 4, next, room[0], removed, room[1], expired,
                                                  room[2], sent, room[3]);
        CHECK(a.number == CABLEGORSE_SHORT_OUTPUT && a.part == CABLEGORSE_PART_SHORT_OUTPUT && a.count == 4);
        CHECK(a.v[0] == needed[0] && a.v[1] == needed[1] && a.v[2] == needed[2] && a.v[3] == needed[3] && a.v[4] == 0);
        CHECK(a.sequence == sequence && a.place == 0 && a.written == 0 && a.gone == 0);
        CHECK(next[0] == 0x5a && removed[0] == 0x5a && sent[0] == 0x5a);
    }
}

/* Twice round: lock 1 on ECU 5, then another tester's lock 4 in its place; the other side gets what was sent. */
static void both_sides(void) {
    static uint8_t other[CABLEGORSE_IMAGE_LIMIT], gone[CABLEGORSE_REMOVED_LIMIT];
    cablegorse_operation o = {.w0 = 1 << 5, .expires = 1000, .now = 500, .scope = CABLEGORSE_SCOPE_ECU, .number = 5,
                              .coverage = CABLEGORSE_COVERAGE_SET};
    start(0, 0xffffffff);
    size_t other_len = image_len;
    memcpy(other, image, image_len);
    for (uint32_t round = 0; round < 2; round++) {
        o.kind = round == 0 ? CABLEGORSE_KIND_INSERT_ACTIVE : CABLEGORSE_KIND_COMMIT_REPLACEMENT;
        o.hi = o.lo = round == 0 ? 1 : 4;
        o.subject = (uint16_t)(round + 1);
        size_t needed[4] = {image_len + (round == 0 ? 91 : 104), round == 0 ? 0 : 91, 0, round == 0 ? 95 : 109 + 32};
        a_byte_short(o, needed, 0xffffffff + round);
        cablegorse_applied a = cablegorse_perform(image, image_len, o, roots, 4, next, needed[0], removed, needed[1], NULL,
                                                  0, sent, needed[3]);
        CHECK(a.number == CABLEGORSE_DONE && a.part == CABLEGORSE_PART_APPLIED && a.sequence == 0xffffffff + round);
        CHECK(a.place == needed[3] && a.written == needed[0] && a.gone == round && sent[needed[3]] == 0x5a);
        memcpy(image, next, image_len = a.written);

        cablegorse_applied b = cablegorse_apply(other, other_len, sent, a.place, 0, next, sizeof next, gone, sizeof gone,
                                                expired, sizeof expired);
        CHECK(memcmp(&a, &b, sizeof a) == 0 && memcmp(gone, removed, needed[1]) == 0);
        memcpy(other, next, other_len = b.written);
        CHECK(other_len == image_len && memcmp(other, image, image_len) == 0);
    }
    /* Refused, and sent all the same. */
    memset(sent, 0x5a, sizeof sent);
    cablegorse_applied a = cablegorse_perform(image, image_len, o, roots, 4, next, sizeof next, removed, sizeof removed,
                                              expired, sizeof expired, sent, sizeof sent);
    CHECK(a.number == CABLEGORSE_ACTIVE_LOCK_NOT_FOUND && a.part == CABLEGORSE_PART_APPLIED && a.v[0] == 1);
    CHECK(a.sequence == 1 && a.place == 141 && a.written == image_len && field(4, 4) == 1 && sent[141] == 0x5a);
}

/* A record packed by hand is the one that is sent, and applied it leaves what performing leaves. */
static void packed_by_hand(void) {
    static uint8_t other[CABLEGORSE_IMAGE_LIMIT];
    cablegorse_operation o = {.kind = CABLEGORSE_KIND_INSERT_ACTIVE, .hi = 99, .lo = 99, .w0 = 1 << 5, .expires = 1000,
                              .subject = 9, .scope = CABLEGORSE_SCOPE_ECU, .number = 5,
                              .coverage = CABLEGORSE_COVERAGE_SET};
    start(0, 7);
    cablegorse_applied a = cablegorse_perform(image, image_len, o, NULL, 0, other, sizeof other, removed, sizeof removed,
                                              expired, sizeof expired, sent, sizeof sent);
    insert(7, 99, CABLEGORSE_SCOPE_ECU, 5, 9, 1 << 5, 0);
    cablegorse_applied b = apply(0, record, record_len);
    CHECK(a.number == CABLEGORSE_DONE && a.place == record_len && memcmp(sent, record, record_len) == 0);
    CHECK(memcmp(&a, &b, sizeof a) == 0 && memcmp(other, next, b.written) == 0);
}

/* The image's refusals, then 18, 19, 14, 29: part 1, and nothing is written. Follows both_sides: the defunct lock 1 is made
 * its own replacement. */
static void not_performed(void) {
    static uint64_t list[131];
    cablegorse_operation good = every(CABLEGORSE_KIND_COMMIT_REPLACEMENT), bad = every(24), flag = good;
    flag.exclusive = 2;
    uint8_t *replacement = image + CABLEGORSE_HEAD_BYTES + CABLEGORSE_ACTIVE_BYTES + CABLEGORSE_AT_REPLACEMENT;
    replacement[7] = replacement[15] = 1;
    cablegorse_applied unsound = cablegorse_perform(image, image_len, bad, list, 131, NULL, 0, NULL, 0, NULL, 0, NULL, 0);
    CHECK(unsound.number == CABLEGORSE_UNSOUND_STATE && unsound.v[0] == 9);
    CHECK(unsound.part == CABLEGORSE_PART_IMAGE_REFUSED && unsound.sequence == 0 && unsound.place == 0);
    start(0, 7);
    cablegorse_operation asked[] = {bad, bad, flag, good, good};
    size_t words[] = {131, 131, 131, 131, 130};
    uint32_t numbers[] = {CABLEGORSE_TORN, CABLEGORSE_BAD_KIND, CABLEGORSE_BAD_FIELD, CABLEGORSE_BAD_LIST,
                          CABLEGORSE_LIST_TOO_LONG};
    for (int i = 0; i < 5; i++) {
        memset(next, 0x5a, sizeof next);
        memset(sent, 0x5a, sizeof sent);
        cablegorse_applied a = cablegorse_perform(image, i == 0 ? 19 : image_len, asked[i], list, words[i], next, sizeof next,
                                                  removed, sizeof removed, expired, sizeof expired, sent, sizeof sent);
        CHECK(a.number == numbers[i] && a.v[0] == 0 && a.sequence == 0 && a.place == 0 && a.written == 0);
        CHECK(a.part == (i == 0 ? CABLEGORSE_PART_IMAGE_REFUSED : CABLEGORSE_PART_RECORD_REFUSED));
        CHECK(next[0] == 0x5a && sent[0] == 0x5a);
    }
}

/* (NULL, 0) in the place of every slice, alone and together. */
static void empty_slices(void) {
    start(0, 0);
    CHECK(cablegorse_test(NULL, 0).number == CABLEGORSE_TORN);
    CHECK(cablegorse_prepare_runtime_update(NULL, 0, 1).number == CABLEGORSE_TORN);
    cablegorse_applied a = cablegorse_apply(NULL, 0, NULL, 0, 0, NULL, 0, NULL, 0, NULL, 0);
    CHECK(a.number == CABLEGORSE_TORN && a.part == CABLEGORSE_PART_IMAGE_REFUSED);
    a = cablegorse_apply(image, image_len, NULL, 0, 0, NULL, 0, NULL, 0, NULL, 0);
    CHECK(a.number == CABLEGORSE_TORN && a.part == CABLEGORSE_PART_RECORD_REFUSED && a.v[0] == 0);
    a = cablegorse_apply(image, image_len, NULL, 0, 5, NULL, 0, NULL, 0, NULL, 0);
    CHECK(a.number == CABLEGORSE_TORN && a.part == CABLEGORSE_PART_RECORD_REFUSED && a.v[0] == 5);
    insert(0, 1, CABLEGORSE_SCOPE_ECU, 5, 1, 1 << 5, 0);
    a = cablegorse_apply(image, image_len, record, record_len, 0, NULL, 0, NULL, 0, NULL, 0);
    CHECK(a.number == CABLEGORSE_SHORT_OUTPUT && a.v[0] == 111 && a.v[1] == 0 && a.v[2] == 0);
    /* It removes nothing and expires nothing, so those two may be empty. */
    a = cablegorse_apply(image, image_len, record, record_len, 0, next, sizeof next, NULL, 0, NULL, 0);
    CHECK(a.number == CABLEGORSE_DONE && a.written == 111);
    cablegorse_followed f = cablegorse_follow(NULL, 0, NULL, 0, NULL, 0);
    CHECK(f.number == CABLEGORSE_TORN && f.part == CABLEGORSE_CHUNK_IMAGE_REFUSED);
    f = cablegorse_follow(image, image_len, record, record_len, NULL, 0);
    CHECK(f.number == CABLEGORSE_SHORT_OUTPUT && f.v[0] == 111);
    f = cablegorse_follow(image, image_len, NULL, 0, NULL, 0);
    CHECK(f.number == CABLEGORSE_SHORT_OUTPUT && f.v[0] == image_len);
    f = cablegorse_follow(image, image_len, NULL, 0, next, sizeof next);
    CHECK(f.number == CABLEGORSE_DONE && f.part == CABLEGORSE_CHUNK_ENDED && f.read == 0 && f.place == 0);
    CHECK(f.written == image_len && memcmp(image, next, image_len) == 0);
    a = cablegorse_delete_defunct(NULL, 0, 1, 1, 1, 5, 1, NULL, 0);
    CHECK(a.number == CABLEGORSE_TORN && a.part == CABLEGORSE_PART_IMAGE_REFUSED);
    a = cablegorse_delete_defunct(image, image_len, 1, 1, 1, 5, 1, NULL, 0);
    CHECK(a.number == CABLEGORSE_DONE && a.v[0] == 0);
    CHECK(cablegorse_board(NULL, 0, NULL, 0).number == CABLEGORSE_TORN);
    CHECK(cablegorse_board(image, image_len, NULL, 0).number == CABLEGORSE_SHORT_OUTPUT);
    a = cablegorse_apply_board(NULL, 0, NULL, 0, NULL, 0, 0, NULL, 0, NULL, 0, NULL, 0);
    CHECK(a.number == CABLEGORSE_TORN && a.part == CABLEGORSE_PART_IMAGE_REFUSED);
    a = cablegorse_apply_board(image, image_len, NULL, 0, NULL, 0, 5, NULL, 0, NULL, 0, NULL, 0);
    CHECK(a.number == CABLEGORSE_BOARD_MISMATCH && a.place == 5);
    a = cablegorse_delete_defunct_board(NULL, 0, NULL, 0, 1, 1, 1, 5, 1, NULL, 0);
    CHECK(a.number == CABLEGORSE_TORN && a.part == CABLEGORSE_PART_IMAGE_REFUSED);
    a = cablegorse_delete_defunct_board(image, image_len, NULL, 0, 1, 1, 1, 5, 1, NULL, 0);
    CHECK(a.number == CABLEGORSE_BOARD_MISMATCH && a.part == CABLEGORSE_PART_IMAGE_REFUSED);
    CHECK(cablegorse_read(NULL, 0, 1, 0, 0, NULL, 0, NULL, 0).number == CABLEGORSE_TORN);
    for (uint32_t question = 1; question <= 14; question++) {
        cablegorse_told t = cablegorse_read(image, image_len, question, 1, 0, NULL, 0, NULL, 0);
        int takes = question == CABLEGORSE_ASK_COVERED_NARROW_LOCKS || question == CABLEGORSE_ASK_UNCOVERED_DEFUNCT ||
                    question == CABLEGORSE_ASK_CURRENT_HOLDER;
        CHECK(t.number == (takes ? CABLEGORSE_TORN : CABLEGORSE_DONE));
    }
    CHECK(cablegorse_name_number(NULL, 0, NULL, 0, true).number == CABLEGORSE_BAD_TABLE);
    CHECK(cablegorse_name_at(NULL, 0, 0, true, NULL, 0).number == CABLEGORSE_BAD_TABLE);
}

static void empty_slices_of_a_primary(void) {
    start(0, 0);
    cablegorse_operation o = {.kind = CABLEGORSE_KIND_INSERT_VEHICLE};
    CHECK(cablegorse_write_record(0, o, NULL, 0, NULL, 0).v[0] == 97);
    CHECK(cablegorse_write_record(0, o, NULL, 0, sent, sizeof sent).number == CABLEGORSE_DONE);
    cablegorse_applied a = cablegorse_perform(NULL, 0, o, NULL, 0, NULL, 0, NULL, 0, NULL, 0, NULL, 0);
    CHECK(a.number == CABLEGORSE_TORN && a.part == CABLEGORSE_PART_IMAGE_REFUSED);
    a = cablegorse_perform(image, image_len, o, NULL, 0, NULL, 0, NULL, 0, NULL, 0, NULL, 0);
    CHECK(a.number == CABLEGORSE_SHORT_OUTPUT && a.v[0] == 111 && a.v[1] == 0 && a.v[2] == 0 && a.v[3] == 97);
    a = cablegorse_perform(image, image_len, o, NULL, 0, next, sizeof next, NULL, 0, NULL, 0, sent, sizeof sent);
    CHECK(a.number == CABLEGORSE_DONE && a.written == 111 && a.place == 97);
}

static uint8_t table[CABLEGORSE_TABLE_BYTES];

static cablegorse_told number(const char *name, bool folding) {
    return cablegorse_name_number(table, sizeof table, (const uint8_t *)name, strlen(name), folding);
}

static int count(void) {
    return table[0] + 256 * table[1];
}

static void names(void) {
    int before = count();
    cablegorse_told t = number("Engine", true);
    CHECK(t.number == CABLEGORSE_DONE && t.count == 1 && t.v[0] == 0);
    CHECK(count() == before + 1 && t.v[0] == (uint64_t)before); /* new */
    before = count();
    t = number("ENGINE", true);
    CHECK(t.number == CABLEGORSE_DONE && t.v[0] == 0 && count() == before); /* known */
    t = cablegorse_name_number(table, sizeof table, NULL, 0, true);
    CHECK(t.number == CABLEGORSE_DONE && t.v[0] == 1 && count() == before + 1); /* the empty name is a name */
    t = cablegorse_name_at(table, sizeof table, 1, true, NULL, 0);
    CHECK(t.number == CABLEGORSE_DONE && t.v[0] == 1 && t.v[1] == 0);
    t = cablegorse_name_at(table, sizeof table, 0, true, out, sizeof out);
    CHECK(t.v[0] == 1 && t.v[1] == 6 && memcmp(out, "engine", 6) == 0);
    t = cablegorse_name_at(table, sizeof table, 0, true, NULL, 0);
    CHECK(t.number == CABLEGORSE_SHORT_OUTPUT && t.v[0] == 6);
    CHECK(cablegorse_name_at(table, sizeof table, 2, true, out, sizeof out).v[0] == 0);
    char longest[66] = {0};
    memset(longest, 'x', 65);
    CHECK(number(longest, true).number == CABLEGORSE_NAME_TOO_LONG);

    /* An ECU table without folding: one unit, two numbers; with folding again, 27 for good. */
    CHECK(number("engine", false).v[0] == 0 && number("Engine", false).v[0] == 2);
    CHECK(number("engine", true).number == CABLEGORSE_BAD_TABLE);
    CHECK(cablegorse_name_at(table, sizeof table, 0, true, out, sizeof out).number == CABLEGORSE_BAD_TABLE);
    /* A subject table with folding: two testers, one number; a capital letter in it, 27. */
    memset(table, 0, sizeof table);
    CHECK(number("ann", false).v[0] == 0 && number("Ann", true).v[0] == 0);
    CHECK(number("Ann", false).v[0] == 1 && number("ann", true).number == CABLEGORSE_BAD_TABLE);
}

int main(void) {
    fields();
    refused_is_applied();
    parts();
    questions();
    chunks();
    boards();
    record_fields();
    record_refusals();
    packed_by_hand();
    both_sides();
    not_performed();
    empty_slices();
    empty_slices_of_a_primary();
    names();
    printf("boundary from C: %d checks, %d wrong\n", right + wrong, wrong);
    return wrong != 0;
}
