/* SPDX-License-Identifier: Apache-2.0 */
/* The proved lock state of a diagnostic adapter, for a host in C (C11) or C++ (C++11).
 *
 *     bin/archive                                                    proves and writes the archive
 *     cc -Iinclude host.c target/staticlib/libcablegorse.a -o host      examples/follow.c is such a host
 *
 * Nothing is kept between calls: a call takes an image (the whole state as bytes) and gives the next one. The library
 * reads no clock, opens nothing, allocates nothing, starts no thread. A call needs up to 576 KB of stack: give its thread
 * 1 MB. Any bytes and numbers get an answer. docs/INTEGRATION.md says what a host owns and what it does on each refusal.
 *
 * Slices. Two arguments, a pointer to the first byte and the length in bytes; of a list of ids a pointer to the first
 * 64-bit word and the length in words. An empty slice may be (NULL, 0): nothing is read or written through its pointer. A
 * slice that is written (not const) must not overlap any other of the call. An empty image is 17 Torn, an empty feed too;
 * an empty chunk is followed to its end at once; an empty name is a name; an empty list is a list; an empty output is too
 * short for anything but nothing.
 *
 * bin/check-header holds this file to the library's source, tests/c/boundary.c tries what it says. */
#ifndef CABLEGORSE_H
#define CABLEGORSE_H

#include <stdbool.h>
#include <stddef.h>
#include <stdint.h>

#ifdef __cplusplus
extern "C" {
#endif

/* ---- sizes, in bytes */
enum {
    CABLEGORSE_HEAD_BYTES = 20,
    CABLEGORSE_ACTIVE_BYTES = 91,
    CABLEGORSE_DEFUNCT_BYTES = 104,
    CABLEGORSE_ID_BYTES = 16,
    CABLEGORSE_NAME_LIMIT = 64,
    CABLEGORSE_TABLE_BYTES = 16642,
    CABLEGORSE_BOARD_BYTES = 4352,
    CABLEGORSE_ENTRY_BYTES = 17, /* a board's, 256 of them */
    CABLEGORSE_LIST_LIMIT = 64, /* ids that a record lists at most, two words each */
    /* Outputs of these sizes are never too short: a whole image, 64 ACTIVE records, 128 ids, a replacement of 64 locks. */
    CABLEGORSE_IMAGE_LIMIT = 19156,
    CABLEGORSE_REMOVED_LIMIT = 5824,
    CABLEGORSE_EXPIRED_LIMIT = 2048,
    CABLEGORSE_RECORD_LIMIT = 1133
};

/* ---- document 01's numbers of the answers, with the values that stand beside them. An id is two values, first half
 * first, each half big-endian. More numbers will come: treat one that isn't here as a refusal. */
enum cablegorse_number {
    CABLEGORSE_DONE = 0,                         /* begin expiration: [0], [1] Stale, [2, expires] NotDue;
                                                    acknowledge: [1], [0] there is no such defunct lock */
    CABLEGORSE_DUPLICATE_ID = 1,                 /* id */
    CABLEGORSE_DUPLICATE_SCOPE = 2,
    CABLEGORSE_ACTIVE_LOCK_NOT_FOUND = 3,        /* id */
    CABLEGORSE_PARENT_NOT_FOUND = 4,             /* id */
    CABLEGORSE_PARENT_NOT_VEHICLE = 5,           /* id */
    CABLEGORSE_REPLACEMENT_SCOPE_CONFLICT = 6,
    CABLEGORSE_COVERAGE_CONFLICT = 7,            /* [id, 1, ECU]: the lock that is in the way, the lowest ECU in both
                                                    (of the whole vehicle and a set, the set's lowest); [id, 0, 0]: both
                                                    are the whole vehicle, or one is and the other the empty set */
    CABLEGORSE_REVISION_OVERFLOW = 8,            /* entries to acknowledge, expire or delete are gone all the same */
    CABLEGORSE_LOCK_EXPIRED = 9,
    CABLEGORSE_RENEWAL_NOT_EXTENSION = 10,
    CABLEGORSE_INVARIANT = 11,                   /* [1]; [2, child]; [3, child, parent]; [4, child, parent] */
    CABLEGORSE_UNSOUND_STATE = 12,               /* [rule] */
    CABLEGORSE_NO_ROOM = 13,
    CABLEGORSE_BAD_LIST = 14,                    /* a list with half an id; no record can hold one */
    CABLEGORSE_REPEAT = 15,                      /* [expected] */
    CABLEGORSE_AHEAD = 16,                       /* [expected] */
    CABLEGORSE_TORN = 17,                        /* [offset], as are the next three */
    CABLEGORSE_BAD_KIND = 18,
    CABLEGORSE_BAD_FIELD = 19,
    CABLEGORSE_BAD_ORDER = 20,
    CABLEGORSE_SHORT_OUTPUT = 21,                /* [needed]; of apply [next, removed, expired], of perform
                                                    [next, removed, expired, sent] */
    CABLEGORSE_NAME_TOO_LONG = 22,
    CABLEGORSE_NAMES_FULL = 23,
    CABLEGORSE_ECU_LOCKS_HELD = 24,
    CABLEGORSE_FUNCTIONAL_GROUP_LOCKS_HELD = 25,
    CABLEGORSE_FORBIDDEN = 26,
    CABLEGORSE_BAD_TABLE = 27,
    CABLEGORSE_BOARD_MISMATCH = 28,
    CABLEGORSE_LIST_TOO_LONG = 29
};

/* ---- how far a change came. This, and not the number, says what was written. */
enum cablegorse_part {
    CABLEGORSE_PART_IMAGE_REFUSED = 0,  /* 17 to 20, 12: nothing was written. Fetch the peer's image. 28, of the forms
                                           with a board: the image is good, the board is another one's. */
    CABLEGORSE_PART_RECORD_REFUSED = 1, /* 15 to 19, of perform 18, 19, 14, 29: nothing was written. Go on with the image
                                           you have. */
    CABLEGORSE_PART_APPLIED = 2,        /* the number is the operation's own answer, and it may be a refusal (1 to 11, 13).
                                           The next image was written: KEEP IT, whatever the number. Its expected number
                                           moved on; to the old image every later record would be 16 Ahead. */
    CABLEGORSE_PART_SHORT_OUTPUT = 3    /* 21: nothing was written. Call again with more room. */
};

/* ---- how far a run over a chunk came, and so what was written. A 1 isn't a change's 1: here the image was written. */
enum cablegorse_chunk_part {
    CABLEGORSE_CHUNK_IMAGE_REFUSED = 0, /* 17 to 20, 12: nothing was written. Fetch the peer's image. */
    CABLEGORSE_CHUNK_STOPPED = 1,       /* 17 to 19: at place stands no record that can be read. The image after those
                                           before it was written: KEEP IT. After 17 what is left goes before the next
                                           chunk; after 18 and 19 cut the link. */
    CABLEGORSE_CHUNK_ENDED = 2,         /* 0: every record was read. The next image was written: KEEP IT. */
    CABLEGORSE_CHUNK_SHORT_OUTPUT = 3   /* 21: nothing was written. Call again with more room. */
};

/* ---- kinds of records, of scopes, of coverages; and where a field stands in an ACTIVE or a DEFUNCT record. Numbers in
 * records are little-endian; ids are 16 bytes as they are. The feed's records, 16 to 23, are the library's to write:
 * cablegorse_operation says what each takes. */
enum cablegorse_kind {
    CABLEGORSE_KIND_HEAD = 1,
    CABLEGORSE_KIND_ACTIVE = 2,
    CABLEGORSE_KIND_DEFUNCT = 3,
    CABLEGORSE_KIND_INSERT_ACTIVE = 16,
    CABLEGORSE_KIND_INSERT_VEHICLE = 17,
    CABLEGORSE_KIND_RENEW = 18,
    CABLEGORSE_KIND_DELETE = 19,
    CABLEGORSE_KIND_BEGIN_EXPIRATION = 20,
    CABLEGORSE_KIND_COMMIT_REPLACEMENT = 21,
    CABLEGORSE_KIND_ACKNOWLEDGE_DEFUNCT = 22,
    CABLEGORSE_KIND_EXPIRE_DEFUNCT = 23
};

enum cablegorse_scope {
    CABLEGORSE_SCOPE_VEHICLE = 0, /* its number is 0 */
    CABLEGORSE_SCOPE_ECU = 1,
    CABLEGORSE_SCOPE_GROUP = 2
};

enum cablegorse_coverage {
    CABLEGORSE_COVERAGE_VEHICLE = 0, /* its set is zero */
    CABLEGORSE_COVERAGE_SET = 1      /* ECU e is bit e % 8 of byte e / 8 */
};

enum {
    CABLEGORSE_AT_ID = 4,            /* 16 bytes */
    CABLEGORSE_AT_SCOPE_KIND = 20,   /* 1 */
    CABLEGORSE_AT_SCOPE_NUMBER = 21, /* 1 */
    CABLEGORSE_AT_EXCLUSIVE = 22,    /* 1 */
    CABLEGORSE_AT_COVERAGE = 23,     /* 1 */
    CABLEGORSE_AT_SET = 24,          /* 32 */
    CABLEGORSE_AT_SUBJECT = 56,      /* 2 */
    CABLEGORSE_AT_PRINCIPAL = 58,    /* 4 */
    CABLEGORSE_AT_METADATA = 62,     /* 4 */
    CABLEGORSE_AT_EXPIRES = 66,      /* 8 */
    /* ACTIVE */
    CABLEGORSE_AT_HAS_PARENT = 74, /* 1 */
    CABLEGORSE_AT_PARENT = 75,     /* 16 */
    /* DEFUNCT */
    CABLEGORSE_AT_BROKEN_AT = 74,   /* 8 */
    CABLEGORSE_AT_BROKEN_BY = 82,   /* 4 */
    CABLEGORSE_AT_REPLACEMENT = 86, /* 16 */
    CABLEGORSE_AT_HOLDER = 102      /* 2 */
};

/* ---- operations, by value */
/* An operation, its list of ids aside. What its kind doesn't take is not read, and may hold anything:
 *     16  a lock
 *     17  a lock, and the list: the locks that become its children
 *     18  hi, lo, expires, now, given, and metadata where given is 1
 *     19  hi, lo
 *     20  hi, lo, now
 *     21  a lock, breaker, now (when the locks were broken), and the list: the locks to break
 *     22  hi, lo
 *     23  now
 * A lock is hi, lo (its id), scope and number, exclusive, coverage with the set in w0 to w3, subject, principal, metadata,
 * expires, child with the parent. What of a lock doesn't apply (a vehicle's number, the set of the whole vehicle, the parent
 * of a lock that is no child) may hold anything too. */
typedef struct cablegorse_operation {
    uint64_t hi, lo;               /* an id's halves, the first half first, each half big-endian */
    uint64_t parent_hi, parent_lo;
    uint64_t w0, w1, w2, w3;       /* ECU e is bit e % 64 of word e / 64 */
    uint64_t expires, now;
    uint32_t principal, metadata, breaker;
    uint16_t kind;                 /* enum cablegorse_kind, 16 to 23 */
    uint16_t subject;
    uint8_t scope;                 /* enum cablegorse_scope */
    uint8_t number;                /* the scope's */
    uint8_t exclusive;             /* 0 or 1 */
    uint8_t coverage;              /* enum cablegorse_coverage */
    uint8_t child;                 /* 0 or 1: it has a parent */
    uint8_t given;                 /* 0 or 1: there is metadata */
} cablegorse_operation;

/* ---- answers, by value */
/* An answer: its number; the first count of v stand beside it, the rest are 0. */
typedef struct cablegorse_told {
    uint32_t number;
    uint32_t count;
    uint64_t v[5];
} cablegorse_told;

/* A change's answer. sequence: the record's, 0 where none was read. place: where the next record of the feed starts; the
 * place that was given where none could be read, and for parts 0 and 3; of perform the record's bytes in sent. written:
 * bytes of the next image. gone: ACTIVE records in removed. lapsed: ids in expired. These three are 0 unless part is 2. */
typedef struct cablegorse_applied {
    uint32_t number;
    uint32_t count;
    uint64_t v[5];
    uint32_t part;
    uint32_t sequence;
    uint64_t place;
    uint64_t written;
    uint64_t gone;
    uint64_t lapsed;
} cablegorse_applied;

/* A chunk's answer: the number and values of what ended the run. part: enum cablegorse_chunk_part. expected: the number
 * that is due next. place: where the last record that was read ends. read: how many were; applied: how many of them were
 * in turn, refused by their operation or not. written: bytes of the next image. The last five are 0 for parts 0 and 3. */
typedef struct cablegorse_followed {
    uint32_t number;
    uint32_t count;
    uint64_t v[5];
    uint32_t part;
    uint32_t expected;
    uint64_t place;
    uint64_t read;
    uint64_t applied;
    uint64_t written;
} cablegorse_followed;

#ifdef __cplusplus
static_assert(sizeof(size_t) == 8 && sizeof(cablegorse_told) == 48 && sizeof(cablegorse_applied) == 88 &&
                  sizeof(cablegorse_followed) == 88 && sizeof(cablegorse_operation) == 104,
              "x86-64 alone");
#else
_Static_assert(sizeof(size_t) == 8 && sizeof(cablegorse_told) == 48 && sizeof(cablegorse_applied) == 88 &&
                   sizeof(cablegorse_followed) == 88 && sizeof(cablegorse_operation) == 104,
               "x86-64 alone");
#endif

/* ---- images and the feed */
/* Whether these bytes are an image of a sound state: 0 with [revision, expected, active locks, defunct locks]; 17 to 20
 * with [offset]; 12 with [rule]. */
cablegorse_told cablegorse_test(const uint8_t *image, size_t image_len);

/* Applies the record that stands in the feed at byte `at`, if it is the one that is due. enum cablegorse_part says what
 * the host does next. removed gets the locks that went, as ACTIVE records, children before their root; expired the ids of
 * the defunct locks that went by their time. What an output doesn't need keeps its bytes. */
cablegorse_applied cablegorse_apply(const uint8_t *image, size_t image_len, const uint8_t *feed, size_t feed_len,
                                    size_t at, uint8_t *next, size_t next_len, uint8_t *removed, size_t removed_len,
                                    uint8_t *expired, size_t expired_len);

/* Follows a whole chunk of a feed, from its first byte on, as cablegorse_apply would record by record: what is due is
 * applied, what is out of turn (15, 16) is passed over. One image is read and one written, so a spare that is behind
 * catches up faster; what a record removed and what its operation answered isn't told. enum cablegorse_chunk_part says
 * what the host does next. */
cablegorse_followed cablegorse_follow(const uint8_t *image, size_t image_len, const uint8_t *chunk, size_t chunk_len,
                                      uint8_t *next, size_t next_len);

/* ---- a primary
 * list: two words an id, its halves as in cablegorse_operation, in any order, repeats too; list_len counts words. Kinds 17 and
 * 21 alone have one, the others don't read it. */

/* Performs an operation on the image's own state, and writes into sent the record that carries it to a spare, with the
 * number that the image expects: place bytes. Part 2 leaves in the others, and answers, what cablegorse_apply would of that
 * record: keep the next image and send the record on, WHATEVER THE NUMBER. All four outputs are written or none.
 * Refusals: the image's (part 0); part 1, sequence and place 0: 18 [0] the kind isn't 16 to 23, 19 [0] of what the kind
 * takes the scope is over 2, or exclusive, coverage, child or given over 1, 14 an odd number of words, 29 over 64 ids; part
 * 3, place 0: 21. */
cablegorse_applied cablegorse_perform(const uint8_t *image, size_t image_len, cablegorse_operation asked,
                                      const uint64_t *list, size_t list_len, uint8_t *next, size_t next_len,
                                      uint8_t *removed, size_t removed_len, uint8_t *expired, size_t expired_len,
                                      uint8_t *sent, size_t sent_len);

/* The record alone, with a sequence number that is given, from the start of out on: 0 [bytes]; 18, 19, 14, 29 as above; 21
 * [bytes]. A refusal writes nothing, a success keeps the bytes past the record. No state is asked: an operation that will
 * be refused is written too. */
cablegorse_told cablegorse_write_record(uint32_t sequence, cablegorse_operation asked, const uint64_t *list,
                                        size_t list_len, uint8_t *out, size_t out_len);

/* ---- without a feed */
/* 001's delete_defunct: 0 [1] gone; 0 [0] there is none with this id on this scope; 26 it is another subject's; 8 gone
 * all the same. Part 2 for each of these: where written isn't 0 the next image was written and must be kept, else the old
 * one stays. 19 [0], part 1: no such scope. Its sequence and place are 0, its 21 has [needed, 0, 0]. The expected number
 * stays: for a state without a spare only (docs/INTEGRATION.md). */
cablegorse_applied cablegorse_delete_defunct(const uint8_t *image, size_t image_len, uint64_t id_first,
                                             uint64_t id_second, uint8_t scope_kind, uint8_t scope_number,
                                             uint16_t subject, uint8_t *next, size_t next_len);

/* 001's prepare_runtime_update: 0 [generation from now on], which the host keeps; 25, 24; the image's refusals. */
cablegorse_told cablegorse_prepare_runtime_update(const uint8_t *image, size_t image_len, uint64_t generation);

/* The response class of a refusal's number. */
enum cablegorse_class {
    CABLEGORSE_CLASS_NONE = 0,
    CABLEGORSE_CLASS_BAD_REQUEST = 1,
    CABLEGORSE_CLASS_CONFLICT = 2,
    CABLEGORSE_CLASS_INTERNAL_SERVER_ERROR = 3,
    CABLEGORSE_CLASS_FORBIDDEN = 4
};

uint32_t cablegorse_response_class(uint64_t number);

/* ---- the board of control units: CABLEGORSE_BOARD_BYTES bytes that a host keeps beside an image, for a screen that asks
 * often. ECU e has the CABLEGORSE_ENTRY_BYTES bytes from e * CABLEGORSE_ENTRY_BYTES on: how many active locks cover it (one
 * byte, at most 64; the whole vehicle is every ECU), then the lowest id among them, 16 bytes as in records, zeros if there
 * is none. An id of zeros is an id: the count tells.
 *
 * The two forms with a board are the functions without one, answer for answer. They want the image's own board, every
 * byte of it: else 28, after 17 to 20 and 12 and before all else, and every byte of everything is left, the board's too.
 * Then make the board afresh, and ask why it differed. */

/* The board of an image, in the first CABLEGORSE_BOARD_BYTES bytes of out: 0 and 21 [CABLEGORSE_BOARD_BYTES]; 17 to 20
 * and 12, as cablegorse_test. What out has beyond a board keeps its bytes. */
cablegorse_told cablegorse_board(const uint8_t *image, size_t image_len, uint8_t *out, size_t out_len);

/* As cablegorse_apply. Part 2 leaves in board the board of the next image, writing only the entries of ECUs that a lock
 * which came or went covers; every other part leaves the board, 3 too: all four are written or none. 28 is part 0, and
 * place stays. */
cablegorse_applied cablegorse_apply_board(const uint8_t *image, size_t image_len, uint8_t *board, size_t board_len,
                                          const uint8_t *feed, size_t feed_len, size_t at, uint8_t *next,
                                          size_t next_len, uint8_t *removed, size_t removed_len, uint8_t *expired,
                                          size_t expired_len);

/* As cablegorse_delete_defunct. The board is the next image's too, since no active lock comes or goes. 28 is part 0, and
 * comes before 19. */
cablegorse_applied cablegorse_delete_defunct_board(const uint8_t *image, size_t image_len, const uint8_t *board,
                                                   size_t board_len, uint64_t id_first, uint64_t id_second,
                                                   uint8_t scope_kind, uint8_t scope_number, uint16_t subject,
                                                   uint8_t *next, size_t next_len);

/* ---- reads */
/* x, y, record: what the question takes; what it doesn't take is ignored. found: [0] there is none, or [1] and the
 * record in out. */
enum cablegorse_question {
    CABLEGORSE_ASK_REVISION = 1,                   /* [revision] */
    CABLEGORSE_ASK_ACTIVE_FOR_SCOPE = 2,           /* x kind, y number: found, ACTIVE */
    CABLEGORSE_ASK_ACTIVE_BY_ID = 3,               /* x, y halves of the id: found, ACTIVE */
    CABLEGORSE_ASK_DEFUNCT_BY_ID = 4,              /* x, y halves of the id: found, DEFUNCT */
    CABLEGORSE_ASK_ACTIVE_AT = 5,                  /* x place from 0, ascending by id: found, ACTIVE */
    CABLEGORSE_ASK_DEFUNCT_AT = 6,                 /* x place from 0, ascending by id: found, DEFUNCT */
    CABLEGORSE_ASK_COVERED_NARROW_LOCKS = 7,       /* an ACTIVE record: [n], n ids in out */
    CABLEGORSE_ASK_COVERING_FUNCTIONAL_GROUP = 8,  /* x subject, y ECU: found, ACTIVE */
    CABLEGORSE_ASK_TESTER_PRESENT_FOR = 9,         /* x subject, y kind * 256 + number: [0], [1, ECU] or [2, group] */
    CABLEGORSE_ASK_TESTER_PRESENT_NEEDED = 10,     /* x 1 ECU or 2 group, y number: [0] or [1] */
    CABLEGORSE_ASK_UNCOVERED_DEFUNCT = 11,         /* an ACTIVE record (its subject, scope, coverage), x now: found, DEFUNCT */
    CABLEGORSE_ASK_CURRENT_HOLDER = 12,            /* a DEFUNCT record, in the state or not: [subject, links]; look the
                                                      entry up again (4) before asking again */
    CABLEGORSE_ASK_VEHICLE_LOCK_OWNER_SUB = 13,    /* [0], or [1, subject] */
    CABLEGORSE_ASK_HAS_NON_VEHICLE_LOCKS = 14      /* [0] or [1] */
};

/* Refusals: the image's; 18 [0] no such question; 19 [0] a number out of its range; 17, 18, 19 [0] the record argument,
 * after which bytes are ignored; 21 [needed]. 1,024 bytes of out always do. A refusal writes nothing. */
cablegorse_told cablegorse_read(const uint8_t *image, size_t image_len, uint32_t question, uint64_t x, uint64_t y,
                                const uint8_t *record, size_t record_len, uint8_t *out, size_t out_len);

/* ---- names by number: a table of CABLEGORSE_TABLE_BYTES bytes for ECUs, one for groups, one for subjects; all zero is
 * the empty one. Its first two bytes are the count, little-endian.
 *
 * folding: whether this table keeps names in small letters. It belongs to the table: true for ECUs and groups, false for
 * subjects, in every call. A wrong value is told by 27 only where the table's names show it, and is no small fault:
 * - false for an ECU table: `Engine` and `engine` become two units, and two testers may lock one. With true again the
 *   table is 27 BadTable from then on.
 * - true for a subject table: `Ann` gets `ann`'s number, and one tester holds the other's locks; with a capital letter
 *   anywhere in the table, 27. */

/* A name's number: 0 [number]; 27, 22, 23, which write nothing. A new name is entered with the next number. Known or
 * new? A new one is entered: the count rises, and the number is what the count was. A table that changed must reach the
 * other end before the first record that uses the number. To look a name up without entering it, call on a copy. */
cablegorse_told cablegorse_name_number(uint8_t *table, size_t table_len, const uint8_t *name, size_t name_len,
                                       bool folding);

/* A number's name: 0 [1, length] and its bytes in out (64 always do); 0 [0] the table has no such number; 27; 21. To test
 * a table that was read back, ask for number 0: 27, or anything else. */
cablegorse_told cablegorse_name_at(const uint8_t *table, size_t table_len, uint16_t number, bool folding, uint8_t *out,
                                   size_t out_len);

#ifdef __cplusplus
}
#endif

#endif
