/* SPDX-License-Identifier: Apache-2.0 */
/* The least host in C: begins with an image, follows a feed as its spare, takes over, and says who holds ECU 5.
 *
 *     follow IMAGE FEED
 *
 * host/examples/follow.rs is the same in Rust and prints the same; the gate runs both on examples/story.image and
 * examples/story.feed. */
#include <stdio.h>
#include <stdlib.h>
#include <string.h>

#include "cablegorse.h"

/* What a host keeps: one image. The expected number is in it. */
static uint8_t image[CABLEGORSE_IMAGE_LIMIT];
static size_t image_len;

static uint8_t next[CABLEGORSE_IMAGE_LIMIT];
static uint8_t removed[CABLEGORSE_REMOVED_LIMIT];
static uint8_t expired[CABLEGORSE_EXPIRED_LIMIT];
static uint8_t sent[CABLEGORSE_RECORD_LIMIT];

static size_t load(const char *path, uint8_t *into, size_t room) {
    FILE *file = fopen(path, "rb");
    if (file == NULL) {
        perror(path);
        exit(2);
    }
    size_t length = fread(into, 1, room, file);
    fclose(file);
    return length;
}

static void keep(uint64_t written) {
    memcpy(image, next, written);
    image_len = written;
}

/* As the spare: all that has arrived at once. What is due is applied, what is out of turn passed over. */
static void follow(const uint8_t *chunk, size_t chunk_len) {
    cablegorse_followed run = cablegorse_follow(image, image_len, chunk, chunk_len, next, sizeof next);
    if (run.part == CABLEGORSE_CHUNK_ENDED || run.part == CABLEGORSE_CHUNK_STOPPED)
        keep(run.written);
    printf("%llu records read, %llu applied\n", (unsigned long long)run.read, (unsigned long long)run.applied);
    if (run.part == CABLEGORSE_CHUNK_STOPPED) /* after 17 a real host keeps the bytes from there on for the next chunk */
        printf("bad %u at byte %llu\n", run.number, (unsigned long long)run.place);
}

/* As the primary: a tester (subject 9) asks for ECU 5. A real host sends the record in sent on, step.place bytes, whatever
 * the answer is. */
static void ask(void) {
    cablegorse_operation asked = {.kind = CABLEGORSE_KIND_INSERT_ACTIVE, .lo = 99, .subject = 9, .expires = 4000};
    asked.scope = CABLEGORSE_SCOPE_ECU;
    asked.number = 5;
    asked.coverage = CABLEGORSE_COVERAGE_SET;
    asked.w0 = 1 << 5;
    cablegorse_applied step = cablegorse_perform(image, image_len, asked, NULL, 0, next, sizeof next, removed,
                                                 sizeof removed, expired, sizeof expired, sent, sizeof sent);
    if (step.part == CABLEGORSE_PART_APPLIED) /* refused or not: the number moved on */
        keep(step.written);
    printf("as primary, record %u asks for ECU 5: %u, %s\n", step.sequence, step.number,
           step.part == CABLEGORSE_PART_APPLIED ? "applied" : "not applied");
}

int main(int argc, char **argv) {
    static uint8_t feed[65536];
    if (argc != 3) {
        fprintf(stderr, "usage: follow IMAGE FEED\n");
        return 2;
    }
    image_len = load(argv[1], image, sizeof image);
    cablegorse_told told = cablegorse_test(image, image_len);
    if (told.number != CABLEGORSE_DONE) {
        fprintf(stderr, "%s is refused by %u\n", argv[1], told.number);
        return 1;
    }
    follow(feed, load(argv[2], feed, sizeof feed));
    told = cablegorse_test(image, image_len);
    printf("taken over: revision %llu, record %llu is due\n", (unsigned long long)told.v[0], (unsigned long long)told.v[1]);
    ask();

    uint8_t held[CABLEGORSE_ACTIVE_BYTES];
    told = cablegorse_read(image, image_len, CABLEGORSE_ASK_ACTIVE_FOR_SCOPE, CABLEGORSE_SCOPE_ECU, 5, NULL, 0, held,
                           sizeof held);
    if (told.v[0] == 1)
        printf("ECU 5 is held by subject %d\n", held[CABLEGORSE_AT_SUBJECT] + 256 * held[CABLEGORSE_AT_SUBJECT + 1]);
    else
        printf("ECU 5 is held by nobody\n");
    return 0;
}
