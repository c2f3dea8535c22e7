/* Calls the library for tests/test_library.py, which writes requests to standard input: a line `NAME NUMBER LENGTH WORDS`, and behind it so
   many bytes of a text and so many of words. Of each answer it writes a line with the status and *needed, and the text with a line feed.

   Usage: library answer, library refuse (each request for memory is refused in turn), library threads (four at once give the same),
   library time (microseconds a call). It ends with status 1, and says why, where the room or *needed is not as the header says. */
#define _POSIX_C_SOURCE 200809L
#include <pthread.h>
#include <stdio.h>
#include <stdlib.h>
#include <string.h>
#include <time.h>
#include "hive_library.h"

#define ROOM (1 << 20)

struct request {
    char name[16];
    unsigned number;
    size_t length, words_length;
    uint8_t *text, *words;
    struct request *next;
};

/* The allocator of heap.c, which is compiled with these names: the request of number `refuse_at` is refused, counted from 1. */
static _Thread_local long asked, refuse_at, held;

void *tried_malloc(size_t bytes) {
    if (++asked == refuse_at) return NULL;
    held++;
    return malloc(bytes);
}

void *tried_realloc(void *old, size_t bytes) { return ++asked == refuse_at ? NULL : realloc(old, bytes); }

void tried_free(void *old) {
    held--;
    free(old);
}

static void fail(const struct request *request, const char *why) {
    fprintf(stderr, "library: %s: %s\n", request->name, why);
    exit(1);
}

static uint32_t call(const struct request *r, uint8_t *room, size_t room_length, size_t *needed) {
    if (!strcmp(r->name, "version")) return hive_library_version(room, room_length, needed);
    if (!strcmp(r->name, "written")) return hive_library_written(r->text, r->length, room, room_length, needed);
    if (!strcmp(r->name, "moves")) return hive_library_moves(r->text, r->length, room, room_length, needed);
    if (!strcmp(r->name, "after")) return hive_library_after(r->text, r->length, r->words, r->words_length, room, room_length, needed);
    if (!strcmp(r->name, "best")) return hive_library_best(r->text, r->length, r->number, room, room_length, needed);
    if (!strcmp(r->name, "count")) return hive_library_count(r->text, r->length, r->number, room, room_length, needed);
    if (!strcmp(r->name, "certify")) return hive_library_certify(r->text, r->length, r->number, room, room_length, needed);
    if (!strcmp(r->name, "check")) return hive_library_check(r->text, r->length, room, room_length, needed);
    if (!strcmp(r->name, "solve")) return hive_library_solve(r->text, r->length, r->number, room, room_length, needed);
    if (!strcmp(r->name, "verify")) return hive_library_verify(r->text, r->length, room, room_length, needed);
    fail(r, "no such function");
    return 0;
}

/* As much room as is asked for, filled, so that what was not written to can be told. */
static uint8_t *room_of(size_t length) {
    uint8_t *room = malloc(length ? length : 1);
    memset(room, 0xa5, length);
    return room;
}

static int is_untouched(const uint8_t *room, size_t from, size_t length) {
    for (size_t i = from; i < length; i++)
        if (room[i] != 0xa5) return 0;
    return 1;
}

/* Whether a text stands in the room. */
static int is_put(const struct request *r, uint32_t status) {
    int is_check = !strcmp(r->name, "check") || !strcmp(r->name, "verify");
    return status == HIVE_DONE || status == HIVE_BAD_INPUT || (is_check && status == HIVE_REFUSED);
}

/* Answers a request, and looks at what a call leaves behind. */
static uint32_t answer(const struct request *r, uint8_t *room, size_t length, size_t *needed) {
    *needed = 12345;
    uint32_t status = call(r, room, length, needed);
    if (!is_untouched(room, is_put(r, status) ? *needed : 0, length)) fail(r, "the room was written to");
    int is_known = is_put(r, status) || status == HIVE_ROOM_SHORT;
    if (is_known != (*needed > 0)) fail(r, "*needed is no length");
    if (held != 0) fail(r, "memory was not given back");
    return status;
}

static void tell(const struct request *r) {
    size_t needed, again;
    uint8_t *room = room_of(ROOM);
    uint32_t status = answer(r, room, ROOM, &needed);
    printf("%u %zu\n%.*s\n", status, needed, is_put(r, status) ? (int)needed : 0, room);
    if (is_put(r, status)) {
        uint8_t *exact = room_of(needed), *tight = room_of(needed - 1);
        if (answer(r, exact, needed, &again) != status || again != needed || memcmp(exact, room, needed)) fail(r, "an exact room");
        if (answer(r, tight, needed - 1, &again) != HIVE_ROOM_SHORT || again != needed) fail(r, "a short room");
        free(exact);
        free(tight);
    }
    free(room);
}

static void refuse(const struct request *r) {
    size_t needed;
    uint8_t *room = room_of(ROOM), *other = room_of(ROOM);
    asked = refuse_at = 0;
    uint32_t status = answer(r, room, ROOM, &needed);
    long all = asked, wanting = 0;
    for (long at = 1; at <= all; at++) {
        size_t again;
        memset(other, 0xa5, ROOM);
        asked = 0;
        refuse_at = at;
        uint32_t now = answer(r, other, ROOM, &again);
        if (now == HIVE_NO_MEMORY)
            wanting++;
        else if (now != status || again != needed || memcmp(room, other, ROOM))
            fail(r, "another answer where a request was refused");
    }
    refuse_at = 0;
    if (!wanting) fail(r, "no refused request was seen");
    printf("%s %ld %ld\n", r->name, all, wanting);
    free(room);
    free(other);
}

static struct request *first;

static void *work(void *kept) {
    uint8_t *texts = kept, *room = malloc(ROOM);
    for (const struct request *r = first; r; r = r->next) {
        size_t needed = 0;
        uint32_t status = call(r, room, ROOM, &needed);
        uint64_t sum = status;
        for (size_t i = 0; is_put(r, status) && i < needed; i++) sum = sum * 31 + room[i];
        memcpy(texts, &sum, sizeof sum);
        texts += sizeof sum;
    }
    free(room);
    return NULL;
}

static void threads(size_t count) {
    pthread_t thread[4];
    uint8_t *texts[4];
    for (int i = 0; i < 4; i++) {
        texts[i] = calloc(count, sizeof(uint64_t));
        pthread_create(&thread[i], NULL, work, texts[i]);
    }
    for (int i = 0; i < 4; i++) {
        pthread_join(thread[i], NULL);
        if (memcmp(texts[0], texts[i], count * sizeof(uint64_t))) fail(first, "threads give other answers");
    }
    for (int i = 0; i < 4; i++) free(texts[i]);
    printf("%zu\n", count);
}

static void tell_time(const struct request *r) {
    struct timespec from, to;
    size_t needed;
    uint8_t *room = malloc(ROOM);
    clock_gettime(CLOCK_MONOTONIC, &from);
    for (int i = 0; i < 1000; i++) call(r, room, ROOM, &needed);
    clock_gettime(CLOCK_MONOTONIC, &to);
    printf("%s: %.0f microseconds a call\n", r->name, ((to.tv_sec - from.tv_sec) * 1e9 + (to.tv_nsec - from.tv_nsec)) / 1e6);
    free(room);
}

static uint8_t *bytes_of(size_t length) {
    uint8_t *bytes = malloc(length ? length : 1);
    if (fread(bytes, 1, length, stdin) != length) exit(1);
    return bytes;
}

int main(int count, char **words) {
    struct request **last = &first, *next, read;
    size_t requests = 0;
    if (count != 2) return 1;
    for (; scanf("%15s %u %zu %zu", read.name, &read.number, &read.length, &read.words_length) == 4; requests++) {
        getchar();
        read.text = bytes_of(read.length);
        read.words = bytes_of(read.words_length);
        read.next = NULL;
        *last = malloc(sizeof read);
        **last = read;
        last = &(*last)->next;
    }
    if (!strcmp(words[1], "threads")) threads(requests);
    for (struct request *r = first; r; r = next) {
        if (!strcmp(words[1], "answer")) tell(r);
        if (!strcmp(words[1], "refuse")) refuse(r);
        if (!strcmp(words[1], "time")) tell_time(r);
        next = r->next;
        free(r->text);
        free(r->words);
        free(r);
    }
    return 0;
}
