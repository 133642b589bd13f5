/*
 * Calls the judge as a library, for library.py: library WAY FILE.
 *
 * records: each line of FILE is judged in a block of exactly its length; a line each tells what is said.
 * pages: the same, where the byte behind the text is in a page that can't be read, and once more where that before it is.
 * ledger, ledger-pages: all of FILE is reported so.
 * pieces, pieces-pages: all of FILE is fed to a reader, in pieces of many lengths, each in a block or beside such a page; the
 *     reader itself ends where memory can't be read, and the memory before and behind it stays as it was.
 * refused, ledger-refused, pieces-refused: each of the first requests for memory is refused in turn, and with it all later ones; what is
 *     said then is that memory was refused, or what is said else.
 *
 * Whatever the way, each block that a call asked for has to be given back when it returns: else the end is 1. All calls are
 * made by a thread with BB_STACK_BYTES of stack and what the thread itself takes. Linked with --wrap for malloc, realloc
 * and free.
 */
#define _GNU_SOURCE
#include "bb.h"

#include <inttypes.h>
#include <pthread.h>
#include <stdio.h>
#include <stdlib.h>
#include <string.h>
#include <sys/mman.h>
#include <unistd.h>

/* What the thread takes of its stack beside the calls. */
#define OWN_STACK 32768

/* The last request of a call that is refused. */
#define MOST_REFUSED 200

void *__real_malloc(size_t size);
void *__real_realloc(void *block, size_t size);
void __real_free(void *block);

/* How many requests there were, how many blocks aren't given back, and the first request that is refused. */
static long requests, held, due;

static int is_refused(void) { return ++requests >= due && due > 0; }

void *__wrap_malloc(size_t size) {
    void *block = is_refused() ? NULL : __real_malloc(size);
    held += block != NULL;
    return block;
}

void *__wrap_realloc(void *block, size_t size) {
    if (is_refused()) return NULL;
    held += block == NULL;
    return __real_realloc(block, size);
}

void __wrap_free(void *block) {
    held -= block != NULL;
    __real_free(block);
}

union told {
    struct bb_answer answer;
    struct bb_tree tree;
};

static const char *way, *path;
static int is_ledger, is_fed, status;
static size_t page;
static long refusals;

/* A place at the end of readable memory, or at its beginning. All of it is given back by `leave`. */
struct place {
    unsigned char *all, *at;
    size_t size;
};

static struct place place_of(size_t length, int at_end) {
    size_t room = (length + page - 1) / page * page;
    struct place made = {NULL, NULL, room + 2 * page};
    made.all = mmap(NULL, made.size, PROT_NONE, MAP_PRIVATE | MAP_ANONYMOUS, -1, 0);
    if (made.all == MAP_FAILED || (room && mprotect(made.all + page, room, PROT_READ | PROT_WRITE))) exit(2);
    made.at = made.all + page + (at_end ? room - length : 0);
    return made;
}

static void leave(struct place made) { munmap(made.all, made.size); }

/* Feeds a text to a reader that has its own bytes alone, in pieces of 0 to 200 bytes, each behind the other. */
static struct bb_tree fed(const unsigned char *text, size_t length) {
    struct place room = place_of(sizeof(struct bb_reader), 1);
    struct bb_reader *reader = (struct bb_reader *)room.at;
    unsigned long random = length + 1;
    bb_report_begin(reader);
    for (size_t at = 0, count; at < length; at += count) {
        random = random * 6364136223846793005UL + 1442695040888963407UL;
        count = (random >> 33) % 201;
        if (count > length - at) count = length - at;
        if (strstr(way, "pages")) {
            struct place piece = place_of(count, random >> 63 & 1);
            if (count) memcpy(piece.at, text + at, count);
            bb_report_feed(reader, piece.at, count);
            leave(piece);
        } else
            bb_report_feed(reader, text + at, count);
    }
    struct bb_tree told = bb_report_end(reader);
    leave(room);
    return told;
}

/* One call. What stood in `told` doesn't matter. */
static void call(const unsigned char *text, size_t length, union told *told) {
    memset(told, 0xa5, sizeof *told);
    requests = held = 0;
    if (is_fed)
        told->tree = fed(text, length);
    else if (is_ledger)
        bb_report(text, length, &told->tree);
    else
        bb_check(text, length, &told->answer);
    if (held != 0) {
        fprintf(stderr, "library: %ld blocks aren't given back\n", held);
        status = 1;
    }
}

/* Calls with the text at the end of readable memory, or at its beginning. */
static void call_within(const unsigned char *text, size_t length, int at_end, union told *told) {
    struct place made = place_of(length, at_end);
    if (length) memcpy(made.at, text, length);
    call(made.at, length, told);
    leave(made);
}

static size_t size(void) { return is_ledger ? sizeof(struct bb_tree) : sizeof(struct bb_answer); }

static uint32_t outcome(const union told *told) { return is_ledger ? told->tree.outcome : told->answer.outcome; }

/* Refuses each request in turn, up to the last that is tried, until a call meets no refusal. */
static void call_refused(const unsigned char *text, size_t length, const union told *ample) {
    union told told;
    for (long n = 1; n <= MOST_REFUSED; n++) {
        due = n;
        call(text, length, &told);
        due = 0;
        if (requests < n) break;
        refusals++;
        if (outcome(&told) != BB_NO_MEMORY && memcmp(&told, ample, size()) != 0) {
            fprintf(stderr, "library: refused request %ld of %.60s: said otherwise\n", n, (const char *)text);
            status = 1;
        }
    }
}

static void print(const union told *told) {
    const struct bb_answer *a = &told->answer;
    const struct bb_tree *t = &told->tree;
    if (is_ledger)
        printf("%" PRIu32 " %" PRIu32 " %" PRIu32 " %" PRIu32 " %" PRIu64 " %" PRIu64 " %" PRIu64 " %" PRIu64 " %" PRIu64
               " %" PRIu32 " %" PRIu64 " %" PRIu32 " %" PRIu64 " %" PRIu64 " %" PRIu32 " %" PRIu32 "\n",
               t->outcome, t->code, t->states, t->is_whole, t->nodes, t->halting, t->never, t->holdouts, t->open,
               t->has_best, t->best, t->has_ones, t->ones, t->left_line, t->left_why, t->left_code);
    else
        printf("%" PRIu32 " %" PRIu32 " %" PRIu32 " %" PRIu32 " %" PRIu64 " %" PRIu64 " %" PRIu64 " %" PRIu32 " %" PRIu32 "\n",
               a->outcome, a->code, a->table_code, a->has_place, a->place, a->steps, a->ones, a->has_ones, a->kind);
}

static void judge(const unsigned char *text, size_t length) {
    union told told, again;
    if (strstr(way, "pages")) {
        call_within(text, length, 1, &told);
        call_within(text, length, 0, &again);
        if (memcmp(&told, &again, size()) != 0) status = 1;
    } else {
        unsigned char *block = __real_malloc(length);
        if (length) memcpy(block, text, length);
        call(block, length, &told);
        if (strstr(way, "refused")) call_refused(block, length, &told);
        __real_free(block);
    }
    print(&told);
}

static void *judge_all(void *file) {
    unsigned char *text = ((unsigned char **)file)[0];
    size_t left = ((size_t *)file)[1];
    if (is_ledger) {
        judge(text, left);
        return NULL;
    }
    while (left) {
        unsigned char *end = memchr(text, '\n', left);
        size_t length = end ? (size_t)(end - text) : left;
        judge(text, length);
        left -= length + (end != NULL);
        text += length + (end != NULL);
    }
    return NULL;
}

int main(int argc, char **argv) {
    if (argc != 3 || bb_version() != BB_VERSION) return 2;
    way = argv[1];
    path = argv[2];
    is_fed = strncmp(way, "pieces", 6) == 0;
    is_ledger = is_fed || strncmp(way, "ledger", 6) == 0;
    page = (size_t)sysconf(_SC_PAGESIZE);
    FILE *in = fopen(path, "rb");
    if (!in) return 2;
    fseek(in, 0, SEEK_END);
    size_t length = (size_t)ftell(in);
    rewind(in);
    unsigned char *text = __real_malloc(length + 1);
    if (!text || fread(text, 1, length, in) != length) return 2;
    fclose(in);
    void *file[2] = {text, (void *)length};
    pthread_attr_t small;
    pthread_t thread;
    pthread_attr_init(&small);
    if (pthread_attr_setstacksize(&small, BB_STACK_BYTES + OWN_STACK) || pthread_create(&thread, &small, judge_all, file))
        return 2;
    pthread_join(thread, NULL);
    pthread_attr_destroy(&small);
    __real_free(text);
    if (strstr(way, "refused")) fprintf(stderr, "%ld\n", refusals);
    return status;
}
