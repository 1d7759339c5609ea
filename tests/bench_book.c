/* Measures opening, full listing by pages and lookups on one book, writing its head anew, and comparing it with itself and with the same book without each 61st
   name: bench_book FILE LESS. The head must be one that the writer lays out. Times are the best of five rounds, of comparing two books the best of fifteen. The
   status is 1 where comparing books takes longer than its goal allows, or a lookup more comparisons of names than docs/FORMAT.md allows (Q12). */
#include <pthread.h>
#include <stdint.h>
#include <stdio.h>
#include <stdlib.h>
#include <string.h>
#include <time.h>

#include "../include/hodsplinter.h"
#include "bench_bound.h"

static double now(void) {
    struct timespec t;
    clock_gettime(CLOCK_MONOTONIC, &t);
    return (double)t.tv_sec + (double)t.tv_nsec * 1e-9;
}

static uint64_t page[4070];

/* Lists the whole book; keeps the place and the length of each name where there is room for them. */
static size_t list_all(const uint8_t *file, size_t len, const uint64_t *record, uint64_t *names, size_t room) {
    uint64_t chunk = record[8], next[2];
    size_t count = 0;
    while (chunk != 0xFFFFFFFFu) {
        if (hods_chunk_page(file, len, record, chunk, page, 4070, next)) { fprintf(stderr, "listing refused\n"); exit(1); }
        for (uint64_t i = 0; i < next[0]; i++, count++)
            if (count < room) { names[2 * count] = page[5 * i]; names[2 * count + 1] = page[5 * i + 1]; }
        chunk = next[1];
    }
    return count;
}

/* The entries of the book one directly behind another, as the writer takes them. */
static size_t gather(const uint8_t *file, const uint64_t *record, uint8_t *entries) {
    size_t size = 0;
    uint32_t chunk = (uint32_t)record[8], tail;
    while (chunk != 0xFFFFFFFFu) {
        const uint8_t *at = file + record[3] + 84 + (size_t)chunk * 4096;
        memcpy(&tail, at + 4, 4);
        memcpy(entries + size, at + 20, 4096 - 20 - tail);
        size += 4096 - 20 - tail;
        memcpy(&chunk, at + 16, 4);
    }
    return size;
}

static uint8_t *the_entries, *the_head;
static size_t the_size;

static uint64_t write_head(const uint64_t *record, size_t len) {
    uint64_t length[1];
    return hods_write_head(the_entries, the_size, (uint32_t)record[5], (uint32_t)record[1], (uint32_t)record[2], len - record[10], the_head, record[10], length);
}

static double write_best(const uint8_t *file, size_t len, const uint64_t *record) {
    double best = 1e9;
    the_entries = malloc(len);
    the_head = malloc(record[10]);
    the_size = gather(file, record, the_entries);
    for (int round = 0; round < 5; round++) {
        double t = now();
        uint64_t r = write_head(record, len);
        t = now() - t;
        if (r || memcmp(the_head, file, record[10])) { fprintf(stderr, "not the head of the book\n"); exit(1); }
        if (t < best) best = t;
    }
    return best;
}

/* A book as it is lent, and its record. */
struct book { uint8_t *file; size_t len; uint64_t record[HODS_RECORD]; };

/* A file in memory, opened; the program ends where there is no book. */
static struct book read_book(const char *path) {
    struct book book;
    FILE *f = fopen(path, "rb");
    if (!f) { perror(path); exit(2); }
    fseek(f, 0, SEEK_END);
    book.len = (size_t)ftell(f);
    rewind(f);
    book.file = malloc(book.len);
    if (!book.file || fread(book.file, 1, book.len, f) != book.len) { perror(path); exit(2); }
    fclose(f);
    uint64_t r = hods_open(book.file, book.len, book.record);
    if (r) { fprintf(stderr, "%s: refused: %llu\n", path, (unsigned long long)r); exit(1); }
    return book;
}

/* Compares two opened books from the start to the end; how many differences were told. */
static size_t compare_all(const struct book *one, const struct book *two, uint64_t totals[4]) {
    static uint64_t cursor[14], difference[15];
    size_t told = 0;
    uint64_t r = hods_compare_start(one->record, two->record, cursor);
    while (r == 0 && (r = hods_compare_step(one->file, one->len, one->record, two->file, two->len, two->record, cursor, difference, totals)) == 0) told++;
    if (r != 255) { fprintf(stderr, "comparison refused\n"); exit(1); }
    return told;
}

static double list_time(const struct book *book, uint64_t *names, size_t *entries) {
    double t = now();
    *entries = list_all(book->file, book->len, book->record, names, 2000000);
    return now() - t;
}

static double least(double a, double b) { return a < b ? a : b; }

/* Each 61st name is looked up, and the name with a byte more, which is not there. */
enum { EVERY = 61 };

/* A name that is not there, by the place and the length of one that is; its length. */
static size_t beside(const struct book *book, const uint64_t *name, uint8_t other[1025]) {
    memcpy(other, book->file + name[0], name[1]);
    other[name[1]] = 1;
    return name[1] + 1 < 1024 ? name[1] + 1 : name[1];
}

static uint64_t look_up(const struct book *book, const uint8_t *name, size_t len, uint32_t trail[5], uint64_t answer[HODS_LOOKUP]) {
    return hods_lookup(book->file, book->len, book->record, name, len, trail, 5, answer);
}

/* Seconds a lookup of the names that are there. */
static double hit_time(const struct book *book, const uint64_t *names, size_t entries) {
    uint32_t trail[5];
    uint64_t answer[HODS_LOOKUP];
    size_t asked = 0;
    double t = now();
    for (size_t i = 0; i < entries; i += EVERY, asked++)
        if (look_up(book, book->file + names[2 * i], names[2 * i + 1], trail, answer) != 0) { fprintf(stderr, "not found\n"); exit(1); }
    return (now() - t) / (double)asked;
}

/* Seconds a lookup of those that are not. */
static double miss_time(const struct book *book, const uint64_t *names, size_t entries) {
    uint32_t trail[5];
    uint64_t answer[HODS_LOOKUP];
    uint8_t other[1025];
    size_t asked = 0;
    double spent = 0;
    for (size_t i = 0; i < entries; i += EVERY, asked++) {
        size_t n = beside(book, names + 2 * i, other);
        double t = now();
        uint64_t r = look_up(book, other, n, trail, answer);
        spent += now() - t;
        if (r != 255) { fprintf(stderr, "found what is not there\n"); exit(1); }
    }
    return spent / (double)asked;
}

/* What the same lookups take; true where none takes more comparisons than the chunks of its trail allow. */
static int within_bound(const struct book *book, const uint64_t *names, size_t entries) {
    struct taken hits = {0}, misses = {0};
    uint32_t trail[5];
    uint64_t answer[HODS_LOOKUP];
    uint8_t other[1025];
    for (size_t i = 0; i < entries; i += EVERY) {
        look_up(book, book->file + names[2 * i], names[2 * i + 1], trail, answer);
        add_lookup(&hits, book->file, book->record, trail, answer);
        look_up(book, other, beside(book, names + 2 * i, other), trail, answer);
        add_lookup(&misses, book->file, book->record, trail, answer);
    }
    int met = !hits.above && !misses.above;
    printf("chunks a lookup: %.2f found, %.2f absent\n", each(&hits, hits.chunks), each(&misses, misses.chunks));
    printf("goal: comparisons a lookup, at most h + n a chunk: %.2f of %.2f found, %.2f of %.2f absent, %s\n", each(&hits, hits.comparisons), each(&hits, hits.most),
           each(&misses, misses.comparisons), each(&misses, misses.most), met ? "met" : "missed");
    return met;
}

/* Opening, listing and lookups; how many entries there are, whose names are kept. */
static size_t read_best(const struct book *book, uint64_t *names) {
    double open_best = 1e9, list_best = 1e9, hit_best = 1e9, miss_best = 1e9;
    size_t entries = 0;
    for (int round = 0; round < 5; round++) {
        uint64_t record[HODS_RECORD];
        double t = now();
        uint64_t r = hods_open(book->file, book->len, record);
        open_best = least(open_best, now() - t);
        if (r) { fprintf(stderr, "refused: %llu\n", (unsigned long long)r); exit(1); }
        list_best = least(list_best, list_time(book, names, &entries));
        hit_best = least(hit_best, hit_time(book, names, entries));
        miss_best = least(miss_best, miss_time(book, names, entries));
    }
    printf("%zu bytes, %llu chunks, %zu entries: open %.2f ms, %.0f MB/s; list %.2f ms, %.0f MB/s; lookup %.2f us found, %.2f us absent\n", book->len,
           (unsigned long long)book->record[4], entries, open_best * 1e3, (double)book->len / open_best / 1e6, list_best * 1e3, (double)book->len / list_best / 1e6,
           hit_best * 1e6, miss_best * 1e6);
    return entries;
}

/* Lists two books and compares them, in turn, so that other work of the machine disturbs both alike. The second has the entries of the first but for so many.
   True where comparing meets its goal, at most 1.5 times listing both. */
static int compare_best(const char *what, const struct book *one, const struct book *two, size_t missing, uint64_t *names) {
    double one_best = 1e9, two_best = 1e9, best = 1e9;
    size_t one_entries = 0, two_entries = 0;
    for (int round = 0; round < 15; round++) {
        uint64_t totals[4] = {0};
        one_best = least(one_best, list_time(one, names, &one_entries));
        two_best = least(two_best, list_time(two, names, &two_entries));
        double t = now();
        size_t told = compare_all(one, two, totals);
        best = least(best, now() - t);
        if (told != missing || one_entries != two_entries + missing || totals[0] != missing || totals[1] || totals[2] != two_entries || totals[3]) {
            fprintf(stderr, "not the differences of the two books\n");
            exit(1);
        }
    }
    double both = one_best + two_best;
    printf("compare with %s: %.2f ms, %.0f MB/s, %zu differences, %zu the same; listing both %.2f ms\n", what, best * 1e3,
           (double)(one->len + two->len) / best / 1e6, missing, two_entries, both * 1e3);
    printf("goal: compare with %s, at most 1.5 times listing both: %.2f, %s\n", what, best / both, best <= 1.5 * both ? "met" : "missed");
    return best <= 1.5 * both;
}

/* The deepest stack of one call, by a painted stack of its own. */
static struct book the_book, the_less;

static void *call_open(void *x) { hods_open(the_book.file, the_book.len, the_book.record); return x; }
static void *call_page(void *x) { uint64_t next[2]; hods_chunk_page(the_book.file, the_book.len, the_book.record, the_book.record[8], page, 4070, next); return x; }
static void *call_lookup(void *x) { uint32_t trail[5]; uint64_t answer[HODS_LOOKUP]; hods_lookup(the_book.file, the_book.len, the_book.record, (const uint8_t *)"~", 1, trail, 5, answer); return x; }
static void *call_scan(void *x) { uint64_t answer[5]; hods_scan(the_book.file, the_book.len, the_book.record, (const uint8_t *)"~", 1, answer); return x; }
static void *call_opened(void *x) { uint64_t answer[5]; hods_lookup_opened(the_book.file, the_book.len, the_book.record, (const uint8_t *)"~", 1, answer); return x; }
static void *call_batch(void *x) { uint8_t answers[32]; hods_batch(the_book.file, the_book.len, (const uint8_t *)"\1~", 2, answers, 32); return x; }
static void *call_compare(void *x) { uint64_t totals[4]; compare_all(&the_book, &the_less, totals); return x; }
static void *call_write(void *x) { write_head(the_book.record, the_book.len); return x; }
static void *call_nothing(void *x) { return x; }

static size_t deepest(void *(*call)(void *)) {
    enum { SIZE = 1 << 20 };
    static uint8_t stack[SIZE] __attribute__((aligned(4096)));
    memset(stack, 0xA5, SIZE);
    pthread_attr_t attr;
    pthread_t thread;
    pthread_attr_init(&attr);
    pthread_attr_setstack(&attr, stack, SIZE);
    pthread_create(&thread, &attr, call, NULL);
    pthread_join(thread, NULL);
    size_t free_bytes = 0;
    while (stack[free_bytes] == 0xA5) free_bytes++;
    return SIZE - free_bytes;
}

static void print_stack(void) {
    size_t idle = deepest(call_nothing);
    size_t open_stack = deepest(call_open) - idle, page_stack = deepest(call_page) - idle, lookup_stack = deepest(call_lookup) - idle;
    size_t scan_stack = deepest(call_scan) - idle, opened_stack = deepest(call_opened) - idle, batch_stack = deepest(call_batch) - idle;
    size_t compare_stack = deepest(call_compare) - idle, write_stack = deepest(call_write) - idle;
    printf("peak stack: open %zu bytes, page %zu bytes, lookup %zu bytes, scan %zu bytes, lookup in an opened book %zu bytes, batch %zu bytes, compare %zu bytes, write %zu bytes\n",
           open_stack, page_stack, lookup_stack, scan_stack, opened_stack, batch_stack, compare_stack, write_stack);
}

int main(int argc, char **argv) {
    if (argc != 3) { fprintf(stderr, "usage: bench_book FILE LESS\n"); return 2; }
    /* the book with itself is two copies in memory, as two issues are */
    struct book copy = read_book(argv[1]);
    the_book = read_book(argv[1]);
    the_less = read_book(argv[2]);
    const uint64_t *record = the_book.record;
    uint64_t *names = malloc(2000000 * 2 * sizeof *names);
    size_t entries = read_best(&the_book, names);
    int met = within_bound(&the_book, names, entries);
    double write_time = write_best(the_book.file, the_book.len, record);
    printf("write the head, %llu bytes, from %zu bytes of entries: %.2f ms, %.0f MB/s\n", (unsigned long long)record[10], the_size, write_time * 1e3,
           (double)record[10] / write_time / 1e6);
    met &= compare_best("itself", &the_book, &copy, 0, names);
    met &= compare_best("one that lacks each 61st name", &the_book, &the_less, entries / EVERY, names);
    print_stack();
    return !met;
}
