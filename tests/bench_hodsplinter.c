/* Measures this library. The book is lent as mapped bytes. With a third argument `comparisons` it times nothing and prints two lines, for the names that are there and for the others:
   the comparisons that a lookup takes, the most that it may take, both as means, and how many lookups took more. */
#include "bench.h"

#include "../include/hodsplinter.h"
#include "bench_bound.h"

static uint64_t record[HODS_RECORD], less_record[HODS_RECORD], page[4070];
static uint8_t *entries, *head, *names, *answers, *less;
static size_t entries_len, head_len, names_len, answers_len, less_len;

static size_t encint_len(uint64_t n) {
    size_t len = 1;
    while (n >>= 7) len++;
    return len;
}

/* The bytes of the entries one behind another, from their reports: in the measured books each number has its short form. Where `step` is not 0, each step-th is left out. Their length. */
static size_t gather(uint8_t *to, size_t step) {
    uint64_t next[2];
    size_t size = 0, count = 0;
    for (uint64_t chunk = record[8]; chunk != 0xFFFFFFFFu; chunk = next[1]) {
        if (hods_chunk_page(book, book_len, record, chunk, page, 4070, next)) fail("listing refused");
        for (uint64_t *e = page; e < page + 5 * next[0]; e += 5) {
            size_t front = encint_len(e[1]), len = front + e[1] + encint_len(e[2]) + encint_len(e[3]) + encint_len(e[4]);
            if (step && ++count % step == 0) continue;
            memcpy(to + size, book + e[0] - front, len);
            size += len;
        }
    }
    return size;
}

static uint64_t write_head(const uint8_t *from, size_t from_len, uint8_t *to) {
    uint64_t len[1];
    if (hods_write_head(from, from_len, (uint32_t)record[5], (uint32_t)record[1], (uint32_t)record[2], book_len - record[10], to, head_len, len)) fail("not written");
    return len[0];
}

/* The book without each 61st name, by the writer. */
static void make_less(void) {
    uint8_t *fewer = malloc(book_len);
    less = malloc(book_len);
    less_len = write_head(fewer, gather(fewer, 61), less);
    memcpy(less + less_len, book + record[10], book_len - record[10]);
    less_len += book_len - record[10];
    free(fewer);
    if (hods_open(less, less_len, less_record)) fail("refused");
}

/* The names that are there as a batch takes them, each behind the ENCINT of its length, and room for their answers. */
static void gather_names(void) {
    for (size_t i = 0; i < there_count; i++) names_len += encint_len(there[i].len) + there[i].len;
    uint8_t *to = names = malloc(names_len);
    for (size_t i = 0; i < there_count; i++) {
        for (size_t left = encint_len(there[i].len); left--;) *to++ = (uint8_t)(there[i].len >> 7 * left & 127) | (left ? 128 : 0);
        memcpy(to, there[i].text, there[i].len);
        to += there[i].len;
    }
    answers_len = 32 * there_count;
    answers = malloc(answers_len);
}

static void ready(void) {
    if (hods_open(book, book_len, record)) fail("refused");
    head_len = record[10];
    head = malloc(head_len);
    entries = malloc(book_len);
    entries_len = gather(entries, 0);
    gather_names();
    make_less();
}

void measure_open(void) {
    uint64_t r[HODS_RECORD];
    if (hods_open(book, book_len, r)) fail("refused");
    kept += r[4];
}

void measure_open_path(void) {
    size_t len;
    uint64_t r[HODS_RECORD];
    const uint8_t *at = mapped(book_path, &len, 0);
    if (hods_open(at, len, r)) fail("refused");
    munmap((void *)at, len);
    kept += r[4];
}

void measure_find_hit(void) {
    uint32_t trail[5];
    uint64_t answer[HODS_LOOKUP];
    for (size_t i = 0; i < there_count; i++) {
        if (hods_lookup(book, book_len, record, (const uint8_t *)there[i].text, there[i].len, trail, 5, answer) != 0) fail("not found");
        kept += answer[4];
    }
}

void measure_find_miss(void) {
    uint32_t trail[5];
    uint64_t answer[HODS_LOOKUP];
    for (size_t i = 0; i < missing_count; i++)
        if (hods_lookup(book, book_len, record, (const uint8_t *)missing[i].text, missing[i].len, trail, 5, answer) != 255) fail("found");
}

void measure_opened_hit(void) {
    uint64_t answer[5];
    for (size_t i = 0; i < there_count; i++) {
        if (hods_lookup_opened(book, book_len, record, (const uint8_t *)there[i].text, there[i].len, answer) != 0) fail("not found");
        kept += answer[3];
    }
}

void measure_opened_miss(void) {
    uint64_t answer[5];
    for (size_t i = 0; i < missing_count; i++)
        if (hods_lookup_opened(book, book_len, record, (const uint8_t *)missing[i].text, missing[i].len, answer) != 255) fail("found");
}

/* Opening, and the names that are there in one call. */
void measure_batch(void) {
    uint64_t offset;
    if (hods_batch(book, book_len, names, names_len, answers, answers_len)) fail("refused");
    for (size_t i = 0; i < there_count; i++) {
        if (answers[32 * i]) fail("not found");
        memcpy(&offset, answers + 32 * i + 16, 8);
        kept += offset;
    }
}

/* One name that is not there, along the whole chain. */
void measure_scan(void) {
    uint64_t answer[5];
    const struct name *n = missing + missing_count / 2;
    if (hods_scan(book, book_len, record, (const uint8_t *)n->text, n->len, answer) != 255) fail("found");
}

/* Of each entry: its length, its offset and the last byte of its name. */
void measure_list(void) {
    uint64_t next[2], sum = 0;
    for (uint64_t chunk = record[8]; chunk != 0xFFFFFFFFu; chunk = next[1]) {
        if (hods_chunk_page(book, book_len, record, chunk, page, 4070, next)) fail("listing refused");
        for (uint64_t *e = page; e < page + 5 * next[0]; e += 5) sum += e[3] + e[4] + book[e[0] + e[1] - 1];
    }
    kept += sum;
}

/* The book and another from the start to the end; what is the same and what is not. */
static void compare(const uint8_t *other, size_t other_len, const uint64_t *other_record) {
    uint64_t cursor[14], difference[15], totals[4], r = hods_compare_start(record, other_record, cursor);
    while (r == 0) r = hods_compare_step(book, book_len, record, other, other_len, other_record, cursor, difference, totals);
    if (r != 255) fail("comparison refused");
    kept += totals[0] + totals[1] + totals[2] + totals[3];
}

void measure_compare(void) { compare(book, book_len, record); }

void measure_compare_less(void) { compare(less, less_len, less_record); }

void measure_write(void) { kept += write_head(entries, entries_len, head); }

static void print_taken(const char *what, uint64_t code, const struct name *asked, size_t count) {
    struct taken sum = {0};
    uint32_t trail[5];
    uint64_t answer[HODS_LOOKUP];
    for (size_t i = 0; i < count; i++) {
        if (hods_lookup(book, book_len, record, (const uint8_t *)asked[i].text, asked[i].len, trail, 5, answer) != code) fail(what);
        add_lookup(&sum, book, record, trail, answer);
    }
    printf("%s %.2f %.2f %llu\n", what, each(&sum, sum.comparisons), each(&sum, sum.most), (unsigned long long)sum.above);
}

static int comparisons(int argc, char **argv) {
    read_arguments(argc, argv);
    if (hods_open(book, book_len, record)) fail("refused");
    print_taken("found", 0, there, there_count);
    print_taken("absent", 255, missing, missing_count);
    return 0;
}

int main(int argc, char **argv) {
    if (argc == 4 && !strcmp(argv[3], "comparisons")) return comparisons(argc, argv);
    static const struct measure all[] = {{"open", measure_open}, {"open_path", measure_open_path}, {"find_hit", measure_find_hit}, {"find_miss", measure_find_miss},
                                         {"opened_hit", measure_opened_hit}, {"opened_miss", measure_opened_miss}, {"batch", measure_batch},
                                         {"scan", measure_scan}, {"list", measure_list}, {"compare", measure_compare},
                                         {"compare_less", measure_compare_less}, {"write", measure_write}};
    int status = measured(argc, argv, "hodsplinter", all, sizeof all / sizeof *all, ready);
    /* the books for measuring have the head that the writer makes */
    if (argc == 3 && memcmp(head, book, head_len)) fail("the head that was written is not the book's");
    return status;
}
