/* What the programs that measure one tool share: PROGRAM BOOK NAMES [MEASUREMENT].

   They print a line a measurement, "name tool ms", the best of three: the processor's time, which the other work of a shared machine disturbs least. With a third
   argument they do that measurement alone, once, and print the sum of what it was told, the same for every tool; callgrind then counts what runs inside the
   function measure_NAME. NAMES has a line a name, behind + if the book has it, else behind -. */
#include <fcntl.h>
#include <stdint.h>
#include <stdio.h>
#include <stdlib.h>
#include <string.h>
#include <sys/mman.h>
#include <sys/stat.h>
#include <time.h>
#include <unistd.h>

struct name { const char *text; size_t len; };
struct measure { const char *name; void (*call)(void); };

static const char *book_path;
static const uint8_t *book;      /* mapped, every page present */
static size_t book_len;
static struct name *there, *missing;
static size_t there_count, missing_count;
static uint64_t kept;            /* the sum */

static void fail(const char *what) { fprintf(stderr, "%s\n", what); exit(1); }

static const uint8_t *mapped(const char *path, size_t *len, int flags) {
    struct stat about;
    int f = open(path, O_RDONLY);
    if (f < 0 || fstat(f, &about)) fail(path);
    *len = (size_t)about.st_size;
    void *at = mmap(NULL, *len, PROT_READ, MAP_PRIVATE | flags, f, 0);
    if (at == MAP_FAILED) fail("mmap");
    close(f);
    return at;
}

static void read_names(const char *path) {
    size_t len;
    const uint8_t *from = mapped(path, &len, 0);
    char *text = malloc(len + 1);
    memcpy(text, from, len);
    text[len] = 0;
    there = malloc((len / 2 + 1) * sizeof *there);
    missing = malloc((len / 2 + 1) * sizeof *missing);
    for (char *line = strtok(text, "\n"); line; line = strtok(NULL, "\n")) {
        struct name n = {line + 1, strlen(line + 1)};
        if (*line == '+') there[there_count++] = n;
        else missing[missing_count++] = n;
    }
}

static double now(void) {
    struct timespec t;
    clock_gettime(CLOCK_PROCESS_CPUTIME_ID, &t);
    return (double)t.tv_sec * 1e3 + (double)t.tv_nsec * 1e-6;
}

/* The book and the names. */
static void read_arguments(int argc, char **argv) {
    if (argc < 3) fail("usage: PROGRAM BOOK NAMES [MEASUREMENT]");
    book_path = argv[1];
    book = mapped(book_path, &book_len, MAP_POPULATE);
    read_names(argv[2]);
}

static int measured(int argc, char **argv, const char *tool, const struct measure *all, size_t count, void (*ready)(void)) {
    read_arguments(argc, argv);
    ready();
    for (size_t i = 0; i < count; i++) {
        if (argc > 3) {
            if (strcmp(argv[3], all[i].name)) continue;
            all[i].call();
            printf("%llu\n", (unsigned long long)kept);
            return 0;
        }
        double best = 1e9;
        for (int round = 0; round < 3; round++) {
            double t = now();
            all[i].call();
            t = now() - t;
            if (t < best) best = t;
        }
        printf("%s %s %.6f\n", all[i].name, tool, best);
    }
    return argc > 3;
}
