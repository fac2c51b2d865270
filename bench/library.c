/*
 * Measures the library from C, in processor seconds of this process, over one database that is kept:
 *   library DATABASE QUERY FROM TO
 * Each line is a name, a number and its unit. The pages are those of QUERY in the window, a thousand answers each.
 */
#define _POSIX_C_SOURCE 200809L
#include <fizhedul.h>
#include <stdio.h>
#include <stdlib.h>
#include <sys/resource.h>
#include <time.h>

enum { CALLS = 20000, PAGES = 50, WORDS = 8 };

struct packing {
    uint8_t *bytes;
    size_t length;
};

static char text[1 << 20];
static size_t length;

static double now(void) {
    struct timespec time;
    clock_gettime(CLOCK_PROCESS_CPUTIME_ID, &time);
    return (double)time.tv_sec + (double)time.tv_nsec / 1e9;
}

static void fail(const char *what) {
    fprintf(stderr, "library: %s\n", what);
    exit(1);
}

static struct packing empty(size_t room) {
    struct packing packing = {malloc(room + 1), 0};
    if (packing.bytes == NULL) {
        fail("no memory");
    }
    return packing;
}

static void add(struct packing *packing, const void *bytes, size_t count) {
    packing->length = (size_t)(fizhedul_pack(packing->bytes + packing->length, bytes, count) - packing->bytes);
}

/* Words as a packing, up to a null pointer. */
static struct packing pack(const char *const *words) {
    struct packing packing = empty(4096);
    for (; *words != NULL; words++) {
        add(&packing, *words, strlen(*words));
    }
    return packing;
}

/* A file of this name with the bytes of the one at a path. */
static struct packing read_file(const char *name, const char *path) {
    FILE *file = fopen(path, "rb");
    if (file == NULL || fseek(file, 0, SEEK_END) != 0) {
        fail("a file can't be read");
    }
    size_t size = (size_t)ftell(file);
    uint8_t *bytes = malloc(size + 1);
    rewind(file);
    if (bytes == NULL || fread(bytes, 1, size, file) != size) {
        fail("a file can't be read");
    }
    fclose(file);
    struct packing packing = empty(size + 100);
    add(&packing, name, strlen(name));
    add(&packing, bytes, size);
    free(bytes);
    return packing;
}

static void check(int32_t status) {
    if (status != FIZHEDUL_DONE || length >= sizeof text) {
        fail("a call is refused, or its text is too long");
    }
    text[length] = 0;
}

static double ask(struct fizhedul_database *database, struct packing words, struct packing files) {
    double before = now();
    check(fizhedul_ask(database, words.bytes, words.length, files.bytes, files.length, (uint8_t *)text, sizeof text, &length));
    return now() - before;
}

/* What a call takes that reads everything: the least question there is. */
static void measure_run(void) {
    const char *const asked[] = {"ask", "db=bus.lrp", "query=bus.lrq", NULL};
    const char *const held[] = {"bus.lrp", "relation bus(t: time) { (5+60n); }\n", "bus.lrq", "{ t: time | bus(t) }\n", NULL};
    struct packing words = pack(asked), files = pack(held);
    double least = 1;
    for (int turn = 0; turn < 10; turn++) {
        double before = now();
        for (int i = 0; i < CALLS / 10; i++) {
            check(fizhedul_run(words.bytes, words.length, files.bytes, files.length, (uint8_t *)text, sizeof text, &length));
        }
        double took = (now() - before) / (CALLS / 10);
        least = took < least ? took : least;
    }
    printf("run\t%.2f\tmicroseconds\n", 1e6 * least);
}

static int by_size(const void *left, const void *right) {
    double a = *(const double *)left, b = *(const double *)right;
    return (a > b) - (a < b);
}

/* The pages of a query one after the other. */
static void measure_pages(struct fizhedul_database *database, struct packing query, char *const *window) {
    char from[40], to[40], after[400] = "";
    snprintf(from, sizeof from, "from=%s", window[0]);
    snprintf(to, sizeof to, "to=%s", window[1]);
    double took[PAGES];
    int count = 0;
    for (int page = 0; page <= PAGES; page++) {
        const char *const words[WORDS] = {"list", "db=db", "query=query", from, to, "limit=1000", page > 0 ? after : NULL, NULL};
        struct packing packed = pack(words);
        double seconds = ask(database, packed, query);
        free(packed.bytes);
        if (page == 0) {
            printf("first page\t%.1f\tms\n", 1e3 * seconds);
        } else {
            took[count++] = seconds;
        }
        char *more = strstr(text, "\nmore ");
        if (more == NULL) {
            break;
        }
        snprintf(after, sizeof after, "after=%.*s", (int)strcspn(more + 6, "\n"), more + 6);
    }
    if (count > 0) {
        qsort(took, (size_t)count, sizeof *took, by_size);
        printf("next page\t%.2f\tms\nslowest next page\t%.2f\tms\n", 1e3 * took[count / 2], 1e3 * took[count - 1]);
    }
}

/* A small query, each time another one: when a bus stops first at a place from some minute on. */
static void measure_decide(struct fizhedul_database *database, const char *from) {
    const char *const words[] = {"decide", "db=db", "query=query", NULL};
    double least = 1e9;
    for (int turn = 0; turn < 3; turn++) {
        char query[300];
        snprintf(query, sizeof query, "{ a: time | (a >= %lld and exists d: time exists t: trip stop(t, \"S7\", a, d)) }",
                 atoll(from) + turn);
        const char *const files[] = {"query", query, NULL};
        double took = ask(database, pack(words), pack(files));
        least = took < least ? took : least;
    }
    printf("decide\t%.1f\tms\n", 1e3 * least);
}

static double peak(void) {
    struct rusage used;
    getrusage(RUSAGE_SELF, &used);
    return (double)used.ru_maxrss / 1024;
}

int main(int count, char *const *arguments) {
    if (count != 5) {
        fail("DATABASE QUERY FROM TO are wanted");
    }
    const char *const least[] = {"decide", "db=db", "query=query", NULL};
    const char *const nothing[] = {"query", "{ | 0 = 1 }", NULL};
    struct fizhedul_database database = FIZHEDUL_NO_DATABASE;
    setvbuf(stdout, NULL, _IOLBF, 0);
    measure_run();
    struct packing query = read_file("query", arguments[2]), files = read_file("db", arguments[1]);
    double before = now();
    check(fizhedul_open(files.bytes, files.length, &database));
    printf("open\t%.1f\tms\n", 1e3 * (now() - before));
    free(files.bytes);
    printf("first question\t%.1f\tms\n", 1e3 * ask(&database, pack(least), pack(nothing)));
    printf("peak of reading\t%.1f\tMB\n", peak());
    measure_pages(&database, query, arguments + 3);
    measure_decide(&database, arguments[3]);
    printf("peak\t%.1f\tMB\n", peak());
    return fizhedul_close(&database);
}
