/*
 * Asks when a bus leaves that goes at minute 5 of every hour, and keeps its times for a second question:
 *   cc example.c $(pkg-config --cflags --libs fizhedul) && ./a.out
 */
#include <fizhedul.h>
#include <stdio.h>
#include <stdlib.h>

#define COUNT(texts) (sizeof(texts) / sizeof *(texts))

/* Byte strings one after the other, each after its length. */
struct packing {
    uint8_t *bytes;
    size_t length;
};

static struct packing pack(const char *const *texts, size_t count) {
    struct packing packing = {NULL, 0};
    for (size_t i = 0; i < count; i++) {
        packing.length += fizhedul_packed(strlen(texts[i]));
    }
    packing.bytes = malloc(packing.length + 1);
    uint8_t *place = packing.bytes;
    for (size_t i = 0; i < count && place != NULL; i++) {
        place = fizhedul_pack(place, texts[i], strlen(texts[i]));
    }
    return packing;
}

/* Prints what the words come to over an open database and the files of a query. */
static int ask(struct fizhedul_database *database, struct packing words, struct packing query) {
    uint8_t text[4096];
    size_t length;
    int status = fizhedul_ask(database, words.bytes, words.length, query.bytes, query.length, text, sizeof text, &length);
    fwrite(text, 1, length < sizeof text ? length : sizeof text, stdout);
    return status;
}

int main(void) {
    const char *const list[] = {"list", "db=bus.lrp", "query=trips.lrq", "from=0", "to=180"};
    const char *const decide[] = {"decide", "db=bus.lrp", "query=trips.lrq"};
    const char *const files[] = {"bus.lrp", "relation bus(t: time) { (5+60n); }\n"};
    const char *const asked[] = {"trips.lrq", "{ t: time | bus(t) }\n"};
    struct packing held = pack(files, COUNT(files)), query = pack(asked, COUNT(asked));
    struct packing words[] = {pack(list, COUNT(list)), pack(decide, COUNT(decide))};
    struct fizhedul_database database = FIZHEDUL_NO_DATABASE;
    int status = FIZHEDUL_MEMORY;
    if (held.bytes && query.bytes && words[0].bytes && words[1].bytes) {
        status = fizhedul_open(held.bytes, held.length, &database);
        for (size_t i = 0; i < COUNT(words) && status == FIZHEDUL_DONE; i++) {
            status = ask(&database, words[i], query);
        }
        fizhedul_close(&database);
    }
    free(held.bytes);
    free(query.bytes);
    free(words[0].bytes);
    free(words[1].bytes);
    return status;
}
