/* Calls of the library in which each request for memory is refused in turn, alone and with all later ones. Reads the
   packings of words and of files from the files of these names, and where a third one is named, of files that are kept.
   Ends with 0 where each call answered as a run does, or that memory was refused, and gave all its memory back; a
   database whose call failed answers the next one. It is linked with --wrap=malloc,--wrap=realloc,--wrap=free, so that
   the library's requests come here. */
#include <fizhedul.h>
#include <stdio.h>
#include <stdlib.h>

#define ROOM 65536
#define MOST 100000

void *__real_malloc(size_t size);
void *__real_realloc(void *old, size_t size);
void __real_free(void *block);

static long asked, wanted, held;
static int to_the_end, was_refused;

static int refuses(void) {
    asked++;
    int refused = wanted > 0 && (asked == wanted || (to_the_end && asked > wanted));
    was_refused |= refused;
    return refused;
}

void *__wrap_malloc(size_t size) {
    void *given = refuses() ? NULL : __real_malloc(size);
    held += given != NULL;
    return given;
}

void *__wrap_realloc(void *old, size_t size) {
    return refuses() ? NULL : __real_realloc(old, size);
}

void __wrap_free(void *block) {
    held -= block != NULL;
    __real_free(block);
}

static size_t read_whole(const char *name, uint8_t *to) {
    FILE *file = fopen(name, "rb");
    size_t count = file ? fread(to, 1, ROOM, file) : 0;
    if (file) {
        fclose(file);
    }
    return count;
}

struct packing {
    uint8_t bytes[ROOM];
    size_t length;
};

static struct packing words, files, kept, all, whole, told;
static int32_t whole_status;

/* Whether a call answered as the run did, or that memory was refused. */
static int is_right(int32_t status) {
    int is_whole = status == whole_status && told.length == whole.length && memcmp(told.bytes, whole.bytes, told.length) == 0;
    int is_told = status == FIZHEDUL_MEMORY && (told.length == 0 || memcmp(told.bytes, "refused: memory\n", told.length) == 0);
    int is_front = status == FIZHEDUL_WRITE && told.length <= whole.length && memcmp(told.bytes, whole.bytes, told.length) == 0;
    return is_whole || is_told || is_front;
}

static int32_t ask(struct fizhedul_database *database) {
    return fizhedul_ask(database, words.bytes, words.length, files.bytes, files.length, told.bytes, ROOM, &told.length);
}

/* Whether a run answers rightly. */
static int runs(void) {
    return is_right(fizhedul_run(words.bytes, words.length, files.bytes, files.length, told.bytes, ROOM, &told.length));
}

/* Whether a database that is opened does, when it is asked, asked again, and asked at last with all memory there is. */
static int keeps(void) {
    struct fizhedul_database database = FIZHEDUL_NO_DATABASE;
    int32_t status = fizhedul_open(kept.bytes, kept.length, &database);
    if (status != FIZHEDUL_DONE) {
        return status == FIZHEDUL_MEMORY && fizhedul_close(&database) == FIZHEDUL_CLOSED;
    }
    int right = is_right(ask(&database)) && is_right(ask(&database));
    long refused = wanted;
    wanted = 0;
    right = right && ask(&database) == whole_status && is_right(whole_status);
    wanted = refused;
    return right && fizhedul_close(&database) == FIZHEDUL_DONE;
}

int main(int count, char **names) {
    if (count != 3 && count != 4) {
        return 2;
    }
    words.length = read_whole(names[1], words.bytes);
    files.length = read_whole(names[2], files.bytes);
    kept.length = count == 4 ? read_whole(names[3], kept.bytes) : 0;
    memcpy(all.bytes, files.bytes, files.length);
    memcpy(all.bytes + files.length, kept.bytes, kept.length);
    all.length = files.length + kept.length;
    whole_status = fizhedul_run(words.bytes, words.length, all.bytes, all.length, whole.bytes, ROOM, &whole.length);
    for (wanted = 1, was_refused = 1; wanted < MOST && was_refused; wanted++) {
        for (to_the_end = 0, was_refused = 0; to_the_end < 2; to_the_end++) {
            long before = held;
            asked = 0;
            if (!(count == 4 ? keeps() : runs()) || held != before) {
                printf("request %ld refused%s: %zu bytes told, %ld blocks kept\n", wanted,
                       to_the_end ? " with all later ones" : "", told.length, held - before);
                return 1;
            }
        }
    }
    printf("%ld\n", wanted);
    return 0;
}
