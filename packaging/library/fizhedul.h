/*
 * Fizhedul as a library: exact queries over relations that repeat for ever.
 *
 * A call is given words, as the program 'fizhedul' is, and files, which lie in memory: nothing is opened or printed, and
 * nothing is kept but what fizhedul_open is given. Words and files are each handed over as one string of bytes, a packing.
 * A packing is byte strings one after the other, each after its length, which is eight bytes with the lowest first:
 *
 *   words   each word in turn: "ask", "db=line.lrp", "query=trips.lrq" (without the program's name)
 *   files   of each file its name and then its bytes, named as in the words: "line.lrp", "relation bus .."
 *
 * Words and names are UTF-8. A packing of nothing has no bytes. Of two files of one name the first one counts.
 *
 * No pointer may be null, not even one to no bytes. What a call writes to may not overlap what it is given. Calls share
 * nothing, so threads may make them at the same time.
 */
#ifndef FIZHEDUL_H
#define FIZHEDUL_H

#include <stddef.h>
#include <stdint.h>
#include <string.h>

#ifdef __cplusplus
extern "C" {
#endif

/* How a call ends. All but FIZHEDUL_CLOSED are statuses of the program. */
enum fizhedul_status {
    FIZHEDUL_DONE = 0,        /* the text is the answer */
    FIZHEDUL_USAGE = 2,       /* the words are no command */
    FIZHEDUL_DATABASE = 3,    /* the database, or the edits, are too long or have a fault */
    FIZHEDUL_QUERY = 4,       /* the query is too long or has a fault, or a token doesn't belong to it */
    FIZHEDUL_LIMIT = 5,       /* a limit on periods, bounds or cells */
    FIZHEDUL_READ = 6,        /* a file that the words name isn't among the files */
    FIZHEDUL_WRITE = 7,       /* memory was refused while the text was written: a front of it is told */
    FIZHEDUL_MEMORY = 8,      /* memory was refused; the text says so, or there is none */
    FIZHEDUL_UNREADABLE = 10, /* the words or the files aren't packed, or a word or a name isn't UTF-8; there is no text */
    FIZHEDUL_CLOSED = 11      /* no database is open; there is no text */
};

/*
 * Does what the words say, over these files alone, and gives the status. The text is what the program would write: an
 * answer, or the line of a refusal. As many of its bytes as there is room for are written to 'text', without a zero
 * byte after them, and 'length' is set to the number of all of them. Where it is greater than 'room', a call with more
 * room tells all. No byte of 'text' after those is touched.
 */
int32_t fizhedul_run(const uint8_t *words, size_t words_length, const uint8_t *files, size_t files_length,
                     uint8_t *text, size_t room, size_t *length);

/*
 * Files that are kept from one call to the next. It begins as FIZHEDUL_NO_DATABASE, and what is in it is the library's:
 * nothing else reads or changes it, and it isn't copied while it is open. It is for one thread at a time; a lock or the
 * like stands between the calls of two threads. Threads may use two databases at the same time.
 */
struct fizhedul_database {
    uint8_t is_open;
    void *memory;
};

#define FIZHEDUL_NO_DATABASE {0, NULL}

/*
 * Keeps a packing of files, and gives 0, or FIZHEDUL_MEMORY or FIZHEDUL_UNREADABLE; the database is then as it was. What was
 * open in it before is closed.
 */
int32_t fizhedul_open(const uint8_t *files, size_t files_length, struct fizhedul_database *database);

/*
 * What fizhedul_run does for the same words over these files in front of those that are kept. The first question of a database
 * among those that are kept reads it, and it is kept for the next one, as the answers of a page are for the next page.
 */
int32_t fizhedul_ask(struct fizhedul_database *database, const uint8_t *words, size_t words_length, const uint8_t *files,
                     size_t files_length, uint8_t *text, size_t room, size_t *length);

/* Lets go of the files. A database that isn't open, as one that was closed before, is told: FIZHEDUL_CLOSED. */
int32_t fizhedul_close(struct fizhedul_database *database);

/* The bytes that a byte string of this length takes in a packing. */
static inline size_t fizhedul_packed(size_t length) {
    return 8 + length;
}

/* Writes a byte string to this place of a packing, which has fizhedul_packed(length) bytes, and gives the place after. */
static inline uint8_t *fizhedul_pack(uint8_t *place, const void *bytes, size_t length) {
    for (int i = 0; i < 8; i++) {
        place[i] = (uint8_t)((uint64_t)length >> (8 * i));
    }
    if (length > 0) {
        memcpy(place + 8, bytes, length);
    }
    return place + 8 + length;
}

#ifdef __cplusplus
}
#endif

#endif
