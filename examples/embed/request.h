/* A call of nspk, put together piece by piece, and what it gave. */
#ifndef REQUEST_H
#define REQUEST_H

#include "nspk.h"

/* Pieces one behind the other: first words, and then files. */
struct request {
    size_t words;
    size_t pieces, most_pieces;
    uint64_t *lengths;
    size_t used, room;
    uint8_t *bytes;
};

/* What a call gave. Each text has one byte more than its length, a zero. */
struct answer {
    enum nspk_status status;
    struct nspk_lengths lengths;
    uint8_t *out, *err, *stored;
};

/* Adds a word. All words come before the first file. */
void add_word(struct request *request, const char *word);

/* Adds a file of this name with this text. */
void add_file(struct request *request, const char *name, const void *text, size_t length);

/* Adds a file under the name `name`, with the text that stands at `path`; 0 where that can't be read. */
int add_file_at(struct request *request, const char *name, const char *path);

/* Calls, twice where the rooms of the first call were too small. */
struct answer ask(const struct request *request);

void free_request(struct request *request);
void free_answer(struct answer *answer);

#endif
