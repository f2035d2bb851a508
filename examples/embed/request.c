/* A call of nspk, put together piece by piece, and what it gave. */
#include "request.h"

#include <stdio.h>
#include <stdlib.h>
#include <string.h>

/* How large the rooms of the first call are. */
enum { FIRST_ROOM = 4096 };

static void *resized(void *old, size_t size) {
    void *made = realloc(old, size);
    if (!made) {
        fputs("no memory\n", stderr);
        exit(NSPK_MEMORY);
    }
    return made;
}

static void add_piece(struct request *request, const void *piece, size_t length) {
    if (request->pieces == request->most_pieces) {
        request->most_pieces = 2 * request->most_pieces + 16;
        request->lengths = resized(request->lengths, request->most_pieces * sizeof *request->lengths);
    }
    if (request->room - request->used < length) {
        request->room = 2 * request->room + length;
        request->bytes = resized(request->bytes, request->room);
    }
    if (length) memcpy(request->bytes + request->used, piece, length);
    request->used += length;
    request->lengths[request->pieces++] = length;
}

void add_word(struct request *request, const char *word) {
    add_piece(request, word, strlen(word));
    request->words++;
}

void add_file(struct request *request, const char *name, const void *text, size_t length) {
    add_piece(request, name, strlen(name));
    add_piece(request, text, length);
}

int add_file_at(struct request *request, const char *name, const char *path) {
    FILE *file = fopen(path, "rb");
    if (!file) return 0;
    uint8_t *text = NULL;
    size_t used = 0, room = 0, got;
    do {
        room = 2 * room + 65536;
        text = resized(text, room);
        got = fread(text + used, 1, room - used, file);
        used += got;
    } while (used == room);
    int good = !ferror(file);
    fclose(file);
    if (good) add_file(request, name, text, used);
    free(text);
    return good;
}

static enum nspk_status call(const struct request *request, struct answer *answer, const struct nspk_lengths *rooms) {
    static const uint64_t no_lengths[1];
    static const uint8_t no_bytes[1];
    answer->out = resized(answer->out, rooms->out + 1);
    answer->err = resized(answer->err, rooms->err + 1);
    answer->stored = resized(answer->stored, rooms->stored + 1);
    return nspk_call(request->words,
                     request->pieces ? request->lengths : no_lengths, request->pieces,
                     request->used ? request->bytes : no_bytes, request->used,
                     answer->out, rooms->out, answer->err, rooms->err, answer->stored, rooms->stored, &answer->lengths);
}

struct answer ask(const struct request *request) {
    struct nspk_lengths rooms = {FIRST_ROOM, FIRST_ROOM, FIRST_ROOM};
    struct answer answer = {0};
    answer.status = call(request, &answer, &rooms);
    struct nspk_lengths *told = &answer.lengths;
    if (told->out > rooms.out || told->err > rooms.err || told->stored > rooms.stored) {
        rooms = *told;
        answer.status = call(request, &answer, &rooms);
    }
    answer.out[told->out] = answer.err[told->err] = answer.stored[told->stored] = 0;
    return answer;
}

void free_request(struct request *request) {
    free(request->lengths);
    free(request->bytes);
}

void free_answer(struct answer *answer) {
    free(answer->out);
    free(answer->err);
    free(answer->stored);
}
