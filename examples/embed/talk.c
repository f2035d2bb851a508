/* Opens a plug-in within limits and asks it three times; then lets it spin in turns, and goes back to where it stood before.

   usage: talk LEDGER.ns

   The plug-in is granted nothing: it can compute and answer. The status is 0 where every call ended as it should. */
#include "request.h"

#include <stdio.h>
#include <stdlib.h>
#include <string.h>

/* A program that is open: the name that it was given, its bytes, and the value with which its run has ended. */
struct program {
    uint64_t name;
    uint8_t *bytes;
    size_t length;
    struct nspk_value value;
};

/* What a call gave: its status, what was told, and the room. */
struct reply {
    enum nspk_status status;
    struct nspk_told told;
    uint8_t *room;
    size_t length;
};

static size_t wanted(const struct nspk_told *told) {
    return told->program + told->printed + told->report + told->text;
}

/* A room for the parts that a call told of; 0 where the one that is there is large enough. */
static int grow(struct reply *reply) {
    if (wanted(&reply->told) <= reply->length) return 0;
    reply->length = wanted(&reply->told);
    reply->room = realloc(reply->room, reply->length);
    if (!reply->room) exit(70);
    return 1;
}

static struct reply first_room(void) {
    struct reply reply = {0};
    reply.length = 65536;
    reply.room = malloc(reply.length);
    if (!reply.room) exit(70);
    return reply;
}

/* The line of a reply that reports how the run has ended, or why nothing was done; a run that goes on has none. */
static void print_report(const char *what, const struct reply *reply) {
    const uint8_t *report = reply->room + reply->told.program + reply->told.printed;
    if (reply->told.report)
        printf("%-14s %.*s", what, (int)reply->told.report, (const char *)report);
    else
        printf("%-14s goes on\n", what);
}

/* Takes the program of a reply in place of the one that is there; where none was given that stays. */
static void keep(struct program *program, struct reply *reply) {
    if (reply->told.program) {
        free(program->bytes);
        program->bytes = reply->room;
        program->length = reply->told.program;
        program->value = reply->told.value;
    } else {
        free(reply->room);
    }
    reply->room = NULL;
}

/* The image of the one file of a program; exits where it is refused. */
static struct answer build(const char *path) {
    struct request request = {0};
    add_word(&request, "build");
    add_word(&request, "image");
    add_word(&request, path);
    if (!add_file_at(&request, path, path)) {
        perror(path);
        exit(70);
    }
    struct answer answer = ask(&request);
    free_request(&request);
    if (answer.status != NSPK_DONE) {
        fputs((const char *)answer.err, stderr);
        exit(answer.status);
    }
    return answer;
}

static enum nspk_status open_program(struct program *program, const struct nspk_terms *terms, const struct answer *image) {
    struct reply reply = first_room();
    do {
        reply.status = nspk_open(terms, &program->value, 0, (const uint8_t *)"", 0, image->stored, image->lengths.stored,
                                 reply.room, reply.length, &reply.told);
    } while (grow(&reply));
    print_report("open", &reply);
    keep(program, &reply);
    return reply.status;
}

/* Asks a value of the program by a selector, with one argument or none; `text` has its bytes where it is a text. */
static enum nspk_status ask_program(struct program *program, struct nspk_value receiver, const char *selector,
                                    const struct nspk_value *argument, const char *text, uint64_t steps, const char *what) {
    struct nspk_value values[2] = {receiver};
    if (argument) values[1] = *argument;
    struct reply reply = first_room();
    do {
        reply.status = nspk_ask(program->name, program->bytes, program->length, values, argument ? 2 : 1,
                                (const uint8_t *)text, strlen(text), (const uint8_t *)selector, strlen(selector), steps,
                                reply.room, reply.length, &reply.told);
    } while (grow(&reply));
    print_report(what, &reply);
    keep(program, &reply);
    return reply.status;
}

static enum nspk_status turn(struct program *program, uint64_t steps) {
    struct reply reply = first_room();
    do {
        reply.status = nspk_turn(program->name, program->bytes, program->length, steps, reply.room, reply.length,
                                 &reply.told);
    } while (grow(&reply));
    print_report("turn", &reply);
    keep(program, &reply);
    return reply.status;
}

int main(int count, char **words) {
    if (count != 2) {
        fputs("usage: talk LEDGER.ns\n", stderr);
        return 64;
    }
    struct answer image = build(words[1]);
    struct nspk_terms terms = {.name = 1, .steps = 10000, .cells = 10000, .depth = 100, .out = 1, .first_turn = UINT64_MAX};
    struct program ledger = {.name = 1};
    int good = open_program(&ledger, &terms, &image) == NSPK_DONE;
    struct nspk_value plugin = ledger.value;
    struct nspk_value three = {.kind = NSPK_INTEGER, .number = 3}, four = {.kind = NSPK_INTEGER, .number = 4};
    struct nspk_value name = {.kind = NSPK_TEXT, .number = 3};
    good &= ask_program(&ledger, plugin, "add:", &three, "", UINT64_MAX, "add: 3") == NSPK_DONE;
    good &= ask_program(&ledger, plugin, "add:", &four, "", UINT64_MAX, "add: 4") == NSPK_DONE;
    good &= ask_program(&ledger, plugin, "greet:", &name, "Ada", UINT64_MAX, "greet: 'Ada'") == NSPK_DONE;
    /* A copy of the bytes is the program as it stands now. */
    struct program before = ledger;
    before.bytes = malloc(ledger.length);
    if (!before.bytes) exit(70);
    memcpy(before.bytes, ledger.bytes, ledger.length);
    good &= ask_program(&ledger, plugin, "spin", NULL, "", 100, "spin") == NSPK_DONE;
    good &= ask_program(&ledger, plugin, "add:", &three, "", UINT64_MAX, "add: 3") == NSPK_REFUSED;
    good &= turn(&ledger, UINT64_MAX) == NSPK_LIMIT;
    good &= ask_program(&before, plugin, "add:", &three, "", UINT64_MAX, "add: 3") == NSPK_DONE;
    /* A handle of another program is refused. */
    plugin.program = 2;
    good &= ask_program(&before, plugin, "add:", &three, "", UINT64_MAX, "add: 3") == NSPK_REFUSED;
    free(before.bytes);
    free(ledger.bytes);
    free_answer(&image);
    return good ? 0 : 1;
}
