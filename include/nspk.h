/* The program nspk in the caller's process: one call over memory, and three on programs that the caller keeps as bytes. They read
   and write no file and no stream, and keep no pointer. */
#ifndef NSPK_H
#define NSPK_H

#include <stddef.h>
#include <stdint.h>

#ifdef __cplusplus
extern "C" {
#endif

/* How a call ended. No call ends with 4 or 5, with which the command tells of files and streams that failed. */
enum nspk_status {
    NSPK_DONE = 0,          /* the command did what it was asked to */
    NSPK_PROGRAM_ERROR = 1, /* the program that ran ended in an error; or an audit, a test or --true wasn't passed */
    NSPK_REFUSED = 2,       /* the words, a file, its text, a size, an image or a snapshot were refused */
    NSPK_LIMIT = 3,         /* the program that ran met a limit */
    NSPK_MEMORY = 6,        /* no memory was found; nothing was given */
    NSPK_MALFORMED = 7      /* the lengths don't divide the bytes, or a word isn't UTF-8; nothing was given */
};

/* How many bytes there are for each room. */
struct nspk_lengths {
    uint64_t out;    /* what the command writes to standard output */
    uint64_t err;    /* what the command writes to standard error */
    uint64_t stored; /* what `build` and `snap` store; 0 where nothing is stored */
};

/* Carries out a command over files in memory.

   What is asked for. `bytes` holds pieces, one behind the other; lengths[i] is the length of piece i, in bytes, and `pieces` is how
   many there are. The first `words` pieces are the words of the command, as on a command line but without the name of the program,
   in UTF-8. The others are the files that it finds: by twos a name and a text. Of two files of one name the first counts.
   All lengths together are `bytes_count`.

   What is given. The first bytes of what the command writes to standard output are put into `out`, as many as `out_room`, and
   likewise what it writes to standard error into `err`, and what it stores into `stored`; the words say under which name that is
   to be stored. `told` becomes the lengths of all of it, also where a room is smaller: then call again with rooms of these
   lengths, and the same comes again. What stands in a room behind what was given stays as it is. With NSPK_MEMORY and
   NSPK_MALFORMED the rooms stay as they are, and the three lengths are 0.

   Ownership. All that is passed stays the caller's. Nothing is kept, and what the call allocates it frees, by malloc, realloc and
   free. No pointer may be null, also where its length is 0, and no two regions that are passed may overlap. Calls share no state:
   threads may call at the same time. Don't call from a signal handler, or in a child that was forked while there were threads. */
uint8_t nspk_call(size_t words,
                  const uint64_t *lengths, size_t pieces,
                  const uint8_t *bytes, size_t bytes_count,
                  uint8_t *out, size_t out_room,
                  uint8_t *err, size_t err_room,
                  uint8_t *stored, size_t stored_room,
                  struct nspk_lengths *told);

/* Programs that are asked again and again. A program is kept by its host, as bytes: its code, its state, its limits and what it
   was granted, which is what `snap` stores too. Each call takes these bytes and gives new ones, and leaves the old ones as they
   are; so a host that keeps them can go back. The calls end with the statuses above. Nothing but the bytes matters: the same comes
   of them in any thread, process or machine. */

/* A value, by its kind and a number. */
struct nspk_value {
    uint64_t kind;    /* one of the kinds below */
    int64_t number;   /* the integer; which symbol, class or object; how many bytes the text has; and else 0 */
    uint64_t program; /* the name that its host gave to the program that it is of */
};

enum nspk_kind {
    NSPK_NIL = 0,
    NSPK_TRUE = 1,
    NSPK_FALSE = 2,
    NSPK_INTEGER = 3,
    NSPK_SYMBOL = 4, /* told by a program, and handed to that program alone */
    NSPK_CLASS = 5,  /* a class of the kernel: 0 is Object, 1 is Array */
    NSPK_OBJECT = 6, /* told by a program, and handed to that program alone */
    NSPK_TEXT = 7,   /* handed over alone: its bytes lie among the texts, and become a String of the program */
    NSPK_NO_VALUE = 8 /* told alone: the run goes on, or has ended without a value */
};

/* What a program is opened with. */
struct nspk_terms {
    uint64_t name;                    /* what the host calls it; give each program its own name, and handles of others are refused */
    uint64_t steps, cells, depth, out; /* the limits, as those of the command; they hold for all calls together */
    uint64_t console, kernel, mirrors; /* what it is granted, where this isn't 0 */
    uint64_t first_turn;              /* the steps of the first turn */
};

/* What a call tells beside its status. */
struct nspk_told {
    uint64_t program, printed, report, text; /* the lengths of the parts of the room, in this order */
    struct nspk_value value;                 /* the value with which the run ended */
    uint64_t steps, cells, depth, out;       /* what it has used of its limits, all calls together */
};

/* Each call gives into `room`, one part behind the other: the bytes of the program as it stands then; what it printed in this
   call; the line that reports how its run has ended, if it has; and the bytes of its value, where that is a String or a Symbol.
   Where the room is smaller than the four lengths together the first bytes are given: call again with the same program and a
   larger room, and the same comes again. Where a call ended with NSPK_REFUSED, or with NSPK_LIMIT because there was no room for
   texts, no program is given, the report says why in a word, and the old bytes are the program still. With NSPK_MEMORY and
   NSPK_MALFORMED the room stays as it is, the lengths are 0 and there is no value. A run that goes on ends its turn with NSPK_DONE
   and NSPK_NO_VALUE. What is said of ownership, null and threads at nspk_call holds of these calls too. */

/* Opens the program of an image, which nspk_call makes of sources with the command `build`. The arguments are of the kind
   NSPK_TEXT, and `texts` has their bytes, one behind the other; anything else is NSPK_MALFORMED. Refusals: NotAnImage, BadLimits,
   TooLarge. */
uint8_t nspk_open(const struct nspk_terms *terms,
                  const struct nspk_value *arguments, size_t count,
                  const uint8_t *texts, size_t texts_length,
                  const uint8_t *image, size_t image_length,
                  uint8_t *room, size_t room_length,
                  struct nspk_told *told);

/* Asks the program of that name: sends `selector` to the first of the values, with the others as arguments, and gives it a turn of
   so many steps. `texts` has the bytes of those of the kind NSPK_TEXT; each costs cells as any String does. NSPK_MALFORMED comes
   where there is no receiver, a kind or a number is none, or the texts don't come to all of the bytes. Refusals: OtherProgram (a
   symbol or an object has another name), NotAProgram (the bytes), MayNotAsk (a run goes on or has ended without a value, an object
   isn't there, or no such selector of as many arguments is in the program), TooLarge. */
uint8_t nspk_ask(uint64_t name,
                 const uint8_t *program, size_t program_length,
                 const struct nspk_value *values, size_t count,
                 const uint8_t *texts, size_t texts_length,
                 const uint8_t *selector, size_t selector_length,
                 uint64_t steps,
                 uint8_t *room, size_t room_length,
                 struct nspk_told *told);

/* Gives the program of that name a turn of so many steps; with 0 it only tells how the program stands. Refusals: NotAProgram,
   TooLarge. */
uint8_t nspk_turn(uint64_t name,
                  const uint8_t *program, size_t program_length,
                  uint64_t steps,
                  uint8_t *room, size_t room_length,
                  struct nspk_told *told);

#ifdef __cplusplus
}
#endif

#endif
