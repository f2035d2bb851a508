/* Carries out a command of nspk inside of this process.

   usage: host WORD .. [--files FILE ..] [--stored FILE]

   The words are those of the command nspk. The files are read here, and the call sees their bytes alone, under the names that are
   given here; what the command stores is written here, into the file behind --stored. The status is that of the call, or 70
   where a file can't be read or written. */
#include "request.h"

#include <stdio.h>
#include <string.h>

enum { HOST_FAULT = 70 };

static int is_option(const char *word) {
    return !strcmp(word, "--files") || !strcmp(word, "--stored");
}

static int write_file(const char *path, const uint8_t *bytes, size_t length) {
    FILE *file = fopen(path, "wb");
    if (!file) return 0;
    int good = fwrite(bytes, 1, length, file) == length;
    return fclose(file) == 0 && good;
}

int main(int count, char **words) {
    struct request request = {0};
    const char *stored = NULL;
    int at = 1;
    while (at < count && !is_option(words[at])) add_word(&request, words[at++]);
    if (at < count && !strcmp(words[at], "--files")) {
        for (at++; at < count && !is_option(words[at]); at++) {
            if (!add_file_at(&request, words[at], words[at])) {
                perror(words[at]);
                return HOST_FAULT;
            }
        }
    }
    if (at + 1 < count && !strcmp(words[at], "--stored")) stored = words[at + 1];

    struct answer answer = ask(&request);
    fwrite(answer.out, 1, answer.lengths.out, stdout);
    fwrite(answer.err, 1, answer.lengths.err, stderr);
    int status = answer.status;
    if (stored && answer.lengths.stored && !write_file(stored, answer.stored, answer.lengths.stored)) {
        perror(stored);
        status = HOST_FAULT;
    }
    free_answer(&answer);
    free_request(&request);
    return status;
}
