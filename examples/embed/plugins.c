/* Runs each plug-in of a folder, which nobody trusts, within limits, and prints a table of how each ended.

   usage: plugins FOLDER [STEPS]

   A plug-in is a file that ends in .ns. Whatever it does, it ends within its limits, reaches nothing but what a run is handed, and
   changes nothing for the next: each has a call of its own. The status is 0 where all calls found memory. */
#include "request.h"

#include <dirent.h>
#include <stdio.h>
#include <stdlib.h>
#include <string.h>

static const char *const STATUS[] = {"done", "error", "refused", "limit", "", "", "no memory", "malformed"};

static int is_source(const struct dirent *entry) {
    size_t length = strlen(entry->d_name);
    return length > 3 && !strcmp(entry->d_name + length - 3, ".ns");
}

/* The first line of a text, which is cut there. */
static char *first_line(uint8_t *text) {
    char *line = (char *)text;
    line[strcspn(line, "\n")] = 0;
    return line;
}

/* How many steps the run took, which its line of counters tells; -1 where nothing ran. */
static long long steps_of(const uint8_t *report) {
    long long steps = -1;
    const char *line = strstr((const char *)report, "used steps ");
    if (line) sscanf(line, "used steps %lld", &steps);
    return steps;
}

static enum nspk_status run(const char *folder, const char *name, const char *limit) {
    char path[4096];
    snprintf(path, sizeof path, "%s/%s", folder, name);
    struct request request = {0};
    add_word(&request, "run");
    add_word(&request, "--stats");
    add_word(&request, limit);
    add_word(&request, "--cells=20000");
    add_word(&request, "--depth=200");
    add_word(&request, "--out=100");
    add_word(&request, name);
    if (!add_file_at(&request, name, path)) {
        perror(path);
        exit(70);
    }
    struct answer answer = ask(&request);
    long long steps = steps_of(answer.err);
    unsigned long long bytes = answer.lengths.out;
    printf("%-12s %-9s %7lld %7llu  %s\n", name, STATUS[answer.status], steps, bytes, first_line(answer.err));
    enum nspk_status status = answer.status;
    free_answer(&answer);
    free_request(&request);
    return status;
}

int main(int count, char **words) {
    if (count < 2) {
        fputs("usage: plugins FOLDER [STEPS]\n", stderr);
        return 64;
    }
    char limit[64];
    snprintf(limit, sizeof limit, "--steps=%s", count > 2 ? words[2] : "10000");
    struct dirent **found;
    int entries = scandir(words[1], &found, is_source, alphasort);
    if (entries < 0) {
        perror(words[1]);
        return 70;
    }
    int had_memory = 1;
    printf("%-12s %-9s %7s %7s  %s\n", "plug-in", "ended", "steps", "bytes", "report");
    for (int i = 0; i < entries; i++) {
        if (run(words[1], found[i]->d_name, limit) == NSPK_MEMORY) had_memory = 0;
        free(found[i]);
    }
    free(found);
    return had_memory ? 0 : 1;
}
