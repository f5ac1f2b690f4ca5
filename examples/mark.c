/* Marks a sheet from C, and tells whether a second one does the same work.

     tools/build
     cc -I include examples/mark.c target/staticlib/liboatmist.a -o mark-c
     ./mark-c sheets/pair.sheet sheets/pair.sheet

   The exit status is 2 where a file cannot be read, and then nothing is marked, or where the answer cannot be written. */
#include "oatmist.h"
#include <stdio.h>
#include <stdlib.h>

/* One byte more than any sheet has, so that longer files are refused for their length. */
#define ROOM (OATMIST_LONGEST_SHEET + 1)
static uint8_t first[ROOM], second[ROOM];

/* Ends the program: what cannot be read or written, and why. */
static void stop(const char *what) {
    perror(what);
    exit(2);
}

/* The file's first bytes, and how many there are. */
static size_t load(const char *path, uint8_t *bytes) {
    FILE *file = fopen(path, "rb");
    if (!file)
        stop(path);
    size_t length = fread(bytes, 1, ROOM, file);
    if (ferror(file))
        stop(path);
    fclose(file);
    return length;
}

int main(int count, char **paths) {
    if (count != 3) {
        fprintf(stderr, "usage: %s SHEET SHEET\n", paths[0]);
        return 2;
    }
    size_t length = load(paths[1], first), other = load(paths[2], second);
    static uint8_t text[OATMIST_REPORT_ROOM];
    uint64_t answer;
    if (oatmist_report(first, length, text, sizeof text, &answer, 1) == 0)
        fwrite(text, 1, answer, stdout);
    uint64_t told = oatmist_same_work(first, length, second, other, &answer, 1);
    if (told)
        printf("pair refused %d %d of sheet %d\n", OATMIST_REFUSAL(told), OATMIST_STEP(told), OATMIST_SHEET(told));
    else
        printf("%s\n", answer ? "same work" : "other work");
    if (fflush(stdout) || ferror(stdout))
        stop("standard output");
    return 0;
}
