/*
 * Judges a file of records, a line each: example FILE. Prints each answer, and ends with 1 where one was refused.
 *
 *     cc -o example example.c libbb.a && ./example records.txt
 */
#include "bb.h"

#include <inttypes.h>
#include <stdio.h>
#include <stdlib.h>
#include <string.h>

/* Prints an answer as `bb check` does, except for the table, which is as the record has it. */
static int print(const char *line, const struct bb_answer *a) {
    int table = (int)strcspn(line, " ");
    switch (a->outcome) {
    case BB_HALTS:
        printf("%.*s halts %" PRIu64, table, line, a->steps);
        if (a->has_ones) printf(" ones %" PRIu64, a->ones);
        break;
    case BB_NEVER: printf("%.*s never", table, line); break;
    case BB_UNDECIDED: printf("%.*s undecided", table, line); break;
    case BB_REFUSED:
        printf("refused %" PRIu32, a->code);
        if (a->table_code) printf(" %" PRIu32, a->table_code);
        if (a->has_place) printf(" %" PRIu64, a->place);
        break;
    default: printf("out of memory");
    }
    printf("\n");
    return a->outcome >= BB_REFUSED;
}

int main(int argc, char **argv) {
    FILE *file = argc == 2 ? fopen(argv[1], "rb") : NULL;
    if (!file || bb_version() != BB_VERSION) {
        fprintf(stderr, "example FILE, with the library of this bb.h\n");
        return 2;
    }
    char *line = NULL;
    size_t room = 0;
    ssize_t length;
    int refused = 0;
    while ((length = getline(&line, &room, file)) >= 0) {
        if (length > 0 && line[length - 1] == '\n') line[--length] = 0;
        struct bb_answer answer;
        bb_check((const unsigned char *)line, (size_t)length, &answer);
        refused |= print(line, &answer);
    }
    free(line);
    fclose(file);
    return refused;
}
