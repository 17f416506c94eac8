/* Judges tapes by the library: a line for each name on standard input, its verdict, place, code and number of zeros, and the name.

       gcc -Wall -Wextra -Werror -I library library/example.c target/staticlib/liblab.a -o judge_c */
#include <stdio.h>
#include <stdlib.h>
#include <string.h>

#include "lab.h"

/* The bytes of a file and their number; at least one byte is there to point at. */
static uint8_t *file_bytes(const char *name, size_t *length)
{
    FILE *file = fopen(name, "rb");
    if (file == NULL || fseek(file, 0, SEEK_END) != 0)
        return NULL;
    long size = ftell(file);
    uint8_t *bytes = size < 0 ? NULL : malloc((size_t)size + 1);
    rewind(file);
    if (bytes == NULL || fread(bytes, 1, (size_t)size, file) != (size_t)size)
        return NULL;
    fclose(file);
    *length = (size_t)size;
    return bytes;
}

int main(void)
{
    const char *words[] = {"", "PASS", "FAIL", "INCONCLUSIVE", "UNREADABLE"};
    char name[4096];
    while (fgets(name, sizeof name, stdin) != NULL) {
        uint64_t finding[4];
        size_t length;
        name[strcspn(name, "\n")] = 0;
        uint8_t *tape = file_bytes(name, &length);
        if (tape == NULL) {
            perror(name);
            return 2;
        }
        lab_judge(tape, length, finding);
        printf("%s %s %llu %llu %llu\n", name, words[finding[0]], (unsigned long long)finding[1], (unsigned long long)finding[2],
               (unsigned long long)finding[3]);
        free(tape);
    }
    return 0;
}
