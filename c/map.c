/* Prints the page of a network file: map FILE [BYTES], where BYTES is the size of the page buffer. */
#include "hazhgiti.h"

#include <stdio.h>
#include <stdlib.h>
#include <string.h>

/* Reads a whole file; a file of no bytes still has a buffer of its own. */
static uint8_t *read_all(const char *name, size_t *length)
{
    FILE *in = fopen(name, "rb");
    uint8_t *bytes = NULL;
    size_t room = 0, got;

    *length = 0;
    if (in == NULL)
        return NULL;
    do {
        if (*length == room) {
            uint8_t *more = realloc(bytes, room = 2 * room + 4096);
            if (more == NULL) {
                free(bytes);
                fclose(in);
                return NULL;
            }
            bytes = more;
        }
        got = fread(bytes + *length, 1, room - *length, in);
        *length += got;
    } while (got > 0);
    fclose(in);
    return bytes;
}

/* Whether the bytes from a place on are as they were filled. */
static int untouched(const uint8_t *bytes, size_t from, size_t to)
{
    while (from < to)
        if (bytes[from++] != '#')
            return 0;
    return 1;
}

int main(int argc, char **argv)
{
    size_t room = argc > 2 ? strtoul(argv[2], NULL, 10) : HAZHGITI_MOST_BYTES;
    size_t length;
    uint8_t *file = argc > 1 ? read_all(argv[1], &length) : NULL;
    uint8_t *page = malloc(room > 0 ? room : 1);
    int64_t answer;

    if (file == NULL || page == NULL) {
        fprintf(stderr, "usage: map FILE [BYTES]\n");
        return 1;
    }
    memset(page, '#', room);
    answer = hazhgiti_map(file, length, page, room);
    if (answer < 0)
        printf("refused %lld\n", (long long)-answer);
    else
        fwrite(page, 1, (size_t)answer, stdout);
    if (!untouched(page, answer < 0 ? 0 : (size_t)answer, room)) {
        fprintf(stderr, "bytes behind the page were written\n");
        return 1;
    }
    free(page);
    free(file);
    return 0;
}
