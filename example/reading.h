/* What the examples share: a product read from a file, a number among the arguments, a refusal in words, and output
 * that is told where it cannot be written. */
#ifndef READING_H
#define READING_H

#include "ambrothel.h"

#include <inttypes.h>
#include <stdio.h>
#include <stdlib.h>

/* The whole file, or NULL with a message. The room is never empty, so that there is a pointer to lend. */
static inline uint8_t *read_file(const char *name, size_t *length)
{
    FILE *file = fopen(name, "rb");
    if (file == NULL) {
        perror(name);
        return NULL;
    }
    size_t room = 65536;
    uint8_t *bytes = (uint8_t *)malloc(room);
    *length = 0;
    while (bytes != NULL) {
        *length += fread(bytes + *length, 1, room - *length, file);
        if (*length < room) {
            break;
        }
        room *= 2;
        uint8_t *more = (uint8_t *)realloc(bytes, room);
        if (more == NULL) {
            free(bytes);
        }
        bytes = more;
    }
    if (bytes == NULL || ferror(file)) {
        perror(name);
        free(bytes);
        bytes = NULL;
    }
    fclose(file);
    return bytes;
}

/* A number of decimal digits and nothing else, that a size_t holds; or a message. */
static inline int read_number(const char *program, const char *text, size_t *number)
{
    *number = 0;
    for (const char *at = text; *at != '\0' || at == text; at++) {
        const size_t digit = (size_t)(*at - '0');
        if (*at < '0' || *at > '9' || *number > (SIZE_MAX - digit) / 10) {
            fprintf(stderr, "%s: '%s' is not a number of 0 to %zu\n", program, text, SIZE_MAX);
            return 0;
        }
        *number = 10 * *number + digit;
    }
    return 1;
}

/* Says what is refused, if something is. */
static inline int is_refused(const uint64_t *words, FILE *out)
{
    const uint64_t number = words[AMBROTHEL_REFUSAL_NUMBER];
    if (number == AMBROTHEL_NOT_REFUSED) {
        return 0;
    }
    fprintf(out, "refused %" PRIu64 " at %" PRIu64 ", entry %" PRIu64 ": %s\n", number, words[AMBROTHEL_REFUSAL_PLACE],
            words[AMBROTHEL_REFUSAL_ENTRY], ambrothel_refusal_text(number));
    return 1;
}

/* The status, or 2 with a message where the output cannot be written. */
static inline int closed_output(const char *program, int status)
{
    if (fclose(stdout) != 0) {
        fprintf(stderr, "%s: ", program);
        perror("standard output");
        return 2;
    }
    return status;
}

#endif
