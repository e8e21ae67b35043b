/* How much stack a call takes on the products named: less than AMBROTHEL_STACK bytes.
 *
 *     stack PRODUCT ..
 *
 * A call runs on a stack of its own that is filled with a pattern; what is not the pattern afterwards was used. */
#define _XOPEN_SOURCE 700
#include "ambrothel.h"

#include <stdio.h>
#include <stdlib.h>
#include <string.h>
#include <ucontext.h>

#define ROOM 65536
#define CALLS 12
#define PATTERN 0xa5

static const uint8_t TEXT[] = "31-DEC-2099 23:59:59.999999";
static uint8_t product[ROOM];
static size_t length;
static int asked;
static uint64_t words[AMBROTHEL_DIRECTORY_WORDS];
static uint8_t bytes[ROOM];
static double point[AMBROTHEL_POINT_DOUBLES];
static uint8_t stack[2 * AMBROTHEL_STACK];
static ucontext_t caller;
static ucontext_t callee;

static void call(void)
{
    const size_t room = AMBROTHEL_DIRECTORY_WORDS;
    switch (asked) {
    case 0: ambrothel_judge(product, length, words, room); break;
    case 1: ambrothel_open_directory(product, length, words, room, bytes, ROOM); break;
    case 2: ambrothel_header_values(product, length, words, room, bytes, ROOM); break;
    case 3: ambrothel_sph_place(product, length, words, room); break;
    case 4: ambrothel_sph_part(product, length, words, room, bytes, ROOM); break;
    case 5: ambrothel_record_place(product, length, 0, 0, words, room); break;
    case 6: ambrothel_record_part(product, length, 0, 0, words, room, bytes, ROOM); break;
    case 7: ambrothel_field_at(product, length, 0, 0, 0, AMBROTHEL_KIND_MJD, words, room); break;
    case 8: ambrothel_point_at(product, length, 0, 0, 0, 4, 8, words, room, point, AMBROTHEL_POINT_DOUBLES); break;
    case 9: ambrothel_extinction_at(product, length, 0, 0, words, room, point, AMBROTHEL_POINT_DOUBLES); break;
    case 10: ambrothel_time_of_text(TEXT, AMBROTHEL_TIME_TEXT_LENGTH, words, room); break;
    default: ambrothel_text_of_time(36524, 86399, 999999, words, room, bytes, ROOM);
    }
}

/* The stack that the call asked for takes. */
static size_t taken(void)
{
    size_t untouched = 0;
    memset(stack, PATTERN, sizeof stack);
    if (getcontext(&callee) != 0) {
        perror("getcontext");
        exit(1);
    }
    callee.uc_stack.ss_sp = stack;
    callee.uc_stack.ss_size = sizeof stack;
    callee.uc_link = &caller;
    makecontext(&callee, call, 0);
    if (swapcontext(&caller, &callee) != 0) {
        perror("swapcontext");
        exit(1);
    }
    while (untouched < sizeof stack && stack[untouched] == PATTERN) {
        untouched++;
    }
    return sizeof stack - untouched;
}

static size_t most_taken(const char *name)
{
    size_t most = 0;
    FILE *file = fopen(name, "rb");
    if (file == NULL) {
        perror(name);
        exit(1);
    }
    length = fread(product, 1, ROOM, file);
    fclose(file);
    for (asked = 0; asked < CALLS; asked++) {
        const size_t now = taken();
        most = now > most ? now : most;
    }
    return most;
}

int main(int count, char **arguments)
{
    size_t most = 0;
    for (int i = 1; i < count; i++) {
        const size_t now = most_taken(arguments[i]);
        most = now > most ? now : most;
    }
    printf("a call took up to %zu bytes of stack, of %d\n", most, AMBROTHEL_STACK);
    return most > 0 && most < AMBROTHEL_STACK ? 0 : 1;
}
