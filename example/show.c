/* Shows a product: its directory, and one record's bytes read as each kind of field.
 *
 *     show PRODUCT [ENTRY RECORD]
 *
 * Without ENTRY and RECORD it is record 0 of entry 0. The exit status is 0; 1 where something is refused; 2 where the
 * arguments are wrong, the product cannot be read or the output cannot be written. */
#include "ambrothel.h"
#include "reading.h"

#include <inttypes.h>
#include <stdio.h>
#include <stdlib.h>
#include <string.h>

static const char *const KIND_NAMES[] = {"", "sc", "uc", "ss", "us", "sl", "ul", "fl", "do", "mjd"};

static void print_entry(size_t i, const uint64_t *words, const char *texts)
{
    const char *name = texts + AMBROTHEL_DIRECTORY_NAMES + AMBROTHEL_DIRECTORY_NAME_LENGTH * i;
    if (words[AMBROTHEL_DIRECTORY_TYPES + i] == ' ') {
        printf("entry %zu: spare\n", i);
        return;
    }
    printf("entry %zu: type %c, %.*s offset %" PRIu64 ", size %" PRIu64 ", records %" PRIu64 " of %" PRId64 " bytes",
           i, (char)words[AMBROTHEL_DIRECTORY_TYPES + i], AMBROTHEL_DIRECTORY_NAME_LENGTH, name,
           words[AMBROTHEL_DIRECTORY_OFFSETS + i], words[AMBROTHEL_DIRECTORY_SIZES + i],
           words[AMBROTHEL_DIRECTORY_COUNTS + i], (int64_t)words[AMBROTHEL_DIRECTORY_RECORD_SIZES + i]);
    if (words[AMBROTHEL_DIRECTORY_RANKS + i] != AMBROTHEL_NO_RANK) {
        printf(", rank %" PRIu64, words[AMBROTHEL_DIRECTORY_RANKS + i]);
    }
    putchar('\n');
}

static int show_directory(const uint8_t *product, size_t length)
{
    static uint64_t words[AMBROTHEL_DIRECTORY_WORDS];
    static uint8_t texts[AMBROTHEL_DIRECTORY_TEXTS];
    if (ambrothel_open_directory(product, length, words, AMBROTHEL_DIRECTORY_WORDS, texts, AMBROTHEL_DIRECTORY_TEXTS)) {
        return 1;
    }
    if (is_refused(words, stdout)) {
        return 1;
    }
    for (size_t i = 0; i < words[AMBROTHEL_DIRECTORY_ENTRIES]; i++) {
        print_entry(i, words, (const char *)texts);
    }
    return 0;
}

/* A time's three numbers, and behind them its text or why it has none. */
static int print_time(const uint64_t *field)
{
    const int32_t days = (int32_t)(int64_t)field[AMBROTHEL_FIELD_DAYS];
    const uint32_t seconds = (uint32_t)field[AMBROTHEL_FIELD_SECONDS];
    const uint32_t microseconds = (uint32_t)field[AMBROTHEL_FIELD_MICROSECONDS];
    uint64_t words[AMBROTHEL_TIME_TEXT_WORDS];
    uint8_t text[AMBROTHEL_TIME_TEXT_LENGTH];
    if (ambrothel_text_of_time(days, seconds, microseconds, words, AMBROTHEL_TIME_TEXT_WORDS, text,
                               AMBROTHEL_TIME_TEXT_LENGTH)) {
        return 1;
    }
    printf("day %" PRId32 ", second %" PRIu32 ", microsecond %" PRIu32 ": ", days, seconds, microseconds);
    if (words[AMBROTHEL_REFUSAL_NUMBER] == AMBROTHEL_NOT_REFUSED) {
        printf("%.*s\n", AMBROTHEL_TIME_TEXT_LENGTH, (const char *)text);
    } else {
        printf("%s\n", ambrothel_refusal_text(words[AMBROTHEL_REFUSAL_NUMBER]));
    }
    return 0;
}

static int print_field(size_t kind, const uint64_t *words)
{
    uint32_t single_bits = (uint32_t)words[AMBROTHEL_FIELD_BITS];
    float single_value;
    double double_value;
    printf("  %-3s ", KIND_NAMES[kind]);
    switch (words[AMBROTHEL_FIELD_CASE]) {
    case AMBROTHEL_CASE_WHOLE:
        printf("%" PRId64 "\n", (int64_t)words[AMBROTHEL_FIELD_NUMBER]);
        break;
    case AMBROTHEL_CASE_SINGLE:
        memcpy(&single_value, &single_bits, sizeof single_value);
        printf("%.9g\n", (double)single_value);
        break;
    case AMBROTHEL_CASE_DOUBLE:
        memcpy(&double_value, &words[AMBROTHEL_FIELD_BITS], sizeof double_value);
        printf("%.17g\n", double_value);
        break;
    default:
        return print_time(words);
    }
    return 0;
}

/* Each kind of field at the record's first byte. */
static int show_record(const uint8_t *product, size_t length, size_t entry, size_t record)
{
    uint64_t place[AMBROTHEL_PLACE_WORDS];
    if (ambrothel_record_place(product, length, entry, record, place, AMBROTHEL_PLACE_WORDS) ||
        is_refused(place, stdout)) {
        return 1;
    }
    printf("record %zu of entry %zu: %" PRIu64 " bytes at %" PRIu64 "\n", record, entry,
           place[AMBROTHEL_PLACE_LENGTH], place[AMBROTHEL_PLACE_START]);
    for (size_t kind = AMBROTHEL_KIND_SC; kind <= AMBROTHEL_KIND_MJD; kind++) {
        uint64_t words[AMBROTHEL_FIELD_WORDS];
        if (ambrothel_field_at(product, length, entry, record, 0, kind, words, AMBROTHEL_FIELD_WORDS)) {
            return 1;
        }
        if (words[AMBROTHEL_REFUSAL_NUMBER] == AMBROTHEL_REFUSED_FIELD) {
            printf("  %-3s passes the record's end\n", KIND_NAMES[kind]);
            continue;
        }
        if (print_field(kind, words)) {
            return 1;
        }
    }
    return 0;
}

static int show_product(const char *name, size_t entry, size_t record)
{
    size_t length;
    uint8_t *product = read_file(name, &length);
    if (product == NULL) {
        return 2;
    }
    int status = show_directory(product, length);
    if (status == 0) {
        status = show_record(product, length, entry, record);
    }
    free(product);
    return status;
}

int main(int count, char **arguments)
{
    size_t entry = 0;
    size_t record = 0;
    if (count != 2 && count != 4) {
        fprintf(stderr, "usage: show PRODUCT [ENTRY RECORD]\n");
        return 2;
    }
    if (count == 4 && !(read_number("show", arguments[2], &entry) && read_number("show", arguments[3], &record))) {
        return 2;
    }
    return closed_output("show", show_product(arguments[1], entry, record));
}
