/* Every call of include/ambrothel.h and every name in it, held to what the samples have: C and C++ both take this file.
 *
 *     calls SAMPLES
 *
 * SAMPLES is the folder of the samples. What a value must be is read off the product here, by its keyword, or is
 * what samples/README.md says. */
#include "ambrothel.h"

#include <stdio.h>
#include <stdlib.h>
#include <string.h>

#define ROOM 65536
#define MAIN_HEADER 1247

static uint8_t product[ROOM];
static size_t length;
static uint64_t words[AMBROTHEL_DIRECTORY_WORDS];
static uint8_t bytes[ROOM];

#define CHECK(holds) check((holds), #holds, __LINE__)

static void check(int holds, const char *what, int line)
{
    if (!holds) {
        fprintf(stderr, "tests/calls.c:%d: not so: %s\n", line, what);
        exit(1);
    }
}

static void read_sample(const char *folder, const char *name)
{
    char path[4096];
    FILE *file;
    CHECK((size_t)snprintf(path, sizeof path, "%s/%s", folder, name) < sizeof path);
    file = fopen(path, "rb");
    if (file == NULL) {
        perror(path);
        exit(1);
    }
    length = fread(product, 1, ROOM, file);
    CHECK(!ferror(file) && length > 0);
    fclose(file);
}

static int is_refused(uint64_t number, uint64_t place, uint64_t entry)
{
    return words[AMBROTHEL_REFUSAL_NUMBER] == number && words[AMBROTHEL_REFUSAL_PLACE] == place &&
           words[AMBROTHEL_REFUSAL_ENTRY] == entry;
}

static int is_answered(void)
{
    return is_refused(AMBROTHEL_NOT_REFUSED, 0, 0);
}

/* What stands behind KEYWORD= at the start of one of the main header's lines. */
static const uint8_t *value_of(const char *keyword)
{
    size_t width = strlen(keyword);
    size_t i;
    for (i = 0; i + width < MAIN_HEADER; i++) {
        const int begins = i == 0 || product[i - 1] == '\n';
        if (begins && memcmp(product + i, keyword, width) == 0 && product[i + width] == '=') {
            return product + i + width + 1;
        }
    }
    fprintf(stderr, "the main header has no %s\n", keyword);
    exit(1);
}

/* A sign and digits, a point among them passed over. */
static int64_t number_of(const char *keyword)
{
    const uint8_t *at = value_of(keyword);
    int64_t number = 0;
    int minus = *at == '-';
    for (at++; (*at >= '0' && *at <= '9') || *at == '.'; at++) {
        if (*at != '.') {
            number = 10 * number + (*at - '0');
        }
    }
    return minus ? -number : number;
}

struct place {
    const char *keyword;
    size_t place;
    size_t length;
};

#define NUMBER(keyword) {#keyword, AMBROTHEL_HEADER_##keyword, 0}
#define TEXT(keyword) {#keyword, AMBROTHEL_TEXT_##keyword, AMBROTHEL_TEXT_##keyword##_LENGTH}

static const struct place NUMBERS[] = {
    NUMBER(CYCLE),       NUMBER(REL_ORBIT),  NUMBER(ABS_ORBIT),       NUMBER(DELTA_UT1),  NUMBER(X_POSITION),
    NUMBER(Y_POSITION),  NUMBER(Z_POSITION), NUMBER(X_VELOCITY),      NUMBER(Y_VELOCITY), NUMBER(Z_VELOCITY),
    NUMBER(SAT_BINARY_TIME), NUMBER(CLOCK_STEP), NUMBER(LEAP_SIGN),   NUMBER(TOT_SIZE),   NUMBER(SPH_SIZE),
    NUMBER(NUM_DSD),     NUMBER(DSD_SIZE),   NUMBER(NUM_DATA_SETS)};
static const struct place BYTES[] = {NUMBER(PROC_STAGE), NUMBER(PHASE), NUMBER(LEAP_ERR), NUMBER(PRODUCT_ERR)};
static const struct place TEXTS[] = {
    TEXT(PRODUCT),       TEXT(REF_DOC),      TEXT(ACQUISITION_STATION), TEXT(PROC_CENTER),
    TEXT(PROC_TIME),     TEXT(SOFTWARE_VER), TEXT(SENSING_START),       TEXT(SENSING_STOP),
    TEXT(STATE_VECTOR_TIME), TEXT(VECTOR_SOURCE), TEXT(UTC_SBT_TIME),   TEXT(LEAP_UTC)};

#define COUNT(array) (sizeof(array) / sizeof((array)[0]))

static uint8_t *place_of(const char *keyword)
{
    return product + (value_of(keyword) - product);
}

/* Gives each value that no rule looks at one of its own, so that no name can be taken for another. */
static void tell_apart(void)
{
    size_t i;
    *place_of("PROC_STAGE") = 'P';
    *place_of("PHASE") = 'Q';
    *place_of("LEAP_ERR") = '1';
    for (i = 0; i < COUNT(NUMBERS) - 5; i++) {
        uint8_t *at = place_of(NUMBERS[i].keyword);
        at[0] = i % 2 ? '-' : '+';
        at[2] = (uint8_t)('1' + i / 9);
        at[3] = (uint8_t)('1' + i % 9);
    }
    for (i = 0; i < COUNT(TEXTS); i++) {
        place_of(TEXTS[i].keyword)[1] = (uint8_t)('A' + i);
    }
}

/* On the SCIAMACHY sample, in which the sizes differ too. */
static void check_header(const char *folder)
{
    size_t i;
    read_sample(folder, "built-SCI_NL__1P");
    tell_apart();
    CHECK(ambrothel_header_values(product, length, words, AMBROTHEL_HEADER_WORDS, bytes, AMBROTHEL_HEADER_TEXTS) ==
          AMBROTHEL_WRITTEN);
    CHECK(is_answered());
    for (i = 0; i < COUNT(NUMBERS); i++) {
        check((int64_t)words[NUMBERS[i].place] == number_of(NUMBERS[i].keyword), NUMBERS[i].keyword, __LINE__);
    }
    for (i = 0; i < COUNT(BYTES); i++) {
        check(words[BYTES[i].place] == *value_of(BYTES[i].keyword), BYTES[i].keyword, __LINE__);
    }
    for (i = 0; i < COUNT(TEXTS); i++) {
        const uint8_t *text = value_of(TEXTS[i].keyword) + 1;
        check(memcmp(bytes + TEXTS[i].place, text, TEXTS[i].length) == 0 && text[TEXTS[i].length] == '"',
              TEXTS[i].keyword, __LINE__);
    }
}

static void check_verdicts(const char *folder)
{
    read_sample(folder, "damaged-SCI_NL__1P");
    CHECK(ambrothel_judge(product, length, words, AMBROTHEL_VERDICT_WORDS) == AMBROTHEL_WRITTEN);
    CHECK(is_refused(AMBROTHEL_REFUSED_SET_NOT_FILLED, 28407, 26));
    CHECK(ambrothel_judge(product, 0, words, AMBROTHEL_VERDICT_WORDS) == AMBROTHEL_WRITTEN);
    CHECK(is_refused(AMBROTHEL_REFUSED_TOO_SHORT, 0, AMBROTHEL_NO_ENTRY));
    words[0] = 77;
    CHECK(ambrothel_judge(product, length, words, AMBROTHEL_VERDICT_WORDS - 1) == AMBROTHEL_ROOM_TOO_SHORT);
    CHECK(words[0] == 77);
    read_sample(folder, "case-b");
    CHECK(ambrothel_judge(product, length, words, AMBROTHEL_VERDICT_WORDS) == AMBROTHEL_WRITTEN);
    CHECK(is_answered());
}

/* How many non-empty sets of the directory at hand start before that of entry i. No R entry or spare has a size. */
static uint64_t sets_before(size_t i)
{
    uint64_t before = 0;
    for (size_t j = 0; j < words[AMBROTHEL_DIRECTORY_ENTRIES]; j++) {
        before += words[AMBROTHEL_DIRECTORY_SIZES + j] > 0 &&
                  words[AMBROTHEL_DIRECTORY_OFFSETS + j] < words[AMBROTHEL_DIRECTORY_OFFSETS + i];
    }
    return before;
}

/* Room for the words of a directory without ranks, 644, is too short, and nothing is written. */
static void check_short_directory(void)
{
    words[0] = 77;
    CHECK(ambrothel_open_directory(product, length, words, AMBROTHEL_DIRECTORY_RANKS, bytes,
                                   AMBROTHEL_DIRECTORY_TEXTS) == AMBROTHEL_ROOM_TOO_SHORT);
    CHECK(words[0] == 77);
}

/* The ranks of all entries: that of a set as counted, AMBROTHEL_NO_RANK where there is none. */
static void check_ranks(void)
{
    for (size_t i = 0; i < words[AMBROTHEL_DIRECTORY_ENTRIES]; i++) {
        const int has_set = words[AMBROTHEL_DIRECTORY_SIZES + i] > 0;
        CHECK(words[AMBROTHEL_DIRECTORY_RANKS + i] == (has_set ? sets_before(i) : AMBROTHEL_NO_RANK));
    }
}

/* Entry 26 of the SCIAMACHY sample, NADIR, beside what its DSD says. */
static void check_directory(const char *folder)
{
    const size_t i = 26;
    const uint8_t *dsd;
    read_sample(folder, "built-SCI_NL__1P");
    dsd = product + MAIN_HEADER + number_of("SPH_SIZE") - 280 * (number_of("NUM_DSD") - (int64_t)i);
    CHECK(ambrothel_open_directory(product, length, words, AMBROTHEL_DIRECTORY_WORDS, bytes,
                                   AMBROTHEL_DIRECTORY_TEXTS) == AMBROTHEL_WRITTEN);
    CHECK(is_answered());
    CHECK(words[AMBROTHEL_DIRECTORY_ENTRIES] == 41);
    CHECK(words[AMBROTHEL_DIRECTORY_TYPES + i] == dsd[47] && dsd[47] == 'M');
    CHECK(words[AMBROTHEL_DIRECTORY_OFFSETS + i] == strtoull((const char *)dsd + 134, NULL, 10));
    CHECK(words[AMBROTHEL_DIRECTORY_SIZES + i] == strtoull((const char *)dsd + 171, NULL, 10));
    CHECK(words[AMBROTHEL_DIRECTORY_COUNTS + i] == strtoull((const char *)dsd + 208, NULL, 10));
    CHECK((int64_t)words[AMBROTHEL_DIRECTORY_RECORD_SIZES + i] == -1);
    CHECK(words[AMBROTHEL_DIRECTORY_TYPES + AMBROTHEL_MOST_ENTRIES - 1] == 0);
    CHECK(words[AMBROTHEL_DIRECTORY_RANKS + AMBROTHEL_MOST_ENTRIES - 1] == 0);
    CHECK(memcmp(bytes + AMBROTHEL_DIRECTORY_NAMES + AMBROTHEL_DIRECTORY_NAME_LENGTH * i, dsd + 9,
                 AMBROTHEL_DIRECTORY_NAME_LENGTH) == 0);
    CHECK(memcmp(bytes + AMBROTHEL_DIRECTORY_FILENAMES + AMBROTHEL_DIRECTORY_FILENAME_LENGTH * i, dsd + 59,
                 AMBROTHEL_DIRECTORY_FILENAME_LENGTH) == 0);
    check_ranks();
    check_short_directory();
}

static void check_lines(void)
{
    const size_t end = (size_t)(MAIN_HEADER + number_of("SPH_SIZE") - 280 * number_of("NUM_DSD"));
    CHECK(ambrothel_sph_place(product, length, words, AMBROTHEL_PLACE_WORDS) == AMBROTHEL_WRITTEN);
    CHECK(is_answered());
    CHECK(words[AMBROTHEL_PLACE_START] == MAIN_HEADER && words[AMBROTHEL_PLACE_LENGTH] == end - MAIN_HEADER);
    CHECK(ambrothel_sph_part(product, length, words, AMBROTHEL_PART_WORDS, bytes, ROOM) == AMBROTHEL_WRITTEN);
    CHECK(words[AMBROTHEL_PART_LENGTH] == end - MAIN_HEADER && end > MAIN_HEADER);
    CHECK(memcmp(bytes, product + MAIN_HEADER, end - MAIN_HEADER) == 0);
    CHECK(ambrothel_sph_part(product, length, words, AMBROTHEL_PART_WORDS, bytes, end - MAIN_HEADER - 1) ==
          AMBROTHEL_ROOM_TOO_SHORT);
}

/* The last record of case B's entry, and the one behind it. */
static void check_records(const char *folder)
{
    read_sample(folder, "case-b");
    CHECK(ambrothel_record_place(product, length, 0, 2, words, AMBROTHEL_PLACE_WORDS) == AMBROTHEL_WRITTEN);
    CHECK(is_answered());
    CHECK(words[AMBROTHEL_PLACE_START] == 1537 && words[AMBROTHEL_PLACE_LENGTH] == 5);
    CHECK(ambrothel_record_part(product, length, 0, 2, words, AMBROTHEL_PART_WORDS, bytes, 5) == AMBROTHEL_WRITTEN);
    CHECK(words[AMBROTHEL_PART_LENGTH] == 5 && memcmp(bytes, product + 1537, 5) == 0);
    CHECK(ambrothel_record_place(product, length, 0, 3, words, AMBROTHEL_PLACE_WORDS) == AMBROTHEL_WRITTEN);
    CHECK(is_refused(AMBROTHEL_REFUSED_RECORD, 0, 0));
    CHECK(ambrothel_record_place(product, length, 1, 0, words, AMBROTHEL_PLACE_WORDS) == AMBROTHEL_WRITTEN);
    CHECK(is_refused(AMBROTHEL_REFUSED_ENTRY, 0, AMBROTHEL_NO_ENTRY));
}

/* Case B's three records made one of fifteen bytes: ff ff ff fe 80 .. */
static void make_one_record(void)
{
    static const uint8_t record[15] = {0xff, 0xff, 0xff, 0xfe, 0x80, 0, 0, 1, 0, 0, 0, 2, 9, 9, 9};
    memcpy(product + MAIN_HEADER + 207, "+0000000001", 11);
    memcpy(product + MAIN_HEADER + 228, "+0000000015", 11);
    memcpy(product + 1527, record, sizeof record);
}

static int has_field(size_t offset, enum ambrothel_kind kind, enum ambrothel_case which, int64_t value)
{
    CHECK(ambrothel_field_at(product, length, 0, 0, offset, (size_t)kind, words, AMBROTHEL_FIELD_WORDS) ==
          AMBROTHEL_WRITTEN);
    return is_answered() && words[AMBROTHEL_FIELD_CASE] == (uint64_t)which &&
           (int64_t)words[AMBROTHEL_FIELD_NUMBER] == value;
}

static void check_fields(void)
{
    make_one_record();
    CHECK(has_field(0, AMBROTHEL_KIND_SC, AMBROTHEL_CASE_WHOLE, -1));
    CHECK(has_field(0, AMBROTHEL_KIND_UC, AMBROTHEL_CASE_WHOLE, 255));
    CHECK(has_field(2, AMBROTHEL_KIND_SS, AMBROTHEL_CASE_WHOLE, -2));
    CHECK(has_field(2, AMBROTHEL_KIND_US, AMBROTHEL_CASE_WHOLE, 65534));
    CHECK(has_field(0, AMBROTHEL_KIND_SL, AMBROTHEL_CASE_WHOLE, -2));
    CHECK(has_field(0, AMBROTHEL_KIND_UL, AMBROTHEL_CASE_WHOLE, 4294967294));
    CHECK(has_field(0, AMBROTHEL_KIND_FL, AMBROTHEL_CASE_SINGLE, 0xfffffffe));
    CHECK(has_field(4, AMBROTHEL_KIND_DO, AMBROTHEL_CASE_DOUBLE, INT64_MIN + 0x100000002));
    CHECK(words[AMBROTHEL_FIELD_BITS] == UINT64_C(0x8000000100000002));
    CHECK(has_field(0, AMBROTHEL_KIND_MJD, AMBROTHEL_CASE_TIME, -2));
    CHECK((int64_t)words[AMBROTHEL_FIELD_DAYS] == -2);
    CHECK(words[AMBROTHEL_FIELD_SECONDS] == 0x80000001 && words[AMBROTHEL_FIELD_MICROSECONDS] == 2);
    CHECK(!has_field(12, AMBROTHEL_KIND_SL, AMBROTHEL_CASE_REFUSED, 0));
    CHECK(is_refused(AMBROTHEL_REFUSED_FIELD, 12, 0));
    CHECK(ambrothel_field_at(product, length, 0, 0, 0, 10, words, AMBROTHEL_FIELD_WORDS) == AMBROTHEL_WRITTEN);
    CHECK(is_refused(AMBROTHEL_REFUSED_KIND, 0, 0) && words[AMBROTHEL_FIELD_CASE] == AMBROTHEL_CASE_REFUSED);
}

static void check_point(void)
{
    double point[AMBROTHEL_POINT_DOUBLES];
    CHECK(ambrothel_point_at(product, length, 0, 0, 0, 8, 4, words, AMBROTHEL_POINT_WORDS, point,
                             AMBROTHEL_POINT_DOUBLES) == AMBROTHEL_WRITTEN);
    CHECK(is_answered());
    CHECK(point[AMBROTHEL_POINT_LATITUDE] == -2 / 1e6 && point[AMBROTHEL_POINT_LONGITUDE] == 2 / 1e6);
    CHECK(point[AMBROTHEL_POINT_ALTITUDE] == 2147483649.0 / 100);
    CHECK(ambrothel_point_at(product, length, 0, 0, 0, 4, 8, words, AMBROTHEL_POINT_WORDS, point,
                             AMBROTHEL_POINT_DOUBLES) == AMBROTHEL_WRITTEN);
    CHECK(is_refused(AMBROTHEL_REFUSED_POINT, 4, 0) && point[AMBROTHEL_POINT_LATITUDE] == 0);
}

static double model[AMBROTHEL_EXTINCTION_DOUBLES];

static int ask_pixel(size_t record, size_t pixel)
{
    return ambrothel_extinction_at(product, length, record, pixel, words, AMBROTHEL_EXTINCTION_WORDS, model,
                                   AMBROTHEL_EXTINCTION_DOUBLES) == AMBROTHEL_WRITTEN;
}

/* Values that are all different, for pixel 5 of the sample's one record, which begins here. */
static void put_pixel(uint8_t *record)
{
    static const uint8_t head[13] = {0xff, 0xff, 0xff, 0xfe, 0, 0, 0, 3, 0, 0, 0, 4, 0xfb};
    static const uint8_t transmission[4] = {0x7f, 0x80, 0, 6}, covariance[4] = {0xff, 0xc0, 0, 7};
    static const uint8_t code[2] = {0xff, 0xff};
    memcpy(record, head, sizeof head);
    memcpy(record + 13 + 4 * 5, transmission, sizeof transmission);
    memcpy(record + 9357 + 4 * 5, covariance, sizeof covariance);
    memcpy(record + 18701 + 2 * 5, code, sizeof code);
    record[23373 + 5] = 8;
}

static void check_pixel(void)
{
    CHECK(ask_pixel(0, 5) && is_answered());
    CHECK((int64_t)words[AMBROTHEL_EXTINCTION_DAYS] == -2 && words[AMBROTHEL_EXTINCTION_SECONDS] == 3);
    CHECK(words[AMBROTHEL_EXTINCTION_MICROSECONDS] == 4 && (int64_t)words[AMBROTHEL_EXTINCTION_QUALITY] == -5);
    CHECK(words[AMBROTHEL_EXTINCTION_TRANSMISSION] == 0x7f800006);
    CHECK(words[AMBROTHEL_EXTINCTION_COVARIANCE] == 0xffc00007);
    CHECK(words[AMBROTHEL_EXTINCTION_MODEL_CODE] == 65535 && words[AMBROTHEL_EXTINCTION_FLAG] == 8);
    CHECK(model[AMBROTHEL_EXTINCTION_MODEL] == 2);
    CHECK(ambrothel_extinction_at(product, length, 0, 5, words, AMBROTHEL_EXTINCTION_WORDS - 1, model, 1) ==
          AMBROTHEL_ROOM_TOO_SHORT);
    CHECK(ambrothel_extinction_at(product, length, 0, 5, words, AMBROTHEL_EXTINCTION_WORDS, model, 0) ==
          AMBROTHEL_ROOM_TOO_SHORT);
}

/* The lowest of 22, 18, 23 and 24 in this order, where all that come later are there too. */
static void check_pixel_refusals(uint8_t *record, uint8_t *name)
{
    record[12] = 0xff;
    CHECK(ask_pixel(0, 5) && is_refused(AMBROTHEL_REFUSED_QUALITY, 12, 2));
    CHECK(model[AMBROTHEL_EXTINCTION_MODEL] == 0 && words[AMBROTHEL_EXTINCTION_DAYS] == 0);
    CHECK(ask_pixel(0, AMBROTHEL_EXTINCTION_PIXELS));
    CHECK(is_refused(AMBROTHEL_REFUSED_PIXEL, AMBROTHEL_EXTINCTION_PIXELS, 2));
    CHECK(ask_pixel(1, AMBROTHEL_EXTINCTION_PIXELS) && is_refused(AMBROTHEL_REFUSED_RECORD, 0, 2));
    *name = 'F';
    CHECK(ask_pixel(1, AMBROTHEL_EXTINCTION_PIXELS) &&
          is_refused(AMBROTHEL_REFUSED_EXTINCTION_SET, 0, AMBROTHEL_NO_ENTRY));
}

static void check_extinction(const char *folder)
{
    size_t place;
    uint8_t *name = product + MAIN_HEADER;
    read_sample(folder, "built-GOM_EXT_2P");
    CHECK(ambrothel_record_place(product, length, 2, 0, words, AMBROTHEL_PLACE_WORDS) == AMBROTHEL_WRITTEN);
    CHECK(is_answered() && words[AMBROTHEL_PLACE_LENGTH] == 25709);
    place = (size_t)words[AMBROTHEL_PLACE_START];
    while (memcmp(name, "EXT_MDS ", 8) != 0) {
        CHECK(++name < product + place);
    }
    put_pixel(product + place);
    check_pixel();
    check_pixel_refusals(product + place, name);
}

struct moment {
    const char *text;
    int32_t days;
    uint32_t seconds;
    uint32_t microseconds;
};

/* The first and the last of the range, days before and behind 1 January 2000, and a day that only leap years have. */
static const struct moment MOMENTS[] = {
    {"01-JAN-1980 00:00:00.000000", -7305, 0, 0},       {"31-DEC-2099 23:59:59.999999", 36524, 86399, 999999},
    {"31-DEC-1999 23:59:59.000017", -1, 86399, 17},     {"01-JAN-2000 00:00:00.000000", 0, 0, 0},
    {"29-FEB-2000 12:34:56.789012", 59, 45296, 789012}, {"01-MAR-2002 00:01:00.100000", 790, 60, 100000}};

/* A length, day, month, year, hour, minute, second or byte that no time has; the last two are of 26 and 28 blanks. */
static const char *const NO_TIMES[] = {
    "",
    "01-JAN-1980 00:00:00.00000",
    "01-JAN-1980 00:00:00.0000000",
    "31-DEC-1979 23:59:59.999999",
    "01-JAN-2100 00:00:00.000000",
    "00-JAN-2000 00:00:00.000000",
    "29-FEB-2001 00:00:00.000000",
    "31-APR-2000 00:00:00.000000",
    "01-Jan-2000 00:00:00.000000",
    "01-JAM-2000 00:00:00.000000",
    "01-JAN-2000 24:00:00.000000",
    "01-JAN-2000 00:60:00.000000",
    "31-DEC-2005 23:59:60.000000",
    "01-JAN-2000T00:00:00.000000",
    "01-JAN-2000 00:00:00,000000",
    " 1-JAN-2000 00:00:00.000000",
    "01-JAN-2000 00:00:00.00000 ",
    "                          ",
    "                            "};

/* A day before and behind the range, and more seconds and microseconds than there are: the nearest and the farthest. */
static const struct moment OUTSIDE[] = {
    {"", -7306, 0, 0}, {"", 36525, 0, 0},      {"", INT32_MIN, 0, 0}, {"", INT32_MAX, 0, 0},
    {"", 0, 86400, 0}, {"", 0, UINT32_MAX, 0}, {"", 0, 0, 1000000},   {"", 0, 0, UINT32_MAX}};

/* What a room has before a call, and behind the answer after it. */
static void fill_rooms(void)
{
    for (size_t i = 0; i < AMBROTHEL_DIRECTORY_WORDS; i++) {
        words[i] = 77;
    }
    memset(bytes, 77, sizeof bytes);
}

/* Whether the rooms have from these places on what they had before. */
static int is_left(size_t word, size_t byte)
{
    while (word < AMBROTHEL_DIRECTORY_WORDS && words[word] == 77) {
        word++;
    }
    while (byte < sizeof bytes && bytes[byte] == 77) {
        byte++;
    }
    return word == AMBROTHEL_DIRECTORY_WORDS && byte == sizeof bytes;
}

/* Every room that is too short, and then one that is longer than the answer. */
static void ask_time(const char *text)
{
    const uint8_t *given = (const uint8_t *)text;
    fill_rooms();
    for (size_t room = 0; room < AMBROTHEL_TIME_WORDS; room++) {
        CHECK(ambrothel_time_of_text(given, strlen(text), words, room) == AMBROTHEL_ROOM_TOO_SHORT);
    }
    CHECK(is_left(0, 0));
    CHECK(ambrothel_time_of_text(given, strlen(text), words, AMBROTHEL_DIRECTORY_WORDS) == AMBROTHEL_WRITTEN);
    CHECK(is_left(AMBROTHEL_TIME_WORDS, 0));
}

/* The same of a time: each of the two rooms is too short by itself. */
static void ask_text(struct moment time)
{
    const int32_t days = time.days;
    const uint32_t seconds = time.seconds, microseconds = time.microseconds;
    fill_rooms();
    for (size_t room = 0; room < AMBROTHEL_TIME_TEXT_WORDS; room++) {
        CHECK(ambrothel_text_of_time(days, seconds, microseconds, words, room, bytes, ROOM) ==
              AMBROTHEL_ROOM_TOO_SHORT);
    }
    for (size_t room = 0; room < AMBROTHEL_TIME_TEXT_LENGTH; room++) {
        CHECK(ambrothel_text_of_time(days, seconds, microseconds, words, AMBROTHEL_DIRECTORY_WORDS, bytes, room) ==
              AMBROTHEL_ROOM_TOO_SHORT);
    }
    CHECK(is_left(0, 0));
    CHECK(ambrothel_text_of_time(days, seconds, microseconds, words, AMBROTHEL_DIRECTORY_WORDS, bytes, ROOM) ==
          AMBROTHEL_WRITTEN);
    CHECK(is_left(AMBROTHEL_TIME_TEXT_WORDS, AMBROTHEL_TIME_TEXT_LENGTH));
}

static int has_time(enum ambrothel_time_case which, struct moment time)
{
    return words[AMBROTHEL_TIME_CASE] == (uint64_t)which && (int64_t)words[AMBROTHEL_TIME_DAYS] == time.days &&
           words[AMBROTHEL_TIME_SECONDS] == time.seconds && words[AMBROTHEL_TIME_MICROSECONDS] == time.microseconds;
}

/* Each moment from its text, and the text from it again. */
static void check_times(void)
{
    const struct moment none = {"                           ", 0, 0, 0};
    for (size_t i = 0; i < COUNT(MOMENTS); i++) {
        ask_time(MOMENTS[i].text);
        check(is_answered() && has_time(AMBROTHEL_TIME_GIVEN, MOMENTS[i]), MOMENTS[i].text, __LINE__);
        ask_text(MOMENTS[i]);
        check(is_answered() && memcmp(bytes, MOMENTS[i].text, AMBROTHEL_TIME_TEXT_LENGTH) == 0, MOMENTS[i].text,
              __LINE__);
    }
    ask_time(none.text);
    CHECK(is_answered() && has_time(AMBROTHEL_TIME_NOT_GIVEN, none));
    for (size_t i = 0; i < COUNT(NO_TIMES); i++) {
        ask_time(NO_TIMES[i]);
        check(is_refused(AMBROTHEL_REFUSED_TIME_TEXT, 0, AMBROTHEL_NO_ENTRY) && has_time(AMBROTHEL_TIME_REFUSED, none),
              NO_TIMES[i], __LINE__);
    }
    for (size_t i = 0; i < COUNT(OUTSIDE); i++) {
        static const uint8_t zeros[AMBROTHEL_TIME_TEXT_LENGTH] = {0};
        ask_text(OUTSIDE[i]);
        CHECK(is_refused(AMBROTHEL_REFUSED_TIME, 0, AMBROTHEL_NO_ENTRY));
        CHECK(memcmp(bytes, zeros, sizeof zeros) == 0);
    }
}

/* Numbers that no refusal of this version has: 25 to 29, and those behind the last. */
static int is_free(uint64_t number)
{
    return (number > AMBROTHEL_REFUSED_QUALITY && number < AMBROTHEL_REFUSED_TIME_TEXT) ||
           number > AMBROTHEL_REFUSED_TIME;
}

/* Each number has a text of its own, and the numbers that are no refusal's have one together. */
static void check_texts(void)
{
    uint64_t number, lower;
    for (number = AMBROTHEL_NOT_REFUSED; number <= AMBROTHEL_REFUSED_TIME + 1; number++) {
        CHECK(ambrothel_refusal_text(number)[0] != '\0');
        for (lower = 0; lower < number; lower++) {
            const int are_same = strcmp(ambrothel_refusal_text(number), ambrothel_refusal_text(lower)) == 0;
            CHECK(are_same == (is_free(number) && is_free(lower)));
        }
    }
    CHECK(strcmp(ambrothel_refusal_text(UINT64_MAX), ambrothel_refusal_text(AMBROTHEL_REFUSED_TIME + 1)) == 0);
    CHECK(strcmp(ambrothel_refusal_text(AMBROTHEL_REFUSED_TOT_SIZE), "TOT_SIZE is not the length") == 0);
    CHECK(strncmp(ambrothel_refusal_text(AMBROTHEL_REFUSED_TIME_TEXT), "the text ", 9) == 0);
    CHECK(strncmp(ambrothel_refusal_text(AMBROTHEL_REFUSED_TIME), "the time ", 9) == 0);
}

int main(int count, char **arguments)
{
    if (count != 2) {
        fprintf(stderr, "usage: calls SAMPLES\n");
        return 2;
    }
    check_texts();
    check_verdicts(arguments[1]);
    check_header(arguments[1]);
    check_directory(arguments[1]);
    check_lines();
    check_records(arguments[1]);
    check_fields();
    check_point();
    check_extinction(arguments[1]);
    check_times();
    printf("all twelve calls answer as the samples say, version %d\n", AMBROTHEL_VERSION);
    return 0;
}
