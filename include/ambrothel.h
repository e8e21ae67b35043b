/* Ambrothel for C and C++: every public call of the reader, over a product that lies in memory.
 *
 * Each function judges the product for itself, only reads it, and writes its answer into rooms that the caller lends;
 * the two of times and their texts take no product, judge what they are given, and are like the others in all else.
 * It returns AMBROTHEL_WRITTEN, or AMBROTHEL_ROOM_TOO_SHORT where a room is too short; then it has written nothing.
 * What lies in a room behind the answer is left as it was. docs/FORMAT.md has the layouts, the rules and the refusals.
 *
 * An answer that is words begins, but for the two calls that hand out a part, with the refusal:
 *     words[AMBROTHEL_REFUSAL_NUMBER]  its number (enum ambrothel_refusal), or 0 where nothing is refused
 *     words[AMBROTHEL_REFUSAL_PLACE]   its place, a byte offset; 0 where nothing is refused
 *     words[AMBROTHEL_REFUSAL_ENTRY]   its entry, 0 to 127, or AMBROTHEL_NO_ENTRY; 0 where nothing is refused
 * Beside a refusal every word and every byte of the answer behind these three is 0.
 * A number with a sign stands in a word as its two's complement: (int64_t) words[k] is the number.
 *
 * What a caller keeps to, and may rely on:
 *     lengths     count elements, not bytes; a room may be longer than its answer.
 *     null        no pointer may be null, not even where its length is 0: lend any address, as that of a local.
 *     overlap     no room may overlap the product, a text that is given, or another room.
 *     alignment   words as uint64_t, point and model as double; product, texts and bytes need none.
 *     threads     a call knows nothing but its arguments: any number may run at once, on one product too, as long as
 *                 nobody writes to the product or uses a lent room meanwhile.
 *     stack       a call takes less than AMBROTHEL_STACK bytes of it, and no other memory. It calls memcpy and memset
 *                 and nothing else, keeps nothing between calls, and always ends.
 */
#ifndef AMBROTHEL_H
#define AMBROTHEL_H

#include <stddef.h>
#include <stdint.h>

#ifdef __cplusplus
extern "C" {
#endif

/* This boundary's version, 10000 * major + 100 * minor + patch: a new major where an answer's words change their
 * places or it takes more room, or a call its parameters; a new minor where something else is added; a new patch
 * where a rule judges otherwise. 10001: refusal 11 counts no empty sets. 20000: a directory has ranks, and takes 772
 * words for 644. 20100: residual extinction, refusals 22 to 24. 20200: times and their texts, refusals 30 and 31. */
#define AMBROTHEL_VERSION 20200

/* What a call returns. */
#define AMBROTHEL_WRITTEN 0
#define AMBROTHEL_ROOM_TOO_SHORT 1

/* How many elements each answer takes. */
#define AMBROTHEL_VERDICT_WORDS 3
#define AMBROTHEL_PLACE_WORDS 5
#define AMBROTHEL_PART_WORDS 1
#define AMBROTHEL_FIELD_WORDS 7
#define AMBROTHEL_POINT_WORDS 3
#define AMBROTHEL_POINT_DOUBLES 3
#define AMBROTHEL_HEADER_WORDS 25
#define AMBROTHEL_HEADER_TEXTS 289
#define AMBROTHEL_DIRECTORY_WORDS 772
#define AMBROTHEL_DIRECTORY_TEXTS 11520
#define AMBROTHEL_EXTINCTION_WORDS 11
#define AMBROTHEL_EXTINCTION_DOUBLES 1
#define AMBROTHEL_TIME_WORDS 7
#define AMBROTHEL_TIME_TEXT_WORDS 3
#define AMBROTHEL_TIME_TEXT_LENGTH 27

/* How much stack a call takes at most, in bytes. */
#define AMBROTHEL_STACK 65536

/* How many entries a directory has at most; the entry of a refusal that concerns none; and the rank of an entry that
 * has none. */
#define AMBROTHEL_MOST_ENTRIES 128
#define AMBROTHEL_NO_ENTRY 128
#define AMBROTHEL_NO_RANK 128

/* Where the refusal stands in an answer's words. */
enum {
    AMBROTHEL_REFUSAL_NUMBER = 0,
    AMBROTHEL_REFUSAL_PLACE = 1,
    AMBROTHEL_REFUSAL_ENTRY = 2
};

/* The number of a refusal. ambrothel_refusal_text says of each when it is given. */
enum ambrothel_refusal {
    AMBROTHEL_NOT_REFUSED = 0,
    AMBROTHEL_REFUSED_TOO_SHORT = 1,
    AMBROTHEL_REFUSED_TOO_LONG = 2,
    AMBROTHEL_REFUSED_MAIN_HEADER = 3,
    AMBROTHEL_REFUSED_TOT_SIZE_MAGNITUDE = 4,
    AMBROTHEL_REFUSED_TOT_SIZE = 5,
    AMBROTHEL_REFUSED_HEADER_SIZES = 6,
    AMBROTHEL_REFUSED_SPH_LINE = 7,
    AMBROTHEL_REFUSED_DSD = 8,
    AMBROTHEL_REFUSED_DSD_MAGNITUDE = 9,
    AMBROTHEL_REFUSED_DSD_NUMBERS = 10,
    AMBROTHEL_REFUSED_NUM_DATA_SETS = 11,
    AMBROTHEL_REFUSED_SET_OUTSIDE = 12,
    AMBROTHEL_REFUSED_SET_SHARED = 13,
    AMBROTHEL_REFUSED_BYTE_IN_NO_SET = 14,
    AMBROTHEL_REFUSED_STATES = 15,
    AMBROTHEL_REFUSED_SET_NOT_FILLED = 16,
    AMBROTHEL_REFUSED_ENTRY = 17,
    AMBROTHEL_REFUSED_RECORD = 18,
    AMBROTHEL_REFUSED_KIND = 19,
    AMBROTHEL_REFUSED_FIELD = 20,
    AMBROTHEL_REFUSED_POINT = 21,
    AMBROTHEL_REFUSED_EXTINCTION_SET = 22,
    AMBROTHEL_REFUSED_PIXEL = 23,
    AMBROTHEL_REFUSED_QUALITY = 24,
    AMBROTHEL_REFUSED_TIME_TEXT = 30, /* 25 to 29 are given by no call of this version: later orders give them */
    AMBROTHEL_REFUSED_TIME = 31
};

/* When the refusal of a number is given: one line of English without its end, for every number. */
static inline const char *ambrothel_refusal_text(uint64_t number)
{
    static const char *const texts[] = {
        "nothing is refused",
        "under 1,247 bytes",
        "over 2,147,483,647 bytes",
        "a byte of the main header is not as laid out",
        "TOT_SIZE's magnitude is over 2^63 - 1",
        "TOT_SIZE is not the length",
        "SPH_SIZE is not 0 to 49,152, or the headers pass the end; "
        "NUM_DSD is not 0 to 128, or its DSDs exceed the SPH; DSD_SIZE is not 280",
        "a bad or unended SPH line",
        "a byte of a DSD is not as laid out",
        "DS_OFFSET's or DS_SIZE's magnitude is over 2^63 - 1",
        "a DSD's numbers do not fit together",
        "NUM_DATA_SETS is not the number of entries of type M, A or G whose DS_SIZE is above 0",
        "a set starts inside the headers or ends past the product",
        "a set shares a byte with one of a lower entry",
        "a byte after the headers is in no set",
        "the states are missing or bad",
        "a set of unequal records is not exactly filled",
        "the entry asked for is NUM_DSD or more",
        "the record asked for is not there",
        "the kind of field is unknown",
        "the field passes the record's end",
        "latitude or longitude is outside its limits",
        "not exactly one entry of type M is named EXT_MDS, or its DSR_SIZE is not 25,709",
        "the pixel asked for is 2,336 or more",
        "the record's quality is -1: it is empty",
        "no refusal has this number", /* 25 to 29: later orders give them */
        "no refusal has this number",
        "no refusal has this number",
        "no refusal has this number",
        "no refusal has this number",
        "the text is neither that of a time from 1980 to 2099 nor 27 blanks",
        "the time is outside 1 January 1980 to 31 December 2099, or has over 86,399 seconds or 999,999 microseconds"
    };
    return number < sizeof texts / sizeof texts[0] ? texts[number] : "no refusal has this number";
}

/* Whether the product is accepted: nothing is refused. */
uint32_t ambrothel_judge(const uint8_t *product, size_t length, uint64_t *words, size_t words_length);

/* Where the directory's answer has what, for entry i, 0 to AMBROTHEL_MOST_ENTRIES - 1. */
enum {
    AMBROTHEL_DIRECTORY_ENTRIES = 3,        /* words[ENTRIES]: how many entries it has, 0 to 128 */
    AMBROTHEL_DIRECTORY_TYPES = 4,          /* words[TYPES + i]: DS_TYPE, 'M', 'A', 'G' or 'R'; ' ' for a spare; 0 for a
                                               place that is not used */
    AMBROTHEL_DIRECTORY_OFFSETS = 132,      /* words[OFFSETS + i]: DS_OFFSET */
    AMBROTHEL_DIRECTORY_SIZES = 260,        /* words[SIZES + i]: DS_SIZE */
    AMBROTHEL_DIRECTORY_COUNTS = 388,       /* words[COUNTS + i]: NUM_DSR, how many records */
    AMBROTHEL_DIRECTORY_RECORD_SIZES = 516, /* words[RECORD_SIZES + i]: DSR_SIZE with its sign, -1 for records of
                                               unequal lengths */
    AMBROTHEL_DIRECTORY_RANKS = 644,        /* words[RANKS + i]: how many non-empty sets start before this one, 0 for
                                               the first in the file; AMBROTHEL_NO_RANK for an empty set, an R entry
                                               and a spare; 0 for a place that is not used */
    AMBROTHEL_DIRECTORY_NAMES = 0,          /* texts[NAMES + NAME_LENGTH * i ..]: DS_NAME, blanks behind */
    AMBROTHEL_DIRECTORY_NAME_LENGTH = 28,
    AMBROTHEL_DIRECTORY_FILENAMES = 3584,   /* texts[FILENAMES + FILENAME_LENGTH * i ..]: FILENAME, blanks behind */
    AMBROTHEL_DIRECTORY_FILENAME_LENGTH = 62
};

/* The directory. */
uint32_t ambrothel_open_directory(const uint8_t *product, size_t length, uint64_t *words, size_t words_length,
                                  uint8_t *texts, size_t texts_length);

/* Where the header's numbers stand in its words, by the keywords of its lines. */
enum {
    AMBROTHEL_HEADER_PROC_STAGE = 3, /* its byte */
    AMBROTHEL_HEADER_PHASE = 4,      /* its byte */
    AMBROTHEL_HEADER_CYCLE = 5,
    AMBROTHEL_HEADER_REL_ORBIT = 6,
    AMBROTHEL_HEADER_ABS_ORBIT = 7,
    AMBROTHEL_HEADER_DELTA_UT1 = 8,  /* 10^-6 s */
    AMBROTHEL_HEADER_X_POSITION = 9, /* positions in 10^-3 m */
    AMBROTHEL_HEADER_Y_POSITION = 10,
    AMBROTHEL_HEADER_Z_POSITION = 11,
    AMBROTHEL_HEADER_X_VELOCITY = 12, /* velocities in 10^-6 m/s */
    AMBROTHEL_HEADER_Y_VELOCITY = 13,
    AMBROTHEL_HEADER_Z_VELOCITY = 14,
    AMBROTHEL_HEADER_SAT_BINARY_TIME = 15,
    AMBROTHEL_HEADER_CLOCK_STEP = 16,
    AMBROTHEL_HEADER_LEAP_SIGN = 17,
    AMBROTHEL_HEADER_LEAP_ERR = 18,    /* its byte */
    AMBROTHEL_HEADER_PRODUCT_ERR = 19, /* its byte */
    AMBROTHEL_HEADER_TOT_SIZE = 20,
    AMBROTHEL_HEADER_SPH_SIZE = 21,
    AMBROTHEL_HEADER_NUM_DSD = 22,
    AMBROTHEL_HEADER_DSD_SIZE = 23,
    AMBROTHEL_HEADER_NUM_DATA_SETS = 24
};

/* Where the header's texts stand in its texts, and how long each is, blanks and all. */
enum {
    AMBROTHEL_TEXT_PRODUCT = 0,
    AMBROTHEL_TEXT_PRODUCT_LENGTH = 62,
    AMBROTHEL_TEXT_REF_DOC = 62,
    AMBROTHEL_TEXT_REF_DOC_LENGTH = 23,
    AMBROTHEL_TEXT_ACQUISITION_STATION = 85,
    AMBROTHEL_TEXT_ACQUISITION_STATION_LENGTH = 20,
    AMBROTHEL_TEXT_PROC_CENTER = 105,
    AMBROTHEL_TEXT_PROC_CENTER_LENGTH = 6,
    AMBROTHEL_TEXT_PROC_TIME = 111,
    AMBROTHEL_TEXT_PROC_TIME_LENGTH = 27,
    AMBROTHEL_TEXT_SOFTWARE_VER = 138,
    AMBROTHEL_TEXT_SOFTWARE_VER_LENGTH = 14,
    AMBROTHEL_TEXT_SENSING_START = 152,
    AMBROTHEL_TEXT_SENSING_START_LENGTH = 27,
    AMBROTHEL_TEXT_SENSING_STOP = 179,
    AMBROTHEL_TEXT_SENSING_STOP_LENGTH = 27,
    AMBROTHEL_TEXT_STATE_VECTOR_TIME = 206,
    AMBROTHEL_TEXT_STATE_VECTOR_TIME_LENGTH = 27,
    AMBROTHEL_TEXT_VECTOR_SOURCE = 233,
    AMBROTHEL_TEXT_VECTOR_SOURCE_LENGTH = 2,
    AMBROTHEL_TEXT_UTC_SBT_TIME = 235,
    AMBROTHEL_TEXT_UTC_SBT_TIME_LENGTH = 27,
    AMBROTHEL_TEXT_LEAP_UTC = 262,
    AMBROTHEL_TEXT_LEAP_UTC_LENGTH = 27
};

/* The values of the main header. */
uint32_t ambrothel_header_values(const uint8_t *product, size_t length, uint64_t *words, size_t words_length,
                                 uint8_t *texts, size_t texts_length);

/* Where a place and its length stand in the words of a place, and the length in those of a part. */
enum {
    AMBROTHEL_PLACE_START = 3,
    AMBROTHEL_PLACE_LENGTH = 4,
    AMBROTHEL_PART_LENGTH = 0
};

/* Where the SPH lines stand, all bytes of the specific header before the DSDs. */
uint32_t ambrothel_sph_place(const uint8_t *product, size_t length, uint64_t *words, size_t words_length);

/* The SPH lines themselves, written from bytes[0] on; length 0 where the product is refused. */
uint32_t ambrothel_sph_part(const uint8_t *product, size_t length, uint64_t *words, size_t words_length, uint8_t *bytes,
                            size_t bytes_length);

/* Where a record of an entry stands, both counted from 0. */
uint32_t ambrothel_record_place(const uint8_t *product, size_t length, size_t entry, size_t record, uint64_t *words,
                                size_t words_length);

/* The record itself, written from bytes[0] on; length 0 where the record is refused. */
uint32_t ambrothel_record_part(const uint8_t *product, size_t length, size_t entry, size_t record, uint64_t *words,
                               size_t words_length, uint8_t *bytes, size_t bytes_length);

/* The kinds of field; every other number is refused with AMBROTHEL_REFUSED_KIND. */
enum ambrothel_kind {
    AMBROTHEL_KIND_SC = 1, /* signed and unsigned, of 1, 2 and 4 bytes */
    AMBROTHEL_KIND_UC = 2,
    AMBROTHEL_KIND_SS = 3,
    AMBROTHEL_KIND_US = 4,
    AMBROTHEL_KIND_SL = 5,
    AMBROTHEL_KIND_UL = 6,
    AMBROTHEL_KIND_FL = 7, /* a single float, 4 bytes, and a double one, 8 */
    AMBROTHEL_KIND_DO = 8,
    AMBROTHEL_KIND_MJD = 9 /* a time: days from 1 January 2000, seconds, microseconds, 12 bytes */
};

/* Which of the four things a field is, in words[AMBROTHEL_FIELD_CASE]. */
enum ambrothel_case {
    AMBROTHEL_CASE_REFUSED = 0,
    AMBROTHEL_CASE_WHOLE = 1,
    AMBROTHEL_CASE_SINGLE = 2,
    AMBROTHEL_CASE_DOUBLE = 3,
    AMBROTHEL_CASE_TIME = 4
};

/* Where a field's answer has what. */
enum {
    AMBROTHEL_FIELD_CASE = 3,
    AMBROTHEL_FIELD_NUMBER = 4,      /* a whole number, with its sign */
    AMBROTHEL_FIELD_BITS = 4,        /* a float's 32 or 64 bits, as they stand in the product */
    AMBROTHEL_FIELD_DAYS = 4,        /* a time's days, with their sign */
    AMBROTHEL_FIELD_SECONDS = 5,     /* its seconds; 0 in other cases */
    AMBROTHEL_FIELD_MICROSECONDS = 6 /* its microseconds; 0 in other cases */
};

/* A field of a record, by its offset in the record and its kind. */
uint32_t ambrothel_field_at(const uint8_t *product, size_t length, size_t entry, size_t record, size_t offset,
                            size_t kind, uint64_t *words, size_t words_length);

/* Where a point's doubles stand. */
enum {
    AMBROTHEL_POINT_LATITUDE = 0,  /* degrees */
    AMBROTHEL_POINT_LONGITUDE = 1, /* degrees */
    AMBROTHEL_POINT_ALTITUDE = 2   /* metres */
};

/* The point at three offsets of a record; its doubles are 0 beside a refusal. */
uint32_t ambrothel_point_at(const uint8_t *product, size_t length, size_t entry, size_t record, size_t latitude,
                            size_t longitude, size_t altitude, uint64_t *words, size_t words_length, double *point,
                            size_t point_length);

/* How many pixels a record of residual extinction has: 0 to AMBROTHEL_EXTINCTION_PIXELS - 1. */
#define AMBROTHEL_EXTINCTION_PIXELS 2336

/* Where a pixel's answer has what. */
enum {
    AMBROTHEL_EXTINCTION_DAYS = 3,          /* the record's time: days from 1 January 2000, with their sign */
    AMBROTHEL_EXTINCTION_SECONDS = 4,
    AMBROTHEL_EXTINCTION_MICROSECONDS = 5,
    AMBROTHEL_EXTINCTION_QUALITY = 6,       /* the record's quality, with its sign; never -1 */
    AMBROTHEL_EXTINCTION_TRANSMISSION = 7,  /* the 32 bits of a float, as they stand in the product */
    AMBROTHEL_EXTINCTION_COVARIANCE = 8,    /* the same */
    AMBROTHEL_EXTINCTION_MODEL_CODE = 9,    /* 0 to 65,535 */
    AMBROTHEL_EXTINCTION_FLAG = 10,         /* of the model: 0 where it is valid */
    AMBROTHEL_EXTINCTION_MODEL = 0          /* model[MODEL]: twice the code by 65,535, from 0 to 2 */
};

/* A pixel of a record of GOMOS residual extinction: of the one entry of type M named EXT_MDS, whose records are of
 * 25,709 bytes. The model is 0 beside a refusal. */
uint32_t ambrothel_extinction_at(const uint8_t *product, size_t length, size_t record, size_t pixel, uint64_t *words,
                                 size_t words_length, double *model, size_t model_length);

/* What a text says of a time, in words[AMBROTHEL_TIME_CASE]. */
enum ambrothel_time_case {
    AMBROTHEL_TIME_REFUSED = 0,
    AMBROTHEL_TIME_GIVEN = 1,
    AMBROTHEL_TIME_NOT_GIVEN = 2 /* the text is 27 blanks; the three numbers are 0 */
};

/* Where a time's answer has what. */
enum {
    AMBROTHEL_TIME_CASE = 3,
    AMBROTHEL_TIME_DAYS = 4,        /* from 1 January 2000, with their sign */
    AMBROTHEL_TIME_SECONDS = 5,     /* 0 to 86,399 */
    AMBROTHEL_TIME_MICROSECONDS = 6 /* 0 to 999,999 */
};

/* The time that a text says, as those of the main header: DD-MMM-YYYY hh:mm:ss.uuuuuu, the month as three capitals,
 * from 1 January 1980 to 31 December 2099, Gregorian. A text of another length and a second of 60 are refused. */
uint32_t ambrothel_time_of_text(const uint8_t *text, size_t text_length, uint64_t *words, size_t words_length);

/* The text of a time in the same form, written from text[0] on, without an end; its bytes are 0 beside a refusal. */
uint32_t ambrothel_text_of_time(int32_t days, uint32_t seconds, uint32_t microseconds, uint64_t *words,
                                size_t words_length, uint8_t *text, size_t text_length);

#ifdef __cplusplus
}
#endif

#endif
