/* Shows one record of GOMOS residual extinction: a header line, and a line for each pixel, so that any plotting
 * program draws it.
 *
 *     extinction PRODUCT [RECORD]
 *
 * Without RECORD it is record 0. The exit status is 0; 1 where something is refused, which is then said on standard
 * error and nothing is printed; 2 where the arguments are wrong, the product cannot be read or the output cannot be
 * written. */
#include "ambrothel.h"
#include "reading.h"

#include <inttypes.h>
#include <stdio.h>
#include <stdlib.h>
#include <string.h>

static double float_of(uint64_t bits)
{
    const uint32_t single_bits = (uint32_t)bits;
    float value;
    memcpy(&value, &single_bits, sizeof value);
    return (double)value;
}

/* Nine digits tell any two floats apart, and seventeen any two doubles. */
static void print_pixel(size_t pixel, const uint64_t *words, double model)
{
    printf("%zu %.9g %.9g %.17g %" PRIu64 "\n", pixel, float_of(words[AMBROTHEL_EXTINCTION_TRANSMISSION]),
           float_of(words[AMBROTHEL_EXTINCTION_COVARIANCE]), model, words[AMBROTHEL_EXTINCTION_FLAG]);
}

static int show_record(const uint8_t *product, size_t length, size_t record)
{
    for (size_t pixel = 0; pixel < AMBROTHEL_EXTINCTION_PIXELS; pixel++) {
        uint64_t words[AMBROTHEL_EXTINCTION_WORDS];
        double model[AMBROTHEL_EXTINCTION_DOUBLES];
        if (ambrothel_extinction_at(product, length, record, pixel, words, AMBROTHEL_EXTINCTION_WORDS, model,
                                    AMBROTHEL_EXTINCTION_DOUBLES)) {
            return 1;
        }
        /* What refuses one pixel of a record refuses all, so it is met before anything is printed. */
        if (is_refused(words, stderr)) {
            return 1;
        }
        if (pixel == 0) {
            puts("pixel transmission covariance model flag");
        }
        print_pixel(pixel, words, model[AMBROTHEL_EXTINCTION_MODEL]);
    }
    return 0;
}

int main(int count, char **arguments)
{
    size_t length;
    size_t record = 0;
    if (count != 2 && count != 3) {
        fprintf(stderr, "usage: extinction PRODUCT [RECORD]\n");
        return 2;
    }
    if (count == 3 && !read_number("extinction", arguments[2], &record)) {
        return 2;
    }
    uint8_t *product = read_file(arguments[1], &length);
    if (product == NULL) {
        return 2;
    }
    int status = show_record(product, length, record);
    free(product);
    return closed_output("extinction", status);
}
