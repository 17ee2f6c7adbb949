/*
 * Writes a string of type 11 with a satellite's position into a buffer, reads it back, and prints the bytes.
 *
 *     cc -std=c99 -Iinclude examples/writestring.c crates/l1oc/out/libl1oc.a -o writestring
 *     ./writestring [bit place, 0 to 70 [x y z, in km]]
 */
#include <inttypes.h>
#include <stdio.h>
#include <stdlib.h>
#include "l1oc.h"

enum {
    LENGTH = 40 /* bytes: 320 bits, and the string has 250 */
};

/* The fields x, y and z: a count is 2^-20 km, and counts go from -(2^39 - 1) to 2^39 - 1. */
#define COUNTS_PER_KM 1048576.0
#define MOST_COUNTS 549755813887.0

/*
 * The count nearest to so many km, halves away from zero. Of the double that the text names, the product is exact, since it is by a power
 * of two, and so is what is left of it after the whole counts: only the rounding itself changes it. Stops where the field can't hold it.
 */
static int64_t counts(const char *field, const char *text)
{
    char *end;
    double product = strtod(text, &end) * COUNTS_PER_KM;
    int64_t whole;
    double rest;

    if (end == text || *end != '\0' || product != product) {
        fprintf(stderr, "writestring: %s is not a number: '%s'\n", field, text);
        exit(2);
    }
    if (product <= -(MOST_COUNTS + 0.5) || product >= MOST_COUNTS + 0.5) {
        fprintf(stderr, "writestring: %s is out of its range, -524287.999999 to 524287.999999 km: '%s'\n", field, text);
        exit(2);
    }
    whole = (int64_t)product; /* towards zero */
    rest = product - (double)whole;
    return rest >= 0.5 ? whole + 1 : rest <= -0.5 ? whole - 1 : whole;
}

static size_t bit_place(const char *text)
{
    char *end;
    unsigned long place = strtoul(text, &end, 10);

    if (*text < '0' || *text > '9' || *end != '\0') {
        fprintf(stderr, "writestring: the bit place is not a number: '%s'\n", text);
        exit(2);
    }
    return place;
}

int main(int argc, char **argv)
{
    uint8_t bytes[LENGTH] = {0};
    struct l1oc_record record = {0}; /* what the type does not use has to be 0 */
    struct l1oc_answer written;
    struct l1oc_reading reading;
    size_t place;
    size_t i;

    if (argc != 1 && argc != 2 && argc != 5) {
        fprintf(stderr, "usage: writestring [bit place [x y z]]\n");
        return 2;
    }
    place = argc > 1 ? bit_place(argv[1]) : 3;
    record.kind = 11;
    record.satellite = 5;
    record.time = 21600;                                                /* 21600 * 2 s: noon */
    record.numbers[0] = counts("x", argc > 2 ? argv[2] : "10300.5");    /* field 10 */
    record.numbers[1] = counts("y", argc > 2 ? argv[3] : "-21004.125"); /* field 11 */
    record.numbers[2] = counts("z", argc > 2 ? argv[4] : "9876.0625");  /* field 12 */
    record.minus = 1u << 3;                                             /* field 13, the rate of x, is minus zero */

    written = l1oc_write(bytes, LENGTH, 8 * LENGTH, place, record);
    if (written.number != 0) {
        /* L1OC_BEYOND_COUNT: the place is past the buffer; L1OC_RUNS_OUT: the string would run past it; L1OC_OUT_OF_RANGE: a field */
        fprintf(stderr, "writestring: writing is refused with %" PRIu64 ", %" PRIu64 "\n", written.number, written.value);
        return 1;
    }
    printf("wrote bits %zu to %" PRIu64 ":\n", place, written.value - 1);
    for (i = 0; i < LENGTH; i++) {
        printf("%02x%s", bytes[i], i % 16 == 15 || i == LENGTH - 1 ? "\n" : " ");
    }

    reading = l1oc_read(bytes, LENGTH, 8 * LENGTH, L1OC_STRAIGHT, place);
    if (reading.number != 0) {
        fprintf(stderr, "writestring: reading is refused with %" PRIu64 ", %" PRIu64 "\n", reading.number, reading.value);
        return 1;
    }
    printf("read back: type %d, satellite %d, x y z = %" PRId64 " %" PRId64 " %" PRId64 " counts, minus-zero mark %d\n",
           reading.content.kind, reading.content.satellite, reading.content.numbers[0], reading.content.numbers[1],
           reading.content.numbers[2], reading.content.minus);
    return 0;
}
