/*
 * Prints the first ephemeris set of a satellite in a recording, in physical units.
 *
 *     cc -std=c99 -Iinclude examples/satellite.c crates/l1oc/out/libl1oc.a -o satellite
 *     ./satellite recording.bin 24
 */
#include "recording.h"

/* What one count of a field is, where it is not a whole number of the unit. */
enum {
    POWER = 0,    /* a power of two: l1oc_scaled */
    ACCURACY = -1 /* an accuracy factor: l1oc_accuracy */
};

struct field {
    size_t number;
    const char *name;
    const char *unit;
    int count; /* one count in the unit, or as above */
};

/* The fields of each string, as the header's tables have them; those in reserve are left out. The last entry has no name. */
static const struct field fields[3][17] = {
    {
        {10, "N4, four-year interval, the first from 1996", "", 1},
        {11, "NT, day of the interval", "", 1},
        {12, "M, modification of the satellite", "", 1},
        {13, "frame size (0: not told)", "strings", 1},
        {14, "tb, moment of the data in the day", "s", 90},
        {15, "age of the ephemeris", "h", 6},
        {16, "age of the clock data", "h", 6},
        {17, "mode of the ephemeris", "", 1},
        {18, "mode of the clock data", "", 1},
        {19, "accuracy of the ephemeris", "cm", ACCURACY},
        {20, "accuracy of the clock data", "cm", ACCURACY},
        {21, "tau, correction to GLONASS time", "s", POWER},
        {22, "gamma, relative deviation of the frequency", "", POWER},
        {23, "beta, half the rate of gamma", "1/s", POWER},
        {24, "tau_c, correction from GLONASS to Moscow time", "s", POWER},
        {25, "rate of tau_c", "s/s", POWER},
        {0, NULL, NULL, 0},
    },
    {
        {10, "x", "km", POWER},
        {11, "y", "km", POWER},
        {12, "z", "km", POWER},
        {13, "rate of x", "km/s", POWER},
        {14, "antenna dx", "m", POWER},
        {15, "antenna dy", "m", POWER},
        {0, NULL, NULL, 0},
    },
    {
        {10, "antenna dz", "m", POWER},
        {11, "rate of y", "km/s", POWER},
        {12, "rate of z", "km/s", POWER},
        {13, "acceleration of x", "km/s^2", POWER},
        {14, "acceleration of y", "km/s^2", POWER},
        {15, "acceleration of z", "km/s^2", POWER},
        {16, "L2 shift: time of L2OCp less that of L1OCd", "s", POWER},
        {17, "GPS shift: GPS less GLONASS time, part of 1 s", "s", POWER},
        {0, NULL, NULL, 0},
    },
};

/* Prints a field. The record was read and the field has what is asked for, so that no call is refused. */
static void print_field(const struct field *field, struct l1oc_record record)
{
    int64_t count = record.numbers[field->number - 10];

    printf("%-46s ", field->name);
    if (field->count == POWER) {
        printf("%.17g", l1oc_scaled(record, field->number).scaled);
    } else if (field->count == ACCURACY && l1oc_accuracy(count).value == 0) {
        printf("undefined\n");
        return;
    } else if (field->count == ACCURACY) {
        printf("%" PRIu64, l1oc_accuracy(count).value);
    } else {
        printf("%" PRId64, count * field->count);
    }
    printf("%s%s\n", *field->unit == '\0' ? "" : " ", field->unit);
}

static const char *good(int flags)
{
    return flags == 0 ? "good" : "not good";
}

static void print_set(const struct l1oc_set *set, size_t place)
{
    const struct l1oc_record *const records[3] = {&set->first, &set->second, &set->third};
    const struct field *field;
    int i;

    printf("satellite %d: set at bit %zu, from %" PRIu64 " s of the day, signal %s, data %s\n", set->first.satellite, place,
           2 * set->first.time, good(set->first.signal | set->second.signal | set->third.signal),
           good(set->first.validity | set->second.validity | set->third.validity));
    for (i = 0; i < 3; i++) {
        for (field = fields[i]; field->name != NULL; field++) {
            print_field(field, *records[i]);
        }
    }
}

int main(int argc, char **argv)
{
    static struct recording recording;
    unsigned long satellite;
    char *end;
    size_t i;

    if (argc != 3) {
        fprintf(stderr, "usage: satellite RECORDING J\n");
        return 2;
    }
    satellite = strtoul(argv[2], &end, 10);
    if (*argv[2] < '0' || *argv[2] > '9' || *end != '\0' || satellite < 1 || satellite > 63) {
        fprintf(stderr, "satellite: J is not a number from 1 to 63: '%s'\n", argv[2]);
        return 2;
    }
    take_recording(&recording, "satellite", argv[1]);
    list_recording(&recording, "satellite", L1OC_STRAIGHT);
    for (i = 0; i < recording.strings; i++) {
        /* refused where no set stands, and where a string of it is damaged */
        struct l1oc_set_reading reading =
            l1oc_read_set(recording.bytes, recording.length, 8 * recording.length, L1OC_STRAIGHT, recording.starts[i]);

        if (reading.number == 0 && reading.content.first.satellite == satellite) {
            print_set(&reading.content, recording.starts[i]);
            return 0;
        }
    }
    fprintf(stderr, "satellite: there is no whole set of satellite %lu in the recording\n", satellite);
    return 1;
}
