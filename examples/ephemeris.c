/*
 * Prints clock and position of the satellites in a recording: of each string of type 10, 11 or 12 one field in physical units.
 *
 *     cc -std=c99 -Iinclude examples/ephemeris.c crates/l1oc/out/libl1oc.a -o ephemeris
 *     ./ephemeris recording.bin        (or: ./ephemeris <recording.bin)
 */
#include "recording.h"

/* The field that is printed of each type: its number in the record, its name and unit. */
struct shown {
    uint8_t kind;
    size_t field;
    const char *name;
    const char *unit;
};

static const struct shown shown[] = {
    {10, 21, "tau", "s"},
    {11, 10, "x", "km"},
    {12, 11, "y rate", "km/s"},
};

/* Prints the field of the string at a place; 0 unless the string cannot be read. */
static int print_string(const uint8_t *bytes, size_t length, size_t place)
{
    struct l1oc_reading reading = l1oc_read(bytes, length, 8 * length, L1OC_STRAIGHT, place);
    size_t i;

    if (reading.number != 0) {
        fprintf(stderr, "ephemeris: the string at bit %zu is refused with %" PRIu64 ", %" PRIu64 "\n", place, reading.number,
                reading.value);
        return 1;
    }
    for (i = 0; i < sizeof shown / sizeof shown[0]; i++) {
        if (shown[i].kind == reading.content.kind) {
            struct l1oc_value value = l1oc_scaled(reading.content, shown[i].field);

            /* the record was just read and the field has a power of two, so this is never refused */
            if (value.number != 0) {
                fprintf(stderr, "ephemeris: field %zu is refused with %" PRIu64 ", %" PRIu64 "\n", shown[i].field, value.number,
                        value.value);
                return 1;
            }
            printf("bit %zu, satellite %d, type %d: %s = %.17g %s\n", place, reading.content.satellite, reading.content.kind, shown[i].name,
                   value.scaled, shown[i].unit);
        }
    }
    return 0;
}

int main(int argc, char **argv)
{
    static struct recording recording;
    size_t i;
    int failed = 0;

    if (argc > 2) {
        fprintf(stderr, "usage: ephemeris [recording]\n");
        return 2;
    }
    take_recording(&recording, "ephemeris", argv[1]);
    list_recording(&recording, "ephemeris", L1OC_STRAIGHT);
    fprintf(stderr, "ephemeris: %zu strings\n", recording.strings);
    for (i = 0; i < recording.strings; i++) {
        failed |= print_string(recording.bytes, recording.length, recording.starts[i]);
    }
    return failed;
}
