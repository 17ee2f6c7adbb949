/*
 * Prints the current almanac of each satellite in recordings: a book takes the strings of type 20 of one recording after another.
 *
 *     cc -std=c99 -Iinclude examples/almanac.c crates/l1oc/out/libl1oc.a -o almanac
 *     ./almanac earlier.bin later.bin
 */
#include "recording.h"

/* How many almanacs a book has taken, and how many it has passed over. */
struct counts {
    unsigned long taken;
    unsigned long passed_over;
};

/* Offers each almanac of a straight recording to the book, in the order in which they stand. */
static void offer_recording(struct l1oc_book *book, const struct recording *recording, struct counts *counts)
{
    size_t i;

    for (i = 0; i < recording->strings; i++) {
        struct l1oc_reading reading =
            l1oc_read(recording->bytes, recording->length, 8 * recording->length, L1OC_STRAIGHT, recording->starts[i]);
        struct l1oc_answer answer;

        /* refused where a field is out of its range, or an almanac is of another orbit */
        if (reading.number != 0 || reading.content.kind != 20) {
            continue;
        }
        answer = l1oc_offer(book, reading.content);
        if (answer.number != 0) { /* never: a record of type 20 that was read is not refused */
            fprintf(stderr, "almanac: offering is refused with %" PRIu64 ", %" PRIu64 "\n", answer.number, answer.value);
            exit(1);
        }
        if (answer.value == L1OC_TAKEN) {
            counts->taken++;
        } else {
            counts->passed_over++;
        }
    }
}

/* The value of a field. The record was read and the field has a power of two, so that no call is refused. */
static double scaled(const struct l1oc_record *record, size_t field)
{
    return l1oc_scaled(*record, field).scaled;
}

/* Names and units: lambda is the longitude of the ascending node, `at` its time in the day, omega the argument of the perigee. */
static void print_head(void)
{
    printf("%9s %5s %5s %10s %12s %12s %13s %9s %10s\n", "satellite", "day", "age", "lambda", "at", "inclination", "eccentricity", "omega",
           "period");
    printf("%9s %5s %5s %10s %12s %12s %13s %9s %10s\n", "", "", "days", "degrees", "s", "degrees", "", "degrees", "s");
}

/* Prints an almanac, with half-cycles as degrees. */
static void print_almanac(const struct l1oc_record *record)
{
    printf("%9d %5" PRId64 " %5" PRId64 " %10.4f %12.5f %12.4f %13.7f %9.3f %10.3f\n", record->satellite, record->numbers[13 - 10],
           record->numbers[12 - 10], 180 * scaled(record, 17), scaled(record, 18), 64.8 + 180 * scaled(record, 19), scaled(record, 20),
           180 * scaled(record, 21), 40544 + scaled(record, 22));
}

int main(int argc, char **argv)
{
    static struct recording recording;
    static struct l1oc_book book; /* the empty one: it is all 0 */
    struct counts counts = {0, 0};
    size_t satellite;
    int i;

    if (argc < 2) {
        fprintf(stderr, "usage: almanac RECORDING...\n");
        return 2;
    }
    for (i = 1; i < argc; i++) {
        take_recording(&recording, "almanac", argv[i]);
        list_recording(&recording, "almanac", L1OC_STRAIGHT);
        offer_recording(&book, &recording, &counts);
    }
    if (counts.taken == 0) {
        fprintf(stderr, "almanac: there is no almanac that reads in the recordings\n");
        return 1;
    }
    printf("almanacs: %lu taken, %lu passed over\n", counts.taken, counts.passed_over);
    print_head();
    for (satellite = 1; satellite <= L1OC_SATELLITES; satellite++) {
        struct l1oc_book_entry entry = l1oc_entry(&book, satellite);

        if (entry.held != 0) {
            print_almanac(&entry.content);
        }
    }
    return 0;
}
