/*
 * Tells the phase of a recording, the one in which more strings stand, and prints the first string that reads in it.
 *
 *     cc -std=c99 -Iinclude examples/phase.c crates/l1oc/out/libl1oc.a -o phase
 *     ./phase recording.bin        (or: ./phase <recording.bin)
 */
#include "recording.h"

/* Prints the first string that reads. */
static void print_first(const struct recording *recording, uint32_t phase)
{
    size_t i;

    for (i = 0; i < recording->strings; i++) {
        size_t place = recording->starts[i];
        struct l1oc_reading reading = l1oc_read(recording->bytes, recording->length, 8 * recording->length, phase, place);

        /* refused where a field is out of its range, or an almanac is of another orbit */
        if (reading.number == 0) {
            printf("bit %zu, satellite %d, type %d, %" PRIu64 " s of the day\n", place, reading.content.satellite, reading.content.kind,
                   2 * reading.content.time);
            return;
        }
    }
    printf("none of them reads\n");
}

int main(int argc, char **argv)
{
    static struct recording recording;
    uint32_t phase = L1OC_STRAIGHT;
    size_t straight;
    size_t inverted;

    if (argc > 2) {
        fprintf(stderr, "usage: phase [recording]\n");
        return 2;
    }
    take_recording(&recording, "phase", argv[1]);
    list_recording(&recording, "phase", L1OC_STRAIGHT);
    straight = recording.strings;
    list_recording(&recording, "phase", L1OC_INVERTED);
    inverted = recording.strings;
    printf("strings: %zu straight, %zu inverted\n", straight, inverted);
    if (straight == inverted) {
        fprintf(stderr, "phase: it can't be told: %s\n",
                straight == 0 ? "there are no strings" : "as many stand in one phase as in the other");
        return 1;
    }
    if (inverted > straight) {
        phase = L1OC_INVERTED;
    }
    printf("the recording is %s\n", phase == L1OC_INVERTED ? "inverted" : "straight");
    list_recording(&recording, "phase", phase);
    print_first(&recording, phase);
    return 0;
}
