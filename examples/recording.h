/* What the examples share: a recording from a file, and the starts of its strings in a phase. */
#include <errno.h>
#include <inttypes.h>
#include <stdio.h>
#include <stdlib.h>
#include <string.h>
#include "l1oc.h"

struct recording {
    uint8_t bytes[L1OC_MAX_BYTES + 1]; /* one more, so that a recording that is too long is seen */
    size_t length;
    uint32_t starts[L1OC_MAX_STARTS];
    size_t strings;
};

/* Takes the recording of a file, or of standard input without a name. Where that fails it says why and ends the program. */
static void take_recording(struct recording *recording, const char *program, const char *name)
{
    FILE *input = name == NULL ? stdin : fopen(name, "rb");

    if (input != NULL) {
        recording->length = fread(recording->bytes, 1, sizeof recording->bytes, input);
    }
    if (input == NULL || ferror(input)) {
        fprintf(stderr, "%s: %s: %s\n", program, name == NULL ? "standard input" : name, strerror(errno));
        exit(1);
    }
    if (input != stdin) {
        fclose(input);
    }
}

/* Lists the recording in a phase. Where that is refused it says why and ends the program. */
static void list_recording(struct recording *recording, const char *program, uint32_t phase)
{
    struct l1oc_answer answer =
        l1oc_list(recording->bytes, recording->length, 8 * recording->length, phase, recording->starts, L1OC_MAX_STARTS);

    if (answer.number == L1OC_TOO_LONG) {
        fprintf(stderr, "%s: the recording is longer than %d bits\n", program, L1OC_MAX_BITS);
        exit(1);
    }
    if (answer.number != 0) { /* never: the count is that of the bytes, and the list is long enough for every recording */
        fprintf(stderr, "%s: listing is refused with %" PRIu64 ", %" PRIu64 "\n", program, answer.number, answer.value);
        exit(1);
    }
    recording->strings = (size_t)answer.value;
}
