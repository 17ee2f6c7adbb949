/*
 * Holds include/l1oc.h against the library: the layout of every struct, and calls of every function with arguments that differ. What
 * they should give is written out from the papers, the bytes of strings in hexadecimal. It is C99 and C++.
 *
 * A function that joins the header is declared here again and gets a test: `test_` and its name without `l1oc_`.
 */
#include <inttypes.h>
#include <stdio.h>
#include <string.h>
#include "l1oc.h"
#include "l1oc.h" /* twice, which has to do no harm */

/* The functions once more: the compiler compares their types, `run` the names and the order of their arguments. */
#ifdef __cplusplus
extern "C" {
#endif
struct l1oc_answer l1oc_list(const uint8_t *bytes, size_t length, size_t count, uint32_t phase, uint32_t *list, size_t room);
struct l1oc_reading l1oc_read(const uint8_t *bytes, size_t length, size_t count, uint32_t phase, size_t place);
struct l1oc_answer l1oc_write(uint8_t *bytes, size_t length, size_t count, size_t place, struct l1oc_record content);
struct l1oc_set_reading l1oc_read_set(const uint8_t *bytes, size_t length, size_t count, uint32_t phase, size_t place);
struct l1oc_answer l1oc_write_set(uint8_t *bytes, size_t length, size_t count, size_t place, struct l1oc_set content);
struct l1oc_value l1oc_scaled(struct l1oc_record content, size_t field);
struct l1oc_answer l1oc_accuracy(int64_t factor);
struct l1oc_answer l1oc_day_count(int64_t n4, int64_t nt);
struct l1oc_answer l1oc_offer(struct l1oc_book *book, struct l1oc_record content);
struct l1oc_book_entry l1oc_entry(const struct l1oc_book *book, size_t satellite);
#ifdef __cplusplus
}
#endif

static int checks;
static int failures;

#define CHECK(condition) check((condition) ? 1 : 0, #condition, __LINE__)

static void check(int holds, const char *condition, int line)
{
    checks++;
    if (!holds && failures++ < 20) {
        printf("header.c:%d: %s\n", line, condition);
    }
}

/* ---- layout ---- */

typedef int64_t sixteen_numbers[16];
typedef uint8_t raw_bytes[38];
typedef struct l1oc_book_entry entries_of_63[63];

/* A member's type, which has to be the pointer's, its offset and its size. */
#define MEMBER(of, type, name, offset, size)          \
    do {                                              \
        static struct of whole;                       \
        type *member = &whole.name;                   \
                                                      \
        CHECK(offsetof(struct of, name) == (offset)); \
        CHECK(sizeof *member == (size));              \
    } while (0)

static void layout(void)
{
    CHECK(sizeof(struct l1oc_answer) == 16);
    MEMBER(l1oc_answer, uint64_t, number, 0, 8);
    MEMBER(l1oc_answer, uint64_t, value, 8, 8);

    CHECK(sizeof(struct l1oc_record) == 184);
    MEMBER(l1oc_record, uint8_t, kind, 0, 1);
    MEMBER(l1oc_record, uint8_t, satellite, 1, 1);
    MEMBER(l1oc_record, uint8_t, signal, 2, 1);
    MEMBER(l1oc_record, uint8_t, validity, 3, 1);
    MEMBER(l1oc_record, uint8_t, call, 4, 1);
    MEMBER(l1oc_record, uint8_t, attitude, 5, 1);
    MEMBER(l1oc_record, uint8_t, correction, 6, 1);
    MEMBER(l1oc_record, uint8_t, next, 7, 1);
    MEMBER(l1oc_record, uint64_t, time, 8, 8);
    MEMBER(l1oc_record, sixteen_numbers, numbers, 16, 128);
    MEMBER(l1oc_record, uint16_t, minus, 144, 2);
    MEMBER(l1oc_record, raw_bytes, raw, 146, 38);

    CHECK(sizeof(struct l1oc_reading) == 200);
    MEMBER(l1oc_reading, uint64_t, number, 0, 8);
    MEMBER(l1oc_reading, uint64_t, value, 8, 8);
    MEMBER(l1oc_reading, struct l1oc_record, content, 16, 184);

    CHECK(sizeof(struct l1oc_set) == 552);
    MEMBER(l1oc_set, struct l1oc_record, first, 0, 184);
    MEMBER(l1oc_set, struct l1oc_record, second, 184, 184);
    MEMBER(l1oc_set, struct l1oc_record, third, 368, 184);

    CHECK(sizeof(struct l1oc_set_reading) == 568);
    MEMBER(l1oc_set_reading, uint64_t, number, 0, 8);
    MEMBER(l1oc_set_reading, uint64_t, value, 8, 8);
    MEMBER(l1oc_set_reading, struct l1oc_set, content, 16, 552);

    CHECK(sizeof(struct l1oc_book_entry) == 192);
    MEMBER(l1oc_book_entry, uint64_t, held, 0, 8);
    MEMBER(l1oc_book_entry, struct l1oc_record, content, 8, 184);

    CHECK(sizeof(struct l1oc_book) == 12096);
    MEMBER(l1oc_book, entries_of_63, entries, 0, 12096);

    CHECK(sizeof(struct l1oc_value) == 24);
    MEMBER(l1oc_value, uint64_t, number, 0, 8);
    MEMBER(l1oc_value, uint64_t, value, 8, 8);
    MEMBER(l1oc_value, double, scaled, 16, 8);
}

static void constants(void)
{
    CHECK(L1OC_MAX_BITS == 524288);
    CHECK(L1OC_MAX_BYTES == 65536);
    CHECK(L1OC_MAX_STARTS >= 4194); /* so many strings of 125 bits fit */
    CHECK(L1OC_NUMBERS == 16);
    CHECK(L1OC_RAW_BYTES == 38);
    CHECK(L1OC_RECORD_BYTES == 184);
    CHECK(L1OC_SET_BITS == 750);
    CHECK(L1OC_SATELLITES == 63);
    CHECK(L1OC_BOOK_BYTES == 12096);
    CHECK(L1OC_STRAIGHT == 0);
    CHECK(L1OC_INVERTED == 1);
    CHECK(L1OC_TOO_LONG == 1);
    CHECK(L1OC_BEYOND_BYTES == 2);
    CHECK(L1OC_BEYOND_COUNT == 3);
    CHECK(L1OC_NO_MARK == 4);
    CHECK(L1OC_RUNS_OUT == 5);
    CHECK(L1OC_CHECK_FAILS == 6);
    CHECK(L1OC_OUT_OF_RANGE == 7);
    CHECK(L1OC_OTHER_ORBIT == 8);
    CHECK(L1OC_LIST_SHORT == 9);
    CHECK(L1OC_MINUS_ZERO == 10);
    CHECK(L1OC_NOT_ZERO == 11);
    CHECK(L1OC_OTHER_TYPES == 12);
    CHECK(L1OC_OTHER_SATELLITES == 13);
    CHECK(L1OC_OTHER_TIMES == 14);
    CHECK(L1OC_NOT_ALMANAC == 15);
    CHECK(L1OC_PASSED_OVER == 0);
    CHECK(L1OC_TAKEN == 1);
}

/* ---- strings and records ---- */

enum {
    STRINGS = 8,
    FIELDS = 25,
    BYTES = 47 /* of the longest string */
};

struct string {
    size_t bits;
    const char *bytes;  /* hexadecimal, filled up with zeros */
    size_t fields;      /* how many it has, service fields too */
    int64_t of[FIELDS]; /* fields 1 to 25 */
    int power[FIELDS];  /* one count is 2 to the minus this; 0 where a field has no power */
    unsigned minus;
    const char *raw; /* hexadecimal */
};

/* A string of each shape. No two members of a record are the same in all of them. */
static const struct string strings[STRINGS] = {
    {250, "5f12b3a52a2fcf34ad5dde4a137cdecf26563c484a0003ba517521afe84e5b40", 25,
     {10, 51, 1, 0, 9, 0, 2, 0, 43199, 7, 1234, 5, 42, 955, 201, 66, 1, 2, -15, 6, -1987654321, -201234, 0, 512345678901, -4001},
     {0, 0, 0, 0, 0, 0, 0, 0, 0, 0, 0, 0, 0, 0, 0, 0, 0, 0, 0, 0, 38, 48, 57, 31, 49}, 1u << 13, ""},
    {250, "5f12cc589518574876e8007176592e00a0000000003dcd65001bfef8016ec140", 16,
     {11, 12, 0, 1, 6, 0, 1, 0, 21601, 400000000001, -300000000002, 0, -16000000003, 4091, -3072, 5},
     {0, 0, 0, 0, 0, 0, 0, 0, 0, 20, 20, 20, 30, 10, 10}, 1u << 2, ""},
    {250, "5f133f3e208d68029502f8ffe00000000bfffbffe0003ffff77359402ac99c00", 18,
     {12, 63, 0, 0, 15, 1, 0, 0, 33333, -1025, 9999999999, -1, 16383, -8191, 0, -131071, 500000000, 171},
     {0, 0, 0, 0, 0, 0, 0, 0, 0, 10, 30, 30, 39, 39, 39, 38, 38}, 0, ""},
    {250, "5f151805c4004621b6b57fff3ffffeb1101fff3fffc0007fffe7f5555543cd40", 24,
     {20, 24, 0, 0, 1, 0, 3, 1, 4097, 0, 24, 33, 1461, 21, 3, -8190, 1048575, 1411200, -16380, 32767, 0, -262142, 63, 5592405},
     {0, 0, 0, 0, 0, 0, 0, 0, 0, 0, 0, 0, 0, 0, 0, 20, 20, 5, 20, 20, 15, 9, 14}, 1u << 11, ""},
    {250, "5f1641e100408b73fffffff3fffcfff7fffffdfffffffd03e925aaaaaa84c540", 24,
     {25, 1, 1, 1, 8, 0, 2, 0, 258, 366, 32767, -32766, 255, -254, 63, -62, -16777215, 511, -127, 511, 8000, 500, -37, 44739242},
     {0, 0, 0, 0, 0, 0, 0, 0, 0, 0, 14, 14, 14, 14, 14, 14, 16, 16, 16, 7, 4}, 0, ""},
    {250, "5f100513c018c44d96e02972bbc50e57a0ea337c85cf1861aaf43d468ff33480", 9,
     {0, 5, 0, 0, 4, 1, 3, 1, 99}, {0}, 0, "11365b80a5caef14395e83a8cdf2173c6186abd0f51a3f"},
    {125, "5f10668a00107c4396a9605f8f399a10", 9,
     {1, 38, 1, 0, 2, 1, 0, 0, 65}, {0}, 0, "f10e5aa5817e3ce0"},
    {375, "5f10a16ccc0e7230efae6d2beaa96826e5a46321e09f5e1cdb9a5917d6955412d1904f0dcc8b4a08c786452e02b7b4", 9,
     {2, 33, 0, 1, 11, 0, 1, 1, 12345}, {0}, 0, "c8c3beb9b4afaaa5a09b96918c87827d78736e69645f5a55504b46413c37322d28231e1914b8"},
};

/* The last of them at place 13 of 60 bytes that were all a5. */
static const char placed[] =
    "a5a2f8850b66607391877d73695f554b41372d23190f04faf0e6dcd2c8beb4aaa0968c82786e645a50463c32297015bda5a5a5a5a5a5a5a5a5a5a5a5";

/* Strings with j 0, OMB 43200, tb 960, and another orbit, which reading refuses. */
static const struct {
    const char *bytes;
    uint64_t number;
    uint64_t value;
} wrong[] = {
    {"5f1000000000000000000000000000000000000000000000000000000013ad00", 7, 2},
    {"5f1005002a3000000000000000000000000000000000000000000000002f70c0", 7, 9},
    {"5f12b3a52a2fcf34ad5e064a137cdecf26563c484a0003ba517521afe841d480", 7, 14},
    {"5f151805c4006621b6b57fff3ffffeb1101fff3fffc0007fffe7f55555777e40", 8, 10},
};

/* Bytes from hexadecimal digits, and how many there are. */
static size_t from_hex(const char *digits, uint8_t *bytes)
{
    size_t length = strlen(digits) / 2;
    size_t i;

    for (i = 0; i < length; i++) {
        unsigned byte = 0;

        sscanf(digits + 2 * i, "%2x", &byte);
        bytes[i] = (uint8_t)byte;
    }
    return length;
}

/* Puts a number into a field, by document 01's number of the field. */
static void set(struct l1oc_record *record, size_t field, int64_t number)
{
    switch (field) {
    case 1: record->kind = (uint8_t)number; break;
    case 2: record->satellite = (uint8_t)number; break;
    case 3: record->signal = (uint8_t)number; break;
    case 4: record->validity = (uint8_t)number; break;
    case 5: record->call = (uint8_t)number; break;
    case 6: record->attitude = (uint8_t)number; break;
    case 7: record->correction = (uint8_t)number; break;
    case 8: record->next = (uint8_t)number; break;
    case 9: record->time = (uint64_t)number; break;
    default: record->numbers[field - 10] = number;
    }
}

static struct l1oc_record record_of(const struct string *string)
{
    struct l1oc_record record;
    size_t field;

    memset(&record, 0, sizeof record);
    for (field = 1; field <= FIELDS; field++) {
        set(&record, field, string->of[field - 1]);
    }
    record.minus = (uint16_t)string->minus;
    from_hex(string->raw, record.raw);
    return record;
}

/* Records that writing, scaling and offering refuse. */
static struct {
    struct l1oc_record record;
    uint64_t number;
    uint64_t value;
} refused[200];
static size_t refusals;

static struct l1oc_record *refuse(const struct string *string, uint64_t number, uint64_t value)
{
    size_t i = refusals++;

    refused[i].record = record_of(string);
    refused[i].number = number;
    refused[i].value = value;
    return &refused[i].record;
}

static void make_refused(void)
{
    size_t field;
    size_t i;

    /* each field above its range; OMB by so much that only the highest of its bits show it */
    for (i = 0; i < STRINGS; i++) {
        for (field = 1; field <= strings[i].fields; field++) {
            set(refuse(&strings[i], 7, field), field, field < 9 ? 255 : INT64_MAX);
        }
        refuse(&strings[i], 7, 9)->time = 43200;
        refuse(&strings[i], 7, 9)->time = UINT64_C(1) << 16;
        refuse(&strings[i], 7, 9)->time = UINT64_C(1) << 32;
        refuse(&strings[i], 7, 9)->time = UINT64_C(1) << 63;
        refuse(&strings[i], 7, 9)->time = UINT64_MAX;
    }
    refuse(&strings[0], 7, 2)->satellite = 0;
    refuse(&strings[3], 8, 10)->numbers[0] = 1;
    /* a number, a raw byte and a filling bit that the type does not use */
    refuse(&strings[5], 11, 0)->numbers[15] = -1;
    refuse(&strings[0], 11, 0)->raw[37] = 1;
    refuse(&strings[6], 11, 0)->raw[7] |= 0x10;
    refuse(&strings[7], 11, 0)->raw[37] |= 0x04;
    /* minus zero on an unsigned, an absent and a non-zero field */
    refuse(&strings[0], 10, 4)->minus |= 1u << 4;
    refuse(&strings[1], 10, 15)->minus |= 1u << 15;
    refuse(&strings[2], 10, 1)->minus |= 1u << 1;
}

/* ---- sets ---- */

/* The first three strings end to end, with j 51 and OMB 43199, 0, 1. */
static const char set_bytes[] =
    "5f12b3a52a2fcf34ad5dde4a137cdecf26563c484a0003ba517521afe84e5b57c4bcd6200005d21dba001c5d964b"
    "8028000000000f73594006ffbe0057a825f13333e000068029502f8ffe00000000bfffbffe0003ffff77359402ac4938";

/* The same at place 13 of 100 bytes that were all a5. */
static const char placed_set[] =
    "a5a2f8959d29517e79a56aeef2509be6f67932b1e24250001dd28ba90d7f4272dabe25e6b100002e90edd000e2ecb25c01"
    "40000000007b9aca0037fdf002bd412f89999f000034014a817c7ff000000005fffdfff0001ffffbb9aca0156249c5a5a5a5a5";

/* Three of the strings above as records of satellite 51, with OMB 43199, 0, 1. */
static struct l1oc_set set_of(size_t first, size_t second, size_t third)
{
    struct l1oc_set set;

    set.first = record_of(&strings[first]);
    set.second = record_of(&strings[second]);
    set.third = record_of(&strings[third]);
    set.first.satellite = set.second.satellite = set.third.satellite = 51;
    set.first.time = 43199;
    set.second.time = 0;
    set.third.time = 1;
    return set;
}

/* Sets that are refused though each record passes. */
static struct {
    struct l1oc_set set;
    uint64_t number;
} refused_sets[20];
static size_t set_refusals;

static struct l1oc_set *refuse_set(struct l1oc_set set, uint64_t number)
{
    size_t i = set_refusals++;

    refused_sets[i].set = set;
    refused_sets[i].number = number;
    return &refused_sets[i].set;
}

static void make_refused_sets(void)
{
    struct l1oc_set *both;

    /* other types: exchanged, one for another, and shorter and longer strings */
    refuse_set(set_of(1, 0, 2), 12);
    refuse_set(set_of(0, 2, 1), 12);
    refuse_set(set_of(0, 0, 2), 12);
    refuse_set(set_of(0, 1, 3), 12);
    refuse_set(set_of(6, 1, 2), 12);
    refuse_set(set_of(7, 1, 2), 12);
    refuse_set(set_of(0, 6, 2), 12);
    refuse_set(set_of(0, 7, 2), 12);
    refuse_set(set_of(0, 1, 6), 12);
    refuse_set(set_of(0, 1, 7), 12);
    /* another satellite in each place */
    refuse_set(set_of(0, 1, 2), 13)->first.satellite = 50;
    refuse_set(set_of(0, 1, 2), 13)->second.satellite = 52;
    refuse_set(set_of(0, 1, 2), 13)->third.satellite = 1;
    /* another OMB in each place */
    refuse_set(set_of(0, 1, 2), 14)->first.time = 43198;
    refuse_set(set_of(0, 1, 2), 14)->second.time = 43199;
    refuse_set(set_of(0, 1, 2), 14)->third.time = 2;
    /* two at once */
    refuse_set(set_of(0, 1, 1), 12)->second.satellite = 52;
    refuse_set(set_of(2, 1, 2), 12)->third.time = 0;
    both = refuse_set(set_of(0, 1, 2), 13);
    both->third.satellite = 52;
    both->second.time = 1;
}

/* ---- books ---- */

/* A book with numbers on both sides: the one that is lent, and what it should be afterwards. */
struct guarded {
    uint64_t before[3];
    struct l1oc_book book;
    uint64_t after[3];
};

static struct guarded lent_book;
static struct guarded wanted_book;

static struct l1oc_book empty_book; /* all 0 */

/* Lends a copy of a book. */
static void lend_book(const struct l1oc_book *book)
{
    memset(&lent_book, 0xa5, sizeof lent_book);
    lent_book.book = *book;
    wanted_book = lent_book;
}

/* Whether the lent book and the numbers beside it are as they should be, in every byte. */
static int book_left(void)
{
    return memcmp(&lent_book, &wanted_book, sizeof lent_book) == 0;
}

/* The fourth string as a record of this satellite, age and day. */
static struct l1oc_record almanac(int64_t satellite, int64_t age, int64_t day)
{
    struct l1oc_record record = record_of(&strings[3]);

    set(&record, 2, satellite);
    set(&record, 12, age);
    set(&record, 13, day);
    return record;
}

/* Records that are offered in turn, the first of them to an empty book: 1 where it is taken, 0 where it is passed over. */
static const struct {
    int64_t satellite;
    int64_t age;
    int64_t day;
    uint64_t taken;
} offered[] = {
    {24, 33, 1461, 1}, /* the first that comes */
    {24, 33, 1461, 0}, /* equal ages */
    {24, 34, 1461, 0},
    {24, 32, 1461, 1}, /* a smaller age */
    {24, 0, 1460, 0},  /* 1460 days later */
    {24, 0, 731, 0},   /* 731 */
    {24, 63, 730, 1},  /* 730 */
    {24, 0, 1461, 0},
    {24, 63, 731, 1}, /* 1 */
    {24, 63, 1461, 1},
    {24, 63, 1, 1},
    {24, 0, 1461, 0},
    {63, 63, 732, 1}, /* other satellites, the last and the first among them */
    {1, 0, 1461, 1},
    {23, 7, 700, 1},
    {25, 7, 1460, 1},
    {24, 0, 1, 1},
    {1, 0, 1461, 0},
    {63, 62, 732, 1},
    {63, 0, 2, 0},  /* 731 days later, past the interval's end */
    {63, 63, 1, 1}, /* 730 */
    {2, 5, 1, 1},   /* each 487 days after the one before, round and round */
    {2, 5, 488, 1},
    {2, 5, 975, 1},
    {2, 5, 1, 1},
    {2, 5, 488, 1},
};

/* Held days and ages that no record has which was taken, and a record offered beside them. */
static const struct {
    int64_t held_age;
    int64_t held_day;
    int64_t age;
    int64_t day;
    uint64_t taken;
} held[] = {
    {0, 0, 0, 1, 1},
    {0, 0, 0, 730, 1},
    {0, 0, 0, 731, 0},
    {1, 0, 0, 1461, 1}, /* 1461 days later: 0 */
    {0, 0, 0, 1461, 0},
    {7, 1462, 6, 1, 1},
    {7, 1462, 7, 1, 0},
    {7, 1462, 8, 2, 1},
    {7, -1460, 6, 1, 1},
    {7, -1460, 7, 1, 0},
    {7, -1460, 6, 1461, 0},
    {0, INT64_MIN, 0, 1319, 1}, /* INT64_MIN is 1318 modulo 1461 */
    {0, INT64_MIN, 0, 587, 1},
    {0, INT64_MIN, 0, 588, 0},
    {0, INT64_MIN, 0, 1317, 0},
    {1, INT64_MIN, 0, 1318, 1},
    {0, INT64_MIN, 0, 1318, 0},
    {0, INT64_MAX, 0, 143, 1}, /* INT64_MAX is 142 */
    {0, INT64_MAX, 0, 872, 1},
    {0, INT64_MAX, 0, 873, 0},
    {0, INT64_MAX, 0, 141, 0},
    {1, INT64_MAX, 0, 142, 1},
    {0, INT64_MAX, 0, 142, 0},
    {0, INT64_C(4294967297), 0, 1, 1}, /* 1 in 32 bits, and 1313 modulo 1461 */
    {-1, 100, 0, 100, 0},
    {INT64_MIN, 100, 63, 100, 0},
    {INT64_MAX, 100, 63, 100, 1},
    {INT64_C(4294967296), 100, 63, 100, 1}, /* 0 in 32 bits */
};

/* Numbers that say that a record is held; some are 0 in their lowest bit, byte or half. */
static const uint64_t flags[] = {1, 2, 0x100, UINT64_C(1) << 32, UINT64_C(1) << 63, UINT64_MAX};

enum {
    OFFERED = sizeof offered / sizeof offered[0],
    HELD = sizeof held / sizeof held[0],
    FLAGS = sizeof flags / sizeof flags[0]
};

/* ---- phases ---- */

/* The phases, and numbers that are neither, which count as inverted; some are 0 in their lowest bit, byte or half. */
static const uint32_t phases[] = {0, 1, 2, 3, 0x100, 0x10000, 0x80000000, 0xfffffffe, 0xffffffff};

enum {
    PHASES = sizeof phases / sizeof phases[0]
};

static uint32_t other_phase(uint32_t phase)
{
    return phase == 0 ? 1 : 0;
}

/* Turns bytes as they are sent into bytes as they are recorded in the phase, and back. */
static void turn(uint32_t phase, uint8_t *bytes, size_t length)
{
    size_t i;

    for (i = 0; phase != 0 && i < length; i++) {
        bytes[i] = (uint8_t)(255 - bytes[i]);
    }
}

/* ---- memory ---- */

enum {
    JUNK = 0xa5,
    GUARD = 11
};

static uint8_t memory[GUARD + 100 + GUARD];

/* Lends a copy of some bytes, with junk on both sides. */
static uint8_t *lend(const uint8_t *bytes, size_t length)
{
    memset(memory, JUNK, sizeof memory);
    memcpy(memory + GUARD, bytes, length);
    return memory + GUARD;
}

/* Whether the lent bytes are these now, and the junk is as it was. */
static int left(const uint8_t *bytes, size_t length)
{
    uint8_t wanted[sizeof memory];

    memset(wanted, JUNK, sizeof wanted);
    memcpy(wanted + GUARD, bytes, length);
    return memcmp(memory, wanted, sizeof wanted) == 0;
}

/* One byte more than the longest recording has. */
static uint8_t longest[65537];

/* By pointers that the compiler has to follow, so that it leaves no junk out. */
static void *(*volatile fill)(void *, int, size_t) = memset;

static void junk_frame(void)
{
    uint8_t frame[16384];

    fill(frame, JUNK, sizeof frame);
}

static void (*volatile junk_stack)(void) = junk_frame;

/* Reads with junk where the call has its frame and where the result goes. */
static struct l1oc_reading read_over_junk(const uint8_t *bytes, size_t length, size_t count, uint32_t phase, size_t place)
{
    struct l1oc_reading reading;

    fill(&reading, JUNK, sizeof reading);
    junk_stack();
    reading = l1oc_read(bytes, length, count, phase, place);
    return reading;
}

static struct l1oc_set_reading read_set_over_junk(const uint8_t *bytes, size_t length, size_t count, uint32_t phase, size_t place)
{
    struct l1oc_set_reading reading;

    fill(&reading, JUNK, sizeof reading);
    junk_stack();
    reading = l1oc_read_set(bytes, length, count, phase, place);
    return reading;
}

/* ---- functions ---- */

static int answers(struct l1oc_answer answer, uint64_t number, uint64_t value)
{
    return answer.number == number && answer.value == value;
}

static void list_in(uint32_t phase)
{
    /* document 01's recording of the program `list` */
    static const char digits[] =
        "5f100501c018c0000000000000000000000000000000000000000000001aa457c4114060064000000000000000fbfebe"
        "200a000032800000000000000000000000000000000000000000000011a600";
    uint8_t bytes[79];
    size_t length = from_hex(digits, bytes);
    uint8_t *lent;
    static const uint32_t before[6] = {90, 91, 92, 93, 94, 95};
    static const uint32_t after[6] = {90, 0, 250, 375, 94, 95};
    uint32_t list[6];

    turn(phase, bytes, length);
    lent = lend(bytes, length);
    memcpy(list, before, sizeof list);
    CHECK(answers(l1oc_list(longest, 65537, 524289, phase, list + 1, 4), 1, 0));
    CHECK(answers(l1oc_list(lent, length, 633, phase, list + 1, 4), 2, 0));
    CHECK(answers(l1oc_list(lent, length, 632, phase, list + 1, 2), 9, 3));
    CHECK(answers(l1oc_list(lent, length, 624, phase, list + 1, 1), 9, 2)); /* the last string lacks a bit */
    CHECK(answers(l1oc_list(lent, length, 249, phase, list + 1, 4), 0, 0)); /* the first lacks its last bit, which is in the same byte */
    CHECK(answers(l1oc_list(lent, length, 632, other_phase(phase), list + 1, 4), 0, 0));
    CHECK(memcmp(list, before, sizeof list) == 0);
    CHECK(answers(l1oc_list(lent, length, 632, phase, list + 1, 4), 0, 3));
    CHECK(memcmp(list, after, sizeof list) == 0);
    CHECK(left(bytes, length));
    CHECK(answers(l1oc_list(NULL, 0, 0, phase, NULL, 0), 0, 0));
}

static void test_list(void)
{
    size_t i;

    for (i = 0; i < PHASES; i++) {
        list_in(phases[i]);
    }
}

/* A refusal of reading: its number and value, and a record that is 0 in every byte. */
static void refuses_to_read(const uint8_t *bytes, size_t length, size_t count, uint32_t phase, size_t place, uint64_t number,
                            uint64_t value)
{
    static struct l1oc_record blank; /* all 0 */
    struct l1oc_reading reading = read_over_junk(bytes, length, count, phase, place);

    CHECK(reading.number == number);
    CHECK(reading.value == value);
    CHECK(memcmp(&reading.content, &blank, sizeof blank) == 0);
}

static void read_in(uint32_t phase)
{
    uint8_t bytes[60];
    uint8_t *lent;
    size_t length;
    size_t i;

    for (i = 0; i < STRINGS; i++) {
        struct l1oc_record record = record_of(&strings[i]);
        struct l1oc_reading reading;

        length = from_hex(strings[i].bytes, bytes);
        turn(phase, bytes, length);
        lent = lend(bytes, length);
        reading = read_over_junk(lent, length, strings[i].bits, phase, 0);
        CHECK(reading.number == 0);
        CHECK(reading.value == 0);
        CHECK(memcmp(&reading.content, &record, sizeof record) == 0);
        refuses_to_read(lent, length, strings[i].bits, other_phase(phase), 0, 4, 0);
        CHECK(left(bytes, length));

        /* written into the true bytes, it changes none */
        turn(phase, bytes, length);
        lent = lend(bytes, length);
        CHECK(answers(l1oc_write(lent, length, strings[i].bits, 0, reading.content), 0, strings[i].bits));
        CHECK(left(bytes, length));
    }
    for (i = 0; i < sizeof wrong / sizeof wrong[0]; i++) {
        length = from_hex(wrong[i].bytes, bytes);
        turn(phase, bytes, length);
        refuses_to_read(bytes, length, 250, phase, 0, wrong[i].number, wrong[i].value);
    }

    length = from_hex(placed, bytes);
    turn(phase, bytes, length);
    lent = lend(bytes, length);
    CHECK(read_over_junk(lent, length, 471, phase, 13).content.satellite == 33);
    refuses_to_read(longest, 65537, 524289, phase, 13, 1, 0);
    refuses_to_read(lent, length, 481, phase, 13, 2, 0);
    refuses_to_read(lent, length, 471, phase, 472, 3, 472);
    refuses_to_read(lent, length, 471, phase, 454, 5, 454); /* 17 bits are left */
    refuses_to_read(lent, length, 471, phase, 14, 4, 14);
    refuses_to_read(lent, length, 387, phase, 13, 5, 13); /* the string lacks a bit */
    CHECK(left(bytes, length));
    lent[48] ^= 0x10; /* its last bit */
    refuses_to_read(lent, length, 471, phase, 13, 6, 13);
    refuses_to_read(NULL, 0, 0, phase, 0, 5, 0);
}

static void test_read(void)
{
    size_t i;

    for (i = 0; i < PHASES; i++) {
        read_in(phases[i]);
    }
}

static void test_write(void)
{
    static uint8_t zeros[BYTES];
    struct l1oc_record last = record_of(&strings[7]);
    uint8_t before[60];
    uint8_t bytes[60];
    uint8_t *lent;
    size_t length;
    size_t i;

    for (i = 0; i < STRINGS; i++) {
        struct l1oc_record record = record_of(&strings[i]);
        struct l1oc_record read;

        length = from_hex(strings[i].bytes, bytes);
        lent = lend(zeros, length);
        CHECK(answers(l1oc_write(lent, length, strings[i].bits, 0, record), 0, strings[i].bits));
        CHECK(left(bytes, length));
        read = read_over_junk(lent, length, strings[i].bits, L1OC_STRAIGHT, 0).content;
        CHECK(memcmp(&read, &record, sizeof record) == 0);
    }

    memset(before, 0xa5, sizeof before);
    lent = lend(before, 60);
    for (i = 0; i < refusals; i++) {
        CHECK(answers(l1oc_write(lent, 60, 471, 13, refused[i].record), refused[i].number, refused[i].value));
    }
    CHECK(answers(l1oc_write(longest, 65537, 524289, 13, last), 1, 0));
    CHECK(answers(l1oc_write(lent, 60, 481, 13, last), 2, 0));
    CHECK(answers(l1oc_write(lent, 60, 471, 472, last), 3, 472));
    CHECK(answers(l1oc_write(lent, 60, 471, 97, last), 5, 97)); /* it would end at 472 */
    CHECK(left(before, 60));
    CHECK(answers(l1oc_write(NULL, 0, 0, 0, last), 5, 0));

    CHECK(answers(l1oc_write(lent, 60, 471, 13, last), 0, 388));
    from_hex(placed, bytes);
    CHECK(left(bytes, 60));
}

/* A refusal of reading a set: its number and value, and a set that is 0 in every byte. */
static void refuses_to_read_set(const uint8_t *bytes, size_t length, size_t count, uint32_t phase, size_t place, uint64_t number,
                                uint64_t value)
{
    static struct l1oc_set blank; /* all 0 */
    struct l1oc_set_reading reading = read_set_over_junk(bytes, length, count, phase, place);

    CHECK(reading.number == number);
    CHECK(reading.value == value);
    CHECK(memcmp(&reading.content, &blank, sizeof blank) == 0);
}

/* Reads the set of the first three strings. */
static void reads_set(const uint8_t *bytes, size_t length, size_t count, uint32_t phase, size_t place)
{
    struct l1oc_set set = set_of(0, 1, 2);
    struct l1oc_set_reading reading = read_set_over_junk(bytes, length, count, phase, place);

    CHECK(reading.number == 0);
    CHECK(reading.value == 0);
    CHECK(memcmp(&reading.content, &set, sizeof set) == 0);
}

static void read_set_in(uint32_t phase)
{
    uint8_t bytes[120] = {0};
    uint8_t *lent;
    size_t length;
    size_t i;

    length = from_hex(set_bytes, bytes);
    turn(phase, bytes, length);
    lent = lend(bytes, length);
    reads_set(lent, length, 750, phase, 0);
    refuses_to_read_set(lent, length, 750, other_phase(phase), 0, 4, 0);
    CHECK(left(bytes, length));

    /* written into the true bytes, it changes none */
    turn(phase, bytes, length);
    lent = lend(bytes, length);
    CHECK(answers(l1oc_write_set(lent, length, 750, 0, set_of(0, 1, 2)), 0, 750));
    CHECK(left(bytes, length));

    length = from_hex(placed_set, bytes);
    turn(phase, bytes, length);
    lent = lend(bytes, length);
    reads_set(lent, length, 763, phase, 13);
    refuses_to_read_set(longest, 65537, 524289, phase, 13, 1, 0);
    refuses_to_read_set(lent, length, 801, phase, 13, 2, 0);
    refuses_to_read_set(lent, length, 800, phase, 801, 3, 801);
    refuses_to_read_set(lent, length, 800, phase, 783, 5, 783); /* 17 bits are left */
    refuses_to_read_set(lent, length, 800, phase, 12, 4, 12);
    refuses_to_read_set(lent, length, 800, phase, 263, 4, 763); /* the second string is the first, and no third follows */
    refuses_to_read_set(lent, length, 262, phase, 13, 5, 13);   /* the first string lacks a bit */
    refuses_to_read_set(lent, length, 280, phase, 13, 5, 263);  /* 17 bits are left for the second */
    refuses_to_read_set(lent, length, 762, phase, 13, 5, 513);  /* the third lacks a bit */
    CHECK(left(bytes, length));
    lent[95] ^= 0x20; /* the last bit of the third */
    refuses_to_read_set(lent, length, 800, phase, 13, 6, 513);
    lent[64] ^= 0x80; /* of the second */
    refuses_to_read_set(lent, length, 800, phase, 13, 6, 263);
    lent[32] ^= 0x02; /* of the first */
    refuses_to_read_set(lent, length, 800, phase, 13, 6, 13);
    refuses_to_read_set(NULL, 0, 0, phase, 0, 5, 0);

    for (i = 0; i < sizeof wrong / sizeof wrong[0]; i++) {
        from_hex(wrong[i].bytes, bytes + 32);
        CHECK(answers(l1oc_write(bytes, 64, 512, 6, record_of(&strings[0])), 0, 256)); /* before it */
        turn(phase, bytes, 64);
        refuses_to_read_set(bytes, 64, 512, phase, 256, wrong[i].number, wrong[i].value);
        refuses_to_read_set(bytes, 64, 512, phase, 6, wrong[i].number, wrong[i].value);
    }
    for (i = 0; i < set_refusals; i++) {
        struct l1oc_answer end = l1oc_write(bytes, 120, 960, 5, refused_sets[i].set.first);

        end = l1oc_write(bytes, 120, 960, end.value, refused_sets[i].set.second);
        end = l1oc_write(bytes, 120, 960, end.value, refused_sets[i].set.third);
        CHECK(end.number == 0);
        turn(phase, bytes, 120);
        refuses_to_read_set(bytes, 120, 960, phase, 5, refused_sets[i].number, 0);
    }
}

static void test_read_set(void)
{
    size_t i;

    for (i = 0; i < PHASES; i++) {
        read_set_in(phases[i]);
    }
}

static void test_write_set(void)
{
    static uint8_t zeros[100];
    struct l1oc_set set = set_of(0, 1, 2);
    struct l1oc_set other;
    uint8_t before[100];
    uint8_t bytes[100];
    uint8_t *lent;
    size_t length;
    size_t i;

    length = from_hex(set_bytes, bytes);
    lent = lend(zeros, length);
    CHECK(answers(l1oc_write_set(lent, length, 750, 0, set), 0, 750));
    CHECK(left(bytes, length));
    reads_set(lent, length, 750, L1OC_STRAIGHT, 0);

    memset(before, 0xa5, sizeof before);
    lent = lend(before, 100);
    for (i = 0; i < refusals; i++) {
        other = set;
        other.third = refused[i].record;
        CHECK(answers(l1oc_write_set(lent, 100, 762, 13, other), refused[i].number, refused[i].value));
        other.second = refused[i].record;
        other.third = refused[(i + 1) % refusals].record;
        CHECK(answers(l1oc_write_set(lent, 100, 762, 13, other), refused[i].number, refused[i].value));
        other.first = refused[i].record;
        other.second = refused[(i + 2) % refusals].record;
        CHECK(answers(l1oc_write_set(lent, 100, 762, 13, other), refused[i].number, refused[i].value));
    }
    for (i = 0; i < set_refusals; i++) {
        CHECK(answers(l1oc_write_set(lent, 100, 800, 13, refused_sets[i].set), refused_sets[i].number, 0));
        CHECK(answers(l1oc_write_set(lent, 100, 200, 13, refused_sets[i].set), refused_sets[i].number, 0)); /* before 5 */
    }
    CHECK(answers(l1oc_write_set(longest, 65537, 524289, 13, set), 1, 0));
    CHECK(answers(l1oc_write_set(lent, 100, 801, 13, set), 2, 0));
    CHECK(answers(l1oc_write_set(lent, 100, 800, 801, set), 3, 801));
    CHECK(answers(l1oc_write_set(lent, 100, 762, 13, set), 5, 13)); /* it would end at 763 */
    CHECK(answers(l1oc_write_set(lent, 100, 800, 800, set), 5, 800));
    CHECK(left(before, 100));
    CHECK(answers(l1oc_write_set(NULL, 0, 0, 0, set), 5, 0));

    CHECK(answers(l1oc_write_set(lent, 100, 763, 13, set), 0, 763));
    from_hex(placed_set, bytes);
    CHECK(left(bytes, 100));
}

/* Whether the value is this number, value and f64, in every byte. */
static int gives(struct l1oc_value value, uint64_t number, uint64_t refusal, double scaled)
{
    return value.number == number && value.value == refusal && memcmp(&value.scaled, &scaled, sizeof scaled) == 0;
}

static void test_scaled(void)
{
    size_t field;
    size_t i;

    for (i = 0; i < STRINGS; i++) {
        struct l1oc_record record = record_of(&strings[i]);

        for (field = 1; field <= FIELDS; field++) {
            int power = strings[i].power[field - 1];
            double value = (double)strings[i].of[field - 1] / (double)(UINT64_C(1) << power); /* exact, and plus zero */

            CHECK(power == 0 ? gives(l1oc_scaled(record, field), 7, field, 0.0) : gives(l1oc_scaled(record, field), 0, 0, value));
        }
        CHECK(gives(l1oc_scaled(record, 0), 7, 0, 0.0));
        CHECK(gives(l1oc_scaled(record, 26), 7, 26, 0.0));
        CHECK(gives(l1oc_scaled(record, SIZE_MAX), 7, SIZE_MAX, 0.0));
    }
    for (i = 0; i < refusals; i++) {
        CHECK(gives(l1oc_scaled(refused[i].record, 21), refused[i].number, refused[i].value, 0.0));
    }
}

static void test_accuracy(void)
{
    static const unsigned centimetres[31] = {1,   2,   3,   4,   6,   8,   10,   15,   20,   30,   40,   60,    70,    80,    90, 100,
                                             200, 250, 400, 500, 700, 1000, 1200, 1400, 1600, 3200, 6400, 12800, 25600, 51200, 0};
    int64_t factor;

    for (factor = -15; factor <= 15; factor++) {
        CHECK(answers(l1oc_accuracy(factor), 0, centimetres[factor + 15]));
    }
    CHECK(answers(l1oc_accuracy(-16), 7, 19));
    CHECK(answers(l1oc_accuracy(16), 7, 19));
    CHECK(answers(l1oc_accuracy(INT64_C(4294967281)), 7, 19)); /* -15 in 32 bits */
    CHECK(answers(l1oc_accuracy(INT64_MIN), 7, 19));
}

static void test_day_count(void)
{
    CHECK(answers(l1oc_day_count(1, 1), 0, 0));
    CHECK(answers(l1oc_day_count(2, 1), 0, 1461));
    CHECK(answers(l1oc_day_count(1, 2), 0, 1));
    CHECK(answers(l1oc_day_count(8, 1300), 0, 11526));
    CHECK(answers(l1oc_day_count(31, 1461), 0, 45290));
    CHECK(answers(l1oc_day_count(0, 0), 7, 10));
    CHECK(answers(l1oc_day_count(32, 5), 7, 10));
    CHECK(answers(l1oc_day_count(5, 0), 7, 11));
    CHECK(answers(l1oc_day_count(5, 1462), 7, 11));
    CHECK(answers(l1oc_day_count(INT64_C(4294967297), 1), 7, 10)); /* 1 in 32 bits */
    CHECK(answers(l1oc_day_count(1, INT64_C(4294967297)), 7, 11));
}

/* Offers a record to the lent book: it is taken, or passed over. */
static int offers(struct l1oc_record record, uint64_t taken)
{
    struct l1oc_book_entry *entry = &wanted_book.book.entries[record.satellite - 1];

    if (taken) {
        entry->held = 1;
        entry->content = record;
    }
    return answers(l1oc_offer(&lent_book.book, record), 0, taken) && book_left();
}

static int refuses_to_offer(struct l1oc_record record, uint64_t number, uint64_t value)
{
    return answers(l1oc_offer(&lent_book.book, record), number, value) && book_left();
}

static void test_offer(void)
{
    struct l1oc_book_entry *entry = &lent_book.book.entries[23];
    struct l1oc_record record;
    size_t i;
    size_t j;

    lend_book(&empty_book);
    for (i = 0; i < OFFERED; i++) {
        record = almanac(offered[i].satellite, offered[i].age, offered[i].day);
        record.time = i; /* none is like another */
        CHECK(offers(record, offered[i].taken));
    }
    for (i = 0; i < HELD; i++) {
        for (j = 0; j < FLAGS; j++) {
            entry->held = flags[j];
            entry->content = almanac(24, held[i].held_age, held[i].held_day);
            wanted_book = lent_book;
            CHECK(offers(almanac(24, held[i].age, held[i].day), held[i].taken));
        }
    }
    /* nothing of the held record counts but its day and its age, and in an empty entry nothing */
    memset(entry, 0xff, sizeof *entry);
    set(&entry->content, 12, 7);
    set(&entry->content, 13, 100);
    wanted_book = lent_book;
    CHECK(offers(almanac(24, 7, 100), 0));
    CHECK(offers(almanac(24, 0, 831), 0));
    entry->held = wanted_book.book.entries[23].held = 0;
    CHECK(offers(almanac(24, 8, 100), 1));

    for (j = 0; j < 2; j++) {
        for (i = 0; i < refusals; i++) {
            CHECK(refuses_to_offer(refused[i].record, refused[i].number, refused[i].value));
        }
        for (i = 0; i < STRINGS; i++) {
            CHECK(i == 3 || refuses_to_offer(record_of(&strings[i]), 15, 0));
        }
        lend_book(&empty_book); /* first a book with entries, then the empty one */
    }
}

/* Looks a satellite up with junk where the call has its frame and where the result goes: it gives these bytes. */
static int shows(const struct l1oc_book *book, size_t satellite, struct l1oc_book_entry wanted)
{
    struct l1oc_book_entry entry;

    fill(&entry, JUNK, sizeof entry);
    junk_stack();
    entry = l1oc_entry(book, satellite);
    return memcmp(&entry, &wanted, sizeof entry) == 0 && book_left();
}

static void test_entry(void)
{
    static struct l1oc_book book;
    struct l1oc_book_entry wanted;
    size_t i;

    lend_book(&empty_book);
    for (i = 0; i <= 256; i++) {
        CHECK(shows(&lent_book.book, i, empty_book.entries[0]));
    }
    for (i = 0; i < L1OC_SATELLITES; i++) { /* every second entry is held */
        book.entries[i].held = i % 2 == 0 ? 0 : flags[i % FLAGS];
        book.entries[i].content = record_of(&strings[i % STRINGS]);
        book.entries[i].content.time = i;
    }
    lend_book(&book);
    for (i = 1; i <= 63; i++) {
        wanted = empty_book.entries[0];
        if (i % 2 == 0) {
            wanted.held = 1;
            wanted.content = record_of(&strings[(i - 1) % STRINGS]);
            wanted.content.time = i - 1;
        }
        CHECK(shows(&lent_book.book, i, wanted));
        CHECK(shows(&lent_book.book, i + 64, empty_book.entries[0]));
        CHECK(shows(&lent_book.book, i + 256, empty_book.entries[0])); /* i in 8 bits */
        CHECK(shows(&lent_book.book, i + (SIZE_MAX >> 32) + 1, empty_book.entries[0])); /* in 32 */
        CHECK(shows(&lent_book.book, i + (SIZE_MAX >> 1) + 1, empty_book.entries[0]));  /* in 63 */
    }
    CHECK(shows(&lent_book.book, 0, empty_book.entries[0]));
    CHECK(shows(&lent_book.book, 64, empty_book.entries[0]));
    CHECK(shows(&lent_book.book, SIZE_MAX, empty_book.entries[0]));
}

/* ---- the longest recording ---- */

/* Document 01's example 13 by each function that takes a bit count, and strings of 125 bits in the whole of the longest recording. */
static void longest_recording(uint32_t phase)
{
    struct l1oc_record record = record_of(&strings[6]);
    static uint32_t starts[L1OC_MAX_STARTS];
    struct l1oc_answer answer;
    struct l1oc_reading reading;
    size_t place;
    size_t i;

    memset(longest, 0, sizeof longest);
    turn(phase, longest, sizeof longest);
    CHECK(answers(l1oc_list(longest, 65537, 524288, phase, starts, L1OC_MAX_STARTS), 0, 0));
    CHECK(answers(l1oc_list(longest, 65537, 524289, phase, starts, L1OC_MAX_STARTS), 1, 0));

    turn(phase, longest, sizeof longest);
    CHECK(answers(l1oc_write(longest, 65537, 524288, 524163, record), 0, 524288));
    CHECK(answers(l1oc_write(longest, 65537, 524289, 524164, record), 1, 0));
    turn(phase, longest, sizeof longest);
    CHECK(answers(l1oc_list(longest, 65537, 524288, phase, starts, 1), 0, 1));
    CHECK(starts[0] == 524163);
    reading = read_over_junk(longest, 65537, 524288, phase, 524163);
    CHECK(reading.number == 0 && memcmp(&reading.content, &record, sizeof record) == 0);
    refuses_to_read(longest, 65537, 524288, phase, 524288, 5, 524288);
    refuses_to_read(longest, 65537, 524289, phase, 524163, 1, 0);

    turn(phase, longest, sizeof longest);
    CHECK(answers(l1oc_write_set(longest, 65537, 524288, 523538, set_of(0, 1, 2)), 0, 524288));
    CHECK(answers(l1oc_write_set(longest, 65537, 524289, 523538, set_of(0, 1, 2)), 1, 0));
    turn(phase, longest, sizeof longest);
    reads_set(longest, 65537, 524288, phase, 523538);
    refuses_to_read_set(longest, 65537, 524289, phase, 523538, 1, 0);

    turn(phase, longest, sizeof longest);
    for (place = 0; place + 125 <= 524288; place += 125) {
        CHECK(answers(l1oc_write(longest, 65537, 524288, place, record), 0, place + 125));
    }
    turn(phase, longest, sizeof longest);
    CHECK(answers(l1oc_list(longest, 65537, 524288, phase, starts, 1000), 9, 4194));
    answer = l1oc_list(longest, 65537, 524288, phase, starts, L1OC_MAX_STARTS);
    CHECK(answers(answer, 0, 4194));
    for (i = 0; answer.number == 0 && i < answer.value; i++) {
        CHECK(starts[i] == 125 * i);
    }
}

int main(void)
{
    layout();
    constants();
    make_refused();
    make_refused_sets();
    test_list();
    test_read();
    test_write();
    test_read_set();
    test_write_set();
    test_scaled();
    test_accuracy();
    test_day_count();
    test_offer();
    test_entry();
    longest_recording(L1OC_STRAIGHT);
    longest_recording(L1OC_INVERTED);
    printf("header: %d checks, %d failed\n", checks, failures);
    return failures != 0;
}
