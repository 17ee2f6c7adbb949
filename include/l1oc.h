/*
 * l1oc.h: strings of the L1OCd signal for C99 and C++. Link with libl1oc.a (x86-64 Linux, `rt lib` in crates/l1oc).
 *
 * A recording is `length` lent bytes of which the first `count` bits count; the high bit of a byte comes first. Places count bits from 0.
 * A string of type 1 has 125 bits, of type 2 375, of every other type 250.
 *
 * Listing and reading take the recording's phase: straight, or inverted, where the radio loop has settled half a turn off and every bit
 * is the opposite of the true one. They go by the true bits: an inverted recording lists and reads exactly as its complement, 255 - b
 * for each byte b, does straight. In either phase bits past `count` do not matter, and what fills a record up is 0. Writing is always
 * straight: it sets true bits.
 *
 * Every function answers for every value of its numbers. What is asked of the caller: a pointer leads to as many elements as the length
 * beside it says, `book` to one book, aligned as its type asks, and set; `bytes` and `list` share no memory; nobody else writes to them
 * during the call. Where the length is 0 nothing is read or written through the pointer, which may then be null; `book` may not be null.
 * No function keeps a pointer, allocates, or has state of its own.
 *
 * Every answer has a number and a value. Number 0: done. Otherwise the first test that fails, a number of `enum l1oc_refusal`, and lent
 * memory is left as it was.
 */
#ifndef L1OC_H
#define L1OC_H

#include <stddef.h>
#include <stdint.h>

#ifdef __cplusplus
extern "C" {
#endif

/* The most bits of a recording, the bytes that hold them, and the entries of a list that is long enough for every recording. */
#define L1OC_MAX_BITS 524288
#define L1OC_MAX_BYTES ((L1OC_MAX_BITS + 7) / 8)
#define L1OC_MAX_STARTS (L1OC_MAX_BITS / 125 + 1)

/* The numbers and the raw bytes of a record, and the bytes that a record has. */
#define L1OC_NUMBERS 16
#define L1OC_RAW_BYTES 38
#define L1OC_RECORD_BYTES 184

/* The bits of a set: three strings of 250. */
#define L1OC_SET_BITS 750

/* The satellites that a book has an entry for, 1 to 63, and the bytes that a book has. */
#define L1OC_SATELLITES 63
#define L1OC_BOOK_BYTES 12096

/* The phase of a recording. A number that is neither is not refused, and counts as inverted. */
enum l1oc_phase {
    L1OC_STRAIGHT = 0, /* its bits are the true ones */
    L1OC_INVERTED = 1  /* every bit is the opposite of the true one */
};

/* Why a call is refused: the numbers, each with its value and when. */
enum l1oc_refusal {
    L1OC_TOO_LONG = 1,          /* 0: count is above L1OC_MAX_BITS */
    L1OC_BEYOND_BYTES = 2,      /* 0: count is above 8 * length */
    L1OC_BEYOND_COUNT = 3,      /* place: it is above count */
    L1OC_NO_MARK = 4,           /* place: the bits there are not the time mark */
    L1OC_RUNS_OUT = 5,          /* place: reading, fewer than 18 bits are left or the string runs past count; writing, the bits would */
    L1OC_CHECK_FAILS = 6,       /* place: the check of the string there fails */
    L1OC_OUT_OF_RANGE = 7,      /* field: the first that is out of its range, by its number from 1 on; or as a function says below */
    L1OC_OTHER_ORBIT = 8,       /* 10: type 20 with orbit (field 10) not 0 */
    L1OC_LIST_SHORT = 9,        /* entries needed: the list is too short */
    L1OC_MINUS_ZERO = 10,       /* bit: the lowest of the minus-zero mark that is on an unsigned, absent or non-zero field */
    L1OC_NOT_ZERO = 11,         /* 0: a number or a raw bit that the type does not use is not 0 */
    L1OC_OTHER_TYPES = 12,      /* 0: a set's types are not 10, 11, 12 in order */
    L1OC_OTHER_SATELLITES = 13, /* 0: a set's satellite numbers differ */
    L1OC_OTHER_TIMES = 14,      /* 0: OMB does not rise by one from each of a set's records to the next (43199 goes to 0) */
    L1OC_NOT_ALMANAC = 15       /* 0: the record offered is not of type 20 */
};

/* What a book does with a record that is not refused. */
enum l1oc_offered {
    L1OC_PASSED_OVER = 0, /* it keeps what it holds */
    L1OC_TAKEN = 1        /* it holds the record now */
};

/* An answer. */
struct l1oc_answer {
    uint64_t number; /* 0, or the number of a refusal */
    uint64_t value;  /* what was asked for, or the value of the refusal */
};

/*
 * A string by its fields. Fields 1 to 9 are the service fields, which every type has. Types 10, 11, 12, 20 and 25 have information
 * fields, from 10 on; the other types have raw bits instead. What a type does not use is 0. Every byte of a record is one of a member,
 * so that memcmp compares two of them.
 *
 * The information fields by their numbers. A record holds field n as a count, numbers[n - 10]; +-m means from -m to m. The values are
 * rounded; where one count is given as a power of two, l1oc_scaled gives them exactly.
 *
 *   number   field                                             one count          counts         values
 *
 *   type 10: with 11 and 12 the immediate data of satellite j
 *   10       N4, four-year interval, the first from 1996       1 interval         1 to 31
 *   11       NT, day of the interval                           1 day              1 to 1461
 *   12       M, modification of the satellite                  1                  0 to 7         0 Glonass-M, 1 and 3 -K1, 2 -K2
 *   13       frame size: strings up to the next of type 10     1 string           0 to 63        0: not told
 *   14       tb, moment of the data in the day                 90 s               0 to 959       0 to 86310 s
 *   15 16    ages of ephemeris and clock data                  6 h                1 to 255       6 to 1530 h
 *   17 18    modes of ephemeris and clock data                 1                  0 to 3         1 relayed, 2 propagated, 3 by links
 *   19 20    accuracy factors of ephemeris and clock data      1                  +-15           in cm by l1oc_accuracy
 *   21       tau, correction to GLONASS time                   2^-38 s            +-(2^31 - 1)   +-7.8e-3 s
 *   22       gamma, relative deviation of the frequency        2^-48              +-(2^18 - 1)   +-0.9e-9
 *   23       beta, half the rate of gamma                      2^-57 1/s          +-(2^14 - 1)   +-1.1e-13 1/s
 *   24       tau_c, correction from GLONASS to Moscow time     2^-31 s            +-(2^39 - 1)   +-256 s
 *   25       rate of tau_c                                     2^-49 s/s          +-(2^12 - 1)   +-0.7e-11 s/s
 *
 *   type 11:
 *   10 11 12 x y z                                             2^-20 km           +-(2^39 - 1)   +-5.2e5 km
 *   13       rate of x                                         2^-30 km/s         +-(2^34 - 1)   +-16 km/s
 *   14 15    antenna dx dy                                     2^-10 m            +-(2^12 - 1)   +-4 m
 *   16       reserve                                           1                  0 to 7
 *
 *   type 12:
 *   10       antenna dz                                        2^-10 m            +-(2^12 - 1)   +-4 m
 *   11 12    rates of y z                                      2^-30 km/s         +-(2^34 - 1)   +-16 km/s
 *   13 14 15 accelerations of x y z                            2^-39 km/s^2       +-(2^14 - 1)   +-3.0e-8 km/s^2
 *   16       L2 shift: time of L2OCp less that of L1OCd        2^-38 s            +-(2^17 - 1)   +-4.8e-7 s
 *   17       GPS shift: GPS less GLONASS time, part of 1 s     2^-38 s            +-(2^29 - 1)   +-2e-3 s
 *   18       reserve                                           1                  0 to 255
 *
 *   type 20: the almanac of satellite j
 *   10       orbit; not 0 is refused with 8                    1                  0 to 3
 *   11       Ns, satellites that an almanac is sent for        1                  0 to 63
 *   12       EA, age of the almanac                            1 day              0 to 63
 *   13       NA, day of the almanac in its four-year interval  1 day              1 to 1461
 *   14       signals sent: 16 L1, 8 L2, 4 L3, 2 and 1 reserve  1                  0 to 31
 *   15       M, modification of the satellite                  1                  0 to 7         0 Glonass-M, 1 and 3 -K1, 2 -K2
 *   16       tau, correction to GLONASS time                   2^-20 s            +-(2^13 - 1)   +-7.8e-3 s
 *   17       lambda, longitude of the first ascending node     2^-20 half-cycles  +-(2^20 - 1)   +-1 half-cycle
 *   18       time of lambda in the day                         2^-5 s             0 to 1411200   0 to 44100 s
 *   19       di, inclination less 64.8 degrees                 2^-20 half-cycles  +-(2^14 - 1)   +-0.0156 half-cycles
 *   20       eccentricity                                      2^-20              0 to 2^15 - 1  0 to 0.031 (*)
 *   21       omega, argument of the perigee                    2^-15 half-cycles  +-(2^15 - 1)   +-1 half-cycle
 *   22       dT, draconic period less 40544 s                  2^-9 s             +-(2^18 - 1)   +-512 s
 *   23       rate of dT                                        2^-14 s/orbit      +-63           +-3.8e-3 s/orbit
 *   24       reserve                                           1                  0 to 2^23 - 1
 *
 *   type 25: the rotation of the Earth, the ionosphere, UTC and TAI
 *   10       day of the data in its four-year interval         1 day              1 to 1461
 *   11 12    xp yp, position of the pole                       2^-14 arcsec       +-(2^15 - 1)   +-2 arcsec (*)
 *   13 14    rates of xp yp                                    2^-14 arcsec/day   +-255          +-1.6e-2 arcsec/day (*)
 *   15 16    accelerations of xp yp                            2^-14 arcsec/day^2 +-63           +-3.8e-3 arcsec/day^2 (*)
 *   17       B0, UT1 less UTC                                  2^-16 s            +-(2^24 - 1)   +-256 s
 *   18       B1, its change in a mean solar day                2^-16 s/day        +-511          +-7.8e-3 s/day
 *   19       B2, the rate of that change                       2^-16 s/day^2      +-127          +-1.9e-3 s/day^2
 *   20       c_A, factor of the electrons in the layer F2      2^-7               0 to 511       0 to 3.99 (*)
 *   21       c_F, solar activity F10.7                         2^-4 sfu           0 to 8000      0 to 500 sfu
 *   22       c_Ap, geomagnetic activity                        1 nT               0 to 500       0 to 500 nT
 *   23       UTC-TAI                                           1 s                +-255          +-255 s
 *   24       reserve                                           1                  0 to 2^26 - 1
 *
 * A half-cycle is 180 degrees, an sfu 1e-22 W/(m^2 Hz). Days and tb are those of Moscow time. Mode 0 and modifications 4 to 7 have no
 * meaning yet.
 * (*) The whole width of the field, as the workshop's paper decides (document 01). The control document's tables have 0.03, 1, 8e-3, 2e-3,
 *     and 4, which is too wide for the field.
 * (+) The workshop's paper decides; the control document has 0 too, as a reserve.
 */
struct l1oc_record {
    uint8_t kind;                  /* field 1: the type, 0 to 63 */
    uint8_t satellite;             /* field 2: satellite number j, 1 to 63 (+); in type 20 the almanac's satellite */
    uint8_t signal;                /* field 3: signal flag, 0 good, 1 not */
    uint8_t validity;              /* field 4: data flag of this string, 0 good, 1 not */
    uint8_t call;                  /* field 5: call of the ground control, 0 to 15; not for users */
    uint8_t attitude;              /* field 6: attitude, 0 to the Sun, 1 turning ahead of it or changing between the two */
    uint8_t correction;            /* field 7: correction code KP: 0 none, 1 day longer, 2 undecided, 3 day shorter */
    uint8_t next;                  /* field 8: A: 1 where the correction is at the end of the next string, else 0 */
    uint64_t time;                 /* field 9: OMB, the time mark count: 2 s each, 0 to 43199 (0 to 86398 s) */
    int64_t numbers[L1OC_NUMBERS]; /* numbers[i]: field 10 + i, in counts; reserve fields too */
    uint16_t minus;                /* minus-zero mark: bit i, the lowest is bit 0, where field 10 + i is minus zero; its number is 0 then */
    uint8_t raw[L1OC_RAW_BYTES];   /* raw bits of the other types, high bit first: 59 of type 1, 301 of type 2, else 184; then zeros */
};

/* Stops a compiler that lays the record out otherwise than the library. */
typedef char l1oc_record_is_as_in_the_library[sizeof(struct l1oc_record) == L1OC_RECORD_BYTES ? 1 : -1];

/* What reading answers. */
struct l1oc_reading {
    uint64_t number;            /* 0, or the number of a refusal */
    uint64_t value;             /* 0, or the value of the refusal */
    struct l1oc_record content; /* the record; all 0 beside a refusal */
};

/*
 * An ephemeris set: the immediate data of one satellite, whose three strings come one after another, each OMB one more than that before
 * it (0 after 43199). Every byte of a set is one of a record.
 */
struct l1oc_set {
    struct l1oc_record first;  /* of type 10 */
    struct l1oc_record second; /* of type 11 */
    struct l1oc_record third;  /* of type 12 */
};

/* What reading a set answers. */
struct l1oc_set_reading {
    uint64_t number;         /* 0, or the number of a refusal */
    uint64_t value;          /* 0, or the value of the refusal */
    struct l1oc_set content; /* the set; all 0 beside a refusal */
};

/* The entry of a satellite in a book. Every byte of it is one of a member. */
struct l1oc_book_entry {
    uint64_t held;              /* 0 where the entry is empty; every other number says that the record is held */
    struct l1oc_record content; /* the record */
};

/*
 * An almanac book: the current almanac of each satellite. The empty book is 0 in every byte (`struct l1oc_book book = {0};`, in C++
 * `= {}`).
 *
 * Every book has an answer, whatever its bytes are: any record may be held, with any day and age. Every byte of a book is one of an entry.
 * A call changes the book where it lies and copies no more than a record: it needs at most 1 KiB of stack.
 */
struct l1oc_book {
    struct l1oc_book_entry entries[L1OC_SATELLITES]; /* entries[j - 1]: that of satellite j */
};

/* Stops a compiler that lays the book out otherwise than the library. */
typedef char l1oc_book_is_as_in_the_library[sizeof(struct l1oc_book) == L1OC_BOOK_BYTES ? 1 : -1];

/* What scaling answers. */
struct l1oc_value {
    uint64_t number; /* 0, or the number of a refusal */
    uint64_t value;  /* 0, or the value of the refusal */
    double scaled;   /* the field's value; 0.0 beside a refusal */
};

/*
 * Lists the starts of the strings in the first `count` true bits. From place 0 on: where a string stands it is listed and the next place
 * is just after it; elsewhere the next place is one bit on. A string stands where the mark is there, it fits in `count`, and its check
 * passes.
 *
 * Gives 0 and how many starts there are. They are then the first entries of `list`, which has room for `room`; its other entries are
 * left as they were. L1OC_MAX_STARTS entries are enough for every recording. A refusal leaves the whole list as it was. `bytes` is only
 * read.
 * Refuses, in this order, with 1, 2, 9 (room is less than the starts that there are: the value).
 */
struct l1oc_answer l1oc_list(const uint8_t *bytes, size_t length, size_t count, uint32_t phase, uint32_t *list, size_t room);

/*
 * Reads the string at a place, by its true bits. `bytes` is only read.
 *
 * Gives 0, 0 and the record. Writing that record at the place gives the true bits again: straight the same bytes; inverted, written into
 * the complement of the bytes, 255 - b each, it changes none of them.
 * Refuses, in this order, with 1, 2, 3, 5 (fewer than 18 bits left), 4, 5 (runs past count), 6, 7, 8.
 */
struct l1oc_reading l1oc_read(const uint8_t *bytes, size_t length, size_t count, uint32_t phase, size_t place);

/*
 * Writes the string of a record at a place: its mark, fields and check bits.
 *
 * Gives 0 and the place after the string. It has set the string's bits and no others. Reading straight at the place gives the same
 * record again. A refusal leaves every byte as it was.
 * Refuses, in this order, with 1, 2, 3, 7, 8, 11, 10, 5.
 */
struct l1oc_answer l1oc_write(uint8_t *bytes, size_t length, size_t count, size_t place, struct l1oc_record content);

/*
 * Reads the set at a place, by its true bits: the first string there, the second where the first ends, the third where the second ends.
 * A string of type 1 or 2 ends after its own 125 or 375 bits. `bytes` is only read.
 *
 * Gives 0, 0 and the set. Writing that set at the place gives the true bits again, as with l1oc_read.
 * Refuses as l1oc_read refuses the first string, then the second, then the third, each at its own place; where all three read, with 12,
 * 13, 14, in this order.
 */
struct l1oc_set_reading l1oc_read_set(const uint8_t *bytes, size_t length, size_t count, uint32_t phase, size_t place);

/*
 * Writes the three strings of a set end to end at a place: L1OC_SET_BITS bits.
 *
 * Gives 0 and the place after them. It has set their bits and no others. Reading a set straight at the place gives the same set again.
 * A refusal leaves every byte as it was.
 * Refuses, in this order, with 1, 2, 3; with 7, 8, 11, 10 for the first record, then the second, then the third; with 12, 13, 14; with 5
 * (the L1OC_SET_BITS bits would run past count).
 */
struct l1oc_answer l1oc_write_set(uint8_t *bytes, size_t length, size_t count, size_t place, struct l1oc_set content);

/*
 * The value of a field that has a power of two, by its number: exactly its count times that power. Minus zero gives plus zero.
 *
 * Gives 0, 0 and the value.
 * Refuses, in this order, with 7, 8, 11, 10 for the record as writing does; then with 7 and `field` where that is the number of no
 * field of the type, or of a field without a power.
 */
struct l1oc_value l1oc_scaled(struct l1oc_record content, size_t field);

/*
 * The centimetres of an accuracy factor (fields 19 and 20 of type 10).
 *
 * Gives 0 and the centimetres, 1 for -15 to 51200 for 14; and 0 for 15, which is undefined.
 * Refuses with 7, 19 where the factor is not from -15 to 15.
 */
struct l1oc_answer l1oc_accuracy(int64_t factor);

/*
 * The days from 1 January 1996 to day NT, 1 to 1461, of the four-year interval N4, 1 to 31.
 *
 * Gives 0 and 1461 * (n4 - 1) + nt - 1.
 * Refuses, in this order, with 7, 10 where n4 is out of its range, and 7, 11 where nt is.
 */
struct l1oc_answer l1oc_day_count(int64_t n4, int64_t nt);

/*
 * Offers a record of type 20 to a book, for the entry of its satellite.
 *
 * An empty entry takes it. Otherwise the days decide (field 13): that of the record minus that of the held one, modulo 1461, from 0 to
 * 1460. At 1 to 730 the record is taken, and at 731 to 1460 it is passed over. At 0 it is taken where its age (field 12) is smaller than
 * that of the held one, and passed over where it is equal or greater.
 *
 * Gives 0 and L1OC_TAKEN: the entry has `held` 1 and the record, and the other entries are as they were. Or gives 0 and L1OC_PASSED_OVER:
 * the whole book is as it was. A refusal too leaves the whole book as it was.
 * Refuses, in this order, with 7, 8, 11, 10 for the record as writing does; with 15.
 *
 * After day 1461 of an interval comes day 1 of the next, and a record does not tell its interval: a day more than half an interval back
 * can't be told from a later one. Take the records of a satellite that a book took or passed over since it was empty. Where their days lie
 * among some 731 in a row, one of them is the latest; the entry is of that day, with the smallest age on it, and is the first of these that
 * came. Where they don't, there may be no latest day: offered in turn, records of the days 1, 488 and 975 supersede each other without end.
 */
struct l1oc_answer l1oc_offer(struct l1oc_book *book, struct l1oc_record content);

/*
 * The entry of a satellite in a book, by the satellite's number. `book` is only read.
 *
 * Gives `held` 1 and the record that is held; all 0 where the entry is empty or the number is not from 1 to L1OC_SATELLITES.
 * Refuses nothing.
 */
struct l1oc_book_entry l1oc_entry(const struct l1oc_book *book, size_t satellite);

#ifdef __cplusplus
}
#endif

#endif
