/*
 * Imbrolt: sound insulation ratings in whole numbers, from a proved library.
 *
 * Link libimbrolt.a or libimbrolt.so (`pkg-config --cflags --libs imbrolt`). It needs memcpy and
 * memset of the C library and nothing else, allocates nothing, keeps no state between calls and may
 * be called from any number of threads at once. A register that a call may change is lent to that
 * call alone.
 *
 * What every function has in common
 *
 *   Return value   0 (IMBROLT_OK), or the number of a refusal (enum imbrolt_refusal).
 *   Units          Measured values and levels are whole tenths of a decibel, in -200..1500. Ratings,
 *                  targets and terms are whole decibels, prices whole fen. Nothing converts between
 *                  them unasked.
 *   Terms          Each term is worked out in tenths and rounded to a whole decibel by GB 8170: a half
 *                  goes to the even whole number, by size and with the sign put back (0.5 gives 0, 1.5
 *                  gives 2, -1.5 gives -2). What is made of a rounded term is not rounded again.
 *   Arrays         An array is a pointer and, right after it, the number of its elements (not of
 *                  bytes). No element is touched past that number; where it is 0 the pointer is not
 *                  followed and may be NULL. Arrays lent to one call must not overlap each other
 *                  nor a register.
 *   Answers        Written to the array `out` from out[0], in the order given below. Elements past the
 *                  answer keep their contents. An array that is longer than needed is fine.
 *   Refusals       A refused call changes no array and no register. When several refusals apply, the
 *                  one returned is the first in the order given with the function;
 *                  IMBROLT_OUTPUT_TOO_SMALL is always tested last.
 *   Limit          1 where a value stands for "at least" (airborne, improvements, grades) or "at most"
 *                  (impact), 0 where it is what it says. Limit values are rated as the number shown.
 *   Marks of a set Bit i is the limit mark of band i, band 0 the lowest. Bits past the bands of the
 *                  set do not matter.
 */
#ifndef IMBROLT_H
#define IMBROLT_H

#include <stddef.h>
#include <stdint.h>

#ifdef __cplusplus
extern "C" {
#endif

/* The version of this header. That of the library that is linked is imbrolt_version(). */
#define IMBROLT_VERSION 302 /* 10000 times the first part, 100 times the second, plus the third */
#define IMBROLT_VERSION_TEXT "0.3.2"

/* The most bytes of a request line and of an answer line, with their line feeds. */
#define IMBROLT_LINE_MAX 512
#define IMBROLT_ANSWER_MAX 64

/* What a call was refused for. */
enum imbrolt_refusal {
    IMBROLT_OK = 0,
    /* the number of bands is not the kind's */
    IMBROLT_BAND_COUNT = 1,
    /* a float is NaN or infinite */
    IMBROLT_NOT_FINITE = 2,
    /* a reading is missing */
    IMBROLT_READING_MISSING = 3,
    /* a band value lies outside -20.0 to 150.0 dB */
    IMBROLT_BAND_RANGE = 4,
    /* laboratory rule: the total lies less than 6.0 dB above the background */
    IMBROLT_BACKGROUND_TOO_NEAR = 5,
    /* a derived value lies outside -20.0 to 150.0 dB */
    IMBROLT_DERIVED_RANGE = 6,
    /* the reverberation time lies outside 0.10 to 20.00 s */
    IMBROLT_TIME_RANGE = 7,
    /* the target is not better than the rating */
    IMBROLT_TARGET_NOT_BETTER = 8,
    /* the target lies outside -100 to 200 dB */
    IMBROLT_TARGET_RANGE = 9,
    /* the lent output is too small for the answer, or the offset lies beyond its end */
    IMBROLT_OUTPUT_TOO_SMALL = 10,
    /* the line is not a request, or the key has not a key's shape */
    IMBROLT_NOT_A_REQUEST = 11,
    /* the specimens are not 48 values */
    IMBROLT_SPECIMEN_COUNT = 12,
    /* the price lies outside 0 to 1,000,000 fen */
    IMBROLT_PRICE_RANGE = 16,
    /* the same customer and key came with another kind or other bands */
    IMBROLT_OTHER_BANDS = 17,
    /* there is no room for a new key */
    IMBROLT_REGISTER_FULL = 18,
    /* no calls could have left the register so */
    IMBROLT_REGISTER_DAMAGED = 19
};

/* What was measured. Any other number is no kind, and is refused with IMBROLT_BAND_COUNT. */
enum imbrolt_kind {
    IMBROLT_A3 = 0, /* airborne, 16 thirds of an octave, 100 to 3150 Hz */
    IMBROLT_A1 = 1, /* airborne, 5 octaves, 125 to 2000 Hz */
    IMBROLT_I3 = 2, /* impact, 16 thirds of an octave */
    IMBROLT_I1 = 3  /* impact, 5 octaves */
};

/* The mark of a reading. Any other number is that of a missing reading, too. */
enum imbrolt_mark {
    IMBROLT_LEVEL = 0,
    IMBROLT_LIMIT = 1,
    IMBROLT_MISSING = 2
};

/* Which term decides on a grade: Ctr outside, C inside. Any number but 0 is inside. */
enum imbrolt_side {
    IMBROLT_OUTSIDE = 0,
    IMBROLT_INSIDE = 1
};

/* Where each number of an answer stands, and how many places an answer needs. */

/* imbrolt_take_reading, imbrolt_correct_field, imbrolt_standardized */
enum imbrolt_value {
    IMBROLT_VALUE_TENTHS = 0,
    IMBROLT_VALUE_LIMIT = 1,
    IMBROLT_VALUE_PLACES = 2
};

/* imbrolt_correct_laboratory */
enum imbrolt_level {
    IMBROLT_LEVEL_TENTHS = 0,
    IMBROLT_LEVEL_PLACES = 1
};

/* imbrolt_rate, imbrolt_rate_readings */
enum imbrolt_sheet {
    IMBROLT_SHEET_RATING = 0,
    IMBROLT_SHEET_FIRST = 1,
    IMBROLT_SHEET_SECOND = 2,
    IMBROLT_SHEET_HAS_SECOND = 3,
    IMBROLT_SHEET_SHIFTS = 4,
    IMBROLT_SHEET_LIMIT = 5,
    IMBROLT_SHEET_PLACES = 6
};

/* imbrolt_cover */
enum imbrolt_improvement {
    IMBROLT_COVER_IMPROVEMENT = 0,
    IMBROLT_COVER_TERM = 1,
    IMBROLT_COVER_LIMIT = 2,
    IMBROLT_COVER_PLACES = 3
};

/* imbrolt_octaves: the first of 5 values, and their marks */
enum imbrolt_octave_means {
    IMBROLT_OCTAVES_VALUES = 0,
    IMBROLT_OCTAVES_MARKS = 5,
    IMBROLT_OCTAVES_PLACES = 6
};

/* imbrolt_specimens: the first of 16 values, and their marks */
enum imbrolt_specimen_means {
    IMBROLT_SPECIMENS_VALUES = 0,
    IMBROLT_SPECIMENS_MARKS = 16,
    IMBROLT_SPECIMENS_PLACES = 17
};

/* imbrolt_grade */
enum imbrolt_graded {
    IMBROLT_GRADE_RATING = 0,
    IMBROLT_GRADE_C = 1,
    IMBROLT_GRADE_CTR = 2,
    IMBROLT_GRADE_DECIDING = 3,
    IMBROLT_GRADE_GRADE = 4,
    IMBROLT_GRADE_LIMIT = 5,
    IMBROLT_GRADE_PLACES = 6
};

/* imbrolt_lift: the count; and the places that the list itself needs */
enum imbrolt_lifted {
    IMBROLT_LIFT_COUNT = 0,
    IMBROLT_LIFT_PLACES = 1,
    IMBROLT_LIFT_THIRDS_PLACES = 696, /* for A3 and I3 */
    IMBROLT_LIFT_OCTAVES_PLACES = 25  /* for A1 and I1 */
};

/* imbrolt_answer_line */
enum imbrolt_wrote {
    IMBROLT_WROTE_BYTES = 0,
    IMBROLT_WROTE_PLACES = 1
};

/* imbrolt_answer_block */
enum imbrolt_progress {
    IMBROLT_PROGRESS_USED = 0,
    IMBROLT_PROGRESS_WROTE = 1,
    IMBROLT_PROGRESS_SKIPPING = 2,
    IMBROLT_PROGRESS_PLACES = 3
};

/* imbrolt_bill: the sheet, in the places of imbrolt_sheet, and the charge */
enum imbrolt_billed {
    IMBROLT_BILL_SHEET = 0,
    IMBROLT_BILL_CHARGED = 6,
    IMBROLT_BILL_PLACES = 7
};

/* imbrolt_owed, imbrolt_close */
enum imbrolt_total {
    IMBROLT_OWED_TOTAL = 0,
    IMBROLT_OWED_PLACES = 1
};

/* The version of the library: IMBROLT_VERSION of its header. Never refused; the one function whose
 * return value is not a refusal's number. */
uint32_t imbrolt_version(void);

/*
 * Takes in one reading of an analyser: the tenth nearest the float's exact value, a tie to the greater.
 *
 *   out[0]  the value in tenths
 *   out[1]  limit, 0 or 1
 *
 * Refusals: IMBROLT_READING_MISSING, IMBROLT_NOT_FINITE, IMBROLT_BAND_RANGE, IMBROLT_OUTPUT_TOO_SMALL.
 */
uint32_t imbrolt_take_reading(uint32_t mark, float value, int32_t *out, size_t out_len);

/*
 * Rates a set of bands, values[0] the lowest, in tenths.
 *
 *   out[0]  rating
 *   out[1]  first term: C for airborne, the impact term for impact
 *   out[2]  second term: Ctr for airborne; 0 for impact, which has none
 *   out[3]  1 where there is a second term, else 0
 *   out[4]  number of curve shifts
 *   out[5]  limit, 0 or 1
 *
 * Refusals: IMBROLT_BAND_COUNT, IMBROLT_BAND_RANGE, IMBROLT_OUTPUT_TOO_SMALL.
 */
uint32_t imbrolt_rate(uint32_t kind, const int32_t *values, size_t values_len, uint32_t marks,
                      int32_t *out, size_t out_len);

/*
 * Rates readings: marks[i] and values[i] are those of band i. The number of bands is values_len; a
 * reading whose mark lies past the end of marks is missing.
 *
 *   out     as for imbrolt_rate
 *
 * Refusals: IMBROLT_BAND_COUNT; then for each band from the lowest IMBROLT_READING_MISSING,
 * IMBROLT_NOT_FINITE, IMBROLT_BAND_RANGE; then IMBROLT_OUTPUT_TOO_SMALL.
 */
uint32_t imbrolt_rate_readings(uint32_t kind, const uint8_t *marks, size_t marks_len,
                               const float *values, size_t values_len, int32_t *out,
                               size_t out_len);

/*
 * Rates the improvement by a floor cover, given band by band for 16 thirds, in tenths.
 *
 *   out[0]  improvement rating
 *   out[1]  its term
 *   out[2]  limit, 0 or 1
 *
 * Refusals: IMBROLT_BAND_COUNT, IMBROLT_BAND_RANGE for any band, then IMBROLT_DERIVED_RANGE,
 * IMBROLT_OUTPUT_TOO_SMALL.
 */
uint32_t imbrolt_cover(const int32_t *values, size_t values_len, uint32_t marks, int32_t *out,
                       size_t out_len);

/*
 * Corrects a level for background noise by the field rule; both in tenths.
 *
 *   out[0]  corrected level, not tested for range (it may fall to -213)
 *   out[1]  limit, 0 or 1
 *
 * Refusals: IMBROLT_BAND_RANGE for the total, then for the background; IMBROLT_OUTPUT_TOO_SMALL.
 */
uint32_t imbrolt_correct_field(int32_t total, int32_t background, int32_t *out, size_t out_len);

/*
 * Corrects a level for background noise by the laboratory rule; both in tenths.
 *
 *   out[0]  corrected level, not tested for range
 *
 * Refusals: IMBROLT_BAND_RANGE for the total, then for the background; IMBROLT_BACKGROUND_TOO_NEAR;
 * IMBROLT_OUTPUT_TOO_SMALL.
 */
uint32_t imbrolt_correct_laboratory(int32_t total, int32_t background, int32_t *out,
                                    size_t out_len);

/*
 * Works out the standardized level difference of one raw band: source-room level, receiving-room
 * level, background level and reverberation time in seconds.
 *
 *   out[0]  difference in tenths
 *   out[1]  limit, 0 or 1
 *
 * Refusals: IMBROLT_NOT_FINITE, IMBROLT_BAND_RANGE for each of the levels in this order;
 * IMBROLT_NOT_FINITE, IMBROLT_TIME_RANGE for the time; IMBROLT_DERIVED_RANGE;
 * IMBROLT_OUTPUT_TOO_SMALL.
 */
uint32_t imbrolt_standardized(float source, float receiving, float background, float time,
                              int32_t *out, size_t out_len);

/*
 * Forms the 5 octaves of 16 thirds, in tenths. The last third is not used.
 *
 *   out[0] .. out[4]  the octaves, from the lowest
 *   out[5]            their marks, bits 0 to 4
 *
 * Refusals: IMBROLT_BAND_COUNT, IMBROLT_BAND_RANGE, IMBROLT_OUTPUT_TOO_SMALL.
 */
uint32_t imbrolt_octaves(const int32_t *values, size_t values_len, uint32_t marks, int32_t *out,
                         size_t out_len);

/*
 * Forms the band means of three specimens: 48 readings, specimen after specimen, each from its lowest
 * band. The number of readings is values_len; a reading whose mark lies past the end of marks is
 * missing.
 *
 *   out[0] .. out[15]  the means in tenths, from the lowest band
 *   out[16]            their marks, bits 0 to 15
 *
 * Refusals: IMBROLT_SPECIMEN_COUNT; then for each reading in the order given IMBROLT_READING_MISSING,
 * IMBROLT_NOT_FINITE, IMBROLT_BAND_RANGE; then IMBROLT_OUTPUT_TOO_SMALL.
 */
uint32_t imbrolt_specimens(const uint8_t *marks, size_t marks_len, const float *values,
                           size_t values_len, int32_t *out, size_t out_len);

/*
 * Grades a door or window from three specimens, given as for imbrolt_specimens.
 *
 *   out[0]  rating
 *   out[1]  C
 *   out[2]  Ctr
 *   out[3]  deciding number: rating + Ctr outside, rating + C inside
 *   out[4]  grade, 0 to 6
 *   out[5]  limit, 0 or 1
 *
 * Refusals: as for imbrolt_specimens.
 */
uint32_t imbrolt_grade(uint32_t side, const uint8_t *marks, size_t marks_len, const float *values,
                       size_t values_len, int32_t *out, size_t out_len);

/*
 * Lists the smallest sets of 1 to 3 bands that would have to be lifted for a better rating. The set is
 * given as for imbrolt_rate, the target in decibels.
 *
 *   list[0] ..  the sets, by size, then lowest, next and last band; bit 0 is the lowest band
 *   out[0]      how many there are, 0 where no set of up to 3 bands is enough
 *
 * The list needs 696 places for thirds and 25 for octaves, however many sets there are; places past
 * the count keep their contents.
 *
 * Refusals: IMBROLT_BAND_COUNT, IMBROLT_BAND_RANGE, IMBROLT_TARGET_RANGE, IMBROLT_TARGET_NOT_BETTER,
 * IMBROLT_OUTPUT_TOO_SMALL (list or out).
 */
uint32_t imbrolt_lift(uint32_t kind, const int32_t *values, size_t values_len, uint32_t marks,
                      int32_t target, uint16_t *list, size_t list_len, int32_t *out,
                      size_t out_len);

/*
 * Answers one request line, given with its line feed.
 *
 *   out[at] ..  the answer line with its line feed; bytes before and after it keep their contents
 *   wrote[0]    its length in bytes, at most IMBROLT_ANSWER_MAX
 *
 * A refused request is answered by a line that names its refusal, and what is not a request by the
 * line `?`, `?`, 11; the call itself is refused only with IMBROLT_OUTPUT_TOO_SMALL (at is past the
 * end of out, the line does not fit between at and the end, or wrote has no place).
 */
uint32_t imbrolt_answer_line(const uint8_t *line, size_t line_len, uint8_t *out, size_t out_len,
                             size_t at, uint64_t *wrote, size_t wrote_len);

/*
 * Answers the lines of a stream, a block of bytes at a time.
 *
 *   out[0] ..    the answers to the whole lines of input for which out has room
 *   progress[0]  bytes of input used: hand the others in again, at the front of the next block
 *   progress[1]  bytes written to out
 *   progress[2]  1 while the rest of a line too long to be a request is passed over, else 0
 *
 * Hand in skipping = 0 with the first block and progress[2] of the call before with every other;
 * last = 1 once the input ends with this block, else 0 (any number but 0 is 1). A last piece without
 * its line feed is then answered too. The answers of all calls, joined, are those of the whole
 * stream, however it was cut: one for each line, in order. An out of IMBROLT_ANSWER_MAX bytes or more
 * has room for any answer.
 *
 * Refused only with IMBROLT_OUTPUT_TOO_SMALL, where progress has fewer than 3 places.
 */
uint32_t imbrolt_answer_block(const uint8_t *input, size_t input_len, uint32_t skipping,
                              uint32_t last, uint8_t *out, size_t out_len, uint64_t *progress,
                              size_t progress_len);

/* The most entries of a register. */
#define IMBROLT_REGISTER_ENTRIES 512

/* What was asked for under a key. Bytes past the key's length, and values and marks past the bands
 * of the kind, do not matter; a call enters them as 0. */
typedef struct imbrolt_entry {
    uint64_t customer;
    uint8_t key[32];
    int32_t values[16]; /* tenths */
    uint32_t price;     /* fen */
    uint16_t marks;
    uint8_t length; /* of the key */
    uint8_t kind;   /* enum imbrolt_kind */
} imbrolt_entry;

/* The keys that customers were charged for, in order of entry. It is the caller's memory: 57352 bytes
 * without gaps, at an address divisible by 8, which may be copied and kept as they are, for a machine
 * of the same byte order. Entries from the count on do not matter. Whatever bytes are read back, a
 * call answers as for a register that calls left, or with IMBROLT_REGISTER_DAMAGED.
 *
 * No call takes NULL for a register. A thread that calls on one needs 512 KB of stack. */
typedef struct imbrolt_register {
    imbrolt_entry entries[IMBROLT_REGISTER_ENTRIES];
    uint64_t count;
} imbrolt_register;

#if defined(__cplusplus) && __cplusplus >= 201103L
static_assert(sizeof(imbrolt_entry) == 112, "an entry has no gaps");
static_assert(sizeof(imbrolt_register) == 57352, "a register has no gaps");
#elif defined(__STDC_VERSION__) && __STDC_VERSION__ >= 201112L
_Static_assert(sizeof(imbrolt_entry) == 112, "an entry has no gaps");
_Static_assert(sizeof(imbrolt_register) == 57352, "a register has no gaps");
#endif

/* Opens a register empty: all its bytes become 0, whatever they were. Never refused. */
uint32_t imbrolt_open_register(imbrolt_register *reg);

/*
 * Rates a set, given as for imbrolt_rate, on a customer's bill: a new key is entered and charged; the
 * same customer, key, kind and bands again get the same sheet and no charge. A register holds no
 * sheets: in one that another version left, a key's sheet is this version's. A key is 1 to 32 ASCII
 * letters, digits or hyphens. The price, in fen, is fixed when the key is entered; that of a later
 * call is tested for its range and is otherwise without effect.
 *
 *   out[0] .. out[5]  as for imbrolt_rate
 *   out[6]            what is charged now, in fen: the price for a new key, else 0
 *
 * A new key is written to the entry at the place of the count, and the count goes up by 1; nothing
 * else of the register changes. Where the key was there, or the call is refused, nothing does.
 *
 * Refusals: IMBROLT_REGISTER_DAMAGED (a count above 512; among the entries below the count a price
 * above 1,000,000, no kind, a band out of range, a key of another shape, or one customer and key
 * twice); IMBROLT_NOT_A_REQUEST for the key; IMBROLT_BAND_COUNT, IMBROLT_BAND_RANGE;
 * IMBROLT_PRICE_RANGE; IMBROLT_OTHER_BANDS; IMBROLT_REGISTER_FULL; IMBROLT_OUTPUT_TOO_SMALL.
 */
uint32_t imbrolt_bill(imbrolt_register *reg, uint64_t customer, const uint8_t *key, size_t key_len,
                      uint32_t kind, const int32_t *values, size_t values_len, uint32_t marks,
                      uint32_t price, int32_t *out, size_t out_len);

/*
 * Adds up what a customer owes: the prices of that customer's keys.
 *
 *   out[0]  the total in fen, 0 for a customer without keys
 *
 * Refusals: IMBROLT_REGISTER_DAMAGED as for imbrolt_bill, IMBROLT_OUTPUT_TOO_SMALL.
 */
uint32_t imbrolt_owed(const imbrolt_register *reg, uint64_t customer, int32_t *out, size_t out_len);

/*
 * Closes a customer's entries, as after billing: their total is handed out, the entries go, and the
 * others move together in their order. From then on the customer's keys are new again and the total
 * starts at 0; the room takes other keys. Other customers' totals and retries are as they were.
 *
 *   out[0]  the total in fen, 0 for a customer without keys
 *
 * An entry that moves keeps all its bytes. Those of the places from the new count up to the old one
 * become 0, so that nothing of what went stays in the register; places from the old count on keep
 * their contents. Copies that a call makes on its stack are not cleared. For a customer without keys,
 * or where the call is refused, nothing changes.
 *
 * What was handed out is not in the register any more: a host should keep the total, and save the
 * register, before it lets the customer know.
 *
 * Refusals: IMBROLT_REGISTER_DAMAGED as for imbrolt_bill, IMBROLT_OUTPUT_TOO_SMALL.
 */
uint32_t imbrolt_close(imbrolt_register *reg, uint64_t customer, int32_t *out, size_t out_len);

#ifdef __cplusplus
}
#endif

#endif
