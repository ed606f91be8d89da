/*
 * Calls every function of the library once, as C99 or C++11, and holds its answer to the example that docs/API.md gives for
 * the call. Status 0 where all are as they should be; else the calls that are not are named.
 */
#include <imbrolt.h>

#include <stdio.h>
#include <string.h>

static int wrong = 0;

static void expect(const char *call, int holds)
{
    if (!holds) {
        printf("every_call: %s\n", call);
        wrong = 1;
    }
}

/* Whether a call was accepted and its answer is what it should be. */
static int gives(uint32_t number, const int32_t *out, const int32_t *wanted, size_t places)
{
    return number == IMBROLT_OK && memcmp(out, wanted, places * sizeof *out) == 0;
}

static const int32_t OCTAVES[5] = {240, 330, 400, 430, 440};
static const int32_t SHEET[IMBROLT_SHEET_PLACES] = {42, -2, -6, 1, 0, 0};

static void try_readings(void)
{
    int32_t out[IMBROLT_SHEET_PLACES];
    const int32_t tie[IMBROLT_VALUE_PLACES] = {-2, 0};
    const float values[5] = {24.0f, 33.04f, 40.0f, 43.0f, 44.0f};
    const uint8_t marks[5] = {IMBROLT_LEVEL, IMBROLT_LEVEL, IMBROLT_LIMIT, IMBROLT_LEVEL, IMBROLT_LEVEL};
    const int32_t marked[IMBROLT_SHEET_PLACES] = {42, -2, -6, 1, 0, 1};

    expect("take_reading", gives(imbrolt_take_reading(IMBROLT_LEVEL, -0.25f, out, 6), out, tie, IMBROLT_VALUE_PLACES));
    expect("take_reading refused",
           imbrolt_take_reading(IMBROLT_LEVEL, 150.0625f, out, 6) == IMBROLT_BAND_RANGE);
    expect("rate", gives(imbrolt_rate(IMBROLT_A1, OCTAVES, 5, 0, out, 6), out, SHEET, IMBROLT_SHEET_PLACES));
    expect("rate refused", imbrolt_rate(IMBROLT_A1, OCTAVES, 4, 0, out, 6) == IMBROLT_BAND_COUNT);
    expect("rate_readings", gives(imbrolt_rate_readings(IMBROLT_A1, marks, 5, values, 5, out, 6), out, marked,
                                  IMBROLT_SHEET_PLACES));
    expect("rate_readings refused",
           imbrolt_rate_readings(IMBROLT_A1, marks, 4, values, 5, out, 6) == IMBROLT_READING_MISSING);
}

static void try_rooms(void)
{
    int32_t out[IMBROLT_SPECIMENS_PLACES];
    const int32_t field[IMBROLT_VALUE_PLACES] = {587, 1};
    const int32_t laboratory[IMBROLT_LEVEL_PLACES] = {587};
    const int32_t difference[IMBROLT_VALUE_PLACES] = {400, 0};
    const int32_t thirds[16] = {300, 330, 360, 300, 330, 360, 300, 330, 360, 300, 330, 360, 300, 330, 360, 300};
    const int32_t cover[16] = {0, 0, 0, 20, 60, 100, 140, 180, 220, 260, 300, 300, 300, 300, 300, 300};
    const int32_t improvement[IMBROLT_COVER_PLACES] = {19, -10, 0};

    expect("correct_field", gives(imbrolt_correct_field(600, 540, out, 17), out, field, IMBROLT_VALUE_PLACES));
    expect("correct_laboratory",
           gives(imbrolt_correct_laboratory(600, 540, out, 17), out, laboratory, IMBROLT_LEVEL_PLACES));
    expect("correct_laboratory refused",
           imbrolt_correct_laboratory(600, 541, out, 17) == IMBROLT_BACKGROUND_TOO_NEAR);
    expect("standardized", gives(imbrolt_standardized(90.0f, 50.0f, 30.0f, 0.5f, out, 17), out, difference,
                                 IMBROLT_VALUE_PLACES));
    expect("octaves", imbrolt_octaves(thirds, 16, 1 << 4, out, 17) == IMBROLT_OK &&
                          out[IMBROLT_OCTAVES_VALUES] == 323 && out[IMBROLT_OCTAVES_VALUES + 4] == 323 &&
                          out[IMBROLT_OCTAVES_MARKS] == 1 << 1);
    expect("cover", gives(imbrolt_cover(cover, 16, 0, out, 17), out, improvement, IMBROLT_COVER_PLACES));
}

static void try_specimens(void)
{
    static const float window[16] = {24, 22, 19, 18, 22, 26, 29, 32, 35, 37, 38, 38, 36, 33, 37, 42};
    int32_t out[IMBROLT_SPECIMENS_PLACES];
    uint8_t marks[48];
    float values[48];
    const int32_t outside[IMBROLT_GRADE_PLACES] = {34, -2, -5, 29, 2, 0};
    const int32_t inside[IMBROLT_GRADE_PLACES] = {34, -2, -5, 32, 3, 0};
    int i;

    memset(marks, IMBROLT_LEVEL, sizeof marks);
    for (i = 0; i < 48; i++)
        values[i] = window[i % 16];
    expect("grade outside",
           gives(imbrolt_grade(IMBROLT_OUTSIDE, marks, 48, values, 48, out, 17), out, outside, IMBROLT_GRADE_PLACES));
    expect("grade inside",
           gives(imbrolt_grade(IMBROLT_INSIDE, marks, 48, values, 48, out, 17), out, inside, IMBROLT_GRADE_PLACES));
    values[0] = 30;
    values[16] = 31;
    values[32] = 32;
    expect("specimens", imbrolt_specimens(marks, 48, values, 48, out, 17) == IMBROLT_OK &&
                            out[IMBROLT_SPECIMENS_VALUES] == 309 && out[IMBROLT_SPECIMENS_VALUES + 1] == 220 &&
                            out[IMBROLT_SPECIMENS_MARKS] == 0);
    expect("specimens refused", imbrolt_specimens(marks, 48, values, 47, out, 17) == IMBROLT_SPECIMEN_COUNT);
}

static void try_lift(void)
{
    /* the curve 50 dB up, but for 500 Hz at 40.0 */
    const int32_t wall[16] = {310, 340, 370, 400, 430, 460, 490, 400, 510, 520, 530, 540, 540, 540, 540, 540};
    uint16_t list[IMBROLT_LIFT_THIRDS_PLACES];
    int32_t out[IMBROLT_LIFT_PLACES];

    expect("lift", imbrolt_lift(IMBROLT_A3, wall, 16, 0, 52, list, IMBROLT_LIFT_THIRDS_PLACES, out, 1) == IMBROLT_OK &&
                       out[IMBROLT_LIFT_COUNT] == 1 && list[0] == 128);
    expect("lift refused", imbrolt_lift(IMBROLT_A3, wall, 16, 0, 52, list, IMBROLT_LIFT_OCTAVES_PLACES, out, 1) ==
                               IMBROLT_OUTPUT_TOO_SMALL);
}

static void try_lines(void)
{
    static const char part[] = "A1\tK4\t24.0\t33.0\t40.0\t43.0\nA1\tK2\t24.0";
    static const char answer[] = "A1\tK4\t1\n";
    uint8_t input[IMBROLT_LINE_MAX], out[IMBROLT_ANSWER_MAX];
    uint64_t wrote[IMBROLT_WROTE_PLACES], progress[IMBROLT_PROGRESS_PLACES];

    memcpy(input, part, sizeof part - 1);
    expect("answer_line", imbrolt_answer_line(input, 26, out, sizeof out, 0, wrote, 1) == IMBROLT_OK &&
                              wrote[IMBROLT_WROTE_BYTES] == 8 && memcmp(out, answer, 8) == 0);
    expect("answer_line refused",
           imbrolt_answer_line(input, 26, out, sizeof out, sizeof out - 7, wrote, 1) == IMBROLT_OUTPUT_TOO_SMALL);
    memset(out, 0, sizeof out);
    expect("answer_block",
           imbrolt_answer_block(input, sizeof part - 1, 0, 0, out, sizeof out, progress, 3) == IMBROLT_OK &&
               progress[IMBROLT_PROGRESS_USED] == 26 && progress[IMBROLT_PROGRESS_WROTE] == 8 &&
               progress[IMBROLT_PROGRESS_SKIPPING] == 0 && memcmp(out, answer, 8) == 0);
}

static void try_register(void)
{
    static imbrolt_register reg;
    static const uint8_t key[2] = {'K', '2'};
    const int32_t others[5] = {241, 330, 400, 430, 440};
    int32_t out[IMBROLT_BILL_PLACES];

    memset(&reg, 0xff, sizeof reg);
    expect("owed refused", imbrolt_owed(&reg, 7, out, 7) == IMBROLT_REGISTER_DAMAGED);
    expect("open_register", imbrolt_open_register(&reg) == IMBROLT_OK && reg.count == 0);
    expect("bill", gives(imbrolt_bill(&reg, 7, key, 2, IMBROLT_A1, OCTAVES, 5, 0, 500, out, 7),
                         out + IMBROLT_BILL_SHEET, SHEET, IMBROLT_SHEET_PLACES) &&
                       out[IMBROLT_BILL_CHARGED] == 500);
    expect("bill again", imbrolt_bill(&reg, 7, key, 2, IMBROLT_A1, OCTAVES, 5, 0, 500, out, 7) == IMBROLT_OK &&
                             out[IMBROLT_BILL_CHARGED] == 0);
    expect("bill refused",
           imbrolt_bill(&reg, 7, key, 2, IMBROLT_A1, others, 5, 0, 500, out, 7) == IMBROLT_OTHER_BANDS);
    expect("owed", imbrolt_owed(&reg, 7, out, 7) == IMBROLT_OK && out[IMBROLT_OWED_TOTAL] == 500);
    expect("close", imbrolt_close(&reg, 7, out, 7) == IMBROLT_OK && out[IMBROLT_OWED_TOTAL] == 500);
    expect("close again", imbrolt_close(&reg, 7, out, 7) == IMBROLT_OK && out[IMBROLT_OWED_TOTAL] == 0);
}

int main(void)
{
    expect("version", imbrolt_version() == IMBROLT_VERSION);
    try_readings();
    try_rooms();
    try_specimens();
    try_lift();
    try_lines();
    try_register();
    return wrong;
}
