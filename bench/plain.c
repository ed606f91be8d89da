/*
 * Request lines to answer lines in doubles, as one would write it at first: strtod for the bands, the
 * curve moved by whole decibels, pow and log10 for the terms. It is timed beside the proved program;
 * its answers may differ where a sum of doubles falls on the other side of a rounding.
 */
#define _DEFAULT_SOURCE
#include <math.h>
#include <stdio.h>
#include <stdlib.h>
#include <string.h>

enum { THIRDS = 16, OCTAVES = 5, LONGEST = 512 };

struct kind {
    const char *name;
    int airborne, bands;
    double limit;
    double reference[THIRDS];
    double spectra[2][THIRDS];
};

static const struct kind KINDS[] = {
    {"A3", 1, THIRDS, 32.0,
     {-19, -16, -13, -10, -7, -4, -1, 0, 1, 2, 3, 4, 4, 4, 4, 4},
     {{-29, -26, -23, -21, -19, -17, -15, -13, -12, -11, -10, -9, -9, -9, -9, -9},
      {-20, -20, -18, -16, -15, -14, -13, -12, -11, -9, -8, -9, -10, -11, -13, -15}}},
    {"A1", 1, OCTAVES, 10.0, {-16, -7, 0, 3, 4}, {{-21, -14, -8, -5, -4}, {-14, -10, -7, -4, -6}}},
    {"I3", 0, THIRDS, 32.0, {2, 2, 2, 2, 2, 2, 1, 0, -1, -2, -3, -6, -9, -12, -15, -18}, {{0}}},
    {"I1", 0, OCTAVES, 10.0, {2, 2, 0, -3, -16}, {{0}}},
};

/* What a request line says; count goes on past the bands that are kept. */
struct request {
    const struct kind *kind;
    const char *key;
    int count, limit, missing, outside;
    double values[THIRDS];
};

struct sheet {
    int rating, first, second, shifts;
};

/* Sums of tenths in doubles are a little off; this much is still no tenth. */
static const double SLACK = 1e-6;

static double total_deficit(const struct kind *kind, const double *values, double position)
{
    double total = 0;
    for (int band = 0; band < kind->bands; band++) {
        double curve = kind->reference[band] + position;
        double deficit = kind->airborne ? curve - values[band] : values[band] - curve;
        if (deficit > 0)
            total += deficit;
    }
    return total;
}

/* To a whole tenth, half going up, and then to a whole decibel, half going to the even one. */
static int rounded(double decibels)
{
    double tenths = floor(10 * decibels + 0.5);
    return (int)nearbyint(tenths / 10);
}

static double energies(const struct kind *kind, const double *values, const double *spectrum)
{
    double sum = 0;
    for (int band = 0; band < kind->bands; band++) {
        double level = kind->airborne ? spectrum[band] - values[band] : values[band];
        sum += pow(10, level / 10);
    }
    return 10 * log10(sum);
}

static struct sheet rate(const struct kind *kind, const double *values)
{
    double sum = 0;
    for (int band = 0; band < kind->bands; band++)
        sum += values[band];
    double mean = sum / kind->bands;
    double start = kind->airborne ? ceil(mean - SLACK) + 5 : floor(mean + SLACK) - 5;
    double step = kind->airborne ? -1 : 1;
    double position = start;
    while (total_deficit(kind, values, position) > kind->limit + SLACK)
        position += step;

    struct sheet sheet = {(int)position, 0, 0, (int)fabs(position - start)};
    if (kind->airborne) {
        sheet.first = rounded(-energies(kind, values, kind->spectra[0]) - position);
        sheet.second = rounded(-energies(kind, values, kind->spectra[1]) - position);
    } else {
        if (kind->bands == OCTAVES)
            sheet.rating -= 5;
        sheet.first = rounded(energies(kind, values, NULL) - 15 - sheet.rating);
    }
    return sheet;
}

static const struct kind *kind_of(const char *name)
{
    for (size_t which = 0; which < sizeof KINDS / sizeof *KINDS; which++)
        if (strcmp(KINDS[which].name, name) == 0)
            return &KINDS[which];
    return NULL;
}

/* Takes in one band; 0 where it is none. */
static int parse_band(struct request *request, char *text)
{
    double value = 0;
    if (strcmp(text, "-") == 0) {
        request->missing = 1;
    } else {
        char *end;
        if (*text == 'L') {
            request->limit = 1;
            text++;
        }
        value = strtod(text, &end);
        if (end == text || *end != '\0')
            return 0;
        if (value < -20 - SLACK || value > 150 + SLACK)
            request->outside = 1;
    }
    if (request->count < THIRDS)
        request->values[request->count] = value;
    request->count++;
    return 1;
}

/* Takes a line apart, in place; 0 where it is no request. */
static int parse(struct request *request, char *line, size_t length)
{
    if (length > LONGEST || length == 0 || line[length - 1] != '\n')
        return 0;
    line[length - 1] = '\0';
    *request = (struct request){0};
    char *rest = line;
    request->kind = kind_of(strsep(&rest, "\t"));
    request->key = strsep(&rest, "\t");
    if (request->kind == NULL || request->key == NULL || rest == NULL)
        return 0;
    size_t key = strlen(request->key);
    if (key < 1 || key > 32)
        return 0;
    for (char *text = strsep(&rest, "\t"); text != NULL; text = strsep(&rest, "\t"))
        if (!parse_band(request, text))
            return 0;
    return 1;
}

static void answer(char *line, size_t length)
{
    struct request request;
    if (!parse(&request, line, length)) {
        printf("?\t?\t11\n");
        return;
    }
    const struct kind *kind = request.kind;
    int refusal = request.count != kind->bands ? 1 : request.missing ? 3 : request.outside ? 4 : 0;
    if (refusal != 0) {
        printf("%s\t%s\t%d\n", kind->name, request.key, refusal);
        return;
    }
    struct sheet sheet = rate(kind, request.values);
    char mark = request.limit ? 'L' : '=';
    if (kind->airborne)
        printf("%s\t%s\t0\t%d\t%d\t%d\t%d\t%c\n", kind->name, request.key, sheet.rating, sheet.first,
               sheet.second, sheet.shifts, mark);
    else
        printf("%s\t%s\t0\t%d\t%d\t-\t%d\t%c\n", kind->name, request.key, sheet.rating, sheet.first,
               sheet.shifts, mark);
}

int main(void)
{
    static char input[1 << 16], output[1 << 16];
    setvbuf(stdin, input, _IOFBF, sizeof input);
    setvbuf(stdout, output, _IOFBF, sizeof output);
    char *line = NULL;
    size_t capacity = 0;
    ssize_t length;
    while ((length = getline(&line, &capacity, stdin)) > 0)
        answer(line, (size_t)length);
    free(line);
    return ferror(stdin) || fflush(stdout) != 0;
}
