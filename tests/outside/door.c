/*
 * The C door as a program: makes the calls that it reads on standard input, and writes back what
 * they returned and left in memory. For comparing the archive as a program of C links it.
 *
 * A batch is its length in bytes (64 bits) and so many bytes of frames; the answer is the frames
 * again, each call's number replaced by what it returned. Numbers are in this machine's order.
 */
#include "imbrolt.h"

/* The only functions of the C library, declared here: no header of its is needed. */
extern long read(int file, void *bytes, size_t count);
extern long write(int file, const void *bytes, size_t count);

struct part {
    uint32_t start, length;
};

struct frame {
    uint32_t call, words;
    uint64_t numbers[4];
    struct part parts[4];
    unsigned char memory[];
};

enum { LARGEST = 1 << 24 };
static uint64_t batch[LARGEST / 8];

/* An array of a frame; an empty one is handed on as NULL. */
static void *array(struct frame *frame, int which)
{
    struct part part = frame->parts[which];
    return part.length == 0 ? NULL : frame->memory + part.start;
}

static float real(uint64_t bits)
{
    union {
        uint32_t bits;
        float real;
    } both = {(uint32_t)bits};
    return both.real;
}

static uint32_t call(struct frame *f)
{
    uint64_t *n = f->numbers;
    void *p = array(f, 0), *q = array(f, 1), *r = array(f, 2), *s = array(f, 3);
    size_t pn = f->parts[0].length, qn = f->parts[1].length, rn = f->parts[2].length;
    size_t sn = f->parts[3].length;

    switch (f->call) {
    case 0: return imbrolt_take_reading((uint32_t)n[0], real(n[1]), p, pn);
    case 1: return imbrolt_rate((uint32_t)n[0], p, pn, (uint32_t)n[1], q, qn);
    case 2: return imbrolt_rate_readings((uint32_t)n[0], p, pn, q, qn, r, rn);
    case 3: return imbrolt_cover(p, pn, (uint32_t)n[0], q, qn);
    case 4: return imbrolt_correct_field((int32_t)n[0], (int32_t)n[1], p, pn);
    case 5: return imbrolt_correct_laboratory((int32_t)n[0], (int32_t)n[1], p, pn);
    case 6: return imbrolt_standardized(real(n[0]), real(n[1]), real(n[2]), real(n[3]), p, pn);
    case 7: return imbrolt_octaves(p, pn, (uint32_t)n[0], q, qn);
    case 8: return imbrolt_specimens(p, pn, q, qn, r, rn);
    case 9: return imbrolt_grade((uint32_t)n[0], p, pn, q, qn, r, rn);
    case 10:
        return imbrolt_lift((uint32_t)n[0], p, pn, (uint32_t)n[1], (int32_t)n[2], q, qn, r, rn);
    case 11: return imbrolt_answer_line(p, pn, q, qn, (size_t)n[0], r, rn);
    case 12: return imbrolt_answer_block(p, pn, (uint32_t)n[0], (uint32_t)n[1], q, qn, r, rn);
    case 13: return imbrolt_open_register(p);
    case 14:
        return imbrolt_bill(p, n[0], q, qn, (uint32_t)n[1], r, rn, (uint32_t)n[2], (uint32_t)n[3], s, sn);
    case 15: return imbrolt_owed(p, n[0], q, qn);
    case 16: return imbrolt_close(p, n[0], q, qn);
    default: return UINT32_MAX;
    }
}

/* Reads exactly so many bytes; 0 at the end of the input or on an error. */
static int read_all(void *bytes, size_t count)
{
    unsigned char *at = bytes;
    while (count > 0) {
        long got = read(0, at, count);
        if (got <= 0)
            return 0;
        at += got;
        count -= (size_t)got;
    }
    return 1;
}

static int write_all(const void *bytes, size_t count)
{
    const unsigned char *at = bytes;
    while (count > 0) {
        long put = write(1, at, count);
        if (put <= 0)
            return 0;
        at += put;
        count -= (size_t)put;
    }
    return 1;
}

int main(void)
{
    uint64_t length;
    while (read_all(&length, sizeof length)) {
        if (length > LARGEST || !read_all(batch, length))
            return 1;
        for (size_t at = 0; at < length;) {
            struct frame *frame = (struct frame *)((unsigned char *)batch + at);
            at += sizeof *frame + 8 * (size_t)frame->words;
            frame->call = call(frame);
        }
        if (!write_all(batch, length))
            return 1;
    }
    return 0;
}
