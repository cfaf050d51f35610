/* A signal path in fixed point: a windowed FIR filter, two biquads, and a Fourier transform of 256 points. */
#include "result.h"

enum { POINTS = 256, TAPS = 32, ROUNDS = 5, ONE = 1 << 14 };

typedef struct {
    int real, imaginary;
} Complex;

typedef struct {
    int b0, b1, b2, a1, a2, x1, x2, y1, y2;
} Biquad;

static int samples[POINTS], filtered[POINTS], taps[TAPS];
static Complex spectrum[POINTS], twiddles[POINTS / 2];
static Biquad low = {1000, 2000, 1000, -20000, 8000, 0, 0, 0, 0}, high = {12000, -24000, 12000, -22000, 9500, 0, 0, 0, 0};

static int product(int a, int b)
{
    return (a * b) >> 14;
}

/* The twiddles by steps of a rotation: cosine and sine of 2 pi / 256. */
static void make_twiddles(void)
{
    Complex at = {ONE, 0};
    for (u32 k = 0; k < POINTS / 2; k++) {
        twiddles[k] = at;
        at = (Complex){product(at.real, 16379) + product(at.imaginary, 402), product(at.imaginary, 16379) - product(at.real, 402)};
    }
}

static void make_taps(void)
{
    for (int k = 0; k < TAPS; k++)
        taps[k] = (k < TAPS / 2 ? k + 1 : TAPS - k) * ONE / (TAPS * TAPS / 4 + TAPS / 2);
}

static void take_samples(u32 *state)
{
    for (u32 i = 0; i < POINTS; i++)
        samples[i] = twiddles[i * 5 % (POINTS / 2)].real / 2 + (int)(next_random(state) & 1023) - 512;
}

static void convolve(void)
{
    for (int i = 0; i < POINTS; i++) {
        int sum = 0;
        for (int k = 0; k < TAPS; k++)
            sum += samples[(i - k) & (POINTS - 1)] * taps[k] >> 6;
        filtered[i] = sum >> 8;
    }
}

static int biquad_step(Biquad *q, int x)
{
    int y = product(q->b0, x) + product(q->b1, q->x1) + product(q->b2, q->x2) - product(q->a1, q->y1) - product(q->a2, q->y2);
    q->x2 = q->x1;
    q->x1 = x;
    q->y2 = q->y1;
    q->y1 = y;
    return y;
}

static u32 reversed(u32 k)
{
    u32 found = 0;
    for (u32 bit = 1; bit < POINTS; bit <<= 1)
        found = found << 1 | ((k & bit) != 0);
    return found;
}

static void butterfly(Complex *a, Complex *b, Complex w)
{
    Complex turned = {product(b->real, w.real) - product(b->imaginary, w.imaginary), product(b->real, w.imaginary) + product(b->imaginary, w.real)};
    Complex sum = {(a->real + turned.real) / 2, (a->imaginary + turned.imaginary) / 2};
    *b = (Complex){(a->real - turned.real) / 2, (a->imaginary - turned.imaginary) / 2};
    *a = sum;
}

static void transform(void)
{
    for (u32 k = 0; k < POINTS; k++)
        spectrum[reversed(k)] = (Complex){filtered[k], 0};
    for (u32 half = 1; half < POINTS; half *= 2)
        for (u32 k = 0; k < POINTS; k++)
            if ((k & half) == 0)
                butterfly(&spectrum[k], &spectrum[k + half], twiddles[k % half * (POINTS / 2 / half)]);
}

int main(void)
{
    u32 state = 7, hash = 2166136261u;
    int peak = 0;
    make_twiddles();
    make_taps();
    for (u32 round = 0; round < ROUNDS; round++) {
        take_samples(&state);
        convolve();
        for (u32 i = 0; i < POINTS; i++)
            filtered[i] = biquad_step(&low, filtered[i]) + biquad_step(&high, filtered[i]) / 4;
        transform();
        for (u32 k = 0; k < POINTS; k++) {
            int power = product(spectrum[k].real, spectrum[k].real) + product(spectrum[k].imaginary, spectrum[k].imaginary);
            peak = power > peak ? power : peak;
            hash = (hash ^ (u32)power) * 16777619u;
        }
    }
    write_result("peak", (u32)peak);
    write_result("powers", hash);
    return 0;
}
