// Mixes two signals of 16-bit samples, and adds up what came out, in a loop of vector instructions.
#include <arm_mve.h>
#include <stdint.h>

enum { SAMPLES = 20 };

int16_t first[SAMPLES] = {100, 200, 300, 400, 500, 600, 700, 800, 900, 1000, 1100, 1200, 1300, 1400, 1500, 1600, 1700, 1800, 1900, 32000};
int16_t second[SAMPLES] = {1, 2, 3, 4, 5, 6, 7, 8, 9, 10, 11, 12, 13, 14, 15, 16, 17, 18, 19, 32000};
int16_t mixed[SAMPLES];

// out[i] = a[i] + b[i], with saturation; the answer is the sum of all of them.
__attribute__((noinline)) int32_t mix(int16_t *out, const int16_t *a, const int16_t *b, int count)
{
    int32_t sum = 0;
    for (; count > 0; count -= 8) {
        mve_pred16_t live = vctp16q(count);
        int16x8_t x = vqaddq_s16(vld1q_z_s16(a, live), vld1q_z_s16(b, live));
        vst1q_p_s16(out, x, live);
        sum = vaddvaq_p_s16(sum, x, live);
        a += 8, b += 8, out += 8;
    }
    return sum;
}

int main(void)
{
    *(volatile uint32_t *)0xe000e100 = 1; // interrupt 0 is enabled (NVIC_ISER0)
    return mix(mixed, first, second, SAMPLES);
}
