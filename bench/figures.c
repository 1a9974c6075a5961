/* The custody calculation of programs/figures_bench in C with 128-bit integers: same draws, same steps, same number. */
#include <inttypes.h>
#include <stdint.h>
#include <stdio.h>

typedef __int128 i128;

struct figures { int64_t tov, fw, ctsh, vcf, fra, gov, gsv, nsv, swv, mass; };
struct shell { int insulated; int64_t coefficient, reference; };

static uint64_t state = 1;

static int64_t below(uint64_t count) {
    state = state * 6364136223846793005u + 1442695040888963407u;
    return (int64_t)((state >> 33) % count);
}

/* num / den to a multiple of step, halves away from zero */
static i128 nearest(i128 num, i128 den, int64_t step) {
    i128 magnitude = num < 0 ? -num : num, whole = den * step;
    i128 steps = magnitude / whole, left = magnitude % whole;
    if (whole <= 2 * left) steps++;
    return num < 0 ? -(steps * step) : steps * step;
}

__attribute__((noinline)) static int figures(int64_t tov, int64_t fw, const struct shell *shell, int64_t liquid,
                                             int64_t ambient, int64_t floating, int64_t density, int64_t sw, int64_t vcf,
                                             const int64_t *steps, struct figures *q) {
    if (fw > tov) return 0;
    int64_t difference = shell->insulated ? 8 * liquid - 8 * shell->reference : 7 * liquid + ambient - 8 * shell->reference;
    i128 growth = 8000000000 + (i128)shell->coefficient * difference;
    q->tov = tov;
    q->fw = fw;
    q->vcf = vcf;
    q->ctsh = (int64_t)nearest(growth * growth * 100000, (i128)64 * 1000000000000000000, steps[5]);
    q->fra = floating == 0 ? 0 : (int64_t)-nearest((i128)floating * 1000000000, (i128)density * vcf, steps[7]);
    q->gov = (int64_t)nearest((i128)(tov - fw) * q->ctsh + (i128)q->fra * 100000, 100000, steps[8]);
    if (q->gov < 0) return 0;
    q->gsv = (int64_t)nearest((i128)q->gov * vcf, 100000, steps[9]);
    q->nsv = (int64_t)nearest((i128)q->gsv * (100000 - sw), 100000, steps[10]);
    q->swv = q->gsv - q->nsv;
    q->mass = (int64_t)nearest((i128)q->nsv * density, 10000, steps[11]);
    return 1;
}

int main(void) {
    const int64_t steps[12] = {1, 5, 1, 1, 1, 1, 1, 1, 1, 1, 1, 1};
    uint64_t number = 0;
    for (int i = 0; i < 1000000; i++) {
        struct figures q;
        struct shell shell;
        int64_t tov = below(1000000001), fw = below(1000001);
        shell.insulated = below(2) == 1;
        shell.coefficient = below(1001);
        shell.reference = below(3001);
        int64_t liquid = -2000 + below(10001), ambient = -2000 + below(6001), floating = below(200001);
        int64_t density = 4000 + below(8001), sw = below(100001), vcf = 50000 + below(100001);
        if (figures(tov, fw, &shell, liquid, ambient, floating, density, sw, vcf, steps, &q)) {
            const int64_t all[10] = {q.tov, q.fw, q.ctsh, q.vcf, q.fra, q.gov, q.gsv, q.nsv, q.swv, q.mass};
            for (int k = 0; k < 10; k++) number = number * 31 + (uint64_t)all[k];
        } else {
            number = number * 31;
        }
    }
    printf("%" PRId64 "\n", (int64_t)number);
    return 0;
}
