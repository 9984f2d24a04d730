/* What gate_bench_environment_is_default says as the program starts, and under each direction of rounding. samples/test builds it twice:
 * as usual, and with -ffast-math, which has a program start without subnormals. */
#include <fenv.h>
#include <stdio.h>

#include "gate_bench.h"

int main(void) {
    printf("at the start: %d\n", gate_bench_environment_is_default());
    fesetround(FE_UPWARD);
    printf("rounding up: %d\n", gate_bench_environment_is_default());
    fesetround(FE_DOWNWARD);
    printf("rounding down: %d\n", gate_bench_environment_is_default());
    fesetround(FE_TOWARDZERO);
    printf("rounding toward zero: %d\n", gate_bench_environment_is_default());
    fesetround(FE_TONEAREST);
    printf("rounding to nearest: %d\n", gate_bench_environment_is_default());
    return 0;
}
