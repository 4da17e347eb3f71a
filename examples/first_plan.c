/* Plans the loads of one board and prints the plan; then a list that is one load too long, which is refused.
 * Units and refusals are explained in include/mizhgavul.h; what this prints stands in first_plan.stdout.
 */
#include "mizhgavul.h"

#include <inttypes.h>
#include <stdio.h>

enum { ISLANDS = 2, CORES = 2, LEVELS = 3, MOST_LOADS = 5 };

static const uint32_t frequencies_khz[LEVELS] = {100000, 200000, 400000};
static const uint32_t powers_uw[LEVELS] = {10000, 40000, 160000};
static const uint32_t island_power_uw = 20000;
static const uint64_t loads_khz[MOST_LOADS] = {50000, 100000, 200000, 400000, 400000};

static void print_plan(const uint8_t *plan, size_t n_loads, const uint8_t *levels, uint64_t total_pw)
{
    for (size_t k = 0; k < n_loads; k++)
        printf("load %zu of %" PRIu64 " kHz goes to island %d\n", k + 1, loads_khz[k], plan[k]);
    for (size_t k = 0; k < ISLANDS; k++)
        if (levels[k] == 0)
            printf("island %zu is idle\n", k + 1);
        else
            printf("island %zu runs at level %d, %" PRIu32 " kHz\n", k + 1, levels[k], frequencies_khz[levels[k] - 1]);
    printf("the total is %" PRIu64 " pW, or %" PRIu64 ".%06" PRIu64 " microwatts\n", total_pw, total_pw / 1000000, total_pw % 1000000);
}

static void plan_first(size_t n_loads)
{
    uint8_t plan[MOST_LOADS], levels[ISLANDS];
    uint64_t total_pw;
    uint32_t answer = mizhgavul_plan(ISLANDS, CORES, island_power_uw, frequencies_khz, LEVELS, powers_uw, LEVELS,
                                     loads_khz, n_loads, plan, sizeof plan, levels, sizeof levels, &total_pw);

    if (answer == 0)
        print_plan(plan, n_loads, levels, total_pw);
    else
        printf("%zu loads are refused, cause %" PRIu32 "\n", n_loads, answer);
}

int main(void)
{
    plan_first(4);
    plan_first(5);
    return 0;
}
