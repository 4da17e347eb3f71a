/* Stands between a test and the library and spoils one thing of what the library does, so that it can be seen that the tests find it.
 * Linked with the option --wrap=mizhgavul_plan; the word SPOILED of the environment names the fault.
 */
#include "held.h"

#include "mizhgavul.h"

#include <stdio.h>
#include <stdlib.h>
#include <string.h>

enum { MOST_PLACES = 64, PW_PER_UW = 1000000 };

struct call {
    struct job job;
    uint8_t *plan, *levels;
    uint64_t *total;
};

/* The linker gives the library's function the first name, and calls of it the second. */
__typeof__(mizhgavul_plan) __real_mizhgavul_plan, __wrap_mizhgavul_plan;

static uint32_t sound(const struct call *c)
{
    const struct job *job = &c->job;

    return __real_mizhgavul_plan(job->islands, job->cores, job->island_power, job->frequencies, job->n_frequencies,
                                 job->powers, job->n_powers, job->loads, job->n_loads,
                                 c->plan, job->plan_len, c->levels, job->levels_len, c->total);
}

/* Figures that are wrong. */

static uint32_t total_higher(struct call *c)
{
    uint32_t answer = sound(c);

    *c->total += answer == 0;
    return answer;
}

/* Another plan with the same total: two equal loads of different islands change places. */
static uint32_t equal_loads_exchanged(struct call *c)
{
    uint32_t answer = sound(c);

    for (size_t k = 0; answer == 0 && k + 1 < c->job.n_loads; k++)
        if (c->job.loads[k] == c->job.loads[k + 1] && c->plan[k] != c->plan[k + 1]) {
            uint8_t first = c->plan[k];

            c->plan[k] = c->plan[k + 1];
            c->plan[k + 1] = first;
            break;
        }
    return answer;
}

static uint32_t inactive_level(struct call *c)
{
    uint32_t answer = sound(c);

    for (size_t k = 0; answer == 0 && k < c->job.islands; k++)
        if (c->levels[k] == 0)
            c->levels[k] = 1;
    return answer;
}

/* Sound plans that are dearer, with the total that is theirs. */

/* The power of an island that holds the loads from one to before another, and its level. */
static uint64_t island(const struct call *c, size_t from, size_t to, uint8_t *level)
{
    const struct job *job = &c->job;
    uint64_t heaviest = to > from ? job->loads[to - 1] : 0, sum = 0;
    size_t k = 0;

    *level = 0;
    if (heaviest == 0)
        return 0;
    while (job->frequencies[k] < heaviest)
        k++;
    *level = (uint8_t)(k + 1);
    while (from < to)
        sum += job->loads[from++];
    return (uint64_t)job->island_power * PW_PER_UW +
           ((uint64_t)job->powers[k] * PW_PER_UW + job->frequencies[k] - 1) / job->frequencies[k] * sum;
}

/* Islands are filled in the order of the loads, the last one first. */
static uint32_t sorted_filling(struct call *c)
{
    size_t n = c->job.n_loads, to = n;
    uint32_t answer = sound(c);

    if (answer != 0)
        return answer;
    *c->total = 0;
    for (uint64_t v = c->job.islands; v > 0; v--) {
        size_t from = to > c->job.cores ? to - c->job.cores : 0;

        *c->total += island(c, from, to, &c->levels[v - 1]);
        for (; to > from; to--)
            c->plan[to - 1] = (uint8_t)v;
    }
    return 0;
}

/* The best plan for no more islands than the loads need. */
static uint32_t fewest_islands(struct call *c)
{
    uint64_t needed = (c->job.n_loads + c->job.cores - 1) / (c->job.cores ? c->job.cores : 1), idle;
    uint32_t answer = sound(c);

    if (answer != 0 || needed == 0 || needed == c->job.islands)
        return answer;
    idle = c->job.islands - needed;
    c->job.islands = needed;
    c->job.levels_len -= idle;
    memset(c->levels, 0, idle);
    c->levels += idle;
    sound(c);
    for (size_t k = 0; k < c->job.n_loads; k++)
        c->plan[k] += (uint8_t)idle;
    return 0;
}

/* Memory that is not to be touched. The first two stay within what is lent: nothing but the marks can tell. */

static uint32_t plan_byte_beyond(struct call *c)
{
    uint32_t answer = sound(c);

    if (answer == 0 && c->job.plan_len > c->job.n_loads)
        c->plan[c->job.n_loads] = 0;
    return answer;
}

static uint32_t level_byte_beyond(struct call *c)
{
    uint32_t answer = sound(c);

    if (answer == 0 && c->job.levels_len > c->job.islands)
        c->levels[c->job.islands] = 0;
    return answer;
}

static uint32_t byte_before_plan(struct call *c)
{
    uint32_t answer = sound(c);

    if (answer == 0)
        c->plan[-1] = 1;
    return answer;
}

/* What is read here is read for its effect alone. */
static volatile uint64_t sink;

static uint32_t load_read_beyond(struct call *c)
{
    sink = c->job.loads[c->job.n_loads];
    return sound(c);
}

static uint32_t frequency_read_before(struct call *c)
{
    sink = c->job.frequencies[-1];
    return sound(c);
}

static uint32_t load_written(struct call *c)
{
    if (c->job.n_loads)
        ((volatile uint64_t *)c->job.loads)[0] = c->job.loads[0];
    return sound(c);
}

/* Refusals that are given wrongly, or leave something behind. */

static uint32_t islands_cut(struct call *c)
{
    c->job.islands = (uint32_t)c->job.islands;
    return sound(c);
}

static uint32_t last_load_cut(struct call *c)
{
    uint64_t loads[MOST_PLACES];
    size_t n = c->job.n_loads;

    if (n == 0 || n > MOST_PLACES)
        return sound(c);
    memcpy(loads, c->job.loads, n * sizeof loads[0]);
    loads[n - 1] = (uint32_t)loads[n - 1];
    c->job.loads = loads;
    return sound(c);
}

static uint32_t refusal_total(struct call *c)
{
    uint64_t before = *c->total;
    uint32_t answer = sound(c);

    if (answer != 0)
        *c->total = before;
    return answer;
}

/* The plan is written before the level buffer's length is known to be enough. */
static uint32_t plan_first(struct call *c)
{
    uint32_t answer = sound(c);

    if (answer == 9 && c->job.plan_len >= c->job.n_loads)
        memset(c->plan, 1, c->job.n_loads);
    return answer;
}

static uint32_t speed_before_order(struct call *c)
{
    const struct job *job = &c->job;
    uint32_t answer = sound(c);

    return answer == 7 && job->loads[job->n_loads - 1] > job->frequencies[job->n_frequencies - 1] ? 8 : answer;
}

static uint32_t island_power_past(struct call *c)
{
    if (c->job.island_power == 1000000001)
        c->job.island_power = 1000000000;
    return sound(c);
}

static uint32_t empty_list_refused(struct call *c)
{
    uint32_t answer = sound(c);

    return c->job.n_loads == 0 && answer == 0 ? 6 : answer;
}

static uint32_t empty_plan_refused(struct call *c)
{
    uint32_t answer = sound(c);

    return c->job.plan_len == 0 && answer == 0 ? 9 : answer;
}

#define FAULT(name) {#name, name}

static const struct {
    const char *name;
    uint32_t (*call)(struct call *);
} faults[] = {
    FAULT(total_higher), FAULT(equal_loads_exchanged), FAULT(inactive_level), FAULT(sorted_filling), FAULT(fewest_islands),
    FAULT(plan_byte_beyond), FAULT(level_byte_beyond), FAULT(byte_before_plan), FAULT(load_read_beyond), FAULT(frequency_read_before),
    FAULT(load_written), FAULT(islands_cut), FAULT(last_load_cut), FAULT(refusal_total), FAULT(plan_first), FAULT(speed_before_order),
    FAULT(island_power_past), FAULT(empty_list_refused), FAULT(empty_plan_refused),
};

uint32_t __wrap_mizhgavul_plan(uint64_t islands, uint64_t cores, uint32_t island_power_uw,
                               const uint32_t *frequencies_khz, size_t n_frequencies, const uint32_t *powers_uw, size_t n_powers,
                               const uint64_t *loads_khz, size_t n_loads, uint8_t *plan, size_t plan_len,
                               uint8_t *levels, size_t levels_len, uint64_t *total_pw)
{
    struct call call = {{islands, cores, island_power_uw, frequencies_khz, n_frequencies, powers_uw, n_powers,
                         loads_khz, n_loads, plan_len, levels_len}, plan, levels, total_pw};
    const char *spoiled = getenv("SPOILED");

    for (size_t k = 0; spoiled && k < sizeof faults / sizeof faults[0]; k++)
        if (strcmp(spoiled, faults[k].name) == 0)
            return faults[k].call(&call);
    printf("SPOILED names no fault\n");
    exit(0);
}
