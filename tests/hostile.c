/* Damaged jobs at random, on boards of all sizes: whether the library refuses each with the number that 01's table of causes asks for, and
 * plans the others.
 *
 * A job starts sound and is damaged in up to four ways at once, at and one past every bound and far beyond. The refusal that it has to get
 * is worked out here from that table alone. Each job is planned between closed pages, so every byte lent or near it counts (held.h).
 * A plan is held to what can be said of it without planning, and to that of bench/plain.c: see plans_right.
 *
 * The number of jobs may be given as an argument, for slow checkers. From the usual number on, a refusal, a pair of causes or a kind of
 * damage that never came up is a fault too, because the run has not tested it.
 */
#include "held.h"

#include "../bench/baselines.h"

#include <inttypes.h>
#include <stdio.h>
#include <string.h>

enum { USUAL_JOBS = 30000, LEAST_DAMAGED = 20000, LEAST_REFUSED = 200, MOST_DAMAGES = 4, CAUSES = 9 };
enum { MOST_LEVELS = MOST_LIST / sizeof(uint32_t), MOST_LOADS = MOST_LIST / sizeof(uint64_t) };

#define TWO_32 (UINT64_C(1) << 32)
#define TWO_63 (UINT64_C(1) << 63)

static struct dice dice = {20130604};

static uint64_t pick(uint64_t below)
{
    return draw(&dice, below);
}

/* The causes of refusal. Each is asked by itself, also where an earlier one applies: lists may differ in length, numbers may be any. */

static unsigned __int128 places(const struct job *job)
{
    return (unsigned __int128)job->islands * job->cores;
}

static int board_out_of_range(const struct job *job)
{
    return job->islands == 0 || job->islands > 8 || job->cores == 0 || job->cores > 8;
}

static int levels_miscounted(const struct job *job)
{
    return job->n_frequencies == 0 || job->n_frequencies > 32 || job->n_powers != job->n_frequencies;
}

static int level_out_of_range(const struct job *job)
{
    for (size_t k = 0; k < job->n_frequencies; k++)
        if (job->frequencies[k] < 1000 || job->frequencies[k] > 4000000 || (k > 0 && job->frequencies[k] <= job->frequencies[k - 1]))
            return 1;
    for (size_t k = 0; k < job->n_powers; k++)
        if (job->powers[k] < 1 || job->powers[k] > 10000000)
            return 1;
    return 0;
}

/* Products of 32-bit numbers fit in 64 bits, whatever they are. */
static int slope_falls(const struct job *job)
{
    for (size_t k = 1; k < job->n_frequencies && k < job->n_powers; k++)
        if ((uint64_t)job->powers[k] * job->frequencies[k - 1] < (uint64_t)job->powers[k - 1] * job->frequencies[k])
            return 1;
    return 0;
}

static int island_power_too_high(const struct job *job)
{
    return job->island_power > 1000000000;
}

static int too_many_loads(const struct job *job)
{
    return job->n_loads > places(job);
}

static int load_falls(const struct job *job)
{
    for (size_t k = 1; k < job->n_loads; k++)
        if (job->loads[k] < job->loads[k - 1])
            return 1;
    return 0;
}

/* Where there is no load, or no frequency, nothing is compared. */
static int last_load_too_heavy(const struct job *job)
{
    return job->n_loads > 0 && job->n_frequencies > 0 && job->loads[job->n_loads - 1] > job->frequencies[job->n_frequencies - 1];
}

static int buffer_too_short(const struct job *job)
{
    return job->plan_len < job->n_loads || job->levels_len < job->islands;
}

/* In 01's order: cause i is at place i - 1. */
static int (*const causes[CAUSES])(const struct job *) = {
    board_out_of_range, levels_miscounted, level_out_of_range, slope_falls, island_power_too_high,
    too_many_loads, load_falls, last_load_too_heavy, buffer_too_short,
};

/* What is asked of a plan. Only jobs to which no cause applies come here: loads are sorted, and all sums and products fit in 64 bits. */

/* lowest, highest: the places of its first and last load in the list; highest is counted from 1, and 0 where the island has no load. */
struct island {
    size_t loads, lowest, highest;
    uint64_t sum;
};

static size_t level_due(const struct job *job, const struct island *island)
{
    uint64_t heaviest = island->highest > 0 ? job->loads[island->highest - 1] : 0;
    size_t level = 1;

    while (job->frequencies[level - 1] < heaviest)
        level++;
    return heaviest > 0 ? level : 0;
}

static uint64_t power_due(const struct job *job, size_t level, uint64_t sum)
{
    uint64_t frequency = job->frequencies[level - 1], cost = (job->powers[level - 1] * UINT64_C(1000000) + frequency - 1) / frequency;

    return job->island_power * UINT64_C(1000000) + cost * sum;
}

/* Counts each load to its island; returns whether every load has one. */
static int fill_islands(const struct job *job, const uint8_t *plan, struct island *islands)
{
    for (size_t k = 0; k < job->n_loads; k++) {
        struct island *island = &islands[plan[k]];

        if (plan[k] < 1 || plan[k] > job->islands)
            return 0;
        island->lowest = island->loads++ ? island->lowest : k;
        island->highest = k + 1;
        island->sum += job->loads[k];
    }
    return 1;
}

/* Islands are numbered by their highest place. So one crosses a later one exactly where a place of the later one is between two of its
 * own: the later one's highest follows. An island that is not full has a padded place before all loads. How the padded places are shared
 * out beyond this, the plan does not tell.
 */
static int crosses_later(const struct job *job, const uint8_t *plan, uint8_t number, const struct island *island)
{
    for (size_t k = island->loads < job->cores ? 0 : island->lowest; k < island->highest; k++)
        if (plan[k] > number)
            return 1;
    return 0;
}

/* What is wrong with a plan, or NULL. The order of the islands has the last load on island V, and islands without a load first. */
static const char *fault_of_plan(const struct job *job, const uint8_t *plan, const uint8_t *levels, uint64_t total)
{
    struct island islands[UINT8_MAX + 1] = {{0, 0, 0, 0}};
    uint64_t due = 0;

    if (!fill_islands(job, plan, islands))
        return "a load is on no island";
    for (uint8_t i = 1; i <= job->islands; i++) {
        if (islands[i].loads > job->cores)
            return "an island holds too many loads";
        if (islands[i].highest < islands[i - 1].highest)
            return "the islands are not numbered by their highest place";
        if (crosses_later(job, plan, i, &islands[i]))
            return "two islands cross";
        if (levels[i - 1] != level_due(job, &islands[i]))
            return "a level is not the lowest that is fast enough";
        due += levels[i - 1] ? power_due(job, levels[i - 1], islands[i].sum) : 0;
    }
    return total == due ? NULL : "the total is not that of the plan";
}

/* What is expected is what the same recurrence in plain C gives, once that is held to what can be said of a plan. So the plan is sound on
 * boards of all sizes, its total is its own, and two compilers agree on it. That no placement has a lower total and that the rule names
 * this plan is second_planner.c's to try, on boards that are small enough.
 */
static int plans_right(const char *name, const struct job *job)
{
    uint8_t plan[MOST_BUFFER] = {0}, levels[MOST_BUFFER] = {0};
    uint64_t total = UINT64_MAX;
    uint32_t number = plain_plan(job->islands, job->cores, job->island_power, job->frequencies, job->n_frequencies,
                                 job->powers, job->n_powers, job->loads, job->n_loads,
                                 plan, job->plan_len, levels, job->levels_len, &total);
    const char *fault = number ? "plain C refuses a sound job" : fault_of_plan(job, plan, levels, total);
    struct answer expected = {0, total, plan, job->n_loads, levels, job->islands};

    if (fault) {
        printf("wrong: %s\n", fault);
        tell(name, job);
    }
    return !differs(name, job, &expected) && !fault;
}

/* Sound jobs. A draft is a job with the lists it leads to, open to damage. */
struct draft {
    struct job job;
    uint32_t frequencies[MOST_LEVELS], powers[MOST_LEVELS];
    uint64_t loads[MOST_LOADS];
};

/* Each frequency is drawn from a stretch of its own, so they rise. */
static void draw_frequencies(struct draft *d, size_t levels)
{
    uint64_t stretch = 1 + pick(4) * pick(3999001 / levels) / 3, low = 1000 + pick(3999002 - stretch * levels);

    for (size_t k = 0; k < levels; k++)
        d->frequencies[k] = (uint32_t)(low + k * stretch + pick(stretch));
    if (once_in(&dice, 4)) {
        d->frequencies[0] = 1000;
        d->frequencies[levels - 1] = 4000000;
    }
}

/* From the top down, each power at most what keeps the slope from falling. It is also at least so high that every level below it, rounded
 * down, still gets 1 or more: k + 1 times its frequency over the first one, which for 2500 levels is at most 10000000. At the bounds, the
 * lowest power only lowers the first slope, and the highest only raises the last one.
 */
static void draw_powers(struct draft *d, size_t levels)
{
    uint64_t most = 10000000;

    for (size_t k = levels; k-- > 0;) {
        uint64_t least = ((k + 1) * d->frequencies[k] + d->frequencies[0] - 1) / d->frequencies[0], room = most - least;

        d->powers[k] = (uint32_t)(most - pick((pick(3) ? room / 64 : room) + 1));
        if (k > 0)
            most = (uint64_t)d->powers[k] * d->frequencies[k - 1] / d->frequencies[k];
    }
    if (once_in(&dice, 4)) {
        d->powers[0] = 1;
        d->powers[levels - 1] = 10000000;
    }
}

/* Loads of 0, of a frequency, one above it or any, each put in its place among those before it. */
static void draw_loads(struct draft *d)
{
    uint64_t top = d->frequencies[d->job.n_frequencies - 1];

    for (size_t k = 0; k < d->job.n_loads; k++) {
        uint64_t load = pick(2) ? pick(top + 1) : pick(2) * (d->frequencies[pick(d->job.n_frequencies)] + pick(2));

        put_in_order(d->loads, k, load < top ? load : top);
    }
}

static void draw_table_and_loads(struct draft *d, size_t levels)
{
    d->job.n_frequencies = d->job.n_powers = levels;
    draw_frequencies(d, levels);
    draw_powers(d, levels);
    draw_loads(d);
}

/* The plan buffer is often long enough for a full board, so that loads can be added to a sound job. */
static void draw_job(struct draft *d, uint64_t islands, uint64_t cores)
{
    uint32_t island_power = (uint32_t)(pick(4) ? pick(1000000001) >> pick(30) : pick(2) * 1000000000);
    size_t n = pick(4) ? pick(islands * cores + 1) : islands * cores;
    size_t plan_len = pick(2) ? n : islands * cores + pick(20), levels_len = islands + pick(2) * pick(20);

    d->job = (struct job){islands, cores, island_power, d->frequencies, 0, d->powers, 0, d->loads, n, plan_len, levels_len};
    draw_table_and_loads(d, pick(4) ? 1 + pick(32) : 32);
}

/* A damage takes the draft as earlier ones left it, and returns whether there was something to be damaged. sound: it may leave a job
 * sound, and with some job it has to.
 */
struct damage {
    int sound;
    const char *name;
    int (*function)(struct draft *, const struct damage *);
    enum { ANY, V, Q, FREQUENCY, POWER, PLACES, PLAN, LEVEL, SECOND, LAST } which;
    uint64_t value, spread;
};

static uint64_t amount(const struct damage *how)
{
    return how->value + pick(how->spread + 1);
}

/* A length that has changed: ONE_LESS wraps, and EMPTY is no amount. */
#define ONE_LESS UINT64_MAX
#define EMPTY TWO_63

static uint64_t changed(uint64_t length, const struct damage *how)
{
    return how->value == EMPTY ? 0 : length + amount(how);
}

/* A place that has one before it, counted from 0; 0 where there is none. */
static size_t later_place(size_t n, const struct damage *how)
{
    return n < 2 ? 0 : how->which == SECOND ? 1 : how->which == LAST ? n - 1 : 1 + pick(n - 1);
}

static int size_to(struct draft *d, const struct damage *how)
{
    *(how->which == V ? &d->job.islands : &d->job.cores) = amount(how);
    return 1;
}

static int island_power_to(struct draft *d, const struct damage *how)
{
    d->job.island_power = (uint32_t)amount(how);
    return 1;
}

static int table_of(struct draft *d, const struct damage *how)
{
    draw_table_and_loads(d, amount(how));
    return 1;
}

/* Levels that are multiples of one have equal cross products; one power, not the first, is then less by so much. */
static int multiples(struct draft *d, const struct damage *how)
{
    size_t levels = d->job.n_frequencies = d->job.n_powers = 2 + pick(31);
    uint64_t first = 1 + pick(10), step = 1 + pick(3), last = first + step * (levels - 1);
    uint64_t frequency = 1000 + pick(4000000 / last - 999), power = 1 + pick(10000000 / last);

    for (size_t k = 0; k < levels; k++) {
        d->frequencies[k] = (uint32_t)(frequency * (first + step * k));
        d->powers[k] = (uint32_t)(power * (first + step * k));
    }
    d->powers[1 + pick(levels - 1)] -= (uint32_t)how->value;
    draw_loads(d);
    return 1;
}

/* From 1000000 on both costs are 1, though the slope falls to half. */
static int slope_halved(struct draft *d, const struct damage *how)
{
    d->job.n_frequencies = d->job.n_powers = 2;
    d->frequencies[0] = (uint32_t)amount(how);
    d->frequencies[1] = 2 * d->frequencies[0];
    d->powers[0] = d->powers[1] = 1;
    draw_loads(d);
    return 1;
}

/* The greatest power with which the slope falls, and so much more: with 1 more it does not fall. All numbers are still in range here. */
static int slope_to(struct draft *d, const struct damage *how)
{
    size_t k = later_place(d->job.n_frequencies, how);

    if (k > 0)
        d->powers[k] = (uint32_t)(((uint64_t)d->powers[k - 1] * d->frequencies[k] - 1) / d->frequencies[k - 1] + how->value);
    return k > 0;
}

/* No list is empty yet, so one less can be had. What is behind the table was left there by earlier jobs. */
static int lists_to(struct draft *d, const struct damage *how)
{
    if (how->which != POWER)
        d->job.n_frequencies = changed(d->job.n_frequencies, how);
    if (how->which != FREQUENCY)
        d->job.n_powers = changed(d->job.n_powers, how);
    return 1;
}

/* Every second time at the end of the list where the value belongs, since a bound is sound only there. */
static int number_to(struct draft *d, const struct damage *how)
{
    uint32_t *list = how->which == POWER ? d->powers : d->frequencies;
    size_t n = how->which == POWER ? d->job.n_powers : d->job.n_frequencies;

    if (n > 0)
        list[pick(2) ? pick(n) : how->value <= 1000 ? 0 : n - 1] = (uint32_t)how->value;
    return n > 0;
}

static int frequency_below(struct draft *d, const struct damage *how)
{
    size_t k = later_place(d->job.n_frequencies, how);

    if (k > 0)
        d->frequencies[k] = d->frequencies[k - 1] - (uint32_t)how->value;
    return k > 0;
}

/* New loads are like the last, which keeps the list sorted. */
static int loads_to(struct draft *d, const struct damage *how)
{
    unsigned __int128 n = (how->which == PLACES ? places(&d->job) : 0) + amount(how);

    if (n > MOST_LOADS)
        return 0;
    for (size_t k = d->job.n_loads; k < n; k++)
        d->loads[k] = k > 0 ? d->loads[k - 1] : 0;
    d->job.n_loads = (size_t)n;
    return 1;
}

/* The load before it is raised, so that the one that falls keeps its value. */
static int load_below(struct draft *d, const struct damage *how)
{
    size_t k = later_place(d->job.n_loads, how);

    if (k == 0 || (how->which == PLACES && k <= places(&d->job)))
        return 0;
    d->loads[k - 1] = d->loads[k] + how->value;
    return 1;
}

static int last_load_to(struct draft *d, const struct damage *how)
{
    size_t n = d->job.n_loads, levels = d->job.n_frequencies;

    if (n == 0 || levels == 0)
        return 0;
    d->loads[n - 1] = amount(how) + (how->which == FREQUENCY ? d->frequencies[levels - 1] : 0);
    return 1;
}

static int upper_loads_raised(struct draft *d, const struct damage *how)
{
    for (size_t k = later_place(d->job.n_loads, how); k < d->job.n_loads; k++)
        d->loads[k] += how->value;
    return d->job.n_loads > 0;
}

static int buffer_to(struct draft *d, const struct damage *how)
{
    uint64_t needed = how->which == PLAN ? d->job.n_loads : d->job.islands, len = changed(needed, how);

    if (needed > MOST_BUFFER || len > MOST_BUFFER)
        return 0;
    *(how->which == PLAN ? &d->job.plan_len : &d->job.levels_len) = len;
    return 1;
}

/* In the order in which they are done: those that need a sound table come before those that spoil its numbers. */
static const struct damage damages[] = {
    /* sizes */
    {0, "V 0", size_to, V, 0, 0},
    {0, "V 9", size_to, V, 9, 0},
    {0, "V 10 to 99", size_to, V, 10, 89},
    {0, "V 2^32", size_to, V, TWO_32, 0},
    {0, "V 2^32+2", size_to, V, TWO_32 + 2, 0},
    {0, "V 2^63", size_to, V, TWO_63, 0},
    {0, "V 2^64-1", size_to, V, UINT64_MAX, 0},
    {0, "V large", size_to, V, 9, TWO_63},
    {0, "Q 0", size_to, Q, 0, 0},
    {0, "Q 9", size_to, Q, 9, 0},
    {0, "Q 10 to 99", size_to, Q, 10, 89},
    {0, "Q 2^32", size_to, Q, TWO_32, 0},
    {0, "Q 2^32+2", size_to, Q, TWO_32 + 2, 0},
    {0, "Q 2^63", size_to, Q, TWO_63, 0},
    {0, "Q 2^64-1", size_to, Q, UINT64_MAX, 0},
    {0, "Q large", size_to, Q, 9, TWO_63},
    /* tables */
    {1, "1 level", table_of, ANY, 1, 0},
    {1, "32 levels", table_of, ANY, 32, 0},
    {0, "33 levels", table_of, ANY, 33, 0},
    {0, "34 to 2500 levels", table_of, ANY, 34, 2466},
    {1, "slopes equal", multiples, ANY, 0, 0},
    {0, "slopes equal but for 1", multiples, ANY, 1, 0},
    {0, "slope halved at 1000000", slope_halved, ANY, 1000000, 0},
    {0, "slope halved above", slope_halved, ANY, 1000001, 999999},
    {1, "slope just not falling", slope_to, ANY, 1, 0},
    {0, "slope just falling", slope_to, ANY, 0, 0},
    {1, "last slope just not falling", slope_to, LAST, 1, 0},
    {0, "last slope just falling", slope_to, LAST, 0, 0},
    /* the lengths of the two lists */
    {0, "a frequency more", lists_to, FREQUENCY, 1, 0},
    {0, "a power more", lists_to, POWER, 1, 0},
    {0, "a frequency less", lists_to, FREQUENCY, ONE_LESS, 0},
    {0, "a power less", lists_to, POWER, ONE_LESS, 0},
    {0, "many frequencies more", lists_to, FREQUENCY, 2, 3000},
    {0, "many powers more", lists_to, POWER, 2, 3000},
    {0, "no frequencies", lists_to, FREQUENCY, EMPTY, 0},
    {0, "no powers", lists_to, POWER, EMPTY, 0},
    {0, "no levels", lists_to, ANY, EMPTY, 0},
    /* numbers of the table */
    {0, "frequency 0", number_to, FREQUENCY, 0, 0},
    {0, "frequency 999", number_to, FREQUENCY, 999, 0},
    {1, "frequency 1000", number_to, FREQUENCY, 1000, 0},
    {1, "frequency 4000000", number_to, FREQUENCY, 4000000, 0},
    {0, "frequency 4000001", number_to, FREQUENCY, 4000001, 0},
    {0, "frequency 2^32-1", number_to, FREQUENCY, UINT32_MAX, 0},
    {0, "power 0", number_to, POWER, 0, 0},
    {1, "power 1", number_to, POWER, 1, 0},
    {1, "power 10000000", number_to, POWER, 10000000, 0},
    {0, "power 10000001", number_to, POWER, 10000001, 0},
    {0, "power 2^32-1", number_to, POWER, UINT32_MAX, 0},
    {0, "frequencies equal", frequency_below, ANY, 0, 0},
    {0, "frequency falling", frequency_below, ANY, 1, 0},
    {0, "last frequencies equal", frequency_below, LAST, 0, 0},
    {0, "last frequency falling", frequency_below, LAST, 1, 0},
    /* the island power */
    {1, "island power 1000000000", island_power_to, ANY, 1000000000, 0},
    {0, "island power 2^32-1", island_power_to, ANY, UINT32_MAX, 0},
    {0, "island power 1000000001", island_power_to, ANY, 1000000001, 0},
    {0, "any higher", island_power_to, ANY, 1000000001, 2000000000},
    /* how many loads */
    {1, "no loads", loads_to, ANY, 0, 0},
    {1, "VQ loads", loads_to, PLACES, 0, 0},
    {0, "VQ+1 loads", loads_to, PLACES, 1, 0},
    {0, "hundreds over VQ", loads_to, PLACES, 100, 800},
    {0, "thousands over VQ", loads_to, PLACES, 1000, 5000},
    /* the order of the loads */
    {0, "load beyond VQ 1 below", load_below, PLACES, 1, 0},
    {0, "second load 1 below", load_below, SECOND, 1, 0},
    {0, "any load 1 below", load_below, ANY, 1, 0},
    {0, "last load 1 below", load_below, LAST, 1, 0},
    {0, "second load 2^32 below", load_below, SECOND, TWO_32, 0},
    {0, "any load 2^32 below", load_below, ANY, TWO_32, 0},
    {0, "last load 2^32 below", load_below, LAST, TWO_32, 0},
    /* how heavy they are */
    {1, "last load at last frequency", last_load_to, FREQUENCY, 0, 0},
    {0, "last load 1 above it", last_load_to, FREQUENCY, 1, 0},
    {0, "last load 2^32 above it", last_load_to, FREQUENCY, TWO_32, 0},
    {0, "last load 2^32 and few", last_load_to, ANY, TWO_32, 999},
    {0, "last load 2^63", last_load_to, ANY, TWO_63, 0},
    {0, "last load 2^64-1", last_load_to, ANY, UINT64_MAX, 0},
    {0, "last load and 2^32", upper_loads_raised, LAST, TWO_32, 0},
    {0, "upper loads and 2^32", upper_loads_raised, ANY, TWO_32, 0},
    /* the buffers */
    {0, "plan buffer 1 short", buffer_to, PLAN, ONE_LESS, 0},
    {1, "plan buffer exact", buffer_to, PLAN, 0, 0},
    {1, "plan buffer longer", buffer_to, PLAN, 1, 2000},
    {1, "plan buffer empty", buffer_to, PLAN, EMPTY, 0},
    {0, "level buffer 1 short", buffer_to, LEVEL, ONE_LESS, 0},
    {1, "level buffer exact", buffer_to, LEVEL, 0, 0},
    {1, "level buffer longer", buffer_to, LEVEL, 1, 2000},
    {0, "level buffer empty", buffer_to, LEVEL, EMPTY, 0},
};

enum { DAMAGES = sizeof damages / sizeof damages[0] };

/* applied[i][j]: jobs refused by i to which cause j applies, so applied[i][i] are all refused by i. */
static struct {
    uint64_t applied[1 + CAUSES][1 + CAUSES], at_once[1 + CAUSES], damaged, in_spite, done[DAMAGES], accepted[DAMAGES];
} counts;

/* Does up to four damages, and adds their names to that of the job. Every second time only later ones, which early causes would hide. */
static int do_damage(struct draft *d, int *done, char *name, size_t size)
{
    size_t from = pick(2) * pick(DAMAGES);
    int any = 0;

    for (uint64_t left = pick(MOST_DAMAGES + 1); left > 0; left--)
        done[from + pick(DAMAGES - from)] = 1;
    for (size_t r = from; r < DAMAGES; r++) {
        done[r] = done[r] && damages[r].function(d, &damages[r]);
        if (done[r])
            snprintf(name + strlen(name), size - strlen(name), ", %s", damages[r].name);
        any |= done[r];
    }
    return any;
}

/* The first cause in 01's order that applies, 0 where none does. Counts all that apply. */
static uint32_t refusal_due(const struct job *job)
{
    uint32_t first = 0, at_once = 0;

    for (uint32_t i = 1; i <= CAUSES; i++)
        if (causes[i - 1](job)) {
            first = first ? first : i;
            counts.applied[first][i]++;
            at_once++;
        }
    counts.at_once[at_once]++;
    return first;
}

/* Boards take turns, so that every size gets its share. */
static int passes(struct draft *d, uint64_t number)
{
    int done[DAMAGES] = {0}, any;
    char name[200];
    struct answer expected;

    snprintf(name, sizeof name, "job %" PRIu64, number);
    draw_job(d, 1 + number % 8, 1 + number / 8 % 8);
    any = do_damage(d, done, name, sizeof name);
    expected = refusal(refusal_due(&d->job));
    counts.damaged += any;
    counts.in_spite += any && !expected.number;
    for (size_t r = 0; r < DAMAGES; r++) {
        counts.done[r] += done[r];
        counts.accepted[r] += done[r] && !expected.number;
    }
    return expected.number ? !differs(name, &d->job, &expected) : plans_right(name, &d->job);
}

/* Shows a count; returns whether it is below the least that makes the run a test. */
static int show(const char *before, uint64_t count, uint64_t least)
{
    printf("%s%" PRIu64 "%s", before, count, count < least ? " (too few)" : "");
    return count < least;
}

/* Returns how many counts are too low; all: whether the run is long enough to ask that. */
static unsigned report(int all)
{
    unsigned low = 0;

    low += show("damaged ", counts.damaged, all ? LEAST_DAMAGED : 0);
    show(", accepted ", counts.at_once[0], 0);
    show(", of these in spite of damage ", counts.in_spite, 0);
    for (uint32_t i = 1; i <= CAUSES; i++) {
        printf("\nrefused by %" PRIu32 ", then of these with each later cause too:", i);
        for (uint32_t j = i; j <= CAUSES; j++)
            low += show(" ", counts.applied[i][j], !all ? 0 : i == j ? LEAST_REFUSED : 1);
    }
    printf("\njobs with no cause, one, two and so on:");
    for (uint32_t n = 0; n <= CAUSES; n++)
        show(" ", counts.at_once[n], 0);
    printf("\ndamages done / jobs with them accepted");
    for (size_t r = 0; r < DAMAGES; r++) {
        printf("%s%s", r % 6 ? "; " : "\n", damages[r].name);
        low += show(": ", counts.done[r], all);
        low += show(" / ", counts.accepted[r], all && damages[r].sound);
    }
    printf("\n");
    return low;
}

int main(int argc, char **argv)
{
    static struct draft draft;
    uint64_t jobs = jobs_asked(argc, argv, USUAL_JOBS), passed = 0, failed;

    printf("seed %" PRIu64 ", %" PRIu64 " jobs\n", dice.state, jobs);
    for (uint64_t number = 0; number < jobs; number++)
        passed += passes(&draft, number);
    failed = jobs - passed + report(jobs >= USUAL_JOBS);
    printf("%" PRIu64 " passed, %" PRIu64 " failed\n", passed, failed);
    return failed ? 1 : 0;
}
