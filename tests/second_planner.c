/* An independent second planner, run beside the library on random jobs for small boards. The jobs are the same in every run.
 *
 * Gives the seed, a line for each fault, what the jobs were like, and last `N passed, M failed`. What has to come back is worked out from
 * the request alone: the least total and the least exact power by trying every placement, the plan by listing every full plan of every run.
 * The planner itself is first held to the board cases 1 to 9 and to numbers of plans that are known.
 *
 * Assumes boards of at most 9 places, so that everything can be tried, and tables whose exact powers fit in 128 bits: it stops where one
 * does not. The number of random jobs may be given as an argument, for slow checkers. From the usual number on, a kind of job that never
 * came up is a fault too, because the run has not tested it.
 */
#include "held.h"

#include <inttypes.h>
#include <stdio.h>
#include <string.h>

enum { MOST_PLACES = 9, MOST_LOADS = MOST_PLACES + 3, MOST_ISLANDS = 8, MOST_LEVELS = 32, MOST_KINDS = 40 };
enum { SEED = 20180004, USUAL_JOBS = 24000, PW_PER_UW = 1000000, MOST_ISLAND_POWER = 1000000000 };

typedef unsigned __int128 wide;

static const wide NONE = ~(wide)0; /* in place of a least total where nothing was listed */

static wide plus(wide a, wide b)
{
    if (__builtin_add_overflow(a, b, &a))
        give_up("a sum of this test does not fit in 128 bits");
    return a;
}

static wide times(wide a, wide b)
{
    if (__builtin_mul_overflow(a, b, &a))
        give_up("a product of this test does not fit in 128 bits");
    return a;
}

/* A job with what follows from it. Exact figures are multiplied by the factor, which every frequency divides, so they are whole. */
struct question {
    const struct job *job;
    uint64_t places, all_loads, padded[MOST_PLACES + 1]; /* padded: by position, from 1 on */
    wide factor, cost[MOST_LEVELS], exact_cost[MOST_LEVELS], island_power, exact_island_power;
    int costs_are_whole;
};

static uint64_t cost(uint32_t frequency, uint32_t power)
{
    return ((uint64_t)power * PW_PER_UW + frequency - 1) / frequency;
}

static wide common_divisor(wide a, wide b)
{
    return b ? common_divisor(b, a % b) : a;
}

static void work_out_costs(struct question *q)
{
    const uint32_t *f = q->job->frequencies, *p = q->job->powers;

    q->factor = 1;
    for (size_t k = 0; k < q->job->n_frequencies; k++)
        q->factor = times(q->factor, f[k] / common_divisor(q->factor, f[k]));
    q->island_power = times(q->job->island_power, PW_PER_UW);
    q->exact_island_power = times(q->island_power, q->factor);
    q->costs_are_whole = 1;
    for (size_t k = 0; k < q->job->n_frequencies; k++) {
        q->cost[k] = cost(f[k], p[k]);
        q->exact_cost[k] = times(times(p[k], PW_PER_UW), q->factor / f[k]);
        q->costs_are_whole &= times(q->cost[k], q->factor) == q->exact_cost[k];
    }
}

static void ask(const struct job *job, struct question *q)
{
    memset(q, 0, sizeof *q);
    q->job = job;
    q->places = job->islands * job->cores;
    for (size_t k = 0; k < job->n_loads; k++) {
        q->all_loads += job->loads[k];
        if (job->n_loads <= q->places)
            q->padded[q->places - job->n_loads + 1 + k] = job->loads[k];
    }
    work_out_costs(q);
}

/* What a placement comes to. It is one only if every active island has a level that is fast enough. */
struct power {
    size_t level[MOST_PLACES + 1], active;
    wide total, exact;
    int fast_enough;
};

/* The number of an island's level: 0 where it is inactive, one above the last where no level is fast enough. */
static size_t level_for(const struct job *job, uint64_t heaviest)
{
    size_t level = heaviest > 0;

    while (level > 0 && level <= job->n_frequencies && job->frequencies[level - 1] < heaviest)
        level++;
    return level;
}

static struct power weigh(const struct question *q, const uint64_t *loads, const size_t *island, size_t n, size_t islands)
{
    uint64_t heaviest[MOST_PLACES + 1] = {0}, sum[MOST_PLACES + 1] = {0};
    struct power power = {.fast_enough = 1};

    for (size_t k = 0; k < n; k++) {
        sum[island[k]] += loads[k];
        if (heaviest[island[k]] < loads[k])
            heaviest[island[k]] = loads[k];
    }
    for (size_t i = 1; i <= islands && power.fast_enough; i++) {
        size_t level = power.level[i] = level_for(q->job, heaviest[i]);

        power.fast_enough = level <= q->job->n_frequencies;
        if (level == 0 || !power.fast_enough)
            continue;
        power.active++;
        power.total = plus(power.total, plus(q->island_power, times(q->cost[level - 1], sum[i])));
        power.exact = plus(power.exact, plus(q->exact_island_power, times(q->exact_cost[level - 1], sum[i])));
    }
    return power;
}

static void lower(wide *least, wide total)
{
    if (total < *least)
        *least = total;
}

/* All placements of the given loads on islands 1 to V. */
struct search {
    const struct question *q;
    size_t island[MOST_LOADS], held[MOST_ISLANDS + 1];
    uint64_t placements;
    wide least_total, least_exact;
};

static void weigh_placement(struct search *s)
{
    struct power power = weigh(s->q, s->q->job->loads, s->island, s->q->job->n_loads, s->q->job->islands);

    if (!power.fast_enough)
        return;
    lower(&s->least_total, power.total);
    lower(&s->least_exact, power.exact);
    s->placements++;
}

/* Gives each load from this one on every island in turn. Only a full island is left out. */
static void try_placements(struct search *s, size_t load)
{
    if (load == s->q->job->n_loads) {
        weigh_placement(s);
        return;
    }
    for (size_t i = 1; i <= s->q->job->islands; i++) {
        if (s->held[i] == s->q->job->cores)
            continue;
        s->held[i]++;
        s->island[load] = i;
        try_placements(s, load + 1);
        s->held[i]--;
    }
}

/* All full plans of a run, the positions first to last. An island is named by its highest position, so the top island is `last`. */
struct choice {
    const struct question *q;
    size_t first, last, opened, held[MOST_PLACES + 1], island[MOST_PLACES + 1], best[MOST_PLACES + 1];
    uint64_t plans, without_crossing, cheapest; /* how many */
    wide least, least_with_active[MOST_ISLANDS + 1], least_with_crossing; /* the first two are of those without a crossing */
};

static int crossing(const size_t *island, size_t first, size_t last)
{
    for (size_t a = first; a <= last; a++)
        for (size_t b = a + 1; b <= last; b++)
            for (size_t c = b + 1; c <= last; c++)
                for (size_t d = c + 1; d <= last; d++)
                    if (island[a] == island[c] && island[b] == island[d] && island[a] != island[b])
                        return 1;
    return 0;
}

/* Whether the top island's members, from the highest down, are greater at the first difference than those in the best plan so far. That
 * is so if the highest position that only one of the two plans has is this plan's.
 */
static int is_greater(const struct choice *c)
{
    for (size_t position = c->last; position >= c->first; position--)
        if ((c->island[position] == c->last) != (c->best[position] == c->last))
            return c->island[position] == c->last;
    return 0;
}

static void weigh_plan(struct choice *c)
{
    struct power power = weigh(c->q, c->q->padded + c->first, c->island + c->first, c->last - c->first + 1, c->last);

    c->plans++;
    if (crossing(c->island, c->first, c->last)) {
        lower(&c->least_with_crossing, power.total);
        return;
    }
    c->without_crossing++;
    lower(&c->least_with_active[power.active], power.total);
    if (power.total > c->least)
        return;
    if (power.total < c->least || is_greater(c))
        memcpy(c->best, c->island, sizeof c->best);
    c->cheapest = power.total < c->least ? 1 : c->cheapest + 1;
    c->least = power.total;
}

/* Gives each position from this one down every island in turn, a new one first and the top island last: of two plans the greater then comes
 * later, so what the tie rule names is never just what came first. There are never more islands than the run has room for and never more
 * than Q members on one, so every island is full once every position has one.
 */
static void try_plans(struct choice *c, size_t position)
{
    size_t cores = c->q->job->cores, islands = (c->last - c->first + 1) / cores;

    if (position < c->first) {
        weigh_plan(c);
        return;
    }
    for (size_t name = position; name <= c->last; name++) {
        int is_new = name == position;

        if (is_new ? c->opened == islands : c->held[name] == 0 || c->held[name] == cores)
            continue;
        c->opened += is_new;
        c->held[name]++;
        c->island[position] = name;
        try_plans(c, position - 1);
        c->held[name]--;
        c->opened -= is_new;
    }
}

/* Settles a run, then each gap of its top island by itself. Writes for each position the name of its island. */
static struct choice settle(const struct question *q, size_t first, size_t last, size_t *island)
{
    struct choice c = {.q = q, .first = first, .last = last, .least = NONE, .least_with_crossing = NONE};
    size_t gap = first;

    for (size_t active = 0; active <= MOST_ISLANDS; active++)
        c.least_with_active[active] = NONE;
    if (first > last)
        return c;
    if ((last - first + 1) % q->job->cores)
        give_up("a gap in a plan without a crossing is no run");
    try_plans(&c, last);
    for (size_t position = first; position <= last; position++)
        if (c.best[position] == last) {
            island[position] = last;
            settle(q, gap, position - 1, island);
            gap = position + 1;
        }
    return c;
}

/* Islands are numbered by their highest position, lowest first. */
static uint8_t number_of(const size_t *island, size_t name)
{
    uint8_t number = 1;

    for (size_t position = 1; position < name; position++)
        number += island[position] == position;
    return number;
}

/* What has to come back for a job, and how it was found. */
struct outcome {
    struct question q;
    int too_many, falling, too_fast, no_room;
    uint32_t number;
    struct search all;
    struct choice full;
    size_t island[MOST_PLACES + 1];
    struct power power;
    uint8_t plan[MOST_PLACES], levels[MOST_ISLANDS];
};

/* Finds which causes apply, of those that a job with a sound board and table can have. The first of them is the answer. */
static void work_out_cause(struct outcome *o)
{
    const struct job *job = o->q.job;
    size_t n = job->n_loads;

    o->too_many = n > o->q.places;
    for (size_t k = 1; k < n; k++)
        o->falling |= job->loads[k] < job->loads[k - 1];
    o->too_fast = n > 0 && job->loads[n - 1] > job->frequencies[job->n_frequencies - 1];
    o->no_room = job->plan_len < n || job->levels_len < job->islands;
    o->number = o->too_many ? 6 : o->falling ? 7 : o->too_fast ? 8 : o->no_room ? 9 : 0;
}

static void work_out_plan(struct outcome *o)
{
    size_t n = o->q.job->n_loads, places = o->q.places, padding = places - n;

    o->full = settle(&o->q, 1, places, o->island);
    o->power = weigh(&o->q, o->q.padded + 1, o->island + 1, places, places);
    for (size_t k = 0; k < n; k++)
        o->plan[k] = number_of(o->island, o->island[padding + 1 + k]);
    for (size_t position = 1; position <= places; position++)
        if (o->island[position] == position)
            o->levels[number_of(o->island, position) - 1] = (uint8_t)o->power.level[position];
}

static void work_out(const struct job *job, struct outcome *o)
{
    memset(o, 0, sizeof *o);
    ask(job, &o->q);
    work_out_cause(o);
    if (o->falling || o->no_room)
        return;
    o->all = (struct search){.q = &o->q, .least_total = NONE, .least_exact = NONE};
    try_placements(&o->all, 0);
    if (o->number == 0)
        work_out_plan(o);
}

/* Says what does not hold. Returns how many faults that is. */
static int unless(int holds, const char *name, const char *what)
{
    if (!holds)
        printf("wrong: %s: it does not hold that %s\n", name, what);
    return !holds;
}

static int breaks_demand_2(const char *name, const struct outcome *o)
{
    return unless(o->power.total == o->all.least_total, name, "the plan's total is the least of any placement") +
           unless(o->power.total == o->full.least, name, "the plan's total is the least of any plan without a crossing") +
           unless(o->power.total <= UINT64_MAX, name, "the total fits in 64 bits") +
           unless(!crossing(o->island, 1, o->q.places), name, "the plan has no crossing");
}

/* W is one picowatt for each kilohertz of load. Everything here is multiplied by the factor. */
static int breaks_demand_3(const char *name, const struct outcome *o)
{
    wide w = times(o->q.all_loads, o->q.factor), total = times(o->power.total, o->q.factor), exact = o->power.exact;

    return unless(exact <= plus(o->all.least_exact, w), name, "the plan's exact power is at most any placement's plus W") +
           unless(total >= exact, name, "the total is at least the plan's exact power") +
           unless(w ? total < plus(exact, w) : total == exact, name, "the total is above the plan's exact power by less than W") +
           unless(!o->q.costs_are_whole || exact <= o->all.least_exact, name, "with whole costs the plan's exact power is the least");
}

/* Returns how many faults were found in the job's answer. */
static int judge(const char *name, const struct outcome *o)
{
    struct answer answer = refusal(o->number);
    int faults = 0;

    if (!o->falling && !o->no_room)
        faults += unless((o->number == 0) == (o->all.placements > 0), name, "6 or 8 is given exactly where no placement exists");
    if (o->number == 0) {
        faults += breaks_demand_2(name, o) + breaks_demand_3(name, o);
        answer = (struct answer){0, (uint64_t)o->power.total, o->plan, o->q.job->n_loads, o->levels, o->q.job->islands};
    }
    if (faults)
        tell(name, o->q.job);
    return faults + differs(name, o->q.job, &answer);
}

static struct {
    uint64_t passed, failed;
    struct {
        const char *what;
        uint64_t jobs;
    } kinds[MOST_KINDS];
} seen;

static void score(int faults)
{
    seen.passed += faults == 0;
    seen.failed += faults > 0;
}

/* Counts a job if it is of this kind. The kind is known from then on, even if no job is of it. */
static void count(int applies, const char *what)
{
    size_t k = 0;

    while (seen.kinds[k].what && strcmp(seen.kinds[k].what, what))
        if (++k == MOST_KINDS)
            give_up("there are more kinds than this test has room for");
    seen.kinds[k].what = what;
    seen.kinds[k].jobs += applies;
}

static void count_table(const struct job *job)
{
    int equal = 0, one_cost = 0;

    for (size_t k = 1; k < job->n_frequencies; k++) {
        const uint32_t *f = job->frequencies + k, *p = job->powers + k;
        int same_slope = (uint64_t)p[0] * f[-1] == (uint64_t)p[-1] * f[0];

        equal |= same_slope;
        one_cost |= !same_slope && cost(f[0], p[0]) == cost(f[-1], p[-1]);
    }
    count(equal, "power over frequency is the same at two levels");
    count(one_cost, "power over frequency differs at two levels whose cost is the same");
    count(job->n_frequencies > 4, "more than 4 levels");
}

static int has_load_at(const struct job *job, int64_t from_frequency)
{
    int found = 0;

    for (size_t k = 0; k < job->n_loads; k++)
        for (size_t f = 0; f < job->n_frequencies; f++)
            found |= (int64_t)job->loads[k] == job->frequencies[f] + from_frequency;
    return found;
}

static void count_board_and_loads(const struct job *job, uint64_t places)
{
    size_t n = job->n_loads;

    count(places == 1, "1 island of 1 core");
    count(job->islands == 8, "8 islands of 1 core");
    count(job->cores == 8, "1 island of 8 cores");
    count(job->islands == 4 && job->cores == 2, "4 islands of 2 cores");
    count(job->islands == 2 && job->cores == 4, "2 islands of 4 cores");
    count(places == 9, "3 islands of 3 cores");
    count(job->island_power == 0, "island power 0");
    count(job->island_power > 0, "island power above 0");
    count(n > 0 && n < places && job->loads[0] == 0, "a load of 0 above padding");
    count(has_load_at(job, 0), "a load equal to a frequency");
    count(has_load_at(job, -1), "a load one below a frequency");
    count(has_load_at(job, 1), "a load one above a frequency");
    count(job->plan_len == n && job->levels_len == job->islands, "both buffers fit exactly");
    count(job->plan_len > n && job->levels_len > job->islands, "both buffers are longer");
}

static void count_plan(const struct outcome *o)
{
    wide w = times(o->q.all_loads, o->q.factor), over_least = o->power.exact - o->all.least_exact;
    wide rounding = times(o->power.total, o->q.factor) - o->power.exact;
    int active_counts = 0;

    for (size_t active = 0; active <= MOST_ISLANDS; active++)
        active_counts += o->full.least_with_active[active] == o->full.least;
    count(memchr(o->levels, 0, o->q.job->islands) != NULL, "an inactive island");
    count(o->full.cheapest > 1, "several least-cost plans without a crossing: the tie rule decides");
    count(o->q.island_power > 0 && active_counts > 1, "  with island power, and not all with as many active islands");
    count(o->full.least_with_crossing == o->full.least, "a plan with a crossing is as cheap");
    count(w == 0, "W = 0");
    count(o->q.costs_are_whole, "all costs are whole");
    count(!o->q.costs_are_whole, "a cost is not whole before it is rounded");
    count(over_least > 0, "the plan's exact power is above the least of any placement");
    count(times(over_least, 10) > w, "  by more than a tenth of W");
    count(w > 0 && times(rounding, 10) > times(w, 9), "the total is above the plan's exact power by more than nine tenths of W");
}

static void count_job(const struct outcome *o)
{
    count(o->number == 6, "refused by 6, count");
    count(o->number == 7, "refused by 7, order");
    count(o->number == 8, "refused by 8, speed");
    count(o->number == 9, "refused by 9, buffers");
    count(o->too_many + o->falling + o->too_fast + o->no_room > 1, "refused, and more than one cause applies");
    count(o->number && !o->falling && !o->no_room && o->all.placements == 0, "refused, and a placement was sought in vain");
    count(o->number == 0, "accepted; all that follow are");
    if (o->number)
        return;
    count_board_and_loads(o->q.job, o->q.places);
    count_table(o->q.job);
    count_plan(o);
}

/* In a run of the usual length a kind that never came up is a fault. */
static void say_kinds(int usual)
{
    for (size_t k = 0; k < MOST_KINDS && seen.kinds[k].what; k++) {
        printf("%8" PRIu64 "  %s\n", seen.kinds[k].jobs, seen.kinds[k].what);
        if (usual && seen.kinds[k].jobs == 0)
            score(unless(0, "the run", "such a job came up"));
    }
}

struct table {
    uint32_t frequencies[MOST_LEVELS], powers[MOST_LEVELS];
    size_t n;
};

/* The job whose buffers fit exactly. */
static struct job fitting(uint64_t islands, uint64_t cores, uint32_t island_power, const struct table *table, const uint64_t *loads,
                          size_t n)
{
    return (struct job){islands, cores, island_power, table->frequencies, table->n, table->powers, table->n, loads, n, n, islands};
}

static const struct table table_t = {{100000, 200000, 400000}, {10000, 40000, 160000}, 3}, table_of_case_9 = {{3000}, {1}, 1};

static void run_case(const char *name, struct job job, uint64_t total, const char *plan, const char *levels)
{
    struct outcome o;

    work_out(&job, &o);
    score(unless(o.number == 0 && o.power.total == total && memcmp(o.plan, plan, job.n_loads) == 0 &&
                 memcmp(o.levels, levels, job.islands) == 0, name, "this planner gives the answer that is known") + judge(name, &o));
}

static void run_cases(void)
{
    static const uint64_t four[] = {50000, 100000, 200000, 400000}, zeros[] = {0, 0, 100000, 100000}, two[] = {100000, 400000};
    static const uint64_t one[] = {3000};

    run_case("case 1", fitting(2, 2, 0, &table_t, four, 4), 240000000000, "\2\1\1\2", "\2\3");
    run_case("case 2", fitting(2, 2, 20000, &table_t, four, 4), 280000000000, "\2\1\1\2", "\2\3");
    run_case("case 3", fitting(2, 2, 0, &table_t, zeros, 4), 20000000000, "\1\1\2\2", "\0\1");
    run_case("case 4", fitting(2, 2, 1, &table_t, zeros, 4), 20001000000, "\1\1\2\2", "\0\1");
    run_case("case 5", fitting(2, 2, 0, &table_t, two, 2), 170000000000, "\1\2", "\1\3");
    run_case("case 6", fitting(2, 2, 30000, &table_t, two, 2), 230000000000, "\2\2", "\0\3");
    run_case("case 7", fitting(2, 2, 40000, &table_t, two, 2), 240000000000, "\2\2", "\0\3");
    run_case("case 8", fitting(2, 2, 0, &table_t, two, 0), 0, "", "\0\0");
    run_case("case 9", fitting(1, 1, 0, &table_of_case_9, one, 1), 1002000, "\1", "\1");
}

/* Holds the listings on a full board to their known lengths: (VQ)! / Q!^V placements, V! times fewer full plans, and VQ over V divided by
 * VQ - V + 1 without a crossing.
 */
static void run_lengths(uint64_t islands, uint64_t cores, uint64_t placements, uint64_t plans, uint64_t without_crossing)
{
    static const uint64_t loads[MOST_PLACES];
    struct job job = fitting(islands, cores, 0, &table_t, loads, islands * cores);
    struct outcome o;

    work_out(&job, &o);
    score(unless(o.all.placements == placements && o.full.plans == plans && o.full.without_crossing == without_crossing,
                 "a full board", "all placements and all plans are listed"));
}

/* A random job with its own lists. */
struct draft {
    struct table table;
    uint64_t loads[MOST_LOADS];
    struct job job;
};

static uint32_t one_of(struct dice *dice, uint32_t a, uint32_t b, uint32_t c)
{
    return once_in(dice, 3) ? a : once_in(dice, 2) ? b : c;
}

/* Either at most three, anywhere, or multiples of one number up to 32 times it, so that a small factor does for many levels. */
static void draw_frequencies(struct dice *dice, struct table *table, int anywhere)
{
    uint32_t unit = anywhere ? 1 : one_of(dice, 2000, 50000, 120000);
    uint32_t reach = anywhere ? one_of(dice, 3, 1000, 60000) : table->n > 4 ? 1 : 9;
    uint32_t units = anywhere ? 1000 + (uint32_t)draw(dice, once_in(dice, 3) ? 3000 : 3800000) : 1;

    for (size_t k = 0; k < table->n; k++) {
        table->frequencies[k] = unit * units;
        units += 1 + (uint32_t)draw(dice, reach);
    }
}

/* The least power that is allowed after the one before, plus any number of steps. Steps that are a thousandth of the frequency keep the
 * costs whole where the frequencies are multiples of 1000. The last power is in its range even if every step is the longest.
 */
static void draw_powers(struct dice *dice, struct table *table, int whole)
{
    uint64_t reach = one_of(dice, 3, 20, whole ? 70 : 10000);
    const uint32_t *f = table->frequencies;

    for (size_t k = 0; k < table->n; k++) {
        uint64_t step = whole ? f[k] / 1000 : 1;
        uint64_t least = k == 0 ? step : ((uint64_t)table->powers[k - 1] * f[k] + f[k - 1] - 1) / f[k - 1];

        table->powers[k] = (uint32_t)(least + step * draw(dice, reach));
    }
}

static void draw_table(struct dice *dice, struct table *table)
{
    int anywhere = once_in(dice, 2);

    table->n = once_in(dice, 6) ? 1 : 2 + draw(dice, anywhere ? 2 : once_in(dice, 8) ? MOST_LEVELS - 1 : 3);
    draw_frequencies(dice, table, anywhere);
    draw_powers(dice, table, !anywhere && once_in(dice, 2));
}

/* Boards with several islands of several cores come up most, since only they leave a choice; those with the most placements least. */
static void draw_board(struct dice *dice, struct job *job)
{
    do {
        job->islands = 1 + draw(dice, MOST_ISLANDS);
        job->cores = 1 + draw(dice, 8);
    } while (job->islands * job->cores > MOST_PLACES || (job->islands > 6 && !once_in(dice, 4)) ||
             ((job->islands == 1 || job->cores == 1) && !once_in(dice, 8)));
}

static uint64_t draw_load(struct dice *dice, const struct table *table)
{
    uint64_t frequency = table->frequencies[draw(dice, table->n)];

    switch (draw(dice, 8)) {
    case 0: return frequency - 1;
    case 1: return frequency < table->frequencies[table->n - 1] ? frequency + 1 : frequency;
    case 2: return frequency / 2;
    case 3: return 1 + draw(dice, 3);
    case 4: return 1 + draw(dice, frequency);
    default: return frequency;
    }
}

/* Few different loads, so that plans of the same total are common; sorted, lightest first. */
static void draw_loads(struct dice *dice, struct draft *draft, size_t places)
{
    size_t n = once_in(dice, 50) ? 0 : once_in(dice, 3) ? places : 1 + draw(dice, 1 + draw(dice, places));
    size_t different = once_in(dice, 6) ? 1 : 2 + draw(dice, 4);
    uint64_t some[5], zero_in = once_in(dice, 40) ? 1 : once_in(dice, 4) ? 3 : 1000;

    for (size_t k = 0; k < different; k++)
        some[k] = draw_load(dice, &draft->table);
    for (size_t k = 0; k < n; k++)
        put_in_order(draft->loads, k, once_in(dice, zero_in) ? 0 : some[draw(dice, different)]);
    draft->job.n_loads = n;
}

/* An island power at which one active island more is as dear as one less, or one microwatt beside it, as in cases 5 to 7; 0 where there is
 * none. The job's own island power is 0.
 */
static uint32_t draw_near_tie(struct dice *dice, const struct job *job)
{
    struct question q;
    struct choice c;
    size_t island[MOST_PLACES + 1];

    ask(job, &q);
    c = settle(&q, 1, q.places, island);
    for (size_t active = 1; active < job->islands; active++) {
        wide fewer = c.least_with_active[active], more = c.least_with_active[active + 1];
        wide power = fewer < NONE && more < fewer ? (fewer - more) / PW_PER_UW + (1 + draw(dice, 4)) / 2 : 0;

        if (power > 1 && power <= MOST_ISLAND_POWER && !once_in(dice, 4))
            return (uint32_t)power - 1;
    }
    return 0;
}

/* Makes some of the causes 6 to 9 apply, where that is possible. Half of the loads that are too heavy, or heavier than the next, would not
 * be if they were cut to 32 bits.
 */
static void spoil(struct dice *dice, struct draft *draft)
{
    struct job *job = &draft->job;
    uint64_t causes = 1 + draw(dice, 15), far = (uint64_t)1 << 32, *loads = draft->loads;

    if (causes & 1)
        for (size_t n = job->islands * job->cores + 1 + draw(dice, 3); job->n_loads < n; job->n_loads++, job->plan_len++)
            loads[job->n_loads] = job->n_loads ? loads[job->n_loads - 1] : 0;
    if ((causes & 2) && job->n_loads > 0) {
        uint64_t *last = &loads[job->n_loads - 1];

        *last = once_in(dice, 2) ? *last + far : job->frequencies[job->n_frequencies - 1] + 1;
    }
    if ((causes & 4) && job->n_loads > 1) {
        size_t k = draw(dice, job->n_loads - 1);

        loads[k] = once_in(dice, 2) ? loads[k] + far : loads[k + 1] + 1;
    }
    if ((causes & 8) && job->n_loads > 0 && once_in(dice, 2))
        job->plan_len = draw(dice, job->n_loads);
    else if (causes & 8)
        job->levels_len = draw(dice, job->islands);
}

/* Every other job gets several chances of a near tie. */
static void draw_job(struct dice *dice, struct draft *draft)
{
    struct job *job = &draft->job;
    size_t chances = once_in(dice, 2) ? 1 : 10;

    draw_board(dice, job);
    draw_table(dice, &draft->table);
    do {
        draw_loads(dice, draft, job->islands * job->cores);
        *job = fitting(job->islands, job->cores, 0, &draft->table, draft->loads, job->n_loads);
        job->island_power = draw_near_tie(dice, job);
    } while (job->island_power == 0 && --chances > 0);
    if (job->island_power == 0 && once_in(dice, 2))
        job->island_power = (uint32_t)draw(dice, one_of(dice, 10, 100000, MOST_ISLAND_POWER + 1));
    if (once_in(dice, 2))
        job->plan_len += draw(dice, 40);
    if (once_in(dice, 2))
        job->levels_len += draw(dice, 40);
    if (once_in(dice, 10))
        spoil(dice, draft);
}

static void run_random_job(struct dice *dice, uint64_t number)
{
    struct draft draft;
    struct outcome o;
    char name[32];

    snprintf(name, sizeof name, "job %" PRIu64, number);
    draw_job(dice, &draft);
    work_out(&draft.job, &o);
    score(judge(name, &o));
    count_job(&o);
}

int main(int argc, char **argv)
{
    struct dice dice = {SEED};
    uint64_t jobs = jobs_asked(argc, argv, USUAL_JOBS);

    printf("seed %d, %" PRIu64 " jobs\n", SEED, jobs);
    run_cases();
    run_lengths(3, 3, 1680, 280, 12);
    run_lengths(4, 2, 2520, 105, 14);
    run_lengths(2, 4, 70, 35, 4);
    for (uint64_t k = 1; k <= jobs; k++)
        run_random_job(&dice, k);
    say_kinds(jobs >= USUAL_JOBS);
    printf("%" PRIu64 " passed, %" PRIu64 " failed\n", seen.passed, seen.failed);
    return seen.failed > 0;
}
