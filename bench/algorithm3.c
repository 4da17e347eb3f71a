/* Algorithm 3 (DYVIA) of source document 004 as it is printed, by enumeration of the sets Lambda(i, j). Names, positions counted from 1 and
 * the bounds of loops are the paper's. P(s)/s is the rounded cost of the lowest level that is fast enough, so s_crit has no place; the
 * factor D is left out. It refuses nothing: its caller hands it sound jobs.
 *
 * Followed to the letter, it differs from 01 in two places. Lines 3 and 4 charge the island power to runs of zeros, for which Equation (6)
 * has 0: its total is 01's where the island power is 0 or no position is. And the loops leave out the runs that end at the last position;
 * no gap does, so nothing is read that they would have written.
 */
#include "baselines.h"

enum { MOST_ISLANDS = 8, MOST_CORES = 8, MOST_PLACES = MOST_ISLANDS * MOST_CORES };
enum { PICOWATTS = 1000000 };

/* The set L: member[0] is the auxiliary l_0, member[1] to member[Q] the positions of an island. */
struct members {
    size_t member[MOST_CORES + 1];
};

struct dyvia {
    size_t V, Q;
    uint64_t eta;
    uint64_t w[MOST_PLACES + 1];
    uint64_t cost[MOST_PLACES + 1];
    uint64_t G[MOST_PLACES + 2][MOST_PLACES + 1];
    struct members BTG[MOST_PLACES + 1][MOST_PLACES + 1];
};

/* The lowest level whose frequency is at least the load, counted from 0. */
static size_t level_of(const uint32_t *frequencies, uint64_t load)
{
    size_t level = 0;

    while (frequencies[level] < load)
        level++;
    return level;
}

static void lay_out(struct dyvia *d, const uint32_t *frequencies, const uint32_t *powers, const uint64_t *loads, size_t n)
{
    size_t places = d->Q * d->V, front = places - n;

    for (size_t i = 1; i <= places; i++) {
        size_t level;

        d->w[i] = i <= front ? 0 : loads[i - front - 1];
        level = level_of(frequencies, d->w[i]);
        d->cost[i] = ((uint64_t)powers[level] * PICOWATTS + (frequencies[level] - 1)) / frequencies[level];
    }
}

static uint64_t sum_of(const struct dyvia *d, size_t i, size_t j)
{
    uint64_t sum = 0;

    for (size_t h = i; h <= j; h++)
        sum += d->w[h];
    return sum;
}

/* Equation (6): runs of fewer than Q positions cost nothing, runs of Q positions are one island. */
static void initialize(struct dyvia *d)
{
    size_t Q = d->Q, places = d->Q * d->V;

    for (size_t j = 0; j <= places; j++)
        d->G[0][j] = 0;
    for (size_t i = 1; i <= places + 1; i++)
        for (size_t j = 0; j <= places && j < i + Q - 1; j++)
            d->G[i][j] = 0;
    for (size_t i = 1; i + Q - 1 <= places; i++) {
        size_t j = i + Q - 1;
        uint64_t sum = sum_of(d, i, j);

        d->G[i][j] = sum == 0 ? 0 : d->eta + d->cost[j] * sum;
        for (size_t q = 0; q <= Q; q++)
            d->BTG[i][j].member[q] = i - 1 + q;
    }
}

/* Equation (5). */
static uint64_t H(const struct dyvia *d, const struct members *L)
{
    uint64_t sum = 0;

    for (size_t i = 1; i <= d->Q; i++)
        sum += d->w[L->member[i]];
    return sum == 0 ? 0 : d->eta + d->cost[L->member[d->Q]] * sum;
}

/* The first set of Lambda(i, j): all islands of the run but one stand in the gap below its last position. */
static void first_of(const struct dyvia *d, struct members *L, size_t i, size_t j)
{
    for (size_t h = 0; h < d->Q; h++)
        L->member[h] = i - 1 + h;
    L->member[d->Q] = j;
}

/* The next set, and whether there is one: the highest member that can be moved up by Q is moved, and those between it and the last position
 * stand right behind it. */
static int next_of(const struct dyvia *d, struct members *L)
{
    size_t Q = d->Q;

    for (size_t h = Q - 1; h > 0; h--)
        if (L->member[h] + Q + (Q - 1 - h) < L->member[Q]) {
            L->member[h] += Q;
            for (size_t q = h + 1; q < Q; q++)
                L->member[q] = L->member[q - 1] + 1;
            return 1;
        }
    return 0;
}

/* Lines 9 to 19, and 22 to 32 for the whole board. */
static void fill(struct dyvia *d, size_t i, size_t j)
{
    struct members L;

    d->G[i][j] = UINT64_MAX;
    first_of(d, &L, i, j);
    do {
        uint64_t E = H(d, &L);

        for (size_t n = 1; n <= d->Q; n++)
            E += d->G[L.member[n - 1] + 1][L.member[n] - 1];
        if (E < d->G[i][j]) {
            d->G[i][j] = E;
            d->BTG[i][j] = L;
        }
    } while (next_of(d, &L));
}

static uint64_t algorithm3(struct dyvia *d)
{
    size_t V = d->V, Q = d->Q;

    initialize(d);
    for (size_t h = 1; h <= Q * (V - 1); h++)
        d->G[h][h + Q - 1] = d->eta + d->cost[h + Q - 1] * sum_of(d, h, h + Q - 1);
    for (size_t k = 2; k + 1 <= V; k++)
        for (size_t h = 1; h <= Q * (V - k); h++)
            fill(d, h, h + k * Q - 1);
    fill(d, 1, Q * V);
    return d->G[1][Q * V];
}

/* Reads the islands of a run off BTG; `base` is the number of the island before its lowest. */
static void read_run(const struct dyvia *d, uint8_t *island, size_t i, size_t j, size_t base)
{
    const struct members *L = &d->BTG[i][j];
    size_t top = base + (j + 1 - i) / d->Q;

    for (size_t n = 1; n <= d->Q; n++) {
        size_t low = L->member[n - 1] + 1, high = L->member[n] - 1;

        island[L->member[n]] = (uint8_t)top;
        if (low < high + 1) {
            read_run(d, island, low, high, base);
            base += (high + 1 - low) / d->Q;
        }
    }
}

uint32_t algorithm3_plan(uint64_t islands, uint64_t cores, uint32_t island_power_uw,
                         const uint32_t *frequencies_khz, size_t n_frequencies,
                         const uint32_t *powers_uw, size_t n_powers,
                         const uint64_t *loads_khz, size_t n_loads,
                         uint8_t *plan, size_t plan_len,
                         uint8_t *levels, size_t levels_len,
                         uint64_t *total_pw)
{
    struct dyvia d;
    uint8_t island[MOST_PLACES + 1];
    size_t front;

    (void)n_frequencies, (void)n_powers, (void)plan_len, (void)levels_len;
    d.V = (size_t)islands;
    d.Q = (size_t)cores;
    d.eta = (uint64_t)island_power_uw * PICOWATTS;
    lay_out(&d, frequencies_khz, powers_uw, loads_khz, n_loads);
    *total_pw = algorithm3(&d);
    read_run(&d, island, 1, d.Q * d.V, 0);

    front = d.Q * d.V - n_loads;
    for (size_t k = 0; k < d.V; k++)
        levels[k] = 0;
    for (size_t k = 0; k < n_loads; k++) {
        plan[k] = island[front + k + 1];
        if (loads_khz[k] > 0)
            levels[plan[k] - 1] = (uint8_t)(level_of(frequencies_khz, loads_khz[k]) + 1);
    }
    return 0;
}
