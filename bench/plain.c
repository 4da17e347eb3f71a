/* The planner's recurrence in plain C, written by hand for speed, over the same table by first and last position: the difference is what
 * the proved planner costs. It takes what the library takes, refuses what it refuses, and gives the same answer, total and bytes on every
 * job. It assumes of its pointers what include/mizhgavul.h asks.
 */
#include "baselines.h"

enum { MOST_ISLANDS = 8, MOST_CORES = 8, MOST_PLACES = MOST_ISLANDS * MOST_CORES, MOST_LEVELS = 32 };
enum { LEAST_FREQUENCY = 1000, MOST_FREQUENCY = 4000000, LEAST_POWER = 1, MOST_POWER = 10000000, MOST_ISLAND_POWER = 1000000000 };
enum { PICOWATTS = 1000000 };

/* The positions of a board: the loads behind the padding, the level of each, counted from 0, what an island is charged per kilohertz whose
 * heaviest load stands there, and the number of its island. best[i][j] is the least total of the run from i to j. A place is written before
 * it is read, so nothing is cleared. */
struct board {
    size_t islands, cores, places;
    uint64_t own;
    uint64_t load[MOST_PLACES], rate[MOST_PLACES];
    uint8_t level[MOST_PLACES], island[MOST_PLACES];
    uint64_t best[MOST_PLACES][MOST_PLACES];
};

static int in_range(const uint32_t *values, size_t n, uint32_t low, uint32_t high)
{
    for (size_t k = 0; k < n; k++)
        if (values[k] < low || values[k] > high)
            return 0;
    return 1;
}

static int rising(const uint32_t *values, size_t n)
{
    for (size_t k = 1; k < n; k++)
        if (values[k] <= values[k - 1])
            return 0;
    return 1;
}

/* Whether power over frequency falls from one level to the next. The fractions are compared by cross products, which are exact. */
static int falling(const uint32_t *frequencies, const uint32_t *powers, size_t n)
{
    for (size_t k = 1; k < n; k++)
        if ((uint64_t)powers[k] * frequencies[k - 1] < (uint64_t)powers[k - 1] * frequencies[k])
            return 1;
    return 0;
}

static int ordered(const uint64_t *loads, size_t n)
{
    for (size_t k = 1; k < n; k++)
        if (loads[k] < loads[k - 1])
            return 0;
    return 1;
}

/* The cost of a level: the power over the frequency in femtojoules per cycle, rounded up. */
static uint64_t level_cost(uint32_t frequency, uint32_t power)
{
    return ((uint64_t)power * PICOWATTS + (frequency - 1)) / frequency;
}

/* The positions of a job. Loads rise, so their levels are found in one pass, and a level's cost is worked out once. */
static void lay_out(struct board *board, const uint32_t *frequencies, const uint32_t *powers, const uint64_t *loads, size_t n)
{
    size_t front = board->places - n, level = 0;
    uint64_t rate = level_cost(frequencies[0], powers[0]);

    for (size_t k = 0; k < board->places; k++) {
        uint64_t load = k < front ? 0 : loads[k - front];

        if (frequencies[level] < load) {
            do
                level++;
            while (frequencies[level] < load);
            rate = level_cost(frequencies[level], powers[level]);
        }
        board->load[k] = load;
        board->level[k] = (uint8_t)level;
        board->rate[k] = rate;
    }
}

/* What the member at a position costs with all below it, if n islands stand in the gaps: `below` is the row of the members below, and of
 * the n islands the cheapest number stand in the gap right below this one. */
static uint64_t member_cost(const struct board *board, const uint64_t *below, size_t at, uint64_t rate, size_t n)
{
    uint64_t least = below[n];

    for (size_t g = 1; g <= n; g++) {
        uint64_t cost = board->best[at - g * board->cores][at - 1] + below[n - g];

        if (cost < least)
            least = cost;
    }
    return least + rate * board->load[at];
}

/* Fills the rows of all members but the highest of a run of m + 1 islands. Row r has, for n islands in the gaps, what the lowest r + 1
 * members cost with these gaps. The compiler is told how short the rows are, as that of the planner is. */
static inline __attribute__((always_inline)) void fill_rows(const struct board *board, uint64_t rows[][MOST_ISLANDS], size_t start,
                                                            uint64_t rate, size_t m)
{
    size_t cores = board->cores;

    if (m >= MOST_ISLANDS || cores > MOST_CORES)
        __builtin_unreachable();
    for (size_t n = 0; n <= m; n++) {
        size_t at = start + n * cores;

        rows[0][n] = (n > 0 ? board->best[start][at - 1] : 0) + rate * board->load[at];
    }
    for (size_t r = 1; r + 1 < cores; r++)
        for (size_t n = 0; n <= m; n++)
            rows[r][n] = member_cost(board, rows[r - 1], start + n * cores + r, rate, n);
}

/* The least total of a run of m + 1 islands. All but its top island stand in the gaps below the highest member, so of that member's row one
 * entry is enough. */
static uint64_t run_cost(const struct board *board, size_t start, size_t last, size_t m)
{
    size_t cores = board->cores;
    uint64_t rate = board->rate[last], own = board->load[last] > 0 ? board->own : 0;
    uint64_t rows[MOST_CORES][MOST_ISLANDS];

    fill_rows(board, rows, start, rate, m);
    return own + (cores > 1 ? member_cost(board, rows[cores - 2], last, rate, m) : rows[0][m]);
}

/* The table of bests, from the shortest runs up. */
static void search(struct board *board)
{
    size_t cores = board->cores;

    for (size_t m = 0; m < board->islands; m++)
        for (size_t start = 0, last = m * cores + (cores - 1); last < board->places; start++, last++)
            board->best[start][last] = run_cost(board, start, last, m);
}

/* The smallest gap below a member that costs least: so the next member is the greatest. */
static size_t least_gap(const struct board *board, const uint64_t *below, size_t at, size_t n)
{
    uint64_t least = below[n];
    size_t islands = 0;

    for (size_t g = 1; g <= n; g++) {
        uint64_t cost = board->best[at - g * board->cores][at - 1] + below[n - g];

        if (cost < least) {
            least = cost;
            islands = g;
        }
    }
    return islands;
}

/* Writes the island numbers of a run; `base` is the number of the island before its lowest. */
static void write_run(struct board *board, size_t start, size_t islands, size_t base)
{
    size_t cores = board->cores, n;
    uint64_t rows[MOST_CORES][MOST_ISLANDS];

    if (islands == 0)
        return;
    n = islands - 1;
    fill_rows(board, rows, start, board->rate[start + n * cores + (cores - 1)], n);
    for (size_t r = cores; r-- > 0;) {
        size_t at = start + n * cores + r, gap = r > 0 ? least_gap(board, rows[r - 1], at, n) : n;

        board->island[at] = (uint8_t)(base + islands);
        n -= gap;
        write_run(board, at - gap * cores, gap, base + n);
    }
}

/* The bytes of both lent buffers. The loads rise, so the last load above 0 on an island is its heaviest. */
static void hand_back(const struct board *board, size_t n, uint8_t *plan, uint8_t *levels)
{
    size_t front = board->places - n;

    for (size_t k = 0; k < board->islands; k++)
        levels[k] = 0;
    for (size_t k = 0; k < n; k++) {
        plan[k] = board->island[front + k];
        if (board->load[front + k] > 0)
            levels[plan[k] - 1] = (uint8_t)(board->level[front + k] + 1);
    }
}

uint32_t plain_plan(uint64_t islands, uint64_t cores, uint32_t island_power_uw,
                    const uint32_t *frequencies_khz, size_t n_frequencies,
                    const uint32_t *powers_uw, size_t n_powers,
                    const uint64_t *loads_khz, size_t n_loads,
                    uint8_t *plan, size_t plan_len,
                    uint8_t *levels, size_t levels_len,
                    uint64_t *total_pw)
{
    struct board board;

    *total_pw = 0;
    if (islands < 1 || islands > MOST_ISLANDS || cores < 1 || cores > MOST_CORES)
        return 1;
    if (n_frequencies < 1 || n_frequencies > MOST_LEVELS || n_powers != n_frequencies)
        return 2;
    if (!in_range(frequencies_khz, n_frequencies, LEAST_FREQUENCY, MOST_FREQUENCY) ||
        !in_range(powers_uw, n_powers, LEAST_POWER, MOST_POWER) || !rising(frequencies_khz, n_frequencies))
        return 3;
    if (falling(frequencies_khz, powers_uw, n_frequencies))
        return 4;
    if (island_power_uw > MOST_ISLAND_POWER)
        return 5;
    if (n_loads > islands * cores)
        return 6;
    if (!ordered(loads_khz, n_loads))
        return 7;
    if (n_loads > 0 && loads_khz[n_loads - 1] > frequencies_khz[n_frequencies - 1])
        return 8;
    if (plan_len < n_loads || levels_len < islands)
        return 9;

    board.islands = (size_t)islands;
    board.cores = (size_t)cores;
    board.places = board.islands * board.cores;
    board.own = (uint64_t)island_power_uw * PICOWATTS;
    lay_out(&board, frequencies_khz, powers_uw, loads_khz, n_loads);
    search(&board);
    write_run(&board, 0, board.islands, 0);
    hand_back(&board, n_loads, plan, levels);
    *total_pw = board.best[0][board.places - 1];
    return 0;
}
