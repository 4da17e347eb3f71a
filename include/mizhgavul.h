/* Mizhgavul: plans loads onto the voltage islands of a board, at the least total.
 *
 * One function. It takes a job (a board, a table of levels, a list of loads) and says which load goes to which island, at which level
 * each island runs, and what the whole draws. A placement gives every load an island, at most Q loads to each, with a level that is fast
 * enough for its heaviest. No placement has a lower total than the plan. Where several have the same, one rule names the plan, so every job
 * has exactly one answer. What is said below of answers and buffers is proved of the library for every input. The caller checks nothing
 * beforehand: what does not fit is refused.
 *
 * The total is with each level's cost rounded up to whole femtojoules per cycle. It is never below the plan's exact power, and above it
 * by less than one picowatt for each kilohertz of load; where all loads are 0 both are 0. The plan's exact power exceeds no placement's by
 * more than one picowatt for each kilohertz of load, and where no cost has to be rounded no placement's is lower.
 *
 * Units    frequencies and loads in kilohertz (kilocycles per second), powers in microwatts, the total in picowatts;
 *          1 microwatt is 1000000 picowatts
 *
 * Link     libmizhgavul.a, which `make library` writes to target/staticlib: code for Linux on x86-64 that needs no library
 *          besides C's own, as in
 *              cc -Iinclude program.c target/staticlib/libmizhgavul.a
 *
 * The function keeps nothing between calls and allocates nothing; its largest table, 32 kilobytes, is on the stack. Calls may run at the
 * same time where none writes what another uses.
 */
#ifndef MIZHGAVUL_H
#define MIZHGAVUL_H

#include <stddef.h>
#include <stdint.h>

#ifdef __cplusplus
extern "C" {
#endif

/* Plans a job.
 *
 * What goes in. Every value is allowed; one that is out of its range is refused, and none is cut to fewer bits.
 *
 *   islands           V, the number of islands: 1 to 8
 *   cores             Q, the number of cores of each island: 1 to 8. An island takes at most Q loads
 *   island_power_uw   what an island that has a load above 0 draws by itself, in microwatts: 0 to 1000000000
 *   frequencies_khz   the frequency of each level in kilohertz: 1000 to 4000000, each above the one before it
 *   n_frequencies     the number of levels: 1 to 32
 *   powers_uw         the power of one core that runs at the level, for each level, in microwatts: 1 to 10000000. Power over frequency
 *                     may not fall from one level to the next
 *   n_powers          the same number
 *   loads_khz         the loads in kilohertz, lightest first: 0 up to the last frequency
 *   n_loads           n, the number of loads: 0 to V * Q
 *   plan_len          the number of bytes in plan: n or more
 *   levels_len        the number of bytes in levels: V or more
 *
 * What comes out of a plan. The function returns 0.
 *
 *   plan        the first n bytes are written, one for each load in its order: the number of its island, 1 to V
 *   levels      the first V bytes are written, one for each island: 0 where no load on it is above 0, else the number of its level. The
 *               level with the lowest frequency has number 1. An island has the lowest level whose frequency is at least its heaviest load
 *   *total_pw   the total in picowatts: the sum over the islands whose level is not 0, each with the island power times 1000000 and with
 *               the sum of its loads times the cost of its level. The cost of a level is its power times 1000000, divided by its frequency,
 *               rounded up to a whole number: femtojoules per cycle. A kilohertz at one femtojoule per cycle is one picowatt
 *
 * Which plan it is. Put loads of 0 in front of the list until the board is full: every island holds exactly Q places of that longer list.
 * Islands are numbered by their last place, lowest first, so the last load is on island V, and islands that are left idle have the low
 * numbers. No two islands take turns: nowhere in that list do a place of the one, then of the other, then of the one and then of the other
 * again follow in this order, with any others between. Of such plans with the least total, read the places of island V from the last down:
 * it is the plan that has the later place at the first difference. The stretches between these places, and the one before them, hold whole
 * islands or nothing. Each is planned by the same rule by itself: of its own least-total plans in which no two islands take turns, the one
 * whose island of the stretch's last place has the later place at the first difference.
 *
 * The bytes of plan behind the first n and those of levels behind the first V keep their values. A job without loads is planned: its
 * total is 0, and so are its V levels.
 *
 * What comes out of a refusal. The function returns the number of the cause, *total_pw is 0, and both buffers are left byte for byte as
 * they came. The causes are tried in this order, each for the whole job, and the first that applies is given.
 *
 *   1   V or Q is 0 or above 8
 *   2   no levels, more than 32, or n_frequencies and n_powers differ
 *   3   a frequency or a power is out of its range, or a frequency is not above the one before it
 *   4   power over frequency falls from one level to the next; the fractions are compared exactly
 *   5   the island power is above 1000000000
 *   6   there are more loads than V * Q
 *   7   a load is below the one before it
 *   8   the last load is above the last frequency
 *   9   plan_len is below n, or levels_len is below V
 *
 * *total_pw is set in every case, and what it held before is not read.
 *
 * What the caller owes, and the library can't check. Each pointer is aligned for its type and leads to as many elements as its count
 * says. No pointer is null, not even where its count is 0: then it may be any other address that is aligned, since nothing is read or
 * written through it. The three lists, the two buffers and *total_pw do not overlap: the proof takes this for granted. Nothing else
 * writes to them during the call.
 */
uint32_t mizhgavul_plan(uint64_t islands, uint64_t cores, uint32_t island_power_uw,
                        const uint32_t *frequencies_khz, size_t n_frequencies,
                        const uint32_t *powers_uw, size_t n_powers,
                        const uint64_t *loads_khz, size_t n_loads,
                        uint8_t *plan, size_t plan_len,
                        uint8_t *levels, size_t levels_len,
                        uint64_t *total_pw);

#ifdef __cplusplus
}
#endif

#endif
