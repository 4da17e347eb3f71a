/* Holds the library to an expected answer: the answer, the total, and every byte lent or near what was lent.
 * Assumes pages of 4096 bytes that can be closed to the program. A touch of a closed one ends it, and it says at which job.
 */
#ifndef HELD_H
#define HELD_H

#include <stddef.h>
#include <stdint.h>

/* A job as a caller hands it over. */
struct job {
    uint64_t islands, cores;
    uint32_t island_power;
    const uint32_t *frequencies;
    size_t n_frequencies;
    const uint32_t *powers;
    size_t n_powers;
    const uint64_t *loads;
    size_t n_loads;
    size_t plan_len, levels_len;
};

/* What has to come back: the bytes written from the start of each buffer, and none besides. */
struct answer {
    uint32_t number;
    uint64_t total;
    const uint8_t *plan;
    size_t n_plan;
    const uint8_t *levels;
    size_t n_levels;
};

/* The longest list and the longest buffer that can be lent, in bytes. */
enum { MOST_LIST = 65536, MOST_BUFFER = 4096 };

/* The answer that refuses with this number. */
struct answer refusal(uint32_t number);

/* Prints the whole job. */
void tell(const char *name, const struct job *job);

/* Has the job planned twice: with every list and buffer against a closed page behind it, then against one before it. Lists can't be
 * written to meanwhile. Says what is wrong, with the whole job, and returns how many of the two calls were wrong.
 */
int differs(const char *name, const struct job *job, const struct answer *expected);

/* Ends the program where the test itself can't go on. */
_Noreturn void give_up(const char *why);

/* The number of random jobs: what the one argument says, for slow checkers, or the usual number. */
uint64_t jobs_asked(int argc, char **argv, uint64_t usual);

/* Numbers that look random and are the same in every run: splitmix64. */
struct dice {
    uint64_t state;
};

/* below: at least 1; the answer is one of 0 to below - 1 */
uint64_t draw(struct dice *dice, uint64_t below);
/* true once in so many times */
int once_in(struct dice *dice, uint64_t times);

/* Puts a load among the first n, which are sorted, so that the first n + 1 are. */
void put_in_order(uint64_t *loads, size_t n, uint64_t load);

#endif
