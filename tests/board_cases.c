/* Calls the planner through its C interface: the board cases, then jobs that are easy to answer wrongly. Each is planned with buffers that
 * fit exactly, that are longer, and that are too short, and held to the table below. The last line is 'N passed, M failed'.
 */
#include "held.h"

#include <stdio.h>

struct words {
    const uint32_t *at;
    size_t n;
};

struct loads {
    const uint64_t *at;
    size_t n;
};

struct bytes {
    const uint8_t *at;
    size_t n;
};

struct row {
    const char *name;
    uint64_t islands, cores;
    uint32_t island_power;
    struct words frequencies, powers;
    struct loads loads;
    uint32_t answer;
    uint64_t total;
    struct bytes plan, levels;
};

#define LIST(type, ...) {(const type[]){__VA_ARGS__}, sizeof((const type[]){__VA_ARGS__}) / sizeof(type)}
#define WORDS(...) LIST(uint32_t, __VA_ARGS__)
#define LOADS(...) LIST(uint64_t, __VA_ARGS__)
#define BYTES(...) LIST(uint8_t, __VA_ARGS__)
#define NO_WORDS {(const uint32_t[]){1000}, 0}
#define NO_LOADS {(const uint64_t[]){100000}, 0}
#define NO_BYTES {(const uint8_t[]){0}, 0}
#define EIGHT(...) __VA_ARGS__, __VA_ARGS__, __VA_ARGS__, __VA_ARGS__, __VA_ARGS__, __VA_ARGS__, __VA_ARGS__, __VA_ARGS__

#define TABLE_T WORDS(100000, 200000, 400000), WORDS(10000, 40000, 160000)
#define FALLING WORDS(100000, 200000), WORDS(10000, 19999)
#define PLANNED(total, plan, levels) 0, total, plan, levels
#define REFUSED(number) number, 0, NO_BYTES, NO_BYTES

/* What is expected, with buffers that fit. */
static const struct row rows[] = {
    /* the board cases */
    {"case 1", 2, 2, 0, TABLE_T, LOADS(50000, 100000, 200000, 400000), PLANNED(240000000000, BYTES(2, 1, 1, 2), BYTES(2, 3))},
    {"case 2", 2, 2, 20000, TABLE_T, LOADS(50000, 100000, 200000, 400000), PLANNED(280000000000, BYTES(2, 1, 1, 2), BYTES(2, 3))},
    {"case 3", 2, 2, 0, TABLE_T, LOADS(0, 0, 100000, 100000), PLANNED(20000000000, BYTES(1, 1, 2, 2), BYTES(0, 1))},
    {"case 4", 2, 2, 1, TABLE_T, LOADS(0, 0, 100000, 100000), PLANNED(20001000000, BYTES(1, 1, 2, 2), BYTES(0, 1))},
    {"case 5", 2, 2, 0, TABLE_T, LOADS(100000, 400000), PLANNED(170000000000, BYTES(1, 2), BYTES(1, 3))},
    {"case 6", 2, 2, 30000, TABLE_T, LOADS(100000, 400000), PLANNED(230000000000, BYTES(2, 2), BYTES(0, 3))},
    {"case 7", 2, 2, 40000, TABLE_T, LOADS(100000, 400000), PLANNED(240000000000, BYTES(2, 2), BYTES(0, 3))},
    {"case 8", 2, 2, 0, TABLE_T, NO_LOADS, PLANNED(0, NO_BYTES, BYTES(0, 0))},
    {"case 9", 1, 1, 0, WORDS(3000), WORDS(1), LOADS(3000), PLANNED(1002000, BYTES(1), BYTES(1))},
    {"case 10", 1, 1, 0, TABLE_T, LOADS(400001), REFUSED(8)},
    {"case 11", 1, 1, 0, FALLING, LOADS(100000), REFUSED(4)},
    {"case 12", 1, 2, 0, TABLE_T, LOADS(2, 1, 0), REFUSED(6)},
    {"case 13", 8, 8, 0, WORDS(354400, 1000000), WORDS(89025, 2000000),
     LOADS(354400, 354400, 354400, 354400, 354400, 354400, 354400, 1000000),
     PLANNED(2623176960000, BYTES(7, 7, 7, 7, 7, 7, 7, 8), BYTES(0, 0, 0, 0, 0, 0, 1, 2))},
    {"case 14", 8, 8, 1000000000, WORDS(4000000), WORDS(10000000), LOADS(EIGHT(EIGHT(4000000))),
     PLANNED(8640000000000000,
             BYTES(EIGHT(1), EIGHT(2), EIGHT(3), EIGHT(4), EIGHT(5), EIGHT(6), EIGHT(7), EIGHT(8)), BYTES(EIGHT(1)))},

    /* accepted, and near an edge */
    {"case 11 with 20000", 1, 1, 0, WORDS(100000, 200000), WORDS(10000, 20000), LOADS(100000),
     PLANNED(10000000000, BYTES(1), BYTES(1))},
    {"one load on three islands", 3, 1, 0, TABLE_T, LOADS(100000), PLANNED(10000000000, BYTES(3), BYTES(0, 0, 1))},
    {"zero loads alone", 2, 2, 7, TABLE_T, LOADS(0, 0, 0), PLANNED(0, BYTES(1, 2, 2), BYTES(0, 0))},
    {"island power at its limit", 1, 1, 1000000000, TABLE_T, LOADS(100000), PLANNED(1000010000000000, BYTES(1), BYTES(1))},

    {"32 levels", 1, 1, 0,
     WORDS(1000, 1001, 1002, 1003, 1004, 1005, 1006, 1007, 1008, 1009, 1010, 1011, 1012, 1013, 1014, 1015,
           1016, 1017, 1018, 1019, 1020, 1021, 1022, 1023, 1024, 1025, 1026, 1027, 1028, 1029, 1030, 1031),
     WORDS(1000, 1001, 1002, 1003, 1004, 1005, 1006, 1007, 1008, 1009, 1010, 1011, 1012, 1013, 1014, 1015,
           1016, 1017, 1018, 1019, 1020, 1021, 1022, 1023, 1024, 1025, 1026, 1027, 1028, 1029, 1030, 1031),
     LOADS(1031), PLANNED(1031000000, BYTES(1), BYTES(32))},

    /* numbers whose lower 32 bits would fit */
    {"2^32 + 2 islands", 4294967298, 2, 0, TABLE_T, LOADS(100000), REFUSED(1)},
    {"2^32 + 2 cores", 2, 4294967298, 0, TABLE_T, LOADS(100000), REFUSED(1)},
    {"a load of 2^32 + 100000", 1, 1, 0, TABLE_T, LOADS(4295067296), REFUSED(8)},

    /* one cause each, beside those of the board cases */
    {"no islands", 0, 2, 0, TABLE_T, LOADS(100000), REFUSED(1)},
    {"nine islands", 9, 2, 0, TABLE_T, LOADS(100000), REFUSED(1)},
    {"no cores", 2, 0, 0, TABLE_T, LOADS(100000), REFUSED(1)},
    {"nine cores", 2, 9, 0, TABLE_T, LOADS(100000), REFUSED(1)},
    {"no levels", 2, 2, 0, NO_WORDS, NO_WORDS, LOADS(100000), REFUSED(2)},
    {"a power too many", 2, 2, 0, WORDS(100000), WORDS(1, 2), LOADS(100000), REFUSED(2)},
    {"a power too few", 2, 2, 0, WORDS(100000, 200000), WORDS(1), LOADS(100000), REFUSED(2)},
    {"equal frequencies", 2, 2, 0, WORDS(100000, 100000), WORDS(1, 2), LOADS(100000), REFUSED(3)},
    {"a falling slope of equal costs", 2, 2, 0, WORDS(1000000, 2000000), WORDS(1, 1), LOADS(100000), REFUSED(4)},
    {"island power past its limit", 2, 2, 1000000001, TABLE_T, LOADS(100000), REFUSED(5)},
    {"65 loads", 8, 8, 0, TABLE_T, LOADS(EIGHT(EIGHT(100000)), 100000), REFUSED(6)},
    {"falling loads", 2, 2, 0, TABLE_T, LOADS(200000, 100000), REFUSED(7)},

    /* two causes each: the first is given */
    {"1 before 2", 0, 2, 0, NO_WORDS, NO_WORDS, LOADS(100000), REFUSED(1)},
    {"2 before 3", 2, 2, 0, WORDS(0, EIGHT(1000), EIGHT(1000), EIGHT(1000), EIGHT(1000)),
     WORDS(0, EIGHT(1), EIGHT(1), EIGHT(1), EIGHT(1)), LOADS(1000), REFUSED(2)},
    {"3 before 4", 2, 2, 0, WORDS(1000, 2000, 4000), WORDS(2, 1, 0), LOADS(1000), REFUSED(3)},
    {"4 before 5", 1, 1, 1000000001, FALLING, LOADS(100000), REFUSED(4)},
    {"5 before 6", 1, 1, 1000000001, TABLE_T, LOADS(100000, 100000), REFUSED(5)},
    {"6 before 7", 1, 1, 0, TABLE_T, LOADS(200000, 100000), REFUSED(6)},
    {"7 before 8", 1, 2, 0, TABLE_T, LOADS(500000, 400001), REFUSED(7)},
    {"1 before all others", 9, 9, 1000000001, NO_WORDS, WORDS(0), LOADS(4295067296, 4295067295), REFUSED(1)},
};

/* How many bytes more than the job needs are lent. */
struct spare {
    const char *name;
    int plan, levels;
};

enum { MOST_LEVELS = 8, SPARE = 40, ALL = -128 };

static const struct spare spares[] = {
    {"exact buffers", 0, 0},
    {"longer buffers", SPARE, SPARE},
    {"a plan byte short", -1, SPARE},
    {"a level byte short", SPARE, -1},
    {"empty buffers", ALL, ALL},
};

static size_t lent(uint64_t needed, int more)
{
    return more < 0 && needed < (uint64_t)-more ? 0 : (size_t)needed + (size_t)more;
}

/* Plans one row with one length of each buffer; says what is wrong and returns whether anything is. */
static int wrong(const struct row *row, const struct spare *spare)
{
    uint64_t levels_needed = row->islands < MOST_LEVELS ? row->islands : MOST_LEVELS;
    struct job job = {row->islands, row->cores, row->island_power,
                      row->frequencies.at, row->frequencies.n, row->powers.at, row->powers.n, row->loads.at, row->loads.n,
                      lent(row->loads.n, spare->plan), lent(levels_needed, spare->levels)};
    struct answer planned = {0, row->total, row->plan.at, row->plan.n, row->levels.at, row->levels.n};
    int narrow = job.plan_len < row->plan.n || job.levels_len < row->levels.n;
    struct answer expected = row->answer != 0 ? refusal(row->answer) : narrow ? refusal(9) : planned;
    char name[80];

    snprintf(name, sizeof name, "%s, %s", row->name, spare->name);
    return differs(name, &job, &expected) > 0;
}

int main(void)
{
    unsigned passed = 0, failed = 0;

    for (size_t k = 0; k < sizeof rows / sizeof rows[0]; k++)
        for (size_t j = 0; j < sizeof spares / sizeof spares[0]; j++)
            if (wrong(&rows[k], &spares[j]))
                failed++;
            else
                passed++;
    printf("%u passed, %u failed\n", passed, failed);
    return failed > 0;
}
