/* Times three planners on fixed workloads: the library, its recurrence in plain C, and the paper's Algorithm 3. Before a workload is timed
 * their answers are held to each other; the exit status is 1 where they differ. A missed goal is said and is no error, since times depend
 * on the machine. For tools that count, `bench names` writes the workloads, and `bench ROW PLANNER TIMES` plans one of them so often.
 */
#define _POSIX_C_SOURCE 199309L
#include "baselines.h"

#include <stdio.h>
#include <stdlib.h>
#include <string.h>
#include <time.h>

enum { MOST_ISLANDS = 8, MOST_PLACES = 64, MOST_LEVELS = 32 };
enum { PICOWATTS = 1000000 };

enum { LIBRARY, PLAIN, ALGORITHM3, PLANNERS };

static planner *const planners[PLANNERS] = {mizhgavul_plan, plain_plan, algorithm3_plan};
static const char *const planner_names[PLANNERS] = {"planner", "plain", "algorithm3"};

struct table {
    size_t n;
    uint32_t frequencies[MOST_LEVELS], powers[MOST_LEVELS];
};

/* Loads that differ, or only four different ones. */
enum kind { DIFFERENT, EQUAL };

struct workload {
    const char *name;
    size_t islands, cores, n;
    uint32_t island_power;
    size_t levels;
    enum kind kind;
};

#define FULL(islands, cores) {#islands " x " #cores " full", islands, cores, (islands) * (cores), 50000, 32, DIFFERENT}

/* The first row is the board that the goals name. The twelve boards at the end are those of the paper's figure 8. */
static const struct workload workloads[] = {
    {"8 x 8 full", 8, 8, 64, 50000, 32, DIFFERENT},
    {"8 x 8 full, 3 levels", 8, 8, 64, 50000, 3, DIFFERENT},
    {"8 x 8 equal loads", 8, 8, 64, 50000, 32, EQUAL},
    {"8 x 8 half full", 8, 8, 32, 50000, 32, DIFFERENT},
    {"8 x 8 half full, no island power", 8, 8, 32, 0, 32, DIFFERENT},
    FULL(2, 2), FULL(2, 4), FULL(2, 6), FULL(2, 8),
    FULL(4, 2), FULL(4, 4), FULL(4, 6), FULL(4, 8),
    FULL(6, 2), FULL(6, 4), FULL(6, 6), FULL(6, 8),
};

enum { ROWS = sizeof workloads / sizeof workloads[0] };

/* A workload as the planners take it. */
struct job {
    const struct workload *workload;
    struct table table;
    uint64_t loads[MOST_PLACES];
};

struct answer {
    uint32_t number;
    uint64_t total;
    uint8_t plan[MOST_PLACES], levels[MOST_ISLANDS];
};

/* Levels in equal steps up to 1 GHz, at the 2 watts per cubed gigahertz of the paper's section 4.3. */
static struct table table_of(size_t n)
{
    struct table table = {.n = n};

    for (size_t k = 0; k < n; k++) {
        table.frequencies[k] = (uint32_t)(1000000 * (k + 1) / n);
        table.powers[k] = (uint32_t)(2000000 * (k + 1) * (k + 1) * (k + 1) / (n * n * n));
    }
    return table;
}

/* Loads above 0, up to the last frequency, that rise by uneven steps. */
static struct job job_of(const struct workload *workload)
{
    struct job job = {.workload = workload, .table = table_of(workload->levels)};
    uint32_t state = 1;
    uint64_t load = 0;

    for (size_t k = 0; k < workload->n; k++) {
        state = state * 1664525 + 1013904223;
        load += 1 + (state >> 8) % (1000000 / workload->n);
        job.loads[k] = workload->kind == EQUAL ? 250000 * (4 * k / workload->n + 1) : load;
    }
    return job;
}

static uint32_t plan_job(planner *plan, const struct job *job, struct answer *answer)
{
    const struct workload *workload = job->workload;

    return plan(workload->islands, workload->cores, workload->island_power,
                job->table.frequencies, job->table.n, job->table.powers, job->table.n,
                job->loads, workload->n,
                answer->plan, workload->n, answer->levels, workload->islands, &answer->total);
}

static struct answer answer_of(planner *plan, const struct job *job)
{
    struct answer answer;

    memset(&answer, 0xff, sizeof answer);
    answer.number = plan_job(plan, job, &answer);
    return answer;
}

static uint64_t cost_of(const struct table *table, size_t level)
{
    return ((uint64_t)table->powers[level - 1] * PICOWATTS + (table->frequencies[level - 1] - 1)) / table->frequencies[level - 1];
}

/* The power of an answer's plan at its levels by 01, or 0 where it is no placement of the job. */
static uint64_t power_of(const struct job *job, const struct answer *answer)
{
    const struct workload *workload = job->workload;
    size_t held[MOST_ISLANDS] = {0};
    uint64_t total = 0;

    for (size_t k = 0; k < workload->n; k++) {
        size_t island = (size_t)answer->plan[k] - 1, level;

        if (island >= workload->islands || ++held[island] > workload->cores)
            return 0;
        level = answer->levels[island];
        if (level < 1 || level > job->table.n || job->table.frequencies[level - 1] < job->loads[k])
            return 0;
        total += cost_of(&job->table, level) * job->loads[k];
        if (held[island] == 1)
            total += (uint64_t)workload->island_power * PICOWATTS;
    }
    return total;
}

/* Whether Algorithm 3 and 01 give a workload the same total: it charges the island power to runs of zeros, and 01 does not. */
static int comparable(const struct workload *workload)
{
    return workload->island_power == 0 || workload->n == workload->islands * workload->cores;
}

static int fault(const struct workload *workload, const char *what)
{
    printf("%s: %s\n", workload->name, what);
    return 1;
}

/* Says where the three answers are wrong, and returns whether any is. Algorithm 3 knows no tie rule, so of its plan only the power is held;
 * where it charges more than 01, its total may be higher. */
static int wrong(const struct job *job)
{
    const struct workload *workload = job->workload;
    struct answer library = answer_of(mizhgavul_plan, job), plain = answer_of(plain_plan, job), paper = answer_of(algorithm3_plan, job);
    int faults = 0;

    if (library.number != 0)
        return fault(workload, "the library refuses the job");
    if (library.total != power_of(job, &library))
        faults += fault(workload, "the library's total is not the power of its plan");
    if (plain.number != library.number || plain.total != library.total ||
        memcmp(plain.plan, library.plan, sizeof plain.plan) != 0 || memcmp(plain.levels, library.levels, sizeof plain.levels) != 0)
        faults += fault(workload, "plain C and the library differ");
    if (comparable(workload) ? paper.total != library.total : paper.total < library.total)
        faults += fault(workload, "Algorithm 3 and the library have different totals");
    if (comparable(workload) ? power_of(job, &paper) != paper.total : power_of(job, &paper) < library.total)
        faults += fault(workload, "Algorithm 3's total is not the power of its plan");
    return faults > 0;
}

/* What is planned is added up here, so that no call is without an effect. */
static volatile uint64_t sink;

static void repeat(planner *plan, const struct job *job, unsigned long times)
{
    struct answer answer;

    for (unsigned long k = 0; k < times; k++) {
        plan_job(plan, job, &answer);
        sink += answer.total + answer.plan[0] + answer.levels[0];
    }
}

static double seconds(void)
{
    struct timespec now;

    clock_gettime(CLOCK_MONOTONIC, &now);
    return (double)now.tv_sec + (double)now.tv_nsec * 1e-9;
}

static double time_of(planner *plan, const struct job *job, unsigned long times)
{
    double began = seconds();

    repeat(plan, job, times);
    return seconds() - began;
}

/* A round lasts at least so many seconds: the clock's steps are nothing beside it. */
static const double LEAST_ROUND = 0.02;
enum { ROUNDS = 9 };

/* How many plans a round has to have to last long enough. */
static unsigned long round_of(planner *plan, const struct job *job)
{
    unsigned long times = 1;

    while (time_of(plan, job, times) < LEAST_ROUND)
        times *= 2;
    return times;
}

/* The seconds that a plan takes with each planner. Rounds go by turns, and the quickest of each counts: what else the machine does only
 * adds. */
static void measure(const struct job *job, double each[PLANNERS])
{
    unsigned long times[PLANNERS];

    for (size_t p = 0; p < PLANNERS; p++) {
        times[p] = round_of(planners[p], job);
        each[p] = time_of(planners[p], job, times[p]) / (double)times[p];
    }
    for (size_t round = 1; round < ROUNDS; round++)
        for (size_t p = 0; p < PLANNERS; p++) {
            double now = time_of(planners[p], job, times[p]) / (double)times[p];

            if (now < each[p])
                each[p] = now;
        }
}

static const double MOST_OVER_PLAIN = 1.5, LEAST_GAIN = 20;

static void say_goal(int met, const char *of)
{
    printf("goal %s: %s\n", met ? "met" : "missed", of);
}

/* Says whether the goals hold: for the planner beside plain C in the first row and in all, and beside Algorithm 3 in the first. */
static void say_goals(double first_over_plain, int slow_rows, double first_gain)
{
    say_goal(first_over_plain <= MOST_OVER_PLAIN, "on the full 8 x 8 the planner takes at most 1.5 times as long as plain C");
    say_goal(slow_rows == 0, "so it does in every row");
    if (slow_rows > 0)
        printf("             in %d of %d it does not\n", slow_rows, (int)ROWS);
    say_goal(first_gain >= LEAST_GAIN, "on the full 8 x 8 the planner is at least 20 times as fast as Algorithm 3");
}

static int bench(void)
{
    int slow_rows = 0, faults = 0;
    double first_over_plain = 0, first_gain = 0;

    printf("%-34s %12s %12s %14s %14s %20s\n", "nanoseconds a plan", "planner", "plain C", "Algorithm 3", "planner/plain",
           "Algorithm 3/planner");
    for (size_t k = 0; k < ROWS; k++) {
        struct job job = job_of(&workloads[k]);
        double each[PLANNERS], over_plain, gain;

        if (wrong(&job)) {
            faults++;
            continue;
        }
        measure(&job, each);
        over_plain = each[LIBRARY] / each[PLAIN];
        gain = each[ALGORITHM3] / each[LIBRARY];
        printf("%-34s %12.0f %12.0f %14.0f %14.2f %20.2f%s\n", workloads[k].name, each[LIBRARY] * 1e9, each[PLAIN] * 1e9,
               each[ALGORITHM3] * 1e9, over_plain, gain, comparable(&workloads[k]) ? "" : " *");
        fflush(stdout);
        slow_rows += over_plain > MOST_OVER_PLAIN;
        if (k == 0) {
            first_over_plain = over_plain;
            first_gain = gain;
        }
    }
    if (faults > 0)
        return 1;
    printf("* totals not comparable: Algorithm 3 charges the island power to runs of zeros, and its total is only held not to be lower\n");
    say_goals(first_over_plain, slow_rows, first_gain);
    return 0;
}

static int names(void)
{
    for (size_t k = 0; k < ROWS; k++)
        puts(workloads[k].name);
    return 0;
}

static int repeat_row(const char *row, const char *name, const char *times)
{
    size_t k = strtoul(row, NULL, 10), p = 0;
    struct job job;

    while (p < PLANNERS && strcmp(planner_names[p], name) != 0)
        p++;
    if (k < 1 || k > ROWS || p == PLANNERS)
        return 2;
    job = job_of(&workloads[k - 1]);
    repeat(planners[p], &job, strtoul(times, NULL, 10));
    return 0;
}

int main(int argc, char **argv)
{
    if (argc == 1)
        return bench();
    if (argc == 2 && strcmp(argv[1], "names") == 0)
        return names();
    if (argc == 4)
        return repeat_row(argv[1], argv[2], argv[3]);
    return 2;
}
