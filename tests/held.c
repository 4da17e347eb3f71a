/* What held.h gives. A list or a buffer has a room of its own, between two closed pages, and is put against either end of it. */
#define _DEFAULT_SOURCE
#include "held.h"

#include "mizhgavul.h"

#include <inttypes.h>
#include <signal.h>
#include <stdio.h>
#include <stdlib.h>
#include <string.h>
#include <sys/mman.h>
#include <unistd.h>

/* Memory between two closed pages. That of a buffer has marks, what every byte holds before a call. */
struct room {
    uint8_t *start;
    size_t size;
    uint8_t marks[MOST_BUFFER];
};

enum edge { AGAINST_END, AGAINST_START };

static struct {
    struct room frequencies, powers, loads, plan, levels, total;
} rooms;

/* What is being planned, for whoever reads of a touch of a closed page. */
static const char *current_name = "no job";
static const struct job *current;

void give_up(const char *why)
{
    printf("%s\n", why);
    exit(2);
}

void tell(const char *name, const struct job *job)
{
    printf("%s: V %" PRIu64 " Q %" PRIu64 " h %" PRIu32 ", %zu frequencies", name, job->islands, job->cores, job->island_power,
           job->n_frequencies);
    for (size_t k = 0; k < job->n_frequencies; k++)
        printf(" %" PRIu32, job->frequencies[k]);
    printf(", %zu powers", job->n_powers);
    for (size_t k = 0; k < job->n_powers; k++)
        printf(" %" PRIu32, job->powers[k]);
    printf(", %zu loads", job->n_loads);
    for (size_t k = 0; k < job->n_loads; k++)
        printf(" %" PRIu64, job->loads[k]);
    printf(", buffers of %zu and %zu\n", job->plan_len, job->levels_len);
}

/* The fault is in the library and never inside stdio, so stdio can be used. */
static void touched(int signal)
{
    printf("memory was touched that was not lent, or a list was written to (signal %d)\n", signal);
    if (current)
        tell(current_name, current);
    fflush(stdout);
    _exit(2);
}

static void open_room(struct room *room, size_t size)
{
    size_t page = (size_t)sysconf(_SC_PAGESIZE);
    uint8_t *all = mmap(NULL, page + size + page, PROT_NONE, MAP_PRIVATE | MAP_ANONYMOUS, -1, 0);

    if (size % page || all == MAP_FAILED || mprotect(all + page, size, PROT_READ | PROT_WRITE))
        give_up("no memory between closed pages is to be had");
    room->start = all + page;
    room->size = size;
}

/* A mark is a value by its place and its room, and none that the planner writes. */
static void open_buffer(struct room *room, unsigned which)
{
    open_room(room, MOST_BUFFER);
    for (size_t k = 0; k < MOST_BUFFER; k++)
        room->marks[k] = (uint8_t)(0x80 + (k * 5 + which) % 0x7f);
}

static void open_rooms(void)
{
    struct sigaction action;

    if (rooms.loads.start)
        return;
    open_room(&rooms.frequencies, MOST_LIST);
    open_room(&rooms.powers, MOST_LIST);
    open_room(&rooms.loads, MOST_LIST);
    open_buffer(&rooms.plan, 0);
    open_buffer(&rooms.levels, 1);
    open_buffer(&rooms.total, 2);
    memset(&action, 0, sizeof action);
    action.sa_handler = touched;
    sigaction(SIGSEGV, &action, NULL);
    sigaction(SIGBUS, &action, NULL);
}

static uint8_t *place(const struct room *room, size_t bytes, enum edge edge)
{
    if (bytes > room->size)
        give_up("a list or a buffer is too long for this test");
    return edge == AGAINST_END ? room->start + room->size - bytes : room->start;
}

/* A list is copied to its room, and the room closed to writing. */
static const void *lend_list(const struct room *room, const void *list, size_t bytes, enum edge edge)
{
    uint8_t *at = place(room, bytes, edge);

    if (mprotect(room->start, room->size, PROT_READ | PROT_WRITE))
        give_up("a room can't be opened");
    if (bytes)
        memcpy(at, list, bytes);
    if (mprotect(room->start, room->size, PROT_READ))
        give_up("a room can't be closed");
    return at;
}

static uint8_t *lend_buffer(const struct room *room, size_t bytes, enum edge edge)
{
    memcpy(room->start, room->marks, room->size);
    return place(room, bytes, edge);
}

/* Whether the room is as it has to be left: written over from `at` on, and nowhere else. */
static int left_as(const struct room *room, const uint8_t *at, const void *written, size_t n)
{
    size_t first = (size_t)(at - room->start), behind = first + n;

    return memcmp(room->start, room->marks, first) == 0 && (n == 0 || memcmp(at, written, n) == 0) &&
           memcmp(room->start + behind, room->marks + behind, room->size - behind) == 0;
}

static int fault(const char *what)
{
    printf("wrong: %s\n", what);
    return 1;
}

static int wrong(const char *name, const struct job *job, const struct answer *expected, enum edge edge)
{
    const uint32_t *frequencies = lend_list(&rooms.frequencies, job->frequencies, job->n_frequencies * sizeof(uint32_t), edge);
    const uint32_t *powers = lend_list(&rooms.powers, job->powers, job->n_powers * sizeof(uint32_t), edge);
    const uint64_t *loads = lend_list(&rooms.loads, job->loads, job->n_loads * sizeof(uint64_t), edge);
    uint8_t *plan = lend_buffer(&rooms.plan, job->plan_len, edge);
    uint8_t *levels = lend_buffer(&rooms.levels, job->levels_len, edge);
    uint8_t *total = lend_buffer(&rooms.total, sizeof(uint64_t), edge);
    uint32_t number;
    int faults = 0;

    current_name = name;
    current = job;
    number = mizhgavul_plan(job->islands, job->cores, job->island_power, frequencies, job->n_frequencies, powers, job->n_powers,
                            loads, job->n_loads, plan, job->plan_len, levels, job->levels_len, (uint64_t *)(void *)total);
    current = NULL;
    if (number != expected->number) {
        printf("wrong: answer %" PRIu32 ", not %" PRIu32 "\n", number, expected->number);
        faults++;
    }
    if (!left_as(&rooms.total, total, &expected->total, sizeof expected->total)) {
        uint64_t told;

        memcpy(&told, total, sizeof told);
        printf("wrong: total %" PRIu64 ", not %" PRIu64 ", or a byte beside it\n", told, expected->total);
        faults++;
    }
    if (!left_as(&rooms.plan, plan, expected->plan, expected->n_plan))
        faults += fault("the bytes of the plan buffer or around it");
    if (!left_as(&rooms.levels, levels, expected->levels, expected->n_levels))
        faults += fault("the bytes of the level buffer or around it");
    if (faults)
        tell(name, job);
    return faults > 0;
}

struct answer refusal(uint32_t number)
{
    return (struct answer){number, 0, NULL, 0, NULL, 0};
}

int differs(const char *name, const struct job *job, const struct answer *expected)
{
    open_rooms();
    return wrong(name, job, expected, AGAINST_END) + wrong(name, job, expected, AGAINST_START);
}

uint64_t jobs_asked(int argc, char **argv, uint64_t usual)
{
    char *end = "";
    uint64_t jobs = argc > 1 ? strtoull(argv[1], &end, 10) : usual;

    if (argc > 2 || *end || jobs == 0)
        give_up("the one argument that may be given is a number of jobs");
    return jobs;
}

static uint64_t roll(struct dice *dice)
{
    uint64_t mixed = dice->state += 0x9e3779b97f4a7c15;

    mixed = (mixed ^ mixed >> 30) * 0xbf58476d1ce4e5b9;
    mixed = (mixed ^ mixed >> 27) * 0x94d049bb133111eb;
    return mixed ^ mixed >> 31;
}

uint64_t draw(struct dice *dice, uint64_t below)
{
    return roll(dice) % below;
}

int once_in(struct dice *dice, uint64_t times)
{
    return draw(dice, times) == 0;
}

void put_in_order(uint64_t *loads, size_t n, uint64_t load)
{
    for (; n > 0 && loads[n - 1] > load; n--)
        loads[n] = loads[n - 1];
    loads[n] = load;
}
