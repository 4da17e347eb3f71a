/* The two planners that the library is measured against. Both take what it takes and write what it writes (include/mizhgavul.h), so that
 * all three are called in the same way.
 */
#ifndef BASELINES_H
#define BASELINES_H

#include "mizhgavul.h"

typedef __typeof__(mizhgavul_plan) planner;

/* The library's recurrence in plain C, with the same nine refusals: the same answer, total and bytes on every job. */
planner plain_plan;

/* Algorithm 3 of source document 004. It refuses nothing: a job has to be one that the library plans. */
planner algorithm3_plan;

#endif
