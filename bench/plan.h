/* What the twin and the lean program share: a plan, and all that is done for one but the filling. */
#ifndef BENCH_PLAN_H
#define BENCH_PLAN_H

#include "request.h"

struct plan {
    uint64_t base;
    uint64_t numerators[CELLS];
    uint8_t reasons[CELLS];
};

/* Fills the numerators with fair rates and answers their base, which need not be the least. The request is within the
   limits. Each program has its own. */
uint64_t fill_request(const struct request *request, uint64_t numerators[CELLS]);

#endif
