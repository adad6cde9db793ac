/* A request as a planner takes it, and what a planner of this benchmark offers. */
#ifndef BENCH_REQUEST_H
#define BENCH_REQUEST_H

#include <stdint.h>

enum { PORTS = 8, LIMITS = 16, CELLS = 64 };

struct request {
    uint32_t m;
    uint32_t n;
    uint32_t inputs[PORTS];
    uint32_t outputs[PORTS];
    uint32_t demands[CELLS];
};

/* Plans the request and hands back one number made of the plan. It is compiled apart from its caller, so that no round
   can be left out because it is like the one before. */
uint64_t planned(const struct request *request);

#endif
