/* What a planner does apart from the filling: the rows of the refusal table, the least base, the reasons, and the digest. */
#include "plan.h"

#include <stdbool.h>
#include <string.h>

enum { MOST = 16777216 };

/* A row of the refusal table and the word that it refuses, or row 0. */
struct refusal {
    unsigned row;
    unsigned place;
};

static struct refusal capacities(const struct request *r)
{
    for (unsigned u = 0; u < r->m; u++)
        if (r->inputs[u] > MOST)
            return (struct refusal){5, 3 + u};
    for (unsigned v = 0; v < r->n; v++)
        if (r->outputs[v] > MOST)
            return (struct refusal){5, 11 + v};
    return (struct refusal){0, 0};
}

static struct refusal demands(const struct request *r)
{
    for (unsigned u = 0; u < r->m; u++)
        for (unsigned v = 0; v < r->n; v++)
            if (r->demands[8 * u + v] > MOST)
                return (struct refusal){6, 19 + 8 * u + v};
    return (struct refusal){0, 0};
}

static struct refusal zeros(const struct request *r)
{
    for (unsigned u = r->m; u < PORTS; u++)
        if (r->inputs[u] != 0)
            return (struct refusal){7, 3 + u};
    for (unsigned v = r->n; v < PORTS; v++)
        if (r->outputs[v] != 0)
            return (struct refusal){7, 11 + v};
    for (unsigned u = 0; u < PORTS; u++)
        for (unsigned v = u < r->m ? r->n : 0; v < PORTS; v++)
            if (r->demands[8 * u + v] != 0)
                return (struct refusal){7, 19 + 8 * u + v};
    return (struct refusal){0, 0};
}

/* Rows 4 to 7 of the refusal table, in its order. */
static struct refusal check(const struct request *r)
{
    if (r->m < 1 || r->m > PORTS)
        return (struct refusal){4, 1};
    if (r->n < 1 || r->n > PORTS)
        return (struct refusal){4, 2};
    struct refusal refusal = capacities(r);
    if (refusal.row == 0)
        refusal = demands(r);
    if (refusal.row == 0)
        refusal = zeros(r);
    return refusal;
}

static uint64_t divisor(uint64_t a, uint64_t b)
{
    if (a == 0)
        return b;
    while (b != 0) {
        uint64_t rest = a % b;
        a = b;
        b = rest;
    }
    return a;
}

static void reduce(struct plan *plan)
{
    uint64_t common = plan->base;
    for (int c = 0; c < CELLS && common != 1; c++)
        common = divisor(plan->numerators[c], common);
    if (common == 1)
        return;
    for (int c = 0; c < CELLS; c++)
        if (plan->numerators[c] != 0)
            plan->numerators[c] /= common;
    plan->base /= common;
}

/* A flow that is not met and not held by its input is held by its output. An unused cell asks for 0 and has it. */
static void reasons_of(const struct request *r, struct plan *plan, unsigned u)
{
    const uint64_t *row = plan->numerators + 8 * u;
    uint64_t sum = 0;
    uint64_t most = 0;
    for (int v = 0; v < PORTS; v++) {
        sum += row[v];
        most = row[v] > most ? row[v] : most;
    }
    bool full = sum == r->inputs[u] * plan->base;
    for (unsigned v = 0; v < PORTS; v++) {
        bool met = row[v] == r->demands[8 * u + v] * plan->base;
        plan->reasons[8 * u + v] = met ? 0 : full && row[v] == most ? 1 : 2;
    }
}

static struct refusal make_plan(const struct request *r, struct plan *plan)
{
    struct refusal refusal = check(r);
    if (refusal.row != 0) {
        memset(plan, 0, sizeof *plan);
        plan->base = 1;
        return refusal;
    }
    plan->base = fill_request(r, plan->numerators);
    reduce(plan);
    for (unsigned u = 0; u < PORTS; u++)
        reasons_of(r, plan, u);
    return refusal;
}

/* As in the program measure: cell c counts 127 - 2c times. */
static uint64_t sum_of(const struct plan *plan)
{
    uint64_t sum = plan->base;
    uint64_t sums = 0;
    for (int c = 0; c < CELLS; c++) {
        sum += plan->numerators[c] + plan->reasons[c];
        sums += sum;
    }
    return 2 * sums - sum;
}

uint64_t planned(const struct request *request)
{
    struct plan plan;
    make_plan(request, &plan);
    return sum_of(&plan);
}
