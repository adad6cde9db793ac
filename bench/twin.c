/* The planner's engine in C, with nothing proved: the same tables and the same steps, over whatever limits, minima and
   weights it is handed. It shows what the same work costs in a language that trusts its programmer. */
#include "plan.h"

#include <stdbool.h>
#include <string.h>

/* The ports' limits come first, then those of two input cards and two output cards. */
enum { INPUT_CARDS = LIMITS, OUTPUT_CARDS = 18, ALL_LIMITS = 20 };

/* The stage of a flow: below ALL_LIMITS it was stopped by the limit of that number. A flow with a minimum has it at once and
   waits until the others have risen to it; if a limit fills before, the minimum is what it keeps. */
enum { RISING = ALL_LIMITS, MET, WAITING, KEPT };

struct problem {
    bool cards;        /* whether cards limit flows too */
    uint64_t heaviest; /* no flow weighs more */
    const uint64_t *capacities;
    const uint32_t *demands;
    const uint32_t *minima;
    const uint32_t *weights;
};

struct filling {
    uint64_t base;
    uint64_t stages[CELLS];
    uint64_t levels[ALL_LIMITS]; /* where a limit filled, over the base */
    uint64_t left[ALL_LIMITS];   /* what the flows that do not rise leave of it, over the base */
    uint64_t parts[ALL_LIMITS];  /* the weight of the flows that rise through it */
};

/* A level, high / parts over the base, and what happens there: a limit's number, or ALL_LIMITS and a flow's cell. */
struct level {
    uint64_t high;
    uint64_t parts;
    unsigned at;
};

/* A walk goes over the cells of a limit from the first of them to the end in equal steps. */
struct area {
    unsigned first, end, step;
};

static unsigned limits(const struct problem *p)
{
    return p->cards ? ALL_LIMITS : LIMITS;
}

/* Takes x off the limits that the flow of a cell passes. */
static void take(const struct problem *p, unsigned c, uint64_t x, uint64_t *table)
{
    table[c / 8] -= x;
    table[PORTS + c % 8] -= x;
    if (p->cards) {
        table[INPUT_CARDS + c / 32] -= x;
        table[OUTPUT_CARDS + c % 8 / 4] -= x;
    }
}

/* Puts x on the limits that the flow of a cell passes. */
static void give(const struct problem *p, unsigned c, uint64_t x, uint64_t *table)
{
    table[c / 8] += x;
    table[PORTS + c % 8] += x;
    if (p->cards) {
        table[INPUT_CARDS + c / 32] += x;
        table[OUTPUT_CARDS + c % 8 / 4] += x;
    }
}

/* Sets out all flows, and tells whether some have to wait. */
static bool start(const struct problem *p, struct filling *f)
{
    bool held = false;
    f->base = 1;
    memcpy(f->left, p->capacities, sizeof f->left);
    memset(f->levels, 0, sizeof f->levels);
    memset(f->parts, 0, sizeof f->parts);
    for (unsigned c = 0; c < CELLS; c++) {
        if (p->minima[c] > 0) {
            f->stages[c] = WAITING;
            take(p, c, p->minima[c], f->left);
            held = true;
        } else if (p->demands[c] > 0) {
            f->stages[c] = RISING;
            give(p, c, p->weights[c], f->parts);
        } else {
            f->stages[c] = MET;
        }
    }
    return held;
}

/* Ratios are compared by products. If they are the same, the first counts. */
static struct level lower(struct level a, struct level b)
{
    return b.high * a.parts < a.high * b.parts ? b : a;
}

/* The first level, 1 over 0, is above all others. */
static struct level lowest_limit(const struct problem *p, const struct filling *f)
{
    struct level best = {1, 0, 0};
    for (unsigned l = 0; l < limits(p); l++)
        best = lower(best, (struct level){f->left[l], f->parts[l], l});
    return best;
}

/* Waiting flows come after the limits. */
static struct level lowest_flow(const struct problem *p, const struct filling *f, struct level best)
{
    for (unsigned c = 0; c < CELLS; c++)
        if (f->stages[c] == WAITING)
            best = lower(best, (struct level){p->minima[c] * f->base, p->weights[c], ALL_LIMITS + c});
    return best;
}

/* Flows are searched only if some flow had a minimum at the start. */
static struct level next_level(const struct problem *p, const struct filling *f, bool held)
{
    struct level level = lowest_limit(p, f);
    return held ? lowest_flow(p, f, level) : level;
}

/* The rate is a numerator over the base. */
static void stop(const struct problem *p, struct filling *f, unsigned c, uint64_t stage, uint64_t rate)
{
    f->stages[c] = stage;
    take(p, c, rate, f->left);
    take(p, c, p->weights[c], f->parts);
}

/* Stops every rising flow that has its demand at or below the level. Leaves the least demand that still rises. */
static bool stop_met(const struct problem *p, struct filling *f, struct level level, uint64_t *least)
{
    uint64_t scaled = f->base * level.parts;
    bool any = false;
    *least = UINT32_MAX;
    for (unsigned c = 0; c < CELLS; c++) {
        if (f->stages[c] != RISING)
            continue;
        uint64_t demand = p->demands[c];
        if (demand * scaled <= level.high * p->weights[c]) {
            stop(p, f, c, MET, demand * f->base);
            any = true;
        } else if (demand < *least) {
            *least = demand;
        }
    }
    return any;
}

/* The pass over the demands is spared while even the least of them, and the heaviest flow, is out of reach. */
static bool stop_some(const struct problem *p, struct filling *f, struct level level, uint64_t *least)
{
    if (level.high * p->heaviest < *least * (f->base * level.parts))
        return false;
    return stop_met(p, f, level, least);
}

static struct area area_of(unsigned limit)
{
    if (limit < PORTS)
        return (struct area){8 * limit, 8 * limit + 8, 1};
    if (limit < INPUT_CARDS)
        return (struct area){limit - PORTS, CELLS, 8};
    if (limit < OUTPUT_CARDS)
        return (struct area){32 * (limit - INPUT_CARDS), 32 * (limit - INPUT_CARDS) + 32, 1};
    return (struct area){4 * (limit - OUTPUT_CARDS), CELLS, 1};
}

/* Stops every flow that passes the limit: a rising one at the level, a waiting one where it is. */
static void halt_all(const struct problem *p, struct filling *f, struct level level)
{
    struct area area = area_of(level.at);
    for (unsigned c = area.first; c < area.end; c += area.step) {
        /* The walk over an output card comes past cells of the other one. */
        if (level.at >= OUTPUT_CARDS && OUTPUT_CARDS + c % 8 / 4 != level.at)
            continue;
        if (f->stages[c] == RISING)
            stop(p, f, c, level.at, p->weights[c] * level.high);
        else if (f->stages[c] == WAITING)
            f->stages[c] = KEPT;
    }
}

/* Fills the limit. The base grows, so everything that is kept over the base grows with it. */
static void shut(const struct problem *p, struct filling *f, struct level level)
{
    for (unsigned l = 0; l < limits(p); l++) {
        f->levels[l] *= level.parts;
        f->left[l] *= level.parts;
    }
    f->base *= level.parts;
    f->levels[level.at] = level.high;
    halt_all(p, f, level);
}

/* A flow that waited at its minimum begins to rise. */
static void free_flow(const struct problem *p, struct filling *f, unsigned c)
{
    f->stages[c] = RISING;
    give(p, c, p->minima[c] * f->base, f->left);
    give(p, c, p->weights[c], f->parts);
}

/* What happens at the level. A flow that begins to rise may ask for less than any that rose before. */
static void happen(const struct problem *p, struct filling *f, struct level level, uint64_t *least)
{
    if (level.at < ALL_LIMITS) {
        shut(p, f, level);
    } else {
        free_flow(p, f, level.at - ALL_LIMITS);
        *least = 0;
    }
}

static uint64_t rate(const struct problem *p, const struct filling *f, unsigned c)
{
    if (f->stages[c] < ALL_LIMITS)
        return p->weights[c] * f->levels[f->stages[c]];
    if (f->stages[c] == RISING)
        return 0;
    return (f->stages[c] == MET ? p->demands[c] : p->minima[c]) * f->base;
}

/* Fills the numerators with fair rates and answers their base. The compiler may merge it with its one caller, as it does
   in the planner. */
static uint64_t fill(const struct problem *p, uint64_t numerators[CELLS])
{
    struct filling f;
    uint64_t least = 0;
    bool held = start(p, &f);
    for (;;) {
        struct level level = next_level(p, &f, held);
        if (level.parts == 0)
            break;
        if (!stop_some(p, &f, level, &least))
            happen(p, &f, level, &least);
    }
    for (unsigned c = 0; c < CELLS; c++)
        numerators[c] = rate(p, &f, c);
    return f.base;
}

/* Minima of 0 and equal weights: numbers that are known only when the program runs, as far as the compiler can see. */
__attribute__((noinline)) static void plain(uint32_t minima[CELLS], uint32_t weights[CELLS])
{
    for (int c = 0; c < CELLS; c++) {
        minima[c] = 0;
        weights[c] = 1;
    }
}

/* A request has all ports as limits, no minima, and equal weights. */
uint64_t fill_request(const struct request *r, uint64_t numerators[CELLS])
{
    uint64_t capacities[ALL_LIMITS] = {0};
    uint32_t minima[CELLS];
    uint32_t weights[CELLS];
    for (int i = 0; i < PORTS; i++) {
        capacities[i] = r->inputs[i];
        capacities[PORTS + i] = r->outputs[i];
    }
    plain(minima, weights);
    struct problem problem = {false, 1, capacities, r->demands, minima, weights};
    return fill(&problem, numerators);
}
