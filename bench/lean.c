/* The planner's algorithm where only ports are limits, no flow has a minimum, and all weigh the same: the special case, written
   out by hand. */
#include "plan.h"

#include <stdbool.h>
#include <string.h>

/* Where a flow stands: below LIMITS it was stopped by the limit of that number. */
enum { RISING = LIMITS, MET };

struct filling {
    uint64_t base;
    uint64_t left[LIMITS];  /* what the stopped flows leave of a limit, over the base */
    uint64_t parts[LIMITS]; /* how many flows still rise through it */
    uint64_t level[LIMITS]; /* where it filled, over the base */
    uint8_t stage[CELLS];
};

/* The limit that fills next, at high / parts over the base; parts is 0 if none is left to fill. */
struct next {
    uint64_t high;
    uint64_t parts;
    int at;
};

static void start(const struct request *r, struct filling *f)
{
    f->base = 1;
    for (int i = 0; i < PORTS; i++) {
        f->left[i] = r->inputs[i];
        f->left[PORTS + i] = r->outputs[i];
    }
    memset(f->parts, 0, sizeof f->parts);
    memset(f->level, 0, sizeof f->level);
    for (int u = 0; u < PORTS; u++)
        for (int v = 0; v < PORTS; v++) {
            bool asks = r->demands[8 * u + v] > 0;
            f->stage[8 * u + v] = asks ? RISING : MET;
            f->parts[u] += asks;
            f->parts[PORTS + v] += asks;
        }
}

/* Ratios are compared by products; 1 / 0 to begin with is above them all. */
static struct next lowest(const struct filling *f)
{
    struct next next = {1, 0, 0};
    for (int l = 0; l < LIMITS; l++)
        if (f->left[l] * next.parts < next.high * f->parts[l])
            next = (struct next){f->left[l], f->parts[l], l};
    return next;
}

/* The rate is a numerator over the base. */
static void stop(struct filling *f, int c, uint8_t stage, uint64_t rate)
{
    f->stage[c] = stage;
    f->left[c / 8] -= rate;
    f->left[PORTS + c % 8] -= rate;
    f->parts[c / 8]--;
    f->parts[PORTS + c % 8]--;
}

/* Stops the flows that have their demands before the limit fills. Leaves the least demand that still rises. */
static bool stop_met(const struct request *r, struct filling *f, struct next next, uint64_t *least)
{
    uint64_t scaled = f->base * next.parts;
    bool any = false;
    *least = UINT32_MAX;
    for (int c = 0; c < CELLS; c++) {
        if (f->stage[c] != RISING)
            continue;
        uint64_t demand = r->demands[c];
        if (demand * scaled <= next.high) {
            stop(f, c, MET, demand * f->base);
            any = true;
        } else if (demand < *least) {
            *least = demand;
        }
    }
    return any;
}

/* Fills the limit. The base grows, so everything that is kept over the base grows with it. */
static void shut(struct filling *f, struct next next)
{
    for (int l = 0; l < LIMITS; l++) {
        f->level[l] *= next.parts;
        f->left[l] *= next.parts;
    }
    f->base *= next.parts;
    f->level[next.at] = next.high;
    int first = next.at < PORTS ? 8 * next.at : next.at - PORTS;
    int step = next.at < PORTS ? 1 : 8;
    for (int i = 0; i < PORTS; i++)
        if (f->stage[first + step * i] == RISING)
            stop(f, first + step * i, (uint8_t)next.at, next.high);
}

/* The pass over the demands is left out while even the least of them is out of reach. */
static void fill(const struct request *r, struct filling *f)
{
    uint64_t least = 0;
    start(r, f);
    for (struct next next = lowest(f); next.parts != 0; next = lowest(f)) {
        bool reached = least * f->base * next.parts <= next.high;
        if (!reached || !stop_met(r, f, next, &least))
            shut(f, next);
    }
}

static void rates(const struct request *r, const struct filling *f, uint64_t numerators[CELLS])
{
    for (int c = 0; c < CELLS; c++)
        numerators[c] = f->stage[c] < LIMITS ? f->level[f->stage[c]] : r->demands[c] * f->base;
}

uint64_t fill_request(const struct request *r, uint64_t numerators[CELLS])
{
    struct filling filling;
    fill(r, &filling);
    rates(r, &filling, numerators);
    return filling.base;
}
