/* Progressive filling in doubles, as one would write it without a need for exact rates: no check of the request, no least
   base, no reasons. All flows rise together, step by step, until each has its demand or a full port. */
#include "request.h"

#include <math.h>
#include <stdbool.h>
#include <string.h>

/* Rounding leaves a port that is full, or a demand that is met, not quite at 0. */
static const double NEAR = 1e-6;

struct filling {
    double left[LIMITS];
    int rising[LIMITS];
    double rate[CELLS];
    bool rises[CELLS];
};

static void start(const struct request *r, struct filling *f)
{
    memset(f->rising, 0, sizeof f->rising);
    for (int i = 0; i < PORTS; i++) {
        f->left[i] = r->inputs[i];
        f->left[PORTS + i] = r->outputs[i];
    }
    for (int c = 0; c < CELLS; c++) {
        f->rate[c] = 0;
        f->rises[c] = r->demands[c] > 0;
        f->rising[c / 8] += f->rises[c];
        f->rising[PORTS + c % 8] += f->rises[c];
    }
}

/* How far all can rise until a port fills or a demand is met. */
static double step(const struct request *r, const struct filling *f)
{
    double least = INFINITY;
    for (int l = 0; l < LIMITS; l++)
        if (f->rising[l] > 0 && f->left[l] / f->rising[l] < least)
            least = f->left[l] / f->rising[l];
    for (int c = 0; c < CELLS; c++)
        if (f->rises[c] && r->demands[c] - f->rate[c] < least)
            least = r->demands[c] - f->rate[c];
    return least;
}

static void rise(struct filling *f, double by)
{
    for (int c = 0; c < CELLS; c++)
        if (f->rises[c])
            f->rate[c] += by;
    for (int l = 0; l < LIMITS; l++)
        f->left[l] -= by * f->rising[l];
}

static bool stopped(const struct request *r, const struct filling *f, int c)
{
    return r->demands[c] - f->rate[c] <= NEAR || f->left[c / 8] <= NEAR || f->left[PORTS + c % 8] <= NEAR;
}

static void stop(const struct request *r, struct filling *f)
{
    for (int c = 0; c < CELLS; c++)
        if (f->rises[c] && stopped(r, f, c)) {
            f->rises[c] = false;
            f->rising[c / 8]--;
            f->rising[PORTS + c % 8]--;
        }
}

uint64_t planned(const struct request *request)
{
    struct filling filling;
    start(request, &filling);
    for (double by = step(request, &filling); by < INFINITY; by = step(request, &filling)) {
        rise(&filling, by);
        stop(request, &filling);
    }
    double sum = 0;
    for (int c = 0; c < CELLS; c++)
        sum += filling.rate[c];
    return (uint64_t)sum;
}
