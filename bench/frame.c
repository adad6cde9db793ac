/* The frame of the C programs: reads what the program measure reads, plans it as often, and prints a digest likewise. What else
 * measure can do is nothing to it, so the upper half of the first word is not looked at. */
#include "request.h"

#include <inttypes.h>
#include <stdbool.h>
#include <stdio.h>
#include <string.h>

enum { INPUT = 65536, BLOCK = 512, WORDS = 128, SPARE = 83, MOST_ROUNDS = 1000 };

static unsigned char input[INPUT];

static uint32_t word(const unsigned char *bytes, int i)
{
    const unsigned char *b = bytes + 4 * i;
    return b[0] | (uint32_t)b[1] << 8 | (uint32_t)b[2] << 16 | (uint32_t)b[3] << 24;
}

/* What a reader of request files looks at apart from the request's numbers: the check, the kind and the spare words. */
static bool well_formed(const unsigned char *block)
{
    uint32_t sum = 1;
    uint32_t spare = 0;
    for (int i = 0; i < WORDS - 1; i++) {
        sum = (sum << 1 | sum >> 31) + word(block, i);
        if (i >= SPARE)
            spare |= word(block, i);
    }
    return sum == word(block, WORDS - 1) && word(block, 0) == 1 && spare == 0;
}

/* A refused file gives zeros, which a planner refuses too. */
static void read_request(const unsigned char *block, struct request *request)
{
    memset(request, 0, sizeof *request);
    if (!well_formed(block))
        return;
    request->m = word(block, 1);
    request->n = word(block, 2);
    for (int i = 0; i < PORTS; i++) {
        request->inputs[i] = word(block, 3 + i);
        request->outputs[i] = word(block, 11 + i);
    }
    for (int c = 0; c < CELLS; c++)
        request->demands[c] = word(block, 19 + c);
}

int main(void)
{
    size_t length = fread(input, 1, INPUT, stdin);
    uint64_t digest = 0;
    if (length >= 4 + BLOCK) {
        uint32_t asked = word(input, 0) % 65536;
        uint32_t rounds = asked < MOST_ROUNDS ? asked : MOST_ROUNDS;
        for (size_t at = 4; at + BLOCK <= length; at += BLOCK) {
            struct request request;
            read_request(input + at, &request);
            for (uint32_t i = 0; i < rounds; i++)
                digest = 3 * digest + planned(&request);
        }
    }
    printf("%" PRIu64 "\n", digest);
    return 0;
}
