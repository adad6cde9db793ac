/* What a switch's firmware does with a request: works the plan out, checks the file that came of it, chooses between it and the
 * plan that is running, and prints the listing. With -o the new plan file is saved; later it can be given as the running one.
 *
 * Usage: load [-o NEW-PLAN-FILE] REQUEST-FILE [RUNNING-PLAN-FILE]
 * Exit status: 0; 1 if a plan is to be saved and the request has none; 2 if something could not be read or written. */
#include <errno.h>
#include <inttypes.h>
#include <stdio.h>
#include <stdlib.h>
#include <string.h>

#include "rate_plan.h"

/* What cannot be read or written is named, and ends the program: it is no file that the planner could judge. */
static void failed(const char *name)
{
    fprintf(stderr, "load: %s: %s\n", name, strerror(errno));
    exit(2);
}

/* Reads at most one byte more than a file of this kind has, so that one too long is refused and not cut. */
static size_t read_file(const char *name, uint8_t *bytes, size_t most)
{
    FILE *file = fopen(name, "rb");
    if (file == NULL) {
        failed(name);
    }
    size_t length = fread(bytes, 1, most, file);
    if (ferror(file)) {
        failed(name);
    }
    fclose(file);
    return length;
}

static void write_file(const char *name, const uint8_t *bytes, size_t length)
{
    FILE *file = fopen(name, "wb");
    if (file == NULL || fwrite(bytes, 1, length, file) != length || fclose(file) != 0) {
        failed(name);
    }
}

static void say(const char *what, uint64_t verdict)
{
    if (verdict == RATE_PLAN_ACCEPTED) {
        printf("%s: accepted\n", what);
    } else {
        printf("%s: refused %" PRIu32 " %" PRIu32 "\n", what, RATE_PLAN_NUMBER(verdict), RATE_PLAN_PLACE(verdict));
    }
}

static const char *chosen(uint64_t choice)
{
    return choice == 1 ? "the proposed plan" : choice == 2 ? "the running plan" : "neither";
}

int main(int count, char **words)
{
    uint8_t request[RATE_PLAN_REQUEST_BYTES + 1];
    uint8_t plan[RATE_PLAN_PLAN_BYTES] = {0};
    uint8_t running[RATE_PLAN_PLAN_BYTES + 1] = {0};
    uint8_t text[RATE_PLAN_TEXT_BYTES];
    int saving = count > 1 && strcmp(words[1], "-o") == 0;
    char **files = words + (saving ? 3 : 1);
    int given = count - (saving ? 3 : 1);
    if (given < 1 || given > 2) {
        fprintf(stderr, "usage: load [-o NEW-PLAN-FILE] REQUEST-FILE [RUNNING-PLAN-FILE]\n");
        return 2;
    }
    size_t length = read_file(files[0], request, sizeof request);
    size_t running_length = given == 2 ? read_file(files[1], running, sizeof running) : 0;

    say("request", rate_plan_read(request, length));
    uint64_t written = rate_plan_write(request, length, plan, sizeof plan);
    say("plan written", written);
    say("plan checked", rate_plan_check(plan, sizeof plan));
    printf("load: %s\n", chosen(rate_plan_choose(plan, sizeof plan, running, running_length)));
    fwrite(text, 1, (size_t)rate_plan_list(request, length, text, sizeof text), stdout);
    if (fflush(stdout) != 0 || ferror(stdout)) {
        failed("standard output");
    }
    if (saving && written != RATE_PLAN_ACCEPTED) {
        fprintf(stderr, "load: %s has no plan, and %s is not written\n", files[0], words[2]);
        return 1;
    }
    if (saving) {
        write_file(words[2], plan, sizeof plan);
    }
    return 0;
}
