/* The two calls that write, lent rooms of every kind: none, a byte too few, exactly enough, and more. The buffer is longer than the
 * room that is named, so that a byte written behind it is seen. Usage: rooms REQUEST-FILE; the file has to be an accepted one.
 * Prints the listing as it came in a room that was exactly enough. */
#include <inttypes.h>
#include <stdio.h>
#include <stdlib.h>
#include <string.h>

#include "rate_plan.h"

#define MOST 4096
#define UNTOUCHED 0xA5
#define REFUSED(number, place) ((uint64_t)(number) << 32 | (place))

static uint8_t buffer[MOST];
static int faults;

static void expect(const char *call, size_t room, const char *what, uint64_t want, uint64_t got)
{
    if (want != got) {
        printf("rooms: %s, room %zu: %s %" PRIu64 " and not %" PRIu64 "\n", call, room, what, got, want);
        faults++;
    }
}

/* Where the untouched rest of the buffer begins: a byte that happens to be as before is no fault of a text or a file. */
static size_t rest(void)
{
    size_t end = MOST;
    while (end > 0 && buffer[end - 1] == UNTOUCHED) {
        end--;
    }
    return end;
}

/* The plan file's last byte is part of a check and the text's last a line feed: both differ from an untouched byte here. */
static void write_in(const uint8_t *request, size_t length, size_t room, uint64_t want, size_t changed)
{
    memset(buffer, UNTOUCHED, sizeof buffer);
    expect("rate_plan_write", room, "the verdict is", want, rate_plan_write(request, length, buffer, room));
    expect("rate_plan_write", room, "the bytes changed are", changed, rest());
}

static void list_in(const uint8_t *request, size_t length, size_t room, size_t want)
{
    memset(buffer, UNTOUCHED, sizeof buffer);
    expect("rate_plan_list", room, "the text's length is", want, rate_plan_list(request, length, buffer, room));
    expect("rate_plan_list", room, "the bytes changed are", want, rest());
}

/* A text of so many bytes, in each kind of room. */
static void list_in_all(const uint8_t *request, size_t length, size_t text)
{
    list_in(request, length, 0, 0);
    list_in(request, length, text - 1, 0);
    list_in(request, length, MOST, text);
    list_in(request, length, text + 1, text);
    list_in(request, length, text, text);
}

int main(int count, char **names)
{
    uint8_t request[RATE_PLAN_REQUEST_BYTES];
    FILE *file = count == 2 ? fopen(names[1], "rb") : NULL;
    if (file == NULL || fread(request, 1, sizeof request, file) != sizeof request) {
        fprintf(stderr, "usage: rooms REQUEST-FILE, a file of 512 bytes\n");
        return 2;
    }
    fclose(file);
    const size_t whole = sizeof request, plan = RATE_PLAN_PLAN_BYTES;
    write_in(request, whole, 0, REFUSED(16, 0), 0);
    write_in(request, whole, plan - 1, REFUSED(16, 0), 0);
    write_in(request, whole, plan, RATE_PLAN_ACCEPTED, plan);
    expect("rate_plan_check", plan, "the verdict is", RATE_PLAN_ACCEPTED, rate_plan_check(buffer, plan));
    write_in(request, whole, plan + 1, RATE_PLAN_ACCEPTED, plan);
    /* A file that is refused is so whatever the room, and its line is a text like others. */
    write_in(request, whole - 1, plan - 1, REFUSED(1, 0), 0);
    write_in(request, whole - 1, MOST, REFUSED(1, 0), 0);
    list_in_all(request, whole - 1, strlen("refused 1 0\n"));

    size_t text = (size_t)rate_plan_list(request, whole, buffer, MOST);
    list_in_all(request, whole, text);
    fwrite(buffer, 1, text, stdout);
    return faults == 0 && fflush(stdout) == 0 ? 0 : 1;
}
