/* The rate planner's calls for programs in C.
 *
 * Files are rows of bytes: a request file has 512, a plan file 1,536 (docs/FORMAT.md). Every call takes any bytes of any length,
 * ends, and reads and writes only what it is lent: bytes from each pointer on, as many as the length beside it says. No pointer
 * may be null, not even where the length is 0, and a buffer that is written may not overlap what is read.
 *
 * The library is proved to answer as is said here, given that; link it as README.md shows.
 */
#ifndef RATE_PLAN_H
#define RATE_PLAN_H

#include <stddef.h>
#include <stdint.h>

#ifdef __cplusplus
extern "C" {
#endif

/* Lengths in bytes. A listing is never longer than the last. */
#define RATE_PLAN_REQUEST_BYTES 512
#define RATE_PLAN_PLAN_BYTES 1536
#define RATE_PLAN_TEXT_BYTES 2144

/* A verdict is one number: 0 if the file is accepted, otherwise the refusal's number times 2^32 plus its place.
 * docs/RULES.md has the table of refusals: which number says what, and what its place counts. */
#define RATE_PLAN_ACCEPTED UINT64_C(0)
#define RATE_PLAN_NUMBER(verdict) ((uint32_t)((verdict) >> 32))
#define RATE_PLAN_PLACE(verdict) ((uint32_t)(verdict))

/* The verdict on a request file: refusals 1 to 7. */
uint64_t rate_plan_read(const uint8_t *request, size_t length);

/* Works out the plan of a request file and writes the plan file into the first 1,536 bytes of a buffer of `room` bytes: refusals
 * 1 to 7, then 16 if the room is too short. Bytes after the file are kept; on a refusal all are. */
uint64_t rate_plan_write(const uint8_t *request, size_t length, uint8_t *plan, size_t room);

/* The verdict on a plan file: refusals 1 to 15. Accepted means that its rates are the max-min fair ones of its request, and its
 * reasons right. */
uint64_t rate_plan_check(const uint8_t *plan, size_t length);

/* What to load: 1 for the proposed file if it is accepted, otherwise 2 for the running file if that is, otherwise 0 for neither.
 * The plan is the last 1,024 bytes of the file. */
uint64_t rate_plan_choose(const uint8_t *proposed, size_t length, const uint8_t *running, size_t running_length);

/* Writes the listing of a request file's plan, or the line that says why the file is refused, into a buffer of `room` bytes, and
 * returns how many bytes the text has. 0 if the room is too short; then nothing is written. Bytes after the text are kept. */
uint64_t rate_plan_list(const uint8_t *request, size_t length, uint8_t *text, size_t room);

#ifdef __cplusplus
}
#endif

#endif
