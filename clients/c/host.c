/* A small host: calls lowline_solve on a job, on refused input and with buffers of several lengths, and prints what comes back. */
#include "lowline.h"

#include <stdio.h>
#include <string.h>

/* Size 1, matrix [2, 4], right side [1, 3]. */
static const uint8_t worked[] = {
    0x53, 0x5a, 0x01, 0x45, 0x4e, 0x00, 0x00, 0x00, 0x00, 0x02, 0x00, 0x00, 0x00, 0x04,
    0x45, 0x4e, 0x01, 0x00, 0x00, 0x00, 0x01, 0x00, 0x00, 0x00, 0x03, 0x5a, 0x5a,
};

/* Size 1, matrix [0, 1], right side [1, 1]: the pivot contains 0. */
static const uint8_t singular[] = {
    0x53, 0x5a, 0x01, 0x45, 0x4e, 0x00, 0x00, 0x00, 0x00, 0x00, 0x00, 0x00, 0x00, 0x01,
    0x45, 0x4e, 0x01, 0x00, 0x00, 0x00, 0x01, 0x00, 0x00, 0x00, 0x01, 0x5a, 0x5a,
};

enum { ROOM = 64, UNTOUCHED = 0xa5 };

static int64_t number_at(const uint8_t *bytes)
{
    uint64_t bits = 0;
    for (int i = 0; i < 8; i++) {
        bits = bits << 8 | bytes[i];
    }
    return (int64_t)bits;
}

static size_t changed_from(const uint8_t *bytes, size_t from)
{
    size_t changed = 0;
    for (size_t i = from; i < ROOM; i++) {
        if (bytes[i] != UNTOUCHED) {
            changed++;
        }
    }
    return changed;
}

static void call(const char *name, const uint8_t *job, size_t job_len, uint32_t component, uint32_t budget, size_t out_len)
{
    uint8_t out[ROOM];
    memset(out, UNTOUCHED, sizeof out);
    uint32_t answer = lowline_solve(job, job_len, component, budget, out, out_len);
    if (answer == 0) {
        printf("%s: low %lld, high %lld, waiting %lld, splits %lld, stop %lld, %zu later bytes changed\n", name,
               (long long)number_at(out), (long long)number_at(out + 8), (long long)number_at(out + 16),
               (long long)number_at(out + 24), (long long)number_at(out + 32), changed_from(out, LOWLINE_FRAME));
    } else {
        printf("%s: refused %u, %zu bytes changed\n", name, (unsigned)answer, changed_from(out, 0));
    }
}

int main(void)
{
    call("worked job", worked, sizeof worked, 1, 100, ROOM);
    call("budget 0", worked, sizeof worked, 1, 0, ROOM);
    call("budget 1, 40 bytes", worked, sizeof worked, 1, 1, 40);
    call("largest budget", worked, sizeof worked, 1, 4294967295u, ROOM);
    call("39 bytes", worked, sizeof worked, 1, 100, 39);
    call("no bytes", worked, sizeof worked, 1, 100, 0);
    call("component 0", worked, sizeof worked, 0, 100, ROOM);
    call("component 2", worked, sizeof worked, 2, 100, ROOM);
    call("largest component", worked, sizeof worked, 4294967295u, 100, ROOM);
    call("singular system", singular, sizeof singular, 1, 100, ROOM);
    call("cut job", worked, sizeof worked - 1, 1, 100, ROOM);
    call("cut job, 39 bytes", worked, sizeof worked - 1, 1, 100, 39);
    call("39 bytes, component 0", worked, sizeof worked, 0, 100, 39);
    call("no job", worked, 0, 1, 100, ROOM);
    return 0;
}
