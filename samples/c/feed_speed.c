/* What feeding costs: nanoseconds for a byte of a stream of frames, fed in pieces of 1, 7, 97 and 4,096 bytes, against the same records delivered
 * whole, all in one run at n = 4. Best of 21 rounds each; the rounds take turns, so that what else the machine does falls on all alike. */
#define _POSIX_C_SOURCE 199309L
#include <stdio.h>
#include <stdlib.h>
#include <string.h>
#include <time.h>

#include "gate_bench.h"

enum { QUBITS = 4, PLACES = 16, RECORDS = 60000, ROUNDS = 21, WAYS = 5 };

static uint8_t stream[RECORDS * (GATE_BENCH_RECORD_MOST + 3)];
static uint32_t starts[RECORDS + 1];
static double reals[PLACES], imags[PLACES];

/* X, H, RX, U and P in turn, or X alone. */
static size_t make(int mixed) {
    static const uint32_t codes[] = {2, 1, 6, 9, 5};
    size_t at = 0;
    for (uint32_t i = 0; i < RECORDS; i++) {
        uint32_t fields[GATE_BENCH_FIELDS] = {7, i, mixed ? codes[i % 5] : 2, i % QUBITS, 0, 0};
        double numbers[GATE_BENCH_NUMBERS] = {0.6, 0.8, 0.8, 0.6, 0.6, 0.8, 0.8, 0.6};
        uint32_t size = gate_bench_write_record(fields, GATE_BENCH_FIELDS, numbers, GATE_BENCH_NUMBERS, stream + at + 3, GATE_BENCH_RECORD_MOST);
        starts[i] = (uint32_t)at;
        stream[at] = 0x20;
        stream[at + 1] = (uint8_t)(size >> 8);
        stream[at + 2] = (uint8_t)size;
        at += 3 + size;
    }
    starts[RECORDS] = (uint32_t)at;
    return at;
}

static void reset(void) {
    memset(reals, 0, sizeof reals);
    memset(imags, 0, sizeof imags);
    reals[0] = 1.0;
}

static uint32_t deliver_all(void) {
    struct gate_bench_session session;
    uint32_t sum = 0;
    gate_bench_session_start(&session, QUBITS, 7);
    for (uint32_t i = 0; i < RECORDS; i++)
        sum += gate_bench_session_deliver(&session, stream + starts[i] + 3, starts[i + 1] - starts[i] - 3, reals, imags, PLACES);
    return sum + session.count + session.mark;
}

static uint32_t feed_all(size_t size, size_t piece) {
    struct gate_bench_stream feed;
    uint32_t sum = 0;
    gate_bench_stream_start(&feed, QUBITS, 7);
    for (size_t at = 0; at < size; at += piece) {
        size_t end = at + piece < size ? at + piece : size;
        size_t from = at, used;
        uint32_t answer;
        while ((answer = gate_bench_stream_take(&feed, stream + from, end - from, &used, reals, imags, PLACES)) < GATE_BENCH_WAITING) {
            sum += answer;
            from += used;
        }
    }
    return sum + feed.session.count + feed.session.mark;
}

static double now(void) {
    struct timespec t;
    clock_gettime(CLOCK_MONOTONIC, &t);
    return (double)t.tv_sec * 1e9 + (double)t.tv_nsec;
}

static int measure(const char *what, int mixed) {
    static const size_t pieces[WAYS] = {0, 1, 7, 97, 4096};
    double best[WAYS], first[PLACES] = {0};
    uint32_t said = 0;
    size_t size = make(mixed);
    int same = 1;
    for (int round = 0; round < ROUNDS; round++)
        for (int way = 0; way < WAYS; way++) {
            reset();
            double start = now();
            uint32_t sum = pieces[way] == 0 ? deliver_all() : feed_all(size, pieces[way]);
            double took = now() - start;
            if (round == 0 || took < best[way])
                best[way] = took;
            if (round == 0 && way == 0) {
                said = sum;
                memcpy(first, reals, sizeof first);
            }
            same &= sum == said && memcmp(first, reals, sizeof first) == 0;
        }
    printf("%s: %d records, %zu bytes; whole deliveries %.1f ns a record, %.3f ns a byte\n", what, RECORDS, size, best[0] / RECORDS, best[0] / (double)size);
    for (int way = 1; way < WAYS; way++)
        printf("  pieces of %4zu: %.3f ns a byte, %.2f of the deliveries\n", pieces[way], best[way] / (double)size, best[way] / best[0]);
    return same;
}

int main(void) {
    int same = measure("X alone", 0);
    same &= measure("X, H, RX, U, P", 1);
    puts(same ? "the same answers, counts, marks and buffers every way" : "THE WAYS DIFFER");
    return same ? 0 : 1;
}
