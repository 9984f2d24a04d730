/* Three qubits over a bad line, from C. Three records make a GHZ state; they arrive late, early, repeated and with junk between.
 * Each is run once, in order, and the state is bit for bit what the records give when nothing goes wrong. A fourth measures; its
 * answer is lost, and its repeat tells the outcome again. The mark runs over the four, once each: a bench with another mark took other
 * records. */
#include <inttypes.h>
#include <stdio.h>
#include <string.h>

#include "gate_bench.h"

enum { QUBITS = 3, PLACES = 8, OWN = 7 };

struct message {
    uint8_t bytes[GATE_BENCH_RECORD_MOST];
    size_t size;
};

struct state {
    struct gate_bench_session session;
    double reals[PLACES];
    double imags[PLACES];
};

/* H for code 1 and X for code 2: second has a bit set for each control. A measurement for code 11: second is its outcome. */
static struct message record(uint32_t session, uint32_t number, uint32_t code, uint32_t target, uint32_t second) {
    uint32_t fields[GATE_BENCH_FIELDS] = {session, number, code, target, second, 0};
    double numbers[GATE_BENCH_NUMBERS] = {0};
    struct message out = {{0}, 0};
    out.size = gate_bench_write_record(fields, GATE_BENCH_FIELDS, numbers, GATE_BENCH_NUMBERS, out.bytes, sizeof out.bytes);
    return out;
}

static struct state start(void) {
    struct state s = {.reals = {1.0}};
    gate_bench_session_start(&s.session, QUBITS, OWN);
    return s;
}

static uint32_t deliver(struct state *s, const struct message *m) {
    return gate_bench_session_deliver(&s->session, m->bytes, m->size, s->reals, s->imags, PLACES);
}

static void arrive(struct state *s, const char *what, const struct message *m) {
    uint32_t answer = deliver(s, m);
    printf("%-34s ", what);
    if (answer == GATE_BENCH_TAKEN)
        printf("TAKEN");
    else if (answer < GATE_BENCH_AGAIN)
        printf("REFUSED %" PRIu32, answer);
    else if (answer < GATE_BENCH_AGAIN_VALUE_0)
        printf("AGAIN");
    else if (answer < GATE_BENCH_VALUE_0)
        printf("AGAIN VALUE %" PRIu32, answer - GATE_BENCH_AGAIN_VALUE_0);
    else
        printf("VALUE %" PRIu32, answer - GATE_BENCH_VALUE_0);
    printf(" COUNT %u\n", (unsigned)s->session.count);
}

static uint64_t bits(double x) {
    uint64_t b;
    memcpy(&b, &x, sizeof b);
    return b;
}

int main(void) {
    if (!gate_bench_environment_is_default()) {
        fputs("ghz: rounding or subnormals are not the processor's default: no bit can be compared\n", stderr);
        return 2;
    }
    struct message h = record(OWN, 0, 1, 0, 0);
    struct message x1 = record(OWN, 1, 2, 1, 1);
    struct message x2 = record(OWN, 2, 2, 2, 2);
    struct message m = record(OWN, 3, 11, 2, 1);
    struct message other = record(OWN + 1, 0, 2, 0, 0);
    struct message junk = {{0xde, 0xad, 0xbe, 0xef}, 4};
    struct message cut = x1;
    cut.size -= 1;

    struct state bad = start();
    arrive(&bad, "record 2, before 0 and 1", &x2);
    arrive(&bad, "record 0: H on 0", &h);
    arrive(&bad, "record 0 again", &h);
    arrive(&bad, "junk", &junk);
    arrive(&bad, "record 1 without its last byte", &cut);
    arrive(&bad, "record 2, still early", &x2);
    arrive(&bad, "another session's record", &other);
    arrive(&bad, "record 1: X on 1, controlled by 0", &x1);
    arrive(&bad, "record 0 once more", &h);
    arrive(&bad, "record 2: X on 2, controlled by 1", &x2);
    arrive(&bad, "record 2 again", &x2);
    for (int i = 0; i < PLACES; i++)
        printf("A %d %.6f %016" PRIx64 " %.6f %016" PRIx64 "\n", i, bad.reals[i], bits(bad.reals[i]), bad.imags[i], bits(bad.imags[i]));
    arrive(&bad, "record 3: 2 measured, 1 forced", &m);
    arrive(&bad, "record 3 again, the answer lost", &m);
    arrive(&bad, "record 2 once more", &x2);
    printf("the value that the session keeps: %d\n", gate_bench_session_value(&bad.session));
    printf("the mark over the four records: %08" PRIx32 "\n", bad.session.mark);

    struct state good = start();
    deliver(&good, &h);
    deliver(&good, &x1);
    deliver(&good, &x2);
    deliver(&good, &m);
    int same = memcmp(&good.session, &bad.session, sizeof bad.session) == 0 &&
               memcmp(good.reals, bad.reals, sizeof bad.reals) == 0 && memcmp(good.imags, bad.imags, sizeof bad.imags) == 0;
    printf("the same records, once each and in order: %s\n", same ? "the same bits" : "OTHER BITS");
    return same ? 0 : 1;
}
