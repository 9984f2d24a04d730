/* A stored stream in odd pieces, from C: pieces FILE prints what ./bench FILE prints, though the bytes come 7, 40, 1, 0 and 300 at a
 * time. The header is read here; all behind it goes to the archive as it comes. */
#include <inttypes.h>
#include <stdio.h>
#include <string.h>

#include "gate_bench.h"

enum { MOST_QUBITS = 11, MOST_PLACES = 2048, HEADER = 8 };

static double reals[MOST_PLACES], imags[MOST_PLACES];

static void print_answer(unsigned long index, uint32_t answer, unsigned count) {
    printf("D %lu ", index);
    if (answer == GATE_BENCH_TAKEN || answer >= GATE_BENCH_VALUE_0)
        printf("TAKEN");
    else if (answer < GATE_BENCH_AGAIN)
        printf("REFUSED %" PRIu32, answer);
    else
        printf("AGAIN");
    printf(" COUNT %u", count);
    if (answer >= GATE_BENCH_AGAIN_VALUE_0) /* 512 + v or 768 + v */
        printf(" VALUE %" PRIu32, answer % 256);
    printf("\n");
}

/* Every answer that a piece gives. */
static unsigned long take(struct gate_bench_stream *stream, const uint8_t *piece, size_t size, size_t places, unsigned long index) {
    size_t at = 0, used;
    for (;;) {
        uint32_t answer = gate_bench_stream_take(stream, piece + at, size - at, &used, reals, imags, places);
        at += used;
        if (answer >= GATE_BENCH_WAITING)
            return index;
        print_answer(index++, answer, stream->session.count);
    }
}

/* Which NaN it is no proof fixes: the rule book prints one. */
static uint64_t bits(double x) {
    uint64_t b = UINT64_C(0x7ff8000000000000);
    if (x == x)
        memcpy(&b, &x, sizeof b);
    return b;
}

static void print_state(size_t places) {
    for (size_t i = 0; i < places; i++)
        printf("A %zu %016" PRIx64 " %016" PRIx64 "\n", i, bits(reals[i]), bits(imags[i]));
}

int main(int argc, char **argv) {
    if (!gate_bench_environment_is_default()) {
        fputs("pieces: rounding or subnormals are not the processor's default: no bit can be compared\n", stderr);
        return 2;
    }
    static const size_t sizes[] = {7, 40, 1, 0, 300};
    uint8_t head[HEADER], piece[300];
    struct gate_bench_stream stream;
    FILE *in = argc == 2 ? fopen(argv[1], "rb") : NULL;
    if (in == NULL) {
        fputs("usage: pieces FILE\n", stderr);
        return 2;
    }
    if (fread(head, 1, HEADER, in) != HEADER || memcmp(head, "\x21\x00\x05", 3) != 0 || head[3] < 1 || head[3] > MOST_QUBITS) {
        puts("BAD HEADER");
        return 3;
    }
    uint32_t number = (uint32_t)head[4] << 24 | (uint32_t)head[5] << 16 | (uint32_t)head[6] << 8 | head[7];
    size_t places = (size_t)1 << head[3];
    gate_bench_stream_start(&stream, head[3], number);
    reals[0] = 1.0;
    unsigned long index = 0;
    for (size_t i = 0; !feof(in) && !ferror(in); i++) {
        size_t got = fread(piece, 1, sizes[i % 5], in);
        index = take(&stream, piece, got, places, index);
    }
    fclose(in);
    if (gate_bench_stream_is_cut(&stream))
        puts("CUT");
    print_state(places);
    printf("END %u MARK %08" PRIx32 "\n", (unsigned)stream.session.count, stream.session.mark);
    return 0;
}
