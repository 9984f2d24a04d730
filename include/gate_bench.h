/* The gate bench for C: the calls of libc_api.a, which `rt lib` in crates/c_api writes to crates/c_api/out/.
 *
 * Every call takes any numbers and any bytes, ends, and answers with one number:
 *   0         taken
 *   1 to 255  refused, with the rule book's number; then nothing has changed. This archive gives 1 to 12
 *             (GATE_BENCH_REFUSED_...), a later one may give more
 *   256       AGAIN: a delivery's record was run before, and nothing has changed; no value is told
 *   512 + v   AGAIN likewise: the record was the last one taken, and its value was v (0 or 1)
 *   768 + v   taken, with the value v (0 or 1) of a measurement or a bit flip
 *   1024      gate_bench_feed alone: no frame is complete yet; 1025: and none will be, a wrong tag came
 * So a caller asks in this order: 0 taken, below 256 refused, below 768 AGAIN (from 512 on with a value), below 1024 a value.
 * A record's writing alone answers with a size (see there).
 * A state of n qubits is two buffers of 2^n doubles, real and imaginary parts; a matrix two of 4^n, row by row.
 * A slice is passed as a pointer and a length in elements. What the caller answers for: each pointer is not NULL and is aligned,
 * what it points to is there, a slice with all its elements, nothing that a call writes overlaps another of its buffers, and no
 * other thread touches them meanwhile. And the thread that calls has the processor's floating-point settings as a program starts
 * with them: rounding to nearest, subnormals kept. A program linked with -ffast-math, or one that called fesetround, may have
 * others, and then results differ: gate_bench_environment_is_default() tells. Everything else is proved (crates/c_api): each
 * call's number and every place that it writes, up to a NaN's payload, which no proof fixes.
 * Link with the archive alone; it calls nothing but itself. It is x86-64 code. */
#ifndef GATE_BENCH_H
#define GATE_BENCH_H

#include <stddef.h>
#include <stdint.h>
#include <string.h>

#ifdef __cplusplus
extern "C" {
#endif

enum gate_bench_answer {
    GATE_BENCH_TAKEN = 0,
    GATE_BENCH_REFUSED_SIZE = 1,
    GATE_BENCH_REFUSED_LENGTH = 2,
    GATE_BENCH_REFUSED_QUBIT = 3,
    GATE_BENCH_REFUSED_SAME = 4,
    GATE_BENCH_REFUSED_FORM = 5,
    GATE_BENCH_REFUSED_NUMBER = 6,
    GATE_BENCH_REFUSED_CHANCE = 7,
    GATE_BENCH_REFUSED_RECORD = 8,
    GATE_BENCH_REFUSED_SESSION = 9,
    GATE_BENCH_REFUSED_EARLY = 10,
    GATE_BENCH_REFUSED_FULL = 11,
    GATE_BENCH_REFUSED_ROOM = 12,
    GATE_BENCH_AGAIN = 256,
    GATE_BENCH_AGAIN_VALUE_0 = 512,
    GATE_BENCH_AGAIN_VALUE_1 = 513,
    GATE_BENCH_VALUE_0 = 768,
    GATE_BENCH_VALUE_1 = 769,
    GATE_BENCH_WAITING = 1024,
    GATE_BENCH_STOPPED = 1025
};

/* ---- sessions */

/* A session is eight words that the caller keeps: always 32 bytes, in later archives too. They may be saved with the state's
 * buffers, and go on with them later. Any eight words are a session: of count the low 16 bits are looked at, of value - 1 the
 * low 8, and any word is a mark. A call that takes no record leaves all eight as they were.
 *
 * The mark is for comparing two benches without reading their logs. It starts at 0. For each byte of each record that is taken
 * it is turned left by 5, in 32 bits, and the byte is added, dropping any carry out of 32 bits: bytes 01 02 give 34, which is 22
 * in hex. The bytes are the record's, with its session and number, and not the frame's tag and length. Repeats and refusals do
 * not move it.
 * Different marks show that the lists of records taken differ. Equal marks prove nothing: as record 0 of session 7, X on qubit 0
 * with control 5 (mask 00000020) and X on qubit 0 with control 8 (mask 00000100) both leave 55900256, since 01 turned left by 5
 * is 20; with the same records behind each, the two lists have one mark.
 * In earlier headers this word is later[0]. A caller compiled with one goes on, if it began its words with gate_bench_start or
 * with 0 there; a session saved from an earlier archive has a mark over what it took since. */
struct gate_bench_session {
    uint32_t n;        /* qubits; never changes */
    uint32_t number;   /* the session's number; never changes */
    uint32_t count;    /* how many records were taken */
    uint32_t value;    /* of the last record taken: 0 for none, v + 1 for a value v */
    uint32_t mark;     /* over the bytes of all records taken */
    uint32_t later[3]; /* for later archives: 0 at the start; no call of this one looks at them */
};

/* If this does not compile, the struct has not 32 bytes. */
typedef char gate_bench_session_has_32_bytes[sizeof(struct gate_bench_session) == 32 ? 1 : -1];

/* The value of the last record taken, which AGAIN tells; -1 if it has none, or if no record was taken. */
static inline int gate_bench_session_value(const struct gate_bench_session *session) {
    return session->value == 0 ? -1 : (int)((session->value - 1) & 255u);
}

/* 0 where a session of n qubits can start (n 1 to 24), and then all eight words are written: n, number, and six times 0. Else 1,
 * and none is. */
uint32_t gate_bench_start(struct gate_bench_session *session, uint32_t n, uint32_t number);

/* One delivery: the bytes are read as a record and, if its number is the count, run on the state; the count is then one higher,
 * the value is the record's, and the mark has run over its bytes. A lower number answers AGAIN: count - 1 tells the value, if
 * there is one, whatever else the bytes say; older ones tell none. A higher number answers 10. Refusals in the order 1, 2, 8, 9,
 * 11, (AGAIN), 10, 3 to 7. */
uint32_t gate_bench_deliver(struct gate_bench_session *session, const uint8_t *bytes, size_t bytes_len, double *reals,
                            size_t reals_len, double *imags, size_t imags_len);

/* ---- bytes as they come, from a socket or a serial line */

/* The most bytes of a frame that are held between two calls. */
#define GATE_BENCH_HELD 97

/* A stream of frames (20, a length of two bytes, a record) in pieces of any size: nothing, a part of a frame, or several frames
 * and a part. A call uses the piece up to the end of the first frame that it completes, delivers that as gate_bench_deliver does,
 * and answers the same; *used says how many bytes it took, and those behind are for the next call. Where the piece completes no
 * frame all of it is used: 1024, or 1025 behind a wrong tag, where no later byte changes anything. A frame over 94 bytes is read
 * past and answered 8 when its last byte has come. Between two calls the caller keeps the session, *kept, 0 at first, and the 97
 * bytes at held, whose first contents do not matter; a frame that stands whole in its piece is delivered from there. If the input
 * ends while *kept is not 0, it was cut inside a frame or had a wrong tag. */
uint32_t gate_bench_feed(struct gate_bench_session *session, uint32_t *kept, uint8_t *held, const uint8_t *piece,
                         size_t piece_len, size_t *used, double *reals, size_t reals_len, double *imags, size_t imags_len);

/* ---- gates: ones has a bit set for each control */

/* s0 and s1 exchanged; any number of controls. */
uint32_t gate_bench_x_apply(double *reals, size_t reals_len, double *imags, size_t imags_len, uint32_t n, uint32_t target,
                            uint32_t ones);
/* Y; up to one control. */
uint32_t gate_bench_y_apply(double *reals, size_t reals_len, double *imags, size_t imags_len, uint32_t n, uint32_t target,
                            uint32_t ones);
/* Z; no controls. */
uint32_t gate_bench_z_apply(double *reals, size_t reals_len, double *imags, size_t imags_len, uint32_t n, uint32_t target,
                            uint32_t ones);
/* Hadamard; up to one control. */
uint32_t gate_bench_h_apply(double *reals, size_t reals_len, double *imags, size_t imags_len, uint32_t n, uint32_t target,
                            uint32_t ones);
/* Phase, from cosine and sine of the angle; any number of controls. */
uint32_t gate_bench_p_apply(double *reals, size_t reals_len, double *imags, size_t imags_len, uint32_t n, uint32_t target,
                            uint32_t ones, double cosine, double sine);
/* Rotation about x, from cosine and sine of the half angle; any number of controls. */
uint32_t gate_bench_rx_apply(double *reals, size_t reals_len, double *imags, size_t imags_len, uint32_t n, uint32_t target,
                            uint32_t ones, double cosine, double sine);
/* Rotation about y, from cosine and sine of the half angle; any number of controls. */
uint32_t gate_bench_ry_apply(double *reals, size_t reals_len, double *imags, size_t imags_len, uint32_t n, uint32_t target,
                            uint32_t ones, double cosine, double sine);
/* Rotation about z, from cosine and sine of the half angle; up to one control. */
uint32_t gate_bench_rz_apply(double *reals, size_t reals_len, double *imags, size_t imags_len, uint32_t n, uint32_t target,
                            uint32_t ones, double cosine, double sine);
/* U, from its eight numbers: cosine and sine of theta/2, lambda, phi + lambda and phi; up to one control. */
uint32_t gate_bench_u_apply(double *reals, size_t reals_len, double *imags, size_t imags_len, uint32_t n, uint32_t target,
                            uint32_t ones, double ct, double st, double cl, double sl, double cpl, double spl, double cp,
                            double sp);
/* The qubits t0 and t1 exchanged. */
uint32_t gate_bench_swap_apply(double *reals, size_t reals_len, double *imags, size_t imags_len, uint32_t n, uint32_t t0,
                            uint32_t t1);
/* X if draw <= prob, else nothing; the value is 1 if X ran. */
uint32_t gate_bench_bit_flip_noise_apply(double *reals, size_t reals_len, double *imags, size_t imags_len, uint32_t n,
                            uint32_t target, double prob, double draw);

/* A measurement whose outcome (0 or 1) is forced; with reset 1 the qubit is set back to 0. The value is the outcome. Its
 * probability is the sum of the squares over its own half of the places; where that is 0, as in a half of zeros, or not
 * finite: 7. */
uint32_t gate_bench_measure_qubit(double *reals, size_t reals_len, double *imags, size_t imags_len, uint32_t n, uint32_t target,
                            uint8_t outcome, uint8_t reset);

/* ---- the slow engine: the gates once more, as text that can be held beside the rule book, for acceptance days */

/* A gate from input buffers, sr and si, into output buffers, reals and imags, each place worked out by itself in the book's
 * words: no pairs, no blocks. A call answers as the gate's call above does, and leaves in the outputs what that one leaves in its
 * buffers, bit for bit, whatever the inputs hold; one NaN counts as another. A bit flip that does not run copies. The inputs are
 * not touched. The outputs must have 2^n places too: that is tested with the inputs, so it answers 2 before 3. A refusal leaves
 * the outputs untouched. No output may overlap another of the four buffers. It is slower than the calls above. Measuring has no
 * call here: its one kernel serves. */
uint32_t gate_bench_slow_x_apply(const double *sr, size_t sr_len, const double *si, size_t si_len, double *reals,
                            size_t reals_len, double *imags, size_t imags_len, uint32_t n, uint32_t target, uint32_t ones);
uint32_t gate_bench_slow_y_apply(const double *sr, size_t sr_len, const double *si, size_t si_len, double *reals,
                            size_t reals_len, double *imags, size_t imags_len, uint32_t n, uint32_t target, uint32_t ones);
uint32_t gate_bench_slow_z_apply(const double *sr, size_t sr_len, const double *si, size_t si_len, double *reals,
                            size_t reals_len, double *imags, size_t imags_len, uint32_t n, uint32_t target, uint32_t ones);
uint32_t gate_bench_slow_h_apply(const double *sr, size_t sr_len, const double *si, size_t si_len, double *reals,
                            size_t reals_len, double *imags, size_t imags_len, uint32_t n, uint32_t target, uint32_t ones);
uint32_t gate_bench_slow_p_apply(const double *sr, size_t sr_len, const double *si, size_t si_len, double *reals,
                            size_t reals_len, double *imags, size_t imags_len, uint32_t n, uint32_t target, uint32_t ones,
                            double cosine, double sine);
uint32_t gate_bench_slow_rx_apply(const double *sr, size_t sr_len, const double *si, size_t si_len, double *reals,
                            size_t reals_len, double *imags, size_t imags_len, uint32_t n, uint32_t target, uint32_t ones,
                            double cosine, double sine);
uint32_t gate_bench_slow_ry_apply(const double *sr, size_t sr_len, const double *si, size_t si_len, double *reals,
                            size_t reals_len, double *imags, size_t imags_len, uint32_t n, uint32_t target, uint32_t ones,
                            double cosine, double sine);
uint32_t gate_bench_slow_rz_apply(const double *sr, size_t sr_len, const double *si, size_t si_len, double *reals,
                            size_t reals_len, double *imags, size_t imags_len, uint32_t n, uint32_t target, uint32_t ones,
                            double cosine, double sine);
uint32_t gate_bench_slow_u_apply(const double *sr, size_t sr_len, const double *si, size_t si_len, double *reals,
                            size_t reals_len, double *imags, size_t imags_len, uint32_t n, uint32_t target, uint32_t ones,
                            double ct, double st, double cl, double sl, double cpl, double spl, double cp, double sp);
uint32_t gate_bench_slow_swap_apply(const double *sr, size_t sr_len, const double *si, size_t si_len, double *reals,
                            size_t reals_len, double *imags, size_t imags_len, uint32_t n, uint32_t t0, uint32_t t1);
uint32_t gate_bench_slow_bit_flip_noise_apply(const double *sr, size_t sr_len, const double *si, size_t si_len, double *reals,
                            size_t reals_len, double *imags, size_t imags_len, uint32_t n, uint32_t target, double prob,
                            double draw);

/* ---- matrices of side 2^n, n from 1 to 6 */

/* The matrix of a gate on the target, from the gate's own four entries, row by row. */
uint32_t gate_bench_from_single_qubit_gate(double *reals, size_t reals_len, double *imags, size_t imags_len, uint32_t n,
                            uint32_t target, double re00, double im00, double re01, double im01, double re10, double im10,
                            double re11, double im11);
/* The conjugate transpose, in place. */
uint32_t gate_bench_conj_t(double *reals, size_t reals_len, double *imags, size_t imags_len, uint32_t n);
/* A times B, into buffers of their own. */
uint32_t gate_bench_multiply(const double *ar, size_t ar_len, const double *ai, size_t ai_len, const double *br, size_t br_len,
                            const double *bi, size_t bi_len, double *reals, size_t reals_len, double *imags, size_t imags_len,
                            uint32_t n);
/* A times the state S, into buffers of their own. */
uint32_t gate_bench_apply_unitary(const double *ar, size_t ar_len, const double *ai, size_t ai_len, const double *sr,
                            size_t sr_len, const double *si, size_t si_len, double *reals, size_t reals_len, double *imags,
                            size_t imags_len, uint32_t n);

/* ---- records: six whole numbers and eight doubles. What a gate does not have is read as 0, and not looked at on writing */

enum gate_bench_field {
    GATE_BENCH_FIELD_SESSION = 0,
    GATE_BENCH_FIELD_NUMBER = 1,
    GATE_BENCH_FIELD_CODE = 2,   /* H 1, X 2, Y 3, Z 4, P 5, RX 6, RY 7, RZ 8, U 9, SWAP 10, measurement 11, bit flip 12 */
    GATE_BENCH_FIELD_TARGET = 3,
    GATE_BENCH_FIELD_SECOND = 4, /* the controls' mask; SWAP's second qubit; a measurement's outcome */
    GATE_BENCH_FIELD_RESET = 5,  /* a measurement's reset */
    GATE_BENCH_FIELDS = 6,
    GATE_BENCH_NUMBERS = 8,      /* U's eight; else cosine and sine, or prob and draw, in the first two */
    GATE_BENCH_RECORD_MOST = 94  /* bytes of the longest record, U's */
};

/* The bytes as a record, into the first six fields and the first eight numbers. 8 if they are no record, and then 12 if fewer
 * places are lent. */
uint32_t gate_bench_read_record(const uint8_t *bytes, size_t bytes_len, uint32_t *fields, size_t fields_len, double *numbers,
                            size_t numbers_len);
/* The record's bytes, into the first places of out: answers how many (24 to 94), and below 24 with a refusal. 8 if there are
 * fewer than six fields or eight numbers, or the code is not 1 to 12, or the number is above 65535, or the target, SWAP's
 * second qubit, an outcome or a reset above 255; and then 12 if out is too short. */
uint32_t gate_bench_write_record(const uint32_t *fields, size_t fields_len, const double *numbers, size_t numbers_len,
                            uint8_t *out, size_t out_len);

/* ---- numbers */

/* F: x*y + z, rounded once. Where it is a NaN, it is 7FF8000000000000; so is the root's. */
double gate_bench_fused(double x, double y, double z);
/* The square root, rounded once. */
double gate_bench_root(double x);

/* ---- what the processor is set to, for the thread that calls */

static inline double gate_bench_double_of(uint64_t bits) {
    double x;
    memcpy(&x, &bits, sizeof x);
    return x;
}

static inline int gate_bench_has_bits(double x, uint64_t bits) { return memcmp(&x, &bits, sizeof x) == 0; }

/* 1 where sums are rounded to nearest and subnormals are kept, as operands and as results: what every promise here rests on.
 * Else 0. The operands are volatile, so that it is the processor that answers, whatever the compiler was told it may assume. */
static inline int gate_bench_environment_is_default(void) {
    volatile double one = 1.0;
    volatile double quarter = gate_bench_double_of(0x3C90000000000000u);       /* 2^-54, a quarter of 1's last place */
    volatile double three_quarters = gate_bench_double_of(0x3CA8000000000000u);
    volatile double least_normal = gate_bench_double_of(0x0010000000000000u);  /* 2^-1022 */
    volatile double least = gate_bench_double_of(1u);                          /* 2^-1074 */
    volatile double half = 0.5;
    volatile double greatest_power = gate_bench_double_of(0x7FE0000000000000u); /* 2^1023 */
    volatile double rounded_down = one + quarter;
    volatile double rounded_up = one + three_quarters;
    volatile double result = least_normal * half;
    volatile double operand = least * greatest_power;
    return gate_bench_has_bits(rounded_down, 0x3FF0000000000000u) && gate_bench_has_bits(rounded_up, 0x3FF0000000000001u) &&
           gate_bench_has_bits(result, 0x0008000000000000u) && gate_bench_has_bits(operand, 0x3CC0000000000000u);
}

/* ---- for convenience: a session whose state has `places` places in each buffer */

/* 0 and a session that took no record, or 1 and the session as it was. */
static inline uint32_t gate_bench_session_start(struct gate_bench_session *session, uint32_t n, uint32_t number) {
    return gate_bench_start(session, n, number);
}

/* One delivery. */
static inline uint32_t gate_bench_session_deliver(struct gate_bench_session *session, const uint8_t *bytes, size_t bytes_len,
                                                  double *reals, double *imags, size_t places) {
    return gate_bench_deliver(session, bytes, bytes_len, reals, places, imags, places);
}

/* ---- for convenience: a stream, its session and what is kept of it between two pieces */

struct gate_bench_stream {
    struct gate_bench_session session;
    uint32_t kept;
    uint8_t held[GATE_BENCH_HELD];
};

/* 0 and a stream of which nothing has come, or 1 and the stream as it was. */
static inline uint32_t gate_bench_stream_start(struct gate_bench_stream *stream, uint32_t n, uint32_t number) {
    uint32_t answer = gate_bench_session_start(&stream->session, n, number);
    if (answer == GATE_BENCH_TAKEN)
        stream->kept = 0;
    return answer;
}

/* The next answer that a piece gives; call again with the piece from *used on until it is 1024 or 1025. */
static inline uint32_t gate_bench_stream_take(struct gate_bench_stream *stream, const uint8_t *piece, size_t piece_len,
                                              size_t *used, double *reals, double *imags, size_t places) {
    return gate_bench_feed(&stream->session, &stream->kept, stream->held, piece, piece_len, used, reals, places, imags, places);
}

/* Whether an input that ends here is cut: inside a frame, or behind a wrong tag. */
static inline int gate_bench_stream_is_cut(const struct gate_bench_stream *stream) {
    return stream->kept != 0;
}

#ifdef __cplusplus
}
#endif
#endif
