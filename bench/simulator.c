// The same fabric in plain C: reads a configuration file of the second format and a text of samples, and writes a text of
// results. Written to be compared with the product's time, with code of its own and no proof.
//
//     simulator CONFIGURATION STRIPES < SAMPLES > RESULTS
//
// A stage whose columns read no output of their own stripe and have no test for zero is stepped by vectors of 16 bytes: byte
// shuffles gather the operands, tables are looked up bit by bit in all columns at once, and carries run in a mask of one bit
// for each column. Every other stage, and the fabric of 32 columns, is stepped column by column.
#include <stdint.h>
#include <stdio.h>
#include <stdlib.h>
#include <string.h>
#include <tmmintrin.h>

enum { MOST_COLUMNS = 32, MOST_REGISTERS = 16, MOST_ROW = (MOST_REGISTERS - 1) * MOST_COLUMNS, QUEUE = 16 };
enum { CONSTANT, PREVIOUS, HERE, STATE, BUS };
enum { NO_BIT, A_BIT, CARRY_IN };
enum { PLAIN, SUM, ZERO };
enum { FROM_ZERO, FROM_ONE, FROM_BELOW, FROM_C };
enum { KEEP, OUTPUT, OPERAND };

typedef unsigned __int128 Number;
typedef struct { uint16_t a, high, low, c; uint8_t table, mask, first, c_kind, c_place, write, next, carry, mode, shift; } Element;
// the bytes of one block of 16 of a row, or of the state (from < 0)
typedef struct { int from; __m128i picks; } Term;
typedef struct { __m128i known; Term terms[MOST_REGISTERS]; int count; } Gather;
typedef struct {
    Element elements[MOST_COLUMNS];
    uint8_t state[MOST_COLUMNS];
    int fast, has_low, has_c, has_sums, has_state;
    Gather a, high, low, c;
    __m128i tables, c_bit, one, from_c, sums, mask, to_output, to_operand, shift[2], marks[MOST_REGISTERS];
    uint32_t summing, chained;
} Stage;
typedef struct { uint8_t row[MOST_ROW + 16], state[MOST_COLUMNS]; int stage, valid; } Stripe;

static int columns, registers, row_bytes, inputs, outputs, stages, sample_bytes, result_bytes;
static int input_width[MOST_COLUMNS], output_width[64];
static uint16_t tap[64 * 16];
static Stage *stage;

static void refuse(const char *why) { fprintf(stderr, "simulator: %s\n", why); exit(1); }

// ---- the configuration
static uint8_t *file; static long file_size, file_at;
static uint32_t word(void) {
    if (file_at + 4 > file_size) refuse("the configuration is cut short");
    uint8_t *b = file + file_at; file_at += 4;
    return (uint32_t)b[0] << 24 | b[1] << 16 | b[2] << 8 | b[3];
}
static Element element(void) {
    uint32_t w0 = word(), w1 = word(), w2 = word(), w3 = word();
    return (Element){ .a = w0 >> 16, .high = w0, .low = w1 >> 16, .c = w1, .table = w2 >> 24, .mask = w2 >> 16, .first = w2 >> 8, .c_kind = w2 >> 4 & 15,
        .c_place = w2 & 15, .write = w3 >> 16, .next = w3 >> 12 & 15, .carry = w3 >> 8 & 15, .mode = w3 >> 4 & 15, .shift = w3 & 15 };
}
static void read_configuration(const char *path) {
    FILE *f = fopen(path, "rb"); if (!f) refuse("no configuration");
    fseek(f, 0, SEEK_END); file_size = ftell(f); rewind(f);
    file = malloc(file_size); if (fread(file, 1, file_size, f) != (size_t)file_size) refuse("no configuration"); fclose(f);
    if (word() != 0x50495032) refuse("not of the second format");
    uint32_t size = word(); columns = size >> 16; registers = size & 0xffff; row_bytes = (registers - 1) * columns;
    if (columns > MOST_COLUMNS || registers > MOST_REGISTERS) refuse("too large a fabric");
    stages = word(); inputs = word();
    for (int i = 0; i < inputs; i++) { input_width[i] = word(); sample_bytes += (input_width[i] + 7) / 8; }
    outputs = word();
    for (int i = 0; i < outputs; i++) { output_width[i] = word(); for (int k = 0; k < (output_width[i] + 7) / 8; k++) tap[result_bytes++] = word(); }
    stage = aligned_alloc(32, (sizeof(Stage) + 31) / 32 * 32 * stages); memset(stage, 0, sizeof(Stage) * stages);
    for (int s = 0; s < stages; s++) {
        uint32_t map = word();
        for (int k = 0; k < columns; k++) if (map >> k & 1) stage[s].elements[k] = element();
        for (int k = 0; k < columns; k++) stage[s].state[k] = stage[s].elements[k].first;
    }
}

// ---- preparing
static int kind(uint16_t source) { return source >> 12; }
static int place(uint16_t source) { return kind(source) == PREVIOUS ? ((source & 15) - 1) * columns + (source >> 4 & 255) : kind(source) == BUS ? source & 0xfff : source >> 4 & 255; }
static Gather gather_of(const uint16_t *sources) {
    Gather g; uint8_t known[16], picks[16]; g.count = 0;
    for (int k = 0; k < 16; k++) known[k] = kind(sources[k]) == CONSTANT ? sources[k] : 0;
    g.known = _mm_loadu_si128((void *)known);
    for (int from = -16; from < row_bytes; from += 16) {
        int any = 0;
        for (int k = 0; k < 16; k++) {
            int here = from < 0 ? kind(sources[k]) == STATE : kind(sources[k]) != CONSTANT && kind(sources[k]) != STATE && place(sources[k]) / 16 * 16 == from;
            picks[k] = here ? place(sources[k]) % 16 : 128; any |= here;
        }
        if (any) g.terms[g.count++] = (Term){ from, _mm_loadu_si128((void *)picks) };
    }
    return g;
}
static __m128i row_of(const uint8_t *bytes) { return _mm_loadu_si128((void *)bytes); }
static void prepare(Stage *s) {
    uint16_t a[16], high[16], low[16], c[16], shift[16]; uint8_t table[16], c_bit[16], one[16], from_c[16], sums[16], mask[16], out[16], operand[16], marks[16];
    s->fast = columns == 16;
    for (int k = 0; k < 16; k++) {
        Element *e = &s->elements[k];
        if (kind(e->a) == HERE || kind(e->high) == HERE || kind(e->low) == HERE || (e->c_kind == A_BIT && kind(e->c) == HERE) || e->c_kind == CARRY_IN || e->mode == ZERO) s->fast = 0;
        int bit = e->c_kind == A_BIT;
        a[k] = e->a; high[k] = e->high; low[k] = e->shift ? e->low : 0; c[k] = bit ? e->c : 0; shift[k] = 1 << e->shift;
        table[k] = e->table; c_bit[k] = bit ? 1 << e->c_place : 0; one[k] = e->carry == FROM_ONE; from_c[k] = e->carry == FROM_C ? 255 : 0;
        sums[k] = e->mode == SUM ? 255 : 0; mask[k] = e->mask; out[k] = e->next == OUTPUT ? 255 : 0; operand[k] = e->next == OPERAND ? 255 : 0;
        s->has_low |= e->shift != 0; s->has_c |= bit; s->has_sums |= e->mode == SUM; s->has_state |= e->next != KEEP;
        if (e->mode == SUM) s->summing |= 1u << k;
        if (e->mode == SUM && e->carry == FROM_BELOW && k > 0 && s->elements[k - 1].mode == SUM) s->chained |= 1u << k;
    }
    if (!s->fast) return;
    s->a = gather_of(a); s->high = gather_of(high); s->low = gather_of(low); s->c = gather_of(c);
    s->tables = row_of(table); s->c_bit = row_of(c_bit); s->one = row_of(one); s->from_c = row_of(from_c); s->sums = row_of(sums); s->mask = row_of(mask);
    s->to_output = row_of(out); s->to_operand = row_of(operand); s->shift[0] = row_of((void *)shift); s->shift[1] = row_of((void *)(shift + 8));
    for (int r = 1; r < registers; r++) { for (int k = 0; k < 16; k++) marks[k] = s->elements[k].write == r ? 255 : 0; s->marks[r - 1] = row_of(marks); }
}

// ---- one step
static inline __m128i choose(__m128i off, __m128i on, __m128i by) { return _mm_or_si128(_mm_andnot_si128(by, off), _mm_and_si128(on, by)); }
static inline __m128i gathered(const Gather *g, const uint8_t *row, __m128i state) {
    __m128i all = g->known;
    for (int k = 0; k < g->count; k++) all = _mm_or_si128(all, _mm_shuffle_epi8(g->terms[k].from < 0 ? state : row_of(row + g->terms[k].from), g->terms[k].picks));
    return all;
}
static inline __m128i spread(__m128i table, int bit) { __m128i b = _mm_set1_epi8(bit); return _mm_cmpeq_epi8(_mm_and_si128(table, b), b); }
static void step_fast(const Stage *s, uint8_t *own, uint8_t *state, const uint8_t *row, const uint8_t *before) {
    const __m128i zero = _mm_setzero_si128(), was = row_of(state);
    __m128i a = gathered(&s->a, row, was), b = gathered(&s->high, row, was), table = s->tables, one = s->one;
    if (s->has_low) {
        __m128i low = gathered(&s->low, row, was);
        __m128i w0 = _mm_srli_epi16(_mm_mullo_epi16(_mm_unpacklo_epi8(low, b), s->shift[0]), 8), w1 = _mm_srli_epi16(_mm_mullo_epi16(_mm_unpackhi_epi8(low, b), s->shift[1]), 8);
        b = _mm_packus_epi16(w0, w1);
    }
    if (s->has_c) {
        __m128i off = _mm_cmpeq_epi8(_mm_and_si128(gathered(&s->c, row, was), s->c_bit), zero);
        one = _mm_or_si128(one, _mm_andnot_si128(off, _mm_and_si128(s->from_c, _mm_set1_epi8(1))));
        table = choose(_mm_and_si128(_mm_srli_epi16(table, 4), _mm_set1_epi8(15)), table, off);
    }
    __m128i x = choose(choose(spread(table, 1), spread(table, 2), a), choose(spread(table, 4), spread(table, 8), a), b), result = x;
    if (s->has_sums) {
        __m128i sum = _mm_add_epi8(a, x), full = _mm_set1_epi8(-1);
        uint32_t makes = ~_mm_movemask_epi8(_mm_cmpeq_epi8(_mm_min_epu8(sum, a), a)) & s->summing, passes = _mm_movemask_epi8(_mm_cmpeq_epi8(sum, full)) & s->summing;
        uint32_t given = _mm_movemask_epi8(_mm_cmpgt_epi8(one, zero)), begins = makes | (passes & given);
        uint32_t through = passes & s->chained, all = begins | through, into = (((all + begins) ^ all ^ begins) & s->chained) | given;
        const __m128i pick = _mm_setr_epi8(0, 0, 0, 0, 0, 0, 0, 0, 1, 1, 1, 1, 1, 1, 1, 1), bit = _mm_setr_epi8(1, 2, 4, 8, 16, 32, 64, -128, 1, 2, 4, 8, 16, 32, 64, -128);
        __m128i carries = _mm_cmpeq_epi8(_mm_and_si128(_mm_shuffle_epi8(_mm_cvtsi32_si128(into), pick), bit), bit);
        result = choose(x, _mm_sub_epi8(sum, carries), s->sums);
    }
    __m128i out = _mm_and_si128(result, s->mask);
    for (int r = 0; r + 1 < registers; r++) _mm_storeu_si128((void *)(own + 16 * r), choose(row_of(before + 16 * r), out, s->marks[r]));
    if (s->has_state) _mm_storeu_si128((void *)state, choose(choose(was, out, s->to_output), a, s->to_operand));
}
static inline uint8_t byte_of(uint16_t source, const uint8_t *row, const uint8_t *state, const uint8_t *out) {
    switch (kind(source)) { case CONSTANT: return source; case HERE: return out[place(source)]; case STATE: return state[place(source)]; default: return row[place(source)]; }
}
static void step_slow(const Stage *s, uint8_t *own, uint8_t *state, const uint8_t *row, const uint8_t *before) {
    uint8_t out[MOST_COLUMNS], operand[MOST_COLUMNS]; int carry = 0;
    for (int k = 0; k < columns; k++) {
        const Element *e = &s->elements[k];
        uint8_t a = byte_of(e->a, row, state, out), high = byte_of(e->high, row, state, out), low = byte_of(e->low, row, state, out);
        uint8_t b = e->shift ? high << e->shift | low >> (8 - e->shift) : high, x = 0;
        int bit = e->c_kind == A_BIT ? byte_of(e->c, row, state, out) >> e->c_place & 1 : 0;
        int into = e->carry == FROM_ONE ? 1 : e->carry == FROM_BELOW ? carry : e->carry == FROM_C ? bit : 0, c = e->c_kind == CARRY_IN ? into : bit;
        uint8_t t = c ? e->table >> 4 : e->table;
        x = (~b & ((~a & -(t & 1)) | (a & -(t >> 1 & 1)))) | (b & ((~a & -(t >> 2 & 1)) | (a & -(t >> 3 & 1))));
        int sum = a + x + into; uint8_t result = e->mode == SUM ? sum : x;
        carry = e->mode == SUM ? sum >> 8 : e->mode == ZERO ? into && x == 0 : 0;
        out[k] = result & e->mask; operand[k] = a;
    }
    for (int r = 1; r < registers; r++) for (int k = 0; k < columns; k++) own[(r - 1) * columns + k] = s->elements[k].write == r ? out[k] : before[(r - 1) * columns + k];
    for (int k = 0; k < columns; k++) { if (s->elements[k].next == OUTPUT) state[k] = out[k]; else if (s->elements[k].next == OPERAND) state[k] = operand[k]; }
}

// ---- text
static uint8_t in[65536], out[1 << 17]; static size_t in_at, in_end, out_end; static int in_ended;
static int look(void) {
    if (in_at < in_end) return in[in_at];
    if (in_ended) return -1;
    in_at = 0; in_end = fread(in, 1, sizeof in, stdin); in_ended = in_end == 0;
    return in_ended ? -1 : in[0];
}
static int read_sample(uint8_t *into) {
    int ch; while ((ch = look()) == ' ' || ch == '\t' || ch == '\n' || ch == '\r') in_at++;
    if (ch < 0) return 0;
    for (int i = 0; i < inputs; i++) {
        Number n = 0; while ((ch = look()) == ' ' || ch == '\t') in_at++;
        if (ch < '0' || ch > '9') refuse("a sample is no number");
        if (input_width[i] <= 56) { uint64_t m = 0; while ((ch = look()) >= '0' && ch <= '9') { m = m * 10 + (ch - '0'); if (m >> input_width[i]) refuse("a sample is too large"); in_at++; } n = m; }
        else while ((ch = look()) >= '0' && ch <= '9') { n = n * 10 + (ch - '0'); in_at++; }
        for (int k = 0; k < (input_width[i] + 7) / 8; k++) { *into++ = n; n >>= 8; }
    }
    while ((ch = look()) == ' ' || ch == '\t' || ch == '\r') in_at++;
    if (ch == '\n') in_at++;
    return 1;
}
static void write_result(const uint8_t *from) {
    for (int i = 0; i < outputs; i++) {
        char digits[40]; int at = 40, bytes = (output_width[i] + 7) / 8; Number n = 0;
        for (int k = bytes; k-- > 0;) n = n << 8 | from[k];
        from += bytes; if (i) out[out_end++] = ' ';
        while (n >> 64) { digits[--at] = '0' + n % 10; n /= 10; }
        uint64_t m = n; do { digits[--at] = '0' + m % 10; m /= 10; } while (m);
        memcpy(out + out_end, digits + at, 40 - at); out_end += 40 - at;
    }
    out[out_end++] = '\n';
    if (out_end > 65536) { fwrite(out, 1, out_end, stdout); out_end = 0; }
}

// ---- the machine
int main(int count, char **words) {
    if (count != 3) refuse("simulator CONFIGURATION STRIPES < SAMPLES > RESULTS");
    read_configuration(words[1]); int p = atoi(words[2]), v = stages, big = v > p; if (p < 2 || p > 256) refuse("from 2 to 256 stripes");
    for (int s = 0; s < v; s++) prepare(&stage[s]);
    Stripe *ring = calloc(p, sizeof(Stripe)); static const uint8_t zeros[MOST_ROW + 16]; uint8_t bus[MOST_ROW + 16] = { 0 };
    static uint8_t waiting[QUEUE][MOST_COLUMNS], ready[QUEUE][1024];
    uint64_t time = 0, offered = 0, entered = 0, left = 0, taken = 0; int ended = 0, next_stage = 0, next_stripe = 0, first_at = -1, last_at = -1;
    for (;;) {
        if (!ended && offered - entered < QUEUE) { if (read_sample(waiting[offered % QUEUE])) offered++; else ended = 1; }
        while (taken < left) write_result(ready[taken++ % QUEUE]);
        if (ended && left == offered) break;
        int event = big || time < (uint64_t)v ? next_stripe : -1;
        int may_enter = first_at >= 0 && !(big && first_at == event), may_leave = last_at >= 0 && !(big && last_at == event);
        int enters = may_enter && entered < offered, leaves = may_leave && (v == 1 ? enters : ring[(last_at + p - 1) % p].valid);
        if (enters) memcpy(bus, waiting[entered++ % QUEUE], sample_bytes);
        int live = big ? p - 1 : time < (uint64_t)v ? (int)time : v, at = big ? next_stripe : live;
        for (int d = 0; d < live; d++) {
            at = at == 0 ? p - 1 : at - 1; Stripe *own = &ring[at], *prev = &ring[at == 0 ? p - 1 : at - 1];
            if (big && time < (uint64_t)p && at >= (int)time) continue;
            const Stage *s = &stage[own->stage]; int first = own->stage == 0;
            own->valid = first ? enters : prev->valid; if (!own->valid) continue;
            (s->fast ? step_fast : step_slow)(s, own->row, own->state, first ? bus : prev->row, first ? zeros : prev->row);
        }
        if (leaves) { uint8_t *to = ready[left++ % QUEUE], *row = ring[last_at].row; for (int k = 0; k < result_bytes; k++) to[k] = kind(tap[k]) == CONSTANT ? tap[k] : row[place(tap[k])]; }
        if (event >= 0) {
            Stripe *own = &ring[event];
            if (time >= (uint64_t)p) { memcpy(stage[own->stage].state, own->state, columns); if (own->stage == 0) first_at = -1; if (own->stage == v - 1) last_at = -1; }
            memcpy(own->state, stage[next_stage].state, columns); own->stage = next_stage; own->valid = 0;
            if (next_stage == 0) first_at = event;
            if (next_stage == v - 1) last_at = event;
            next_stage = next_stage + 1 == v ? 0 : next_stage + 1; next_stripe = next_stripe + 1 == p ? 0 : next_stripe + 1;
        }
        time++;
    }
    fwrite(out, 1, out_end, stdout); return 0;
}
