// Times the proved library beside plain C loops that do the same work, and sees that both give the same bytes.
// Every peer is an ordinary loop over bytes, compiled with the same machine in mind (baseline x86-64).
#include <stdbool.h>
#include <stdint.h>
#include <stdio.h>
#include <stdlib.h>
#include <string.h>
#include <time.h>
#ifdef WITH_ISAL
#include <isa-l/raid.h>
#endif
#ifdef WITH_JERASURE
#include <jerasure/reed_sol.h>
#endif

#define BLOCK 512
#define PEER static __attribute__((noinline))
typedef uint8_t u8;
typedef u8 block_t[BLOCK];

// ---- the proved library: a slice is a pointer and a length ----
void speed_xor(const u8 *from, size_t from_len, u8 *into, size_t into_len);
uint32_t speed_mix(uint32_t code, size_t j, const u8 *block, size_t block_len, u8 *into, size_t into_len);
uint32_t speed_unmix(uint32_t code, size_t j, u8 *buffer, size_t len);
uint32_t speed_unpair(uint32_t code, size_t i, size_t j, u8 *buffer, size_t len);
uint32_t speed_encode(uint32_t code, const block_t *data, size_t k, u8 *p, size_t p_len, u8 *q, size_t q_len);
uint32_t speed_recover(uint32_t code, const block_t *columns, size_t n, const bool *present, size_t marks, size_t want, u8 *into, size_t len);
uint64_t speed_volume(uint32_t code, size_t slots, size_t stripes, const block_t *data, size_t blocks, size_t lost, uint32_t kind, size_t first, size_t stride, size_t times);

// ---- P+Q in plain C ----
static u8 power_of[510], log_of[256];

static void make_tables(void) {
    int x = 1;
    for (int i = 0; i < 255; i++) {
        power_of[i] = power_of[i + 255] = x;
        log_of[x] = i;
        x = x << 1 ^ (x >> 7) * 0x11D;
    }
}

PEER void c_xor(const u8 *from, u8 *into) {
    for (int i = 0; i < BLOCK; i++) into[i] ^= from[i];
}

// into += 2^e * block, by logarithms
PEER void c_add_tables(int e, const u8 *block, u8 *into) {
    for (int i = 0; i < BLOCK; i++)
        if (block[i]) into[i] ^= power_of[log_of[block[i]] + e];
}

PEER void c_scale_tables(int e, u8 *block) {
    for (int i = 0; i < BLOCK; i++)
        if (block[i]) block[i] = power_of[log_of[block[i]] + e];
}

static void c_terms(u8 a, u8 t[8]) {
    t[0] = a;
    for (int i = 1; i < 8; i++) t[i] = t[i - 1] << 1 ^ (t[i - 1] >> 7) * 0x1D;
}

#define BIT(i) ((u8)(-(b >> i & 1)) & t[i])
#define SCALED (BIT(0) ^ BIT(1) ^ BIT(2) ^ BIT(3) ^ BIT(4) ^ BIT(5) ^ BIT(6) ^ BIT(7))

// into += 2^e * block, by the terms of the eight bits
PEER void c_add_terms(int e, const u8 *block, u8 *into) {
    u8 t[8];
    c_terms(power_of[e], t);
    for (int i = 0; i < BLOCK; i++) {
        u8 b = block[i];
        into[i] ^= SCALED;
    }
}

PEER void c_scale_terms(int e, u8 *block) {
    u8 t[8];
    c_terms(power_of[e], t);
    for (int i = 0; i < BLOCK; i++) {
        u8 b = block[i];
        block[i] = SCALED;
    }
}

// ---- the diagonal codes in plain C, row by row ----
#define ROWS 16
#define WIDTH 32
#define PRIME 17

static inline void c_add_row(const u8 *from, u8 *into) {
    for (int t = 0; t < WIDTH; t++) into[t] ^= from[t];
}

// row r of the block goes to diagonal r + j; the one that Q has no row for is left out
PEER void c_add_diagonal(int j, const u8 *block, u8 *into) {
    for (int r = 0; r < ROWS; r++) {
        int d = (r + j) % PRIME;
        if (d < ROWS) c_add_row(block + r * WIDTH, into + d * WIDTH);
    }
}

PEER void c_add_rdp(int j, const u8 *block, u8 *into) {
    c_add_diagonal(j, block, into);
    c_add_diagonal(PRIME - 1, block, into);
}

static void c_add_everywhere(const u8 *row, u8 *into) {
    for (int r = 0; r < ROWS; r++) c_add_row(row, into + r * WIDTH);
}

PEER void c_add_evenodd(int j, const u8 *block, u8 *into) {
    c_add_diagonal(j, block, into);
    if (j > 0) c_add_everywhere(block + (PRIME - 1 - j) * WIDTH, into);
}

// the block whose diagonals from columns i and j add up to the buffer
PEER void c_solve(int i, int j, u8 *buffer) {
    u8 s[PRIME * WIDTH], d[PRIME * WIDTH];
    memcpy(s, buffer, BLOCK);
    memset(s + BLOCK, 0, WIDTH);
    for (int r = 0; r < ROWS; r++) c_add_row(buffer + r * WIDTH, s + BLOCK);
    memset(d + BLOCK, 0, WIDTH);
    for (int m = 0, k = PRIME - 1; m < ROWS; m++) {
        int at = (k + i) % PRIME, next = (at + PRIME - j) % PRIME;
        for (int t = 0; t < WIDTH; t++) d[next * WIDTH + t] = s[at * WIDTH + t] ^ d[k * WIDTH + t];
        k = next;
    }
    memcpy(buffer, d, BLOCK);
}

PEER void c_unmix_evenodd(int j, u8 *buffer) {
    u8 s[PRIME * WIDTH] = {0}, adjuster[WIDTH] = {0};
    memcpy(s, buffer, BLOCK);
    if (j > 0) memcpy(adjuster, s + (PRIME - 1 + j) % PRIME * WIDTH, WIDTH);
    for (int r = 0; r < ROWS; r++) {
        const u8 *from = s + (r + j) % PRIME * WIDTH;
        for (int t = 0; t < WIDTH; t++) buffer[r * WIDTH + t] = from[t] ^ adjuster[t];
    }
}

PEER void c_unpair_evenodd(int i, int j, u8 *buffer) {
    u8 sum[WIDTH] = {0};
    for (int r = 0; r < ROWS; r++) c_add_row(buffer + r * WIDTH, sum);
    c_add_everywhere(sum, buffer);
    c_solve(i, j, buffer);
}

// ---- one interface to the C codes: 0 P+Q by tables, 1 RDP, 2 EVENODD, 3 P+Q by terms ----
static void c_mix(int code, int j, const u8 *block, u8 *into) {
    if (code == 0) c_add_tables(j, block, into);
    else if (code == 1) c_add_rdp(j, block, into);
    else if (code == 2) c_add_evenodd(j, block, into);
    else c_add_terms(j, block, into);
}

static void c_unmix(int code, int j, u8 *buffer) {
    if (code == 0) c_scale_tables(255 - j, buffer);
    else if (code == 1) c_solve(j, PRIME - 1, buffer);
    else if (code == 2) c_unmix_evenodd(j, buffer);
    else c_scale_terms((255 - j) % 255, buffer);
}

static void c_unpair(int code, int i, int j, u8 *buffer) {
    int e = (255 - log_of[power_of[i] ^ power_of[j]]) % 255;
    if (code == 0) c_scale_tables(e, buffer);
    else if (code == 1) c_solve(i, j, buffer);
    else if (code == 2) c_unpair_evenodd(i, j, buffer);
    else c_scale_terms(e, buffer);
}

// P and Q, column by column
PEER void c_encode(int code, const block_t *data, int k, u8 *p, u8 *q) {
    memset(p, 0, BLOCK);
    memset(q, 0, BLOCK);
    for (int j = 0; j < k; j++) {
        c_xor(data[j], p);
        c_mix(code, j, data[j], q);
    }
}

// P and Q as textbooks of each code have it, a whole stripe at a time: for P+Q a doubling for each column, from the last to the first; for RDP the
// diagonals of the data and of P; for EVENODD the diagonals of the data, and their adjuster once.
PEER void c_encode_whole(int code, const block_t *data, int k, u8 *p, u8 *q) {
    memset(p, 0, BLOCK);
    memset(q, 0, BLOCK);
    if (code == 0 || code == 3) {
        for (int j = k - 1; j >= 0; j--)
            for (int i = 0; i < BLOCK; i++) {
                u8 d = data[j][i], x = q[i];
                p[i] ^= d;
                q[i] = (u8)(x << 1) ^ ((u8)(-(x >> 7)) & 0x1D) ^ d;
            }
        return;
    }
    u8 adjuster[WIDTH] = {0};
    for (int j = 0; j < k; j++) {
        c_xor(data[j], p);
        c_add_diagonal(j, data[j], q);
        if (j > 0) c_add_row(data[j] + (PRIME - 1 - j) * WIDTH, adjuster);
    }
    if (code == 1) c_add_diagonal(PRIME - 1, p, q);
    else c_add_everywhere(adjuster, q);
}

// The bytes of a column: in place, or read into a buffer first, as from a device.
static const u8 *c_column(const u8 *column, bool read, u8 *scratch) {
    return read ? memcpy(scratch, column, BLOCK) : column;
}

// Data column `want` of which `want` and `other` are lost (other < 0: that one alone), by the two sums.
PEER void c_recover(int code, u8 *const *columns, int k, int want, int other, bool read, u8 *into) {
    u8 mixed[BLOCK] = {0}, scratch[BLOCK];
    memset(into, 0, BLOCK);
    for (int t = 0; t < k; t++)
        if (t != want && t != other) {
            const u8 *column = c_column(columns[t], read, scratch);
            c_xor(column, into);
            if (other >= 0) c_mix(code, t, column, mixed);
        }
    c_xor(c_column(columns[k], read, scratch), into);
    if (other < 0) return;
    c_xor(c_column(columns[k + 1], read, scratch), mixed);
    c_mix(code, other, into, mixed);
    c_unpair(code, want, other, mixed);
    memcpy(into, mixed, BLOCK);
}

// ---- a volume in plain C: an array of blocks for each slot, read and written by copies, nothing looked at before it is used ----
static uint64_t fold(uint64_t sum, u8 byte) { return sum * 31 + byte; }

static u8 *at(u8 *bytes, size_t stripes, size_t slot, size_t stripe) { return bytes + (slot * stripes + stripe) * BLOCK; }

PEER void c_fetch(int code, u8 *bytes, size_t n, size_t stripes, size_t lost, size_t s, size_t t, u8 *into) {
    u8 *columns[18];
    if (t >= lost) {
        memcpy(into, at(bytes, stripes, t, s), BLOCK);
        return;
    }
    for (size_t c = 0; c < n; c++) columns[c] = at(bytes, stripes, c, s);
    c_recover(code, columns, n - 2, t, lost == 2 ? 1 - (int)t : -1, true, into);
}

PEER void c_write(int code, u8 *bytes, size_t n, size_t stripes, size_t lost, size_t b, const u8 *block) {
    size_t s = b / (n - 2), t = b % (n - 2);
    u8 difference[BLOCK], p[BLOCK], q[BLOCK];
    c_fetch(code, bytes, n, stripes, lost, s, t, difference);
    memcpy(p, at(bytes, stripes, n - 2, s), BLOCK);
    memcpy(q, at(bytes, stripes, n - 1, s), BLOCK);
    c_xor(block, difference);
    c_xor(difference, p);
    c_mix(code, t, difference, q);
    if (t >= lost) memcpy(at(bytes, stripes, t, s), block, BLOCK);
    memcpy(at(bytes, stripes, n - 2, s), p, BLOCK);
    memcpy(at(bytes, stripes, n - 1, s), q, BLOCK);
}

static uint64_t c_volume(int code, size_t n, size_t stripes, const block_t *data, size_t blocks, size_t lost, int kind, size_t first, size_t stride, size_t times) {
    u8 *bytes = calloc(n * stripes, BLOCK), buffer[BLOCK];
    uint64_t sum = 0;
    size_t b = first, from = 0, k = n - 2;
    if (!bytes) exit(2);
    for (size_t i = 0; i < blocks; i++) c_write(code, bytes, n, stripes, 0, i, data[i]);
    for (size_t i = 0; i < times; i++) {
        if (kind == 0) {
            c_fetch(code, bytes, n, stripes, lost, b / k, b % k, buffer);
            sum = fold(sum, buffer[i % BLOCK]);
        } else if (kind == 1) {
            c_write(code, bytes, n, stripes, lost, b, data[from]);
            from = from + 1 < blocks ? from + 1 : 0;
        } else {
            for (size_t s = 0; s < stripes; s++) {
                c_fetch(code, bytes, n, stripes, lost, s, 0, buffer);
                memcpy(at(bytes, stripes, 0, s), buffer, BLOCK);
            }
        }
        b += stride;
        if (b >= blocks) b = first;
    }
    // slot 0 is rebuilt, so slot 1 alone is lost then, and reading it by both ways gives the same
    for (size_t i = 0; i < blocks; i++) {
        c_fetch(code, bytes, n, stripes, lost, i / k, i % k, buffer);
        for (int x = 0; x < BLOCK; x++) sum = fold(sum, buffer[x]);
    }
    free(bytes);
    return sum;
}

// ---- timing ----
static double now(void) {
    struct timespec t;
    clock_gettime(CLOCK_MONOTONIC, &t);
    return t.tv_sec + t.tv_nsec * 1e-9;
}

// The least seconds that one run of each of two took, over rounds of about two milliseconds each, in turn, so that what else the machine
// does meets both alike.
#define ROUNDS 15
#define ROUND(seconds, times, what)                                                \
    do {                                                                           \
        double t_ = now();                                                         \
        for (size_t r_ = 0; r_ < times; r_++) { what; }                            \
        seconds = now() - t_;                                                      \
    } while (0)
#define TIME(ours, our_what, theirs, their_what)                                   \
    do {                                                                           \
        size_t our_times_ = 1, their_times_ = 1;                                   \
        double s_;                                                                 \
        for (s_ = 0; s_ < 0.002; our_times_ *= 2) ROUND(s_, our_times_, our_what);     \
        for (s_ = 0; s_ < 0.002; their_times_ *= 2) ROUND(s_, their_times_, their_what); \
        ours = theirs = 1e9;                                                       \
        for (int round_ = 0; round_ < ROUNDS; round_++) {                          \
            ROUND(s_, our_times_, our_what);                                       \
            if (s_ / our_times_ < ours) ours = s_ / our_times_;                    \
            ROUND(s_, their_times_, their_what);                                   \
            if (s_ / their_times_ < theirs) theirs = s_ / their_times_;            \
        }                                                                          \
    } while (0)

// ISA-L's code leaves the upper halves of the vector registers in use, which slows all later code for the baseline machine to a third.
#ifdef WITH_ISAL
__attribute__((target("avx"))) static void clean_halves(void) { __builtin_ia32_vzeroupper(); }

static void clean(void) {
    if (__builtin_cpu_supports("avx")) clean_halves();
}
#endif

static int wrong = 0;
static const char *const names[] = {"P+Q", "RDP", "EVENODD", "P+Q"};

static void agree(const char *what, const u8 *a, const u8 *b) {
    if (memcmp(a, b, BLOCK)) {
        printf("WRONG: %s differs from its peer\n", what);
        wrong = 1;
    }
}

static void row(const char *what, double bytes, double ours, const char *peer, double theirs) {
    printf("| %s | %.1f | %s | %.1f | %.2f |\n", what, bytes / ours / 1e9, peer, bytes / theirs / 1e9, theirs / ours);
    fflush(stdout);
}

static block_t columns[18] __attribute__((aligned(64)));
static block_t ours_p __attribute__((aligned(64))), ours_q __attribute__((aligned(64)));
static block_t peer_p __attribute__((aligned(64))), peer_q __attribute__((aligned(64)));

static void fill(u8 *bytes, size_t n) {
    static uint64_t x = 88172645463325252u;
    for (size_t i = 0; i < n; i++) {
        x ^= x << 13, x ^= x >> 7, x ^= x << 17;
        bytes[i] = x >> 32;
    }
}

static const char *peer_name(int code, int by) {
    return by == 3 ? "C, eight terms" : code == 0 ? "C, log/exp tables" : "C, row by row";
}

// One of a column's calls (0 mix, 1 unmix, 2 unpair with the column five further), by the library or by the peer.
static bool column_call(bool ours, int code, int call, size_t j, u8 *buffer) {
    size_t i = (j + 5) & 15;
    if (ours) {
        if (call == 0) return speed_mix(code, j, columns[0], BLOCK, buffer, BLOCK);
        return call == 1 ? speed_unmix(code, j, buffer, BLOCK) : speed_unpair(code, i, j, buffer, BLOCK);
    }
    if (call == 0) c_mix(code, j, columns[0], buffer);
    else if (call == 1) c_unmix(code, j, buffer);
    else c_unpair(code, i, j, buffer);
    return true;
}

// One column's calls at the columns 0 .. 15 in turn: the mean of them.
static void mixing(int code, int peer) {
    static const char *const calls[] = {"mix", "unmix", "unpair"};
    double ours, theirs;
    char what[80];
    size_t j = 0, i = 0;
    for (int f = 0; f < 3; f++) {
        snprintf(what, sizeof what, "%s, %s", names[code], calls[f]);
        for (j = 0; j < 16; j++) {
            fill(ours_q, BLOCK);
            memcpy(peer_q, ours_q, BLOCK);
            if (!column_call(true, code, f, j, ours_q)) wrong = 1, printf("WRONG: %s is refused\n", what);
            column_call(false, peer, f, j, peer_q);
            agree(what, ours_q, peer_q);
        }
        TIME(ours, (column_call(true, code, f, j & 15, ours_q), j++), theirs, (column_call(false, peer, f, i & 15, peer_q), i++));
        row(what, BLOCK, ours, peer_name(code, peer), theirs);
    }
}

// A peer of encode: what it is called, and that it gives our P and Q.
#define ENCODE(name, their_what)                                                   \
    do {                                                                           \
        memset(peer_p, 0, BLOCK);                                                  \
        memset(peer_q, 0, BLOCK);                                                  \
        TIME(ours, speed_encode(code, columns, k, ours_p, BLOCK, ours_q, BLOCK), theirs, their_what); \
        agree(what, ours_p, peer_p);                                               \
        agree(what, ours_q, peer_q);                                               \
        row(what, k * BLOCK, ours, name, theirs);                                  \
    } while (0)

static void stripe(int code, int k) {
    double ours, theirs;
    char what[80];
    bool present[18];
    u8 *list[18];
    fill((u8 *)columns, sizeof columns);
    for (int t = 0; t < 18; t++) present[t] = t > 1, list[t] = columns[t];
    snprintf(what, sizeof what, "%s, encode, k = %d", names[code], k);
    ENCODE(peer_name(code, code), c_encode(code, columns, k, peer_p, peer_q));
    if (code == 0) ENCODE(peer_name(0, 3), c_encode(3, columns, k, peer_p, peer_q));
    ENCODE(code == 0 ? "C, a whole stripe, by doublings" : code == 1 ? "C, a whole stripe, diagonals through P" : "C, a whole stripe, one adjuster",
           c_encode_whole(code, columns, k, peer_p, peer_q));
#ifdef WITH_ISAL
    if (code == 0) {
        void *array[18];
        for (int t = 0; t < k; t++) array[t] = columns[t];
        array[k] = peer_p, array[k + 1] = peer_q;
        ENCODE("ISA-L, portable C (pq_gen_base)", pq_gen_base(k + 2, BLOCK, array));
        ENCODE("ISA-L, assembly (pq_gen)", (pq_gen(k + 2, BLOCK, array), clean()));
    }
#endif
#ifdef WITH_JERASURE
    if (code == 0) {
        char *coding[2] = {(char *)peer_p, (char *)peer_q};
        ENCODE("jerasure (reed_sol_r6_encode)", reed_sol_r6_encode(k, 8, (char **)list, coding, BLOCK));
    }
#endif
    memcpy(columns[k], ours_p, BLOCK);
    memcpy(columns[k + 1], ours_q, BLOCK);
    snprintf(what, sizeof what, "%s, recover one of two lost, k = %d", names[code], k);
    for (int peer = code;; peer = 3) {
        TIME(ours, speed_recover(code, columns, k + 2, present, k + 2, 0, ours_p, BLOCK), theirs, c_recover(peer, list, k, 0, 1, false, peer_p));
        agree(what, ours_p, columns[0]);
        agree(what, ours_p, peer_p);
        row(what, k * BLOCK, ours, peer_name(code, peer), theirs);
        if (code != 0 || peer == 3) break;
    }
}

// ---- volumes: nanoseconds for one call ----
static block_t *data;

static double volume_once(bool ours, int code, size_t n, size_t stripes, size_t lost, int kind, size_t first, size_t stride, size_t times) {
    size_t blocks = stripes * (n - 2);
    double t = now();
    volatile uint64_t sum = ours ? speed_volume(code == 3 ? 0 : code, n, stripes, data, blocks, lost, kind, first, stride, times)
                                 : c_volume(code, n, stripes, data, blocks, lost, kind, first, stride, times);
    (void)sum;
    return now() - t;
}

// The least of several rounds, less the least of runs that make the volume and do nothing with it.
static void volume_row(const char *what, int code, size_t n, size_t stripes, size_t lost, int kind, size_t first, size_t stride) {
    size_t blocks = stripes * (n - 2), times = kind == 2 ? 4000 / stripes : kind == 0 && first >= lost ? 100000 : 6000;
    double least[2][2] = {{1e9, 1e9}, {1e9, 1e9}}, calls = times * (kind == 2 ? stripes : 1) / 1e9;
    if (speed_volume(code == 3 ? 0 : code, n, stripes, data, blocks, lost, kind, first, stride, 100)
        != c_volume(code, n, stripes, data, blocks, lost, kind, first, stride, 100)) {
        printf("WRONG: volume, %s, n = %zu, S = %zu differs from its peer\n", what, n, stripes);
        wrong = 1;
    }
    for (int round = 0; round < ROUNDS; round++)
        for (int ours = 0; ours < 2; ours++)
            for (int full = 0; full < 2; full++) {
                double t = volume_once(ours, code, n, stripes, lost, kind, first, stride, full ? times : 0);
                if (t < least[ours][full]) least[ours][full] = t;
            }
    double mine = (least[1][1] - least[1][0]) / calls, theirs = (least[0][1] - least[0][0]) / calls;
    printf("| %s, %s | %zu | %zu | %.0f | %.0f | %.2f |\n", names[code], what, n, stripes, mine, theirs, theirs / mine);
    fflush(stdout);
}

static void volumes(int code, size_t n, size_t stripes) {
    size_t k = n - 2;
    volume_row("read", code, n, stripes, 0, 0, 0, 1);
    volume_row("read, two missing, its own too", code, n, stripes, 2, 0, 0, k);
    volume_row("read, two missing, its own not", code, n, stripes, 2, 0, 2, k);
    volume_row("write", code, n, stripes, 0, 1, 0, 1);
    volume_row("write, two missing, its own too", code, n, stripes, 2, 1, 0, k);
    volume_row("write, two missing, its own not", code, n, stripes, 2, 1, 2, k);
    volume_row("rebuild step, one missing", code, n, stripes, 1, 2, 0, 1);
    volume_row("rebuild step, two missing", code, n, stripes, 2, 2, 0, 1);
}

int main(void) {
    make_tables();
    fill((u8 *)columns, sizeof columns);
    data = malloc(sizeof(block_t) * 16 * 1024);
    if (!data) return 2;
    fill((u8 *)data, sizeof(block_t) * 16 * 1024);
    printf("Codes and stripes, GB/s of data (512-byte blocks, warm):\n\n");
    printf("| what | ours | peer | peer's | ours / peer's |\n|---|---|---|---|---|\n");
    double ours, theirs;
    fill(ours_q, BLOCK);
    memcpy(peer_q, ours_q, BLOCK);
    speed_xor(columns[0], BLOCK, ours_q, BLOCK);
    c_xor(columns[0], peer_q);
    agree("exclusive or", ours_q, peer_q);
    TIME(ours, speed_xor(columns[0], BLOCK, ours_q, BLOCK), theirs, c_xor(columns[0], peer_q));
    row("exclusive or of a block", BLOCK, ours, "C, byte loop", theirs);
    mixing(0, 0);
    mixing(0, 3);
    mixing(1, 1);
    mixing(2, 2);
    for (int code = 0; code < 3; code++) {
        stripe(code, 4);
        stripe(code, 16);
    }
    printf("\nThe volume, nanoseconds for one call on a block (a shelf of images; the peer is an array of blocks in plain C, P+Q by eight terms):\n\n");
    printf("| what | n | S | ours | peer's | ratio |\n|---|---|---|---|---|---|\n");
    volumes(3, 6, 8);
    volumes(3, 6, 64);
    volumes(3, 18, 8);
    volumes(3, 18, 64);
    volumes(1, 18, 64);
    volumes(2, 18, 64);
    printf("\n");
    free(data);
    return wrong;
}
