// Prints the inputs and both outputs of docs/DIFFERENCES.md from the programs: our archive beside
// Debian's liblapack, and beside C's own arithmetic where the stock build of faer cannot be run.
// `run` builds it. Numbers are printed with the fewest digits that read back to the same bits.
//   differences                      the whole list
//   differences exchanges COUNT SEED random moves: how often both sides make as many exchanges
//   differences declines COUNT SEED  random exchanges of a 2-block and a row: how often LAPACK declines
//   differences stops COUNT SEED     random moves that may stop: where each side does
//   differences moduli COUNT SEED    random pairs: how often 01's formula and C's hypot are not the nearest
//   differences readings COUNT SEED  random blocks, standardised: how often both readings of the rest agree
#define _GNU_SOURCE
#include "draws.h"
#include "ours.h"
#include "stops.h"
#include <dlfcn.h>
#include <math.h>
#include <stdint.h>
#include <stdio.h>
#include <stdlib.h>
#include <string.h>

void dlartg_(const double *f, const double *g, double *c, double *s, double *r);
void dlarfg_(const int *n, double *alpha, double *x, const int *incx, double *tau);
void dlanv2_(double *a, double *b, double *c, double *d, double *rt1r, double *rt1i, double *rt2r, double *rt2i,
             double *cs, double *sn);
void dlasy2_(const int *ltranl, const int *ltranr, const int *isgn, const int *n1, const int *n2, const double *tl,
             const int *ldtl, const double *tr, const int *ldtr, const double *b, const int *ldb, double *scale,
             double *x, const int *ldx, double *xnorm, int *info);
void dtrexc_(const char *compq, const int *n, double *t, const int *ldt, double *q, const int *ldq, int *ifst,
             int *ilst, double *work, int *info, long);
double dlamch_(const char *cmach, long);
void dtrevc3_(const char *side, const char *howmny, int *select, const int *n, const double *t, const int *ldt,
              double *vl, const int *ldvl, double *vr, const int *ldvr, const int *mm, int *m, double *work,
              const int *lwork, int *info, long, long);

enum { MOST = 32, LONGEST = 64 };

#define FORM(...) ((double[]){__VA_ARGS__})

// ---- printing

static const char *number(double x) {
    static char texts[64][32];
    static int next;
    char *text = texts[next++ % 64];
    if (isnan(x))
        return "NaN";
    for (int digits = 1; digits <= 17; digits++) {
        snprintf(text, 32, "%.*g", digits, x);
        if (strtod(text, 0) == x)
            break;
    }
    return text;
}

// Each number after its name, from a list of names parted by blanks.
static void named(const char *who, const char *names, const double *x) {
    printf("  %-8s", who);
    for (int i = 0; *names; i++) {
        int len = strcspn(names, " ");
        printf(" %.*s %s%s", len, names, number(x[i]), names[len] ? " " : "");
        names += len + (names[len] != 0);
    }
    printf("\n");
}

// Rows in parentheses.
static void rows_at(const char *who, int n, int ld, const double *t) {
    printf("  %-8s", who);
    for (int i = 0; i < n; i++) {
        printf(" (");
        for (int j = 0; j < n; j++)
            printf("%s%s", j ? " " : "", number(t[i + ld * j]));
        printf(")");
    }
    printf("\n");
}

static void rows(const char *who, int n, const double *t) { rows_at(who, n, n, t); }

// One number of each side.
static void one(const char *who, double x) { printf("  %-8s %s\n", who, number(x)); }

// ---- two readings of values

static void values(const double *x) {
    double us[4], them[4];
    ours_values(1, x, us), ours_values(0, x, them);
    printf("values of (%s %s) (%s %s)\n", number(x[0]), number(x[1]), number(x[2]), number(x[3]));
    named("ours", "re im re im", us);
    named("the Rust", "re im re im", them);
}

// How a 2-block of whole numbers comes out of standardising: left as it was; a complex pair, or one
// with b zero; a real pair from entries of one sign, of unlike signs, or a b that is zero, the diagonal
// numbers equal or not; from a double value, one number twice or two numbers.
enum { AS_IT_WAS, ROTATED, LEFT, ONE_SIGN, UNLIKE_SIGNS, ZERO_ABOVE, EXCHANGED, TWICE, SPLIT };

static int kind(const double *x) {
    double out[10], discriminant = (x[0] - x[3]) * (x[0] - x[3]) + 4 * x[1] * x[2];
    ours_block(x, out);
    if (x[1] == 0)
        return x[0] == x[3] ? ZERO_ABOVE : EXCHANGED;
    if (out[2] != 0)
        return out[1] == 0 ? LEFT : same(x, out, 4) ? AS_IT_WAS : ROTATED;
    if (discriminant == 0)
        return out[0] == out[3] ? TWICE : SPLIT;
    return (x[1] > 0) == (x[2] > 0) ? ONE_SIGN : UNLIKE_SIGNS;
}

// The least block of whole numbers of the kind; of those with the same sum, by d, c, b and a, the
// smaller first and a number before its negative.
static void least_block(int wanted, double *x) {
    for (int sum = 1;; sum++) {
        int each = 2 * sum + 1;
        for (int k = 0; k < each * each * each * each; k++) {
            double magnitudes = 0;
            for (int i = 0, rest = k; i < 4; i++, rest /= each) {
                int place = rest % each;
                x[i] = place % 2 ? (place + 1) / 2 : -(place / 2);
                magnitudes += fabs(x[i]);
            }
            if (magnitudes == sum && x[2] != 0 && kind(x) == wanted)
                return;
        }
    }
}

static void least_values(int wanted) {
    double x[4];
    least_block(wanted, x);
    values(x);
}

// A block with a double value, or its lower entry off by some last bits.
static void double_value(double *x) {
    double middle = styled(2), half = styled(2);
    x[0] = middle + half, x[3] = middle - half, x[1] = styled(2);
    x[2] = -half * half / x[1] * (1 + ((double)(next() % 9) - 4) * 0x1p-52);
}

// What standardising leaves of random blocks, where c is not zero, read both ways.
static void readings(long count) {
    enum { ALIKE, WITH_NAN, ZERO_SIGN, ZERO_B, OTHER, FOUND };
    static const char *found[FOUND] = {"all four numbers alike", "alike, a NaN among them",
                                       "another zero in the second real part", "b zero: a real pair here",
                                       "anything else"};
    long counts[FOUND] = {0}, rest = 0;
    for (int style = 0; style <= STYLES; style++)
        for (long k = 0; k < count; k++) {
            double x[4], out[10], us[4], them[4];
            if (style == STYLES)
                double_value(x);
            else
                for (int i = 0; i < 4; i++)
                    x[i] = i == 3 && k % 2 ? x[0] : styled(style);
            ours_block(x, out);
            if (out[2] == 0)
                continue;
            rest++;
            ours_values(1, out, us), ours_values(0, out, them);
            int nan = isnan(us[0]) || isnan(us[1]) || isnan(us[2]), zeros = us[2] == 0 && them[2] == 0;
            int others = same(us, them, 2) && same(us + 3, them + 3, 1);
            int at = out[1] == 0 ? ZERO_B : others && zeros ? ZERO_SIGN : OTHER;
            if (same(us, them, 4))
                at = nan ? WITH_NAN : ALIKE;
            if (counts[at]++ < 3 && at == OTHER)
                values(out);
        }
    printf("%ld random blocks of each of %d sorts, %ld with c not zero when standardised\n", count, STYLES + 1, rest);
    for (int i = 0; i < FOUND; i++)
        printf("  %-36s  %ld\n", found[i], counts[i]);
}

// standardised_values beside block_values.
static void two_readings(void) {
    least_values(ROTATED);
    least_values(ONE_SIGN);
    least_values(UNLIKE_SIGNS);
    least_values(TWICE);
    least_values(SPLIT);
    least_values(ZERO_ABOVE);
    least_values(EXCHANGED);
    values(FORM(1, 1, -1, 1 + 0x1p-52));
    values(FORM(0, 1, -1, -0.0));
    double x[4], out[10];
    least_block(LEFT, x);
    values(x);
    ours_block(x, out);
    values(out);
    values(FORM(0, 1, -1, NAN));
    values(FORM(0, NAN, -1, 0));
    seed(1);
    readings(1000000);
}

// ---- moduli

// Document 01's modulus of finite numbers, as it was before the nearest.
static double formula_of_01(double p, double q) {
    p = fabs(p), q = fabs(q);
    double g = p > q ? p : q, h = p > q ? q : p;
    return g == 0 ? 0 : g * sqrt(1 + (h / g) * (h / g));
}

// C's own, called.
static double modulus_of_c(double p, double q) {
    volatile double x = p, y = q;
    return hypot(x, y);
}

// The least whole numbers, p at most q, of which another modulus is not ours.
static void least_pair(const char *who, double (*theirs)(double, double)) {
    for (int sum = 2;; sum++)
        for (int p = 1; p <= sum - p; p++) {
            double us = vx_hypot(p, sum - p), them = theirs(p, sum - p);
            if (us != them) {
                printf("hypot %d %d\n", p, sum - p);
                one("ours", us);
                one(who, them);
                return;
            }
        }
}

// 53 digits, and an exponent from one to the other.
static double between(int from, int to) {
    double digits = 1 + (double)(next() >> 12) * 0x1p-52;
    return ldexp(digits, from + (int)(next() % (to - from + 1)));
}

static double subnormal(void) { return (double)(next() >> 12) * 0x1p-1074; }

static void moduli(long count) {
    static const char *sorts[] = {"exponents 0 to 3", "exponents -40 to 40", "both subnormal"};
    printf("%ld random pairs of each sort, and how many moduli are not the nearest\n", count);
    for (int sort = 0; sort < 3; sort++) {
        long formula = 0, c = 0;
        for (long k = 0; k < count; k++) {
            double p = sort == 2 ? subnormal() : sort ? between(-40, 40) : between(0, 3);
            double q = sort == 2 ? subnormal() : sort ? between(-40, 40) : between(0, 3);
            double us = vx_hypot(p, q);
            formula += formula_of_01(p, q) != us;
            c += modulus_of_c(p, q) != us;
        }
        printf("  %-20s  01's formula %ld  C %ld\n", sorts[sort], formula, c);
    }
}

// ---- the stock build of faer: C in its place

static void stock(void) {
    volatile double zero = 0, minus_zero = -0.0; // so that C's own are called
    least_pair("01's", formula_of_01);
    least_pair("C", modulus_of_c);
    seed(1);
    moduli(10000000);

    printf("norm_l2 1 1 1\n");
    one("ours", vx_norm_l2((double[]){1, 1, 1}, 3));
    one("C", sqrt(fma(1, 1, 2)));

    printf("fmax 0 -0, fmin -0 0\n");
    named("ours", "fmax fmin", (double[]){vx_fmax(0, -0.0), vx_fmin(-0.0, 0)});
    named("C", "fmax fmin", (double[]){fmax(zero, minus_zero), fmin(minus_zero, zero)});

    double c = 0.6, s = 0.8, x = 1, y = 3, out[2];
    printf("rotation of columns, c 0.6 s 0.8 x 1 y 3\n");
    ours_apply(c, s, x, y, out);
    named("ours", "x y", out);
    named("C's fma", "x y", (double[]){fma(s, y, c * x), fma(-s, x, c * y)});

    printf("rotation of columns, c 1 s 0 x 1 y inf\n");
    ours_apply(1, 0, 1, INFINITY, out);
    named("ours", "x y", out);
    named("returned", "x y", (double[]){1, INFINITY});

    // The archive has no call of the inner product; the vectors of these forms show it.
    double t[16] = {1, 0, 0, 0, 0.2, 1, 0, 0, 0.1, 0, 1, 0, 0, -0.3, -0.1, 0}, v[25] = {0};
    ours_vectors(4, t, v);
    printf("inner_prod of (0.2 0.1) and (0.3 0.1), negated: row 0 of the last vector\n");
    rows("form", 4, t);
    one("ours", v[12]);
    one("C's fma", -fma(0.1, 0.1, 0.2 * 0.3));

    double l[25] = {1, 0, 0, 0, 0, 1, 1, 0, 0, 0, 1, 0, 1, 0, 0, 1, 0, 0, 1, 0, 0, -0x1p-53, -1, 1, 0};
    ours_vectors(5, l, v);
    printf("inner_prod of (1 1 1) and (2^-53 1 -1), negated: row 0 of the last vector\n");
    rows("form", 5, l);
    one("ours", v[20]);
    one("2 lanes", -((0x1p-53 - 1) + 1));
}

// ---- rotations and reflections

static void rotation(double p, double q) {
    double us[3], c, s, r;
    ours_rotg(p, q, us);
    dlartg_(&p, &q, &c, &s, &r);
    printf("rotg %s %s\n", number(p), number(q));
    named("ours", "c s r", us);
    named("dlartg", "c s r", (double[]){c, s, r});
}

// Both reflections of one column; of the tail, at most three numbers are named.
static void reflect_both(double head, int len, const double *tail, const char *names) {
    double us[LONGEST] = {0}, them[LONGEST] = {0}, out[4], beta = head, tau;
    int n = len + 1, step = 1;
    memcpy(us, tail, len * sizeof *tail), memcpy(them, tail, len * sizeof *tail);
    ours_reflection(head, us, len, out);
    dlarfg_(&n, &beta, them, &step, &tau);
    named("ours", names, (double[]){out[0], out[1], us[0], us[1], us[2]});
    named("dlarfg", names, (double[]){beta, tau, them[0], them[1], them[2]});
}

static void reflection(double head, int len, double a, double b, double c) {
    double tail[3] = {a, b, c};
    printf("reflection of head %s, tail", number(head));
    for (int i = 0; i < len; i++)
        printf(" %s", number(tail[i]));
    printf("\n");
    reflect_both(head, len, tail, len > 1 ? "head tau v0 v1 v2" : "head tau v0");
}

// A 1 before or behind so many times x.
static void reflection_beside_one(int first, int times, double x) {
    double tail[LONGEST];
    for (int i = 0; i <= times; i++)
        tail[i] = i == (first ? 0 : times) ? 1 : x;
    printf(first ? "reflection of head 0, tail 1 and then %d times %s\n"
                 : "reflection of head 0, tail %d times %s and then 1\n",
           times, number(x));
    reflect_both(0, times + 1, tail, "head tau v0 v1");
}

// ---- blocks of two rows

static void block(double a, double b, double c, double d) {
    double x[4] = {a, b, c, d}, us[10], them[10] = {a, b, c, d};
    ours_block(x, us);
    dlanv2_(them, them + 1, them + 2, them + 3, them + 4, them + 5, them + 6, them + 7, them + 8, them + 9);
    printf("block (%s %s) (%s %s)\n", number(a), number(b), number(c), number(d));
    const char *names = "a b c d re im re im cs sn";
    named("ours", names, us);
    named("dlanv2", names, them);
}

static void sylvester(const double *tl, const double *tr, const double *b) {
    int no = 0, minus = -1, two = 2, info = 0;
    double us[5], them[5], xnorm;
    ours_sylvester(tl, tr, b, us);
    dlasy2_(&no, &no, &minus, &two, &two, tl, &two, tr, &two, b, &two, them + 4, them, &two, &xnorm, &info);
    printf("lasy2\n");
    rows("tl", 2, tl), rows("tr", 2, tr), rows("b", 2, b);
    named("ours", "x00 x10 x01 x11 scale", us);
    named("dlasy2", "x00 x10 x01 x11 scale", them);
}

// ---- moves

static char calls[4096];
static int made, refused;
// The last call: its sizes and the window that it was given.
static int sizes[2];
static double window[16];
// Exchange by ours instead.
static int by_ours;

// One exchange is a move of the first block to the row of the second.
static void our_exchange(int n, double *t, int j, int n1, int *info) {
    size_t out[4];
    ours_stopping_move(n, t, 0, j, j + n1, out);
    *info = out[0];
}

// Stands before LAPACK's own when the program is linked, and writes the call down: row from 0, sizes.
void dlaexc_(const int *wantq, const int *n, double *t, const int *ldt, double *q, const int *ldq, const int *j1,
             const int *n1, const int *n2, double *work, int *info) {
    static void (*theirs)(const int *, const int *, double *, const int *, double *, const int *, const int *,
                          const int *, const int *, double *, int *);
    if (!theirs)
        *(void **)&theirs = dlsym(RTLD_NEXT, "dlaexc_");
    int nd = *n1 + *n2, j = *j1 - 1;
    sizes[0] = *n1, sizes[1] = *n2;
    for (int k = 0; k < nd * nd; k++)
        window[k] = t[j + k % nd + *ldt * (j + k / nd)];
    if (by_ours)
        our_exchange(*n, t, j, *n1, info);
    else
        theirs(wantq, n, t, ldt, q, ldq, j1, n1, n2, work, info);
    size_t at = strlen(calls);
    snprintf(calls + at, sizeof calls - at, " %d:%d:%d%s", *j1 - 1, *n1, *n2, *info ? " declined" : "");
    made++;
    refused += *info != 0;
}

static int lapack_move(int n, double *t, int from, int to, int *info) {
    int ifst = from + 1, ilst = to + 1, step = 1;
    double none[1], work[MOST];
    calls[0] = 0, made = 0, refused = 0;
    dtrexc_("N", &n, t, &n, none, &step, &ifst, &ilst, work, info, 1);
    return ilst - 1;
}

// Of the old move, or of the one that stops.
static void moved(int stopping, int n, const double *by_rows, int from, int to) {
    double t[MOST * MOST], us[MOST * MOST], them[MOST * MOST];
    for (int i = 0; i < n; i++)
        for (int j = 0; j < n; j++)
            t[i + n * j] = by_rows[n * i + j];
    memcpy(us, t, sizeof t), memcpy(them, t, sizeof t);
    size_t out[4];
    int info;
    size_t answer = stopping ? ours_stopping_move(n, us, 0, from, to, out) : ours_move(n, us, 0, from, to, out);
    int landed = lapack_move(n, them, from, to, &info);
    printf("%s from %d to %d\n", stopping ? "move that stops," : "move", from, to);
    rows("form", n, t);
    if (stopping)
        printf("  ours     answer %zu  stopped %zu  here %zu  swaps %zu  declined %zu\n", answer, out[0], out[1], out[2],
               out[3]);
    else
        printf("  ours     answer %zu  landed %zu  swaps %zu  declined %zu\n", answer, out[0], out[1], out[2]);
    rows("", n, us);
    printf("  dtrexc   info %d  landed %d  exchanges%s\n", info, landed, calls);
    rows("", n, them);
}

static void move(int n, const double *by_rows, int from, int to) { moved(0, n, by_rows, from, to); }

static void stopping_move(int n, const double *by_rows, int from, int to) { moved(1, n, by_rows, from, to); }

// 01's constants of the threshold, and dlaexc's.
static void thresholds(void) {
    double eps = dlamch_("P", 1);
    printf("threshold of a test\n");
    named("ours", "eps least", (double[]){0x1p-52, 0x1p-1022 / 0x1p-52});
    named("dlaexc", "eps least", (double[]){eps, dlamch_("S", 1) / eps});
}

// The diagonal 1, 2, .. at a stride, in so many numbers, those beside it 7, and the unit factor at
// another stride, or at 0 none.
static void strides(int n, int ld, int len, int ldu, int from, int to) {
    double t[2 * 129], us[2 * 129], uu[4], uq[4], work[MOST];
    for (int k = 0; k < len; k++)
        t[k] = k % ld >= n ? 7 : k % ld == k / ld ? k / ld + 1 : 0;
    for (int k = 0; k < ldu * n; k++)
        uu[k] = uq[k] = k % ldu == k / ldu;
    memcpy(us, t, len * sizeof *t);
    size_t out[3];
    int ifst = from + 1, ilst = to + 1, ldq = ldu ? ldu : 1, info;
    calls[0] = 0;
    printf("move from %d to %d, form of stride %d in %d number%s", from, to, ld, len, len > 1 ? "s" : "");
    printf(ldu ? ", factor of stride %d in %d number%s\n" : "\n", ldu, ldu * n, ldu * n > 1 ? "s" : "");
    rows_at("form", n, ld, t);
    size_t answer = ours_move_at(n, ld, us, len, uu, ldu * n, from, to, out);
    printf("  ours     answer %zu  landed %zu  swaps %zu  declined %zu\n", answer, out[0], out[1], out[2]);
    rows_at("", n, ld, us);
    dtrexc_(ldu ? "V" : "N", &n, t, &ld, uq, &ldq, &ifst, &ilst, work, &info, 1);
    printf("  dtrexc   info %d  landed %d  exchanges%s\n", info, ilst - 1, calls);
    rows_at("", n, ld, t);
}

// ---- random forms

static double whole(void) { return (double)(next() % 5) - 2; }

// Whole numbers to 2; a 2-block has a double value, or its lower entry is off by some last bits.
static void draw(int n, double *t) {
    memset(t, 0, n * n * sizeof *t);
    for (int j = 0; j < n; j++)
        for (int i = 0; i <= j; i++)
            t[i + n * j] = whole();
    for (int i = 0; i + 1 < n; i++)
        if (next() % 2) {
            double *upper = t + i + n * (i + 1), *lower = t + i + 1 + n * i;
            double half = (t[i + n * i] - t[i + 1 + n * (i + 1)]) / 2;
            if (half == 0 || *upper == 0)
                continue;
            *lower = -half * half / *upper * (1 + ((double)(next() % 9) - 4) * 0x1p-52);
            i++;
        }
}

static void exchanges(long count) {
    long moved = 0, declined = 0, rows_differ = 0, more = 0, fewer = 0, least = 8;
    for (long k = 0; k < count; k++) {
        double t[49], us[49], them[49];
        size_t out[3];
        int n = 3 + next() % 5, from = next() % n, to = next() % n, info;
        draw(n, t);
        memcpy(us, t, sizeof t), memcpy(them, t, sizeof t);
        ours_move(n, us, 0, from, to, out);
        int landed = lapack_move(n, them, from, to, &info);
        if (out[2] || refused) {
            declined++;
            continue;
        }
        moved++;
        rows_differ += (size_t)landed != out[0];
        more += (size_t)made > out[1];
        fewer += (size_t)made < out[1];
        if ((size_t)made != out[1] && n < least)
            least = n;
    }
    printf("%ld random moves of 3 to 7 rows, %ld of them without a decline\n", count, moved);
    printf("  another row landed on: %ld\n", rows_differ);
    printf("  more exchanges by dtrexc: %ld, fewer: %ld, at least %ld rows\n", more, fewer, least);
}

// ---- moves that stop

static double sized(int most) {
    double x = (double)(int64_t)next() * 0x1p-63;
    return ldexp(x, (int)(next() % (2 * most + 1)) - most);
}

static void declines(long count) {
    for (int wide = 0; wide < 2; wide++) {
        int most = wide ? 1000 : 50;
        long declined = 0;
        for (long k = 0; k < count; k++) {
            int n = 3, upper = next() % 2, info, i = upper ? 0 : 1;
            double t[9] = {0};
            for (int j = 0; j < 3; j++)
                for (int row = 0; row <= j; row++)
                    t[row + 3 * j] = sized(most);
            t[i + 1 + 3 * i] = copysign(sized(most), -t[i + 3 * (i + 1)]);
            lapack_move(n, t, 0, 2, &info);
            declined += refused;
        }
        printf("%ld exchanges of a 2-block and a row, exponents to %d: %ld declined by dlaexc\n", count, most, declined);
    }
}

// A number of about 2^k.
static double about(int k) {
    double x = 1 + (double)(next() >> 12) * 0x1p-52;
    return ldexp(next() % 2 ? -x : x, k);
}

enum { ORDINARY, UNBALANCED, NEARLY_EQUAL, NEAR_OVERFLOW, SORTS };

static void draw_to_stop(int sort, int n, double *t) {
    double a = about(0), b = about(0), c = about(0);
    int k = (int)(next() % 40);
    memset(t, 0, n * n * sizeof *t);
    for (int j = 0; j < n; j++)
        for (int i = 0; i <= j; i++)
            t[i + n * j] = sort == ORDINARY        ? about((int)(next() % 8) - 4)
                           : sort == UNBALANCED    ? about((int)(next() % 4) - 2)
                           : sort == NEARLY_EQUAL  ? i == j ? a : about(k)
                           : next() % 4 ? about(960 + (int)(next() % 60))
                                        : about(1022);
    for (int i = 0; i + 1 < n; i++)
        if (next() % 3) {
            int scale = sort == UNBALANCED ? 8 + (int)(next() % 37) : 0;
            double upper = sort == NEARLY_EQUAL ? b : t[i + n * (i + 1)] * ldexp(1, scale);
            double lower = sort == NEARLY_EQUAL ? c : sort == NEAR_OVERFLOW ? about(960 + (int)(next() % 63)) : about(-scale);
            double off = sort == NEARLY_EQUAL ? 1 + ldexp(1, -(int)(next() % 33) - 20) : 1;
            t[i + n * (i + 1)] = upper, t[i + 1 + n * i] = copysign(lower, -upper);
            t[i + n * i] *= off;
            if (sort != NEAR_OVERFLOW || next() % 2)
                t[i + 1 + n * (i + 1)] = t[i + n * i];
            i++;
        }
}

// How far the two tests lie apart on the window at which one side stopped and the other did not.
enum { PARTED, TWICE_OFF, TEN_TIMES, OVERFLOWING, FURTHER, APART };

static int apart(Test us, Test them) {
    double p = us.number / us.threshold, q = them.number / them.threshold;
    if ((p > 1) == (q > 1))
        return PARTED;
    if (us.threshold > 0x1p900)
        return OVERFLOWING;
    double most = fmax(fmax(p, q), 1 / fmin(p, q));
    return most < 2 ? TWICE_OFF : most < 10 ? TEN_TIMES : FURTHER;
}

static void stops(long count) {
    static const char *sorts[SORTS] = {"ordinary", "badly scaled", "nearly equal", "near overflow"};
    static const char *found[APART] = {"the tests agree there: the forms had come apart",
                                       "the tests differ, both less than twice from the threshold",
                                       "the tests differ, both less than ten times from it",
                                       "the tests differ, where sums overflow", "the tests differ otherwise"};
    long otherwise = 0, unlike = 0, kinds[APART] = {0};
    printf("%ld random moves of 3 to 7 rows of each sort: where they stop\n", count);
    for (int sort = 0; sort < SORTS; sort++) {
        long at_one = 0, at_two = 0, ours = 0, theirs = 0, neither = 0, by_size[5] = {0};
        for (long k = 0; k < count; k++) {
            double t[49], us[49], through[49], them[49], failed[16];
            char our_calls[sizeof calls];
            size_t out[4];
            int n = 3 + next() % 5, from = next() % n, to = next() % n, info, their_info;
            draw_to_stop(sort, n, t);
            memcpy(us, t, sizeof t), memcpy(through, t, sizeof t), memcpy(them, t, sizeof t);
            if (ours_stopping_move(n, us, 0, from, to, out))
                exit(2);
            by_ours = 1;
            int here = lapack_move(n, through, from, to, &info), n1 = sizes[0], n2 = sizes[1], our_made = made;
            by_ours = 0;
            memcpy(failed, window, sizeof window);
            memcpy(our_calls, calls, sizeof calls);
            otherwise += !same(us, through, n * n) || (size_t)info != out[0] || (size_t)here != out[1] ||
                         (size_t)made != out[2] || (size_t)refused != out[3];
            if (info) {
                Test test = our_test(n1, n2, failed);
                unlike += !(test.number > test.threshold);
                by_size[n1 + n2]++;
            }
            lapack_move(n, them, from, to, &their_info);
            if (!info && !their_info) {
                neither++;
                continue;
            }
            int alike = info && their_info && !strcmp(calls, our_calls);
            at_one += alike, at_two += info && their_info && !alike;
            ours += info && !their_info, theirs += their_info && !info;
            if (alike)
                continue;
            if (!info || (their_info && made < our_made))
                memcpy(failed, window, sizeof window), n1 = sizes[0], n2 = sizes[1];
            kinds[apart(our_test(n1, n2, failed), their_test(n1, n2, failed))]++;
        }
        printf("  %-14s both at one exchange %ld, at two %ld, only ours %ld, only dtrexc %ld, neither %ld", sorts[sort],
               at_one, at_two, ours, theirs, neither);
        printf("; of ours %ld in three rows, %ld in four\n", by_size[3], by_size[4]);
    }
    for (int i = 0; i < APART; i++)
        printf("  %-58s %ld\n", found[i], kinds[i]);
    printf("  ours otherwise than by dtrexc's own control with our exchanges: %ld, our test told otherwise: %ld\n",
           otherwise, unlike);
}

// ---- vectors

// All of a small form's vectors, column by column; of a larger one, the ends of the last.
static void columns(const char *who, int n, const double *v) {
    printf("  %-8s", who);
    for (int j = n > 4 ? n - 1 : 0; j < n; j++) {
        printf(" (");
        for (int i = 0; i < n; i += n > 4 ? n - 1 : 1)
            printf("%s%s", i ? n > 4 ? " .. " : " " : "", number(v[i + n * j]));
        printf(")");
    }
    printf("\n");
}

static void vectors(int n, const double *by_rows) {
    double t[MOST * MOST], us[MOST * MOST], them[MOST * MOST], none[1], work[4096];
    int select[MOST] = {0}, step = 1, m, info, lwork = 4096;
    for (int i = 0; i < n; i++)
        for (int j = 0; j < n; j++)
            t[i + n * j] = by_rows[n * i + j];
    for (int k = 0; k < n * n; k++)
        us[k] = them[k] = 7;
    ours_vectors(n, t, us);
    dtrevc3_("R", "A", select, &n, t, &n, none, &step, them, &n, &n, &m, work, &lwork, &info, 1, 1);
    if (n > 4)
        printf("vectors of %d rows, 1 just above a zero diagonal: the last column's ends\n", n);
    else {
        printf("vectors, column after column\n");
        rows("form", n, t);
    }
    columns("ours", n, us);
    columns("dtrevc3", n, them);
}

int main(int argc, char **argv) {
    if (argc == 4) {
        seed(strtoull(argv[3], 0, 10));
        void (*run)(long) = !strcmp(argv[1], "moduli")     ? moduli
                            : !strcmp(argv[1], "declines") ? declines
                            : !strcmp(argv[1], "readings") ? readings
                            : !strcmp(argv[1], "stops")    ? stops
                                                           : exchanges;
        run(strtol(argv[2], 0, 10));
        return 0;
    }
    if (argc != 1) {
        fprintf(stderr, "differences: see the head of differences.c\n");
        return 2;
    }
    two_readings();
    stock();

    rotation(0, 1);
    rotation(1, -1);
    rotation(2, 3);
    rotation(0x1p-1074, 0x1p-1074);
    rotation(1.7e308, 1.7e308);

    reflection(3, 1, 4, 0, 0);
    reflection(1, 1, 0, 0, 0);
    reflection(49, 1, 1, 0, 0);
    reflection(2, 1, 3, 0, 0);
    reflection(0, 3, 1, 1, 1);
    reflection_beside_one(1, 63, 0x1p-26);
    reflection_beside_one(0, 63, 0x1p-26);
    reflection(-0.0, 1, 1, 0, 0);
    reflection(1, 1, 0x1p-1023, 0, 0);
    reflection(0x1p-1023, 1, 0x1p-1022, 0, 0);
    reflection(1.7e308, 1, 1.7e308, 0, 0);
    reflection(INFINITY, 1, 1, 0, 0);

    block(-2, -1, 1, 0);
    block(1, 1, 1, 0);
    block(0, 0x1p512, 0x1p512, 0);
    block(-0.0, 1, 1, 0);
    block(INFINITY, 1, -1, INFINITY);
    block(0, NAN, 1, 0);

    double zeros[4] = {0}, ones[4] = {1, 1, 1, 1}, none[4] = {NAN, NAN, NAN, NAN};
    sylvester(zeros, zeros, FORM(INFINITY, 0, 0, 0));
    sylvester(FORM(NAN, 0, 0, 0), zeros, ones);
    sylvester(none, none, ones);

    move(5, FORM(0, 0x1p18, -1, 3, -1, -0x1p-8, 0, 3, 3, 1, 0, 0, 1, 0x1p27, 3, 0, 0, -0x1p-20, 1, 0, 0, 0, 0, 0, -1), 0, 4);
    move(4, FORM(0, 0x1p28, 1, 1, -0x1p-6, 1, -1, 0, 0, 0, 0, 0x1p19, 0, 0, -8, 0), 0, 3);
    move(3, FORM(0x1p1023, 0, 0x1p1023, 0, -0x1p1023, 1, 0, -1, -0x1p1023), 0, 2);
    move(3, FORM(1, 0x1p1023, 0, -1, 1, 0x1p1023, 0, 0, 0), 0, 2);
    move(3, FORM(0, 0, 0, 0, 2, -1, 0, 1, 0), 1, 0);
    move(4, FORM(0, 0, 0, 0, 0, 0, 0, 0, 0, 0, 2, -1, 0, 0, 1, 0), 2, 0);
    move(4, FORM(0, 0, 0, 0, 0, 0, 0, 0, 0, 0, 1, -1, 0, 0, 1, -1), 2, 0);
    seed(1);
    exchanges(100000);
    strides(1, 2, 1, 0, 0, 0);
    strides(2, 3, 5, 0, 0, 1);
    strides(1, 129, 129, 0, 0, 0);
    strides(1, 2, 2, 1, 0, 0);

    stopping_move(4, FORM(0, 0x1p28, 1, 1, -0x1p-6, 1, -1, 0, 0, 0, 0, 0x1p19, 0, 0, -8, 0), 0, 3);
    stopping_move(3, FORM(0, 0, 0, 0, 1, 0, 0, 1, 0), 0, 2);
    stopping_move(3, FORM(0, 0, 0, 1, 1, 0, 0, 0, 0), 0, 2);
    stopping_move(3, FORM(1, 0, 0x1p1023, 0, 0, 0x1p1022, 0, 1, 0), 0, 2);
    stopping_move(3, FORM(0, 0x1p1022, 0x1p1023, 1, 0, 0, 0, 0, 1), 0, 2);
    stopping_move(3, FORM(0x1p1023, 0, 0x1p1022, 0, 0x1p1023, 0, 0, 0x1p1023, 0), 0, 2);
    stopping_move(3, FORM(1, 0, 0x1p1023, 1, 0x1p1023, 0, 0, 0, 0), 0, 2);
    stopping_move(3, FORM(0, 0, 0x1p1023, 0x1p1022, 0, 0, 0, 0, 0x1p1023), 0, 2);
    seed(1);
    stops(100000);
    thresholds();
    stopping_move(3, FORM(0, 0, 0, 0, 0, 0, 0, NAN, 0), 0, 2);
    stopping_move(3, FORM(0, 0x1p512, 0, 0, 0, 0x1p512, 0, 0x1p512, 0), 0, 2);
    stopping_move(3, FORM(0, 0, 0, 0, 0, -1, 0, 1, -2), 0, 2);
    stopping_move(3, FORM(1, 0, 1, 0, 0, 0, 0, 0, 0), 0, 1);

    vectors(2, FORM(1, 8, 0, 2));
    vectors(2, FORM(1, 1, 0, 1));
    vectors(2, zeros);
    vectors(2, FORM(1.7e308, 1.7e308, 0, 1));
    double jordan[23 * 23] = {0};
    for (int i = 0; i + 1 < 23; i++)
        jordan[23 * i + i + 1] = 1;
    vectors(23, jordan);
    vectors(3, FORM(1, 2, 1, -3, 4, 1, 0, 0, 5));
    vectors(3, FORM(1, 1, 1, 1, 1, 2, 0, 0, 0));
    vectors(3, FORM(1, 1, 0, 0, 0, 1, 0, -1, 0));
    return 0;
}
