/* Chains of 50 calls of volmeixi.h on one form, each checked: what a call gives back can be sent to
 * any call again, and the form and the answers are the same with a factor of any content and with
 * none. Forms, numbers and arguments are drawn, bad ones too. Every call is made on two copies of
 * the form that have different factors, and different numbers in the rows from n on. The checks are
 * written from the list of lines alone: they know nothing of how a block is moved. A list of moves
 * is checked against the single calls, made in turn on a third copy.
 *
 *     target/bindings/chains [CHAINS [SEED [LEAST]]]
 *
 * n is LEAST to 64, mostly up to 12. Prints the counts in one line. Ends with 1 at the first check
 * that failed, after the seed, the call and the form in hexadecimal; and also if a kind of call was
 * never drawn, as can be with a few chains. */
#include "volmeixi.h"

#include <math.h>
#include <stdint.h>
#include <stdio.h>
#include <stdlib.h>
#include <string.h>

#define CALLS 50
#define BEHIND 8 /* places behind a buffer, which no call may write */
#define PAIRS 4  /* the most that a list has here */
#define MOST (128 * 64 + BEHIND)
#define PLACES(buffer) (sizeof(buffer) / sizeof(*(buffer)))

/* One of the two copies: its form and factor, the same before the call, and what the call gave. */
typedef struct {
    double t[MOST], u[MOST], old_t[MOST], old_u[MOST];
    size_t u_len, answer, landed, swaps, declined, results[4 * PAIRS + 2 + BEHIND];
    bool stopped;
} copy;

static copy copies[2], single; /* single takes a list's single calls */
static size_t n, ld, len;      /* len is ld * n */
static size_t call, x_len, x[2 * PAIRS + 1]; /* from and to, j0, n1 and n2, or a list's pairs */
static size_t results_len, seed = 1, chain, number;

/* What is counted: of calls that are carried out, which they were and what they met; of those that
 * are refused, the line. Each must have been drawn. */
enum { MOVE, STOPPING, EXCHANGE, LIST, PAIR_DONE, PAIR_REFUSED, NAN_FORM, NAN_FACTOR, LARGE, APART,
       DECLINE, STOP, SPLIT, READ, REFUSED };
static const char *const kinds[] = {
    "vx_reorder_schur", "vx_reorder_schur_stopping", "vx_schur_swap", "vx_reorder_schur_list",
    "pairs carried out", "pairs refused", "with a NaN in the form", "with a NaN in a factor",
    "with n above 12", "with a stride above n", "with a decline", "stopped",
    "with a 2-block that split", "forms read", [REFUSED + 4] = "refused by line 4",
    [REFUSED + 7] = "by 7", [REFUSED + 8] = "by 8", [REFUSED + 9] = "by 9", [REFUSED + 10] = "by 10",
    [REFUSED + 12] = "by 12"};
static size_t counts[PLACES(kinds)];

static void check(int holds, const char *what)
{
    if (holds)
        return;
    printf("seed %zu, chain %zu, call %zu: not so: %s\n", seed, chain, number, what);
    printf("%s, n %zu, stride %zu, arguments", kinds[call], n, ld);
    for (size_t k = 0; k < x_len; k++)
        printf(" %zu", x[k]);
    printf(call == LIST ? ", %zu places for results\n" : "\n", results_len);
    for (const copy *c = copies; c < copies + 2; c++)
        printf("factor's length %zu: answer %zu, landed %zu, swaps %zu, declined %zu, stopped %d\n",
               c->u_len, c->answer, c->landed, c->swaps, c->declined, c->stopped);
    for (size_t k = 0; k < len; k++)
        if (k % ld < n) {
            uint64_t bits;
            memcpy(&bits, &copies[0].old_t[k], sizeof bits);
            printf("%016llx%c", (unsigned long long)bits, k % ld == n - 1 ? '\n' : ' ');
        }
    exit(1);
}

/* ---- The checks */

/* Whether a 2-block lies across the upper edge of a row; row n is the lower edge of the last. */
static int across(const double *t, size_t row)
{
    return row > 0 && row < n && t[row + ld * (row - 1)] != 0;
}

/* Whether neither line 5 nor line 6 turns the form away. */
static int is_form(const double *t)
{
    for (size_t j = 0; j < n; j++) {
        for (size_t i = j + 2; i < n; i++)
            if (t[i + ld * j] != 0)
                return 0;
        if (across(t, j) && across(t, j + 1))
            return 0;
    }
    return 1;
}

/* Whether a buffer holds the bits that it held, and whether its rows from n on do. */
static int stayed(const double *buffer, const double *old)
{
    return memcmp(buffer, old, (len + BEHIND) * sizeof *old) == 0;
}

static int rest_stayed(const double *buffer, const double *old)
{
    for (size_t k = 0; k < len; k += ld)
        if (memcmp(buffer + k + n, old + k + n, (ld - n) * sizeof *old) != 0)
            return 0;
    return memcmp(buffer + len, old + len, BEHIND * sizeof *old) == 0;
}

/* All NaNs count as one; the zeros are told apart. */
static int same_forms(const double *s, const double *t)
{
    for (size_t k = 0; k < len; k++)
        if (k % ld < n && !(isnan(s[k]) && isnan(t[k])) && memcmp(&s[k], &t[k], sizeof *s) != 0)
            return 0;
    return 1;
}

/* The first line that applies to the call, or 0. */
static size_t line(const double *t, size_t u_len)
{
    if (call == LIST)
        return x_len % 2 != 0 || results_len < 2 * x_len ? 12 : 0;
    if (u_len != len && u_len != 0)
        return 4;
    if (x[0] >= n || (call != EXCHANGE && x[1] >= n))
        return 7;
    if (call != EXCHANGE)
        return 0;
    if ((x[1] != 1 && x[1] != 2) || (x[2] != 1 && x[2] != 2))
        return 8;
    if (x[0] + x[1] + x[2] > n)
        return 9;
    if (across(t, x[0]) || across(t, x[0] + x[1]) || across(t, x[0] + x[1] + x[2]))
        return 10;
    return 0;
}

/* The results of a list, its form and its factor are the single calls'. */
static void check_list(const copy *c)
{
    size_t results[PLACES(c->results)], pairs = c->answer == 0 ? x_len / 2 : 0;
    memcpy(single.t, c->old_t, (len + BEHIND) * sizeof *c->t);
    memcpy(single.u, c->old_u, (len + BEHIND) * sizeof *c->u);
    for (size_t k = 0; k < PLACES(results); k++)
        results[k] = 99;
    for (size_t k = 0; k < pairs; k++) {
        size_t *four = results + 4 * k;
        four[0] = vx_reorder_schur(n, ld, single.t, len, single.u, c->u_len, x[2 * k], x[2 * k + 1],
                                   four + 1, four + 2, four + 3);
    }
    check(memcmp(c->results, results, sizeof results) == 0, "each pair has its results, no more");
    check(same_forms(c->t, single.t), "the form is as the single calls leave it");
    check(same_forms(c->u, single.u), "the factor is as the single calls leave it");
}

static void check_copy(const copy *c)
{
    check(c->answer == line(c->old_t, c->u_len), "the answer is the first line that applies");
    check(is_form(c->t), "the form passes lines 5 and 6");
    check(rest_stayed(c->t, c->old_t), "the form's rows from n on stay");
    check(rest_stayed(c->u, c->old_u), "the factor's rows from n on stay");
    if (c->answer != 0 || c->u_len == 0)
        check(stayed(c->u, c->old_u), "a factor that is refused, or not lent, stays");
    if (call == LIST)
        check_list(c);
    if (c->answer != 0) {
        check(stayed(c->t, c->old_t), "a form that is refused stays");
        check(!c->landed && !c->swaps && !c->declined && !c->stopped, "refused, all is zero");
    } else if (call == EXCHANGE) {
        int apart =
            x[1] == 2 && x[2] == 2 && !across(c->old_t, x[0] + 1) && !across(c->old_t, x[0] + 3);
        check(c->swaps >= 1 && c->swaps <= 4 && (c->swaps == 4) == apart, "one to four swaps");
        check(c->declined <= c->swaps, "swaps that declined are swaps");
    } else if (call != LIST) {
        check(c->landed < n && c->declined <= c->swaps, "it landed in a row, by swaps");
        check(call == MOVE || c->declined == c->stopped, "one declined if it stopped, else none");
        check(c->stopped || !across(c->t, c->landed), "it landed on the first row of a block");
    }
}

/* The checks must see what is wrong, and that alone: on a form of three rows at stride 4. */
static void check_the_checks(void)
{
    double *s = copies[0].t, *t = copies[1].t;
    int right = 1;
    n = 3, ld = 4, len = 12;
    for (size_t k = 0; k < len + BEHIND; k++)
        s[k] = t[k] = k % ld < n && k % ld > k / ld ? -0.0 : NAN;
    t[1] = 0x1p-1074;
    right &= is_form(s) && is_form(t) && !same_forms(s, t) && rest_stayed(s, t); /* other copy */
    t[2 + ld] = NAN;
    right &= !is_form(t) && rest_stayed(s, t); /* two 2-blocks that touch */
    t[1] = t[2 + ld] = -0.0;
    t[2] = NAN;
    right &= !is_form(t) && rest_stayed(s, t); /* an entry two rows below the diagonal */
    t[2] = 0.0;
    right &= is_form(t) && !same_forms(s, t) && !stayed(s, t); /* a zero's sign */
    t[2] = -0.0;
    right &= same_forms(s, t) && stayed(s, t);
    ((unsigned char *)t)[0] ^= 1;
    right &= same_forms(s, t) && !stayed(s, t) && rest_stayed(s, t); /* another NaN */
    for (size_t k = 3; k < len + BEHIND; k += k < len - 1 ? ld : 1) {
        memcpy(t, s, sizeof copies[0].t);
        ((unsigned char *)&t[k])[0] ^= 1;
        right &= same_forms(s, t) && !rest_stayed(s, t) && !stayed(s, t); /* a bit beyond n */
    }
    if (!right) {
        printf("the checks do not see what is wrong\n");
        exit(1);
    }
}

/* ---- The draws */

static uint64_t state;

static uint64_t draw(void) /* splitmix64 */
{
    uint64_t z = state += 0x9e3779b97f4a7c15;
    z = (z ^ z >> 30) * 0xbf58476d1ce4e5b9;
    z = (z ^ z >> 27) * 0x94d049bb133111eb;
    return z ^ z >> 31;
}

static size_t below(size_t bound)
{
    return (size_t)(draw() % bound);
}

/* Styles of numbers. The first have the range of their exponent bits: 0 is subnormal, 1023 is 1 to
 * 2, 2047 is infinity or a NaN. */
enum { ORDINARY, SCALES, TINY, SUBNORMAL, LOUD, BITS, INTEGERS, ALIKE, ODD, STYLES };
static const uint64_t exponents[][2] = {{1019, 1025}, {900, 1150},  {0, 60},
                                        {0, 0},       {1980, 2046}, {0, 2047}};
static const double odd[] = {
    0, -0.0, INFINITY, -INFINITY, NAN, -NAN, 0x1p-1074, 0x1p-1022, 0x1.fffffffffffffp1023, 1};

static double drawn(size_t style)
{
    if (style == ODD)
        return odd[below(PLACES(odd))];
    if (style >= PLACES(exponents))
        return (double)below(5) - 2;
    const uint64_t *range = exponents[style];
    uint64_t bits = draw() & 0x800fffffffffffff;
    double result;
    bits |= (range[0] + draw() % (range[1] - range[0] + 1)) << 52;
    memcpy(&result, &bits, sizeof result);
    return result;
}

/* A chain's numbers are of one style; one in `spice` is of any, unless that is 0. */
static size_t style, spice;

static double any(void)
{
    return drawn(spice && below(spice) == 0 ? below(STYLES) : style);
}

/* The block of rows (a, b) and (c, d) in rows j and j + 1: as drawn, or with a complex pair. Alike
 * ones have one pair at other scales, now and then off by the last bit: their swaps may decline. */
static void draw_two_block(double *t, size_t j)
{
    const double scales[5] = {1, 0x1p13, 0x1p-13, 0x1p27, 0x1p-27};
    double *a = &t[j + ld * j], *b = a + ld, *c = a + 1, *d = b + 1;
    do
        *c = any();
    while (*c == 0);
    if (below(4) == 0)
        return;
    if (style == ALIKE) {
        *a = below(4) ? 1 : 1 + 0x1p-52;
        *b = scales[below(5)];
        *c = 1 / *b;
    }
    *d = *a;
    *b = (*b > 0) == (*c > 0) ? -*b : *b;
}

static void draw_form(size_t least)
{
    double *t = copies[0].t, *other = copies[1].t;
    int large = least > 12 || below(16) == 0;
    n = large && least < 13 ? 13 : least;
    n += below((large ? 65 : 13) - n);
    ld = below(2) ? n : n + below(below(2) ? 129 - n : 4);
    len = ld * n;
    style = below(4) ? below(STYLES) : ALIKE;
    spice = (size_t[]){0, 200, 10}[below(3)];
    for (size_t k = 0; k < len + BEHIND; k++) {
        size_t i = k % ld, j = k / ld;
        t[k] = i >= n || j >= n ? drawn(BITS) : i <= j ? any() : below(2) ? 0.0 : -0.0;
    }
    for (size_t j = 0; j + 1 < n; j++)
        if (below(2))
            draw_two_block(t, j++);
    for (size_t k = 0; k < len + BEHIND; k++)
        other[k] = k % ld < n && k < len ? t[k] : drawn(ODD);
}

/* Numbers for factors: ordinary ones, then ones of all styles. A factor is a part of them. */
static double stock[2 * MOST];

/* In careless calls a third of the arguments is bad. */
static void draw_call(void)
{
    const size_t far[4] = {n, n + 1 + below(1000), (size_t)-1, (size_t)-2};
    const size_t sizes[4] = {0, 3, (size_t)-1, (size_t)-3};
    const double *t = copies[0].t;
    int careless = below(4) == 0, wrong = careless && below(3) == 0;
    call = below(4);
    x_len = call == EXCHANGE ? 3 : call == LIST ? 2 * below(PAIRS + 1) : 2;
    x_len += call == LIST && careless && below(4) == 0;
    results_len = careless && below(4) == 0 ? below(2 * x_len + 1) : 2 * x_len + below(BEHIND);
    for (size_t k = 0; k < x_len; k++) {
        int bad = careless && below(3) == 0;
        if (k > 0 && call == EXCHANGE)
            x[k] = bad ? sizes[below(4)] : 1 + below(2);
        else
            x[k] = bad ? far[below(4)] : below(n);
    }
    if (call == EXCHANGE && !careless && below(4)) { /* two blocks as they stand */
        x[0] -= across(t, x[0]);
        x[1] = 1 + across(t, x[0] + 1);
        x[2] = 1 + across(t, x[0] + x[1] + 1);
    }
    for (size_t k = 0; k < 2; k++) { /* one copy has a factor, the other none or another */
        size_t *u_len = &copies[k].u_len;
        *u_len = (number + k) % 2 && below(4) ? 0 : len;
        while (wrong && (*u_len == 0 || *u_len == len))
            *u_len = below(2) ? len + 1 - 2 * below(2) : below(len + BEHIND);
        memcpy(copies[k].u, stock + below(2 * MOST - len - BEHIND), (len + BEHIND) * sizeof *stock);
    }
}

/* ---- A chain */

static void make_call(copy *c)
{
    double *t = c->t, *u = c->u_len == 0 && number % 3 ? NULL : c->u;
    memcpy(c->old_t, c->t, (len + BEHIND) * sizeof *c->t);
    memcpy(c->old_u, c->u, (len + BEHIND) * sizeof *c->u);
    c->stopped = call == STOPPING;
    c->landed = call == EXCHANGE || call == LIST ? 0 : 99;
    c->swaps = c->declined = call == LIST ? 0 : 99;
    for (size_t k = 0; k < PLACES(c->results); k++)
        c->results[k] = 99;
    if (call == LIST)
        c->answer = vx_reorder_schur_list(n, ld, t, len, u, c->u_len, x_len ? x : NULL, x_len,
                                          c->results, results_len);
    else if (call == MOVE)
        c->answer = vx_reorder_schur(n, ld, t, len, u, c->u_len, x[0], x[1], &c->landed, &c->swaps,
                                     &c->declined);
    else if (call == STOPPING)
        c->answer = vx_reorder_schur_stopping(n, ld, t, len, u, c->u_len, x[0], x[1], &c->stopped,
                                              &c->landed, &c->swaps, &c->declined);
    else
        c->answer =
            vx_schur_swap(n, ld, t, len, u, c->u_len, x[0], x[1], x[2], &c->swaps, &c->declined);
}

/* The calls that only read take the form as it is. */
static void read_form(copy *c)
{
    double re[64], im[64];
    memcpy(c->old_t, c->t, (len + BEHIND) * sizeof *c->t);
    check(vx_block_values(n, ld, c->t, len, re, n, im, n) == 0, "it has values");
    check(vx_standardised_values(n, ld, c->t, len, re, n, im, n) == 0, "a copy of it has values");
    check(vx_evd_from_real_schur(n, ld, c->t, len, c->u, len) == 0, "it has vectors");
    check(stayed(c->t, c->old_t), "a form that is read stays");
}

static size_t two_blocks(const double *t)
{
    size_t count = 0;
    for (size_t row = 1; row < n; row++)
        count += across(t, row);
    return count;
}

static int has_nan(const double *t)
{
    for (size_t k = 0; k < len; k++)
        if (k % ld < n && isnan(t[k]))
            return 1;
    return 0;
}

static void run_chain(size_t least)
{
    copy *a = &copies[0], *b = &copies[1];
    state = (uint64_t)seed << 32 ^ chain;
    draw_form(least);
    for (number = 1; number <= CALLS; number++) {
        draw_call();
        make_call(a);
        make_call(b);
        check_copy(a);
        check_copy(b);
        check(same_forms(a->t, b->t), "the form is the same with both factors");
        check(a->answer == b->answer && a->landed == b->landed && a->swaps == b->swaps &&
                  a->declined == b->declined && a->stopped == b->stopped &&
                  memcmp(a->results, b->results, sizeof a->results) == 0,
              "the answer is the same with both factors");
        counts[a->answer ? REFUSED + a->answer : call]++;
        for (size_t k = 0; call == LIST && a->answer == 0 && k < 2 * x_len; k += 4) {
            counts[a->results[k] ? PAIR_REFUSED : PAIR_DONE]++;
            a->declined += a->results[k + 3];
        }
        if (a->answer == 0) {
            counts[NAN_FORM] += has_nan(a->old_t);
            counts[NAN_FACTOR] += has_nan(a->u_len ? a->old_u : b->old_u);
            counts[LARGE] += n > 12;
            counts[APART] += ld > n;
            counts[DECLINE] += a->declined > 0 && !a->stopped;
            counts[STOP] += a->stopped;
            counts[SPLIT] += two_blocks(a->t) < two_blocks(a->old_t);
        }
        if (below(8) == 0) {
            read_form(a);
            read_form(b);
            counts[READ]++;
        }
    }
}

int main(int argc, char **argv)
{
    size_t chains = argc > 1 ? strtoul(argv[1], NULL, 10) : 10000;
    size_t least = argc > 3 ? strtoul(argv[3], NULL, 10) : 1;
    int missing = 0;
    seed = argc > 2 ? strtoul(argv[2], NULL, 10) : 1;
    if (least < 1 || least > 64) {
        printf("LEAST is 1 to 64\n");
        return 2;
    }
    check_the_checks();
    state = seed;
    for (size_t k = 0; k < PLACES(stock); k++)
        stock[k] = drawn(k < MOST ? ORDINARY : below(STYLES));
    for (chain = 1; chain <= chains; chain++)
        run_chain(least);
    printf("%zu chains from seed %zu, %zu calls on two copies: ", chains, seed, chains * CALLS);
    for (size_t k = 0; k < PLACES(kinds); k++)
        if (kinds[k]) {
            printf("%s%s %zu", k ? ", " : "", kinds[k], counts[k]);
            missing |= counts[k] == 0;
        }
    printf("\n%s", missing ? "a kind of call was never drawn\n" : "");
    return missing;
}
