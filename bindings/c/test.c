/* The test of volmeixi.h: calls every function, checks document 01's worked values, every number
 * that can come back, that a call which is turned away leaves all its buffers and gives zeros, that
 * at every stride a call gives what it gives without gaps and leaves the rows beyond, and that a
 * list of moves is its single calls in turn.
 * Prints each check that failed and the count of those that passed; ends with 1 if any failed. */
#include "volmeixi.h"

#include <math.h>
#include <stdint.h>
#include <stdio.h>
#include <string.h>

#define MOST (129 * 65)
#define PLACES(buffer) (sizeof(buffer) / sizeof(*(buffer)))
#define CHECK(holds) check((holds), #holds, __LINE__)
#define SAME(x, y) check(same_bits((x), (y)), #x " is " #y, __LINE__)

static int passed, failed;

static void check(int holds, const char *what, int line)
{
    if (holds) {
        passed++;
        return;
    }
    failed++;
    printf("line %d: not so: %s\n", line, what);
}

/* All NaNs count as one; the zeros are told apart. */
static int same_bits(double x, double y)
{
    return (isnan(x) && isnan(y)) || memcmp(&x, &y, sizeof x) == 0;
}

static void fill(double *buffer, double x)
{
    for (size_t k = 0; k < MOST; k++)
        buffer[k] = x;
}

/* What the buffers of a call hold before it, and a copy that the call does not see. */
static double t[MOST], u[MOST], old_t[MOST], old_u[MOST];
static bool stopped;
static size_t landed, swaps, declined;

static void lend(const double *form, size_t len)
{
    fill(t, 0.0);
    fill(u, 9.0);
    memcpy(t, form, len * sizeof *form);
    memcpy(old_t, t, sizeof t);
    memcpy(old_u, u, sizeof u);
    stopped = true;
    landed = swaps = declined = 9;
}

static int untouched(void)
{
    return memcmp(t, old_t, sizeof t) == 0 && memcmp(u, old_u, sizeof u) == 0;
}

static const double zeros[MOST];
static const double one_two_three[9] = {1, 0, 0, 0, 2, 0, 0, 0, 3};
static const double one_to_four[16] = {1, 0, 0, 0, 0, 2, 0, 0, 0, 0, 3, 0, 0, 0, 0, 4};
static const double turn[4] = {0, -1, 1, 0}; /* the 2-block of rows (0, 1) and (-1, 0) */

/* The two calls for the values of a form's blocks, which have the same parameters and lines. */
typedef size_t values_call(size_t n, size_t ld, const double *t, size_t t_len, double *re,
                           size_t re_len, double *im, size_t im_len);
static values_call *const both[2] = {vx_block_values, vx_standardised_values};

/* Two 2-blocks with equal values and other scales, whose swap declines. */
static const double alike[16] = {0, -1, 0, 0, 1, 0, 0, 0, 1, 0, 0, -1e-8, 0, 1, 1e8, 0};

/* The same two with another pair between them, which both can pass. */
static const double alike_apart[36] = {0, -1, 0, 0, 0, 0,     1, 0, 0, 0, 0,   0,
                                       0, 0,  4, -2, 0, 0,    0, 0, 2, 4, 0,   0,
                                       1, 0,  0, 0, 0, -1e-8, 0, 1, 0, 0, 1e8, 0};

static void arithmetic(void)
{
    const double list[3] = {-2, 3, 6};
    SAME(vx_sqrt(4), 2.0);
    SAME(vx_sqrt(0x1p-1074), 0x1p-537);
    SAME(vx_sqrt(-0.0), -0.0);
    SAME(vx_sqrt(-1), NAN);
    SAME(vx_sqrt(INFINITY), INFINITY);
    SAME(vx_hypot(3, 4), 5.0);
    SAME(vx_hypot(2, 3), 3.605551275463989);
    SAME(vx_hypot(-0.0, -0.0), 0.0);
    SAME(vx_hypot(NAN, -INFINITY), INFINITY);
    SAME(vx_norm_l2(list, 3), vx_hypot(vx_hypot(2, 3), 6));
    SAME(vx_norm_l2(list, 1), 2.0);
    SAME(vx_norm_l2(NULL, 0), 0.0);
    SAME(vx_abs(-3), 3.0);
    SAME(vx_abs1(-0.0), 0.0);
    SAME(vx_abs2(-3), 9.0);
    SAME(vx_recip(4), 0.25);
    SAME(vx_mul_pow2(3, 0.5), 1.5);
    SAME(vx_fmax(1, NAN), 1.0);
    SAME(vx_fmax(NAN, 1), 1.0);
    SAME(vx_fmax(0.0, -0.0), -0.0);
    SAME(vx_fmin(1, 2), 1.0);
    SAME(vx_fmin(2, NAN), 2.0);
}

static void rotations(void)
{
    double c = 9, s = 9, r = 9, x = 5, y = 7;
    vx_rotg(3, 4, &c, &s, &r);
    SAME(c, 0.6);
    SAME(s, -0.8);
    SAME(r, 5.0);
    vx_rotg(7, -0.0, &c, &s, &r);
    SAME(s, 0.0);
    vx_rotg(0, 7, &c, &s, &r);
    SAME(s, -1.0);

    vx_adjoint(1, 0, &c, &s);
    SAME(c, 1.0);
    SAME(s, -0.0);

    vx_apply(2, 3, x, y, &x, &y);
    SAME(x, 31.0);
    SAME(y, -1.0);
}

static void reflections(void)
{
    double tail[66], head = 9, tau = 9, inv = 9, norm = 9;
    for (size_t i = 0; i < 66; i++)
        tail[i] = 1;
    CHECK(vx_make_householder_in_place(1, tail, 65, &head, &tau, &inv, &norm) == VX_TAIL_LENGTH);
    for (size_t i = 0; i < 66; i++)
        CHECK(tail[i] == 1);
    SAME(head, 0.0);
    SAME(tau, 0.0);
    SAME(inv, 0.0);
    SAME(norm, 0.0);
    CHECK(vx_make_householder_in_place(1, NULL, 0, &head, &tau, &inv, &norm) == VX_TAIL_LENGTH);

    CHECK(vx_make_householder_in_place(1, tail, 3, &head, &tau, &inv, &norm) == VX_DONE);
    CHECK(tail[0] != 1 && tail[3] == 1);

    /* Every number of a tail of 64 is multiplied by the same one, and none behind it. */
    for (size_t i = 0; i < 66; i++)
        tail[i] = (double)i - 20;
    CHECK(vx_make_householder_in_place(-3, tail, 64, &head, &tau, &inv, &norm) == VX_DONE);
    for (size_t i = 0; i < 64; i++)
        SAME(tail[i], ((double)i - 20) * inv);
    CHECK(tail[64] == 44 && tail[65] == 45);

    /* The norm from left to right: behind a 1 each of the others vanishes, before it they do not. */
    double falling[64] = {1}, rising[64];
    for (size_t i = 1; i < 64; i++)
        falling[i] = 0x1p-27;
    for (size_t i = 0; i < 64; i++)
        rising[i] = falling[63 - i];
    CHECK(vx_make_householder_in_place(0, falling, 64, &head, &tau, &inv, &norm) == VX_DONE);
    SAME(norm, 1.0);
    CHECK(vx_make_householder_in_place(0, rising, 64, &head, &tau, &inv, &norm) == VX_DONE);
    CHECK(norm > 1);

    /* The sign is the head times the rounded reciprocal of its magnitude: for 49 it is not 1. */
    tail[0] = 1;
    CHECK(vx_make_householder_in_place(49, tail, 1, &head, &tau, &inv, &norm) == VX_DONE);
    CHECK(49 * (1.0 / 49) != 1);
    SAME(head, -(49 * (1.0 / 49) * norm));
    SAME(tail[0], inv);

    tail[0] = 0x1p-1023;
    CHECK(vx_make_householder_in_place(0x1p-1023, tail, 1, &head, &tau, &inv, &norm) == VX_DONE);
    SAME(tail[0], 0x1p-1023);
    SAME(head, 0.0);
    SAME(tau, INFINITY);
}

/* The ten results of vx_lahqr_schur22, in their order. */
static void standardise(double a, double b, double c, double d, double *x)
{
    CHECK(vx_lahqr_schur22(a, b, c, d, x, x + 1, x + 2, x + 3, x + 4, x + 5, x + 6, x + 7, x + 8,
                           x + 9) == VX_DONE);
}

static void blocks_of_two(void)
{
    const double real[10] = {7, -2, 0, 5, 7, 0, 5, 0, 0, 1};
    const double complex[10] = {0, 1, -1, 0, 0, 1, 0, -1, 1, 0};
    const double tl[4] = {3, 0, 0, 3}, tr[4] = {1, 0, 0, 1}, b[4] = {2, 4, 6, 8};
    const double solution[4] = {1, 2, 3, 4};
    double out[10], x[4], scale;
    standardise(5, 0, 2, 7, out);
    for (size_t k = 0; k < 10; k++)
        CHECK(out[k] == real[k]);
    standardise(0, 1, -1, 0, out);
    for (size_t k = 0; k < 10; k++)
        CHECK(out[k] == complex[k]);

    vx_lasy2(tl, tr, b, x, &scale);
    for (size_t k = 0; k < 4; k++)
        SAME(x[k], solution[k]);
    SAME(scale, 1.0);
    vx_lasy2(tr, tl, tr, x, &scale); /* const matrices may be one and the same */
    SAME(x[0], -0.5);
}

/* As README.md has it. */
static void example(void)
{
    double t[9] = {1, 0, 0, 0, 2, 0, 0, 0, 3};
    size_t landed, swaps, declined;
    size_t answer = vx_reorder_schur(3, 3, t, 9, NULL, 0, 0, 2, &landed, &swaps, &declined);
    CHECK(answer == VX_DONE);
    CHECK(t[0] == 2 && t[4] == 3 && t[8] == 1);
    CHECK(landed == 2 && swaps == 2 && declined == 0);
}

static size_t move(size_t n, size_t ld, size_t t_len, size_t u_len, size_t from, size_t to)
{
    return vx_reorder_schur(n, ld, t, t_len, u_len ? u : NULL, u_len, from, to, &landed, &swaps,
                            &declined);
}

/* The same by the move that stops: the row that it calls `here` is in `landed`. */
static size_t stopping(size_t n, size_t ld, size_t t_len, size_t u_len, size_t from, size_t to)
{
    return vx_reorder_schur_stopping(n, ld, t, t_len, u_len ? u : NULL, u_len, from, to, &stopped,
                                     &landed, &swaps, &declined);
}

/* Both; the mark is set before, and the other leaves it. */
typedef size_t mover(size_t n, size_t ld, size_t t_len, size_t u_len, size_t from, size_t to);
static mover *const movers[2] = {move, stopping};

static void moves(void)
{
    const double unit[4] = {1, 0, 0, 1}, one_two[4] = {1, 0, 0, 2};
    const double moved_t[4] = {2, 0, 0, 1}, moved_u[4] = {0, 1, -1, 0};

    lend(one_two_three, 9);
    CHECK(move(3, 3, 9, 0, 0, 2) == VX_DONE);
    CHECK(t[0] == 2 && t[4] == 3 && t[8] == 1);
    CHECK(landed == 2 && swaps == 2 && declined == 0);
    lend(one_two_three, 9);
    CHECK(move(3, 3, 9, 9, 2, 0) == VX_DONE);
    CHECK(t[0] == 3 && t[4] == 1 && t[8] == 2);
    CHECK(landed == 0 && swaps == 2 && declined == 0);

    lend(one_two, 4);
    memcpy(u, unit, sizeof unit);
    CHECK(move(2, 2, 4, 4, 0, 1) == VX_DONE);
    for (size_t k = 0; k < 4; k++) {
        SAME(t[k], moved_t[k]);
        SAME(u[k], moved_u[k]);
    }

    lend(turn, 4);
    CHECK(move(2, 2, 4, 0, 1, 0) == VX_DONE);
    CHECK(landed == 0 && swaps == 0 && declined == 0);
    CHECK(memcmp(t, old_t, sizeof t) == 0);

    lend(alike, 16);
    CHECK(move(4, 4, 16, 0, 0, 2) == VX_DONE);
    CHECK(landed == 2 && swaps == 1 && declined == 1);
    CHECK(memcmp(t, old_t, sizeof t) == 0);

    lend(zeros, 0);
    CHECK(move(64, 64, 64 * 64, 0, 63, 0) == VX_DONE);
    CHECK(landed == 0 && swaps == 63);
}

static void stopping_moves(void)
{
    const double unit[4] = {1, 0, 0, 1}, one_two[4] = {1, 0, 0, 2};
    const double moved_t[4] = {2, 0, 0, 1}, moved_u[4] = {0, 1, -1, 0};
    const double loud[2][9] = {{0x1p1022, 0, 0, 0x1p1000, 0, 1, 0x1p1023, 0, 0},
                               {-0x1p1023, 1, 0, 0x1p1023, 1, 0, 0, 0, 0}};
    const double twofold[9] = {-4, 0, 0, 0, -4, -1, 0, 1, -2};

    /* To its end: on a triangular form it does what the other move does. */
    lend(one_two_three, 9);
    CHECK(stopping(3, 3, 9, 0, 0, 2) == VX_DONE);
    CHECK(t[0] == 2 && t[4] == 3 && t[8] == 1);
    CHECK(!stopped && landed == 2 && swaps == 2 && declined == 0);
    lend(one_two, 4);
    memcpy(u, unit, sizeof unit);
    CHECK(stopping(2, 2, 4, 4, 1, 0) == VX_DONE);
    CHECK(!stopped && landed == 0 && swaps == 1 && declined == 0);
    for (size_t k = 0; k < 4; k++) {
        SAME(t[k], moved_t[k]);
        SAME(u[k], moved_u[k]);
    }
    lend(turn, 4);
    CHECK(stopping(2, 2, 4, 0, 1, 0) == VX_DONE);
    CHECK(!stopped && landed == 0 && swaps == 0 && declined == 0);
    CHECK(memcmp(t, old_t, sizeof t) == 0);
    lend(zeros, 0);
    CHECK(stopping(64, 64, 64 * 64, 0, 63, 0) == VX_DONE);
    CHECK(!stopped && landed == 0 && swaps == 63 && declined == 0);

    /* The first exchange fails: it counts, and nothing is written. */
    for (size_t from = 0; from < 2; from++) {
        lend(alike, 16);
        CHECK(stopping(4, 4, 16, 16, from, 3) == VX_DONE);
        CHECK(stopped && landed == 0 && swaps == 1 && declined == 1);
        CHECK(untouched());
    }
    lend(alike, 16);
    CHECK(stopping(4, 4, 16, 16, 2, 0) == VX_DONE);
    CHECK(stopped && landed == 2 && swaps == 1 && declined == 1);
    CHECK(untouched());

    /* So do a row and a pair, and a pair and a row, whose reflections overflow. The other move has no
     * test there. */
    for (size_t k = 0; k < PLACES(loud); k++) {
        lend(loud[k], 9);
        CHECK(stopping(3, 3, 9, 9, 0, 2) == VX_DONE);
        CHECK(stopped && landed == 0 && swaps == 1 && declined == 1);
        CHECK(untouched());
        CHECK(move(3, 3, 9, 9, 0, 2) == VX_DONE);
        CHECK(landed == 2 - k && swaps == 1 && declined == 0);
    }

    /* The second fails: form and factor are as a move to where it stopped leaves them. */
    lend(alike_apart, 36);
    CHECK(stopping(6, 6, 36, 36, 0, 2) == VX_DONE);
    CHECK(!stopped && landed == 2 && swaps == 1 && declined == 0);
    memcpy(old_t, t, sizeof t);
    memcpy(old_u, u, sizeof u);
    memcpy(t, alike_apart, sizeof alike_apart);
    fill(u, 9.0);
    CHECK(stopping(6, 6, 36, 36, 0, 5) == VX_DONE);
    CHECK(stopped && landed == 2 && swaps == 2 && declined == 1);
    CHECK(untouched());

    /* Where it stops, the other move goes on, here past the pair below the two. */
    lend(alike_apart, 36);
    CHECK(stopping(6, 6, 36, 0, 4, 0) == VX_DONE);
    CHECK(stopped && landed == 2 && swaps == 2 && declined == 1);
    CHECK(stopping(6, 6, 36, 0, 0, 5) == VX_DONE);
    CHECK(stopped && landed == 0 && swaps == 1 && declined == 1);
    CHECK(move(6, 6, 36, 0, 0, 5) == VX_DONE);
    CHECK(landed == 4 && swaps == 2 && declined == 1);

    /* A pair that is standardised to b zero splits, as dlanv2 has it; the other move leaves it so. */
    lend(twofold, 9);
    CHECK(stopping(3, 3, 9, 0, 0, 2) == VX_DONE);
    CHECK(!stopped && landed == 2 && swaps == 1 && declined == 0);
    CHECK(t[0] == -3 && t[1] == 0 && t[3] == -2 && t[4] == -3 && t[8] == -4);
    lend(twofold, 9);
    CHECK(move(3, 3, 9, 0, 0, 2) == VX_DONE);
    CHECK(t[0] == -3 && t[1] == 2 && t[3] == 0 && t[4] == -3 && t[8] == -4);
}

/* A list of moves, with room for 65 pairs and a number more, and its results, which hold before the
 * call what no call gives. */
#define BEFORE ((size_t)-1)
static size_t list[131], results[4 * 65 + 1];

/* The call on the lent buffers, with so many places of both. */
static size_t list_of(size_t n, size_t ld, size_t t_len, size_t u_len, size_t moves_len,
                      size_t results_len)
{
    for (size_t k = 0; k < PLACES(results); k++)
        results[k] = BEFORE;
    return vx_reorder_schur_list(n, ld, t, t_len, u_len ? u : NULL, u_len, list, moves_len, results,
                                 results_len);
}

/* Whether these are the first results, and all places after them stay. */
static int results_are(const size_t *wanted, size_t len)
{
    for (size_t k = 0; k < PLACES(results); k++)
        if (results[k] != (k < len ? wanted[k] : BEFORE))
            return 0;
    return 1;
}

static void exchanges(void)
{
    lend(one_two_three, 9);
    CHECK(vx_schur_swap(3, 3, t, 9, NULL, 0, 1, 1, 1, &swaps, &declined) == VX_DONE);
    CHECK(t[0] == 1 && t[4] == 3 && t[8] == 2);
    CHECK(swaps == 1 && declined == 0);

    lend(one_to_four, 16); /* two pairs, each with a zero inside */
    CHECK(vx_schur_swap(4, 4, t, 16, NULL, 0, 0, 2, 2, &swaps, &declined) == VX_DONE);
    CHECK(t[0] == 3 && t[5] == 4 && t[10] == 1 && t[15] == 2);
    CHECK(swaps == 4 && declined == 0);
}

/* The number that a call on the lent buffers gives: it must leave them all, and count nothing. Both
 * moves give the same, and a list has it for each pair, and three zeros. */
static size_t refused_move(size_t n, size_t ld, size_t t_len, size_t u_len, size_t from, size_t to)
{
    landed = swaps = declined = 9;
    size_t number = move(n, ld, t_len, u_len, from, to);
    CHECK(untouched() && landed == 0 && swaps == 0 && declined == 0);
    stopped = true;
    landed = swaps = declined = 9;
    CHECK(stopping(n, ld, t_len, u_len, from, to) == number);
    CHECK(untouched() && !stopped && landed == 0 && swaps == 0 && declined == 0);
    const size_t twice[8] = {number, 0, 0, 0, number, 0, 0, 0};
    list[0] = list[2] = from;
    list[1] = list[3] = to;
    CHECK(list_of(n, ld, t_len, u_len, 4, PLACES(results)) == VX_DONE);
    CHECK(untouched() && results_are(twice, 8));
    return number;
}

static size_t refused_exchange(size_t n, size_t ld, size_t t_len, size_t u_len, size_t j0,
                               size_t n1, size_t n2)
{
    swaps = declined = 9;
    size_t number = vx_schur_swap(n, ld, t, t_len, u, u_len, j0, n1, n2, &swaps, &declined);
    CHECK(untouched() && swaps == 0 && declined == 0);
    return number;
}

static void refusals(void)
{
    double deep[9], touching[9];
    memcpy(deep, one_two_three, sizeof deep);
    memcpy(touching, one_two_three, sizeof touching);
    deep[2] = NAN;
    touching[1] = touching[5] = 1;

    lend(one_two_three, 9);
    CHECK(refused_move(0, 0, 0, 0, 0, 0) == VX_ROWS);
    CHECK(refused_move(65, 65, 65 * 65, 0, 0, 1) == VX_ROWS);
    CHECK(refused_move(3, 3, 8, 0, 0, 1) == VX_FORM_LENGTH);
    CHECK(refused_move(3, 3, 9, 8, 0, 1) == VX_BUFFER_LENGTH);
    CHECK(refused_move(3, 3, 9, 9, 3, 0) == VX_POSITION);
    CHECK(refused_move(3, 3, 9, 9, 0, 3) == VX_POSITION);
    CHECK(refused_exchange(0, 0, 0, 0, 0, 1, 1) == VX_ROWS);
    CHECK(refused_exchange(65, 65, 65 * 65, 0, 0, 1, 1) == VX_ROWS);
    CHECK(refused_exchange(3, 3, 10, 9, 0, 1, 1) == VX_FORM_LENGTH);
    CHECK(refused_exchange(3, 3, 9, 1, 0, 1, 1) == VX_BUFFER_LENGTH);
    CHECK(refused_exchange(3, 3, 9, 9, 3, 1, 1) == VX_POSITION);
    CHECK(refused_exchange(3, 3, 9, 9, 0, 3, 1) == VX_BLOCK_SIZE);
    CHECK(refused_exchange(3, 3, 9, 9, 0, 1, 0) == VX_BLOCK_SIZE);
    CHECK(refused_exchange(3, 3, 9, 9, 2, 1, 1) == VX_PAST_END);
    lend(turn, 4);
    CHECK(refused_exchange(2, 2, 4, 4, 0, 1, 1) == VX_ACROSS);
    lend(deep, 9);
    CHECK(refused_move(3, 3, 9, 9, 0, 1) == VX_DEEP_ENTRY);
    CHECK(refused_exchange(3, 3, 9, 9, 0, 1, 1) == VX_DEEP_ENTRY);
    lend(touching, 9);
    CHECK(refused_move(3, 3, 9, 9, 0, 1) == VX_TOUCHING);
    CHECK(refused_exchange(3, 3, 9, 9, 0, 1, 1) == VX_TOUCHING);

    /* Values and vectors, whose results would go to u. */
    for (size_t k = 0; k < PLACES(both); k++) {
        CHECK(both[k](0, 0, t, 0, u, 0, u + 64, 0) == VX_ROWS);
        CHECK(both[k](65, 65, t, 65 * 65, u, 65, u + 65, 65) == VX_ROWS);
        CHECK(both[k](3, 3, t, 8, u, 3, u + 3, 3) == VX_FORM_LENGTH);
        CHECK(both[k](3, 3, t, 9, u, 2, u + 3, 3) == VX_BUFFER_LENGTH);
        CHECK(both[k](3, 3, t, 9, u, 3, u + 3, 4) == VX_BUFFER_LENGTH);
        CHECK(both[k](3, 3, t, 9, u, 3, u + 3, 3) == VX_TOUCHING);
        CHECK(both[k](3, 3, deep, 9, u, 3, u + 3, 3) == VX_DEEP_ENTRY);
    }
    CHECK(vx_evd_from_real_schur(0, 0, t, 0, u, 0) == VX_ROWS);
    CHECK(vx_evd_from_real_schur(65, 65, t, 65 * 65, u, 65 * 65) == VX_ROWS);
    CHECK(vx_evd_from_real_schur(3, 3, t, 8, u, 9) == VX_FORM_LENGTH);
    CHECK(vx_evd_from_real_schur(3, 3, t, 9, u, 8) == VX_BUFFER_LENGTH);
    CHECK(vx_evd_from_real_schur(3, 3, t, 9, u, 9) == VX_TOUCHING);
    CHECK(vx_evd_from_real_schur(3, 3, deep, 9, u, 9) == VX_DEEP_ENTRY);
    CHECK(untouched());
}

static void values_and_vectors(void)
{
    const double upper[4] = {1, 0, 1, 2};
    double re[2], im[2], v[4] = {9, 9, 9, 9};
    for (size_t k = 0; k < PLACES(both); k++) {
        CHECK(both[k](2, 2, turn, 4, re, PLACES(re), im, PLACES(im)) == VX_DONE);
        CHECK(re[0] == 0 && re[1] == 0 && im[0] == 1 && im[1] == -1);
        CHECK(both[k](2, 2, upper, 4, re, PLACES(re), im, PLACES(im)) == VX_DONE);
        CHECK(re[0] == 1 && re[1] == 2);
        SAME(im[0], 0.0);
        SAME(im[1], 0.0);
    }

    CHECK(vx_evd_from_real_schur(2, 2, upper, 4, v, PLACES(v)) == VX_DONE);
    CHECK(v[0] == 1 && v[2] == 1 && v[3] == 1);
    CHECK(vx_evd_from_real_schur(2, 2, zeros, 4, v, PLACES(v)) == VX_DONE);
    SAME(v[2], -0.0);
    SAME(v[1], 9.0);

    fill(u, 9.0);
    CHECK(vx_evd_from_real_schur(64, 64, zeros, 64 * 64, u, 64 * 64) == VX_DONE);
    CHECK(vx_block_values(64, 64, zeros, 64 * 64, u, 64, u + 64, 64) == VX_DONE);
    CHECK(vx_standardised_values(64, 64, zeros, 64 * 64, u, 64, u + 64, 64) == VX_DONE);
}

/* The values of the block of rows (a, b) and (c, d), in rows 1 and 2 of a form of four: those of
 * vx_lahqr_schur22, side by side, to x. The form stays, and so do the values beside them. */
static void values_of(double a, double b, double c, double d, double *x)
{
    const double form[16] = {7, 0, 0, 0, 3, a, c, 0, -3, b, d, 0, 5, 6, -6, -0.0};
    double re[4], im[4], out[10];
    lend(form, 16);
    CHECK(vx_standardised_values(4, 4, t, 16, re, 4, im, 4) == VX_DONE);
    CHECK(untouched());
    SAME(re[0], 7.0);
    SAME(im[0], 0.0);
    SAME(re[3], -0.0);
    SAME(im[3], 0.0);
    standardise(a, b, c, d, out);
    for (size_t k = 0; k < 2; k++) {
        SAME(re[1 + k], out[4 + 2 * k]);
        SAME(im[1 + k], out[5 + 2 * k]);
        x[2 * k] = re[1 + k];
        x[2 * k + 1] = im[1 + k];
    }
}

static void values_of_a_copy(void)
{
    double x[4], re[2], im[2];

    /* Unequal diagonal numbers: 2.5 and the roots of -3.75. */
    values_of(1, 2, -3, 4, x);
    CHECK(fabs(x[0] - 2.5) < 1e-14 && fabs(x[1] - vx_sqrt(3.75)) < 1e-14);
    SAME(x[2], x[0]);
    SAME(x[3], -x[1]);

    /* One sign: 1 and the roots of 6; and unequal diagonal numbers of a real pair: 5 and 2. */
    values_of(1, 2, 3, 1, x);
    CHECK(fabs(x[0] - (1 + vx_sqrt(6))) < 1e-14 && fabs(x[2] - (1 - vx_sqrt(6))) < 1e-14);
    SAME(x[1], 0.0);
    SAME(x[3], 0.0);
    values_of(4, -2, -1, 3, x);
    CHECK(fabs(x[0] - 5) < 1e-14 && fabs(x[2] - 2) < 1e-14);
    SAME(x[1], 0.0);
    SAME(x[3], 0.0);

    /* b zero, of either sign: the lower diagonal number comes first. */
    for (size_t k = 0; k < 2; k++) {
        values_of(1, k ? -0.0 : 0.0, 5, 2, x);
        SAME(x[0], 2.0);
        SAME(x[1], 0.0);
        SAME(x[2], 1.0);
        SAME(x[3], 0.0);
    }

    /* -3 twice: the copy ends with b zero and c not, so the size is 0, and then its negative. */
    values_of(-4, -1, 1, -2, x);
    SAME(x[0], -3.0);
    SAME(x[1], 0.0);
    SAME(x[2], -3.0);
    SAME(x[3], -0.0);

    /* A NaN is not zero: c stays, and the pair is complex. Where all turn to NaN, it splits. */
    values_of(1, 2, NAN, 1, x);
    SAME(x[0], 1.0);
    SAME(x[1], NAN);
    SAME(x[2], 1.0);
    SAME(x[3], NAN);
    values_of(NAN, 2, -3, 1, x);
    SAME(x[0], NAN);
    SAME(x[1], 0.0);
    SAME(x[2], NAN);
    SAME(x[3], 0.0);

    /* Standardised: both calls give the same, but where the diagonal has zeros of two signs. */
    const double standard[4] = {-0.0, -1, 4, 0.0};
    values_of(0.5, -9, 0.25, 0.5, x);
    CHECK(x[0] == 0.5 && x[1] == 1.5 && x[2] == 0.5 && x[3] == -1.5);
    CHECK(vx_block_values(2, 2, standard, 4, re, 2, im, 2) == VX_DONE);
    SAME(re[1], -0.0);
    CHECK(im[0] == 2 && im[1] == -2);
    CHECK(vx_standardised_values(2, 2, standard, 4, re, 2, im, 2) == VX_DONE);
    SAME(re[0], -0.0);
    SAME(re[1], 0.0);
    CHECK(im[0] == 2 && im[1] == -2);
}

/* Rows with a pair among them, as in examples/slow-mode.txt. */
static const double six[36] = {-3,  0,     0,     0,     0,    0,      0.5,   -0.5, -1.5,
                               0,   0,     0,     -0.25, 2,    -0.5,   0,     0,    0,
                               1,   0.375, 0.625, -1.25, 0,    0,      0.125, -0.5, 0.875,
                               0.5, -2,    0,     0.75,  0.25, -0.125, -0.75, 0.25, -0.0625};

/* The same with a 2-block that is not standardised. */
static double six_raw[36];

/* Lends the form and the unit factor of n rows at a stride. In the rows from n on, and after the
 * last column, stand numbers that no form could have there. */
static void lend_at(size_t n, size_t ld, const double *form)
{
    const double others[5] = {NAN, INFINITY, 0x1p-1074, -7, -0.0};
    for (size_t k = 0; k < MOST; k++) {
        t[k] = others[k % 5];
        u[k] = others[(k + 2) % 5];
    }
    for (size_t j = 0; j < n; j++)
        for (size_t i = 0; i < n; i++) {
            t[i + ld * j] = form[i + n * j];
            u[i + ld * j] = i == j;
        }
    memcpy(old_t, t, sizeof t);
    memcpy(old_u, u, sizeof u);
    stopped = true;
    landed = swaps = declined = 9;
}

/* Whether the n rows of a buffer are those of another without gaps, and all else is as before. */
static int holds(const double *buffer, const double *old, size_t n, size_t ld, const double *rows)
{
    for (size_t k = 0; k < MOST; k++) {
        size_t i = k % ld, j = k / ld;
        const double *x = i < n && j < n ? &rows[i + n * j] : &old[k];
        if (memcmp(&buffer[k], x, sizeof *x) != 0)
            return 0;
    }
    return 1;
}

/* The list's pairs at a stride, beside the single calls in turn without gaps: with a factor and
 * without, and with results that are long enough and longer. */
static void list_beside_singles(size_t n, size_t ld, const double *form, size_t pairs)
{
    static double rows[64 * 64], factor[64 * 64];
    size_t singles[4 * 64];
    for (size_t k = 0; k < 2; k++) {
        lend_at(n, n, form);
        for (size_t j = 0; j < pairs; j++) {
            size_t *four = singles + 4 * j;
            four[0] = move(n, n, n * n, k * n * n, list[2 * j], list[2 * j + 1]);
            four[1] = landed;
            four[2] = swaps;
            four[3] = declined;
        }
        memcpy(rows, t, n * n * sizeof *t);
        memcpy(factor, u, n * n * sizeof *u);
        lend_at(n, ld, form);
        CHECK(list_of(n, ld, ld * n, k * ld * n, 2 * pairs, 4 * pairs + k) == VX_DONE);
        CHECK(holds(t, old_t, n, ld, rows) && holds(u, old_u, n, ld, factor));
        CHECK(results_are(singles, 4 * pairs));
    }
}

/* A number below a bound. */
static size_t drawn(size_t bound)
{
    static uint64_t state = 1;
    state = state * 6364136223846793005 + 1442695040888963407;
    return (size_t)(state >> 33) % bound;
}

/* A form with 2-blocks of any kind, and pairs of which one in eight may be outside. */
static void draw_list(size_t n, double *form, size_t pairs)
{
    for (size_t k = 0; k < n * n; k++)
        form[k] = k % n > k / n ? 0.0 : (double)drawn(4001) / 1000 - 2;
    for (size_t j = 0; j + 1 < n; j++)
        if (drawn(3) == 0) {
            form[j + 1 + n * j] = drawn(2) ? 0.75 : -1.5;
            j++;
        }
    for (size_t k = 0; k < 2 * pairs; k++)
        list[k] = drawn(16) ? drawn(n) : n + drawn(2);
}

static void lists(void)
{
    const size_t forward_and_back[6] = {0, 2, 3, 0, 2, 0}, apart[6] = {0, 5, 4, 0, 2, 4};
    const size_t of_it[12] = {0, 2, 2, 0, VX_POSITION, 0, 0, 0, 0, 0, 2, 0};
    const size_t declines[8] = {0, 2, 1, 1, 0, 0, 1, 1}, all[4] = {0, 0, 63, 0};
    const size_t wrong[8][2] = {{1, 261},   {3, 261},   {127, 261}, {129, 261},
                                {130, 260}, {128, 255}, {2, 3},     {6, 0}};
    double form[64 * 64], deep[9];
    size_t many[4 * 64];

    /* The second pair is turned away, and the third goes on. */
    memcpy(list, forward_and_back, sizeof forward_and_back);
    lend(one_two_three, 9);
    CHECK(list_of(3, 3, 9, 9, 4, 8) == VX_DONE);
    CHECK(t[0] == 2 && t[4] == 3 && t[8] == 1);
    CHECK(results_are(of_it, 8));
    lend(one_two_three, 9);
    CHECK(list_of(3, 3, 9, 9, 6, 12) == VX_DONE);
    CHECK(t[0] == 1 && t[4] == 2 && t[8] == 3);
    CHECK(results_are(of_it, 12));

    /* So does each pair after a decline. */
    list[1] = list[2] = 2;
    list[3] = 0;
    lend(alike, 16);
    CHECK(list_of(4, 4, 16, 16, 4, 13) == VX_DONE);
    CHECK(untouched() && results_are(declines, 8));
    memcpy(list, apart, sizeof apart);
    list_beside_singles(6, 7, alike_apart, 3);
    CHECK(results[3] == 1);

    /* Forms and lists of all sizes, with the rows beyond and without. */
    for (size_t k = 0; k < 200; k++) {
        size_t n = 1 + drawn(12), pairs = drawn(9);
        draw_list(n, form, pairs);
        list_beside_singles(n, n + k % 2 * drawn(129 - n), form, pairs);
    }
    for (size_t k = 0; k < 4; k++) {
        draw_list(64 - k % 2, form, 64);
        list_beside_singles(64 - k % 2, k < 2 ? 64 : 128, form, 64);
    }

    /* 64 pairs pass. */
    for (size_t k = 0; k < PLACES(list); k++)
        list[k] = k % 2 ? 0 : 63;
    for (size_t k = 0; k < PLACES(many); k++)
        many[k] = all[k % 4];
    lend(zeros, 0);
    CHECK(list_of(64, 64, 64 * 64, 0, 128, 256) == VX_DONE);
    CHECK(results_are(many, 256));

    /* An empty list writes nothing, on what would turn a pair away too. */
    memcpy(deep, one_two_three, sizeof deep);
    deep[2] = 1;
    lend(deep, 9);
    CHECK(vx_reorder_schur_list(3, 3, t, 9, u, 9, NULL, 0, NULL, 0) == VX_DONE);
    CHECK(vx_reorder_schur_list(0, 129, NULL, 0, NULL, 0, NULL, 0, NULL, 0) == VX_DONE);
    CHECK(list_of(3, 3, 9, 9, 0, 8) == VX_DONE);
    CHECK(untouched() && results_are(NULL, 0));

    /* 12 comes first, whatever else is wrong, and nothing is written. */
    for (size_t k = 0; k < PLACES(list); k++)
        list[k] = k % 3;
    for (size_t k = 0; k < PLACES(wrong); k++) {
        const size_t *lens = wrong[k];
        lend(one_two_three, 9);
        CHECK(list_of(3, 3, 9, 9, lens[0], lens[1]) == VX_MOVE_LIST);
        CHECK(list_of(0, 129, 1, 1, lens[0], lens[1]) == VX_MOVE_LIST);
        CHECK(list_of(65, 65, 65 * 65, 0, lens[0], lens[1]) == VX_MOVE_LIST);
        CHECK(list_of(3, 2, 6, 6, lens[0], lens[1]) == VX_MOVE_LIST);
        CHECK(list_of(3, 3, 8, 0, lens[0], lens[1]) == VX_MOVE_LIST);
        CHECK(list_of(3, 3, 9, 8, lens[0], lens[1]) == VX_MOVE_LIST);
        CHECK(untouched() && results_are(NULL, 0));
        lend(deep, 9);
        CHECK(list_of(3, 3, 9, 9, lens[0], lens[1]) == VX_MOVE_LIST);
        CHECK(untouched() && results_are(NULL, 0));
    }
}

/* Each call at a stride, beside the same without gaps. */
static void at_a_stride(size_t ld)
{
    const size_t n = 6, len = 6 * ld;
    double form[36], factor[36], values[12], re[6], im[6];

    for (size_t k = 0; k < PLACES(movers); k++) {
        lend_at(n, n, six);
        CHECK(movers[k](n, n, 36, 36, 5, 0) == VX_DONE);
        memcpy(form, t, sizeof form);
        memcpy(factor, u, sizeof factor);
        lend_at(n, ld, six);
        CHECK(movers[k](n, ld, len, len, 5, 0) == VX_DONE);
        CHECK(landed == 0 && swaps == 4 && declined == 0 && stopped == !k);
        CHECK(holds(t, old_t, n, ld, form) && holds(u, old_u, n, ld, factor));
        lend_at(n, ld, six);
        CHECK(movers[k](n, ld, len, 0, 5, 0) == VX_DONE);
        CHECK(holds(t, old_t, n, ld, form) && memcmp(u, old_u, sizeof u) == 0);
    }

    /* A move that stops at its second exchange. */
    lend_at(n, n, alike_apart);
    CHECK(stopping(n, n, 36, 36, 0, 5) == VX_DONE);
    memcpy(form, t, sizeof form);
    memcpy(factor, u, sizeof factor);
    lend_at(n, ld, alike_apart);
    CHECK(stopping(n, ld, len, len, 0, 5) == VX_DONE);
    CHECK(stopped && landed == 2 && swaps == 2 && declined == 1);
    CHECK(holds(t, old_t, n, ld, form) && holds(u, old_u, n, ld, factor));

    lend_at(n, n, six);
    CHECK(vx_schur_swap(n, n, t, 36, u, 36, 1, 2, 1, &swaps, &declined) == VX_DONE);
    memcpy(form, t, sizeof form);
    memcpy(factor, u, sizeof factor);
    lend_at(n, ld, six);
    CHECK(vx_schur_swap(n, ld, t, len, u, len, 1, 2, 1, &swaps, &declined) == VX_DONE);
    CHECK(swaps == 1 && declined == 0);
    CHECK(holds(t, old_t, n, ld, form) && holds(u, old_u, n, ld, factor));

    for (size_t k = 0; k < PLACES(both); k++) {
        CHECK(both[k](n, n, six_raw, 36, values, 6, values + 6, 6) == VX_DONE);
        CHECK((values[1] == values[2] && values[7] == -values[8]) == !k);
        lend_at(n, ld, six_raw);
        CHECK(both[k](n, ld, t, len, re, 6, im, 6) == VX_DONE);
        CHECK(memcmp(re, values, sizeof re) == 0 && memcmp(im, values + 6, sizeof im) == 0);
        CHECK(untouched());
    }

    lend_at(n, n, six);
    CHECK(vx_evd_from_real_schur(n, n, t, 36, u, 36) == VX_DONE);
    memcpy(factor, u, sizeof factor);
    lend_at(n, ld, six);
    CHECK(vx_evd_from_real_schur(n, ld, t, len, u, len) == VX_DONE);
    CHECK(memcmp(t, old_t, sizeof t) == 0 && holds(u, old_u, n, ld, factor));

    /* What the rows of the form are turned away for is found at the stride. */
    lend_at(n, ld, six);
    CHECK(refused_move(n, ld, len, len, 6, 0) == VX_POSITION);
    CHECK(refused_exchange(n, ld, len, len, 2, 1, 1) == VX_ACROSS);
    t[3 + ld * 2] = old_t[3 + ld * 2] = 1;
    CHECK(refused_move(n, ld, len, len, 5, 0) == VX_TOUCHING);
    t[5 + ld * 3] = old_t[5 + ld * 3] = NAN;
    CHECK(refused_move(n, ld, len, len, 5, 0) == VX_DEEP_ENTRY);
    for (size_t k = 0; k < PLACES(both); k++)
        CHECK(both[k](n, ld, t, len, u, 6, u + 6, 6) == VX_DEEP_ENTRY);
    CHECK(vx_evd_from_real_schur(n, ld, t, len, u, len) == VX_DEEP_ENTRY);
    CHECK(untouched());
}

/* The number that all six calls give, of buffers that they must leave. The three last lengths are
 * those of the factor or vectors, and of re and im. */
static size_t refused_by_all(size_t n, size_t ld, size_t t_len, size_t len, size_t re_len,
                             size_t im_len)
{
    size_t number = refused_move(n, ld, t_len, len, 0, 1);
    CHECK(refused_exchange(n, ld, t_len, len, 0, 1, 1) == number);
    for (size_t k = 0; k < PLACES(both); k++)
        CHECK(both[k](n, ld, t, t_len, u, re_len, u + 64, im_len) == number);
    CHECK(vx_evd_from_real_schur(n, ld, t, t_len, u, len) == number);
    CHECK(untouched());
    return number;
}

static void strides(void)
{
    const size_t all[5] = {6, 7, 12, 127, 128};
    memcpy(six_raw, six, sizeof six_raw);
    six_raw[2 + 6 * 1] = 1.5; /* two signs alike: a real pair */
    for (size_t k = 0; k < PLACES(all); k++)
        at_a_stride(all[k]);

    /* 2, then 17, then 3, then 4. */
    lend_at(3, 4, one_two_three);
    CHECK(refused_by_all(0, 129, 1, 1, 1, 1) == VX_ROWS);
    CHECK(refused_by_all(65, 64, 1, 1, 1, 1) == VX_ROWS);
    CHECK(refused_by_all(65, 129, 65 * 129, 65 * 129, 65, 65) == VX_ROWS);
    CHECK(refused_by_all(3, 0, 0, 0, 3, 3) == VX_STRIDE);
    CHECK(refused_by_all(3, 2, 6, 6, 3, 3) == VX_STRIDE);
    CHECK(refused_by_all(3, 2, 9, 9, 3, 3) == VX_STRIDE);
    CHECK(refused_by_all(3, 129, 1, 1, 1, 1) == VX_STRIDE);
    CHECK(refused_by_all(3, (size_t)-1, 9, 9, 3, 3) == VX_STRIDE);
    CHECK(refused_by_all(3, 4, 9, 9, 1, 1) == VX_FORM_LENGTH);
    CHECK(refused_by_all(3, 4, 11, 12, 3, 3) == VX_FORM_LENGTH);
    CHECK(refused_by_all(3, 3, 12, 9, 3, 3) == VX_FORM_LENGTH);
    CHECK(refused_by_all(3, 4, 12, 9, 4, 3) == VX_BUFFER_LENGTH);
    CHECK(refused_by_all(3, 4, 12, 13, 3, 4) == VX_BUFFER_LENGTH);

    /* The largest stride, and the one beyond it, with as many rows as there can be. */
    lend_at(64, 128, zeros);
    CHECK(refused_by_all(64, 63, 64 * 63, 64 * 63, 64, 64) == VX_STRIDE);
    CHECK(refused_by_all(64, 129, 64 * 129, 64 * 129, 64, 64) == VX_STRIDE);
    for (size_t k = 0; k < PLACES(both); k++)
        CHECK(both[k](64, 128, t, 64 * 128, u, 64, u + 64, 64) == VX_DONE);
    CHECK(vx_evd_from_real_schur(64, 128, t, 64 * 128, u, 64 * 128) == VX_DONE);
    CHECK(vx_schur_swap(64, 128, t, 64 * 128, u, 64 * 128, 62, 1, 1, &swaps, &declined) == VX_DONE);
    for (size_t k = 0; k < PLACES(movers); k++) {
        CHECK(movers[k](64, 128, 64 * 128, 64 * 128, 63, 0) == VX_DONE);
        CHECK(landed == 0 && swaps == 63);
    }
}

/* Each number has a sentence of its own, and those that no call gives have one too. */
static void messages(void)
{
    const size_t known[14] = {
        VX_DONE,        1,           VX_ROWS,     VX_STRIDE,     VX_FORM_LENGTH, VX_BUFFER_LENGTH,
        VX_DEEP_ENTRY,  VX_TOUCHING, VX_POSITION, VX_BLOCK_SIZE, VX_PAST_END,    VX_ACROSS,
        VX_TAIL_LENGTH, VX_MOVE_LIST};
    for (size_t k = 0; k < PLACES(known); k++) {
        for (size_t j = 0; j < k; j++)
            CHECK(strcmp(vx_message(known[j]), vx_message(known[k])) != 0);
        CHECK(strcmp(vx_message(known[k]), vx_message((size_t)-1)) != 0);
    }
    CHECK(strcmp(vx_message(VX_POSITION), "a position or column number is not below n") == 0);
    CHECK(strcmp(vx_message(VX_STRIDE), "the stride is below n or above 128") == 0);
    CHECK(VX_STRIDE == 17 && VX_MOVE_LIST == 12);
    CHECK(strcmp(vx_message(13), vx_message((size_t)-1)) == 0);
}

int main(void)
{
    arithmetic();
    rotations();
    reflections();
    blocks_of_two();
    example();
    moves();
    stopping_moves();
    exchanges();
    lists();
    refusals();
    values_and_vectors();
    values_of_a_copy();
    strides();
    messages();
    printf("%d checks passed, %d failed\n", passed, failed);
    return failed != 0;
}
