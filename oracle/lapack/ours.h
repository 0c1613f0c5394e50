// Our calls as the programs here use them, results in one array each, and when two of these are the
// same. The only place that knows how the archive's calls are written.
#ifndef OURS_H
#define OURS_H
#include "../../bindings/c/volmeixi.h"
#include <math.h>
#include <stdbool.h>
#include <string.h>

// Bit for bit; any NaN equals any NaN.
static inline int same(const double *x, const double *y, int n) {
    for (int i = 0; i < n; i++)
        if (memcmp(x + i, y + i, 8) && !(isnan(x[i]) && isnan(y[i])))
            return 0;
    return 1;
}

// c s r
static inline void ours_rotg(double p, double q, double *out) { vx_rotg(p, q, out, out + 1, out + 2); }

// new x, new y
static inline void ours_apply(double c, double s, double x, double y, double *out) {
    vx_apply(c, s, x, y, out, out + 1);
}

// head, tau, head_with_beta_inv, norm; the tail in place
static inline void ours_reflection(double head, double *tail, size_t len, double *out) {
    vx_make_householder_in_place(head, tail, len, out, out + 1, out + 2, out + 3);
}

// a b c d, both values, cs sn
static inline void ours_block(const double *x, double *out) {
    vx_lahqr_schur22(x[0], x[1], x[2], x[3], out, out + 1, out + 2, out + 3, out + 4, out + 5, out + 6, out + 7,
                     out + 8, out + 9);
}

// x00 x10 x01 x11, scale
static inline void ours_sylvester(const double *tl, const double *tr, const double *b, double *out) {
    vx_lasy2(tl, tr, b, out, out + 4);
}

// the row landed on, swaps, declined; ulen 0 is no factor
static inline size_t ours_move_at(size_t n, size_t ld, double *t, size_t tlen, double *u, size_t ulen, size_t from,
                                  size_t to, size_t *out) {
    return vx_reorder_schur(n, ld, t, tlen, u, ulen, from, to, out, out + 1, out + 2);
}

// the same with the stride n
static inline size_t ours_move(size_t n, double *t, double *u, size_t from, size_t to, size_t *out) {
    return ours_move_at(n, n, t, n * n, u, u ? n * n : 0, from, to, out);
}

// whether it stopped, the row here, swaps, declined; of a move that stops, with the stride n
static inline size_t ours_stopping_move(size_t n, double *t, double *u, size_t from, size_t to, size_t *out) {
    bool stopped;
    size_t answer =
        vx_reorder_schur_stopping(n, n, t, n * n, u, u ? n * n : 0, from, to, &stopped, out + 1, out + 2, out + 3);
    out[0] = stopped;
    return answer;
}

// re im re im of the form of rows (a b) and (c d): of a copy standardised first, or as it stands,
// which is how partial_schur_real_imp reads it
static inline void ours_values(int standardised, const double *x, double *out) {
    double t[4] = {x[0], x[2], x[1], x[3]}, re[2], im[2];
    (standardised ? vx_standardised_values : vx_block_values)(2, 2, t, 4, re, 2, im, 2);
    out[0] = re[0], out[1] = im[0], out[2] = re[1], out[3] = im[1];
}

static inline size_t ours_vectors(size_t n, const double *t, double *v) {
    return vx_evd_from_real_schur(n, n, t, n * n, v, n * n);
}
#endif
