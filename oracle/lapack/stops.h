// The test that stops a move, worked out for one exchange on both sides: the largest number that it
// takes of the tried window, and the threshold. A window has n1 + n2 rows, column after column.
#ifndef STOPS_H
#define STOPS_H
#include "ours.h"
#include <math.h>
#include <string.h>

void dlarfg_(const int *n, double *alpha, double *x, const int *incx, double *tau);
void dlarfx_(const char *side, const int *m, const int *n, const double *v, const double *tau, double *c,
             const int *ldc, double *work, long);
void dlasy2_(const int *ltranl, const int *ltranr, const int *isgn, const int *n1, const int *n2, const double *tl,
             const int *ldtl, const double *tr, const int *ldtr, const double *b, const int *ldb, double *scale,
             double *x, const int *ldx, double *xnorm, int *info);

typedef struct {
    double number, threshold;
} Test;

// Of a tried window, which was this before: the entries that are to become zero, and the change of a
// single row's diagonal number.
static inline Test tested(int n1, int n2, const double *before, const double *w) {
    int nd = n1 + n2;
    double norm = 0;
    for (int i = 0; i < nd * nd; i++)
        norm = vx_fmax(norm, fabs(before[i]));
    Test test = {0, vx_fmax(10 * 0x1p-52 * norm, 0x1p-1022 / 0x1p-52)};
    for (int j = 0; j < n2; j++)
        for (int i = n2; i < nd; i++)
            test.number = vx_fmax(test.number, fabs(w[i + nd * j]));
    if (nd == 3)
        test.number = vx_fmax(test.number, fabs(n1 == 1 ? w[8] - before[0] : w[0] - before[8]));
    return test;
}

// I - v vᵀ × tau from the left or from the right, on the rows or columns that are named; v begins with 1.
static inline void reflect(int left, int nd, double *w, int len, const int *at, const double *v, double tau) {
    int down = left ? 1 : nd, across = left ? nd : 1;
    for (int j = 0; j < nd; j++) {
        double sum = w[down * at[0] + across * j];
        for (int i = 1; i < len; i++)
            sum += v[i] * w[down * at[i] + across * j];
        w[down * at[0] + across * j] -= sum * tau;
        for (int i = 1; i < len; i++)
            w[down * at[i] + across * j] -= sum * tau * v[i];
    }
}

// By our reflections and small solve, as the swaps work.
static inline Test our_test(int n1, int n2, const double *before) {
    int nd = n1 + n2, forward[] = {0, 1, 2, 3}, backward[] = {2, 1, 0}, *at = nd == 3 && n1 == 2 ? backward : forward;
    double w[16], x[5], out[4], p[4] = {0}, q[4] = {0};
    memcpy(w, before, nd * nd * sizeof *w);
    if (nd == 4) {
        double tl[] = {w[0], w[1], w[4], w[5]}, tr[] = {w[10], w[11], w[14], w[15]}, b[] = {w[8], w[9], w[12], w[13]};
        ours_sylvester(tl, tr, b, x);
        p[0] = x[0], p[1] = x[1], p[2] = -x[4];
        q[0] = x[2], q[1] = x[3], q[3] = -x[4];
    } else if (n1 == 1) {
        p[0] = w[3], p[1] = w[4] - w[0], p[2] = w[5];
        q[0] = w[6], q[1] = w[7], q[2] = w[8] - w[0];
    } else {
        p[0] = w[7], p[1] = w[4] - w[8], p[2] = w[1];
        q[0] = w[6], q[1] = w[3], q[2] = w[0] - w[8];
    }
    ours_reflection(p[0], p + 1, nd - 1, out);
    double tau1 = 1 / out[1], sum = q[0];
    for (int i = 1; i < nd; i++)
        sum += p[i] * q[i];
    q[0] -= sum * tau1;
    for (int i = 1; i < nd; i++)
        q[i] -= sum * tau1 * p[i];
    ours_reflection(q[1], q + 2, nd - 2, out);
    double tau2 = 1 / out[1];
    for (int left = 1; left >= 0; left--) {
        reflect(left, nd, w, nd, at, p, tau1);
        reflect(left, nd, w, nd - 1, at + 1, q + 1, tau2);
    }
    return tested(n1, n2, before, w);
}

// By LAPACK's, as dlaexc works.
static inline Test their_test(int n1, int n2, const double *before) {
    int nd = n1 + n2, no = 0, minus = -1, two = 2, three = 3, one = 1, info;
    double d[16], x[4], scale, xnorm, u[3], tau, work[4];
    memcpy(d, before, nd * nd * sizeof *d);
    dlasy2_(&no, &no, &minus, &n1, &n2, d, &nd, d + n1 + nd * n1, &nd, d + nd * n1, &nd, &scale, x, &two, &xnorm, &info);
    if (n1 == 1) {
        u[0] = scale, u[1] = x[0], u[2] = x[2];
        dlarfg_(&three, u + 2, u, &one, &tau);
        u[2] = 1;
    } else {
        u[0] = -x[0], u[1] = -x[1], u[2] = scale;
        dlarfg_(&three, u, u + 1, &one, &tau);
        u[0] = 1;
    }
    dlarfx_("L", &three, &nd, u, &tau, d, &nd, work, 1);
    dlarfx_("R", &nd, &three, u, &tau, d, &nd, work, 1);
    if (nd == 4) {
        double temp = -tau * (x[2] + u[1] * x[3]), u2[3] = {-temp * u[1] - x[3], -temp * u[2], scale};
        dlarfg_(&three, u2, u2 + 1, &one, &tau);
        u2[0] = 1;
        dlarfx_("L", &three, &nd, u2, &tau, d + 1, &nd, work, 1);
        dlarfx_("R", &nd, &three, u2, &tau, d + nd, &nd, work, 1);
    }
    return tested(n1, n2, before, d);
}
#endif
