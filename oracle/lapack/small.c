// Our standardising and small Sylvester solve beside LAPACK's dlanv2 and dlasy2, bit for bit (any
// NaN equals any NaN). `run` builds it.
//   small dlanv2 A B C D                 one block: both results
//   small dlasy2 TL TR B                 three times four numbers, column after column
//   small dlanv2|dlasy2 random COUNT SEED
//   small dlanv2 grid K                  all blocks of whole numbers from -K to K
// The last two count the differing cases by kind, with the least case of each kind (by the sum of
// its magnitudes). With PLAIN=1, LAPACK's dlapy2 is a plain root of a sum of squares too, so that
// only the other kinds of difference are left.
#define _GNU_SOURCE
#include "draws.h"
#include "ours.h"
#include <dlfcn.h>
#include <math.h>
#include <stddef.h>
#include <stdint.h>
#include <stdio.h>
#include <stdlib.h>
#include <string.h>

extern void dlanv2_(double *a, double *b, double *c, double *d, double *rt1r, double *rt1i,
                    double *rt2r, double *rt2i, double *cs, double *sn);
extern void dlasy2_(const int *ltranl, const int *ltranr, const int *isgn, const int *n1,
                    const int *n2, const double *tl, const int *ldtl, const double *tr,
                    const int *ldtr, const double *b, const int *ldb, double *scale, double *x,
                    const int *ldx, double *xnorm, int *info);

static int plain;

// Stands before LAPACK's own when the program is linked.
double dlapy2_(const double *x, const double *y) {
    static double (*theirs)(const double *, const double *);
    if (plain)
        return sqrt(*x * *x + *y * *y);
    if (!theirs)
        *(void **)&theirs = dlsym(RTLD_NEXT, "dlapy2_");
    return theirs(x, y);
}

static void print(const char *who, const double *x, int n) {
    printf("%s", who);
    for (int i = 0; i < n; i++)
        printf(" %.17g", x[i]);
    printf("\n");
}

// a b c d, the two values, cs sn
static void block(const double *x, double *us, double *them) {
    ours_block(x, us);
    memcpy(them, x, 4 * sizeof *x);
    them[8] = them[9] = 0;
    dlanv2_(them, them + 1, them + 2, them + 3, them + 4, them + 5, them + 6, them + 7, them + 8,
            them + 9);
}

// x00 x10 x01 x11, scale
static int sylvester(const double *x, double *us, double *them) {
    int no = 0, minus = -1, two = 2, info = 0;
    double xnorm;
    ours_sylvester(x, x + 4, x + 8, us);
    dlasy2_(&no, &no, &minus, &two, &two, x, &two, x + 4, &two, x + 8, &two, them + 4, them, &two,
            &xnorm, &info);
    return info;
}

enum { GIVEN_NAN, GIVEN_INFINITY, OVERFLOW, LEFT, MINUS_ZERO, OTHER, KINDS };

static const char *kinds[KINDS] = {
    "a NaN is given",         "an infinity is given", "no rotation: the squares overflow",
    "b is zero and c is not", "a - d is minus zero",  "anything else"};

static int kind(const double *x, int n, const double *us, int m) {
    double sum = 0;
    for (int i = 0; i < n; i++) {
        if (isnan(x[i]))
            return GIVEN_NAN;
        if (isinf(x[i]))
            sum = INFINITY;
    }
    if (sum > 0)
        return GIVEN_INFINITY;
    if (m == 5)
        return OTHER;
    double z = us[8] * us[8] + us[9] * us[9];
    if (!(z > 0.5) || !isfinite(z))
        return OVERFLOW;
    if (us[1] == 0 && us[2] != 0)
        return LEFT;
    if (x[0] - x[3] == 0 && signbit(x[0] - x[3]))
        return MINUS_ZERO;
    return OTHER;
}

static long cases, differ[KINDS];
static double least[KINDS][12], size[KINDS];

static void one(const double *x, int blocks) {
    double us[10], them[10], sum = 0;
    int n = blocks ? 4 : 12, m = blocks ? 10 : 5;
    if (blocks)
        block(x, us, them);
    else
        sylvester(x, us, them);
    cases++;
    if (same(us, them, m))
        return;
    int k = kind(x, n, us, m);
    for (int i = 0; i < n; i++)
        sum += fabs(x[i]);
    if (!differ[k]++ || sum < size[k] || isnan(size[k])) {
        size[k] = sum;
        memcpy(least[k], x, n * sizeof *x);
    }
}

static void report(const char *name, int n) {
    long all = 0;
    for (int k = 0; k < KINDS; k++)
        all += differ[k];
    printf("%s: %ld cases, %ld differ\n", name, cases, all);
    for (int k = 0; k < KINDS; k++)
        if (differ[k]) {
            printf("  %s: %ld, least", kinds[k], differ[k]);
            print("", least[k], n);
        }
    cases = 0;
    memset(differ, 0, sizeof differ);
}

static const char *styles[STYLES] = {"whole", "halves", "middling", "finite", "any"};

static void random_cases(int blocks, long count) {
    double x[12];
    for (int style = 0; style < STYLES; style++) {
        for (long k = 0; k < count; k++) {
            for (int i = 0; i < 12; i++)
                x[i] = styled(style);
            one(x, blocks);
        }
        report(styles[style], blocks ? 4 : 12);
    }
}

static void grid(int k) {
    for (int a = -k; a <= k; a++)
        for (int b = -k; b <= k; b++)
            for (int c = -k; c <= k; c++)
                for (int d = -k; d <= k; d++)
                    one((double[]){a, b, c, d}, 1);
    report("grid", 4);
}

int main(int argc, char **argv) {
    int blocks = argc > 1 && !strcmp(argv[1], "dlanv2");
    int n = blocks ? 4 : 12;
    plain = getenv("PLAIN") != 0;
    if (argc == 5 && !strcmp(argv[2], "random")) {
        seed(strtoull(argv[4], 0, 10));
        random_cases(blocks, strtol(argv[3], 0, 10));
        return 0;
    }
    if (argc == 4 && blocks && !strcmp(argv[2], "grid")) {
        grid(atoi(argv[3]));
        return 0;
    }
    if (argc != n + 2) {
        fprintf(stderr, "small: see the head of small.c\n");
        return 2;
    }
    double x[12], us[10], them[10];
    for (int i = 0; i < n; i++)
        x[i] = strtod(argv[i + 2], 0);
    if (blocks) {
        block(x, us, them);
        print("ours  ", us, 10);
        print("dlanv2", them, 10);
    } else {
        int info = sylvester(x, us, them);
        print("ours  ", us, 5);
        print("dlasy2", them, 5);
        printf("info %d\n", info);
    }
    return !same(us, them, blocks ? 10 : 5);
}
