/* Runs of LAPACK's DTREXC, for specs/Recorded.antt of the crate laws_dtrexc.

   DTREXC chooses its calls of DLAEXC by the zeros of the subdiagonal and by INFO alone. So here DLAEXC is replaced by one that only
   sets these two, by dice or as told: every path of the compiled routine can be taken, with splits and failures anywhere. A line is
       N IFST ILST : PATTERN INFO .. : J1 N1 N2 .. : ILST INFO
   A pattern is a number whose bit J-1 says that T(J+1,J) is zero: the first as DTREXC finds it, each next as a call leaves it.
   Then the calls that were made, and ILST and INFO at the end.

   oracle/lapack/run calls SEED RUNS       runs by dice
   oracle/lapack/run calls < FILE          the runs of a file again: it prints the same lines */
#include <stdio.h>
#include <stdlib.h>
#include <string.h>

void dtrexc_(const char *compq, const int *n, double *t, const int *ldt, double *q, const int *ldq, int *ifst, int *ilst,
             double *work, int *info, long);

enum { LD = 16, MOST = 64 };
static double t[LD * LD];
static int calls[MOST][3], patterns[MOST + 1], infos[MOST + 1], made, told;
static unsigned long long state;

static unsigned dice(unsigned k) {
    state = state * 6364136223846793005ULL + 1442695040888963407ULL;
    return (unsigned)(state >> 40) % k;
}

/* in most places a 2-block has a zero on either side, as in a form, but not in all */
static int thrown(void) {
    int p = 0, zero = 1;
    for (int j = 0; j < LD - 1; j++) {
        zero = zero ? dice(2) : dice(12) != 0;
        p |= zero << j;
    }
    return p;
}

/* zeros of both signs; what is not zero is a number or a NaN */
static void set_subdiagonal(int p) {
    for (int j = 0; j < LD - 1; j++) t[j + 1 + LD * j] = p >> j & 1 ? (j & 1 ? -0.0 : 0.0) : j % 3 ? 1.5 : 0.0 / 0.0;
}

/* Stands before LAPACK's own when the program is linked. */
void dlaexc_(const int *wantq, const int *n, double *tt, const int *ldt, double *q, const int *ldq, const int *j1,
             const int *n1, const int *n2, double *work, int *info) {
    (void)wantq, (void)n, (void)tt, (void)ldt, (void)q, (void)ldq, (void)work;
    calls[made][0] = *j1, calls[made][1] = *n1, calls[made][2] = *n2;
    made++;
    if (!told) patterns[made] = dice(4) ? thrown() : patterns[made - 1], infos[made] = dice(12) == 0;
    set_subdiagonal(patterns[made]);
    *info = infos[made];
}

static void run(int n, int ifst, int ilst) {
    int ld = LD, info;
    double q[1], work[LD];
    printf("%d %d %d :", n, ifst, ilst);
    made = 0;
    set_subdiagonal(patterns[0]);
    dtrexc_("N", &n, t, &ld, q, &ld, &ifst, &ilst, work, &info, 1);
    for (int i = 0; i <= made; i++) printf(" %d %d", patterns[i], infos[i]);
    printf(" :");
    for (int i = 0; i < made; i++) printf(" %d %d %d", calls[i][0], calls[i][1], calls[i][2]);
    printf(" : %d %d\n", ilst, info);
}

int main(int argc, char **argv) {
    if (argc == 3) {
        state = strtoull(argv[1], 0, 10);
        for (int runs = atoi(argv[2]); runs > 0; runs--) {
            int n = 1 + dice(9), ifst = 1 + dice(n), ilst = 1 + dice(n);
            patterns[0] = thrown(), infos[0] = 0;
            run(n, ifst, ilst);
        }
        return 0;
    }
    char line[4096];
    told = 1;
    while (fgets(line, sizeof line, stdin)) {
        int n, ifst, ilst, at = 0, used = 0, k = 0;
        memset(patterns, 0, sizeof patterns), memset(infos, 0, sizeof infos);
        if (sscanf(line, "%d %d %d :%n", &n, &ifst, &ilst, &at) != 3) return 1;
        while (k <= MOST && sscanf(line + at, "%d %d%n", &patterns[k], &infos[k], &used) == 2) at += used, k++;
        run(n, ifst, ilst);
    }
    return 0;
}
