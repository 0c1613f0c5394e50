/* The calls of libvolmeixi.a for C and C++: reordering of real Schur forms, and its parts.
 *
 * A form is n rows by n columns of double, column after column: row i, column j stands at
 * i + ld * j; rows and columns count from 0; n is 1 to 64. A 2-block stands where the entry just
 * below the diagonal, at (j + 1, j), is not zero (a NaN is not zero, minus zero is); all other rows
 * are 1-blocks. A factor and vectors have the same layout.
 *
 * ld is the stride, as in LAPACK: how far the next column is, n to 128. It is n where the columns
 * follow each other; for a form in the corner of a larger array it is that array's number of rows.
 * A call has one stride, and each form, factor and vectors ld * n places. The rows from n on are
 * the lender's: nothing depends on what stands there, and it stays. The last column has ld places
 * too, where LAPACK asks for n: a corner that begins below row 0 and ends in the last column of its
 * array has fewer, and must be copied.
 *
 * A buffer is a pointer and the number of its places; with 0 places it is not looked at and the
 * pointer may be NULL. A single result is a pointer to one number or mark, and a matrix of two rows
 * a pointer to four: neither may be NULL. The results are the last parameters, and what they held
 * before is not read.
 *
 * What a call is given must not overlap: no byte may belong to two of its buffers, matrices and
 * results. Only buffers and matrices that are const may share bytes, with each other: vx_lasy2 may
 * be given the same matrix twice. Numbers are given by value, so vx_apply(c, s, x, y, &x, &y) is
 * fine; vx_block_values or vx_standardised_values with re and im inside t, or a factor that is the
 * form, is not, and nothing holds of the results then. Nor are two corners of one array that share
 * columns: the rows beside a corner are places of its buffer.
 *
 * A call that gives a size_t gives 0 when it was carried out, or the number of the first line
 * below that applies; vx_message has its sentence. Turned away, it has changed no buffer, and its
 * single results are 0, a mark false. Each call names the lines that it can give. No number of a
 * form is refused: NaN, infinities and subnormals are worked with.
 *
 * What a call gives back can be sent to any call again: after any moves and exchanges an accepted
 * form is still accepted, so that a later call is turned away for its own arguments alone. The form
 * and the results are the same with a factor of any content and with none.
 */
#ifndef VOLMEIXI_H
#define VOLMEIXI_H

#include <stdbool.h>
#include <stddef.h>

#ifdef __cplusplus
extern "C" {
#endif

enum {
    VX_DONE = 0,          /* carried out */
    VX_MOVE_LIST = 12,    /* moves_len is odd or above 128, or results_len below 2 * moves_len */
    VX_ROWS = 2,          /* n is 0 or above 64 */
    VX_STRIDE = 17,       /* ld is below n or above 128 */
    VX_FORM_LENGTH = 3,   /* the form's length is not ld * n */
    VX_BUFFER_LENGTH = 4, /* another buffer's length is not the one that the call asks for */
    VX_DEEP_ENTRY = 5,    /* an entry more than one row below the diagonal is not zero */
    VX_TOUCHING = 6,      /* two neighbouring entries just below the diagonal are both not zero */
    VX_POSITION = 7,      /* a position is not below n */
    VX_BLOCK_SIZE = 8,    /* n1 or n2 of an exchange is not 1 or 2 */
    VX_PAST_END = 9,      /* the rows of an exchange, j0 + n1 + n2, run past n */
    VX_ACROSS = 10,       /* a 2-block lies across an exchange's upper edge, middle or lower edge */
    VX_TAIL_LENGTH = 11   /* a reflection's tail has not 1 to 64 numbers */
};

/* The sentence for a number, without a full stop: a constant text, never NULL. 1 is what the
 * program `sheet` gives for a text that it cannot read; no call here gives it. */
static inline const char *vx_message(size_t number)
{
    switch (number) {
    case VX_DONE:
        return "carried out";
    case 1:
        return "the text of the request is not laid out as it must be";
    case VX_MOVE_LIST:
        return "the list of moves has an odd length or more than 64 pairs, or the results lack "
               "four places a pair";
    case VX_ROWS:
        return "the number of rows n is 0 or above 64";
    case VX_STRIDE:
        return "the stride is below n or above 128";
    case VX_FORM_LENGTH:
        return "the form's length is not the stride times n";
    case VX_BUFFER_LENGTH:
        return "the length of a further buffer is wrong: a factor needs the stride times n numbers "
               "or none, vectors the stride times n, each part of block values n";
    case VX_DEEP_ENTRY:
        return "the form has an entry more than one row below the diagonal that is not zero";
    case VX_TOUCHING:
        return "the form has two neighbouring entries just below the diagonal that are both not "
               "zero";
    case VX_POSITION:
        return "a position or column number is not below n";
    case VX_BLOCK_SIZE:
        return "a block size of the exchange is not 1 or 2";
    case VX_PAST_END:
        return "the rows of the exchange run past the last row of the form";
    case VX_ACROSS:
        return "a 2-block lies across the upper edge, the middle or the lower edge of the exchange";
    case VX_TAIL_LENGTH:
        return "the tail of a reflection has not 1 to 64 numbers";
    default:
        return "a number that this header does not know";
    }
}

/* ---- Moves
 *
 * A swap of two 2-blocks may decline: they stay in place (and are standardised), and a move goes on
 * as if they had been exchanged. If any declined, the row landed on need not hold the moved block.
 * vx_reorder_schur_stopping stops there, as LAPACK's dtrexc does.
 */

/* Moves the block in row `from` to row `to`, by exchanges of neighbouring blocks, and applies the
 * same rotations and reflections to the columns of the factor u. A position inside a 2-block means
 * the block's first row. u_len is ld * n, or 0 for no factor.
 * Results: the row landed on; the number of swaps; how many of these declined.
 * Gives 0, 2, 17, 3, 4 (u_len), 5, 6 or 7 (from, to). */
size_t vx_reorder_schur(size_t n, size_t ld, double *t, size_t t_len, double *u, size_t u_len,
                        size_t from, size_t to, size_t *landed, size_t *swaps, size_t *declined);

/* The same as LAPACK's dtrexc and dlaexc do it, by the same swaps: an exchange with a 2-block in it is
 * tried on a copy first, by dlaexc's tests, and the move stops at the first that fails. The form and
 * the factor then hold the earlier exchanges, standardised, and nothing of the failed one. On a
 * triangular form it does what vx_reorder_schur does.
 * Results: stopped, whether a test has failed; here, the row that the block came to: its last, or
 * where it stood as the step began in which it stopped; the number of swaps; how many of these
 * declined: 1 if it stopped, else 0. The failed try counts in both.
 * Gives 0, 2, 17, 3, 4 (u_len), 5, 6 or 7 (from, to). */
size_t vx_reorder_schur_stopping(size_t n, size_t ld, double *t, size_t t_len, double *u,
                                 size_t u_len, size_t from, size_t to, bool *stopped, size_t *here,
                                 size_t *swaps, size_t *declined);

/* Makes up to 64 moves over one form, which is checked once and not for each: form, factor and
 * results are those of vx_reorder_schur called for each pair in turn. moves has the pairs as from,
 * to, from, to, ..; moves_len is the number of its places, two a pair. results has at least four
 * places a pair, and what stands in further ones stays; it must not overlap with moves either.
 * Results, four places a pair: the number that vx_reorder_schur gives for it; the row landed on;
 * the number of swaps; how many of these declined. A pair that is turned away has its number and
 * three zeros there, changes nothing else, and the next pair goes on. What is wrong with n, ld, a
 * length or the form is the number of every pair: the call itself gives 0 then too.
 * Gives 0, or 12 if moves_len is odd or above 128, or results_len is below 2 * moves_len; nothing
 * is written then. An empty list gives 0 and writes nothing. */
size_t vx_reorder_schur_list(size_t n, size_t ld, double *t, size_t t_len, double *u, size_t u_len,
                             const size_t *moves, size_t moves_len, size_t *results,
                             size_t results_len);

/* Exchanges the n1 rows from row j0 on with the n2 rows below them. u as in vx_reorder_schur.
 * Results: the number of swaps, 1 to 4 (4 exactly when n1 and n2 are 2, each with a zero inside);
 * how many of these declined.
 * Gives 0, 2, 17, 3, 4 (u_len), 5, 6, 7 (j0), 8, 9 or 10. */
size_t vx_schur_swap(size_t n, size_t ld, double *t, size_t t_len, double *u, size_t u_len,
                     size_t j0, size_t n1, size_t n2, size_t *swaps, size_t *declined);

/* ---- Values and vectors */

/* The values of the form's blocks, to re and im, n places each, side by side. A 1-block gives its
 * diagonal number and +0; a 2-block its first diagonal number twice, with m and then -m, where m is
 * the root of the lower entry's magnitude times the root of the upper's. That is the 2-block's
 * spectrum only where it is standardised: its diagonal numbers are equal, the other two have unlike
 * signs. Use vx_standardised_values where one may not be.
 * Gives 0, 2, 17, 3, 4 (re_len, im_len), 5 or 6. */
size_t vx_block_values(size_t n, size_t ld, const double *t, size_t t_len, double *re,
                       size_t re_len, double *im, size_t im_len);

/* The same, but of a 2-block a copy is standardised first, by vx_lahqr_schur22, whose re1, im1, re2
 * and im2 it gives: a real pair in the order in which it comes out, with +0 beside each, or, where
 * the copy ends with c not zero, its two diagonal numbers, with the size and then its negative. A
 * 1-block gives its diagonal number and +0. The form is not written.
 * Gives 0, 2, 17, 3, 4 (re_len, im_len), 5 or 6. */
size_t vx_standardised_values(size_t n, size_t ld, const double *t, size_t t_len, double *re,
                              size_t re_len, double *im, size_t im_len);

/* The vectors of the form, to v, ld * n places, column after column. A 1-block's column is its
 * vector; a 2-block's two columns are the real and the imaginary part. Column j is the n places
 * from ld * j on. It is written from row 0 to the last row of its block; the rest stays as it was,
 * so fill v with zeros first if the whole column is read. A 2-block is read as it stands: where it
 * is not standardised, its columns and those of the blocks below it need not be vectors of the
 * form.
 * Gives 0, 2, 17, 3, 4 (v_len), 5 or 6. */
size_t vx_evd_from_real_schur(size_t n, size_t ld, const double *t, size_t t_len, double *v,
                              size_t v_len);

/* ---- Blocks of two rows: nothing is turned away */

/* Standardises the block of rows (a, b) and (c, d).
 * Results: the new a, b, c, d; the real and the imaginary part of the first value, then of the
 * second; cs and sn of the rotation. The values are complex if the new c is not zero.
 * Gives 0 always. */
size_t vx_lahqr_schur22(double a, double b, double c, double d, double *new_a, double *new_b,
                        double *new_c, double *new_d, double *re1, double *im1, double *re2,
                        double *im2, double *cs, double *sn);

/* Solves tl * x - x * tr = scale * b for x. tl, tr, b and x have 4 places each, column after
 * column.
 * Results: x; scale. */
void vx_lasy2(const double *tl, const double *tr, const double *b, double *x, double *scale);

/* ---- Rotations and reflections: only a reflection's tail is turned away */

/* The rotation with c * p - s * q = r and s * p + c * q = 0, up to rounding.
 * Results: c; s; r. */
void vx_rotg(double p, double q, double *c, double *s, double *r);

/* The rotation back: s negated, a zero's sign too.
 * Results: its c; its s. */
void vx_adjoint(double c, double s, double *new_c, double *new_s);

/* The rotation applied on the right to one pair.
 * Results: c * x + s * y; c * y - s * x. */
void vx_apply(double c, double s, double x, double y, double *new_x, double *new_y);

/* The reflection that takes the head and the tail to a new head and zeros. The tail, 1 to 64
 * places, is multiplied by head_with_beta_inv and becomes the reflection's own; if its norm, from left
 * to right, is below 2^-1022 it stays, and tau is infinite.
 * Results: the new head; tau; head_with_beta_inv; the norm of head and tail.
 * Gives 0 or 11. */
size_t vx_make_householder_in_place(double head, double *tail, size_t tail_len, double *new_head,
                                    double *tau, double *head_with_beta_inv, double *norm);

/* ---- Arithmetic: nothing is turned away, each gives its result */

/* The magnitude. */
double vx_abs(double x);

/* The same, under the name that the Rust has for it. */
double vx_abs1(double x);

/* x * x. */
double vx_abs2(double x);

/* 1 / x. */
double vx_recip(double x);

/* x * p. */
double vx_mul_pow2(double x, double p);

/* p where p > q or q is a NaN, else q. */
double vx_fmax(double p, double q);

/* p where p < q or q is a NaN, else q. */
double vx_fmin(double p, double q);

/* The square root of IEEE 754: NaN of a NaN or a number below zero; zeros and plus infinity give
 * themselves; all else gives the nearest double. */
double vx_sqrt(double x);

/* Infinity if either is infinite; else NaN if either is; else the double nearest to the exact root of
 * p * p + q * q, ties to even: +0 of two zeros, infinity where the root is at least
 * (2^54 - 1) * 2^970. */
double vx_hypot(double p, double q);

/* The magnitude of the first number, then vx_hypot with each next; of no number, +0. */
double vx_norm_l2(const double *x, size_t x_len);

#ifdef __cplusplus
}
#endif

#endif
