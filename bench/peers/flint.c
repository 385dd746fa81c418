/* Residues modulo 257, by FLINT: one 64-bit word a symbol. */
#include <flint/flint.h>
#include <flint/nmod_mat.h>
#include <flint/nmod_vec.h>
#include <stdlib.h>

void flint_subtract(mp_limb_t *target, mp_limb_t factor, const mp_limb_t *other, long len) {
    nmod_t mod;
    nmod_init(&mod, 257);
    _nmod_vec_scalar_addmul_nmod(target, other, len, nmod_neg(factor, mod), mod);
}

nmod_mat_struct *flint_matrix(int rows, int columns) {
    nmod_mat_struct *m = malloc(sizeof *m);
    nmod_mat_init(m, rows, columns, 257);
    return m;
}
void flint_set(nmod_mat_struct *m, int row, int column, mp_limb_t code) { nmod_mat_entry(m, row, column) = code; }
mp_limb_t flint_get(nmod_mat_struct *m, int row, int column) { return nmod_mat_entry(m, row, column); }
void flint_copy(nmod_mat_struct *to, nmod_mat_struct *from) { nmod_mat_set(to, from); }
void flint_reduce(nmod_mat_struct *m) { nmod_mat_rref(m); }
