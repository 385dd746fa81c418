/* Bits, by M4RI: rows of 160 bits, 64 to a word. */
#include <m4ri/m4ri.h>

mzd_t *m4ri_matrix(int rows, int columns) { return mzd_init(rows, columns); }
void m4ri_set(mzd_t *m, int row, int column, int bit) { mzd_write_bit(m, row, column, bit); }
int m4ri_get(mzd_t *m, int row, int column) { return mzd_read_bit(m, row, column); }
void m4ri_copy(mzd_t *to, mzd_t *from) { mzd_copy(to, from); }
void m4ri_subtract(mzd_t *m, int target, int other) { mzd_row_add(m, other, target); }
void m4ri_reduce(mzd_t *m) { mzd_echelonize(m, 1); }
