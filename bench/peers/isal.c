/* Bytes under 0x11D, by ISA-L: target += factor * other, one byte a symbol. */
#include <isa-l/erasure_code.h>
#ifdef __x86_64__
#include <immintrin.h>
/* ISA-L leaves the upper halves of the vector registers in use, which slows down whatever is measured after it. */
__attribute__((target("avx"))) static void leave(void) { _mm256_zeroupper(); }
#else
static void leave(void) {}
#endif

void isal_prepare(unsigned char factor, unsigned char *table) { gf_vect_mul_init(factor, table); }

void isal_subtract(unsigned char *target, unsigned char *table, unsigned char *other, int len) {
    gf_vect_mad(len, 1, 0, table, other, target);
}

void isal_leave(void) { leave(); }
