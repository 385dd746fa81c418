/* Bytes under 0x11D, by GF-Complete: target += factor * other, one byte a symbol. */
#include <gf_complete.h>

static gf_t field;

int gf_complete_open(void) { return gf_init_easy(&field, 8); }

void gf_complete_subtract(unsigned char *target, unsigned factor, unsigned char *other, int len) {
    field.multiply_region.w32(&field, other, target, factor, len, 1);
}
