// Updates, irreducibility, shortest periods and orders in C.
#include <stdbool.h>
#include <stddef.h>
#include <stdint.h>

// leaves a + c·b modulo p in a, by a division
void c_update_by_division(uint16_t p, uint8_t *restrict a, uint8_t c, const uint8_t *restrict b, size_t n);

// whether a polynomial of degree d is irreducible: by trial division, and by Ben-Or's test
bool c_irreducible(uint32_t p, const uint8_t *f, int d);
bool c_irreducible_ben_or(uint32_t p, const uint8_t *f, int d);

// the shortest period of the endless repetition of n terms, n at least 1, where as many as `first` terms decide it
size_t c_shortest_period(const uint8_t *terms, size_t n, size_t first);

// the order of x modulo a monic polynomial of degree d from 1 to 32 whose constant term is not 0, or 0 beyond the limit: by
// a walk of residues, over GF(2) in a word
size_t c_order(uint32_t p, const uint8_t *f, size_t d, size_t limit);
