/* The auction in memory. Link with libfundreivo_c.so, or with libfundreivo_c.a, -lpthread and -ldl. */
#ifndef FUNDREIVO_H
#define FUNDREIVO_H
#include <stddef.h>
#include <stdint.h>
#ifdef __cplusplus
extern "C" {
#endif

/* Does what `rubis_auction WORDS` does with an input of `size` bytes: `words` are `count` texts. `*output` is then what it writes, or else the text of its
 * fault, of `*output_size` bytes, with a zero behind them; it is to be given to `fundreivo_free`. Gives 0, or the status of the fault: 1 words, 2 input,
 * 3 run, 4 output; 6 is a panic. Calls may be made in several threads at a time. */
int fundreivo_run(const char *const *words, size_t count, const void *input, size_t size, char **output, size_t *output_size);

/* Gives back what `fundreivo_run` gave, or does nothing with NULL. */
void fundreivo_free(char *output, size_t output_size);

#ifdef __cplusplus
}
#endif
#endif
