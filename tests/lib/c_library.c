/* The program rubis_auction by the C library of rust/fundreivo_c: the same words, input, output, errors and status. */
#include "fundreivo.h"
#include <stdio.h>
#include <stdlib.h>

int main(int count, char **words)
{
    size_t size = 0, room = 1 << 24, answered;
    char *input = malloc(room), *output;
    int status;
    if (!input)
        return 1;
    size = fread(input, 1, room, stdin);
    status = fundreivo_run((const char *const *)words + 1, count - 1, input, size, &output, &answered);
    fwrite(output, 1, answered, status ? stderr : stdout);
    fundreivo_free(output, answered);
    free(input);
    return status;
}
