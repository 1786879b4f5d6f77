/* make KIND ORDER MIB: writes a good file of a kind, in a bit order (0 high first, 1 low first) and of about so many MiB, to standard output, always the same. */
#include "files.h"

#include <stdio.h>
#include <stdlib.h>
#include <string.h>

int main(int argc, char **argv)
{
    size_t len = argc == 4 ? strtoul(argv[3], NULL, 10) << 20 : 0;
    struct maker m = {.bytes = calloc(len + 1, 1), .seed = 7, .low = argc == 4 && strcmp(argv[2], "1") == 0};
    for (int kind = 0; m.bytes && len && kind < KINDS; kind++) {
        if (strcmp(argv[1], KIND_NAMES[kind]) != 0) continue;
        make_long_file(&m, (enum kind)kind, len);
        return fwrite(m.bytes, 1, m.len, stdout) == m.len ? 0 : 2;
    }
    fputs("usage: make KIND ORDER MIB\n", stderr);
    return 2;
}
