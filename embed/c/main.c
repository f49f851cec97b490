/* The example's program: without arguments the fixed run of script.c, with --device the virtual device of device.c. */
#include "unit.h"

#include <stdio.h>
#include <string.h>

int main(int count, char **words) {
    if (count == 1) {
        return run_script();
    }
    if (strcmp(words[1], "--device") == 0 && (count == 2 || (count == 3 && strcmp(words[2], "--central") == 0))) {
        return run_device(count == 3);
    }
    fprintf(stderr, "unit            prints a fixed run\n"
                    "unit --device   is an H4 device on standard input and output, without a radio\n"
                    "unit --device --central   the same, and a central connects as soon as the unit advertises\n");
    return 2;
}
