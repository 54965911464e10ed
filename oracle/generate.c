/* generate SEED > recording
 *
 * Writes one recording for the listing program: program length, program, scans.
 */
#include <stdio.h>
#include <stdlib.h>

#include "recordings.h"

int main(int argc, char **argv)
{
    static uint8_t out[ORACLE_MOST_RECORDING];
    uint64_t seed;
    size_t length;
    char *end;

    if (argc != 2) {
        fputs("usage: generate SEED > recording\n", stderr);
        return 2;
    }
    seed = strtoull(argv[1], &end, 10);
    if (end == argv[1] || *end != '\0') {
        fputs("generate: the seed is a decimal number\n", stderr);
        return 2;
    }
    length = oracle_recording(seed, out, sizeof out);
    if (fwrite(out, 1, length, stdout) != length || fflush(stdout) != 0) {
        fputs("generate: the recording could not be written\n", stderr);
        return 1;
    }
    return 0;
}
