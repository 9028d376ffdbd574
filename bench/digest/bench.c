/* Prints, for each implementation named on the command line, how many times as fast as plain C it is at each size.
   Processor time is counted, the implementations' turns alternate, and the best of each counts: a busy machine tells little. */
#include <mbedtls/sha256.h>
#include <openssl/evp.h>
#include <stdio.h>
#include <stdlib.h>
#include <string.h>
#include <time.h>

#include "plain.h"
#include "scale.h"

static void openssl_sha256(const uint8_t *message, size_t length, uint8_t digest[32])
{
    if (!EVP_Digest(message, length, digest, NULL, EVP_sha256(), NULL))
        abort();
}

static void mbedtls_digest(const uint8_t *message, size_t length, uint8_t digest[32])
{
    if (mbedtls_sha256_ret(message, length, digest, 0))
        abort();
}

typedef void sha256_function(const uint8_t *, size_t, uint8_t[32]);

static const struct {
    const char *name;
    sha256_function *run;
} known[] = {
    {"plain", plain_sha256},
    {"scale", scale_sha256},
    {"mbedtls", mbedtls_digest},
    {"openssl", openssl_sha256},
};
enum { KNOWN = sizeof known / sizeof known[0] };

static const size_t sizes[] = {32, 4096, 1048576};
enum { SIZES = sizeof sizes / sizeof sizes[0], TURNS = 60 };

static double seconds(void)
{
    struct timespec t;
    clock_gettime(CLOCK_PROCESS_CPUTIME_ID, &t);
    return t.tv_sec + t.tv_nsec * 1e-9;
}

int main(int argc, char **argv)
{
    static uint8_t message[1048576];
    for (size_t i = 0; i < sizeof message; i++)
        message[i] = (uint8_t)(i * 131 + (i >> 8));
    sha256_function *run[KNOWN] = {plain_sha256};
    const char *label[KNOWN] = {"plain C, gcc -O2"};
    int count = 1;
    /* arguments: NAME LABEL NAME LABEL .. */
    for (int i = 1; i + 1 < argc && count < KNOWN; i += 2)
        for (int j = 0; j < KNOWN; j++)
            if (!strcmp(argv[i], known[j].name)) {
                run[count] = known[j].run;
                label[count++] = argv[i + 1];
            }
    double best[KNOWN][SIZES];
    for (int s = 0; s < SIZES; s++) {
        long calls = 1 + 1048576 / (long)(sizes[s] + 64);
        uint8_t want[32], got[32];
        plain_sha256(message, sizes[s], want);
        for (int j = 0; j < count; j++)
            best[j][s] = 1e9;
        for (int turn = 0; turn < TURNS; turn++)
            for (int j = 0; j < count; j++) {
                double from = seconds();
                for (long c = 0; c < calls; c++)
                    run[j](message, sizes[s], got);
                double took = (seconds() - from) / calls;
                if (took < best[j][s])
                    best[j][s] = took;
                if (memcmp(want, got, 32)) {
                    fprintf(stderr, "%s: another digest\n", label[j]);
                    return 1;
                }
            }
    }
    for (int j = 0; j < count; j++) {
        printf("%-28s", label[j]);
        for (int s = 0; s < SIZES; s++)
            printf("  %5.2f (%6.0f MB/s)", best[0][s] / best[j][s], sizes[s] / best[j][s] * 1e-6);
        printf("\n");
    }
    return 0;
}
