/* Document 01's bench lines, from an archive of their own, libcapi_bench.a (`embed/archives capi_bench`). For runs against the
 * source; a unit has no use for them. */
#ifndef WEGRULSTA_BENCH_H
#define WEGRULSTA_BENCH_H

#include <stddef.h>
#include <stdint.h>

#ifdef __cplusplus
extern "C" {
#endif

/* Runs bench lines from the default state and writes what is printed; how many octets that is. The run ends at a line that is
 * no record, and where less than 512 octets are left. What the caller owes is what wegrulsta.h asks. */
size_t wegrulsta_bench(const uint8_t *input, size_t input_len, uint8_t *out, size_t out_len);

#ifdef __cplusplus
}
#endif

#endif
