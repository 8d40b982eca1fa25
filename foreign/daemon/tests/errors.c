/* errors: each error of the library has an error of the host, even an error that this layer doesn't know.
 * Built with AddressSanitizer and UBSan. */
#define _GNU_SOURCE
#include "layer.h"

#include <stdio.h>

int main(void) {
    for (uint32_t error = 0; error < 1000; error++) {
        int host = host_error(error);
        if (host >= 0 && host < 200 && (error < 14 || host == EIO) && (host != 0 || error == 0)) continue;
        fprintf(stderr, "error %u is %d\n", error, host);
        return 1;
    }
    return 0;
}
