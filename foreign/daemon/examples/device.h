/* The messages between the driver and its clients. */
#include <stdint.h>

enum { IO_READ = 0x601, IO_WRITE, LINE = 32 };
enum { PULSE_INTERRUPT = 1, PULSE_QUIT };

typedef struct {
    uint16_t type, nbytes;
} io_hdr_t;
typedef struct {
    io_hdr_t hdr;
    char data[2 * LINE];
} io_write_t;
