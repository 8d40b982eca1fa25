/* The messages between the bank and its clients. */
#include <stdint.h>

enum { MSG_BOOK = 0x701, MSG_WATCH, MSG_CLOSE };
enum { CODE_PASSED = 1 };

typedef struct {
    uint16_t type;
    int32_t amount;
    int32_t chid;
} bank_request_t;
