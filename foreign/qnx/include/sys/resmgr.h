/* For programs that include this header with sys/dispatch.h and use nothing of it. Resource managers are
 * missing. */
#pragma GCC system_header
#include <sys/dispatch.h>
