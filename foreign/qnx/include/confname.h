/* The names of confstr, sysconf and pathconf: the host's, and QNX's names of what uname knows. */
#pragma GCC system_header
#ifndef BALSAEUCHRE_QNX_CONFNAME_H
#define BALSAEUCHRE_QNX_CONFNAME_H

#include <unistd.h>

#define _CS_HOSTNAME 0x6e01
#define _CS_RELEASE 0x6e02
#define _CS_VERSION 0x6e03
#define _CS_MACHINE 0x6e04
#define _CS_ARCHITECTURE 0x6e05
#define _CS_SYSNAME 0x6e06
#define confstr neutrino_confstr

#ifdef __cplusplus
extern "C" {
#endif

/* The host's confstr, with these six names, which have the host's values: _CS_ARCHITECTURE is the machine.
 * Returns the length of the value with the closing 0, and writes as much as fits into length bytes. 0 and
 * EINVAL: no such name. */
size_t neutrino_confstr(int name, char *text, size_t length);

#ifdef __cplusplus
}
#endif

#endif
