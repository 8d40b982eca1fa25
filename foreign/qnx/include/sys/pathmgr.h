/* Path names of servers are missing: a server has a name of name_attach. */
#pragma GCC system_header
#ifndef BALSAEUCHRE_QNX_PATHMGR_H
#define BALSAEUCHRE_QNX_PATHMGR_H

#include <sys/missing.h>

#ifdef __cplusplus
extern "C" {
#endif

NEUTRINO_MISSING(pathmgr_link);
NEUTRINO_MISSING(pathmgr_symlink);
NEUTRINO_MISSING(pathmgr_unlink);

#ifdef __cplusplus
}
#endif

#endif
