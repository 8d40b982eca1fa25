/* The database of resources, such as lines and ports, is missing: there is no hardware. */
#pragma GCC system_header
#ifndef BALSAEUCHRE_QNX_RSRCDBMGR_H
#define BALSAEUCHRE_QNX_RSRCDBMGR_H

#include <sys/missing.h>

#ifdef __cplusplus
extern "C" {
#endif

NEUTRINO_MISSING_TYPE(rsrc_alloc_t);
NEUTRINO_MISSING_TYPE(rsrc_request_t);
NEUTRINO_MISSING(rsrcdbmgr_attach);
NEUTRINO_MISSING(rsrcdbmgr_create);
NEUTRINO_MISSING(rsrcdbmgr_destroy);
NEUTRINO_MISSING(rsrcdbmgr_detach);
NEUTRINO_MISSING(rsrcdbmgr_query);

#ifdef __cplusplus
}
#endif

#endif
