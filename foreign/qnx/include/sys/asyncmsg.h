/* Asynchronous messages are missing: send a pulse, or a message by another thread. */
#pragma GCC system_header
#ifndef BALSAEUCHRE_QNX_ASYNCMSG_H
#define BALSAEUCHRE_QNX_ASYNCMSG_H

#include <sys/missing.h>

#ifdef __cplusplus
extern "C" {
#endif

NEUTRINO_MISSING(asyncmsg_channel_create);
NEUTRINO_MISSING(asyncmsg_channel_destroy);
NEUTRINO_MISSING(asyncmsg_connect_attach);
NEUTRINO_MISSING(asyncmsg_connect_attr);
NEUTRINO_MISSING(asyncmsg_connect_detach);
NEUTRINO_MISSING(asyncmsg_flush);
NEUTRINO_MISSING(asyncmsg_free);
NEUTRINO_MISSING(asyncmsg_get);
NEUTRINO_MISSING(asyncmsg_malloc);
NEUTRINO_MISSING(asyncmsg_put);
NEUTRINO_MISSING(asyncmsg_putv);

#ifdef __cplusplus
}
#endif

#endif
