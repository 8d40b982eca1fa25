/* Nodes. There is only one node, the program's own. */
#pragma GCC system_header
#ifndef BALSAEUCHRE_QNX_NETMGR_H
#define BALSAEUCHRE_QNX_NETMGR_H

#include <string.h>
#include <sys/neutrino.h>
#include <sys/utsname.h>

/* The parts of a node's name that a program asks for. It gets the whole name with any of these flags. */
#define ND2S_DIR_SHOW 0x1u
#define ND2S_DIR_HIDE 0x2u
#define ND2S_QOS_SHOW 0x4u
#define ND2S_QOS_HIDE 0x8u
#define ND2S_NAME_SHOW 0x10u
#define ND2S_NAME_HIDE 0x20u
#define ND2S_DOMAIN_SHOW 0x40u
#define ND2S_DOMAIN_HIDE 0x80u
#define ND2S_LOCAL_STR 0x100u
#define ND2S_SEP_FORCE 0x200u
#define ND_NODE_CMP(a, b) ((a) < (b) ? -1 : (a) > (b))

/* Returns the descriptor by which another node knows a node of ours. */
static inline int netmgr_remote_nd(int remote_nd, int local_nd) {
    (void)remote_nd;
    return local_nd;
}

/* Writes the name of a node, which is the host's name. Returns its length with the closing 0, or -1 and
 * EINVAL. */
static inline int netmgr_ndtostr(unsigned flags, int nd, char *buf, size_t maxbuf) {
    struct utsname host;
    (void)flags;
    if (nd == ND_LOCAL_NODE && !uname(&host) && strlen(host.nodename) < maxbuf)
        return (int)strlen(strcpy(buf, host.nodename)) + 1;
    errno = EINVAL;
    return -1;
}

/* Returns the node with this name, which may be the first part of a path. *end gets the rest of the path. -1
 * and ENOENT: the name isn't the host's. */
static inline int netmgr_strtond(const char *name, char **end) {
    struct utsname host;
    size_t length = strcspn(name, "/");
    if (end) *end = (char *)(uintptr_t)(name + length);
    if (!uname(&host) && strlen(host.nodename) == length && !memcmp(host.nodename, name, length)) return ND_LOCAL_NODE;
    errno = ENOENT;
    return -1;
}

#endif
