/* Data about the other end of a connection: its server, or its client. A part of sys/neutrino.h, which includes
 * it. */
#pragma GCC system_header
#ifndef BALSAEUCHRE_QNX_PEERS_H
#define BALSAEUCHRE_QNX_PEERS_H

#include <stdint.h>
#include <sys/types.h>

#ifdef __cplusplus
extern "C" {
#endif

struct _server_info {
    uint32_t nd;
    uint32_t srcnd;
    pid_t pid;
    int32_t tid;
    int32_t chid;
    int32_t scoid;
    int32_t coid;
    int16_t priority;
    int16_t flags; /* of the connection */
    ssize_t msglen;
    ssize_t srcmsglen;
    ssize_t dstmsglen;
    uint32_t type_id;
    uint32_t reserved;
};

/* Fills in nd, pid, chid, scoid, coid and flags of a connection. If there is no such connection, it takes the
 * connection with the next greater coid. Returns the coid, or -1: ESRCH (another process), EINVAL (no
 * connection has this coid or a greater one). */
int ConnectServerInfo(pid_t pid, int coid, struct _server_info *info);
int ConnectServerInfo_r(pid_t pid, int coid, struct _server_info *info);

#define __NGROUPS_MAX 8

struct _cred_info {
    uid_t ruid, euid, suid;
    gid_t rgid, egid, sgid;
    uint32_t ngroups;
    gid_t grouplist[__NGROUPS_MAX];
};

struct _client_info {
    uint32_t nd;
    pid_t pid;
    pid_t sid;
    uint32_t flags;
    struct _cred_info cred;
};

/* Fills in the process of an scoid, with at most ngroups groups. EINVAL: no such scoid. */
int ConnectClientInfo(int scoid, struct _client_info *info, int ngroups);
int ConnectClientInfo_r(int scoid, struct _client_info *info, int ngroups);

#define _NTO_CLIENTINFO_GETGROUPS 1
#define _NTO_CLIENTINFO_GETTYPEID 2

/* ConnectClientInfo into memory that it allocates: *info_pp has to be null, or the result of an earlier call.
 * With _NTO_CLIENTINFO_GETGROUPS it fills in all groups of the client, which may be more than
 * __NGROUPS_MAX, or the first 8 groups of another program. EFAULT: info_pp is null; EINVAL: another flag, or
 * no such scoid; ENOMEM. */
int ConnectClientInfoExt(int scoid, struct _client_info **info_pp, int flags);
int ConnectClientInfoExt_r(int scoid, struct _client_info **info_pp, int flags);

/* Frees *info_pp, and makes it null. EFAULT: info_pp is null. */
int ClientInfoExtFree(struct _client_info **info_pp);

#ifdef __cplusplus
}
#endif

#endif
