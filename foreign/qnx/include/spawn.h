/* The host's spawn.h, with QNX's spawn and spawnp. process.h has spawnl and its variants. */
#pragma GCC system_header
#include_next <spawn.h>
#ifndef BALSAEUCHRE_QNX_SPAWN_H
#define BALSAEUCHRE_QNX_SPAWN_H
#include <sched.h>
#include <signal.h>
#include <stdint.h>
#include <sys/types.h>
#ifdef __cplusplus
extern "C" {
#endif

/* Flags of struct inheritance. The flags without a comment change nothing: the host runs scripts, and
 * schedules. */
#define SPAWN_SETGROUP 0x1u      /* the child's process group is pgroup, or a new one: SPAWN_NEWPGROUP */
#define SPAWN_SETSIGMASK 0x2u    /* the child blocks the signals of sigmask */
#define SPAWN_SETSIGDEF 0x4u     /* the signals of sigdefault have their usual effect in the child */
#define SPAWN_SETSIGIGN 0x8u     /* ENOTSUP, as are the flags with this comment below */
#define SPAWN_SETND 0x10u        /* on the node nd: ESRCH for another node than ND_LOCAL_NODE */
#define SPAWN_SETSID 0x20u       /* the child has a session of its own */
#define SPAWN_EXEC 0x40u         /* the program replaces the caller, as by exec */
#define SPAWN_NOZOMBIE 0x80u     /* ENOTSUP */
#define SPAWN_HOLD 0x100u        /* ENOTSUP */
#define SPAWN_TCSETPGROUP 0x200u /* ENOTSUP */
#define SPAWN_DEBUG 0x400u       /* ENOTSUP */
#define SPAWN_CHECK_SCRIPT 0x800u
#define SPAWN_SEARCH_PATH 0x1000u    /* path is looked for as by spawnp */
#define SPAWN_EXPLICIT_SCHED 0x2000u /* ENOTSUP: a child begins with priority 10 */
#define SPAWN_EXPLICIT_CPU 0x4000u
#define SPAWN_SETSTACKMAX 0x8000u
#define SPAWN_NEWPGROUP 0   /* a pgroup */
#define SPAWN_FDCLOSED (-1) /* in a map: the child doesn't have this file */

struct inheritance {
    unsigned long flags;
    pid_t pgroup;
    sigset_t sigmask;
    sigset_t sigdefault;
    sigset_t sigignore;
    unsigned long stack_max;
    int32_t policy;
    uint32_t nd;
    uint32_t runmask;
    struct sched_param param;
};

/* Start a program, spawnp by a look through PATH for a name without a slash. The file at of the child is the
 * file fd_map[at] of the caller. With fd_count 0 the child has all files without FD_CLOEXEC, and otherwise
 * only the files of the map. argv ends with a null pointer. A null inherit sets nothing, and a null envp is the
 * caller's environment. Return the pid, for the host's waitpid, or -1: EFAULT (no path, or no argv), EINVAL
 * (fd_count is negative, or above 1,000), EBADF (a file of the map isn't open), ENOTSUP, ESRCH, and the errors
 * of posix_spawn, such as ENOENT. */
pid_t spawn(const char *path, int fd_count, const int fd_map[], const struct inheritance *inherit, char *const argv[],
            char *const envp[]);
pid_t spawnp(const char *file, int fd_count, const int fd_map[], const struct inheritance *inherit, char *const argv[],
             char *const envp[]);

#ifdef __cplusplus
}
#endif
#endif
