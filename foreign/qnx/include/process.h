/* QNX's process.h: gettid, getpid and related functions, and spawnl and its variants. */
#pragma GCC system_header
#ifndef BALSAEUCHRE_QNX_PROCESS_H
#define BALSAEUCHRE_QNX_PROCESS_H
#include <spawn.h>
#include <unistd.h>
#ifdef __cplusplus
extern "C" {
#endif

#define P_WAIT 0    /* waits until the program has ended */
#define P_NOWAIT 1  /* returns at once; the caller sees the end by waitpid */
#define P_OVERLAY 2 /* the program replaces the caller, as by exec */
#define P_NOWAITO 3 /* ENOTSUP: the host's parent has to see the end */

/* Start a program with the caller's files: in l the arguments of main follow, and then a null pointer, and in
 * v they are an array. In e an array of the environment follows. In p the file is looked for in PATH. Return
 * the pid, or with P_WAIT the exit status of the program, as waitpid writes it. -1: EINVAL (another mode), and the
 * errors of spawn. */
int spawnl(int mode, const char *path, const char *arg0, ...);
int spawnle(int mode, const char *path, const char *arg0, ...);
int spawnlp(int mode, const char *file, const char *arg0, ...);
int spawnlpe(int mode, const char *file, const char *arg0, ...);
int spawnv(int mode, const char *path, char *const argv[]);
int spawnve(int mode, const char *path, char *const argv[], char *const envp[]);
int spawnvp(int mode, const char *file, char *const argv[]);
int spawnvpe(int mode, const char *file, char *const argv[], char *const envp[]);

#ifdef __cplusplus
}
#endif
#endif
