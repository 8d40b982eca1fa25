/* Requests of QNX's front (foreign/qnx) to the daemon, in addition to the layer's calls. Tested, not proved.
 *
 * If the environment names a daemon's socket in BALSAEUCHRE_SYSTEM, the kernel is this daemon's. All
 * functions return -1 and set errno on an error. */
#ifndef BALSAEUCHRE_REMOTE_H
#define BALSAEUCHRE_REMOTE_H

#include <signal.h>
#include <stdbool.h>
#include <sys/types.h>

struct wire_client;

/* Whether the program uses a daemon's kernel. */
bool neutrino_remote(void);

/* The program's scoid. */
int neutrino_remote_scoid(void);

int neutrino_remote_channel(unsigned flags);
int neutrino_remote_attach(pid_t pid, int chid, bool is_side);
int neutrino_remote_pulse(int coid, int priority, int code, union sigval value);

/* Names. neutrino_remote_find returns the chid, and writes the pid. */
int neutrino_remote_name(const char *name, int chid);
int neutrino_remote_unname(int chid);
int neutrino_remote_find(const char *name, pid_t *pid);

int neutrino_remote_client(int scoid, struct wire_client *client);

/* Returns a new pidfd of the program that sent the message of an rcvid, and writes its pid. */
int neutrino_remote_sender(int rcvid, pid_t *pid);

/* Delivers a pulse, or only tests whether it could be delivered. */
int neutrino_remote_deliver(int rcvid, const struct sigevent *event, bool delivers);
int neutrino_remote_unblock(int rcvid);

/* Reports to the daemon that a thread of the program has ended. */
void neutrino_remote_death(int tid);

/* Prints the text of pidin to a file. */
int neutrino_remote_show(int fd);

#endif
