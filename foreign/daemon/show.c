/* The text that pidin prints. Tested, not proved. */
#include "printable.h"

/* Prints the channel, the thread and the process on which a thread is blocked. */
static void show_blocked(FILE *to, const struct neutrino_blocked *blocked) {
    int place = k->place_of[blocked->server], owner = k->channels[place_in(&k->tables[CHANNELS], blocked->chid)].owner;
    const struct client *whom = place == PLACES ? NULL : client_of[place];
    char name[20];
    fprintf(to, "chid %d", blocked->chid);
    if (whom) name_thread(processes[owner].peer.pid, whom->host_tid, name);
    if (whom) fprintf(to, ", thread %d (%s)", whom->tid, name);
    if (blocked->state != STATE_RECEIVE) fprintf(to, whom ? " of %d" : ", of %d", (int)processes[owner].peer.pid);
    fprintf(to, "\n");
}

/* The priority of a thread. The thread may be blocked, so the daemon's own thread makes the call. */
static int shown_priority(const struct place *p) {
    balsaeuchre_request request = balsaeuchre_request_of(BALSAEUCHRE_STATE, SYSTEM, 0);
    request.target = p->tid;
    return make_hidden(request) ? 0 : k->event.rows[0].priority;
}

static void show_thread(FILE *to, const struct client *c) {
    char name[20];
    static const char *const states[] = {"", "READY", "SEND", "RECEIVE", "REPLY"};
    struct neutrino_blocked blocked = look_at(k, c->place);
    pid_t pid = processes[c->process].peer.pid;
    name_thread(pid, c->host_tid, name);
    fprintf(to, "%8d %3d %-15s %4d ", (int)pid, c->tid, name, shown_priority(c->place));
    if (blocked.state == STATE_READY) {
        fprintf(to, "READY\n");
    } else {
        fprintf(to, "%-8s ", states[blocked.state]);
        show_blocked(to, &blocked);
    }
}

static void show_channel(FILE *to, int place) {
    const struct name *channel = &k->channels[place];
    int chid = chid_at(place), sent = 0, held = 0, receive = 0;
    char name[WIRE_NAME];
    strcpy(name, names[place]);
    make_printable(name);
    for (int at = 0; at < PLACES; at++) {
        struct neutrino_blocked blocked = look_at(k, &k->places[at]);
        sent += blocked.state == STATE_SEND && blocked.chid == chid;
        held += blocked.state == STATE_REPLY && blocked.chid == chid;
        receive += blocked.state == STATE_RECEIVE && blocked.chid == chid;
    }
    fprintf(to, "%8d %4d %5d %5d %6d %9d %s\n", (int)processes[channel->owner].peer.pid, chid, sent, held,
            pulses[place], receive, name);
}

static void show(FILE *to) {
    fprintf(to, "%8s %3s %-15s %4s %-8s Blocked\n", "pid", "tid", "name", "prio", "STATE");
    for (int at = 0; at < PLACES; at++) {
        if (client_of[at]) show_thread(to, client_of[at]);
    }
    fprintf(to, "\n%8s %4s %5s %5s %6s %9s Name\n", "pid", "chid", "Sent", "Held", "Pulses", "Receivers");
    for (int at = 0; at < CHANNEL_PLACES; at++) {
        if (k->channels[at].id) show_channel(to, at);
    }
}

static void show_all(struct client *c) {
    char *text = NULL;
    size_t length = 0;
    FILE *to = open_memstream(&text, &length);
    if (to) show(to);
    if (to) fclose(to);
    put_answer(c, text ? 0 : ENOMEM, 0, text, length);
    free(text);
}
