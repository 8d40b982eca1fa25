/* Names of servers, in the program or in the daemon. Tested, not proved. */
static struct {
    char name[NAME_LENGTH]; /* empty: none */
    int chid;
} names[NAMES];

/* Returns the place of a name in the table, or -1. The caller has the lock. */
static int place_of_name(const char *name) {
    for (int at = 0; at < NAMES; at++) {
        if (!strcmp(names[at].name, name)) return at;
    }
    return -1;
}

/* Returns an errno for a name that can't be attached, or 0. */
static int wrong_name(const char *name) {
    if (!name || !*name || *name == '/' || strstr(name, "..")) return EINVAL;
    return strlen(name) < NAME_LENGTH ? 0 : ENAMETOOLONG;
}

/* Enters a name in the table, or in the daemon's. Returns 0 or an errno. */
static int enter_name(const char *name, int chid) {
    if (neutrino_remote()) return neutrino_remote_name(name, chid) ? errno : 0;
    hold();
    int place = place_of_name(""), error = place_of_name(name) != -1 ? EEXIST : place == -1 ? EBUSY : 0;
    if (!error) {
        strcpy(names[place].name, name);
        names[place].chid = chid;
    }
    release();
    return error;
}

/* Returns the channel of a handle, which then has its name. Returns -1 and sets errno on an error. */
static int channel_for_name(dispatch_t *dpp) {
    ordered_mutex_lock(&dpp->lock);
    int chid = dpp->has_name ? fail(EBUSY)
                             : channel_of(dpp, _NTO_CHF_UNBLOCK | _NTO_CHF_DISCONNECT | _NTO_CHF_COID_DISCONNECT);
    dpp->has_name |= chid != -1;
    neutrino_pthread_mutex_unlock(&dpp->lock);
    return chid;
}

static void take_name_away(dispatch_t *dpp) {
    ordered_mutex_lock(&dpp->lock);
    dpp->has_name = false;
    neutrino_pthread_mutex_unlock(&dpp->lock);
}

/* Gives a handle a name. Returns 0 or an errno. */
static int attach_name(dispatch_t *dpp, const char *path, name_attach_t *attach) {
    int chid = channel_for_name(dpp);
    if (chid == -1) return errno == EAGAIN ? EBUSY : errno;
    step_if_explored(DO_NAME);
    int error = enter_name(path, chid);
    if (error) take_name_away(dpp);
    *attach = (name_attach_t){.dpp = dpp, .chid = chid};
    return error;
}

name_attach_t *name_attach(dispatch_t *dpp, const char *path, unsigned flags) {
    int error = wrong_name(path);
    (void)flags;
    if (error) return null_with(error);
    name_attach_t *attach = allocate(sizeof *attach);
    dispatch_t *own = dpp ? NULL : dispatch_create();
    error = attach && (dpp || own) ? attach_name(dpp ? dpp : own, path, attach) : ENOMEM;
    if (!error) return attach;
    if (own) dispatch_destroy(own);
    free(attach);
    return null_with(error);
}

/* Removes the first name of a channel from the program's table. Returns whether there was one. */
static bool remove_name(int chid) {
    int at = 0;
    step_if_explored(DO_NAME);
    hold();
    while (at < NAMES && (!*names[at].name || names[at].chid != chid)) at++;
    if (at < NAMES) *names[at].name = 0;
    release();
    return at < NAMES;
}

int name_detach(name_attach_t *attach, unsigned flags) {
    if (!attach) return fail(EINVAL);
    bool found = neutrino_remote() ? !neutrino_remote_unname(attach->chid) : remove_name(attach->chid);
    if (!found) return fail(EINVAL);
    take_name_away(attach->dpp);
    if (!(flags & NAME_FLAG_DETACH_SAVEDPP)) dispatch_destroy(attach->dpp);
    free(attach);
    return 0;
}

/* Returns the chid of a name, and sets *pid if the pid is known. */
static int find_name(const char *name, pid_t *pid) {
    if (neutrino_remote()) return neutrino_remote_find(name, pid);
    step_if_explored(DO_FIND_NAME);
    hold();
    int place = place_of_name(name), chid = place == -1 ? 0 : names[place].chid;
    release();
    return place == -1 ? fail(ENOENT) : chid;
}

int name_open(const char *name, int flags) {
    const struct _io_connect connect = {.type = _IO_CONNECT, .subtype = _IO_CONNECT_OPEN, .path_len = 1};
    (void)flags;
    if (enter()) return -1;
    if (!name || !*name) return fail(EINVAL);
    pid_t pid = 0;
    int chid = find_name(name, &pid);
    if (chid == -1) return -1;
    int coid = ConnectAttach(ND_LOCAL_NODE, pid, chid, 0, 0);
    if (coid == -1 || MsgSendnc(coid, &connect, sizeof connect, NULL, 0) != -1) return coid;
    int error = errno;
    ConnectDetach(coid);
    return fail(error);
}

int name_close(int coid) { return ConnectDetach(coid); }
