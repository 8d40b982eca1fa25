/* Data about the other end of a connection: its server, or its client. Tested, not proved. */
int ConnectServerInfo(pid_t pid, int coid, struct _server_info *info) {
    if (enter()) return -1;
    if (pid && pid != program) return fail(ESRCH);
    if (!info) return fail(EFAULT);
    int found = 0;
    step_if_explored(DO_TABLES);
    memset(info, 0, sizeof *info);
    info->nd = info->srcnd = ND_LOCAL_NODE;
    info->scoid = neutrino_remote() ? neutrino_remote_scoid() : SIDE | PROGRAM;
    hold();
    for (int at = 0; at < ENTRIES; at++) {
        const struct connection *c = &connections[at];
        if (!c->coid || c->coid < coid || (found && c->coid > found)) continue;
        info->coid = found = c->coid;
        info->chid = c->chid;
        info->pid = c->pid;
        info->flags = (int16_t)c->flags;
    }
    release();
    return found ? found : fail(EINVAL);
}

/* Writes at most this number of the program's groups. Returns the number that it wrote. */
static uint32_t fill_groups(gid_t *groups, int most) {
    int count = getgroups(0, NULL);
    gid_t *all = malloc((size_t)(count > 0 ? count : 1) * sizeof *all);
    count = all ? getgroups(count, all) : 0;
    if (most > __NGROUPS_MAX) most = __NGROUPS_MAX;
    if (count > most) count = most;
    for (int at = 0; at < count; at++) groups[at] = all[at];
    free(all);
    return count > 0 ? (uint32_t)count : 0;
}

/* Fills in a client of the daemon. The host reports only one user and one group of the client. */
static int fill_remote(int scoid, struct _client_info *info, int most) {
    struct wire_client client;
    struct _cred_info *cred = &info->cred;
    if (neutrino_remote_client(scoid, &client)) return -1;
    info->pid = client.pid;
    info->sid = getsid(client.pid);
    cred->ruid = cred->euid = cred->suid = client.uid;
    cred->rgid = cred->egid = cred->sgid = client.gid;
    for (; cred->ngroups < client.ngroups && (int)cred->ngroups < most; cred->ngroups++)
        cred->grouplist[cred->ngroups] = client.groups[cred->ngroups];
    return 0;
}

static int fill_own(struct _client_info *info, int most) {
    struct _cred_info *cred = &info->cred;
    info->pid = program;
    info->sid = getsid(0);
    cred->ngroups = fill_groups(cred->grouplist, most);
    if (getresuid(&cred->ruid, &cred->euid, &cred->suid)) return -1;
    return getresgid(&cred->rgid, &cred->egid, &cred->sgid);
}

int ConnectClientInfo(int scoid, struct _client_info *info, int ngroups) {
    if (enter()) return -1;
    if (!info) return fail(EFAULT);
    bool is_own = scoid == (neutrino_remote() ? neutrino_remote_scoid() : SIDE | PROGRAM);
    if (!is_own && !neutrino_remote()) return fail(EINVAL);
    *info = (struct _client_info){.nd = ND_LOCAL_NODE};
    return is_own ? fill_own(info, ngroups) : fill_remote(scoid, info, ngroups);
}

/* Adds the groups of this program after the first __NGROUPS_MAX. Returns the longer info, or null. */
static struct _client_info *add_groups(struct _client_info *info) {
    int count = getgroups(0, NULL);
    if (count <= __NGROUPS_MAX) return info;
    struct _client_info *longer = realloc(info, sizeof *info + (size_t)count * sizeof(gid_t));
    if (!longer) return NULL;
    gid_t *groups = (gid_t *)((char *)longer + offsetof(struct _client_info, cred.grouplist)); /* and more after it */
    count = getgroups(count, groups);
    longer->cred.ngroups = count > 0 ? (uint32_t)count : 0;
    return longer;
}

int ConnectClientInfoExt(int scoid, struct _client_info **info_pp, int flags) {
    bool takes_groups = flags & _NTO_CLIENTINFO_GETGROUPS;
    if (!info_pp) return fail(EFAULT);
    if (flags & ~(_NTO_CLIENTINFO_GETGROUPS | _NTO_CLIENTINFO_GETTYPEID)) return fail(EINVAL);
    struct _client_info *info = malloc(sizeof *info);
    if (!info) return fail(ENOMEM);
    if (ConnectClientInfo(scoid, info, takes_groups ? __NGROUPS_MAX : 0)) {
        int error = errno;
        free(info);
        return fail(error);
    }
    struct _client_info *whole = takes_groups && info->pid == program ? add_groups(info) : info;
    if (!whole) {
        free(info);
        return fail(ENOMEM);
    }
    free(*info_pp);
    *info_pp = whole;
    return 0;
}

int ClientInfoExtFree(struct _client_info **info_pp) {
    if (!info_pp) return fail(EFAULT);
    free(*info_pp);
    *info_pp = NULL;
    return 0;
}
