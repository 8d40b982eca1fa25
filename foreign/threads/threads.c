/* The calls on threads: priorities, states and timeouts. Tested, not proved. */

int SchedSet(pid_t pid, int tid, int policy, const struct sched_param *param) {
    (void)policy;
    if (!self) return fail(EPERM);
    if (!param) return fail(EFAULT);
    if (param->sched_priority < 1 || param->sched_priority > UINT8_MAX) return fail(EINVAL);
    if ((pid && pid != self->pid) || tid < 0 || tid > UINT8_MAX) return fail(ESRCH);
    return call(&(struct call){.request = {.kind = BALSAEUCHRE_PRIORITY_SET,
                                           .target = tid ? (uint8_t)tid : self->tid,
                                           .priority = (uint8_t)param->sched_priority}});
}

static int ask(int tid, bool priority) {
    if (!self) return fail(EPERM);
    if (tid < 0 || tid > UINT8_MAX) return fail(ESRCH);
    return call(&(struct call){.request = {.kind = BALSAEUCHRE_STATE, .target = tid ? (uint8_t)tid : self->tid},
                               .own_priority = priority});
}

int neutrino_state(int tid) { return ask(tid, false); }

int neutrino_priority(int tid) { return ask(tid, true); }

int neutrino_unblock(int tid) {
    if (self && (tid < 1 || tid > UINT8_MAX)) return fail(ESRCH);
    return call(&(struct call){.request = {.kind = BALSAEUCHRE_UNBLOCK, .target = (uint8_t)tid}});
}

int TimerTimeout(clockid_t id, int flags, const struct sigevent *notify, const uint64_t *ntime, uint64_t *otime) {
    int known = _NTO_TIMEOUT_SEND | _NTO_TIMEOUT_RECEIVE | _NTO_TIMEOUT_REPLY;
    if (refuse_call()) return -1;
    if ((flags & ~known) || (notify && notify->sigev_notify != SIGEV_UNBLOCK)) return fail(EINVAL);
    if (id != CLOCK_MONOTONIC && id != CLOCK_REALTIME) return fail(EINVAL);
    if (otime) *otime = self->states ? self->time : 0;
    self->states = flags;
    self->time = ntime ? *ntime : 0;
    return 0;
}
