/* Functions for a library over the layer: interruptions, hooks, and a look at all
 * threads. Tested, not proved. */
int neutrino_interruptible(void) {
    if (refuse_call()) return -1;
    self->interruptible = true;
    return 0;
}

void neutrino_interrupt(void) {
    if (self && self->interruptible) interrupt_word(self);
}

int neutrino_inside(void) { return inside > 0; }

int neutrino_cancel(neutrino *k, int tid) {
    if (refuse(k)) return -1;
    if (tid < 0 || tid > UINT8_MAX || k->place_of[tid] == PLACES) return fail(ESRCH);
    struct place *p = &k->places[k->place_of[tid]];
    lock(k);
    bool joined = p->joined;
    p->cancelled = joined;
    bool slept = p->call && p->call->cancels && interrupt_word(p);
    unlock(k);
    if (slept) wake(k, bit_of(k, p));
    return joined ? 0 : fail(ESRCH);
}

void neutrino_set_hooks(neutrino *k, const struct neutrino_hooks *hooks) { k->hooks = *hooks; }

void neutrino_set_scheduler(neutrino *k, const struct neutrino_scheduler *scheduler) { k->scheduler = scheduler; }

int neutrino_look(neutrino *k, struct neutrino_blocked *all) {
    if (refuse(k)) return -1;
    memset(all, 0, 256 * sizeof *all);
    lock(k);
    for (int at = 0; at < PLACES; at++) {
        if (k->places[at].joined) all[k->places[at].tid] = look_at(k, &k->places[at]);
    }
    unlock(k);
    return 0;
}
