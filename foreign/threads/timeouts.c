/* Timeouts and interruptions. If a thread waits too long or is interrupted, its process's clock unblocks it.
 * The clock is a hidden thread of the kernel that does nothing else. Tested, not proved.
 */

/* Unblocks a thread whose call is open, under the lock. Returns false if the kernel refuses. Adds the threads
 * whose calls it completes to *ended. A call whose server gets a pulse stays open. */
static bool unblock(neutrino *k, struct place *p, uint64_t *ended) {
    uint8_t clock = k->clock_of[p->pid];
    struct call c = {.request = {.kind = BALSAEUCHRE_UNBLOCK, .thread = clock, .target = p->tid}};
    if (make_in_library(k, &c, 0, &k->event)) return false;
    for (size_t at = 0; at < k->event.done.endings; at++) {
        if (k->event.rows[at].thread == clock && k->event.rows[at].mark != BALSAEUCHRE_DONE) return false;
    }
    bool interrupted = p->call->interrupted;
    uint64_t cut = deliver_all(k);
    if (!(cut & bit_of(k, p))) p->asked = true;
    else if (p->error == EINTR && !interrupted) p->error = ETIMEDOUT;
    *ended |= cut;
    return true;
}

/* Unblocks a thread after its timeout, or because it is interrupted. Returns the time at which this has to
 * be tried again, or 0. It has to be tried again if the call may time out in a later state, or if the
 * kernel refused the Unblock. */
static uint64_t end_early(neutrino *k, struct place *p, enum woken woken) {
    enum { LATER = 1000000 }; /* nanoseconds */
    uint64_t ended = 0, asleep = 0, again = 0;
    lock(k);
    if (!is_ended(p)) {
        struct call *c = p->call;
        if (woken == WAS_INTERRUPTED) {
            c->interrupted = true;
            open_word(p, false);
        }
        bool may = c->interrupted || c->states >> p->state & 1;
        bool may_later = p->state == STATE_SEND && c->states & _NTO_TIMEOUT_REPLY;
        if (may ? !unblock(k, p, &ended) : may_later) again = now() + LATER;
        else c->interrupted = false;
        asleep = tell(k, ended);
    }
    unlock(k);
    wake(k, asleep);
    return again;
}
