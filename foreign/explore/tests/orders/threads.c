/* Part of orders.c. Ends, cancellations, sleeps and yields of threads. */
static void *cancel_it(void *argument) {
    (void)argument;
    pthread_cancel(threads[0]);
    return NULL;
}

static void *pulse_then_wait(void *argument) {
    struct _pulse got;
    (void)argument;
    MsgSendPulse(coid, 10, 1, 4);
    MsgReceivePulse(other_chid, &got, sizeof got, NULL);
    return NULL;
}

static void cancels(void) {
    struct _pulse got;
    uint64_t time = 1000000;
    coid = attach(chid);
    run(pulse_then_wait, cancel_it, NULL);
    TimerTimeout(CLOCK_MONOTONIC, _NTO_TIMEOUT_RECEIVE, NULL, &time, NULL);
    seen[5] = MsgReceivePulse(chid, &got, sizeof got, NULL);
}

/* A channel with _NTO_CHF_THREAD_DEATH gets the pulses of threads in the order of the ends. */
static void *end_at_once(void *argument) {
    gettid();
    return argument;
}

static void deaths(void) {
    struct _pulse got;
    chid = ChannelCreate(_NTO_CHF_THREAD_DEATH);
    run(end_at_once, end_at_once, NULL);
    for (int at = 0; at < 2; at++) {
        MsgReceivePulse(chid, &got, sizeof got, NULL);
        seen[at] = got.value.sival_int;
    }
}

static void *sleep_then_count(void *argument) {
    nanosleep(&(struct timespec){0, 1000}, NULL);
    return count_locked(argument);
}

static void sleeps(void) { run(sleep_then_count, sleep_then_count, NULL); }

static void *yield_then_count(void *argument) {
    sched_yield();
    return count_locked(argument);
}

static void yields(void) { run(yield_then_count, yield_then_count, NULL); }
