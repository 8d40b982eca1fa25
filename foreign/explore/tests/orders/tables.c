/* Part of orders.c. Names, connection data and timers. */
static void *attach_name(void *argument) {
    seen[number_of(argument)] = name_attach(NULL, "device", 0) != NULL;
    return NULL;
}

static void *serve_open(void *argument) {
    name_attach_t *attached = name_attach(NULL, "device", 0);
    char room[64];
    (void)argument;
    int rcvid = MsgReceive(attached->chid, room, sizeof room, NULL);
    if (rcvid > 0) MsgReply(rcvid, EOK, NULL, 0);
    return NULL;
}

static void *open_and_stop(void *argument) {
    int opened = name_open("device", 0);
    seen[number_of(argument)] = opened == -1 ? errno : 0;
    return NULL;
}

static void *pulse_the_server(void *argument) {
    (void)argument;
    nanosleep(&(struct timespec){1, 0}, NULL);
    MsgSendPulse(attach(2), 10, 1, 1);
    return NULL;
}

static void names(void) { run(attach_name, attach_name, NULL); }
static void opens(void) { run(open_and_stop, serve_open, pulse_the_server); }

static void *flags(void *argument) {
    seen[number_of(argument)] = ConnectFlags(0, coid, 1, (unsigned)number_of(argument));
    return NULL;
}

static void connection_flags(void) {
    coid = attach(chid);
    run(flags, flags, NULL);
}

static timer_t timer;

static void *set_timer(void *argument) {
    struct itimerspec time = {.it_value = {0, 1000000 * (number_of(argument) + 1)}}, old;
    timer_settime(timer, 0, &time, &old);
    seen[number_of(argument)] = (int)old.it_value.tv_nsec;
    return NULL;
}

static void timers(void) {
    struct sigevent event;
    SIGEV_PULSE_INIT(&event, attach(chid), 10, 1, 5);
    timer_create(CLOCK_MONOTONIC, &event, &timer);
    run(set_timer, set_timer, receive_pulse);
}
