/* Part of orders.c. Messages, pulses and channels. */
static void *send(void *argument) {
    int32_t number = number_of(argument) + 1;
    seen[number_of(argument)] = (int)MsgSend(attach(chid), &number, sizeof number, NULL, 0);
    return NULL;
}

static void *send_quietly(void *argument) {
    int32_t number = number_of(argument) + 1;
    MsgSend(coid, &number, sizeof number, NULL, 0);
    return NULL;
}

static void *pulse(void *argument) {
    seen[number_of(argument)] = MsgSendPulse(attach(chid), 10, 1, number_of(argument) + 1);
    return NULL;
}

/* Receives two messages, and replies to each with its place. */
static void *serve_two(void *argument) {
    int32_t number;
    (void)argument;
    for (int at = 1; at <= 2; at++) {
        int rcvid = MsgReceive(chid, &number, sizeof number, NULL);
        MsgReply(rcvid, at, NULL, 0);
    }
    return NULL;
}

static void *receive_pulse(void *argument) {
    struct _pulse got;
    MsgReceivePulse(chid, &got, sizeof got, NULL);
    seen[4 + number_of(argument)] = got.value.sival_int;
    return NULL;
}

/* Receives one message, which stays held. */
static void *receive_held(void *argument) {
    int32_t number = 0;
    (void)argument;
    held = MsgReceive(chid, &number, sizeof number, NULL);
    return NULL;
}

static void *serve_one(void *argument) {
    int32_t number = 0;
    int rcvid = MsgReceive(chid, &number, sizeof number, NULL);
    seen[4 + number_of(argument)] = number;
    MsgReply(rcvid, number, NULL, 0);
    return NULL;
}

/* The first thread sends, and its message is held when the function returns. */
static void hold_message(void) {
    coid = attach(chid);
    start(0, send_quietly);
    receive_held(NULL);
}

static void *reply(void *argument) {
    seen[number_of(argument)] = MsgReply(held, 7, NULL, 0);
    return NULL;
}

static void *reply_error(void *argument) {
    seen[number_of(argument)] = MsgError(held, EBUSY);
    return NULL;
}

static void *read_held(void *argument) {
    int32_t number = 0;
    seen[number_of(argument)] = (int)MsgRead(held, &number, sizeof number, 0) + number;
    return NULL;
}

static void *info_held(void *argument) {
    struct _msg_info info;
    seen[number_of(argument)] = MsgInfo(held, &info);
    return NULL;
}

static void *write_held(void *argument) {
    seen[number_of(argument)] = (int)MsgWrite(held, "1234", 0, 0);
    return NULL;
}

static void *detach(void *argument) {
    seen[number_of(argument)] = ConnectDetach(coid);
    return NULL;
}

static void *send_over(void *argument) {
    seen[number_of(argument)] = (int)MsgSend(coid, "x", 1, NULL, 0);
    return NULL;
}

static void *pulse_over(void *argument) {
    seen[number_of(argument)] = MsgSendPulse(coid, 10, 1, 3);
    return NULL;
}

static void *destroy(void *argument) {
    seen[number_of(argument)] = ChannelDestroy(chid);
    return NULL;
}

static void *attach_once(void *argument) {
    seen[number_of(argument)] = attach(chid) > 0;
    return NULL;
}

static void *create(void *argument) {
    seen[number_of(argument)] = ChannelCreate(0) > 0;
    return NULL;
}

static void sends(void) { run(send, send, serve_two); }
static void pulses(void) { run(pulse, pulse, receive_pulse); }
static void message_and_pulse(void) { run(send, pulse, serve_one); }
static void receivers(void) { run(receive_pulse, receive_pulse, NULL); }

static void *pulse_twice(void *argument) {
    int to = attach(chid);
    (void)argument;
    for (int at = 1; at <= 2; at++) MsgSendPulse(to, 10, 1, at);
    return NULL;
}

static void pulse_receivers(void) { run(receive_pulse, receive_pulse, pulse_twice); }

static void *receive_unblock(void *argument) {
    struct _pulse got;
    memset(&got, 0, sizeof got);
    if (!MsgReceivePulse(chid, &got, sizeof got, NULL)) seen[number_of(argument)] = got.value.sival_int != 0;
    return NULL;
}

static void *send_with_timeout(void *argument) {
    uint64_t time = 1000000;
    TimerTimeout(CLOCK_MONOTONIC, _NTO_TIMEOUT_SEND | _NTO_TIMEOUT_REPLY, NULL, &time, NULL);
    seen[4 + number_of(argument)] = MsgSend(coid, "x", 1, NULL, 0) == -1 ? errno : 0;
    return NULL;
}

/* A client's time is over, and its server gets an unblock pulse, which names the message only while it is held. */
static void unblocks(void) {
    chid = ChannelCreate(_NTO_CHF_UNBLOCK);
    coid = attach(chid);
    start(0, send_with_timeout);
    receive_held(NULL);
    nanosleep(&(struct timespec){0, 100000000}, NULL);
    start(1, reply);
    start(2, receive_unblock);
    for (int at = 0; at < 3; at++) pthread_join(threads[at], NULL);
}

static void with_held(work *first, work *second) {
    hold_message();
    start(1, first);
    start(2, second);
    pthread_join(threads[1], NULL);
    pthread_join(threads[2], NULL);
    MsgReply(held, 0, NULL, 0);
    pthread_join(threads[0], NULL);
}

static void replies(void) { with_held(reply, reply_error); }
static void reads(void) { with_held(read_held, reply); }
static void two_reads(void) { with_held(read_held, info_held); }
static void infos(void) { with_held(info_held, reply); }
static void writes(void) { with_held(write_held, reply); }
static void errors(void) { with_held(reply_error, read_held); }
static void reply_or_detach(void) { with_held(reply, detach); }
static void read_or_detach(void) { with_held(read_held, detach); }
static void write_or_detach(void) { with_held(write_held, detach); }
static void info_or_detach(void) { with_held(info_held, detach); }
static void error_or_detach(void) { with_held(reply_error, detach); }

static void send_or_detach(void) {
    coid = attach(chid);
    run(pulse_over, detach, NULL);
}

static void send_or_destroy(void) {
    coid = attach(chid);
    run(send_over, destroy, NULL);
}

static void attach_or_destroy(void) { run(attach_once, destroy, NULL); }
static void creates(void) { run(create, create, attach_once); }

static int main_tid;

static void *set_priority(void *argument) {
    struct sched_param param = {.sched_priority = 20};
    seen[number_of(argument)] = SchedSet(0, main_tid, SCHED_NOCHANGE, &param);
    return NULL;
}

/* With the greater priority the second pulse overtakes the first one. */
static void priorities(void) {
    struct _pulse got;
    main_tid = gettid();
    coid = attach(chid);
    start(0, set_priority);
    MsgSendPulse(coid, 15, 1, 1);
    MsgSendPulse(coid, -1, 1, 2);
    pthread_join(threads[0], NULL);
    MsgReceivePulse(chid, &got, sizeof got, NULL);
    seen[6] = got.value.sival_int;
}
