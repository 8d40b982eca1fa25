/* Events. Tested, not proved. */
#include <sys/syscall.h>

/* Returns an errno for an event that can't be delivered, or 0. */
static int wrong_event(const struct sigevent *event) {
    if (!event) return EFAULT;
    int signo = event->sigev_signo;
    switch (SIGEV_GET_TYPE(event)) {
    case SIGEV_NONE:
    case SIGEV_UNBLOCK:
        return 0;
    case SIGEV_PULSE:
        return wrong_pulse(event->sigev_priority, event->sigev_code);
    case SIGEV_SIGNAL:
    case SIGEV_SIGNAL_CODE:
    case SIGEV_SIGNAL_THREAD:
        return signo < 1 || signo >= NSIG ? EINVAL : 0;
    default:
        return EINVAL;
    }
}

/* Returns the tid of the thread that sent a held message, or -1. */
static int sender_of(rcvid_t rcvid) {
    struct _msg_info info;
    return layer_MsgInfo(rcvid, &info) ? -1 : info.tid;
}

/* Returns an event's signal, with its value and code. The host refuses positive codes for another process, so
 * the signal gets SI_QUEUE then. */
static siginfo_t signal_of(const struct sigevent *event, bool is_own) {
    siginfo_t info;
    int code = event->sigev_code;
    memset(&info, 0, sizeof info);
    info.si_signo = event->sigev_signo;
    info.si_code = code < 0 || (code && is_own) ? code : SI_QUEUE;
    info.si_pid = program;
    info.si_uid = getuid();
    info.si_value = event->sigev_value;
    return info;
}

/* Signals this program, or one of its threads, with the event's value and code. thread is the host's number
 * of the thread, or 0 for the program. */
static int queue_signal(pid_t thread, const struct sigevent *event) {
    siginfo_t info = signal_of(event, true);
    long result = thread ? syscall(SYS_rt_tgsigqueueinfo, program, thread, info.si_signo, &info)
                         : syscall(SYS_rt_sigqueueinfo, program, info.si_signo, &info);
    return (int)result;
}

/* Signals another program by its pidfd, and closes the pidfd. Its pid might belong to a later program. */
static int signal_program(int pidfd, const struct sigevent *event) {
    siginfo_t info = signal_of(event, false);
    bool has_code = SIGEV_GET_TYPE(event) == SIGEV_SIGNAL_CODE;
    int result = (int)syscall(SYS_pidfd_send_signal, pidfd, info.si_signo, has_code ? &info : NULL, 0), error = errno;
    close(pidfd);
    errno = error;
    return result;
}

static int signal_sender(rcvid_t rcvid, const struct sigevent *event) {
    int tid = sender_of(rcvid);
    if (tid == -1) return -1;
    hold();
    int result = seats[tid].use == TAKEN ? queue_signal(seats[tid].host, event) : fail(ESRCH);
    release();
    return result;
}

static int send_event_pulse(const struct sigevent *event) {
    return send_pulse(event->sigev_coid, event->sigev_priority, event->sigev_code, event->sigev_value);
}

int MsgDeliverEvent(rcvid_t rcvid, const struct sigevent *event) {
    int error = wrong_event(event);
    if (enter()) return -1;
    if (error || rcvid < 0) return fail(error ? error : ESRCH);
    bool is_remote = neutrino_remote();
    int type = SIGEV_GET_TYPE(event), tid;
    switch (type) {
    case SIGEV_NONE:
        return 0;
    case SIGEV_PULSE:
        return is_remote ? neutrino_remote_deliver(rcvid, event, true) : send_event_pulse(event);
    case SIGEV_UNBLOCK:
        if (is_remote) return neutrino_remote_unblock(rcvid);
        tid = sender_of(rcvid);
        return tid == -1 ? -1 : neutrino_unblock(tid);
    }
    pid_t pid = program;
    int pidfd = is_remote ? neutrino_remote_sender(rcvid, &pid) : -1;
    if (pid == -1) return -1;
    if (pid != program && type != SIGEV_SIGNAL_THREAD) return signal_program(pidfd, event);
    if (pidfd != -1) close(pidfd);
    if (pid != program) return fail(ENOTSUP);
    if (type == SIGEV_SIGNAL) return kill(program, event->sigev_signo);
    return type == SIGEV_SIGNAL_CODE ? queue_signal(0, event) : signal_sender(rcvid, event);
}

int MsgVerifyEvent(rcvid_t rcvid, const struct sigevent *event) {
    int error = wrong_event(event);
    if (enter()) return -1;
    if (!error && rcvid < 0) error = ESRCH;
    bool is_pulse = !error && SIGEV_GET_TYPE(event) == SIGEV_PULSE;
    if (is_pulse && rcvid && neutrino_remote()) return neutrino_remote_deliver(rcvid, event, false);
    if (is_pulse && !is_connection(event->sigev_coid)) error = EBADF;
    return error ? fail(error) : 0;
}

int MsgRegisterEvent(struct sigevent *event, int coid) {
    if (MsgVerifyEvent(0, event)) return -1;
    return coid == -1 || is_connection(coid) ? 0 : fail(EBADF);
}

int MsgUnregisterEvent(const struct sigevent *event) { return MsgVerifyEvent(0, event); }
