/* The forms of sends, the forms that aren't cancellation points, and the forms that return their errors.
 * Tested, not proved. */

/* Parameters of these types, and the parameters as arguments. */
#define ONE(A) (A a), (a)
#define TWO(A, B) (A a, B b), (a, b)
#define THREE(A, B, C) (A a, B b, C c), (a, b, c)
#define FOUR(A, B, C, D) (A a, B b, C c, D d), (a, b, c, d)
#define FIVE(A, B, C, D, E) (A a, B b, C c, D d, E e), (a, b, c, d, e)
#define SIX(A, B, C, D, E, F) (A a, B b, C c, D d, E e, F f), (a, b, c, d, e, f)

/* The forms in _r of functions that return a number. They return the negative error. */
#define NUMBER_R(...) NUMBER_R_OF(__VA_ARGS__)
#define NUMBER_R_OF(type, name, parameters, arguments) \
    type name##_r parameters { \
        int before = errno; \
        errno = 0; \
        type result = name arguments; \
        if (result == -1 && errno) result = -errno; \
        errno = before; \
        return result; \
    }
/* The forms in _r of the other functions. They return the error. */
#define STATUS_R(...) STATUS_R_OF(__VA_ARGS__)
#define STATUS_R_OF(name, parameters, arguments) \
    int name##_r parameters { \
        int before = errno, result = name arguments == -1 ? errno : EOK; \
        errno = before; \
        return result; \
    }

/* A send whose message is one buffer or many parts, and whose reply buffer is one buffer or many parts. */
#define SENDS(name, S, sent, R, room) \
    long name(int coid, S smsg, size_t slength, R rmsg, size_t rlength) { \
        return send_parts(coid, sent(smsg, slength), room(rmsg, rlength)); \
    } \
    long name##nc(int coid, S smsg, size_t slength, R rmsg, size_t rlength) { \
        int state, ignored; \
        pthread_setcancelstate(PTHREAD_CANCEL_DISABLE, &state); \
        long status = name(coid, smsg, slength, rmsg, rlength); \
        pthread_setcancelstate(state, &ignored); \
        return status; \
    } \
    NUMBER_R(long, name, FIVE(int, S, size_t, R, size_t)) \
    NUMBER_R(long, name##nc, FIVE(int, S, size_t, R, size_t))

SENDS(MsgSend, const void *, one, void *, one)
SENDS(MsgSendv, const iov_t *, many, const iov_t *, many)
SENDS(MsgSendsv, const void *, one, const iov_t *, many)
SENDS(MsgSendvs, const iov_t *, many, void *, one)

NUMBER_R(int, ChannelCreate, ONE(unsigned))
NUMBER_R(int, ChannelCreatePulsePool, TWO(unsigned, const struct nto_channel_config *))
STATUS_R(ChannelDestroy, ONE(int))
NUMBER_R(int, ConnectAttach, FIVE(uint32_t, pid_t, int, unsigned, int))
STATUS_R(ConnectDetach, ONE(int))
NUMBER_R(int, ConnectFlags, FOUR(pid_t, int, unsigned, unsigned))
NUMBER_R(int, ConnectServerInfo, THREE(pid_t, int, struct _server_info *))
STATUS_R(ConnectClientInfo, THREE(int, struct _client_info *, int))
STATUS_R(ConnectClientInfoExt, THREE(int, struct _client_info **, int))
NUMBER_R(int, InterruptAttachEvent, THREE(int, const struct sigevent *, unsigned))
STATUS_R(InterruptDetach, ONE(int))
STATUS_R(InterruptWait, TWO(int, const uint64_t *))
NUMBER_R(rcvid_t, MsgReceive, FOUR(int, void *, size_t, struct _msg_info *))
NUMBER_R(rcvid_t, MsgReceivev, FOUR(int, const iov_t *, size_t, struct _msg_info *))
STATUS_R(MsgReceivePulse, FOUR(int, void *, size_t, struct _msg_info *))
STATUS_R(MsgReceivePulsev, FOUR(int, const iov_t *, size_t, struct _msg_info *))
STATUS_R(MsgReply, FOUR(rcvid_t, long, const void *, size_t))
STATUS_R(MsgReplyv, FOUR(rcvid_t, long, const iov_t *, size_t))
STATUS_R(MsgError, TWO(rcvid_t, int))
NUMBER_R(ssize_t, MsgRead, FOUR(rcvid_t, void *, size_t, size_t))
NUMBER_R(ssize_t, MsgReadv, FOUR(rcvid_t, const iov_t *, size_t, size_t))
NUMBER_R(ssize_t, MsgWrite, FOUR(rcvid_t, const void *, size_t, size_t))
NUMBER_R(ssize_t, MsgWritev, FOUR(rcvid_t, const iov_t *, size_t, size_t))
STATUS_R(MsgInfo, TWO(rcvid_t, struct _msg_info *))
STATUS_R(MsgCurrent, ONE(rcvid_t))
STATUS_R(MsgPause, TWO(rcvid_t, unsigned))
NUMBER_R(int, MsgKeyData, SIX(rcvid_t, int, uint32_t, uint32_t *, const iov_t *, int))
STATUS_R(MsgSendPulse, FOUR(int, int, int, int))
STATUS_R(MsgSendPulsePtr, FOUR(int, int, int, void *))
STATUS_R(MsgDeliverEvent, TWO(rcvid_t, const struct sigevent *))
STATUS_R(MsgVerifyEvent, TWO(rcvid_t, const struct sigevent *))
STATUS_R(MsgRegisterEvent, TWO(struct sigevent *, int))
STATUS_R(MsgUnregisterEvent, ONE(const struct sigevent *))
STATUS_R(TimerTimeout, FIVE(clockid_t, int, const struct sigevent *, const uint64_t *, uint64_t *))
STATUS_R(timer_timeout, FIVE(clockid_t, int, const struct sigevent *, const struct timespec *, struct timespec *))
NUMBER_R(int, TimerCreate, TWO(clockid_t, const struct sigevent *))
STATUS_R(TimerDestroy, ONE(timer_t))
STATUS_R(TimerSettime, FOUR(timer_t, int, const struct _itimer *, struct _itimer *))
NUMBER_R(int, TimerInfo, FOUR(pid_t, timer_t, int, struct _timer_info *))
STATUS_R(ClockTime, THREE(clockid_t, const uint64_t *, uint64_t *))
STATUS_R(ClockPeriod, FOUR(clockid_t, const struct _clockperiod *, struct _clockperiod *, int))
STATUS_R(ThreadCtl, TWO(int, void *))
STATUS_R(SchedSet, FOUR(pid_t, int, int, const struct sched_param *))
NUMBER_R(int, SchedGet, THREE(pid_t, int, struct sched_param *))
STATUS_R(SchedInfo, THREE(pid_t, int, struct _sched_info *))
STATUS_R(SchedYield, (void), ())
