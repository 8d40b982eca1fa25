/* MsgKeyData: a key for a message's data, which the client can't make. Tested, not proved.
 *
 * The key protects data that passes through a client of this program against mistakes. It isn't
 * cryptography. */
#include <sys/random.h>

static uint64_t mix(uint64_t sum, const void *bytes, size_t length) {
    const uint8_t *from = bytes;
    for (size_t at = 0; at < length; at++) {
        sum = (sum ^ from[at]) * 0x100000001b3u;
        sum ^= sum >> 29;
    }
    return sum;
}

static uint64_t secret(void) {
    static _Atomic uint64_t made;
    uint64_t none = 0, new = 0;
    if (!atomic_load(&made)) {
        if (exploring) new = 1; /* the same in each run */
        else if (getrandom(&new, sizeof new, 0) != sizeof new) new = (uint64_t)time(NULL);
        atomic_compare_exchange_strong(&made, &none, new | 1);
    }
    return atomic_load(&made);
}

int MsgKeyData(rcvid_t rcvid, int oper, uint32_t key, uint32_t *key2, const iov_t *iov, int parts) {
    struct _msg_info info;
    struct whole data = many(iov, parts > 0 ? (size_t)parts : 0);
    if (MsgInfo(rcvid, &info)) return -1;
    oper &= ~_NTO_KEYDATA_PATHSIGN;
    if (oper != _NTO_KEYDATA_CALCULATE && oper != _NTO_KEYDATA_VERIFY) return fail(EINVAL);
    if (!key2) return fail(EFAULT);
    if (measure(&data)) return -1;
    uint64_t sum = mix(mix(secret(), &key, sizeof key), &info.pid, sizeof info.pid);
    for (size_t at = 0; at < data.count; at++) sum = mix(sum, iov[at].iov_base, iov[at].iov_len);
    uint32_t made = (uint32_t)(sum ^ sum >> 32);
    if (oper == _NTO_KEYDATA_VERIFY) return *key2 != made;
    *key2 = made;
    return 0;
}
