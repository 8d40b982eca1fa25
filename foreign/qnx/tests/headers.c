/* The parts of the headers that aren't calls: macros, and small functions of QNX's library. */
#include "tests.h"

#include <atomic.h>
#include <process.h>
#include <sys/iomsg.h>
#include <sys/netmgr.h>
#include <sys/syspage.h>
#include <sys/utsname.h>

static void macros(void) {
    struct sigevent events[2];
    iov_t parts[2];
    int at = 0, next = 0;
    SETIOV(&parts[at++], "abc", 3);
    SETIOV_CONST(&parts[at++], &at, sizeof at);
    check(at == 2 && GETIOVLEN(&parts[0]) == 3 && GETIOVBASE(&parts[1]) == &at && GETIOVLEN(parts + 1) == sizeof at);
    SIGEV_PULSE_INIT(&events[next++], 7, 8, 9, 10);
    SIGEV_SIGNAL_CODE_INT_INIT(&events[next++], SIGUSR1, -1, SI_MINAVAIL);
    check(next == 2 && events[0].sigev_coid == 7 && events[0].sigev_priority == 8 && events[0].sigev_code == 9);
    check(events[0].sigev_value.sival_int == 10 && events[1].sigev_signo == SIGUSR1);
    check(events[1].sigev_value.sival_int == -1 && events[1].sigev_code == SI_MINAVAIL);
    SIGEV_MAKE_UPDATEABLE(&events[0]);
    SIGEV_SET_TYPE(&events[0], SIGEV_NONE);
    check(events[0].sigev_notify == (SIGEV_NONE | SIGEV_FLAG_UPDATEABLE) && SIGEV_GET_TYPE(events) == SIGEV_NONE);
    SIGEV_CLEAR_UPDATEABLE(&events[0]);
    check(events[0].sigev_notify == SIGEV_NONE);
    io_msg_t message = {.i = {_IO_MSG, sizeof message, _IOMGR_PRIVATE_BASE, 1}};
    check(message.i.type == 0x113 && message.i.subtype == 1 && ESRVRFAULT != EFAULT);
    check(_IO_CONNECT == _IO_BASE && _IO_CONNECT_OPEN == 2 && sizeof(struct _io_connect) == 44);
    check(offsetof(struct _io_connect, path_len) == 34 && offsetof(struct _io_connect, path) == 40);
    check(sizeof(io_read_t) == 16 && sizeof(io_write_t) == 16 && sizeof(io_close_t) == 4);
    check(sizeof(_Uint16t) == 2 && sizeof(_Int64t) == 8 && sizeof(_Uintptrt) == sizeof(void *));
}

static void texts(void) {
    char text[8] = "-------";
    check(strlcpy(text, "abc", sizeof text) == 3 && strcmp(text, "abc") == 0 && text[4] == '-');
    check(strlcat(text, "defghij", sizeof text) == 10 && strcmp(text, "abcdefg") == 0);
    check(strlcpy(text, "0123456789", sizeof text) == 10 && strcmp(text, "0123456") == 0);
    check(stricmp("aBc", "AbC") == 0 && strnicmp("abX", "ABY", 2) == 0 && stricmp("ab", "ac") < 0);
    check(strlcpy(text, "x", 0) == 1 && strlcat(text, "abc", 4) == 7 && strcmp(text, "0123456") == 0);
}

static void nodes(void) {
    char name[300], path[300], *end;
    struct utsname host;
    check(uname(&host) == 0 && netmgr_ndtostr(ND2S_DIR_SHOW, ND_LOCAL_NODE, name, sizeof name) > 1);
    check(strcmp(name, host.nodename) == 0 && ND_NODE_CMP(ND_LOCAL_NODE, netmgr_remote_nd(5, ND_LOCAL_NODE)) == 0);
    fails(netmgr_ndtostr(0, ND_LOCAL_NODE, name, strlen(name)), EINVAL);
    fails(netmgr_ndtostr(0, 5, name, sizeof name), EINVAL);
    snprintf(path, sizeof path, "%s/dev", host.nodename);
    check(netmgr_strtond(path, &end) == ND_LOCAL_NODE && strcmp(end, "/dev") == 0);
    fails(netmgr_strtond("another/dev", NULL), ENOENT);
}

void headers(void) {
    unsigned shared = 5;
    uint64_t before = ClockCycles();
    macros();
    texts();
    nodes();
    atomic_add(&shared, 3);
    atomic_sub(&shared, 1);
    check(shared == 7 && atomic_add_value(&shared, 2) == 7 && atomic_sub_value(&shared, 1) == 9);
    atomic_clr(&shared, 8);
    atomic_set(&shared, 4);
    atomic_toggle(&shared, 1);
    check(shared == 5 && atomic_set_value(&shared, 2) == 5 && atomic_clr_value(&shared, 4) == 7);
    check(atomic_toggle_value(&shared, 1) == 3 && shared == 2);
    struct timespec time = {0, 1500000};
    check(nanospin_ns(500000) == EOK && nanospin(&time) == EOK);
    uint64_t past = ClockCycles() - before;
    check(_syspage_ptr->num_cpu == sysconf(_SC_NPROCESSORS_ONLN));
    check(past >= SYSPAGE_ENTRY(qtime)->cycles_per_sec / 500 && past < 1000 * SYSPAGE_ENTRY(qtime)->cycles_per_sec);
}
