/* devctl: a message to a server. Tested, not proved. */
#include <devctl.h>

int devctl(int filedes, int dcmd, void *dev_data_ptr, size_t n_bytes, int *dev_info_ptr) {
    io_devctl_t sent = {.i = {.type = _IO_DEVCTL, .combine_len = sizeof sent.i, .dcmd = dcmd}};
    io_devctl_t got = {.o = {0, 0, 0, 0}};
    iov_t parts[4];
    if (n_bytes > UINT32_MAX) return EOVERFLOW;
    sent.i.nbytes = (uint32_t)n_bytes;
    SETIOV(&parts[0], &sent, sizeof sent.i);
    SETIOV(&parts[1], dev_data_ptr, (unsigned)dcmd & DEVDIR_TO ? n_bytes : 0);
    SETIOV(&parts[2], &got, sizeof got.o);
    SETIOV(&parts[3], dev_data_ptr, (unsigned)dcmd & DEVDIR_FROM ? n_bytes : 0);
    long status = MsgSendv_r(filedes, parts, 2, parts + 2, 2);
    if (status < 0) return (int)-status;
    if (dev_info_ptr) *dev_info_ptr = got.o.ret_val;
    return EOK;
}
