/* For programs that include this header with sys/dispatch.h and use nothing of it. The functions iofunc_* are
 * missing: a server handles its messages by message_attach. */
#pragma GCC system_header
#ifndef BALSAEUCHRE_QNX_IOFUNC_H
#define BALSAEUCHRE_QNX_IOFUNC_H

#include <sys/dispatch.h>

#ifdef __cplusplus
extern "C" {
#endif

NEUTRINO_MISSING_TYPE(iofunc_attr_t);
NEUTRINO_MISSING_TYPE(iofunc_funcs_t);
NEUTRINO_MISSING_TYPE(iofunc_mount_t);
NEUTRINO_MISSING_TYPE(iofunc_notify_t);
NEUTRINO_MISSING_TYPE(iofunc_ocb_t);
NEUTRINO_MISSING(iofunc_attr_init);
NEUTRINO_MISSING(iofunc_attr_lock);
NEUTRINO_MISSING(iofunc_attr_trylock);
NEUTRINO_MISSING(iofunc_attr_unlock);
NEUTRINO_MISSING(iofunc_check_access);
NEUTRINO_MISSING(iofunc_chmod);
NEUTRINO_MISSING(iofunc_chmod_default);
NEUTRINO_MISSING(iofunc_chown);
NEUTRINO_MISSING(iofunc_chown_default);
NEUTRINO_MISSING(iofunc_client_info);
NEUTRINO_MISSING(iofunc_client_info_able);
NEUTRINO_MISSING(iofunc_client_info_ext);
NEUTRINO_MISSING(iofunc_close_dup);
NEUTRINO_MISSING(iofunc_close_dup_default);
NEUTRINO_MISSING(iofunc_close_ocb);
NEUTRINO_MISSING(iofunc_close_ocb_default);
NEUTRINO_MISSING(iofunc_devctl);
NEUTRINO_MISSING(iofunc_devctl_default);
NEUTRINO_MISSING(iofunc_fdinfo);
NEUTRINO_MISSING(iofunc_fdinfo_default);
NEUTRINO_MISSING(iofunc_func_init);
NEUTRINO_MISSING(iofunc_link);
NEUTRINO_MISSING(iofunc_lock);
NEUTRINO_MISSING(iofunc_lock_calloc);
NEUTRINO_MISSING(iofunc_lock_default);
NEUTRINO_MISSING(iofunc_lock_ocb_default);
NEUTRINO_MISSING(iofunc_lseek);
NEUTRINO_MISSING(iofunc_lseek_default);
NEUTRINO_MISSING(iofunc_mknod);
NEUTRINO_MISSING(iofunc_mmap);
NEUTRINO_MISSING(iofunc_mmap_default);
NEUTRINO_MISSING(iofunc_notify);
NEUTRINO_MISSING(iofunc_notify_remove);
NEUTRINO_MISSING(iofunc_notify_trigger);
NEUTRINO_MISSING(iofunc_ocb_attach);
NEUTRINO_MISSING(iofunc_ocb_calloc);
NEUTRINO_MISSING(iofunc_ocb_detach);
NEUTRINO_MISSING(iofunc_ocb_free);
NEUTRINO_MISSING(iofunc_open);
NEUTRINO_MISSING(iofunc_open_default);
NEUTRINO_MISSING(iofunc_openfd);
NEUTRINO_MISSING(iofunc_openfd_default);
NEUTRINO_MISSING(iofunc_pathconf);
NEUTRINO_MISSING(iofunc_pathconf_default);
NEUTRINO_MISSING(iofunc_read_default);
NEUTRINO_MISSING(iofunc_read_verify);
NEUTRINO_MISSING(iofunc_readlink);
NEUTRINO_MISSING(iofunc_rename);
NEUTRINO_MISSING(iofunc_space_verify);
NEUTRINO_MISSING(iofunc_stat);
NEUTRINO_MISSING(iofunc_stat_default);
NEUTRINO_MISSING(iofunc_sync);
NEUTRINO_MISSING(iofunc_sync_default);
NEUTRINO_MISSING(iofunc_sync_verify);
NEUTRINO_MISSING(iofunc_time_update);
NEUTRINO_MISSING(iofunc_unblock);
NEUTRINO_MISSING(iofunc_unblock_default);
NEUTRINO_MISSING(iofunc_unlink);
NEUTRINO_MISSING(iofunc_unlock_ocb_default);
NEUTRINO_MISSING(iofunc_utime);
NEUTRINO_MISSING(iofunc_utime_default);
NEUTRINO_MISSING(iofunc_write_default);
NEUTRINO_MISSING(iofunc_write_verify);

#ifdef __cplusplus
}
#endif

#endif
