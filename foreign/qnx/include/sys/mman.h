/* The host's sys/mman.h. QNX's functions for the memory of devices and for typed memory are missing: there is no
 * hardware, and a message carries up to 1 MiB. */
#pragma GCC system_header
#include_next <sys/mman.h>
#ifndef BALSAEUCHRE_QNX_MMAN_H
#define BALSAEUCHRE_QNX_MMAN_H

#include <sys/missing.h>

#ifdef __cplusplus
extern "C" {
#endif

NEUTRINO_MISSING(mem_offset);
NEUTRINO_MISSING(mem_offset64);
NEUTRINO_MISSING(mmap_device_io);
NEUTRINO_MISSING(mmap_device_memory);
NEUTRINO_MISSING(munmap_device_io);
NEUTRINO_MISSING(munmap_device_memory);
NEUTRINO_MISSING(munmap_flags);
NEUTRINO_MISSING(posix_typed_mem_get_info);
NEUTRINO_MISSING(posix_typed_mem_open);
NEUTRINO_MISSING(shm_create_handle);
NEUTRINO_MISSING(shm_ctl);
NEUTRINO_MISSING(shm_ctl_special);
NEUTRINO_MISSING(shm_open_handle);

#ifdef __cplusplus
}
#endif

#endif
