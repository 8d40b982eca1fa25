/* PCI devices are missing: there is no hardware. */
#pragma GCC system_header
#ifndef BALSAEUCHRE_QNX_HW_PCI_H
#define BALSAEUCHRE_QNX_HW_PCI_H

#include <sys/missing.h>

#ifdef __cplusplus
extern "C" {
#endif

NEUTRINO_MISSING(pci_attach);
NEUTRINO_MISSING(pci_attach_device);
NEUTRINO_MISSING(pci_detach);
NEUTRINO_MISSING(pci_detach_device);
NEUTRINO_MISSING(pci_find_device);
NEUTRINO_MISSING(pci_read_config);
NEUTRINO_MISSING(pci_write_config);

#ifdef __cplusplus
}
#endif

#endif
