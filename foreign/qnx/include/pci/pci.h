/* PCI devices are missing: there is no hardware. */
#pragma GCC system_header
#ifndef BALSAEUCHRE_QNX_PCI_PCI_H
#define BALSAEUCHRE_QNX_PCI_PCI_H

#include <sys/missing.h>

#ifdef __cplusplus
extern "C" {
#endif

NEUTRINO_MISSING_TYPE(pci_bdf_t);
NEUTRINO_MISSING_TYPE(pci_devhdl_t);
NEUTRINO_MISSING(pci_bdf);
NEUTRINO_MISSING(pci_device_attach);
NEUTRINO_MISSING(pci_device_detach);
NEUTRINO_MISSING(pci_device_find);
NEUTRINO_MISSING(pci_device_read_ba);
NEUTRINO_MISSING(pci_device_read_did);
NEUTRINO_MISSING(pci_device_read_irq);
NEUTRINO_MISSING(pci_device_read_vid);

#ifdef __cplusplus
}
#endif

#endif
