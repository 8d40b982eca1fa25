/* Two parts of QNX's system page: the rate of ClockCycles, and the number of processors. */
#pragma GCC system_header
#ifndef BALSAEUCHRE_QNX_SYSPAGE_H
#define BALSAEUCHRE_QNX_SYSPAGE_H

#include <stdint.h>
#include <unistd.h>

struct qtime_entry {
    uint64_t cycles_per_sec;
};

static const struct qtime_entry neutrino_qtime = {1000000000u};
#define SYSPAGE_ENTRY(entry) (&neutrino_##entry)

struct syspage_entry {
    uint16_t num_cpu;
};

static inline struct syspage_entry *neutrino_syspage(void) {
    static struct syspage_entry page;
    page.num_cpu = (uint16_t)sysconf(_SC_NPROCESSORS_ONLN);
    return &page;
}
#define _syspage_ptr (neutrino_syspage())

#endif
