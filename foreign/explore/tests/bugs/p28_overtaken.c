/* A meter sends a pulse for each unit, and then one that says that this was all. The last one has a greater priority,
 * so it overtakes units that were not received yet. With -DRIGHT all pulses have one priority. */
#include "common.h"

enum { UNIT = 1, ALL, UNITS = 3 };

#ifdef RIGHT
enum { LAST = 10 };
#else
enum { LAST = 11 };
#endif

static int chid;

static void *meter(void *arg) {
    int coid = attach(chid);
    for (int i = 0; i < UNITS; i++) assert(MsgSendPulse(coid, 10, UNIT, 0) == 0);
    assert(MsgSendPulse(coid, LAST, ALL, 0) == 0);
    return arg;
}

int main(void) {
    struct _pulse pulse;
    int units = 0;
    chid = ChannelCreate(0);
    pthread_t metering = start(meter, NULL);
    while (MsgReceivePulse(chid, &pulse, sizeof pulse, NULL) == 0 && pulse.code == UNIT) units++;
    assert(units == UNITS);
    join(metering);
    return 0;
}
