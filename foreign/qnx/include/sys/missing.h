/* Functions of sys/neutrino.h that are missing here. The compiler refuses a call of such a function, and says
 * that it is missing. The missing functions of other headers are in those headers, so a program that doesn't
 * include them may use the names. */
#pragma GCC system_header
#ifndef BALSAEUCHRE_QNX_MISSING_H
#define BALSAEUCHRE_QNX_MISSING_H

#ifdef __has_attribute
#if __has_attribute(unavailable)
#define NEUTRINO_REFUSED(text) __attribute__((unavailable(text)))
#endif
#endif
#ifndef NEUTRINO_REFUSED
#define NEUTRINO_REFUSED(text) __attribute__((error(text))) /* for gcc before 12; no effect on a type */
#endif
#if defined __cplusplus || (defined __STDC_VERSION__ && __STDC_VERSION__ >= 202311L)
#define NEUTRINO_MISSING(name) int name(...) NEUTRINO_REFUSED("QNX's " #name " is missing in balsaeuchre")
#else
#define NEUTRINO_MISSING(name) int name() NEUTRINO_REFUSED("QNX's " #name " is missing in balsaeuchre")
#endif
#define NEUTRINO_MISSING_TYPE(name) \
    typedef struct neutrino_missing name NEUTRINO_REFUSED("QNX's " #name " is missing in balsaeuchre")

struct neutrino_missing {
    int none;
};

#ifdef __cplusplus
extern "C" {
#endif

NEUTRINO_MISSING(ChannelConnectAttr);
NEUTRINO_MISSING(ChannelCreateExt);
NEUTRINO_MISSING(ClockAdjust);
NEUTRINO_MISSING(ClockAdjust_r);
NEUTRINO_MISSING(ClockId_r);
NEUTRINO_MISSING(ConnectClientInfoAble);
NEUTRINO_MISSING(InterruptAttach);
NEUTRINO_MISSING(InterruptAttachThread);
NEUTRINO_MISSING(InterruptAttach_r);
NEUTRINO_MISSING(InterruptCharacteristic);
NEUTRINO_MISSING(InterruptDisable);
NEUTRINO_MISSING(InterruptEnable);
NEUTRINO_MISSING(InterruptHookIdle);
NEUTRINO_MISSING(InterruptHookIdle2);
NEUTRINO_MISSING(InterruptHookOverdriveEvent);
NEUTRINO_MISSING(InterruptHookTrace);
NEUTRINO_MISSING(InterruptLock);
NEUTRINO_MISSING(InterruptStatus);
NEUTRINO_MISSING(InterruptUnlock);
NEUTRINO_MISSING(MsgReadiov);
NEUTRINO_MISSING(MsgReceiveAsync);
NEUTRINO_MISSING(MsgSendAsync);
NEUTRINO_MISSING(NetCred);
NEUTRINO_MISSING(NetInfoscoid);
NEUTRINO_MISSING(NetSignalKill);
NEUTRINO_MISSING(NetUnblock);
NEUTRINO_MISSING(NetVtid);
NEUTRINO_MISSING(PowerParameter);
NEUTRINO_MISSING(SchedCtl);
NEUTRINO_MISSING(SchedJobCreate);
NEUTRINO_MISSING(SchedJobDestroy);
NEUTRINO_MISSING(SignalAction);
NEUTRINO_MISSING(SignalFault);
NEUTRINO_MISSING(SignalKill);
NEUTRINO_MISSING(SignalKillSigval);
NEUTRINO_MISSING(SignalProcmask);
NEUTRINO_MISSING(SignalReturn);
NEUTRINO_MISSING(SignalSuspend);
NEUTRINO_MISSING(SignalWaitinfo);
NEUTRINO_MISSING(SyncCondvarSignal);
NEUTRINO_MISSING(SyncCondvarWait);
NEUTRINO_MISSING(SyncCtl);
NEUTRINO_MISSING(SyncDestroy);
NEUTRINO_MISSING(SyncMutexEvent);
NEUTRINO_MISSING(SyncMutexLock);
NEUTRINO_MISSING(SyncMutexRevive);
NEUTRINO_MISSING(SyncMutexUnlock);
NEUTRINO_MISSING(SyncSemPost);
NEUTRINO_MISSING(SyncSemWait);
NEUTRINO_MISSING(SyncTypeCreate);
NEUTRINO_MISSING(SysCpupageGet);
NEUTRINO_MISSING(SysCpupageSet);
NEUTRINO_MISSING(ThreadCancel);
NEUTRINO_MISSING(ThreadCreate);
NEUTRINO_MISSING(ThreadCtlExt);
NEUTRINO_MISSING(ThreadDestroy);
NEUTRINO_MISSING(ThreadDetach);
NEUTRINO_MISSING(ThreadJoin);
NEUTRINO_MISSING(TimerAlarm);
NEUTRINO_MISSING(TraceEvent);

#ifdef __cplusplus
}
#endif

#endif
