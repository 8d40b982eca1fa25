/* The layer of threads has some of QNX's names. If this header is included once, it gives the layer's
 * functions a prefix. If it is included again, it removes the prefix. */
#ifndef ChannelCreate
#define ChannelCreate layer_ChannelCreate
#define ChannelDestroy layer_ChannelDestroy
#define ConnectAttach layer_ConnectAttach
#define ConnectDetach layer_ConnectDetach
#define MsgSend layer_MsgSend
#define MsgReceive layer_MsgReceive
#define MsgReceivePulse layer_MsgReceivePulse
#define MsgReply layer_MsgReply
#define MsgError layer_MsgError
#define MsgRead layer_MsgRead
#define MsgWrite layer_MsgWrite
#define MsgInfo layer_MsgInfo
#define MsgSendPulse layer_MsgSendPulse
#define SchedSet layer_SchedSet
#define TimerTimeout layer_TimerTimeout
#else
#undef ChannelCreate
#undef ChannelDestroy
#undef ConnectAttach
#undef ConnectDetach
#undef MsgSend
#undef MsgReceive
#undef MsgReceivePulse
#undef MsgReply
#undef MsgError
#undef MsgRead
#undef MsgWrite
#undef MsgInfo
#undef MsgSendPulse
#undef SchedSet
#undef TimerTimeout
#endif
