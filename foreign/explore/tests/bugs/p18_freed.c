/* A server frees a client's session when it has detached, while a worker still writes to it. With -DRIGHT the worker
 * looks for the session under the lock each time. */
#include "common.h"

static struct session { int count; } * session;
static int chid;
static pthread_mutex_t lock = PTHREAD_MUTEX_INITIALIZER;

static void *work(void *arg) {
    pthread_mutex_lock(&lock);
    struct session *own = session;
    pthread_mutex_unlock(&lock);
    for (int i = 0; i < 2 && own; i++) {
        pthread_mutex_lock(&lock);
#ifdef RIGHT
        own = session;
        if (own) own->count++;
#else
        session->count++;
#endif
        pthread_mutex_unlock(&lock);
    }
    return arg;
}

static void *client(void *arg) {
    int coid = attach(chid);
    ConnectDetach(coid);
    return arg;
}

int main(void) {
    struct _pulse pulse;
    chid = ChannelCreate(_NTO_CHF_DISCONNECT);
    session = calloc(1, sizeof *session);
    pthread_t worker = start(work, NULL), thread = start(client, NULL);
    MsgReceivePulse(chid, &pulse, sizeof pulse, NULL);
    pthread_mutex_lock(&lock);
    free(session);
    session = NULL;
    pthread_mutex_unlock(&lock);
    join(worker);
    join(thread);
    return 0;
}
