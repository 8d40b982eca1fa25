/* The calling thread. Tested, not proved. */

/* The kernel and the place of the calling thread. self is null if the thread has not joined. inside counts
 * the calls and locks in which the thread is. Its signal handlers need this count. */
static _Thread_local neutrino *kernel;
static _Thread_local struct place *self;
static _Thread_local volatile sig_atomic_t inside;

static int fail(int error) {
    errno = error;
    return -1;
}

/* Fails if the calling thread may not make a call. */
static int refuse_call(void) { return !self ? fail(EPERM) : inside ? fail(EDEADLK) : 0; }
