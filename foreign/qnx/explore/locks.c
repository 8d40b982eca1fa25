/* The host's locks in an explored run, and otherwise: mutexes, spinlocks, read-write locks and pthread_once. Tested,
 * not proved.
 *
 * A thread that may have the lock takes it by the host's try function. So the host's own rules hold for the kinds of
 * locks, and the host never waits. */
enum { LOCKS = 1024 };

static struct lock {
    const void *address;
    const struct task *writer; /* its holder, or null if readers hold it */
    int depth;                 /* of the writer, or the number of readers; 0: it is free */
} locks[LOCKS];

static struct lock *lock_at(const void *address) {
    for (int at = 0; at < LOCKS; at++) {
        if (locks[at].address == address && locks[at].depth) return &locks[at];
    }
    return NULL;
}

static unsigned holder_of(const void *address) {
    const struct lock *l = lock_at(address);
    return l && l->writer ? index_of(l->writer) : TASKS;
}

/* Notes that the caller, or one more reader, holds a lock. */
static void note_lock(const void *address, bool reads) {
    struct lock *l = lock_at(address);
    for (int at = 0; !l && at < LOCKS; at++) {
        if (!locks[at].depth) l = &locks[at];
    }
    if (!l) end_run(NO_ROOM);
    l->address = address;
    l->writer = reads ? NULL : me;
    l->depth++;
}

static void note_unlock(const void *address) {
    struct lock *l = lock_at(address);
    if (l && (!l->writer || l->writer == me)) l->depth--;
}

/* A mutex or a spinlock is free, or is the task's own. */
static bool is_free(const struct task *t) {
    const struct lock *l = lock_at(t->awaited);
    return !l || l->writer == t;
}

static bool has_no_writer(const struct task *t) {
    const struct lock *l = lock_at(t->awaited);
    return !l || !l->writer;
}

static bool has_no_holder(const struct task *t) { return !lock_at(t->awaited); }

/* Gets the turn at a lock. Returns whether the time has come before the lock could be taken. */
static bool await_lock(uint32_t operation, bool (*can_run)(const struct task *t), const void *address, uint64_t until) {
    struct wait wait = {can_run, address, until};
    return step_until(operation, &(struct about){.address = address}, &wait) && !can_run(me);
}

/* Keeps what the host's try function has returned. Returns it. */
static int note_try(const void *address, int error, bool reads) {
    if (!error || error == EOWNERDEAD) note_lock(address, reads);
    return error;
}

/* Waits for a lock that the host refuses to give: the caller has it already. */
static int await_own(const void *address, uint64_t until) {
    await_lock(DO_LOCK, never, address, until);
    return ETIMEDOUT;
}

/* ---- mutexes */

static int lock_mutex(pthread_mutex_t *mutex, uint64_t until) {
    enum { KIND = 3 }; /* of the host's field, which has more bits */
    if (await_lock(DO_LOCK, is_free, mutex, until)) return ETIMEDOUT;
    int error = note_try(mutex, pthread_mutex_trylock(mutex), false);
    if (error != EBUSY) return error;
    if ((mutex->__data.__kind & KIND) == PTHREAD_MUTEX_ERRORCHECK) return EDEADLK;
    return await_own(mutex, until);
}

static int ordered_mutex_lock(pthread_mutex_t *mutex) {
    return explores() ? lock_mutex(mutex, 0) : pthread_mutex_lock(mutex);
}

static int ordered_mutex_timedlock(pthread_mutex_t *mutex, const struct timespec *until) {
    return explores() ? lock_mutex(mutex, on_clock(CLOCK_REALTIME, until)) : pthread_mutex_timedlock(mutex, until);
}

int neutrino_pthread_mutex_clocklock(pthread_mutex_t *mutex, clockid_t id, const struct timespec *until) {
    return explores() ? lock_mutex(mutex, on_clock(id, until)) : pthread_mutex_clocklock(mutex, id, until);
}

int neutrino_pthread_mutex_trylock(pthread_mutex_t *mutex) {
    if (!explores()) return pthread_mutex_trylock(mutex);
    step(DO_TRY_LOCK, &(struct about){.address = mutex});
    return note_try(mutex, pthread_mutex_trylock(mutex), false);
}

/* Releases a mutex in the caller's turn. */
static int release_mutex(pthread_mutex_t *mutex) {
    int error = pthread_mutex_unlock(mutex);
    if (!error) note_unlock(mutex);
    return error;
}

int neutrino_pthread_mutex_unlock(pthread_mutex_t *mutex) {
    if (!explores()) return pthread_mutex_unlock(mutex);
    step(DO_UNLOCK, &(struct about){.address = mutex});
    return release_mutex(mutex);
}

/* ---- spinlocks */

int neutrino_pthread_spin_lock(pthread_spinlock_t *lock) {
    if (!explores()) return pthread_spin_lock(lock);
    const void *address = (const void *)(uintptr_t)lock;
    await_lock(DO_LOCK, is_free, address, 0);
    int error = note_try(address, pthread_spin_trylock(lock), false);
    return error == EBUSY ? await_own(address, 0) : error;
}

int neutrino_pthread_spin_trylock(pthread_spinlock_t *lock) {
    if (!explores()) return pthread_spin_trylock(lock);
    const void *address = (const void *)(uintptr_t)lock;
    step(DO_TRY_LOCK, &(struct about){.address = address});
    return note_try(address, pthread_spin_trylock(lock), false);
}

int neutrino_pthread_spin_unlock(pthread_spinlock_t *lock) {
    if (!explores()) return pthread_spin_unlock(lock);
    const void *address = (const void *)(uintptr_t)lock;
    step(DO_UNLOCK, &(struct about){.address = address});
    note_unlock(address);
    return pthread_spin_unlock(lock);
}

/* ---- read-write locks */

static int lock_to_read(pthread_rwlock_t *lock, uint64_t until) {
    if (await_lock(DO_READ_LOCK, has_no_writer, lock, until)) return ETIMEDOUT;
    int error = note_try(lock, pthread_rwlock_tryrdlock(lock), true);
    return error == EBUSY ? await_own(lock, until) : error;
}

/* A writer that holds the lock never goes on, by POSIX. The host returns EDEADLK. */
static int lock_to_write(pthread_rwlock_t *lock, uint64_t until) {
    const struct lock *held = lock_at(lock);
    if (held && held->writer == me) return EDEADLK;
    if (await_lock(DO_LOCK, has_no_holder, lock, until)) return ETIMEDOUT;
    int error = note_try(lock, pthread_rwlock_trywrlock(lock), false);
    return error == EBUSY ? await_own(lock, until) : error;
}

int neutrino_pthread_rwlock_rdlock(pthread_rwlock_t *lock) {
    return explores() ? lock_to_read(lock, 0) : pthread_rwlock_rdlock(lock);
}

int neutrino_pthread_rwlock_timedrdlock(pthread_rwlock_t *lock, const struct timespec *until) {
    return explores() ? lock_to_read(lock, on_clock(CLOCK_REALTIME, until)) : pthread_rwlock_timedrdlock(lock, until);
}

int neutrino_pthread_rwlock_tryrdlock(pthread_rwlock_t *lock) {
    if (!explores()) return pthread_rwlock_tryrdlock(lock);
    step(DO_TRY_LOCK, &(struct about){.address = lock});
    return note_try(lock, pthread_rwlock_tryrdlock(lock), true);
}

int neutrino_pthread_rwlock_wrlock(pthread_rwlock_t *lock) {
    return explores() ? lock_to_write(lock, 0) : pthread_rwlock_wrlock(lock);
}

int neutrino_pthread_rwlock_timedwrlock(pthread_rwlock_t *lock, const struct timespec *until) {
    return explores() ? lock_to_write(lock, on_clock(CLOCK_REALTIME, until)) : pthread_rwlock_timedwrlock(lock, until);
}

int neutrino_pthread_rwlock_trywrlock(pthread_rwlock_t *lock) {
    if (!explores()) return pthread_rwlock_trywrlock(lock);
    step(DO_TRY_LOCK, &(struct about){.address = lock});
    return note_try(lock, pthread_rwlock_trywrlock(lock), false);
}

int neutrino_pthread_rwlock_unlock(pthread_rwlock_t *lock) {
    if (!explores()) return pthread_rwlock_unlock(lock);
    step(DO_UNLOCK, &(struct about){.address = lock});
    note_unlock(lock);
    return pthread_rwlock_unlock(lock);
}

/* ---- pthread_once: a lock that is held while the function runs */

int neutrino_pthread_once(pthread_once_t *control, void (*function)(void)) {
    if (!explores()) return pthread_once(control, function);
    await_lock(DO_ONCE, is_free, control, 0);
    note_lock(control, false);
    int error = pthread_once(control, function);
    note_unlock(control);
    return error;
}
