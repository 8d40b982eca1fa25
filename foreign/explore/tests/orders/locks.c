/* Part of orders.c. The host's locks and waits. */
static void *count_locked(void *argument) {
    pthread_mutex_lock(&lock);
    seen[number_of(argument)] = ++counter;
    pthread_mutex_unlock(&lock);
    return NULL;
}

static void *try_lock(void *argument) {
    int error = pthread_mutex_trylock(&lock);
    seen[number_of(argument)] = error;
    if (!error) pthread_mutex_unlock(&lock);
    return NULL;
}

static void mutexes(void) { run(count_locked, count_locked, NULL); }
static void try_locks(void) { run(count_locked, try_lock, NULL); }

static void *read_shared(void *argument) {
    pthread_rwlock_rdlock(&shared);
    seen[number_of(argument)] = counter;
    pthread_rwlock_unlock(&shared);
    return NULL;
}

static void *write_shared(void *argument) {
    pthread_rwlock_wrlock(&shared);
    seen[number_of(argument)] = ++counter;
    pthread_rwlock_unlock(&shared);
    return NULL;
}

static void readers(void) { run(read_shared, read_shared, NULL); }
static void reader_and_writer(void) { run(read_shared, write_shared, NULL); }
static void writers(void) { run(write_shared, write_shared, NULL); }

static void *wait_changed(void *argument) {
    struct timespec until;
    clock_gettime(CLOCK_REALTIME, &until);
    until.tv_sec++;
    pthread_mutex_lock(&lock);
    seen[number_of(argument)] = pthread_cond_timedwait(&changed, &lock, &until);
    pthread_mutex_unlock(&lock);
    return NULL;
}

/* Signals without the mutex, so that the signal may be lost. */
static void *signal_changed(void *argument) {
    (void)argument;
    pthread_cond_signal(&changed);
    return NULL;
}

static void *broadcast_changed(void *argument) {
    (void)argument;
    pthread_cond_broadcast(&changed);
    return NULL;
}

static void conditions(void) { run(wait_changed, signal_changed, NULL); }
static void signals_to_two(void) { run(wait_changed, wait_changed, signal_changed); }
static void broadcasts(void) { run(wait_changed, broadcast_changed, NULL); }

static void *take_sem(void *argument) {
    seen[number_of(argument)] = sem_trywait(&sem) ? errno : 0;
    return NULL;
}

static void *post_sem(void *argument) {
    (void)argument;
    sem_post(&sem);
    return NULL;
}

static void semaphores(void) {
    sem_init(&sem, 0, 0);
    run(take_sem, post_sem, NULL);
}

static void two_takers(void) {
    sem_init(&sem, 0, 1);
    run(take_sem, take_sem, NULL);
}

/* The semaphore as a lock, for which a thread waits. */
static void *count_with_sem(void *argument) {
    sem_wait(&sem);
    seen[number_of(argument)] = ++counter;
    sem_post(&sem);
    return NULL;
}

static void semaphore_as_lock(void) {
    sem_init(&sem, 0, 1);
    run(count_with_sem, count_with_sem, NULL);
}

/* The program ends while a thread may wait for the lock. */
static void lock_at_exit(void) {
    start(0, count_locked);
    pthread_mutex_lock(&lock);
}

static void *pass_barrier(void *argument) {
    seen[number_of(argument)] = pthread_barrier_wait(&barrier);
    return NULL;
}

static void barriers(void) {
    pthread_barrier_init(&barrier, NULL, 2);
    run(pass_barrier, pass_barrier, NULL);
}

static void begin_once(void) { counter++; }

static _Thread_local int own;

static void take_once(void) { own = 1; }

static void *pass_once(void *argument) {
    pthread_once(&once, take_once);
    seen[number_of(argument)] = own;
    return NULL;
}

static void onces(void) {
    begin_once();
    run(pass_once, pass_once, NULL);
}

static void *count_spinning(void *argument) {
    pthread_spin_lock(&spin);
    seen[number_of(argument)] = ++counter;
    pthread_spin_unlock(&spin);
    return NULL;
}

static void spins(void) {
    pthread_spin_init(&spin, 0);
    run(count_spinning, count_spinning, NULL);
}

static void *sleep_on(void *argument) {
    pthread_sleepon_lock();
    seen[number_of(argument)] = pthread_sleepon_timedwait(&counter, 1000000);
    pthread_sleepon_unlock();
    return NULL;
}

static void *wake_sleeper(void *argument) {
    (void)argument;
    pthread_sleepon_lock();
    pthread_sleepon_signal(&counter);
    pthread_sleepon_unlock();
    return NULL;
}

static void sleepons(void) { run(sleep_on, wake_sleeper, NULL); }
