/* Threads that have begun. */
#ifndef TURNS_H
#define TURNS_H

#include <pthread.h>

static struct {
    pthread_mutex_t mutex;
    pthread_cond_t changed;
    int turns;
} progress = {PTHREAD_MUTEX_INITIALIZER, PTHREAD_COND_INITIALIZER, 0};

static inline void tell_turn(void) {
    pthread_mutex_lock(&progress.mutex);
    progress.turns++;
    pthread_cond_signal(&progress.changed);
    pthread_mutex_unlock(&progress.mutex);
}

/* Waits until all threads together have had so many turns. */
static inline void await_turns(int turns) {
    pthread_mutex_lock(&progress.mutex);
    while (progress.turns < turns)
        pthread_cond_wait(&progress.changed, &progress.mutex);
    pthread_mutex_unlock(&progress.mutex);
}

#endif
