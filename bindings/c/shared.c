/* Two threads send the files of one checklist. A table belongs to one thread at a time, so it has a lock. */
#include <yeqontur.h>

#include <pthread.h>
#include <stdio.h>
#include <stdlib.h>

#define FILES 60
#define THREADS 2

/* The table is read and changed only by the thread that holds its lock. */
static pthread_mutex_t lock = PTHREAD_MUTEX_INITIALIZER;
static yeqontur_table shared;

/* Ends the program where a call was refused that has to be accepted. */
static void must_be_accepted(uint32_t refused) {
    if (refused != YEQONTUR_ACCEPTED) {
        fprintf(stderr, "refused %u: %s; %s\n", refused, yeqontur_words(refused), yeqontur_advice(refused));
        exit(1);
    }
}

/* Says that a file was sent. The lock is held for the whole call, which reads the table and then writes the new one:
 * what another thread wrote in between would be lost. */
static void sent(uint32_t file) {
    pthread_mutex_lock(&lock);
    const uint32_t refused = yeqontur_checklist_sent_in(&shared, file);
    pthread_mutex_unlock(&lock);
    must_be_accepted(refused);
}

/* The table as it is now. The copy is the caller's own, so all questions about it are answered of one moment, and no
 * lock is held while they are asked. */
static yeqontur_table copied(void) {
    pthread_mutex_lock(&lock);
    const yeqontur_table table = shared;
    pthread_mutex_unlock(&lock);
    return table;
}

/* Sends every second file, from the given one on. */
static void *send_files(void *first) {
    for (uint32_t file = *(const uint32_t *)first; file <= FILES; file += THREADS) {
        sent(file); /* once the file itself is on its way */
    }
    return NULL;
}

int main(void) {
    pthread_t threads[THREADS];
    uint32_t firsts[THREADS];
    must_be_accepted(yeqontur_checklist_open_into(&shared, FILES)); /* no other thread runs yet */
    for (uint32_t i = 0; i < THREADS; i++) {
        firsts[i] = i + 1;
        if (pthread_create(&threads[i], NULL, send_files, &firsts[i]) != 0) {
            fprintf(stderr, "no thread can be started\n");
            return 1;
        }
    }
    for (int i = 0; i < THREADS; i++) {
        pthread_join(threads[i], NULL);
    }
    const yeqontur_complete_answer all = yeqontur_checklist_complete(copied());
    must_be_accepted(all.refused);
    printf("%d threads, %d files\n", THREADS, FILES);
    printf("complete: %s\n", all.complete ? "yes" : "no");
    return 0;
}
