/* One thread pushes numbers and another one pops them: each comes once and in order. Then what each call answers. */
#include <pthread.h>
#include <sched.h>
#include <stdio.h>
#include <string.h>
#include "paglunet.h"

#define MUST(that) do { if (!(that)) { printf("%s:%d: not %s\n", __FILE__, __LINE__, #that); return 1; } } while (0)

static uint64_t count = 200000;

static void *push_all(void *producer) {
    for (uint64_t i = 0; i < count; i++)
        while (paglunet_index_queue_push(producer, i * 3 + 1) == PAGLUNET_FULL) sched_yield();
    return NULL;
}

static void *pop_all(void *consumer) {
    for (uint64_t i = 0; i < count; i++) {
        uint64_t value;
        while (paglunet_index_queue_pop(consumer, &value) == PAGLUNET_EMPTY) sched_yield();
        if (value != i * 3 + 1) return "a number is lost, twice or out of order";
    }
    return NULL;
}

static int threads(void) {
    paglunet_handle one = PAGLUNET_EMPTY_HANDLE, other = PAGLUNET_EMPTY_HANDLE;
    MUST(paglunet_index_queue_new(64, &one) == PAGLUNET_OK);
    MUST(paglunet_index_queue_split(&one, &other) == PAGLUNET_OK);
    MUST(paglunet_index_queue_acquire_producer(&one) == PAGLUNET_OK);
    MUST(paglunet_index_queue_acquire_consumer(&other) == PAGLUNET_OK);
    pthread_t pushes, pops;
    void *wrong;
    MUST(pthread_create(&pushes, NULL, push_all, &one) == 0);
    MUST(pthread_create(&pops, NULL, pop_all, &other) == 0);
    pthread_join(pushes, NULL);
    pthread_join(pops, &wrong);
    if (wrong) { puts(wrong); return 1; }
    paglunet_close(&one);
    paglunet_close(&other);
    return 0;
}

static int answers(void) {
    paglunet_handle one = PAGLUNET_EMPTY_HANDLE, other = PAGLUNET_EMPTY_HANDLE;
    uint64_t value = 7;
    size_t capacity = 0;
    MUST(paglunet_index_queue_new((size_t)1 << 32, &one) == PAGLUNET_PROVIDED_CAPACITY_GREATER_THAN_MAX_CAPACITY);
    MUST(paglunet_index_queue_new(2, &one) == PAGLUNET_OK);
    MUST(paglunet_index_queue_split(&one, &other) == PAGLUNET_OK);
    MUST(paglunet_index_queue_capacity(&one, &capacity) == PAGLUNET_OK && capacity == 2);
    MUST(paglunet_index_queue_push(&one, 1) == PAGLUNET_WRONG_HANDLE);
    MUST(paglunet_index_queue_pop(&one, &value) == PAGLUNET_WRONG_HANDLE && value == 7);
    MUST(paglunet_index_queue_release(&one) == PAGLUNET_WRONG_HANDLE);
    MUST(paglunet_index_queue_acquire_producer(&one) == PAGLUNET_OK);
    MUST(paglunet_index_queue_acquire_producer(&one) == PAGLUNET_WRONG_HANDLE);
    MUST(paglunet_index_queue_acquire_producer(&other) == PAGLUNET_TAKEN);
    MUST(paglunet_index_queue_acquire_consumer(&other) == PAGLUNET_OK);
    MUST(paglunet_index_queue_peek(&other, &value) == PAGLUNET_EMPTY);
    MUST(paglunet_index_queue_pop(&other, &value) == PAGLUNET_EMPTY && value == 7);
    MUST(paglunet_index_queue_push(&one, 5) == PAGLUNET_OK && paglunet_index_queue_push(&one, 6) == PAGLUNET_OK);
    MUST(paglunet_index_queue_push(&one, 8) == PAGLUNET_FULL);
    MUST(paglunet_index_queue_peek(&other, &value) == PAGLUNET_OK && value == 5);
    MUST(paglunet_index_queue_pop(&other, &value) == PAGLUNET_OK && value == 5);
    /* A role that is given back is free for another handle. A handle that is closed gives its role back too. */
    MUST(paglunet_index_queue_release(&one) == PAGLUNET_OK);
    MUST(paglunet_index_queue_release(&other) == PAGLUNET_OK);
    MUST(paglunet_index_queue_acquire_producer(&other) == PAGLUNET_OK);
    paglunet_close(&other);
    MUST(paglunet_index_queue_split(&one, &other) == PAGLUNET_OK);
    MUST(paglunet_index_queue_acquire_producer(&one) == PAGLUNET_OK);
    MUST(paglunet_index_queue_acquire_consumer(&other) == PAGLUNET_OK);
    MUST(paglunet_index_queue_pop(&other, &value) == PAGLUNET_OK && value == 6);
    MUST(strcmp(paglunet_text(PAGLUNET_FULL), "the structure is full") == 0);
    paglunet_close(&one);
    paglunet_close(&other);
    return 0;
}

int main(int argc, char **argv) {
    if (argc > 1 && strcmp(argv[1], "few") == 0) count = 2000;
    return answers() || threads();
}
