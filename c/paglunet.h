/* The lock-free containers of Paglunet, for C11 and C++. `bin/parts/header` of Paglunet writes the calls.

   Each function is proved to do what its contract in Rattle says, for every caller that keeps these duties. Nothing checks
   that C keeps them.

   1. A handle begins empty: `paglunet_handle queue = PAGLUNET_EMPTY_HANDLE;`. A call that fills a handle is given an empty
      one, and every other call one that is filled. `paglunet_close` empties it again. What a handle holds is lost if C forgets
      it.
   2. A handle is given to one call at a time. It may move to another thread by a thread's start or join, a lock, or a
      `seq_cst` atomic. Two threads use two handles of one structure, which a `_split` makes.
   3. C neither reads nor writes what is in a handle, nor what that points to, and uses no copy of a handle: it may move the
      bytes to another place, and then uses them there alone.
   4. No pointer is null, two pointers of one call differ, and no other thread uses what one points to during the call.
   5. `malloc`, `realloc` and `free` belong to one allocator, which aligns to 16 bytes. No function is called from a signal
      handler, or in a forked child of a process with several threads.

   A handle of another structure breaks no duty, nor does one without the role that a call needs, nor one with a role given
   to `_split`, an `_acquire_..` or `_capacity`, which need one without: the call answers PAGLUNET_WRONG_HANDLE and changes
   no handle.

   What a call writes through a pointer to a number is promised only where it answers PAGLUNET_OK. After another answer the
   contract leaves open what stands there. If a `_split` answers PAGLUNET_NO_MEMORY, its first handle holds a pass of the same
   structure still, and its second one is empty. Of `paglunet_close` the contract says that the handle is empty. That the role
   comes back, and that memory is freed, is tested and not proved. What is in the structure stays there for its other handles,
   and is lost with the last of them. */
#ifndef PAGLUNET_H
#define PAGLUNET_H
#include <stdbool.h>
#include <stddef.h>
#include <stdint.h>
#ifdef __cplusplus
extern "C" {
#endif

/* A pass or a guard of a structure. */
typedef struct paglunet_handle {
    void *at;
} paglunet_handle;
#define PAGLUNET_EMPTY_HANDLE {0}

/* What a call answers. */
enum {
    /* The call did what it is for. */
    PAGLUNET_OK = 0,
    /* The structure is full. */
    PAGLUNET_FULL = 1,
    /* The structure is empty. */
    PAGLUNET_EMPTY = 2,
    /* Another handle has the role. */
    PAGLUNET_TAKEN = 3,
    /* There is no memory. */
    PAGLUNET_NO_MEMORY = 4,
    /* The capacity is greater than the greatest that is allowed. */
    PAGLUNET_PROVIDED_CAPACITY_GREATER_THAN_MAX_CAPACITY = 5,
    /* The capacity is less than the least that is allowed. */
    PAGLUNET_PROVIDED_CAPACITY_IS_ZERO = 6,
    /* The handle is of another structure, or has not the role that the call needs. */
    PAGLUNET_WRONG_HANDLE = 7,
};

/* What an answer says, in words. */
static inline const char *paglunet_text(uint32_t status) {
    switch (status) {
    case PAGLUNET_OK:
        return "the call did what it is for";
    case PAGLUNET_FULL:
        return "the structure is full";
    case PAGLUNET_EMPTY:
        return "the structure is empty";
    case PAGLUNET_TAKEN:
        return "another handle has the role";
    case PAGLUNET_NO_MEMORY:
        return "there is no memory";
    case PAGLUNET_PROVIDED_CAPACITY_GREATER_THAN_MAX_CAPACITY:
        return "the capacity is greater than the greatest that is allowed";
    case PAGLUNET_PROVIDED_CAPACITY_IS_ZERO:
        return "the capacity is less than the least that is allowed";
    case PAGLUNET_WRONG_HANDLE:
        return "the handle is of another structure, or has not the role that the call needs";
    default:
        return "no answer of this library";
    }
}

/* Empties the handle. A role that it had is given back, by one atomic step, and its memory is freed. The structure is
   freed with the last of its handles. */
void paglunet_close(paglunet_handle *handle);

/* Makes a queue for at most `capacity` numbers, and fills an empty handle with a pass of it. It answers PAGLUNET_OK,
   or, with the handle still empty, PAGLUNET_PROVIDED_CAPACITY_GREATER_THAN_MAX_CAPACITY for a capacity above 2^32 - 1,
   or PAGLUNET_NO_MEMORY. */
uint32_t paglunet_index_queue_new(size_t capacity, paglunet_handle *queue);

/* Fills an empty handle with a further pass of the queue. It answers PAGLUNET_OK, PAGLUNET_NO_MEMORY or
   PAGLUNET_WRONG_HANDLE, and then the other handle is still empty. At most one atomic step. */
uint32_t paglunet_index_queue_split(paglunet_handle *queue, paglunet_handle *other);

/* Gives the handle's pass the producer's role. It answers PAGLUNET_OK, PAGLUNET_TAKEN or PAGLUNET_WRONG_HANDLE. At most
   one atomic step. */
uint32_t paglunet_index_queue_acquire_producer(paglunet_handle *queue);

/* Gives the handle's pass the consumer's role. It answers PAGLUNET_OK, PAGLUNET_TAKEN or PAGLUNET_WRONG_HANDLE. At most
   one atomic step. */
uint32_t paglunet_index_queue_acquire_consumer(paglunet_handle *queue);

/* Gives the handle's role back, and its pass stays. It answers PAGLUNET_OK or PAGLUNET_WRONG_HANDLE. At most one atomic
   step. */
uint32_t paglunet_index_queue_release(paglunet_handle *queue);

/* Appends a number. It answers PAGLUNET_OK, PAGLUNET_FULL or PAGLUNET_WRONG_HANDLE. At most 4 atomic steps. */
uint32_t paglunet_index_queue_push(paglunet_handle *producer, uint64_t value);

/* Takes the oldest number, and writes it to `value` if it answers PAGLUNET_OK. It answers PAGLUNET_OK, PAGLUNET_EMPTY
   or PAGLUNET_WRONG_HANDLE. At most 4 atomic steps. */
uint32_t paglunet_index_queue_pop(paglunet_handle *consumer, uint64_t *value);

/* Writes the oldest number, which stays, to `value` if it answers PAGLUNET_OK. It answers PAGLUNET_OK, PAGLUNET_EMPTY
   or PAGLUNET_WRONG_HANDLE. At most 3 atomic steps. */
uint32_t paglunet_index_queue_peek(paglunet_handle *consumer, uint64_t *value);

/* Writes the queue's capacity to `capacity` if it answers PAGLUNET_OK. It answers PAGLUNET_OK, or PAGLUNET_WRONG_HANDLE
   for a handle with a role. No atomic step. */
uint32_t paglunet_index_queue_capacity(paglunet_handle *queue, size_t *capacity);

#ifdef __cplusplus
}
#endif
#endif
