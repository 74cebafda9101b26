#include <paglunet.h>
#include <stdio.h>
int main(void) {
    paglunet_handle one = PAGLUNET_EMPTY_HANDLE, other = PAGLUNET_EMPTY_HANDLE;
    uint64_t value;
    if (paglunet_index_queue_new(8, &one) || paglunet_index_queue_split(&one, &other)) return 1;
    paglunet_index_queue_acquire_producer(&one);
    paglunet_index_queue_acquire_consumer(&other);
    for (uint64_t i = 0; paglunet_index_queue_push(&one, i * i) == PAGLUNET_OK; i++) {}
    while (paglunet_index_queue_pop(&other, &value) == PAGLUNET_OK) printf("%d\n", (int)value);
    paglunet_close(&one);
    paglunet_close(&other);
    return 0;
}
