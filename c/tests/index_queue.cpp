// A queue between two threads of C++. A handle that owns its memory closes itself.
#include "paglunet.h"
#include <cstdio>
#include <thread>

class Handle {
  public:
    Handle() = default;
    Handle(const Handle &) = delete;
    Handle &operator=(const Handle &) = delete;
    ~Handle() {
        if (is_full) paglunet_close(&it);
    }
    bool filled(uint32_t status) { return is_full = status == PAGLUNET_OK; }
    paglunet_handle it = PAGLUNET_EMPTY_HANDLE;

  private:
    bool is_full = false;
};

int main() {
    const uint64_t count = 20000;
    Handle one, other;
    if (!one.filled(paglunet_index_queue_new(16, &one.it))) return 2;
    if (!other.filled(paglunet_index_queue_split(&one.it, &other.it))) return 2;
    if (paglunet_index_queue_acquire_producer(&one.it) || paglunet_index_queue_acquire_consumer(&other.it)) return 2;
    bool is_wrong = false;
    std::thread pushes([&] {
        for (uint64_t i = 0; i < count; i++)
            while (paglunet_index_queue_push(&one.it, i) == PAGLUNET_FULL) std::this_thread::yield();
    });
    std::thread pops([&] {
        for (uint64_t i = 0, value; i < count; i++) {
            while (paglunet_index_queue_pop(&other.it, &value) == PAGLUNET_EMPTY) std::this_thread::yield();
            is_wrong |= value != i;
        }
    });
    pushes.join();
    pops.join();
    if (is_wrong) std::puts("a number is lost, twice or out of order");
    return is_wrong;
}
