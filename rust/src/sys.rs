//! The functions of `paglunet.h`.
use std::ffi::c_void;

pub const OK: u32 = 0;
pub const PROVIDED_CAPACITY_GREATER_THAN_MAX_CAPACITY: u32 = 5;

#[repr(C)]
pub struct Handle {
    pub at: *mut c_void,
}

unsafe extern "C" {
    pub fn paglunet_close(handle: *mut Handle);
    pub fn paglunet_index_queue_new(capacity: usize, queue: *mut Handle) -> u32;
    pub fn paglunet_index_queue_split(queue: *mut Handle, other: *mut Handle) -> u32;
    pub fn paglunet_index_queue_acquire_producer(queue: *mut Handle) -> u32;
    pub fn paglunet_index_queue_acquire_consumer(queue: *mut Handle) -> u32;
    pub fn paglunet_index_queue_push(producer: *mut Handle, value: u64) -> u32;
    pub fn paglunet_index_queue_pop(consumer: *mut Handle, value: *mut u64) -> u32;
    pub fn paglunet_index_queue_peek(consumer: *mut Handle, value: *mut u64) -> u32;
}
