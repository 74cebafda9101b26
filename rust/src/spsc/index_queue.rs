//! A bounded queue of numbers between one producer and one consumer.
//!
//! ```
//! use paglunet::spsc::index_queue::FixedSizeIndexQueue;
//!
//! let queue = FixedSizeIndexQueue::<3>::new();
//! let mut producer = queue.acquire_producer().unwrap();
//! let mut consumer = queue.acquire_consumer().unwrap();
//! std::thread::scope(|threads| {
//!     threads.spawn(|| assert!(producer.push(7)));
//!     threads.spawn(|| while consumer.pop() != Some(7) {});
//! });
//! assert!(queue.acquire_producer().is_none());
//! drop(producer);
//! assert!(queue.acquire_producer().is_some());
//! ```
use crate::handle::Handle;
use crate::sys;
use std::marker::PhantomData;
use std::sync::Mutex;

/// A queue whose capacity is chosen when it is made.
pub struct IndexQueue {
    // Only the calls that take a role use it, so no push or pop waits for this lock.
    whole: Mutex<Handle>,
    capacity: usize,
}

/// A queue whose capacity is part of its type.
pub struct FixedSizeIndexQueue<const CAPACITY: usize>(IndexQueue);

/// The guard that pushes. It gives its role back when it is dropped.
pub struct Producer<'a>(Handle, PhantomData<&'a IndexQueue>);

/// The guard that pops. It gives its role back when it is dropped.
pub struct Consumer<'a>(Handle, PhantomData<&'a IndexQueue>);

impl IndexQueue {
    /// Makes an empty queue.
    ///
    /// # Panics
    ///
    /// If the capacity is above 2^32 - 1, or there is no memory.
    pub fn new(capacity: usize) -> IndexQueue {
        // SAFETY: the handle that `filled` gives is empty.
        let made = Handle::filled(|to| unsafe { sys::paglunet_index_queue_new(capacity, to) });
        match made {
            Ok(handle) => IndexQueue {
                whole: Mutex::new(handle),
                capacity,
            },
            Err(sys::PROVIDED_CAPACITY_GREATER_THAN_MAX_CAPACITY) => panic!("the capacity is above 2^32 - 1"),
            Err(_) => panic!("there is no memory"),
        }
    }

    pub fn capacity(&self) -> usize {
        self.capacity
    }

    /// The guard that pushes, or None if another has this role or there is no memory.
    pub fn acquire_producer(&self) -> Option<Producer<'_>> {
        let handle = self.with(sys::paglunet_index_queue_acquire_producer)?;
        Some(Producer(handle, PhantomData))
    }

    /// The guard that pops, or None if another has this role or there is no memory.
    pub fn acquire_consumer(&self) -> Option<Consumer<'_>> {
        let handle = self.with(sys::paglunet_index_queue_acquire_consumer)?;
        Some(Consumer(handle, PhantomData))
    }

    /// A further handle of the queue, once this call has given it a role.
    fn with(&self, role: unsafe extern "C" fn(*mut sys::Handle) -> u32) -> Option<Handle> {
        let mut whole = self.whole.lock().ok()?;
        // SAFETY: the lock gives the queue's handle to one call at a time, and the new handle is this call's own.
        let mut handle = Handle::filled(|to| unsafe { sys::paglunet_index_queue_split(whole.at(), to) }).ok()?;
        (unsafe { role(handle.at()) } == sys::OK).then_some(handle)
    }
}

impl<const CAPACITY: usize> FixedSizeIndexQueue<CAPACITY> {
    /// Makes an empty queue. Panics as `IndexQueue::new` does.
    pub fn new() -> Self {
        FixedSizeIndexQueue(IndexQueue::new(CAPACITY))
    }

    pub fn capacity(&self) -> usize {
        CAPACITY
    }

    /// As `acquire_producer` of an `IndexQueue`.
    pub fn acquire_producer(&self) -> Option<Producer<'_>> {
        self.0.acquire_producer()
    }

    /// As `acquire_consumer` of an `IndexQueue`.
    pub fn acquire_consumer(&self) -> Option<Consumer<'_>> {
        self.0.acquire_consumer()
    }
}

impl<const CAPACITY: usize> Default for FixedSizeIndexQueue<CAPACITY> {
    fn default() -> Self {
        Self::new()
    }
}

impl Producer<'_> {
    /// Appends the value, or returns false if the queue is full.
    pub fn push(&mut self, value: u64) -> bool {
        // SAFETY: the handle is filled, and `&mut` gives it to one call at a time.
        unsafe { sys::paglunet_index_queue_push(self.0.at(), value) == sys::OK }
    }
}

impl Consumer<'_> {
    /// Takes the oldest value, or returns None if the queue is empty.
    pub fn pop(&mut self) -> Option<u64> {
        let mut value = 0;
        // SAFETY: as for a push, and `value` is this call's own.
        let status = unsafe { sys::paglunet_index_queue_pop(self.0.at(), &mut value) };
        (status == sys::OK).then_some(value)
    }

    /// Returns the oldest value, which stays, or None if the queue is empty.
    pub fn peek(&mut self) -> Option<u64> {
        let mut value = 0;
        // SAFETY: as for a push, and `value` is this call's own.
        let status = unsafe { sys::paglunet_index_queue_peek(self.0.at(), &mut value) };
        (status == sys::OK).then_some(value)
    }
}
