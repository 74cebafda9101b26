use paglunet::spsc::index_queue::{Consumer, FixedSizeIndexQueue, IndexQueue, Producer};
use std::thread;

fn is_send<T: Send>() {}
fn is_sync<T: Sync>() {}

#[test]
fn each_type_crosses_threads_as_the_original_does() {
    is_send::<Producer<'static>>();
    is_send::<Consumer<'static>>();
    is_send::<IndexQueue>();
    is_sync::<IndexQueue>();
}

#[test]
fn a_queue_is_first_in_first_out_and_bounded() {
    let queue = FixedSizeIndexQueue::<4>::new();
    assert_eq!(queue.capacity(), 4);
    let mut producer = queue.acquire_producer().unwrap();
    let mut consumer = queue.acquire_consumer().unwrap();
    assert_eq!(consumer.pop(), None);
    for value in 0..4 {
        assert!(producer.push(value * 5));
    }
    assert!(!producer.push(9));
    assert_eq!(consumer.peek(), Some(0));
    for value in 0..4 {
        assert_eq!(consumer.pop(), Some(value * 5));
    }
    assert_eq!(consumer.peek(), None);
}

#[test]
fn a_role_has_one_holder_and_comes_back_by_a_drop() {
    let queue = IndexQueue::new(1);
    for _ in 0..100 {
        let producer = queue.acquire_producer().unwrap();
        let consumer = queue.acquire_consumer().unwrap();
        assert!(queue.acquire_producer().is_none() && queue.acquire_consumer().is_none());
        drop((producer, consumer));
    }
}

#[test]
#[should_panic(expected = "above 2^32 - 1")]
fn a_capacity_that_is_too_great_is_refused() {
    IndexQueue::new(1 << 32);
}

#[test]
fn each_number_comes_once_and_in_order_between_two_threads() {
    let queue = IndexQueue::new(32);
    let mut producer = queue.acquire_producer().unwrap();
    let mut consumer = queue.acquire_consumer().unwrap();
    let count = 50_000;
    thread::scope(|threads| {
        threads.spawn(|| {
            for value in 0..count {
                while !producer.push(value) {
                    thread::yield_now();
                }
            }
        });
        threads.spawn(|| {
            for value in 0..count {
                let popped = loop {
                    match consumer.pop() {
                        Some(it) => break it,
                        None => thread::yield_now(),
                    }
                };
                assert_eq!(popped, value);
            }
        });
    });
}
