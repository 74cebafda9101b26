//! Containers with one producer and one consumer.
pub mod index_queue;
