//! Stands in for the `log` crate: the mapper's messages are dropped unread.

pub enum Level {
    Debug,
    Trace,
}

#[macro_export]
macro_rules! debug {
    ($($message:tt)*) => {
        ()
    };
}

#[macro_export]
macro_rules! trace {
    ($($message:tt)*) => {
        ()
    };
}

#[macro_export]
macro_rules! log_enabled {
    ($($message:tt)*) => {
        false
    };
}
