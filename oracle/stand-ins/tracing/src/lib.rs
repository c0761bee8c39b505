//! Stand-in for tracing: log lines that go nowhere.

/// Drops a log line.
#[macro_export]
macro_rules! debug {
    ($($line:tt)*) => {{}};
}

/// Drops a log line.
#[macro_export]
macro_rules! trace {
    ($($line:tt)*) => {{}};
}
