//! The published Rust of the tunnel's control, built unchanged, and a driver that answers line
//! scripts with it.

mod crypto;
mod datagram;
mod datagram_speed;
mod driver;
mod errors;
mod log;
mod log_speed;
mod recount;
mod script;
mod speed;

pub use driver::{Answer, Driver, LogView, Number, View, ViewSession};
pub use keys::PublicKey;
pub use log::Report;
pub use script::{Call, Lines, MAX_LINE, Opening, read};
pub use speed::speed;
pub use window::Window;

mod window;
mod written;

// The published files that need no accessor.
include!(concat!(env!("OUT_DIR"), "/modules.rs"));

#[allow(dead_code, unused)]
mod replay {
    include!(concat!(env!("OUT_DIR"), "/replay.rs"));
    mod access;
}

#[allow(dead_code, unused)]
mod session {
    include!(concat!(env!("OUT_DIR"), "/session.rs"));
    pub(crate) mod access;
}

#[allow(dead_code, unused)]
mod handshake {
    include!(concat!(env!("OUT_DIR"), "/handshake.rs"));
    mod access;
}

#[allow(dead_code, unused)]
mod tunnel {
    include!(concat!(env!("OUT_DIR"), "/tunnel.rs"));
    mod access;
}
