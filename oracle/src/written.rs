//! A call's time, whether it may allocate the index told ahead, and its line as a script has it; reports and bytes as lines have them.

use std::fmt;

use crate::log::Report;
use crate::script::{Call, Opening};

impl Call {
    /// The call's time, if it has one.
    pub fn time(&self) -> Option<u64> {
        self.clone().time_mut().copied()
    }

    /// The same call at another time; one without a time stays as it is.
    pub fn at(mut self, time: u64) -> Self {
        if let Some(own) = self.time_mut() {
            *own = time;
        }

        self
    }

    /// Whether the call may allocate the local index that is told just before it; settling may drop the current session first.
    pub fn may_allocate(&self) -> bool {
        matches!(
            self,
            Call::Init { .. } | Call::Restart { .. } | Call::Hello { .. } | Call::Wake { .. }
        )
    }

    /// The place of the call's time.
    fn time_mut(&mut self) -> Option<&mut u64> {
        match self {
            Call::New { time, .. }
            | Call::Init { time }
            | Call::Restart { time }
            | Call::Resp { time, .. }
            | Call::Hello { time, .. }
            | Call::Cookie { time, .. }
            | Call::Send { time, .. }
            | Call::Recv { time, .. }
            | Call::Look { time, .. }
            | Call::Wake { time, .. }
            | Call::Settle { time, .. } => Some(time),
            Call::Event
            | Call::Next
            | Call::Missing { .. }
            | Call::Heard { .. }
            | Call::Ahead
            | Call::Skips
            | Call::Split { .. }
            | Call::Datagram { .. }
            | Call::Header { .. }
            | Call::Store { .. }
            | Call::Used { .. }
            | Call::Poke { .. }
            | Call::Peek { .. }
            | Call::Append { .. }
            | Call::Walk { .. } => None,
        }
    }
}

impl fmt::Display for Call {
    fn fmt(&self, f: &mut fmt::Formatter<'_>) -> fmt::Result {
        match self {
            Call::New {
                index,
                keepalive,
                time,
            } => write!(f, "new {index} {keepalive} {time}"),
            Call::Init { time } => write!(f, "init {time}"),
            Call::Restart { time } => write!(f, "restart {time}"),
            Call::Resp {
                receiver,
                peer,
                outcome,
                time,
            } => write!(f, "resp {receiver} {peer} {outcome} {time}"),
            Call::Hello {
                peer,
                outcome,
                time,
            } => write!(f, "hello {peer} {outcome} {time}"),
            Call::Cookie {
                receiver,
                outcome,
                time,
            } => write!(f, "cookie {receiver} {outcome} {time}"),
            Call::Send { count, time } => write!(f, "send {count} {time}"),
            Call::Recv {
                index,
                session,
                time,
                messages,
            } => {
                write!(f, "recv {index} {session} {time}")?;
                messages
                    .iter()
                    .try_for_each(|(counter, opening)| write!(f, " {counter} {opening}"))
            }
            Call::Look {
                index,
                counter,
                time,
            } => write!(f, "look {index} {counter} {time}"),
            Call::Wake { jitter, time } => write!(f, "wake {jitter} {time}"),
            Call::Settle { jitter, time } => write!(f, "settle {jitter} {time}"),
            Call::Event => write!(f, "event"),
            Call::Next => write!(f, "next"),
            Call::Missing { index } => write!(f, "missing {index}"),
            Call::Heard { index } => write!(f, "heard {index}"),
            Call::Ahead => write!(f, "ahead"),
            Call::Skips => write!(f, "skips"),
            Call::Split {
                peer,
                first,
                length,
                at,
            } => write!(f, "split {peer} {first} {length} {at}"),
            Call::Datagram { bytes } => write!(f, "datagram {}", Hex(bytes)),
            Call::Header { receiver, counter } => write!(f, "header {receiver} {counter}"),
            Call::Store { len } => write!(f, "store {len}"),
            Call::Used { len } => write!(f, "used {len}"),
            Call::Poke { at, bytes } => write!(f, "poke {at} {}", Hex(bytes)),
            Call::Peek { at, len } => write!(f, "peek {at} {len}"),
            Call::Append { reports } => {
                write!(f, "append")?;
                reports.iter().try_for_each(|report| write!(f, " {report}"))
            }
            Call::Walk { counts, records } => write!(f, "walk {counts} {records}"),
        }
    }
}

impl fmt::Display for Opening {
    fn fmt(&self, f: &mut fmt::Formatter<'_>) -> fmt::Result {
        f.write_str(match self {
            Opening::Data => "d",
            Opening::Keepalive => "k",
            Opening::Failed => "f",
        })
    }
}

impl fmt::Display for Report {
    fn fmt(&self, f: &mut fmt::Formatter<'_>) -> fmt::Result {
        let Report {
            time,
            counter,
            session,
            index,
            verdict,
        } = self;

        write!(f, "{time} {counter} {session} {index} {verdict}")
    }
}

/// Bytes as hexadecimal digits in lower case; no bytes are `-`.
pub(crate) struct Hex<'a>(pub(crate) &'a [u8]);

impl fmt::Display for Hex<'_> {
    fn fmt(&self, f: &mut fmt::Formatter<'_>) -> fmt::Result {
        if self.0.is_empty() {
            return f.write_str("-");
        }

        self.0.iter().try_for_each(|byte| write!(f, "{byte:02x}"))
    }
}
