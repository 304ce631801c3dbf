// Written by dist/erase from crates/cqlp_tcp_reassembly/src/step.rt.
//! What a stream reports.

/// Why bytes are missing.
#[derive(Clone, Copy, Debug, PartialEq, Eq)]
pub enum GapCause {
    /// No segment carried them in time.
    Lost,
    /// The packet that carried them was cut by the snap length.
    Snapped,
}

/// What a stream reports next.
#[derive(Clone, Copy, Debug, PartialEq, Eq)]
pub enum StreamStep {
    /// It begins: with SYN, or without one, from the middle.
    Began {
        /// Whether the segment has SYN, so that the first byte of the connection comes next.
        syn: bool,
    },
    /// The next bytes are these of the segment's payload: as many as `count`, from the index `from` on.
    Payload {
        /// The index of the first of them in the payload; those before it are not new.
        from: usize,
        /// How many they are; none of them was reported before.
        count: usize,
    },
    /// The next bytes came early, in a packet of this time. `held` lends them, and `pass_held` goes on behind them. `begins`: the
    /// first of them was the first of its segment.
    Held {
        /// When the packet was captured, in nanoseconds since 1970-01-01 00:00:00 UTC, where that is known.
        time: Option<u64>,
        /// Whether the first of them was the first byte of its segment, where a frame may begin.
        begins: bool,
    },
    /// This many bytes are missing. `time`: that of the packet, where it was cut.
    Gap {
        /// How many bytes are missing between those before and those after it.
        length: u64,
        /// Whether they were lost or cut off.
        cause: GapCause,
        /// When the packet that was cut was captured, in nanoseconds since 1970-01-01 00:00:00 UTC; None of lost bytes.
        time: Option<u64>,
    },
    /// A part of the segment is kept for later.
    Kept,
    /// It ends where FIN lies.
    Ended,
    /// It ends by RST.
    Reset,
    /// There is nothing more to report.
    Done,
}
