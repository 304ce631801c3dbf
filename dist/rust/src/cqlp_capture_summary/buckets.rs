// Written by dist/erase from crates/cqlp_capture_summary/src/buckets.rt.
//! Times in buckets.

/// How many buckets there are.
pub(crate) const BUCKETS: usize = 1920;

/// The bucket of a time in nanoseconds: below 64 each time has its own, and above the times of a bucket have their first six binary digits in common.
pub(crate) fn bucket_of(time: u64) -> usize {
    let dropped = 58u32.saturating_sub(time.leading_zeros());
    32 * dropped as usize + (time >> dropped) as usize
}

/// The greatest time in a bucket, in nanoseconds.
pub(crate) fn greatest_in(bucket: usize) -> u64 {
    let digits = (bucket / 32).saturating_sub(1);
    let width = 1u64 << digits;
    (bucket - 32 * digits) as u64 * width + (width - 1)
}

/// The bucket of which this is the greatest time, in nanoseconds, if there is one.
pub(crate) fn bucket_up_to(time: u64) -> Option<usize> {
    let bucket = bucket_of(time);
    if greatest_in(bucket) == time {
        Some(bucket)
    } else {
        None
    }
}
