// Written by dist/erase from crates/cqlp_text/src/exit_status.rt.
//! The exit statuses of the program.

/// The stream is whole, or the conversation came to its end; or help that was asked for was written.
pub const DONE: u8 = 0;

/// The stream is refused, or cut within a frame; or a message of a conversation was refused.
pub const NOT_WHOLE: u8 = 1;

/// The words of the command line ask for nothing that there is.
pub const BAD_COMMAND_LINE: u8 = 2;

/// The input, an output, a connection or the memory failed, or there were too many reads.
pub const FAULT: u8 = 3;
