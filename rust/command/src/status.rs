//! Exit statuses of every command. `help.txt` of each says them in words.

/// Done, and no line of the job was refused.
pub const DONE: u8 = 0;
/// Done, and some lines of the job were refused.
pub const LINES_REFUSED: u8 = 1;
/// The job was refused as a whole.
pub const JOB_REFUSED: u8 = 2;
/// A file could not be read or written.
pub const FILE: u8 = 3;
/// The command was given wrong.
pub const USAGE: u8 = 4;
// 5 is given by the script that builds this program, where it cannot; 6 by `drift`, for a point outside its bound.
