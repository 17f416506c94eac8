// For x86-64 Linux alone. The proved judge, tape, book and answer to reset as a library, written by tools/lab-headers from
// crates/lab/src: what each function promises stands there as an equation. There is no state, and no call that has to come first.
// A pointer is never null, also where its length is 0; what is lent to be written may not overlap anything else that is lent.
mod raw {
    extern "C" {
        pub fn lab_book_open(bytes: *const u8, bytes_length: usize, end: *mut u64) -> u8;
        pub fn lab_book_enter(used: u32, tape: u32, verdict: u8, place: u32, code: u32, bytes: *mut u8, bytes_length: usize) -> u8;
        pub fn lab_judge(tape: *const u8, tape_length: usize, finding: *mut u64);
        pub fn lab_judge_quick(tape: *const u8, tape_length: usize, finding: *mut u64);
        pub fn lab_due(tape: *const u8, tape_length: usize, next: *mut u64, out: *mut u8, out_length: usize);
        pub fn lab_atr(capture: *const u8, capture_length: usize, warm: bool, told: *mut u64) -> bool;
        pub fn lab_append(
            used: usize,
            session: u32,
            kind: u8,
            payload: *const u8, payload_length: usize,
            tape: *mut u8, tape_length: usize
        ) -> u8;
        pub fn lab_recover(bytes: *const u8, bytes_length: usize, step: usize, block: *mut u64) -> bool;
    }
}

/// Any bytes reopened. 0: the blocks used and the four counts, PASS, FAIL, INCONCLUSIVE, UNREADABLE. Else the fault, and the
/// block first.
pub fn lab_book_open(bytes: &[u8], end: &mut [u64; 5]) -> u8 {
    unsafe { raw::lab_book_open(bytes.as_ptr(), bytes.len(), end.as_mut_ptr()) }
}

/// An entry handed in to a book that has so many blocks used: 0 entered, 1 no verdict, 2 already entered, 3 full.
pub fn lab_book_enter(used: u32, tape: u32, verdict: u8, place: u32, code: u32, bytes: &mut [u8]) -> u8 {
    unsafe { raw::lab_book_enter(used, tape, verdict, place, code, bytes.as_mut_ptr(), bytes.len()) }
}

/// The verdict of a tape (1 PASS, 2 FAIL, 3 INCONCLUSIVE, 4 UNREADABLE), its place, its code, and the number of zeros.
pub fn lab_judge(tape: &[u8], finding: &mut [u64; 4]) {
    unsafe { raw::lab_judge(tape.as_ptr(), tape.len(), finding.as_mut_ptr()) }
}

/// The same numbers by the quick judge.
pub fn lab_judge_quick(tape: &[u8], finding: &mut [u64; 4]) {
    unsafe { raw::lab_judge_quick(tape.as_ptr(), tape.len(), finding.as_mut_ptr()) }
}

/// What is due after the entries of a tape: its kind, and the number of its bytes, which stand at the start of `out`, or of
/// what is wanted. Kind 0: nothing is due; 255: its bytes do not fit; 254: the tape is unreadable, beside the code.
pub fn lab_due(tape: &[u8], next: &mut [u64; 2], out: &mut [u8]) {
    unsafe { raw::lab_due(tape.as_ptr(), tape.len(), next.as_mut_ptr(), out.as_mut_ptr(), out.len()) }
}

/// An answer to reset, after a cold or a warm one. True: inverse, F, D, N, interval, specific, the protocol, its parameters
/// (WI; or IFSC, BWI and CWI) with zeros behind them, and where the historical bytes start and end. False: inverse, the rules
/// broken, the first, its place.
pub fn lab_atr(capture: &[u8], warm: bool, told: &mut [u64; 12]) -> bool {
    unsafe { raw::lab_atr(capture.as_ptr(), capture.len(), warm, told.as_mut_ptr()) }
}

/// One entry more on a tape that has so many blocks used, under a session number: 0, or the number under which it is turned
/// away.
pub fn lab_append(used: usize, session: u32, kind: u8, payload: &[u8], tape: &mut [u8]) -> u8 {
    unsafe { raw::lab_append(used, session, kind, payload.as_ptr(), payload.len(), tape.as_mut_ptr(), tape.len()) }
}

/// The next good block of any bytes at or after a step: the step it stands at, its number, session number and kind, and where
/// its payload starts and how long it is. False, and nothing changes, where there is none.
pub fn lab_recover(bytes: &[u8], step: usize, block: &mut [u64; 6]) -> bool {
    unsafe { raw::lab_recover(bytes.as_ptr(), bytes.len(), step, block.as_mut_ptr()) }
}
