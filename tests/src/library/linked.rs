//! The library as it is linked, on x86-64. The only file with `unsafe`: each call passes pointers and lengths of slices that
//! live through the call, and what is lent to be written is lent mutably and to nobody else.

use super::{RawAnswer, RawReading, RawText, RawTurned, RawVerdict};

extern "C" {
    fn flagcopper_size() -> usize;
    fn flagcopper_check(script: *const u8, script_bytes: usize, workspace_words: usize) -> RawVerdict;
    fn flagcopper_run(
        script: *const u8,
        script_bytes: usize,
        choices: *const u8,
        count: usize,
        workspace: *mut u64,
        workspace_words: usize,
    ) -> RawAnswer;
    fn flagcopper_trace(
        script: *const u8,
        script_bytes: usize,
        choices: *const u8,
        count: usize,
        workspace: *mut u64,
        workspace_words: usize,
        rows: *mut u32,
        row_words: usize,
    ) -> RawAnswer;
    fn flagcopper_fair(
        script: *const u8,
        script_bytes: usize,
        picks: *mut u8,
        pick_bytes: usize,
        workspace: *mut u64,
        workspace_words: usize,
    ) -> RawTurned;
    fn flagcopper_read_words(text_bytes: usize) -> usize;
    fn flagcopper_read(
        text: *const u8,
        text_bytes: usize,
        list: *const u8,
        list_bytes: usize,
        work: *mut u32,
        work_words: usize,
        out: *mut u8,
        out_bytes: usize,
    ) -> RawReading;
    fn flagcopper_write(
        image: *const u8,
        image_bytes: usize,
        list: *const u8,
        list_bytes: usize,
        out: *mut u8,
        out_bytes: usize,
    ) -> RawText;
}

pub fn size() -> usize {
    unsafe { flagcopper_size() }
}

pub fn check(script: &[u8], workspace_words: usize) -> RawVerdict {
    unsafe { flagcopper_check(script.as_ptr(), script.len(), workspace_words) }
}

pub fn run(script: &[u8], choices: &[u8], workspace: &mut [u64]) -> RawAnswer {
    unsafe {
        flagcopper_run(
            script.as_ptr(),
            script.len(),
            choices.as_ptr(),
            choices.len(),
            workspace.as_mut_ptr(),
            workspace.len(),
        )
    }
}

pub fn trace(script: &[u8], choices: &[u8], workspace: &mut [u64], rows: &mut [u32]) -> RawAnswer {
    unsafe {
        flagcopper_trace(
            script.as_ptr(),
            script.len(),
            choices.as_ptr(),
            choices.len(),
            workspace.as_mut_ptr(),
            workspace.len(),
            rows.as_mut_ptr(),
            rows.len(),
        )
    }
}

pub fn fair(script: &[u8], picks: &mut [u8], workspace: &mut [u64]) -> RawTurned {
    unsafe {
        flagcopper_fair(
            script.as_ptr(),
            script.len(),
            picks.as_mut_ptr(),
            picks.len(),
            workspace.as_mut_ptr(),
            workspace.len(),
        )
    }
}

pub fn read_words(text_bytes: usize) -> usize {
    unsafe { flagcopper_read_words(text_bytes) }
}

pub fn read(text: &[u8], list: &[u8], work: &mut [u32], out: &mut [u8]) -> RawReading {
    unsafe {
        flagcopper_read(
            text.as_ptr(),
            text.len(),
            list.as_ptr(),
            list.len(),
            work.as_mut_ptr(),
            work.len(),
            out.as_mut_ptr(),
            out.len(),
        )
    }
}

pub fn write(image: &[u8], list: &[u8], out: &mut [u8]) -> RawText {
    unsafe { flagcopper_write(image.as_ptr(), image.len(), list.as_ptr(), list.len(), out.as_mut_ptr(), out.len()) }
}
