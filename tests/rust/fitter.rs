// The fitter's C functions, for Rust.
#![allow(dead_code)]

extern "C" {
    fn fitter_judge(table: *const u8, table_len: usize, list: *const u8, list_len: usize) -> u32;
    fn fitter_label(
        table: *const u8, table_len: usize, list: *const u8, list_len: usize, out: *mut u32, out_len: usize,
    ) -> u32;
    fn fitter_holding(
        table: *const u8, table_len: usize, list: *const u8, list_len: usize, out: *mut u8, out_len: usize,
        count: *mut u32,
    ) -> u32;
    fn fitter_read(text: *const u8, text_len: usize, out: *mut u8, out_len: usize, length: *mut u64) -> u32;
    fn fitter_repair(
        table: *const u8, table_len: usize, cap: u64, list: *mut u8, list_len: usize, bytes: *mut u8, bytes_len: usize,
        words: *mut u32, words_len: usize, choices: *mut u64, price: *mut u32, settled: *mut u32,
    ) -> u32;
    fn fitter_parcel(
        parcel: *const u8, parcel_len: usize, cap: u64, lists: *mut u8, lists_len: usize, bytes: *mut u8,
        bytes_len: usize, words: *mut u32, words_len: usize, answers: *mut Answer, answers_len: usize,
        tables: *mut u32, left: *mut u64,
    ) -> u32;
}

// What Repair answers for one table of several.
#[repr(C)]
#[derive(Clone, Copy, Debug, PartialEq)]
pub struct Answer {
    pub choices: u64,
    pub number: u32,
    pub price: u32,
    pub settled: u32,
}

pub fn judge(table: &[u8], list: &[u8]) -> u32 {
    unsafe { fitter_judge(table.as_ptr(), table.len(), list.as_ptr(), list.len()) }
}

pub fn label(table: &[u8], list: &[u8], out: &mut [u32]) -> u32 {
    unsafe { fitter_label(table.as_ptr(), table.len(), list.as_ptr(), list.len(), out.as_mut_ptr(), out.len()) }
}

pub fn holding(table: &[u8], list: &[u8], out: &mut [u8], count: &mut u32) -> u32 {
    unsafe {
        fitter_holding(table.as_ptr(), table.len(), list.as_ptr(), list.len(), out.as_mut_ptr(), out.len(), count)
    }
}

pub fn read(text: &[u8], out: &mut [u8], length: &mut u64) -> u32 {
    unsafe { fitter_read(text.as_ptr(), text.len(), out.as_mut_ptr(), out.len(), length) }
}

pub fn repair(
    table: &[u8], cap: u64, list: &mut [u8], bytes: &mut [u8], words: &mut [u32], choices: &mut u64, price: &mut u32,
    settled: &mut u32,
) -> u32 {
    unsafe {
        fitter_repair(
            table.as_ptr(), table.len(), cap, list.as_mut_ptr(), list.len(), bytes.as_mut_ptr(), bytes.len(),
            words.as_mut_ptr(), words.len(), choices, price, settled,
        )
    }
}

pub fn parcel(
    parcel: &[u8], cap: u64, lists: &mut [u8], bytes: &mut [u8], words: &mut [u32], answers: &mut [Answer],
    tables: &mut u32, left: &mut u64,
) -> u32 {
    unsafe {
        fitter_parcel(
            parcel.as_ptr(), parcel.len(), cap, lists.as_mut_ptr(), lists.len(), bytes.as_mut_ptr(), bytes.len(),
            words.as_mut_ptr(), words.len(), answers.as_mut_ptr(), answers.len(), tables, left,
        )
    }
}
