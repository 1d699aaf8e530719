//! The proved library, linked as a static library (crates/for_c).

use crate::plain::Row;

// The library's values of type Global take no bytes and are not passed; a slice is a pointer and a length.
unsafe extern "C" {
    fn juntzero_respond(input: *const u8, len: usize, output: *mut u8, room: usize) -> usize;
    fn juntzero_respond_often(input: *const u8, len: usize, times: u32) -> u64;
    fn juntzero_begin(method: u8, sizes: *const u32, len: usize, n: u32, times: u32) -> u64;
    fn juntzero_draw(method: u8, sizes: *const u32, len: usize, n: u32, seed: u32, times: u32) -> u64;
    fn juntzero_draw_strata(
        strata: *const u16, strata_len: usize, clusters: *const u16, clusters_len: usize, sizes: *const u32, len: usize,
        takes: *const u32, takes_len: usize, m: u32, n: u32, seed: u32, times: u32,
    ) -> u64;
    fn juntzero_report(sizes: *const u32, len: usize, n: u32, seed: u32, amounts: *const i32, amounts_len: usize, times: u32) -> i64;
}

/// What the program prints for the bytes of a frame file.
pub fn respond(file: &[u8]) -> Vec<u8> {
    let mut output = vec![0; 65_536];
    let len = unsafe { juntzero_respond(file.as_ptr(), file.len(), output.as_mut_ptr(), output.len()) };
    output.truncate(len);
    output
}

pub fn respond_often(file: &[u8], times: u32) -> u64 {
    unsafe { juntzero_respond_often(file.as_ptr(), file.len(), times) }
}

pub fn begin(method: u8, sizes: &[u32], n: u32, times: u32) -> u64 {
    unsafe { juntzero_begin(method, sizes.as_ptr(), sizes.len(), n, times) }
}

pub fn draw(method: u8, sizes: &[u32], n: u32, seed: u32, times: u32) -> u64 {
    unsafe { juntzero_draw(method, sizes.as_ptr(), sizes.len(), n, seed, times) }
}

pub fn draw_strata(list: &[Row], takes: &[u32], m: u32, n: u32, seed: u32, times: u32) -> u64 {
    let strata: Vec<u16> = list.iter().map(|row| row.stratum).collect();
    let clusters: Vec<u16> = list.iter().map(|row| row.cluster).collect();
    let sizes: Vec<u32> = list.iter().map(|row| row.size).collect();
    unsafe {
        juntzero_draw_strata(
            strata.as_ptr(), strata.len(), clusters.as_ptr(), clusters.len(), sizes.as_ptr(), sizes.len(),
            takes.as_ptr(), takes.len(), m, n, seed, times,
        )
    }
}

pub fn report(sizes: &[u32], n: u32, seed: u32, amounts: &[i32], times: u32) -> i64 {
    unsafe { juntzero_report(sizes.as_ptr(), sizes.len(), n, seed, amounts.as_ptr(), amounts.len(), times) }
}
