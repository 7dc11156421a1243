//! The library behind its C interface (include/razombiku.h), wrapped in safe functions.

use crate::calls::Calls;

extern "C" {
    fn rz_read(file: *const u8, file_len: usize, answer: *mut [u64; 6]);
    fn rz_write(
        name: *const u8,
        name_len: usize,
        records: u64,
        events: *const u8,
        events_len: usize,
        out: *mut u8,
        out_len: usize,
        answer: *mut [u64; 3],
    );
    fn rz_question(file: *const u8, file_len: usize, i: u64, j: u64, answer: *mut [u64; 3]);
    fn rz_judge(
        file: *const u8,
        file_len: usize,
        k: u64,
        labels: *mut u64,
        labels_len: usize,
        links: *mut u16,
        links_len: usize,
        places: *mut u32,
        places_len: usize,
        answer: *mut [u64; 9],
    );
    fn rz_judge_records(
        file: *const u8,
        file_len: usize,
        k: u64,
        labels: *mut u64,
        labels_len: usize,
        links: *mut u16,
        links_len: usize,
        places: *mut u32,
        places_len: usize,
        records: *mut u32,
        records_len: usize,
        firsts: *mut u32,
        firsts_len: usize,
        seconds: *mut u32,
        seconds_len: usize,
        answer: *mut [u64; 6],
    );
}

/// The library. Its answers are arrays of canaries before a call: a number that it does not store shows.
pub struct Library;

const CANARY: u64 = 0xC0FF_EE00_C0FF_EE00;

// What the header asks of the blocks holds of every call below: a slice's pointer is aligned and not null, and its length is that of the
// memory behind it; a block that is written is borrowed by `&mut`, so no other block overlaps it; the library keeps none of them.
impl Calls for Library {
    fn read(&self, file: &[u8]) -> [u64; 6] {
        let mut answer = [CANARY; 6];
        // SAFETY: `file` is a slice, and `answer` an array of the 6 numbers that the call stores.
        unsafe { rz_read(file.as_ptr(), file.len(), &mut answer) };
        answer
    }

    fn write(&self, name: &[u8], records: u64, events: &[u8], out: &mut [u8]) -> [u64; 3] {
        let mut answer = [CANARY; 3];
        let (out_at, out_len) = (out.as_mut_ptr(), out.len());
        let (name_at, events_at) = (name.as_ptr(), events.as_ptr());
        // SAFETY: `name`, `events` and `out` are slices, of which only `out` is written; `answer` has the 3 numbers that the call stores.
        unsafe { rz_write(name_at, name.len(), records, events_at, events.len(), out_at, out_len, &mut answer) };
        answer
    }

    fn question(&self, file: &[u8], i: u64, j: u64) -> [u64; 3] {
        let mut answer = [CANARY; 3];
        // SAFETY: `file` is a slice, and `answer` an array of the 3 numbers that the call stores.
        unsafe { rz_question(file.as_ptr(), file.len(), i, j, &mut answer) };
        answer
    }

    fn judge(&self, file: &[u8], k: u64, labels: &mut [u64], links: &mut [u16], places: &mut [u32]) -> [u64; 9] {
        let mut answer = [CANARY; 9];
        // SAFETY: `file` is a slice that is read; the three buffers are slices that are written, each with its own length, in elements;
        // `answer` is an array of the 9 numbers that the call stores.
        unsafe {
            rz_judge(
                file.as_ptr(),
                file.len(),
                k,
                labels.as_mut_ptr(),
                labels.len(),
                links.as_mut_ptr(),
                links.len(),
                places.as_mut_ptr(),
                places.len(),
                &mut answer,
            )
        };
        answer
    }

    fn judge_records(
        &self,
        file: &[u8],
        k: u64,
        labels: &mut [u64],
        links: &mut [u16],
        places: &mut [u32],
        [records, firsts, seconds]: [&mut [u32]; 3],
    ) -> [u64; 6] {
        let mut answer = [CANARY; 6];
        // SAFETY: `file` is a slice that is read; the three buffers and the three lists are slices that are written, each with its own
        // length, in elements; `answer` is an array of the 6 numbers that the call stores.
        unsafe {
            rz_judge_records(
                file.as_ptr(),
                file.len(),
                k,
                labels.as_mut_ptr(),
                labels.len(),
                links.as_mut_ptr(),
                links.len(),
                places.as_mut_ptr(),
                places.len(),
                records.as_mut_ptr(),
                records.len(),
                firsts.as_mut_ptr(),
                firsts.len(),
                seconds.as_mut_ptr(),
                seconds.len(),
                &mut answer,
            )
        };
        answer
    }
}
