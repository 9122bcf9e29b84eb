//! libfec (Debian's libfec-dev): parity and decoding of a block's rows and columns, for comparison.
use std::ffi::c_void;

extern "C" {
    fn init_rs_char(symsize: i32, gfpoly: i32, fcr: i32, prim: i32, nroots: i32, pad: i32) -> *mut c_void;
    fn encode_rs_char(rs: *mut c_void, data: *mut u8, parity: *mut u8);
    fn decode_rs_char(rs: *mut c_void, data: *mut u8, places: *mut i32, known: i32) -> i32;
}

/// Row i of the 208 is recorded as this row (clause 19).
fn recorded(i: usize) -> usize {
    if i <= 191 {
        i + i / 12
    } else {
        13 * (i - 191) - 1
    }
}

/// The marked places of each row as libfec takes them, and how many: at most ten, which is the length of its list, since it writes the places changed there.
pub struct Places(Vec<([i32; 10], i32)>);

impl Places {
    pub fn of(erasures: &[u8]) -> Places {
        let row = |marks: &[u8]| {
            let (mut places, mut count) = ([0; 10], 0);
            for (at, _) in (0..).zip(marks).filter(|(_, mark)| **mark == 1) {
                places[count] = at;
                count += 1;
            }
            (places, count as i32)
        };
        Places(erasures.chunks(182).map(row).collect())
    }
}

/// The two codes: a column's 192 bytes with 16 more, a row's 172 with 10.
pub struct Peer {
    column: *mut c_void,
    row: *mut c_void,
}

impl Peer {
    pub fn new() -> Peer {
        unsafe {
            Peer {
                column: init_rs_char(8, 0x11D, 0, 1, 16, 47),
                row: init_rs_char(8, 0x11D, 0, 1, 10, 73),
            }
        }
    }

    /// Outer and inner parity of a block in recording order whose main rows are in place.
    pub fn parity(&self, block: &mut [u8]) {
        let (mut column, mut outer) = ([0u8; 192], [0u8; 16]);
        for j in 0..172 {
            (0..192).for_each(|i| column[i] = block[182 * recorded(i) + j]);
            unsafe { encode_rs_char(self.column, column.as_mut_ptr(), outer.as_mut_ptr()) };
            (0..16).for_each(|i| block[182 * recorded(192 + i) + j] = outer[i]);
        }
        for row in block.chunks_mut(182) {
            let (data, inner) = row.split_at_mut(172);
            unsafe { encode_rs_char(self.row, data.as_mut_ptr(), inner.as_mut_ptr()) };
        }
    }

    /// All rows with their marks, then columns 0 to 171, as the repairer takes them. No checks of frames and no unscrambling.
    pub fn decode(&self, block: &mut [u8], places: &Places) {
        let none = std::ptr::null_mut();
        for (row, &(mut marked, count)) in block.chunks_mut(182).zip(&places.0) {
            let known = if count == 0 { none } else { marked.as_mut_ptr() };
            unsafe { decode_rs_char(self.row, row.as_mut_ptr(), known, count) };
        }
        let mut column = [0u8; 208];
        for j in 0..172 {
            (0..208).for_each(|i| column[i] = block[182 * recorded(i) + j]);
            let changed = unsafe { decode_rs_char(self.column, column.as_mut_ptr(), none, 0) };
            if changed > 0 {
                (0..208).for_each(|i| block[182 * recorded(i) + j] = column[i]);
            }
        }
    }
}
