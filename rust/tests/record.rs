//! The writer's record lies in memory as the C boundary has it, and the library's new record is `Record::new`.
use chamanzil::{raw, Record};
use std::mem::{align_of, offset_of, size_of};

#[test]
fn layout() {
    assert_eq!((size_of::<Record>(), align_of::<Record>()), (48, 8));
    let small = (offset_of!(Record, state), offset_of!(Record, level));
    let large = (offset_of!(Record, dsv), offset_of!(Record, sectors));
    assert_eq!((small, large), ((0, 1), (8, 16)));
    let last = (offset_of!(Record, closed), offset_of!(Record, peak));
    assert_eq!(last, (20, 24));
    let mark = (offset_of!(Record, marked), offset_of!(Record, mark));
    assert_eq!(mark, (32, 40));
}

/// Whatever the old one was.
#[test]
fn new_record() {
    for (closed, marked) in [(false, false), (false, true), (true, false), (true, true)] {
        let mut record = Record {
            state: 255,
            level: 255,
            dsv: i64::MIN,
            sectors: u32::MAX,
            closed,
            peak: u64::MAX,
            marked,
            mark: i64::MIN,
        };
        unsafe { raw::chamanzil_new_record(&mut record) };
        assert_eq!(record, Record::new());
    }
}
