//! Each of the papers' refusals, 1 to 14, with every lent buffer and record compared before and after.
mod common;

use chamanzil::{encode_block, ied, slices, Record, Refusal, Writer};
use chamanzil::{
    BLOCK, BLOCK_STREAM, CLOSING, FRAME, FRAME_STREAM, MAIN, RUN_SECTORS, SECTOR, SECTOR_READ,
    SECTOR_STREAM, STREAM,
};
use common::{buffer, frame_place, main_data, stream_of, with_parity};

const OLD: u8 = 165;

#[test]
fn length_1_of_maker_and_formatter() {
    let mut out = vec![OLD; STREAM + 1];
    let (main, long) = (vec![0; MAIN], vec![0; MAIN + 1]);
    assert_eq!(
        slices::encode_block(&long, None, 0, 0, &mut out[..BLOCK]),
        Err(Refusal::Length)
    );
    assert_eq!(
        slices::encode_block(&main, None, 0, 0, &mut out[..BLOCK - 1]),
        Err(Refusal::Length)
    );
    assert_eq!(
        slices::format_block(&long, 0, 0, &mut out[..STREAM]),
        Err(Refusal::Length)
    );
    assert_eq!(
        slices::format_block(&main, 0, 0, &mut out[..]),
        Err(Refusal::Length)
    );
    assert_eq!(out, vec![OLD; STREAM + 1]);
}

#[test]
fn length_1_of_the_writer() {
    let mut record = Record::new();
    let mut out = vec![OLD; STREAM + 1];
    let (main, long) = (vec![0; MAIN], vec![0; MAIN + 1]);
    for (from, to) in [(SECTOR + 1, SECTOR_STREAM), (SECTOR, SECTOR_STREAM + 1)] {
        assert_eq!(
            slices::trial(&mut record, &main[..from], &out[..to]),
            Err(Refusal::Length)
        );
        assert_eq!(
            slices::take(&mut record, &main[..from], &mut out[..to]),
            Err(Refusal::Length)
        );
    }
    for (from, to) in [(MAIN, BLOCK_STREAM), (BLOCK, STREAM)] {
        let block = vec![0; from];
        assert_eq!(
            slices::write_sectors(&mut record, &block, &mut out[..to]),
            Err(Refusal::Length)
        );
    }
    assert_eq!(
        slices::write_block(&mut record, None, &long, 0, 0, &mut out[..BLOCK_STREAM]),
        Err(Refusal::Length)
    );
    assert_eq!(
        slices::write_block(&mut record, None, &main, 0, 0, &mut out[..STREAM]),
        Err(Refusal::Length)
    );
    assert_eq!(
        slices::close(&mut record, &mut out[..=CLOSING]),
        Err(Refusal::Length)
    );
    assert_eq!((record, out), (Record::new(), vec![OLD; STREAM + 1]));
}

#[test]
fn length_1_of_sectors_and_words() {
    let (main, mut out, mut two) = (vec![0; MAIN], vec![OLD; MAIN], [7; 2]);
    let mut erasures = vec![OLD; SECTOR + 1];
    for (from, to, marks, numbers) in [
        (SECTOR_READ - 1, SECTOR, SECTOR, 2),
        (SECTOR_READ, SECTOR + 1, SECTOR, 2),
        (SECTOR_READ, SECTOR, SECTOR - 1, 2),
        (SECTOR_READ, SECTOR, SECTOR + 1, 2),
        (SECTOR_READ, SECTOR, SECTOR, 1),
    ] {
        let answer = slices::read_sector(
            &main[..from],
            &mut out[..to],
            &mut erasures[..marks],
            &mut two[..numbers],
        );
        assert_eq!(answer, Err(Refusal::Length));
    }
    assert_eq!(
        slices::row_parity(&main[..171], &mut out[..10]),
        Err(Refusal::Length)
    );
    assert_eq!(
        slices::column_parity(&main[..192], &mut out[..15]),
        Err(Refusal::Length)
    );
    assert_eq!(slices::ied(&main[..5], &mut out[..2]), Err(Refusal::Length));
    for (row, marks) in [(183, 182), (182, 181), (182, 183), (183, 183)] {
        assert_eq!(
            slices::correct_row(&mut out[..row], &main[..marks]),
            Err(Refusal::Length)
        );
    }
    assert_eq!(
        slices::correct_column(&mut out[..207]),
        Err(Refusal::Length)
    );
    for row in [0, 181, 183, 208] {
        assert_eq!(
            slices::correct_light_row(&mut out[..row]),
            Err(Refusal::Length)
        );
    }
    assert_eq!(
        (out, erasures, two),
        (vec![OLD; MAIN], vec![OLD; SECTOR + 1], [7; 2])
    );
}

#[test]
fn length_1_of_the_repairs() {
    let (stream, mut main, mut report) = (vec![0; STREAM], vec![OLD; MAIN], [7; 8]);
    let (mut block, mut erasures) = (vec![OLD; BLOCK], vec![OLD; BLOCK]);
    let cases = [
        (STREAM, BLOCK, BLOCK, MAIN, 7),
        (STREAM, BLOCK, BLOCK, MAIN - 1, 8),
        (STREAM, BLOCK, BLOCK - 1, MAIN, 8),
        (STREAM, BLOCK - 1, BLOCK, MAIN, 8),
        (STREAM - 1, BLOCK, BLOCK, MAIN, 8),
    ];
    for (s, b, e, m, r) in cases {
        let answer = slices::read_block(
            &stream[..s],
            &mut block[..b],
            &mut erasures[..e],
            &mut main[..m],
            &mut report[..r],
        );
        assert_eq!(answer, Err(Refusal::Length));
    }
    // the marks are none: 1 goes before 11
    for (b, e, m, r) in [
        (BLOCK, BLOCK, MAIN, 5),
        (BLOCK, BLOCK, MAIN - 1, 6),
        (BLOCK, BLOCK - 1, MAIN, 6),
        (BLOCK - 1, BLOCK, MAIN, 6),
    ] {
        let answer = slices::repair_block(
            &mut block[..b],
            &erasures[..e],
            &mut main[..m],
            &mut report[..r],
        );
        assert_eq!(answer, Err(Refusal::Length));
    }
    assert_eq!((block, erasures), (vec![OLD; BLOCK], vec![OLD; BLOCK]));
    assert_eq!((main, report), (vec![OLD; MAIN], [7; 8]));
}

/// Bytes and marks of two readings, each of another length in turn. The marks are none: 1 goes before 11.
#[test]
fn length_1_of_pooling() {
    let old = || vec![OLD; BLOCK + 1];
    let mut buffers = [old(), old(), old(), old()];
    for which in 0..4 {
        for length in [0, BLOCK - 1, BLOCK + 1] {
            let mut lengths = [BLOCK; 4];
            lengths[which] = length;
            let [b, e, second, marks] = lengths;
            let [bytes, erasures, second_bytes, second_erasures] = &mut buffers;
            let answer = slices::pool(
                &mut bytes[..b],
                &mut erasures[..e],
                &second_bytes[..second],
                &second_erasures[..marks],
            );
            assert_eq!(answer, Err(Refusal::Length), "buffer {which} of {length}");
        }
    }
    assert!(buffers == [old(), old(), old(), old()]);
}

/// A capture of so many bytes with buffers of these lengths is refused, and leaves everything.
fn capture_refused(stream: &[u8], [o, s, r]: [usize; 3], due: Refusal) {
    let old = || (vec![OLD; o], vec![7; s], vec![9; r]);
    let (mut out, mut stretches, mut report) = old();
    let answer = slices::read_capture(stream, &mut out, &mut stretches, &mut report);
    assert_eq!(answer, Err(due), "{} bytes, {o} {s} {r}", stream.len());
    assert!((out, stretches, report) == old(), "after {due}");
}

/// The buffer for every length of capture up to some frames. The list has no entry: 1 goes before 14.
#[test]
fn length_1_of_captures() {
    let stream = stream_of(&buffer(7));
    for length in 0..5 * FRAME_STREAM {
        let (capture, due) = (&stream[..length], FRAME * (length / FRAME_STREAM));
        for out in [0, due.saturating_sub(1), due + 1, due + FRAME, length] {
            if out != due {
                capture_refused(capture, [out, 0, 2], Refusal::Length);
                capture_refused(capture, [out, 20, 2], Refusal::Length);
            }
        }
        for numbers in [0, 1, 3, 4] {
            capture_refused(capture, [due, 0, numbers], Refusal::Length);
        }
    }
}

/// A piece of a frame, then frames with a SYNC Code after each: a stretch before them, one between each two and one after the last.
#[test]
fn stretches_14() {
    let stream = stream_of(&buffer(7));
    let frame = &stream[..FRAME_STREAM + 4];
    for frames in 0..6 {
        let capture = [&stream[20..40], &frame.repeat(frames)].concat();
        let (out, needed) = (FRAME * (capture.len() / FRAME_STREAM), frames + 1);
        for numbers in 0..2 * needed {
            capture_refused(&capture, [out, numbers, 2], Refusal::Stretches);
            capture_refused(&capture, [out + 1, numbers, 2], Refusal::Length);
        }
        let mut report = [9; 2];
        let (mut bytes, mut list) = (vec![OLD; out], vec![7; 2 * needed]);
        let answer = slices::read_capture(&capture, &mut bytes, &mut list, &mut report);
        let counts = [frames, needed].map(|count| u64::try_from(count).unwrap());
        assert_eq!((answer, report), (Ok(()), counts));
    }
}

/// An empty capture has no stretch, and a list without an entry will do.
#[test]
fn the_empty_capture() {
    let mut report = [9; 2];
    let answer = slices::read_capture(&[], &mut [], &mut [], &mut report);
    assert_eq!((answer, report), (Ok(()), [0, 0]));
    let captured = chamanzil::read_capture(&[]).unwrap();
    assert!(captured.bytes.is_empty() && captured.frames == 0 && captured.stretches.is_empty());
}

#[test]
fn first_number_2_and_information_3() {
    let main = main_data(1);
    let mut out = vec![OLD; BLOCK];
    let mut stream = vec![OLD; STREAM];
    for first in [
        1,
        8,
        15,
        17,
        16_777_201,
        16_777_216,
        u32::MAX,
        u32::MAX - 15,
    ] {
        assert_eq!(
            slices::encode_block(&main[..], Some(first), first, 0xFF, &mut out),
            Err(Refusal::FirstNumber)
        );
        assert_eq!(
            slices::format_block(&main[..], first, 0xFF, &mut stream),
            Err(Refusal::FirstNumber)
        );
    }
    for info in 0..=255 {
        let due = if info & 0xD2 == 0 {
            Ok(())
        } else {
            Err(Refusal::Information)
        };
        if due.is_err() {
            assert_eq!(
                slices::encode_block(&main[..], Some(16), 16, info, &mut out),
                due
            );
            assert_eq!(slices::format_block(&main[..], 16, info, &mut stream), due);
        }
    }
    assert_eq!((out, stream), (vec![OLD; BLOCK], vec![OLD; STREAM]));
}

/// A block with an edit in its frames and parity made anew, by the repairer and by the whole-block reader.
fn judge(edit: impl Fn(&mut [u8; BLOCK]), due: Refusal) {
    let mut block = encode_block(&main_data(2), None, 0x03_0000, 0).unwrap();
    edit(&mut block);
    with_parity(&mut block);
    let stream = stream_of(&block);

    // wrong bytes on top, which the repair takes away: the block buffer then holds the block after both repairs
    let (mut read, none) = (block.clone(), buffer(0));
    read[1000] ^= 1;
    let mut main = vec![OLD; MAIN];
    let mut report = [7; 6];
    assert_eq!(
        slices::repair_block(&mut read[..], &none[..], &mut main, &mut report),
        Err(due)
    );
    assert_eq!((&read, &main), (&block, &vec![OLD; MAIN]));
    assert_eq!(report, [0, 0, 0, 0, 0, u32::from(due.frame().unwrap())]);

    let (mut read, mut erasures) = (vec![OLD; BLOCK], vec![OLD; BLOCK]);
    let mut report = [7; 8];
    assert_eq!(
        slices::read_block(
            &stream[..],
            &mut read,
            &mut erasures,
            &mut main,
            &mut report
        ),
        Err(due)
    );
    assert_eq!((&read[..], &main), (&block[..], &vec![OLD; MAIN]));
    assert_eq!(
        report,
        [0, 0, 0, 0, 0, 0, 0, u32::from(due.frame().unwrap())]
    );
    // the stream is whole: no word of it is marked
    assert_eq!(erasures, vec![0; BLOCK]);
    assert_eq!(chamanzil::read_block(&stream), Err(due));
    assert_eq!(chamanzil::repair_block(&mut block, &none), Err(due));
}

/// An ID in frame k, with its IED.
fn set_id(block: &mut [u8; BLOCK], k: usize, id: [u8; 4]) {
    let bytes = id.into_iter().chain(ied(&id));
    for (i, byte) in bytes.enumerate() {
        block[frame_place(k, i)] = byte;
    }
}

#[test]
fn ied_4() {
    judge(
        |block| block[frame_place(3, 5)] ^= 0x40,
        Refusal::Ied { frame: 3 },
    );
}

#[test]
fn id_5() {
    judge(
        |block| set_id(block, 4, [0, 3, 0, 5]),
        Refusal::Id { frame: 4 },
    );
    judge(
        |block| set_id(block, 15, [1, 3, 0, 15]),
        Refusal::Id { frame: 15 },
    );
    judge(
        |block| set_id(block, 0, [0, 3, 0, 8]),
        Refusal::Id { frame: 0 },
    );
    judge(
        |block| set_id(block, 0, [2, 3, 0, 0]),
        Refusal::Id { frame: 0 },
    );
}

#[test]
fn edc_6() {
    judge(
        |block| block[frame_place(7, 2063)] ^= 1,
        Refusal::Edc { frame: 7 },
    );
    // the lowest number in the first frame that fails
    judge(
        |block| {
            block[frame_place(9, 4)] ^= 1;
            block[frame_place(9, 2060)] ^= 1;
            block[frame_place(12, 2060)] ^= 1;
        },
        Refusal::Ied { frame: 9 },
    );
}

/// The repairer is refused with 11 for these marks, and leaves everything.
fn marks_refused(block: &[u8; BLOCK], erasures: &[u8; BLOCK]) {
    let (mut after, mut main, mut report) = (*block, vec![OLD; MAIN], [7; 6]);
    let answer = slices::repair_block(&mut after, erasures, &mut main, &mut report);
    assert_eq!(answer, Err(Refusal::Erasure));
    assert!(after == *block, "the block after 11");
    assert_eq!((main, report), (vec![OLD; MAIN], [7; 6]));
    assert_eq!(
        chamanzil::repair_block(&mut after, erasures),
        Err(Refusal::Erasure)
    );
    assert!(after == *block, "the block after 11");
}

/// A mark that is neither 0 nor 1 at any place, alone and among others, in a block with wrong bytes that would be put right.
#[test]
fn erasure_11() {
    let mut block = encode_block(&main_data(2), None, 0x03_0000, 0).unwrap();
    block[..5].fill(OLD);
    for others in [0, 1] {
        for place in [0, 1, 181, 182, 20_000, BLOCK - 182, BLOCK - 1] {
            for mark in [2, 3, 128, 254, 255] {
                let mut erasures = buffer(others);
                erasures[place] = mark;
                marks_refused(&block, &erasures);
            }
        }
    }
    marks_refused(&block, &buffer(2));
}

#[test]
fn erasure_11_of_a_row() {
    for place in [0, 9, 100, 181] {
        for mark in 2..=255 {
            let (mut row, mut erasures) = ([0; 182], [0; 182]);
            row[..10].fill(OLD);
            erasures[..10].fill(1);
            erasures[place] = mark;
            let was = row;
            let refused = Err(Refusal::Erasure);
            assert_eq!(chamanzil::correct_row(&mut row, &erasures), refused);
            assert_eq!(slices::correct_row(&mut row, &erasures), refused);
            // 1 goes before 11
            for (r, e) in [(181, 182), (182, 181)] {
                let answer = slices::correct_row(&mut row[..r], &erasures[182 - e..]);
                assert_eq!(answer, Err(Refusal::Length));
            }
            assert_eq!(row, was);
        }
    }
}

/// Two readings, 1 and 2 in all bytes, of which one has a mark that is none. They stay, and 1 goes before 11.
fn pooling_refused(mut erasures: Box<[u8; BLOCK]>, second_erasures: &[u8; BLOCK]) {
    let (mut bytes, second, marks) = (buffer(1), buffer(2), erasures.clone());
    let refused = Err(Refusal::Erasure);
    let answer = chamanzil::pool(&mut bytes, &mut erasures, &second, second_erasures);
    assert_eq!(answer, refused);
    let (b, e) = (&mut bytes[..], &mut erasures[..]);
    assert_eq!(slices::pool(b, e, &second[..], second_erasures), refused);
    let short = slices::pool(&mut b[1..], e, &second[..], second_erasures);
    assert_eq!(short, Err(Refusal::Length));
    let short = slices::pool(b, e, &second[1..], second_erasures);
    assert_eq!(short, Err(Refusal::Length));
    assert!(bytes == buffer(1) && erasures == marks, "after 11");
}

#[test]
fn erasure_11_of_pooling() {
    for others in [0, 1] {
        for place in [0, 20_000, BLOCK - 1] {
            for mark in [2, 255] {
                let mut bad = buffer(others);
                bad[place] = mark;
                pooling_refused(bad.clone(), &buffer(others));
                pooling_refused(buffer(others), &bad);
                pooling_refused(bad.clone(), &bad);
            }
        }
    }
}

/// A block with reasons for 4, 5 or 6, and marks that get 11 before them; with marks as they should be it gets its number.
#[test]
fn order_with_11() {
    let edits: [fn(&mut [u8; BLOCK]); 3] = [
        |block| block[frame_place(0, 4)] ^= 1,
        |block| set_id(block, 0, [0, 3, 0, 8]),
        |block| block[frame_place(0, 2060)] ^= 1,
    ];
    for (number, edit) in (4..).zip(edits) {
        let mut block = encode_block(&main_data(2), None, 0x03_0000, 0).unwrap();
        edit(&mut block);
        with_parity(&mut block);
        let mut erasures = buffer(0);
        erasures[BLOCK - 1] = 2;
        marks_refused(&block, &erasures);
        erasures[BLOCK - 1] = 1;
        let refusal = chamanzil::repair_block(&mut block, &erasures).unwrap_err();
        assert_eq!((refusal.number(), refusal.frame()), (number, Some(0)));
    }
}

const SEQUENCE: Result<(), Refusal> = Err(Refusal::Sequence);

/// The block maker's and the writer's answer to a block after another one, which leave buffer and record.
fn after(previous: u32, first: u32) -> [Result<(), Refusal>; 2] {
    let main = main_data(3);
    let (mut block, mut stream) = (vec![OLD; BLOCK], vec![OLD; BLOCK_STREAM]);
    let made = slices::encode_block(&main[..], Some(previous), first, 0, &mut block);
    let mut record = Record::new();
    let written = slices::write_block(
        &mut record,
        Some(previous),
        &main[..],
        first,
        0,
        &mut stream,
    );
    if made.is_err() {
        assert_eq!(block, vec![OLD; BLOCK]);
    }
    if written.is_err() {
        assert_eq!((record, stream), (Record::new(), vec![OLD; BLOCK_STREAM]));
    }
    [made, written]
}

#[test]
fn sequence_10() {
    // the last three would follow if the sum were taken modulo 2^32 or 2^24
    for (previous, first) in [
        (0, 0),
        (0, 32),
        (16, 0),
        (16, 16),
        (1, 16),
        (0x02_FFF0, 0x03_0010),
        (0x03_0010, 0x03_0000),
        (u32::MAX, 16),
        (4_294_967_280, 0),
        (16_777_200, 0),
        (16_777_216, 16),
    ] {
        assert_eq!(after(previous, first), [SEQUENCE; 2], "{previous} {first}");
        let writer = Writer::from_record(Record::new(), Some(previous));
        let mut out = buffer::<BLOCK_STREAM>(OLD);
        assert_eq!(
            writer.write_block(&main_data(3), first, 0, &mut out),
            Err(Refusal::Sequence)
        );
        assert_eq!(out, buffer(OLD));
        let made = encode_block(&main_data(3), Some(previous), first, 0);
        assert_eq!(made, Err(Refusal::Sequence));
    }
    for (previous, first) in [(0, 16), (0x02_FFF0, 0x03_0000), (16_777_184, 16_777_200)] {
        assert_eq!(after(previous, first), [Ok(()); 2], "{previous} {first}");
    }
    // no block comes after the last number
    let over = Err(Refusal::FirstNumber);
    assert_eq!(after(16_777_200, 16_777_216), [over; 2]);
    assert_eq!(after(4_294_967_264, 4_294_967_280), [over; 2]);
}

/// A call with reasons for several numbers: 1, 2, 3, 10 in the block maker; 9 and 7 after them in the call for a whole block of a run.
#[test]
fn order_with_10() {
    let ended = Record {
        sectors: RUN_SECTORS,
        ..Record::new()
    };
    let bad = Record { state: 0, ..ended };
    for (due, record, previous, size, first, info) in [
        (Refusal::Length, bad, 5, MAIN - 1, 8, 0xFF),
        (Refusal::FirstNumber, bad, 5, MAIN, 8, 0xFF),
        (Refusal::Information, bad, 5, MAIN, 16, 0xFF),
        (Refusal::Sequence, bad, 5, MAIN, 16, 0),
        (Refusal::Record, bad, 0, MAIN, 16, 0),
        (Refusal::RunEnded, ended, 0, MAIN, 16, 0),
    ] {
        let (main, mut out, mut after) = (vec![1; size], vec![OLD; BLOCK_STREAM], record);
        assert_eq!(
            slices::write_block(&mut after, Some(previous), &main, first, info, &mut out),
            Err(due)
        );
        assert_eq!((after, out), (record, vec![OLD; BLOCK_STREAM]));
        let mut out = vec![OLD; BLOCK];
        let made = slices::encode_block(&main, Some(previous), first, info, &mut out);
        if previous == 0 {
            assert_eq!(made, Ok(()));
        } else {
            assert_eq!((made, out), (Err(due), vec![OLD; BLOCK]));
        }
    }
}

/// A call's answer from a record. A refusal leaves record and buffer as they were.
fn answer(
    record: Record,
    size: usize,
    call: impl Fn(&mut Record, &mut [u8]) -> Result<(), Refusal>,
) -> Result<(), Refusal> {
    let (mut after, mut out) = (record, vec![OLD; size]);
    let answer = call(&mut after, &mut out);
    if answer.is_err() {
        assert_eq!((after, out), (record, vec![OLD; size]));
    } else {
        assert_ne!(after, record);
    }
    answer
}

/// The answers to a trial, to a whole block and to closing from a record, by slices; the writer's are the same. A take after the trial is answered as the trial is,
/// and the sixteen sectors of a block as the whole block.
fn answers(record: Record) -> [Result<(), Refusal>; 3] {
    let (bytes, main) = ([1; SECTOR], buffer(1));
    let all = [
        answer(record, SECTOR_STREAM, |record, out| {
            slices::trial(record, &bytes, out).map(drop)
        }),
        answer(record, BLOCK_STREAM, |record, out| {
            slices::write_block(record, None, &main[..], 16, 0, out)
        }),
        answer(record, CLOSING, slices::close),
    ];
    let mut tried = record;
    slices::trial(&mut tried, &bytes, &[OLD; SECTOR_STREAM]).ok();
    let taken = answer(tried, SECTOR_STREAM, |record, out| {
        slices::take(record, &bytes, out)
    });
    let laid = answer(record, BLOCK_STREAM, |record, out| {
        slices::write_sectors(record, &buffer::<BLOCK>(1)[..], out)
    });
    assert_eq!([taken, laid], [all[0], all[1]]);
    let writer = Writer::from_record(record, None);
    let trial = writer.trial(&bytes);
    let by_writer = [
        trial.and_then(|trial| trial.take(&bytes, &mut [OLD; SECTOR_STREAM])),
        writer.write_block(&main, 16, 0, &mut buffer(OLD)),
        writer.close(&mut [OLD; CLOSING]),
    ];
    assert_eq!(by_writer.map(|answer| answer.map(|_| ())), all);
    all
}

/// A record with so many sectors, open.
fn open(sectors: u32) -> Record {
    Record {
        sectors,
        ..Record::new()
    }
}

fn closed(sectors: u32) -> Record {
    Record {
        closed: true,
        ..open(sectors)
    }
}

const DONE: Result<(), Refusal> = Ok(());
const ENDED: Result<(), Refusal> = Err(Refusal::RunEnded);
const UNFINISHED: Result<(), Refusal> = Err(Refusal::RunUnfinished);
const BAD: [Result<(), Refusal>; 3] = [Err(Refusal::Record); 3];

/// The sector of zeros from a record, and the DSV after it.
const ZEROS: [u8; SECTOR] = [0; SECTOR];

fn dsv_of(record: Record) -> i64 {
    let trial = Writer::from_record(record, None).trial(&ZEROS);
    trial.unwrap().dsv()
}

/// What a take of zeros is refused with from a record: record and buffer are left.
fn take_refused(record: Record) -> u8 {
    let taken = answer(record, SECTOR_STREAM, |record, out| {
        slices::take(record, &ZEROS, out)
    });
    taken.unwrap_err().number()
}

/// A mark is a DSV: that a trial gave it is not told, and where `marked` is false its number is not looked at.
#[test]
fn not_tried_12() {
    for record in [open(0), open(3), open(16), open(RUN_SECTORS - 1)] {
        assert_eq!(take_refused(record), 12);
        let mark = dsv_of(record);
        assert_eq!(take_refused(Record { mark, ..record }), 12);
    }
}

#[test]
fn other_dsv_13() {
    for record in [open(0), open(3), open(16), open(RUN_SECTORS - 1)] {
        let (dsv, marked) = (dsv_of(record), true);
        for mark in [dsv - 1, dsv + 1, -dsv - 1, i64::MIN, i64::MAX] {
            let record = Record {
                marked,
                mark,
                ..record
            };
            assert_eq!(take_refused(record), 13, "{mark} for {dsv}");
        }
        let record = Record {
            marked,
            mark: dsv,
            ..record
        };
        let (mut after, mut out) = (record, [OLD; SECTOR_STREAM]);
        assert_eq!(slices::take(&mut after, &ZEROS, &mut out), DONE);
        assert_eq!((after.dsv, after.marked, after.mark), (dsv, false, 0));
    }
}

/// 1, 9, 7, 12 and 13 in a take, and a mark that stays with each.
#[test]
fn order_with_12_and_13() {
    let marked = |record: Record| Record {
        marked: true,
        mark: i64::MAX,
        ..record
    };
    for bad in [
        marked(Record {
            level: 2,
            ..open(3)
        }),
        Record {
            level: 2,
            ..closed(16)
        },
    ] {
        assert_eq!(take_refused(bad), 9);
        let short = answer(bad, SECTOR_STREAM - 1, |record, out| {
            slices::take(record, &ZEROS, out)
        });
        assert_eq!(short, Err(Refusal::Length));
    }
    for ended in [open(RUN_SECTORS), closed(16)] {
        assert_eq!([take_refused(ended), take_refused(marked(ended))], [7; 2]);
    }
    assert_eq!(
        [take_refused(open(3)), take_refused(marked(open(3)))],
        [12, 13]
    );
}

/// What a trial is refused with leaves the mark that was there; a second trial replaces it; a block, its sectors and closing drop it.
#[test]
fn the_mark_of_a_trial() {
    let (main, mut out) = (buffer::<MAIN>(1), buffer::<BLOCK_STREAM>(OLD));
    let mut record = open(16);
    let first = slices::trial(&mut record, &ZEROS, &out[..SECTOR_STREAM]).unwrap();
    let marked = record;
    assert_eq!((marked.marked, marked.mark), (true, first));
    let short = slices::trial(&mut record, &ZEROS[1..], &out[..SECTOR_STREAM]);
    assert_eq!((short, record), (Err(Refusal::Length), marked));
    let writer = Writer::from_record(open(16), None);
    let is_other = |bytes: &[u8; SECTOR]| writer.trial(bytes).unwrap().dsv() != first;
    let mut sectors = (1..=255).map(|byte| [byte; SECTOR]);
    let other = sectors.find(is_other).unwrap();
    let mark = slices::trial(&mut record, &other, &out[..SECTOR_STREAM]).unwrap();
    assert_eq!(record, Record { mark, ..marked });
    assert!(out.iter().all(|&byte| byte == OLD));

    let (mut block, mut sectors, mut end) = (record, record, record);
    slices::write_block(&mut block, None, &main[..], 16, 0, &mut out[..]).unwrap();
    slices::write_sectors(&mut sectors, &buffer::<BLOCK>(1)[..], &mut out[..]).unwrap();
    slices::close(&mut end, &mut out[..CLOSING]).unwrap();
    for after in [block, sectors, end] {
        assert_eq!((after.marked, after.mark), (false, 0));
    }
}

#[test]
fn run_ended_7() {
    for (sectors, due) in [
        (RUN_SECTORS - 17, [DONE, DONE, UNFINISHED]),
        (RUN_SECTORS - 16, [DONE, DONE, DONE]),
        (RUN_SECTORS - 15, [DONE, ENDED, UNFINISHED]),
        (RUN_SECTORS - 1, [DONE, ENDED, UNFINISHED]),
        (RUN_SECTORS, [ENDED, ENDED, DONE]),
    ] {
        assert_eq!(answers(open(sectors)), due, "{sectors}");
    }
    for sectors in [16, 32, 160, RUN_SECTORS - 16, RUN_SECTORS] {
        assert_eq!(answers(closed(sectors)), [ENDED; 3], "{sectors}");
    }
}

/// Only closing looks at whole blocks: a sector or a block may follow at any count.
#[test]
fn run_unfinished_8() {
    for sectors in (0..80).chain([8_388_600, 8_388_608, 8_388_609]) {
        let is_whole = sectors > 0 && sectors % 16 == 0;
        let closing = if is_whole { DONE } else { UNFINISHED };
        assert_eq!(
            answers(open(sectors)),
            [DONE, DONE, closing],
            "{sectors} sectors"
        );
    }
}

#[test]
fn record_9() {
    for state in [0, 5, 255] {
        assert_eq!(answers(Record { state, ..open(16) }), BAD);
    }
    for level in [2, 255] {
        assert_eq!(answers(Record { level, ..open(16) }), BAD);
    }
    for sectors in [
        RUN_SECTORS + 1,
        RUN_SECTORS + 15,
        RUN_SECTORS + 16,
        u32::MAX,
    ] {
        assert_eq!(answers(open(sectors)), BAD);
        assert_eq!(answers(closed(sectors)), BAD);
    }
    for sectors in [0, 1, 8, 15, 17, 24, RUN_SECTORS - 15, RUN_SECTORS - 1] {
        assert_eq!(answers(closed(sectors)), BAD);
    }
}

/// The DSV that a record may hold: 38,688 a sector, and 32 more after closing.
#[test]
fn record_9_by_dsv() {
    for sectors in [0, 1, 16, 48, RUN_SECTORS - 16, RUN_SECTORS] {
        let limit = 38_688 * i64::from(sectors);
        for sign in [1, -1] {
            let peak = limit.unsigned_abs();
            let with = |record: Record, dsv: i64| {
                answers(Record {
                    dsv,
                    peak,
                    ..record
                })
            };
            assert_eq!(
                with(open(sectors), sign * limit),
                answers(open(sectors)),
                "{sectors}"
            );
            assert_eq!(with(open(sectors), sign * (limit + 1)), BAD, "{sectors}");
            assert_eq!(with(closed(sectors), sign * (limit + 33)), BAD, "{sectors}");
            if sectors % 16 == 0 && sectors > 0 {
                assert_eq!(with(closed(sectors), sign * (limit + 32)), [ENDED; 3]);
            }
        }
        for dsv in [i64::MIN, i64::MAX] {
            assert_eq!(
                answers(Record {
                    dsv,
                    ..open(sectors)
                }),
                BAD
            );
        }
    }
}

/// The peak that a record may hold: not below the absolute DSV, or by 32 after closing, and 38,688 a sector. Before the first sector it is 0.
#[test]
fn record_9_by_peak() {
    for sectors in [16, 48, RUN_SECTORS - 16, RUN_SECTORS] {
        let limit = 38_688 * u64::from(sectors);
        for dsv in [0, 100, -100] {
            let with = |record: Record, peak: u64| {
                answers(Record {
                    dsv,
                    peak,
                    ..record
                })
            };
            let (free, size) = (answers(open(sectors)), dsv.unsigned_abs());
            for peak in [size, size + 1, limit] {
                assert_eq!(with(open(sectors), peak), free, "{sectors} {peak}");
            }
            for peak in [size.saturating_sub(32), size, limit] {
                assert_eq!(with(closed(sectors), peak), [ENDED; 3]);
            }
            for peak in [limit + 1, u64::MAX] {
                assert_eq!(with(open(sectors), peak), BAD, "{sectors} {peak}");
                assert_eq!(with(closed(sectors), peak), BAD, "{sectors} {peak}");
            }
            if dsv != 0 {
                assert_eq!(with(open(sectors), size - 1), BAD, "{sectors}");
                assert_eq!(with(closed(sectors), size - 33), BAD, "{sectors}");
            }
        }
    }
    let peak = 1;
    assert_eq!(answers(Record { peak, ..open(0) }), BAD);
}

#[test]
fn numbers_and_words() {
    let all = [
        Refusal::Length,
        Refusal::FirstNumber,
        Refusal::Information,
        Refusal::Ied { frame: 1 },
        Refusal::Id { frame: 2 },
        Refusal::Edc { frame: 3 },
        Refusal::RunEnded,
        Refusal::RunUnfinished,
        Refusal::Record,
        Refusal::Sequence,
        Refusal::Erasure,
        Refusal::NotTried,
        Refusal::OtherDsv,
        Refusal::Stretches,
    ];
    for (n, refusal) in (1..).zip(all) {
        assert_eq!(refusal.number(), n);
        assert!(refusal.to_string().starts_with(&format!("refused {n}")));
    }
    assert_eq!(
        Refusal::Edc { frame: 3 }.to_string(),
        "refused 6 frame 3: the frame's EDC differs"
    );
    assert_eq!(
        Refusal::RunEnded.to_string(),
        "refused 7: a sector after number 16,777,216 of the run, or anything after closing"
    );
    assert_eq!(
        Refusal::RunUnfinished.to_string(),
        "refused 8: closing at no sectors, or at a count that is no multiple of 16"
    );
    assert_eq!(
        Refusal::Sequence.to_string(),
        "refused 10: the first number is not the previous block's plus 16"
    );
    assert_eq!(
        Refusal::Erasure.to_string(),
        "refused 11: a mark is neither 0 nor 1"
    );
    assert_eq!(
        Refusal::Stretches.to_string(),
        "refused 14: the capture has more stretches than the list has entries"
    );
}
