//! What is formatted is read back, as it is and scratched within the limits that demand 3 and the theorems of marks, of pooling and of captures state.
mod common;

use chamanzil::{
    encode_block, format_block, pool, read_block, read_capture, repair_block, slices,
    zero_runs_hold, Refusal, Stretch, Tally,
};
use chamanzil::{BLOCK, FRAME, FRAME_STREAM, MAIN, ROW, ROW_DATA};
use common::{buffer, by_sectors, from_bit, in_order, main_data, stream_of};
use common::{Block, Numbers, FRAME_BITS};

/// Bytes of a row in a stream: two Sync Frames.
const ROW_STREAM: usize = 372;

#[test]
fn as_it_is() {
    for (seed, first, info) in [
        (1, 0, 0x00),
        (2, 0x03_0000, 0x2D),
        (3, 16_777_200, 0x01),
        (4, 16, 0x2C),
    ] {
        let main = main_data(seed);
        let block = encode_block(&main, None, first, info).unwrap();
        let stream = format_block(&main, first, info).unwrap();
        assert_eq!(stream, stream_of(&block));
        assert!(zero_runs_hold(&stream[..]));
        assert_eq!(by_sectors(&stream), (block.clone(), buffer(0), 0));
        let read = read_block(&stream).unwrap();
        assert_eq!((&read.main, &read.erasures), (&main, &buffer(0)));
        assert_eq!(
            read.to_string(),
            format!("block {first:06X} rows 0 0 columns 0 0 unknown 0 sync 0")
        );
        let repaired = repair_block(&mut block.clone(), &buffer::<BLOCK>(0)).unwrap();
        assert_eq!((repaired.main, repaired.first), (main, first));
        assert_eq!(
            (repaired.rows, repaired.columns),
            (Tally::default(), Tally::default())
        );
    }
}

/// Eight rows of 372 bytes overwritten, and in each of the others one bit flipped, which touches three bytes at most.
#[test]
fn scratched() {
    let mut numbers = Numbers::new(5);
    for round in 0..12 {
        let main = main_data(round);
        let first = u32::try_from(16 * numbers.below(1 << 20)).unwrap();
        let mut stream = format_block(&main, first, 0).unwrap();
        let heavy: Vec<usize> = (0..8).map(|_| numbers.below(208)).collect();
        for row in 0..208 {
            let part = &mut stream[372 * row..372 * (row + 1)];
            if heavy.contains(&row) {
                part.copy_from_slice(&numbers.bytes(372));
            } else {
                part[numbers.below(372)] ^= 1 << numbers.below(8);
            }
        }
        let read = read_block(&stream).unwrap();
        assert_eq!((read.main, read.first), (main, first));
    }
}

/// The first ten words of each row blanked, which come back from the row repair by their marks. ZEROs are no word, and before them stands a SYNC Code, so that no
/// other byte is touched.
#[test]
fn ten_unknown_words_in_each_row() {
    let main = main_data(21);
    let block = encode_block(&main, None, 0x03_0000, 0).unwrap();
    let mut stream = format_block(&main, 0x03_0000, 0).unwrap();
    for row in stream.chunks_exact_mut(ROW_STREAM) {
        row[4..24].fill(0);
    }
    let (mut read, erasures, unknown) = by_sectors(&stream);
    let is_due = |(i, mark): (usize, &u8)| *mark == u8::from(i % ROW < 10);
    assert!(erasures.iter().enumerate().all(is_due));
    assert_eq!(unknown, 2_080);

    let repaired = repair_block(&mut read, &erasures).unwrap();
    let rows = Tally {
        changed: 208,
        past_help: 0,
    };
    assert_eq!((repaired.rows, repaired.columns), (rows, Tally::default()));
    assert!(repaired.main == main && read == block);
    let read = read_block(&stream).unwrap();
    assert_eq!((read.main, read.erasures), (main, erasures));
    assert_eq!((read.rows, read.unknown), (rows, 2_080));

    // without marks it is too much
    let (mut read, _, _) = by_sectors(&stream);
    assert!(repair_block(&mut read, &buffer::<BLOCK>(0)).is_err());
}

/// Wrong bytes at so many places of a row, each another; the first f of the places are marked, and half of the marked bytes stay right.
fn spoil(numbers: &mut Numbers, row: &mut [u8], erasures: &mut [u8], f: usize, e: usize) {
    let mut places: Vec<usize> = (0..ROW).collect();
    for k in 0..f + e {
        let other = k + numbers.below(ROW - k);
        places.swap(k, other);
        if k >= f || numbers.below(2) == 0 {
            row[places[k]] ^= 1 + numbers.byte() % 255;
        }
        erasures[places[k]] = u8::from(k < f);
    }
}

/// 2e + f at most 10 in all rows but eight, which are any bytes with any marks: the other rows come back, and the block is read.
#[test]
fn marks_and_wrong_bytes() {
    let mut numbers = Numbers::new(22);
    for round in 0..12 {
        let main = main_data(round);
        let block = encode_block(&main, None, 16 * 7, 0).unwrap();
        let (mut read, mut erasures) = (block.clone(), buffer::<BLOCK>(0));
        let heavy: Vec<usize> = (0..8).map(|_| numbers.below(208)).collect();
        let rows = read
            .chunks_exact_mut(ROW)
            .zip(erasures.chunks_exact_mut(ROW));
        for (i, (row, marks)) in rows.enumerate() {
            if heavy.contains(&i) {
                row.copy_from_slice(&numbers.bytes(ROW));
                marks.fill_with(|| u8::from(numbers.below(12) == 0));
            } else {
                let f = numbers.below(11);
                let e = (10 - f) / 2;
                spoil(&mut numbers, row, marks, f, e);
            }
        }
        let repaired = repair_block(&mut read, &erasures).unwrap();
        assert!(repaired.main == main && repaired.rows.past_help <= 8);
        let is_lost = |i: usize| heavy.contains(&(i / ROW)) && i % ROW >= ROW_DATA;
        assert!((0..BLOCK).all(|i| read[i] == block[i] || is_lost(i)));
    }
}

/// Past the theorem marks can do harm: nine rows with one wrong byte each, all in one column, and eleven marks on bytes that are right. EDC judges both ways.
#[test]
fn refused_with_marks_and_read_without() {
    let main = main_data(23);
    let block = encode_block(&main, None, 0, 0).unwrap();
    let (mut read, mut erasures) = (block.clone(), buffer::<BLOCK>(0));
    for row in 13..22 {
        read[row * ROW + 50] ^= 1;
        erasures[row * ROW + 100..][..11].fill(1);
    }
    let refused = repair_block(&mut read.clone(), &erasures);
    assert_eq!(refused, Err(Refusal::Edc { frame: 1 }));
    let repaired = repair_block(&mut read, &buffer(0)).unwrap();
    assert_eq!((repaired.rows.changed, repaired.rows.past_help), (9, 0));
    assert!(repaired.main == main && read == block);
}

/// A row of two readings within the theorem of pooling: ten unmarked bytes are wrong in one of the two, sixty marked ones too, and no place is so in both.
fn spoil_either(numbers: &mut Numbers, row: usize, bytes: &mut [Block; 2], marks: &mut [Block; 2]) {
    let mut places: Vec<usize> = (ROW * row..ROW * (row + 1)).collect();
    for k in 0..70 {
        let other = k + numbers.below(ROW - k);
        places.swap(k, other);
        let which = numbers.below(2);
        bytes[which][places[k]] ^= 1 + numbers.byte() % 255;
        marks[which][places[k]] = u8::from(k >= 10);
    }
}

/// Two readings of which all rows but these eight are within the theorem of pooling.
fn two_readings(numbers: &mut Numbers, block: &Block, heavy: &[usize]) -> ([Block; 2], [Block; 2]) {
    let mut bytes = [block.clone(), block.clone()];
    let mut marks = [buffer(0), buffer(0)];
    for row in 0..208 {
        spoil_either(numbers, row, &mut bytes, &mut marks);
        if heavy.contains(&row) {
            bytes[0][ROW * row..][..ROW].copy_from_slice(&numbers.bytes(ROW));
            marks[0][ROW * row..][..ROW].fill(0);
        }
    }
    (bytes, marks)
}

/// Neither of two readings is read alone, and pooled they are; it makes no difference which is the first.
#[test]
fn two_readings_pooled() {
    let mut numbers = Numbers::new(24);
    for round in 0..6 {
        let main = main_data(round);
        let block = encode_block(&main, None, 16 * 7, 0).unwrap();
        let heavy: Vec<usize> = (0..8).map(|_| numbers.below(208)).collect();
        let ([first, second], [marks, second_marks]) = two_readings(&mut numbers, &block, &heavy);
        assert!(repair_block(&mut first.clone(), &marks).is_err());
        assert!(repair_block(&mut second.clone(), &second_marks).is_err());

        let (mut read, mut erasures) = (first.clone(), marks.clone());
        pool(&mut read, &mut erasures, &second, &second_marks).unwrap();
        let (mut other, mut other_erasures) = (second, second_marks);
        pool(&mut other, &mut other_erasures, &first, &marks).unwrap();
        assert!(read == other && erasures == other_erasures);

        let repaired = repair_block(&mut read, &erasures).unwrap();
        assert!(repaired.main == main && repaired.rows.past_help <= 8);
        let is_heavy = |i: usize| heavy.contains(&(i / ROW));
        assert!((0..BLOCK).all(|i| read[i] == block[i] || is_heavy(i) && i % ROW >= ROW_DATA));
        let marked = (0..BLOCK).filter(|i| !is_heavy(*i) && erasures[*i] == 1);
        let light = (0..208).filter(|row| !heavy.contains(row)).count();
        assert_eq!(marked.count(), 10 * light);
    }
}

/// A reading pooled with itself is that reading, with byte 0 where it is marked.
#[test]
fn a_reading_pooled_with_itself() {
    let mut numbers = Numbers::new(25);
    let bytes: Block = numbers.bytes(BLOCK).into_boxed_slice().try_into().unwrap();
    let mut marks = buffer::<BLOCK>(0);
    marks.fill_with(|| u8::from(numbers.below(12) == 0));
    let (mut pooled, mut erasures) = (bytes.clone(), marks.clone());
    pool(&mut pooled, &mut erasures, &bytes, &marks).unwrap();
    assert!(erasures == marks);
    assert!((0..BLOCK).all(|i| pooled[i] == bytes[i] * (1 - marks[i])));
}

/// Past the theorem pooling can do harm: nine rows of zeros beside a clean reading have more than ten marks.
#[test]
fn a_clean_reading_pooled_with_a_bad_one() {
    let main = main_data(26);
    let block = encode_block(&main, None, 0, 0).unwrap();
    let (mut read, mut erasures) = (block.clone(), buffer::<BLOCK>(0));
    let mut bad = block.clone();
    bad[ROW * 14..ROW * 23].fill(0);
    assert!(repair_block(&mut block.clone(), &erasures).unwrap().main == main);
    pool(&mut read, &mut erasures, &bad, &buffer(0)).unwrap();
    assert_eq!(
        repair_block(&mut read, &erasures),
        Err(Refusal::Edc { frame: 1 })
    );
}

/// A refusal of the whole-block reader leaves the sectors' marks too.
#[test]
fn too_much() {
    let mut stream = format_block(&main_data(8), 0, 0).unwrap();
    stream[..372 * 20].copy_from_slice(&Numbers::new(9).bytes(372 * 20));
    let refusal = read_block(&stream).unwrap_err();
    assert!(matches!(
        refusal,
        Refusal::Ied { .. } | Refusal::Id { .. } | Refusal::Edc { .. }
    ));
    assert!(refusal.frame().unwrap() < 16);

    let (mut block, mut erasures, mut main) = (vec![0; BLOCK], vec![9; BLOCK], vec![0; MAIN]);
    let answer = slices::read_block(
        &stream[..],
        &mut block,
        &mut erasures,
        &mut main,
        &mut [0; 8],
    );
    assert_eq!(answer, Err(refusal));
    let (_, marks, unknown) = by_sectors(&stream);
    assert!(erasures == marks[..] && unknown > 0);
}

/// A stretch of so many bits.
fn stretch(start: usize, bits: usize) -> Stretch {
    let [start, bits] = [start, bits].map(|number| u64::try_from(number).unwrap());
    Stretch { start, bits }
}

/// The front cut off at each bit of three frames: every frame from the first SYNC Code left on comes back, and two stretches are told, the cut frame and the code
/// that begins no frame, with the ZEROs after it.
#[test]
fn captured_from_each_bit() {
    let main = main_data(28);
    let block = encode_block(&main, None, 0x03_0000, 0).unwrap();
    let stream = format_block(&main, 0x03_0000, 0).unwrap();
    let part = &stream[..10 * FRAME_STREAM + 4];
    for front in 0..3 * FRAME_BITS {
        let capture = from_bit(part, front);
        let captured = read_capture(&capture).unwrap();
        let first = front.div_ceil(FRAME_BITS);
        let (cut, code) = (FRAME_BITS * first - front, 10 * FRAME_BITS - front);
        let due = [stretch(0, cut), stretch(code, 8 * capture.len() - code)];
        assert!(
            captured.bytes == block[FRAME * first..10 * FRAME],
            "{front}"
        );
        let from = usize::from(cut == 0);
        assert_eq!(in_order(captured.stretches), due[from..], "{front}");
    }
}

/// The bits between two SYNC Codes replaced by ZEROs, more or fewer than they were: that frame alone is lost.
#[test]
fn captured_with_a_frame_replaced() {
    let mut numbers = Numbers::new(29);
    let main = main_data(29);
    let block = encode_block(&main, None, 0x03_0000, 0).unwrap();
    let stream = format_block(&main, 0x03_0000, 0).unwrap();
    let mut counts: Vec<usize> = (0..40).map(|_| numbers.below(400)).collect();
    counts.extend([0, 1, 181, 183, 368]);
    for count in counts.into_iter().filter(|count| *count != 182) {
        let frame = numbers.below(415);
        let (place, next) = (FRAME_STREAM * frame, FRAME_STREAM * (frame + 1));
        let zeros = vec![0; count];
        let slipped = [&stream[..place + 4], &zeros, &stream[next..]].concat();
        let captured = read_capture(&slipped).unwrap();
        let left = [&block[..FRAME * frame], &block[FRAME * (frame + 1)..]].concat();
        assert!(captured.bytes == left, "frame {frame}, {count} bytes");
        let closing = stretch(8 * (slipped.len() - 4), 32);
        let due = [stretch(8 * place, 32 + 8 * count), closing];
        assert_eq!(in_order(captured.stretches), due);
    }
}
