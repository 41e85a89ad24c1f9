//! The conversion of captures in plain Rust: one scan looks at the levels and counts the records, another writes them.

use mirvacula::{NotConverted, FRAME_BYTES, TICK_BYTES};

type Frame = [u8; FRAME_BYTES];
type Record = [u8; TICK_BYTES];

pub fn convert(capture: &[u8], out: &mut [u8]) -> Result<usize, NotConverted> {
    let (frames, rest) = capture.as_chunks();
    if !rest.is_empty() {
        return Err(NotConverted::Ragged);
    }
    let records = count_records(frames)?;
    let (places, _) = out.as_chunks_mut();
    if places.len() < records {
        return Err(NotConverted::NoRoom);
    }
    write_records(frames, places);
    Ok(TICK_BYTES * records)
}

fn count_records(frames: &[Frame]) -> Result<usize, NotConverted> {
    let (mut records, mut repeat, mut last) = (0, 0, None);
    for (i, frame) in frames.iter().enumerate() {
        // Inputs 54 and 55, gates 12 to 15.
        if frame[0] >= 0x40 || frame[7] >= 0x10 {
            return Err(NotConverted::Level { frame: i as u64 });
        }
        if last == Some(frame) && repeat < u16::MAX {
            repeat += 1;
        } else {
            (records, repeat, last) = (records + 1, 1, Some(frame));
        }
    }
    Ok(records)
}

fn write_records(frames: &[Frame], places: &mut [Record]) {
    let stretches = frames.chunk_by(|frame, next| frame == next);
    let parts = stretches.flat_map(|stretch| stretch.chunks(u16::MAX.into()));
    for (place, part) in places.iter_mut().zip(parts) {
        place[..3].copy_from_slice(&[0x01, 0x00, 0x0B]);
        place[3..5].copy_from_slice(&(part.len() as u16).to_be_bytes());
        place[5..].copy_from_slice(&part[0]);
    }
}
