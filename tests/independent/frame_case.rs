//! Cases for frames: how they are sent to driver.c, and what should come back.

use crate::answer::{hex, Answer};
use crate::bits;
use crate::case::{pattern, put_bytes, put_numbers};
use crate::frame::{self, Look, Stream, Write};
use crate::frame_totals::FrameTotals;
use crate::line::END;

/// A stream is walked from the place, and then looked at with other counts and places.
pub struct Reading {
    pub bytes: Vec<u8>,
    /// the number of bytes that is passed
    pub length: u64,
    pub count: u64,
    pub place: u64,
    /// the sizes of the buffers that the field is copied to
    pub rooms: Vec<u64>,
    /// counts and places beside the walk
    pub looks: Vec<(u64, u64)>,
    /// what was done to the stream, for the totals
    pub made: Vec<&'static str>,
}

/// Frames are written into a stream one after the other; then it is walked from the place.
pub struct Writing {
    pub bytes: Vec<u8>,
    /// the number of bytes that is passed
    pub length: u64,
    pub count: u64,
    pub place: u64,
    pub rooms: Vec<u64>,
    pub writes: Vec<Write>,
}

/// No field needs a larger buffer. Of a greater size only so many bytes are there.
pub const MOST_ROOM: u64 = 256;

fn put_stream(message: &mut Vec<u8>, bytes: &[u8], numbers: [u64; 3], rooms: &[u64]) {
    put_bytes(message, bytes);
    for number in numbers {
        message.extend_from_slice(&number.to_be_bytes());
    }
    put_numbers(message, rooms);
}

impl Reading {
    pub fn put(&self, message: &mut Vec<u8>) {
        put_stream(message, &self.bytes, [self.length, self.count, self.place], &self.rooms);
        let looks: Vec<u64> = self.looks.iter().flat_map(|&(count, place)| [count, place]).collect();
        put_numbers(message, &looks);
    }

    pub fn expect(&self, answer: &mut Answer, totals: &mut FrameTotals) {
        let all = bits::of_bytes(&self.bytes);
        let stream = Stream { all: &all, length: self.length, count: self.count };
        totals.stream(&stream, &self.made);
        expect_walk(answer, totals, &stream, self.place, &self.rooms);
        for &(count, place) in &self.looks {
            let other = Stream { count, ..stream };
            let look = frame::look(&other, place);
            totals.look(&other, place, &look, false);
            expect_look(answer, totals, place, &look, &self.rooms);
        }
    }

    pub fn near(&self, place: u64) -> String {
        let all = bits::of_bytes(&self.bytes);
        let from = all.len().min(place as usize);
        let to = all.len().min(from + 100);
        format!("\nbits from place {}: {}", from, &all[from..to])
    }

    pub fn shown(&self) -> String {
        let stream = shown_stream(&self.bytes, [self.length, self.count, self.place], &self.rooms);
        format!("stream, {}; counts and places {:?}", stream, self.looks)
    }
}

impl Writing {
    pub fn put(&self, message: &mut Vec<u8>) {
        put_stream(message, &self.bytes, [self.length, self.count, self.place], &self.rooms);
        message.extend_from_slice(&(self.writes.len() as u32).to_be_bytes());
        for write in &self.writes {
            message.extend_from_slice(&write.count.to_be_bytes());
            message.extend_from_slice(&write.place.to_be_bytes());
            message.extend_from_slice(&write.from_sensor.to_be_bytes());
            message.push(write.control);
            put_bytes(message, &write.field);
            message.extend_from_slice(&write.field_length.to_be_bytes());
            message.extend_from_slice(&write.field_count.to_be_bytes());
        }
    }

    pub fn expect(&self, answer: &mut Answer, totals: &mut FrameTotals) {
        let mut now = self.bytes.clone();
        let mut flag = None;
        let mut written = Vec::new();
        for write in &self.writes {
            let (refusal, place) = frame::write(&mut now, self.length, write);
            totals.write(self.length, write, (refusal, place), flag == Some(write.place));
            if refusal == 0 {
                flag = Some(place);
                written.push(write.place);
            }
            answer.u32("siamrung_frame_write_refusal before", write.place, refusal);
            answer.u64("siamrung_frame_write", write.place, 0, place);
            answer.u32("siamrung_frame_write_refusal after", write.place, refusal);
            answer.all("bytes after siamrung_frame_write", &now);
        }
        let all = bits::of_bytes(&now);
        let stream = Stream { all: &all, length: self.length, count: self.count };
        let read = expect_walk(answer, totals, &stream, self.place, &self.rooms);
        read.iter().filter(|place| written.contains(place)).for_each(|_| totals.read_back());
    }

    pub fn shown(&self) -> String {
        let one = |write: &Write| {
            let field = format!("{} passed as {} bytes, {} bits", hex(&write.field), write.field_length, write.field_count);
            let frame = format!("from_sensor {} control {:02X} field {}", write.from_sensor, write.control, field);
            format!("; count {} place {} {}", write.count, write.place, frame)
        };
        let all: String = self.writes.iter().map(one).collect();
        format!("writing frames into {}{}", shown_stream(&self.bytes, [self.length, self.count, self.place], &self.rooms), all)
    }
}

fn shown_stream(bytes: &[u8], [length, count, place]: [u64; 3], rooms: &[u64]) -> String {
    let passed = format!("{} bytes {} passed as {}", bytes.len(), hex(bytes), length);
    format!("{}, {} bits, walked from {}, field buffers of {:?}", passed, count, place, rooms)
}

/// The walk from a place, stopped at the end or where a place gives itself back. Answers the places that gave a frame.
fn expect_walk(answer: &mut Answer, totals: &mut FrameTotals, stream: &Stream, from: u64, rooms: &[u64]) -> Vec<u64> {
    let mut frames = Vec::new();
    let mut place = from;
    loop {
        let look = frame::look(stream, place);
        totals.look(stream, place, &look, place != from);
        expect_look(answer, totals, place, &look, rooms);
        if look.frame.is_some() {
            frames.push(place);
        }
        if look.kind == END || look.place == place {
            return frames;
        }
        place = look.place;
    }
}

fn expect_look(answer: &mut Answer, totals: &mut FrameTotals, place: u64, look: &Look, rooms: &[u64]) {
    let frame = look.frame.as_ref();
    answer.u32("siamrung_frame_kind", place, look.kind);
    answer.u32("siamrung_frame_refusal", place, look.refusal);
    answer.u64("siamrung_frame_place", place, 0, look.place);
    answer.u32("siamrung_frame_from_sensor", place, frame.map_or(0, |frame| u32::from(frame.from_sensor)));
    answer.u32("siamrung_frame_control", place, frame.map_or(0, |frame| u32::from(frame.control)));
    answer.u64("siamrung_frame_field_count", place, 0, frame.map_or(0, |frame| frame.field.len() as u64));
    let field = frame.map_or(Vec::new(), |frame| bits::to_bytes(&frame.field));
    for &room in rooms {
        let mut buffer = pattern(room.min(MOST_ROOM));
        let fits = field.len() as u64 <= room;
        if fits {
            buffer[..field.len()].copy_from_slice(&field);
        }
        totals.room(look, field.len() as u64, room);
        answer.u64("siamrung_frame_field", place, room, if fits { field.len() as u64 } else { 0 });
        answer.all("bytes after siamrung_frame_field", &buffer);
    }
}
