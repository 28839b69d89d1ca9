//! Damages plan files: one byte, a cut, records moved, and aimed at each reply number from 4 to 11 and at 15.

use crate::draw::Draw;
use oracle::plan::RECORD;

/// Any value but the one that is there, mostly one close to it.
pub fn other_byte(draw: &mut Draw, was: u8) -> u8 {
    let choices = [was ^ 1, was.wrapping_add(1), was ^ 128, 0, 255, draw.byte()];
    let new = draw.pick(&choices);
    if new == was {
        was ^ 1
    } else {
        new
    }
}

/// Swaps, inserts, drops or doubles a record.
pub fn move_records(draw: &mut Draw, bytes: &mut Vec<u8>) {
    let mut records: Vec<Vec<u8>> = bytes.chunks(RECORD).map(<[u8]>::to_vec).collect();
    if records.is_empty() {
        return;
    }
    let (mut from, mut to) = (draw.below(records.len()), draw.below(records.len()));
    // Points moved are refused at once: leave them where they are half of the time.
    let points = records.iter().filter(|record| record[0] == 1).count();
    if points < records.len() && draw.one_in(2) {
        from = points + draw.below(records.len() - points);
        to = points + draw.below(records.len() - points);
    }
    match draw.below(6) {
        0 => records.swap(from, to),
        1 => {
            let next = (from + 1) % records.len();
            records.swap(from, next);
        }
        2 => {
            let record = records[from].clone();
            records.insert(to, record);
        }
        3 => {
            records.remove(from);
        }
        4 => {
            let record = records.remove(from);
            records.insert(to.min(records.len()), record);
        }
        _ => {
            let mut record = vec![0; RECORD];
            record[0] = draw.below(6) as u8;
            for byte in &mut record[1..] {
                if draw.one_in(4) {
                    let any = draw.byte();
                    *byte = draw.pick(&[1, 2, 3, 255, any]);
                }
            }
            records.insert(to, record);
        }
    }
    *bytes = records.concat();
}

/// Spoils one record in the way that one of the numbers 4 to 11, or 15, tells of; other numbers may come of it.
pub fn aim(draw: &mut Draw, bytes: &mut [u8]) {
    let count = bytes.len() / RECORD;
    if count == 0 {
        return;
    }
    let points = bytes.chunks(RECORD).filter(|r| r[0] == 1).count() as u8;
    let links: Vec<Vec<u8>> = bytes
        .chunks(RECORD)
        .filter(|r| r[0] == 2)
        .map(<[u8]>::to_vec)
        .collect();
    // A record of a kind that the way is about, where there is one.
    let way = draw.below(10);
    let kinds: &[u8] = match way {
        3 if !draw.one_in(3) => &[2, 3, 4],
        4 => &[2, 3, 4],
        5 if draw.one_in(2) => &[4],
        5 => &[2, 4],
        6 => &[2],
        7 | 8 => &[2, 3, 4],
        9 => &[3],
        _ => &[1, 2, 3, 4],
    };
    // The points of a record that an ordinary one may become the twin of, or of a link or a wait, which has none.
    let pair = pair_of(draw, bytes);
    let fitting: Vec<usize> = (0..count)
        .filter(|&k| kinds.contains(&bytes[k * RECORD]))
        .collect();
    let at = if fitting.is_empty() {
        draw.below(count)
    } else {
        draw.pick(&fitting)
    };
    let record = &mut bytes[at * RECORD..(at + 1) * RECORD];
    match way {
        0 => record[0] = draw.pick(&[0, 5, 6, 255, 128]),
        1 => record[0] = draw.between(1, 4) as u8,
        2 => {
            let fields: &[usize] = match record[0] {
                1 => &[2, 3, 4, 5, 6, 7, 8, 9, 10, 11],
                2 => &[3, 12, 13, 14, 15],
                _ => &[3, 8, 9, 10, 11, 12, 13, 14, 15],
            };
            record[draw.pick(fields)] = draw.pick(&[1, 128, 255]);
        }
        3 => {
            let missing = draw.pick(&[points, points.wrapping_add(1), 32, 255, 0]);
            record[1 + draw.below(2)] = missing;
        }
        4 => {
            record[1] = draw.pick(&[record[2], points, 255]);
            record[2] = record[1];
        }
        5 => {
            // Points of some link in places where they may not stand, or could not before document 02: a second end of one
            // point, and an A that ends a link or a C that starts one.
            let others: Vec<&Vec<u8>> = links.iter().filter(|link| link[2] != record[2]).collect();
            if record[0] == 2 && !others.is_empty() && draw.one_in(2) {
                let other = draw.pick(&others);
                let (to, from) = draw.pick(&[(1, 2), (2, 1), (2, 2), (2, 2)]);
                record[to] = other[from];
            } else if !links.is_empty() {
                let link = &links[draw.below(links.len())];
                record[1 + draw.below(2)] = link[1 + draw.below(2)];
            } else {
                record[2] = draw.below(usize::from(points.max(1))) as u8;
            }
        }
        6 => {
            let mut number = [0; 4];
            number.copy_from_slice(&record[4..8]);
            let x = i32::from_le_bytes(number);
            let new = draw.pick(&[
                x,
                x.wrapping_sub(1),
                x.wrapping_add(1),
                100_000,
                100_001,
                0,
                -1,
                i32::MIN,
                i32::MAX,
            ]);
            record[8..12].copy_from_slice(&new.to_le_bytes());
        }
        9 => {
            record[1..3].copy_from_slice(&pair);
            if draw.one_in(4) {
                record.swap(1, 2);
            }
        }
        _ => {
            let y = links
                .iter()
                .find(|link| link[2] == record[2])
                .map_or(0, |link| {
                    i32::from_le_bytes([link[8], link[9], link[10], link[11]])
                });
            let large = draw.pick(&[100_000, 100_001, -100_000, -100_001, i32::MIN, i32::MAX]);
            let new = draw.pick(&[large, 0, 1, -1, y, y.wrapping_add(1)]);
            record[4..8].copy_from_slice(&new.to_le_bytes());
        }
    }
}

/// Gives a link the C of an earlier one, which is all that 10 says of links; nothing where there are not two.
pub fn second_end(draw: &mut Draw, bytes: &mut [u8]) {
    let places = 0..bytes.len() / RECORD;
    let links: Vec<usize> = places.filter(|&k| bytes[k * RECORD] == 2).collect();
    if links.len() > 1 {
        let second = 1 + draw.below(links.len() - 1);
        let first = draw.below(second);
        bytes[links[second] * RECORD + 2] = bytes[links[first] * RECORD + 2];
    }
}

/// The two points of some record that names two, one of the ordinary ones most of the time.
fn pair_of(draw: &mut Draw, bytes: &[u8]) -> [u8; 2] {
    let kinds: &[u8] = if draw.one_in(4) { &[2, 4] } else { &[3] };
    let all = bytes
        .chunks(RECORD)
        .filter(|record| kinds.contains(&record[0]));
    let all: Vec<[u8; 2]> = all.map(|record| [record[1], record[2]]).collect();
    if all.is_empty() {
        [0, 1]
    } else {
        draw.pick(&all)
    }
}
