//! Columns before rows: the rearrangement by collecting columns, and the reading by the bytes of paths.

use super::read::{byte_at, Tree};

/// The rows of a text, each of the width; none if question 20 fails.
fn rows_of(text: &[u8], width: u32) -> Option<Vec<&[u8]>> {
    let width = usize::try_from(width).expect("a width");
    (width > 0 && text.len() % width == 0).then(|| text.chunks(width).collect())
}

/// Column after column.
pub fn columns_of(text: &[u8], width: u32) -> Option<Vec<u8>> {
    let rows = rows_of(text, width)?;
    let longest = if rows.is_empty() { 0 } else { width as usize };
    Some((0..longest).flat_map(|b| rows.iter().map(move |row| row[b])).collect())
}

/// Row after row: each takes its byte from every column.
pub fn rows_from(text: &[u8], width: u32) -> Option<Vec<u8>> {
    let rows = rows_of(text, width)?.len();
    let mut columns: Vec<_> = if rows == 0 { Vec::new() } else { text.chunks(rows).map(|column| column.iter()).collect() };
    Some((0..rows).flat_map(|_| columns.iter_mut().map(|column| *column.next().expect("as long as the first")).collect::<Vec<u8>>()).collect())
}

/// The refusal; the rearranged text goes to the output.
pub fn to_columns(text: &[u8], width: u32, out: &mut [u8]) -> u32 {
    written(columns_of(text, width), out)
}

pub fn from_columns(text: &[u8], width: u32, out: &mut [u8]) -> u32 {
    written(rows_from(text, width), out)
}

fn written(rearranged: Option<Vec<u8>>, out: &mut [u8]) -> u32 {
    match rearranged {
        None => 20,
        Some(bytes) if out.len() < bytes.len() => 21,
        Some(bytes) => {
            out[..bytes.len()].copy_from_slice(&bytes);
            0
        }
    }
}

/// The refusal and the bytes copied, which go to the buffer.
pub fn row(bytes: &[u8], width: u32, a: u32, buffer: &mut [u8]) -> (u32, u32) {
    match try_row(bytes, u64::from(width), u64::from(a), buffer.len() as u64) {
        Ok(row) => {
            buffer[..row.len()].copy_from_slice(&row);
            (0, width)
        }
        Err(number) => {
            if number == 14 {
                buffer[..width as usize].fill(0);
            }
            (number, 0)
        }
    }
}

/// Questions 5 to 7, 20, 10, 13 and 14.
fn try_row(bytes: &[u8], width: u64, a: u64, room: u64) -> Result<Vec<u8>, u32> {
    let tree = Tree::open(bytes)?;
    if width == 0 || tree.n % width != 0 {
        return Err(20);
    }
    let rows = tree.n / width;
    if a >= rows {
        return Err(10);
    }
    if room < width {
        return Err(13);
    }
    (0..tree.n).skip(a as usize).step_by(rows as usize).map(|place| byte_at(&tree, place).map(|(byte, _)| byte).ok_or(14)).collect()
}
