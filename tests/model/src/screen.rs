//! One partition's screen: 25 rows of 80 cells and a cursor (01, Devices).

use crate::store::Part;

pub const ROWS: usize = 25;
pub const COLUMNS: usize = 80;
pub const CELLS: usize = ROWS * COLUMNS;
pub const BLANK: u8 = b' ';

/// Where a partition's screen stands in the screen area.
pub fn part(partition: usize) -> Part {
    Part {
        place: CELLS * partition,
        length: CELLS,
    }
}

/// Writes bytes one behind the other, as next-write does, and hands back the new cursor.
pub fn put_all(cells: &mut [u8], cursor: usize, bytes: &[u8]) -> usize {
    bytes
        .iter()
        .fold(cursor, |cursor, byte| put(cells, cursor, *byte))
}

/// Writes one byte at the cursor and hands back where the cursor goes.
fn put(cells: &mut [u8], cursor: usize, byte: u8) -> usize {
    let (row, column) = (cursor / COLUMNS, cursor % COLUMNS);
    match byte {
        10 => next_row(cells, row),
        13 => row * COLUMNS,
        8 if column > 0 => cursor - 1,
        8 => cursor,
        _ => {
            cells[cursor] = byte;
            if column + 1 < COLUMNS {
                cursor + 1
            } else {
                next_row(cells, row)
            }
        }
    }
}

/// Column 0 of the row below. Below the last row there is room only after scrolling.
fn next_row(cells: &mut [u8], row: usize) -> usize {
    if row + 1 < ROWS {
        return (row + 1) * COLUMNS;
    }
    cells.copy_within(COLUMNS.., 0);
    let last_row = (ROWS - 1) * COLUMNS;
    cells[last_row..].fill(BLANK);
    last_row
}

#[cfg(test)]
mod tests {
    use super::*;

    #[test]
    fn control_bytes_move_the_cursor_and_leave_the_cells() {
        let mut cells = [BLANK; CELLS];
        assert_eq!(put_all(&mut cells, 0, b"ab\x08"), 1);
        assert_eq!(&cells[..3], b"ab ");
        assert_eq!(put_all(&mut cells, 1, b"\x08\x08"), 0);
        assert_eq!(put_all(&mut cells, 85, b"\r"), 80);
        assert_eq!(put_all(&mut cells, 85, b"\n"), 160);
        assert_eq!(put_all(&mut cells, 160, b"\x08"), 160);
        assert_eq!(put_all(&mut cells, 5, &[0, 127, 255]), 8);
        assert_eq!(&cells[5..8], &[0, 127, 255]);
    }

    #[test]
    fn the_last_column_leads_to_the_next_row_at_once() {
        let mut cells = [BLANK; CELLS];
        assert_eq!(put_all(&mut cells, 79, b"x"), 80);
        cells[80] = b'y';
        assert_eq!(put_all(&mut cells, 1999, b"z"), 1920);
        assert_eq!(cells[0], b'y');
        assert_eq!(cells[1919], b'z');
        assert!(cells[1920..].iter().all(|cell| *cell == BLANK));
    }

    #[test]
    fn a_line_feed_on_the_last_row_scrolls() {
        let mut cells = [BLANK; CELLS];
        cells[1920] = b'q';
        assert_eq!(put_all(&mut cells, 1925, b"\n"), 1920);
        assert_eq!(cells[1840], b'q');
        assert_eq!(cells[1920], BLANK);
    }
}
