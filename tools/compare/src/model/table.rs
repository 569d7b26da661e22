//! Tables of words: what a reading leaves in one, and whether one is sound.
use super::{Ended, Kind, Reading, Row};

/// The words of the header, and of a row.
pub const HEADER_WORDS: usize = 8;
pub const ROW_WORDS: usize = 9;

/// The words of a table with so many rows; also the place of the row with this handle.
pub fn words_for(rows: usize) -> usize {
    HEADER_WORDS + ROW_WORDS * rows
}

/// The header of a table with so many rows.
pub fn header(count: u32, version: u32, page_len: usize) -> [u32; HEADER_WORDS] {
    let [first, width] = [HEADER_WORDS as u32, ROW_WORDS as u32];
    [count, version, page_len as u32, first, width, 0, 0, 0]
}

/// The words that a reading leaves in a table.
pub fn words_of(page_len: usize, reading: &Reading) -> Vec<u32> {
    let count = reading.rows.len() as u32;
    let mut words = header(count, reading.version, page_len).to_vec();
    for row in &reading.rows {
        let kind = match row.kind {
            Kind::Tag => 1,
            Kind::Text => 2,
            Kind::Comment => 3,
        };
        let parent = row.parent.map_or(0, |handle| handle + 1);
        let places = [row.start, row.end, row.name.0, row.name.1, row.opened];
        words.push(kind);
        words.extend(places.map(|place| place as u32));
        words.extend([parent as u32, row.last as u32, row.ended as u32]);
    }
    words
}

/// What a table says, if it is sound for a page of this length.
pub fn reading_of(page_len: usize, table: &[u32]) -> Option<Reading> {
    if table.len() < HEADER_WORDS {
        return None;
    }
    let count = table[0] as usize;
    let version = table[1];
    let header = header(table[0], version, page_len);
    let fits = count <= (table.len() - HEADER_WORDS) / ROW_WORDS;
    if table[..HEADER_WORDS] != header || ![0, 5].contains(&version) || !fits {
        return None;
    }
    let words = table[HEADER_WORDS..].chunks_exact(ROW_WORDS).take(count);
    let rows: Vec<Row> = words.map(row_of).collect::<Option<_>>()?;
    let sound = (0..count).all(|handle| row_is_sound(page_len, &rows, handle));
    sound.then_some(Reading { version, rows })
}

/// A row, if its kind is one and its word 8 is at most 3.
fn row_of(words: &[u32]) -> Option<Row> {
    let kind = match words[0] {
        1 => Kind::Tag,
        2 => Kind::Text,
        3 => Kind::Comment,
        _ => return None,
    };
    let ended = match words[8] {
        0 => Ended::Open,
        1 => Ended::Closed,
        2 => Ended::CutShort,
        3 => Ended::NeverOpened,
        _ => return None,
    };
    Some(Row {
        kind,
        start: words[1] as usize,
        end: words[2] as usize,
        name: (words[3] as usize, words[4] as usize),
        opened: words[5] as usize,
        parent: (words[6] as usize).checked_sub(1),
        last: words[7] as usize,
        ended,
    })
}

fn row_is_sound(page_len: usize, rows: &[Row], handle: usize) -> bool {
    let row = &rows[handle];
    let places = row.start <= row.end && row.end <= page_len;
    let (name_start, name_end) = row.name;
    let shape = if row.is_tag() {
        row.start < name_start
            && name_start <= name_end
            && name_end < row.opened
            && row.opened <= row.end
    } else {
        (name_start, name_end, row.opened) == (0, 0, 0) && row.last == handle
    };
    let last = handle <= row.last && row.last < rows.len();
    let reaching = (0..handle).rev().find(|&lower| rows[lower].last >= handle);
    let inside = reaching.is_none_or(|parent| row.last <= rows[parent].last);
    places && shape && last && row.parent == reaching && inside && ended_is_sound(row, handle)
}

/// Texts and comments have 0. For tags 1 and 2 need an end above word 5, 0 and 3 an end equal to it, and 3 has no descendants.
fn ended_is_sound(row: &Row, handle: usize) -> bool {
    match row.ended {
        Ended::Open => !row.is_tag() || row.end == row.opened,
        Ended::Closed | Ended::CutShort => row.is_tag() && row.end > row.opened,
        Ended::NeverOpened => row.is_tag() && row.end == row.opened && row.last == handle,
    }
}
