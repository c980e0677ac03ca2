// Reads the table of contents and, once that is known to be right, the records of the six tables.

use crate::tables::Tables;

/// The bytes of the table of contents: six entries of 8.
pub const CONTENTS: usize = 48;

/// The bytes of one record, table by table.
pub const SIZES: [usize; 6] = [2, 3, 6, 3, 10, 7];

/// One entry of the table of contents.
#[derive(Clone, Copy)]
pub struct Entry {
    pub offset: usize,
    pub count: usize,
}

/// The six entries of a book that has at least 48 bytes.
pub fn contents(book: &[u8]) -> [Entry; 6] {
    std::array::from_fn(|table| Entry {
        offset: read_u32(&book[8 * table..]) as usize,
        count: read_u32(&book[8 * table + 4..]) as usize,
    })
}

/// The records of a book whose offsets, counts and length are right.
pub fn tables(book: &[u8]) -> Tables {
    let contents = contents(book);
    let records = |table: usize| {
        let Entry { offset, count } = contents[table];
        book[offset..offset + count * SIZES[table]].chunks_exact(SIZES[table])
    };
    Tables {
        predicates: records(0).map(|r| (r[0], r[1])).collect(),
        atoms: records(1).map(|r| (read_u16(r), r[2])).collect(),
        rules: records(2).map(|r| (read_u16(r), read_u16(&r[2..]), read_u16(&r[4..]))).collect(),
        hypotheses: records(3).map(|r| (r[0], read_u16(&r[1..]))).collect(),
        comparisons: records(4)
            .map(|r| (r[0], r[1], read_i32(&r[2..]), read_u16(&r[6..]), read_u16(&r[8..])))
            .collect(),
        elements: records(5).map(|r| (r[0], read_u16(&r[1..]), read_i32(&r[3..]))).collect(),
    }
}

fn read_u16(bytes: &[u8]) -> u16 {
    u16::from_le_bytes([bytes[0], bytes[1]])
}

fn read_u32(bytes: &[u8]) -> u32 {
    u32::from_le_bytes([bytes[0], bytes[1], bytes[2], bytes[3]])
}

fn read_i32(bytes: &[u8]) -> i32 {
    i32::from_le_bytes([bytes[0], bytes[1], bytes[2], bytes[3]])
}
