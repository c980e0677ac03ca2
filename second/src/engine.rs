// The engine under test, by its C entry.

mod raw {
    extern "C" {
        pub fn doughpillar_answer(book: *const u8, book_length: usize, room: *mut u8, room_length: usize) -> u32;
    }
}

/// The engine's number for a book; on acceptance the room holds its answers.
pub fn answer(book: &[u8], room: &mut [u8]) -> u32 {
    // The entry reads the book and writes the room within these lengths, and the two slices cannot overlap.
    unsafe { raw::doughpillar_answer(book.as_ptr(), book.len(), room.as_mut_ptr(), room.len()) }
}
