//! Answers a book from Rust, by the installed archive: answer BOOK. Prints what the listing program prints.

extern "C" {
    fn doughpillar_answer(book: *const u8, book_length: usize, room: *mut u8, room_length: usize) -> u32;
    fn doughpillar_atoms(book: *const u8, book_length: usize) -> u32;
}

fn main() -> std::io::Result<()> {
    let book = std::fs::read(std::env::args_os().nth(1).expect("usage: answer BOOK"))?;
    let mut room = [0; 2048]; // long enough for every book
    // Any bytes are a book and any memory is a room; the two are separate.
    let packed = unsafe { doughpillar_answer(book.as_ptr(), book.len(), room.as_mut_ptr(), room.len()) };
    if packed != 0 {
        println!("refused {} {} {}", packed / 10_000_000, packed / 1_000_000 % 10, packed % 1_000_000);
        return Ok(());
    }
    let atoms = unsafe { doughpillar_atoms(book.as_ptr(), book.len()) };
    println!("answers {}", atoms);
    for (atom, &code) in room[..atoms as usize].iter().enumerate() {
        println!("{} {}", atom, ["undefined", "true", "false"][code as usize]);
    }
    Ok(())
}
