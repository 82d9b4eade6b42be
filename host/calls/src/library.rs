//! The calls of libbook.a, as include/book.h declares them. host/bench uses this file, too.

use second::calls::Call;

macro_rules! exported {
    ($($name:ident on $book:ty),*) => {
        extern "C" {
            $(fn $name(
                book: $book,
                book_len: usize,
                input: *const u8,
                input_len: usize,
                answer: *mut u8,
                answer_len: usize,
            ) -> i32;)*
        }
    };
}

exported!(
    book_order on *mut u8,
    book_result on *mut u8,
    book_feed on *mut u8,
    book_lookup on *const u8
);

/// A call on a book, an input and an answer area.
pub type Run = fn(&mut [u8], &[u8], &mut [u8]) -> i32;

macro_rules! on_slices {
    ($name:ident) => {
        |book, input, answer| {
            let (a, b, c) = (book.len(), input.len(), answer.len());
            // SAFETY: the pointers and lengths are those of slices that are borrowed until the call returns.
            unsafe { $name(book.as_mut_ptr(), a, input.as_ptr(), b, answer.as_mut_ptr(), c) }
        }
    };
}

/// The calls that the library has.
pub const CALLS: &[(Call, Run)] = &[
    (Call::Lookup, on_slices!(book_lookup)),
    (Call::Feed, on_slices!(book_feed)),
    (Call::Order, on_slices!(book_order)),
    (Call::Result, on_slices!(book_result)),
];
