//! The calls of include/book.h by the second program: a libbook.a that the tests can be tried on.

use second::calls;
use std::slice::{from_raw_parts, from_raw_parts_mut};

macro_rules! exported {
    ($($name:ident by $call:path),*) => {
        $(
            /// # Safety
            /// The pointers and lengths are those of three areas that do not overlap, as include/book.h asks.
            #[no_mangle]
            pub unsafe extern "C" fn $name(
                book: *mut u8,
                book_len: usize,
                input: *const u8,
                input_len: usize,
                answer: *mut u8,
                answer_len: usize,
            ) -> i32 {
                $call(
                    from_raw_parts_mut(book, book_len),
                    from_raw_parts(input, input_len),
                    from_raw_parts_mut(answer, answer_len),
                )
            }
        )*
    };
}

exported!(
    book_order by calls::order,
    book_result by calls::result,
    book_feed by calls::feed
);

/// # Safety
/// As for the others; the book is only read.
#[no_mangle]
pub unsafe extern "C" fn book_lookup(
    book: *const u8,
    book_len: usize,
    input: *const u8,
    input_len: usize,
    answer: *mut u8,
    answer_len: usize,
) -> i32 {
    // The second program writes a book that it accepts back, and a lookup's may lie where nothing may be written.
    let mut book = from_raw_parts(book, book_len).to_vec();
    let input = from_raw_parts(input, input_len);
    calls::lookup(&mut book, input, from_raw_parts_mut(answer, answer_len))
}
