//! The fields of a book, from the independent record to the fast one's.

use fast::Book;

/// The fields of an independent book in the fast one's record.
pub fn book_of(book: &independent::book::Book) -> Book {
    Book {
        regions: book.regions,
        services: book.services,
        window: book.window,
        halves: book.halves,
        parents: book.parents,
        from: book.from,
        to: book.to,
        threshold: book.threshold,
        cap: book.cap,
        floor: book.floor,
        entries: book.entries,
        position: book.position,
        counts: book.counts,
        nexts: book.nexts,
        sums: book.sums,
        marks: book.marks,
    }
}
