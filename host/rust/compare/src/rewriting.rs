//! Interval records of the earlier form, their regions in any order, through the crate `guxhamole` beside the independent rewriter: every
//! answer, everything that is lent, and what lies beside it.

use crate::cutting;
use crate::intervals::compiled;
use crate::lent::Lent;
use crate::typed::{same, told, verdict, Difference};
use generator::intervals::Rewriting;
use guxhamole::{raw, Book};
use independent::Refusal;

/// What a rewriting that is accepted gives.
#[derive(Clone, Debug, PartialEq, Eq)]
pub struct Rewritten {
    pub next: usize,
    pub records: Vec<u8>,
}

/// One rewriting by all three: the independent one, the crate's method, and the C face, whose place is 0 when refused. The two compiled
/// ones are lent buffers of different contents.
pub fn try_rewrite(rewriting: &Rewriting) -> Result<Result<Rewritten, Refusal>, Difference> {
    let Rewriting {
        book,
        records,
        at,
        buffer,
    } = rewriting;
    let mut lent = Lent::filled(*buffer);
    let mut paper_buffer = lent.slice().to_vec();
    let expected = book.rewrite_interval(records, *at, &mut paper_buffer);
    let lent_records = Lent::of(records);
    let kept = Book::from_raw(compiled(book));
    let next = told(kept.rewrite_interval(lent_records.slice(), *at, lent.slice_mut()));
    if next != expected {
        return Err(format!(
            "answer: {next:?}, the independent one: {expected:?}"
        ));
    }
    same(lent.holds(&paper_buffer), "buffer")?;
    same(*kept.raw() == compiled(book), "book")?;
    let written = expected.map_or(&[][..], |next| &paper_buffer[..next - at]);
    let counted: Vec<u8> = (0..*buffer).map(|place| place as u8).collect();
    let mut again = Lent::of(&counted);
    let bytes = lent_records.slice();
    let face = raw::interval_rewrite(compiled(book), bytes, *at, again.slice_mut());
    let answer = raw::Rewritten {
        number: verdict(&expected).0,
        next: expected.unwrap_or(0) as u64,
    };
    same(face == answer, "C answer")?;
    let fixed = [written, &counted[written.len()..]].concat();
    same(again.holds(&fixed), "buffer of the C face")?;
    same(lent_records.holds(records), "records")?;
    Ok(expected.map(|next| Rewritten {
        next,
        records: written.to_vec(),
    }))
}

/// One rewriting; a difference prints it with the shortest records found by cutting.
pub fn rewrite(rewriting: &Rewriting) -> Result<Rewritten, Refusal> {
    try_rewrite(rewriting).unwrap_or_else(|what| {
        let cut = |records: &[u8]| Rewriting {
            records: records.to_vec(),
            ..rewriting.clone()
        };
        let differs = |records: &[u8]| try_rewrite(&cut(records)).is_err();
        let short = cut(&cutting::shortest(&rewriting.records, differs));
        let what = try_rewrite(&short).err().unwrap_or(what);
        let (at, buffer) = (short.at, short.buffer);
        let (records, book) = (&short.records, &short.book);
        panic!("rewriting at {at} into {buffer} bytes differs in {what}\nrecords {records:02x?}\n{book:?}")
    })
}
