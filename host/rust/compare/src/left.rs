//! Questions for the intervals left through the crate `guxhamole`, beside the independent book and ledger: every answer, and that
//! book and ring stay.

use crate::lent::Lent;
use crate::playing::Playing;
use crate::typed::{paper, same, told, verdict, Difference};
use generator::questions::Question;
use guxhamole::{raw, Book};
use independent::ledger::Entry;
use independent::{Call, Ledger, Refusal, Values};

/// One question by all three: the independent book, the crate's method, and the C face, which answers 0 beside a refusal. The ring
/// is lent as it is, whatever length the question says.
pub fn try_ask(
    book: &raw::Book,
    ring: &[i32],
    question: &Question,
) -> Result<Result<u32, Refusal>, Difference> {
    let Question {
        region,
        market,
        price,
        ..
    } = *question;
    let lent = Lent::of(ring);
    let kept = Book::from_raw(*book);
    let expected = paper(book).intervals_left(ring, region, market, price);
    let left = told(kept.intervals_left(lent.slice(), region, market, price));
    if left != expected {
        return Err(format!(
            "answer: {left:?}, the independent book's: {expected:?}"
        ));
    }
    same(lent.holds(ring), "ring")?;
    same(kept.raw() == book, "book")?;
    let face = raw::intervals_left(*book, lent.slice(), region, market, price);
    let answer = raw::Left {
        number: verdict(&expected).0,
        intervals: expected.unwrap_or(0),
    };
    same(face == answer, "C answer")?;
    same(lent.holds(ring), "ring of the C face")?;
    Ok(expected)
}

/// One question of a book and ring of any contents; a difference prints them.
pub fn ask(book: &raw::Book, ring: &[i32], question: &Question) -> Result<u32, Refusal> {
    try_ask(book, ring, question).unwrap_or_else(|what| {
        let ring = &ring[..ring.len().min(200)];
        panic!("{question:?} differs in {what}\nring {ring:?}\n{book:?}")
    })
}

/// One question of a list's book, by the ledger too. A ring of another length is the book's, cut or with more behind it.
pub fn ask_playing(playing: &Playing, question: &Question) -> Result<u32, Refusal> {
    let (book, ring) = playing.pair.kept();
    let mut lent = ring.to_vec();
    lent.resize(question.ring, 0);
    let expected = playing.ledger.intervals_left(
        question.ring,
        question.region,
        question.market,
        question.price,
    );
    match try_ask(book, &lent, question) {
        Ok(answer) if answer == expected => answer,
        Ok(answer) => differs(playing, question, &format!("{answer:?}"), &expected),
        Err(what) => differs(playing, question, &what, &expected),
    }
}

/// The sums that the reports of a question's market give after each of so many intervals, which are really entered: through the
/// compiled book, the independent one and the ledger.
pub fn sums_entered(
    playing: &Playing,
    question: &Question,
    number: usize,
    mut interval: impl FnMut(&Ledger) -> Entry,
) -> Vec<i64> {
    let (mut pair, mut ledger) = (playing.pair.clone(), playing.ledger.clone());
    let shape = *ledger.shape();
    let report = Call::Report(question.region, question.market);
    let mut sums = Vec::new();
    for _ in 0..number {
        let entry = interval(&ledger);
        let entry = Call::Entry(entry, shape.ring(), vec![0; shape.prices()]);
        for call in [&entry, &report] {
            let answer = ledger.call(call);
            assert_eq!(pair.call(call), Ok(answer.clone()));
            assert_eq!(answer.number, 0, "{call:?}");
            if let Values::Report(report) = answer.values {
                sums.push(report.sum);
            }
        }
    }
    sums
}

/// Says a difference as a case: window, counted prices, price and threshold are all that an accepted question turns about.
fn differs(
    playing: &Playing,
    question: &Question,
    what: &str,
    expected: &Result<u32, Refusal>,
) -> ! {
    let ledger = &playing.ledger;
    let (window, threshold) = (ledger.shape().window, ledger.settings().threshold);
    let counted = counted(ledger, question);
    let next = playing.pair.kept().0.nexts.get(question.region as usize);
    panic!(
        "intervals left: a difference in {what}; the ledger's answer: {expected:?}\n{question:?}\n\
         W {window}, threshold {threshold}, next place {next:?}, counted, oldest first: {counted:?}\n{:?}",
        playing.pair.kept().0
    )
}

/// The counted prices that a question is about, oldest first; none where there is no such market.
pub fn counted(ledger: &Ledger, question: &Question) -> Vec<i32> {
    let shape = ledger.shape();
    let (region, market) = (question.region as usize, question.market as usize);
    if region < shape.regions && market < shape.markets() {
        ledger.counted(region, market)
    } else {
        Vec::new()
    }
}
