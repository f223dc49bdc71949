//! The intervals left, worked by hand: each case with its answer and the sums on the way there, by the compiled function, the
//! independent book and the ledger, and by entering the intervals; from an image, and where it can be opened from an opening too.

use compare::books;
use compare::left::{ask, ask_playing, sums_entered};
use compare::playing::{Playing, Start};
use generator::calls;
use generator::questions::Question;
use guxhamole::raw;
use independent::image::Fields;
use independent::ledger::Entry;
use independent::rules::{in_hundreds, MOST_ENTRIES};
use independent::{Call, Ledger, Opening};

/// The price asked about, the threshold, the answer, and the sums after 1, 2 and so on.
struct Case {
    name: &'static str,
    window: u32,
    /// Energy, or a service.
    market: u32,
    /// The entries' prices, oldest first; at a `None` the region is marked, and 9,999 is not counted.
    entries: &'static [Option<i32>],
    price: i32,
    threshold: i64,
    answer: u32,
    sums: &'static [i64],
}

/// The next entry of a book of one region: every market has the price.
fn entry(ledger: &Ledger, price: Option<i32>) -> Entry {
    let prices = vec![price.unwrap_or(9_999); ledger.shape().prices()];
    let mut entry = books::plain(ledger, &prices);
    entry.marks.fill(price.is_none().into());
    entry
}

/// The starts of a case's book: one region; the service's book has two markets.
fn starts(case: &Case) -> Vec<Start> {
    let settings = Opening {
        threshold: case.threshold,
        ..books::opening(1, case.market, case.window, 1)
    };
    let opening = Start::Opening(settings, calls::ring_length(&settings));
    let mut starts = vec![Start::blank(&settings), opening];
    starts.truncate(1 + usize::from(in_hundreds(case.threshold)));
    starts
}

/// The book of a case.
fn played(case: &Case, start: Start) -> (Playing, Question) {
    let mut playing = Playing::start(start, true).expect("a valid start");
    let ring = playing.ledger.shape().ring();
    for &price in case.entries {
        let entry = entry(&playing.ledger, price);
        let table = vec![0; playing.ledger.shape().prices()];
        assert_eq!(playing.call(Call::Entry(entry, ring, table)).number, 0);
    }
    let question = Question {
        ring,
        region: 0,
        market: case.market,
        price: case.price,
    };
    (playing, question)
}

/// Asks and enters, from each start: the book at last.
fn works(case: &Case) -> Playing {
    let from = |start| works_from(case, start);
    let mut worked: Vec<Playing> = starts(case).into_iter().map(from).collect();
    worked.pop().expect("a start at least")
}

/// The answer, and the sums that were told.
fn works_from(case: &Case, start: Start) -> Playing {
    let (playing, question) = played(case, start);
    let Case { name, price, .. } = *case;
    assert_eq!(ask_playing(&playing, &question), Ok(case.answer), "{name}");
    let next = |ledger: &Ledger| entry(ledger, Some(price));
    let sums = sums_entered(&playing, &question, case.sums.len(), next);
    assert_eq!(sums, case.sums, "{name}");
    playing
}

/// An energy case.
const ENERGY: Case = Case {
    name: "",
    window: 3,
    market: 0,
    entries: &[],
    price: 0,
    threshold: 10_000,
    answer: 0,
    sums: &[],
};

/// Windows that are full: A, B, C, J and K.
const FULL: [Case; 5] = [
    Case {
        name: "A: a negative price leaves",
        entries: &[Some(-10_000), Some(5_000), Some(30_000)],
        price: 0,
        threshold: 30_000,
        answer: 1,
        sums: &[35_000, 30_000, 0],
        ..ENERGY
    },
    Case {
        name: "B: above now is no answer",
        entries: &[Some(20_000), Some(0), Some(0)],
        price: 1_000,
        answer: 0,
        sums: &[1_000, 2_000, 3_000],
        ..ENERGY
    },
    Case {
        name: "C: a negative price asked about",
        entries: &[Some(-50_000), Some(10_000), Some(10_000)],
        price: -100,
        answer: 1,
        sums: &[19_900, 9_800, -300],
        ..ENERGY
    },
    Case {
        name: "J: to reach is not to exceed",
        window: 1,
        entries: &[Some(50_000)],
        price: 10_000,
        answer: 0,
        sums: &[10_000],
        ..ENERGY
    },
    Case {
        name: "K: up and down",
        window: 4,
        entries: &[Some(9_000), Some(-9_000), Some(9_000), Some(-9_000)],
        price: 4_000,
        answer: 4,
        sums: &[-5_000, 8_000, 3_000, 16_000],
        ..ENERGY
    },
];

#[test]
fn full_windows() {
    for case in &FULL {
        works(case);
    }
}

/// Windows that are not: D, F, I, L and M.
const FILLING: [Case; 5] = [
    Case {
        name: "D: the one price leaves last",
        window: 5,
        entries: &[Some(4_000)],
        price: 2_000,
        answer: 4,
        sums: &[6_000, 8_000, 10_000, 12_000, 10_000],
        ..ENERGY
    },
    Case {
        name: "F: above, then below",
        entries: &[Some(19_000), Some(500)],
        price: 1_000,
        threshold: 20_000,
        answer: 1,
        sums: &[20_500, 2_500, 3_000],
        ..ENERGY
    },
    Case {
        name: "I: nothing counted",
        window: 2,
        entries: &[],
        price: 10_001,
        answer: 1,
        sums: &[10_001, 20_002],
        ..ENERGY
    },
    Case {
        name: "L: a service",
        market: 1,
        entries: &[Some(4_000), Some(4_000)],
        price: 4_000,
        answer: 1,
        sums: &[12_000, 12_000, 12_000],
        ..ENERGY
    },
    Case {
        name: "M: a marked interval counts nothing",
        entries: &[Some(4_000), None, Some(4_000)],
        price: 1_500,
        answer: 0,
        sums: &[9_500, 7_000, 4_500],
        ..ENERGY
    },
];

#[test]
fn windows_not_yet_full() {
    for case in &FILLING {
        works(case);
    }
}

#[test]
fn at_the_last_interval() {
    let entries = &[Some(10_000), Some(0), Some(0)];
    works(&Case {
        name: "G: one cent above after W",
        entries,
        price: 6_667,
        threshold: 20_000,
        answer: 3,
        sums: &[6_667, 13_334, 20_001],
        ..ENERGY
    });
    works(&Case {
        name: "H: two cents below after W",
        entries,
        price: 6_666,
        threshold: 20_000,
        answer: 0,
        sums: &[6_666, 13_332, 19_998],
        ..ENERGY
    });
}

/// E: six entries in a window of four, so that the oldest price stands in the middle.
#[test]
fn turned_round() {
    let entries = &[
        Some(0),
        Some(0),
        Some(10_000),
        Some(20_000),
        Some(30_000),
        Some(40_000),
    ];
    let playing = works(&Case {
        name: "E",
        window: 4,
        entries,
        price: 35_000,
        threshold: 130_000,
        answer: 2,
        sums: &[125_000, 140_000, 145_000, 140_000],
        ..ENERGY
    });
    let (book, ring) = playing.pair.kept();
    assert_eq!(ring, [30_000, 40_000, 10_000, 20_000]);
    assert_eq!(book.nexts[0], 2);
}

/// N: a week's window.
#[test]
fn a_week() {
    const SUMS: [i64; 87] = {
        let mut sums = [10_080_000; 87];
        let mut place = 0;
        while place < 87 {
            sums[place] += 1_495_000 * (place as i64 + 1);
            place += 1;
        }
        sums
    };
    assert_eq!(SUMS[85..], [138_650_000, 140_145_000]);
    works(&Case {
        name: "N",
        window: 2_016,
        entries: &[Some(5_000); 2_016],
        price: 1_500_000,
        threshold: 139_810_000,
        answer: 87,
        sums: &SUMS,
        ..ENERGY
    });
}

/// The widest sums, from −20,160,000,000 to 20,160,000,000: far beyond 32 bits.
#[test]
fn widest_sums() {
    for (threshold, answer) in [
        (1, 1_009),
        (20_000_000, 1_010),
        (20_159_999_999, 2_016),
        (20_160_000_000, 0),
    ] {
        works(&Case {
            name: "widest sums",
            window: 2_016,
            entries: &[Some(-10_000_000); 2_016],
            price: 10_000_000,
            threshold,
            answer,
            sums: &[-20_140_000_000, -20_120_000_000],
            ..ENERGY
        });
    }
}

/// R 2, S 1, W 3, two entries: each window has one place that holds no counted price.
fn two_regions() -> (raw::Book, Vec<i32>) {
    let opening = books::opening(2, 1, 3, 1);
    let start = Start::Opening(opening, 12);
    let mut playing = Playing::start(start, false).expect("a valid opening");
    for prices in [[100, 200, 300, 400], [500, 600, 700, 800]] {
        let entry = books::plain(&playing.ledger, &prices);
        assert_eq!(playing.call(Call::Entry(entry, 12, vec![0; 4])).number, 0);
    }
    let (book, ring) = playing.pair.kept();
    assert_eq!(ring, [100, 500, 0, 200, 600, 0, 300, 700, 0, 400, 800, 0]);
    (*book, ring.to_vec())
}

/// The refusal's number, or the answer.
fn asked(book: &raw::Book, ring: &[i32], region: u32, market: u32, price: i32) -> Result<u32, u32> {
    let question = Question {
        ring: ring.len(),
        region,
        market,
        price,
    };
    ask(book, ring, &question).map_err(|refusal| refusal.number)
}

#[test]
fn refused() {
    let (book, ring) = two_regions();
    let beyond = 10_000_001;
    let mut forged = ring.clone();
    forged[0] = 101;
    assert_eq!(asked(&raw::Book::CLOSED, &[], 9, 9, beyond), Err(10));
    assert_eq!(asked(&raw::Book::CLOSED, &ring, 0, 0, 0), Err(10));
    assert_eq!(asked(&book, &ring[..11], 9, 0, beyond), Err(11));
    for (region, market) in [(2, 0), (0, 2), (2, 2), (u32::MAX, 0), (0, u32::MAX)] {
        assert_eq!(asked(&book, &ring, region, market, 0), Err(21));
        assert_eq!(asked(&book, &forged, region, market, beyond), Err(21));
    }
    for (market, price) in [(0, beyond), (0, -beyond), (1, beyond), (1, -1)] {
        assert_eq!(asked(&book, &ring, 1, market, price), Err(43));
    }
    for (market, price) in [(0, 10_000_000), (1, 10_000_000)] {
        assert_eq!(asked(&book, &ring, 1, market, price), Ok(1));
    }
    for (market, price) in [(0, -1), (0, -10_000_000), (1, 0)] {
        assert_eq!(asked(&book, &ring, 1, market, price), Ok(0));
    }
}

/// 22 is the store's: over all markets, and before 43. A place that holds no counted price is not looked at.
#[test]
fn foreign_rings() {
    let (book, ring) = two_regions();
    for price in [0, 10_000_001] {
        for place in 0..12 {
            let mut other = ring.clone();
            other[place] += 1;
            let counted = place % 3 < 2;
            let expected = match price {
                _ if counted => Err(22),
                0 => Ok(0),
                _ => Err(43),
            };
            assert_eq!(asked(&book, &other, 1, 1, price), expected, "{place}");
        }
        for place in [0, 1, 11, 12] {
            for more in [-1, 1] {
                let mut other = book;
                other.sums[place] += more;
                assert_eq!(asked(&other, &ring, 1, 1, price), Err(22), "{place}");
            }
        }
    }
    // The total stays, and a service's price is below 0.
    let mut other = ring.clone();
    (other[3], other[4]) = (-1, 801);
    assert_eq!(asked(&book, &other, 0, 0, 0), Err(22));
}

/// A book that was loaded with 10,000,000 entries takes no more of them, and answers.
#[test]
fn all_entries_taken() {
    let fields = Fields {
        regions: 1,
        services: 0,
        window: 3,
        halves: 1,
        parents: [255; 8],
        from: 255,
        to: 255,
        entries: MOST_ENTRIES,
        position: 5,
        threshold: 30_000,
        cap: 60_000,
        floor: -60_000,
        counts: [3, 0, 0, 0, 0, 0, 0, 0],
        periods: [0; 88],
        prices: vec![-10_000, 5_000, 30_000],
    };
    let start = Start::Image(fields.bytes(), 3);
    let mut playing = Playing::start(start, false).expect("a valid image");
    let entry = books::plain(&playing.ledger, &[0]);
    assert_eq!(playing.call(Call::Entry(entry, 3, vec![0])).number, 12);
    let (book, ring) = playing.pair.kept();
    assert_eq!(asked(book, ring, 0, 0, 0), Ok(1));
    assert_eq!(asked(book, ring, 0, 0, -5_001), Ok(0));
}
