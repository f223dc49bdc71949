//! Typed lists: calls after an opening or an image, played through the crate `guxhamole`, on the independent book and on the
//! independent ledger; and what is said of a difference.

use crate::cutting::shortest_calls;
use crate::hundreds::image_holding;
use crate::typed::{same, verdict, Difference, Pair};
use generator::{calls, lists, Random};
use independent::image::Fields;
use independent::{Answer, Call, Kind, Ledger, Opening, Refusal};
use std::fmt::Write;

/// What a typed list starts from, and the length of its ring.
#[derive(Clone, Debug)]
pub enum Start {
    Opening(Opening, usize),
    Image(Vec<u8>, usize),
}

impl Start {
    /// An image that loads, and a ring of the right length.
    pub fn image(image: Vec<u8>) -> Start {
        let ring = Fields::read(&image).shape().ring();
        Start::Image(image, ring)
    }

    /// The image of a book of these settings, without entries and with no period marked: "its settings standing for the opening's"
    /// (request 2026-06 of document 02).
    pub fn blank(settings: &Opening) -> Start {
        Start::image(Fields::blank(settings).bytes())
    }

    /// An opening and a ring's length, mostly valid.
    pub fn any_opening(random: &mut Random) -> Start {
        let opening = match random.below(12) {
            0 => {
                let (opening, ring) = calls::damaged_opening(random);
                return Start::Opening(lists::narrowed(&opening), ring.min(8 * 11 * 2_016 + 1));
            }
            1 => calls::damaged_settings(random),
            _ => calls::opening(random),
        };
        let ring = calls::ring_length(&opening);
        let ring = match random.below(25) {
            0 => random.pick(&[0, ring - 1, ring + 1]),
            _ => ring,
        };
        Start::Opening(opening, ring)
    }

    /// The ledger that begins with it, or goes on from an image with which no list begins.
    pub fn ledger(&self) -> Result<Ledger, Refusal> {
        match self {
            Start::Opening(opening, ring) => Ledger::open(opening, *ring),
            Start::Image(image, ring) => match Ledger::begin(image, *ring)? {
                Some(begun) => Ok(begun),
                None => Ledger::load(image, *ring),
            },
        }
    }

    fn pair(&self) -> Result<Result<Pair, Refusal>, Difference> {
        match self {
            Start::Opening(opening, ring) => Pair::open(opening, *ring),
            Start::Image(image, ring) => Pair::load(image, *ring),
        }
    }
}

/// A typed list: the calls after its start. A cached ledger is held to windows of thousands of prices.
#[derive(Clone, Debug)]
pub struct List {
    pub start: Start,
    pub cached: bool,
    pub calls: Vec<Call>,
}

/// A list that is being played.
pub struct Playing {
    list: List,
    pub ledger: Ledger,
    pub pair: Pair,
}

/// Calls that a long list keeps, to be cut if the next one differs; before them an image stands for the others.
const KEPT_CALLS: usize = 128;

impl Playing {
    /// Starts a list: the refusal that the start met, if any.
    pub fn start(start: Start, cached: bool) -> Result<Playing, Refusal> {
        let calls = Vec::new();
        let list = List {
            start,
            cached,
            calls,
        };
        started(&list).unwrap_or_else(|what| differs(&list, &what))
    }

    /// Plays one call: the answer of all three. A difference prints the shortest list that shows one.
    pub fn call(&mut self, call: Call) -> Answer {
        if self.list.calls.len() == KEPT_CALLS {
            let ring = self.ledger.shape().ring();
            self.list.start = Start::Image(self.ledger.image(), ring);
            self.list.calls.clear();
        }
        self.list.calls.push(call);
        let call = &self.list.calls[self.list.calls.len() - 1];
        step(&mut self.ledger, &mut self.pair, call)
            .unwrap_or_else(|what| differs(&self.list, &what))
    }

    /// The book that the image leads to once it holds another threshold.
    pub fn holding(&self, threshold: i64) -> Playing {
        let image = image_holding(&self.pair.image(), threshold);
        let held = Playing::start(Start::image(image), self.list.cached);
        held.expect("an image of any threshold")
    }

    /// "After L, the same for a report of each region and market", and the image, by either kind that holds it.
    pub fn finish(mut self) -> Pair {
        let shape = *self.ledger.shape();
        for place in 0..shape.prices() {
            let (region, market) = (place / shape.markets(), place % shape.markets());
            self.call(Call::Report(region as u32, market as u32));
        }
        for kind in Kind::ALL.into_iter().filter(|kind| kind.holds(&shape)) {
            if self.pair.image_by(kind) != self.ledger.image_by(kind) {
                differs(&self.list, "image after the list");
            }
        }
        self.pair
    }
}

fn started(list: &List) -> Result<Result<Playing, Refusal>, Difference> {
    let pair = list.start.pair()?;
    let ledger = list.start.ledger();
    same(verdict(&pair) == verdict(&ledger), "start's answer")?;
    Ok(pair.and_then(|pair| {
        let ledger = if list.cached {
            ledger?.cached()
        } else {
            ledger?
        };
        Ok(Playing {
            list: list.clone(),
            ledger,
            pair,
        })
    }))
}

/// One call on the ledger and on the pair: their answer.
fn step(ledger: &mut Ledger, pair: &mut Pair, call: &Call) -> Result<Answer, Difference> {
    let expected = ledger.call(call);
    let answer = pair.call(call)?;
    if answer == expected {
        return Ok(answer);
    }
    Err(format!("answer: {answer:?}, the ledger's: {expected:?}"))
}

/// Plays a list whole: the first difference and the place of its call.
pub fn difference(list: &List) -> Option<(usize, Difference)> {
    let (mut ledger, mut pair) = match started(list) {
        Ok(Ok(playing)) => (playing.ledger, playing.pair),
        Ok(Err(_)) => return None,
        Err(what) => return Some((0, what)),
    };
    for (place, call) in list.calls.iter().enumerate() {
        if let Err(what) = step(&mut ledger, &mut pair, call) {
            return Some((place, what));
        }
    }
    None
}

/// The last call of a list alone, over an image of the ledger before it.
fn last_call(list: &List) -> Option<List> {
    let (last, before) = list.calls.split_last()?;
    let mut ledger = list.start.ledger().ok()?.cached();
    for call in before {
        ledger.call(call);
    }
    let start = Start::Image(ledger.image(), ledger.shape().ring());
    let calls = vec![last.clone()];
    Some(List {
        start,
        cached: list.cached,
        calls,
    })
}

/// Says the shortest list found by cutting that shows a difference, a line a call.
fn differs(list: &List, first: &str) -> ! {
    let shows = |list: &List| difference(list).is_some();
    let last = last_call(list).filter(shows);
    let short = shortest_calls(last.as_ref().unwrap_or(list), shows);
    let mut text = format!("typed calls: a difference in {first}\n");
    match difference(&short) {
        Some((place, what)) => {
            let _ = writeln!(text, "shortest: at call {place} in {what}");
        }
        None => text += "it does not show from the last image on; the calls since then:\n",
    }
    let _ = writeln!(text, "start: {}", described(&short.start));
    for (place, call) in short.calls.iter().enumerate() {
        let _ = writeln!(text, "{place}: {}", lists::call_record(call.clone()));
    }
    panic!("{text}");
}

/// A start in words; of a long image its head, since the same seed gives it again.
fn described(start: &Start) -> String {
    match start {
        Start::Opening(opening, ring) => format!("{opening:?}, ring {ring}"),
        Start::Image(image, ring) if image.len() <= 2_000 => {
            format!("image {image:02x?}, ring {ring}")
        }
        Start::Image(image, ring) => {
            let head = Fields::read(&image[..Kind::Two.head()]);
            format!("image of {} bytes, {head:?}, ring {ring}", image.len())
        }
    }
}
