//! Both forms of interval records, regions in number order and, earlier, in any order: the calls that read, rewrite and write them on the
//! same bytes, what these have to do with each other, and how often each answer was met.

use crate::intervals::{read, write, Read};
use crate::rewriting::{rewrite, Rewritten};
use crate::say;
use generator::intervals::{self, Reading, Rewriting, Writing};
use generator::Random;
use independent::book::Book;
use independent::interval::Interval;
use independent::Refusal;
use std::collections::BTreeMap;

/// How often each number was answered; 0 is an acceptance.
type Answers = BTreeMap<u32, u64>;

/// What was met: the answers of the reader, of the independent reader of the earlier form, of the rewriter and of the writer; and how
/// many of the rewriter's acceptances were in number order already, and how many were not.
#[derive(Default)]
pub struct Met {
    pub reads: Answers,
    pub earlier: Answers,
    pub rewrites: Answers,
    pub writes: Answers,
    pub fixed: u64,
    pub moved: u64,
}

/// The numbers that were answered less often than they must have been.
pub fn seldom(answers: &Answers, least: &[(u32, u64)]) -> Vec<u32> {
    let times = |number: u32| answers.get(&number).copied().unwrap_or(0);
    let seldom = least
        .iter()
        .filter(|(number, least)| times(*number) < *least);
    seldom.map(|(number, _)| *number).collect()
}

fn count<T>(answers: &mut Answers, answer: &Result<T, Refusal>) {
    let number = answer.as_ref().err().map_or(0, |refusal| refusal.number);
    *answers.entry(number).or_default() += 1;
}

impl Met {
    pub fn read(&mut self, reading: &Reading) -> Result<Read, Refusal> {
        let answer = read(reading);
        count(&mut self.reads, &answer);
        answer
    }

    /// What the independent reader of the earlier form says, into slices that fit.
    pub fn read_earlier(&mut self, reading: &Reading) -> Result<Read, Refusal> {
        let mut interval = intervals::fitting(&reading.book.shape());
        let (records, at) = (&reading.records, reading.at);
        let next = reading.book.read_earlier(records, at, &mut interval);
        let answer = next.map(|next| Read { next, interval });
        count(&mut self.earlier, &answer);
        answer
    }

    pub fn rewrite(&mut self, rewriting: &Rewriting) -> Result<Rewritten, Refusal> {
        let answer = rewrite(rewriting);
        count(&mut self.rewrites, &answer);
        answer
    }

    pub fn write(&mut self, writing: &Writing) -> Result<Vec<u8>, Refusal> {
        let answer = write(writing);
        count(&mut self.writes, &answer);
        answer
    }

    /// Both readers and the rewriter at a place of the same bytes.
    pub fn both(&mut self, random: &mut Random, reading: &Reading) {
        let (now, then) = (self.read(reading), self.read_earlier(reading));
        readers_agree(reading, &now, &then);
        let rewriting = intervals::rewriting(random, reading);
        let rewritten = self.rewrite(&rewriting);
        let number = rewritten.as_ref().err().map_or(0, |refusal| refusal.number);
        assert_eq!(number, due(&rewriting, &then), "{rewriting:?}");
        let Ok(then) = then else {
            return;
        };
        // Where the room was short, again.
        let roomy = intervals::rewriting_into(reading, intervals::length(&reading.book));
        let rewritten = rewritten.or_else(|_| self.rewrite(&roomy));
        let rewritten = rewritten.expect("what the earlier reader takes");
        assert_eq!(rewritten.next, then.next, "{reading:?}");
        let taken = &reading.records[reading.at..then.next];
        let fixed = in_number_order(&reading.book, taken);
        assert_eq!(rewritten.records == taken, fixed, "{reading:?}");
        *[&mut self.moved, &mut self.fixed][usize::from(fixed)] += 1;
        self.one_form(random, &reading.book, then.interval, &rewritten.records);
    }

    /// "From then on one entry has one form": an entry's bytes are what the writer makes of it, they read to it, wherever they stand,
    /// and are rewritten to themselves.
    pub fn one_form(&mut self, random: &mut Random, book: &Book, interval: Interval, form: &[u8]) {
        let writing = Writing {
            book: book.clone(),
            interval,
            buffer: form.len() + random.below(3),
        };
        assert_eq!(self.write(&writing).as_deref(), Ok(form), "{writing:?}");
        self.reads_back(random, &writing, form);
    }

    /// "Reading what the writer made gives the same entry", and a rewriting the same bytes: at the start, and wherever else they stand.
    pub fn reads_back(&mut self, random: &mut Random, writing: &Writing, written: &[u8]) {
        let (before, behind) = (random.below(20), random.below(20));
        let some = |length: usize| -> Vec<u8> { (0..length).map(|byte| byte as u8).collect() };
        let mut lent = intervals::interval(random, &writing.book);
        lent.number = !writing.interval.number;
        for (before, behind) in [(0, 0), (before, behind)] {
            let reading = Reading {
                book: writing.book.clone(),
                records: [&some(before), written, &some(behind)].concat(),
                at: before,
                lent: lent.clone(),
            };
            let back = Read {
                next: before + written.len(),
                interval: writing.interval.clone(),
            };
            assert_eq!(self.read(&reading), Ok(back), "{writing:?}");
            let rewriting = intervals::rewriting_into(&reading, written.len() + behind);
            let same = Rewritten {
                next: before + written.len(),
                records: written.to_vec(),
            };
            assert_eq!(self.rewrite(&rewriting), Ok(same), "{writing:?}");
        }
    }

    /// Calls of compiled functions; the independent reader of the earlier form is none.
    pub fn calls(&self) -> u64 {
        let compiled = [&self.reads, &self.rewrites, &self.writes];
        compiled.iter().flat_map(|answers| answers.values()).sum()
    }

    pub fn say(&self, name: &str) {
        let answers = [
            ("reader", &self.reads),
            ("rewriter", &self.rewrites),
            ("writer", &self.writes),
            ("earlier reader", &self.earlier),
        ];
        let mut line = format!("interval records, {name}: {} calls", self.calls());
        for (call, answers) in answers {
            if !answers.is_empty() {
                line += &format!(", {call} {answers:?}");
            }
        }
        if self.fixed + self.moved > 0 {
            line += &format!(
                ", rewritten {} as they stood, {} moved",
                self.fixed, self.moved
            );
        }
        say(&line);
    }
}

/// 45 "in the reader … takes the place of 42": where regions are in number order both readers say the same, and where one isn't the next
/// the reader says 45, whatever the earlier one finds there or behind. Slices that don't fit are lent to the reader alone.
fn readers_agree(reading: &Reading, now: &Result<Read, Refusal>, then: &Result<Read, Refusal>) {
    let number = |answer: &Result<Read, Refusal>| answer.as_ref().err().map(|by| by.number);
    let agree = match (number(now), number(then)) {
        (Some(11), _) => true,
        (None, None) => now == then && in_order_at(reading, then),
        (Some(45), None) => !in_order_at(reading, then),
        (Some(45), Some(then)) => then >= 40,
        (now, then) => now == then && then != Some(42),
    };
    assert!(agree, "{reading:?}: {now:?}, earlier {then:?}");
}

/// Whether the regions of what was read go 0, 1 and so on.
fn in_order_at(reading: &Reading, read: &Result<Read, Refusal>) -> bool {
    let next = read.as_ref().map_or(reading.at, |read| read.next);
    in_number_order(&reading.book, &reading.records[reading.at..next])
}

/// "refusing by 10, 23, then 40 to 42", which are the earlier reader's.
fn due(rewriting: &Rewriting, then: &Result<Read, Refusal>) -> u32 {
    let short = rewriting.buffer < intervals::length(&rewriting.book);
    match then {
        Err(refusal) if refusal.number == 10 => 10,
        _ if short => 23,
        Err(refusal) => refusal.number,
        Ok(_) => 0,
    }
}

/// Whether the regions of an interval that reads go 0, 1 and so on, by each record's own length and kind.
pub fn in_number_order(book: &Book, interval: &[u8]) -> bool {
    let mut rest = interval;
    let mut regions = Vec::new();
    while !rest.is_empty() {
        let length = u32::from_le_bytes([rest[0], rest[1], rest[2], rest[3]]);
        if rest[4] == 17 {
            regions.push(rest[6]);
        }
        rest = &rest[length as usize..];
    }
    regions.into_iter().eq(0..book.regions)
}
