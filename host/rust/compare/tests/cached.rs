//! The cached ledger against the plain one, which is the definition, on small books.

use compare::{rounds, say};
use generator::{calls, images, questions, Random};
use independent::image::Fields;
use independent::Ledger;

/// A ledger that begins with an opening or an image, or one that goes on from an image.
fn any_ledger(random: &mut Random) -> Ledger {
    if random.chance(70) {
        return images::begun(random);
    }
    let image = images::composed(random);
    let ring = Fields::read(&image).shape().ring();
    Ledger::load(&image, ring).expect("a valid image")
}

/// Every answer, and after every call every report, the settings, the position, the image and some questions for the intervals left.
#[test]
fn answers_alike() {
    let (mut played, mut begun, mut ended) = (0u64, 0u64, 0u64);
    for round in 0..rounds() {
        let mut random = Random::new(0x27_0000 + round);
        for _ in 0..1_500 {
            let mut plain = any_ledger(&mut random);
            let mut cached = plain.clone().cached();
            for _ in 0..random.between(1, 40) {
                let call = calls::call(&mut random, &plain);
                let before = plain.image();
                assert_eq!(plain.call(&call), cached.call(&call), "{call:?}");
                let image = plain.image();
                assert_eq!(image, cached.image(), "{call:?}");
                assert_eq!(plain.settings(), cached.settings());
                assert_eq!(plain.position(), cached.position());
                assert_eq!(plain.entries_taken(), cached.entries_taken());
                let (was, is) = (Fields::read(&before), Fields::read(&image));
                for (before, now) in was.periods.iter().zip(&is.periods) {
                    begun += u64::from(before < now);
                    ended += u64::from(before > now);
                }
                played += 1;
                questions_alike(&mut random, &plain, &cached);
            }
            all_reports_alike(&plain, &cached);
            // A cache that begins later remembers the same.
            assert_eq!(plain.cached(), cached);
        }
    }
    say(&format!(
        "cached: {played} calls, {begun} periods begun, {ended} ended"
    ));
    assert!(played >= 20_000 && begun >= 2_000 && ended >= 2_000);
}

fn all_reports_alike(plain: &Ledger, cached: &Ledger) {
    let shape = plain.shape();
    for region in 0..shape.regions {
        for market in 0..shape.markets() {
            assert_eq!(
                plain.counted(region, market),
                cached.counted(region, market)
            );
            let report = plain.report(region as u32, market as u32);
            assert_eq!(report, cached.report(region as u32, market as u32));
        }
    }
}

fn questions_alike(random: &mut Random, plain: &Ledger, cached: &Ledger) {
    // A window of a week takes the plain ledger long.
    for _ in 0..if plain.shape().window > 40 { 0 } else { 2 } {
        let asked = questions::question(random, plain);
        let (ring, region, market) = (asked.ring, asked.region, asked.market);
        assert_eq!(
            plain.intervals_left(ring, region, market, asked.price),
            cached.intervals_left(ring, region, market, asked.price),
            "{asked:?}"
        );
    }
}
