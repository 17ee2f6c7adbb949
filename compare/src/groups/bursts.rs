//! Errors in one string of each length, between two others.

use crate::make;
use crate::plain::check;
use crate::random::Random;
use crate::run::Run;

/// A string in the middle of a recording.
struct Middle {
    before: String,
    string: String,
    after: String,
}

impl Middle {
    fn new(random: &mut Random, kind: u8) -> Middle {
        let lead = random.below(9);
        let first = make::kind(random);
        let last = make::kind(random);
        Middle {
            before: random.bits(lead) + &make::string(random, first),
            string: make::string(random, kind),
            after: make::string(random, last),
        }
    }

    /// Reads and lists the recording with the errors from a place of the string on.
    fn compare(&self, run: &mut Run, place: usize, errors: &str) {
        let string = make::turn(&self.string, place, errors);
        let text = [&self.before[..], &string, &self.after].concat();
        let bytes = make::pack(&text);
        let reading = run.read(&bytes, text.len(), self.before.len());
        let listing = run.list(&bytes, text.len(), 4);
        // Within the generator's degree, no string stands there if its length is the same.
        let kind = |text: &str| u8::from_str_radix(&text[12..18], 2).expect("6 digits");
        let degree = check::width(kind(&self.string));
        let same = crate::plain::length(kind(&string)) == string.len();
        let start = self.before.len() as u32;
        let found = reading.answer.number == 0 || listing.starts().contains(&start);
        let missed = same && errors.len() <= degree && errors.contains('1') && found;
        run.require(!missed, || println!("missed burst {errors} in {string}"));
    }
}

/// A burst of the width: first and last bit wrong, any between.
fn burst(random: &mut Random, width: usize, dense: bool) -> String {
    let mut errors = match dense {
        true => "1".repeat(width),
        false => random.bits(width),
    };
    errors.replace_range(0..1, "1");
    errors.replace_range(width - 1..width, "1");
    errors
}

/// Bursts of every width up to a little past the generator's degree, at every place.
pub fn bursts(run: &mut Run) {
    for kind in [1, 0, 10, 2] {
        for width in 1..=check::width(kind) + 6 {
            let middle = Middle::new(&mut run.random, kind);
            for place in 0..=middle.string.len() - width {
                for round in 0..1 + 10 * run.long {
                    let errors = burst(&mut run.random, width, round == 0);
                    middle.compare(run, place, &errors);
                }
            }
        }
    }
}

/// Few or many errors anywhere in the string.
pub fn errors(run: &mut Run) {
    for kind in [1, 0, 20, 2] {
        for _ in 0..30_000 * run.long {
            let middle = Middle::new(&mut run.random, kind);
            let mut errors = "0".repeat(middle.string.len());
            for _ in 0..1 + run.random.below(12) {
                let place = run.random.below(errors.len());
                errors.replace_range(place..place + 1, "1");
            }
            if run.random.once_in(4) {
                errors = run.random.bits(errors.len());
            }
            middle.compare(run, 0, &errors);
        }
    }
}

/// The generator itself laid over the string at every place, and a bit beside it: the first
/// passes the check unseen.
pub fn multiples(run: &mut Run) {
    for kind in [1, 0, 12, 20, 25, 2] {
        let degree = check::width(kind);
        let mut generator = "0".repeat(degree + 1);
        for power in check::generator(kind) {
            generator.replace_range(degree - power..degree - power + 1, "1");
        }
        for _ in 0..20 * run.long {
            let middle = Middle::new(&mut run.random, kind);
            for place in 0..middle.string.len() - degree {
                middle.compare(run, place, &generator);
                let beside = run.random.below(degree);
                middle.compare(run, place, &make::turn(&generator, beside, "1"));
            }
        }
    }
}
