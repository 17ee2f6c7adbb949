//! Recordings of many kinds, listed with lists of every size and read at the starts.

use crate::make;
use crate::plain::{LIMIT, MARK};
use crate::random::Random;
use crate::run::Run;

/// Lists with a list that is too short by one, just long enough, too long, and empty; reads at
/// the starts and at places near them.
fn list_and_read(run: &mut Run, bytes: &[u8], count: usize, readings: usize) {
    let found = run.list(bytes, count, count / 125 + 2);
    let starts = found.starts().to_vec();
    let needed = starts.len();
    let more = run.random.below(5);
    for room in [needed.saturating_sub(1), needed, needed + more, 0] {
        run.list(bytes, count, room);
    }
    for _ in 0..readings {
        let near = match needed {
            0 => run.random.below(count + 2),
            _ => run.random.pick(&starts) as usize,
        };
        let place = match run.random.below(4) {
            0 => run.random.below(count + 3),
            1 => (near + run.random.below(3)).saturating_sub(1),
            _ => near,
        };
        run.read(bytes, count, place);
    }
}

/// Random bytes, some with marks and types sown in; bit counts that are no multiple of 8.
pub fn random_bytes(run: &mut Run) {
    for _ in 0..40_000 * run.long {
        let length = run.random.below(260);
        let mut text = run.random.bits(8 * length);
        for _ in 0..run.random.below(6) {
            if text.len() > 18 {
                let place = run.random.below(text.len() - 18);
                let kind = make::kind(&mut run.random);
                text.replace_range(place..place + 18, &format!("{MARK}{kind:06b}"));
            }
        }
        let count = 8 * length - run.random.below(8).min(8 * length);
        list_and_read(run, &make::pack(&text), count, 6);
    }
}

/// Strings end to end, valid ones and ones whose fields hold anything.
pub fn strings(random: &mut Random, many: usize) -> Vec<String> {
    (0..many)
        .map(|_| {
            let kind = make::kind(random);
            match random.once_in(4) {
                true => make::any_string(random, kind),
                false => make::string(random, kind),
            }
        })
        .collect()
}

/// Damages the text in one place: bits turned over, dropped, inserted or made noise.
pub fn damage(random: &mut Random, text: &mut String) {
    let place = random.below(text.len());
    let width = match random.below(3) {
        0 => 1 + random.below(3),
        1 => 1 + random.below(40),
        _ => 1 + random.below(600),
    };
    let end = text.len().min(place + width);
    match random.below(5) {
        0 => text.replace_range(place..end, ""),
        1 => text.insert_str(place, &random.bits(width)),
        2 => text.insert_str(place, MARK),
        3 => text.replace_range(place..end, &random.bits(end - place)),
        _ => {
            let errors = random.bits(end - place);
            *text = make::turn(text, place, &errors);
        }
    }
    if text.is_empty() {
        *text = random.bits(20);
    }
}

/// Recordings of many strings with damaged stretches.
pub fn damaged(run: &mut Run) {
    for _ in 0..25_000 * run.long {
        let many = 1 + run.random.below(14);
        let mut text = strings(&mut run.random, many).concat();
        for _ in 0..run.random.below(5) {
            damage(&mut run.random, &mut text);
        }
        let tail = run.random.below(20);
        let bytes = make::pack(&(text.clone() + &run.random.bits(tail)));
        let count = text.len() - run.random.below(3).min(text.len());
        list_and_read(run, &bytes, count, 8);
    }
}

/// Sets among other strings, with damaged stretches; a set is read at every start.
pub fn sets(run: &mut Run) {
    for _ in 0..2_000 * run.long {
        let mut text = String::new();
        for _ in 0..1 + run.random.below(4) {
            let many = run.random.below(3);
            text += &strings(&mut run.random, many).concat();
            let set = make::ephemeris(&mut run.random);
            text += &make::strings_of(&set).concat();
        }
        for _ in 0..run.random.below(3) {
            damage(&mut run.random, &mut text);
        }
        let bytes = make::pack(&text);
        let count = text.len() - run.random.below(3).min(text.len());
        let found = run.list(&bytes, count, count / 125 + 1);
        for start in found.starts() {
            run.read_set(&bytes, count, *start as usize);
        }
    }
}

/// Whole strings, or the beginnings of strings, inside the raw bits of a longer one, which
/// stands or has one bit wrong.
pub fn nested(run: &mut Run) {
    for _ in 0..25_000 * run.long {
        let outer = run.random.pick(&[2, 2, 2, 0, 63, 1]);
        let inner = run.random.pick(&[1, 1, 0, 10]);
        let mut string = make::any_string(&mut run.random, outer);
        let inside = make::string(&mut run.random, inner);
        let free = string.len() - if outer == 2 { 24 } else { 16 };
        let place = 18 + run.random.below(free - 18);
        let end = free.min(place + inside.len());
        string.replace_range(place..end, &inside[..end - place]);
        let mut string = make::close(&string[..free], outer);
        if run.random.once_in(2) {
            let wrong = run.random.below(string.len());
            string = make::turn(&string, wrong, "1");
        }
        let many = run.random.below(3);
        let lead = run.random.below(9);
        let before = run.random.bits(lead) + &strings(&mut run.random, many).concat();
        let after = strings(&mut run.random, many).concat();
        let text = before + &string + &after;
        list_and_read(run, &make::pack(&text), text.len(), 4);
    }
}

/// Recordings with a mark at every place where one fits, whole, overlapping or with a type.
pub fn marks(run: &mut Run) {
    for kind in 0..64 {
        let pattern = format!("{MARK}{kind:06b}");
        let text = pattern.repeat(120);
        list_and_read(run, &make::pack(&text), text.len(), 20);
    }
    for step in [MARK, &MARK[..10], &format!("{MARK}0"), &format!("{MARK}1")] {
        let text = step.repeat(200);
        list_and_read(run, &make::pack(&text), text.len(), 20);
        let full = step.repeat(LIMIT / step.len() + 1);
        list_and_read(run, &make::pack(&full[..LIMIT]), LIMIT, 20);
    }
}

/// Recordings as long as the limit: noise, strings back to back, with and without damage.
pub fn full(run: &mut Run) {
    for round in 0..30 * run.long {
        let noise = run.random.bytes(LIMIT / 8 + 1);
        list_and_read(run, &noise, LIMIT - round % 9, 10);
        run.list(&noise, LIMIT + 1, 100);

        let mut text = match round % 3 {
            0 => strings(&mut run.random, LIMIT / 200).concat(),
            1 => make::string(&mut run.random, 1).repeat(LIMIT / 125 + 1),
            _ => make::string(&mut run.random, 2).repeat(LIMIT / 375 + 1),
        };
        for _ in 0..round % 2 * 60 {
            damage(&mut run.random, &mut text);
        }
        text += &"0".repeat(LIMIT.saturating_sub(text.len()));
        let bytes = make::pack(&text[..LIMIT]);
        list_and_read(run, &bytes, LIMIT, 300);
        let longer = [&bytes[..], &[0x5A]].concat();
        list_and_read(run, &longer, LIMIT, 20);
        run.list(&longer, LIMIT + 1, LIMIT / 125 + 1);
        run.read(&longer, LIMIT + 1, 0);
    }
}
