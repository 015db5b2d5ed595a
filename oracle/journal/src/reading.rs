//! Lines that are read, with anything before and behind them, and what isn't one.

use crate::form::{Line, read};
use crate::{REALS, bytes_of, drawn};
use random::Random;
use words::case;

/// A place, the journal's length and its bytes = 0, the line and the place behind it; 1 at the end; or 29 and the line's number.
fn read_at(journal: &[u8], place: usize) -> String {
    let input = [vec![place as u64, journal.len() as u64], bytes_of(journal)].concat();
    let rest = journal.get(place..).unwrap_or(&[]);
    if rest.is_empty() {
        return case(&input, &[1]);
    }
    let Some((line, length)) = read(rest) else {
        let before = journal[..place].iter().filter(|&&byte| byte == b'\n').count();
        return case(&input, &[29, before as u64 + 1]);
    };
    case(&input, &[vec![0], line.words(), vec![(place + length) as u64]].concat())
}

fn text(line: &Line) -> String {
    line.text().expect("the journal has such a line")
}

pub fn cases() -> Vec<String> {
    let random = &mut Random::named("journal read");
    let mut cases = vec![];
    for (i, number) in [0, 1, 9, 10, 42, 99, 100, 101, 600, 655].into_iter().enumerate() {
        let line = drawn(random, number, [0, 1, 9, 10, 16][i % 5], i as u64 % 5);
        cases.push(read_at(text(&line).as_bytes(), 0));
    }
    // each kind of real, and NaNs that the journal hasn't
    for (i, bits) in REALS.into_iter().enumerate() {
        let mut line = drawn(random, 3, 1, 0);
        let (field, digits) = (i % 6, format!("{bits:016x}"));
        line.seed[field] = 0x1234_5678_9abc_def0;
        cases.push(read_at(text(&line).replace("123456789abcdef0", &digits).as_bytes(), 0));
        line.scored[i % 8] = 0x0fed_cba9_8765_4321;
        cases.push(read_at(text(&line).replace("0fedcba987654321", &digits).as_bytes(), 0));
    }
    // a whole journal: every line, and its end
    let lines = [0, 1, 2, 3, 4].map(|skipped| text(&drawn(random, skipped, 0, skipped)));
    let journal = lines.concat();
    let mut place = 0;
    for line in &lines {
        cases.push(read_at(journal.as_bytes(), place));
        place += line.len();
    }
    for place in [place, place + 1, usize::MAX] {
        cases.push(read_at(journal.as_bytes(), place));
    }
    // a place inside a line, and a line behind one that isn't
    for place in [1, 2, 100, journal.len() - 1] {
        cases.push(read_at(journal.as_bytes(), place));
    }
    let behind = format!("{}x\n\n{}", lines[1], lines[0]);
    for place in [lines[1].len(), lines[1].len() + 2, lines[1].len() + 3] {
        cases.push(read_at(behind.as_bytes(), place));
    }
    let scored = text(&Line { number: 42, round: 7, ..drawn(random, 0, 0, 0) });
    let skipped = text(&Line { number: 42, round: 7, ..drawn(random, 0, 0, 1) });
    let reals = scored.split_once(",S,").expect("it is scored").1;
    for bad in [
        String::new(),
        "\n".to_owned(),
        "x\n".to_owned(),
        scored.trim_end().to_owned(),
        skipped.trim_end().to_owned(),
        scored.replace('\n', "\r\n"),
        skipped.replace('\n', " \n"),
        skipped.replace(",H,", ", H,"),
        skipped.replace(",H,", ",S,"),
        skipped.replace(",H,", ",h,"),
        skipped.replace(",H,", ",X,"),
        skipped.replace(",H,", ",,"),
        skipped.replace(",H,", ",HH,"),
        skipped.replace("-\n", "-,-\n"),
        skipped.replace(",-\n", "\n"),
        skipped.replace(",-\n", ",\n"),
        skipped.replace(",-\n", ",0\n"),
        skipped.replace(",-,-,-,-,-,-,-,-\n", &format!(",{reals}")),
        scored.replace(",S,", ",E,"),
        scored.replacen("42,7,", "042,7,", 1),
        scored.replacen("42,7,", "00,7,", 1),
        scored.replacen("42,7,", "+42,7,", 1),
        scored.replacen("42,7,", "-42,7,", 1),
        scored.replacen("42,7,", " 42,7,", 1),
        scored.replacen("42,7,", ",7,", 1),
        scored.replacen("42,7,", "656,7,", 1),
        scored.replacen("42,7,", "999,7,", 1),
        scored.replacen("42,7,", "1000,7,", 1),
        scored.replacen("42,7,", "4294967338,7,", 1),
        scored.replacen("42,7,", "42,07,", 1),
        scored.replacen("42,7,", "42,17,", 1),
        scored.replacen("42,7,", "42,100,", 1),
        scored.replacen("42,7,", "42,,", 1),
        scored.replacen("42,7,", "42;7,", 1),
        scored.replacen("42,7,", "42,7,0,", 1),
        scored.to_uppercase(),
        scored.replace(',', "\t"),
        format!("\"{}\"\n", scored.trim_end()),
    ] {
        cases.push(read_at(bad.as_bytes(), 0));
        cases.push(read_at(format!("{skipped}\n{bad}").as_bytes(), skipped.len() + 1));
    }
    cases
}
