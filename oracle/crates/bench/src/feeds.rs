//! What one feed and one read cost: their tests read the session's record and
//! all of out.

use crate::bench::Row;
use crate::report::{count, seconds, table};
use crate::sessions::{FED, FEED, READ, one_feed, one_read};
use crate::side::Who::Ours;

pub fn text(rows: &[Row]) -> String {
    let time = |name: &str, size: String| {
        let row = rows.iter().find(|row| row.name == name && row.size == size);
        row.and_then(|row| row.time(Ours)).unwrap_or(f64::NAN)
    };
    let line = |(n, k): (usize, usize)| {
        let [tests, feed] = [0, 16].map(|words| time(FEED, one_feed(k, words)));
        let feeds = 1 << (n - 4);
        vec![
            k.to_string(),
            count(4 << (n - k)),
            seconds(feed),
            seconds(tests),
            seconds(time(READ, one_read(k))),
            seconds(tests * f64::from(feeds)),
        ]
    };
    let lines: Vec<_> = FED.map(line).into();
    let head = [
        "k",
        "words of out",
        "a feed of 16 words",
        "a feed of none",
        "a read",
        "65,536 feeds of none",
    ];
    table(&head, &lines)
}
