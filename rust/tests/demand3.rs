//! Demand 3: a plan with margins of zero or more, sent over a pair that is crossed or not, read
//! with any phase and any choices, and with one stretch of its reads replaced by any others.
//!
//! What must come of it, as tested here:
//!
//! * Up to the stretch, the events are exactly the deliveries of the rows whose last sample
//!   is read there, each with the bits sent and with that sample's read.
//! * Let a row be the first whose lead quiet is read wholly after the stretch. After the
//!   read with which that quiet has been heard, the events are exactly the deliveries of
//!   this row and of all later ones, again each with its bits and its last sample's read.
//!
//! Nothing is asked of the reads between, the one that hears the quiet included.

mod common;

use common::{counted_model, feed, lent, packed, through_the_line, Accepted, Rng};
use siengulot_plain::board::{Event, Mode, Receiver};
use siengulot_plain::sender;
use siengulot_plain::settings::judge_quiet;

/// What is known of one row before the receiver is asked.
struct Row {
    bits: Vec<u8>,
    /// First read that overlaps the lead pad in time.
    quiet_starts: usize,
    /// The read with which the lead pad's quiet has been heard.
    heard: usize,
    /// The read of the last sample, by the counted rule from after `heard`.
    last_sample: usize,
}

struct Sent {
    settings: Accepted,
    n: usize,
    /// The level of quiet: low over a crossed pair.
    quiet: u8,
    reads: Vec<u8>,
    rows: Vec<Row>,
}

fn send(rng: &mut Rng) -> Sent {
    let settings = Accepted::random(rng);
    let Accepted {
        a,
        b,
        g,
        k,
        w,
        r,
        q,
        ..
    } = settings;
    let (n, count) = (rng.within(1, 6), rng.within(1, 5));
    let leads: Vec<usize> = (0..count)
        .map(|_| settings.p1 + rng.below(2) * rng.below(40))
        .collect();
    for &lead in &leads {
        assert!(judge_quiet(a, b, g, k, w, r, q, lead).unwrap().accepted);
    }
    let bits = rng.bits(count * n);
    let cells = n * (a + b);
    let length = leads.iter().sum::<usize>() + count * cells;
    let mut wave = lent(length);
    let planned = sender::plan(a, b, n, &leads, &bits, &mut wave);
    assert_eq!(planned, Ok(length));
    let quiet = rng.below(2) as u8;
    if quiet == 0 {
        wave.iter_mut().for_each(|level| *level = 1 - *level);
    }
    let p = rng.below(w as usize) as u64;
    let many = [0, rng.below(50), 2_000][rng.below(3)];
    let choices = rng.reads(many);
    let reads = through_the_line(&wave, g, w, r, p, &choices);

    let mut rows = Vec::new();
    let mut first_cycle = 0;
    for (i, row) in bits.chunks(n).enumerate() {
        let start = first_cycle as u64 * w;
        let end = (first_cycle + leads[i]) as u64 * w;
        let span = |j: usize| (p + j as u64 * r, p + (j as u64 + 1) * r);
        let quiet_starts = (0..reads.len())
            .find(|&j| span(j).0 < end && span(j).1 > start)
            .expect("the quiet is read");
        let heard = (0..reads.len())
            .filter(|&j| span(j).0 >= start + g as u64 * w && span(j).1 <= end)
            .nth(q - 1)
            .expect("M5 leaves room for Q reads");
        let (found, samples) = counted_model(n, quiet, k, &reads[heard + 1..]);
        assert_eq!(found, row);
        rows.push(Row {
            bits: row.to_vec(),
            quiet_starts,
            heard,
            last_sample: heard + 1 + samples[n - 1],
        });
        first_cycle += leads[i] + cells;
    }
    Sent {
        settings,
        n,
        quiet,
        reads,
        rows,
    }
}

/// The deliveries of `rows`, with places moved by the damage from `end` to `new_end`.
fn deliveries<'a>(
    rows: impl Iterator<Item = &'a Row>,
    end: usize,
    new_end: usize,
) -> Vec<(usize, Event)> {
    rows.map(|row| {
        let place = row.last_sample - end + new_end;
        (place, Event::Row(packed(&row.bits)))
    })
    .collect()
}

#[test]
fn undamaged_plans_are_delivered() {
    let mut rng = Rng::new(61);
    for _ in 0..400 {
        let sent = send(&mut rng);
        let Accepted { k, q, .. } = sent.settings;
        let mut receiver = Receiver::fresh(k, sent.n, q).unwrap();
        let events = feed(&mut receiver, &sent.reads);
        assert_eq!(events, deliveries(sent.rows.iter(), 0, 0));
    }
}

#[test]
fn one_stretch_replaced() {
    let mut rng = Rng::new(62);
    let (mut before, mut after) = (0, 0);
    let (mut broken_when_heard, mut false_rows) = (0, 0);
    for _ in 0..2_500 {
        let Sent {
            settings: Accepted { k, q, .. },
            n,
            quiet,
            reads,
            rows,
        } = send(&mut rng);
        // Anywhere, or right after a last sample, or right up to a row's quiet.
        let row = &rows[rng.below(rows.len())];
        let kind = rng.below(3);
        let start = match kind {
            0 => rng.below(reads.len() + 1),
            1 => row.last_sample + 1,
            _ => row.quiet_starts - rng.below(row.quiet_starts.min(60) + 1),
        };
        let end = if kind == 2 {
            row.quiet_starts
        } else {
            let rest = reads.len() - start;
            let longest = rest.min([2, 30, rest][rng.below(3)]);
            start + rng.below(longest + 1)
        };
        let new_length = match rng.below(4) {
            0 => end - start,
            1 => 0,
            2 => rng.below(20),
            _ => rng.below(500),
        };
        // Noise, or a piece of the stream in the wrong place.
        let stretch = if rng.below(4) > 0 {
            rng.reads(new_length)
        } else {
            let from = rng.below(reads.len());
            let to = reads.len().min(from + new_length);
            reads[from..to].to_vec()
        };
        let new_end = start + stretch.len();
        let damaged = [&reads[..start], &stretch[..], &reads[end..]].concat();

        let mut receiver = Receiver::fresh(k, n, q).unwrap();
        let early = feed(&mut receiver, &reads[..start]);
        let early_rows = rows.iter().take_while(|row| row.last_sample < start);
        assert_eq!(early, deliveries(early_rows, 0, 0));
        before += early.len();

        let mut receiver = Receiver::fresh(k, n, q).unwrap();
        let events = feed(&mut receiver, &damaged);
        assert_eq!(events[..early.len()], early[..]);
        if let Some(first) = rows.iter().position(|row| row.quiet_starts >= end) {
            let heard = rows[first].heard - end + new_end;
            let mut receiver = Receiver::fresh(k, n, q).unwrap();
            let until = feed(&mut receiver, &damaged[..=heard]);
            assert_eq!((receiver.mode, receiver.level), (Mode::Ready, quiet));
            let expected = deliveries(rows[first..].iter(), end, new_end);
            assert_eq!(events[until.len()..], expected[..]);

            after += expected.len();
            if let Some((place, Event::Broken(_))) = until.last() {
                broken_when_heard += usize::from(*place == heard);
            }
            false_rows += until[early.len()..]
                .iter()
                .filter(|(_, event)| matches!(event, Event::Row(_)))
                .count();
        }
    }
    // The test is not empty: rows on both sides, damage that was taken for rows, and rows
    // in progress broken off by the very read that hears the quiet.
    assert!(before > 1_000 && after > 1_000, "{} {}", before, after);
    assert!(false_rows > 50, "{}", false_rows);
    assert!(broken_when_heard > 20, "{}", broken_when_heard);
}
