//! A refused history in words.
//!
//! Who is where, and which event would be a thread's next, is asked of a
//! watcher that has been handed the events before the refused one.

use wospinzo::{Event, Refusal, Watcher};

use crate::events::ThreadEvent;

/// Threads that are named at most, where more are inside.
const NAMED: usize = 4;

/// Why the last of these events was refused; the ones before it were not.
pub fn explain(threads: u16, refusal: Refusal, events: &[ThreadEvent]) -> String {
    let words = events
        .split_last()
        .and_then(|(&last, before)| words(&watch(threads, before)?, refusal, last));
    words.unwrap_or_else(|| refusal.to_string())
}

fn words(watcher: &Watcher, refusal: Refusal, last: ThreadEvent) -> Option<String> {
    match refusal {
        Refusal::UnknownPair => Some(out_of_range(watcher.threads(), last)),
        Refusal::NotNext => Some(not_next(watcher, last)),
        Refusal::Occupied => Some(occupied(watcher, last)),
        _ => None,
    }
}

/// The watcher after the events.
fn watch(threads: u16, events: &[ThreadEvent]) -> Option<Watcher> {
    let mut watcher = Watcher::new(threads).ok()?;
    for event in events {
        watcher.event(event.thread, event.event).ok()?;
    }
    Some(watcher)
}

fn out_of_range(threads: u16, last: ThreadEvent) -> String {
    let there_are = match threads {
        1 => "there is thread 0 alone".to_string(),
        _ => format!("the threads are 0 to {}", threads - 1),
    };
    format!(
        "thread {} is out of range: N is {threads}, {there_are}",
        last.thread
    )
}

fn not_next(watcher: &Watcher, last: ThreadEvent) -> String {
    let next: Vec<String> = Event::ALL
        .iter()
        .filter(|&&event| is_next(watcher, last.thread, event))
        .map(Event::to_string)
        .collect();
    format!(
        "thread {} shows {}, but its next event would be {}",
        last.thread,
        last.event,
        next.join(" or ")
    )
}

/// Whether an event is the thread's next, if not at once, then as soon as a
/// section is empty.
fn is_next(watcher: &Watcher, thread: u16, event: Event) -> bool {
    let judged = watcher.clone().event(thread, event);
    matches!(judged, Ok(()) | Err(Refusal::Occupied))
}

fn occupied(watcher: &Watcher, last: ThreadEvent) -> String {
    let wanted = match last.event {
        Event::EnterSharedReturn => "shared",
        _ => "exclusive",
    };
    let shared = inside(watcher, Event::EnterSharedReturn);
    let (place, who) = match inside(watcher, Event::EnterExclusiveReturn) {
        who if who.is_empty() => ("shared", shared),
        who => ("exclusive", who),
    };
    format!(
        "thread {} returns from its call to enter {wanted} while {} in {place}",
        last.thread,
        are(&who)
    )
}

/// The threads whose last event is the one with which they came in.
fn inside(watcher: &Watcher, entered: Event) -> Vec<usize> {
    let places = watcher.places().iter().enumerate();
    places
        .filter(|(_, &place)| place == entered as u8)
        .map(|(thread, _)| thread)
        .collect()
}

/// `thread 0 is`, `threads 0, 1 and 2 are`, `threads 0, 1, 2, 3 and 5 others are`.
fn are(threads: &[usize]) -> String {
    let mut names: Vec<String> = threads.iter().map(usize::to_string).collect();
    if names.len() > NAMED + 1 {
        let others = names.len() - NAMED;
        names.truncate(NAMED);
        names.push(format!("{others} others"));
    }
    match names.split_last() {
        Some((last, before)) if !before.is_empty() => {
            format!("threads {} and {last} are", before.join(", "))
        }
        _ => format!("thread {} is", names.concat()),
    }
}

#[cfg(test)]
mod tests {
    use super::*;

    fn events(pairs: &[(u16, u8)]) -> Vec<ThreadEvent> {
        let event = |&(thread, code)| ThreadEvent {
            thread,
            event: Event::from_code(code).unwrap(),
        };
        pairs.iter().map(event).collect()
    }

    #[test]
    fn those_inside_are_named() {
        let mut pairs = vec![(9, 5)];
        for readers in 1..=8 {
            pairs.extend([(readers - 1, 1), (readers - 1, 2)]);
            let mut history = events(&pairs);
            history.extend(events(&[(9, 6)]));
            let words = explain(10, Refusal::Occupied, &history);
            let who = match readers {
                1 => "thread 0 is",
                2 => "threads 0 and 1 are",
                5 => "threads 0, 1, 2, 3 and 4 are",
                6 => "threads 0, 1, 2, 3 and 2 others are",
                8 => "threads 0, 1, 2, 3 and 4 others are",
                _ => continue,
            };
            let expected =
                format!("thread 9 returns from its call to enter exclusive while {who} in shared");
            assert_eq!(words, expected);
        }
    }

    #[test]
    fn a_writer_inside_is_named() {
        for (code, wanted) in [(2, "shared"), (6, "exclusive")] {
            let history = events(&[(0, 5), (0, 6), (1, code - 1), (1, code)]);
            let words = explain(2, Refusal::Occupied, &history);
            let expected = format!(
                "thread 1 returns from its call to enter {wanted} while thread 0 is in exclusive"
            );
            assert_eq!(words, expected);
        }
    }

    #[test]
    fn the_next_event_is_said_for_every_place() {
        let rounds: [&[u8]; 7] = [&[], &[1], &[1, 2], &[1, 2, 3], &[5], &[5, 6], &[5, 6, 7]];
        let nexts = [
            "enter shared call or enter exclusive call",
            "enter shared return",
            "leave shared call",
            "leave shared return",
            "enter exclusive return",
            "leave exclusive call",
            "leave exclusive return",
        ];
        for (round, next) in rounds.iter().zip(nexts) {
            let wrong = if round.last() == Some(&7) { 7 } else { 8 };
            let codes = round.iter().chain([&wrong]);
            let pairs: Vec<(u16, u8)> = codes.map(|&code| (3, code)).collect();
            let words = explain(4, Refusal::NotNext, &events(&pairs));
            let ending = format!("but its next event would be {next}");
            assert!(words.ends_with(&ending), "{words}");
        }
    }

    #[test]
    fn a_next_event_that_has_to_wait_is_the_next() {
        let history = events(&[(0, 5), (0, 6), (1, 1), (1, 3)]);
        let words = explain(2, Refusal::NotNext, &history);
        let expected =
            "thread 1 shows leave shared call, but its next event would be enter shared return";
        assert_eq!(words, expected);
    }

    #[test]
    fn the_thread_out_of_range_is_said() {
        let words = explain(1, Refusal::UnknownPair, &events(&[(256, 1)]));
        let expected = "thread 256 is out of range: N is 1, there is thread 0 alone";
        assert_eq!(words, expected);
    }
}
