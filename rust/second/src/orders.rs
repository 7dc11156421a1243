//! The two orders and their labels, by redoing the whole history strand by strand.

use crate::file::{refused, Refusal};
use crate::trace::Trace;

const ROOT_LABEL: u64 = 1 << 63;

/// An order after some events: the strands in it, their labels by strand, and how many labels counted as changed.
pub struct Order {
    pub strands: Vec<usize>,
    pub labels: Vec<u64>,
    pub count: u64,
}

/// "English: strands as they began."
pub fn english(strands: usize) -> Result<Order, Refusal> {
    history(&(0..strands).collect::<Vec<_>>())
}

/// "Hebrew: a stands ahead of b if a is before b, or if they are parallel and a began later."
pub fn hebrew(trace: &Trace, strands: usize) -> Result<Order, Refusal> {
    let mut sorted: Vec<usize> = (0..strands).collect();
    sorted.sort_by(|&a, &b| trace.ahead(b, a).cmp(&trace.ahead(a, b)));
    history(&sorted)
}

/// Begins the strands one by one: "A new strand goes to its place".
fn history(sorted: &[usize]) -> Result<Order, Refusal> {
    let mut rank = vec![0; sorted.len()];
    for (place, &strand) in sorted.iter().enumerate() {
        rank[strand] = place;
    }
    // "The root's counts before any event, so each count starts at 1."
    let mut order = Order { strands: vec![0], labels: vec![ROOT_LABEL], count: 1 };
    for strand in 1..sorted.len() {
        let place = order.strands.iter().filter(|&&other| rank[other] < rank[strand]).count();
        order = begin(order, strand, place)?;
    }
    Ok(order)
}

/// The order after the event that begins `strand`, which stands at `place` in it.
fn begin(before: Order, strand: usize, place: usize) -> Result<Order, Refusal> {
    let mut strands = before.strands;
    let low = before.labels[strands[place - 1]];
    let high = strands.get(place).map_or(u64::MAX, |&next| before.labels[next]);
    strands.insert(place, strand);
    let mut labels = before.labels.clone();
    labels.push(0);
    if high - low >= 2 {
        labels[strand] = low + (high - low) / 2;
    } else {
        for (position, &strand) in strands.iter().enumerate() {
            labels[strand] = respaced(position)?;
        }
    }
    // "A label counts as changed by an event if it differs after it, or if the strand is new."
    let changed = (0..labels.len()).filter(|&strand| before.labels.get(strand) != Some(&labels[strand])).count();
    Ok(Order { strands, labels, count: before.count + changed as u64 })
}

/// "position k, from 0, gets 2^51 + k × 2^52"; 17 if that is no label.
fn respaced(position: usize) -> Result<u64, Refusal> {
    let label = (1u128 << 51) + ((position as u128) << 52);
    u64::try_from(label).or(refused(17))
}

#[cfg(test)]
mod tests {
    use super::*;

    #[test]
    fn the_last_strand_has_room() {
        assert_eq!(respaced(4095), Ok(u64::MAX - (1 << 51) + 1));
        assert_eq!(respaced(4096), Err(Refusal { number: 17, event: 0 }));
    }
}
