//! Narrower columns.

use std::cmp::Reverse;
use std::collections::BinaryHeap;

use crate::cells::PADDING;
use crate::options::Priority;

/// Takes columns from the widths, none of which becomes less than the padding.
pub fn shrink(widths: &mut [usize], excess: usize, priority: Priority) {
    match priority {
        Priority::None => shrink_in_turn(widths, excess),
        Priority::Max => shrink_widest(widths, excess),
        Priority::Min => {
            let mut order: Vec<usize> = (0..widths.len()).collect();
            order.sort_by_key(|&column| (widths[column], Reverse(column)));
            shrink_in_order(widths, excess, order.into_iter());
        }
        Priority::Left => shrink_in_order(widths, excess, 0..widths.len()),
        Priority::Right => shrink_in_order(widths, excess, (0..widths.len()).rev()),
    }
}

/// Takes one column from each width in turn.
fn shrink_in_turn(widths: &mut [usize], mut excess: usize) {
    while excess > 0 {
        let before = excess;
        for width in widths
            .iter_mut()
            .filter(|width| **width > PADDING)
            .take(before)
        {
            *width -= 1;
            excess -= 1;
        }
        if excess == before {
            return;
        }
    }
}

/// Takes one column at a time from the widest, of equals from the rightmost.
fn shrink_widest(widths: &mut [usize], excess: usize) {
    let mut heap: BinaryHeap<_> = widths.iter().copied().zip(0..).collect();
    for _ in 0..excess {
        let Some(mut widest) = heap.peek_mut() else {
            return;
        };
        if widest.0 == PADDING {
            return;
        }
        widest.0 -= 1;
        widths[widest.1] -= 1;
    }
}

/// Takes what it can from one column after the other.
fn shrink_in_order(widths: &mut [usize], mut excess: usize, order: impl Iterator<Item = usize>) {
    for column in order {
        let taken = excess.min(widths[column] - PADDING);
        widths[column] -= taken;
        excess -= taken;
    }
}
