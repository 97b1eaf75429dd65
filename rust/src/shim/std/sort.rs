//! Stable sorts in memory that may run out.

use super::alloc::AllocError;
use ::std::cmp::Ordering;

/// Sorts elements; equal ones keep their order. If memory runs out, they stay as they are.
pub fn sort_by<T, F: FnMut(&T, &T) -> Ordering>(items: &mut [T], mut compare: F) -> Result<(), AllocError> {
    if items.is_sorted_by(|a, b| compare(a, b) != Ordering::Greater) {
        return Ok(());
    }
    let mut order: Vec<usize> = Vec::new();
    order.try_reserve_exact(items.len())?;
    order.extend(0..items.len());
    // With the positions as a last key no two elements are equal, so this is stable.
    order.sort_unstable_by(|a, b| compare(&items[*a], &items[*b]).then(a.cmp(b)));
    permute(items, &mut order);
    Ok(())
}

/// Sorts elements by keys; elements with equal keys keep their order. If memory runs out, they stay as they are.
///
/// Elements that are less than one before them are late. If they are at most a quarter of all, they alone are sorted,
/// and merged with the others, which ascend.
pub fn sort_by_key<T, K: Ord, F: FnMut(&T) -> K>(items: &mut [T], mut key: F) -> Result<(), AllocError> {
    let late_count = count_late(items, &mut key);
    if late_count == 0 {
        return Ok(());
    }
    let has_few_late = late_count <= items.len() / 4;
    let mut order: Vec<usize> = Vec::new();
    order.try_reserve_exact(items.len())?;
    let mut late: Vec<(K, usize)> = Vec::new();
    late.try_reserve_exact(if has_few_late { late_count } else { items.len() })?;
    if has_few_late {
        split_late(items, &mut key, &mut order, &mut late);
    } else {
        late.extend(items.iter().enumerate().map(|(position, item)| (key(item), position)));
    }
    // With the positions after the keys no two are equal, so this is stable.
    late.sort_unstable();
    merge_late(items, &mut key, &mut order, late);
    permute(items, &mut order);
    Ok(())
}

// The number of elements that are less than one before them.
fn count_late<T, K: Ord, F: FnMut(&T) -> K>(items: &[T], key: &mut F) -> usize {
    let mut keys = items.iter().map(key);
    let Some(mut greatest) = keys.next() else {
        return 0;
    };
    let mut count = 0;
    for key in keys {
        if key < greatest {
            count += 1;
        } else {
            greatest = key;
        }
    }
    count
}

// Appends the positions of the late elements to `late`, with their keys, and those of the others to `order`. Both have
// the capacity.
fn split_late<T, K: Ord, F: FnMut(&T) -> K>(items: &[T], key: &mut F, order: &mut Vec<usize>, late: &mut Vec<(K, usize)>) {
    let mut greatest = None;
    for (position, item) in items.iter().enumerate() {
        let key = key(item);
        if greatest.as_ref().is_some_and(|greatest| key < *greatest) {
            late.push((key, position));
        } else {
            greatest = Some(key);
            order.push(position);
        }
    }
}

// Merges the sorted late elements into `order`, from the last one on. `order` has the capacity.
fn merge_late<T, K: Ord, F: FnMut(&T) -> K>(items: &[T], key: &mut F, order: &mut Vec<usize>, mut late: Vec<(K, usize)>) {
    let mut rest = order.len();
    let mut end = rest + late.len();
    order.resize(end, 0);
    while let Some((late_key, late_position)) = late.last() {
        end -= 1;
        // The other elements that are greater than the last late one. An equal one that is before it stays before it.
        let position = rest.checked_sub(1).map(|last| order[last]);
        match position.map(|position| (key(&items[position]), position)) {
            Some((key, position)) if (&key, position) > (late_key, *late_position) => {
                rest -= 1;
                order[end] = position;
            }
            _ => {
                order[end] = *late_position;
                late.pop();
            }
        }
    }
}

// Moves the element `order[i]` to the position `i`, a cycle at a time.
fn permute<T>(items: &mut [T], order: &mut [usize]) {
    for start in 0..order.len() {
        let mut at = start;
        while order[at] != start {
            let next = order[at];
            items.swap(at, next);
            order[at] = at;
            at = next;
        }
        order[at] = at;
    }
}
