//! The definition itself: all full orders agree for every pair of vectors and every old output.

use crate::evaluation::along;
use crate::table::Table;
use crate::value::Value;

/// Meant for up to four inputs; beyond, it takes too long.
pub fn is_independent(table: &Table) -> bool {
    let vectors = vectors(table.inputs);
    let orders = full_orders(table.inputs);
    vectors.iter().all(|previous| {
        vectors.iter().all(|current| {
            Value::ALL
                .iter()
                .all(|&old| orders_agree(table, previous, current, old, &orders))
        })
    })
}

fn orders_agree(
    table: &Table,
    previous: &[Value],
    current: &[Value],
    old: Value,
    orders: &[Vec<u8>],
) -> bool {
    let output = |order: &Vec<u8>| along(table, previous, current, old, order);
    let first = output(&orders[0]);
    orders.iter().all(|order| output(order) == first)
}

/// All vectors of n values, rising, input 1 weighing most.
pub fn vectors(n: usize) -> Vec<Vec<Value>> {
    extend(n, |vector| {
        Value::ALL
            .iter()
            .map(|&value| with(vector, value))
            .collect()
    })
}

/// All full orders of n inputs, in rising dictionary order.
pub fn full_orders(n: usize) -> Vec<Vec<u8>> {
    extend(n, |order| {
        let free = (1..=n as u8).filter(|number| !order.contains(number));
        free.map(|number| with(order, number)).collect()
    })
}

fn extend<T>(n: usize, longer: impl Fn(&Vec<T>) -> Vec<Vec<T>>) -> Vec<Vec<T>> {
    (0..n).fold(vec![Vec::new()], |lists, _| {
        lists.iter().flat_map(&longer).collect()
    })
}

fn with<T: Copy>(list: &[T], last: T) -> Vec<T> {
    list.iter().copied().chain([last]).collect()
}
