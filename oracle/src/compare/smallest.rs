// Leaves out of an input whatever it can do without.

/// A part of the items that still passes the test and from which no single item can be left out.
pub fn smallest<T: Clone>(mut items: Vec<T>, mut test: impl FnMut(&[T]) -> bool) -> Vec<T> {
    let mut length = items.len().div_ceil(2);
    while length > 0 {
        let mut from = 0;
        let mut shorter = false;
        while from < items.len() {
            let rest = without(&items, from, length);
            if test(&rest) {
                items = rest;
                shorter = true;
            } else {
                from += length;
            }
        }
        if !shorter || length > 1 {
            length /= 2;
        }
    }
    items
}

fn without<T: Clone>(items: &[T], from: usize, length: usize) -> Vec<T> {
    let to = items.len().min(from + length);
    [&items[..from], &items[to..]].concat()
}

#[cfg(test)]
mod tests {
    use super::smallest;

    #[test]
    fn what_is_needed_stays() {
        let needed = |items: &[u32]| items.contains(&3) && items.contains(&17);
        assert_eq!(smallest((0..40).collect(), needed), [3, 17]);
        assert_eq!(smallest(Vec::new(), |_: &[u32]| true), []);
    }
}
