//! Sets of numbers, as blocks from a lowest to a highest number. A list of blocks is canonical where each begins above
//! the one before it, with a number between them at least (RFC 3779 2.2.3.6, 3.2.3.4).

/// The lowest and the highest number of a block.
pub(super) type Ends = (u128, u128);

/// The canonical list of the numbers of these blocks.
pub(super) fn canonical(mut blocks: Vec<Ends>) -> Vec<Ends> {
    blocks.sort_unstable();
    let mut found: Vec<Ends> = Vec::with_capacity(blocks.len());
    for (low, high) in blocks {
        match found.last_mut() {
            Some(last) if low <= last.1.saturating_add(1) => last.1 = last.1.max(high),
            _ => found.push((low, high)),
        }
    }
    found
}

/// Whether each number of the one canonical list is one of the other.
pub(super) fn is_part(part: &[Ends], whole: &[Ends]) -> bool {
    part.iter().all(|(low, high)| {
        let next = whole.partition_point(|(_, top)| top < low);
        whole.get(next).map_or(false, |(bottom, top)| bottom <= low && high <= top)
    })
}

/// The numbers of both canonical lists.
pub(super) fn shared(one: &[Ends], other: &[Ends]) -> Vec<Ends> {
    let (mut xs, mut ys) = (one.iter().peekable(), other.iter().peekable());
    let mut found = Vec::new();
    while let (Some(x), Some(y)) = (xs.peek(), ys.peek()) {
        let (low, high) = (x.0.max(y.0), x.1.min(y.1));
        if low <= high {
            found.push((low, high));
        }
        if x.1 < y.1 {
            xs.next();
        } else {
            ys.next();
        }
    }
    found
}

/// The numbers of the one canonical list that are not in the other.
pub(super) fn lacking(one: &[Ends], other: &[Ends]) -> Vec<Ends> {
    let mut found = Vec::new();
    for (mut low, high) in one.iter().copied() {
        let next = other.partition_point(|(_, top)| *top < low);
        let mut is_done = false;
        for (bottom, top) in other[next..].iter().copied().take_while(|(bottom, _)| *bottom <= high) {
            if low < bottom {
                found.push((low, bottom - 1));
            }
            if top >= high {
                is_done = true;
                break;
            }
            low = top + 1;
        }
        if !is_done {
            found.push((low, high));
        }
    }
    found
}
