// The analysis of a row list: the checks 1 to 7, then the bounds by stepping every window.

pub const MOST_ROWS: usize = 32;
pub const MOST_CORES: u64 = 16;
pub const LARGEST_GAP: u64 = 1_000_000;

const AFFORDABLE_CHOICES: u64 = 2_000;

/// C, D and T in ticks: any unsigned numbers, until the checks have passed.
#[derive(Clone, Copy, Debug, PartialEq, Eq)]
pub struct Row {
    pub c: u64,
    pub d: u64,
    pub t: u64,
}

#[derive(Clone, Copy, Debug, PartialEq, Eq)]
pub struct Refusal {
    pub number: u32,
    pub place: u64,
}

#[derive(Clone, Debug, PartialEq, Eq)]
pub enum Answer {
    AllShown { bounds: Vec<u64> },
    NotShown { place: usize, bounds: Vec<u64> },
    Refused(Refusal),
}

pub fn refuse<T>(number: u32, place: u64) -> Result<T, Refusal> {
    Err(Refusal { number, place })
}

/// `entries` is the number of entries of the caller's bounds list.
pub fn analyse(cores: u64, rows: &[Row], entries: usize) -> Answer {
    match check(cores, rows).and_then(|()| check_entries(rows, entries)) {
        Ok(()) => search(cores, rows),
        Err(refusal) => Answer::Refused(refusal),
    }
}

fn check_entries(rows: &[Row], entries: usize) -> Result<(), Refusal> {
    if entries < rows.len() {
        return refuse(7, 0);
    }
    Ok(())
}

/// The checks 1 to 6 in their order.
pub fn check(cores: u64, rows: &[Row]) -> Result<(), Refusal> {
    if rows.is_empty() || rows.len() > MOST_ROWS {
        return refuse(1, 0);
    }
    if cores == 0 || cores > MOST_CORES {
        return refuse(2, 0);
    }
    for (index, row) in rows.iter().enumerate() {
        if let Some(number) = row_fault(row) {
            return refuse(number, index as u64 + 1);
        }
    }
    Ok(())
}

fn row_fault(row: &Row) -> Option<u32> {
    if row.c == 0 {
        return Some(3);
    }
    if row.d < row.c {
        return Some(4);
    }
    if row.t < row.d {
        return Some(5);
    }
    if row.t > LARGEST_GAP {
        return Some(6);
    }
    None
}

fn search(cores: u64, rows: &[Row]) -> Answer {
    let carries = cores as usize - 1;
    let mut bounds = Vec::new();
    for (index, &row) in rows.iter().enumerate() {
        let place = index + 1;
        match bound(cores, carries, row, &rows[..index], &bounds) {
            Some(x) => bounds.push(x),
            None => return Answer::NotShown { place, bounds },
        }
    }
    Answer::AllShown { bounds }
}

/// The least window that passes, if one does up to D. At most `carries` rows above carry in.
pub fn bound(cores: u64, carries: usize, row: Row, above: &[Row], bounds: &[u64]) -> Option<u64> {
    (row.c..=row.d).find(|&x| passes(cores, carries, x, row, above, bounds))
}

fn passes(cores: u64, carries: usize, x: u64, row: Row, above: &[Row], bounds: &[u64]) -> bool {
    let parts = interferences(x, row, above, bounds);
    let limit = cores * (x - row.c + 1);
    if choices(parts.len(), carries) <= AFFORDABLE_CHOICES {
        every_choice_below(&parts, carries, 0, limit)
    } else {
        largest_by_gains(&parts, carries) < limit
    }
}

pub fn work_without_carry(x: u64, row: Row) -> u64 {
    (x / row.t) * row.c + (x % row.t).min(row.c)
}

/// A saturating difference is one that is raised to 0 where it would be negative.
pub fn work_with_carry(x: u64, row: Row, bound: u64) -> u64 {
    let y = x.saturating_sub(row.c);
    let a = (y % row.t).saturating_sub(row.t - bound).min(row.c - 1);
    (y / row.t) * row.c + row.c + a
}

/// What one row above adds in a window: as a plain row, and as a carry-in row.
#[derive(Clone, Copy, Debug)]
pub struct Interference {
    pub plain: u64,
    pub carry: u64,
}

pub fn interferences(x: u64, row: Row, above: &[Row], bounds: &[u64]) -> Vec<Interference> {
    let most = x - row.c + 1;
    let one = |(&upper, &bound): (&Row, &u64)| Interference {
        plain: work_without_carry(x, upper).min(most),
        carry: work_with_carry(x, upper, bound).min(most),
    };
    above.iter().zip(bounds).map(one).collect()
}

/// How many choices of at most `carries` out of `count` rows there are.
pub fn choices(count: usize, carries: usize) -> u64 {
    let count = count as u64;
    let mut of_this_size = 1;
    let mut all = 1;
    for size in 1..=count.min(carries as u64) {
        of_this_size = of_this_size * (count - size + 1) / size;
        all += of_this_size;
    }
    all
}

/// Goes through every choice: each row as a carry-in row, while there may be one more, and as a
/// plain row.
pub fn every_choice_below(parts: &[Interference], carries: usize, sum: u64, limit: u64) -> bool {
    let Some((first, rest)) = parts.split_first() else {
        return sum < limit;
    };
    (carries == 0 || every_choice_below(rest, carries - 1, sum + first.carry, limit))
        && every_choice_below(rest, carries, sum + first.plain, limit)
}

/// The largest sum over all choices. A choice adds up to the plain sum of all rows and the gains
/// (carry minus plain) of the chosen ones; the plain sum is the same for each choice and each
/// gain depends on its own row alone, so no choice beats the largest gains. A gain below 0 counts as
/// 0: that row is better left plain.
pub fn largest_by_gains(parts: &[Interference], carries: usize) -> u64 {
    let plain: u64 = parts.iter().map(|part| part.plain).sum();
    let gain = |part: &Interference| part.carry.saturating_sub(part.plain);
    let mut gains: Vec<u64> = parts.iter().map(gain).collect();
    gains.sort_by(|a, b| b.cmp(a));
    plain + gains.iter().take(carries).sum::<u64>()
}
