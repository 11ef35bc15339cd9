// The energies of levels 0 to 60 from document 01's rule alone, with whole numbers as long as they need to be.
// It shares no table with the proved conversion, so that the gate can compare the two at every level.

/// A whole number as decimal digits, the lowest first.
type Digits = Vec<u8>;

fn digits(mut n: u64) -> Digits {
    let mut out = vec![];
    while n > 0 {
        out.push((n % 10) as u8);
        n /= 10;
    }
    out
}

/// Adds a multiple of b column by column; the carries come when all are added.
fn add_multiple(sums: &mut [u32], digit: u8, b: &Digits) {
    for (sum, y) in sums.iter_mut().zip(b) {
        *sum += u32::from(digit) * u32::from(*y);
    }
}

fn carried(sums: &[u32]) -> Digits {
    let mut carry = 0;
    let out = sums.iter().map(|s| {
        let all = s + carry;
        carry = all / 10;
        (all % 10) as u8
    });
    out.collect()
}

fn times(a: &Digits, b: &Digits) -> Digits {
    let mut sums = vec![0u32; a.len() + b.len() + 1];
    for (i, x) in a.iter().enumerate() {
        add_multiple(&mut sums[i..], *x, b);
    }
    let mut out = carried(&sums);
    out.truncate(out.iter().rposition(|d| *d != 0).map_or(0, |last| last + 1));
    out
}

fn tenth_power(n: u64) -> Digits {
    let base = digits(n);
    (0..10).fold(vec![1], |product, _| times(&product, &base))
}

/// Whether n^10 is at most 10^power: a power of ten is the least number with one digit more.
fn keeps_within(n: u64, power: usize) -> bool {
    let tenth = tenth_power(n);
    tenth.len() <= power || (tenth.len() == power + 1 && tenth[..power].iter().all(|d| *d == 0) && tenth[power] == 1)
}

fn energy(level: usize) -> u64 {
    let (mut low, mut high) = (0, 2_000_000_000);
    while high - low > 1 {
        let middle = (low + high) / 2;
        if keeps_within(middle, level + 30) {
            low = middle;
        } else {
            high = middle;
        }
    }
    low
}

fn main() {
    for level in 0..63 {
        if level <= 60 {
            println!("{} {}", level, energy(level));
        } else {
            println!("{} refused 7", level);
        }
    }
}
