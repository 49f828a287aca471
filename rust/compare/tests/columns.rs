//! Columns of every width that a file has (five bytes in sheets and lines, six and ten in later files) and of those between,
//! read by the proved pass and by the reference.

use compare::columns::{column, WIDEST};
use compare::Rng;

/// What a column of spaces alone holds, also one of no bytes.
const BLANK: Option<usize> = Some(0);

/// Compares the number in the column. Returns whether there is one.
fn reads(bytes: &[u8]) -> bool {
    let expected = reference::sheet::column(bytes);
    assert_eq!(column(bytes), expected, "the column {bytes:?}");
    expected.is_some()
}

/// Compares all columns of the width over the bytes. Returns how many there are and how many of them hold a number.
fn all_over(telling: &[u8], width: usize) -> (usize, usize) {
    let columns = telling.len().pow(width as u32);
    let mut bytes = vec![0; width];
    let numbers = (0..columns).filter(|&column| {
        let mut rest = column;
        for byte in &mut bytes {
            *byte = telling[rest % telling.len()];
            rest /= telling.len();
        }
        reads(&bytes)
    });
    (columns, numbers.count())
}

#[test]
fn all_of_telling_bytes() {
    let (columns, numbers) = all_over(b" 019\n/:a", 5);
    assert_eq!(columns, 32_768);
    // Spaces alone; 0; one to five digits, the first 1 or 9, the others 0, 1 or 9.
    assert_eq!(numbers, 1 + 1 + 2 * (1 + 3 + 9 + 27 + 81));
    println!("{columns} columns of five bytes of ' ', 0, 1, 9, line end, /, : and a, {numbers} of them numbers");
    for width in 0..=WIDEST {
        let (columns, numbers) = all_over(b" 01", width);
        // Spaces alone; 0 if there is a byte for it; 1, and 0 and 1 behind it.
        let digits = (1 << width) - 1;
        assert_eq!(numbers, 1 + usize::from(width > 0) + digits);
        println!("{columns} columns of {width} bytes of ' ', 0 and 1, {numbers} of them numbers");
    }
}

/// A random column: bytes of all kinds, or a number with its padding, good or with one byte changed.
fn random(rng: &mut Rng, width: usize) -> Vec<u8> {
    let any = |rng: &mut Rng| match rng.below(4) {
        0 => rng.bits() as u8,
        1 => rng.pick(b" 0\n/:a+-.x\t\r\0"),
        2 => b' ',
        _ => b'0' + rng.below(10) as u8,
    };
    if rng.once_in(3) {
        return (0..width).map(|_| any(rng)).collect();
    }
    if rng.once_in(20) {
        return vec![b' '; width];
    }
    let digits = 1 + rng.below(width);
    let number = rng.bits() % 10u64.pow(digits as u32);
    let mut bytes = format!("{number:width$}").into_bytes();
    if rng.once_in(2) {
        bytes[rng.below(width)] = any(rng);
    }
    bytes
}

#[test]
fn random_columns() {
    let mut rng = Rng::new(20_240_080);
    for width in [5, 6, WIDEST] {
        let numbers = (0..1_000_000).filter(|_| reads(&random(&mut rng, width)));
        println!(
            "1000000 random columns of {width} bytes, {} of them numbers",
            numbers.count()
        );
    }
}

#[test]
fn every_number() {
    for number in 0..100_000 {
        let text = format!("{number:5}");
        assert_eq!(column(text.as_bytes()), Some(number));
        assert!(reads(format!("{number:6}").as_bytes()));
        assert!(reads(format!("{number:10}").as_bytes()));
    }
    for width in 1..=WIDEST {
        let largest = 10usize.pow(width as u32) - 1;
        assert_eq!(column(largest.to_string().as_bytes()), Some(largest));
        assert_eq!(
            column(format!("{:width$}", largest / 10).as_bytes()),
            Some(largest / 10)
        );
    }
    // No byte, spaces alone, and a byte too many.
    for width in 0..=WIDEST {
        assert_eq!(column(&vec![b' '; width]), BLANK);
        assert_eq!(reference::sheet::column(&vec![b' '; width]), BLANK);
    }
    assert_eq!(column(&[b' '; WIDEST + 1]), None);
    assert_eq!(column(b"          1"), None);
    assert_eq!(column(b"10000000000"), None);
}

#[test]
fn every_byte_in_every_place() {
    for width in [5, 6, WIDEST] {
        for number in [0, 7, 10, 99_999] {
            let good = format!("{number:width$}").into_bytes();
            for place in 0..width {
                for byte in 0..=255 {
                    let mut bytes = good.clone();
                    bytes[place] = byte;
                    reads(&bytes);
                }
            }
        }
        // A blank column with one byte that is no space: a number only by its last byte, a digit.
        for place in 0..width {
            for byte in (0..=255).filter(|&byte| byte != b' ') {
                let mut bytes = vec![b' '; width];
                bytes[place] = byte;
                let digit = place + 1 == width && byte.is_ascii_digit();
                assert_eq!(reads(&bytes), digit, "{bytes:?}");
            }
        }
    }
}
