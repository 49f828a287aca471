//! A plain reader and writer of sheets in Rust, written for speed: the same answers and refusals as the proved calls.

use crate::plain::keeps_rules;
use zagvirk::Machine;

/// The number in a column; 0 if it is blank.
pub fn column(bytes: &[u8; 5]) -> Option<u32> {
    let blanks = bytes.iter().take_while(|&&byte| byte == b' ').count();
    let digits = &bytes[blanks..];
    if digits.len() > 1 && digits[0] == b'0' {
        return None;
    }
    let mut number = 0;
    for &byte in digits {
        let digit = byte.wrapping_sub(b'0');
        if digit > 9 {
            return None;
        }
        number = 10 * number + u32::from(digit);
    }
    Some(number)
}

/// Takes a line of `N` columns off the front of the sheet.
fn line<const N: usize>(rest: &mut &[u8]) -> Result<[u32; N], u8> {
    let (front, behind) = rest.split_at_checked(5 * N + 1).ok_or(1)?;
    let mut numbers = [0; N];
    for (number, bytes) in numbers.iter_mut().zip(front.chunks_exact(5)) {
        *number = column(bytes.try_into().expect("five bytes")).ok_or(2)?;
    }
    if front[5 * N] != b'\n' {
        return Err(2);
    }
    *rest = behind;
    Ok(numbers)
}

/// The machine of a sheet, its transitions at the front of the list; or the refusal and the length needed.
pub fn read(sheet: &[u8], list: &mut [u16]) -> Result<Machine, (u8, usize)> {
    let refused = |number: u8| (number, 0);
    let mut rest = sheet;
    let [states, letters, transitions] = line(&mut rest).map_err(refused)?;
    if !(1..=64).contains(&states) || letters > 250 || transitions > 4000 {
        return Err((3, 0));
    }
    let mut marks = [0; 64];
    for state in 0..states {
        let [number, mark] = line(&mut rest).map_err(refused)?;
        if number != state || mark > 15 || mark & 12 == 12 {
            return Err((4, 0));
        }
        marks[state as usize] = mark as u8;
    }
    let needed = 3 * transitions as usize;
    let mut read: Vec<u16> = Vec::with_capacity(needed);
    let mut before = None;
    for _ in 0..transitions {
        let numbers: [u32; 3] = line(&mut rest).map_err(refused)?;
        let [from, letter, to] = numbers;
        if from >= states || letter > letters || to >= states {
            return Err((5, 0));
        }
        if before >= Some(numbers) {
            return Err((6, 0));
        }
        before = Some(numbers);
        read.extend([from as u16, letter as u16, to as u16]);
    }
    if !rest.is_empty() {
        return Err((7, 0));
    }
    if list.len() < needed {
        return Err((15, needed));
    }
    list[..needed].copy_from_slice(&read);
    Ok(Machine {
        states: states as usize,
        letters: letters as usize,
        transitions: transitions as usize,
        marks,
    })
}

/// Writes the number into a column.
fn put(column: &mut [u8], mut number: usize) {
    for byte in column.iter_mut().rev() {
        *byte = b'0' + (number % 10) as u8;
        number /= 10;
        if number == 0 {
            break;
        }
    }
}

/// Writes the sheet of a machine and returns its length, or the refusal and the length needed.
pub fn write(machine: &Machine, list: &[u16], sheet: &mut [u8]) -> Result<usize, (u8, usize)> {
    if !keeps_rules(machine, list) {
        return Err((16, 0));
    }
    let bytes = 16 + 11 * machine.states + 16 * machine.transitions;
    let Some(sheet) = sheet.get_mut(..bytes) else {
        return Err((19, bytes));
    };
    sheet.fill(b' ');
    let (head, rest) = sheet.split_at_mut(16);
    put(&mut head[..5], machine.states);
    put(&mut head[5..10], machine.letters);
    put(&mut head[10..15], machine.transitions);
    head[15] = b'\n';
    let (middle, tail) = rest.split_at_mut(11 * machine.states);
    for (state, line) in middle.chunks_exact_mut(11).enumerate() {
        put(&mut line[..5], state);
        put(&mut line[5..10], usize::from(machine.marks[state]));
        line[10] = b'\n';
    }
    for (line, triple) in tail.chunks_exact_mut(16).zip(list.chunks_exact(3)) {
        put(&mut line[..5], usize::from(triple[0]));
        put(&mut line[5..10], usize::from(triple[1]));
        put(&mut line[10..15], usize::from(triple[2]));
        line[15] = b'\n';
    }
    Ok(bytes)
}

#[cfg(test)]
mod tests {
    use super::column;
    use reference::sheet;

    /// All columns of telling bytes hold what the reference reads in them.
    #[test]
    fn same_as_the_reference() {
        let telling = b" 019\n/:a";
        for number in 0..telling.len().pow(5) {
            let byte = |place: usize| telling[number / telling.len().pow(place as u32) % 8];
            let bytes: [u8; 5] = std::array::from_fn(byte);
            let found = column(&bytes).map(|number| number as usize);
            assert_eq!(found, sheet::column(&bytes), "the column {bytes:?}");
        }
        assert_eq!(column(b"     "), Some(0));
    }
}
