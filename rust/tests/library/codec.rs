//! The position list file, as its rules are written; shares no code with the crate.

const LIMIT: u64 = 1 << 30;

fn number(mut x: u64, file: &mut Vec<u8>) {
    while x >= 128 {
        file.push((x % 128 + 128) as u8);
        x /= 128;
    }
    file.push(x as u8);
}

/// The positions rise strictly, and all are below the limit.
pub fn rises(list: &[u32]) -> bool {
    list.iter().all(|&p| u64::from(p) < LIMIT) && list.windows(2).all(|pair| pair[0] < pair[1])
}

/// The file of a list, or 8.
pub fn encode(list: &[u32]) -> Result<Vec<u8>, u32> {
    if !rises(list) {
        return Err(8);
    }
    let mut file = Vec::new();
    number(list.len() as u64, &mut file);
    for (i, &p) in list.iter().enumerate() {
        number(u64::from(if i == 0 { p } else { p - list[i - 1] - 1 }), &mut file);
    }
    Ok(file)
}

/// The number at the front of some bytes, which it is taken from.
fn take(bytes: &mut &[u8]) -> Result<u64, u32> {
    let mut value = 0;
    for group in 0..5 {
        let (&byte, rest) = bytes.split_first().ok_or(10u32)?;
        *bytes = rest;
        value += u64::from(byte % 128) << (7 * group);
        if byte < 128 {
            return match value {
                _ if group > 0 && byte == 0 => Err(11),
                _ if value > LIMIT => Err(12),
                _ => Ok(value),
            };
        }
    }
    Err(12)
}

/// The count that a file claims.
pub fn claimed(file: &[u8]) -> Result<u64, u32> {
    take(&mut &file[..])
}

/// The list of a file, or its first fault, 10 to 13, or 14 for a good file with fewer cells than its count.
pub fn decode(file: &[u8], cells: usize) -> Result<Vec<u32>, u32> {
    let list = contents(file)?;
    if list.len() > cells {
        return Err(14);
    }
    Ok(list)
}

/// The list of a file, or its first fault, 10 to 13.
pub fn contents(file: &[u8]) -> Result<Vec<u32>, u32> {
    let mut bytes = file;
    let count = take(&mut bytes)?;
    let mut list: Vec<u32> = Vec::new();
    for _ in 0..count {
        let distance = take(&mut bytes)?;
        let position = list.last().map_or(distance, |&last| u64::from(last) + 1 + distance);
        if position >= LIMIT {
            return Err(12);
        }
        list.push(position as u32);
    }
    if bytes.is_empty() {
        Ok(list)
    } else {
        Err(13)
    }
}
