//! DIMACS text to a row of entries, with document 01's refusals in its order.

const TEXT: usize = 65_536;
const NETS: usize = 1_024;
const CLAUSES: usize = 4_096;
const ENTRIES: usize = 16_384;

pub struct Refused {
    pub number: u32,
    pub place: usize,
}

pub struct List {
    pub nets: usize,
    pub entries: Vec<i32>,
}

fn refuse<A>(number: u32, place: usize) -> Result<A, Refused> {
    Err(Refused { number, place })
}

pub fn read(text: &[u8]) -> Result<List, Refused> {
    if text.len() > TEXT {
        return refuse(1, 0);
    }
    let (nets, count, body) = header(text)?;
    let entries = numbers(text, body)?;
    check(nets, count, &entries)?;
    Ok(List { nets, entries })
}

fn check(nets: usize, count: usize, entries: &[i32]) -> Result<(), Refused> {
    if nets > NETS {
        return refuse(5, 0);
    }
    if count > CLAUSES {
        return refuse(6, 0);
    }
    if entries.len() > ENTRIES {
        return refuse(7, 0);
    }
    if let Some(place) = entries.iter().position(|e| e.unsigned_abs() as usize > nets) {
        return refuse(10, place);
    }
    if entries.last().is_some_and(|&e| e != 0) {
        return refuse(11, 0);
    }
    if entries.iter().filter(|&&e| e == 0).count() != count {
        return refuse(12, 0);
    }
    Ok(())
}

fn is_blank(byte: u8) -> bool {
    matches!(byte, b' ' | b'\t' | b'\r' | b'\n')
}

fn line_end(text: &[u8], from: usize) -> usize {
    text[from..].iter().position(|&b| b == b'\n').map_or(text.len(), |n| from + n)
}

/// V, C and the place behind the header line.
fn header(text: &[u8]) -> Result<(usize, usize, usize), Refused> {
    let mut start = 0;
    while start < text.len() {
        let end = line_end(text, start);
        let line = &text[start..end];
        if line.first() != Some(&b'c') && !line.iter().all(|&b| is_blank(b)) {
            let Some((nets, count)) = sizes(line) else { return refuse(2, start) };
            return Ok((nets, count, (end + 1).min(text.len())));
        }
        start = end + 1;
    }
    refuse(2, text.len())
}

fn sizes(line: &[u8]) -> Option<(usize, usize)> {
    let last = line.iter().rposition(|&b| !is_blank(b))?;
    let mut words = line[..=last].split(|&b| b == b' ' || b == b'\t').filter(|w| !w.is_empty());
    let starts = line.starts_with(b"p") && words.next() == Some(b"p") && words.next() == Some(b"cnf");
    let sizes = (unsigned(words.next()?)? as usize, unsigned(words.next()?)? as usize);
    (starts && words.next().is_none()).then_some(sizes)
}

fn unsigned(word: &[u8]) -> Option<i32> {
    let canonical = word == b"0" || (1..=9).contains(&word.len()) && word[0] != b'0';
    let digits = word.iter().all(u8::is_ascii_digit);
    (canonical && digits).then(|| word.iter().fold(0, |n, d| 10 * n + i32::from(d - b'0')))
}

fn number(word: &[u8]) -> Option<i32> {
    match word {
        [b'-', b'0'] => None,
        [b'-', digits @ ..] => Some(-unsigned(digits)?),
        _ => unsigned(word),
    }
}

fn numbers(text: &[u8], from: usize) -> Result<Vec<i32>, Refused> {
    let mut row = Vec::with_capacity(ENTRIES);
    let mut at = from;
    while at < text.len() {
        if is_blank(text[at]) {
            at += 1;
        } else if text[at] == b'c' && text[at - 1] == b'\n' {
            at = line_end(text, at);
        } else {
            let end = text[at..].iter().position(|&b| is_blank(b)).map_or(text.len(), |n| at + n);
            let Some(value) = number(&text[at..end]) else { return refuse(3, at) };
            row.push(value);
            at = end;
        }
    }
    Ok(row)
}
