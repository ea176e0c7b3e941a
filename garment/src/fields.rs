//! One line of an OBJ file: its fields, its numbers, the corner of a face.

/// What is wrong in a line, in words.
pub type Wrong = String;

/// The fields of a line; one that begins with `#` is a comment, and ends it.
pub fn fields(line: &[u8]) -> impl Iterator<Item = &[u8]> {
    line.split(|byte| byte.is_ascii_whitespace()).filter(|field| !field.is_empty()).take_while(|field| field[0] != b'#')
}

/// As much of a field as a message can bear.
pub fn shown(field: &[u8]) -> String {
    const LONGEST: usize = 40;
    let cut = &field[..field.len().min(LONGEST)];
    let more = if field.len() > LONGEST { ".." } else { "" };
    format!("\"{}{more}\"", cut.escape_ascii())
}

/// A decimal with or without an exponent. What is not finite has no place on a grid.
pub fn decimal(field: &[u8]) -> Result<f64, Wrong> {
    let parsed = std::str::from_utf8(field).ok().and_then(|text| text.parse::<f64>().ok());
    match parsed {
        Some(number) if number.is_finite() => Ok(number),
        Some(_) => Err(format!("{} is not a finite number", shown(field))),
        None if field.contains(&b',') => Err(format!("{} is no number: a decimal point is wanted, not a comma", shown(field))),
        None => Err(format!("{} is no number", shown(field))),
    }
}

fn whole(field: &[u8]) -> Option<i64> {
    std::str::from_utf8(field).ok()?.parse().ok()
}

/// The vertex number of a corner `v`, `v/vt`, `v//vn` or `v/vt/vn`, as it is written: from 1, or from -1 backwards. The numbers of texture and
/// normal belong to others; only their form is looked at.
pub fn corner(field: &[u8]) -> Result<i64, Wrong> {
    let mut parts = field.split(|&byte| byte == b'/');
    let vertex = parts.next().and_then(whole).ok_or_else(|| format!("{} is no corner of a face", shown(field)))?;
    let others: Vec<&[u8]> = parts.collect();
    if others.len() > 2 || others.iter().any(|part| !part.is_empty() && whole(part).is_none()) {
        return Err(format!("{} is no corner of a face", shown(field)));
    }
    if vertex == 0 {
        return Err(format!("{}: vertices count from 1, or from -1 backwards", shown(field)));
    }
    Ok(vertex)
}

/// A place: x, y, z, and behind them nothing, a weight, a colour, or both. Those are not used; that they are numbers is looked at.
pub fn place<'a>(mut fields: impl Iterator<Item = &'a [u8]>) -> Result<[f64; 3], Wrong> {
    let mut place = [0.0; 3];
    let mut count = 0;
    for field in fields.by_ref() {
        let number = decimal(field)?;
        if let Some(axis) = place.get_mut(count) {
            *axis = number;
        }
        count += 1;
    }
    match count {
        3 | 4 | 6 | 7 => Ok(place),
        _ => Err(format!("a vertex has 3 numbers, or 4, 6 or 7 with a weight and a colour; here are {count}")),
    }
}
