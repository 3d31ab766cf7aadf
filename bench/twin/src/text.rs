//! RFC 4180 text, cut into records.

/// A field without its outer quotes; the offset is that of its first byte, quote included.
#[derive(Clone, Copy, Debug, PartialEq, Eq)]
pub struct Field<'a> {
    pub text: &'a [u8],
    pub offset: usize,
}

/// A record, and the offset behind its end.
#[derive(Debug, PartialEq, Eq)]
pub struct Record<'a> {
    pub fields: Vec<Field<'a>>,
    pub end: usize,
}

/// Cuts the record that begins at `start`, or tells the offset of the byte that breaks the text.
pub fn cut(script: &[u8], start: usize) -> Result<Record<'_>, usize> {
    let mut fields = Vec::new();
    let mut at = start;
    loop {
        let (field, behind) = cut_field(script, at)?;
        fields.push(field);
        match script[behind..] {
            [] => return Ok(Record { fields, end: behind }),
            [b'\r', b'\n', ..] => return Ok(Record { fields, end: behind + 2 }),
            [b',', ..] => at = behind + 1,
            _ => return Err(behind),
        }
    }
}

/// The field at `start`, and the offset of the byte behind it, whatever that is.
fn cut_field(script: &[u8], start: usize) -> Result<(Field<'_>, usize), usize> {
    if script.get(start) != Some(&b'"') {
        let special = |byte: &u8| matches!(byte, b',' | b'"' | b'\r' | b'\n');
        let length = script[start..].iter().position(special);
        let behind = length.map_or(script.len(), |length| start + length);
        return Ok((Field { text: &script[start..behind], offset: start }, behind));
    }
    let mut at = start + 1;
    loop {
        match script[at..] {
            [] => return Err(start),
            [b'"', b'"', ..] => at += 2,
            [b'"', ..] => {
                return Ok((Field { text: &script[start + 1..at], offset: start }, at + 1))
            }
            _ => at += 1,
        }
    }
}
