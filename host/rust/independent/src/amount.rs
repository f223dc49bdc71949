//! "Amount text, of any signed 64-bit number of cents".

/// "minus if below 0, dollars (0 at least), point, two digits"
pub fn amount_text(cents: i64) -> String {
    let sign = if cents < 0 { "-" } else { "" };
    let magnitude = i128::from(cents).abs();
    format!("{sign}{}.{:02}", magnitude / 100, magnitude % 100)
}

/// "written as the first part of the caller's buffer, the rest staying; exactly that part is handed back". "Text: 33
/// buffer too short, shown by an empty part alone."
pub fn write_amount(cents: i64, buffer: &mut [u8]) -> &mut [u8] {
    let text = amount_text(cents);
    if buffer.len() < text.len() {
        return &mut buffer[..0];
    }
    let part = &mut buffer[..text.len()];
    part.copy_from_slice(text.as_bytes());
    part
}
