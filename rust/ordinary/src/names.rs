//! Names, and what comments and instructions may hold.

/// NameStartChar of XML 1.0 (Fifth Edition), without the colon.
fn is_name_start(code_point: u32) -> bool {
    matches!(
        code_point,
        0x61..=0x7A
            | 0x41..=0x5A
            | 0x5F
            | 0xC0..=0xD6
            | 0xD8..=0xF6
            | 0xF8..=0x2FF
            | 0x370..=0x37D
            | 0x37F..=0x1FFF
            | 0x200C..=0x200D
            | 0x2070..=0x218F
            | 0x2C00..=0x2FEF
            | 0x3001..=0xD7FF
            | 0xF900..=0xFDCF
            | 0xFDF0..=0xFFFD
            | 0x1_0000..=0xE_FFFF
    )
}

/// NameChar, without the colon.
fn is_name_char(code_point: u32) -> bool {
    is_name_start(code_point)
        || matches!(
            code_point,
            0x2D | 0x2E | 0x30..=0x39 | 0xB7 | 0x300..=0x36F | 0x203F..=0x2040
        )
}

/// NCName of Namespaces in XML 1.0.
pub fn is_ncname(text: &[u32]) -> bool {
    text.split_first().is_some_and(|(&first, further)| {
        is_name_start(first) && further.iter().all(|&code_point| is_name_char(code_point))
    })
}

/// An NCName, and not the three letters of XML in any case.
pub fn is_target(text: &[u32]) -> bool {
    let is_xml = matches!(text, [0x58 | 0x78, 0x4D | 0x6D, 0x4C | 0x6C]);
    is_ncname(text) && !is_xml
}

/// No two hyphens in a row, and none at the end.
pub fn is_comment(text: &[u32]) -> bool {
    text.last() != Some(&0x2D) && !text.windows(2).any(|pair| pair == [0x2D, 0x2D])
}

/// No `?>`.
pub fn is_instruction_text(text: &[u32]) -> bool {
    !text.windows(2).any(|pair| pair == [0x3F, 0x3E])
}
