//! Makes packets, recordings, writer inputs and builder inputs, sound and faulty, for the comparison of two programs of documents 01 and
//! 02. It has its own code for putting bytes together. Sentences in quotation marks are those of document 01, or of document 02: §2 where
//! they speak of reasons, §9 of bases, §13 of entries.

#![forbid(unsafe_code)]

pub mod causes;
pub mod filled;
pub mod opened;
pub mod random;
pub mod recipe;
pub mod recording;

/// Bytes in hex, cut when long.
pub fn hex(bytes: &[u8]) -> String {
    let shown = bytes.iter().take(400).map(|byte| format!("{:02X} ", byte));
    let more = if bytes.len() > 400 { "..." } else { "" };
    format!(
        "{} bytes: {}{}",
        bytes.len(),
        shown.collect::<String>(),
        more
    )
}
