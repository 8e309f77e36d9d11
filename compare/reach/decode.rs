pub mod reach { pub fn decode_mapping(text: &str, names: usize, sources: usize) -> crate::error::Result<Vec<crate::Token>> { super::decode_mapping(text, names, sources) } }
