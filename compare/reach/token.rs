pub mod reach { pub fn translated(token: crate::Token, line: u32, source: u32, name: u32) -> crate::Token { token.translated(line, source, name) } }
