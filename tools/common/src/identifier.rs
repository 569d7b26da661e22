//! Identifier bytes, of which the names of tags and attributes are made, and a selector's names and values.

pub fn is_identifier(byte: u8) -> bool {
    byte.is_ascii_alphanumeric() || b"-_:+/".contains(&byte)
}

/// The runs of identifier bytes in a value: the parts of it that a selector can name.
pub fn identifier_runs(value: &[u8]) -> Vec<&[u8]> {
    let runs = value.split(|byte| !is_identifier(*byte));
    runs.filter(|run| !run.is_empty()).collect()
}

#[cfg(test)]
mod tests {
    use super::*;

    #[test]
    fn runs() {
        let runs: [&[u8]; 3] = [b"a-b", b"C/1", b"x"];
        assert_eq!(identifier_runs(b" a-b\xc2\xa0C/1..x"), runs);
        assert!(identifier_runs(b"").is_empty());
        assert!(identifier_runs(b" \n.").is_empty());
    }
}
