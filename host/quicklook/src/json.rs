//! JSON as it is printed and as it stands in the page's script.

use serde::Serialize;
use serde_json::ser::{Formatter, Serializer};
use std::io::{self, Write};

/// The compact form. A float that is not finite is null.
struct Compact;

impl Formatter for Compact {
    /// The digits that the plain text has, which read back to the same float.
    fn write_f64<W: Write + ?Sized>(&mut self, out: &mut W, value: f64) -> io::Result<()> {
        write!(out, "{value}")
    }

    /// Without `<`, which could end the script that the text stands in.
    fn write_string_fragment<W: Write + ?Sized>(&mut self, out: &mut W, fragment: &str) -> io::Result<()> {
        out.write_all(fragment.replace('<', "\\u003c").as_bytes())
    }
}

pub fn write(out: &mut impl Write, value: &impl Serialize) -> io::Result<()> {
    Ok(value.serialize(&mut Serializer::with_formatter(out, Compact))?)
}

pub fn line(value: &impl Serialize) -> String {
    let mut bytes = Vec::new();
    write(&mut bytes, value).expect("memory takes every value of this program");
    bytes.push(b'\n');
    String::from_utf8(bytes).expect("JSON is text")
}

#[cfg(test)]
mod tests {
    use super::*;

    #[test]
    fn floats_and_texts_read_back() {
        let floats = [0.1, -0.0, 1e-7, 1e21, 5e-324, f64::MAX, 1e6, -12.0];
        let told = line(&floats);
        assert!(told.starts_with("[0.1,-0,0.0000001,1000000000000000000000,") && told.ends_with(",1000000,-12]\n"));
        let read: Vec<f64> = told.trim().trim_matches(['[', ']']).split(',').map(|word| word.parse().unwrap()).collect();
        assert_eq!(read.iter().map(|v| v.to_bits()).collect::<Vec<_>>(), floats.map(f64::to_bits));
        assert_eq!(line(&[f64::NAN, f64::INFINITY, f64::NEG_INFINITY]), "[null,null,null]\n");
        let text = "a </script><!-- \"q\" \\ \n\u{1} é \u{2028}";
        assert!(!line(&text).contains('<'));
        assert_eq!(serde_json::from_str::<String>(&line(&text)).unwrap(), text);
    }
}
