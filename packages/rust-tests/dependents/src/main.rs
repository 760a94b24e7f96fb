//! Prints what the crates `url` and `idna` make of domain names, which they check with unicode-bidi.

use url::Url;

const NAMES: [&str; 9] = [
    "example.com",
    "\u{5D0}\u{5D1}\u{5D2}.example",
    "\u{5D0}1.example",
    // RFC 5893 rejects these: a label that begins with a digit or mixes directions, or has two kinds of digits.
    "1\u{5D0}.example",
    "a\u{5D0}.example",
    "\u{5D0}a.example",
    "\u{5D0}1\u{661}.example",
    "\u{627}\u{644}.\u{645}\u{635}\u{631}",
    "\u{5D0}\u{5B4}.\u{5D1}-1",
];

fn main() {
    for name in NAMES.iter() {
        let strict = idna::Config::default()
            .use_std3_ascii_rules(true)
            .to_ascii(name);
        println!(
            "{:?}: {:?}",
            name,
            strict.map_err(|errors| errors.to_string())
        );
        println!("{:?}", idna::domain_to_unicode(name).0);
        let url = Url::parse(&format!("http://{}/", name));
        println!("{:?}", url.map(|url| url.to_string()));
    }
}
