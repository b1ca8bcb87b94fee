//! Shows the certificates and revocation lists of files of PEM, DER or PKCS #7, a line each:
//!
//!     cargo run --offline --example show ../../samples/fullchain.pem
use certpath_sys::{frame, item, load, name, Refused, LIMIT};
use std::{env, error::Error, fs};

/// Escapes what isn't printable ASCII, so that a name stays on its line.
fn shown(text: &str) -> String {
    text.bytes()
        .map(|octet| match octet {
            b' '..=b'~' if octet != b'\\' => char::from(octet).to_string(),
            _ => format!("\\{octet:02X}"),
        })
        .collect()
}

/// The line of an item.
fn line_of(octets: &[u8]) -> Result<String, Refused> {
    let (contents, fields) = item(octets)?;
    let issuer = contents.issuer.length;
    let (kind, bounds) = match contents.item_class {
        1 => ("certificate", issuer..issuer + contents.subject.length),
        2 => ("list of", 0..issuer),
        _ => return Ok("something else".into()),
    };
    let first = contents.validity.first;
    Ok(format!(
        "{kind} {}, from {:04}-{:02}-{:02}",
        shown(&name(&fields[bounds])?),
        first.year,
        first.month,
        first.day
    ))
}

fn show(path: &str) -> Result<(), Box<dyn Error>> {
    let (items, left) = load(&fs::read(path)?).map_err(|refused| format!("{refused:?}"))?;
    let (spans, _) = frame(&items, LIMIT).map_err(|refused| format!("{refused:?}"))?;
    for span in spans {
        let octets = &items[span.offset..span.offset + span.length];
        println!(
            "{}",
            line_of(octets).map_err(|refused| format!("{refused:?}"))?
        );
    }
    for one in left {
        eprintln!(
            "{path}: line {}, octet {}: left out, reason {}",
            one.line, one.position, one.reason
        );
    }
    Ok(())
}

fn main() -> Result<(), Box<dyn Error>> {
    env::args().skip(1).try_for_each(|path| show(&path))
}
