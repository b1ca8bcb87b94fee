//! Reads a file by asn1-rs, der-parser or x509-parser, and prints how much there was:
//! `peer READER FILE`. The readers are those of `crates/bench_item`, by the same words.
use asn1_rs::{Any, DerParser, FromDer, SequenceIterator, ToDer, UtcTime};
use std::hint::black_box;
use x509_parser::certificate::{X509Certificate, X509CertificateParser};
use x509_parser::nom::Parser;
use x509_parser::revocation_list::CertificateRevocationList;
use x509_parser::x509::X509Name;

/// How often the values of a file are read, or written.
const ROUNDS: usize = 1_000;

/// How many items the octets are, each read by `after`, which gives what is after it.
fn counted<'a>(octets: &'a [u8], after: impl Fn(&'a [u8]) -> Option<&'a [u8]>) -> usize {
    let (mut rest, mut count) = (octets, 0);
    while !rest.is_empty() {
        rest = after(rest).expect("an item");
        count += 1;
    }
    count
}

fn after<'a, T, E>(read: Result<(&'a [u8], T), E>) -> Option<&'a [u8]> {
    let (rest, value) = read.ok()?;
    black_box(value);
    Some(rest)
}

/// How many elements the octets are, each one after the other, with those within.
fn elements(octets: &[u8]) -> usize {
    let found = SequenceIterator::<Any, DerParser, asn1_rs::Error>::new(octets);
    found.map(|any| {
        let any = any.expect("an element");
        1 + if any.header.is_constructed() { elements(any.data) } else { 0 }
    }).sum()
}

fn times(octets: &[u8]) -> usize {
    (0..ROUNDS).map(|_| counted(black_box(octets), |it| after(UtcTime::from_der(it)))).sum()
}

fn numbers(octets: &[u8]) -> usize {
    let (_, numbers) = <Vec<u32> as FromDer>::from_der(octets).expect("numbers");
    (0..ROUNDS).map(|_| black_box(&numbers).to_der_vec().expect("octets").len()).sum()
}

fn main() {
    let words: Vec<String> = std::env::args().collect();
    let octets = std::fs::read(&words[2]).expect("a file");
    let octets = octets.as_slice();
    let count = match words[1].as_str() {
        "typed" => counted(octets, |it| after(X509Certificate::from_der(it))),
        "plain" => {
            let parser = || X509CertificateParser::new().with_deep_parse_extensions(false);
            counted(octets, |it| after(parser().parse(it)))
        }
        "list" => counted(octets, |it| after(CertificateRevocationList::from_der(it))),
        "names" => counted(octets, |it| after(X509Name::from_der(it))),
        "objects" => counted(octets, |it| after(der_parser::parse_der(it))),
        "elements" => elements(octets),
        "times" => times(octets),
        "numbers" => numbers(octets),
        other => panic!("no reader {other}"),
    };
    println!("{count}");
}
