#!/usr/bin/env python3
"""Writes the contracts and the caller in each crates/NAME/CALLING.md, as the sources have them.

    python3 tools/dev/calling.py

`tools/gate/quick.py` looks whether they are as the sources say. What stands outside the marks is written by hand.
"""
import os
import re
import sys

sys.path.insert(0, os.path.dirname(os.path.dirname(os.path.abspath(__file__))))
from gate import syntax
from program import repo

CALLER, CONTRACTS, END = "<!-- caller: made by tools/dev/calling.py -->\n", "<!-- contracts: made by tools/dev/calling.py -->\n", "<!-- end -->\n"


class Page:
    """Of a crate: the proved sources that show how it is called, each with the functions that are quoted of it (all of it
    if none is named); and the calls whose contracts are quoted."""

    def __init__(self, sources, calls):
        self.sources, self.calls = sources, calls


PAGES = {
    "asn1_rs": Page({"example_own_type/src/main.rt": ()}, (
        "asn1_traits::FromDer::from_der", "asn1_traits::FromBer::from_ber", "asn1_traits::read_back",
        "asn1_any::Any::from_der", "asn1_any::Any::from_ber", "asn1_any::cut_elements", "asn1_core::Header::strict",
        "asn1_oid::Oid::from", "asn1_oid::Oid::iter")),
    "der_parser": Page({"bench_item/src/items.rt": ("after_object",), "bench_workload/src/trees.rt": ("parts_of", "note_object")}, (
        "der_tree::parse_der", "der_tree::parse_der_recursive", "der_tree::is_der_object", "ber_tree::parse_ber",
        "der_parser::parse_der_bool", "der_parser::parse_der_u32", "der_parser::parse_der_sequence_of_v",
        "der_parser::parse_der_tagged_explicit_g", "der_tree::BerObject::as_slice", "der_tree::BerObject::to_vec")),
    "x509_parser": Page({"example_certificate/src/main.rt": ()}, (
        "x509_certs::X509Certificate::from_der", "x509_certs::X509CertificateParser::parse", "x509_certs::X509Certificate::subject",
        "x509_certs::X509Certificate::validity", "x509_certs::X509Certificate::public_key",
        "x509_certs::X509Certificate::basic_constraints", "x509_certs::X509Certificate::subject_alternative_name",
        "x509_lists::CertificateRevocationList::from_der", "x509_requests::X509CertificationRequest::from_der")),
    "certcheck": Page({"example_path/src/main.rt": ()}, (
        "cert_framing::Bundle::new", "cert_framing::Bundle::feed", "cert_framing::Bundle::finish", "cert_framing::Items::len",
        "cert_framing::Items::get", "certcheck::read_tree", "cert_judge::Vouch::vouches", "cert_judge::Vouch::processes",
        "cert_vouchers::Vouchers::push", "cert_judge::Policy::new", "certcheck::check", "certcheck::check_read")),
    "certpath_find": Page({"example_path/src/verified.rt": ()}, (
        "certpath_find::find", "certpath_find::judged_items", "certpath_find::find_judged", "cert_judge::Vouch::vouches",
        "cert_judge::Vouch::processes")),
}


def path_of(crate):
    return f"crates/{crate}/CALLING.md"


def function(call):
    """The function that a call names; of a trait also one that has no body."""
    crate, *owner, name = call.split("::")
    found = [function for source in syntax.files(crate) for function in source.functions if function.name == name and function.owner_type == "".join(owner)]
    if not found:
        raise LookupError(f"there is no function {call}")
    return found[0]


def signature(of):
    """The signature on one line, with the type before the name and without its visibility."""
    text = re.sub(r"\s+", " ", of.signature).strip().removeprefix("pub ")
    text = re.sub(r"([(<]) ", r"\1", re.sub(r",? ([)>])", r"\1", text)).replace(")->", ") ->")
    return text.replace("fn ", f"fn {of.owner_type}::" if of.owner_type else "fn ", 1)


def contract(call):
    """A call's signature and clauses, as they are in its source."""
    of = function(call)
    lines = [signature(of)]
    for kind, name, text in of.clauses:
        lines.append(f"  {' '.join([kind, name]).strip()}: {' '.join(text.split())}")
    return "\n".join(lines)


def quoted(source, names):
    """The named functions of a source with their comments, or all of it without the comment at its head."""
    path = f"crates/{source}"
    lines = repo.read(path).splitlines()
    if not names:
        first = next(number for number, line in enumerate(lines) if line and not line.startswith("//!"))
        return lines[first:]
    found = []
    for entry in (syntax.file(path).plain[name] for name in names):
        first, last = entry.line - 1, syntax.line_of(entry.file.code, syntax.closing(entry.file.code, entry.body_at))
        while lines[first - 1].startswith("///"):
            first -= 1
        found += ([""] if found else []) + lines[first:last]
    return found


def caller(sources):
    return "\n".join(f"`crates/{source}`:\n\n```rust\n" + "\n".join(quoted(source, names)) + "\n```\n" for source, names in sources.items())


def written(crate, page):
    """The page with what the sources say between its marks."""
    made = PAGES[crate]
    for mark, text in ((CALLER, "The gate proves these lines of " + caller(made.sources)),
                       (CONTRACTS, "```text\n" + "\n".join(map(contract, made.calls)) + "\n```\n")):
        before, found, after = page.partition(mark)
        if not found:
            raise LookupError(f"{path_of(crate)}: there is no mark {mark.strip()}")
        page = before + mark + text + END + after.partition(END)[2]
    return page


def faults():
    """Pages that don't say what the sources do."""
    for crate in PAGES:
        path = path_of(crate)
        page = repo.read(path) if os.path.exists(os.path.join(repo.TOP, path)) else None
        if page is None or written(crate, page) != page:
            yield f"{path}: {'there is none' if page is None else 'it does not say what the sources do: run tools/dev/calling.py'}"


def main():
    for crate in PAGES:
        page = written(crate, repo.read(path_of(crate)))
        with open(os.path.join(repo.TOP, path_of(crate)), "w", encoding="utf-8") as file:
            file.write(page)


if __name__ == "__main__":
    main()
