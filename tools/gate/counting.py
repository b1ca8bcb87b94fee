"""Which functions try headers and keep no count of their caller's, by who calls whom; and that no counted call comes to one.

A call is counted if it takes a `HeaderCount`.
"""
import functools

from gate import calls, syntax
from gate.calls import name_of
from program import repo

# What tries a header by itself: the readers of headers, and what looks at the octets of one without them.
LOWEST = {("asn1_core", "Header::from_ber"), ("asn1_core", "Header::from_der"), ("asn1_core", "Header::strict"), ("cert_framing", "front_of")}
# Who may call what, each with the reason.
ALLOWED = {
    # it raises the count itself, and then calls the reader
    ("Header::from_der_counted", "Header::from_der"),
    ("Header::strict_counted", "Header::strict"),
    # the value of an extension is parsed if a caller asks for it; those that count never do, and values stay `Unparsed`
    ("extension_of", "parsed_value"),
}
# Uncounted readers that are in a file with functions which counted calls come to. None of these functions names them.
BESIDE = {
    "crates/asn1_core/src/header.rt": {"Header::from_ber", "Header::from_der", "Header::strict"},
    "crates/asn1_any/src/any.rt": {"Any::from_der", "Any::from_ber", "Any::from_ber_recursive"},
    "crates/asn1_any/src/cut.rt": {"cut_elements"},
    "crates/asn1_any/src/read.rt": {"der_element", "after_contents", "indefinite", "ber_element"},
    "crates/der_tree/src/read.rt": {"parse_der", "parse_der_recursive"},
    "crates/der_tree/src/skip.rt": {"is_der_object"},
    "crates/x509_names/src/algorithm.rt": {"AlgorithmIdentifier::from_der", "algorithm_at_front"},
    "crates/x509_names/src/attribute.rt": {"AttributeTypeAndValue::from_der", "attribute_at_front"},
    "crates/x509_names/src/key.rt": {"SubjectPublicKeyInfo::parsed", "SubjectPublicKeyInfo::from_der", "key_at_front"},
    "crates/x509_names/src/name.rt": {"X509Name::from_der", "name_at_front"},
    "crates/x509_names/src/relative.rt": {"RelativeDistinguishedName::from_der", "relative_name_at_front"},
    "crates/x509_time/src/leaves.rt": {"ASN1Time::from_der", "time_at_front"},
    "crates/x509_time/src/validity.rt": {"Validity::from_der", "validity_at_front"},
    "crates/x509_ext/src/extension.rt": {"parsed_value"},
    "crates/x509_ext/src/version.rt": {"X509Version::from_der", "version_at_front"},
    "crates/x509_certs/src/parser.rt": {
        "X509CertificateParser::parse", "TbsCertificateParser::parse", "X509Certificate::from_der", "TbsCertificate::from_der",
        "parse_x509_certificate", "parse_x509_der", "tbs_at_front", "certificate_at_front"},
    "crates/x509_lists/src/parser.rt": {
        "CertificateRevocationListParser::parse", "CertificateRevocationList::from_der", "TbsCertList::from_der",
        "RevokedCertificate::from_der", "parse_x509_crl", "parse_crl_der", "entry_at_front", "tbs_at_front", "list_at_front"},
}
def takes_count(function):
    return "&mut HeaderCount" in function.signature


@functools.cache
def crates():
    """The crates with counted calls, and those below them."""
    own = [crate for crate in syntax.CRATES if any(takes_count(function) for of in syntax.files(crate) for function in of.functions)]
    return repo.below(own, syntax.CRATES)


@functools.cache
def functions():
    return [function for function in calls.functions() if function.file.crate in crates()]


def is_allowed(caller, called):
    return (name_of(caller), name_of(called)) in ALLOWED


@functools.cache
def uncounted():
    """The functions that take no count and try headers, by themselves or through another one."""
    callers = {}
    for one_function in functions():
        for other in calls.called(one_function):
            if not is_allowed(one_function, other):
                callers.setdefault(other, []).append(one_function)
    found = {function for function in functions() if (function.file.crate, name_of(function)) in LOWEST}
    waiting = [*found, *filter(takes_count, functions())]
    while waiting:
        of = {entry for entry in callers.get(waiting.pop(), ()) if entry not in found and not takes_count(entry)}
        found |= of
        waiting += of
    return found


def faults():
    """What is amiss: a counted call that comes to an uncounted reader, or makes a count; and such a reader if none is known."""
    reached = calls.come_to(filter(takes_count, functions()), is_allowed)
    for one_entry in sorted(filter(takes_count, reached), key=lambda entry: (entry.file.path, entry.at)):
        for other in sorted(calls.called(one_entry) & uncounted(), key=name_of):
            if not is_allowed(one_entry, other):
                yield f"{one_entry.file.path}:{one_entry.line}: {name_of(one_entry)} calls {name_of(other)}, which keeps no count of its headers"
        if "HeaderCount::new" in (one_entry.body or ""):
            yield f"{one_entry.file.path}:{one_entry.line}: {name_of(one_entry)} makes a count of its own"
    files = {entry.file.path for entry in reached}
    for element in sorted(uncounted(), key=lambda entry: (entry.file.path, entry.at)):
        if element.file.path in files and name_of(element) not in BESIDE.get(element.file.path, ()):
            yield f"{element.file.path}:{element.line}: {name_of(element)} keeps no count of its headers, and counted calls come to other functions of this file"
    known = {(entry.file.path, name_of(entry)) for entry in uncounted()}
    for path, names in BESIDE.items():
        for name in sorted(names):
            if path not in files or (path, name) not in known:
                yield f"tools/gate/counting.py: {name} of {path} needs no exception"
