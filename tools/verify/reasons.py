"""The reasons of `certpath why` as sentences, each with the rule that it comes from and what to do."""
import re
from functools import lru_cache
from typing import NamedTuple

from program import streams

# Extensions by their identifiers (RFC 5280, 4.2 and 5.2; RFC 6962, 3.1).
EXTENSIONS = {
    "2.5.29.14": "subjectKeyIdentifier", "2.5.29.15": "keyUsage", "2.5.29.17": "subjectAltName", "2.5.29.18": "issuerAltName",
    "2.5.29.19": "basicConstraints", "2.5.29.20": "cRLNumber", "2.5.29.21": "cRLReason", "2.5.29.27": "deltaCRLIndicator",
    "2.5.29.28": "issuingDistributionPoint", "2.5.29.29": "certificateIssuer", "2.5.29.30": "nameConstraints",
    "2.5.29.31": "cRLDistributionPoints", "2.5.29.32": "certificatePolicies", "2.5.29.33": "policyMappings",
    "2.5.29.35": "authorityKeyIdentifier", "2.5.29.36": "policyConstraints", "2.5.29.37": "extKeyUsage", "2.5.29.54": "inhibitAnyPolicy",
    "1.3.6.1.5.5.7.1.1": "authorityInfoAccess", "1.3.6.1.4.1.11129.2.4.3": "the poison of a precertificate",
}
NOT_JUDGED = "that extension isn't judged here, so no path goes through the certificate (docs/RULES.md)"
ASK_EARLIER = "ask about another moment with --at, or get a renewed one"


class Sentence(NamedTuple):
    """A reason as a sentence, the section of its rule, what one can do, nothing if that is plain, and what a picture has room for, if
    the words of `certpath why` say it in terms of their own."""
    text: str
    rule: str
    advice: str = ""
    note: str = ""


class Form(NamedTuple):
    """How the words of a reason are read, and what is said of them."""
    words: re.Pattern
    sentence: Sentence


def form(words, text, rule, advice="", note=""):
    return Form(re.compile(words), Sentence(text, rule, advice, note))


FORMS = (
    form(r"expired (\S+)", "it expired at {0}Z", "RFC 5280, 4.1.2.5", ASK_EARLIER),
    form(r"not valid before (\S+)", "it isn't valid before {0}Z", "RFC 5280, 4.1.2.5", ASK_EARLIER),
    form(r"extension (\d+) repeats (\S+)", "it has the extension {1} twice", "RFC 5280, 4.2"),
    form(r"extension (\d+) critical and not judged (\S+)", "it has the critical extension {1}", "RFC 5280, 6.1.4, o, and 6.1.5, f", NOT_JUDGED),
    form(r"extension (\d+) (basicConstraints|keyUsage) not well written", "its {1} isn't DER", "RFC 5280, 4.2.1.9 and 4.2.1.3"),
    form(r"no authority", "it isn't a CA, so it issues nothing", "RFC 5280, 6.1.4, k"),
    form(r"extension (\d+) keyUsage without keyCertSign", "its keyUsage doesn't allow it to sign certificates", "RFC 5280, 6.1.4, n"),
    form(r"extension (\d+) (nameConstraints)", "it has name constraints", "RFC 5280, 6.1.4, g", NOT_JUDGED),
    form(r"extension (\d+) (policyConstraints)", "it has policy constraints", "RFC 5280, 6.1.4, i", NOT_JUDGED),
    form(r"isn't for (\S+): (.*)", "it isn't for {0}: {1}", "RFC 5280, 4.2.1.12"),
    form(r"doesn't serve (\S+): (.*)", "it doesn't serve {0}: {1}", "RFC 9525, 6"),
    form(r"no voucher", "its signature isn't verified by that key", "RFC 5280, 6.1.3, a, 1", note="signature not verified"),
    form(r"key identifiers differ", "its authority key identifier names another key", "RFC 5280, 4.2.1.1", note="names another key"),
    form(r"revoked by list (\d+)", "revoked by list {0}", "RFC 5280, 6.1.3, a, 3"),
    form(r"no list used", "lists are demanded, and no list of that issuer is used", "RFC 5280, 6.1.3, a, 3", "give a current list with --lists",
         "no list of its issuer is used"),
    form(r"no voucher by a key of its issuer", "no key of its issuer's name verifies its signature", "RFC 5280, 6.3.3, g"),
    form(r"by another key of its issuer", "another key of its issuer signed it than the one that signed the certificate", "docs/RULES.md, lists"),
    form(r"issuer spelled otherwise", "its issuer's name reads like the certificate's issuer", "RFC 5280, 6.3.3, a and b"),
    form(r"no next update", "it has no next update", "RFC 5280, 5.1.2.5"),
    form(r"not current before (\S+)", "it isn't current before {0}Z", "RFC 5280, 5.1.2.4"),
    form(r"past next update (\S+)", "its next update was due at {0}Z", "RFC 5280, 5.1.2.5"),
    form(r"extension (\d+) critical (\S+)", "it has the critical extension {1}", "RFC 5280, 5.2"),
    form(r"entry (\d+) has a critical extension", "its entry {0} has a critical extension", "RFC 5280, 5.3"),
    form(r"leads to an anchor with at most (\d+) below", "path lengths allow at most {0} certificates below it, and more stand there",
         "RFC 5280, 6.1.4, l and m"),
    form(r"no issuer here", "no certificate and no anchor has its issuer's name", "RFC 5280, 6.1.3, a, 4",
         "add the missing certificate, or name the anchor with --anchors"),
    form(r"issued by itself", "it issued itself, and no anchor has its name", "RFC 5280, 6.1", "if it is to be trusted, name it with --anchors"),
)


def named(word):
    """An identifier with the name of its extension, and any other word as it is."""
    return f"{EXTENSIONS[word]} ({word})" if word in EXTENSIONS else word


@lru_cache(maxsize=4096)
def sentence(words):
    """The sentence of a reason's words; the words themselves if they are new here."""
    for form in FORMS:
        found = form.words.fullmatch(words)
        if found:
            return form.sentence._replace(text=form.sentence.text.format(*map(named, found.groups())))
    return Sentence(streams.shown(words), "")
