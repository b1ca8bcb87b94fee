"""Tries names as text: what stands in a name stays in its value and on its line.

    cd python && python3 -m unittest
"""
import pickle
import re
import time
import unittest
from unittest import mock

import certpath
from tests.common import (BMP, COMMON_NAME, COUNTRY, OCTET_STRING, ORGANIZATION, PRINTABLE, TELETEX,
                          UNNAMED, attribute, certificate, common_name, name_of)


def text(octets):
    return certpath.Name(octets).text


class Escapes(unittest.TestCase):
    def test_values(self):
        for value, shown in (
                ("www.example.test", "www.example.test"), ("", ""),
                ("Example, Inc.", r"Example\, Inc."), ("a+b", r"a\+b"), ('"a"', r"\"a\""),
                ("a;b", r"a\;b"), ("<a>", r"\<a\>"), ("a\\b", r"a\\b"), ("a=b", "a=b"),
                ("#a", r"\#a"), ("a#", "a#"), (" a", r"\ a"), ("a ", r"a\ "), (" ", r"\ "),
                ("  ", r"\ \ "), ("\\ ", r"\\\ "), ("a b", "a b"), ("a\0b", r"a\00b"),
                ("a\nb", r"a\0Ab"), ("a\r\nb", r"a\0D\0Ab"), ("\x1b[31m", r"\1B[31m"),
                ("a\tb", r"a\09b"), ("\x7f", r"\7F"), ("\x85", r"\C2\85"), ("a\xa0b", r"a\C2\A0b"),
                ("a\u202eb", r"a\E2\80\AEb"), ("\u2066a", r"\E2\81\A6a"), ("\u200fa", r"\E2\80\8Fa"),
                ("\u061ca", r"\D8\9Ca"), ("a\u2028b", r"a\E2\80\A8b"), ("\ufeffa", r"\EF\BB\BFa"),
                ("a\u200bb", r"a\E2\80\8Bb"), ("\U000e0041", r"\F3\A0\81\81"), ("\u017d\u00ed", "\u017d\u00ed")):
            with self.subTest(value=value):
                self.assertEqual(text(common_name(value)), f"CN={shown}")

    def test_whatever_the_octets_are(self):
        for code in range(0x250):
            shown = text(common_name(f"a{chr(code)}b"))
            self.assertTrue(shown.isprintable(), hex(code))
            self.assertEqual(shown.partition("\\")[0], "CN=a" if "\\" in shown else shown)

    def test_values_that_look_like_attributes(self):
        for value, shown in (
                ("www.example.org, O=Example, C=CZ", r"www.example.org\, O=Example\, C=CZ"),
                ("a + O=b", r"a \+ O=b"), ("a, OID(1.2.3)=b", r"a\, OID(1.2.3)=b"),
                (", O=b", r"\, O=b"), ("a, O=", r"a\, O="), ("a,O=b", r"a\,O=b")):
            for tag, octets in ((0x0c, value.encode()), (BMP, value.encode("utf-16-be"))):
                with self.subTest(value=value, tag=tag):
                    self.assertEqual(text(common_name(octets, tag)), f"CN={shown}")
                    both = name_of(attribute(COMMON_NAME, octets, tag), attribute(COUNTRY, "DE"))
                    self.assertEqual(text(both), f"CN={shown}, C=DE")

    def test_where_values_end(self):
        for value, shown in (("a,", r"a\,"), ("a +", r"a \+"), ("a, ", r"a\,\ "), ("a ", r"a\ "),
                             ("a,,", r"a\,\,"), ("a + ", r"a \+\ ")):
            one, other = attribute(COMMON_NAME, value), attribute(ORGANIZATION, "b")
            with self.subTest(value=value):
                self.assertEqual(text(name_of(one, other)), f"CN={shown}, O=b")
                self.assertEqual(text(name_of([one, other])), f"CN={shown} + O=b")

    def test_one_text_of_one_name(self):
        """Names of attributes that are put together otherwise have other texts."""
        values, found = ("a", "a,", ", a", "a, O=b", "b", "a + O=b", "\\", "\\, O=b", " "), {}
        for one in values:
            for other in (*values, None):
                for octets in ([name_of(attribute(COMMON_NAME, one))] if other is None else [
                        name_of(attribute(COMMON_NAME, one), attribute(ORGANIZATION, other)),
                        name_of([attribute(COMMON_NAME, one), attribute(ORGANIZATION, other)])]):
                    if not is_doubtful(one, other):
                        found.setdefault(text(octets), set()).add(octets)
        self.assertEqual([it for it, names in found.items() if len(names) > 1], [])

    def test_sets(self):
        name = name_of(attribute(COUNTRY, "DE", PRINTABLE),
                       [attribute(ORGANIZATION, "A, B"), attribute(UNNAMED, b"\x0a\xff", OCTET_STRING)])
        self.assertEqual(text(name), r"C=DE, O=A\, B + OID(1.2.3.4)=0AFF")

    def test_types(self):
        for identifier, shown in (("", "OID()"), ("2a03", "OID(1.2.3)"), ("8001", "OID(80 01)"),
                                  ("550408", "ST"), ("2a864886f70d010901", "Email")):
            name = name_of(attribute(COMMON_NAME, "a"), attribute(identifier, "b, c"))
            self.assertEqual(text(name), rf"CN=a, {shown}=b\, c")

    def test_plain(self):
        """The short way for names of which nothing is escaped gives what the long one gives."""
        values = ("", "a", "a b", " a", "a ", "#a", "a#", "a,b", "a, b", "a, O=b", "a+b", "a;b", "a\\",
                  "a\nb", "a=b", "\u017d", "\u202e", ", ", " ", "a, C=DE", '"', "<", ">")
        for one in values:
            for other in values:
                for tag in (0x0c, BMP):
                    octets = name_of(attribute(COMMON_NAME, one),
                                     attribute(ORGANIZATION, encoded(other, tag), tag))
                    short = text(octets)
                    with mock.patch("certpath.names.is_plain", lambda *_: False):
                        self.assertEqual(short, text(octets))

    def test_many_attributes(self):
        """A name of so many attributes that not every place is looked at costs no more than others."""
        many, begin = [attribute(COMMON_NAME, "a")] * 40000, time.process_time()
        for value, shown, escapes in (("b", "b", 0), ("b, CN=c", r"b\, CN=c", len(many))):
            found = text(name_of(*many, attribute(ORGANIZATION, value)))
            self.assertTrue(found.endswith(f", O={shown}"))
            self.assertEqual(found.count("\\"), escapes)
        self.assertLess(time.process_time() - begin, 20)

    def test_raw_text(self):
        name = certpath.Name(common_name("a\nb, O=c"))
        self.assertEqual((name.raw_text, str(name)), ("CN=a\nb, O=c", r"CN=a\0Ab\, O=c"))


def encoded(value, tag):
    return value.encode("utf-16-be" if tag == BMP else "utf-8")


def is_doubtful(one, other):
    """Whether one value has just what stands between two attributes of the other name."""
    return other is not None and any(re.search(r"(, | \+ )O=", it) for it in (one, other))


class WithoutText(unittest.TestCase):
    def test_two_names(self):
        """Names with a value that can't be shown aren't taken for one another."""
        names = [certpath.Name(common_name(it, TELETEX)) for it in (b"\xe9", b"\xe8")]
        for it in names:
            self.assertEqual(str(it), f"#{it.public_bytes().hex().upper()}")
            with self.assertRaisesRegex(certpath.BadName, "can't be shown as text"):
                it.text
        self.assertEqual(len({*map(str, names)}), 2)

    def test_no_names(self):
        for octets in (b"", b"\x02\x01", b"\x30\x00\x00"):
            with self.subTest(octets=octets):
                with self.assertRaisesRegex(certpath.BadName, "the octets are no name"):
                    certpath.Name(octets).text
                self.assertEqual(str(certpath.Name(octets)), f"#{octets.hex().upper()}")

    def test_long_names(self):
        self.assertEqual(text(common_name("a" * 1024)), "CN=" + "a" * 1024)


class Names(unittest.TestCase):
    def test_of_certificates(self):
        item = certpath.Certificate(certificate(common_name("a\nb"), common_name("c")))
        self.assertEqual((str(item.subject), str(item.issuer)), (r"CN=a\0Ab", "CN=c"))

    def test_never_changed(self):
        name = certpath.Name(common_name("a"))
        name.text
        for attribute_name in ("text", "_octets", "more"):
            with self.assertRaisesRegex(AttributeError, "Name is never changed"):
                setattr(name, attribute_name, "b")
            with self.assertRaisesRegex(AttributeError, "Name is never changed"):
                delattr(name, attribute_name)
        self.assertEqual(name.text, "CN=a")

    def test_pickled(self):
        name = certpath.Name(common_name("a"))
        self.assertEqual(pickle.loads(pickle.dumps(name)), name)


if __name__ == "__main__":
    unittest.main()
