"""The rows of the trials of messages: what is typed, the status, what is printed, and a command line that does what the message advises."""
from typing import NamedTuple

from trials.messages_files import slug

AT = "--at 2026-06-01"
ROOT = f"--anchors root.pem {AT}"
GOOD = f"verify leaf.pem int.pem {ROOT}"
DEMANDED = f"{GOOD} --demand-lists --lists int-list.pem --lists root-list.pem"
SEE = "; see ./verify --help"
NO_CRYPTO = "import certpath.libcrypto as it; it.candidates = lambda: ['libnone.so']"
NO_LIBRARY = "import certpath.library as it; it.FOLDERS = ('/none',)"
OLDER = "from program import sources; sources.digest = lambda *_: '0' * 64"
NO_RECORD = "from program import programs; programs.SHIPPED_RECORD = 'none'"
NO_MEMORY = "import certpath.library as it; it.loaded().certpath_frame = lambda *_: 1"


def stub(name):
    """Puts a program in the place of certpath."""
    return f"import os; from program import programs; programs.found = lambda *_: (os.path.abspath('{name}'), None, 0)"


class Row(NamedTuple):
    """What is typed, the status, and parts of lines that are printed; what the message advises, and how that ends; standard input; a setting that
    something isn't there, or that a bound is lower; the folders of programs."""
    typed: str
    status: int
    said: tuple
    remedy: str = None
    ends: int = 0
    octets: bytes = b""
    setting: str = None
    path: str = None


def of_case(title, *said, words="", remedy=None, ends=0, status=1):
    """A row of a case of tools/trials/refusals.py; the remedy is further words, or a whole command line."""
    typed = f"verify {slug(title)}.pem --anchors {slug(title)}.roots {AT}{words}"
    remedy = f"{typed.replace(AT, '')} {remedy}" if remedy and remedy.startswith("--at") else f"{typed} {remedy}" if (remedy or "").startswith("--") else remedy
    return Row(typed, status, said, remedy, ends)


def of_bound(bound, typed, status, *said, **further):
    """A row where a bound is lower than it is, since what reaches it takes long to make."""
    return Row(typed, status, said, setting=f"from verify import answers, core, files, graph, page, people, picture, run, signing, spelling, stores; {bound}", **further)


WORDS = (
    Row("verify", 2, (f"verify: a FILE is missing{SEE}",), "verify --help"),
    Row("verify leaf.pem --hostname x", 2, (f"verify: there is no option --hostname; the host is --host{SEE}",), "verify --help"),
    Row("verify leaf.pem --eku x", 2, (f"verify: there is no option --eku; the purpose is --purpose{SEE}",), "verify --help"),
    Row("verify leaf.pem --verify-email x", 2, (f"verify: there is no option --verify-email: addresses of e-mail aren't judged{SEE}",), "verify --help"),
    Row("verify leaf.pem --all --host a.test", 2, ("verify: --host is asked of one target, and not with --all",), "verify --help"),
    Row("verify leaf.pem -CAfile root.pem", 2, (f"there is no option -CAfile; trust anchors are named by --anchors{SEE}",), GOOD),
    Row("verify leaf.pem -untrusted int.pem", 2, (f"there is no option -untrusted; further certificates are further FILEs{SEE}",), GOOD),
    Row("verify leaf.pem -CRLfile int-list.pem", 2, (f"; revocation lists are further FILEs, or --lists{SEE}",), f"{GOOD} int-list.pem --lists root-list.pem"),
    Row("verify leaf.pem -crl_check", 2, (f"; --demand-lists wants a list of each issuer{SEE}",), DEMANDED),
    Row("verify leaf.pem -attime 1780272000", 2, (f"; the moment is --at{SEE}",), GOOD),
    Row("verify leaf.pem --anchor root.pem", 2, (f"there is no option --anchor, the most similar one is --anchors{SEE}",), GOOD),
    Row("verify leaf.pem --wxyz", 2, (f"verify: there is no option --wxyz{SEE}",), "verify --help"),
    Row("verify leaf.pem --at 2026-02-30", 2, ("verify: --at 2026-02-30: no moment; write now, 2026-06-01, 2026-06-01T12:00:00, 2026-06-01T12:00:00Z or ",),
        f"{GOOD} --at 2026-06-01T12:00:00+02:00"),
    Row("verify leaf.pem --limit 3x", 2, ("argument --limit: 3x is no number from 0 to 4294967295",), f"{GOOD} --limit 4294967295"),
    Row("verify leaf.pem --seconds 0", 2, ("argument --seconds: 0 is no number from 1 to 4294967295",), f"{GOOD} --seconds 4294967295"),
    Row("verify leaf.pem --json --quiet", 2, ("argument --quiet: not allowed with argument --json",), f"{GOOD} --json"),
    Row("verify leaf.pem --json=x", 2, (f"verify: --json takes no value{SEE}",), f"{GOOD} --json"),
    Row("bundle - -", 2, ("certpath: standard input can be one file only; see './certpath --help'",), "./bundle - < leaf.pem"),
    Row("verify leaf.pem --at", 2, ("argument --at: expected one argument",), f"{GOOD} --at now"),
    Row("verify - --anchors -", 2, ("verify: standard input can be one file only",), GOOD),
    Row(f"{GOOD} --html - --json", 2, ("verify: --html - and --json can't both have standard output",), f"{GOOD} --html page.html --json"),
    Row(f"{GOOD} --html int.pem", 2, ("verify: --html int.pem: this file is read; name another one for the page",), f"{GOOD} --html page.html"),
    Row(f"verify leaf.pem --anchors root.pem {AT} int.pem", 0, ("valid path at 2026-06-01T00:00:00Z: CN=leaf to CN=Root",)),
    Row(f"verify {ROOT} -- leaf.pem int.pem", 0, ("valid path at",)),
)
FILES = (
    Row(f"verify nothing {ROOT}", 4, ("verify: nothing: the file is empty; mend the file, or leave it out",), GOOD),
    Row(f"{GOOD} notes", 4, ("verify: notes: the file is neither PEM nor DER; mend the file, or leave it out",), GOOD),
    Row(f"verify leaf.pem folder {ROOT}", 4, ("verify: cannot read folder: it is a folder; name its files",), f"verify leaf.pem folder/int.pem {ROOT}"),
    Row(f"verify laef.pem {ROOT}", 4, ("verify: cannot read laef.pem: no such file; is the name right?",), GOOD),
    Row("./bundle - <&-", 4, ("cannot read -",), "./bundle - < leaf.pem"),
    Row(f"./verify - {ROOT} <&-", 4, ("verify: cannot read -: standard input is closed",), GOOD),
    Row(f"{GOOD} odd.pem", 0, (
        "octets around the blocks that are no text", "its length is indefinite (BER) or cut", "its length is above 16777216", "4087 octets of it missing",
        "its length is not in the shortest form (BER)", "2 octets after the item", "header lines within", "an END that ends no block",
        " CERTIFICATE: its END is missing; left out", ": the label isn't known; left out"), GOOD),
    Row(f"verify /dev/zero {ROOT}", 4, ("verify: /dev/zero: it has more than 268435456 octets; split it",)),
    Row(f"verify cut.p7c {ROOT}", 4, ("verify: cut.p7c octet 0: 5 octets of it missing, ", " octets to the file's end; mend the file, or leave it out"),
        f"verify all.p7c {ROOT} --quiet"),
    Row(f"verify ber.p7c {ROOT}", 4, ("verify: ber.p7c octet 0: its length is indefinite (BER) or cut, ", "; mend the file, or leave it out; if it is PKCS #7, this makes PEM "
        "of it: openssl pkcs7 -inform DER -in ber.p7c -print_certs -out ber.p7c.pem"),
        f"openssl pkcs7 -inform DER -in ber.p7c -print_certs -out ber.p7c.pem && ./verify ber.p7c.pem {ROOT}"),
    Row(f"verify ber.p7b {ROOT}", 4, ("verify: ber.p7b line 1 PKCS7: no SignedData in DER; mend the file, or leave it out; if it is PKCS #7, this makes PEM of it: "
        "openssl pkcs7 -in ber.p7b -print_certs -out ber.p7b.pem",), f"openssl pkcs7 -in ber.p7b -print_certs -out ber.p7b.pem && ./verify ber.p7b.pem {ROOT}"),
    Row(f"verify cut.p7b {ROOT}", 4, ("verify: cut.p7b line 1 PKCS7: its END is missing; mend the file, or leave it out",), f"verify all.p7b {ROOT} --quiet"),
    Row(f"verify two.p7b {ROOT} --quiet", 0, ()),
    Row(f"verify closed.p12 {ROOT}", 4, ("PKCS #12 with a password, or damaged; unpack it: openssl pkcs12 -in closed.p12 -nokeys -out closed.p12.pem",),
        f"openssl pkcs12 -in closed.p12 -nokeys -out closed.p12.pem -passin pass:secret && ./verify closed.p12.pem {ROOT}"),
    Row(f"verify cut.p12 {ROOT}", 4, ("verify: cut.p12 octet 0: 5 octets of it missing, ",), GOOD),
    Row(f"verify rubbish.p12 {ROOT}", 0, ("rubbish.p12 octet ", ": neither certificate nor revocation list, 1 octet to the file's end; left out")),
    Row(f"verify keys.p12 {ROOT}", 3, ("verify: keys.p12: it holds no certificate, so no target",), GOOD),
    Row(f"verify open.p12 {ROOT}", 70, ("verify: open.p12 octet 0: neither certificate nor revocation list; the command openssl, which unpacks PKCS #12, isn't there: "
        "install it, or give PEM or DER",), GOOD, path="ROOM/empty"),
    Row(f"verify all.p7c {ROOT} --quiet", 0, (), path="ROOM/empty"),
    Row(f"verify open.p12 {ROOT} --seconds 3", 9, ("verify: the run takes more than 3 s of a processor, and has ended while openssl pkcs12 unpacks open.p12; --seconds N allows more",),
        f"verify open.p12 {ROOT} --quiet --seconds 100", path="ROOM/slow"),
    Row(f"verify open.p12 {ROOT} --seconds 3 --json", 9, ('"outcome": "fault", "status": 9, "fault": "the run takes more than 3 s of a processor, and has ended while openssl pkcs12 unpacks',),
        path="ROOM/slow"),
    Row(f"verify flat.pem int.pem {ROOT}", 4, ("flat.pem line 1: a BEGIN or an END that is no line of its own (are newlines missing?); mend the file",), GOOD),
    Row(f"verify damaged.pem {ROOT}", 4, ("damaged.pem line 1 CERTIFICATE: not base64; it would be the target: mend it, or name another one with --target",),
        f"verify damaged.pem {ROOT} --target int.pem"),
    Row(f"verify rubbish.der int.pem {ROOT}", 0, ("rubbish.der octet", "7 octets to the file's end; left out")),
    Row(f"verify key.pem {ROOT}", 3, ("verify: key.pem: it holds PRIVATE KEY and no certificate, so no target",), GOOD),
    Row(f"verify int-list.pem {ROOT}", 3, ("verify: int-list.pem: it holds revocation lists and no certificate, so no target",), GOOD),
    of_bound("run.MOST_LEFT_OUT = 1", f"verify dirt.pem int.pem {ROOT}", 0, " PRIVATE KEY: the block holds neither certificate nor revocation list; left out", "  2 more were left out"),
    Row(f"verify other.pem {ROOT}", 3, ("no target: item 0 (other.pem): neither a certificate nor a list in its one spelling (the causes stand in ",)),
    Row(f"verify leaf.pem int.pem other.pem {ROOT}", 0, (", to OpenSSL CN=Between: neither a certificate nor a list in its one spelling, so not used; the causes stand in ",)),
    Row(f"verify big.pem int.pem {ROOT} --limit 900", 3, ("no target: big.pem: an item above the limit", "big.pem: an item of "), f"verify big.pem int.pem {ROOT}"),
    Row(f"{GOOD} big-list.pem --limit 900", 1, ("since whether a certificate of the path is revoked isn't known, as a list can't be read: big-list.pem: a list above the limit",),
        f"{GOOD} big-list.pem"),
)
ANCHORS = (
    of_bound("stores.system_sources = list", "verify leaf.pem", 4, "verify: no store of trust anchors is known on this system; name anchors with --anchors FILE",
             remedy=GOOD),
    Row("verify leaf.pem --anchors int-list.pem", 4, ("verify: int-list.pem: holds no certificate, so no anchor; name a file with --anchors FILE",), GOOD),
    Row("verify leaf.pem --anchors empty", 4, ("verify: empty: its files hold no certificate, so no anchor; name a file of certificates with --anchors FILE",), GOOD),
    Row("verify leaf.pem --anchors key.pem", 4, ("verify: key.pem: it holds no certificate, so no anchor; name a file of certificates with --anchors FILE",), GOOD),
    Row("verify leaf.pem --anchors root.pem --limit 9", 4, ("verify: root.pem: holds no certificate within --limit 9, so no anchor",), GOOD),
    of_bound("import os\ndef listdir(_): raise PermissionError(13, 'Permission denied')\nos.listdir = listdir", "verify leaf.pem --anchors folder", 4,
             "verify: folder: cannot read the folder (Permission denied)", remedy=GOOD),
    Row(f"verify old-leaf.pem --anchors old-root.pem {AT}", 0, ("anchor 0 CN=old expired at 2025-12-31T23:59:59Z; of an anchor, dates aren't judged (RFC 5280, 6.1.1, d)",
                                                             "its name and key alone (RFC 5280, 6.1.1, d)")),
    Row(f"verify new-leaf.pem --anchors new-root.pem {AT}", 0, ("anchor 0 CN=new isn't valid before 2027-01-01T00:00:00Z; of an anchor,",)),
    Row(f"verify sha1-root.pem --anchors sha1-root.pem {AT}", 1, ("no valid path at 2026-06-01T00:00:00Z: anchor 0 itself: CN=Old root",
        "an anchor is trusted as it is, and needs no path; as a target it is judged like any certificate, its own signature and validity too"),
        f"verify sha1-root.pem --anchors sha1-root.pem {AT} --weak"),
)
TARGETS = (
    Row(f"{GOOD} --target 99", 3, ("no target: item 99: there is none; the files hold 2 items",), f"{GOOD} --target 1"),
    Row(f"{GOOD} --target {'f' * 64}", 3, ("no certificate has this fingerprint",), f"{GOOD} --target 1"),
    Row(f"{GOOD} --target abcd", 4, ("verify: --target abcd: no such file, and neither a position nor a SHA-256 fingerprint of 64 hex digits",), f"{GOOD} --target int.pem"),
    Row(f"{GOOD} int-list.pem --target 2", 3, ("no target: item 2 (int-list.pem): a revocation list",), f"{GOOD} --target 1"),
    of_bound("run.MOST_WHYS = 1", f"verify leaf.pem late.pem {ROOT} --all", 1, "not asked, since many other targets were: ask about it alone, with --target",
             remedy=f"verify leaf.pem late.pem {ROOT} --target late.pem", ends=1),
    of_bound("run.MOST_WHY_LINES = 0", f"verify leaf.pem late.pem {ROOT} --all", 1, "not asked, since many other targets were: ask about it alone, with --target"),
    of_bound("people.MOST_OBSTACLES = 1", f"verify late.pem {ROOT} --html -", 1, "and 1 further reasons; --json has them all"),
    of_bound("page.MOST_CERTIFICATES = 1", f"{GOOD} --html -", 0, "<p>and 1 further certificates; --json has them all</p>", remedy=f"{GOOD} --json"),
    of_bound("page.MOST_LISTS = 1", f"{GOOD} --html - --lists old-list.pem --lists early-list.pem --ignore-unused-lists", 0, "and 1 further lines; --json has them all"),
    Row(f"{GOOD} endless-list.der --html -", 0, ("Lists that aren't used", "list 2 (endless-list.der) of CN=spelled isn")),
    of_bound("picture.MOST_BOXES = 2", f"{GOOD} --html -", 0, "1 further certificates are left out here"),
    of_bound("graph.MOST_NODES = 1; graph.MOST_EDGES = 1", f"verify late.pem int.pem {ROOT} --dot", 1, "left out: 2 certificates and 2 links; --json has them all",
             remedy=f"verify late.pem int.pem {ROOT} --json", ends=1),
    of_bound("answers.MOST_LISTS = 1", f"{GOOD} --all --lists old-list.pem --lists early-list.pem", 1, "1 further lists that aren't used concern item 0; --target 0 shows them",
             remedy=f"{GOOD} --lists old-list.pem --lists early-list.pem --target 0", ends=1),
    of_bound("core.MOST_OF_NAME = 4", f"verify late.pem {ROOT}", 1, "item 0 CN=l..: no certificate"),
    of_bound("people.MOST_OBSTACLES = 1", f"verify late.pem {ROOT}", 1, "and 1 further reasons; --json has them all", remedy=f"verify late.pem {ROOT} --json", ends=1),
    of_bound("page.MOST_TARGETS = 1", f"{GOOD} sibling.pem --all --html -", 0, "<title>3 certificates at 2026-06-01T00:00:00Z",
             "Not on this page", "2 further targets; --json has them all", remedy=f"{GOOD} --all --json"),
    Row(f"verify small.pem int.pem {ROOT}", 0, ("item 0 CN=small: its own key is weak: 1024-bit RSA key; a target isn't refused for that",)),
    Row(f"{GOOD} --dot", 0, ("digraph certpath {",)),
)
PROGRAMS = (
    Row(GOOD, 70, ("verify: OpenSSL, which verifies signatures, cannot be called: no libcrypto of OpenSSL 3 is there",), setting=NO_CRYPTO),
    Row("verify leaf.pem", 70, ("verify: OpenSSL, which reads the store of trust anchors, cannot be called: no libcrypto of OpenSSL 3 is there",), setting=NO_CRYPTO),
    Row(GOOD, 70, ("verify: the library of certpath is missing: libcertpath.so is in none of /none",), setting=NO_LIBRARY),
    Row(GOOD, 70, ("verify: the Python package certpath can't be used: ",), setting="sys.modules['ctypes'] = None"),
    Row(GOOD, 6, ("verify: out of memory",), setting=NO_MEMORY),
    Row(f"{GOOD} --quiet", 70, ("verify: cannot hand on ", " octets: File too large"), setting="import resource as it; it.setrlimit(it.RLIMIT_FSIZE, (10, 10))"),
    Row(GOOD, 69, ("verify: dist/ is older than the sources: ./certpath --build builds it",), setting=OLDER),
    Row("vouch root.der root.der", 69, ("vouch: dist/ is older than the sources: ./certpath --build builds it",), setting=OLDER),
    Row(GOOD, 70, ("verify: none is missing, or is no record: ./certpath --build builds it",), setting=NO_RECORD),
    Row(GOOD, 70, ("verify: certpath why: it ended with status 9",), setting=stub("failing")),
    Row(GOOD, 70, ("verify: certpath why: boom",), setting=stub("saying")),
    Row(GOOD, 1, ("the check says no: a fault of this program; please report it",), setting=stub("denying")),
    Row(GOOD, 70, ("notes can't be started: Permission denied",), setting=stub("notes")),
    Row(f"{GOOD} --html no/such/page.html", 7, ("verify: no/such/page.html: cannot write it (No such file or directory)",), f"{GOOD} --html page.html"),
    Row(f"./{GOOD} --html - > /dev/full", 7, ("verify: standard output fails",), f"./{GOOD} --html - > page.html"),
    Row(f"./{GOOD} > /dev/full", 7, ("cannot write",), f"./{GOOD} > answer"),
    Row("./bundle leaf.pem > /dev/full", 7, ("cannot write",), "./bundle leaf.pem > bundle.der"),
)
VOUCH = (
    Row("vouch - -", 2, ("vouch: standard input can be one file only",), "vouch leaf.der int.der"),
    Row("vouch leaf.der int.der --tries 0", 2, ("vouch: --tries 0: no number from 1 to 4294967295",), "vouch leaf.der int.der --tries 1"),
    Row("vouch leaf.der int.der --limit x", 2, ("vouch: --limit x: no number from 0 to 4294967295",), "vouch leaf.der int.der --limit 4294967295"),
    Row("vouch leaf.pem int.pem", 1, ("bundle: fault at 0: what begins there is no item; of PEM files ./bundle makes items",),
        "./bundle leaf.pem > bundle.der && ./bundle int.pem > anchors.der && ./vouch bundle.der anchors.der"),
    Row("vouch cut.der int.der", 1, ("bundle: cut at 0: the last item isn't whole",), "vouch leaf.der int.der"),
    Row("vouch rubbish.der int.der", 1, ("what begins there is no item",), "vouch leaf.der int.der"),
    Row("vouch leaf.der root.der", 0, ("bundle 0: no key under its issuer's name",), "vouch leaf.der int.der"),
    Row("vouch of-other.der keys.der --tries 2", 0, ("bundle 0: not verified by 2 keys (", "); 1 further key not tried (--tries)"), "vouch of-other.der keys.der --tries 3"),
    Row("vouch keys.der keys.der --tries 2", 0, ("bundle 0, 1, 2 (3 items): vouched for; 1 further key not tried (--tries)",), "vouch keys.der keys.der --tries 3"),
    Row("vouch sha1-root.der sha1-root.der", 0, ("bundle 0: weak: sha1 (--weak takes it)",), "vouch sha1-root.der sha1-root.der --weak"),
    Row("vouch other.der int.der", 0, ("bundle 0: neither certificate nor list",)),
    Row("vouch leaf.der endless-list.der", 0, ("anchors 0: no certificate",)),
    Row("vouch leaf.der int.der", 4, ("vouch: OpenSSL cannot be called: no libcrypto of OpenSSL 3 is there",), setting=NO_CRYPTO),
    Row("vouch leaf.der int.der", 4, ("vouch: libcertpath.so is in none of /none",), setting=NO_LIBRARY),
    Row("vouch leaf.der int.der", 4, ("vouch: out of memory",), setting=NO_MEMORY),
)
BUNDLE = (
    Row("bundle flat.pem", 1, ("flat.pem line 1: a BEGIN or an END that is no line of its own (are newlines missing?); left out",), "bundle leaf.pem"),
    Row("bundle folder", 4, ("cannot read folder",), "bundle folder/int.pem"),
    Row("bundle laef.pem", 4, ("cannot read laef.pem",), "bundle leaf.pem"),
)
LISTS = (
    Row(f"{GOOD} old-list.pem", 1, ("path refused at 2026-06-01T00:00:00Z, since item 0 CN=leaf is revoked by list 2 (old-list.pem), which isn't used: "
        "its next update was due at 2026-02-01T00:00:00Z (RFC 5280, 5.1.2.5): CN=leaf to CN=Root",
        "give a list that can be used with --lists and leave this one out, or accept the path with --ignore-unused-lists"), f"{GOOD} --lists int-list.pem"),
    Row(f"{GOOD} old-list.pem", 1, ("accept the path with --ignore-unused-lists",), f"{GOOD} old-list.pem --ignore-unused-lists"),
    Row(f"{GOOD} old-list.pem --json", 1, ("past next update 2026-02-01T00:00:00",)),
    Row(f"{GOOD} early-list.pem", 1, ("it isn't current before 2026-07-01T00:00:00Z",), f"{GOOD} early-list.pem --at 2026-08-01", 1),
    Row(f"{GOOD} early-list.pem --json", 1, ("not current before 2026-07-01T00:00:00",)),
    Row(f"verify leaf.pem int.pem damaged-list.pem {ROOT}", 4, ("verify: damaged-list.pem line 1 X509 CRL: not base64; mend the file, or leave it out",), GOOD),
    Row(f"{GOOD} sibling.pem sibling-list.pem", 1, ("another key of its issuer signed it than the one that signed the certificate (docs/RULES.md, lists)",),
        f"{GOOD} sibling.pem sibling-list.pem --ignore-unused-lists"),
    Row(f"{GOOD} sibling.pem sibling-list.pem --json", 1, ("by another key of its issuer",)),
    Row(f"{GOOD} sibling-list.pem --json", 1, ("no voucher by a key of its issuer",)),
    Row(f"{GOOD} spelled-list.pem", 1, ("its issuer's name reads like the certificate's issuer, but its CN is a PrintableString in the list and a UTF8String in the certificate "
        "(RFC 5280, 6.3.3, a and b)",), f"{GOOD} --lists int-list.pem"),
    Row(f"{GOOD} spelled-list.pem --json", 1, ("issuer spelled otherwise",)),
    Row(f"{GOOD} weak-list.pem", 1, ("its signature is weak: sha1",), f"{GOOD} weak-list.pem --weak", 1),
    Row(f"verify small.pem int.pem {ROOT} old-list.pem", 0, ("list 2 (old-list.pem) of CN=Between isn't used: its next update was due at",)),
    Row(f"verify plain.der endless-list.der --anchors spelled-root.der {AT}", 1, ("it has no next update (RFC 5280, 5.1.2.5)",)),
    Row(f"verify plain.der endless-list.der --anchors spelled-root.der {AT} --json", 1, ('"no next update"',)),
    Row(f"verify plain.der entry-list.der --anchors spelled-root.der {AT}", 1, ("its entry 0 has a critical extension (RFC 5280, 5.3)",)),
)
CERTIFICATES = (
    Row(f"verify twice.der --anchors spelled-root.der {AT}", 1, ("it has the extension 1.2.3 twice", "RFC 5280, 4.2")),
    Row(f"verify no-der.der --anchors spelled-root.der {AT}", 1, ("its basicConstraints isn't DER",)),
    Row(f"verify poison.pem int.pem {ROOT}", 1, ("it has the critical extension the poison of a precertificate (1.3.6.1.4.1.11129.2.4.3)",)),
    Row(f"verify leaf.pem {ROOT}", 1, ("no certificate and no anchor has its issuer's name, CN=Between",
        "RFC 5280, 6.1.3, a, 4; add the missing certificate, or name the anchor with --anchors"), GOOD),
    Row(f"verify leaf.pem {ROOT}", 1, ("or name the anchor with --anchors",), f"verify leaf.pem --anchors int.pem {AT}"),
    Row(f"verify leaf.pem {ROOT} --json", 1, ('"no issuer here"',)),
    Row(f"verify root.pem --anchors int.pem {AT}", 1, ("it issued itself, and no anchor has its name", "if it is to be trusted, name it with --anchors"), f"verify root.pem {ROOT}"),
    Row(f"verify root.pem --anchors int.pem {AT} --json", 1, ('"issued by itself"',)),
    Row(f"verify leaf.pem spelled.pem {ROOT}", 1, ("no certificate and no anchor has its issuer's name, CN=Between; item 1 has one that reads alike, "
        "but its CN is a UTF8String here and a PrintableString there (spelled.pem)",), GOOD),
    of_bound("spelling.reader = lambda: None", f"verify leaf.pem spelled.pem {ROOT}", 1, "item 1 has one that reads alike, in other octets here than there (spelled.pem)"),
    of_bound("signing.FEW_PAIRS = 0; signing.MOST_TRIES = 1", f"verify late.pem int.pem sibling.pem {ROOT}", 1, "(not tried: more than 16 keys have its issuer's name)"),
    Row(f"verify {slug('wrong root of the name')}.pem --anchors {slug('wrong root of the name')}.roots {AT} --dot", 1, ("signature not verified",)),
    Row(f"verify {slug('key identifiers')}.pem --anchors {slug('key identifiers')}.roots {AT} --dot", 1, ("names another key",)),
    Row(f"verify {slug('weak signature')}.pem --anchors {slug('weak signature')}.roots {AT} --html -", 1, ("weak signature: sha1", "Not judged", "Why not")),
    Row(f"{GOOD} --demand-lists --dot", 1, ("no list of its issuer is used",)),
    Row(f"{GOOD} --demand-lists --json", 1, ('"no list used"',)),
    Row(f"verify {slug('expired')}.pem --anchors {slug('expired')}.roots {AT} --html -", 1, ('class="bar late"', ", not judged")),
    Row(f"verify {slug('no CA')}.pem --anchors {slug('no CA')}.roots {AT} --json", 1, ('"no authority"',)),
    Row(f"verify {slug('key identifiers')}.pem --anchors {slug('key identifiers')}.roots {AT} --json", 1, ('"key identifiers differ"',)),
    Row(f"verify {slug('wrong root of the name')}.pem --anchors {slug('wrong root of the name')}.roots {AT} --json", 1, ('"no voucher"',)),
)
REASONS = (
    of_case("expired", "it expired at 2025-12-31T23:59:59Z", "ask about another moment with --at, or get a renewed one", remedy="--at 2025-06-01"),
    of_case("not yet valid", "it isn't valid before 2027-01-01T00:00:00Z", remedy="--at 2027-06-01"),
    of_case("critical extended key usage", "it has the critical extension extKeyUsage (2.5.29.37)", "RFC 5280, 6.1.4, o, and 6.1.5, f",
            "that extension isn't judged here, so no path goes through the certificate (docs/RULES.md)"),
    of_case("name constraints", "it has name constraints"),
    of_case("policy constraints", "it has policy constraints"),
    of_case("path length", "path lengths allow at most 0 certificates below it, and more stand there", "RFC 5280, 6.1.4, l and m"),
    Row(f"verify {slug('path length')}.pem --anchors {slug('path length')}.roots {AT} --json", 1, ('"leads to an anchor with at most 0 below"',)),
    of_case("no CA", "it isn't a CA, so it issues nothing"),
    of_case("no keyCertSign", "its keyUsage doesn't allow it to sign certificates"),
    of_case("revoked", "revoked by list 2 (revoked.pem)", "RFC 5280, 6.1.3, a, 3"),
    of_case("list demanded", "lists are demanded, and no list of that issuer is used", "give a current list with --lists", words=" --demand-lists", remedy=DEMANDED),
    of_case("wrong root of the name", "its signature isn't verified by that key (OpenSSL: ", "RFC 5280, 6.1.3, a, 1"),
    of_case("weak signature", "its signature is verified, but weak: sha1", "--weak accepts it", remedy="--weak"),
    Row(f"verify {slug('weak signature')}.pem --anchors {slug('weak signature')}.roots {AT} --weak", 0, ("item 0 CN=leaf: its signature is weak: sha1",)),
    of_case("key identifiers", "its authority key identifier names another key"),
    of_case("list with a critical extension", "since whether item 0 CN=leaf is revoked isn't known from list 2", remedy="--ignore-unused-lists"),
    of_case("list that no key vouches for", "no key of its issuer's name verifies its signature", remedy="--ignore-unused-lists"),
)
ROWS = (*WORDS, *FILES, *ANCHORS, *TARGETS, *PROGRAMS, *VOUCH, *BUNDLE, *LISTS, *CERTIFICATES, *REASONS)
# Messages that other trials try: the file, and what stands there.
STORES = "tools/trials/stores.py"
ELSEWHERE = {
    "further reasons (--verbose shows them)": ("tools/trials/vouching_tries.py", "OTHERS"),
    "verifying signatures": ("tools/trials/verifying_large.py", "verifying signatures"),
    **{it: (STORES, said) for it, said in (
        ("the system's store", "by the system's store"), (" with {}", "(?: with [A-Z_]+"), ("the system's store has no certificate ({})", "the system's store has no"),
        ("no file in it is named by a hash, so OpenSSL finds none; {}", "no file in it is named by a hash"), ("openssl rehash gives its files such names", "; openssl rehash gives"),
        ("a revocation list, for which OpenSSL looks under names with r", "under names with r"), ("no file is there", "no file is there"),
        ("the hash of its subject is {}, so OpenSSL doesn't find it", "the hash of its subject is "), ("OpenSSL can't read it", "OpenSSL can't read it"),
        ("no PEM, which is all that OpenSSL reads there", "no PEM, which is all"), ("and {} further files", "and 10 further files"), ("further certificate", "1 further certificate"))},
    **{it: ("tools/trials/hosts.py", words) for it, words in (
        ("it isn't for {0}: {1}", "it isn't for serverAuth"),
        ("it doesn't serve {0}: {1}", "it doesn't serve"), ("--host {}: {}", "--host"),
        ("--purpose {}: {}", "--purpose nothing"), (" for {}", "for host a.test"), ("host {}", "host a.test"), ("purpose {}", "purpose serverAuth"))},
}
ON_A_TERMINAL = "progress, which a terminal sees in runs of more than a second"
# Messages that no row can print, and why.
ABSENT = {
    "that is no file name": "a name with a NUL, which no command line can have",
    "reading items": ON_A_TERMINAL, "reading {}": ON_A_TERMINAL, "looking for the keys of issuers": ON_A_TERMINAL,
    "hosts and purposes can't be asked for: {}": "a library that has no such calls", "asking certpath {}": ON_A_TERMINAL, "{}: {} of {}": ON_A_TERMINAL,
}
