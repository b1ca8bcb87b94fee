"""./install: what it puts below a prefix works outside the checkout, and goes away again without a
trace; and the Debian package of the same files."""
import os
import re
import shutil
import stat
import subprocess
import sys

from install import contents, debian, placing
from program import installed, repo, usage
from trials import installing_places as places

INSTALL = os.path.join(repo.TOP, "install")
HEADERS = "/usr/include/openssl/evp.h"
EXAMPLE = os.path.join(repo.TOP, "examples", "c", "questions.c")
CONTAINER, IMAGE, BASE = "examples/container/Dockerfile", "certpath-trial", "debian:bookworm-slim"
# Tools that build images, by words that both take.
BUILDERS = ("docker", "podman")
# The page's list of what is below a prefix, and a path there.
PAGE, BELOW = "docs/INSTALL.md", re.compile(r"(?ms)^What is below the prefix then:\n\n(.*?)\n\n")
LISTED = re.compile(r"(?m)(?:^    |, )([a-z.]+/\S*?|\.a)(?=,? )")
SONAME = re.compile(r"\(SONAME\).*\[(.*)\]")
# What completion offers: what is typed, and words that have to be among those offered.
OFFERED = (("certpath pa", ("path", "paths")), ("certpath path --t", ("--target",)), ("certpath-verify --anch", ("--anchors",)),
           ("certpath-verify --js", ("--json",)), ("certpath-vouch --we", ("--weak",)), ("certpath-inventory --sq", ("--sqlite",)))
# Asks the completion of bash for a line, as a shell does it.
BASH = """. {file}
read -r -a COMP_WORDS <<< "$1"; COMP_CWORD=$((${{#COMP_WORDS[@]}} - 1)); COMPREPLY=()
function=$(complete -p "${{COMP_WORDS[0]}}"); function=${{function#* -F }}
"${{function%% *}}" "${{COMP_WORDS[0]}}" "${{COMP_WORDS[COMP_CWORD]}}" ""
printf '%s\\n' "${{COMPREPLY[@]}}"
"""
# Types a line and a tab in a shell of its own, and prints what that shows.
ZSH = """zmodload zsh/zpty
zpty shell zsh -f -i
zpty -w shell "unsetopt zle_bracketed_paste; PS1=; fpath=({folder} \\$fpath); autoload -Uz compinit; compinit -u -D; LISTMAX=1000; print READY"
zpty -r shell line '*READY*READY*'
zpty -w -n shell "$1"$'\\t\\t'
sleep 1
while zpty -r -t shell line; do print -r -- $line; done
zpty -d shell
"""


def install(*words, **how):
    return places.ran([sys.executable, INSTALL, *words], "/", places.environment(), **how)


def made_before(folder):
    """Files and folders that are there before an installation, and have to be there after it."""
    for path in ("bin/other", "lib/pkgconfig/other.pc", "share/man/man1/other.1"):
        os.makedirs(os.path.dirname(os.path.join(folder, path)), exist_ok=True)
        with open(os.path.join(folder, path), "w", encoding="ascii") as file:
            file.write("other\n")


class Prefix(places.InRoom):
    def setUp(self):
        super().setUp()
        self.prefix = os.path.join(self.room, "a prefix", "own")

    def test_use(self):
        """From a clean copy, which is gone then, into a prefix, and out of it."""
        top = places.copied(self.room)
        before = places.held(top)
        status, text = places.ran([os.path.join(top, "install"), "--prefix", self.prefix], self.room, places.environment())
        self.row(status == 0 and f"put below {self.prefix}\n" in text, f"./install: status {status}: {text}")
        self.same("what ./install leaves in the checkout", sorted({*places.held(top)} ^ {*before}), [])
        shutil.rmtree(top)
        env = places.environment(os.path.join(self.prefix, "bin"))
        places.try_quick_start(self, "./install", env)
        _, text = places.ran(["certpath", "--version"], self.room, env)
        self.row(self.prefix in text and text.startswith(f"certpath {usage.VERSION}\n"), f"certpath --version: {text}")
        self.same("certpath --build", places.ran(["certpath", "--build"], self.room, env)[0], 2)
        status, text = places.ran(["certpath-inventory", "--help"], self.room, env)
        self.row(status == 0 and text.startswith("usage: certpath-inventory ") and "--anchors" in text,
                 f"certpath-inventory --help: {text[-1000:]}")
        texts = [places.ran([command, "--help"], self.room, env)[1] for command in installed.COMMANDS.values()]
        self.same("names of scripts in the helps", [match for text in texts for match in re.findall(r"\./\w+|--build|dist/", text)], [])
        status, text = install("--prefix", self.prefix, "--uninstall")
        self.same(f"--uninstall: {text}", (status, os.path.lexists(os.path.dirname(self.prefix))), (0, False))

    def test_what_stays(self):
        """Files of others stay, and so do their folders; a second run replaces the first."""
        made_before(self.prefix)
        before = places.held(self.prefix)
        counts = []
        for _ in range(2):
            self.same("./install", install("--prefix", self.prefix)[0], 0)
            counts.append(len(places.held(self.prefix)))
        self.same("a second run", counts[1], counts[0])
        with open(os.path.join(self.prefix, placing.LIST), "a", encoding="ascii") as file:
            file.write("file bin/of-an-older-version\n")
        with open(os.path.join(self.prefix, "bin", "of-an-older-version"), "w", encoding="ascii"):
            pass
        install("--prefix", self.prefix)
        self.row(not os.path.exists(os.path.join(self.prefix, "bin", "of-an-older-version")), "a file of an older version is left")
        os.makedirs(os.path.join(self.prefix, placing.ROOT, "certpath", "__pycache__"))
        self.same("--uninstall", (install("--prefix", self.prefix, "--uninstall")[0], places.held(self.prefix)), (0, before))

    def test_destdir(self):
        """A package's folder has the files of the prefix, which their texts name without that folder."""
        room = os.path.join(self.room, "package")
        self.same("--destdir", install("--prefix", "/usr/local", "--destdir", room)[0], 0)
        with open(os.path.join(room, "usr/local/lib/pkgconfig/certpath.pc"), encoding="ascii") as file:
            text = file.read()
        self.row("prefix=/usr/local\n" in text and room not in text, f"certpath.pc: {text}")
        own = [value for value in places.held(room).values() if str(value).startswith("/")]
        self.same("links that lead to a place of this machine", own, [])
        self.same("--uninstall", install("--prefix", "/usr/local", "--destdir", room, "--uninstall")[0], 0)
        self.same("what --uninstall leaves", os.path.lexists(room), False)

    def test_page(self):
        """The page lists what is below the prefix: each place is there, and nothing is elsewhere."""
        install("--prefix", self.prefix)
        listed = LISTED.findall(BELOW.search(repo.read(PAGE))[1])
        places_of = [entry if "/" in entry else f"lib/libcertpath{entry}" for entry in listed]
        missing = [entry for entry in places_of if not os.path.lexists(os.path.join(self.prefix, entry))]
        files = [name for name, mode in places.held(self.prefix).items() if not (isinstance(mode, int) and stat.S_ISDIR(mode))]
        self.same(f"places that {PAGE} lists", (len(listed), missing), (13, []))
        self.same(f"files that {PAGE} doesn't list", [file for file in files if not file.startswith(tuple(places_of))], [])

    def test_refusals(self):
        """Nothing is written over, and no list leads elsewhere."""
        made_before(self.prefix)
        foreign = os.path.join(self.prefix, "bin", "certpath")
        with open(foreign, "w", encoding="ascii") as file:
            file.write("foreign\n")
        before = places.held(self.prefix)
        status, text = install("--prefix", self.prefix)
        self.row(status == 7 and f"{foreign} is there" in text, f"a foreign file: status {status}: {text}")
        self.same("a refused run", places.held(self.prefix), before)
        self.same("nothing to take away", install("--prefix", self.prefix, "--uninstall")[0], 4)
        for line in ("file ../elsewhere", "file /etc/passwd", "file bin/../../elsewhere", "folder ../x", "rm bin/other"):
            os.makedirs(os.path.join(self.prefix, placing.ROOT), exist_ok=True)
            with open(os.path.join(self.prefix, placing.LIST), "w", encoding="ascii") as file:
                file.write(f"{line}\n")
            self.same(f"a list with {line}", install("--prefix", self.prefix, "--uninstall")[0], 4)
        for words, wanted in (((), 2), (("--prefix", ""), 2), (("--prefix", "a\nb"), 2), (("--prefix", self.prefix, "--what"), 2),
                              (("--prefix", "/proc/certpath"), 7)):
            status, text = install(*words)
            self.same(f"words {words}: {text}", (status, text.count("\n")), (wanted, 1))

    def test_library(self):
        """Header and library are found by pkg-config, and the program loads the library by its SONAME."""
        self.need("bash", "cc", "readelf")
        self.skip_without("pkg-config")
        if not os.path.exists(HEADERS):
            self.skipTest(f"examples/c: no headers of OpenSSL, {HEADERS}")
        install("--prefix", self.prefix)
        lib = os.path.join(self.prefix, "lib")
        _, text = places.ran(["readelf", "-d", os.path.join(lib, contents.soname())], self.room)
        self.same("the SONAME", SONAME.findall(text), [contents.soname()])
        env = places.environment(PKG_CONFIG_PATH=os.path.join(lib, "pkgconfig"), LD_LIBRARY_PATH=lib)
        samples = os.path.join(repo.TOP, places.SAMPLES)
        for title, words in (("shared", "$(pkg-config --cflags --libs certpath)"),
                             ("static", "$(pkg-config --cflags certpath) -l:libcertpath.a $(pkg-config --libs-only-L certpath)")):
            program = os.path.join(self.room, title)
            status, text = places.ran(["bash", "-c", f'eval cc "{EXAMPLE}" -o {program} {words} -lcrypto'], self.room, env)
            self.row(status == 0, f"cc, {title}: {text}")
            _, text = places.ran(["readelf", "-d", program], self.room)
            self.same(f"what {title} needs", contents.soname() in text, title == "shared")
            words = [program, f"{samples}/bundle.der", f"{samples}/root.der", os.path.join(self.room, f"{title}.txt")]
            status, text = places.ran(words, self.room, env)
            self.row(status == 0 and "CN=Example Root" in text, f"examples/c, {title}: {text[-1000:]}")
        os.remove(os.path.join(lib, contents.soname()))
        status, text = places.ran(words[:1] if title == "shared" else [os.path.join(self.room, "shared")], self.room, env)
        self.row(status != 0 and contents.soname() in text, f"without the library: {text}")

    def test_manuals(self):
        """Each command has a manual page, in which no script of a checkout is typed."""
        install("--prefix", self.prefix)
        folder = os.path.join(self.prefix, "share", "man", "man1")
        self.same("the pages", sorted(os.listdir(folder)), sorted(f"{command}.1" for command in installed.COMMANDS.values()))
        for name in sorted(os.listdir(folder)):
            with open(os.path.join(folder, name), encoding="utf-8") as file:
                text = file.read()
            self.same(f"{name}: scripts of a checkout", re.findall(r"\./(?:verify|vouch|bundle|certpath)\b(?!/)", text), [])
            head = f".SH NAME\n{name[:-2]}".replace("-", "\\-")
            self.row(head in text and "\n.SH SYNOPSIS\n" in text, f"{name} begins with {text[:300]}")
            if shutil.which("mandoc"):
                _, said = places.ran(["mandoc", "-Tlint", "-Werror", os.path.join(folder, name)], self.room)
                self.same(f"mandoc of {name}", said, "")


class Container(places.InRoom):
    """The image of examples/container: its steps on this system, and itself if docker or podman works."""

    def test_steps(self):
        """What the image is made of suffices for ./install, and for the commands."""
        ignored = repo.read(f"{CONTAINER}.dockerignore").split()
        top, made = os.path.join(self.room, "source"), os.path.join(self.room, "made")
        shutil.copytree(repo.TOP, top, ignore=shutil.ignore_patterns(*(entry.rpartition("/")[2] for entry in ignored)))
        lines = [line.removeprefix("RUN ") for line in repo.read(CONTAINER).splitlines() if line.startswith("RUN /source/")]
        self.same("steps of the checkout", len(lines), 1)
        words = [word.replace("/source", top).replace("/made", made) for word in lines[0].split()]
        self.same("./install", places.ran(words, self.room, places.environment())[0], 0)
        shutil.rmtree(top)
        places.try_quick_start(self, "the image's files", places.environment(os.path.join(made, "usr", "local", "bin")))

    def test_image(self):
        tool = next((builder for builder in BUILDERS if shutil.which(builder) and not places.ran([builder, "info"], "/")[0]), None)
        if tool is None:
            self.skipTest(f"{' and '.join(BUILDERS)} aren't there, or don't run")
        if places.ran([tool, "image", "inspect", BASE], "/")[0] and places.ran([tool, "pull", "-q", BASE], "/")[0]:
            self.skipTest(f"{tool} has no {BASE}, and can't fetch it")
        self.row(f"FROM {BASE} AS " in repo.read(CONTAINER), f"{CONTAINER} isn't made of {BASE}")
        for value in (("build", "-q", "-t", IMAGE, "-f", CONTAINER, "."),
                   ("run", "--rm", "--network", "none", "--read-only", "--tmpfs", "/tmp", "-v", f"{repo.TOP}/samples:/data:ro", IMAGE,
                    "certpath-verify", "fullchain.pem", "--anchors", "root.pem", "--at", "2026-12-01", "--quiet"),
                   ("image", "rm", IMAGE)):
            status, text = places.ran([tool, *value], repo.TOP)
            self.row(status == 0, f"{tool} {value[0]}: status {status}: {text[-2000:]}")


class Completion(places.InRoom):
    def setUp(self):
        super().setUp()
        install("--prefix", self.room)

    def offered(self, line, words):
        """What a shell offers for a line, word by word."""
        status, text = places.ran([*words, line], self.room, places.environment(TERM="dumb"))
        return {*re.findall(r"[\w-]+", text)}, text

    def try_shell(self, words, *alone):
        for line, wanted in OFFERED:
            found, text = self.offered(line, [*words, *alone])
            self.row({*wanted} <= found, f"{words[0]}: {line}: {text[-600:]!r}, and {wanted} is wanted")

    def test_bash(self):
        self.need("bash")
        folder = os.path.join(self.room, "share", "bash-completion", "completions")
        self.same("a file for each command", sorted(os.listdir(folder)), sorted(installed.COMMANDS.values()))
        self.try_shell(["bash", "-c", BASH.format(file=os.path.join(folder, "certpath-verify")), "bash"])
        found, _ = self.offered("certpath-verify --anchors sys", ["bash", "-c", BASH.format(file=os.path.join(folder, "certpath")), "bash"])
        self.same("bash: --anchors", "system" in found, True)

    def test_fish(self):
        self.skip_without("fish")
        file = os.path.join(self.room, "share", "fish", "vendor_completions.d", "certpath.fish")
        self.try_shell(["fish", "--no-config", "-c", f"source '{file}'; complete -C \"$argv[1]\""])

    def test_zsh(self):
        self.skip_without("zsh")
        folder = os.path.join(self.room, "share", "zsh", "site-functions")
        self.try_shell(["zsh", "-f", "-c", ZSH.format(folder=folder), "zsh"])


class Package(places.InRoom):
    def setUp(self):
        super().setUp()
        self.skip_without("dpkg-deb", "dpkg")
        status, text = places.ran([sys.executable, os.path.join(repo.TOP, "tools/install/debian.py"), self.room], "/", places.environment())
        self.same(f"the package: {text}", (status, text.rpartition("_")[2]), (0, "amd64.deb\n"))
        self.path = text.strip()

    def dpkg(self, root, *words):
        """dpkg on a system below a folder, which runs scripts of packages where they are."""
        how = ["--force-not-root", "--force-depends", "--force-script-chrootless", "--force-bad-path", f"--root={root}", f"--log={root}.log"]
        return places.ran(["dpkg", *how, *words], self.room, places.environment("/usr/sbin", "/sbin"))

    def test_use(self):
        """The files are those of ./install; they work outside the checkout, and none is left."""
        root = os.path.join(self.room, "system")
        os.makedirs(os.path.join(root, "var/lib/dpkg/info"))
        os.makedirs(os.path.join(root, "var/lib/dpkg/updates"))
        for name in ("status", "available"):
            with open(os.path.join(root, "var/lib/dpkg", name), "w", encoding="ascii"):
                pass
        before = self.system_of(root)
        status, text = self.dpkg(root, "--install", self.path)
        self.row(status == 0, f"dpkg --install: {text}")
        wanted = {file.path for file in debian.files(f"{usage.VERSION}-{debian.REVISION}")}
        found = {step for step in places.held(os.path.join(root, "usr")) if not os.path.isdir(os.path.join(root, "usr", step))
                 or os.path.islink(os.path.join(root, "usr", step))}
        self.same("the files", sorted(found ^ wanted), [])
        places.try_quick_start(self, "the package", places.environment(os.path.join(root, "usr/bin")))
        self.same("dpkg --verify", self.dpkg(root, "--verify", "certpath"), (0, ""))
        os.makedirs(os.path.join(root, "usr", placing.ROOT, "certpath", "__pycache__"))
        status, text = self.dpkg(root, "--purge", "certpath")
        self.same(f"dpkg --purge: {text}", (status, self.system_of(root)), (0, before))

    @staticmethod
    def system_of(root):
        """What is there beside dpkg's own files; its folders may stay."""
        return sorted(entry for entry in places.held(root) if not entry.startswith("var"))

    def test_lintian(self):
        self.skip_without("lintian")
        status, text = places.ran(["lintian", "--fail-on", "error", self.path], self.room)
        self.row(status == 0 and not re.search("(?m)^E: ", text), f"lintian: {text}")

    def test_again(self):
        """One date gives one package, octet for octet."""
        made = []
        for name in ("one", "other"):
            os.mkdir(os.path.join(self.room, name))
            words = [sys.executable, os.path.join(repo.TOP, "tools/install/debian.py"), os.path.join(self.room, name)]
            subprocess.run(words, check=True, stdout=subprocess.DEVNULL, env={**os.environ, "SOURCE_DATE_EPOCH": "1780000000"})
            with open(os.path.join(self.room, name, os.path.basename(self.path)), "rb") as file:
                made.append(file.read())
        self.row(made[0] == made[1], "two packages of one date differ")
