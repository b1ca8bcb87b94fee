"""What ./verify --json prints is what docs/verify.schema.json says: answers of each outcome, and faults.
If `jsonschema` isn't installed, the fields alone are compared."""
import copy
import json
import os
import re
import subprocess
import sys

from program import repo
from trials import installing_places

try:
    import jsonschema
except ImportError:
    jsonschema = None

# Fields that an answer has if they are asked for; tools/trials/hosts.py has such answers.
IF_ASKED = {"host", "purpose"}
SCHEMA, PAGE = "docs/verify.schema.json", "docs/VERIFY.md"
AT = ("--at", "2026-12-01")
ROOT = ("--anchors", "root.pem")
CHAIN = ("fullchain.pem", *ROOT, *AT)
# Words of each outcome, and how many lines they print.
ANSWERS = {
    "path": ((*CHAIN,), 1),
    "refused": (("fullchain.pem", "DAMAGED", *ROOT, *AT), 1),
    "none": (("fullchain.pem", "list.pem", *ROOT, *AT), 1),
    "no target": ((*CHAIN, "--target", "99"), 1),
}
MORE = ((("fullchain.pem", "list.pem", "root.pem", *ROOT, *AT, "--all"), 3), (("leaf.der", *ROOT, *AT), 1),
        (("leaf.der", "leaf.der", *ROOT, "--at", "2050-01-01"), 1), (("root.pem", *ROOT, *AT), 1),
        (("fullchain.pem", *ROOT, *AT, "--demand-lists"), 1))
FAULTS = ((("--what", *CHAIN), 2), ((), 2), ((*CHAIN, "--at", "soon"), 2), (("missing.pem", *ROOT), 4),
          (("leaf.der", "--anchors", "list.pem"), 4), (("list.pem", *ROOT), 3), ((*CHAIN, "--target", "f" * 64), 3),
          (("leaf.der", "a\nb\x1b", *ROOT), 4))


class Lines(installing_places.InRoom):
    def setUp(self):
        super().setUp()
        self.program()
        self.schema = json.loads(repo.read(SCHEMA))
        self.samples = os.path.join(repo.TOP, "samples")
        # a list that can't be read, so that nobody knows whom it revokes
        self.damaged = os.path.join(self.room, "damaged.pem")
        with open(self.damaged, "w", encoding="ascii") as file:
            file.write(repo.read("samples/root.pem") + repo.read("samples/list.pem").replace("\nM", "\n!", 1))

    def run_verify(self, *words):
        """The status of ./verify, the objects that it printed, and its lines on standard error."""
        words = [self.damaged if word == "DAMAGED" else word for word in words]
        ran = subprocess.run([sys.executable, os.path.join(repo.TOP, "verify"), *words, "--json"], cwd=self.samples,
                             stdin=subprocess.DEVNULL, capture_output=True, text=True)
        return ran.returncode, [json.loads(line) for line in ran.stdout.splitlines()], ran.stderr.splitlines()

    def faults_of(self, found, schema=None):
        """What is wrong with an object by the schema, a line each."""
        if jsonschema is None:
            self.skipTest("jsonschema isn't installed (python3-jsonschema of Debian)")
        checker = jsonschema.Draft202012Validator(schema or self.schema)
        return [error.message[:300] for error in checker.iter_errors(found)]

    def answers(self):
        """An answer of each outcome, and further ones."""
        for outcome, (words, count) in ANSWERS.items():
            status, found, said = self.run_verify(*words)
            self.same(f"{outcome}: {said}", [entry["outcome"] for entry in found], [outcome] * count)
            self.same(f"the status of {outcome}", status, max(entry["status"] for entry in found))
            yield from found
        for words, count in MORE:
            status, found, said = self.run_verify(*words)
            self.same(f"{words}: {said}", (len(found), status), (count, max(entry["status"] for entry in found)))
            yield from found

    def test_fields(self):
        """Each line has the fields that the schema requires, and no others; the page names each."""
        kinds, page = self.schema["$defs"], repo.read(PAGE)
        fields = {*kinds["answer"]["required"]}
        for found in self.answers():
            self.same("the fields", ({*found}, found["version"]), (fields, kinds["answer"]["properties"]["version"]["const"]))
        for name in ("answer", "fault", "certificate", "reason", "list"):
            named = {*kinds[name]["required"], *(IF_ASKED if name == "answer" else ())}
            self.same(f"{name}: fields that are described", {*kinds[name]["properties"]}, named)
            self.same(f"{name}: fields that {PAGE} doesn't name", [entry for entry in named if f"`{entry}`" not in page], [])
            self.same(f"{name}: fields without a description", [item for item, held in kinds[name]["properties"].items() if "description" not in held], [])

    def test_answers(self):
        for found in self.answers():
            self.same(found["headline"], self.faults_of(found), [])

    def test_faults(self):
        """A fault is an object too, and one line on standard error."""
        for words, wanted in FAULTS:
            status, found, said = self.run_verify(*words)
            self.same(f"{words}: {found}", (status, len(found), len(said)), (wanted, 1, 1))
            self.same(f"{words}: the object", (found[0]["outcome"], found[0]["status"], f"verify: {found[0]['fault']}"), ("fault", wanted, said[0]))
            self.row(found[0]["fault"].isprintable(), f"{words}: {found[0]['fault']!r}")
            if jsonschema:
                self.same(f"{words}: the schema", self.faults_of(found[0]), [])

    def test_no_openssl(self):
        """A library that is missing is a fault, too."""
        setting = "import certpath.libcrypto as libcrypto; libcrypto.candidates = lambda: []"
        script = (f"import sys; sys.argv = ['verify', *{[*CHAIN]!r}, '--json']; sys.path.insert(0, {os.path.join(repo.TOP, 'tools')!r}); "
                  f"from verify import core, run; {setting}; sys.exit(run.main(sys.argv[1:]))")
        ran = subprocess.run([sys.executable, "-c", script], cwd=self.samples, capture_output=True, text=True, stdin=subprocess.DEVNULL)
        found = json.loads(ran.stdout)
        self.same("no OpenSSL", (ran.returncode, found["outcome"], found["status"]), (70, "fault", 70))

    def test_the_schema_refuses(self):
        """The schema refuses what ./verify never prints: a field less, of another type, or against another one."""
        if jsonschema is None:
            self.skipTest("jsonschema isn't installed (python3-jsonschema of Debian)")
        jsonschema.Draft202012Validator.check_schema(self.schema)
        found = self.run_verify(*CHAIN)[1][0]
        for name in found:
            for what, change in (("missing", lambda part: part.pop(name)), ("a number", lambda entry: entry.update({name: 7.5}))):
                changed = copy.deepcopy(found)
                change(changed)
                self.row(self.faults_of(changed) != [], f"the schema takes {name} {what}")
        for changes in ({"outcome": "none"}, {"status": 1}, {"path": []}, {"anchor": None}, {"version": 2}, {"target": None},
                        {"anchor": found["target"]}, {"path": [found["anchor"]]}, {"at": "2026-12-01"}, {"headline": "a\nb"},
                        {"outcome": "refused", "status": 1}, {"outcome": "fault"}):
            self.row(self.faults_of({**found, **changes}) != [], f"the schema takes {changes}")
        for name in found["target"]:
            changed = copy.deepcopy(found)
            del changed["target"][name]
            self.row(self.faults_of(changed) != [], f"the schema takes a target without {name}")
        fault = {"version": 1, "outcome": "fault", "status": 4, "fault": "x"}
        self.same("a fault", self.faults_of(fault), [])
        for changes in ({"status": 0}, {"fault": ""}, {"version": 0}, {"status": "4"}):
            self.row(self.faults_of({**fault, **changes}) != [], f"the schema takes the fault {changes}")

    def test_any_place(self):
        """--json after -- is a FILE, and a refused word doesn't hide it elsewhere."""
        ran = subprocess.run([sys.executable, os.path.join(repo.TOP, "verify"), "--what", "--", "--json"], cwd=self.samples,
                             stdin=subprocess.DEVNULL, capture_output=True, text=True)
        self.same("--json after --", (ran.returncode, ran.stdout), (2, ""))
        self.same("a line on standard error", len(re.findall("\n", ran.stderr)), 1)
