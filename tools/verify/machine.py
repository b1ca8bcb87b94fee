"""The answer as JSON, an object a line for each target, and a fault as one too. docs/verify.schema.json describes both, and
docs/VERIFY.md names each field."""
import json

from verify import faults, people, times

# The version of the form: a field that goes away, or means something else, changes it. A new field doesn't.
VERSION = 1
FAULT = "fault"


def of_certificate(certificate):
    if certificate is None:
        return None
    return {"place": certificate.place, "position": certificate.position, "file": certificate.file, "subject": certificate.subject, "issuer": certificate.issuer, "serial": certificate.serial,
            "not_before": times.as_shown(certificate.begin), "not_after": times.as_shown(certificate.end), "sha256": certificate.sha256}


def of_obstacle(obstacle):
    return {"of": obstacle.of.place, "subject": obstacle.of.name, "to": obstacle.to.place if obstacle.to else None, "reason": obstacle.words,
            "text": obstacle.sentence.text, "rule": obstacle.sentence.rule, "advice": obstacle.sentence.advice}


def of_list(unused):
    return {"position": unused.position, "file": unused.file, "issuer": unused.issuer, "reasons": unused.words, "texts": [sentence.text for sentence in unused.sentences],
            "revokes": unused.revokes, "of": unused.of.place if unused.of and unused.revokes != "no" else None}


def status_of(answer):
    if answer.target is None:
        return faults.NO_TARGET
    return faults.PATH if answer.is_accepted() else faults.NONE


def reasons_of(answer):
    """What prevents a path; nothing is known of a target that wasn't asked about."""
    if not answer.is_asked_why:
        return None
    return [] if answer.path else [of_obstacle(obstacle) for obstacle in answer.obstacles]


def fault(status, text):
    """The line of a run that ends without an answer."""
    return json.dumps({"version": VERSION, "outcome": FAULT, "status": status, "fault": text}, ensure_ascii=True) + "\n"


def demanded(demands):
    """The host and the purpose that are asked for; nothing if none is."""
    asked = {"host": demands.host, "purpose": demands.shown} if demands else {}
    return {name: item for name, item in asked.items() if item is not None}


def texts(answers, moment, beside):
    """A line for each target. What is left out of the files is in the first line alone, and lists that aren't used and don't concern a
    target are in the first line that has one."""
    notes, are_listed = beside.notes, False
    for answer in answers:
        yield text(answer, moment, beside, [] if are_listed else people.lists_of_none(answer), notes)
        notes, are_listed = (), are_listed or answer.target is not None


def text(answer, moment, beside, further, notes):
    """The line of one target, with further lists that aren't used, and notes of the files."""
    lists = sorted([*answer.unused, *further], key=lambda crl: crl.position)
    warnings = [*people.warnings(answer, moment), *map(people.of_list, further), *notes]
    return json.dumps({
        "version": VERSION, "headline": people.headline(answer, moment), "status": status_of(answer), "outcome": answer.outcome, "checked": answer.is_checked,
        "at": times.as_shown(moment), "target": of_certificate(answer.target), "path": [of_certificate(step) for step in answer.path],
        "anchor": of_certificate(answer.anchor), "reasons": reasons_of(answer),
        "unused_lists": [*map(of_list, lists)], "doubts": people.doubts(answer), "warnings": warnings,
        "anchors": beside.anchors, "targets": beside.roles.targets, "helpers": beside.roles.helpers, "not_judged": [*answer.not_judged],
        **demanded(answer.demands)}, ensure_ascii=True) + "\n"
