"""The answers as one page that needs nothing else: no script, no font, no picture from elsewhere."""
from html import escape

from verify import people, picture, times

# So many targets have a part of the page, so many certificates of a path are in it, and so many lines of lists that aren't used.
MOST_TARGETS, MOST_CERTIFICATES, MOST_LISTS = 500, 50, 100
STYLE = """
:root{color-scheme:light dark;--ground:#fff;--text:#1b1f24;--quiet:#57606a;--line:#c6ccd3;--good:#1a7f37;
--bad:#b42318;--doubt:#8a5a00;--anchor:#3350a8;--card:#f6f8fa}
@media (prefers-color-scheme:dark){:root{--ground:#0d1117;--text:#e6edf3;--quiet:#9aa5b1;--line:#3d444d;--good:#4ac26b;
--bad:#ff8078;--doubt:#e0b040;--anchor:#8aa8ff;--card:#161b22}}
*{box-sizing:border-box}
body{margin:0 auto;padding:1rem;max-width:44rem;background:var(--ground);color:var(--text);font:16px/1.5 system-ui,sans-serif;overflow-wrap:anywhere}
h1{font-size:1.2rem;border-left:.4rem solid;padding-left:.7rem;margin:1rem 0}
h1.good{border-color:var(--good)}h1.bad{border-color:var(--bad)}h1.doubt{border-color:var(--doubt)}
h2{font-size:1rem;margin:1.4rem 0 .4rem}
h3{font-size:.95rem;margin:.8rem 0 .2rem}
p,ul{margin:.4rem 0}li{margin:.3rem 0}
dl{display:grid;grid-template-columns:5.5rem 1fr;gap:.1rem .8rem;margin:0;font-size:.9rem}
dt{color:var(--quiet)}dd{margin:0;font-family:ui-monospace,monospace;font-size:.85rem}
dd span,h1 span{white-space:nowrap}
section+section{border-top:1px solid var(--line);margin-top:2rem}
small{color:var(--quiet)}
svg{display:block;width:100%;max-width:36rem;height:auto;font:13px system-ui,sans-serif;fill:var(--text)}
.box{fill:var(--card);stroke:var(--line)}
.good .box{stroke:var(--good)}.bad .box{stroke:var(--bad);stroke-width:2}.anchor .box{stroke:var(--anchor)}
.bar{fill:var(--good)}.bar.late{fill:var(--bad)}.anchor .bar{fill:var(--anchor)}
.place,.dates,.note{font-size:11px;fill:var(--quiet)}
.arrow{stroke:var(--good);stroke-width:2;fill:none}.head{fill:var(--good)}
.bad .arrow{stroke:var(--bad);stroke-dasharray:4 3}.bad .head,.bad .note{fill:var(--bad)}
.moment path{stroke:var(--text);stroke-width:2}.moment .all{stroke-width:1;stroke-dasharray:2 3;opacity:.4}.moment text{font-size:11px}
"""
HEAD = """<!doctype html>
<html lang="en"><head><meta charset="utf-8">
<meta name="viewport" content="width=device-width,initial-scale=1">
<meta http-equiv="Content-Security-Policy" content="default-src 'none'; style-src 'unsafe-inline'">
<title>{title}</title><style>{style}</style></head><body><main>
"""
END = "</main></body></html>\n"


def listed(title, lines):
    """A title and a list; nothing if there are no lines."""
    lines = [*lines]
    return f"<h2>{title}</h2><ul>{''.join(f'<li>{line}</li>' for line in lines)}</ul>\n" if lines else ""


def fingerprint(digits):
    """A fingerprint whose lines end between two octets."""
    return people.fingerprint(digits).replace(":", ":<wbr>")


def date(moment):
    """A moment that is in one line."""
    return f"<span>{times.as_shown(moment)}</span>"


def of_certificate(certificate):
    """The fields of a certificate of the path."""
    rows = [("issuer", escape(certificate.issuer)), ("valid", f"{date(certificate.begin)} to {date(certificate.end)}"), ("serial", certificate.serial),
            ("sha256", fingerprint(certificate.sha256)), ("file", escape(certificate.file)), *([("judged", people.OF_ANCHOR)] if certificate.is_anchor else [])]
    return f"<h3>{escape(certificate.place)}: {escape(certificate.subject)}</h3><dl>{''.join(f'<dt>{name}</dt><dd>{held}</dd>' for name, held in rows)}</dl>\n"


def of_obstacle(obstacle):
    *said, rule = map(str.strip, people.of_obstacle(obstacle))
    return f"{'<br>'.join(map(escape, said))}<br><small>{escape(rule)}</small>"


def why_not(answer):
    """The lines of what prevents a path."""
    if answer.is_refused or not answer.is_asked_why:
        return map(escape, people.why_not(answer))
    further = len(answer.obstacles) - people.MOST_OBSTACLES
    more = [f"and {further} further reasons; --json has them all"] if further > 0 else []
    return [*map(of_obstacle, answer.obstacles[:people.MOST_OBSTACLES]), *more]


def look(answer):
    if not answer.is_accepted():
        return "bad"
    return "doubt" if people.doubts(answer) else "good"


def of_answer(answer, number, moment):
    """The part of one target."""
    title = escape(people.headline(answer, moment)).replace(times.as_shown(moment), date(moment), 1)
    found = [f'<section aria-labelledby="h{number}"><h1 id="h{number}" class="{look(answer)}">{title}</h1>\n',
             picture.svg(answer, moment, number)]
    if answer.target is not None and not answer.is_accepted():
        found.append(listed("Why not", why_not(answer)))
    if answer.path:
        found.append("<h2>Path</h2>" + "".join(map(of_certificate, [*answer.path[:MOST_CERTIFICATES], answer.anchor])))
        further = len(answer.path) - MOST_CERTIFICATES
        found.append(f"<p>and {further} further certificates; --json has them all</p>" if further > 0 else "")
    found.append(listed("Warnings", few(people.warnings(answer, moment))))
    return "".join([*found, "</section>\n"])


def few(lines):
    """Lines as HTML, the first ones if there are many."""
    lines = [*lines]
    further = [f"and {len(lines) - MOST_LISTS} further lines; --json has them all"] if len(lines) > MOST_LISTS else []
    return [*map(escape, lines[:MOST_LISTS]), *further]


def of_all(answers, beside):
    """The part that all targets share."""
    count, not_judged = len(answers), answers[0].not_judged
    left_out = [f"{count - MOST_TARGETS} further targets; --json has them all"] if count > MOST_TARGETS else []
    concerned = {one.position for answer in answers for one in answer.unused}
    idle = next((answer.idle for answer in answers if answer.idle), {})
    unused = few(people.of_list(item) for position, item in idle.items() if position not in concerned)
    lists = (("Not on this page", left_out), ("Lists that aren't used", unused), ("Targets", map(escape, beside.roles.targets)), ("Helpers", map(escape, beside.roles.helpers)),
             ("Files", map(escape, beside.notes)), ("Anchors", [escape(beside.anchors)]), ("Not judged", map(escape, not_judged)))
    return f'<section aria-label="All">{"".join(listed(*crl) for crl in lists)}</section>\n'


def text(answers, moment, beside):
    """The page of all answers, those without a path first if there are too many."""
    count = len(answers)
    shown = answers if count <= MOST_TARGETS else sorted(answers, key=lambda answer: ("bad", "doubt", "good").index(look(answer)))[:MOST_TARGETS]
    parts = [of_answer(entry, number, moment) for number, entry in enumerate(shown)]
    title = escape(people.headline(answers[0], moment)) if count == 1 else f"{count} certificates at {times.as_shown(moment)}"
    return "".join([HEAD.format(title=title, style=STYLE), *parts, of_all(answers, beside), END])
