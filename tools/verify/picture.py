"""The picture of a path: a box for each certificate, its validity as a bar, and the moment across all bars."""
from html import escape

from verify import times

WIDTH, BOX, GAP, EDGE = 360, 74, 26, 8
BAR_LEFT, BAR_WIDTH, BAR_TOP, BAR_HEIGHT = 20, 320, 45, 8
# How far the mark of the moment is longer than a bar.
MARK = 3
# So many characters of a name are in a box; the whole name is in the box's title.
MOST_CHARACTERS = 44
# So many certificates are in the picture.
MOST_BOXES = 50


def shortened(text):
    return text if len(text) <= MOST_CHARACTERS else f"{text[:MOST_CHARACTERS - 2]}.."


def steps(answer):
    """The certificates of the path, the anchor last; if there is none, those that the target leads to, one way, as far as it goes and there
    is room."""
    if answer.path:
        return [*answer.path, answer.anchor]
    by_place = {}
    for edge in answer.edges:
        by_place.setdefault(edge.of.place, []).append(edge)
    found, seen = [answer.target] if answer.target else [], {answer.target.place} if answer.target else set()
    while found and len(found) <= MOST_BOXES:
        ways = [edge for edge in by_place.get(found[-1].place, ()) if edge.to.place not in seen]
        if not ways:
            break
        found.append(min(ways, key=lambda way: (len(way.notes), not way.to.is_anchor)).to)
        seen.add(found[-1].place)
    return found


def with_room(found):
    """The first certificates and the last one, as many as there is room for, and how many are left out between them."""
    further = len(found) - MOST_BOXES
    return ([*found[:MOST_BOXES - 1], found[-1]], further) if further > 0 else (found, 0)


class Scale:
    """Where moments are in the bars."""

    def __init__(self, certificates, moment):
        stamps = [entry.timestamp() for one in certificates for entry in (one.begin, one.end)] + [moment.timestamp()]
        self.first, self.length = min(stamps), max(max(stamps) - min(stamps), 1)

    def at(self, moment):
        return BAR_LEFT + BAR_WIDTH * (moment.timestamp() - self.first) / self.length


def box(member, top, scale, moment, against):
    """The box of a certificate. The bar of its validity is red if the moment is outside, whatever else is against it."""
    look = "bad" if against else "anchor" if member.is_anchor else "good"
    begin, end = scale.at(member.begin), scale.at(member.end)
    bar = "bar" if member.begin <= moment <= member.end else "bar late"
    dates = f"{member.begin:%Y-%m-%d} to {member.end:%Y-%m-%d}{', not judged' if member.is_anchor else ''}"
    return (f'<g class="{look}"><title>{escape(member.place)}: {escape(member.subject)}; valid {dates}</title>'
            f'<rect class="box" x="{EDGE}" y="{top}" width="{WIDTH - 2 * EDGE}" height="{BOX}" rx="6"/>'
            f'<text class="place" x="20" y="{top + 18}">{escape(member.place)}{" &#10007;" if against else ""}</text>'
            f'<text x="20" y="{top + 37}">{escape(shortened(member.subject))}</text>'
            f'<rect class="{bar}" x="{begin:.1f}" y="{top + BAR_TOP}" width="{max(end - begin, 1.5):.1f}" height="{BAR_HEIGHT}" rx="3"/>'
            f'<text class="dates" x="20" y="{top + 67}">{dates}</text></g>')


def arrow(top, notes):
    """The step from a certificate to its issuer."""
    middle, look = WIDTH // 2, "bad" if notes else "good"
    note = f'<text class="note" x="{middle + 12}" y="{top + 17}">{escape(shortened(notes[0]))}</text>' if notes else ""
    return (f'<g class="{look}"><path class="arrow" d="M{middle} {top}V{top + GAP - 7}"/>'
            f'<path class="head" d="M{middle - 5} {top + GAP - 8}h10l-5 7z"/>{note}</g>')


def svg(answer, moment, number):
    """The picture of one target; nothing if the target is no certificate."""
    found, further = with_room(steps(answer))
    if not found:
        return ""
    scale, height = Scale(found, moment), len(found) * (BOX + GAP) + 8
    against = answer.against()
    notes, places = {(edge.of.place, edge.to.place): edge.notes for edge in answer.edges}, [entry.place for entry in found]
    at = scale.at(moment)
    anchored = "end" if at > WIDTH / 2 else "start"
    # (the boxes hide the line where names are)
    parts = [f'<g class="moment"><path class="all" d="M{at:.1f} 14V{height - GAP}"/></g>']
    parts += [box(entry, 18 + k * (BOX + GAP), scale, moment, entry.place in against) for k, entry in enumerate(found)]
    parts += [arrow(18 + BOX + k * (BOX + GAP), notes.get(step, [])) for k, step in enumerate(zip(places, places[1:]))]
    marks = "".join(f"M{at:.1f} {18 + k * (BOX + GAP) + BAR_TOP - MARK}v{BAR_HEIGHT + 2 * MARK}" for k in range(len(found)))
    parts.append(f'<g class="moment"><path d="{marks}"/><text x="{at:.1f}" y="11" text-anchor="{anchored}">{times.as_shown(moment)}</text></g>')
    if further:
        parts.append(f'<text class="note" x="20" y="{height - GAP - BOX - 6}">{further} further certificates are left out here</text>')
    said = "; then ".join(f"{entry.place} {entry.name}, valid {entry.begin:%Y-%m-%d} to {entry.end:%Y-%m-%d}" for entry in found)
    return (f'<svg viewBox="0 0 {WIDTH} {height}" role="img" aria-labelledby="t{number} d{number}">'
            f'<title id="t{number}">The way from the target up</title>'
            f'<desc id="d{number}">{escape(said)}; the moment is {times.as_shown(moment)}.</desc>'
            f'{"".join(parts)}</svg>')
