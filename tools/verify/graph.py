"""The graph of links and the path, as text for graphviz."""
from verify import people

# So many certificates and links are in a graph. The target and its path come first.
MOST_NODES, MOST_EDGES = 500, 1_000


def quoted(text):
    return '"' + text.replace("\\", "\\\\").replace('"', '\\"') + '"'


def label(*lines):
    """A label of several lines."""
    return "\\n".join(quoted(line)[1:-1] for line in lines)


def node(member, said, is_bad, on_path):
    shape = "house" if member.is_anchor else "box"
    look = 'color="firebrick"' if is_bad else 'color="darkgreen", penwidth=2' if on_path else 'color="gray40"'
    return f'  {quoted(member.place)} [shape={shape}, {look}, label="{label(member.place, member.name, *said)}"];'


def edge(link, on_path):
    look = 'color="darkgreen", penwidth=2' if on_path else 'color="firebrick", style=dashed' if link.notes else 'color="gray40"'
    return f'  {quoted(link.of.place)} -> {quoted(link.to.place)} [{look}, label="{label(*link.notes)}"];'


def said_of(answer):
    """What is against each certificate itself, by its place."""
    found = {}
    for obstacle in answer.obstacles:
        if obstacle.to is None:
            found.setdefault(obstacle.of.place, []).append(obstacle.sentence.text)
    return found


def nodes_of(answer):
    """The certificates of the graph, by their places."""
    first = [*answer.path, answer.anchor, answer.target]
    further = [entry for one in answer.edges for entry in (one.of, one.to)] + [one.of for one in answer.obstacles]
    return {entry.place: entry for entry in [*first, *further] if entry}


def text(answer, moment):
    """The graph of one target: certificates, issuers above, the path in green, what prevents one in red."""
    path = [entry.place for entry in [*answer.path, answer.anchor] if entry]
    steps, said, against, nodes = {*zip(path, path[1:])}, said_of(answer), answer.against(), nodes_of(answer)
    shown = dict([*nodes.items()][:max(MOST_NODES, len(path))])
    edges = [one for one in answer.edges if one.of.place in shown and one.to.place in shown]
    edges = sorted(edges, key=lambda one: (one.of.place, one.to.place) not in steps)[:max(MOST_EDGES, len(path))]
    head = [people.headline(answer, moment)]
    if (len(shown), len(edges)) != (len(nodes), len(answer.edges)):
        head.append(f"left out: {len(nodes) - len(shown)} certificates and {len(answer.edges) - len(edges)} links; --json has them all")
    lines = ["digraph certpath {", "  rankdir=BT;", '  node [fontname="Helvetica"];', '  edge [fontname="Helvetica", fontsize=10];',
             f'  label="{label(*head)}";', "  labelloc=t;"]
    lines += [node(item, said.get(place, []), place in said or place in against, place in path) for place, item in shown.items()]
    lines += [edge(one, (one.of.place, one.to.place) in steps) for one in edges]
    return "".join(f"{line}\n" for line in [*lines, "}"])
