"""Pictures for Graphviz."""
import shutil
import subprocess

from shq_tools.answers import Model, Refutation, Taxonomy
from shq_tools.story import all_steps
from shq_tools.trees_of_classes import shown_alone

STYLE = [
    'graph [fontname="sans-serif", bgcolor="transparent"];',
    'node [fontname="sans-serif", fontsize=11, shape=box, style="rounded,filled"];',
    'node [fillcolor="#eef3f8", color="#5b7a99"];',
    'edge [fontname="sans-serif", fontsize=10, color="#5b7a99"];',
]
RED = 'fillcolor="#f8e4e1", color="#a8483a"'
GREEN = 'fillcolor="#e4f3e4", color="#3f7d44"'
# How long Graphviz may take for a picture of a page.
SECONDS = 30
WIDTH = 44


def quoted(text):
    return '"' + text.replace("\\", "\\\\").replace('"', '\\"').replace("\n", "\\n") + '"'


def wrapped(text):
    """The text in lines that are not too long for a box."""
    lines, line = [], ""
    for word in text.split(" "):
        if line and len(line) + 1 + len(word) > WIDTH:
            lines.append(line)
            line = word
        else:
            line = f"{line} {word}".strip()
    return "\n".join([*lines, line])


def graph(lines):
    return "\n".join(["digraph answer {", *(f"  {it}" for it in [*STYLE, *lines]), "}", ""])


def node(name, text, style=""):
    return f"{name} [label={quoted(text)}{', ' + style if style else ''}];"


def model_graph(reading):
    """A node for each thing with its classes, and an arrow for each pair of some roles."""
    shown, called, (near, _), lines, arrows = reading.exceptions(), reading.called(), reading.things(), [], {}
    for thing in near:
        style = GREEN if thing.number in shown else ""
        lines.append(node(f"thing{thing.number}", "\n".join([called[thing.number], *thing.classes]), style))
        for role, others in thing.roles.items():
            for other in others:
                arrows.setdefault((thing.number, other), []).append(role)
    for (one, other), roles in arrows.items():
        lines.append(f"thing{one} -> thing{other} [label={quoted(chr(10).join(roles))}];")
    return graph(lines)


def taxonomy_graph(reading):
    """A node for each group of equal classes, and an arrow to each group directly above, which stands to the left."""
    names, answer = reading.names, shown_alone(reading.answer, reading.names.shown)
    numbers = {group.names[0]: at for at, group in enumerate(answer.groups)}
    lines = ["rankdir=RL;", node("thing", "\n".join(["Thing", *map(names.of, names.shown(answer.thing))]))]
    for at, group in enumerate(answer.groups):
        style = GREEN if reading.about in group.names else ""
        text = " = ".join(map(names.of, names.shown(group.names)))
        lines.append(node(f"class{at}", wrapped(text), style))
        above = [f"class{numbers[it]}" if it in numbers else "thing" for it in group.parents or [None]]
        lines += [f"class{at} -> {it};" for it in above]
    if names.shown(answer.nothing):
        lines.append(node("nothing", "\n".join(["contradictory:", *map(names.of, names.shown(answer.nothing))]), RED))
    return graph(lines)


def refutation_graph(reading):
    """A node for each step, and an arrow to the step or the cases behind it."""
    story = reading.story()
    lines = [node("start", wrapped(reading.supposition(story)))]
    left = [("start", "", story.steps)]
    while left:
        above, title, steps = left.pop()
        for step in steps:
            name = f"line{step.line}"
            lines.append(node(name, wrapped(step.text), RED if step.is_contradiction else ""))
            lines.append(f"{above} -> {name} [label={quoted(wrapped(title))}];" if title else f"{above} -> {name};")
            above, title = name, ""
            left += [(name, case.title, case.steps) for case in step.cases]
    return graph(lines)


def graph_of(reading):
    """The picture of an answer in Graphviz's language, or None where it has no picture."""
    if isinstance(reading.answer, Model):
        return model_graph(reading)
    if isinstance(reading.answer, Refutation):
        return refutation_graph(reading)
    if isinstance(reading.answer, Taxonomy) and reading.answer.is_consistent:
        return taxonomy_graph(reading)
    return None


def node_count(reading):
    """How many things, steps or groups of classes a picture of the answer has."""
    answer = reading.answer
    if isinstance(answer, Model):
        return len(reading.things()[0])
    if isinstance(answer, Refutation):
        return sum(1 for _ in all_steps(reading.story().steps))
    return len(answer.groups)


def drawn(text):
    """The picture as SVG by Graphviz's `dot`, or None where that is not there or fails."""
    command = shutil.which("dot")
    if command is None:
        return None
    try:
        how = {"capture_output": True, "timeout": SECONDS, "check": True}
        ran = subprocess.run([command, "-Tsvg"], input=text.encode("utf-8"), **how)
    except (OSError, subprocess.SubprocessError):
        return None
    svg = ran.stdout.decode("utf-8")
    return svg[svg.index("<svg") :] if "<svg" in svg else None
