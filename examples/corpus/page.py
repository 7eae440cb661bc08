#!/usr/bin/env python3
"""One page over a corpus, from the answers that its workflow keeps: page.py FOLDER > index.html"""
import html
import json
import re
import sys
from pathlib import Path

HEAD = """<!DOCTYPE html>
<html lang="en">
<head>
<meta charset="utf-8">
<meta name="viewport" content="width=device-width, initial-scale=1">
<title>{title}</title>
<style>
body {{ font-family: system-ui, sans-serif; max-width: 60em; margin: auto; padding: 1em; line-height: 1.4 }}
table {{ border-collapse: collapse }}
th, td {{ text-align: left; padding: 0.2em 1em 0.2em 0; vertical-align: top }}
summary {{ cursor: pointer }}
pre {{ white-space: pre-wrap }}
</style>
</head>
<body>
<main>
<h1>{title}</h1>
"""
TAIL = "</main>\n</body>\n</html>\n"
VERDICTS = {
    "consistent": "consistent",
    "inconsistent": "inconsistent",
    "undecided": "not decided in time",
    "refused": "not read",
}


def element(name, text, **values):
    """An element of a page with a text in it."""
    told = "".join(f' {key}="{html.escape(value)}"' for key, value in values.items())
    return f"<{name}{told}>{html.escape(text)}</{name}>"


def loaded(path):
    return json.loads(path.read_text(encoding="utf-8"))


def end_of_iri(iri):
    return re.split(r"[#/:]", iri)[-1] or iri


def with_names(text, names):
    """A text with names in place of IRIs."""
    return re.sub(r"<([^<>\s]*)>", lambda it: names.get(it[1]) or end_of_iri(it[1]), text)


def verdict_of(hierarchy):
    """What became of a file, in words."""
    told = VERDICTS.get(hierarchy["verdict"], hierarchy["verdict"])
    refused = hierarchy.get("refused")
    return f"{told}: {refused['why']} {refused['what']}, line {refused['where']}" if refused else told


def explanation(path, names):
    """The reasons why a class is contradictory, folded."""
    found = loaded(path)
    names = {**names, **found.get("names", {})}
    axioms = {it["number"]: it for it in found.get("axioms", [])}
    about = with_names(found["question"].removeprefix("SubClassOf(").removesuffix(" owl:Nothing)"), names)
    sets = found.get("sets", [])
    more = "" if found["complete"] else ", and there may be more"
    lines = [f"<details>{element('summary', f'{about}: reasons: {len(sets)}{more}')}"]
    for one in sets:
        lines.append("<ul>")
        for number in one:
            text = f"line {axioms[number]['line']}: {with_names(axioms[number]['text'], names)}"
            lines.append(element("li", text))
        lines.append("</ul>")
    return "\n".join([*lines, "</details>"])


def section(folder):
    """What is known of a file."""
    hierarchy = loaded(folder / "hierarchy.json")
    profile = (folder / "profile.txt").read_text(encoding="utf-8")
    reasons = sorted((folder / "reasons").glob("*.json"), key=lambda it: int(it.stem))
    lines = [element("h2", folder.name, id=folder.name), element("p", verdict_of(hierarchy))]
    lines += [explanation(it, hierarchy.get("names", {})) for it in reasons]
    lines.append(f"<details>{element('summary', 'what was read')}{element('pre', profile)}</details>")
    return "\n".join(lines)


def row(folder):
    """A line of the table over all files."""
    hierarchy = loaded(folder / "hierarchy.json")
    link = f'<a href="#{html.escape(folder.name)}">{html.escape(folder.name)}</a>'
    cells = [
        verdict_of(hierarchy),
        str(sum(len(it["classes"]) for it in hierarchy.get("groups", []))),
        str(len(hierarchy.get("contradictory", []))),
    ]
    return f"<tr><th scope=\"row\">{link}</th>{''.join(element('td', it) for it in cells)}</tr>"


def page(folder):
    """The page over all files of a folder."""
    files = sorted(it.parent for it in folder.glob("*/hierarchy.json"))
    heads = "".join(
        element("th", it, scope="col") for it in ("file", "answer", "classes with a member", "contradictory")
    )
    table = f"<table><thead><tr>{heads}</tr></thead><tbody>\n{chr(10).join(map(row, files))}\n</tbody></table>"
    return "\n".join([HEAD.format(title="Classified files"), table, *map(section, files), TAIL])


if __name__ == "__main__":
    sys.stdout.reconfigure(encoding="utf-8")
    sys.stdout.write(page(Path(sys.argv[1])))
