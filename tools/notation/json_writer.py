"""The JSON writer: from a setup document to the text that the executor reads."""
import json

from spots import plain


def line_of(value):
    return json.dumps(value, ensure_ascii=False)


def group(items, indent):
    """Lines of a list, one a part."""
    return ",\n".join(" " * indent + line_of(it) for it in items)


def lists(name, version, items):
    return f'[{line_of(name)}, {line_of(version)}, [\n{group(items, 2)}]]' if items else line_of([name, version, []])


def written(setup):
    """The text of a setup document: a line for each table, procedure and row."""
    word, version, catalogue, procedures, rows, *rest = plain(setup)
    parts = [lists(*catalogue), lists(*procedures), lists(*rows), *map(line_of, rest)]
    return f"[{line_of(word)}, {line_of(version)},\n " + ",\n ".join(parts) + "]\n"
