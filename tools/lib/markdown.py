"""Reads Markdown pages: their prose, and the anchors of their headings. It is not a program."""
import re


def slug(title):
    """The anchor that a heading gets on a page."""
    return re.sub(r"[^\w\- ]", "", title.strip().lower()).replace(" ", "-")


def without_code(text):
    """The text with blocks of code left out, line for line."""
    kept, inside = [], False
    for line in text.split("\n"):
        if line.lstrip().startswith("```"):
            inside = not inside
            kept.append("")
        else:
            kept.append("" if inside else line)
    return "\n".join(kept)


def anchors(text):
    """The anchors of a page's headings, as the usual Markdown pages make them."""
    found = {}
    for line in without_code(text).split("\n"):
        match = re.match(r"#{1,6} (.*)", line)
        if match:
            title = re.sub(r"\[([^\]]*)\]\([^)]*\)", r"\1", match.group(1))
            name = slug(title)
            count = found.get(name, 0)
            found[name] = count + 1
            if count:
                found[f"{name}-{count}"] = 1
    return set(found)
