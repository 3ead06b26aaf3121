"""The record docs/gate.toml: the last gate from nothing, and the last trial of all wrong bodies.

It is not a program."""
import datetime
import json
import tomllib

from lib.command import PRODUCT, TOP, Stopped, said_by

RECORD = TOP / "docs" / "gate.toml"
HEAD = """\
# `gate`: what `rt ci --anew` printed at its end, and how long it took; `tools/gate`
# writes it. `wrong_bodies`: how many there were in a trial of all, and how many were seen by what
# their files name; `tools/mutants` writes it.
"""


def recorded():
    """The tables of the record by name: `gate` and `wrong_bodies`, as far as they are there."""
    if not RECORD.is_file():
        return {}
    try:
        return tomllib.loads(RECORD.read_text(encoding="utf-8"))
    except tomllib.TOMLDecodeError as wrong:
        raise Stopped(f"{RECORD.relative_to(TOP)}: {wrong}") from None


def git(*words):
    """What git says of this clone, or an empty text if it fails, or if this is no clone."""
    return said_by("git", *words) if (TOP / ".git").exists() else ""


def commit_here():
    """The commit whose files stand here. There is none if a file but the record has changed."""
    changed = git("status", "--porcelain", "--", ".", f":!{RECORD.relative_to(TOP)}")
    return "" if changed else git("rev-parse", "HEAD")


def record(name, rt, commit, figures):
    """Writes a table with these figures, of this commit and of the kit that has the program `rt`.

    The other tables stay."""
    about = {"commit": commit, "kit": said_by(rt, "version"), "day": datetime.date.today()}
    text = HEAD
    for table, values in sorted({**recorded(), name: about | figures}.items()):
        text += f"\n[{table}]\n"
        for key, value in values.items():
            text += f"{key} = {json.dumps(value) if isinstance(value, str) else value}\n"
    RECORD.write_text(text, encoding="utf-8")


def leads_here(commit):
    """Whether the commit is here, and this one or one before it."""
    return git("merge-base", commit, "HEAD") == commit


def record_faults(readme):
    """What is wrong with the record, beside the text of README."""
    tables = recorded()
    gate, bodies = (tables.get(name, {}) for name in ("gate", "wrong_bodies"))
    if gate.get("failed") or bodies.get("seen") != bodies.get("bodies"):
        yield "docs/gate.toml: not all passed, or not all wrong bodies were seen"
    if gate.get("kit", "") not in " ".join(readme.split()):
        yield f"docs/gate.toml: README does not name its kit, {gate['kit']}"


def record_age():
    """That there is no record of this product, or that this cannot be seen, or nothing."""
    commit = recorded().get("gate", {}).get("commit")
    if not commit:
        return "docs/gate.toml has no gate: `tools/gate` writes it"
    if not leads_here(commit):
        return f"docs/gate.toml: commit {commit[:8]} is not here, so its product cannot be compared"
    parts = ("src", "specs", "proofs", "must-fail")
    folders = [f"crates/{crate}/{part}" for crate in PRODUCT for part in parts]
    changed = git("diff", "--name-only", commit, "--", *folders).split()
    if not changed:
        return None
    since = f"since {commit[:8]}, {len(changed)} of its files have changed, such as {changed[0]}"
    return f"docs/gate.toml is of an older product: {since}"
