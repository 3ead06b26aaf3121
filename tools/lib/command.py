"""What each tool does with its arguments, and how it ends. It is not a program."""
import argparse
import os
import pathlib
import shutil
import subprocess
import sys

TOP = pathlib.Path(__file__).resolve().parents[2]
DATA = TOP / "tools" / "data"
PRODUCT = ("thin_block", "thin_vec", "thin_rows", "thin_runner")
# The versions of Rattle's kit that the tools know.
KITS = "rattle-kit-13f"


class Stopped(Exception):
    """A tool cannot go on. It prints the message, which says why, and ends with the status."""

    status = 2


class Arguments(argparse.ArgumentParser):
    """The arguments of a tool. A wrong one ends the tool with one line."""

    def __init__(self, description, **more):
        super().__init__(
            description=description, formatter_class=argparse.RawDescriptionHelpFormatter, **more
        )

    def error(self, message):
        raise Stopped(f"{message} (--help lists the options)")


def positive(text):
    """The number that an option gives, which is at least 1."""
    if not text.isdecimal() or int(text) < 1:
        raise argparse.ArgumentTypeError(f"{text} is not a number from 1")
    return int(text)


def need(*programs):
    """Stops if this machine lacks one of the programs."""
    for program in programs:
        if not shutil.which(program):
            raise Stopped(f"there is no program {program}")


def need_crates(*crates):
    """Stops if the repository lacks one of the crates."""
    for crate in crates:
        if not (TOP / "crates" / crate / "src").is_dir():
            raise Stopped(f"there is no folder crates/{crate}/src")


def said_by(*words):
    """What a program prints at the top, or an empty text if it fails or is not there."""
    try:
        ran = subprocess.run(words, cwd=TOP, capture_output=True, text=True)
    except FileNotFoundError:
        return ""
    return ran.stdout.strip() if ran.returncode == 0 else ""


def kit_of(rt):
    """Which kit the program `rt` is of, for a message about what it did not do."""
    found = said_by(rt, "version").partition(" ")[0] or "unknown"
    return f"the kit is {found}; this tool was written for {KITS}"


def run_tool(main):
    """Runs a tool. Ends with the status that it returns, or with 2 and a line that says why."""
    status = 2
    try:
        status = main()
        sys.stdout.flush()
        sys.exit(status)
    except Stopped as why:
        message, status = str(why), why.status
    except OSError as error:
        message = f"{error.filename}: {error.strerror}" if error.filename else str(error)
        if isinstance(error, BrokenPipeError):
            # Nobody reads what is still to be printed.
            os.dup2(os.open(os.devnull, os.O_WRONLY), sys.stdout.fileno())
    except UnicodeDecodeError as error:
        message = f"a file is not UTF-8: {error}"
    except KeyboardInterrupt:
        message = "interrupted"
    print(f"{pathlib.Path(sys.argv[0]).name}: {message}", file=sys.stderr)
    sys.exit(status)
