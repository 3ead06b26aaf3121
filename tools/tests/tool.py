"""What the tests of the tools share: they import a tool, run it, and copy the repository."""
import contextlib
import importlib.machinery
import importlib.util
import io
import os
import pathlib
import runpy
import shutil
import subprocess
import sys
import tempfile
import unittest
from unittest import mock

sys.dont_write_bytecode = True
# A hook of git names its repository in variables, which would lead git there from a copy, too.
for variable in [it for it in os.environ if it.startswith("GIT_")]:
    del os.environ[variable]
os.environ["GIT_CONFIG_GLOBAL"] = os.devnull
TOP = pathlib.Path(__file__).resolve().parents[2]
sys.path.insert(0, str(TOP / "tools"))
NAMES = ("audit", "compare_with_rust", "gate", "mutants", "pages", "reference", "speed")


def load(name):
    """A tool as a module."""
    loader = importlib.machinery.SourceFileLoader(name, str(TOP / "tools" / name))
    module = importlib.util.module_from_spec(importlib.util.spec_from_loader(name, loader))
    loader.exec_module(module)
    return module


def take_modules():
    """Takes out the modules of tools/lib, so that the next import reads them again."""
    own = [name for name in sys.modules if name.partition(".")[0] == "lib"]
    return {name: sys.modules.pop(name) for name in own}


def run(top, name, arguments, environment):
    """Runs a tool of the repository `top` in this process, which is quicker than in another one."""
    path, out, errors = str(top / "tools" / name), io.StringIO(), io.StringIO()
    kept = take_modules()
    with contextlib.ExitStack() as stack:
        stack.callback(sys.modules.update, kept)
        stack.callback(take_modules)
        stack.enter_context(mock.patch.object(sys, "path", [str(top / "tools"), *sys.path]))
        stack.enter_context(contextlib.redirect_stdout(out))
        stack.enter_context(contextlib.redirect_stderr(errors))
        stack.enter_context(mock.patch.object(sys, "argv", [path, *map(str, arguments)]))
        stack.enter_context(mock.patch.dict(os.environ, environment))
        try:
            runpy.run_path(path, run_name="__main__")
            status = 0
        except SystemExit as ended:
            status = ended.code
    return subprocess.CompletedProcess(path, status, out.getvalue(), errors.getvalue())


class ToolTest(unittest.TestCase):
    """A test that runs tools, in the repository or in a copy of it."""

    maxDiff = None

    def folder(self):
        """An empty folder that is removed after the test."""
        made = tempfile.TemporaryDirectory(prefix="tool-")
        self.addCleanup(made.cleanup)
        return pathlib.Path(made.name)

    def copy(self, *without):
        """A copy of the repository without these files and folders."""
        top, without = self.folder() / "copy", {".git", "out", "__pycache__", *without}
        shutil.copytree(
            TOP,
            top,
            ignore=lambda _, names: without.intersection(names),
            copy_function=shutil.copyfile,
        )
        return top

    def run_tool(self, name, *arguments, top=TOP, **environment):
        """Runs a tool of the repository, or of a copy."""
        return run(top, name, arguments, environment)

    def passes(self, name, *arguments, top=TOP, **environment):
        """Runs a tool that has to end with the status 0 and no errors. Returns what it printed."""
        ran = self.run_tool(name, *arguments, top=top, **environment)
        self.assertEqual((ran.returncode, ran.stderr), (0, ""), ran.stdout)
        return ran.stdout

    def finds(self, name, *arguments, top=TOP, **environment):
        """Runs a tool that has to find a fault. Returns what it printed."""
        ran = self.run_tool(name, *arguments, top=top, **environment)
        self.assertEqual(ran.returncode, 1, ran.stderr)
        self.assertNotIn("Traceback", ran.stderr)
        return ran.stdout + ran.stderr

    def refuses(self, says, name, *arguments, top=TOP, **environment):
        """Runs a tool that has to end with the status 2 and this one line."""
        ran = self.run_tool(name, *arguments, top=top, **environment)
        self.assertEqual((ran.returncode, ran.stdout, ran.stderr), (2, "", f"{name}: {says}\n"))


def git(top, *words):
    """Carries out a command of git in a folder. Returns what it printed."""
    author = ["-c", "user.name=one", "-c", "user.email=one@example.com"]
    done = subprocess.run(["git", *author, *words], cwd=top, check=True, capture_output=True)
    return done.stdout.decode().strip()


def commit(top):
    """Makes a commit of all files of a folder. Returns its name."""
    git(top, "init", "--quiet")
    git(top, "add", "--all")
    git(top, "commit", "--quiet", "--allow-empty", "--message", "One")
    return git(top, "rev-parse", "HEAD")


def change(path, old, new):
    """Replaces the first such text of a file."""
    text = path.read_text(encoding="utf-8")
    assert old in text, f"{path} has no {old}"
    path.write_text(text.replace(old, new, 1), encoding="utf-8")
