"""Loads a tool whose file has no ending, as a module, and runs its main as a command would, for its tests."""
import importlib.util
import io
import sys
from contextlib import redirect_stderr, redirect_stdout
from importlib.machinery import SourceFileLoader
from pathlib import Path
from unittest.mock import patch


def load_tool(name):
    loader = SourceFileLoader(name, str(Path(__file__).resolve().parent / name))
    module = importlib.util.module_from_spec(importlib.util.spec_from_loader(name, loader))
    loader.exec_module(module)
    return module


def run_main(module, words, stdin=b""):
    """The status of the tool, and what it wrote to standard output and to standard error."""
    out, said = io.TextIOWrapper(io.BytesIO(), encoding="utf-8", write_through=True), io.StringIO()
    with redirect_stdout(out), redirect_stderr(said), patch.object(sys, "stdin", io.TextIOWrapper(io.BytesIO(stdin))):
        status = module.main(list(words))
    return status, out.buffer.getvalue().decode("utf-8", "surrogateescape"), said.getvalue()
