"""Reads journals for the tools, by the reader of tools/chart."""
import importlib.machinery
import importlib.util
import pathlib
import sys


def load_chart():
    """tools/chart as a module."""
    sys.dont_write_bytecode = True
    loader = importlib.machinery.SourceFileLoader("chart", str(pathlib.Path(__file__).resolve().parent / "chart"))
    module = importlib.util.module_from_spec(importlib.util.spec_from_loader("chart", loader))
    sys.modules["chart"] = module
    loader.exec_module(module)
    return module


chart = load_chart()
CALLS, Journal, NoJournal = chart.CALLS, chart.Journal, chart.NoJournal
