"""What the tests share: entries by bytes at offsets, and the tools as commands."""

import os
import subprocess
import sys

TOOLS = os.path.dirname(os.path.dirname(os.path.realpath(__file__)))
REPOSITORY = os.path.dirname(TOOLS)


def placed(size, parts):
    """So many bytes, zero but for the hexadecimal digits at each offset."""
    blob = bytearray(size)
    for offset, digits in parts.items():
        part = bytes.fromhex(digits)
        blob[offset:offset + len(part)] = part
    return bytes(blob)


def entry(parts):
    """A submission entry of 64 bytes, with flags 40h where none are given."""
    return placed(64, {1: "40", **parts})


def run_tool(folder, name, *words, text=""):
    """Runs a tool in a folder: its exit status, and what it printed on standard output and error."""
    done = subprocess.run([sys.executable, os.path.join(TOOLS, name), *words], cwd=folder, input=text, text=True,
                          stdout=subprocess.PIPE, stderr=subprocess.PIPE, check=False)
    return done.returncode, done.stdout, done.stderr
