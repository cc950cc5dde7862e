#!/usr/bin/env python3
"""Prints the path of the program that the launcher built last.

usage: built.py

Scripts call that program directly, since the launcher takes 40 to 80 ms. The status is 1 if no
program is built.
"""
import os
import pathlib
import shutil
import sys

ROOT = pathlib.Path(__file__).resolve().parent.parent


def built_program():
    """Returns the path of the program that the launcher built last, or ends the script if there is none."""
    programs = sorted((ROOT / "out").glob("built-*/capkit"), key=os.path.getmtime)
    if not programs:
        sys.exit("capkit is not built yet: run ./capkit --help first, or name a program by --capkit")
    return programs[-1]


def folder_with(folder, program):
    """Copies samples/ into a folder, and returns the variables of a shell there that calls the program capkit."""
    shutil.copytree(ROOT / "samples", folder, dirs_exist_ok=True)
    (folder / ".bin").mkdir()
    (folder / ".bin" / "capkit").symlink_to(pathlib.Path(program).resolve())
    path = f"{folder / '.bin'}:{os.environ['PATH']}"
    return {"PATH": path, "TZ": "UTC", "LC_ALL": "C.UTF-8", "HOME": str(folder)}


if __name__ == "__main__":
    print(built_program())
