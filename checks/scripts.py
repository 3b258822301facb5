"""scripts.py FILE: runs scripts of Python one after another in one process, since most take less than its start.

Standard input has a line for each run: the script and its words, with a tab behind each. What it prints is then in
FILE, and its status is a line of standard output.
"""
import contextlib
import os
import sys
import traceback

HERE = os.getcwd()
codes = {}


def code_of(path):
    if path not in codes:
        with open(path) as file:
            codes[path] = compile(file.read(), path, "exec")
    return codes[path]


def status_of(words):
    sys.argv = words
    os.chdir(HERE)
    try:
        exec(code_of(words[0]), {"__name__": "__main__", "__file__": words[0]})
    except SystemExit as end:
        return end.code or 0
    except Exception:
        traceback.print_exc()
        return 1
    return 0


def main(printed):
    for line in sys.stdin:
        with open(printed, "w") as file, contextlib.redirect_stdout(file):
            status = status_of(line.split("\t")[:-1])
        print(status, flush=True)


if __name__ == "__main__":
    main(*sys.argv[1:])
