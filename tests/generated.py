"""Tables of the documents that a script writes: printed, written into their file, or compared with it."""
import difflib
import os
import sys


def put(path, text, word):
    """word: '' prints the text, '--write' writes the file, '--check' compares. Returns the exit status."""
    if word == "--write":
        os.makedirs(os.path.dirname(path), exist_ok=True)
        with open(path, "w", encoding="utf-8") as file:
            file.write(text)
        return 0
    if word == "":
        print(text, end="")
        return 0
    kept = open(path, encoding="utf-8").read() if os.path.exists(path) else ""
    if kept == text:
        return 0
    for line in difflib.unified_diff(kept.splitlines(), text.splitlines(), path, "what the script writes", n=0, lineterm=""):
        print(line, file=sys.stderr)
    print(f"{path} is not what the script writes: write it anew with --write", file=sys.stderr)
    return 1
