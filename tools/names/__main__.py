"""The program `tools/names_reading`: see there."""

import argparse
import sys
import threading

from names.schema import answer_line


def answer_lines():
    """Answers each line of standard input."""
    for line in sys.stdin.buffer:
        text = line.decode("latin-1").rstrip("\n")
        if text and not text.startswith("#"):
            print(answer_line(text))
    return 0


def main():
    """Runs the modes that the words ask for; without one, answers standard input."""
    words = argparse.ArgumentParser(prog="names_reading")
    words.add_argument("--test", action="store_true")
    words.add_argument("--random", type=int, default=0)
    words.add_argument("--seed", type=int, default=1)
    asked = words.parse_args()
    if not (asked.test or asked.random):
        return answer_lines()
    from names import checks

    failed = 0
    if asked.test:
        failed += checks.examples()
    if asked.random:
        failed += checks.beside_sqlite(asked.random, asked.seed)
    return 1 if failed else 0


def run():
    """Runs `main` on a stack that has room for a hundred levels of nesting."""
    status = []
    sys.setrecursionlimit(100000)
    threading.stack_size(512 * 1024 * 1024)
    thread = threading.Thread(target=lambda: status.append(main()))
    thread.start()
    thread.join()
    return status[0] if status else 1


if __name__ == "__main__":
    sys.exit(run())
