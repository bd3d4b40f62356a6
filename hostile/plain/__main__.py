"""Answers a trace: `python3 -m plain [WORKERS] < TRACE`, in hostile/, as rd_replay does."""

import sys

from .trace import answered


def main():
    """Reads a trace, and writes its output."""
    workers = int(sys.argv[1]) if len(sys.argv) > 1 else 1
    out, status, said = answered(sys.stdin.buffer.read(), workers)
    print("".join(f"{line}\n" for line in out), end="")
    if said:
        print(said, file=sys.stderr)
    sys.exit(status)


if __name__ == "__main__":
    main()
