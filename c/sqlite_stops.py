"""sqlite_stops.py STOPPER PROGRAM IMAGE QUERY FIRST LAST STEP: a stop, and a failure, at each STEP-th call of the file.

STOPPER is sqlite_test with sqlite_stop.c in it. It writes numbered transactions and tells each when COMMIT has returned; then PROGRAM opens
the image and has to find the last one told, or the one after it, and a whole database.
"""
import glob
import os
import subprocess
import sys


def wrong(*words):
    print(*words)
    sys.exit(1)


def last_told(stopper, name, call, fails):
    """Runs the stopper up to this call, and gives the number of the last transaction that it told."""
    environment = dict(os.environ, STOP_AT=str(call), **({"STOP_FAILS": "1"} if fails else {}))
    done = subprocess.run([stopper, "write", name], stdout=subprocess.PIPE, env=environment)
    told = [int(line) for line in done.stdout.decode().split("\n") if line.isdigit()]
    # a failure is told by the opening or by a statement
    if done.returncode not in ((3, 4) if fails else (77,)):
        wrong("call", call, "status", done.returncode, done.stdout[-300:].decode())
    return told[-1] if told else 0


def main(stopper, program, image, query, first, last, step):
    name = f"file:{image}?{query}"
    rounds = after = 0
    for fails in (False, True):
        for call in range(int(first), int(last) + 1, int(step)):
            for left in glob.glob(glob.escape(image) + "*"):
                os.unlink(left)
            told = last_told(stopper, name, call, fails)
            found = subprocess.run([program, "check", name, str(told)], stdout=subprocess.PIPE)
            text = found.stdout.decode().strip()
            if found.returncode != 0:
                wrong("call", call, "fails" if fails else "stops", "told", told, "WRONG:", text)
            rounds += 1
            after += text.startswith(f"last {told + 1},")
    print(f"{rounds} rounds, calls {first} to {last} by {step}, stopped and failed; "
          f"{after} found the one after the last told; none wrong")


main(*sys.argv[1:])
