"""sqlite_kills.py PROGRAM NAME ROUNDS SEED: SIGKILL at drawn moments of `PROGRAM write NAME`, and `PROGRAM check NAME LAST` after each."""
import random
import signal
import subprocess
import sys
import time


def killed(program, name, seconds):
    """The numbers that a writer told before it was killed."""
    writer = subprocess.Popen([program, "write", name], stdout=subprocess.PIPE)
    time.sleep(seconds)
    writer.send_signal(signal.SIGKILL)
    text = writer.stdout.read().decode()
    writer.wait()
    if writer.returncode != -signal.SIGKILL:
        print("ended by itself:", writer.returncode, text[-300:])
        sys.exit(1)
    return [int(line) for line in text.split("\n")[:-1]]


def main(program, name, rounds, seed):
    drawn = random.Random(int(seed))
    last = told = after = 0
    for kill in range(int(rounds)):
        upto = drawn.choice([0.02, 0.3, 0.6])
        numbers = killed(program, name, drawn.uniform(0, upto))
        told += len(numbers)
        last = numbers[-1] if numbers else last
        found = subprocess.run([program, "check", name, str(last)], stdout=subprocess.PIPE)
        text = found.stdout.decode().strip()
        if found.returncode != 0:
            print("kill", kill, "WRONG:", text)
            sys.exit(1)
        if text.startswith("last "):
            seen = int(text.split()[1].rstrip(","))
            after += seen == last + 1
            last = seen
    print(f"{rounds} kills, {told} transactions told, {after} times the one after the last told was there, none wrong")


main(*sys.argv[1:])
