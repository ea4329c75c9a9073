"""Prints each minute how many milliseconds of processor a fixed computation takes, until the process that began it ends.

./check runs it beside its parts: on a machine that others share, the same work takes up to twice as many seconds of processor at one hour as at
another, so only these lines tell a slower machine from a dearer gate.
"""
import os
import time


def milliseconds():
    """Returns the milliseconds of processor that the computation takes."""
    begun, sums = time.process_time(), {}
    for number in range(300_000):
        key = number * 7 % 5003
        sums[key] = sums.get(key, 0) + number
    return round((time.process_time() - begun) * 1000)


def main():
    began_by = os.getppid()
    milliseconds()  # the first one also loads code
    while os.getppid() == began_by:
        print(milliseconds(), flush=True)
        time.sleep(60)


if __name__ == '__main__':
    main()
