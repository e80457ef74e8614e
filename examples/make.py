#!/usr/bin/env python3
"""Makes a table file of a description: make.py DESCRIPTION.json OUT.table. As a module: table_file(description) gives the file's bytes.

examples/README.md says what a description is. Nothing is checked that the reader of a table checks, so that tables which it refuses can be made too.
Status: 0, or 3 where a file cannot be read or written or the description lacks something, has too much, or has a number that its bytes do not hold."""
import itertools, json, sys

FIGURES = "tCK tRP tRCD CL WL BL tWTR tWR tRRD tFAW tRAS tRTP tRTRS Ncols Ncap".split()
ROWS = {"DDR3-1333": dict(zip(FIGURES, [1500, 9, 9, 9, 7, 8, 5, 10, 4, 20, 24, 5, 2, 1024, 65535]))}
# a task's figures in the file's order, each with its number of bytes
TASK = {"core": 1, "C": 8, "T": 8, "D": 8, "H": 4}


class Wrong(Exception):
    """What is wrong with a description, in words."""


def number(what, value, size):
    if type(value) is not int:
        raise Wrong(f"{what} is {json.dumps(value)}, and not a whole number")
    if not 0 <= value < 256**size:
        raise Wrong(f"{what} is {value}, which does not fit {size} byte{'s' * (size > 1)}")
    return value.to_bytes(size, "little")


def entries(what, value, needed, allowed=()):
    """A dict with each of the needed names and no other but the allowed."""
    if type(value) is not dict:
        raise Wrong(f"{what} is no object of names and values")
    for name in needed:
        if name not in value:
            raise Wrong(f"{what} lacks {name}")
    for name in value:
        if name not in (*needed, *allowed):
            raise Wrong(f"{what} has {name}, which means nothing")
    return value


def listed(what, value):
    if type(value) is not list:
        raise Wrong(f"{what} is no list")
    return value


def timing_row(timing):
    if type(timing) is str:
        timing = {"like": timing}
    if type(timing) is dict and "like" in timing:
        if timing["like"] not in list(ROWS):
            raise Wrong(f"timing is like {json.dumps(timing['like'])}, and known is {', '.join(ROWS)}")
        timing = {**ROWS[timing["like"]], **timing}
    return entries("timing", timing, FIGURES, ["like"])


def figures(description):
    """The fifteen timing figures as bytes, s and fourteen times 0 for a bus table, and the fourth byte that says of which kind the table is."""
    if ("timing" in description) == ("bus" in description):
        raise Wrong("the description " + ("has both timing and bus" if "bus" in description else "lacks timing, or bus in its place"))
    if "bus" in description:
        return number("bus", description["bus"], 2) + bytes(28), 1
    row = timing_row(description["timing"])
    return b"".join(number(name, row[name], 2) for name in FIGURES), 0


def mask(what, partitions):
    """2 bytes: bit b stands for partition b + 1."""
    bits = 0
    for p in listed(what, partitions):
        if type(p) is not int or not 1 <= p <= 16:
            raise Wrong(f"{what} names partition {json.dumps(p)}, and not one of 1 to 16")
        bits |= 1 << (p - 1)
    return number(what, bits, 2)


def sealed(body):
    """The file whose trailer fits what stands before it: its length, the sum of its bytes, the sum of their running sums."""
    running = list(itertools.accumulate(body))
    sums = {"the length": len(body), "the sum of the bytes": sum(body), "the sum of the running sums": sum(running)}
    return body + b"".join(number(what, value, 4) for what, value in sums.items())


def table_file(description):
    entries("the description", description, ["partitions", "sets", "tasks"], ["timing", "bus", "about", "fourth"])
    timing, kind = figures(description)
    sets, tasks = listed("sets", description["sets"]), listed("tasks", description["tasks"])
    body = number("the number of cores", len(sets), 1) + number("partitions", description["partitions"], 1)
    body += number("the number of tasks", len(tasks), 1) + number("fourth", description.get("fourth", kind), 1)
    body += timing + b"".join(mask(f"core {q}'s set", partitions) for q, partitions in enumerate(sets, 1))
    for k, task in enumerate(tasks, 1):
        entries(f"task {k}", task, TASK, ["name"])
        body += b"".join(number(f"task {k}'s {name}", task[name], size) for name, size in TASK.items())
    return sealed(body)


def main(words):
    if len(words) != 2:
        return "usage: make.py DESCRIPTION.json OUT.table"
    try:
        with open(words[0], encoding="utf-8") as described:
            file = table_file(json.load(described))
        with open(words[1], "wb") as out:
            out.write(file)
    except OSError as fault:
        return f"make.py: {fault.filename or words[1]}: {fault.strerror}"
    except (Wrong, ValueError, RecursionError) as fault:  # the last two: the file is not JSON, or not UTF-8, or too deep
        return f"make.py: {words[0]}: {fault}"
    return None


if __name__ == "__main__":
    wrong = main(sys.argv[1:])
    if wrong:
        print(wrong, file=sys.stderr)
        sys.exit(3)
