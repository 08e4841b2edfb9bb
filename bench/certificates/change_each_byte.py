#!/usr/bin/env python3
"""Changes each byte of certificates of small maps, and judges what `jps check` accepts.

    python3 bench/certificates/change_each_byte.py $(./jps --program) [MAPS [SEED]]

For each of MAPS random maps, `jps prove` writes a certificate between two cells. Each of its bytes is
replaced in turn by other bytes and left out, and `jps check` judges the text. Where it accepts, the
ends that the text states must have the least cost that it states, or no walk where it states none.
The truth is found here by Dijkstra's algorithm with costs compared through squares of whole numbers,
and shares nothing with the program. Prints how many texts were judged and accepted; the status is 1
where one was accepted wrongly, or a certificate as written was refused.
"""

import os
import random
import subprocess
import sys
import tempfile

OTHERS = b"0123456789 ,\nnx"
STEPS = [(0, -1), (1, -1), (1, 0), (1, 1), (0, 1), (-1, 1), (-1, 0), (-1, -1)]


def is_less(p, q):
    """Whether a + b√2 of p is less than that of q."""
    x, y = q[0] - p[0], q[1] - p[1]
    if x >= 0 and y >= 0:
        return x > 0 or y > 0
    if x <= 0 and y <= 0:
        return False
    return x * x > 2 * y * y if x > 0 else 2 * y * y > x * x


def moves(free, x, y, asked):
    for dx, dy in STEPS:
        if (x + dx, y + dy) not in free:
            continue
        if dx and dy:
            beside = ((x + dx, y) in free) + ((x, y + dy) in free)
            if beside < asked:
                continue
        yield (x + dx, y + dy), ((0, 1) if dx and dy else (1, 0))


def least(free, start, goal, asked):
    """The least cost, or None where no walk exists."""
    known, done = {start: (0, 0)}, set()
    while True:
        waiting = [c for c in known if c not in done]
        if not waiting:
            return None
        at = waiting[0]
        for c in waiting:
            if is_less(known[c], known[at]):
                at = c
        if at == goal:
            return known[at]
        done.add(at)
        for to, cost in moves(free, *at, asked):
            paid = (known[at][0] + cost[0], known[at][1] + cost[1])
            if to not in known or is_less(paid, known[to]):
                known[to] = paid


def main():
    program = os.path.abspath(sys.argv[1])
    count = int(sys.argv[2]) if len(sys.argv) > 2 else 20
    seed = int(sys.argv[3]) if len(sys.argv) > 3 else 1
    chance = random.Random(seed)
    judged = accepted = wrong = 0
    with tempfile.TemporaryDirectory() as folder:
        map_file, cert_file = os.path.join(folder, "m"), os.path.join(folder, "c")

        def run(*words):
            done = subprocess.run([program, *words], stdout=subprocess.PIPE, stderr=subprocess.DEVNULL)
            return done.returncode, done.stdout

        for number in range(count):
            width, height = chance.randint(2, 4), chance.randint(2, 3)
            rows = ["".join(chance.choice("...@") for _ in range(width)) for _ in range(height)]
            free = {(x, y) for y in range(height) for x in range(width) if rows[y][x] == "."}
            if len(free) < 2:
                continue
            with open(map_file, "w") as out:
                out.write(f"type octile\nheight {height}\nwidth {width}\nmap\n" + "\n".join(rows) + "\n")
            # Of the cells beside a diagonal move so many have to be free.
            asked = number % 3
            rule = f"rule={('both', 'one', 'none')[asked]}"
            ends = [str(n) for c in chance.sample(sorted(free), 2) for n in c]
            status, text = run("prove", map_file, *ends, rule)
            changes = [text]
            for place in range(len(text)):
                changes.append(text[:place] + text[place + 1:])
                for byte in OTHERS:
                    if byte != text[place]:
                        changes.append(text[:place] + bytes([byte]) + text[place + 1:])
            for change in changes:
                with open(cert_file, "wb") as out:
                    out.write(change)
                status, line = run("check", map_file, cert_file, rule)
                judged += 1
                if status != 0:
                    if change == text:
                        wrong += 1
                        print("refused as written:", rows, ends, line)
                    continue
                accepted += 1
                stated = change.split(b"\n")[2].split()
                start, goal = (int(stated[1]), int(stated[2])), (int(stated[3]), int(stated[4]))
                truth = least(free, start, goal, asked)
                told = "accepted none\n" if truth is None else f"accepted least {truth[0]} {truth[1]}\n"
                if line.decode() != told:
                    wrong += 1
                    print("accepted wrongly:", rows, rule, change, line, "and not", told)
    print(f"{count} maps, {judged} texts judged, {accepted} accepted, {wrong} wrong")
    return 1 if wrong else 0


if __name__ == "__main__":
    sys.exit(main())
