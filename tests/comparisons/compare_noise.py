#!/usr/bin/env python3
"""Compares the program's answers and charges with those of a plain second implementation, on random keys and epsilons.

usage: tests/comparisons/compare_noise.py [RUNS [SEED]]     (PROGRAM=FILE compares another build than tools/build's)
Each run has a key, a table, and a script of asks at random epsilons; the draws are ChaCha20's (64-bit counter and
stream), two words each, low half first, from the stream that has the answer's number.
"""
import os
import random
import struct
import sys
import tempfile
from fractions import Fraction

sys.path.insert(0, f"{os.path.dirname(os.path.abspath(__file__))}/../lib")
from places import TOP  # noqa: E402

PROGRAM = os.path.abspath(os.environ.get("PROGRAM", f"{TOP}/out/hitchseason"))
from afresh import run_afresh  # noqa: E402
from beginning import begin  # noqa: E402
from catalog import census  # noqa: E402

BUDGET, CAPACITY, MOST_DRAWS = 10_000_000, 100, 4096


class Exhausted(Exception):
    pass


def quarter(x, a, b, c, d):
    for left, right, turn in ((a, b, 16), (c, d, 12), (a, b, 8), (c, d, 7)):
        x[left] = (x[left] + x[right]) & 0xFFFFFFFF
        other = {a: d, c: b}[left]
        mixed = x[other] ^ x[left]
        x[other] = (mixed << turn | mixed >> (32 - turn)) & 0xFFFFFFFF


def block(key, stream, counter):
    start = [0x61707865, 0x3320646E, 0x79622D32, 0x6B206574, *struct.unpack("<8I", key)]
    start += struct.unpack("<4I", struct.pack("<QQ", counter, stream))
    x = list(start)
    for _ in range(10):
        for places in ((0, 4, 8, 12), (1, 5, 9, 13), (2, 6, 10, 14), (3, 7, 11, 15)):
            quarter(x, *places)
        for places in ((0, 5, 10, 15), (1, 6, 11, 12), (2, 7, 8, 13), (3, 4, 9, 14)):
            quarter(x, *places)
    return [(x[i] + start[i]) & 0xFFFFFFFF for i in range(16)]


def draws_of(key, stream):
    taken = 0
    for counter in range(2**64):
        words = block(key, stream, counter)
        for low, high in zip(words[::2], words[1::2]):
            if taken == MOST_DRAWS:
                raise Exhausted
            taken += 1
            yield low | high << 32


def uniform(m, draws):
    while True:
        draw = next(draws)
        if draw < 2**64 - 2**64 % m:
            return draw % m


def bernoulli(n, d, draws):
    return uniform(d, draws) < n


def bernoulli_exp(u, t, draws):
    k = 1
    while bernoulli(u, t * k, draws):
        k += 1
    return k % 2 == 1


def noise(t, s, draws):
    while True:
        u = uniform(t, draws)
        if not bernoulli_exp(u, t, draws):
            continue
        v = 0
        while bernoulli_exp(1, 1, draws):
            v += 1
        y = (u + t * v) // s
        minus = bernoulli(1, 2, draws)
        if minus and y == 0:
            continue
        return -y if minus else y


def replies(key, rows, epsilons):
    yield "hello ann"
    spent = granted = 0
    for epsilon in epsilons:
        seen = 2 * granted
        if spent + epsilon > BUDGET:
            yield f"no 40 {spent} {spent + epsilon} {BUDGET} {seen}"
        elif seen + 2 > CAPACITY:
            yield f"no 41 {seen} 0 {CAPACITY}"
        else:
            spent += epsilon
            scale = Fraction(10**6, epsilon)
            try:
                number = rows + noise(scale.numerator, scale.denominator, draws_of(key, granted))
                yield f"answer {granted} {number} {epsilon}"
            except Exhausted:
                yield f"no 50 {granted}"
            granted += 1


def written(epsilon, random):
    text = f"{epsilon // 10**6}.{epsilon % 10**6:06}"
    if random.random() < 0.5:
        text = text.rstrip("0")
        text = text + "0" if text.endswith(".") else text
    if epsilon % 10**6 == 0 and random.random() < 0.5:
        text = text.split(".")[0]
    return text


def main():
    runs, seed = begin(__doc__, 50, 1)
    rng = random.Random(seed)
    compared = 0
    with tempfile.TemporaryDirectory() as room:
        with open(f"{room}/cat.json", "wb") as file:
            file.write(census())
        for run in range(runs):
            key, rows = rng.randbytes(32), rng.choice([0, 1, 3, 1000])
            most = rng.choice([20, 10**3, 10**5, 10**6, 3 * 10**6])
            epsilons = [rng.randint(1, most) for _ in range(60)]
            if run == 0:
                key, rows, epsilons = bytes(32), 3, [10**6] * 11
            with open(f"{room}/key", "wb") as file:
                file.write(key)
            with open(f"{room}/people.csv", "w") as file:
                file.write("age\n" + "".join(f"{rng.randint(-(2**50), 2**50)}\n" for _ in range(rows)))
            script = "hello ann\n" + "".join(f"ask census {written(it, rng)} size people\n" for it in epsilons)
            ran = run_afresh(PROGRAM, "cat.json", "key", script.encode(), room)
            wanted = list(replies(key, rows, epsilons))
            if ran.returncode != 0 or ran.stdout.decode().splitlines() != wanted:
                print(f"run {run}: key {key.hex()}, {rows} rows, status {ran.returncode}")
                for epsilon, found, want in zip([None, *epsilons], ran.stdout.decode().splitlines(), wanted):
                    if found != want:
                        print(f"  epsilon {epsilon}: {found}, wanted {want}")
                sys.exit(1)
            compared += sum(line.startswith("answer") for line in wanted)
    print(f"{runs} runs, {compared} answers and all refusals are the same")


main()
