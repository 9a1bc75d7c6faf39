"""Letters, each written, synced, renamed and its folder synced, by several processes while nodes fail and come back. Then each whose last
sync was answered has to be there, whole, on another mount."""

import hashlib
import multiprocessing
import os
import random
import time

A_FOLDER = 3000


def body(writer, number):
    mark = hashlib.sha256(f"{writer} {number}".encode()).hexdigest()
    return f"letter {writer} {number}\n{mark}\n" * (1 + (number * 7919 + writer) % 200)


def sync_folder(path):
    folder = os.open(path, os.O_RDONLY)
    try:
        os.fsync(folder)
    finally:
        os.close(folder)


def deliver(box, writer, number):
    """Delivers a letter: its path in the box."""
    new = f"new{number // A_FOLDER}"
    if number % A_FOLDER == 0:
        os.mkdir(f"{box}/{new}")
    with open(f"{box}/tmp{number}", "w", encoding="utf-8") as file:
        file.write(body(writer, number))
        file.flush()
        os.fsync(file.fileno())
    os.rename(f"{box}/tmp{number}", f"{box}/{new}/{number}")
    sync_folder(f"{box}/{new}")
    return f"{new}/{number}"


def write(folder, writer, until, said):
    """Delivers letters until a time; says which were answered, and what went wrong."""
    box = f"{folder}/box{writer}"
    delivered, number, wrong = [], -1, ""
    try:
        os.mkdir(box)
        while time.time() < until:
            number += 1
            delivered.append((number, deliver(box, writer, number)))
    except OSError as error:
        wrong = str(error)
    said.put((writer, delivered, wrong))


def disturb(mounted, nodes, until, chance):
    """Nodes fail and come back until a time: how many failed."""
    fails = 0
    while time.time() < until:
        time.sleep(chance.uniform(0.05, 0.3))
        stands = mounted.nodes()
        down = [node for node in stands if stands[node] == "down"]
        node = chance.choice(down) if down and chance.random() < 0.6 else chance.randrange(1, nodes + 1)
        words = f"back {node}" if node in down else f"fail {node}" + chance.choice(["", f" after {chance.randrange(1, 60)}"])
        try:
            mounted.order(words)
            fails += words[0] == "f"
        except OSError:
            pass
    return fails


def is_there(folder, writer, number, path):
    try:
        with open(f"{folder}/box{writer}/{path}", encoding="utf-8") as file:
            return file.read() == body(writer, number)
    except OSError:
        return False


def run(mounted, nodes, seconds, writers):
    """How many letters were answered, how many of them aren't there whole, how many failures were ordered, and what writers said."""
    said, until = multiprocessing.Queue(), time.time() + seconds
    folders = mounted.folders
    parts = [multiprocessing.Process(target=write, args=(folders[w % len(folders)], w, until, said)) for w in range(writers)]
    for part in parts:
        part.start()
    fails = disturb(mounted, nodes, until, random.Random(7))
    told = [said.get(timeout=60) for _ in parts]
    for part in parts:
        part.join()
    rows = [(folders[(w + 1) % len(folders)], w, number, path) for w, delivered, _ in told for number, path in delivered]
    missing = sum(not is_there(*row) for row in rows)
    return len(rows), missing, fails, [wrong for _, _, wrong in told if wrong]
