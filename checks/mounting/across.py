"""What two mounts of one cluster do with one another: locks, and SQLite's writers."""

import fcntl
import multiprocessing
import os
import sqlite3
import threading

WRITERS, ROWS = 4, 25
SECONDS = 60


def insert(folder, writer):
    bank = sqlite3.connect(f"{folder}/shared.db", isolation_level=None, timeout=60)
    for row in range(ROWS):
        bank.execute("insert into rows values(?,?)", (writer, row))


def writers(mounted):
    """Processes on two mounts insert rows into one database, while the node of one fails; what is wrong, or nothing."""
    folders = mounted.folders
    bank = sqlite3.connect(f"{folders[0]}/shared.db")
    bank.execute("create table rows(writer int, row int)")
    bank.commit()
    parts = [multiprocessing.Process(target=insert, args=(folders[w % 2], w)) for w in range(WRITERS)]
    for part in parts:
        part.start()
    mounted.order("fail 1 after 20")
    for part in parts:
        part.join()
    found = bank.execute("select count(*) from rows").fetchone()[0], bank.execute("pragma integrity_check").fetchone()[0]
    wanted = WRITERS * ROWS, "ok"
    statuses = [part.exitcode for part in parts]
    return "" if found == wanted and not any(statuses) else f"{found}, and not {wanted}; the writers' statuses are {statuses}"


def append(folder, writer):
    for row in range(ROWS):
        with open(f"{folder}/rows", "a", encoding="utf-8") as file:
            file.write(f"{writer} {row}\n")


def appenders(mounted):
    """Processes on two mounts append to one file, while the node of one fails; what is wrong, or nothing."""
    folders = mounted.folders
    parts = [multiprocessing.Process(target=append, args=(folders[w % 2], w)) for w in range(WRITERS)]
    mounted.order("fail 1 after 20")
    for part in parts:
        part.start()
    for part in parts:
        part.join()
    with open(f"{folders[0]}/rows", encoding="utf-8") as file:
        found = sorted(file.read().splitlines())
    return "" if found == sorted(f"{w} {row}" for w in range(WRITERS) for row in range(ROWS)) else f"{len(found)} rows: {found[:8]}"


def hold(path, lock, holds, ends):
    with open(path, "r+", encoding="utf-8") as file:
        lock(file, fcntl.LOCK_EX)
        holds.set()
        ends.wait(SECONDS)


def excludes(mounted, lock, name):
    """Whether a lock on one mount keeps out who asks on the other, and goes with its holder's end; what is wrong, or nothing."""
    first, second = (f"{folder}/{name}" for folder in mounted.folders[:2])
    with open(first, "w", encoding="utf-8"):
        pass
    holds, ends = multiprocessing.Event(), multiprocessing.Event()
    holder = multiprocessing.Process(target=hold, args=(first, lock, holds, ends))
    holder.start()
    holds.wait(SECONDS)
    with open(second, "r+", encoding="utf-8") as file:
        try:
            lock(file, fcntl.LOCK_EX | fcntl.LOCK_NB)
            wrong = "it keeps nobody out"
        except OSError:
            wrong = ""
        threading.Timer(0.3, ends.set).start()
        lock(file, fcntl.LOCK_EX)
        if not ends.is_set():
            wrong = wrong or "nobody waits for it"
    holder.join()
    os.unlink(first)
    return wrong
