"""What is ordered of a mount by its control directory, and what is refused; what a stop leaves; and what the kernel keeps."""

import errno
import os
import subprocess

CONTROL = os.path.join(os.path.dirname(os.path.dirname(os.path.dirname(os.path.abspath(__file__)))), "mount/assisectl")


def fault(call):
    """The errno with which a call fails, by name, or nothing."""
    try:
        call()
    except OSError as error:
        return errno.errorcode[error.errno]
    return ""


def put(path, text):
    with open(path, "w", encoding="utf-8") as file:
        file.write(text)
        file.flush()
        os.fsync(file.fileno())


def text_of(path):
    with open(path, encoding="utf-8") as file:
        return file.read()


def wrong_of(rows):
    """The rows, each of a name, what came and what was wanted, that differ."""
    return "\n".join(f"{name}: {came!r}, and not {wanted!r}" for name, came, wanted in rows if came != wanted)


# What is ordered on three nodes, one after another, and with which errno it is refused.
ORDERS = [("nonsense", "EINVAL"), ("fail", "EINVAL"), ("fail 1 after 0", "ENXIO"), ("fail 9", "ENXIO"), ("back 1", "EINVAL"),
          ("fail 1", ""), ("fail 1", "EINVAL"), ("fail 2", ""), ("fail 3", "EBUSY"), ("back 1", ""), ("back 2", ""), ("link 1 worse", "EINVAL"),
          ("link 2 cut 5", ""), ("link 2 perfect", ""), ("go on", ""), ("renew", ""), ("legal", ""), ("fail 3 after 1", "")]


def orders(mounted):
    """What is wrong, or nothing."""
    letter = f"{mounted.folders[0]}/letter"
    put(letter, "one")
    rows = [(words, fault(lambda words=words: mounted.order(words)), wanted) for words, wanted in ORDERS]
    put(letter, "two")
    status = subprocess.run([CONTROL, mounted.folders[0], "status"], capture_output=True, text=True)
    refused = subprocess.run([CONTROL, mounted.folders[0], "fail", "3"], capture_output=True, text=True)
    rows += [("assisectl status", "node 3 down\n" in status.stdout and status.returncode, 0),
             ("assisectl fail 3", (refused.returncode, refused.stderr), (1, "assisectl: fail 3: Invalid argument\n")),
             ("the other mount", text_of(f"{mounted.folders[1]}/letter"), "two"),
             ("losses", mounted.read("losses").count("fails behind"), 3), ("history", "/letter" in mounted.read("history"), True),
             ("a folder in .assise", fault(lambda: os.mkdir(f"{mounted.folders[0]}/.assise/x")), "EPERM"),
             ("a listing", os.listdir(mounted.folders[0]), ["letter"]), ("renewals", mounted.status()["renewals"] > 0, True)]
    return wrong_of(rows)


def stop(mounted):
    """What is wrong, or nothing."""
    here, other = mounted.folders
    os.mkdir(f"{here}/box")
    put(f"{here}/letter", "one")
    with open(f"{here}/letter", "r+", encoding="utf-8") as file:
        fd = file.fileno()
        os.pwrite(fd, b"two", 0)
        rows = [("before", os.pread(fd, 3, 0), b"two")]
        mounted.order("fail 1")
        rows += [("stat", fault(lambda: os.stat(f"{here}/letter")), "EIO"), ("mkdir", fault(lambda: os.mkdir(f"{here}/x")), "EIO"),
                 ("sync", fault(lambda: os.fsync(fd)), "EIO"), ("list", fault(lambda: os.listdir(here)), "EIO"),
                 ("a directory", fault(lambda: os.close(os.open(f"{here}/box", os.O_RDONLY))), ""),
                 ("the other mount", text_of(f"{other}/letter"), "one")]
        mounted.order("go on", place=1)
        rows += [("another's go on", fault(lambda: os.stat(f"{here}/letter")), "EIO")]
        mounted.order("go on")
        rows += [("what was open, read", fault(lambda: os.pread(fd, 3, 0)), "EIO"),
                 ("what was open, written", fault(lambda: os.pwrite(fd, b"x", 0)), "EIO"),
                 ("what was open, synced", fault(lambda: os.fsync(fd)), "EIO"), ("what is opened", text_of(f"{here}/letter"), "one")]
    return wrong_of(rows)


def kept(mounted):
    """A mount alone is asked for nothing that it wrote before, also where a node failed: what is wrong, or nothing."""
    path, whole = f"{mounted.folders[0]}/letter", bytearray(b"one" * 20480)
    put(path, whole.decode())
    rows = []
    for turn in range(9):
        with open(path, "r+b", buffering=0) as file:
            os.pwrite(file.fileno(), b"two", turn * 5000)
        whole[turn * 5000 : turn * 5000 + 3] = b"two"
        if turn % 3 == 0:
            mounted.order("back 1" if turn % 2 else "fail 1")
        with open(path, "rb") as file:
            rows.append(("size", os.fstat(file.fileno()).st_size, len(whole)))
            rows.append(("bytes", file.read() == whole, True))
    asked = [line.split()[3] for line in mounted.read("history").splitlines() if line.startswith("call")]
    return wrong_of(rows + [("reads", asked.count("read"), 0), ("writes", asked.count("write") >= 9, True)])
