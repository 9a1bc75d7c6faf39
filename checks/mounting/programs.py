"""Programs that know nothing of the mount: each is a script of bash in an empty folder $D of it, with a folder $T beside, outside.  Those
that a limit stops say how."""

import os
import shutil
import subprocess
import textwrap
from collections import namedtuple

SECONDS = 60

Program = namedtuple("Program", "name needs script limit", defaults=[""])

# What all may use.
COMMON = """
set -e -o pipefail
same() { [ "$1" = "$2" ] || { echo "'$1' and not '$2'"; exit 1; }; }
cd $D
"""

PROGRAMS = [
    Program("sqlite3", "sqlite3", """
        sqlite3 s.db "create table t(a integer primary key, b text);
            with recursive c(i) as (select 1 union all select i+1 from c where i<2000) insert into t select i, hex(randomblob(20)) from c;"
        for i in 1 2 3 4 5; do
            sqlite3 s.db "begin; update t set b=b||$i where a%7=$i; insert into t(b) values(hex(randomblob(100))); commit"
        done
        same "$(sqlite3 s.db "pragma integrity_check; select count(*) from t" | xargs)" "ok 2005" """),
    Program("sqlite3, WAL", "sqlite3", """
        sqlite3 w.db "pragma journal_mode=wal; create table t(a,b);"
        for i in $(seq 20); do sqlite3 w.db "insert into t values($i,hex(randomblob(50)))"; done
        (sqlite3 w.db ".timeout 9000" "begin immediate; insert into t values(100,1); commit;" &
            sqlite3 w.db ".timeout 9000" "insert into t values(101,1)"; wait)
        same "$(sqlite3 w.db "pragma integrity_check; select count(*) from t" | xargs)" "ok 22" """),
    Program("sqlite3, two writers", "sqlite3", """
        sqlite3 z.db "create table t(a);"
        write() { for i in $(seq 30); do sqlite3 z.db ".timeout 20000" "insert into t values($1)"; done; }
        write 1 & write 2 & wait
        same "$(sqlite3 z.db "pragma integrity_check; select count(*) from t" | xargs)" "ok 60" """),
    Program("sqlite3, over 1 MiB", "sqlite3", """
        sqlite3 b.db "create table t(a); with recursive c(i) as (select 1 union all select i+1 from c where i<3000)
            insert into t select randomblob(500) from c;" """, "disk I/O error"),
    Program("git: commits, gc, merge, rebase", "git", """
        git init -q .
        for i in $(seq 20); do echo line $i > f$i; git add f$i; git commit -qm "c $i"; done
        same $(git log --oneline | wc -l) 20
        git fsck --full; git gc -q; git fsck --full
        git checkout -q -b other HEAD~5; echo o > o; git add o; git commit -qm o; git merge -q -m m main; git rebase -q HEAD~3
        same "$(git status --porcelain)" ""; git fsck"""),
    Program("git: clone", "git", """
        git init -q $T/from; echo x > $T/from/x; git -C $T/from add x; git -C $T/from commit -qm x
        git clone -q --no-hardlinks $T/from to; git -C to fsck; same "$(cat to/x)" x"""),
    Program("git: a pack over 1 MiB", "git", """
        git init -q $T/large; head -c 2000000 /dev/urandom | split -b 500000 - $T/large/x
        git -C $T/large add .; git -C $T/large commit -qm x; git clone -q file://$T/large to""", "File too large"),
    Program("Maildir", "python3", """
        python3 - <<'END'
        import mailbox
        box = mailbox.Maildir("box")
        keys = [box.add(f"From: a@b\\nSubject: number {i}\\n\\nbody {i}\\n" * 3) for i in range(100)]
        for key in keys[:50]:
            message = box[key]; message.set_subdir("cur"); message.add_flag("S"); box[key] = message
        for key in keys[80:]: box.remove(key)
        again = mailbox.Maildir("box")
        assert len(again) == 80 and sum(1 for m in again if m.get_subdir() == "cur") == 50
        assert all(again[key]["Subject"] == f"number {i}" for i, key in enumerate(keys[:80]))
        END"""),
    Program("mbox", "python3", """
        python3 - <<'END'
        import mailbox
        box = mailbox.mbox("box"); box.lock()
        for i in range(50): box.add(f"From: a\\n\\nbody {i}\\n")
        box.flush(); box.unlock(); box.close()
        box = mailbox.mbox("box"); box.remove(3); box.flush()
        assert len(mailbox.mbox("box")) == 49
        END"""),
    Program("tar, in and out", "tar", """
        cp -rL /usr/include/linux $T/linux; tar cf - -C $T linux | tar xf -; diff -r $T/linux linux
        tar cf $T/out.tar linux; tar df $T/out.tar -C $T; tar cf small.tar -C $T linux/netfilter; tar rf small.tar -C $T linux/can
        tar df small.tar -C $T"""),
    Program("tar, with a link", "tar", "ln -s x $T/link; tar cf - -C $T link | tar xf -", "Operation not permitted"),
    Program("rsync", "rsync", """
        cp -rL /usr/include/linux/netfilter $T/n; rsync -a $T/n/ n/; same "$(rsync -ain $T/n/ n/)" ""
        echo x >> n/xt_mark.h; same $(rsync -ain $T/n/ n/ | wc -l) 1
        rsync -a --delete --checksum $T/n/ n/; diff -r $T/n n; rsync -aHAX $T/n/ m/"""),
    Program("cp, mv, rm", "cp", """
        cp -a /usr/include/linux/netfilter a; diff -r /usr/include/linux/netfilter a; cp -r a b; diff -r a b; mv b c; rm -r a c
        head -c 900000 /dev/zero > z0; cp --sparse=always z0 z1; cmp z0 z1"""),
    Program("vim", "vim", """
        printf 'a\\nb\\n' > v; vim -Es -u NONE -c '%s/a/zz/' -c wq v; same "$(xargs < v)" "zz b"
        vim -Es -u NONE -N -c 'set backup writebackup swapfile' -c 'normal oNEW' -c wq v; grep -q NEW v"""),
    Program("sed -i", "sed", "seq 1000 > n; chmod 640 n; sed -i s/5/five/ n; same $(grep -c five n) 271; same $(stat -c %a n) 640"),
    Program("make and gcc", "make gcc", r"""
        printf '#include <stdio.h>\nint f(void);int main(void){printf("%%d\\n",f());return 0;}\n' > m.c
        echo 'int f(void){return 42;}' > f.c
        printf 'p: m.o f.o\n\tcc -o p m.o f.o\n' > Makefile; make; same $(./p) 42; make | grep 'up to date'
        sleep 0.1; touch f.c; make | grep 'f.o'; same $(./p) 42"""),
    Program("make -j4 and ar", "make gcc", r"""
        for i in $(seq 20); do echo "int f$i(int x){return x+$i;}" > f$i.c; done
        (echo "libz.a: $(for i in $(seq 20); do echo -n "f$i.o "; done)"; printf '\tar rcs libz.a *.o\n') > Makefile
        make -j4 > /dev/null; same $(ar t libz.a | wc -l) 20"""),
    Program("python's packages", "python3", """
        cp -r $(python3 -c 'import json,os;print(os.path.dirname(json.__file__))') j; python3 -m compileall -q j
        same "$(PYTHONPATH=. python3 -c 'import j; print(j.dumps([1]))')" '[1]'"""),
    Program("shelve", "python3", """
        python3 - <<'END'
        import dbm.dumb, shelve
        shelf = shelve.Shelf(dbm.dumb.open("s", "c"))
        for i in range(100): shelf[str(i)] = [i] * 10
        shelf.close(); shelf = shelve.Shelf(dbm.dumb.open("s", "r"))
        assert shelf["42"] == [42] * 10 and len(shelf) == 100
        END"""),
    Program("gzip, xz, zip", "gzip xz", """
        cp /usr/include/linux/input.h .; gzip -k input.h; gzip -t input.h.gz; xz -k input.h; xz -t input.h.xz
        python3 -m zipfile -c q.zip input.h; python3 -m zipfile -t q.zip"""),
    Program("find, du, sort", "sort", """
        cp -r /usr/include/linux/netfilter .; same $(find . -name '*.h' | wc -l) $(find /usr/include/linux/netfilter -name '*.h' | wc -l)
        du -s .; seq 50000 | shuf | sort -n -T $D -S 200k -o so; same $(wc -l < so) 50000; sort -nc so"""),
    Program("a file mapped and shared", "python3", """
        python3 - <<'END'
        import mmap
        file = open("m", "w+b"); file.truncate(65536)
        held = mmap.mmap(file.fileno(), 65536); held[100:105] = b"hello"; held.flush(); held.close(); file.close()
        assert open("m", "rb").read()[100:105] == b"hello"
        END"""),
    Program("flock and lockf", "flock python3", """
        touch l; flock l -c "flock -n l -c true && exit 1 || exit 0"
        python3 - <<'END'
        import fcntl, os
        file = open("l", "w"); fcntl.lockf(file, fcntl.LOCK_EX)
        if os.fork() == 0:
            try: fcntl.lockf(open("l", "w"), fcntl.LOCK_EX | fcntl.LOCK_NB); os._exit(1)
            except OSError: os._exit(0)
        assert os.wait()[1] == 0
        END"""),
    Program("an open file that is removed", "python3", """
        python3 - <<'END'
        import os
        file = open("u", "w+"); file.write("abc"); file.flush(); os.unlink("u"); file.seek(0); assert file.read() == "abc"
        file.write("d"); file.flush(); file.close(); assert os.listdir(".") == []
        END"""),
    Program("an open file that is replaced", "python3", """
        python3 - <<'END'
        import os
        file = open("r", "w+"); file.write("old"); file.flush(); open("n", "w").write("new"); os.rename("n", "r")
        file.seek(0); assert file.read() == "old" and open("r").read() == "new"
        END"""),
    Program("4,096 entries, and no more", "python3", """
        python3 - <<'END'
        import errno, os
        os.mkdir("d")
        try:
            for i in range(5000): open(f"d/{i}", "w").close()
        except OSError as error: assert error.errno == errno.ENOSPC
        assert len(os.listdir("d")) == 4096
        END
        rm -r d"""),
    Program("a folder 31 deep", "mkdir", "p=$(printf 'd/%.0s' $(seq 29)); mkdir -p $p; echo x > ${p}f; same $(cat ${p}f) x; rm -r d"),
    Program("a folder 40 deep", "mkdir", "mkdir -p $(printf 'd/%.0s' $(seq 40))", "File name too long"),
    Program("temporary files", "python3", """
        rm $(mktemp -p .); python3 -c 'import tempfile; tempfile.TemporaryFile(dir=".").write(b"x")'"""),
    Program("modes, and a program that runs", "chmod", """
        printf '#!/bin/sh\\necho hi\\n' > e; chmod 755 e; same $(./e) hi; chmod 4755 e; same $(stat -c %a e) 4755"""),
    Program("an owner", "chown", "touch o; chown nobody o; same $(stat -c %U o) nobody"),
    Program("times", "touch", "touch -d '2001-02-03 04:05:06.789' t; same \"$(stat -c %y t | cut -c1-23)\" '2001-02-03 04:05:06.789'"),
    Program("names with spaces and umlauts", "cat", "echo x > 'ein Name ÄÖ €'; same $(cat 'ein Name ÄÖ €') x"),
    Program("a name in Latin-1", "python3", "python3 -c 'open(b\"caf\\xe9\", \"w\")'", "Invalid or incomplete multibyte"),
    Program("four that append to one file", "cat", """
        for k in 1 2 3 4; do (for i in $(seq 50); do echo "line $k $i" >> a; done) & done; wait; same $(wc -l < a) 200"""),
    Program("sync of files and folders", "sync", """
        echo x > n; sync n; sync -d n; python3 -c 'import os; os.fsync(os.open(".", os.O_RDONLY))'"""),
    Program("df", "df", "df . | tail -1 | grep -q '%'; stat -f ."),
    Program("a file over 1 MiB", "dd", "dd if=/dev/zero of=d bs=1M count=2 status=none", "File too large"),
    Program("ln -s", "ln", "touch n; ln -s n l", "Operation not permitted"),
    Program("ln", "ln", "touch n; ln n l", "Operation not permitted"),
    Program("mkfifo", "mkfifo", "mkfifo f", "Operation not permitted"),
    Program("setxattr", "python3", "touch n; python3 -c 'import os; os.setxattr(\"n\", \"user.a\", b\"1\")'", "Operation not supported"),
    Program("fallocate", "fallocate", "fallocate -l 65536 f", "Operation not supported"),
]


def run(program, folder, beside):
    """What is wrong with what a program does in a folder; nothing where it is right, and none where it isn't there."""
    if not all(map(shutil.which, program.needs.split())):
        return None
    place, outside = (os.path.join(above, program.name.replace(" ", "_").replace(",", "")) for above in (folder, beside))
    os.mkdir(place)
    os.mkdir(outside)
    with open(os.path.join(outside, ".gitconfig"), "w", encoding="utf-8") as file:
        file.write("[user]\nname = n\nemail = a@b\n[init]\ndefaultBranch = main\n[gc]\nauto = 0\n[safe]\ndirectory = *\n")
    where = {"env": {**os.environ, "D": place, "T": outside, "HOME": outside, "LC_ALL": "C.UTF-8"}, "cwd": outside}
    pipes = {"stdin": subprocess.DEVNULL, "stdout": subprocess.PIPE, "stderr": subprocess.STDOUT}
    try:
        done = subprocess.run(["bash", "-c", COMMON + textwrap.dedent(program.script)], timeout=SECONDS, **where, **pipes)
    except subprocess.TimeoutExpired:
        return "it doesn't end"
    said = done.stdout.decode(errors="replace")
    if program.limit:
        return "" if done.returncode and program.limit in said else f"it isn't stopped by '{program.limit}': {said}"
    return "" if done.returncode == 0 else said or f"status {done.returncode}"
