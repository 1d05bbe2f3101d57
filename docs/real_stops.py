#!/usr/bin/env python3
"""Runs the built program on real files under faults and stops, outside the gate.

    docs/real_stops.py faults      each call of a kind fails once (strace -f -e inject=..), for every call of a run of two sessions, in a new
                                   folder and on an area with bytes behind its last gate, which are cut as it is opened
    docs/real_stops.py kills [N]   N runs (200) of strict commits, each ended by SIGKILL at a random moment
    docs/real_stops.py syncs       how many syncs a strict commit takes, counted by strace
    docs/real_stops.py areas       the bytes that the first example leaves, and what is found in files that were cut or changed by hand
    docs/real_stops.py folders     folders and files that can't be written
    docs/real_stops.py full        a file system of 64 KB that fills up (root alone may mount it), and files that meet a limit of their length

After each, a run of a reading script in the same folder has to find of each session the keys of a front of its commits, the one
in doubt behind them, with every strict one that its report says complete. It ends with 1 where one of them doesn't. The
program has to be built (one call of ./idbrun builds it), and strace to be there for `faults` and `syncs`. A run that ends
with 127 met the fault as the system loaded it."""
import contextlib
import json
import os
import random
import re
import resource
import shutil
import signal
import subprocess
import sys
import tempfile
import time

PROGRAM = os.path.dirname(os.path.dirname(os.path.realpath(__file__))) + "/crates/idbrun/out/current/idbrun"
CALLS = ["pwrite64", "fdatasync", "fsync", "ftruncate", "pread64"]
UP = [{"op": "createObjectStore", "store": "s"}]

# the head, a batch of the upgrade and one of the put, each behind its gate, and the closed gate
AREA = bytes.fromhex("a5 4944424c4f473031 0000000000000001 a5 000000000000002b 00000001 0000000000000001 00000002 31 00000001 64 0000000000000001"
                     "33 00000001 64 00000001 73 40 00 a5 000000000000002d 00000001 0000000000000002 00000001 37 00000001 64 00000001 73"
                     "210000000000000001 040000000000000007 00")

# where a run begins: what area 0 holds, and the keys that are sealed in it
STARTS = [("a new folder", b"", []), ("bytes behind the last gate", AREA + b"\x55" * 10, [1])]

DISK_FAULT = (7, b"", b"idbrun: disk fault\n")


def puts(pairs, value=0):
    """The block `go` of one session: a transaction for each key, with this durability, and its body."""
    blocks = {}
    go = []
    for key, durability in pairs:
        blocks[f"b{key}"] = [{"op": "put", "store": "s", "key": key, "value": value}]
        go.append({"op": "transaction", "scope": ["s"], "mode": "readwrite", "durability": durability, "body": f"b{key}"})
    return {"main": [{"op": "open", "db": "d", "upgrade": "up", "success": "go"}], "up": UP, "go": go, **blocks}


def script(sessions, ends):
    return json.dumps({"sessions": [{"clients": [{"blocks": it}], "end": end} for it, end in zip(sessions, ends)]}).encode()


READING = script([{
    "main": [{"op": "open", "db": "d", "upgrade": "up", "success": "go"}], "up": UP,
    "go": [{"op": "transaction", "scope": ["s"], "mode": "readonly", "body": "b"}],
    "b": [{"op": "getAllKeys", "store": "s"}]}], ["flush"])


def found(folder):
    """The keys that a run of the reading script finds."""
    ran = subprocess.run([PROGRAM, "run"], input=READING, cwd=folder, capture_output=True)
    text = ran.stdout.decode()
    keys = re.search(r"^tx \d+ req 1 success \[(.*)\]$", text, re.M)
    if ran.returncode or not keys:
        return None, f"the reading run ended with {ran.returncode}: {ran.stderr.decode().strip()}\n{text}"
    return [int(it) for it in keys[1].split(",") if it], ""


def commits_of(pairs, report):
    """The keys that a session may have left, in the order of its commits, and how many of them have to be there."""
    numbers = re.findall(r"^tx (\d+) create ", report, re.M)
    order, least = [], 0
    for (key, durability), number in zip(pairs, numbers):
        if re.search(rf"^tx {number} complete$", report, re.M):
            order.append(key)
            least = len(order) if durability == "strict" else least
        elif re.search(rf"^tx {number} abort UnknownError doubt$", report, re.M):
            order.append(key)
    return order, least


def ended(ran):
    """How a run ended: its status, and what it wrote to standard output and to standard error."""
    return ran.returncode, ran.stdout, ran.stderr


def put_bytes(path, given):
    with open(path, "wb") as it:
        it.write(given)


def bytes_at(path):
    with open(path, "rb") as it:
        return it.read()


def judge(folder, sessions, printed, what, sealed=()):
    """Whether the keys that are found are those that were sealed before, and those of a front of each session's commits; those of sessions
    without a report may be any front."""
    keys, why = found(folder)
    reports = re.split(r"^(?=session \d+$)", printed, flags=re.M)[1:]
    rest = keys or []
    of_sessions = {key for pairs in sessions for key, _ in pairs}
    well = keys is not None and [key for key in rest if key not in of_sessions] == list(sealed)
    for at, pairs in enumerate(sessions):
        order, least = commits_of(pairs, reports[at]) if at < len(reports) else ([key for key, _ in pairs], 0)
        here = [key for key in rest if key in [it for it, _ in pairs]]
        well &= here == order[:len(here)] and len(here) >= least
    if not well:
        print(f"{what}: found {keys}, after {printed!r}. {why}")
    return well


def faults():
    sessions = [[(2, "relaxed"), (3, "relaxed"), (4, "strict"), (5, "relaxed")], [(6, "strict"), (7, "strict")]]
    given = script([puts(it) for it in sessions], ["flush", "flush"])
    well, by_fault, cuts = True, 0, 0
    for start, area, sealed in STARTS:
        for call in CALLS:
            ends = []
            while True:
                k = len(ends) + 1
                what = f"{start}, {call}, failing call {k}"
                with tempfile.TemporaryDirectory() as folder:
                    if area:
                        put_bytes(f"{folder}/idb.0", area)
                    ran = subprocess.run(["strace", "-f", "-qq", "-o", f"{folder}/trace", "-e", f"trace={call}", "-e", f"inject={call}:error=EIO:when={k}",
                                          PROGRAM, "run"], input=given, cwd=folder, capture_output=True)
                    hit = "(INJECTED)" in open(f"{folder}/trace").read()
                    text = ran.stdout.decode()
                    # the cut of an opening: no session begins, and the file is as it was
                    if hit and call == "ftruncate":
                        cuts += 1
                        if ended(ran) != DISK_FAULT or bytes_at(f"{folder}/idb.0") != area:
                            print(f"{what}: the run ended with {ended(ran)}, or the area was changed")
                            well = False
                    # a strict commit that meets a fault is in doubt, and its session ends by that
                    well &= judge(folder, sessions, text, what, sealed)
                    by_fault += len(re.findall(r"^end fault$", text, re.M))
                    line = ran.stderr.decode()
                    said = {0: "", 7: "idbrun: disk fault\n"}.get(ran.returncode, line)
                    if hit and (ran.returncode == 0 and "\nend fault\n" not in text or ran.returncode not in (0, 7, 127) or line != said):
                        print(f"{what}: the run ended with {ran.returncode}, after {text!r} and {line!r}")
                        well = False
                    elif not hit and ran.returncode:
                        print(f"{start}, {call}: no call failed, and the run ended with {ran.returncode}")
                        well = False
                if not hit:
                    break
                ends.append(ran.returncode)
            print(f"{start}, {call}: {len(ends)} calls failed, one at a time; the runs ended with {' '.join(map(str, ends))}")
    print(f"{by_fault} sessions ended by a fault; {cuts} cuts failed")
    return well and cuts > 0


def kills(number):
    each, sessions = 25, 16
    pairs = [[(at * each + n + 1, "strict") for n in range(each)] for at in range(sessions)]
    given = script([puts(it) for it in pairs], ["flush"] * sessions)
    with tempfile.TemporaryDirectory() as folder:
        began = time.time()
        ran = subprocess.run([PROGRAM, "run"], input=given, cwd=folder, capture_output=True)
        whole = time.time() - began
        if ran.returncode or not judge(folder, pairs, ran.stdout.decode(), "the whole run"):
            return False
    well, counts = True, []
    for turn in range(number):
        with tempfile.TemporaryDirectory() as folder:
            with open(f"{folder}/out", "wb") as out:
                started = subprocess.Popen([PROGRAM, "run"], stdin=subprocess.PIPE, stdout=out, stderr=subprocess.DEVNULL, cwd=folder)
                started.stdin.write(given)
                started.stdin.close()
                time.sleep(random.random() * whole)
                started.send_signal(signal.SIGKILL)
                started.wait()
            # a report is there whole where its last line is
            text = open(f"{folder}/out", "rb").read().decode()
            counts.append(len(re.findall(r"^end flush$", text, re.M)))
            well &= judge(folder, pairs, text[:text.rfind("end flush\n") + 10] if counts[-1] else "", f"kill {turn + 1}")
    print(f"{number} runs of {sessions} sessions with {each} strict commits were killed; a whole run takes {whole:.2f} s; whole reports printed: {min(counts)} to {max(counts)}")
    return well


def syncs():
    counted = []
    for n in (10, 110):
        given = script([puts([(key + 1, "strict") for key in range(n)])], ["flush"])
        with tempfile.TemporaryDirectory() as folder:
            subprocess.run(["strace", "-f", "-qq", "-o", f"{folder}/trace", "-e", "trace=fdatasync,fsync", PROGRAM, "run"], input=given, cwd=folder, capture_output=True)
            counted.append(sum("sync(" in line for line in open(f"{folder}/trace")))
    print(f"10 strict commits: {counted[0]} syncs; 110: {counted[1]}; {(counted[1] - counted[0]) / 100} a commit")
    return counted[1] - counted[0] == 200


# what is made of it, and the keys that are found, or the line on standard error
FILES = [
    ("cut to its first byte", AREA[:1], []),
    ("cut to the first gate, which is open", AREA[:17] + b"\xa5", []),
    ("another byte of the head", AREA[:1] + b"\x4a" + AREA[2:], "idbrun: damaged area 0 at 1"),
    ("cut before the first gate", AREA[:17], "idbrun: damaged area 0 at 17"),
    ("cut within the first batch", AREA[:60], "idbrun: damaged area 0 at 18"),
    ("cut within the second batch", AREA[:100], "idbrun: damaged area 0 at 70"),
    ("another count of records", AREA[:29] + b"\xff" + AREA[30:], "idbrun: damaged area 0 at 26"),
    ("another byte at the closed gate", AREA[:-1] + b"\x01", [1]),
    ("bytes behind the closed gate", AREA + b"\x55" * 10, [1]),
]


def areas():
    example = open(os.path.dirname(os.path.dirname(os.path.realpath(__file__))) + "/examples/first.json", "rb").read()
    with tempfile.TemporaryDirectory() as folder:
        ran = subprocess.run([PROGRAM, "run"], input=example, cwd=folder, capture_output=True)
        well = ran.returncode == 0 and bytes_at(f"{folder}/idb.0") == AREA
    print(f"the first example leaves {'the worked bytes' if well else 'OTHER BYTES'}")
    for what, given, expected in FILES:
        with tempfile.TemporaryDirectory() as folder:
            put_bytes(f"{folder}/idb.0", given)
            keys, why = found(folder)
            left = bytes_at(f"{folder}/idb.0")
            so = keys == expected if isinstance(expected, list) else keys is None and expected in why and left == given
            print(f"{what}: {keys if keys is not None else why.splitlines()[0]}{'' if so else ', and NOT ' + str(expected)}")
            well &= so
    return well


# what stands in a folder, with the modes of its files; the folder's mode; whether a run there meets a fault; the keys that are found later
FOLDERS = [
    ("an empty folder that can't be written", {}, 0o555, True, []),
    ("a folder that can't be written, with one of the files", {"idb.0": (AREA, 0o666)}, 0o555, True, [1]),
    ("files that can't be written", {"idb.0": (AREA, 0o444), "idb.1": (b"", 0o444)}, 0o777, True, [1]),
    ("a folder that can't be searched", {"idb.0": (AREA, 0o666), "idb.1": (b"", 0o666)}, 0o000, True, [1]),
    ("a folder that can't be written, with both files", {"idb.0": (AREA, 0o666), "idb.1": (b"", 0o666)}, 0o555, False, [1, 2, 3]),
]


def folders():
    given = script([puts([(2, "strict"), (3, "strict")])], ["flush"])
    # no mode binds root, so root has another user run the program
    user = {"user": 65534, "group": 65534, "extra_groups": []} if os.geteuid() == 0 else {}
    well = True
    with tempfile.TemporaryDirectory() as place:
        os.chmod(place, 0o755)
        program = shutil.copy(os.path.realpath(PROGRAM), f"{place}/idbrun")
        os.chmod(program, 0o755)
        for number, (what, files, mode, meets_fault, expected) in enumerate(FOLDERS):
            if not mode and not user:
                continue # nobody but root can start a program there
            folder = f"{place}/{number}"
            os.mkdir(folder)
            for name, (held, its) in files.items():
                put_bytes(f"{folder}/{name}", held)
                os.chmod(f"{folder}/{name}", its)
            os.chmod(folder, mode)
            ran = subprocess.run([program, "run"], input=given, cwd=folder, capture_output=True, **user)
            os.chmod(folder, 0o777)
            left = {name: bytes_at(f"{folder}/{name}") for name in os.listdir(folder)}
            if meets_fault:
                so = ended(ran) == DISK_FAULT and left == {name: held for name, (held, _) in files.items()}
            else:
                so = ran.returncode == 0 and ran.stdout.endswith(b"\nend flush\n") and not ran.stderr
            for name in files:
                os.chmod(f"{folder}/{name}", 0o666)
            keys, why = found(folder)
            print(f"{what}: {' '.join([str(ran.returncode), *ran.stderr.decode().splitlines()])}, and later {keys if keys is not None else why}")
            if not so or keys != expected:
                print(f"  NOT so: it ended with {ended(ran)}, {sorted(left)} were left, and {expected} was to be found")
                well = False
    return well


@contextlib.contextmanager
def small_disk(size):
    """A folder that is a file system of this size; None where none may be mounted."""
    with tempfile.TemporaryDirectory() as folder:
        made = subprocess.run(["mount", "-t", "tmpfs", "-o", f"size={size}", "tmpfs", folder], capture_output=True).returncode == 0
        try:
            yield folder if made else None
        finally:
            if made:
                subprocess.run(["umount", folder], check=True)


def no_room():
    """A new log where there is no room at all, and again where there is."""
    with small_disk("64k") as folder:
        if not folder:
            print("no file system could be mounted: left out")
            return True
        with contextlib.suppress(OSError), open(f"{folder}/filler", "wb", buffering=0) as it:
            while True:
                it.write(b"\0" * 4096)
        ran = subprocess.run([PROGRAM, "run"], input=READING, cwd=folder, capture_output=True)
        os.remove(f"{folder}/filler")
        keys, why = found(folder)
        well = ended(ran) == DISK_FAULT and keys == []
        print(f"no room at all: {ran.returncode} {ran.stderr.decode().strip()}, and with room {keys if keys is not None else why}{'' if well else ', NOT so'}")
        return well


def fills_up(folder, what, more_room, **words):
    """Two sessions whose strict commits come to no more room, each of which ends by that; and one behind them, with more room."""
    sessions = [[(at * 40 + n + 1, "strict") for n in range(40)] for at in range(2)]
    given = script([puts(it, "x" * 3000) for it in sessions], ["flush", "flush"])
    ran = subprocess.run([PROGRAM, "run"], input=given, cwd=folder, capture_output=True, **words)
    text = ran.stdout.decode()
    counts = [len(re.findall(it, text, re.M)) for it in (r"^end fault$", r"^tx \d+ abort UnknownError doubt$", r"^end ")]
    well = (ran.returncode, ran.stderr, counts) == (0, b"", [2, 2, 2])
    well &= judge(folder, sessions, text, what)
    before, _ = found(folder)
    more_room()
    ran = subprocess.run([PROGRAM, "run"], input=script([puts([(1000, "strict")])], ["flush"]), cwd=folder, capture_output=True)
    after, why = found(folder)
    well &= bool(before) and ran.returncode == 0 and after == before + [1000]
    print(f"{what}: {counts[0]} of 2 sessions ended by a fault, {len(before or [])} keys are found, and with more room {len(after or [])}{'' if well else ', NOT so'}{why}")
    return well


def full():
    well = no_room()
    with small_disk("64k") as folder:
        if folder:
            more_room = lambda: subprocess.run(["mount", "-o", "remount,size=1m", folder], check=True)
            well &= fills_up(folder, "a file system of 64 KB", more_room)
    with tempfile.TemporaryDirectory() as folder:
        # without the signal that comes at the limit a write there fails
        limit = lambda: (signal.signal(signal.SIGXFSZ, signal.SIG_IGN), resource.setrlimit(resource.RLIMIT_FSIZE, (16384, 16384)))
        well &= fills_up(folder, "a limit of 16 KB a file", lambda: None, preexec_fn=limit, restore_signals=False)
    return well


def main():
    if len(sys.argv) < 2 or sys.argv[1] not in ("faults", "kills", "syncs", "areas", "folders", "full"):
        print(__doc__)
        return 2
    if sys.argv[1] == "kills":
        well = kills(int(sys.argv[2]) if len(sys.argv) > 2 else 200)
    else:
        well = {"faults": faults, "syncs": syncs, "areas": areas, "folders": folders, "full": full}[sys.argv[1]]()
    print("all well" if well else "NOT WELL")
    return 0 if well else 1


if __name__ == "__main__":
    sys.exit(main())
