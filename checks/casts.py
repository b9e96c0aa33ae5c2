"""Tries `cast` and `listen` of the built program at once, for checks/air: that the datagrams of a cast are those of its history and then the end, three
times, that each listener ends, that a rate is kept and spreads the updates, that a silence is an end and with 0 none is, and what a listener says
on a terminal.
"""
import os
import pty
import socket
import subprocess
import tempfile
import time

from datagrams import bucket

TOP = os.path.dirname(os.path.dirname(os.path.abspath(__file__)))
PROGRAM = os.path.join(TOP, "crates", "airdisk", "out", "airdisk")
CYCLES, SLOTS = 20, 44
UPDATES = CYCLES - 1
# a timetable of 24 items on three disks, aired in 880 buckets of 120 bytes; each updater has an update for each cycle but one
DECK = "".join(f"item,{i},{i},{24 - i}\n" for i in range(24)) + "disk,4,4\ndisk,8,2\ndisk,12,1\n" + "".join(
    f"update,{by},,{(7 * k + by) % 24}={k}\n" for by in range(2) for k in range(UPDATES)) + f"reader,0,0,3\nquery,0,0 9 23\nset,cycles,{CYCLES}\n"
BUCKET = bytes.fromhex("4144010100000018" "0000000100000000" "0000000000000000") + bytes(4 * 24)


def is_open(port):
    """Whether a socket of this machine hears at 127.0.0.1 and this port."""
    with open("/proc/net/udp", encoding="ascii") as file:
        return any(row.split()[1] == f"0100007F:{port:04X}" for row in list(file)[1:])


def wait_until_open(port):
    for _ in range(600):
        if is_open(port):
            return
        time.sleep(0.05)


def free_port():
    with socket.socket(socket.AF_INET, socket.SOCK_DGRAM) as there:
        there.bind(("127.0.0.1", 0))
        return there.getsockname()[1]


def listener(deck, port, errors=subprocess.DEVNULL, **variables):
    """A started `listen`, once it has its port."""
    ear = subprocess.Popen([PROGRAM, "listen", deck, str(port)], stdin=subprocess.DEVNULL, stdout=subprocess.PIPE, stderr=errors,
                           env=dict(os.environ, **variables))
    wait_until_open(port)
    return ear


def ended(program, seconds):
    """What a started program printed, in lines, and its status; the status is None if it didn't end in time."""
    try:
        printed = program.communicate(timeout=seconds)[0].decode().splitlines()
    except subprocess.TimeoutExpired:
        program.kill()
        program.communicate()
        return [], None
    return printed, program.returncode


def cast(deck, port, **variables):
    """The history that a cast prints; none if it failed, or didn't end in two minutes."""
    mast = subprocess.Popen([PROGRAM, "cast", deck, str(port)], stdin=subprocess.DEVNULL, stdout=subprocess.PIPE, stderr=subprocess.DEVNULL,
                            env=dict(os.environ, **variables))
    printed, status = ended(mast, 120)
    return printed if status == 0 else []


def send(port, datagrams):
    with socket.socket(socket.AF_INET, socket.SOCK_DGRAM) as mast:
        for data in datagrams:
            mast.sendto(data, ("127.0.0.1", port))


def heard(printed):
    """How many datagrams a listener heard by its counts: opened, dozed, late, refused and foreign."""
    return max([sum(map(int, line.split(",")[2:7])) for line in printed if line.startswith("counts,")], default=0)


def sent(deck, rate):
    """What a cast sends to a socket of this process, datagram by datagram, and the history that it prints. All of it is there once the cast has
    ended, since what is sent to a socket of this machine waits in it."""
    with socket.socket(socket.AF_INET, socket.SOCK_DGRAM) as ear:
        ear.bind(("127.0.0.1", 0))
        history, datagrams = cast(deck, ear.getsockname()[1], AIRDISK_RATE=str(rate)), []
        ear.setblocking(False)
        try:
            while True:
                datagrams.append(ear.recv(2048))
        except BlockingIOError:
            return datagrams, history


def aired(history):
    """For each bucket of examples/refused.csv where `cast` prints this history: its cycle, its slot, its item, the value and the column."""
    rows, cycle, values, columns = [], 0, [10, 20], [[0, 0], [0, 0]]
    for event in history:
        if event == "start":
            cycle += 1
            rows += [(cycle, slot, item, values[item], list(columns[item])) for slot, item in enumerate((1, 0))]
        elif event == "commit,0,0":
            values[0], columns[0] = 11, [cycle, 0]
        elif event == "commit,0,1":
            values[1], columns[1] = values[0] + 10, [columns[0][0], cycle]
    return rows


def try_sent(say, deck, casts):
    """What a cast of examples/refused.csv sends is what its history airs, and the end, three times. Each has ten cycles, and at a rate the updates
    fall between them: casts go on until one does so, twenty at most."""
    changed = 0
    for at in range(20):
        datagrams, history = sent(deck, 40)
        rows = aired(history)
        wanted = [bucket(1, 2, cycle, slot, item, value, column) for cycle, slot, item, value, column in rows] + [b""] * 3
        whole = sorted(history) == ["commit,0,0", "commit,0,1"] + ["start"] * 10
        say(whole and datagrams == wanted, f"cast {at + 1} printed {history} and sent {[data.hex() for data in datagrams]}, and not {[data.hex() for data in wanted]}")
        changed += any(any(column) for _, _, _, _, column in rows)
        if changed and at + 1 >= casts:
            break
    say(changed > 0, "no cast of twenty committed between its cycles")


def try_ends(say, deck, casts):
    """Each listener to a cast ends, also where it loses the end: by a silence of 30 seconds."""
    whole = 0
    for at in range(casts):
        port = free_port()
        ear = listener(deck, port)
        history = cast(deck, port)
        printed, status = ended(ear, 60)
        say(status == 0 and history.count("start") == CYCLES, f"cast {at + 1} of {casts}: the listener's status is {status}, and it printed {printed}")
        whole += heard(printed) == CYCLES * SLOTS
    if casts > 2:
        print(f"{casts} casts of {CYCLES * SLOTS} buckets: {whole} were heard whole")


def times_at(deck, rate):
    """When each datagram of a cast at a rate came, and the history; no times where the end didn't come, no history where the cast didn't end."""
    port, times = free_port(), []
    with socket.socket(socket.AF_INET, socket.SOCK_DGRAM) as ear:
        ear.bind(("127.0.0.1", port))
        ear.settimeout(30)
        mast = subprocess.Popen([PROGRAM, "cast", deck, str(port)], stdin=subprocess.DEVNULL, stdout=subprocess.PIPE,
                                env=dict(os.environ, AIRDISK_RATE=str(rate)))
        try:
            while ear.recv(2048):
                times.append(time.monotonic())
        except socket.timeout:
            times = []
        return times, ended(mast, 30)[0]


def committed_in(history):
    """The cycles in which something was committed."""
    cycles, cycle = set(), 0
    for event in history:
        if event == "start":
            cycle += 1
        else:
            cycles.add(cycle)
    return cycles


def try_rate(say, deck):
    """A rate is kept within a tenth, in one of three tries, since other work may take the processors; and the updates spread over the cycles."""
    rate, seen = 1000, []
    for _ in range(3):
        times, history = times_at(deck, rate)
        took, wanted, spread = (times[-1] - times[0] if times else 0), (CYCLES * SLOTS - 1) / rate, len(committed_in(history))
        seen.append((len(times), round(took, 3), spread))
        if len(times) == CYCLES * SLOTS and abs(took - wanted) <= wanted / 10 and spread >= UPDATES // 2:
            break
    else:
        say(False, f"at {rate} buckets a second: buckets, seconds and cycles with a commit were {seen}, for {CYCLES * SLOTS} in {wanted} and {UPDATES}")
        return
    say(True, "a rate")


def try_silence(say, deck):
    """A listener waits for the first datagram without a limit; once it has heard something it ends by the silence that is set."""
    port = free_port()
    ear = listener(deck, port, AIRDISK_SILENCE="1")
    time.sleep(2)
    waits = ear.poll() is None
    send(port, [BUCKET])
    began = time.monotonic()
    printed, status = ended(ear, 20)
    took = time.monotonic() - began
    say(waits and status == 0 and heard(printed) == 1 and took > 0.9, f"a silence of a second: {'it waited' if waits else 'it had ended'} before, status {status} after {took:.2f} seconds, printed {printed}")


def try_no_silence(say, deck, is_long):
    """With a silence of 0 none is an end: a listener that has heard something waits on for the end mark, also longer than it does where none is set."""
    port = free_port()
    ear = listener(deck, port, AIRDISK_SILENCE="0")
    send(port, [BUCKET])
    time.sleep(31 if is_long else 1.5)
    waits = ear.poll() is None
    send(port, [b""])
    printed, status = ended(ear, 20)
    say(waits and status == 0 and heard(printed) == 1, f"a silence of 0: {'it waited' if waits else 'it had ended'}, status {status}, printed {printed}")


def said_on_terminal(deck, port, datagrams, pause):
    """What a listener says on a terminal while these come, with a pause before the last of them, and its status."""
    ours, its = pty.openpty()
    ear = listener(deck, port, its)
    os.close(its)
    send(port, datagrams[:-1])
    time.sleep(pause)
    send(port, [*datagrams[-1:], b""])
    status, said = ended(ear, 20)[1], b""
    try:
        while chunk := os.read(ours, 4096):
            said += chunk
    except OSError:
        pass
    os.close(ours)
    return said.decode().splitlines(), status


def try_terminal(say, deck, is_long):
    """On a terminal a listener says where it listens, and after ten seconds how much came; else it says nothing."""
    port = free_port()
    said, status = said_on_terminal(deck, port, [BUCKET, BUCKET], 10.5 if is_long else 0)
    wanted = [f"airdisk: listening on 127.0.0.1, port {port}"] + [f"airdisk: 2 datagrams came, {2 * len(BUCKET)} bytes"] * is_long
    say(said == wanted and status == 0, f"on a terminal: status {status}, said {said} and not {wanted}")
    with tempfile.TemporaryFile() as errors:
        ear = listener(deck, port, errors)
        send(port, [b""])
        status = ended(ear, 20)[1]
        errors.seek(0)
        said = errors.read()
    say(said == b"" and status == 0, f"on no terminal: status {status}, said {said}")


def deck_of_two_cycles(folder):
    """The deck examples/refused.csv with two cycles."""
    deck = os.path.join(folder, "cast.csv")
    with open(os.path.join(TOP, "examples", "refused.csv"), encoding="utf-8") as file, open(deck, "w", encoding="utf-8") as copy:
        copy.write(file.read() + "set,cycles,2\n")
    return deck


def try_casts(say, folder, casts):
    """All of these, with this many casts to a listener; where there are more than two also what takes long."""
    if not os.access(PROGRAM, os.X_OK):
        print("skipped: the program isn't built, so no cast is listened to")
        return
    try_sent(say, os.path.join(TOP, "examples", "refused.csv"), casts)
    deck = os.path.join(folder, "timetable.csv")
    with open(deck, "w", encoding="utf-8") as file:
        file.write(DECK)
    try_ends(say, deck, casts)
    try_rate(say, deck)
    try_silence(say, deck)
    try_no_silence(say, deck, casts > 2)
    try_terminal(say, deck, casts > 2)
