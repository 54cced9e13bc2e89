#!/usr/bin/env python3
"""Kills the example host (examples/host.c) and lets it go on, until the listing
is done; its output must then be that of ringlist, byte for byte. First at each
of its steps in turn (tests/c/host_steps.c), then at random moments. Before
that, what the host says to files that it cannot use, to states of the former
layout, to a second host on the same output, and to a full disk.

Likewise the program that carries states over from the former layout and back
(examples/carry.c, tests/c/carry_steps.c): the state must then be the old one or
the new one, byte for byte, a second run must bring the new one, and the host go
on with it. Both states are worked out here, from the lines of the state and the
sheet.

    [KILLS=N] kill_test.py HOST HOST_STEPS CARRY CARRY_STEPS RINGLIST EXAMPLES FOLDER

FOLDER takes the files of the test. KILLS is the number of kills of the host at
random moments, 240 unless it is set; only those that hit a running host count.
The program that carries is started a quarter as often, and killed where it has
not ended before. After some kills of the host the files are left as another
crash would leave them (`disturb`).
What must have been seen is seen in the steps, which are the same in every run;
nothing that the script asks depends on how fast the machine is.
"""
import os
import random
import resource
import signal
import subprocess
import sys
import time

# Sheet, budget, kills of 240, and the longest that a host is left at first, in times of a `short_listing`.
PLAN = [
    ("cubane", 1, 30, 1.5),
    ("adamantane", 1, 30, 1.5),
    ("gonane", 2, 30, 1.5),
    ("dodecahedrane", 30, 40, 1.5),
    ("dodecahedrane", 111, 30, 1.5),
    ("acene30", 60, 40, 1.5),
    ("buckminsterfullerene", 200000, 20, 3),
    ("buckminsterfullerene", 1000000, 20, 5),
]

HANG = 3600  # seconds: only a host that hangs needs so long
HEAD = 42  # bytes of the first line of a state
LAST = (101, 102)  # the stops of a listing that is done
WRONG = b"not what the host wrote for this sheet"
FORMER = b"a state of the former layout: its mark has no bond lines; `carry over` carries it over"
LOCKED = b"another program is at work on it"
CHANGED = b"another program has just changed it"

# A rule, and a sheet that it refuses.
REFUSED = [(1, b""), (1, b"   1   2\n" * 7282), (2, b"x" * 9), (3, b" 129   0\n"), (4, b"   41025\n"),
           (5, b"   4   1\n"), (6, b"   4   1\n   0   1\n"), (7, b"   4   1\n   1   1\n"),
           (8, b"   4   2\n   1   2\n   2   1\n")]


def checksum(sheet):
    """FNV-1a, 64 bits."""
    value = 14695981039346656037
    for byte in sheet:
        value = (value ^ byte) * 1099511628211 % 2 ** 64
    return value


# What the steps of a listing leave: STATE, OUT and STATE.new, in the words of Listing.moment.
MOMENTS = {("none", "none", "none"), ("first", "as counted", "none"), ("mark", "as counted", "none")}
MOMENTS |= {pair + (new,) for new in ("none", "part", "whole")
            for pair in [("none", "as counted"), ("first", "longer"), ("mark", "longer")]}

# What disturb can do, see there.
DISTURBANCES = {"nothing", "before OUT", "before the first STATE", "OUT not on the disk",
                "no STATE.new", "more of OUT", "more of OUT, not on the disk", "part of STATE.new"}

# What the steps of carrying leave, in their order: STATE and STATE.new, in the words of carry_moment. The steps:
# before the sheet, STATE, OUT, STATE again and STATE.new are opened; before the write and in its midst; before
# the fsync and the rename; before the folder is opened and its fsync.
CARRY_MOMENTS = [("old", "none")] * 5 + [("old", "part")] * 2 + [("old", "whole")] * 2 + [("new", "none")] * 2
# Where there is nothing to carry: the first four steps, and the last two.
IDLE_MOMENTS = [("new", "none")] * 6

# What a host that starts at a step of carrying back says, and then the program that carries.
DONE, CARRIED = b"host: done", b"carry: STATE is carried back"
MEETINGS = {(DONE, CARRIED), (DONE, CHANGED), (LOCKED, CARRIED), (FORMER, CARRIED)}


class Listing:
    """One listing: its command, and the files that it keeps."""

    def __init__(self, host, sheet, folder, budget):
        self.state = os.path.join(folder, "state")
        self.out = os.path.join(folder, "out")
        self.new = self.state + ".new"
        for name in (self.state, self.out, self.new):
            if os.path.exists(name):
                os.remove(name)
        self.command = [host, sheet, self.state, self.out, str(budget)]
        self.sum = checksum(contents(sheet))

    def again(self):
        """The same listing from its start."""
        return Listing(self.command[0], self.command[1], os.path.dirname(self.state),
                       int(self.command[4]))

    def start(self):
        return subprocess.Popen(self.command, stdout=subprocess.PIPE, stderr=subprocess.PIPE)

    def files(self):
        """What is in the three files; None for one that is not there."""
        return [contents(name) if os.path.exists(name) else None
                for name in (self.state, self.out, self.new)]

    def finish(self):
        """Runs to the end and returns what it says."""
        process = self.start()
        said, errors = process.communicate(timeout=HANG)
        if process.returncode != 0 or errors:
            sys.exit("kill_test: %s: %d %r" % (self.command, process.returncode, errors))
        return said

    def head(self):
        """Bytes of the output and last stop as the state says them; 0 and 0
        where there is no state yet."""
        if not os.path.exists(self.state):
            return 0, 0
        state = contents(self.state)
        count, stop, mark = state[:20], state[20:24], state[HEAD:]
        if not (count.strip().isdigit() and stop.strip().isdigit()
                and state[24:HEAD] == b" %016x\n" % self.sum
                and (len(mark) >= 91 if int(stop) else not mark and not int(count))):
            sys.exit("kill_test: %s: not a whole state: %r" % (self.command, state))
        return int(count), int(stop)

    def check(self, expected, when):
        """STATE belongs to a beginning of the output, of whole lines. Returns
        whether the output goes on behind it."""
        out = contents(self.out)
        count = self.head()[0]
        if len(out) < count or out[:count] != expected[:count]:
            sys.exit("kill_test: %s: wrong output after %s" % (self.command, when))
        if count > 0 and out[count - 1:count] != b"\n":
            sys.exit("kill_test: %s: half a line after %s" % (self.command, when))
        return len(out) > count

    def moment(self):
        """What is in the files: words for STATE, OUT and STATE.new."""
        state, out, new = self.files()
        count, stop = self.head()
        return ("none" if state is None else "mark" if stop else "first",
                "none" if out is None else "longer" if len(out) > count else "as counted",
                "none" if new is None else "whole" if new.endswith(b"\n") else "part")

    def disturb(self, expected, rng):
        """Leaves the files as another crash with this STATE would leave them: one
        of a host with another budget, which comes further in its slice, and one
        in which the power fails, so that not all is on the disk. Returns what it
        has done."""
        count, stop = self.head()
        more = rng.randrange(len(expected[count:count + 2000]) + 1)
        line = expected.find(b"\n", count) + 1
        first = b"%20d%4d %016x\n" % (0, 0, self.sum)
        later = b"%20d%4d %016x\n" % (line, 101 if line == len(expected) else 103, self.sum)
        choice = rng.randrange(6)
        if stop in LAST or choice == 0:  # after the last STATE nothing is written
            return "nothing"
        if not os.path.exists(self.state):
            # OUT is made, and has no byte before the first STATE.
            remove(self.new)
            remove(self.out)
            if choice < 3:
                return "before OUT"
            put(self.out, b"")
            put(self.new, first[:rng.randrange(HEAD + 1)])
            return "before the first STATE"
        if choice == 1:
            remove(self.new)
            return "no STATE.new"
        if choice == 2 and stop == 0:
            # The folder of OUT is synced after the first STATE, and before the first slice.
            remove(self.out)
            return "OUT not on the disk"
        if choice == 3:
            put(self.out, expected[:count] + bytes(more))
            return "more of OUT, not on the disk"
        if choice == 4:
            put(self.out, expected[:line])
            put(self.new, later[:rng.randrange(HEAD + 1)])
            return "part of STATE.new"
        put(self.out, expected[:count + more])
        return "more of OUT"


def contents(name):
    try:
        with open(name, "rb") as file:
            return file.read()
    except FileNotFoundError:
        return b""


def put(name, text):
    with open(name, "wb") as file:
        file.write(text)


def remove(name):
    if os.path.exists(name):
        os.remove(name)


def killed(process, command):
    """Waits for the end; returns whether it was by a kill, and fails where it
    was neither that nor the end of the listing."""
    errors = process.communicate(timeout=HANG)[1]
    if process.returncode not in (0, -signal.SIGKILL):
        sys.exit("kill_test: %s: %d %r" % (command, process.returncode, errors))
    return process.returncode != 0


def kill_at_step(steps_program, words, step):
    """Starts a program that ends itself at a step; returns whether it came to it."""
    command = [steps_program] + words
    return killed(subprocess.Popen(command, stdout=subprocess.PIPE, stderr=subprocess.PIPE,
                                   env=dict(os.environ, STEP=str(step))), command)


def stop_at_step(steps_program, words, step):
    """Starts a program that stops itself at a step; returns it when it is there,
    or None where it came to its end before."""
    process = subprocess.Popen([steps_program] + words, stdout=subprocess.PIPE, stderr=subprocess.PIPE,
                               env=dict(os.environ, STEP=str(step), STOP="1"))
    now = os.waitid(os.P_PID, process.pid, os.WSTOPPED | os.WEXITED | os.WNOWAIT)
    if now.si_code == os.CLD_STOPPED:
        return process
    process.communicate(timeout=HANG)
    return None


def kill_once(command, rng, longest):
    """Starts a program and kills it; returns whether it was running."""
    process = subprocess.Popen(command, stdout=subprocess.PIPE, stderr=subprocess.PIPE)
    time.sleep(rng.random() * longest)
    process.send_signal(signal.SIGKILL)
    return killed(process, command)


def each_step(listing, host_steps, expected):
    """The listing from its start, killed at its first step, at its second and so
    on; each time it then goes on to the end. Returns the moments seen."""
    seen = []
    while kill_at_step(host_steps, listing.command[1:], len(seen) + 1):
        listing.check(expected, "step %d" % (len(seen) + 1))
        seen.append(listing.moment())
        end(listing, expected)
        listing = listing.again()
    return seen


def step_after_step(listing, host_steps, expected, rng):
    """The listing killed at one of its next 60 steps again and again, and
    disturbed, until it is done. Returns what the disturbances were."""
    done = []
    while kill_at_step(host_steps, listing.command[1:], rng.randrange(1, 61)):
        listing.check(expected, "kill %d" % len(done))
        done.append(listing.disturb(expected, rng))
    end(listing, expected)
    return done


def one_listing(listing, kills, longest, expected, rng):
    """Kills until `kills` have hit; a listing that is done begins anew. Returns
    the kills that hit, those of them with a finished slice since the start,
    those that left work of an unfinished slice behind which was not there
    before the start (output that the state does not count, or a temporary
    file), and listings."""
    hits, moved, torn, done, before = 0, 0, 0, 0, 0
    while hits < kills:
        state, out, new = listing.files()
        if kill_once(listing.command, rng, longest):
            hits += 1
            longer = listing.check(expected, "kill %d" % hits)
            state_now, out_now, new_now = listing.files()
            moved += listing.head()[1] > 0 and state_now != state
            torn += (longer and out_now != out) or (new_now is not None and new_now != new)
            listing.disturb(expected, rng)
        if listing.head()[1] in LAST:
            end(listing, expected)
            done += 1
            listing = listing.again()
            if hits == before:  # no kill met this listing: they come too late
                longest /= 2
            before = hits
    end(listing, expected)
    return hits, moved, torn, done + 1


def end(listing, expected):
    """To the end: the whole output, and a further start changes nothing."""
    said = listing.finish()
    state, out = contents(listing.state), contents(listing.out)
    if out != expected or not said.startswith(b"host: done"):
        sys.exit("kill_test: %s: the output is not ringlist's" % listing.command)
    if listing.finish() != said or contents(listing.out) != out or contents(listing.state) != state:
        sys.exit("kill_test: %s: a start after the end changed something" % listing.command)


def says(message, listing, command=None, limit=None):
    """The host, or the command, ends with exit code 1 and the message on standard
    error. It leaves all files as they are; with a limit, the longest file that
    it may write, it need not."""
    def limit_files():
        signal.signal(signal.SIGXFSZ, signal.SIG_IGN)
        resource.setrlimit(resource.RLIMIT_FSIZE, (limit, limit))

    before = listing.files()
    made = subprocess.run(command or listing.command, stdout=subprocess.PIPE,
                          stderr=subprocess.PIPE,
                          preexec_fn=None if limit is None else limit_files)
    if made.returncode != 1 or message not in made.stderr or made.stdout:
        sys.exit("kill_test: %r expected: %r" % (message, made))
    if limit is None and listing.files() != before:
        sys.exit("kill_test: %r: the files have changed" % made)


def isomer_of(cubane):
    """The sheet of cuneane, which has as many atoms and bonds as cubane."""
    return (contents(cubane).replace(b"   1   5\n", b"   1   3\n")
            .replace(b"   2   3\n", b"   2   5\n"))


def wrong_heads(state, sheet_sum):
    """The state of a finished listing, with heads that the host does not write for it."""
    mark = state[HEAD:]
    return [b"", b"\n", state[:HEAD - 1], state[:HEAD], state + b" " * 9815, b"x" + state, state[1:],
            state[:19] + b"x" + state[20:], b"+" + state[1:], b"0" + state[1:], b"\t" + state[1:],
            b"9" * 20 + state[20:], state[:20] + b"   0" + state[24:], state[:20] + b" 100" + state[24:],
            state[:20] + b" 105" + state[24:], state[:20] + b"-101" + state[24:],
            state[:20] + b" 102" + state[24:], state[:HEAD].replace(b" 101", b"   0"),
            b"%20d%4d" % (0, 0) + state[24:], state[:24] + b" %016X\n" % sheet_sum + mark,
            state[:24] + b" %016x\n" % (sheet_sum ^ 1) + mark]


def wrong_files(host, examples, folder):
    """Refusals and wrong files."""
    sheet = os.path.join(folder, "sheet")
    cubane = os.path.join(examples, "cubane.sheet")
    gonane = os.path.join(examples, "gonane.sheet")

    # A refused sheet: with no file yet, and with an empty output.
    for rule, text in REFUSED:
        put(sheet, text)
        listing = Listing(host, sheet, folder, 5)
        says(b"refused %d\n" % rule, listing)
        put(listing.out, b"")
        says(b"refused %d\n" % rule, listing)
    says(b"No such file", Listing(host, sheet + "s", folder, 5))

    # A finished listing, and states that it did not leave.
    listing = Listing(host, cubane, folder, 5)
    listing.finish()
    state, out, _ = listing.files()
    open_state = state[:20] + b" 103" + state[24:]  # as if not finished
    if not state.endswith(b"   7   8\n"):
        sys.exit("kill_test: the last bond of cubane is 7 8: %r" % state)
    for message, wrong in [(b"refused 14\n", open_state[:-1]),
                           (b"refused 14\n", open_state[:-9]),
                           (b"refused 14\n", open_state + b"   7   8\n"),
                           (b"refused 14\n", open_state + b" " * 599),
                           (b"refused 14\n", open_state[:-9] + b"   8   7\n"),
                           (b"refused 14\n", open_state.replace(b"   8  12", b"   8  13")),
                           (b"refused 15\n", open_state.replace(b"   8  12", b"   9  12")),
                           (b"refused 15\n", open_state[:-9] + b"   7   9\n"),
                           (b"refused 15\n", open_state[:-9].replace(b"   8  12", b"   8  11")),
                           (b"refused 16\n", open_state.replace(b"\n   0", b"\n   2", 1)),
                           (b"refused 17\n", open_state.replace(b"   0   9\n", b"   0  10\n")),
                           (b"refused 17\n", state.replace(b"   0   9\n", b"   0  10\n"))]:
        put(listing.state, wrong)
        says(message, listing)
    for wrong in wrong_heads(state, listing.sum):
        put(listing.state, wrong)
        says(WRONG, listing)
    os.remove(listing.state)
    says(b"OUT is not empty and there is no STATE", listing)
    put(sheet, b"x" * 9)
    says(b"host: ", listing, [host, sheet] + listing.command[2:])
    put(listing.state, state)
    put(listing.out, out[:-1])
    says(b"OUT is shorter than STATE says", listing)
    os.remove(listing.out)
    says(b"No such file", listing)
    put(listing.out, out)

    # Another sheet: of a finished listing; and, with as many atoms and bonds (cuneane, an isomer
    # of cubane), of one that is not finished, also with the right checksum.
    says(WRONG, listing, [host, gonane] + listing.command[2:])
    put(sheet, isomer_of(cubane))
    says(WRONG, listing, [host, sheet] + listing.command[2:])
    listing = Listing(host, cubane, folder, 5)
    says(b"File too large", listing, limit=len(out) - 1)
    if listing.head()[1] not in (103, 104):
        sys.exit("kill_test: the listing should not be finished")
    says(WRONG, listing, [host, sheet] + listing.command[2:])
    state = contents(listing.state)
    isomer = Listing(host, sheet, folder, 5)
    put(isomer.state, state[:24] + b" %016x\n" % isomer.sum + state[HEAD:])
    put(isomer.out, out)
    says(b"refused 15\n", isomer)
    isomer.again().finish()

    # Words that are no budget, one file for two, and a name with no room for ".new".
    listing = Listing(host, cubane, folder, 5)
    put(listing.out, b"")
    words = listing.command[:4]
    for command in ([host], words, words + [""], words + ["0"], words + ["5x"], words + ["-1"],
                    words + ["+1"], words + [" 1"], words + ["18446744073709551616"],
                    words + ["5", "5"], words[:3] + [listing.state, "5"]):
        says(b"usage: host SHEET STATE OUT BUDGET", listing, command)
    long = folder + "/" * (4093 - len(folder + "state")) + "state"
    says(b"File name too long", listing, [host, cubane, long, listing.out, "5"])


def former_states(host, carry, ringlist, examples, folder):
    """States as they were before marks had bond lines, written here by hand: the
    host says what they are and leaves them, byte for byte, and goes on when they
    are carried over. That of a molecule without bonds is still right."""
    listing = Listing(host, os.path.join(examples, "cubane.sheet"), folder, 1)
    counts = b"%20d%20d%20d\n"
    # After the first trial, which opens 1; after the last; and the first of all, without a mark.
    opened = b"   0   0   0   8  12   1   1\n" + counts % (1, 1, 0) + b"   1\n"
    ended = b"   0   0   0   8  12   0   9\n" + counts % (208, 25, 10) + b"\n"
    for stop, mark, out in [(103, opened, b""), (103, opened, b"   1   2"),
                            (101, ended, listed(ringlist, listing.command[1]))]:
        state = b"%20d%4d %016x\n" % (len(out) if stop == 101 else 0, stop, listing.sum) + mark
        put(listing.state, state)
        put(listing.out, out)
        says(FORMER, listing)
        if contents(listing.state) != state or contents(listing.out) != out:
            sys.exit("kill_test: the former state has changed")
        # Cut, with a byte more, of other n, m or kind, or at a place that is not open, it is no such state.
        for wrong in (state[:-1], state + b"\n", state[:HEAD + 20] + b"   3" + state[HEAD + 24:],
                      state[:HEAD + 12] + b"   9" + state[HEAD + 16:],
                      state[:HEAD + 16] + b"  11" + state[HEAD + 20:],
                      state[:HEAD] + b"   4" + state[HEAD + 4:],
                      state[:HEAD + 24] + b"  10" + state[HEAD + 28:]):
            put(listing.state, wrong)
            says(b"refused 14\n", listing)
        put(listing.state, state)
        carries(carry, "over", listing, layouts(listing)[1])
        end(listing, listed(ringlist, listing.command[1]))
    put(listing.state, b"%20d%4d %016x\n" % (0, 0, listing.sum))
    end(listing, listed(ringlist, listing.command[1]))
    sheet = os.path.join(folder, "sheet")
    put(sheet, b"   3   0\n")
    listing = Listing(host, sheet, folder, 1)
    mark = b"   0   0   0   3   0   0   2\n" + counts % (1, 0, 0) + b"\n"
    put(listing.state, b"%20d%4d %016x\n" % (0, 103, listing.sum) + mark)
    put(listing.out, b"")
    end(listing, listed(ringlist, sheet))


def second_host(host, carry, examples, folder):
    """A locked output is an error, also to the program that carries; the lock
    goes with the process that has it."""
    # A slice of one trial: the listing would take 70,514,160 of them, so that it is not done here.
    listing = Listing(host, os.path.join(examples, "buckminsterfullerene.sheet"), folder, 1)
    first = listing.start()
    while listing.head()[1] == 0:
        if first.poll() is not None:
            sys.exit("kill_test: the first host should be at work: %r" % first.stderr.read())
        time.sleep(0.01)
    first.send_signal(signal.SIGSTOP)
    os.waitid(os.P_PID, first.pid, os.WSTOPPED | os.WEXITED | os.WNOWAIT)
    try:
        for command in [listing.command] + [[carry] + carry_words(way, listing) for way in ("over", "back")]:
            says(LOCKED, listing, command)
    finally:
        first.send_signal(signal.SIGKILL)
    if not killed(first, listing.command):
        sys.exit("kill_test: the first host should have been at work")
    says(b"File too large", listing, limit=0)


def full_disk(host, ringlist, examples, folder):
    """A disk that is full at ever later moments, and then is not full."""
    for name, budget in [("cubane", 1), ("dodecahedrane", 30), ("acene30", 1000000)]:
        sheet = os.path.join(examples, name + ".sheet")
        expected = listed(ringlist, sheet)
        listing = Listing(host, sheet, folder, budget)
        for limit in [0, HEAD - 1, HEAD, HEAD + 91, 220, 250, len(expected) // 2, len(expected) - 1]:
            if limit < len(expected):
                says(b"File too large", listing, limit=limit)
                listing.check(expected, "a file of %d bytes" % limit)
        end(listing, expected)


def steps(host, host_steps, ringlist, examples, folder):
    """Kills at steps: the same in every run."""
    rng = random.Random(10)
    seen, done = [], []
    for name, budget in [("cubane", 30), ("gonane", 100), ("dodecahedrane", 2000)]:
        sheet = os.path.join(examples, name + ".sheet")
        expected = listed(ringlist, sheet)
        seen += each_step(Listing(host, sheet, folder, budget), host_steps, expected)
        for _ in range(20):
            done += step_after_step(Listing(host, sheet, folder, budget), host_steps, expected, rng)
    if not MOMENTS <= set(seen) or set(done) != DISTURBANCES:
        sys.exit("kill_test: not seen in the steps: %s %s"
                 % (MOMENTS - set(seen), DISTURBANCES - set(done)))
    print("kill_test: %d kills at each step of three listings, and %d at steps of listings that were "
          "killed before: all as ringlist's" % (len(seen), len(done)), flush=True)


def carry_words(way, listing):
    """The words behind the name of the program that carries STATE over or back."""
    return [way] + listing.command[1:4]


def layouts(listing):
    """STATE in the former layout, the head and three lines, and in the present
    one, with the bond lines of the sheet; it is now one of the two."""
    state = contents(listing.state)
    bonds = sorted(sorted((int(line[:4]), int(line[4:])))
                   for line in contents(listing.command[1]).splitlines()[1:])
    former = b"".join(state.splitlines(keepends=True)[:4])
    present = former + b"".join(b"%4d%4d\n" % (low, high) for low, high in bonds)
    if state not in (former, present) or former.count(b"\n") != 4:
        sys.exit("kill_test: %s: a state of neither layout: %r" % (listing.command, state))
    return former, present


def carries(carry, way, listing, wanted):
    """Carries to the end: then STATE is as wanted, and OUT as before."""
    state, out, _ = listing.files()
    said = b"carry: STATE needs no change\n"
    if state != wanted:
        said = (b"carry: STATE is carried %s: %d bytes of mark are now %d\n"
                % (way.encode(), len(state) - HEAD, len(wanted) - HEAD))
    made = subprocess.run([carry] + carry_words(way, listing), stdout=subprocess.PIPE,
                          stderr=subprocess.PIPE, timeout=HANG)
    if (made.returncode, made.stdout, made.stderr) != (0, said, b""):
        sys.exit("kill_test: %r expected: %r" % (said, made))
    if listing.files()[:2] != [wanted, out]:
        sys.exit("kill_test: %r: STATE or OUT is not as it should be" % made)


def carry_moment(listing, state, out, wanted):
    """What is in the files after a kill: words for STATE and STATE.new."""
    state_now, out_now, new = listing.files()
    if state_now not in (state, wanted) or out_now != out:
        sys.exit("kill_test: %s: not the old or the new state: %r" % (listing.command, state_now))
    return ("new" if state_now == wanted else "old",
            "none" if new is None else "whole" if new == wanted else "part")


def each_carry_step(listing, carry, carry_steps, way, wanted):
    """STATE is carried, killed at the first step, at the second and so on; each
    time a second run brings it to its end. Returns the number of steps."""
    state, out, _ = listing.files()
    seen = []
    remove(listing.new)
    while kill_at_step(carry_steps, carry_words(way, listing), len(seen) + 1):
        seen.append(carry_moment(listing, state, out, wanted))
        carries(carry, way, listing, wanted)
        put(listing.state, state)
        remove(listing.new)
    if carry_moment(listing, state, out, wanted) != ("new", "none"):
        sys.exit("kill_test: %s: not carried %s" % (listing.command, way))
    if seen != (IDLE_MOMENTS if state == wanted else CARRY_MOMENTS):
        sys.exit("kill_test: %s: the steps of carrying leave %s" % (listing.command, seen))
    return len(seen)


def back_and_over(listing, carry, carry_steps):
    """STATE of the host is carried back, and over again: it then has its first
    bytes. Between the two the host does not take it. Returns the number of kills."""
    former, present = layouts(listing)
    if contents(listing.state) != present:
        sys.exit("kill_test: %s: the host should write the present layout" % listing.command)
    kills = each_carry_step(listing, carry, carry_steps, "over", present)
    kills += each_carry_step(listing, carry, carry_steps, "back", former)
    kills += each_carry_step(listing, carry, carry_steps, "back", former)
    says(FORMER, listing)
    put(listing.new, b"x" * 20000)  # whatever a crash has left there
    carries(carry, "over", listing, present)
    carries(carry, "back", listing, former)
    return kills + each_carry_step(listing, carry, carry_steps, "over", present)


def carry_at_steps(host, host_steps, carry, carry_steps, ringlist, examples, folder):
    """Kills at the steps of carrying, in the midst of listings and at their end:
    the same in every run. The last sheet is cubane's with its lines and its
    atoms the other way round and zeros that fill the fields."""
    turned = os.path.join(folder, "sheet")
    lines = contents(os.path.join(examples, "cubane.sheet")).splitlines()
    put(turned, b"%04d%04d\n" % (int(lines[0][:4]), int(lines[0][4:])) + b"".join(
        b"%04d%04d\n" % (int(line[4:]), int(line[:4])) for line in reversed(lines[1:])))
    kills, states = 0, 0
    for sheet, budget in [(os.path.join(examples, "cubane.sheet"), 30),
                          (os.path.join(examples, "gonane.sheet"), 100),
                          (os.path.join(examples, "dodecahedrane.sheet"), 2000), (turned, 50)]:
        expected = listed(ringlist, sheet)
        listing = Listing(host, sheet, folder, budget)
        while kill_at_step(host_steps, listing.command[1:], 29):
            kills += back_and_over(listing, carry, carry_steps)
            states += 1
        end(listing, expected)
        kills += back_and_over(listing, carry, carry_steps)
        states += 1
        end(listing, expected)
    print("kill_test: %d kills at each step of carrying %d states back and over: the old or the new "
          "state, and the listings as ringlist's" % (kills, states), flush=True)


def carry_wrong_marks(carry, listing, former, present):
    """Marks of either layout that a rule refuses: the state of a finished listing
    of cubane, changed."""
    def both(old, new):
        return former.replace(old, new), present.replace(old, new)

    for rule, (wrong_former, wrong_present) in [
            (14, (former[:-1], present[:-1])),
            (14, (former + b"\n", present + b"\n")),
            (14, (former + b"   7   8\n", present + b"   7   8\n")),
            (14, (former + b" " * 599, present[:-9])),
            (14, both(b"   0   9\n", b"   1   9\n")),
            (14, both(b"   0   9\n", b"0000   9\n")),
            (15, both(b"   8  12", b"   9  12")),
            (15, (former.replace(b"   8  12", b"   8  11"), present[:-9] + b"   7   9\n")),
            (15, (former.replace(b"   8  12", b"   8   0"), present.replace(b"   8  12", b"   8   0")[:-108])),
            (16, both(b"\n   0   0   0", b"\n   4   0   0")),
            (16, both(b"\n   0   0   0", b"\n   0   3   0")),
            (17, both(b"   0   9\n", b"   0  10\n")),
            (17, both(b"   0   9\n", b"   0   0\n")),
            (17, tuple(b"".join(lines[:3] + [b"   1   3\n"] + lines[4:]) for lines in [
                text.replace(b"   0   9\n", b"   2   4\n").splitlines(keepends=True)
                for text in (former, present)]))]:
        for way, wrong in [("over", wrong_former), ("back", wrong_present)]:
            put(listing.state, wrong)
            says(b"carry: refused %d\n" % rule, listing, [carry] + carry_words(way, listing))
    # Of a mark that neither way accepts, the rule of the wanted way is told.
    for way, wrong in [("over", both(b"   0   9\n", b"   0  10\n")[1]),
                       ("back", both(b"   0   9\n", b"   0  10\n")[0])]:
        put(listing.state, wrong)
        says(b"carry: refused 14\n", listing, [carry] + carry_words(way, listing))


def carry_wrong_files(host, carry, examples, folder):
    """Refusals and wrong files, as for the host."""
    sheet = os.path.join(folder, "sheet")
    cubane = os.path.join(examples, "cubane.sheet")
    listing = Listing(host, cubane, folder, 5)
    listing.finish()
    out = contents(listing.out)
    former, present = layouts(listing)
    carry_wrong_marks(carry, listing, *[state[:20] + b" 103" + state[24:] for state in (former, present)])
    put(sheet, isomer_of(cubane))
    for way, state, wanted in [("over", former, present), ("back", present, former)]:
        command = [carry] + carry_words(way, listing)
        # Heads; and the whole file in the wanted layout, with a stop that is not the mark's.
        for wrong in wrong_heads(state, listing.sum) + [wanted[:20] + b" 102" + wanted[24:]]:
            put(listing.state, wrong)
            says(b"carry: %s: " % listing.state.encode() + WRONG, listing, command)
        put(listing.state, state)
        for other in (sheet, os.path.join(examples, "gonane.sheet")):
            says(WRONG, listing, command[:2] + [other] + command[3:])
        says(b"No such file", listing, command[:2] + [sheet + "s"] + command[3:])
        says(b"No such file", listing, command[:3] + [listing.state + "s"] + command[4:])
        long = folder + "/" * (4093 - len(folder + "state")) + "state"
        says(b"File name too long", listing, command[:3] + [long] + command[4:])
        put(listing.out, out[:-1])
        says(b"OUT is shorter than STATE says", listing, command)
        remove(listing.out)
        says(b"No such file", listing, command)
        remove(listing.state)
        says(b"No such file", listing, command)
        put(listing.out, out)
        says(b"No such file", listing, command)
        put(listing.state, state)
        for words in ([], [way], command[1:4], command[1:] + ["5"], ["through"] + command[2:],
                      [way.upper()] + command[2:], [""] + command[2:], command[1:4] + [listing.state]):
            says(b"usage: carry over|back SHEET STATE OUT", listing, [carry] + words)
        carry_full_disk(carry, way, listing, wanted)


def carry_wrong_sheets(host, carry, examples, folder):
    """Other sheets than cubane's, with their checksums in the head: refused ones,
    one of other n and m, and an isomer. A mark of the former layout does not
    tell isomers apart."""
    sheet = os.path.join(folder, "sheet")
    cubane = os.path.join(examples, "cubane.sheet")
    listing = Listing(host, cubane, folder, 5)
    listing.finish()
    former, present = [state[HEAD:] for state in layouts(listing)]
    for rule, text in REFUSED + [(15, contents(os.path.join(examples, "gonane.sheet"))),
                                 (15, isomer_of(cubane))]:
        put(sheet, text)
        listing = Listing(host, sheet, folder, 5)
        head = b"%20d%4d %016x\n" % (0, 103, checksum(text[:65530]))  # the programs read no more
        put(listing.out, b"")
        put(listing.state, head + present)
        says(b"carry: refused %d\n" % rule, listing, [carry] + carry_words("back", listing))
        put(listing.state, head + former)
        if text == isomer_of(cubane):
            carries(carry, "over", listing, layouts(listing)[1])
        else:
            says(b"carry: refused %d\n" % rule, listing, [carry] + carry_words("over", listing))


def carry_full_disk(carry, way, listing, wanted):
    """A disk that is full, and then is not full."""
    before = listing.files()[:2]
    for limit in (0, HEAD, len(wanted) // 2, len(wanted) - 1):
        says(b"File too large", listing, [carry] + carry_words(way, listing), limit=limit)
        if listing.files()[:2] != before:
            sys.exit("kill_test: %s: a full disk has changed STATE or OUT" % listing.command)
    carries(carry, way, listing, wanted)


def carry_nothing(host, host_steps, carry, examples, folder):
    """States in which there is nothing to carry: a first one, with OUT and, as a
    power failure may leave it, without; and that of a molecule without bonds."""
    cubane = os.path.join(examples, "cubane.sheet")
    sheet = os.path.join(folder, "sheet")
    put(sheet, b"   3   0\n")
    for name, stop, mark in [(cubane, 0, b""),
                             (sheet, 103, b"   0   0   0   3   0   0   2\n%20d%20d%20d\n\n" % (1, 0, 0))]:
        listing = Listing(host, name, folder, 1)
        state = b"%20d%4d %016x\n" % (0, stop, listing.sum) + mark
        put(listing.state, state)
        for out in [None, b"", b"   1   2"]:
            remove(listing.out)
            if out is not None:
                put(listing.out, out)
            for way in ("over", "back"):
                if out is None and stop:
                    says(b"No such file", listing, [carry] + carry_words(way, listing))
                else:
                    carries(carry, way, listing, state)
            if listing.files() != [state, out, None]:
                sys.exit("kill_test: with nothing to carry, the files have changed")

    # A first STATE of a host that is at work: it is before the step in which it cuts OUT.
    listing = Listing(host, cubane, folder, 1)
    process = stop_at_step(host_steps, listing.command[1:], 12)
    try:
        if listing.moment() != ("first", "as counted", "none"):
            sys.exit("kill_test: step 12 of the host leaves %s" % (listing.moment(),))
        for way in ("over", "back"):
            says(LOCKED, listing, [carry] + carry_words(way, listing))
    finally:
        process.kill()
        process.communicate(timeout=HANG)


def meetings(host, host_steps, carry, carry_steps, ringlist, examples, folder):
    """A host starts while the program that carries back is stopped at one of its
    steps: each of the two does its work wholly or not at all. Then the other way
    round: STATE is carried back while a host is stopped that has read it."""
    listing = Listing(host, os.path.join(examples, "cubane.sheet"), folder, 30)
    expected = listed(ringlist, listing.command[1])
    kill_at_step(host_steps, listing.command[1:], 29)
    remove(listing.new)
    state, out, _ = listing.files()
    seen = []
    process = stop_at_step(carry_steps, carry_words("back", listing), 1)
    while process is not None:
        try:
            seen.append(meeting(listing, process, expected))
        finally:
            process.kill()  # a process that is done is not touched
        put(listing.state, state)
        put(listing.out, out)
        process = stop_at_step(carry_steps, carry_words("back", listing), len(seen) + 1)
    if set(seen) != MEETINGS or len(seen) != len(CARRY_MOMENTS):
        sys.exit("kill_test: %s expected: %s" % (MEETINGS, seen))
    put(listing.state, state)
    process = stop_at_step(host_steps, listing.command[1:], 3)  # before it opens OUT
    try:
        carries(carry, "back", listing, layouts(listing)[0])
        before = listing.files()
        process.send_signal(signal.SIGCONT)
        errors = process.communicate(timeout=HANG)[1]
    finally:
        process.kill()
    if process.returncode != 1 or CHANGED not in errors or listing.files() != before:
        sys.exit("kill_test: a state that is carried, then a host: %r" % errors)


def meeting(listing, process, expected):
    """What the host says, and then the stopped program, which goes on."""
    before = listing.files()
    host = subprocess.run(listing.command, stdout=subprocess.PIPE, stderr=subprocess.PIPE, timeout=HANG)
    between = listing.files()
    former, _ = layouts(listing)
    process.send_signal(signal.SIGCONT)
    said, errors = process.communicate(timeout=HANG)
    after = listing.files()
    words = [[word for word in (DONE, LOCKED, FORMER, CHANGED, CARRIED) if word in text]
             for text in (host.stdout + host.stderr, said + errors)]
    if not ((between == before if host.returncode else between[1] == expected)
            and (after == between if process.returncode else after == [former, between[1], None])
            and [len(found) for found in words] == [1, 1]):
        sys.exit("kill_test: a host, then carrying: %r %r: %s" % (host, said + errors, [before, between, after]))
    return words[0][0], words[1][0]


def carry_at_random(host, host_steps, carry, ringlist, examples, folder, tries, longest):
    """Carries a state in the midst of a listing back and over in turn, killed at
    random moments. Returns how many of the kills hit."""
    rng = random.Random(30)
    listing = Listing(host, os.path.join(examples, "dodecahedrane.sheet"), folder, 2000)
    kill_at_step(host_steps, listing.command[1:], 29)
    former, present = layouts(listing)
    hits = 0
    for _ in range(tries):
        state, out, _ = listing.files()
        way, wanted = ("over", present) if state == former else ("back", former)
        hits += kill_once([carry] + carry_words(way, listing), rng, longest)
        carry_moment(listing, state, out, wanted)
    carries(carry, "over", listing, present)
    end(listing, listed(ringlist, listing.command[1]))
    return hits


def short_listing(host, examples, folder):
    """The seconds that the host takes here and now for a listing of one slice:
    the middle one of five."""
    taken = []
    for _ in range(5):
        listing = Listing(host, os.path.join(examples, "cubane.sheet"), folder, 1000000)
        begin = time.time()
        listing.finish()
        taken.append(time.time() - begin)
    return sorted(taken)[2]


def listed(ringlist, sheet):
    """What ringlist prints."""
    with open(sheet, "rb") as file:
        return subprocess.run([ringlist], stdin=file, check=True, stdout=subprocess.PIPE).stdout


def main():
    host, host_steps, carry, carry_steps, ringlist, examples, folder = sys.argv[1:]
    all_kills = int(os.environ.get("KILLS", "240"))
    os.makedirs(folder, exist_ok=True)
    wrong_files(host, examples, folder)
    former_states(host, carry, ringlist, examples, folder)
    second_host(host, carry, examples, folder)
    full_disk(host, ringlist, examples, folder)
    print("kill_test: wrong files, former states, a second host and a full disk: as they should be",
          flush=True)
    carry_wrong_files(host, carry, examples, folder)
    carry_wrong_sheets(host, carry, examples, folder)
    carry_nothing(host, host_steps, carry, examples, folder)
    meetings(host, host_steps, carry, carry_steps, ringlist, examples, folder)
    print("kill_test: carrying with wrong files, with nothing to carry and with a host that starts: as it "
          "should be", flush=True)
    carry_at_steps(host, host_steps, carry, carry_steps, ringlist, examples, folder)
    steps(host, host_steps, ringlist, examples, folder)
    rng = random.Random(20)
    unit = short_listing(host, examples, folder)
    tries = max(1, all_kills // 4)
    hits = carry_at_random(host, host_steps, carry, ringlist, examples, folder, tries, unit)
    print("kill_test: %d runs of the program that carries, %d of them killed at random moments: the old or the "
          "new state" % (tries, hits), flush=True)
    total = [0, 0, 0, 0]
    for name, budget, kills, longest in PLAN:
        sheet = os.path.join(examples, name + ".sheet")
        listing = Listing(host, sheet, folder, budget)
        begin = time.time()
        counts = one_listing(listing, max(1, round(kills * all_kills / 240)), longest * unit,
                             listed(ringlist, sheet), rng)
        print("%-21s budget %8d: %4d kills, %4d after a finished slice, %4d within one, "
              "%3d listings, %6.1f s"
              % ((name, budget) + counts + (time.time() - begin,)), flush=True)
        total = [a + b for a, b in zip(total, counts)]
    print("kill_test: %d kills of a running host, %d of them after a slice that it finished, %d that "
          "left output or a temporary file of an unfinished one; %d whole listings, all as ringlist's"
          % tuple(total))


if __name__ == "__main__":
    main()
