#!/usr/bin/env python3
"""Measures the built `james`: makes folders of mails, runs `james run` in them, and prints what it took.

Shapes:
  small       N mails with bodies of BYTES: mails per second, MB/s of mail files, peak memory, the time against
              that of one `cat` over the same files, and the time at 10 N mails against that at N, beside cat's
  large       one mail file of 16 MiB: peak memory above that of an empty run, as a multiple of the file's size
  rate        200 mail files of 1 MB: MB/s, beside cat's
  heads       mails with long heads, 200 of each kind: one field of 65,000 bytes, 13,000 fields, and one field with
              thousands of continuation lines; the time of each against that of mails of the same length with a short
              head
  recipients  mails with bodies of BYTES and 1 or 500 recipients, 200 of each, and 1 recipient at the file length of
              those with 500: the time of each against that of the first
  hops        20 mails of BYTES that loop through 100 hops, and through 1,000: the time of a mail against that at 100
  processors  N / 10 and N mails that go through three processors: the time against that of N / 10
  matching    each against the first of its pair: 20 mails of 500 recipients through `RecipientIs` with 1 and with 100
              addresses; N mails through `RecipientIsLocal` with 1 and with 50,000 local users, and through `HostIsLocal`
              with 1 and with 10,000 local hosts, each above an empty run of its configuration; N mails through 100
              matchers of one condition and through one of 100, each above N mails through `All`; 20 mails with a head
              of 60,000 bytes that are split by 100 steps for 100 recipients, and by 200 for 200; 20 mails with such a
              head through one step that takes all and lets them go on, and through 100; N mails through `All`, and
              through three processors of five steps; one mail of 500 recipients at 500 domains, with 16,000 fields,
              through 199 matchers of 100 conditions inside 16 composites
  mailets     each against the first of its pair: 100 mails of 500 recipients through 10 and 1,000 rows of rewriting, each
              above an empty run of its configuration; 1,000 mails with a head of 50,000 bytes to which one step appends a
              field, and 100, and 100 mails of 13,000 fields from which it removes one name, and 100, each above the same
              mails without; 100 notices about 1 recipient, and about 500; N mails through `All`, and through ten mailets
  remote      each against the first of its pair: N mails to a remote host, where the table of answers has 10 rows or 10,000,
              whose first row fits, or the last, or none, each above an empty run of its table; 10 mails that are tried
              11 times, and 101 times; 20 mails to one recipient, and to 500 at 500 hosts; N and 10 N mails to a local, a
              remote and an unknown recipient; and a table of 1 MB, above an empty run, against what `toml` alone takes
  plan        a configuration of 1 MB in many steps, and one in many rows of `[[rewrite]]`, with no mail: the time above
              that of an empty run, against what `toml` alone takes for the same bytes, and the peak memory above that
              of an empty run
  queue       a due queue that is filled with 1,000,000 pairs, the latest first, and emptied: the time above that of ten
              pairs, against that of 100,000, and the peak memory a pair
  log         payloads of 200, 4,096 and 65,536 bytes that are added to a log, one by one and in groups of 64: the time of a
              payload, against that of bench/append.c, which makes the same writes and syncs. In memory (/dev/shm): the
              user time of an append of 200 bytes; the time to open a log of 1,000,000 payloads of 200 bytes against
              that of 100,000, and the reads and the peak memory a payload; and the time to open one of payloads of
              65,536 bytes against cat's
  records     an entry of a journal that is written many times, and one that is read many times, each above a run that makes
              the entry alone: the GB/s of one with a body of 16 MiB; and written, read and both together, each against
              the first of its pair: one with a head of one field, and with 13,000 fields of the same length; one with 1
              recipient, and with 500

A round runs every folder of a shape once, one after the other, so that what slows the machine for a while slows them
alike. Each time is the wall clock's, the best of the rounds; each ratio is the median of the rounds' own. The files are
in the page cache, and a run begins with nothing but `conf` and `mails` in its folder. Peak memory is the worst round's
ru_maxrss; it can't be told below that of the shell that starts the program (about 1 MiB). MB are 1,000,000 bytes. An
empty run has a folder without mails. `cat` is started by `xargs -0`, which takes several of them for more than some ten
thousand files. `toml` alone is the program of crates/toml_yardstick, which reads the file and parses it; the queue's is that
of crates/ready_bench, the log's that of crates/log_bench, the records' that of crates/record_bench. The C compiler `cc` makes
the log's yardstick.

The status is 1 where a run doesn't end with status 0, doesn't report one line a mail, or refuses a mail. Linux only.
By default some 500 MB are needed in the temporary directory (TMPDIR says where), which `log` wants on a disk, and 600 MB in
/dev/shm for `log`.
"""

import argparse
import ctypes
import os
import shutil
import signal
import statistics
import subprocess
import sys
import tempfile
import time
from pathlib import Path
from typing import NamedTuple

CONFIGURATION = """\
[spool]
host_name = "mx.example.org"
postmaster = "postmaster@example.org"
local_hosts = ["example.org"]
local_users = ["ann", "bob", "postmaster"]
start = "2024-01-01T00:00:00Z"

[[processor]]
name = "root"
[[processor.step]]
match = "All"
class = "ToRepository"
repositoryPath = "file://var/mail/in"

[[processor]]
name = "error"
"""

# What stands before the processors.
SPOOL = CONFIGURATION[: CONFIGURATION.index("[[processor]]")]


def processor(name, *steps):
    """A processor whose steps match all; a step is its lines behind `match`."""
    tables = "".join(f'[[processor.step]]\nmatch = "All"\n{step}\n' for step in steps)
    return f'[[processor]]\nname = "{name}"\n{tables}'


def to_processor(name):
    return f'class = "ToProcessor"\nprocessor = "{name}"'


TO_REPOSITORY = 'class = "ToRepository"\nrepositoryPath = "file://var/mail/in"'

# A mail goes from `root` to `root` again.
LOOP = processor("root", to_processor("root")) + processor("error")

# A mail goes through three processors to a repository.
CHAIN = (processor("root", to_processor("second")) + processor("second", to_processor("third"))
         + processor("third", TO_REPOSITORY) + processor("error"))



def matched(*steps):
    """Steps of a matcher, as TOML, and the lines behind it."""
    return "".join(f"[[processor.step]]\nmatch = {matcher}\n{lines}\n" for matcher, lines in steps)


def root(*steps):
    return '[[processor]]\nname = "root"\n' + matched(*steps)


def spool_of(hosts=("example.net",), users=("bob0",)):
    """The table `[spool]` with these local hosts and users."""
    quoted = [", ".join(f'"{name}"' for name in names) for names in (hosts, users)]
    lines = SPOOL.replace('["example.org"]', f"[{quoted[0]}]")
    return lines.replace('["ann", "bob", "postmaster"]', f"[{quoted[1]}]")


# A mail goes through three processors; at each the last of five steps takes it.
PASSED = [(f'"HasHeader=X-{number}"', TO_REPOSITORY) for number in range(4)]
FIVE_EACH = (root(*PASSED, ('"All"', to_processor("second")))
             + '[[processor]]\nname = "second"\n' + matched(*PASSED, ('"All"', to_processor("third")))
             + '[[processor]]\nname = "third"\n' + matched(*PASSED, ('"All"', TO_REPOSITORY)) + processor("error"))

# A mail is marked, changed and rewritten by nine mailets, and delivered by the tenth.
MARKED = [
    'class = "RemoveMimeHeader"\nname = "X-Seen, X-Level"',
    'class = "SetMailAttribute"\nattributes = { seen = "yes", level = "3" }',
    'class = "SetMimeHeader"\nname = "X-Site"\nvalue = "mx.example.org"',
    'class = "MailAttributesToMimeHeaders"\nsimplemapping = ["seen;X-Seen", "level;X-Level"]',
    'class = "AddSubjectPrefix"\nsubjectPrefix = "[example]"',
    'class = "RemoveMailAttribute"\nname = "level"',
    'class = "RecipientToLowerCase"',
    'class = "PostmasterAlias"',
    'class = "RecipientRewriteTable"',
    'class = "LocalDelivery"',
]


def mappings(count):
    """So many rows of rewriting, of which the last is of the domain of all recipients."""
    rows = "".join(f'[[rewrite]]\nfrom = "alias{number}@example.net"\nto = ["bob@example.org"]\n' for number in range(count - 1))
    return rows + '[[rewrite]]\ndomain = "example.net"\nto_domain = "example.org"\n'


# Local mail is delivered, mail for other hosts is sent, and what nobody is to get is kept.
TRANSPORT = (root(('"All"', to_processor("transport")))
             + '[[processor]]\nname = "transport"\n'
             + matched(('"RecipientIsLocal"', 'class = "LocalDelivery"'), ('"HostIsLocal"', to_processor("error")),
                       ('"All"', 'class = "RemoteDelivery"\ndelayTime = "2*5 minutes, 1 hour"\nmaxRetries = 5'))
             + processor("error", 'class = "ToRepository"\nrepositoryPath = "file://var/mail/error"'))


def sending(retries=5):
    """All mail is sent to its recipients' hosts."""
    return SPOOL + processor("root", f'class = "RemoteDelivery"\nmaxRetries = {retries}') + processor("error")


def answer(reply, **keys):
    """A row of the table of answers."""
    return "[[answer]]\n" + "".join(f'{key} = "{value}"\n' for key, value in keys.items()) + f'reply = "{reply}"\n'


def tables_of_answers():
    """Tables of 10 and 10,000 rows, of which the first fits, or the last, or none."""
    fits = answer("250 taken", recipient="bob0@example.net")
    others = {count: "".join(answer("250 taken", recipient=f"u{number}@example.net") for number in range(count))
              for count in (9, 10, 9_999, 10_000)}
    return {"the first fits": (fits + others[9], fits + others[9_999]), "the last fits": (others[9] + fits, others[9_999] + fits),
            "none fits": (others[10], others[10_000])}


CRATES = Path(__file__).resolve().parents[1] / "crates"
PROGRAM = CRATES / "james_cli/out/james_cli"
YARDSTICK = CRATES / "toml_yardstick/out/toml_yardstick"
QUEUE = CRATES / "ready_bench/out/ready_bench"
LOG = CRATES / "log_bench/out/log_bench"
RECORDS = CRATES / "record_bench/out/record_bench"
APPEND = Path(__file__).resolve().parent / "append.c"
IN_MEMORY = Path("/dev/shm")
SHAPES = ("small", "large", "rate", "heads", "recipients", "hops", "processors", "matching", "mailets", "remote", "plan", "queue", "log",
          "records")

MAX_FILE = 16_777_216
LONG_HEAD = 65_000
COPIES = 200
SHORT_HEAD = b"Subject: hi\r\n"

# The shell tells the number of a process that will become the program, and ends; this process then adopts that one,
# lets it go on by closing its input, and waits for it. Were the program started from here directly, Linux would count
# the memory of this process into the program's ru_maxrss.
START_PROGRAM = 'exec 3<&0; output=$1; shift; { read go <&3; exec "$@" 3<&-; } > "$output" & echo $!'
PR_SET_CHILD_SUBREAPER = 36


class Fault(Exception):
    """A run did not do what every figure rests on."""


class Run(NamedTuple):
    seconds: float
    peak: int  # KiB
    user: float = 0  # seconds of the processor outside the system
    system: float = 0  # seconds of the processor in the system
    reads: int = 0  # calls that read


# ---- Mails


def envelope(recipients=1):
    lines = [f"RCPT TO:<bob{number}@example.net>\r\n" for number in range(recipients)]
    return f"MAIL FROM:<ann@example.org>\r\n{''.join(lines)}DATA\r\n".encode()


def mail_to(*recipients, sender="ann@example.org", body_size=1000):
    lines = "".join(f"RCPT TO:<{recipient}>\r\n" for recipient in recipients)
    return f"MAIL FROM:<{sender}>\r\n{lines}DATA\r\n".encode() + SHORT_HEAD + b"\r\n" + body(body_size)


def body(size):
    """A body of so many bytes, in lines of 78 and their ends."""
    line = b"x" * 78 + b"\r\n"
    return (line * (size // len(line) + 1))[:size]


def mail(head=SHORT_HEAD, recipients=1, body_size=1000):
    return envelope(recipients) + head + b"\r\n" + body(body_size)


def mail_of_size(size, head=SHORT_HEAD, recipients=1):
    """A mail whose file has so many bytes."""
    return mail(head, recipients, size - len(mail(head, recipients, 0)))


def long_heads():
    """Heads of the same length: one long field, many fields, many continuation lines."""
    return {
        "one field": b"X: " + b"x" * (LONG_HEAD - 5) + b"\r\n",
        "13,000 fields": b"X:x\r\n" * (LONG_HEAD // 5),
        "continuation lines": b"X:\r\n" + b" x\r\n" * (LONG_HEAD // 4 - 1),
    }


def long_configurations():
    """Configurations of about 1 MB: 100 processors of 140 steps each, and rows of 90 targets each."""
    names = ["root", "error"] + [f"p{number}" for number in range(2, 100)]
    processors = "".join(processor(name, *[to_processor("p99")] * 140) for name in names)
    targets = ", ".join(f'"u{number}@example.net"' for number in range(90))
    rows = "".join(f'[[rewrite]]\nfrom = "a{number}@example.org"\nto = [{targets}]\n' for number in range(560))
    return {"many steps": SPOOL + processors, "many targets": SPOOL + rows + CHAIN}


# ---- Runs


def adopt_orphans():
    """Makes this process the parent of what its children leave behind."""
    if not sys.platform.startswith("linux"):
        raise Fault("needs Linux")
    if ctypes.CDLL(None).prctl(PR_SET_CHILD_SUBREAPER, 1, 0, 0, 0) != 0:
        raise Fault("prctl failed")


def wait_for(process):
    """Waits for the end of a process, which doesn't outlive an interrupt."""
    try:
        os.waitid(os.P_PID, process, os.WEXITED | os.WNOWAIT)
    except KeyboardInterrupt:
        os.kill(process, signal.SIGKILL)
        raise


def reads_of(process):
    """How often a process that has ended called to read."""
    fields = dict(line.split(": ") for line in Path(f"/proc/{process}/io").read_text().splitlines())
    return int(fields["syscr"])


def run_program(program, words, output, folder):
    """Runs a program with words in a folder, its output to a file; its exit status, and what it took."""
    command = ["sh", "-c", START_PROGRAM, "sh", output, program, *words]
    pipe = subprocess.PIPE
    with subprocess.Popen(command, cwd=folder, stdin=pipe, stdout=pipe) as shell:
        process = int(shell.stdout.read())
        shell.wait()
        start = time.perf_counter()
        shell.stdin.close()
        wait_for(process)
        seconds = time.perf_counter() - start
        reads = reads_of(process)
        _, status, usage = os.wait4(process, 0)
        return os.waitstatus_to_exitcode(status), Run(seconds, usage.ru_maxrss, usage.ru_utime, usage.ru_stime, reads)


class Folder:
    """A folder to run a program in, which is `james` if no other is given: `conf`, `mails`, and what it makes of them."""

    def __init__(self, bench, name, configuration=CONFIGURATION, program=None, answers=None):
        self.bench = bench
        self.program = program or bench.james
        self.path = bench.root / name
        self.mails = self.path / "mails"
        self.report = bench.root / f"{name}.report"
        self.count = 0
        self.size = 0
        self.lines_each = 1  # lines of the report for a mail
        self.mails.mkdir(parents=True)
        (self.path / "conf").mkdir()
        (self.path / "conf/mailetcontainer.toml").write_text(configuration)
        if answers is not None:
            (self.path / "conf/answers.toml").write_text(answers)

    def add(self, count, content):
        """Adds so many mails with this content."""
        for number in range(self.count, self.count + count):
            (self.mails / f"{number:08}.mail").write_bytes(content)
        self.count += count
        self.size += count * len(content)

    def read_all(self):
        """The time in which `cat` reads the mails. It leaves them in the page cache."""
        names = "".join(f"{name}\0" for name in sorted(os.listdir(self.mails))).encode()
        command = ["xargs", "-0", "-s", "1000000", "cat"]
        start = time.perf_counter()
        subprocess.run(command, cwd=self.mails, input=names, stdout=subprocess.DEVNULL, check=True)
        return time.perf_counter() - start

    def run_once(self):
        self.clear()
        status, run = run_program(self.program, ["run"], self.report, self.path)
        self.check(status)
        return run

    def cat_once(self):
        return Run(self.read_all(), 0)

    def clear(self):
        """Removes what earlier runs left."""
        for path in self.path.iterdir():
            if path.is_dir() and path.name not in ("conf", "mails"):
                shutil.rmtree(path)
            elif not path.is_dir():
                path.unlink()

    def check(self, status):
        text = self.report.read_bytes()
        lines = text.count(b"\n")
        refused = (b"\n" + text).count(b"\nrefused ")
        first = text.split(b"\n", 1)[0].decode(errors="replace")
        if status != 0 or lines != self.lines_each * self.count or refused:
            raise Fault(f"{self.path.name}: status {status}, {lines} lines for {self.count} mails, "
                        f"{refused} refused; the first line is: {first[:200]}")

    def remove(self):
        if not self.bench.keep:
            shutil.rmtree(self.path)
            self.report.unlink()


# ---- Figures


def row(label, *values):
    print(f"  {label:<34}" + "".join(f"{value:>18}" for value in values), flush=True)


def title(text, *columns):
    print(f"\n{text:<36}" + "".join(f"{column:>18}" for column in columns), flush=True)


def times(ratio):
    return f"{ratio:.2f} x"


def rounds_of(count, *runs):
    """What each of these runs took in each round, where a round makes all of them in turn."""
    return [[run() for run in runs] for _ in range(count)]


def best(rounds, run):
    """The best times, the worst peak and the most reads of a run."""
    taken = [each[run] for each in rounds]
    return Run(min(each.seconds for each in taken), max(each.peak for each in taken), min(each.user for each in taken),
               min(each.system for each in taken), max(each.reads for each in taken))


def ratio(rounds, run, by, above=None):
    """The median over the rounds of a run's time by another's, each above that of an empty run where two are given."""
    empty, empty_by = above or (None, None)

    def seconds(each, at, without):
        return each[at].seconds - (0 if without is None else each[without].seconds)

    return statistics.median(seconds(each, run, empty) / seconds(each, by, empty_by) for each in rounds)


def cat_file(file):
    """The time in which `cat` reads a file."""
    start = time.perf_counter()
    subprocess.run(["cat", file], stdout=subprocess.DEVNULL, check=True)
    return Run(time.perf_counter() - start, 0)


class Bench:
    def __init__(self, given, root):
        self.james = given.james.resolve()
        self.yardstick = given.yardstick.resolve()
        self.ready = given.queue.resolve()
        self.log_program = given.log.resolve()
        self.record_program = given.records.resolve()
        self.rounds = given.rounds
        self.keep = given.keep
        self.mails = given.mails
        self.body_size = given.size
        self.root = root
        self.empty = Run(0, 0)

    def folder(self, name, content=b"", count=0, configuration=CONFIGURATION, program=None, answers=None):
        """A folder with so many mails of this content, which are in the page cache."""
        folder = Folder(self, name.replace(" ", "-"), configuration, program, answers)
        folder.add(count, content)
        folder.read_all()
        return folder

    def measure(self, *runs):
        return rounds_of(self.rounds, *runs)

    def measure_empty(self):
        folder = self.folder("empty")
        self.empty = best(self.measure(folder.run_once), 0)
        folder.remove()
        title("empty run")
        row("time", f"{self.empty.seconds * 1000:.1f} ms")
        row("peak memory", f"{self.empty.peak:,} KiB")

    def above_empty(self, run):
        return run.peak - self.empty.peak

    def row_peak(self, run):
        row("peak memory", f"{run.peak:,} KiB")
        row("  above the empty run", f"{self.above_empty(run):,} KiB")

    def row_rate(self, folder, rounds):
        """The rates of the rounds whose first run is the program's and whose second is cat's."""
        run, cat = best(rounds, 0), best(rounds, 1)
        row("MB/s of mail files", f"{folder.size / run.seconds / 1e6:,.1f}")
        row("  cat's", f"{folder.size / cat.seconds / 1e6:,.1f}")
        row("time against cat", times(ratio(rounds, 0, 1)))

    def small(self):
        content = mail(body_size=self.body_size)
        few = self.folder("small", content, self.mails)
        many = self.folder("small by ten", content, 10 * self.mails)
        rounds = self.measure(few.run_once, few.cat_once, many.run_once, many.cat_once)
        run = best(rounds, 0)
        title(f"small: {self.mails:,} mails, bodies of {self.body_size:,} bytes")
        row("mails per second", f"{self.mails / run.seconds:,.0f}")
        self.row_rate(few, rounds)
        self.row_peak(run)
        row(f"time at {10 * self.mails:,} mails against this", times(ratio(rounds, 2, 0)))
        row("  cat's", times(ratio(rounds, 3, 1)))
        few.remove()
        many.remove()

    def large(self):
        folder = self.folder("large", mail_of_size(MAX_FILE), 1)
        rounds = self.measure(folder.run_once, folder.cat_once)
        run = best(rounds, 0)
        title("large: one mail file of 16 MiB")
        self.row_rate(folder, rounds)
        self.row_peak(run)
        row("  as a multiple of the file's size", times(self.above_empty(run) * 1024 / MAX_FILE))
        folder.remove()

    def rate(self):
        folder = self.folder("rate", mail_of_size(1_000_000), 200)
        rounds = self.measure(folder.run_once, folder.cat_once)
        title("rate: 200 mail files of 1 MB")
        self.row_rate(folder, rounds)
        self.row_peak(best(rounds, 0))
        folder.remove()

    def compare(self, mails, heading, columns, cells):
        """Prints for copies of each mail their time, and that against the first's. `cells` tells more of a mail."""
        folders = {name: self.folder(name, content, COPIES) for name, content in mails.items()}
        rounds = self.measure(*[folder.run_once for folder in folders.values()])
        title(heading, *columns, "time", f"by {next(iter(mails))}")
        for at, (name, folder) in enumerate(folders.items()):
            row(name, *cells(mails[name]), f"{best(rounds, at).seconds:.3f} s", times(ratio(rounds, at, 0)))
            folder.remove()

    def heads(self):
        mails = {name: mail(head) for name, head in long_heads().items()}
        size = len(mails["one field"])
        mails = {"short head": mail_of_size(size), **mails}
        self.compare(mails, f"heads: {COPIES} mails of {size:,} bytes", (), lambda _: ())

    def recipients(self):
        many = mail(recipients=500, body_size=self.body_size)
        mails = {
            "1 recipient": mail(body_size=self.body_size),
            "1 recipient, long body": mail_of_size(len(many)),
            "500 recipients": many,
        }
        heading = f"recipients: {COPIES} mails of each"
        self.compare(mails, heading, ("file length",), lambda content: (f"{len(content):,}",))

    def hops(self):
        counts = (100, 1_000)
        content = mail(body_size=self.body_size)
        folders = [self.folder("empty")]
        folders += [self.folder(f"hops {hops}", content, 20, f"{SPOOL}max_hops = {hops}\n{LOOP}") for hops in counts]
        rounds = self.measure(*[folder.run_once for folder in folders])
        title("hops: 20 mails that loop", "a mail", "by 100 hops")
        for at, hops in enumerate(counts, 1):
            seconds = (best(rounds, at).seconds - best(rounds, 0).seconds) / 20
            row(f"{hops:,} hops", f"{seconds * 1e6:,.1f} us", times(ratio(rounds, at, 1, above=(0, 0))))
        for folder in folders:
            folder.remove()

    def processors(self):
        content = mail(body_size=self.body_size)
        counts = (max(self.mails // 10, 1), self.mails)
        folders = [self.folder(f"processors {count}", content, count, SPOOL + CHAIN) for count in counts]
        rounds = self.measure(*[folder.run_once for folder in folders])
        title("processors: mails through three processors", "time", "by the first")
        for at, folder in enumerate(folders):
            row(f"{folder.count:,} mails", f"{best(rounds, at).seconds:.3f} s", times(ratio(rounds, at, 0)))
            folder.remove()

    def matching(self):
        title("matching", "time", "by the first")
        self.listed_addresses()
        hosts = [f"h{number}.test" for number in range(9_999)] + ["example.net"]
        users = [f"user{number}" for number in range(49_999)] + ["bob0"]
        self.local("RecipientIsLocal", "local users", {1: spool_of(), 50_000: spool_of(users=users)})
        self.local("HostIsLocal", "local hosts", {1: spool_of(), 10_000: spool_of(hosts=hosts)})
        self.conditions()
        self.splits()
        self.takes_all()
        self.five_steps()
        self.worst()

    def row_pair(self, names, rounds, above=(None, None)):
        """A row for each of two runs: the first two of the rounds, or what they take above the next two."""
        for at, name in enumerate(names):
            empty = above[at]
            seconds = best(rounds, at).seconds - (0 if empty is None else best(rounds, empty).seconds)
            pair = None if above[0] is None else (above[at], above[0])
            row(name, f"{seconds * 1000:.1f} ms", times(ratio(rounds, at, 0, above=pair)))

    def listed_addresses(self):
        content = mail(recipients=500, body_size=self.body_size)
        folders = []
        for count in (1, 100):
            addresses = ",".join(f"bob{number}@example.net" for number in range(count))
            steps = root((f'"RecipientIs={addresses}"', TO_REPOSITORY), ('"All"', TO_REPOSITORY))
            folders.append(self.folder(f"addresses {count}", content, 20, SPOOL + steps + processor("error")))
            folders[-1].lines_each = 2
        rounds = self.measure(*[folder.run_once for folder in folders])
        self.row_pair(("RecipientIs, 1 address", "RecipientIs, 100 addresses"), rounds)
        for folder in folders:
            folder.remove()

    def local(self, matcher, what, spools):
        content = mail(body_size=self.body_size)
        steps = root((f'"{matcher}"', TO_REPOSITORY)) + processor("error")
        full = [self.folder(f"{matcher} {count}", content, self.mails, spool + steps) for count, spool in spools.items()]
        empty = [self.folder(f"{matcher} {count} empty", configuration=spool + steps) for count, spool in spools.items()]
        rounds = self.measure(*[folder.run_once for folder in full + empty])
        self.row_pair([f"{matcher}, {count:,} {what}" for count in spools], rounds, above=(2, 3))
        for folder in full + empty:
            folder.remove()

    def conditions(self):
        """100 steps of one condition, and one step of 100, above a step with `All` alone."""
        content = mail(body_size=self.body_size)
        names = [f'"HasHeader=X-{number}"' for number in range(100)]
        last = ('"All"', TO_REPOSITORY)
        configurations = {
            "100 matchers of one condition": root(*[(name, TO_REPOSITORY) for name in names], last),
            "a matcher of 100 conditions": root((f"{{ Or = [{', '.join(names)}] }}", TO_REPOSITORY), last),
            "All": root(last),
        }
        folders = [self.folder(name, content, self.mails, SPOOL + steps + processor("error"))
                   for name, steps in configurations.items()]
        rounds = self.measure(*[folder.run_once for folder in folders])
        self.row_pair(list(configurations)[:2], rounds, above=(2, 2))
        for folder in folders:
            folder.remove()

    def splits(self):
        """Each step takes one recipient of a mail with a head of 60,000 bytes."""
        folders = []
        for count in (100, 200):
            steps = root(*[(f'"UserIs=bob{number}"', TO_REPOSITORY) for number in range(count)])
            content = mail(b"X: " + b"x" * 59_995 + b"\r\n", count, self.body_size)
            folders.append(self.folder(f"splits {count}", content, 20, SPOOL + steps + processor("error")))
            folders[-1].lines_each = count
        rounds = self.measure(*[folder.run_once for folder in folders])
        self.row_pair(("100 steps, 100 recipients", "200 steps, 200 recipients"), rounds)
        for folder in folders:
            folder.remove()

    def takes_all(self):
        """Where all recipients are taken, no head is copied."""
        content = mail(b"X: " + b"x" * 59_995 + b"\r\n", 3, self.body_size)
        goes_on = ('"All"', 'class = "Fail"\nonMailetException = "ignore"')
        folders = [self.folder(f"takes all {count}", content, 20,
                               SPOOL + root(*[goes_on] * count, ('"All"', TO_REPOSITORY)) + processor("error"))
                   for count in (1, 100)]
        rounds = self.measure(*[folder.run_once for folder in folders])
        self.row_pair(("1 step takes all, a long head", "100 steps take all"), rounds)
        for folder in folders:
            folder.remove()

    def worst(self):
        """Each condition looks for a field that isn't there, and none holds."""
        matcher = ", ".join([f'"CompareNumericHeaderValue=Y-{number} > 5"' for number in range(99)] + ['"HostIs=none.test"'])
        for _ in range(16):
            matcher = f"{{ Or = [{matcher}] }}"
        lines = [f"RCPT TO:<bob@host{number}.test>\r\n" for number in range(500)]
        content = f"MAIL FROM:<>\r\n{''.join(lines)}DATA\r\n".encode() + b"X:\r\n" * 16_000 + b"\r\n"
        steps = root(*[(matcher, TO_REPOSITORY)] * 199, ('"All"', TO_REPOSITORY))
        folder = self.folder("worst", content, 1, SPOOL + steps + processor("error"))
        rounds = rounds_of(1, folder.run_once)
        row("one mail, 20,000 conditions", f"{best(rounds, 0).seconds * 1000:.1f} ms")
        folder.remove()

    def five_steps(self):
        content = mail(body_size=self.body_size)
        configurations = {"All": CONFIGURATION, "three processors of five steps": SPOOL + FIVE_EACH}
        folders = [self.folder(name, content, self.mails, text) for name, text in configurations.items()]
        rounds = self.measure(*[folder.run_once for folder in folders])
        self.row_pair([f"{self.mails:,} mails, {name}" for name in configurations], rounds)
        for folder in folders:
            folder.remove()

    def mailets(self):
        title("mailets", "time", "by the first")
        self.mapped()
        self.added_fields()
        self.removed_fields()
        self.notices()
        self.ten_mailets()

    def mapped(self):
        """The reading of the configuration is taken off."""
        content = mail(recipients=500, body_size=self.body_size)
        tables = {count: SPOOL + mappings(count) + processor("root", 'class = "RecipientRewriteTable"', TO_REPOSITORY)
                  + processor("error") for count in (10, 1_000)}
        full = [self.folder(f"mapped {count}", content, 100, table) for count, table in tables.items()]
        empty = [self.folder(f"mapped {count} empty", configuration=table) for count, table in tables.items()]
        rounds = self.measure(*[folder.run_once for folder in full + empty])
        self.row_pair([f"500 recipients, {count:,} mappings" for count in tables], rounds, above=(2, 3))
        for folder in full + empty:
            folder.remove()

    def above_plain(self, names, count, content, plain, *changed):
        """So many mails whose head is changed, above the same mails with the plain steps."""
        folders = [self.folder(name, content, count, SPOOL + processor("root", *steps, TO_REPOSITORY) + processor("error"))
                   for name, steps in zip((*names, "plain"), (*changed, plain))]
        rounds = self.measure(*[folder.run_once for folder in folders])
        self.row_pair(names, rounds, above=(2, 2))
        for folder in folders:
            folder.remove()

    def added_fields(self):
        content = mail(b"X: " + b"x" * 49_995 + b"\r\n", body_size=self.body_size)
        marked = 'class = "SetMailAttribute"\nattributes = { a = "1" }'
        pairs = [f'"a;X-{number}"' for number in range(100)]
        changed = [(marked, f'class = "MailAttributesToMimeHeaders"\nsimplemapping = [{", ".join(pairs[:count])}]')
                   for count in (1, 100)]
        self.above_plain(("1 field added to 50 kB", "100 fields added to 50 kB"), 1_000, content, (marked,), *changed)

    def removed_fields(self):
        content = mail(b"X:\r\n" * 13_000, body_size=self.body_size)
        names = [f"Y-{number}" for number in range(100)]
        changed = [(f'class = "RemoveMimeHeader"\nname = "{",".join(names[:count])}"',) for count in (1, 100)]
        self.above_plain(("1 name removed, 13,000 fields", "100 names removed, 13,000 fields"), 100, content, (), *changed)

    def notices(self):
        """A notice has a null sender, and is kept."""
        steps = root(('"SenderIsNull"', TO_REPOSITORY), ('"All"', 'class = "Bounce"\npassThrough = false'))
        folders = []
        for count in (1, 500):
            content = mail(recipients=count, body_size=self.body_size)
            folders.append(self.folder(f"notices {count}", content, 100, SPOOL + steps + processor("error")))
            folders[-1].lines_each = 2
        rounds = self.measure(*[folder.run_once for folder in folders])
        self.row_pair(("notices about 1 recipient", "notices about 500 recipients"), rounds)
        for folder in folders:
            folder.remove()

    def ten_mailets(self):
        content = mail(body_size=self.body_size)
        configurations = {"All": CONFIGURATION,
                          "ten mailets": SPOOL + mappings(10) + processor("root", *MARKED) + processor("error")}
        folders = [self.folder(name, content, self.mails, text) for name, text in configurations.items()]
        rounds = self.measure(*[folder.run_once for folder in folders])
        self.row_pair([f"{self.mails:,} mails, {name}" for name in configurations], rounds)
        for folder in folders:
            folder.remove()

    def remote(self):
        title("remote", "time", "by the first")
        for name, tables in tables_of_answers().items():
            self.answered(name, tables)
        self.tried()
        self.many_hosts()
        self.three_ways()
        self.long_table()

    def answered(self, name, tables):
        """The reading of the table is taken off."""
        content = mail(body_size=self.body_size)
        full = [self.folder(f"answered {at}", content, self.mails, sending(), answers=table) for at, table in enumerate(tables)]
        empty = [self.folder(f"answered {at} empty", configuration=sending(), answers=table) for at, table in enumerate(tables)]
        rounds = self.measure(*[folder.run_once for folder in full + empty])
        self.row_pair([f"{rows:,} rows, {name}" for rows in (10, 10_000)], rounds, above=(2, 3))
        for folder in full + empty:
            folder.remove()

    def tried(self):
        """Each mail has a null sender, is put off each time, and is dropped in the end."""
        folders = []
        for retries in (10, 100):
            folder = self.folder(f"tried {retries}", mail_to("bob@example.net", sender=""), 10, sending(retries), answers=answer("450 busy"))
            folder.lines_each = retries + 1
            folders.append(folder)
        rounds = self.measure(*[folder.run_once for folder in folders])
        self.row_pair(("10 mails tried 11 times", "10 mails tried 101 times"), rounds)
        for folder in folders:
            folder.remove()

    def many_hosts(self):
        folders = []
        for count in (1, 500):
            content = mail_to(*[f"bob@host{number}.example.net" for number in range(count)], body_size=self.body_size)
            folders.append(self.folder(f"hosts {count}", content, 20, sending()))
            folders[-1].lines_each = count
        rounds = self.measure(*[folder.run_once for folder in folders])
        self.row_pair(("20 mails to one host", "20 mails to 500 hosts"), rounds)
        for folder in folders:
            folder.remove()

    def three_ways(self):
        content = mail_to("ann@example.org", "dan@example.net", "zoe@example.org", sender="cara@example.net", body_size=self.body_size)
        folders = []
        for count in (self.mails, 10 * self.mails):
            folders.append(self.folder(f"three ways {count}", content, count, SPOOL + TRANSPORT))
            folders[-1].lines_each = 3
        rounds = self.measure(*[folder.run_once for folder in folders])
        self.row_pair([f"{folder.count:,} mails, three recipients" for folder in folders], rounds)
        run, count = best(rounds, 1), folders[1].count
        row("  processor time of a mail", f"{(run.user + run.system) / count * 1000:.4f} ms",
            f"of it in the system {run.system / count * 1000:.4f} ms")
        for folder in folders:
            folder.remove()

    def long_table(self):
        """The table is read by `james` beside a small configuration, and by the yardstick alone."""
        table = "".join(answer(f"250 taken {number:05} " + "x" * 22, recipient=f"u{number}@host{number}.example.net")
                        for number in range(9_900))
        folders = [self.folder("table", configuration=sending(), answers=table), self.folder("table empty", configuration=sending()),
                   self.folder("table toml", configuration=table, program=self.yardstick),
                   self.folder("table toml empty", configuration=sending(), program=self.yardstick)]
        rounds = self.measure(*[folder.run_once for folder in folders])
        empty, run = best(rounds, 1), best(rounds, 0)
        title("remote: a table of answers", "bytes", "time", "by toml alone", "memory")
        row("9,900 rows", f"{len(table):,}", f"{(run.seconds - empty.seconds) * 1000:.1f} ms",
            times(ratio(rounds, 0, 2, above=(1, 3))), f"{run.peak - empty.peak:,} KiB")
        for folder in folders:
            folder.remove()

    def plan(self):
        """Each configuration is read by `james` and by the yardstick, beside an empty run of both."""
        configurations = {"": CONFIGURATION, **long_configurations()}
        programs = {"james": self.james, "toml": self.yardstick}
        folders = [self.folder(f"{program} {name}", configuration=configuration, program=path)
                   for name, configuration in configurations.items() for program, path in programs.items()]
        rounds = self.measure(*[folder.run_once for folder in folders])
        empty = best(rounds, 0)
        title("plan: a configuration of about 1 MB", "bytes", "time", "by toml alone", "memory")
        for at, name in enumerate(configurations):
            if name:
                run = best(rounds, 2 * at)
                row(name, f"{len(configurations[name]):,}", f"{(run.seconds - empty.seconds) * 1000:.1f} ms",
                    times(ratio(rounds, 2 * at, 2 * at + 1, above=(0, 1))), f"{run.peak - empty.peak:,} KiB")
        for folder in folders:
            folder.remove()

    def queue(self):
        """The due queue is filled, the latest pair first, and emptied, beside one of ten pairs."""
        counts = (10, 100_000, 1_000_000)
        rounds = self.measure(*[lambda count=count: self.queue_once(count) for count in counts])
        title("queue: pairs added and taken in order", "time", "by 100,000", "bytes a pair")
        small = best(rounds, 0)
        for at, count in list(enumerate(counts))[1:]:
            run = best(rounds, at)
            row(f"{count:,} pairs", f"{run.seconds * 1000:.1f} ms", times(ratio(rounds, at, 1, above=(0, 0))),
                f"{(run.peak - small.peak) * 1024 / count:.1f}")

    def queue_once(self, count):
        status, run = run_program(self.ready, [str(count)], self.root / "queue", self.root)
        if status != 0:
            raise Fault(f"the queue of {count} pairs: status {status}")
        return run

    def log(self):
        self.appends()
        with tempfile.TemporaryDirectory(prefix="james-bench-", dir=IN_MEMORY) as folder:
            self.user_time(Path(folder))
            self.opens(Path(folder))
            self.opens_by_cat(Path(folder))

    def appends(self):
        """Payloads are added to a log on a disk, one by one and in groups, beside the yardstick."""
        yardstick = self.root / "append"
        subprocess.run(["cc", "-O2", "-o", yardstick, APPEND], check=True)
        commands = [self.log_program, "append"], [yardstick]
        title("log: payloads added on a disk", "a payload", "by the yardstick")
        for length, groups in ((200, 300), (4_096, 200), (65_536, 30)):
            for count, group in ((500, 1), (groups, 64)):
                rounds = self.measure(*[lambda command=command: self.append_once(command, self.root, length, count, group)
                                        for command in commands])
                name = f"{length:,} bytes" + (f", in groups of {group}" if group > 1 else "")
                row(name, f"{best(rounds, 0).seconds / (count * group) * 1e6:,.1f} us", times(ratio(rounds, 0, 1)))

    def user_time(self, folder):
        """The user time of an append is that of many runs' above that of few."""
        few, many = 10_000, 210_000
        rounds = self.measure(*[lambda count=count: self.append_once([self.log_program, "append"], folder, 200, count, 1)
                                for count in (few, many)])
        user = statistics.median(each[1].user - each[0].user for each in rounds) / (many - few)
        title("log: appends of 200 bytes in memory")
        row("user time of an append", f"{user * 1e6:.2f} us")

    def opens(self, folder):
        """Logs of many payloads are opened."""
        counts = (50, 100_000, 1_000_000)
        files = [self.log_of(folder, 200, count // 50, 50) for count in counts]
        rounds = self.measure(*[lambda file=file: self.open_once(file) for file in files])
        title("log: opened, of 200 bytes each", "time", "by 100,000", "reads", "bytes")
        small = best(rounds, 0)
        for at, count in list(enumerate(counts))[1:]:
            run = best(rounds, at)
            row(f"{count:,} payloads", f"{run.seconds * 1000:.1f} ms", times(ratio(rounds, at, 1)),
                f"{(run.reads - small.reads) / (count - counts[0]):.2f} each",
                f"{(run.peak - small.peak) * 1024 / (count - counts[0]):.1f} each")
        for file in files:
            file.unlink()

    def opens_by_cat(self, folder):
        file = self.log_of(folder, 65_536, 40, 100)
        rounds = self.measure(lambda: self.open_once(file), lambda: cat_file(file))
        title("log: opened, 4,000 of 65,536 bytes", "time", "by cat")
        row(f"{file.stat().st_size:,} bytes", f"{best(rounds, 0).seconds * 1000:.1f} ms", times(ratio(rounds, 0, 1)))

    def log_of(self, folder, *amount):
        """A file with the log of so many payloads."""
        file = folder / "-".join(map(str, amount))
        self.run_log([self.log_program, "append", file, *amount])
        return file

    def append_once(self, command, folder, *amount):
        file = folder / "log"
        run = self.run_log([*command, file, *amount])
        file.unlink()
        return run

    def open_once(self, file):
        return self.run_log([self.log_program, "open", file])

    def records(self):
        self.large_record()
        title("records: written and read", "time", "by the first")
        self.records_of(("one field", "13,000 fields"), 200, ("fields", 1, LONG_HEAD), ("fields", LONG_HEAD // 5, LONG_HEAD))
        self.records_of(("1 recipient", "500 recipients"), 2_000, ("recipients", 1), ("recipients", 500))

    def large_record(self):
        """An entry with a body of the greatest size. Its bytes are counted once for writing, and once for reading."""
        count = 20
        title("records: a body of 16 MiB", "an entry", "GB/s")
        for way in ("write", "read"):
            rounds = self.measure(*[lambda turns=turns: self.record_once(way, turns, "body", MAX_FILE) for turns in (count, 0)])
            seconds = statistics.median(each[0].seconds - each[1].seconds for each in rounds) / count
            row(way, f"{seconds * 1000:.1f} ms", f"{MAX_FILE / seconds / 1e9:.2f}")

    def records_of(self, names, count, *shapes):
        """The times of writing an entry so often, of reading it, and of both together."""
        runs = [(way, turns, *shape) for way in ("write", "read") for turns in (count, 0) for shape in shapes]
        rounds = self.measure(*[lambda words=words: self.record_once(*words) for words in runs])
        for what, places in (("write", (0,)), ("read", (4,)), ("both", (0, 4))):
            taken = [[sum(each[place + at].seconds - each[place + at + 2].seconds for place in places) for each in rounds]
                     for at in range(2)]
            for name, seconds in zip(names, taken):
                by_first = statistics.median(one / first for one, first in zip(seconds, taken[0]))
                row(f"{what} {count:,}, {name}", f"{statistics.median(seconds) * 1000:.1f} ms", times(by_first))

    def record_once(self, *words):
        status, run = run_program(self.record_program, [str(word) for word in words], self.root / "records", self.root)
        if status != 0:
            raise Fault(f"status {status} of {self.record_program} {' '.join(map(str, words))}")
        return run

    def run_log(self, command):
        program, *words = map(str, command)
        status, run = run_program(program, words, self.root / "log.says", self.root)
        if status != 0:
            raise Fault(f"status {status} of {program} {' '.join(words)}")
        return run


def arguments():
    parser = argparse.ArgumentParser(description=__doc__, formatter_class=argparse.RawDescriptionHelpFormatter)
    parser.add_argument("--shape", action="append", choices=SHAPES, help="a shape to measure; may be given again "
                        "(default: all)")
    parser.add_argument("--mails", type=int, default=10_000, metavar="N", help="mails of `small` (default 10000)")
    parser.add_argument("--size", type=int, default=1000, metavar="BYTES",
                        help="size of the bodies of `small` and `recipients` (default 1000)")
    parser.add_argument("--rounds", type=int, default=7, metavar="ROUNDS", help="runs for each time (default 7)")
    parser.add_argument("--james", type=Path, default=PROGRAM, metavar="PATH",
                        help="the built program (default: the repository's crates/james_cli/out/james_cli)")
    parser.add_argument("--yardstick", type=Path, default=YARDSTICK, metavar="PATH",
                        help="the built program that only parses TOML (default: that of crates/toml_yardstick)")
    parser.add_argument("--queue", type=Path, default=QUEUE, metavar="PATH",
                        help="the built program that fills and empties a due queue (default: that of crates/ready_bench)")
    parser.add_argument("--log", type=Path, default=LOG, metavar="PATH",
                        help="the built program that adds to a log and opens it (default: that of crates/log_bench)")
    parser.add_argument("--records", type=Path, default=RECORDS, metavar="PATH",
                        help="the built program that writes and reads entries (default: that of crates/record_bench)")
    parser.add_argument("--keep", action="store_true", help="keep the folders and say where they are")
    given = parser.parse_args()
    if given.mails < 1 or given.size < 0 or given.rounds < 1:
        parser.error("N and ROUNDS are at least 1, BYTES at least 0")
    given.shape = given.shape or SHAPES
    of_shapes = {"plan": given.yardstick, "remote": given.yardstick, "queue": given.queue, "log": given.log, "records": given.records}
    programs = [given.james] + [program for shape, program in of_shapes.items() if shape in given.shape]
    for program in programs:
        if not os.access(program, os.X_OK):
            parser.error(f"no program at {program}")
    return given


def main():
    given = arguments()
    root = Path(tempfile.mkdtemp(prefix="james-bench-"))
    try:
        adopt_orphans()
        bench = Bench(given, root)
        bench.measure_empty()
        for shape in given.shape:
            getattr(bench, shape)()
    except Fault as fault:
        sys.exit(f"bench: {fault}")
    finally:
        if given.keep:
            print(f"\nkept: {root}")
        else:
            shutil.rmtree(root)


if __name__ == "__main__":
    main()
