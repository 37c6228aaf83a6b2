#!/usr/bin/env python3
"""A whole driver: `./do start|again LANE NUMBER CHROOT KIND WORD..` is run for each request, lanes side by side. The variable RUN
has the name of the run: a chroot belongs to one run and one lane.

    twenty_lines.py JOURNAL PACKAGES SOURCES FARM PLAN
"""
import fcntl, os, subprocess, sys, threading

program = os.environ.get("PORTFARM", "portfarm").split()
lock = os.open(sys.argv[1] + ".lock", os.O_RDWR | os.O_CREAT, 0o600)
fcntl.flock(lock, fcntl.LOCK_EX)  # each ./do inherits it, so those that a killed life has left are waited for
words = [*program, "drive", "--journal", *sys.argv[1:]]
portfarm = subprocess.Popen(words, stdin=subprocess.PIPE, stdout=subprocess.PIPE)
one_line_at_a_time = threading.Lock()

def do(start_or_again, lane, number, *words):
    try:
        words = ["./do", start_or_again, lane, number, *words]
        status = subprocess.run(words, stdin=subprocess.DEVNULL, stdout=2, pass_fds=[lock]).returncode
    except (OSError, ValueError) as why:  # there is no ./do, or a word that no command can be given
        print(f"./do: {why}", file=sys.stderr)
        status = 127
    with one_line_at_a_time:
        portfarm.stdin.write(b"%s %s %s\n" % (b"failed" if status != 0 else b"done", lane, number))
        portfarm.stdin.flush()

for line in portfarm.stdout:
    words = line[:-1].split(b" ")  # words are bytes: a lane may be no text
    if words[0] in (b"start", b"again"):
        threading.Thread(target=do, args=words).start()  # a lane has one request at a time
    elif words[0] == b"drive":
        os.environb[b"RUN"] = words[2]
    else:
        sys.stdout.buffer.write(line)
sys.exit(portfarm.wait())
