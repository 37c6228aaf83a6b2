#!/usr/bin/env python3
"""Drives a farm of many machines: Slurm runs the commands.

    slurm_driver.py [--journal FILE] .. CONFIGURATION DIR

The configuration is that of command_driver.py, without `over`, with a state on a file system that all machines share, and with a
section more:

    [slurm]     lane = OPTIONS of `salloc` for a lane, as --cpus-per-task=1 --constraint={chroot}
                KIND = OPTIONS of `sbatch`, as build = --cpus-per-task=4 --time=24:00:00 --tmp={scratch}K

A lane gets an allocation at its first request: Slurm chooses the machine, where the lane's chroot then is. A kind with
options of its own is a batch job on that machine: it has a queue, limits and a log, and goes on while driver and portfarm are
down; the time that it may take is Slurm's. Every other kind is a step in the lane's allocation. The second ^C cancels what is
under way.

A job has one name for one thing over all resumes, RUN:LANE:NUMBER; the allocation of a lane is RUN:LANE:. What is asked `again`
is looked for by its name: among the statuses that ended jobs have left, then in the queue; it is submitted anew only where it
is in neither. Where the run goes on behind another, what that one has in the queue is cancelled first: its machines are wanted.
"""

import os
import shlex
import subprocess
import sys
import threading
import time

from command_driver import Commands, read_configuration, words_of
from driver import drive, parser
from processes import kept, run_command
from system import Failed, ending, file_name, tell, write_durably

LOOK = 1.0  # seconds between two looks at the queue
GONE = 6  # so many looks without the job, nor a status of it: it has died with its machine

# the status is written where nobody sees half of it; Slurm would read a `%` in the name of a log as its own
JOB = """#!/bin/sh
exec >> {log} 2>&1
cd {folder}
{command}
status=$?
echo $status > {status}.new && sync {status}.new && mv {status}.new {status}
exit $status
"""


def slurm(*words):
    done = subprocess.run(words, stdin=subprocess.DEVNULL, capture_output=True, text=True)
    if done.returncode != 0:
        raise Failed(f"{words[0]}: {done.stderr.strip()[-300:]}")
    return done.stdout


class Queue:
    """The jobs that Slurm has, by name: number, machine and state. One look a second serves all lanes."""

    def __init__(self):
        self.lock = threading.Lock()
        self.known, self.time = {}, float("-inf")

    def jobs(self, anew=False):
        with self.lock:
            if anew or time.monotonic() - self.time > LOOK:
                lines = slurm("squeue", "--noheader", "--format=%j|%A|%N|%T").splitlines()
                self.known = {name: tuple(rest) for name, *rest in (line.rsplit("|", 3) for line in lines)}
                self.time = time.monotonic()
            return self.known


class Slurm(Commands):
    def __init__(self, configuration, folder):
        super().__init__(configuration, folder)
        self.options = configuration["slurm"]
        self.queue = Queue()
        self.lanes = {}  # lane -> number of its allocation, its machine
        self.adopted = 0

    def begin(self, run, after=None):
        super().begin(run, after)
        if earlier := self.state.earlier():
            self.cancel_all(lambda name: name.split(":")[0] in earlier)

    def cancel_all(self, is_wanted):
        """Cancels the allocations and the jobs of these names."""
        for name, (number, *_) in self.queue.jobs(anew=True).items():
            if is_wanted(name):
                subprocess.run(["scancel", *["--full"] * (not name.endswith(":")), number])

    def slurm_options(self, kind, request):
        return words_of(self.options.get(kind, ""), *self.fields(request))

    def allocation(self, request):
        """The lane's allocation and machine. Where an allocation is lost, the next one is on the same machine, since the
        lane's chroot is there."""
        if request.lane not in self.lanes:
            name = f"{request.run}:{file_name(request.lane)}:"
            machine = os.path.join(self.state.place("jobs", request.lane), "machine")
            found = self.queue.jobs(anew=True).get(name)
            if found is None:
                options = self.slurm_options("lane", request)
                if os.path.exists(machine):
                    with open(machine) as file:
                        options.append("--nodelist=" + file.read())
                slurm("salloc", "--no-shell", "--job-name=" + name, *options)
                found = self.queue.jobs(anew=True).get(name)
            if found is None or not found[1]:
                raise Failed(f"the allocation {name} has no machine")
            write_durably(machine, found[1].encode())
            self.lanes[request.lane] = found[:2]
        return self.lanes[request.lane]

    def execute(self, request, words, log, lock):
        allocation, machine = self.allocation(request)
        if request.kind in self.options:
            self.batch(request, words, machine, log)
            return
        # below a keeper on its machine too, so that what it leaves behind is ended there
        step = ["srun", "--quiet", "--overlap", f"--jobid={allocation}", f"--chdir={os.getcwd()}"]
        try:
            run_command([*step, *kept(words, self.timeout)], log, lock, lost=self.lost)
        except Failed:
            del self.lanes[request.lane]  # its allocation may be lost: look again
            raise

    def batch(self, request, words, machine, log):
        """Waits for the end of the request's job, which may be under way, or have ended, since a life before."""
        name = request.job.rsplit(":", 1)[1] if request.job.endswith(":build") else str(request.number)
        files = os.path.join(self.state.place("jobs", request.lane), f"{request.number}.{name}")
        status = files + ".status"
        if os.path.exists(status) and not (request.again and read_status(status) == "0"):
            os.unlink(status)  # that one has failed, or is of what --again builds once more
        if os.path.exists(status) or request.job in self.queue.jobs(anew=True):
            self.adopted += 1
        else:
            self.submit(request, words, machine, (files + ".sh", status, log))
        self.await_status(request, status)
        code = read_status(status)
        if code != "0":
            os.unlink(status)
            raise Failed(f"status {code}, see {os.path.dirname(log)}")
        # Slurm takes a job into the queue once more where its machine was lost behind its end
        job = self.queue.jobs(anew=True).get(request.job)
        if job and job[2] == "PENDING":
            subprocess.run(["scancel", job[0]])

    def submit(self, request, words, machine, files):
        script, status, log = files
        text = JOB.format(
            log=shlex.quote(log), folder=shlex.quote(os.getcwd()), command=shlex.join(kept(words)),
            status=shlex.quote(status))
        write_durably(script, text.encode("utf-8", "surrogateescape"))
        slurm("sbatch", f"--job-name={request.job}", f"--nodelist={machine}", "--requeue", "--output=/dev/null",
              *self.slurm_options(request.kind, request), script)

    def await_status(self, request, status):
        misses = 0
        while not os.path.exists(status):
            if ending.wait(LOOK):
                self.cancel(request.job)
            try:
                misses = 0 if request.job in self.queue.jobs() else misses + 1
            except Failed:
                continue  # the controller is away, and the job goes on
            if misses > GONE:
                raise Failed(f"job {request.job} is gone")

    def cancel(self, name):
        """Cancels a job, and comes back once it is out of the queue."""
        while job := self.queue.jobs(anew=True).get(name):
            subprocess.run(["scancel", "--full", job[0]])
            time.sleep(LOOK)
        raise Failed(f"job {name} was cancelled")

    def end(self, status):
        """Gives back the allocations of the run, also those of earlier lives, once it has come to its end."""
        tell(f"jobs that were found again {self.adopted}")
        if status == 0:
            self.cancel_all(lambda name: name.startswith(f"{self.state.run}:") and name.endswith(":"))


def read_status(path):
    with open(path) as file:
        return file.read().strip()


def main():
    options = parser(__doc__, "configuration").parse_args()
    try:
        machines = Slurm(read_configuration(options.configuration), options.dir)
    except Failed as why:
        sys.exit(f"slurm_driver.py: {why}")
    return drive(options, machines)


if __name__ == "__main__":
    sys.exit(main())
