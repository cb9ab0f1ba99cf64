#!/usr/bin/env python3
"""Writes what crates/s3r_job_rows prints for its rows, by the table of a job's moves in docs/RULES.md:

    tests/job_rows.py <crates/s3r_job_rows/stdin >crates/s3r_job_rows/stdout

A row has how many lines a job has, `plain` or `confirmed`, and what is asked of it, a word each; `N*` before a word asks N times. Its
text has the job's state and how many results it has, at first and behind each word.
"""
import sys

MOST_LINES = 20000
UNENDED = "New Preparing Suspended Ready Active Pausing Paused".split()


class Job:
    def __init__(self, confirm):
        self.state, self.confirm, self.lines, self.results, self.kept = "New", confirm, 0, [], False

    def is_over(self):
        return len(self.results) >= 1000 and 2 * self.results.count(False) > len(self.results)

    def is_done(self):
        return len(self.results) == self.lines and not self.is_over()

    def text(self):
        return self.state + (f":{len(self.results)}" if self.results else "")

    def may_start(self):
        return self.state == "Active" and not self.kept and len(self.results) < self.lines and not self.is_over()


# From a state, by a word, to a state, and where.
ALWAYS = lambda job: True
MOVES = {
    ("New", "begin"): ("Preparing", ALWAYS),
    ("Preparing", "refuse"): ("Failing", ALWAYS),
    ("Suspended", "confirm"): ("Ready", ALWAYS),
    ("Ready", "activate"): ("Active", ALWAYS),
    ("Paused", "activate"): ("Active", ALWAYS),
    ("Active", "pause"): ("Pausing", ALWAYS),
    ("Pausing", "rest"): ("Paused", ALWAYS),
    ("Active", "over"): ("Failing", Job.is_over),
    ("Active", "complete"): ("Complete", Job.is_done),
    ("Cancelling", "end"): ("Cancelled", ALWAYS),
    ("Failing", "end"): ("Failed", ALWAYS),
}
for unended in UNENDED:
    MOVES[unended, "cancel"] = ("Cancelling", ALWAYS)


def ask(job, word, lines):
    if word == "prepare" and job.state == "Preparing":
        job.state, job.lines, job.results = "Suspended" if job.confirm else "Ready", lines, []
    elif word in ("ok", "bad") and job.may_start():
        job.results.append(word == "ok")
    elif word == "keep" and job.may_start():
        job.kept = True
    elif word == "take" and job.kept and job.state in ("Active", "Pausing", "Paused"):
        job.kept = False
        job.results.append(True)
    elif (job.state, word) in MOVES:
        to, where = MOVES[job.state, word]
        if where(job):
            job.state = to


def life(row):
    lines, confirm, *words = row.split(" ")
    lines = int(lines) if int(lines) <= MOST_LINES else 0
    job = Job(confirm == "confirmed")
    texts = [job.text()]
    for word in words:
        times, word = word.split("*") if "*" in word else (1, word)
        for _ in range(int(times)):
            ask(job, word, lines)
        texts.append(job.text())
    return " ".join(texts)


for line in sys.stdin:
    line = line.rstrip("\n")
    if line and not line.startswith("#"):
        print(life(line))
