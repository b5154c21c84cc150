"""Runs the tests, compiled with checks and not proved.

Several crates of tests are compiled as one, with what they stand on, in a stand of their own. A test that
fails, faults, reads or writes out of bounds, or takes more than its time fails the run.
"""
import os
import re
import signal
import subprocess
import tempfile
import threading
import time

import sources
from gate import stands

# the most that the tests of a group may take together, compiled with checks, while the proofs have the processors
SECONDS = "2700"
# crates of tests that are compiled together; what stands in none of them is run alone
GROUPS = {
    "formats": ["hg_types_tests", "hg_chunks_tests", "hg_params_tests", "hg_stream_tests", "hg_delta_tests",
                "hg_cgroup_tests", "hg_obs_tests", "hg_store_tests"],
    "changelog": ["hg_log_tests", "hg_phases_tests", "hg_names_tests", "hg_keys_tests", "hg_checks_tests",
                  "hg_wireproto_tests"],
    "repository": ["hg_parts_tests", "hg_sizes_tests", "hg_repo_tests", "hg_push_tests", "hg_replay_tests",
                   "hg_recovery_tests", "hg_store_tools_tests"],
    "threads": ["hg_queue_tests", "hg_serve_tests", "hg_connection_tests", "hg_commit_tests", "hg_durable_tests",
                "hg_tcp_tests", "hg_commands_tests", "hg_import_tests"],
    "http": ["hg_http_tests", "hg_queries_tests", "hg_status_tests", "hg_web_tests"],
}


def groups():
    """The tests that are run at once: crates by the name of their group."""
    there = stands.tests()
    made = {name: [it for it in members if it in there] for name, members in GROUPS.items()}
    grouped = {it for members in made.values() for it in members}
    made.update({it: [it] for it in there if it not in grouped})
    return {name: members for name, members in made.items() if members}


def begun_by(process):
    """The processes that a process has begun, and those that these have."""
    began = {}
    for it in filter(str.isdigit, os.listdir("/proc")):
        try:
            began.setdefault(int(sources.stat_of(it)[1]), []).append(int(it))
        except OSError:
            continue
    found = [process]
    for it in found:
        found += began.get(it, [])
    return found[1:]


def is_hint(process):
    """Whether a process is the check of names that `rt try` makes beside its run. It takes a minute of a processor, and
    what it finds is what `rt check` says of the same crate."""
    with open(f"/proc/{process}/cmdline", encoding="utf-8", errors="replace") as words:
        return "\0--start\0no function\0" in words.read()


def keep_behind(process):
    """While a process runs, has what it begins wait for a processor as this one does, and ends the check of names.
    `rt try` begins a session, and where the system shares the processors out by sessions, `nice` counts for nothing
    outside of its own."""
    nice, told = os.nice(0), set()
    while os.path.exists(f"/proc/{process}"):
        for it in begun_by(process):
            try:
                if is_hint(it):
                    os.kill(it, signal.SIGKILL)
                    continue
                session = sources.stat_of(it)[3]
                if nice > 0 and session not in told | {str(os.getsid(0))}:
                    told.add(session)
                    with open(f"/proc/{it}/autogroup", "w", encoding="utf-8") as group:
                        group.write(str(nice))
            except OSError:
                # it has ended, or there are no such groups
                continue
        time.sleep(1)


def run(name, members):
    """Runs the tests of some crates; returns how many passed, and how many failed."""
    with tempfile.TemporaryDirectory(prefix="tests-") as place:
        stand = f"{place}/stand"
        if len(members) == 1:
            stands.make(stand, members, keeps_tests_of=members)
            crate = members[0]
        else:
            crate = f"{name}_tests"
            stands.join_tests(stand, crate, members)
        words = ["rt", "try", "--test", "--seconds", SECONDS]
        with subprocess.Popen(words, cwd=f"{stand}/crates/{crate}", stdout=subprocess.PIPE,
                              stderr=subprocess.STDOUT, encoding="utf-8", errors="replace") as ran:
            threading.Thread(target=keep_behind, args=[ran.pid], daemon=True).start()
            said, _ = ran.communicate()
        told = re.findall(r"^test result: \w+\. (\d+) passed; (\d+) failed", said, re.M)
        if not told or ran.returncode:
            print(said[-6000:])
            print("".join(re.findall(r"^test .* \.\.\. (?!ok$).*\n", said, re.M)), end="")
        passed, failed = (int(told[0][0]), int(told[0][1])) if told else (0, 0)
        return passed, failed or int(ran.returncode != 0 or not passed)


def run_all(words):
    """Runs the tests of some groups or crates, or all; returns the status."""
    made, passed, failed = groups(), 0, 0
    for name in words or made:
        done, missed = run(name, made.get(name, [name]))
        print(f"{name}: {done} tests passed, {missed} failed", flush=True)
        passed, failed = passed + done, failed + missed
    print(f"{passed} passed, {failed} failed")
    return 1 if failed else 0
