"""In which order `rt ci` proves the crates, and on how many processors each.

`rt ci` begins first what has the most lines behind it, and so does this. But the last crates of this repository wait for
each other, one by one, and `rt ci` would have most of them proved on one processor each. Here a proof gets the
processors that no other one can use, and memory is counted as it was measured: a proof takes up to 4 GB, where `rt ci`
guesses up to 9 and has others wait.
"""
from concurrent.futures import FIRST_COMPLETED, ThreadPoolExecutor, wait

# the bytes of a proof, and of each further processor for it, with room to spare
PROOF, FURTHER = 4_000_000_000, 1_200_000_000
# more than that many processors hardly shorten a proof
MOST = 4
# the part of the free memory that proofs may take together
PART = 0.85


class Lanes:
    """The processors and the memory, and what runs on them."""

    def __init__(self, processors, memory):
        self.processors, self.memory, self.running = processors, memory, {}

    def idle(self):
        return self.processors - sum(jobs for _, jobs in self.running.values())

    def room(self):
        return self.memory - sum(PROOF + FURTHER * (jobs - 1) for _, jobs in self.running.values())

    def jobs(self, key, others):
        """Returns on how many processors this task begins, where so many others could begin now: 0 if it has to wait.
        Only a proof can use more than one, and none that another could use, nor its memory."""
        idle = self.idle()
        if not idle or self.running and self.room() < PROOF:
            return 0
        fits = 1 + max(0, int((self.room() - PROOF * (1 + others)) // FURTHER))
        return max(1, min(MOST, idle - others, fits)) if key[1] in ("proof", "tests") else 1


def behind_of(tasks):
    """Returns for each task how much work it and those behind it are."""
    behind = dict.fromkeys(tasks, 0)
    # (a task comes after those that it waits for)
    for key in reversed([*tasks]):
        behind[key] += tasks[key][1]
        for it in tasks[key][0]:
            behind[it] = max(behind[it], behind[key])
    return behind


def in_lanes(tasks, programs, processors, free, ending):
    """Runs the tasks of `rt ci`, each after those that it waits for, and returns what each gave. A task is what it waits
    for, its lines, a guess of its memory, and a call that gets what was given and its processors. The scripts of the
    gate wait for the programs. `ending` tidies up."""
    behind, given = behind_of(tasks), {}
    awaited = {below for waits, *_ in tasks.values() for below in waits} | {(it, "proof") for it in programs}
    left = sorted(tasks, key=lambda it: -behind[it])
    lanes = Lanes(processors, PART * free)
    with ending(), ThreadPoolExecutor(len(tasks)) as pool:
        while left or lanes.running:
            ready = [it for it in left if all(below in given for below in tasks[it][0])]
            # (a crate without tests has such a task, too: it ends at once)
            for key in [it for it in ready if it[1] == "tests" and not tasks[it][1]]:
                ready.remove(key)
                left.remove(key)
                given[key] = tasks[key][3](given, 1)
            for at, key in enumerate(ready):
                # (what nothing waits for leaves the processors to what is awaited)
                others = [it for it in ready[at + 1 :] if it in awaited or key not in awaited]
                jobs = lanes.jobs(key, len(others))
                if not jobs:
                    break
                left.remove(key)
                lanes.running[pool.submit(tasks[key][3], given, jobs)] = key, jobs
            if lanes.running:
                for it in wait(lanes.running, return_when=FIRST_COMPLETED).done:
                    given[lanes.running.pop(it)[0]] = it.result()
    return given
