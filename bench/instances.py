"""Random instances that the measurements run on, the same in each run."""

class Numbers:
    """Knuth's linear congruential generator of 64 bits."""

    def __init__(self, seed):
        self.state = seed

    def below(self, limit):
        self.state = (self.state * 6364136223846793005 + 1442695040888963407) % 2**64
        return (self.state >> 33) % limit

    def shuffled(self, count):
        values = list(range(count))
        for i in range(count - 1, 0, -1):
            j = self.below(i + 1)
            values[i], values[j] = values[j], values[i]
        return values


def random_routes(jobs, machines, seed):
    """Each job visits each machine once, in a random order, for 1 to 99."""
    numbers = Numbers(seed)
    return [[(m, 1 + numbers.below(99)) for m in numbers.shuffled(machines)] for _ in range(jobs)]


def text_of(name, routes, machines):
    rows = [" ".join(f"{m} {t}" for m, t in route) for route in routes]
    return "\n".join([f"instance {name}", f"{len(routes)} {machines}", *rows, ""])


def text_of_routes(machines, jobs):
    """As `routes`: each job is its release and its route."""
    rows = [" ".join(map(str, [release, *(number for pair in route for number in pair)])) for release, route in jobs]
    return "\n".join(["instance random", f"{len(jobs)} {machines}", *rows, ""])


def text_to_and_fro(jobs, steps, seed):
    """Steps to and fro between two machines, each for 1 to 99; all jobs begin on the same one."""
    numbers = Numbers(seed)
    return text_of_routes(2, [(0, [(k % 2, 1 + numbers.below(99)) for k in range(steps)]) for _ in range(jobs)])


def text_of_long_routes(jobs, seed):
    """An instance in the format `routes`: some 95 steps for each job, on three machines; times of 0 to 3."""
    numbers = Numbers(seed)
    lengths = [90 + numbers.below(11) for _ in range(jobs)]
    return text_of_routes(3, [(0, [(numbers.below(3), numbers.below(4)) for _ in range(n)]) for n in lengths])


def text_of_spaced_jobs(jobs, machines, seed):
    """Jobs of random routes, each released when the one before it has ended; but the last two are in each other's way,
    so that a search goes through all the others before it branches."""
    spaced = [(10_000 * j, route) for j, route in enumerate(random_routes(jobs - 2, machines, seed))]
    latest = 10_000 * (jobs - 2)
    return text_of_routes(machines, [*spaced, (latest, [(0, 30), (1, 20)]), (latest, [(1, 20), (0, 40)])])


def text_of_one_machine(jobs, steps, seed):
    """An instance in the format `routes` with all operations on one machine; times of 1 to 99."""
    numbers = Numbers(seed)
    return text_of_routes(1, [(0, [(0, 1 + numbers.below(99)) for _ in range(steps)]) for _ in range(jobs)])


def starts_of(routes, machines):
    """The starts of a feasible schedule, and the job and the step of the last operation that waits for its machine.

    Places the first steps of all jobs, then the second ones, and so on: each as early as those before it allow."""
    last = None
    ready = [0] * len(routes)
    free = [0] * machines
    starts = [[] for _ in routes]
    for step in range(machines):
        for job, route in enumerate(routes):
            machine, time = route[step]
            start = max(ready[job], free[machine])
            if free[machine] > ready[job]:
                last = (job, step)
            starts[job].append(start)
            ready[job] = free[machine] = start + time
    return starts, last


def lines_of(starts):
    return "".join(f"job {j}: {' '.join(map(str, row))}\n" for j, row in enumerate(starts))


def schedule_of(routes, machines):
    """A feasible schedule of these routes, as a text."""
    return lines_of(starts_of(routes, machines)[0])


def schedule_with_late_overlap(routes, machines):
    """A schedule in which the operation that waits last begins one unit too early: no other two overlap."""
    starts, (job, step) = starts_of(routes, machines)
    starts[job][step] -= 1
    return lines_of(starts)


def long_text(limit):
    """Instances of 15 by 15, as many as have room in this many bytes."""
    one = text_of("NAME", random_routes(15, 15, 7), 15)
    count = limit // (len(one) + 8)
    return "".join(one.replace("NAME", f"random{n}") for n in range(count))
