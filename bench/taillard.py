"""Taillard's instances of 15 jobs and 15 machines, as his generator makes them from the published seeds."""

# of ta01 to ta10: seeds of the times and of the machines, and the best known makespan, which is the least one
SEEDS = [
    (840612802, 398197754, 1231),
    (1314640371, 386720536, 1244),
    (1227221349, 316176388, 1218),
    (342269428, 1806358582, 1175),
    (1603221416, 1501949241, 1224),
    (1357584978, 1734077082, 1238),
    (44531661, 1374316395, 1227),
    (302545136, 2092186050, 1217),
    (1153780144, 1393392374, 1274),
    (73896786, 1544979948, 1241),
]


class Numbers:
    """Random numbers by the generator of Bratley, Fox and Schrage, as in Taillard's instances."""

    def __init__(self, seed):
        self.state = seed

    def between(self, low, high):
        self.state = 16807 * self.state % (2**31 - 1)
        return low + int(self.state / (2**31 - 1) * (high - low + 1))


def matrices(jobs, machines, time_seed, machine_seed):
    """The times and the machines, from 1, of each job."""
    numbers = Numbers(time_seed)
    times = [[numbers.between(1, 99) for _ in range(machines)] for _ in range(jobs)]
    numbers, rows = Numbers(machine_seed), []
    for _ in range(jobs):
        row = list(range(1, machines + 1))
        for i in range(machines):
            j = numbers.between(i, machines - 1)
            row[i], row[j] = row[j], row[i]
        rows.append(row)
    return times, rows


def text_of(number):
    """The text of ta01 to ta10, in the format `taillard`."""
    times, machines = matrices(15, 15, *SEEDS[number - 1][:2])
    rows = [" ".join(map(str, row)) for row in times]
    rows += ["Machines", *(" ".join(map(str, row)) for row in machines)]
    return "\n".join(["15 15", "Times", *rows, ""])
