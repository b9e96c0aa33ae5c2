"""The numbers of a plan as it is printed, program by program: picture.py draws them."""
import math


class Programs:
    """The programs of a plan, each with the first cycle in which it is in force."""

    def __init__(self):
        self.parts = []

    def at(self, cycle):
        """The program in force in a cycle."""
        return [plan for first, plan in self.parts if first <= max(cycle, 1)][-1]


class Plan:
    """A program's numbers: the item of each slot, or a dash, with its disk; and of each item what its line says."""

    def __init__(self, rows):
        self.count, self.minors, self.length = map(int, rows[0][1:])
        self.disks = [[int(field) for field in row[1:]] for row in rows if row[0] == "disk"]
        self.items = {int(row[1]): [int(field) for field in row[2:]] for row in rows if row[0] == "item"}
        self.rates = {item: pix // self.disks[disk][2] for item, (disk, _, _, _, pix) in self.items.items()}
        owners = [disk for disk, _, _, places in self.disks for _ in range(places)]
        self.slots = [(item, disk) for row in rows if row[0] == "minor" for item, disk in zip(row[2].split(" "), owners)]
        self.top = max(self.rates.values())
        self.aired = {}
        for slot, (item, _) in enumerate(self.slots):
            if item != "-":
                self.aired.setdefault(int(item), []).append(slot)

    def share(self, item):
        return math.log1p(self.rates[item]) / math.log1p(self.top) if self.top else 0
