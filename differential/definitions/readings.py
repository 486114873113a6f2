"""Section 8: what the definitions are asked about a piece's staffs, and what the plain proof-reader answered."""
import collections

# Changed staffs of each part, and the most numbers that the arrays of one may have.
CHANGES = 6
MOST_NUMBERS = 1000

POINTS = ["Malformed", "Values", "Full", "Rests", "Ties", "Found", "Invented", "Ends"]
MISFITS = ["bars missing", "bars to spare", "heads that do not fit", "keys that do not fit", "a head bit above 8"]

Staff = collections.namedtuple("Staff", "part number right point change counts heads keys")


def listed(numbers):
    return "".join(f"{n} ∷ " for n in numbers) + "[]"


def staffs(lines):
    """The staffs of the lines behind `work`, four lines each."""
    for first, *arrays in zip(*[iter(lines)] * 4):
        facts, change = first.split(" change ")
        _, part, _, number, _, right, _, point = facts.split()
        arrays = (tuple(int(n) for n in line.split()[1:]) for line in arrays)
        yield Staff(int(part), int(number), int(right), point, change, *arrays)


def misfits(staff, bars):
    """What makes a staff malformed, told from its arrays alone."""
    items = sum(staff.counts)
    holds = [len(staff.counts) < 4 * bars, len(staff.counts) > 4 * bars, len(staff.heads) != items]
    holds += [len(staff.keys) != 2 * items, any(head > 511 for head in staff.heads)]
    return [name for name, holding in zip(MISFITS, holds) if holding]


class Readings:
    """The rows of each piece, and how often each answer was wanted."""

    def __init__(self):
        self.engraved, self.changed, self.kinds, self.left_out = (collections.Counter() for _ in range(4))
        self.points, self.misfits, self.alone, self.numbers = (collections.Counter() for _ in range(4))

    def rows(self, name, text, bars):
        """What is asked about a piece, and what the plain proof-reader answered."""
        first, *lines = text.splitlines()
        word, number = first.split()
        call = lambda part, arrays, work: f"reading (proof_read_call {name} {part} (staff {arrays}) {work})"
        if word == "refused":
            return [self.turned_back(call(0, "[] [] []", 100000), int(number))]
        work, out, parts = int(number), [], 0
        for staff in self.taken(staffs(lines)):
            arrays = " ".join(f"({listed(array)})" for array in (staff.counts, staff.heads, staff.keys))
            out.append((call(staff.part, arrays, work), [staff.number, staff.right]))
            self.count(staff, bars)
            if staff.change == "none":
                parts += 1
                out.append(self.turned_back(call(staff.part, arrays, work - 1), 8))
        return out + [self.turned_back(call(parts, "[] [] []", work), 7)]

    def taken(self, given):
        """The engraved staffs, and the changed ones that are not long and that the part does not have already."""
        seen = set()
        for staff in given:
            arrays = staff.part, staff.counts, staff.heads, staff.keys
            if arrays in seen:
                self.left_out["there already"] += 1
            elif staff.change != "none" and sum(map(len, arrays[1:])) > MOST_NUMBERS:
                self.left_out["long"] += 1
            else:
                seen.add(arrays)
                yield staff

    def turned_back(self, asked, number):
        self.numbers[number] += 1
        return asked, [number, 0]

    def count(self, staff, bars):
        answer = "9" if staff.number == 9 else ["no", "yes"][staff.right]
        if staff.change == "none":
            self.engraved[answer] += 1
            return
        self.changed[answer] += 1
        self.kinds[staff.change] += 1
        if answer == "no":
            self.points[staff.point] += 1
            wrong = misfits(staff, bars)
            self.misfits.update(wrong)
            self.alone.update(wrong if len(wrong) == 1 else [])

    def __str__(self):
        told = lambda counter, names: "; ".join(f"{name} {counter[name]}" for name in names)
        answers = ["yes", "no", "9"]
        malformed = [f"{name} {self.misfits[name]}, alone {self.alone[name]}" for name in MISFITS]
        return "\n".join([
            f"engraved staffs: {told(self.engraved, answers)}",
            f"changed staffs: {told(self.changed, answers)}",
            f"no by the first point that fails: {told(self.points, POINTS)}",
            f"malformed by what is wrong: {'; '.join(malformed)}",
            f"turned back before 9 by number: {told(self.numbers, sorted(self.numbers))}",
            f"by kind of change: {told(self.kinds, sorted(self.kinds))}",
            f"changed staffs left out: {told(self.left_out, sorted(self.left_out))}",
        ])
