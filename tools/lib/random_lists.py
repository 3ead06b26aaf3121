"""Makes random lists of commands for `replay`, and the capacity that each answer should have. It is
not a program."""
import random

from lib.list_model import HUGE, WORD, Judge, Model, Overflow


class Chance:
    """Makes random choices. Each version of Python makes the same choices from a seed."""

    def __init__(self, seed):
        # Python promises the same numbers from `random()` alone.
        self.random = random.Random(seed).random

    def below(self, count):
        return int(self.random() * count)

    def up_to(self, most):
        return self.below(most + 1)

    def of(self, choices):
        return choices[self.below(len(choices))]


class Maker:
    """Makes the lines of one list. `capacities` are those that the answer to each line has: that of
    a list in the reply, if there is one, and that of the list itself."""

    def __init__(self, chance, over_crate, is_tidy):
        self.chance = chance
        self.over_crate = over_crate
        # Whether a splice that changes the capacity is followed by `shrink_to_fit`.
        self.is_tidy = is_tidy
        self.model = Model()
        self.lines = ["new"]
        self.capacities = [[0]]
        # The most items that one command adds.
        self.most = 12

    def make(self):
        shapes = [self.mixed] * 60 + [self.spliced] * 32 + [self.medium] * 6 + [self.long] * 2
        self.chance.of(shapes)()
        self.ask_items()
        return self

    def mixed(self):
        for _ in range(self.chance.of([1, 2, 3, 4, 6, 8, 12, 20])):
            self.command(COMMANDS)
            if self.chance.below(2):
                self.ask_items()

    def spliced(self):
        """Makes a short list, with or without spare capacity, and splices it."""
        self.add(self.chance.below(9))
        for _ in range(1 + self.chance.below(3)):
            self.command(["reserve_exact", "shrink_to_fit", "pop"])
            self.splice()
            self.ask_items()

    def medium(self):
        """Makes a list that is long enough to grow in place."""
        self.most = 60
        self.add(20 + self.chance.below(50))
        for _ in range(10 + self.chance.below(30)):
            self.command(COMMANDS)

    def long(self):
        """Makes a list of some thousand items."""
        self.most = 300
        for _ in range(2 + self.chance.below(4)):
            self.add(300 + self.chance.below(500))
        for _ in range(8 + self.chance.below(8)):
            self.command(LONG)

    def command(self, names):
        getattr(self, self.chance.of(names))()

    def say(self, *words, change=None):
        """Adds a line. `change` does what the command does to the model, and returns the capacity
        of a list in the reply, if there is one. It is `None` if the command is out of range."""
        self.lines.append(" ".join(str(word) for word in words))
        in_reply = None
        try:
            in_reply = change(self.model) if change else None
        except Overflow:
            pass
        in_reply = [] if in_reply is None else [in_reply]
        self.capacities.append(in_reply + [self.model.capacity])

    def ask_items(self):
        if self.lines[-1] != "items":
            self.lines.append("items")
            self.capacities.append([])

    def len(self):
        return len(self.model.items)

    def up_to(self, most):
        """A number from 0 to `most`, and sometimes one that is greater."""
        if self.chance.random() < 0.03:
            return most + self.chance.of([1, 2, 100, WORD - 1 - most])
        return self.chance.up_to(most)

    def index(self):
        return self.up_to(max(self.len() - 1, 0))

    def item(self):
        most = self.chance.of([4, 4, 40, 40, 40, 40, 1000, 1000, 1000, WORD])
        return self.chance.below(most)

    def some_items(self):
        most = self.chance.of([0, 1, 3, 8, self.most])
        return [self.item() for _ in range(self.chance.up_to(most))]

    def judge(self):
        divisor = self.chance.of([1, 2, 2, 3, 5, 10, 2**63, WORD - 1])
        stride = self.chance.of([0, 0, 1, 2, 7, 2**63])
        return divisor, stride, self.chance.of([0, 0, 1, 3, WORD - 1])

    def span(self):
        """A range, and whether it is within the list."""
        start, end = self.up_to(self.len()), self.up_to(self.len())
        if start > end and self.chance.random() < 0.95:
            start, end = end, start
        return start, end, start <= end <= self.len()

    def steps(self, start, end):
        most = min(max(end - start, 0) + 2, 40)
        count = self.chance.of([0, self.chance.up_to(most)])
        return "".join(self.chance.of("fb") for _ in range(count)) or "-"

    def hint(self, count, may_overflow):
        """A lower bound of a size hint: true, too small or too great, by much perhaps."""
        kind = self.chance.random()
        if kind < 0.4:
            return count
        if kind < 0.7:
            return self.chance.up_to(count)
        if kind < 0.95 or not may_overflow:
            return count + self.chance.of([1, 2, 5, 40])
        return self.chance.of(HUGE)

    def room(self):
        is_huge = self.chance.random() < 0.1
        return self.chance.of(HUGE) if is_huge else self.chance.below(40)

    def add(self, count):
        items = [self.chance.below(1000) for _ in range(count)]
        self.say("extend_from_slice", *items, change=lambda model: model.append(items))

    def push(self):
        item = self.item()
        self.say("push", item, change=lambda model: model.append([item]))

    def pop(self):
        def change(model):
            del model.items[-1:]

        self.say("pop", change=change)

    def insert(self):
        index, item = self.up_to(self.len()), self.item()

        def change(model):
            model.reserve(1)
            model.items.insert(index, item)

        self.say("insert", index, item, change=change if index <= self.len() else None)

    def remove(self):
        index = self.index()

        def change(model):
            del model.items[index : index + 1]

        self.say("remove", index, change=change)

    def swap_remove(self):
        index = self.index()

        def change(model):
            model.items[index] = model.items[-1]
            model.items.pop()

        self.say("swap_remove", index, change=change if index < self.len() else None)

    def set(self):
        index, item = self.index(), self.item()

        def change(model):
            model.items[index] = item

        self.say("set", index, item, change=change if index < self.len() else None)

    def truncate(self):
        length = self.up_to(self.len())

        def change(model):
            del model.items[length:]

        self.say("truncate", length, change=change)

    def clear(self):
        self.say("clear", change=lambda model: model.items.clear())

    def reserve(self):
        count = self.room()
        self.say("reserve", count, change=lambda model: model.reserve(count))

    def reserve_exact(self):
        count = self.room()
        self.say("reserve_exact", count, change=lambda model: model.reserve_exact(count))

    def shrink_to_fit(self):
        self.say("shrink_to_fit", change=lambda model: model.grow_to(len(model.items)))

    def resize(self):
        length, item = self.chance.up_to(self.len() + 10), self.item()
        if self.chance.random() < 0.05:
            length = self.chance.of(HUGE)

        def change(model):
            more = max(length - len(model.items), 0)
            model.reserve(more)
            model.items = model.items[:length] + [item] * more

        self.say("resize", length, item, change=change)

    def extend_from_slice(self):
        items = self.some_items()
        self.say("extend_from_slice", *items, change=lambda model: model.append(items))

    def extend(self):
        items = self.some_items()
        hint = self.hint(len(items), True)
        self.say("extend", hint, *items, change=lambda model: model.extend(hint, items))

    def append(self):
        items = self.some_items()

        def change(model):
            other = Model()
            other.extend(0, items)
            model.append(items)
            return other.capacity

        self.say("append", *items, change=change)

    def split_off(self):
        index = self.up_to(self.len())

        def change(model):
            count = len(model.items) - index
            del model.items[index:]
            return count

        self.say("split_off", index, change=change if index <= self.len() else None)

    def clone(self):
        self.say("clone", change=lambda model: len(model.items))

    def retain(self):
        numbers = self.judge()
        change = lambda model: model.keep(Judge(numbers), False)
        self.say("retain", *numbers, change=change)

    def retain_mut(self):
        numbers = self.judge()
        change = lambda model: model.keep(Judge(numbers), True)
        self.say("retain_mut", *numbers, change=change)

    def dedup(self):
        judge = Judge((1, 0, 0))
        change = lambda model: model.dedup(judge, lambda later, kept: later == kept)
        self.say("dedup", change=change)

    def dedup_by(self):
        numbers = self.judge()
        judge = Judge(numbers)
        self.say("dedup_by", *numbers, change=lambda model: model.dedup(judge, judge.is_same))

    def dedup_by_key(self):
        numbers = self.judge()
        judge = Judge(numbers)
        change = lambda model: model.dedup(judge, judge.is_same_key)
        self.say("dedup_by_key", *numbers, change=change)

    def drain(self):
        start, end, is_within = self.span()

        def change(model):
            del model.items[start:end]

        steps = self.steps(start, end)
        self.say("drain", start, end, steps, change=change if is_within else None)

    def extract_if(self):
        start, end, is_within = self.span()
        calls, judge = self.chance.up_to(min(max(end - start, 0), 60) + 2), self.judge()
        change = lambda model: model.extract(start, end, calls, Judge(judge))
        words = ["extract_if", start, end, calls, *judge]
        self.say(*words, change=change if is_within else None)

    def splice(self):
        start, end, is_within = self.span()
        items = self.some_items()
        # For a range at the end, a `Vec` asks for the hint only when it has no room.
        hint = self.hint(len(items), self.over_crate or end < self.len())
        capacity = self.model.capacity
        change = lambda model: model.splice(start, end, hint, items)
        words = ["splice", start, end, self.steps(start, end), hint, *items]
        self.say(*words, change=change if is_within else None)
        if self.is_tidy and self.model.capacity != capacity:
            self.shrink_to_fit()


COMMANDS = """push pop insert remove swap_remove set truncate clear reserve reserve_exact shrink_to_fit
resize extend_from_slice extend append split_off clone retain retain_mut dedup dedup_by dedup_by_key
drain extract_if splice""".split()
# Commands that add items, once more, so that lists grow.
COMMANDS += "push push push insert extend_from_slice extend append splice resize".split()
# Commands whose answers are short, and which leave most items.
LONG = """push pop insert remove swap_remove set reserve reserve_exact shrink_to_fit resize extend
append splice splice splice""".split()


def made_lists(seed, count, over_crate, is_tidy=False):
    chance = Chance(seed)
    return [Maker(chance, over_crate, is_tidy).make() for _ in range(count)]
