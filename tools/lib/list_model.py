"""The items and the capacity that a list should have after each command of `replay`, worked out in
Python: the model with which tools/compare_with_rust compares lists. It is not a program."""

WORD = 2**64


# The greatest capacity: the block has a header of 16 bytes, and its size is rounded up.
LIMIT = (2**63 - 8 - 16) // 8
# Numbers of items for which no list has room.
HUGE = [2**63 // 8, 2**64 // 8 + 1, 2**63, WORD - 1]


class Overflow(Exception):
    """A capacity would be too large."""


class Judge:
    """The closure of a command, as `help` of crates/thin_replay describes it."""

    def __init__(self, numbers):
        self.divisor, self.stride, self.added = numbers
        self.offset = 0

    def number(self, item):
        number = (item + self.offset) % WORD
        self.offset = (self.offset + self.stride) % WORD
        return number

    def divides(self, item):
        return self.number(item) % self.divisor == 0

    def is_same(self, later, kept):
        return self.number(later) % self.divisor == kept % self.divisor

    def is_same_key(self, later, kept):
        return self.number(later) // self.divisor == self.number(kept) // self.divisor

    def written(self, item):
        return (item + self.added) % WORD


class Model:
    """The items and the capacity of a list, after each command."""

    def __init__(self):
        self.items = []
        self.capacity = 0

    def reserve(self, count):
        """Grows as the growth rule `Doubling` says, if there is no room for `count` more items."""
        want = len(self.items) + count
        if want > self.capacity:
            self.grow_to(max(want, 2 * self.capacity or 4))

    def reserve_exact(self, count):
        self.grow_to(max(len(self.items) + count, self.capacity))

    def grow_to(self, capacity):
        if capacity > LIMIT:
            raise Overflow
        self.capacity = capacity

    def append(self, items):
        self.reserve(len(items))
        self.items += items

    def extend(self, hint, items):
        self.reserve(hint)
        for item in items:
            self.append([item])

    def splice(self, start, end, hint, items):
        """Takes the items `start..end` out, and then does what `finish` does."""
        if end == len(self.items):
            del self.items[start:]
            self.extend(hint, items)
            return
        gap = end - start
        self.items[start:end] = items[:gap]
        if len(items) < gap:
            return
        # The gap is full. The iterator has not ended yet, even if it has no more items.
        self.reserve(hint)
        more, held = items[gap:][:hint], items[gap:][hint:]
        self.items[end:end] = more
        self.reserve(len(held))
        self.items[end + len(more) : end + len(more)] = held

    def keep(self, judge, is_written):
        kept = []
        for item in self.items:
            keeps = judge.divides(item)
            if keeps:
                kept.append(judge.written(item) if is_written else item)
        self.items = kept

    def dedup(self, judge, is_same):
        kept = self.items[:1]
        for item in self.items[1:]:
            same = is_same(item, kept[-1])
            kept[-1] = judge.written(kept[-1])
            if not same:
                kept.append(judge.written(item))
        self.items = kept

    def extract(self, start, end, calls, judge):
        left = []
        for index in range(start, end):
            if calls == 0:
                left += self.items[index:end]
                break
            if judge.divides(self.items[index]):
                calls -= 1
            else:
                left.append(judge.written(self.items[index]))
        self.items[start:end] = left
