#!/usr/bin/env python3
"""Wrong version stores, and what refuses each: a law of sequential reading, a worked run, or nothing.

It shares nothing with the definitions in crates/versions/specs: it is a second reading of the rules. `Store` is the
plain store of versions, `Book` the book of what survives, which sees turns and answers alone, and `broken` says which
laws a run breaks:

  reads     a surviving load got another word than the sequential run of the book gives it
  squashes  a store squashed too few or too many: not the oldest later task that would have read it, and all after it
  words     the memory's words are not those of the committed tasks' run and then of the head's replaced stores
  mirrors   the active tasks are not the book's, or one sees another word than the run leaves after it

Each wrong machine changes one rule. For each, random short runs on few addresses that collide are played, and those
that break a law are cut down; the shortest is shown. The worked runs are those of crates/versions/specs/Runs.antt. The
seeds are fixed, and it takes half a minute.

    python3 tools/wrong_machines.py               all that was found, as text
    python3 tools/wrong_machines.py --markdown    the rows of the table in docs/wrong-machines.md
"""
import random
import sys

START, LOAD, STORE, SQUASH, COMMIT, REPLACE = "Start", "Load", "Store", "Squash", "Commit", "Replace"
LAWS = ("reads", "squashes", "words", "mirrors")


# ---- the plain store. A turn is (kind, p), (kind, p, a) or (STORE, p, a, w); an answer is a number, or the number of
# a refusal with a minus.

class Task:
    def __init__(self, p):
        self.on, self.marks, self.own = p, set(), {}

    def holds(self, a):
        return a in self.marks or a in self.own

    def held(self):
        return self.marks | set(self.own)


class Store:
    """The right one. Each method is a rule, and a wrong machine overrides one."""

    processors = 4

    def __init__(self, words):
        self.memory, self.order = list(words), []

    # where p's task stands in the order, or None
    def place(self, p):
        for i, t in enumerate(self.order):
            if t.on == p:
                return i
        return None

    # the refusals whose conditions hold; the smallest is given
    def holding(self, turn):
        kind, p, i = turn[0], turn[1], self.place(turn[1])
        task = None if i is None else self.order[i]
        a = turn[2] if len(turn) > 2 else None
        if p >= self.processors:
            yield 1
        if kind == START and task is not None:
            yield 2
        if kind != START and task is None:
            yield 3
        if a is not None and a >= len(self.memory):
            yield 4
        if kind in (LOAD, STORE) and self.class_taken(task, kind, a):
            yield 5
        if kind in (COMMIT, REPLACE) and i != 0:
            yield 6
        if kind == SQUASH and i == 0:
            yield 7
        if kind == REPLACE and not (task is not None and task.holds(a)):
            yield 8

    def class_taken(self, task, kind, a):
        return task is not None and any(b != a and b % 16 == a % 16 for b in task.held())

    def refusal(self, turn):
        return min(self.holding(turn), default=None)

    def play(self, turn):
        r = self.refusal(turn)
        if r is not None:
            return -r
        return getattr(self, turn[0].lower())(*turn[1:])

    def start(self, p):
        self.order.append(self.new_task(p))
        return len(self.order) - 1

    def new_task(self, p):
        return Task(p)

    def load(self, p, a):
        i = self.place(p)
        w = self.seen(i, a)
        if i is not None:
            self.mark(self.order[i], a)
        return w

    # the word that the task at place i sees: the nearest version's, else the memory's
    def seen(self, i, a):
        for t in reversed(self.order if i is None else self.order[:i + 1]):
            if a in t.own:
                return t.own[a]
        return self.memory[a] if a < len(self.memory) else 0

    def mark(self, task, a):
        if a not in task.own:
            task.marks.add(a)

    def store(self, p, a, w):
        i = self.place(p)
        if i is None:
            return 0
        gone = self.squashed(i, a, w)
        self.order = [t for k, t in enumerate(self.order) if k not in gone]
        if self.writes(gone):
            self.write(self.order[i], a, w)
        return len(gone)

    # the places of the tasks that a store of the task at i takes out
    def squashed(self, i, a, w):
        hit = self.hit(i, a)
        return set() if hit is None else set(range(hit, len(self.order)))

    # the oldest later task with a mark that no own word between hides
    def hit(self, i, a):
        for k in range(i + 1, len(self.order)):
            if a in self.order[k].marks:
                return k
            if a in self.order[k].own:
                return None
        return None

    def writes(self, gone):
        return True

    def write(self, task, a, w):
        task.own[a] = w

    def squash(self, p):
        i = self.place(p)
        if i is None:
            return 0
        n = len(self.order) - i
        del self.order[i:]
        return n

    def commit(self, p):
        task = self.order.pop(self.place(p))
        self.settle(task)
        return self.count(task)

    def settle(self, task):
        for a, w in task.own.items():
            if a < len(self.memory):
                self.memory[a] = w

    def count(self, task):
        return sum(a < len(self.memory) for a in task.own)

    def replace(self, p, a):
        task = self.order[self.place(p)]
        n = self.write_back(task, a)
        self.drop(task, a)
        return n

    def write_back(self, task, a):
        if a in task.own:
            self.memory[a] = task.own[a]
            return 1
        return 0

    def drop(self, task, a):
        task.marks.discard(a)
        task.own.pop(a, None)


# ---- the book, its run, and the laws

class Entry:
    def __init__(self, p):
        self.by, self.committed, self.accesses = p, False, []


class Book:
    def __init__(self):
        self.entries = []

    def place(self, p):
        for i, e in enumerate(self.entries):
            if e.by == p and not e.committed:
                return i
        return None

    def feed(self, turn, answer):
        kind, p = turn[0], turn[1]
        if answer < 0:
            return
        if kind == START:
            self.entries.append(Entry(p))
            return
        if kind == STORE and answer > 0:
            del self.entries[max(0, len(self.entries) - answer):]
        i = self.place(p)
        if i is None:
            return
        e = self.entries[i]
        if kind == LOAD:
            e.accesses.append((LOAD, turn[2], answer))
        elif kind == STORE:
            e.accesses.append((STORE, turn[2], turn[3]))
        elif kind == REPLACE:
            e.accesses.append((REPLACE, turn[2]))
        elif kind == COMMIT:
            e.committed = True
        elif kind == SQUASH:
            del self.entries[i:]

    def active(self):
        return [e for e in self.entries if not e.committed]


def run(entries, words):
    words = list(words)
    for e in entries:
        for x in e.accesses:
            if x[0] == STORE and x[1] < len(words):
                words[x[1]] = x[2]
    return words


# the tasks later than p's, the number that has to go of them
def must_go(book, p, a):
    i = book.place(p)
    later = [] if i is None else book.entries[i + 1:]
    for k, e in enumerate(later):
        for x in e.accesses:
            if x[:2] == (LOAD, a):
                return len(later) - k       # the oldest that would read the store, and all after it
            if x[:2] == (STORE, a):
                return 0                    # from here on every load reads this store or a later one
    return 0


# Each law, as what breaks it in words, or None.

def breaks_reads(book, words):
    words = dict(enumerate(words))
    for e in book.entries:
        for x in e.accesses:
            if x[0] == LOAD and x[2] != words.get(x[1], 0):
                return f"processor {e.by} loaded {x[2]}, the run gives {words.get(x[1], 0)}"
            if x[0] == STORE:
                words[x[1]] = x[2]
    return None


def breaks_words(book, words, memory):
    due = run([e for e in book.entries if e.committed], words)
    for e in book.active()[:1]:
        for i, x in enumerate(e.accesses):
            if x[0] == STORE and x[1] < len(due) and (REPLACE, x[1]) in e.accesses[i:]:
                due[x[1]] = x[2]
    for a, (got, w) in enumerate(zip(memory, due)):
        if got != w:
            return f"word {a} is {got}, must be {w}"
    return None


def breaks_mirrors(book, words, store, addresses):
    active = book.active()
    if [t.on for t in store.order] != [e.by for e in active]:
        tasks = lambda ps: " and ".join(map(str, ps)) or "none"
        return f"tasks on {tasks([t.on for t in store.order])}, in the book on {tasks([e.by for e in active])}"
    after = run([e for e in book.entries if e.committed], words)
    for k, e in enumerate(active):
        after = run([e], after)
        for a in sorted(addresses):
            # what a task sees is a matter of versions, and not of what a load of a wrong machine answers
            if Store.seen(store, k, a) != after[a]:
                return f"the task on {e.by} sees {Store.seen(store, k, a)} at {a}, the run leaves {after[a]}"
    return None


# the laws that a run breaks, each with what first breaks it, and the run's answers
def broken(machine, words, turns):
    store, book = machine(words), Book()
    addresses = {t[2] for t in turns if len(t) > 2 and t[2] < len(words)}
    found, answers = {}, []
    for turn in turns:
        due = must_go(book, turn[1], turn[2]) if turn[0] == STORE else None
        answer = store.play(turn)
        answers.append(answer)
        book.feed(turn, answer)
        now = {
            "reads": breaks_reads(book, words),
            "squashes": None if due is None or answer < 0 or answer == due else f"it squashed {answer}, had to squash {due}",
            "words": breaks_words(book, words, store.memory),
            "mirrors": breaks_mirrors(book, words, store, addresses),
        }
        for law, why in now.items():
            if why:
                found.setdefault(law, why)
    return found, answers


# ---- the worked runs: 64 zero words, tasks on 0, 1, 2 and 3

def L(p, a): return (LOAD, p, a)
def S(p, a, w): return (STORE, p, a, w)
def R(p, a): return (REPLACE, p, a)


WORKED = [
    ("last_address", [L(0, 63), L(0, 64)], [0, -4]),
    ("one_of_a_class", [L(1, 5), L(1, 21)], [0, -5]),
    ("equal_word_squashes", [S(0, 5, 7), L(2, 5), S(0, 5, 7)], [0, 7, 2]),
    ("version_between_hides", [S(1, 5, 8), L(2, 5), S(0, 5, 7)], [0, 8, 0]),
    ("mark_outlives_store", [L(2, 5), S(2, 5, 9), S(0, 5, 7)], [0, 0, 2]),
    ("own_word_sets_no_mark", [S(2, 5, 9), L(2, 5), S(0, 5, 7)], [0, 9, 0]),
    ("replaced_is_not_held", [S(0, 5, 7), R(0, 5), R(0, 5)], [0, 1, -8]),
    ("head_rules", [(COMMIT, 1), (SQUASH, 0), (SQUASH, 1)], [-6, -7, 3]),
    ("restart_after_commit", [S(0, 5, 7), (COMMIT, 0), (START, 0), S(1, 5, 8), L(0, 5)], [0, 1, 3, 0, 8]),
    ("replaced_mark_is_gone", [L(0, 5), R(0, 5), R(0, 5)], [0, 0, -8]),
    # each refusal, in every kind of turn that can have it, while the conditions of later ones hold as well
    ("processor_comes_first", [(START, 4), L(4, 64), S(4, 64, 7), (SQUASH, 4), (COMMIT, 4), R(4, 64)], [-1] * 6),
    ("one_task_a_processor", [(START, 0)], [-2]),
    ("task_comes_next", [(COMMIT, 0), L(0, 64), S(0, 64, 7), (SQUASH, 0), (COMMIT, 0), R(0, 64)], [0] + [-3] * 5),
    ("address_comes_next", [L(1, 5), L(1, 69), S(1, 69, 7), R(1, 69)], [0, -4, -4, -4]),
    ("sixteen_classes", [L(1, 5), L(1, 13), L(2, 21), L(1, 5), S(1, 21, 7)], [0, 0, 0, 0, -5]),
    ("own_word_takes_class", [S(1, 5, 7), S(1, 5, 8), L(1, 21)], [0, 0, -5]),
    ("not_head_before_not_held", [R(1, 5)], [-6]),
    ("commit_counts_own_words", [L(0, 5), S(0, 6, 7), S(0, 8, 9), (COMMIT, 0)], [0, 0, 0, 2]),
]

# runs that are no theorem of the specs today, for machines that nothing refuses
PROPOSED = []


# the runs that fail, each as its turns and answers up to the first answer that is another, and what that must be
def fails(machine, runs):
    failed = {}
    for name, turns, expected in runs:
        store = machine([0] * 64)
        for p in range(4):
            store.play((START, p))
        answers = []
        for turn, due in zip(turns, expected):
            answers.append(store.play(turn))
            if answers[-1] != due:
                failed[name] = (turns[:len(answers)], answers, due)
                break
    return failed


# ---- the wrong machines: what each does, and where the proof breaks when the definitions in crates/versions/specs say so
# too. That was seen by making the change and checking the crate; nothing here computes it. "In shape alone" says
# that the laws hold of the machine all the same: the proof follows the text of the definition.

MACHINES = []


def wrong(says, proof):
    def add(cls):
        MACHINES.append((says, proof, cls))
        return cls
    return add


def without(number, kinds=None):
    """A store that never gives a refusal, to turns of some kinds."""
    class Without(Store):
        def holding(self, turn):
            return (r for r in super().holding(turn) if r != number or (kinds and turn[0] not in kinds))
    return Without


def ordered(*order):
    """A store that checks the conditions of its refusals in another order."""
    class Ordered(Store):
        def refusal(self, turn):
            return min(self.holding(turn), key=order.index, default=None)
    return Ordered


@wrong("a store squashes all later tasks", "`squashed_by-count` (Columns)")
class _(Store):
    def squashed(self, i, a, w):
        return set(range(i + 1, len(self.order)))


@wrong("a store squashes the oldest hit task alone, and not those after it", "`squashed_by-count` (Columns)")
class _(Store):
    def squashed(self, i, a, w):
        hit = self.hit(i, a)
        return set() if hit is None else {hit}


@wrong("a store squashes from the last hit task on", "`squashed_by-count` (Columns)")
class _(Store):
    def hit(self, i, a):
        last = None
        for k in range(i + 1, len(self.order)):
            if a in self.order[k].marks:
                last = k
            if a in self.order[k].own:
                break
        return last


@wrong("a load gives the memory's word", "`load-sees` (Turning)")
class _(Store):
    def seen(self, i, a):
        return self.memory[a]


@wrong("a load passes over the task's own word", "`load-sees` (Turning)")
class _(Store):
    def seen(self, i, a):
        return super().seen(i - 1, a) if i else self.memory[a]


@wrong("a load sets no mark", "`mark-run` (Cells)")
class _(Store):
    def mark(self, task, a):
        pass


@wrong("a started task has a mark at every address", "`task_of-at` (Columns)")
class _(Store):
    def new_task(self, p):
        t = Task(p)
        t.marks = set(range(len(self.memory)))
        return t


@wrong("the marks of a squashed task stay for the next one on its processor", "`start-together` (Turning)")
class _(Store):
    def __init__(self, words):
        super().__init__(words)
        self.left = {}

    def squash(self, p):
        for t in self.order[self.place(p):]:
            self.left[t.on] = t.marks
        return super().squash(p)

    def store(self, p, a, w):
        for k in self.squashed(self.place(p), a, w):
            self.left[self.order[k].on] = self.order[k].marks
        return super().store(p, a, w)

    def new_task(self, p):
        t = Task(p)
        t.marks = set(self.left.pop(p, ()))
        return t


@wrong("a commit forgets the word at address 0", "`get_or-laid_over_all` (Holding)")
class _(Store):
    def settle(self, task):
        for a, w in task.own.items():
            if a != 0:
                self.memory[a] = w


@wrong("a commit forgets the own word with the highest address", "`get_or-laid_over_all` (Holding)")
class _(Store):
    def settle(self, task):
        for a, w in task.own.items():
            if a != max(task.own):
                self.memory[a] = w


@wrong("a replacement keeps the own word", "`replace-together` (Turning), in shape alone")
class _(Store):
    def drop(self, task, a):
        task.marks.discard(a)


@wrong("a replacement keeps the mark", "`replace-together` (Turning), in shape alone")
class _(Store):
    def drop(self, task, a):
        task.own.pop(a, None)


@wrong("a replacement writes nothing to memory", "`replace-together` (Turning)")
class _(Store):
    def write_back(self, task, a):
        return 1 if a in task.own else 0


@wrong("a load of an own word sets the mark too", "`mark-run` (Cells)")
class _(Store):
    def mark(self, task, a):
        task.marks.add(a)


@wrong("an own word in between hides nothing", "`squashed_by-count` (Columns)")
class _(Store):
    def hit(self, i, a):
        return next((k for k in range(i + 1, len(self.order)) if a in self.order[k].marks), None)


@wrong("an own word hides its own task's mark", "`squashed_by-count` (Columns)")
class _(Store):
    def hit(self, i, a):
        for k in range(i + 1, len(self.order)):
            if a in self.order[k].own:
                return None
            if a in self.order[k].marks:
                return k
        return None


@wrong("a store clears the mark", "`mark-run` (Cells)")
class _(Store):
    def write(self, task, a, w):
        super().write(task, a, w)
        task.marks.discard(a)


wrong("a task that is not the head may commit", "`accepted-together` (Turning)")(without(6, [COMMIT]))
wrong("the head may be squashed", "`accepted-together` (Turning)")(without(7))
wrong("a task that is not the head may replace", "`accepted-together` (Turning)")(without(6, [REPLACE]))
wrong("refusal 5 is never given", "nowhere")(without(5))
wrong("refusal 4 goes before refusal 3", "`accepted-together` (Turning), in shape alone")(ordered(1, 2, 4, 3, 5, 6, 7, 8))


@wrong("a store that squashes does not write its word", "`store-together` (Turning)")
class _(Store):
    def writes(self, gone):
        return not gone


@wrong("a squash takes out the later tasks and leaves the processor's own", "`squash-together` (Turning)")
class _(Store):
    def squash(self, p):
        i = self.place(p)
        n = len(self.order) - i - 1
        del self.order[i + 1:]
        return n


# further rules: what is carried out, the refusals and their order, and the numbers given

@wrong("a store of the word that is seen there squashes none", "`store-together` (Turning)")
class _(Store):
    def squashed(self, i, a, w):
        return set() if self.seen(i, a) == w else super().squashed(i, a, w)


@wrong("a load sees the later tasks' words too", "`load-sees` (Turning)")
class _(Store):
    def seen(self, i, a):
        return super().seen(len(self.order) - 1, a)


@wrong("a squash takes out the processor's task alone", "`squash-together` (Turning)")
class _(Store):
    def squash(self, p):
        n = len(self.order) - self.place(p)
        del self.order[self.place(p)]
        return n


@wrong("a started task is the oldest", "`start-together` (Turning)")
class _(Store):
    def start(self, p):
        self.order.insert(0, Task(p))
        return len(self.order) - 1


@wrong("a commit takes out the later tasks too", "`commit-together` (Turning)")
class _(Store):
    def commit(self, p):
        n = super().commit(p)
        self.order = []
        return n


@wrong("a turn that is refused with 5 is carried out all the same", "`turn-together` (Turning)")
class _(Store):
    def play(self, turn):
        answer = super().play(turn)
        if answer == -5:
            getattr(self, turn[0].lower())(*turn[1:])
        return answer


wrong("refusal 1 is never given", "nowhere")(without(1))
wrong("refusal 2 is never given", "nowhere")(without(2))


wrong("refusal 3 is never given", "`accepted-together` (Turning), in shape alone")(without(3))
wrong("refusal 4 is not given to a store", "nowhere")(without(4, [STORE]))
wrong("refusal 8 is never given", "nowhere")(without(8))
wrong("refusal 3 goes before refusal 1", "`accepted-together` (Turning), in shape alone")(ordered(3, 1, 2, 4, 5, 6, 7, 8))
wrong("refusal 5 goes before refusal 4", "`accepted-together` (Turning), in shape alone")(ordered(1, 2, 3, 5, 4, 6, 7, 8))
wrong("refusal 6 goes before refusal 3", "`accepted-together` (Turning), in shape alone")(ordered(1, 2, 6, 3, 4, 5, 7, 8))
wrong("refusal 6 goes before refusal 4", "`accepted-together` (Turning), in shape alone")(ordered(1, 2, 3, 6, 4, 5, 7, 8))
wrong("refusal 8 goes before refusal 6", "`accepted-together` (Turning), in shape alone")(ordered(1, 2, 3, 4, 5, 8, 6, 7))


@wrong("classes are remainders by 8", "nowhere")
class _(Store):
    def class_taken(self, task, kind, a):
        return task is not None and any(b != a and b % 8 == a % 8 for b in task.held())


@wrong("a task holds one address at most", "nowhere")
class _(Store):
    def class_taken(self, task, kind, a):
        return task is not None and any(b != a for b in task.held())


@wrong("classes are remainders by 32", "nowhere")
class _(Store):
    def class_taken(self, task, kind, a):
        return task is not None and any(b != a and b % 32 == a % 32 for b in task.held())


wrong("refusal 5 is not given to a store", "nowhere")(without(5, [STORE]))


@wrong("refusal 5 counts marks alone, and no own words", "nowhere")
class _(Store):
    def class_taken(self, task, kind, a):
        return task is not None and any(b != a and b % 16 == a % 16 for b in task.marks)


@wrong("refusal 5 counts what any task holds", "nowhere")
class _(Store):
    def class_taken(self, task, kind, a):
        return task is not None and any(Store.class_taken(self, t, kind, a) for t in self.order)


@wrong("a start counts its own task", "nowhere")
class _(Store):
    def start(self, p):
        return super().start(p) + 1


@wrong("a squash counts the later tasks alone", "nowhere")
class _(Store):
    def squash(self, p):
        return super().squash(p) - 1


@wrong("a commit counts the held addresses", "nowhere")
class _(Store):
    def count(self, task):
        return len(task.held())


@wrong("a commit gives 1 if it wrote, else 0", "nowhere")
class _(Store):
    def count(self, task):
        return min(1, len(task.own))


@wrong("a replacement always gives 1", "nowhere")
class _(Store):
    def write_back(self, task, a):
        return max(1, super().write_back(task, a))


# ---- the search

SIZE = 20
ADDRESSES = (0, 1, 16, 17, 4)   # two classes of two addresses that collide, and an address alone in its class


# a turn that the store will mostly accept
def random_turn(store, addresses, rng):
    active = [t.on for t in store.order]
    idle = [p for p in range(4) if p not in active]
    if rng.random() < 0.05:
        p, a = rng.randrange(5), rng.choice(addresses + [SIZE])
        kind = rng.choice((START, LOAD, STORE, SQUASH, COMMIT, REPLACE))
    else:
        kind = rng.choices((START, LOAD, STORE, SQUASH, COMMIT, REPLACE), (3, 5, 5, 1, 1, 2))[0]
        if not active or kind == START:
            kind, p = START, rng.choice(idle or active)
        elif kind in (COMMIT, REPLACE) and rng.random() < 0.7:
            p = active[0]
        elif kind == SQUASH and len(active) > 1 and rng.random() < 0.7:
            p = rng.choice(active[1:])
        else:
            p = rng.choice(active)
        a = rng.choice(addresses)
    if kind == STORE:
        return (kind, p, a, rng.randrange(4))
    return (kind, p, a) if kind in (LOAD, REPLACE) else (kind, p)


def random_run(machine, rng):
    words = [0] * SIZE if rng.random() < 0.5 else [rng.randrange(4) for _ in range(SIZE)]
    addresses = rng.sample(ADDRESSES, rng.choice((1, 1, 2, 2, 3)))
    store, turns = machine(words), []
    for _ in range(rng.randint(4, 14)):
        turn = random_turn(store, addresses, rng)
        store.play(turn)
        turns.append(turn)
    return words, turns


def breaks(machine, law, words, turns):
    return law in broken(machine, words, turns)[0]


def renamed(turns, processors, addresses, words):
    def one(t):
        t = (t[0], processors(t[1])) + t[2:]
        if len(t) > 2:
            t = t[:2] + (addresses(t[2]),) + t[3:]
        return t[:3] + (words(t[3]),) if len(t) > 3 else t
    return [one(t) for t in turns]


# a run that breaks the law, cut down
def shortened(machine, law, words, turns):
    if breaks(machine, law, [0] * SIZE, turns):
        words = [0] * SIZE
    again = True
    while again:
        again = False
        for i in range(len(turns) - 1, -1, -1):
            fewer = turns[:i] + turns[i + 1:]
            if breaks(machine, law, words, fewer):
                turns, again = fewer, True
    first = {}
    for t in turns:
        first.setdefault(t[1], len(first))
    same = lambda x: x
    for change in (
        (lambda p: first[p], same, same),
        (same, lambda a: a % 16, same), (same, lambda a: 0, same), (same, lambda a: a // 16 * 16, same),
        (same, same, lambda w: 1), (same, same, lambda w: min(w, 1)),
    ):
        other = renamed(turns, *change)
        if breaks(machine, law, words, other):
            turns = other
    return words, turns


# for each law, the shortest run found that breaks it
def search(machine, runs, rng, enough=30):
    shortest, count = {}, dict.fromkeys(LAWS, 0)
    for _ in range(runs):
        words, turns = random_run(machine, rng)
        for law in broken(machine, words, turns)[0]:
            if count[law] < enough:
                count[law] += 1
                words2, turns2 = shortened(machine, law, words, turns)
                key = (len(turns2), any(words2), turns2)
                if law not in shortest or key < shortest[law][0]:
                    shortest[law] = (key, words2, turns2)
        if all(n >= enough for n in count.values()):
            break
    return {law: shortest[law][1:] for law in LAWS if law in shortest}


def answer_text(n):
    return str(n) if n >= 0 else "no %d" % -n


def run_text(turns, answers):
    return ", ".join("%s → %s" % (" ".join(map(str, t)), answer_text(n)) for t, n in zip(turns, answers))


def broken_text(machine, law, words, turns):
    found, answers = broken(machine, words, turns)
    over = " over the words %s" % " ".join(map(str, words)) if any(words) else ""
    return f"{law}: {run_text(turns, answers)} ({found[law]}){over}"


def failed_text(name, failed):
    turns, answers, due = failed
    return f"{name}: {run_text(turns, answers)} (must be {answer_text(due)})"


def row(machine, says, proof, laws, worked, proposed):
    names = ["`%s`" % n for n in worked]
    by = ", ".join(list(laws) + names[:2]) + (f" and {len(names) - 2} more runs" if len(names) > 2 else "")
    # the shortest run that breaks a law; what a store sees inside comes last
    law = min(laws, key=lambda k: (k == "mirrors", len(laws[k][1]), LAWS.index(k)), default=None)
    if law:
        shows = broken_text(machine, law, *laws[law])
    else:
        shows = next(("after four starts" + failed_text("", f) for f in (worked or proposed).values()), "")
    if proof == "nowhere":
        proof = "`worked_runs_hold` alone" if worked else "nowhere: all is proved"
    return f"| {says} | {by or '**nothing**'} | {shows} | {proof} |"


RIGHT_RUNS, WRONG_RUNS = 30000, 3500


def main(markdown):
    rng = random.Random(20)
    for _ in range(RIGHT_RUNS):
        words, turns = random_run(Store, rng)
        bad = broken(Store, words, turns)[0]
        assert not bad, (bad, words, turns)
    assert not fails(Store, WORKED) and not fails(Store, PROPOSED)
    if not markdown:
        print(f"The right machine: {RIGHT_RUNS} random runs break no law, and every worked run holds.")
    for says, proof, machine in MACHINES:
        laws = search(machine, WRONG_RUNS, random.Random(says))
        worked, proposed = fails(machine, WORKED), fails(machine, PROPOSED)
        if markdown:
            print(row(machine, says, proof, laws, worked, proposed))
            continue
        print(f"\n{says}")
        for law in laws:
            print("    " + broken_text(machine, law, *laws[law]))
        for f in worked.items():
            print("    worked run " + failed_text(*f))
        if not laws and not worked:
            print("    NOTHING refuses it. A run that would: " + (failed_text(*next(iter(proposed.items()))) if proposed else "none known"))


if __name__ == "__main__":
    main("--markdown" in sys.argv[1:])
