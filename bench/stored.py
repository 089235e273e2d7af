"""What was counted before, in bench/counts, and how that which is counted now compares with it.

A line there has the words of a run, of a text that is judged or of a call, the last of which may be its size, and its number of instructions. The
numbers are those of the program with which they were stored, on one machine: with another C library or a later toolchain they are stored anew first.
"""
import collections
import os

COUNTS = os.path.join(os.path.dirname(os.path.abspath(__file__)), "counts")
# How many times what is stored a count and its growth may be.
MOST = 1.1


def read():
    """The counts that are stored, by their words."""
    if not os.path.exists(COUNTS):
        return {}
    with open(COUNTS, encoding="ascii") as file:
        lines = [line.split() for line in file if not line.startswith("#")]
    return {" ".join(words): int(count) for *words, count in lines}


def store(found):
    """Stores counts in place of those with the same words, and keeps the others."""
    every = {**read(), **found}
    with open(COUNTS, "w", encoding="ascii") as file:
        file.write("# Instructions, counted by valgrind: of whole runs, of the judge on their texts, and of single calls.\n")
        file.writelines(f"{words} {count}\n" for words, count in every.items())
    return f"{len(found)} counts are stored"


def growths(counts):
    """How many times the count at the next smaller size each count is, for what is counted at several sizes."""
    sizes = collections.defaultdict(list)
    for words in counts:
        name, _, size = words.rpartition(" ")
        if size.isdigit():
            sizes[name].append(int(size))
    found = {}
    for name, each in sizes.items():
        for small, large in zip(sorted(each), sorted(each)[1:]):
            found[f"{name} from {small} to {large}"] = counts[f"{name} {large}"] / max(1, counts[f"{name} {small}"])
    return found


def faults(found):
    """What isn't stored, and what is more than a tenth above what is, a line for each."""
    stored = read()
    lacking = [f"{words}: nothing is stored" for words in found if words not in stored]
    known = {words: stored[words] for words in found if words in stored}
    pairs = [(words, found[words], count) for words, count in known.items()]
    grown = growths({words: found[words] for words in known})
    pairs += [(f"growth of {name}", grown[name], growth) for name, growth in growths(known).items()]
    return lacking + [f"{what}: {now:,.2f}, and {was:,.2f} is stored" for what, now, was in pairs if now > MOST * was]


def judge(found):
    """Prints what is amiss with these counts, and a line that counts it; answers the exit status."""
    amiss = faults(found)
    for line in amiss:
        print(line)
    print(f"{len(found)} counted, {len(amiss)} faults")
    return min(1, len(amiss))
