#!/usr/bin/env python3
"""Prints a legal history: `workload.py EVENTS CLIENTS SEED [MODEL [KEYS [LOST [ORDER]]]]`, of one key unless a number of keys is given.

Operations take place at random moments, on keys drawn at random. The part LOST of the reads, 0 unless it is given, is never answered: the
client notes `:info`, and its thread goes on with its next process. The order in which the operations took place is written to the file
ORDER, as `jepmon confirm` reads it.
"""
import argparse
import random
import signal

# The effect of the operations of each kind: the state after one and the part of its ok, or None if it can't take place.


def register(state, name, part):
    return (part, part) if name == "write" else (state, state)


def cas_register(state, name, part):
    if name != "cas":
        return register(state, name, part)
    old, new = part.strip("[]").split()
    return (new, part) if state == old else None


def mutex(state, name, part):
    held = name == "acquire"
    return (held, part) if state != held else None


def fifo_queue(state, name, part):
    if name == "enqueue":
        return state + (part,), part
    return (state[1:], state[0]) if state else None


def unordered_queue(state, name, part):
    if name == "enqueue":
        return state + (part,), part
    middle = len(state) // 2
    return (state[:middle] + state[middle + 1:], state[middle]) if state else None


def members(state, name, part):
    if name == "read":
        return state, "#{" + " ".join(sorted(state)) + "}"
    return state | {part}, part


# A client's next step; `waiting` names the operations that have not taken place, and `last` is the client's own.


def of_register(draw, state, waiting, last):
    return ("write", str(draw.randrange(5))) if draw.random() < 0.5 else ("read", "nil")


def of_cas_register(draw, state, waiting, last):
    if state != "nil" and "cas" not in waiting and draw.random() < 0.3:
        return "cas", f"[{state} {draw.randrange(5)}]"
    return of_register(draw, state, waiting, last)


def of_mutex(draw, state, waiting, last):
    return ("release" if last == "acquire" else "acquire"), "nil"


def of_queue(draw, state, waiting, most, values):
    left = len(state) + waiting.count("enqueue") - waiting.count("dequeue")
    if left >= most or left > 0 and draw.random() < 0.5:
        return "dequeue", "nil"
    return "enqueue", str(draw.randrange(values))


def of_fifo_queue(draw, state, waiting, last):
    # A short queue: only the dequeues of their values show the order of enqueues that were open at once.
    return of_queue(draw, state, waiting, 3, 5)


def of_unordered_queue(draw, state, waiting, last):
    # A short one, of twenty values: a dequeue that is open may find each value that is in.
    return of_queue(draw, state, waiting, 3, 20)


def of_long_unordered_queue(draw, state, waiting, last):
    return of_queue(draw, state, waiting, 20, 20)


def of_set(draw, state, waiting, last):
    return "add", str(draw.randrange(5))


def of_large_set(draw, state, waiting, last):
    # Few values come twice, and one operation of twenty reads all of them.
    return ("read", "nil") if draw.random() < 0.05 else ("add", str(draw.randrange(1_000_000)))


def of_set_in_turn(draw, state, waiting, last):
    # As many members, but each add has the next number.
    return ("read", "nil") if draw.random() < 0.05 else ("add", str(len(state) + waiting.count("add")))


MODELS = {
    "register": ("nil", register, of_register),
    "cas-register": ("nil", cas_register, of_cas_register),
    "mutex": (False, mutex, of_mutex),
    "fifo-queue": ((), fifo_queue, of_fifo_queue),
    "set": (frozenset(), members, of_set),
    "unordered-queue": ((), unordered_queue, of_unordered_queue),
}

# Histories whose kind of object has another name.
LOADS = {
    **MODELS,
    "large-set": (frozenset(), members, of_large_set),
    "set-in-turn": (frozenset(), members, of_set_in_turn),
    "long-unordered-queue": ((), unordered_queue, of_long_unordered_queue),
}


def lines(events, clients, seed, model="register", keys=1, lost=0.0, order=None):
    """Events of a store whose keys are such objects, one a line, with operations open at once. So many of the reads are lost. The index
    of each operation's invocation is put into the list `order`, if there is one, when it takes place."""
    draw = random.Random(seed)
    total = events
    start, apply, choose = LOADS[model]
    states = {}
    doing = [None] * clients
    last = [(None, None)] * clients
    process = list(range(clients))

    def take(key, name, part, index):
        taken = apply(states.get(key, start), name, part)
        if taken:
            states[key] = taken[0]
            if order is not None:
                order.append(index)
        return taken

    def text(kind, thread, name, key, part):
        return f"{{:type :{kind}, :process {process[thread]}, :f :{name}, :value [{key} {part}]}}"

    while events > 0:
        thread = draw.randrange(clients)
        if doing[thread] is None:
            held, before = last[thread]
            key = held if before == "acquire" else 7 if keys == 1 else draw.randrange(keys)
            waiting = [op[1] for op in filter(None, doing) if op[0] == key and not op[3]]
            name, part = choose(draw, states.get(key, start), waiting, before if key == held else None)
            last[thread] = key, name
            doing[thread] = [key, name, part, False, total - events]
            yield text("invoke", thread, name, key, part)
            events -= 1
        else:
            key, name, part, done, index = doing[thread]
            if lost and name == "read" and draw.random() < lost:
                doing[thread] = None
                yield text("info", thread, name, key, "nil")
                process[thread] += clients
                events -= 1
                continue
            taken = (None, part) if done else take(key, name, part, index)
            if taken:
                doing[thread] = None
                yield text("ok", thread, name, key, taken[1])
                events -= 1
        for op in filter(None, doing):
            if not op[3] and draw.random() < 0.3:
                taken = take(op[0], op[1], op[2], op[4])
                if taken:
                    op[2:4] = [taken[1], True]


def positive_number(word):
    number = int(word)
    if number < 1:
        raise argparse.ArgumentTypeError(f"{number} is below 1")
    return number


def part_of_one(word):
    part = float(word)
    if not 0 <= part <= 1:
        raise argparse.ArgumentTypeError(f"{part} is no part of 1")
    return part


def main():
    signal.signal(signal.SIGPIPE, signal.SIG_DFL)
    asked = argparse.ArgumentParser(description=__doc__.split("\n", 1)[1], formatter_class=argparse.RawDescriptionHelpFormatter)
    asked.add_argument("events", type=positive_number)
    asked.add_argument("clients", type=positive_number)
    asked.add_argument("seed", type=int)
    asked.add_argument("model", nargs="?", choices=sorted(LOADS), default="register")
    asked.add_argument("keys", nargs="?", type=positive_number, default=1)
    asked.add_argument("lost", nargs="?", type=part_of_one, default=0.0, help="0 to 1")
    asked.add_argument("order", nargs="?", metavar="ORDER", help="a file, which is written")
    given = asked.parse_args()
    order = []
    for line in lines(given.events, given.clients, given.seed, given.model, keys=given.keys, lost=given.lost, order=order):
        print(line)
    if given.order:
        with open(given.order, "w", encoding="ascii") as file:
            file.writelines(f"{index}\n" for index in order)


if __name__ == "__main__":
    main()
