"""Makes the ground GDL text of Countdown, the game that is built into `ggp_manager`, for a heap of any size."""

# The rules that do not depend on the size of the first heap.
RULES = """
(role red) (role blue)
(init (turn red))
(<= busy (not (true (heap 0))))
(<= (legal red (take 1)) (true (turn red)) busy)
(<= (legal red (take 2)) (true (turn red)) busy (not (true (heap 1))))
(<= (legal red noop) (true (turn blue)) busy)
(<= (legal blue (take 1)) (true (turn blue)) busy)
(<= (legal blue (take 2)) (true (turn blue)) busy (not (true (heap 1))))
(<= (legal blue noop) (true (turn red)) busy)
(<= one (or (does red (take 1)) (does blue (take 1))))
(<= two (or (does red (take 2)) (does blue (take 2))))
(<= (next (turn blue)) (true (turn red)))
(<= (next (turn red)) (true (turn blue)))
(<= terminal (true (heap 0)))
(<= (goal red 100) (true (heap 0)) (true (turn blue)))
(<= (goal red 0) (true (heap 0)) (true (turn red)))
(<= (goal blue 100) (true (heap 0)) (true (turn red)))
(<= (goal blue 0) (true (heap 0)) (true (turn blue)))
"""
TAKEN = {1: "one", 2: "two"}


def countdown(heap: int) -> str:
    """Returns the description of Countdown for a first heap of this size."""
    rules = [
        f"(<= (next (heap {size - count})) (true (heap {size})) {word})"
        for size in range(heap, 0, -1)
        for count, word in TAKEN.items()
        if count <= size
    ]
    return f"{RULES}(init (heap {heap}))\n{' '.join(rules)}"
