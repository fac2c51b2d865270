"""A hundred questions of one database, side by side in processes: the first bus from each of a hundred minutes on.

Each process reads the database once, and asks the questions that come to it one after the other.
"""

from concurrent.futures import ProcessPoolExecutor

import fizhedul

LINE = """relation bus(d: time, a: time) {
  (7+40n, 33+40n) where d >= 360, d <= 1320, a = d + 26;
  (15+60n, 35+60n) where a = d + 20;
}
"""
kept: list[fizhedul.Database] = []


def read() -> None:
    """Keeps the database in this process."""
    kept.append(fizhedul.Database(LINE))


def first_bus(minute: int) -> str:
    """When the first bus leaves from this minute on, and when it arrives."""
    found = kept[0].query(f"{{ d: time, a: time | (bus(d, a) and d >= {minute}) }}").decide()
    return f"from {minute}: {found}"


def main() -> None:
    with ProcessPoolExecutor(4, initializer=read) as processes:
        for line in processes.map(first_bus, range(0, 1400, 14)):
            print(line)


if __name__ == "__main__":
    main()
