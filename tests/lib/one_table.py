"""A folder with a key of zeros and a catalog of one table, `people`, over which programs are run within limits.

    OneTable(FOLDER, SECONDS, MEMORY)    SECONDS of processor time, after which a run is ended, and bytes of address space
"""
import resource

from catalog import catalog, owner


class OneTable:
    def __init__(self, folder, seconds, memory):
        self.folder, self.seconds, self.memory, self.rows = folder, seconds, memory, None
        self.write("key", bytes(32))
        self.write("cat.json", catalog(owner()))

    def write(self, name, data):
        with open(f"{self.folder}/{name}", "wb") as file:
            file.write(data)

    def is_new(self, rows, age):
        """Makes a table of so many rows, where it has others by now; AGE gives that of a row by its number."""
        new, self.rows = rows != self.rows, rows
        if new:
            self.write("people.csv", b"age\n" + b"".join(b"%d\n" % age(row) for row in range(rows)))
        return new

    def bound(self):
        """For a child, before its program begins."""
        resource.setrlimit(resource.RLIMIT_CPU, (self.seconds, self.seconds + 1))
        resource.setrlimit(resource.RLIMIT_AS, (self.memory, self.memory))
