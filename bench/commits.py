"""Commits by SQLite, as `store.sh` and `groups.sh` measure the program's against: Python's sqlite3, WAL, synchronous=FULL."""

import sqlite3

# So many numbers of rows are used again and again.
NUMBERS = 1_000
INSERT = f"INSERT INTO work2 VALUES ({','.join('?' * 27)})"
INSERT_FIRST = f"INSERT INTO work VALUES ({','.join('?' * 24)})"


def tables_of(store):
    """The statements of the tables of the rows, as the program made them in a store."""
    with sqlite3.connect(store) as connection:
        texts = [text for (text,) in connection.execute("SELECT sql FROM sqlite_schema WHERE type = 'table' ORDER BY rowid")]
    connection.close()
    return texts


def row(number):
    """The row of a work of class Echo that waits for a minute."""
    id = number.to_bytes(16, "big")
    return (2, number, id, None, "Echo", 0, 0, 0, 60000, 1, 30000, *[0] * 9, "{}", "{}", b"", "[]", -1, 0, 0)


def first_row(number):
    """That row in version 1, as `work` has it."""
    return (1, *row(number)[1:24])


def make(connection, tables):
    """Makes the tables."""
    for table in tables:
        connection.execute(table)


def commit_by_sqlite(store, tables, commits):
    """So many commits in a new store with these tables, each of which deletes and inserts one row."""
    connection = sqlite3.connect(store, isolation_level=None)
    connection.execute("PRAGMA journal_mode=WAL")
    connection.execute("PRAGMA synchronous=FULL")
    make(connection, tables)
    for commit in range(commits):
        number = commit % NUMBERS + 1
        connection.execute("BEGIN")
        connection.execute("DELETE FROM work2 WHERE seq = ?", (number,))
        connection.execute(INSERT, row(number))
        connection.execute("COMMIT")
    connection.close()


def remove(store):
    """Removes a store and the files beside it."""
    for file in store.parent.glob(f"{store.name}*"):
        file.unlink()
