#!/usr/bin/env python3
"""A program in Python that holds a book of synchronizations as a child process, and asks it line by line. README.md explains it.

    client.py PROGRAM    with PROGRAM the path of `cml`
"""
import subprocess
import sys


class Refused(Exception):
    """The rules refuse the command, and nothing has changed."""


class Book:
    """A child process that answers each line as soon as it has read it."""

    def __init__(self, program):
        self.child = subprocess.Popen([program, "trace", "--live"], stdin=subprocess.PIPE, stdout=subprocess.PIPE)

    def ask(self, command):
        """The lines that answer the command."""
        print(f"> {command}")
        self.child.stdin.write(command.encode() + b"\n")
        self.child.stdin.flush()
        answer = [self.line()]
        word, *numbers = answer[0].split(" ")
        if word == "rows":
            answer += [self.line() for _ in range(int(numbers[0]))]
        while word == "resume" and not answer[-1].startswith("fired"):
            answer.append(self.line())
        if word in ("refused", "bad"):
            raise Refused(answer[0])
        return answer

    def line(self):
        """The next line of an answer."""
        line = self.child.stdout.readline()
        if not line:
            raise EOFError(f"{self.child.args[0]} has ended with status {self.child.wait()}")
        text = line.decode().removesuffix("\n")
        print(text)
        return text

    def number(self, command):
        """The number of what the command makes."""
        return int(self.ask(command)[0].split(" ")[1])

    def rows(self):
        """What can be taken now: the numbers of each row."""
        return [row.removeprefix("row ") for row in self.ask("rows")[1:]]

    def close(self):
        """Ends the input, and returns the status."""
        self.child.stdin.close()
        return self.child.wait()


def hand_over(book, ann, bob):
    """Ann sends a value, and Bob receives it."""
    channel = book.number("chan")
    book.ask(f"sync {ann} (send {channel} 42)")
    book.ask(f"sync {bob} (recv {channel})")
    book.ask(f"commit {book.rows()[0]}")


def time_out(book, ann):
    """Ann waits for a value or for ten ticks, and nobody sends."""
    channel = book.number("chan")
    book.ask(f'sync {ann} (choose (recv {channel}) (wrap (after 10) 1 "timed out"))')
    assert not book.rows()
    book.ask("clock 10")
    book.ask(f"commit {book.rows()[0]}")


def lock(book, ann, bob):
    """Both want the lock, and one waits until the other gives it back."""
    variable = book.number("mvar ()")
    for thread in (ann, bob):
        book.ask(f"sync {thread} (mtake {variable})")
    first, second = book.rows()
    book.ask(f"commit {first}")
    try:
        book.ask(f"commit {second}")
    except Refused:
        book.ask(f"mput {variable} ()")
        book.ask(f"commit {second}")


def cancel(book, ann, bob):
    """Ann asks and takes something else at once, and Bob hears that the request is void."""
    channel, nack = book.number("chan"), book.number(f"nack {ann}")
    book.ask(f"sync {ann} (choose (scope {nack} (recv {channel})) (always 7))")
    book.ask(f"sync {bob} (nack {nack})")
    book.ask(f"commit {book.rows()[0]}")
    book.ask(f"commit {book.rows()[0]}")


def main():
    book = Book(sys.argv[1])
    ann, bob = book.number("spawn"), book.number("spawn")
    hand_over(book, ann, bob)
    time_out(book, ann)
    lock(book, ann, bob)
    cancel(book, ann, bob)
    return book.close()


if __name__ == "__main__":
    sys.exit(main())
