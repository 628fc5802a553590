"""The plain model of the lab in the place of overlay_live: its store is a script, and it answers one session."""

import sys

from overlayd_lab.reference.model import Book, Meanings, Refused, RefusedAt


def answer(book: Book, line: bytes) -> list[str]:
    """The lines of the reply to a line."""
    if line == b"SYNC":
        return [f"durable {book.number}"]
    try:
        return book.reply(line)
    except (Refused, RefusedAt) as refusal:
        return [refusal.line()]


def main(words: list[str]) -> None:
    """Makes the layers of the script that --store names, and answers from the first file of the last two to the other.
    """
    book = Book(Meanings())
    if "--store" in words:
        with open(words[words.index("--store") + 1], "rb") as script:
            for line in script:
                answer(book, line.rstrip(b"\n"))
    with open(words[-2], "rb") as lines, open(words[-1], "wb", 0) as replies:
        for line in lines:
            replies.write("".join(text + "\n" for text in answer(book, line.rstrip(b"\n"))).encode())


if __name__ == "__main__":
    main(sys.argv[1:])
