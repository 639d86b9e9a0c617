"""Checkers in a book, proved sound, to which the book switches: levels 2 to 9."""
