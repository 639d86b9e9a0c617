"""The theorems of the library, one module a subject, each by its statement, what is inducted upon and its lemmas."""
