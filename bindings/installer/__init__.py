"""What the command install does, one part a file: its words, what is looked at before the first proof, what is built, which
file goes where, and putting and removing them."""
