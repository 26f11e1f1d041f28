"""What tools/package makes of the program's own help and of the documents: the manual page, and
what completes the program's words in bash."""
