"""One command from a file to YES, NO or MAYBE."""
