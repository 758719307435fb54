"""What stands behind tools/gfx: a module for each few of its words, and what they share. Python 3.8 or later, its library alone."""
