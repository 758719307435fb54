"""What a series needs: the program, and tools, each with the Debian package that has it."""
import os
import shutil
import sys


def need(program, *tools):
    """Ends with status 2 and one line where the program can't be run or a tool is missing."""
    missing = [f"{tool} is missing; the Debian package {package} has it" for tool, package in tools if shutil.which(tool) is None]
    if program is not None and shutil.which(program) is None:
        missing.insert(0, f"{program} is no program that can be run")
    if missing:
        print(f"{os.path.basename(sys.argv[0])}: {missing[0]}", file=sys.stderr)
        sys.exit(2)
