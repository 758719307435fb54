"""Tries the module tools/scene/scene.py, the scripts that make scenes, and the pages that show some. It needs Python alone.

usage: python3 tools/try/scene_tests [WORD ..]     with words: as `python3 -m unittest` takes them, as -v or -k NAME

Scenes are played by the second implementation, tools/try/second_player.py; with the variable GFX_PLAY set to a built program some are
played by it as well. The status is 0 where all passed.
"""
import os
import sys
import unittest

sys.dont_write_bytecode = True
HERE = os.path.dirname(os.path.abspath(__file__))
sys.path.insert(0, HERE)

if __name__ == "__main__":
    if sys.argv[1:2] in (["--help"], ["-h"]):
        print(__doc__)
        sys.exit(0)
    unittest.TestProgram(module=None, argv=[sys.argv[0], "discover", "-s", HERE, "-p", "test_*.py", *sys.argv[1:]])
