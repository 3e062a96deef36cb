"""The checks of the built program (`tests/outside.py`) and of its launcher (`tests/launcher.py`), one subject a file."""
