"""The folder in which an example saves its pictures."""

import os
import sys


def folder_told() -> str:
    """Returns the first command line argument, and creates the folder if it doesn't exist. Ends the
    program with a message if files can't be written there."""
    name = os.path.basename(sys.argv[0])
    folder = sys.argv[1] if len(sys.argv) > 1 else ""
    if not folder or folder.startswith("-"):
        sys.exit(f"usage: {name} FOLDER ..")
    try:
        os.makedirs(folder, exist_ok=True)
    except OSError as error:
        sys.exit(f"{name}: the folder {folder!r} can't be created: {error.strerror}: give another "
                 "FOLDER")
    if not os.access(folder, os.W_OK | os.X_OK):
        sys.exit(f"{name}: no file can be written to the folder {folder!r}: give another FOLDER")
    return folder
