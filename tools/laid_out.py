"""What the tools that write source share: the layout of `rt fmt`, for texts that are not in their place yet."""
import os
import subprocess
import sys
import tempfile


def write(path, text):
    os.makedirs(os.path.dirname(path), exist_ok=True)
    with open(path, "w", encoding="utf-8") as file:
        file.write(text)


def read(path):
    with open(path, encoding="utf-8") as file:
        return file.read()


def laid_out(files, tool):
    """The same files, each a path and its text, with those of Rattle in the layout of `rt fmt`."""
    ours = {path: text for path, text in files.items() if path.endswith((".rt", ".antt"))}
    with tempfile.TemporaryDirectory() as room:
        # rt fmt lays out what is below src/
        for path, text in ours.items():
            write(os.path.join(room, "src", path), text)
        done = subprocess.run(["rt", "fmt"], cwd=room, capture_output=True, text=True)
        if done.returncode:
            sys.exit(f"{tool}: rt fmt refuses what is written:\n" + done.stdout + done.stderr)
        return {**files, **{path: read(os.path.join(room, "src", path)) for path in ours}}
