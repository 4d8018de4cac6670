"""`check`: what 01's checking program prints of each image; with --explain, plain sentences behind it."""
import subprocess

from command import build, explain, files, library
from command.output import Trouble, finish, say


def ask(checker, path, image):
    """What the checking program prints of an image."""
    answer = subprocess.run([checker], input=image, stdout=subprocess.PIPE, stderr=subprocess.DEVNULL)
    if answer.returncode != 0:
        raise Trouble(f"{files.shown(path)}: the checking program ended with status {answer.returncode}")
    return answer.stdout.decode("ascii")


def check(found, paths):
    checker, status = build.checker(), 0
    if "--explain" in found:
        library.proved()
    for i, (path, image) in enumerate(files.images(paths)):
        if image is None:
            status = 1
            continue
        text = ask(checker, path, image)
        if len(paths) > 1:
            say(("\n" if i else "") + f"== {files.shown(path)}")
        say(text, end="")
        if "--explain" in found:
            say()
            for line in explain.lines(image):
                say(line)
        finish()
        if "--strict" in found and status == 0 and not text.endswith("verdict 0 0\n"):
            status = 3
    return status
