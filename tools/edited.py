"""What tools/try_turned and tools/try_gate_edits share: edits, copies of the repository's files, and checks of a crate."""
import os
import re
import shutil
import signal
import subprocess
import sys


def read_edit(path):
    """The words of an edit that stand once, as its crate, and its changes: file, old text, new text."""
    heads, file, old, found = {}, None, None, []
    with open(path, encoding="utf-8") as lines:
        for line in lines:
            word, _, rest = line.rstrip("\n").partition(": ")
            if word == "file":
                file = rest
            elif word == "old":
                old = rest
            elif word == "new":
                found.append((file, old, rest.replace("\\n", "\n")))
            elif rest:
                heads[word] = rest
    return heads, found


def texts_of(folder, path, changes):
    """The texts of a crate's folder that an edit changes, by their files: as they are, and as it makes them."""
    texts = {}
    for file, old, new in changes:
        whole = os.path.join(folder, file)
        if whole not in texts:
            before = content(whole)
            texts[whole] = before, before
        before, after = texts[whole]
        if after.count(old) != 1:
            sys.exit("%s: this isn't once in %s of %s: %s" % (path, file, os.path.basename(folder), old))
        texts[whole] = before, after.replace(old, new)
    return texts


def content(file):
    with open(file, encoding="utf-8") as text:
        return text.read()


def write(texts):
    for file, text in texts.items():
        with open(file, "w", encoding="utf-8") as out:
            out.write(text)


def copy_tracked(top, copy, below="."):
    """Copies the files that git tracks, and new ones that it doesn't ignore, as they stand."""
    words = ["git", "ls-files", "-z", "--cached", "--others", "--exclude-standard", below]
    listed = subprocess.run(words, cwd=top, check=True, stdout=subprocess.PIPE).stdout.decode()
    for path in filter(None, listed.split("\0")):
        if os.path.isfile(os.path.join(top, path)):
            os.makedirs(os.path.dirname(os.path.join(copy, path)), exist_ok=True)
            shutil.copy2(os.path.join(top, path), os.path.join(copy, path))


def check(copy, crate, *words, seconds=None):
    """The status of a check of a crate in a copy, and what was said; 124 if it was ended since it took longer than these seconds."""
    run = subprocess.Popen(["rt", "check", *words], cwd=os.path.join(copy, "crates", crate), stdin=subprocess.DEVNULL,
                           stdout=subprocess.PIPE, stderr=subprocess.STDOUT, text=True, errors="replace", start_new_session=True)
    try:
        said, _ = run.communicate(timeout=seconds)
        return run.returncode, said
    except subprocess.TimeoutExpired:
        os.killpg(run.pid, signal.SIGKILL)
        said, _ = run.communicate()
        return 124, f"{said}no end within {seconds} seconds"
    except BaseException:
        os.killpg(run.pid, signal.SIGKILL)
        raise


def errors(said):
    """The prover's errors: the place of each, and what it says, which goes on in the lines behind it that begin with a blank."""
    return re.findall(r"^(\S+\.(?:antt|rt)\S*): error: (.*(?:\n .*)*)$", said, re.M)
