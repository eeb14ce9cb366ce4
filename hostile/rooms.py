"""Folders in which the built program is run, and what is found in them."""
import os
import re
import shutil
import stat

NOBODY = 65534


def bytes_of(path):
    with open(path, "rb") as it:
        return it.read()


def lay(folder, files, mode=0o640):
    """Makes a folder of these files, or makes it so again."""
    shutil.rmtree(folder, ignore_errors=True)
    os.mkdir(folder)
    for name, data in files.items():
        if data is not None:
            with open(f"{folder}/{name}", "wb") as it:
                it.write(data)
            os.chmod(f"{folder}/{name}", mode)


def found(folder):
    """Of each name below the folder what it is, its mode, and what it holds or where it leads."""
    seen = {}
    for above, folders, files in os.walk(folder):
        for name in folders + files:
            path = os.path.join(above, name)
            what = os.lstat(path)
            holds = None
            if stat.S_ISLNK(what.st_mode):
                holds = os.readlink(path)
            elif stat.S_ISREG(what.st_mode):
                os.chmod(path, what.st_mode | 0o400)
                holds = bytes_of(path)
                os.chmod(path, what.st_mode)
            seen[os.path.relpath(path, folder)] = stat.S_IFMT(what.st_mode), stat.S_IMODE(what.st_mode), holds
    return seen


def is_litter(name, written):
    """Whether a killed run may leave a file of this name, which is no file of its user."""
    parts = re.fullmatch(r"\.(.+)\.switch-(lock|[0-9]+)", name)
    return bool(parts) and parts[1] in written


def room_of_nobody(room, program, *others):
    """Puts the program, and others that it needs, into the room and goes on as nobody, since root may write everything."""
    for it in (program, *others):
        shutil.copy(it, room)
        os.chmod(f"{room}/{os.path.basename(it)}", 0o755)
    if os.getuid() == 0:
        os.chown(room, NOBODY, NOBODY)
        os.setgroups([])
        os.setgid(NOBODY)
        os.setuid(NOBODY)
    return f"{room}/{os.path.basename(program)}"
