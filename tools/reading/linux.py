"""What Linux's own UFS reads of volumes: Debian's user-mode-linux, a Linux that runs as a program. Nothing is mounted here."""
import json
import os
import signal
import subprocess
import sys
import time

from reading.sleuthkit import Unread

HERE = os.path.dirname(os.path.realpath(__file__))
# Linux mounts no volume with larger fragments.
MOST_FRAGMENT = 4096
# A machine that makes no progress for so long is ended.
SECONDS = 150


class Linux:
    """Where the package is unpacked, and where answers are kept."""

    def __init__(self, unpacked, work):
        self.program = f"{unpacked}/usr/bin/linux.uml"
        modules = f"{unpacked}/usr/lib/uml/modules"
        if not os.path.exists(self.program):
            raise SystemExit(f"{self.program} isn't there: apt-get download user-mode-linux, and dpkg -x it into {unpacked}")
        self.modules = f"{modules}/{sorted(os.listdir(modules))[0]}"
        self.work = work
        os.makedirs(work, exist_ok=True)

    def boot(self):
        words = [self.program, "mem=512M", "root=/dev/root", "rootfstype=hostfs", "rootflags=/", "rw", f"init={HERE}/guest.sh",
                 "con=null", "con0=fd:0,fd:1", f"uml_dir={self.work}/uml", "umid=reader", "panic=1", "quiet",
                 f"MODULES={self.modules}", f"PYTHON={os.path.realpath(sys.executable)}", f"HERE={HERE}", f"WORK={self.work}"]
        with open(f"{self.work}/console", "ab") as console:
            return subprocess.Popen(words, stdin=subprocess.DEVNULL, stdout=console, stderr=console, start_new_session=True)

    def watch(self, paths, count):
        """Boots a machine, and waits until it ends, or makes no progress; it ends with the tool, too."""
        machine, last = self.boot(), time.time()
        try:
            while machine.poll() is None and time.time() - last < SECONDS:
                time.sleep(0.2)
                now = sum(not os.path.exists(path) for path in paths)
                if now != count:
                    count, last = now, time.time()
        finally:
            if machine.poll() is None:
                os.killpg(machine.pid, signal.SIGKILL)
                machine.wait()

    def read(self, jobs):
        """The answers for (image, changes) jobs: what is read of each. A machine that dies is one answer, and another takes the rest."""
        paths = [f"{self.work}/{number}.json" for number in range(len(jobs))]
        for path in paths:
            if os.path.exists(path):
                os.remove(path)
        with open(f"{self.work}/list", "w") as file:
            for (image, changes), to in zip(jobs, paths):
                file.write(json.dumps([image, changes, to]) + "\n")
        idle = 0
        while missing := [path for path in paths if not os.path.exists(path)]:
            self.watch(paths, len(missing))
            left = [path for path in paths if not os.path.exists(path)]
            if not left:
                break
            idle = idle + 1 if len(left) == len(missing) else 0
            if idle > 2 or not os.path.exists(f"{self.work}/at"):
                raise Unread(f"Linux doesn't run: see {self.work}/console")
            with open(f"{self.work}/at") as file:
                at = file.read()
            if at in left:
                with open(at, "w") as file:
                    json.dump({"mount": "the machine died"}, file)
        answers = []
        for path in paths:
            with open(path) as file:
                answers.append(json.load(file))
        return answers


def differences(volume, wanted, answer):
    """What Linux reads otherwise than it was put in."""
    if answer["mount"] != "ok":
        return [] if volume.fragment > MOST_FRAGMENT else [f"not mounted: {answer['mount']}"]
    found, said = answer["tree"], []
    for path in sorted(set(wanted) | set(found)):
        one, other = found.get(path), wanted.get(path)
        if one is None or other is None or "fault" in one:
            said.append(f"{path}: {one or 'not read'}")
            continue
        for name in ("mode", "links", "uid", "size", "content"):
            if other[name] is not None and one[name] != other[name]:
                said.append(f"{path}: {name} {one[name]}, not {other[name]}")
    return said
