#!/usr/bin/env python3
"""command.py PROGRAM

Runs ./sizing in a repository of its own, where PROGRAM stands for the one that is built and a script for rt: by way of links and from
other folders, with code that has changed or not, with no program there, and with builds that fail. Standard output has to be the report
alone, or nothing where a build failed. Prints the runs that are wrong, and how many there were. Exits with 1 where any is wrong.
"""
import os
import shutil
import subprocess
import sys
import tempfile
import time

TOP = os.path.join(os.path.dirname(os.path.abspath(__file__)), "..")
PROGRAM = os.path.abspath(sys.argv[1])
# It says that it ran, tells two crates as rt does, and builds or fails. It leaves a program that stands there alone.
RT = """#!/bin/sh
echo ran >>"$RAN"
echo "crate numbers: modules loaded=0 checked=72"
echo "logic=proved"
echo "crate program: modules loaded=70 checked=9"
[ "$FAILS" != proof ] || { echo "src/main.rt:1:1: error" >&2; exit 1; }
[ -x out/sizing ] || { mkdir -p out && cp "$BUILT" out/sizing; }
[ "$FAILS" != run ] || { echo "its run FAILED"; exit 1; }
"""
verdicts = []


def stored(name):
    with open(os.path.join(TOP, "examples", name), "rb") as file:
        return file.read()


class Repository:
    """Its crates have one file each, older than the program."""
    def __init__(self, place):
        self.place, self.ran = place, os.path.join(place, "ran")
        self.program, self.command = os.path.join(place, "top/target/bin/sizing"), os.path.join(place, "top/sizing")
        with open(os.path.join(TOP, "crates.txt")) as file:
            uses = {line.split(":")[0]: line.split(":")[1].split() for line in file if not line.startswith("#")}
        made_of = {"sizing"}
        for _ in uses:
            made_of |= {used for crate in made_of for used in uses[crate] if used in uses}
        self.count = len(made_of)
        for crate in uses:
            os.makedirs(os.path.join(place, "top/crates", crate, "src"))
            open(os.path.join(place, "top/crates", crate, "src/lib.rt"), "w").close()
        os.makedirs(os.path.dirname(self.program))
        os.makedirs(os.path.join(place, "bin"))
        for name in ("sizing", "crates.txt"):
            shutil.copy(os.path.join(TOP, name), os.path.join(place, "top"))
        with open(os.path.join(place, "bin/rt"), "w") as file:
            file.write(RT)
        os.chmod(file.name, 0o755)
        time.sleep(0.02)
        shutil.copyfile(PROGRAM, self.program)
        os.chmod(self.program, 0o755)

    def changed(self, path):
        time.sleep(0.02)
        os.utime(os.path.join(self.place, "top", path))

    def run(self, name, builds, command=None, cwd=None, month="printed", fails="", says=()):
        """Judges a run: its report and status, whether it built, and what standard error has."""
        env = dict(os.environ, PATH=os.path.join(self.place, "bin") + ":" + os.environ["PATH"], RAN=self.ran, BUILT=PROGRAM, FAILS=fails)
        done = subprocess.run([command or self.command], input=stored(month + ".month"), cwd=cwd or self.place, env=env,
                              stdout=subprocess.PIPE, stderr=subprocess.PIPE, timeout=60)
        built = os.path.exists(self.ran)
        if built:
            os.remove(self.ran)
        due = (b"" if fails else stored(month + ".report")), int(bool(fails) or month == "refused")
        said = done.stderr.decode()
        right = (done.stdout, done.returncode) == due and built == builds and (all(part in said for part in says) if builds else not said)
        verdicts.append(right)
        if not right:
            print(f"wrong: {name} (status {done.returncode}, {'built' if built else 'not built'}, said {said!r})")


def main():
    with tempfile.TemporaryDirectory() as place:
        repository = Repository(place)
        run, changed, count = repository.run, repository.changed, repository.count
        run("as it is", False)
        run("a refused month", False, month="refused")

        os.makedirs(os.path.join(place, "a folder/b"))
        for link, to in (("bin/linked", repository.command), ("a folder/b/relative", "../../top/sizing"), ("again", "a folder/b/relative")):
            os.symlink(to, os.path.join(place, link))
        run("a link", False, os.path.join(place, "bin/linked"))
        run("a link on the path", False, "linked", cwd=os.path.join(place, "a folder"))
        run("a relative link", False, "./relative", cwd=os.path.join(place, "a folder/b"))
        run("a link to a link", False, "../../again", cwd=os.path.join(place, "a folder/b"))
        run("its own folder", False, "./sizing", cwd=os.path.join(place, "top"))

        for path, builds in (("crates/numbers/src/lib.rt", True), ("crates/sizing/src/lib.rt", True), ("crates/month/src", True),
                             ("crates.txt", True), ("crates/calls/src/lib.rt", False), ("sizing", False)):
            changed(path)
            run(path + " changed", builds, says=("sizing: the program is older",))
            run(path + " changed, once more", False)
        changed("crates/numbers/src/lib.rt")
        for time_of in ("first", "second"):
            run(f"a broken crate, the {time_of} time", True, fails="proof", says=(f"sizing: crate {count - 1} of {count}: program\n", "logic", "error"))
        run("a crate that is whole again", True, command=os.path.join(place, "again"))
        shutil.rmtree(os.path.join(place, "top/target"))
        run("no program, a broken crate", True, fails="proof", says=("sizing: the first run", "error"))
        run("no program, a run that fails", True, fails="run", says=("sizing: the first run", "FAILED"))
        run("a run that fails, once more", True, fails="run", says=("sizing: the first run", "FAILED"))
        shutil.rmtree(os.path.join(place, "top/target"))
        run("no program", True, says=("sizing: the first run", f"sizing: crate 1 of {count}: numbers\n"))
        run("no program, once more", False)

    print(f"{len(verdicts)} runs, {verdicts.count(False)} wrong")
    sys.exit(0 if all(verdicts) else 1)


if __name__ == "__main__":
    main()
