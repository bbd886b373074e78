#!/usr/bin/env python3
"""Checks `bin/prove.py`, and which build `bin/run.sh` runs, in a copy of the repository with an `rt` that proves nothing.

That `rt` is of a kit whose `rt ci` takes no names, or whose usage lists them: with more arguments it prints its usage and fails.
Without, it notes the crates that it finds, and writes a script instead of each program. The last line is `N passed, M failed`.
"""
import os
import shutil
import subprocess
import sys
import tempfile
import time

TOP = os.path.dirname(os.path.dirname(os.path.realpath(__file__)))
RT = """#!/bin/sh
if [ "$1" != ci ]; then exec '{rt}' "$@"; fi
if [ $# -gt 1 ]; then [ "$CI" = true ] && USAGE='without names'; echo "usage: rt ci $USAGE"; exit 2; fi
cp crates.txt HANDLES '{room}'
ls crates > '{room}/crates'
echo $(ls crates) >> '{room}/runs'
echo "+ $(tail -n 1 crates.txt)" >> '{room}/spans'
[ -n "$SLOW" ] && sleep 0.2
failed=0
for name in $(ls crates); do
  if [ "$name" = "$REFUSED" ]; then
    failed=1
    echo "== $name
$PWD/crates/$name/src/lib.rt:1:1: error
rt: $name NOT PROVED"
  else
    echo "rt: $name proved"
    if [ -f "crates/$name/src/main.rt" ]; then
      mkdir -p "crates/$name/out"
      echo '#!/bin/sh
echo "a program, $*"' > "crates/$name/out/$name"
      chmod +x "crates/$name/out/$name"
    fi
  fi
done
echo "- $(tail -n 1 crates.txt)" >> '{room}/spans'
echo "7 passed, $failed failed"
exit $failed
"""
# Notes the hash of a program from eight threads.
MANY_SUMS = """
import concurrent.futures, sys
sys.path.insert(0, "bin")
import sources
sum = open("{program}.sum").readline().strip()
with concurrent.futures.ThreadPoolExecutor(8) as pool:
    for it in [pool.submit(sources.write_sum, "{program}", sum, sources.now()) for _ in range(400)]:
        it.result()
"""
BELOW = {"openapi_map", "openapi_node", "openapi_tables"}
ABOVE = {"openapi", "openapi_cases", "openapi_vectors", "example_linter"}


def main():
    passed = failed = 0

    def check(what, holds):
        nonlocal passed, failed
        passed, failed = passed + bool(holds), failed + (not holds)
        if not holds:
            print(f"FAILED: {what.strip()}")

    def run(*words, **more):
        env = {**os.environ, "PATH": f"{room}/tools:{os.environ['PATH']}", "OPENAPI_CLEAN_QUIET": "", "REFUSED": "", "CI": "", "USAGE": "", "SLOW": "", "TMPDIR": noted, **more}
        return subprocess.run(words, cwd=copy, env=env, stdin=subprocess.DEVNULL, stdout=subprocess.PIPE, stderr=subprocess.STDOUT, text=True)

    def answers(text, what):
        said = run("./openapi_clean", "tag").stdout
        check(f"{what}: {said}", text in said)

    def change(file, text):
        with open(f"{copy}/{file}", "a") as it:
            it.write(text)

    with tempfile.TemporaryDirectory(prefix="test-prove-") as room:
        copy, noted, program = f"{room}/copy", f"{room}/noted", "crates/openapi_clean/out/openapi_clean"
        os.mkdir(copy)
        os.mkdir(noted)
        for name in ("bin", "crates"):
            shutil.copytree(f"{TOP}/{name}", f"{copy}/{name}", ignore=shutil.ignore_patterns("out"))
        for name in ("crates.txt", "HANDLES", "openapi_clean"):
            shutil.copy(f"{TOP}/{name}", copy)
        # (instead of a build that takes a minute)
        with open(f"{copy}/bin/unproved.py", "w") as it:
            it.write("#!/bin/sh\necho an unproved build\nexit 70\n")
        os.mkdir(f"{room}/tools")
        with open(f"{room}/tools/rt", "w") as it:
            it.write(RT.format(room=room, rt=os.path.realpath(shutil.which("rt"))))
        os.chmod(f"{room}/tools/rt", 0o755)
        answers("an unproved build", "without a proved program, an unproved one answers")

        ran = run("bin/prove.py", "openapi_clean", REFUSED="openapi_node")
        check("a crate that is not proved fails the run", ran.returncode == 1 and ran.stdout.endswith("\n7 passed, 1 failed\n"))
        check("its errors are printed, with the paths of the repository", f"{copy}/crates/openapi_node/src/lib.rt:1:1: error\n" in ran.stdout)
        ran = run("bin/prove.py", "openapi_clean", CI="true")
        check("some crates are not enough for a merge", ran.returncode == 1 and ran.stdout.endswith("\n0 passed, 1 failed\n"))
        ran = run("bin/prove.py", "openapi_nothing")
        check("a crate that is none fails the run", ran.returncode == 1 and ran.stdout.endswith("\n0 passed, 1 failed\n"))

        ran = run("bin/prove.py", "openapi_clean")
        check("a proof ends well", ran.returncode == 0 and ran.stdout.endswith("\n7 passed, 0 failed\n"))
        with open(f"{room}/crates") as it:
            crates = {*it.read().split()}
        check("the crates below are proved, and no others", BELOW | {"openapi_clean"} <= crates and not crates & ABOVE)
        with open(f"{room}/crates.txt") as it, open(f"{copy}/crates.txt") as whole:
            lines, all_lines = it.read().splitlines(), whole.read().splitlines()
        check("each has its line of crates.txt", {it.partition(":")[0] for it in lines} == crates and {*lines} <= {*all_lines})
        with open(f"{room}/HANDLES") as it, open(f"{copy}/HANDLES") as whole:
            check("HANDLES is the repository's", it.read() == whole.read())
        check("each crate is printed", all(f"\n{it} proved after" in f"\n{ran.stdout}" for it in crates))
        check("the program is there", os.access(f"{copy}/{program}", os.X_OK))
        answers("the proved build answers\na program, tag\n", "the proved program answers")
        ran = run(sys.executable, "-c", MANY_SUMS.format(program=program))
        check(f"many may note the hash of a program at the same moment: {ran.stdout[-300:]}", ran.returncode == 0)

        os.utime(f"{copy}/crates/openapi_node/src/lib.rt")
        answers("the proved build answers", "the proved program answers where a source is newer and the same")
        os.remove(f"{copy}/{program}.sum")
        answers("an unproved build", "without its hash, the proved program is older than that source")
        run("bin/prove.py", "openapi_clean")
        change("crates.txt", "# a comment\n")
        change("crates/openapi/src/main.rt", "// a comment\n")
        change("crates/openapi_clean/args", "more\n")
        answers("the proved build answers", "a proved program does not depend on a crate above or beside it")
        change("crates/openapi_tables/specs/Kind.antt", "-- a comment\n")
        answers("an unproved build", "a proved program depends on the definitions of the crates below")
        run("bin/prove.py", "openapi_clean")
        os.rename(f"{copy}/crates/openapi_node/proofs", f"{copy}/elsewhere")
        answers("an unproved build", "a proved program depends on the files that were there")
        os.rename(f"{copy}/elsewhere", f"{copy}/crates/openapi_node/proofs")
        answers("the proved build answers", "a proved program answers again when its sources are back")
        os.remove(f"{copy}/crates/openapi_clean/src/command.rt")
        answers("an unproved build", "a proved program depends on each file")
        shutil.copy(f"{TOP}/crates/openapi_clean/src/command.rt", f"{copy}/crates/openapi_clean/src")
        shutil.rmtree(f"{copy}/crates/openapi_values")
        answers("an unproved build", "a proved program depends on each crate")
        shutil.copytree(f"{TOP}/crates/openapi_values", f"{copy}/crates/openapi_values", ignore=shutil.ignore_patterns("out"))
        answers("the proved build answers", "a proved program answers again when its crates are back")
        source = "crates/openapi_node/src/lib.rt"
        change(source, "// a comment\n")
        # (as `rt run` builds one; the clock of a file system may tick as slowly)
        time.sleep(0.1)
        change(program, "echo another\n")
        answers("another", "a program that is newer than its sources counts as built from them")
        time.sleep(0.1)
        shutil.copy(f"{TOP}/{source}", f"{copy}/{source}")
        answers("an unproved build", "the hash of one program does not count for another")

        alone, names = ["openapi_map", "openapi_map openapi_node"], "names of crates"
        os.remove(f"{room}/runs")
        ran = run("bin/prove.py", "openapi_node", USAGE=names)
        with open(f"{room}/runs") as it:
            check("a kit that keeps proofs proves each library by itself first", it.read().splitlines() == alone)
        check("each crate is printed once", [it.split(" proved")[0] for it in ran.stdout.splitlines()[:-1]] == alone[-1].split())
        check("what is printed ends with the last run", ran.returncode == 0 and ran.stdout.endswith("\n7 passed, 0 failed\n"))
        os.remove(f"{room}/runs")
        ran = run("bin/prove.py", "openapi_node", USAGE=names)
        with open(f"{room}/runs") as it:
            check("a library that was proved by itself is left to the last run", it.read().splitlines() == alone[-1:])
        check("and is printed", [it.split(" proved")[0] for it in ran.stdout.splitlines()[:-1]] == alone[-1].split())
        shutil.rmtree(noted)
        os.mkdir(noted)
        os.remove(f"{room}/runs")
        ran = run("bin/prove.py", "openapi_node", USAGE=names, REFUSED="openapi_map")
        with open(f"{room}/runs") as it:
            check("a library that is not proved ends the run", it.read().splitlines() == alone[:1])
        check("its errors are printed", ran.returncode == 1 and f"{copy}/crates/openapi_map/src/lib.rt:1:1: error\n" in ran.stdout)
        check("and its verdict", ran.stdout.endswith("\n7 passed, 1 failed\n"))
        os.remove(f"{room}/runs")
        ran = run("bin/prove.py", USAGE=names, CI="true")
        with open(f"{room}/runs") as it:
            runs = it.read().splitlines()
        check("before a merge too", ran.returncode == 0 and runs[:2] == alone and "example_linter" in runs[-1])
        shutil.rmtree(noted)
        os.mkdir(noted)
        os.remove(f"{room}/spans")
        run("bin/prove.py", "openapi_text", USAGE=names, SLOW="yes")
        ended, running, most, is_early = set(), set(), 0, False
        with open(f"{room}/spans") as it:
            for sign, name, *uses in (line.replace(":", "").split() for line in it):
                running = running | {name} if sign == "+" else running - {name}
                ended |= {name} if sign == "-" else set()
                most = max(most, len(running))
                is_early |= sign == "+" and not {it for it in uses if it.startswith("openapi_")} <= ended
        check("two libraries are proved side by side, and no more", most == 2)
        check("each when those that it uses are proved", not is_early and {"openapi_map", "openapi_documents", "openapi_text"} <= ended)
        ran = run("bin/prove.py")
        check("all crates are proved at the top of the repository", ran.returncode == 0 and "example_linter proved after" in ran.stdout)
        answers("the proved build answers", "and then the proved program answers")
        with open(f"{room}/tools/rt", "w") as it:
            it.write("#!/bin/sh\necho 'usage: rt ..'\nexit 2\n")
        ran = run("bin/prove.py", "openapi_map")
        check("a kit that does something else fails the run", ran.returncode == 2 and "usage: rt .." in ran.stdout)
    print(f"{passed} passed, {failed} failed")
    return 1 if failed else 0


if __name__ == "__main__":
    sys.exit(main())
