"""A small repository for the tests of the scripts `desk` and `check`, over a stand-in for `rt` that
notes its calls and makes a program."""
import os
import shutil
import subprocess
import sys
import tempfile
import unittest

from tests.support.programs import ROOT, until

TOOLS = (
    'awk',
    'cat',
    'chmod',
    'cmp',
    'dirname',
    'env',
    'find',
    'flock',
    'grep',
    'gzip',
    'head',
    'id',
    'kill',
    'ls',
    'mkdir',
    'mv',
    'rm',
    'sed',
    'sh',
    'sha256sum',
    'sleep',
    'sort',
    'touch',
    'xargs',
)
SCRIPTS = (
    'desk',
    'dev/build-desk',
    'dev/build-unproved',
    'dev/building.py',
    'dev/ci-with-jobs',
    'dev/desk-arguments',
    'dev/desk-file',
    'dev/own-folder',
    'dev/release',
    'dev/run-desk',
    'dev/sources',
    'dev/unpack-release',
)
# A line that the program takes, and what the stand-in for it prints of these words.
REPLAY = ('replay', '--db', 'memory', '--at', '5')
PRINTED = 'replay|--db|memory|--at|5|'

CRATES = """# a comment
agv_app: agv_middle kit_crate agv_first
agv_first:
agv_middle: agv_first
agv_middle_tests: agv_app
"""

# It notes the folder that it is in and its words. For `ci` it wants a repository of crates without
# must-fail edits, in which each crate stands behind those that it uses, and makes a program; where
# it is to be slow it waits at each crate until that was seen. For `try` it leaves a small module
# and a larger one, the program's, and goes on until it is ended.
RT = """#!/bin/sh
[ "$1" != version ] || exec echo 'a kit'
folder=${PWD##*/}
echo "${folder%-*} $*" >>"$NOTES/calls"
echo $$ >"$NOTES/process"
if [ "$1" = try ]; then
    if [ ! -e "$NOTES/no-module" ]; then
        mkdir -p "$TMPDIR/a/a" "$TMPDIR/a/b"
        echo small >"$TMPDIR/a/a/module.bc"
        touch "$TMPDIR/a/a/module-1.o.tmp"
        { echo module; printf '%20000s' ''; } >"$TMPDIR/a/b/module.bc"
        touch "$TMPDIR/a/b/module-1.o.tmp"
        exec sleep 600
    fi
    cat "$NOTES/no-module"
    [ ! -e "$NOTES/status" ] || exit "$(cat "$NOTES/status")"
    exit 0
fi
[ -d .git ] && [ -e HANDLES ] || { echo 'this is no top'; exit 1; }
[ ! -e "$NOTES/says" ] || cat "$NOTES/says"
WAIT='for try in 1 2 3 4 5 6 7 8 9; do
    for more in 1 2 3 4 5 6 7 8 9; do [ ! -e "$0" ] || exit 0; sleep 2; done
done
exit 1'
before=' kit_crate '
while IFS=: read -r crate uses; do
    for used in $uses; do
        case $before in *" $used "*) ;; *) echo "$used is not there"; exit 1 ;; esac
    done
    before="$before$crate "
    for part in src specs proofs; do
        [ -d "crates/$crate/$part" ] || { echo "$crate has no $part"; exit 1; }
    done
    [ ! -e "crates/$crate/must-fail" ] && [ ! -e "crates/$crate/out" ] ||
        { echo "$crate has more than is read"; exit 1; }
    [ ! -e "$NOTES/slow" ] || sh -c "$WAIT" "$NOTES/seen-$crate" --crate-name "$crate" ||
        { echo 'nobody has seen it'; exit 1; }
    echo "== $crate"
    if [ -e "$NOTES/fails" ] && [ "$crate" = "$(cat "$NOTES/fails")" ]; then
        echo "fn $crate::one: not proved"
        echo 'logic=not-proved'
        echo "rt: $crate NOT PROVED"
        exec sleep 600
    fi
    if [ -e "$NOTES/kept" ]; then
        echo "rt: $crate is kept: an earlier run proved it"
        continue
    fi
    echo 'logic=proved functions=1'
    echo "rt: $crate proved"
done <crates.txt
mkdir -p crates/agv_app/out
cp "$NOTES/program" crates/agv_app/out/agv_app
[ "$(cat crates/agv_app/stdin)" = text ] && [ ! -e "$NOTES/differs" ] ||
    { echo 'agv_app: it wrote something else'; echo '2 passed, 1 failed'; exit 1; }
echo '3 passed, 0 failed'
"""
# It prints its words, and exits with 3.
ECHO = """#!/bin/sh
printf "%s|" "$@"
exit 3
"""
# The kit's compiler and linker: they carry the module's text over.
CLANG = """#!/bin/sh
cat module.bc >module.o
"""
LINK = """#!/bin/sh
read -r first <module.o && [ "$first" = module ] &&
    cat "$NOTES/program" >desk.new && chmod +x desk.new
"""


class Tree(unittest.TestCase):
    """A repository of four crates, with a kit and a folder of commands of its own."""

    def setUp(self) -> None:
        folder = tempfile.TemporaryDirectory()
        self.addCleanup(folder.cleanup)
        self.top, self.bin, self.notes, self.kit, self.work = (
            os.path.join(folder.name, name) for name in ('top', 'bin', 'notes', 'kit', 'work')
        )
        for name in (self.top, self.bin, self.notes, self.work):
            os.mkdir(name)
        for tool in (*TOOLS, 'cp'):
            found = shutil.which(tool)
            if found:
                os.symlink(found, os.path.join(self.bin, tool))
        os.symlink(os.path.realpath(sys.executable), os.path.join(self.bin, 'python3'))
        for path, text in (
            ('bin/rt', RT),
            ('bin/rattle-link', LINK),
            ('toolchain/bin/clang', CLANG),
        ):
            self.write(os.path.join(self.kit, path), text, 0o755)
        os.symlink(os.path.join(self.kit, 'bin', 'rt'), os.path.join(self.bin, 'rt'))
        self.set_program(ECHO)
        for name in SCRIPTS:
            os.makedirs(os.path.dirname(os.path.join(self.top, name)), exist_ok=True)
            shutil.copy(os.path.join(ROOT, name), os.path.join(self.top, name))
        shutil.copytree(os.path.join(ROOT, 'docs', 'help'), os.path.join(self.top, 'docs', 'help'))
        self.write('docs/GATE.md', '| `./desk` from nothing | 12 min 34 s |\n')
        self.write('HANDLES', 'Handles allowed: Net.\n')
        self.set_crates(CRATES)
        self.write('crates/agv_app/stdin', 'text')

    def set_crates(self, text: str) -> None:
        self.write('crates.txt', text)
        for crate in [line.split(':')[0] for line in text.splitlines() if line.startswith('agv')]:
            for part in (
                'src/lib.rt',
                'specs/Lib.antt',
                'proofs/Lib.antt',
                'must-fail/one.edit',
                'out/old',
            ):
                self.write(f'crates/{crate}/{part}', 'text')

    def set_program(self, text: str) -> None:
        """What `rt` makes; the program that is there, too, where there is one."""
        self.write(os.path.join(self.notes, 'program'), text, 0o755)
        if os.path.exists(os.path.join(self.top, 'build', 'desk')):
            self.write('build/desk', text)

    def write(self, path: str, text: str, mode: int = 0o644) -> None:
        path = os.path.join(self.top, path)
        os.makedirs(os.path.dirname(path), exist_ok=True)
        with open(path, 'w') as file:
            file.write(text)
        if mode != 0o644:
            os.chmod(path, mode)

    def read(self, path: str) -> str:
        with open(os.path.join(self.top, path)) as file:
            return file.read()

    def note(self, name: str, text: str = '') -> str:
        self.write(os.path.join(self.notes, name), text)
        return os.path.join(self.notes, name)

    def start(
        self, *words: str, stderr: int = subprocess.PIPE, stdin: int = subprocess.DEVNULL
    ) -> 'subprocess.Popen[str]':
        env = {'PATH': self.bin, 'NOTES': self.notes}
        return subprocess.Popen(
            [os.path.join(self.top, 'desk'), *words],
            env=env,
            text=True,
            stdin=stdin,
            stdout=subprocess.PIPE,
            stderr=stderr,
            cwd=self.work,
        )

    def run_desk(self, *words: str) -> tuple[int, str, str]:
        process = self.start(*words)
        out, said = process.communicate(timeout=600)
        return process.returncode, out, said

    def calls(self) -> list[str]:
        path = os.path.join(self.notes, 'calls')
        return self.read(path).splitlines() if os.path.exists(path) else []

    def wait_for(self, path: str) -> None:
        until(lambda: os.path.exists(path), path)
