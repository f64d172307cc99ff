"""Tests of build/, and of ./exifnorm and ./exifnorm-pictures over it: what is up to date, what counts as proved, what is compiled and run, and
what is left of a build that fails, is stopped or is killed. The toolchain is that of room.py."""

import os
import shutil
import signal
import subprocess
import sys

import prove
import pytest
import verdict
from crates import Crates
from room import SIGNALS, Room, runs, wait_until
from store import Store

LEVELS = "px_low: byteorder\npx_middle: px_low\npx_high staticlib: px_middle\npx_aside: px_low\n"
SOURCES = ("src/lib.rt", "specs/lemmas/Laws.antt", "proofs/lists/Listed.antt")
CHANGES = {
    "edited": lambda source: source.write_text("two"),
    "edited, with its time put back": lambda source: [source.write_text("two"), os.utime(source, (10**9, 10**9))],
    "taken away": lambda source: source.unlink(),
    "renamed": lambda source: source.rename(source.with_name(f"Another{source.suffix}")),
    "another beside it": lambda source: source.with_name(f"Another{source.suffix}").write_text("one"),
}


# ---- what is up to date


@pytest.fixture
def levels(folder):
    """A folder in which three crates over one another are built, and one aside."""
    (folder / "crates.txt").write_text(LEVELS)
    for crate in ("px_low", "px_middle", "px_high", "px_aside"):
        for name in SOURCES:
            (folder / "crates" / crate / name).parent.mkdir(parents=True)
            (folder / "crates" / crate / name).write_text("one")
    (folder / "out/proved").mkdir(parents=True)
    build(folder)
    return folder


def store_of(top, version="toolchain 1") -> Store:
    return Store(Crates.read(top), version, top / "out/proved")


def build(top, crates=("px_low", "px_middle", "px_high", "px_aside")):
    """Makes what is not up to date of some crates, in place of prove.py."""
    store = store_of(top)
    with store.making_place():
        for crate in crates:
            if crate in store.unbuilt(crate):
                (made := store.making / "made").write_text(store.crates.sum(crate))
                store.put(crate, made, store.expected(crate))


@pytest.mark.parametrize("kind", CHANGES)
@pytest.mark.parametrize("name", SOURCES)
def test_whatever_a_crate_is_made_from_is_in_the_sum(levels, kind, name):
    order = ["px_low", "px_middle", "px_high"]
    for crate in order:
        CHANGES[kind](levels / "crates" / crate / name)
        assert store_of(levels).unbuilt("px_high") == order[order.index(crate) :]
        assert store_of(levels).is_current("px_aside") == (crate != "px_low")
        build(levels)
        assert store_of(levels).is_current("px_high")


@pytest.mark.parametrize(
    "old, new, is_current",
    [
        ("px_low: byteorder", "px_low: byteorder hex", False),
        ("px_high staticlib:", "px_high:", False),
        ("px_high staticlib: px_middle", "px_high staticlib: px_middle px_low", False),
        ("px_aside: px_low\n", "px_aside: # another\n", True),
    ],
)
def test_what_the_list_of_crates_says_is_in_the_sum(levels, old, new, is_current):
    (levels / "crates.txt").write_text(LEVELS.replace(old, new))
    assert store_of(levels).is_current("px_high") == is_current


def test_a_crate_is_good_over_the_very_libraries_that_it_was_built_over(levels):
    proved = levels / "out/proved"
    for name, unbuilt in {"libpx_high.a": 1, "px_low.made-from": 3, "px_middle.made-from": 2, "px_high.made-from": 1}.items():
        (proved / name).rename(levels / "away")
        assert store_of(levels).unbuilt("px_high") == ["px_low", "px_middle", "px_high"][-unbuilt:], name
        (levels / "away").rename(proved / name)
    (proved / "px_low.made-from").write_bytes(b"\xff")
    build(levels, ["px_low"])
    assert store_of(levels).unbuilt("px_high") == ["px_middle", "px_high"], "another px_low of the same sources is below it now"


def test_links_among_the_sources_are_refused(levels):
    (levels / "crates/px_low/specs/calls").symlink_to(levels / "elsewhere")
    with pytest.raises(OSError, match="calls is a link"):
        store_of(levels).is_current("px_high")


def kill_at(step: int) -> None:
    """Kills this process at the change of a file with this number."""
    left = [step]

    def hook(event: str, args: tuple) -> None:
        if event in ("os.mkdir", "os.rename", "os.remove", "os.rmdir") or event == "open" and args[2] and args[2] & 3:
            left[0] -= 1
            if left[0] == 0:
                os.kill(os.getpid(), signal.SIGKILL)

    sys.addaudithook(hook)


def test_a_build_that_is_killed_at_any_change_of_a_file_leaves_no_wrong_product(levels):
    """The edit is then undone: what was made of the edited source is not taken for a product of the other one."""
    source = levels / "crates/px_low/src/lib.rt"
    for step in range(1, 60):
        source.write_text(f"text {step}")
        child = os.fork()
        if not child:
            try:
                kill_at(step)
                build(levels)
            finally:
                os._exit(0)
        killed = os.waitpid(child, 0)[1]
        source.write_text("one")
        build(levels)
        store = store_of(levels)
        for crate in store.crates.uses:
            assert store.is_current(crate) and store.product(crate).read_text() == store.crates.sum(crate), (step, crate)
        assert not store.making.exists() and (killed or step > 20)
        if not killed:
            return
    raise AssertionError("no build came to its end")


def test_what_rt_ci_has_proved_in_a_copy_is_taken_over_where_it_is_the_same(levels):
    copy, low = shutil.copytree(levels, levels / "gate", ignore=shutil.ignore_patterns("out")), levels / "crates/px_low/src/lib.rt"
    for crate in ("px_low", "px_middle", "px_aside"):
        (copy / f"crates/{crate}/out/rlib").mkdir(parents=True)
        (copy / f"crates/{crate}/out/rlib/{crate}.rlib").write_text("of rt ci")
    (copy / "crates/px_low/src/lib.rt").write_text("two")
    (levels / "crates/px_aside/src/lib.rt").write_text("edited meanwhile")
    for text, taken in (("one", []), ("two", ["px_low", "px_middle"])):
        low.write_text(text)
        shutil.copytree(copy, levels / text)
        prove.take(Crates.read(levels / text), store_of(levels))
        assert [crate for crate in store_of(levels).crates.uses if store_of(levels).is_current(crate)] == taken
    assert (levels / "out/proved/px_middle.rlib").read_text() == "of rt ci"


# ---- what counts as proved


WHOLE = (
    "logic=proved functions=1 axioms=2 target=x86_64 cpu=any sum=1f native=nat logic-built=trusted libraries-built=trusted statements=1\n"
)
LEAVES_OUT = (
    "may-wait=1 may-abort=1 may-serve=2 partial=1 hides=1 bugs=1 main=Wait foreign=px_iim::c batches=trusted cache=trusted newer-word=3"
)
VERDICTS = {
    WHOLE: "",
    "warning: no call of `px_iim::one::fn::two` can meet its contract\n" + WHOLE: "",  # |e| match e {} is honest code
    "": "the compiler gave 0 verdicts",
    " logic=proved functions=1 sum=1f\n": "the compiler gave 0 verdicts",
    "logic=failed functions=1 sum=1f\n": "the verdict is logic=failed",
    "logic=proved-in-part functions=1 sum=1f\n": "the verdict is logic=proved-in-part",
    WHOLE + "logic=failed functions=1 sum=1f\n": "the compiler gave 2 verdicts",
    **{f"logic=proved functions=1 {word} sum=1f\n": f"the verdict has {word}" for word in LEAVES_OUT.split()},
    "warning: no call of `px_iim::never` can meet its contract\n" + WHOLE: "warning: no call of `px_iim::never` can meet its contract",
    "note: the search for empty contracts did not end\n" + WHOLE: "note: the search for empty contracts did not end",
}


@pytest.mark.parametrize("text", VERDICTS)
def test_a_crate_counts_as_proved_by_its_whole_verdict_alone(text):
    assert verdict.refused_verdict(text) == VERDICTS[text]


@pytest.mark.parametrize(
    "text", ["", "Handles allowed: Wait.\n", "Handles allowed: none", "Handles allowed: none.\nHandles allowed: Wait.\n"]
)
def test_changed_handles_are_refused(room, text):
    room.write("HANDLES", text)
    ran = room.prove("px_cli")
    assert ran.returncode == 1 and "HANDLES" in ran.stderr and not room.log(), ran


# ---- proofs


def test_each_crate_is_proved_once_after_those_below_it(room):
    ran, built = room.prove("px_cli"), room.built()
    assert ran.returncode == 0 and "proving px_bytes (1 of 4, 3 left)" in ran.stderr, ran
    assert sorted(built) == ["px_bytes", "px_cli", "px_field", "px_iim"] and (built[0], built[-1]) == ("px_bytes", "px_cli"), built
    before = {path: path.lstat().st_mtime_ns for path in (room.top / "out").rglob("*")}
    ran = room.prove("px_cli")
    assert (ran.returncode, ran.stderr, room.built()) == (0, "", []), ran
    assert before == {path: path.lstat().st_mtime_ns for path in (room.top / "out").rglob("*")}, "something was written"
    room.write("crates/px_iim/proofs/Answers.antt", "two")
    assert room.prove("px_cli").returncode == 0 and room.built() == ["px_iim", "px_cli"]


def test_crates_that_need_not_wait_are_proved_side_by_side_and_the_longest_chain_first(room):
    late = Room(room.folder / "late", "px_a: clap\npx_late: px_a\npx_b: px_a\npx_c: px_b\npx_cli: px_c px_late\n")
    late.hold("px_late")
    started = late.start_proof("px_cli")
    late.until("begin", "px_late")
    late.until("end", "px_c")  # it waits for px_b alone
    late.let_go("px_late")
    assert started.communicate(timeout=800)[0] == "" and started.returncode == 0
    gave_way = {name: int(by) for what, name, by in late.log() if what == "end"}
    assert [gave_way[name] for name in ("px_a", "px_b", "px_cli", "px_late")] == [os.nice(0)] * 3 + [19], late.log()


def test_a_proof_that_fails_ends_the_others_and_is_made_again(room):
    room.hold("px_field", "px_iim")
    (room.folder / "fails-px_iim").write_text("".join(f"line {number}.\n" for number in range(1, 51)))
    started = room.start_proof("px_cli")
    other = room.until("begin", "px_field")
    room.let_go("px_iim")
    said = started.communicate(timeout=800)[1]
    assert started.returncode == 1 and "px_iim was not proved or not built: the compiler ended with status 1; its log is" in said
    assert "line 31." in said and "line 30." not in said, "the end of the log is shown"
    wait_until(lambda: not runs(other), "another proof runs on")
    (room.folder / "fails-px_iim").unlink()
    room.let_go("px_field")
    assert room.prove("px_cli").returncode == 0


@pytest.mark.parametrize("text", ["#!/no/such/interpreter\n", "#!/bin/sh\nexit 1\n"])
def test_a_program_that_does_not_start_is_not_built(room, text):
    (room.folder / "program").write_text(text)
    ran = room.prove("px_cli")
    assert ran.returncode == 1 and "the program does not start" in ran.stderr, ran
    assert not (room.top / "out/proved/px_cli").exists()


def test_a_proof_that_is_killed_is_tried_again_with_one_job(room):
    (room.folder / "killed-px_iim").touch()
    assert room.prove("px_cli").returncode == 0, room.log()
    asked = [line for line in (room.folder / "asked").read_text().splitlines() if "--crate-name px_iim" in line]
    assert len(asked) == 2 and "--jobs 1" in asked[1], asked


def test_what_a_killed_build_left_is_waited_for(room):
    room.hold("px_bytes")
    with subprocess.Popen([*SIGNALS, room.top / "build/prove.py", "px_bytes"], env=room.environment, stderr=subprocess.DEVNULL) as started:
        working = room.until("begin", "px_bytes")
        started.kill()
    again = room.start_proof("px_bytes", stderr=open(room.folder / "said", "w", encoding="utf-8"))
    wait_until(lambda: "waiting for it" in (room.folder / "said").read_text(), "it does not wait")
    assert runs(working)
    room.let_go("px_bytes")
    assert again.wait(timeout=800) == 0 and room.built() == ["px_bytes"] * 2


# ---- a proof, and what is compiled without proofs

# how it is begun, the crate at which its compiler waits, the source of it, and the status of one that is stopped
WAYS = {
    "proof": (lambda room, **how: room.start_proof("px_cli", **how), "px_bytes", "crates/px_bytes/src/lib.rt", 1),
    "no proof": (lambda room, **how: room.start("a", **how), "quick-px_cli", "crates/px_cli/src/main.rt", 70),
}
IN_EACH_WAY = pytest.mark.parametrize("start, name, source, status", WAYS.values(), ids=WAYS)


@IN_EACH_WAY
def test_a_source_that_is_changed_meanwhile_is_built_again(room, start, name, source, status):
    """And if that fails, and the edit is undone, what was built first isn't taken."""
    room.hold(name)
    started = start(room)
    room.until("begin", name)
    room.write(source, "two")
    for it in ("fails", "passes"):
        (room.folder / f"{it}-{name}").touch()
    room.let_go(name)
    started.communicate(timeout=800)
    assert started.returncode == status
    (room.folder / f"fails-{name}").unlink()
    room.write(source, "one")
    assert start(room).wait(timeout=800) == 0 and room.built().count(name) == 2


@IN_EACH_WAY
def test_one_build_at_a_time(room, start, name, source, status):
    room.hold(name)
    said = [room.folder / f"said {number}" for number in range(4)]
    started = [start(room, stderr=open(file, "w", encoding="utf-8")) for file in said]
    wait_until(lambda: sum("waiting for it" in file.read_text() for file in said) == 3, "three of four wait")
    room.let_go(name)
    assert [process.wait(timeout=800) for process in started] == [0] * 4 and room.built().count(name) == 1


@pytest.mark.parametrize("how", [signal.SIGTERM, signal.SIGINT, signal.SIGHUP], ids=lambda how: how.name)
@IN_EACH_WAY
def test_a_build_that_is_stopped_ends_with_all_that_it_started(room, start, name, source, status, how):
    started, working, below = room.begun(name, lambda: start(room))
    assert runs(working) and runs(below)
    started.send_signal(how)
    why = started.communicate(timeout=800)[1]
    assert started.returncode == status and why.endswith("\nexifnorm: the build was stopped\n"), why
    wait_until(lambda: not runs(working) and not runs(below), "the compiler runs on, or what it started")
    assert not [*room.top.glob("out/*/making")] and not [*room.top.glob("out/*/*.made-from")]


def test_signals_that_the_caller_ignores_do_not_stop_a_build(room):
    room.hold("px_bytes")
    started = room.start("--ignore-signal=HUP", str(room.top / "build/prove.py"), "px_bytes", program="/usr/bin/env")
    room.until("begin", "px_bytes")
    started.send_signal(signal.SIGHUP)
    room.let_go("px_bytes")
    assert started.communicate(timeout=800) and started.returncode == 0, "nohup has no effect"


# ---- what the launchers compile, and when

OF_PROGRAM, OF_LIBRARY = (
    f"exifnorm: compiling the {name} without its proofs, which takes about a minute; it is not proved, and `make` proves it\n"
    for name in ("program", "library")
)


def outcome(ran) -> tuple:
    return ran.returncode, ran.stdout, ran.stderr


def test_the_first_call_compiles_without_proofs_and_later_ones_only_run(room):
    library = room.top / "out/quick/libexifnorm.so.1"
    for of_program, of_library in ((OF_PROGRAM, OF_LIBRARY), ("", "")):
        assert outcome(room.call("check", "a b", "", "*", "d\ne")) == (0, "quick one: check a b  * d\ne\n", of_program)
        assert outcome(room.pictures("index", "a b", "", cwd="/")) == (7, f"{library} index a b \n", of_library)
    assert room.built() == ["quick-px_cli", "quick-px_c"]
    room.environment["EXIFNORM_LIBRARY"] = "another"
    assert room.pictures("a").stdout == "another a\n", "the caller's library is not used"


def test_a_change_is_compiled_and_a_touched_source_is_not(room):
    room.call()
    room.main.touch()
    assert room.call("a").stderr == ""
    for change in (
        lambda: room.main.write_text("two"),
        lambda: [room.main.write_text("six"), os.utime(room.main, (10**9, 10**9))],
        lambda: room.write("crates/px_iim/proofs/Answers.antt", "two"),
        lambda: (room.folder / "version").write_text("toolchain 2\n"),
        lambda: (room.folder / "KIT-ID").write_text("toolchain 3\n"),  # a kit that has its version in a file, too
        lambda: (room.top / "out/quick/exifnorm").unlink(),
        lambda: room.write("packaging/exifnorm.map", "{ more; }"),
    ):
        change()
        assert outcome(room.call("a")) == (0, f"quick {room.main.read_text()}: a\n", OF_PROGRAM)
    copy = shutil.copytree(room.top, room.folder / "copy")
    room.command(room.bin / "rt", "#!/bin/sh\nexit 3\n")
    assert outcome(room.call("a", program=copy / "exifnorm")) == (0, "quick six: a\n", ""), "the toolchain is started for nothing"


def test_what_make_has_proved_and_built_is_run_while_it_is_up_to_date(room):
    assert room.make("program").returncode == 0
    library = room.write("out/lib/libexifnorm.so.1", "the library")
    assert room.prove("px_c").returncode == 0
    library.touch()
    calls = {"a": "one: a\n", "--where": f"{room.top}/out/exifnorm\n", "--where a": "one: --where a\n"}
    assert {words: room.call(*words.split()).stdout for words in calls} == calls
    assert room.pictures("a").stdout == f"{library} a\n"
    os.utime(library, (10**9, 10**9))
    assert "quick" in room.pictures("a").stdout, "make has not linked it since the proof"
    room.main.write_text("two")
    assert room.call("a").stdout == "quick two: a\n", "the proved program is of other sources"
    assert room.call("--where", cwd="/").stdout == f"{room.top}/out/quick/exifnorm\n"


# ---- what they say if they can't

EACH_LAUNCHER = pytest.mark.parametrize("call", [Room.call, Room.pictures])


@EACH_LAUNCHER
def test_without_a_toolchain_there_is_one_line(room, call):
    call(room)
    room.environment["PATH"] = "/usr/bin:/bin"
    assert call(room).stderr == "", "what is compiled needs the toolchain"
    room.write("crates/px_bytes/src/lib.rt", "two")
    ran = call(room)
    assert (ran.returncode, ran.stdout, len(ran.stderr.splitlines())) == (70, "", 1) and "no command rt" in ran.stderr, ran


@pytest.mark.parametrize("name", ["exifnorm", "exifnorm-pictures"])
def test_without_python_or_outside_its_folder_there_is_one_line(room, name):
    few, outside = room.folder / "few", shutil.copy(room.top / name, room.folder)
    few.mkdir()
    for tool in ("sh", "readlink", "dirname"):
        (few / tool).symlink_to(shutil.which(tool))
    for program, path in ((room.top / name, str(few)), (outside, "/usr/bin:/bin")):
        room.environment["PATH"] = path
        why = f"{name}: cannot find the command python3, or the folder of {program}\n"
        assert outcome(room.call("a", program=program)) == (70, "", why)


def test_a_compilation_that_fails_is_reported_and_proves_nothing(room):
    (room.folder / "fails-quick-px_c").write_text("no\n")
    log = room.top / "out/quick/px_c.log"
    why = f"exifnorm: compile ended with status 1; its log is {log}; `make` proves and builds everything\n"
    assert outcome(room.pictures()) == (70, "", OF_LIBRARY + why)
    assert (log.read_text(), room.built()) == ("no\n", [])
    (room.folder / "fails-quick-px_c").unlink()
    assert room.pictures().returncode == 7
    room.command(room.bin / "rt", "#!/bin/sh\nexit 3\n")
    ran = room.call("a")
    assert ran.returncode == 70 and "status 3" in ran.stderr and "Traceback" not in ran.stderr, ran


@EACH_LAUNCHER
def test_a_folder_that_cannot_be_written_is_reported(room, call):
    (room.top / "out").write_text("a file in place of the folder")
    ran = call(room)
    assert (ran.returncode, ran.stdout, len(ran.stderr.splitlines())) == (70, "", 1) and "cannot write in" in ran.stderr, ran


def test_what_is_built_is_for_all_users(room):
    """Who may write nothing there can call it."""
    room.call()
    how = {} if os.geteuid() else {"user": 65534, "group": 65534, "extra_groups": []}
    room.call("-R", "a-w,a+rX", str(room.folder), program="chmod")
    ran = room.call("a", **how)
    room.call("-R", "u+w", str(room.folder), program="chmod")
    assert outcome(ran) == (0, "quick one: a\n", "")


# ---- how they run the program

# Prints the state of the process that a program runs as: its number, how it treats signals, and its open files.
PROGRAM = r"""#!/bin/sh
echo $$
while read -r name value; do case $name in SigIgn: | SigBlk:) echo "$name $value" ;; esac; done </proc/$$/status
for it in 0 1 2; do [ -e /proc/$$/fd/$it ] && echo "$it is open"; done
exit "$1"
"""


@pytest.mark.parametrize("name", ["-repository", "with space", "a'b\"c", "$HOME", "line\nfeed", "é*?[x]", "\\n"])
def test_it_is_called_from_any_folder_and_through_links(folder, name):
    room = Room(folder, name=name)
    os.symlink(f"{name}/exifnorm", folder / "-link")
    os.symlink("-link", folder / "second")
    os.symlink(name, folder / "folder")
    room.environment["PATH"] += f":{folder}/folder"
    calls = [(f"{name}/exifnorm", folder), ("./-link", folder), (f"{folder}/second", "/"), ("folder/exifnorm", folder), ("exifnorm", "/")]
    for program, cwd in calls:
        assert room.call("-", "b", program=program, cwd=cwd).stdout == "quick one: - b\n", program
    assert room.call("exifnorm", "c", program="sh", cwd=room.top).stdout == "quick one: c\n"


@pytest.mark.parametrize("closes, expected", [("", [0, 1, 2]), ("<&-", [1, 2]), ("2>&-", [0, 1]), ("<&- 2>&-", [1])])
def test_no_shell_and_no_python_stays_and_closed_streams_stay_closed(room, closes, expected):
    (room.folder / "program").write_text(PROGRAM)
    file = room.folder / "written"
    for _ in range(2):
        started = room.start("-c", f'exec "$@" {closes} >"{file}"', "", str(room.top / "exifnorm"), "7", program="/bin/sh")
        assert (started.communicate(timeout=800)[0], started.returncode) == ("", 7)
        number, *rest = file.read_text().splitlines()
        assert int(number) == started.pid and [int(line[0]) for line in rest if line.endswith("open")] == expected
        assert sorted(line for line in rest if line.startswith("Sig")) == [f"{it}: {0:016}" for it in ("SigBlk", "SigIgn")]


def test_an_output_that_takes_nothing_ends_no_build(room):
    with open("/dev/full", "w", encoding="ascii") as full:
        assert room.call("a", stderr=full).stdout == "quick one: a\n"
        assert room.call("--where", stdout=full).returncode == 70, "a place that could not be written was said"
        room.main.write_text("two")
        (room.folder / "fails-quick-px_cli").write_text("no")
        assert room.call("a", stderr=full).returncode == 70


def test_settings_of_the_callers_python_do_not_reach_the_build(room):
    for name in ("hashlib", "subprocess", "sitecustomize"):
        (room.folder / f"{name}.py").write_text("raise SystemExit(5)\n")
    room.environment |= {"PYTHONPATH": str(room.folder), "PYTHONHOME": str(room.folder)}
    assert room.call("a").stdout == "quick one: a\n"
