"""`make release` in two folders: the same bytes, and the forms that test_installed.py doesn't use. And what `make clean` and `help` do."""

import json
import os
import re
import shutil
import subprocess
from unittest import mock

import pytest

import machines
import release
from releases import DEBS, TOP, environment, one, run

PYTHON = "/usr/bin/python3"
SYSTEM_PATH = "/usr/sbin:/usr/bin:/sbin:/bin"
DEBS_OF_AARCH64 = ("exifnorm_*_arm64", "libexifnorm-dev_*_arm64", "libexifnorm1_*_arm64")
pytestmark = pytest.mark.xdist_group("release")  # the releases are built once


# ---- the files


def test_two_runs_in_different_folders_write_the_same_bytes(releases):
    first, second = ({it.name: it.read_bytes() for it in folder.iterdir()} for folder in releases)
    assert sorted(first) == sorted(second)
    assert [name for name in first if first[name] != second[name]] == []


def test_each_file_that_the_readme_names_is_there_and_the_other_way_round(made):
    text = (made / "README").read_text()
    assert "@" not in text
    named = {
        it.removeprefix("./") for it in re.findall(r"\S*exifnorm\S*[_-]\d\S*\.(?:deb|whl|tar\.gz|tgz|tar\.xz|dsc|json|html|wasm)", text)
    }
    assert named == {it.name for it in made.iterdir()} - {"README", "SHA256SUMS"} and len(list(made.glob("*.deb"))) == 8
    run("sha256sum", "--check", "--strict", "SHA256SUMS", cwd=made)
    assert len((made / "SHA256SUMS").read_text().splitlines()) == len(list(made.iterdir())) - 1


# ---- each form, installed


@pytest.mark.parametrize("pattern, is_in_c", [("*x86_64.whl", ""), (f"exifnorm-{machines.VERSION}.tar.gz", " (C)")])
def test_pip_installs_the_wheel_and_compiles_the_source_distribution(made, tmp_path, pattern, is_in_c):
    """Without the kit and without another library, with any C compiler."""
    run(PYTHON, "-m", "venv", "--without-pip", "--system-site-packages", tmp_path / "venv")
    words = ["--no-index", "--no-deps", "--no-build-isolation", "--disable-pip-version-check", one(made, pattern)]
    run(PYTHON, "-m", "pip", "--python", tmp_path / "venv/bin/python", "install", *words, env=environment())
    compiled = (tmp_path / "venv").glob("lib/*/site-packages/exifnorm/_in_c.*")
    assert all(it.stat().st_size < 1_000_000 for it in compiled), "with debugging information it has 6 MB"
    said = run(
        tmp_path / "venv/bin/exifnorm-pictures", "changed", TOP / "samples/before", TOP / "samples/after", status=1, env=environment()
    )
    assert "Riverside Museum" in said and "Anna Wirth" in said, said
    said = run(tmp_path / "venv/bin/python", "-c", "import exifnorm; print(exifnorm.version())", env=environment(), cwd=tmp_path)
    assert said == f"{machines.VERSION}{is_in_c}\n"


# ---- the forms for aarch64, and the programs without libraries


def test_the_debian_packages_of_aarch64_are_used(made, tmp_path):
    for name in DEBS_OF_AARCH64:
        package = one(made, f"{name}.deb")
        assert run("dpkg-deb", "-f", package, "Architecture") == "arm64\n"
        run("lintian", "--allow-root", "--fail-on", "error,warning", "--suppress-tags", "initial-upload-closes-no-bugs", package)
        run("dpkg-deb", "-x", package, tmp_path)
    libraries = tmp_path / "usr/lib/aarch64-linux-gnu"
    qemu = [machines.QEMU, "-L", machines.ROOT, "-E", f"LD_LIBRARY_PATH={libraries}"]
    assert run(*qemu, tmp_path / "usr/bin/exifnorm", "--version") == f"exifnorm {machines.VERSION}\n"
    pkg_config = {"PKG_CONFIG_LIBDIR": str(libraries / "pkgconfig"), "PKG_CONFIG_SYSROOT_DIR": str(tmp_path)}
    flags = run("pkg-config", "--cflags", "--libs", "exifnorm", env=environment(**pkg_config)).split()
    run(machines.GCC, TOP / "tests/library/examples/compare.c", *flags, "-o", tmp_path / "compare")
    assert run(*qemu, tmp_path / "compare") == "same\n"


def glibc_of(*files):
    """The newest version of glibc that some files need."""
    found = re.findall(r"GLIBC_(\d+)\.(\d+)", "".join(run("readelf", "-VW", it) for it in files))
    return max((int(major), int(minor)) for major, minor in found)


@pytest.mark.parametrize("name", ["exifnorm", "libexifnorm1"])
def test_the_packages_of_aarch64_depend_on_the_glibc_that_they_need(made, tmp_path, name):
    package = one(made, f"{name}_*_arm64.deb")
    run("dpkg-deb", "-x", package, tmp_path)
    files = [it for it in (*tmp_path.glob("usr/bin/exifnorm"), *tmp_path.glob("usr/lib/*/*.so.1.*"))]
    depended = re.fullmatch(r"libc6 \(>= (\d+)\.(\d+)\)\n", run("dpkg-deb", "-f", package, "Depends"))
    assert glibc_of(*files) <= (int(depended[1]), int(depended[2]))


def test_the_wheel_of_aarch64(made, tmp_path):
    """It has the modules of the other wheel, and a library that a program for aarch64 loads. Its tag is that of what the library needs."""
    packed = one(made, "*_aarch64.whl")
    names = [
        {it.split()[0] for it in run(PYTHON, "-m", "zipfile", "-l", file).splitlines()} for file in (packed, one(made, "*_x86_64.whl"))
    ]
    assert names[1] - names[0] == {"exifnorm/_native.abi3.so"} and names[0] <= names[1]
    run(PYTHON, "-m", "zipfile", "-e", packed, tmp_path)
    library = tmp_path / "exifnorm/libexifnorm.so.1"
    assert "Machine:                           AArch64" in run("readelf", "-hW", library)
    assert packed.name.endswith("-py3-none-manylinux_%d_%d_aarch64.whl" % glibc_of(library))
    assert packed.name.partition("-py3")[2] in "-py3" + run("cat", one(tmp_path, "*.dist-info/WHEEL")).replace("\n", ".whl\n")
    run(machines.GCC, "-I", TOP / "crates/px_c/include", machines.HERE / "load.c", "-o", tmp_path / "load", "-ldl")
    said = run(machines.QEMU, "-L", machines.ROOT, tmp_path / "load", library)
    assert said == f"{machines.VERSION}: same\n"


@pytest.mark.parametrize("machine", ["x86_64", "aarch64"])
def test_a_program_without_libraries_answers_in_its_folder_alone(made, tmp_path, machine):
    """The commands of its README, without any other file of the system; and it can be linked with another C library."""
    run("tar", "-xf", one(made, f"*-static-{machine}.tar.gz"), "-C", tmp_path)
    folder = one(tmp_path, "exifnorm-*")
    commands = re.findall(r"(?m)^  \./(exifnorm .*)$", (folder / "README").read_text(encoding="utf-8"))
    enter = ["chroot"] if os.geteuid() == 0 else ["unshare", "--user", "--map-root-user", "chroot"]
    for command, answer in zip(commands, ("same\n", "exif\n", "iim\n", "refused: EmptyDirectory at 442\n")):
        words, status = command.split(), 2 if answer.startswith("refused") else 0
        words = [*enter, folder, f"/{words[0]}", *words[1:]] if machine == "x86_64" else [machines.QEMU, *words]
        assert run(*words, status=status, cwd=folder).startswith(answer), command
    assert len(commands) == 4
    compiler = {"x86_64": "cc", "aarch64": machines.GCC}[machine]
    run("make", f"CC={compiler}", cwd=folder / "relink")
    again = [folder / "relink/exifnorm"] if machine == "x86_64" else [machines.QEMU, folder / "relink/exifnorm"]
    assert run(*again, "--version") == f"exifnorm {machines.VERSION}\n"
    assert "LESSER GENERAL PUBLIC LICENSE" in (folder / "relink/LGPL-2.1").read_text(encoding="utf-8")


def test_the_list_of_components_has_what_is_linked_and_what_it_was_made_with(made):
    found = json.loads(one(made, "*.spdx.json").read_text(encoding="utf-8"))
    licences, numbers = (
        {it[key]: it[value] for it in found["packages"]} for key, value in (("name", "licenseDeclared"), ("SPDXID", "name"))
    )
    known = {
        "glibc": "LGPL-2.1-or-later",
        "libgcc": "GPL-3.0-or-later WITH GCC-exception-3.1",
        "binaryen": "Apache-2.0",
        "wabt": "Apache-2.0",
    }
    known |= {"exifnorm": "MIT OR Apache-2.0", **dict.fromkeys(("byteorder", "itoa", "memchr", "thiserror"), "MIT")}
    known |= {"std": "NOASSERTION", "std_io": "NOASSERTION", **dict.fromkeys(("clap", "hex", "md5"), "Apache-2.0 OR MIT")}
    assert {name: licences.get(name) for name in known} == known
    named = set(re.findall(r"\b(?!px_|staticlib)[a-z][a-z0-9_]*\b", (TOP / "crates.txt").read_text(encoding="utf-8")))
    assert named <= set(licences)
    parts = [(it["relationshipType"], numbers.get(it["spdxElementId"])) for it in found["relationships"]]
    assert {name for kind, name in parts if kind == "BUILD_TOOL_OF"} == {"binaryen", "wabt"}
    linked = {numbers[it["relatedSpdxElement"]] for it in found["relationships"] if it["relationshipType"] == "STATIC_LINK"}
    assert linked == set(licences) - {"exifnorm", "binaryen", "wabt"}


def test_the_source_package_builds_the_same_packages(made, tmp_path):
    """With the proofs; without them and without the toolchain the build ends, and names what is missing. What the build leaves is ignored
    by git, and `make clean` removes it, but no proof."""
    run("dpkg-source", "-x", one(made, "*.dsc"), tmp_path / "tree")
    path = environment(PATH=SYSTEM_PATH, PYTHONDONTWRITEBYTECODE="")
    tree = tmp_path / "tree"
    said = run("dpkg-buildpackage", "-b", "-us", "-uc", cwd=tree, env=path, status=2)
    assert "there is no command rt" in said, said[-2000:]
    shutil.rmtree(tree / "out", ignore_errors=True)
    (tree / "out").mkdir()
    shutil.copytree(clone_of(made) / "out/proved", tree / "out/proved")
    shutil.copytree(clone_of(made) / "out/lib", tree / "out/lib")
    run("git", "init", "-q", cwd=tree)
    run("git", "add", "-A", cwd=tree)
    before = run("git", "status", "--porcelain", cwd=tree)
    run("dpkg-buildpackage", "-b", "-us", "-uc", cwd=tree, env=path)
    for pattern in DEBS:
        package = one(made, f"{pattern}.deb")
        assert (tmp_path / package.name).read_bytes() == package.read_bytes(), package.name
    assert run("git", "status", "--porcelain", cwd=tree) == before
    run("make", "clean", cwd=tree, env=path)
    assert [line for line in run("git", "status", "--porcelain", "--ignored", cwd=tree).splitlines() if line.startswith("!!")] == [
        "!! out/"
    ]
    assert sorted(it.name for it in (tree / "out").iterdir()) == ["proved"]
    assert (tree / "out/proved/px_cli").exists()


def clone_of(made):
    """The folder in which a release was made."""
    return made.parent.parent


def test_only_what_the_page_of_packages_lists_is_needed_of_glibc(made, tmp_path):
    """The versions in docs/PACKAGING.md are those of readelf."""
    run("tar", "-xf", one(made, "*-linux-*.tar.gz"), "-C", tmp_path)
    tree, page = one(tmp_path, "exifnorm-*"), (TOP / "docs/PACKAGING.md").read_text(encoding="utf-8")
    for name, what in (("bin/exifnorm", "program"), ("lib/libexifnorm.so.1", "library")):
        newest = glibc_of(tree / name)
        assert f"{newest[0]}.{newest[1]} the {what}" in page, (name, newest)
        assert f"{newest[0]}.{newest[1]}" in (tree / "INSTALL").read_text(encoding="utf-8"), (name, newest)


# ---- what is missing, and the signature


@pytest.fixture
def small(tmp_path, monkeypatch):
    """A repository in which nothing has to be filled in, whose release needs no build."""
    top = tmp_path / "small"
    (top / "packaging/release").mkdir(parents=True)
    (top / "packaging/release/README").write_text("@VERSION@ @WHEEL@ @ARCHIVE@ @FOLDER@\n")
    (top / "page.md").write_text("one\n")
    (top / ".gitignore").write_text("out/\n")
    run("git", "init", "-q", cwd=top)
    run("git", "add", "-A", cwd=top)
    run("git", "-c", "user.name=a", "-c", "user.email=a@b", "commit", "-qm", "one", cwd=top)
    for name, value in (("TOP", top), ("WORK", top / "out/releasing"), ("MADE", top / "out/release"), ("TOOLS", {"git": "git"})):
        monkeypatch.setattr(release, name, value)

    def built(tree, *_):
        (tree / "out").mkdir(exist_ok=True)
        for name in (f"made_{os.uname().machine}.whl", "made_aarch64.whl", f"made-linux-{os.uname().machine}.tar.gz"):
            (tree / "out" / name).write_text(name)
        return sorted((tree / "out").glob("made*"))

    monkeypatch.setattr(release, "build", built)
    monkeypatch.setattr(release, "copy_module", lambda out: None)
    return top


@pytest.fixture
def key(session_folder, monkeypatch):
    """A key of gpg, in a folder of its own."""
    (home := session_folder / "gpg").mkdir(mode=0o700)
    monkeypatch.setenv("GNUPGHOME", str(home))
    run("gpg", "--batch", "--quick-generate-key", "--passphrase", "", "tests@example.org", "ed25519", "sign", "never")
    yield "tests@example.org"
    subprocess.run(["gpgconf", "--kill", "gpg-agent"], check=False)
    shutil.rmtree(home, ignore_errors=True)


def test_the_sums_are_signed(small, key):
    assert release.main(["1.0", "0", key]) == 0
    run("gpg", "--verify", "SHA256SUMS.asc", "SHA256SUMS", cwd=small / "out/release")
    run("sha256sum", "--check", "--strict", "SHA256SUMS", cwd=small / "out/release")
    names = {it.name for it in (small / "out/release").iterdir()}
    assert set(re.findall("(?m)  (.*)$", (small / "out/release/SHA256SUMS").read_text())) == names - {"SHA256SUMS", "SHA256SUMS.asc"}


def test_what_the_owner_has_to_fill_in_is_printed_and_nothing_is_signed(small, key, capfd):
    (small / "page.md").write_text(f"one\nWrite to {release.TOKEN}.\n")
    assert release.main(["1.0", "0", key]) == 1 and not (small / "out/release").exists()
    assert release.main(["1.0", "0"]) == 0 and not (small / "out/release/SHA256SUMS.asc").exists()
    assert capfd.readouterr().err.count(f"page.md:2: Write to {release.TOKEN}.") == 2
    (small / "page.md").write_text("two\n")
    assert release.main(["1.0", "0", key]) == 1 and "not every change is committed" in capfd.readouterr().err


@pytest.mark.parametrize("why", [release.Failed("make ended with status 2"), OSError(28, "No space left on device")])
def test_a_release_that_fails_keeps_the_earlier_one(small, monkeypatch, capfd, why):
    assert release.main(["1.0", "0"]) == 0
    before = {it.name: it.read_bytes() for it in (small / "out/release").iterdir()}
    monkeypatch.setattr(release, "build", mock.Mock(side_effect=why))
    assert release.main(["1.0", "0"]) == 1 and str(why) in capfd.readouterr().err
    assert {it.name: it.read_bytes() for it in (small / "out/release").iterdir()} == before


def test_without_a_tool_the_package_is_named(small, monkeypatch, capfd):
    monkeypatch.setattr(release, "TOOLS", {"no-such-tool": "its-package"})
    assert release.main(["1.0", "0"]) == 1
    assert "install its-package" in capfd.readouterr().err


def test_help_lists_the_targets():
    said = run("make", "help", cwd=TOP)
    targets = re.findall(r"^make ([\w-]+)", said, re.M)
    assert {"install", "uninstall", "wheel", "dist", "release", "clean", "check"} <= set(targets)
    for it in targets:
        run("make", "-n", it, "-o", "all", cwd=TOP)
