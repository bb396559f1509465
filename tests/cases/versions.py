"""The stamp that `deploy/stamp` gives a built program, and the version and name that its package has of it."""
import os
import re
import shutil
import sys

from cases.packages import DEPLOY, a_root, run
from harness import Apart, Built, case, matches, needs, same
from programs import put_program, without_stamp

STAMP, PACKAGE = (os.path.join(DEPLOY, name) for name in ("stamp", "package"))
KIT = "rattle-kit-13f logic dac8208d650f15bf"
OLD, NEW = ("20261129", "fedcba987654"), ("20261130", "abcdef123456")


def stamp(program, *words):
    return run(sys.executable, STAMP, program, *words)


def words_for(date, commit):
    return "--date", date, "--commit", commit, "--kit", KIT


def copied(folder, name="lambda_broker"):
    """A copy of the program without a stamp."""
    path = os.path.join(folder, name)
    put_program(path, without_stamp(content(Built.program)))
    return path


def content(path):
    with open(path, "rb") as file:
        return file.read()


def stamped(folder, how="--proved", of=NEW):
    """A copy of the program with this stamp: its path, and what the stamp says."""
    program = copied(folder)
    built = copied(folder, "built")
    told = done(stamp(program, how, "--built", built, *words_for(*of)))
    os.remove(built)
    return program, told.strip()


def done(told):
    same((told[0], told[2]), (0, ""))
    return told[1]


def is_refused(told, why, status=1):
    same((told[0], why in told[2]), (status, True))


@case()
def a_program_is_stamped_once_and_whole(broker):
    with a_root() as folder:
        program = copied(folder)
        plain = content(program)
        is_refused(stamp(program), "has no stamp")
        line = f"0.1.0+20261130.abcdef123456 {KIT} unproved\n"
        same(done(stamp(program, "--unproved", *words_for(*NEW))), line)
        same((content(program), os.stat(program).st_mode & 0o777), (plain + f"\nlambda_broker-stamp {line}".encode(), 0o755))
        same(done(stamp(program)), line)
        # It goes on as the same program.
        same(run(program, "trial")[0], 0)
        is_refused(stamp(program, "--unproved", *words_for(*OLD)), "has a stamp")
        for words in (("--date", "2026"), ("--commit", "x"), ("--kit", "x")):
            is_refused(stamp(program, "--unproved", "--again", *words_for(*OLD), *words), f"'{words[1]}' is no ")
        for words in ((), ("x", "--proved", "--unproved"), ("x", "--other")):
            same(run(sys.executable, STAMP, *words)[0], 2)
        same(done(stamp(program)), line)
        same(done(stamp(program, "--unproved", "--again", *words_for(*OLD))), line.replace("30.abcdef123456", "29.fedcba987654"))
        same(content(program).count(b"\nlambda_broker-stamp 0"), 1)
        same(os.listdir(folder), ["lambda_broker"])


@case()
def only_what_rt_built_is_stamped_as_proved(broker):
    with a_root() as folder:
        program, built = copied(folder), copied(folder, "built")
        words = "--proved", "--built", built, *words_for(*NEW)
        is_refused(stamp(built, *words), "is rt's own: stamp a copy")
        with open(built, "ab") as file:
            file.write(b" ")
        is_refused(stamp(program, *words), "it is --unproved")
        os.remove(built)
        is_refused(stamp(program, *words), "built: No such file")
        same(content(program), content(copied(folder, "built")))
        same(done(stamp(program, *words)), f"0.1.0+20261130.abcdef123456 {KIT} proved\n")


@case()
def a_stamp_has_the_commit_and_its_day_of_git(broker):
    needs("git")
    with a_root() as folder:

        def git(*words):
            who = "-c", "user.name=x", "-c", "user.email=x@example.org"
            return done(run("git", "-C", folder, *who, *words, env={"GIT_COMMITTER_DATE": "2026-11-30T23:30:00-05:00"}))

        os.mkdir(os.path.join(folder, "deploy"))
        shutil.copy(STAMP, os.path.join(folder, "deploy", "stamp"))
        git("init", "-q")
        git("add", ".")
        git("commit", "-q", "-m", "x")
        commit = git("rev-parse", "HEAD")[:12]
        with a_root() as other:
            program = copied(other)
            words = [sys.executable, os.path.join(folder, "deploy", "stamp"), program, "--unproved", "--again", "--kit", KIT]
            same(done(run(*words)), f"0.1.0+20261201.{commit} {KIT} unproved\n")
            with open(os.path.join(folder, "new"), "w"):
                pass
            same(done(run(*words)), f"0.1.0+20261201.{commit}.dirty {KIT} unproved\n")


@case()
def without_a_checkout_a_stamp_wants_commit_date_and_kit(broker):
    needs("git")
    with a_root() as folder:
        os.mkdir(os.path.join(folder, "deploy"))
        program, tool = copied(folder), shutil.copy(STAMP, os.path.join(folder, "deploy"))
        is_refused(run(sys.executable, tool, program, "--unproved"), "give it --commit, --date and --kit\n")
        same(done(run(sys.executable, tool, program, "--unproved", *words_for(*NEW))), f"0.1.0+20261130.abcdef123456 {KIT} unproved\n")


@case()
def a_program_tells_its_stamp(broker):
    with a_root() as folder:
        program = copied(folder)
        same(done(run(program, "--version")), "lambda_broker 0.1.0 (no stamp: unproved)\n")
        for how in "--proved", "--unproved":
            program, _ = stamped(folder, how)
            same(done(run(program, "--version")), f"lambda_broker 0.1.0+20261130.abcdef123456 ({KIT}, {how[2:]})\n")


def package(folder, *words):
    """Makes a package: the status of that, its path, and what was refused."""
    if not shutil.which("dpkg-deb"):
        raise Apart("there is no dpkg-deb")
    return run(sys.executable, PACKAGE, *words, folder)


def made(folder, how="--proved", of=NEW):
    """The package of a program with this stamp."""
    program, _ = stamped(folder, how, of)
    status, told, why = package(folder, *(["--unproved"] if how == "--unproved" else []), program)
    same((status, status and why), (0, 0))
    os.remove(program)
    return told.strip()


def fields_of(package):
    return dict(re.findall("^([A-Z][A-Za-z-]+): (.*)$", done(run("dpkg-deb", "-f", package)), re.M))


def named(old, new, unproved):
    """Each package has name, version and relations of its stamp."""
    same([re.sub("_[a-z0-9]+[.]deb$", "", os.path.basename(path)) for path in (old, new, unproved)], [
        "lambda-broker_0.1.0+20261129.fedcba987654",
        "lambda-broker_0.1.0+20261130.abcdef123456",
        "lambda-broker-unproved_0.1.0+20261130.abcdef123456",
    ])
    told = fields_of(new)
    same((told["Package"], told["Version"]), ("lambda-broker", "0.1.0+20261130.abcdef123456"))
    same([told.get(name) for name in ("Conflicts", "Replaces", "Provides")], [*2 * ["lambda-broker-unproved"], None])
    told = fields_of(unproved)
    same([told.get(name) for name in ("Package", "Conflicts", "Replaces", "Provides")], ["lambda-broker-unproved", *3 * ["lambda-broker"]])
    matches(".*unproved", told["Description"])


# What apt is told of a machine: that it has what the package wants, and this version of that.
INSTALLED = "Package: {}\nStatus: install ok installed\nArchitecture: {}\nMaintainer: x <x@example.org>\nVersion: {}\nDescription: x\n\n"


def apt(folder, installed, package, *words):
    """What apt would do with a package."""
    architecture = fields_of(package)["Architecture"]
    wanted = [re.sub(r" .*", "", name) for name in fields_of(package)["Depends"].split(", ")]
    there = [(name, "99") for name in wanted] + [installed]
    with open(os.path.join(folder, "status"), "w") as file:
        file.write("".join(INSTALLED.format(name, architecture, version) for name, version in there))
    for name in "lists/partial", "cache/archives/partial":
        os.makedirs(os.path.join(folder, name), exist_ok=True)
    dirs = {"State": folder, "State::status": f"{folder}/status", "State::Lists": f"{folder}/lists", "Cache": f"{folder}/cache"}
    options = [f"-oDir::{name}={path}" for name, path in dirs.items()] + ["-oDir::Etc::sourcelist=/dev/null", "-oDir::Etc::sourceparts=-"]
    status, told, why = run("apt-get", "-s", "-y", *options, *words, "install", package, env={"LC_ALL": "C"})
    return status, [line.split(" (")[0] for line in told.splitlines() if line.startswith(("Inst", "Remv"))], told + why


def upgraded(folder, old, new, unproved):
    """What apt does with each, beside another one."""
    was, now = ("lambda-broker", fields_of(old)["Version"]), ("lambda-broker", fields_of(new)["Version"])
    same(apt(folder, ("lambda-broker", "0.1.0"), new)[:2], (0, ["Inst lambda-broker [0.1.0]"]))
    same(apt(folder, was, new)[:2], (0, [f"Inst lambda-broker [{was[1]}]"]))
    status, _, told = apt(folder, now, old)
    same((status, "--allow-downgrades" in told), (100, True))
    same(apt(folder, now, old, "--allow-downgrades")[:2], (0, [f"Inst lambda-broker [{now[1]}]"]))
    same(apt(folder, now, unproved)[:2], (0, [f"Remv lambda-broker [{now[1]}]", "Inst lambda-broker-unproved"]))


@case()
def packages_have_name_and_version_of_the_stamp(broker):
    with a_root() as folder:
        packages = made(folder, of=OLD), made(folder), made(folder, "--unproved")
        named(*packages)
        missing = [program for program in ("apt-get", "lintian") if not shutil.which(program)]
        if "apt-get" not in missing:
            upgraded(folder, *packages)
        if "lintian" not in missing:
            told = run("lintian", "--allow-root", "--fail-on", "error", "--display-level", ">=error", *packages[1:])
            same(told[:2], (0, ""))
        if missing:
            raise Apart(f"there is no {' and no '.join(missing)}")


@case()
def what_has_no_stamp_or_is_unproved_is_no_package(broker):
    with a_root() as folder:
        program = copied(folder)
        is_refused(package(folder, program), "has no stamp")
        stamp(program, "--unproved", *words_for(*NEW))
        is_refused(package(folder, program), "is unproved: with --unproved it becomes the package lambda-broker-unproved")
        is_refused(package(folder, program, "--other"), "Usage: ", 2)
        same(os.listdir(folder), ["lambda_broker"])
