"""The static library of the crate tvd, made into what C, Pascal and Python link: for tools/libtvd and tools/packaged.py."""
import pathlib
import shutil
import subprocess

top = pathlib.Path(__file__).resolve().parent.parent

ARCHIVE = top / "crates/tvd/out/libtvd.a"
SONAME = "libtvd.so.1"
BINDINGS = ("bindings/c/tvd.h", "bindings/python/tvd.py", "bindings/pascal/tvd.pas")


def kit():
    """The folder of the toolchain."""
    return pathlib.Path(subprocess.run(["rt", "doc"], capture_output=True, text=True, check=True).stdout.strip()).parent


def linked(archive, out):
    """Makes libtvd.o, libtvd.a and libtvd.so.1 of the archive: one object, in which the exports alone have names."""
    out = pathlib.Path(out).resolve()
    out.mkdir(parents=True, exist_ok=True)

    def run(*words):
        subprocess.run([str(word) for word in words], cwd=out, check=True)

    shutil.copy(archive, out / "whole.a")
    shutil.copy(kit() / "c/liblibc_c.a", out / "heap.a")
    run("ar", "x", "heap.a", "heap.pic.o")
    run("ld", "-r", "--whole-archive", "whole.a", "--no-whole-archive", "heap.pic.o", "-o", "whole.o")
    run("objcopy", "--wildcard", "--keep-global-symbol=tvd_*", "--strip-unneeded", "whole.o", "libtvd.o")
    (out / "libtvd.a").unlink(missing_ok=True)
    run("ar", "rcD", "libtvd.a", "libtvd.o")
    run("cc", "-shared", f"-Wl,-soname,{SONAME}", "-Wl,-z,defs", "-Wl,--build-id=none", "-Wl,--strip-all", "libtvd.o", "-o", SONAME)
    for name in ("whole.a", "heap.a", "heap.pic.o", "whole.o"):
        (out / name).unlink()


def copy_bindings(out):
    """Puts the header and the modules beside the library."""
    for name in BINDINGS:
        shutil.copy(top / name, out)
