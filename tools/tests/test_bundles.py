"""Bundles of captures: written, read, refused where they are at fault, and received by the program."""

import io

import pytest
from conftest import TOP, VECTORS, vectors

from mizgaure import FormatError, InputError, read_htmb, write_htmb

THREE = VECTORS / "worked" / "three.htmb"
Z, A5 = TOP / "examples" / "z.htcp", VECTORS / "worked" / "a5.htcp"


def bundle_of(*captures):
    made = io.BytesIO()
    write_htmb(made, captures)
    return made.getvalue()


def test_the_vector_is_what_it_says():
    assert list(read_htmb(THREE)) == [Z.read_bytes(), b"HX", A5.read_bytes()]
    assert bundle_of(Z, b"HX", A5) == THREE.read_bytes()


@pytest.mark.parametrize("path", vectors(".htmb"))
def test_bundles_are_read_and_written(path):
    """Those that the program refuses are refused here, with the same line; the others are what is written of their captures."""
    text = path.with_suffix(".many").read_text()
    if text.startswith("refused "):
        with pytest.raises(FormatError) as refused:
            list(read_htmb(path))
        assert f"{refused.value}\n" == text
    else:
        captures = list(read_htmb(path))
        assert len(captures) == text.count("capture ") and bundle_of(*captures) == path.read_bytes()


def test_faults_at_each_octet():
    whole = bundle_of(b"abc", b"")
    for cut in range(len(whole)):
        with pytest.raises(FormatError, match=f"refused Truncated at {cut}$"):
            list(read_htmb(whole[:cut]))
    for at, octet, said in ((0, 0, "BadMagic at 0"), (3, 0, "BadMagic at 3"), (4, 2, "BadVersion at 4"), (5, 0, "BadCount at 5"), (5, 17, "BadCount at 5")):
        with pytest.raises(FormatError, match=f"refused {said}$"):
            list(read_htmb(whole[:at] + bytes([octet]) + whole[at + 1 :]))
    with pytest.raises(FormatError, match=f"refused Trailing at {len(whole)}$"):
        list(read_htmb(whole + b"x"))
    for captures in ((), (b"",) * 17):
        with pytest.raises(InputError, match="a bundle has 1 to 16 captures"):
            bundle_of(*captures)


def test_the_commands(here, tmp_path):
    assert here("bundle", Z, "-", A5, "-o", "x.htmb", given=b"HX").returncode == 0
    assert (tmp_path / "x.htmb").read_bytes() == THREE.read_bytes()
    said = here("unbundle", "x.htmb", "-o", "out/of/it")
    assert said.returncode == 0 and said.stdout.splitlines()[1] == b"out/of/it/capture-01.htcp: 2 octets"
    names = sorted((tmp_path / "out" / "of" / "it").iterdir())
    assert [path.read_bytes() for path in names] == [Z.read_bytes(), b"HX", A5.read_bytes()]
    assert here("bundle", *names, "-o", "-").stdout == THREE.read_bytes()
    again = here("unbundle", "x.htmb", "-o", "out/of/it")
    assert again.returncode == 2 and b"capture-00.htcp is there already, and only --force overwrites it" in again.stderr
    assert here("unbundle", "x.htmb", "-o", "out/of/it", "--force").returncode == 0
    for words, line in ((["bundle", "missing", "-o", "y"], "missing can't be read: No such file or directory"),
                        (["bundle", "-", "-", "-o", "y"], "only one of the captures can be standard input"),
                        (["unbundle", Z, "-o", "y"], f"{Z}: refused BadMagic at 2"),
                        (["bundle", *[Z] * 17, "-o", "y"], "a bundle has 1 to 16 captures, and not 17")):
        done = here(*words)
        assert done.returncode == 2 and done.stderr.decode() == f"mizgaure: {line}\n"
    assert not (tmp_path / "y").exists()


@pytest.mark.parametrize("path", vectors(".many")[::3])
def test_the_program_receives_each_capture_as_alone(path, radio):
    if not radio.knows("many"):
        pytest.skip("the program has no command many")
    bundle = path.with_suffix(".htmb")
    with radio.text("many", bundle) as output:
        assert output.read() == path.read_bytes()
    text = path.read_text()
    if not text.startswith("refused "):
        parts = text.split("capture ")[1:]
        for number, (part, capture) in enumerate(zip(parts, read_htmb(bundle))):
            with radio.text("rx", capture) as output:
                assert f"{number}\n{output.read().decode()}" == part
